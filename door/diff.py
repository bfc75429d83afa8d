"""Which of the 256 bytes differ between two files, by register, with both values, the bits and their kinds.

Each file is a text of lspci -xxx (the function at 00:02.0 in it, else its first one), or a file of lines, which is played to its end.
Status 0: no byte differs, 1: some do, 2: a file cannot be read or played.
"""
import re
import shutil
import sys
import tempfile

from door import lines, proved, registers, run
from door.cli import CANNOT, WELL, say

DIFFER = 1
SNIFFED = 1 << 16  # bytes of a file that are looked at to tell what it is
ROW = re.compile(rb"^([0-9a-fA-F]{2,3}): ((?:[0-9a-fA-F]{2} ){15}[0-9a-fA-F]{2})[ \t]*\r?$", re.M)
DEVICE = re.compile(rb"^(?:([0-9a-fA-F]{4,}):)?([0-9a-fA-F]{2}:[0-9a-fA-F]{2}\.[0-7]) ")
HERE = b"00:02.0"


def add(parser):
    parser.add_argument("a", metavar="A", help="a text of lspci -xxx, or a file of lines; - is standard input")
    parser.add_argument("b", metavar="B", help="another")
    run.add_format(parser)


# ---- the two sides

def image_of(path, form):
    """A file's bytes by their place; some may be missing."""
    with seekable(path) as file:
        name = lines.name_of(file)
        with proved.faults_of(name):
            start = file.read(SNIFFED)
            file.seek(0)
            if ROW.search(start):
                return dumped(file, name)
        with run.Spool(file, form) as spool:
            text = proved.output("snapshot", spool)
    found = bytes_of(text.splitlines())
    if set(found.values()) == {0xFF}:
        say("twin: note: %s ends while a function reset is under way, so every byte reads FF; a line E would end it" % name)
    return found


def seekable(path):
    """A file that can be read twice; a pipe is kept in a temporary one, under its own name."""
    file = lines.opened(path)
    if file.seekable():
        return file
    with proved.faults_of("a temporary file"):
        kept = tempfile.NamedTemporaryFile()
        shutil.copyfileobj(file, kept)
        kept.seek(0)
    kept.name = lines.name_of(file)
    return kept


def dumped(file, name):
    """The bytes of the function at 00:02.0 in a text of lspci, else of the first function that has any."""
    devices, rows = [], None
    while True:
        line = file.readline(lines.LIMIT)
        if not line:
            break
        device = DEVICE.match(line)
        if device:
            rows = []
            devices.append((device[2] if not device[1] or not device[1].strip(b"0") else b"", rows))
        elif ROW.match(line.rstrip(b"\r\n")):
            if rows is None:
                rows = []
                devices.append((b"", rows))
            if len(rows) < 256:
                rows.append(line)
    found = [rows for address, rows in devices if address == HERE and rows] + [rows for _, rows in devices if rows]
    taken = bytes_of(found[0])
    if len(taken) < registers.SIZE:
        say("twin: note: %s has %d of the 256 bytes, and the others are not compared (lspci -xxx shows all to root alone)"
            % (name, len(taken)))
    return taken


def bytes_of(rows):
    """The bytes of an lspci text's rows, by their place below 100."""
    found = {}
    for row in rows:
        match = ROW.match(row.rstrip(b"\r\n"))
        if match and int(match[1], 16) < registers.SIZE:
            at = int(match[1], 16)
            found.update((at + i, value) for i, value in enumerate(bytes.fromhex(match[2].decode("ascii"))))
    return found


# ---- the comparison

def places(a, b):
    """What is compared, in order: a register with all its bytes on both sides, or a single byte of none."""
    byte = 0
    while byte < registers.SIZE:
        register = registers.register_at(byte)
        size = register.size if register else 1
        if all(i in a and i in b for i in range(byte, byte + size)):
            yield byte, size, register
        byte += size


def value(image, at, size):
    return int.from_bytes(bytes(image[i] for i in range(at, at + size)), "little")


def bits_by_kind(at, mask):
    """The bits of a mask by kind: 15:0 lock; 3 host."""
    kinds = {}
    for bit in range(mask.bit_length()):
        if mask >> bit & 1:
            kind = registers.kind_at(at + bit // 8, bit % 8)
            kinds[kind] = kinds.get(kind, 0) | 1 << bit
    return "; ".join("%s %s" % (registers.bits_text(bits), kind) for kind, bits in kinds.items())


def differences(a, b):
    """A row for each place that differs: at, name, both values, the bits by kind, how many."""
    for at, size, register in places(a, b):
        left, right = value(a, at, size), value(b, at, size)
        if left != right:
            name, other = register.name if register else "no register", left ^ right
            yield "%02X" % at, name, "%0*X" % (2 * size, left), "%0*X" % (2 * size, right), bits_by_kind(at, other), bin(other).count("1")


def main(options):
    if options.a == options.b == "-":
        say("twin: standard input cannot be both files")
        return CANNOT
    try:
        a, b = image_of(options.a, options.format), image_of(options.b, options.format)
    except run.Refused:
        return CANNOT
    found = list(differences(a, b))
    if not found:
        print("no difference in %d bytes" % len(set(a) & set(b)))
        return WELL
    rows = [("At", "Register", "A", "B", "Bits and their kind")] + [row[:5] for row in found]
    widths = [max(len(row[i]) for row in rows) for i in range(4)]
    for row in rows:
        sys.stdout.write("  ".join([cell.ljust(width) for cell, width in zip(row, widths)] + [row[4]]) + "\n")
    bits, count = sum(row[5] for row in found), len(found)
    print("%d bit%s differ%s in %d place%s" % (bits, "s" * (bits > 1), "s" * (bits == 1), count, "s" * (count > 1)))
    return DIFFER
