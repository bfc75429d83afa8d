"""What people write made into canonical lines: session and console lines, port traffic of QEMU, setpci's words.

Everything here is tested, nothing is proved: a line that leaves this file is of a form that the proved programs know.
"""
import re
import sys

from door import registers
from door.answers import answer_of
from door.forms import ALIGNED, CONSOLE, FORMS, READS, SHEET, WINDOWED, Bad, Item, canonical, form_text, letters_of
from door.names import HEX, lanes_of, lies, named, number_of, shown, window_named
from door.setpci import setpci_line

KINDS = ("auto", "lines", "trace", "setpci")
LIMIT = 4096  # bytes of a line
CACHED = 1 << 16  # line bodies that are remembered
BOM = b"\xef\xbb\xbf"

EQUALS = re.compile(r"\s=\s")
TRACE = re.compile(r"memory_region_ops_(read|write)\b.*?\baddr (0x[0-9a-fA-F]+) value (0x[0-9a-fA-F]+) size (\d+)")


# ---- one line

def parse(text, number, form="auto", program=CONSOLE):
    """The items of one line: none for a blank line or a comment, several for a line of several setpci words. Raises Bad."""
    try:
        return [Item(number, line, answer) for line, answer in bodies(text, form, program)]
    except Bad as bad:
        bad.number = number
        raise


def bodies(text, form="auto", program=CONSOLE):
    """The canonical lines of a text, each with its answer or None."""
    if form in ("auto", "lines"):
        fast = _fast(program).fullmatch(text) or _fast(program).fullmatch(text.strip().upper())
        if fast:
            return ((fast[1], fast[2]) if fast[1] else (fast[3], None),)
    text = text.partition("#")[0].strip()
    if not text:
        return ()
    if "\r" in text:
        raise Bad("a CR stands inside the line", "lines end with LF or CR LF")
    words = text.split()
    return _reader(text, words, form)(text, words, program)


_FAST = {}


def _fast(program):
    """A pattern of lines that are canonical as they stand: a read with its answer, or another line."""
    if program not in _FAST:
        letters = letters_of(program)
        reads, others = (
            "|".join(_pattern(letter) for letter in letters if (letter in READS) == wanted) for wanted in (True, False)
        )
        _FAST[program] = re.compile("(%s)(?: = (?:OK )?([0-9A-F]{1,8}))?|(%s)" % (reads, others))
    return _FAST[program]


def _pattern(letter):
    """A pattern of a form's canonical lines, but for those that are refused by their offset."""
    fields = ["[0-9A-F]{%d}" % digits for digits in FORMS[letter].digits]
    if letter in ALIGNED:
        fields[0] = "[0-3][0-9A-F]{4}[048C]" if letter in WINDOWED else "[0-9A-F][048C]"
    return " ".join([letter] + fields)


def _reader(text, words, form):
    """What reads a line: told by its first word, where no form was named."""
    head = words[0].upper()
    kind = "setpci"
    if head in ("READ", "WRITE") or "memory_region_ops_" in text:
        kind = "trace"
    elif len(head) == 1 and head.isalpha():
        kind = "lines"
    if form not in ("auto", kind):
        wanted = {"lines": "a session or console line", "trace": "port traffic", "setpci": "a setpci line"}
        raise Bad("`%s` is not %s" % (shown(" ".join(words)), wanted[form]), "without --format, each line's form is told by looking")
    return {"lines": _letter_line, "trace": _trace_line, "setpci": setpci_line}[kind]


# ---- session and console lines

def _letter_line(text, words, program):
    """A line that starts with its letter; behind ` = ` its answer."""
    letter = words[0].upper()
    answer = None
    if "=" in text:
        found = EQUALS.search(text)
        if not found:
            raise Bad("`=` has no answer behind it, or no blanks around it", "an answer stands behind ` = `, as `R 2C F = FFFF1234`")
        words, answer = text[:found.start()].split(), text[found.end():]
    elif "->" in words:
        raise Bad("an answer stands behind ` = ` here", "`%s = %s`" % tuple(shown(part.strip()) for part in text.split("->", 1)))
    form = FORMS.get(letter)
    if form is None or program not in form.programs:
        raise _no_form(letter, program)
    refused = answer is not None and answer.split()[0].upper() == "NO"
    numbers = _numbers(letter, form, words[1:], program, refused)
    return ((canonical(letter, *numbers), None if answer is None else answer_of(letter, answer)),)


def _no_form(letter, program):
    known = letters_of(program)
    if letter in FORMS:
        where = " or ".join(FORMS[letter].programs)
        return Bad("%s, %s, is a line of the %s" % (letter, FORMS[letter].what, where.replace("_", " ")),
                   "lines here start with %s" % " ".join(known))
    return Bad("no line starts with %s" % shown(letter), "lines start with %s; `%s` writes, `%s` reads"
               % (" ".join(known), form_text("W"), form_text("R")))


def _numbers(letter, form, words, program, refused):
    """The numbers of a line's fields, each within its digits; an offset that is refused by 5 or 16 only where the log has that answer."""
    if len(words) != len(form.fields):
        raise _miscounted(letter, form, words)
    numbers = [
        _offset(letter, word, digits, program) if field == "offset" else _field(word, field, digits)
        for word, field, digits in zip(words, form.fields, form.digits)
    ]
    if letter in ALIGNED and not refused:
        _aligned(letter, numbers)
    return numbers


def _field(word, field, digits):
    try:
        return number_of(word, digits, "lanes" if field == "lanes" else ("an " if field[0] in "aeio" else "a ") + field)
    except Bad as bad:
        if field == "lanes":
            bad.hint = "lanes are one digit, 0 to F: bit i for the byte at offset + i"
        raise


def _miscounted(letter, form, words):
    """Too few fields, or too many; lanes are what people leave out."""
    if "lanes" in form.fields and len(words) == len(form.fields) - 1 and (len(words) == 1 or len(words[1]) > 1):
        return Bad("the lanes are missing", "`%s`; lanes F are all four bytes" % shown(_with_lanes(letter, words)))
    there = "none" if not words else "1 field" if len(words) == 1 else "%d fields" % len(words)
    return Bad("%s has %s, and there %s %s" % (letter, ", ".join(form.fields) or "no fields", "is" if len(words) == 1 else "are", there),
               "a line has `%s`, as `%s`" % (form_text(letter), form.example))


def _with_lanes(letter, words):
    """A line as it may have been meant: with the lanes of a register that it names, else all."""
    known = named(words[0]) if letter not in WINDOWED else None
    found = known and lanes_of(known[0], known[1] or 4)
    place, lanes = ("%02X" % found[0], found[1]) if found else (words[0], 0xF)
    return " ".join([letter, place, "%X" % lanes] + words[1:])


def _offset(letter, word, digits, program):
    """An offset, by number or by the name of a register that starts there."""
    if HEX.fullmatch(word) or program == SHEET:
        return number_of(word, digits, "an offset")
    if letter in WINDOWED:
        found = window_named(word)
        if found is None:
            raise Bad("`%s` is no offset in the window" % shown(word),
                      "registers there: " + ", ".join(name for name, _ in registers.rows.WINDOW))
        return found
    known = named(word)
    if known is None:
        return number_of(word, digits, "an offset")
    if letter in ALIGNED and known[0] % 4:
        raise Bad("%s starts at %02X, which is no multiple of 4" % (shown(word).upper(), known[0]), lies(known[0], known[1] or 1))
    return known[0]


def _aligned(letter, numbers):
    """Bad for an offset that is refused, by 5 or in the window by 16."""
    offset, line = numbers[0], canonical(letter, *numbers)
    if letter in WINDOWED and offset > 0x3FFFFF:
        raise Bad("offset %06X is above 3FFFFF, the end of the window" % offset, line=line)
    if offset % 4 == 0:
        return
    if letter in WINDOWED:
        raise Bad("offset %06X is no multiple of 4" % offset, "it lies in the dword at %06X" % (offset & ~3), line)
    count = max(1, numbers[1].bit_length()) if numbers[1] != 0xF else 4
    raise Bad("offset %02X is no multiple of 4" % offset, lies(offset, min(count, 4 - offset % 4)), line)


# ---- port traffic

def _trace_line(text, words, program):
    """`read 0xcfc 2 0x8086` and `write 0xcf8 4 0x80001000`, or QEMU's own trace line of such an access."""
    found = "memory_region_ops_" in text and TRACE.search(text)
    if found:
        if not 0xCF8 <= int(found[2], 16) <= 0xCFF:
            return ()
        words = [found[1], found[2], found[4], found[3]]
    if program != CONSOLE:
        raise Bad("port traffic is played on the console alone")
    reads = words[0].upper() == "READ"
    if len(words) != 4 and not (reads and len(words) == 3):
        raise Bad("port traffic has a port, a width and a value", "as `read 0xcfc 2 0x8086` or `write 0xcf8 4 0x80001000`")
    port = number_of(words[1], 4, "a port")
    if words[2] not in ("1", "2", "4"):
        raise Bad("`%s` is no width" % shown(words[2]), "a port access has 1, 2 or 4 bytes")
    width = int(words[2])
    value = number_of(words[3], 16, "a value") if len(words) == 4 else None
    if not reads:
        return ((canonical("O", port, width, value & 0xFFFFFFFF), None),)
    # the record gives some 2-byte reads as 0xffffffff
    answer = None if value is None else "%0*X" % (2 * width, value & (1 << 8 * width) - 1)
    return ((canonical("I", port, width), answer),)


# ---- files

def name_of(file):
    """A file's name in a sentence."""
    name = getattr(file, "name", None)
    return name if isinstance(name, str) and name != "<stdin>" else "standard input"


def opened(path):
    """A file of lines, to be read as bytes; - is standard input."""
    if path != "-":
        return open(path, "rb")
    if sys.stdin is None:
        raise OSError(9, "it is closed", "standard input")
    return sys.stdin.buffer


def items(file, form="auto", program=CONSOLE, bad=None):
    """The items of a file that is open in binary, one after the other. Raises Bad with its number and file, or, where `bad` is given,
    calls it with each Bad and goes on."""
    cache, number = {}, 0
    while True:
        raw = _raw(file)
        if not raw:
            return
        number += 1
        found = cache.get(raw)
        if found is None:
            try:
                found = _bodies_of(file, raw, number, form, program)
            except Bad as wrong:
                wrong.number, wrong.file = number, name_of(file)
                if bad is None:
                    raise
                bad(wrong)
                continue
            if len(cache) >= CACHED:
                cache.clear()
            cache[raw] = found
        for text, answer in found:
            yield Item(number, text, answer)


def _raw(file):
    """A line with its end, or the first part of one that is too long."""
    try:
        return file.readline(LIMIT + 2)
    except OSError as error:
        error.filename = error.filename or name_of(file)
        raise


def _bodies_of(file, raw, number, form, program):
    """The canonical lines of a line as it stands in the file; the rest of one that is too long is passed over."""
    if number == 1 and raw[:2] in (b"\xff\xfe", b"\xfe\xff"):
        raise Bad("the file is UTF-16 text", "save it as UTF-8")
    if raw.startswith(BOM):
        raw = raw[len(BOM):]
    if len(raw.rstrip(b"\r\n")) > LIMIT:
        last = raw
        while last and not last.endswith(b"\n"):
            last = _raw(file)
        raise Bad("the line has more than %s bytes" % format(LIMIT, ","))
    return bodies(raw.rstrip(b"\r\n").decode("utf-8", "replace"), form, program)
