"""The register map as text: the whole as a table, or one register bit by bit; what each kind of bit is, in a sentence."""
from door import registers

# what each kind of bit is, in a sentence
KIND_TEXT = {
    "lock": "write-once: the first write that enables a byte of the field closes all of it, until a platform reset",
    "plain": "a guest write stores it",
    "host": "only a host update changes it",
    "size code": "names the aperture's size; a write of 10 keeps the old code",
    "power": "the power state: a write of 01 or 10 keeps the old one",
    "computed": "follows bit 0 of CAPL",
    "reset start": "a write of 1 starts a function reset",
    "read-only": "nothing changes it",
}
F_TEXT = "F: a function reset returns it to its default"
APERTURE_TEXT = "read-only 0 where the size code of MSAC takes it"


def rule_text(register):
    """The kinds of a register's bits with their masks; F where a function reset returns them, and what the aperture's bits are under."""
    parts = []
    for kind, mask in registers.kinds_of(register):
        if kind != "read-only":
            returned = registers.mask_of(registers.RETURNED, register) & mask
            parts.append("%s %0*X%s" % (kind, 2 * register.size, mask, " F" if returned else ""))
    aperture = _aperture(register)
    if aperture:
        parts.append("%s by MSAC" % registers.bits_text(aperture))
    return ", ".join(parts) or "read-only"


def _aperture(register):
    """The bits of a register that MSAC's size code may take."""
    return sum(mask for word, mask in register.parts if word == "aperture")


def table():
    """The map as a table, and what its words mean."""
    rows = ["%-4s%-12s%5s  %-18s%s" % ("At", "Name", "Bytes", "Default", "Kinds of bits, with masks")]
    for register in registers.REGISTERS:
        default = "%0*X" % (2 * register.size, register.default)
        rows.append("%02X  %-12s%5d  %-18s%s" % (register.at, register.name, register.size, default, rule_text(register)))
    rows.append("")
    rows += ["%-12s  %s" % (kind, KIND_TEXT[kind]) for kind in KIND_TEXT]
    rows.append("%-12s  %s" % ("F", F_TEXT[3:]))
    rows.append("locks         %s" % ", ".join(lock.name for lock in registers.LOCKS))
    rows.append("in no register: %s; they read 00" % ", ".join(unlisted()))
    return "\n".join(rows) + "\n"


def unlisted():
    """The runs of bytes that no register has."""
    runs, start = [], None
    for byte in range(registers.SIZE + 1):
        free = byte < registers.SIZE and registers.register_at(byte) is None
        if free and start is None:
            start = byte
        if not free and start is not None:
            runs.append("%02X" % start if byte - 1 == start else "%02X-%02X" % (start, byte - 1))
            start = None
    return runs


def runs_of(words):
    """The runs of bits of one class, high first: high, low, class word; from the words of the bits from 0 on."""
    runs = []
    for bit in reversed(range(len(words))):
        if runs and runs[-1][2] == words[bit]:
            runs[-1][1] = bit
        else:
            runs.append([bit, bit, words[bit]])
    return runs


def class_text(word):
    """What a class of bits is, in a sentence."""
    known = registers.CLASSES[word]
    more = [APERTURE_TEXT] if word == "aperture" else []
    more += [F_TEXT] if known.returned else []
    return "; ".join([KIND_TEXT[known.kind]] + more)


def detail(register):
    """One register, its bits by kind."""
    size = "1 byte" if register.size == 1 else "%d bytes" % register.size
    rows = ["%s  at %02X, %s, default %0*X" % (register.name, register.at, size, 2 * register.size, register.default)]
    for high, low, word in runs_of([registers.class_in(register, bit) for bit in range(8 * register.size)]):
        bits = "%d:%d" % (high, low) if high != low else str(high)
        rows.append("  %-6s %-12s %s" % (bits, registers.CLASSES[word].kind, class_text(word)))
    return "\n".join(rows) + "\n"
