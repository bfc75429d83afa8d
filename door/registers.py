"""What the rows of the map mean: the registers by name and place, the kind of each bit, the locks, the refusals."""
from collections import namedtuple

from door import rows

SIZE = 256

Register = namedtuple("Register", "name at size default parts")
Lock = namedtuple("Lock", "name register at_bytes mask")  # the mask's bits are the register's

REGISTERS = tuple(Register(*row) for row in rows.ROWS)
BY_NAME = {register.name: register for register in REGISTERS}
REFUSALS = dict(rows.REFUSALS)

# the window's registers as (name, offset), by the names that people read
WINDOW_NAMES = {"MTOUUD_HIGH": "MTOUUD+4", "DRAM_CYCLES": "DRAM cycles"}
WINDOW = tuple((WINDOW_NAMES.get(name, name), offset) for name, offset in rows.WINDOW)

KINDS = ("read-only", "host", "plain", "lock", "size code", "power", "computed", "reset start")

# a class of the map: its kind for people, and who changes its bits: a guest's write, a host update, the end of a function reset (F)
Class = namedtuple("Class", "kind guest host returned")
CLASSES = {
    "read-only": Class("read-only", False, False, False),
    "host": Class("host", False, True, False),
    "guest": Class("plain", True, False, False),
    "guestF": Class("plain", True, False, True),
    "once": Class("lock", True, False, False),
    "size_code": Class("size code", True, False, False),
    "aperture": Class("plain", True, False, True),
    "power": Class("power", True, False, True),
    "computed": Class("computed", False, False, False),
    "reset_start": Class("reset start", False, False, False),
}


def _register_of_bytes():
    table = [None] * SIZE
    for register in REGISTERS:
        for byte in range(register.at, register.at + register.size):
            table[byte] = register
    return tuple(table)


_AT = _register_of_bytes()


def register_at(byte):
    """The register that has this byte, or None."""
    return _AT[byte] if 0 <= byte < SIZE else None


def class_in(register, bit):
    """The class's word of a bit of a register."""
    return next((word for word, mask in register.parts if mask >> bit & 1), "read-only")


def class_at(byte, bit):
    """The class's word of a bit of a byte; bits of no row are read-only."""
    register = register_at(byte)
    return class_in(register, 8 * (byte - register.at) + bit) if register else "read-only"


_CLASS = tuple(tuple(class_at(byte, bit) for bit in range(8)) for byte in range(SIZE))
_KIND = tuple(tuple(CLASSES[word].kind for word in words) for words in _CLASS)


def kind_at(byte, bit):
    """The kind of a bit of a byte: one of KINDS."""
    return _KIND[byte][bit]


def _masks(passes):
    return tuple(sum(1 << bit for bit in range(8) if passes(CLASSES[_CLASS[byte][bit]])) for byte in range(SIZE))


# a byte a place, as in the proofs: what a guest write stores, what a host update may change, what a function reset returns, where it starts
GUEST = _masks(lambda c: c.guest)
HOST = _masks(lambda c: c.host)
RETURNED = _masks(lambda c: c.returned)
DEFAULT = tuple(r.default >> 8 * (i - r.at) & 0xFF if r else 0 for i, r in enumerate(_AT))


def _lock_of(register, mask):
    """A write-once field: a whole register has its name, a bit of one NAME.BIT."""
    lanes = tuple(register.at + i for i in range(register.size) if mask >> 8 * i & 0xFF)
    whole = mask == (1 << 8 * register.size) - 1
    return Lock(register.name if whole else register.name + "." + bits_text(mask), register, lanes, mask)


def bits_text(mask):
    """The bit numbers of a mask, high first: 15:0, or 10,2:0."""
    runs, bit = [], mask.bit_length() - 1
    while bit >= 0:
        low = bit
        while low > 0 and mask >> (low - 1) & 1:
            low -= 1
        runs.append(str(bit) if low == bit else "%d:%d" % (bit, low))
        bit = (mask & ((1 << low) - 1)).bit_length() - 1
    return ",".join(runs)


LOCKS = tuple(_lock_of(register, mask) for register in REGISTERS for word, mask in register.parts if word == "once")


def kinds_of(register):
    """The kinds of a register's bits with their masks, in the map's order; what no part has is read-only and comes last."""
    found = {}
    for word, mask in register.parts:
        kind = CLASSES[word].kind
        found[kind] = found.get(kind, 0) | mask
    rest = (1 << 8 * register.size) - 1 & ~sum(found.values())
    if rest:
        found["read-only"] = rest
    return tuple(found.items())


def mask_of(table, register):
    """A register's mask, or its default, from a table of bytes."""
    return sum(table[register.at + i] << 8 * i for i in range(register.size))


def value_of(image, register):
    """A register's value in 256 bytes."""
    return int.from_bytes(bytes(image[register.at:register.at + register.size]), "little")


def refusal(number):
    """A refusal as people read it: 4, OTHER FUNCTION."""
    return "%d, %s" % (number, REFUSALS[number]) if number in REFUSALS else str(number)
