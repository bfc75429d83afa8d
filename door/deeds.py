"""What a line comes to, by the device's rules (docs/RULES.md): refused, dropped, or which bytes it reaches.

It follows from the line, the latch and whether a function reset is under way, so it is known before the proved program has answered.
The values that the twin answers are never computed here: they are the proved program's.
"""
import functools
from collections import namedtuple

from door import registers

# ---- cells: the bytes that a read can show

# A configuration byte is the cell of its number; behind them the registers of the window, four cells each, and the latch.
CELL_OF = {offset: registers.SIZE + 4 * k for k, (_, offset) in enumerate(registers.WINDOW)}
LATCH = registers.SIZE + 4 * len(registers.WINDOW)
CELLS = LATCH + 4

WINDOW_CELL = {name: CELL_OF[offset] for name, offset in registers.WINDOW}
FAULT, REQUEST = WINDOW_CELL["FAULT_REG"], WINDOW_CELL["ASSRREQ"]
CYCLES = WINDOW_CELL["DRAM cycles"]

AFCTL = registers.BY_NAME["AFCTL"].at
MSAC = registers.BY_NAME["MSAC"].at
PMCS = registers.BY_NAME["PMCS"].at
CAPL = registers.BY_NAME["CAPL"].at

# the host's bits in the window: of a mirror; of a fault word, and with valid set; of a request that it completes
MIRRORS = {WINDOW_CELL["MTOUUD"]: 0xFFF00001, WINDOW_CELL["MTOUUD+4"]: 0x7F, WINDOW_CELL["MBDSM"]: 0xFFF00001}
FAULT_BITS, VALID, REQUEST_BITS = 0x77FE, 0x1, 0xF
LATCH_BITS = 0x80FFFFFC

# kinds of the cells behind the configuration bytes: a fault is given by the host and cleared by a guest, a request the other way round
_BEHIND = {FAULT: ("fault", FAULT_BITS | VALID), REQUEST: ("request", REQUEST_BITS), CYCLES: ("host", 0xFFFFFFFF), LATCH: ("plain", LATCH_BITS)}
_BEHIND.update((cell, ("host", mask)) for cell, mask in MIRRORS.items())


def _kinds_behind(cell):
    kind, mask = _BEHIND[cell & ~3]
    return tuple(kind if mask >> 8 * (cell & 3) + bit & 1 else "read-only" for bit in range(8))


KIND = tuple(tuple(registers.kind_at(cell, bit) for bit in range(8)) for cell in range(registers.SIZE))
KIND += tuple(_kinds_behind(cell) for cell in range(registers.SIZE, CELLS))


def _apertures():
    """The bits of GMADR that a size code may take: cell and bit, by the bit's number in the register."""
    register = registers.BY_NAME["GMADR"]
    mask = sum(mask for word, mask in register.parts if word == "aperture")
    return {(register.at + n // 8, n % 8): n for n in range(8 * register.size) if mask >> n & 1}


APERTURE = _apertures()
(APERTURE_DWORD,) = {cell & ~3 for cell, _ in APERTURE}
LEAST = min(APERTURE.values())


@functools.lru_cache(None)
def place(cell):
    """The name of the register that has a cell, and the number of the cell's bit 0 there."""
    if cell >= LATCH:
        return "latch", 8 * (cell - LATCH)
    if cell >= registers.SIZE:
        return registers.WINDOW[(cell - registers.SIZE) // 4][0], 8 * (cell & 3)
    register = registers.register_at(cell)
    return (register.name, 8 * (cell - register.at)) if register else ("byte %02X" % cell, 0)


def _lock_cells(lock):
    """The cells of a lock, each with its mask."""
    return {cell: lock.mask >> 8 * (cell - lock.register.at) & 0xFF for cell in lock.at_bytes}


LOCK_CELLS = tuple(_lock_cells(lock) for lock in registers.LOCKS)
LOCK_OF = {(cell, bit): k for k, cells in enumerate(LOCK_CELLS) for cell, mask in cells.items() for bit in range(8) if mask >> bit & 1}


# ---- what a line comes to

# what is done: a line that changes nothing, a guest write that is dropped, and so on
NOTHING, READ, WRITE, DROPPED, LATCHED, UPDATE, FAULTED, PLATFORM, END, ASKED = range(10)

Deed = namedtuple("Deed", [
    "act",
    "refusal",  # its number, 0 where the line is accepted, None where the answer says so itself (claims, probe, walk)
    "cell",     # the first cell of the dword that is reached, None where no register is there
    "lanes",    # the dword's bytes that are enabled
    "value",    # what is written to the dword; of a host update, the bits that it gives
    "shift",    # where a read's answer stands in the dword, in bits
    "latch", "busy",  # afterwards
    "cells", "others",  # the cells that are enabled, and those of the same dword that are not
    "locks",    # the locks that have an enabled byte, with its bits in the dword
])

LANE_MASK = tuple(sum(0xFF << 8 * k for k in range(4) if lanes >> k & 1) for lanes in range(16))


def _locks_in(cell, lanes):
    """The locks with a byte among a dword's enabled lanes, each with its bits there."""
    found = []
    for k, cells in enumerate(LOCK_CELLS):
        mask = sum(bits << 8 * (at - cell) for at, bits in cells.items() if 0 <= at - cell < 4) & LANE_MASK[lanes]
        if mask:
            found.append((k, mask))
    return tuple(found)


@functools.lru_cache(None)
def _reached(cell, lanes):
    """Of a dword's lanes: the cells that are enabled, those that are not, and the locks."""
    if cell is None:
        return (), (), ()
    enabled, others = (tuple(cell + k for k in range(4) if lanes >> k & 1 == wanted) for wanted in (1, 0))
    return enabled, others, _locks_in(cell, lanes)


def _plain_deed(act, latch, busy, refusal=0, cell=None, value=0):
    return Deed(act, refusal, cell, 0, value, 0, latch, busy, (), (), ())


def _refused(number, latch, busy):
    return _plain_deed(NOTHING, latch, busy, number)


def _access(act, cell, lanes, value, shift, latch, busy):
    """An accepted access of a dword's lanes."""
    return Deed(act, 0, cell, lanes, value, shift, latch, busy, *_reached(cell, lanes))


def _guest_write(cell, lanes, value, latch, busy):
    """While a function reset is under way a guest write is dropped; a one to AFCTL's bit 0 starts one."""
    deed = _access(DROPPED if busy else WRITE, cell, lanes, value, 0, latch, busy)
    starts = AFCTL in deed.cells and value >> 8 * (AFCTL - cell) & 1
    return deed._replace(busy=True) if starts else deed


def _read(latch, busy, offset, lanes):
    return _refused(5, latch, busy) if offset % 4 else _access(READ, offset, lanes, 0, 0, latch, busy)


def _write(latch, busy, offset, lanes, value):
    return _refused(5, latch, busy) if offset % 4 else _guest_write(offset, lanes, value, latch, busy)


def _bad_window(offset):
    return offset > 0x3FFFFF or offset % 4


def _window_read(latch, busy, offset, lanes):
    return _refused(16, latch, busy) if _bad_window(offset) else _access(READ, CELL_OF.get(offset), lanes, 0, 0, latch, busy)


def _window_write(latch, busy, offset, lanes, value):
    return _refused(16, latch, busy) if _bad_window(offset) else _guest_write(CELL_OF.get(offset), lanes, value, latch, busy)


# ---- the port pair

def _port_refusal(latch, port, width):
    """Refusals 2, 3 and 4, in this order; 0 where the access is this function's or the latch's."""
    if width not in (1, 2, 4):
        return 2
    if _at_latch(port, width):
        return 0
    if not (0xCFC <= port and port + width <= 0xD00) or not latch >> 31:
        return 3
    return 0 if latch >> 8 & 0xFFFF == 2 << 3 else 4


def _at_latch(port, width):
    return port == 0xCF8 and width == 4


def _port_lanes(port, width):
    return (1 << width) - 1 << port - 0xCFC


def _port_read(latch, busy, port, width):
    refusal = _port_refusal(latch, port, width)
    if refusal:
        return _refused(refusal, latch, busy)
    if _at_latch(port, width):
        return _access(READ, LATCH, 0xF, 0, 0, latch, busy)
    return _access(READ, latch & 0xFC, _port_lanes(port, width), 0, 8 * (port - 0xCFC), latch, busy)


def _port_write(latch, busy, port, width, value):
    refusal = _port_refusal(latch, port, width)
    if refusal:
        return _refused(refusal, latch, busy)
    if _at_latch(port, width):
        return _access(LATCHED, LATCH, 0xF, value, 0, value & LATCH_BITS, busy)
    placed = (value & (1 << 8 * width) - 1) << 8 * (port - 0xCFC)
    return _guest_write(latch & 0xFC, _port_lanes(port, width), placed, latch, busy)


# ---- the host's lines

def _updates(masks):
    """A host update of a configuration byte, of bits that these masks have."""
    def update(latch, busy, offset, mask, _value):
        return _refused(7, latch, busy) if mask & ~masks[offset] else _plain_deed(UPDATE, latch, busy, 0, offset, mask)
    return update


def _platform_reset(_latch, _busy):
    return _plain_deed(PLATFORM, 0, False)


def _end_signal(latch, busy):
    return _plain_deed(END if busy else NOTHING, latch, False)


def _complete(latch, busy, mask):
    return _refused(7, latch, busy) if mask & ~REQUEST_BITS else _plain_deed(UPDATE, latch, busy, 0, REQUEST, mask)


def _fault(latch, busy, value):
    return _refused(7, latch, busy) if value & ~FAULT_BITS else _plain_deed(FAULTED, latch, busy, 0, FAULT, FAULT_BITS | VALID)


def _cycles(latch, busy, _number):
    return _plain_deed(UPDATE, latch, busy, 0, CYCLES, 0xFFFFFFFF)


def _mirror(latch, busy, offset, mask, _value):
    if _bad_window(offset):
        return _refused(16, latch, busy)
    cell = CELL_OF.get(offset)
    if mask & ~MIRRORS.get(cell, 0):
        return _refused(7, latch, busy)
    return _plain_deed(UPDATE if cell in MIRRORS else NOTHING, latch, busy, 0, cell, mask)


def _asked(latch, busy, *_numbers):
    return _plain_deed(ASKED, latch, busy, None)


# The one place that says what a line is: which are host updates, which platform resets.
LINES = {
    "R": _read, "W": _write, "U": _window_read, "V": _window_write, "I": _port_read, "O": _port_write,
    "H": _updates(registers.HOST), "P": _platform_reset, "E": _end_signal,
    "C": _complete, "F": _fault, "T": _cycles, "Y": _mirror,
    "A": _asked, "N": _asked, "S": _asked, "K": _asked,
}


def deed_of(text, latch, busy):
    """What a canonical line comes to, where the latch holds this and a function reset is under way or not."""
    letter, *fields = text.split(" ")
    return LINES[letter](latch, busy, *(int(field, 16) for field in fields))


class Route:
    """The latch and whether a function reset is under way, from line to line."""

    REMEMBERED = 1 << 12

    def __init__(self):
        self.latch, self.busy, self.known = 0, False, {}

    def next(self, text):
        """What a line would come to now."""
        key = (text, self.latch, self.busy)
        deed = self.known.get(key)
        if deed is None:
            deed = deed_of(text, self.latch, self.busy)
            if len(self.known) >= self.REMEMBERED:
                self.known.clear()
            self.known[key] = deed
        return deed

    def take(self, text):
        """What the next line comes to."""
        deed = self.next(text)
        self.latch, self.busy = deed.latch, deed.busy
        return deed

    def afctl(self, text, answer):
        """AFCTL's byte in a board's answer to a read of it; None where the line is no such read, or has no value."""
        deed = self.next(text)
        if deed.act != READ or AFCTL not in deed.cells or answer is None or answer.startswith("NO"):
            return None
        return int(answer, 16) << deed.shift >> 8 * (AFCTL - deed.cell) & 0xFF
