"""What decided each bit: a log followed line by line, by the device's rules (docs/RULES.md).

History takes the deeds of a log in order, and knows for every bit what decided it, and for every byte what came since.
"""
from collections import namedtuple

from door import registers
from door.deeds import (
    APERTURE, APERTURE_DWORD, CAPL, CELLS, DROPPED, END, FAULT, FAULTED, KIND, LANE_MASK, LATCH, LATCHED, LEAST, LOCK_OF, MSAC, PLATFORM, PMCS,
    REQUEST, REQUEST_BITS, UPDATE, VALID, WRITE)
from door.locks import LockHistory

# ---- where and when

# the place of a line: how many lines were played before it, and its number in the log
Mark = namedtuple("Mark", "turn line")


def later(one, other):
    """Whether one mark stands behind another; no mark stands before all."""
    return one is not None and (other is None or one > other)


def latest(*marks):
    found = [mark for mark in marks if mark is not None]
    return max(found) if found else None


class Touch(namedtuple("Touch", "mark deed")):
    """A guest write."""

    def byte(self, cell):
        """What it has for a byte of its dword, enabled or not."""
        return self.deed.value >> 8 * (cell - self.deed.cell) & 0xFF


class Decision(namedtuple("Decision", "how mark")):
    """How a bit came to what it is, and when."""

    @property
    def phrase(self):
        return self.how % self.mark.line if self.mark else self.how


WRITTEN, CLEARED, UPDATED, CLOSED = "written by line %d", "cleared by line %d", "host update at line %d", "closed by line %d"
RETURNED = "returned by the function reset that ended at line %d"
UNDER_WAY = "a function reset is under way since line %d"
START, PLATFORM_RESET = "default since the start", "default since the platform reset at line %d"


# ---- every bit

class History:
    """What the lines so far did to each bit."""

    def __init__(self):
        self.wrote = [None] * CELLS  # the last guest write that enabled the byte, as a Touch
        self.beside = [None] * CELLS  # the last one to its dword that did not
        self.dropped = [None] * CELLS  # the last one that was dropped
        self.given = {}  # (cell, bit): its Decision, for bits that are not stored by every write to their byte
        self.updated = [0] * CELLS  # the bits that the host updated since the last platform reset
        self.platform = self.ended = self.started = None  # marks: the last platform reset, the last ended function reset since, the one under way
        self.size = self._default_size()
        self.held = False  # a fault is held
        self.locks = tuple(LockHistory(lock) for lock in registers.LOCKS)
        self.takes = {WRITE: self._write, DROPPED: self._dropped, LATCHED: self._latched, UPDATE: self._update,
                      FAULTED: self._fault, PLATFORM: self._platform, END: self._end}

    @staticmethod
    def _default_size():
        return registers.DEFAULT[MSAC] >> 1 & 3

    @property
    def busy(self):
        return self.started is not None

    def take(self, mark, deed):
        """The next accepted line. The locks that it closes, by number."""
        takes = self.takes.get(deed.act)
        return takes(mark, deed) or () if takes else ()

    # -- guest writes

    def _write(self, mark, deed):
        touch = Touch(mark, deed)
        for cell in deed.cells:
            self.wrote[cell] = touch
        for cell in deed.others:
            self.beside[cell] = touch
        special = self.SPECIAL.get(deed.cell)
        if special:
            special(self, mark, deed)
        if deed.busy:
            self.started = mark
            for lock in self.locks:
                lock.started(mark)
        return [k for k, _ in deed.locks if self.locks[k].write(mark)]

    def _dropped(self, mark, deed):
        for cell in deed.cells:
            self.dropped[cell] = Touch(mark, deed)
        for k, _ in deed.locks:
            self.locks[k].drop()

    def _latched(self, mark, deed):
        for cell in deed.cells:
            self.wrote[cell] = Touch(mark, deed)

    def _give(self, cell, bits, how, mark):
        """The bits of a cell, counted from its bit 0 on over the cells behind it, are decided now."""
        decision, n = Decision(how, mark), 0
        while bits:
            if bits & 1:
                self.given[cell + n // 8, n % 8] = decision
            bits, n = bits >> 1, n + 1

    # -- registers with a rule of their own; each has the byte only where its lane is enabled

    def _write_msac(self, mark, deed):
        """A write whose code is 10 keeps the old one; every write clears the bits that the code then takes."""
        if MSAC not in deed.cells:
            return
        code = deed.value >> 8 * (MSAC - deed.cell) >> 1 & 3
        if code != 2:
            self.size = code
            self._give(MSAC, 0x06, WRITTEN, mark)
        for cell, bit in APERTURE:
            if self.taken(cell, bit):
                self.given[cell, bit] = Decision(CLEARED, mark)

    def _write_gmadr(self, mark, deed):
        """The bits that the size code leaves are stored."""
        for cell, bit in APERTURE:
            if cell in deed.cells and not self.taken(cell, bit):
                self.given[cell, bit] = Decision(WRITTEN, mark)

    def _write_pmcs(self, mark, deed):
        """00 and 11 are stored; 01 and 10 keep the old two bits."""
        if PMCS in deed.cells and deed.value >> 8 * (PMCS - deed.cell) & 3 in (0, 3):
            self._give(PMCS, 0x3, WRITTEN, mark)

    def _write_fault(self, mark, deed):
        """A write with lane 0 enabled and bit 0 zero clears it all."""
        if deed.lanes & 1 and not deed.value & VALID:
            self.held = False
            self._give(FAULT, 0xFFFFFFFF, CLEARED, mark)

    def _write_request(self, mark, deed):
        """A one sets a bit where the bit 16 higher is one too, both in enabled lanes."""
        ones = deed.value & LANE_MASK[deed.lanes]
        self._give(REQUEST, ones & ones >> 16 & REQUEST_BITS, WRITTEN, mark)

    # by the dword that has the register
    SPECIAL = {MSAC & ~3: _write_msac, APERTURE_DWORD: _write_gmadr, PMCS & ~3: _write_pmcs, FAULT: _write_fault, REQUEST: _write_request}

    def taken(self, cell, bit):
        """Whether the size code makes a bit of GMADR read-only: 01 takes bit 27, 11 takes 28:27."""
        n = APERTURE.get((cell, bit))
        return n is not None and n < LEAST + {1: 1, 3: 2}.get(self.size, 0)

    # -- the host

    def _update(self, mark, deed):
        self._give(deed.cell, deed.value, UPDATED, mark)
        for k in range(4):
            if deed.value >> 8 * k:
                self.updated[deed.cell + k] |= deed.value >> 8 * k & 0xFF

    def _fault(self, mark, deed):
        """A fault is lost where one is held."""
        if not self.held:
            self.held = True
            self._update(mark, deed)

    def _end(self, mark, _deed):
        self.started, self.ended = None, mark
        for lock in self.locks:
            lock.ended(mark)

    def _platform(self, mark, _deed):
        self.platform, self.ended, self.started = mark, None, None
        self.given.clear()
        self.updated = [0] * CELLS
        self.size, self.held = self._default_size(), False
        for lock in self.locks:
            lock.open(mark)

    # -- what decided a bit

    def decided(self, cell, bit):
        """What decided a bit, where no function reset is under way."""
        kind = KIND[cell][bit]
        if kind == "lock":
            closed = self.locks[LOCK_OF[cell, bit]].closed
            return Decision(CLOSED, closed) if closed else self._default()
        if kind == "read-only":
            return Decision(START, None)
        if kind == "computed":
            by = self.decided(CAPL, 0)
            return Decision("computed from CAPL, " + by.how, by.mark)
        return self._last(self._stored(cell, bit, kind), self._returned(cell, bit))

    def _stored(self, cell, bit, kind):
        """The write or update that gave a bit, since the last platform reset."""
        if kind == "plain" and (cell, bit) not in APERTURE:
            wrote = self.written(cell)
            return Decision(WRITTEN, wrote) if later(wrote, self.platform) else None
        return self.given.get((cell, bit))

    def _returned(self, cell, bit):
        """The end of a function reset that returned a bit; AFCTL's own bit too."""
        returns = cell < registers.SIZE and (registers.RETURNED[cell] >> bit & 1 or KIND[cell][bit] == "reset start")
        return Decision(RETURNED, self.ended) if returns and self.ended else None

    def _last(self, *decisions):
        found = [one for one in decisions if one is not None]
        return max(found, key=lambda one: one.mark) if found else self._default()

    def _default(self):
        return Decision(PLATFORM_RESET, self.platform) if self.platform else Decision(START, None)

    def kind(self, cell, bit):
        """The kind of a bit as it is now, as a reader is told."""
        kind = KIND[cell][bit]
        if kind == "lock":
            return "locked" if self.locks[LOCK_OF[cell, bit]].closed else "lock, open"
        if self.taken(cell, bit):
            return "read-only by the size code"
        return {"host": "driven by the host", "fault": "fault, given by the host", "request": "request, cleared by the host"}.get(kind, kind)

    # -- reads

    def hidden(self, deed):
        """Whether a read gives ones whatever the bits hold: a function reset is under way. The latch is no part of the function."""
        return self.started is not None and deed.cell != LATCH

    def written(self, cell):
        """The mark of the last guest write that enabled a byte, or None."""
        return self.wrote[cell].mark if self.wrote[cell] else None
