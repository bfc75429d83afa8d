"""What a board's reads showed: when each bit last agreed, and which differences are the host's own doing."""
from door.deeds import CELLS, KIND
from door.follow import later


def _masks(kind):
    return tuple(sum(1 << bit for bit in range(8) if kinds[bit] == kind) for kinds in KIND)


HOST, FAULT, REQUEST = _masks("host"), _masks("fault"), _masks("request")


class Apart:
    """A byte that differed in its last read."""
    __slots__ = ("last", "differs", "agreed", "first", "blamed", "by")

    def __init__(self, agreed):
        self.last = agreed  # the last read
        self.differs = 0  # the bits that differed in it
        self.agreed, self.first = [agreed] * 8, [None] * 8  # of these, when each last agreed, and first differed since
        self.blamed, self.by = 0, [None] * 8  # those that a guest write changed, and which


class Reads:
    """The reads of a log so far, byte by byte."""

    def __init__(self, history):
        self.history = history
        self.agreed = [None] * CELLS  # the last read of a byte, where all of it agreed
        self.apart = {}  # cell: Apart, where it did not

    def last_agreed(self, cell, bit):
        """The last read in which a bit agreed, or None."""
        apart = self.apart.get(cell)
        if apart is None:
            return self.agreed[cell]
        return apart.agreed[bit] if apart.differs >> bit & 1 else apart.last

    def agreements(self, cell, bits):
        """The last reads in which some bits of a byte agreed, or None where one did not yet."""
        return [self.last_agreed(cell, bit) for bit in bits] if cell in self.apart else (self.agreed[cell],)

    def same(self, cell, differs):
        """Whether a byte differs in exactly these bits, none of them for the first time."""
        apart = self.apart.get(cell)
        return differs == (apart.differs if apart else 0)

    def first_differed(self, cell, bit):
        """The read from which on a bit differs."""
        return self.apart[cell].first[bit]

    def blamed_on(self, cell, bit):
        """The guest write that changed a bit which no guest may, as far as was told before this read."""
        apart = self.apart.get(cell)
        return apart.by[bit] if apart and apart.differs >> bit & 1 and apart.blamed >> bit & 1 else self.history.written(cell)

    def weigh(self, cell, differs, twin):
        """Of a byte's bits that differ: those that are only noted, and those that a guest write is blamed for.

        A bit that only the host drives is a note where the log has no host update of it since the last platform reset, unless it agreed
        in its last read and only guest writes to its byte came between; it stays blamed for as long as nothing else comes. In the window
        a fault that the board shows alone, and a request that the twin shows alone, are notes in the same way: only the host gives a
        fault, and only the host clears a request.
        """
        free = differs & ~self.history.updated[cell]
        host, others = free & HOST[cell], free & (FAULT[cell] & ~twin | REQUEST[cell] & twin)
        if not host:
            return others, 0
        apart = self.apart.get(cell)
        before = apart.differs if apart else 0
        blamed = before & apart.blamed if apart and not self._disturbed(apart.last) else 0
        if self._only_written(cell, apart.last if apart else self.agreed[cell]):
            blamed |= ~before
        return host & ~blamed | others, host & blamed

    def _disturbed(self, last):
        """Whether a platform reset came, or a function reset ended, since a read."""
        return later(self.history.platform, last) or later(self.history.ended, last)

    def _only_written(self, cell, last):
        """Whether a guest wrote to a byte since a read, and nothing else came between."""
        return last is not None and later(self.history.written(cell), last) and not self._disturbed(last)

    def take(self, mark, deed, differs, blamed=0):
        """A compared read: which bits of its dword differ, and which of them are blamed on a guest write."""
        hidden = self.history.hidden(deed)
        if not hidden:
            if not differs and not self.apart:
                agreed = self.agreed
                for cell in deed.cells:
                    agreed[cell] = mark
            else:
                for cell in deed.cells:
                    shift = 8 * (cell - deed.cell)
                    self._take_cell(mark, cell, differs >> shift & 0xFF, blamed >> shift & 0xFF)
        for k, mask in deed.locks:
            lock = self.history.locks[k]
            if differs & mask:
                lock.differed(mark, hidden)
            elif not hidden:
                lock.agreed(mask >> 8 * (lock.lock.register.at - deed.cell), mark)

    def _take_cell(self, mark, cell, differs, blamed):
        if not differs:
            self.agreed[cell] = mark
            self.apart.pop(cell, None)
            return
        apart = self.apart.setdefault(cell, Apart(self.agreed[cell]))
        for bit in range(8):
            if (differs & ~apart.differs) >> bit & 1:
                apart.agreed[bit], apart.first[bit] = apart.last, mark
                apart.by[bit] = self.history.written(cell)
        apart.last, apart.differs, apart.blamed = mark, differs, blamed
