"""A difference in words: which bits differ, by register and kind, what decided them, what came since, and what the board shows instead."""
import functools
from collections import namedtuple

from door import registers
from door.deeds import KIND, LANE_MASK, place
from door.follow import UNDER_WAY, later, latest

# bits of one register that differ: exactly which, how they are named, of what kind, what decided them; failure or note
Part = namedtuple("Part", "register mask bits kind decided decided_at failure")

# a difference: bits that differ, or words (then there are no parts, and why says it); hint may be empty
Difference = namedtuple("Difference", "line text board twin failure parts why hint")

LOCK_KINDS = ("locked", "lock, open")
# kinds of bits that the host changes on its own, and what is said where the log does not have it
UNDRIVEN = {"host": "the log has no host update of it", "fault": "the log has no fault word", "request": "the log has no completion of it"}

BITS = tuple(tuple(bit for bit in range(8) if byte >> bit & 1) for byte in range(256))

bits_text = functools.lru_cache(1 << 12)(registers.bits_text)

# bits of one register with one past: of what kind they are and what decided them; noted or not, blamed on a guest write or not,
# and whether the register differs as it did in its last read
Alike = namedtuple("Alike", "register kind decision noted blamed again")


class Differ:
    """What a log so far tells of bits that differ."""

    def __init__(self, history, seen):
        self.history, self.seen = history, seen
        self.told = None  # the function reset of which it was said that a line E may be missing

    def difference(self, turn, board, twin, differs, notes, blamed):
        """A read whose answers differ in these bits of its dword, of which some are only noted and some blamed on a guest write."""
        deed = turn.deed
        digits = 2 * int(turn.text[-1]) if turn.text[0] == "I" else 8
        shown = ["%0*X" % (digits, value & (1 << 4 * digits) - 1) for value in (board, twin)]
        if self.history.hidden(deed):
            parts = self._busy(turn, differs)
        elif deed.cell is None:
            parts = [Part(_nowhere(turn), differs, bits_text(differs), "read-only", "no register is there", None, True)]
        else:
            parts = [self._part(deed, alike, masks, board << deed.shift) for alike, masks in self._sorted(deed, differs, notes, blamed)]
        return Difference(turn.line, turn.text, *shown, differs != notes, tuple(parts), None, self._hint(turn, board, twin))

    def _busy(self, turn, differs):
        """Where a function reset is under way, every bit is a one."""
        found, deed = {}, turn.deed
        for cell in deed.cells:
            name, base = place(cell)
            bits = differs >> 8 * (cell - deed.cell) & 0xFF
            if bits:
                found[name] = found.get(name, 0) | bits << base
        if deed.cell is None:
            found = {_nowhere(turn): differs}
        line = self.history.started.line
        return [Part(name, mask, bits_text(mask), "busy", UNDER_WAY % line, line, True) for name, mask in found.items()]

    # ---- bits with one past

    def _sorted(self, deed, differs, notes, blamed):
        """The bits that differ, those with one past together: pairs of what they share and their masks by cell."""
        found = {}
        changed = {place(cell)[0] for cell in deed.cells if not self.seen.same(cell, differs >> 8 * (cell - deed.cell) & 0xFF)}
        for cell in deed.cells:
            shift, name, shared = 8 * (cell - deed.cell), place(cell)[0], {}
            for bit in BITS[differs >> shift & 0xFF]:
                past = KIND[cell][bit], (cell, bit) in self.history.given and bit, notes >> shift + bit & 1, blamed >> shift + bit & 1
                shared[past] = shared.get(past, 0) | 1 << bit
            for (_, _, noted, blame), bits in shared.items():
                first = BITS[bits][0]
                alike = Alike(name, self.history.kind(cell, first), self.history.decided(cell, first), noted, blame, name not in changed)
                masks = found.setdefault(alike, {})
                masks[cell] = masks.get(cell, 0) | bits
        return found.items()

    def _part(self, deed, alike, masks, board):
        mask = sum(bits << place(cell)[1] for cell, bits in masks.items())
        decision = alike.decision
        decided = "; ".join((decision.phrase,) + self._since(deed, alike, masks, board))
        return Part(alike.register, mask, bits_text(_field(deed, alike, mask)), alike.kind, decided, decision.mark.line if decision.mark else None,
                    not alike.noted)

    def _since(self, deed, alike, masks, board):
        """What came since, in the order of the log."""
        cell, bits = next(iter(masks.items()))
        agreed = self._agreed(masks)
        if alike.blamed:
            wrote = self.seen.blamed_on(cell, BITS[bits][0])
            return ("agreed at line %d, and only the guest write at line %d came between" % (agreed.line, wrote.line),)
        if alike.noted:
            return (UNDRIVEN[KIND[cell][BITS[bits][0]]],)
        first = max(self.seen.first_differed(cell, bit) for cell, bits in masks.items() for bit in BITS[bits]) if alike.again else None
        if later(first, alike.decision.mark):
            return ("differs since line %d" % first.line,)
        board = {cell: board >> 8 * (cell - deed.cell) & 0xFF for cell in masks}
        found = self._resets(alike, masks, board, agreed) + self._writes(alike, masks, board, agreed)
        if later(agreed, alike.decision.mark):
            found.append((agreed, "agreed at line %d" % agreed.line))
        return tuple(phrase for _, phrase in sorted(found))

    def _agreed(self, masks):
        """The last read in which all of these bits had agreed."""
        marks = [mark for cell, bits in masks.items() for mark in self.seen.agreements(cell, BITS[bits])]
        return min(marks) if None not in marks else None

    # ---- what came since a decision, as marks and phrases

    def _resets(self, alike, masks, board, agreed):
        ended = self.history.ended
        if not later(ended, alike.decision.mark):
            return []
        default = later(ended, agreed) and all(_shows(board, cell, bits, registers.DEFAULT[cell] if cell < registers.SIZE else 0)
                                               for cell, bits in masks.items())
        return [(ended, "a function reset ended at line %d%s" % (ended.line, ", and the board shows the default" if default else ""))]

    def _writes(self, alike, masks, board, agreed):
        """Guest writes: to these bytes, dropped ones, and, where the board shows its value, one to their dword with other lanes."""
        found, decided = [], alike.decision.mark
        for touches, said, always in ((self.history.wrote, "tried by line %d", True), (self.history.dropped, "line %d was dropped", True),
                                      (self.history.beside, "line %d wrote the dword with lanes %X", False)):
            touch = max((touches[cell] for cell in masks if touches[cell]), default=None)
            if touch is None or not later(touch.mark, latest(self.history.platform, decided if always else agreed)):
                continue
            shows = later(touch.mark, agreed) and all(
                _shows(board, cell, bits, touch.byte(cell)) for cell, bits in masks.items() if touches[cell] is touch)
            if always or shows:
                text = said % (touch.mark.line if always else (touch.mark.line, touch.deed.lanes))
                found.append((touch.mark, text + (", and the board shows its value" if shows else "")))
        return found

    # ---- hints

    def _hint(self, turn, board, twin):
        """What may be meant instead, once for each function reset, and for an answer that stands in the wrong lanes."""
        started, mask = self.history.started, LANE_MASK[turn.deed.lanes] >> turn.deed.shift
        if self.history.hidden(turn.deed):
            told, self.told = self.told == started, started
            return "" if told else "%s; if the board had ended it, put a line E before this read" % UNDER_WAY % started.line
        low = (mask & -mask).bit_length() - 1
        if low and turn.text[0] in "RU" and (board << low ^ twin) & mask == 0 and board << low <= 0xFFFFFFFF:
            return "an answer is the whole dword: %08X would agree" % (board << low)
        return ""


def _nowhere(turn):
    return "window %s" % turn.text.split()[1]


def _shows(board, cell, bits, byte):
    """Whether a board shows a byte in these bits."""
    return not (board[cell] ^ byte) & bits


def _field(deed, alike, mask):
    """The bits by which a difference is named: of a lock all that were read, since it is one field; else those that differ."""
    for k, bits in deed.locks if alike.kind in LOCK_KINDS else ():
        lock = registers.LOCKS[k]
        if lock.register.name == alike.register and lock.mask & mask:
            return bits >> 8 * (lock.register.at - deed.cell)
    return mask
