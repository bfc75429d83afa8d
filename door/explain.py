"""All that is known of one line of a log: as it stands, what it comes to, both answers, and what decided each bit that it reaches."""
import sys

from door import lines, registers
from door.compare import Check, Counted, Listener, play
from door.deeds import ASKED, DROPPED, END, FAULTED, LATCH, LATCHED, PLATFORM, READ, UPDATE, WRITE, place
from door.differ import bits_text
from door.follow import UNDER_WAY, later, latest
from door.lines import Bad
from door.locks import agreeing, count
from door.report import difference_lines


def main(options):
    """Plays a log up to the line, and says what is known of it."""
    with lines.opened(options.logs[0]) as file:
        counted = Counted(file, options.explain)
        explained = Explained(lines.name_of(file), options.explain)
        play(explained, counted, options.format, options.end)
    if counted.lines < options.explain:
        bad = Bad("there is no line %d" % options.explain, "the log has " + count(counted.lines, "line"))
        bad.file = explained.name
        raise bad
    raw = "".join(c if c.isprintable() else "\\x%02x" % ord(c) for c in counted.last.rstrip(b"\r\n").decode("utf-8", "replace"))
    said = explained.said or [row("played", "nothing: a blank line or a comment")]
    sys.stdout.write("\n".join(["line %d of %s" % (options.explain, explained.name), row("stands", raw)] + said + lock_rows(explained.history)) + "\n")
    return 0


def row(name, said):
    return "  %-12s%s" % (name, said)


class Kept(Listener):
    """The differences of one line."""

    def __init__(self):
        self.found = []

    def wants(self):
        return True

    def difference(self, difference):
        self.found.append(difference)


class Explained(Check):
    """A check that says what it knows of one line."""

    def __init__(self, name, line):
        super().__init__(name)
        self.line, self.said = line, []

    def take(self, turn, answer):
        if turn.line != self.line:
            super().take(turn, answer)
            return
        kept = Kept()
        self.listeners, started = (kept,), self.history.started
        super().take(turn, answer)
        self.said += [row("played", played_text(turn)), row("comes to", deed_text(turn.deed, started))]
        if turn.answer is not None:
            self.said.append(row("board", turn.answer))
        self.said.append(row("twin", answer[3:] if answer.startswith("OK ") else answer))
        if not (self.history.hidden(turn.deed) or turn.deed.act == DROPPED):
            self.said += [row(*one) for one in states(self.history, turn.deed)]
        for difference in kept.found:
            self.said += [row("" if at else "differs" if difference.failure else "note", line.strip())
                          for at, line in enumerate(difference_lines(difference)[1:])]


# ---- in words

def played_text(turn):
    what = "put in before the line: AFCTL reads 00, %s" % turn.put if turn.put else lines.FORMS[turn.text[0]].what
    return "%s, %s" % (turn.text, what)


def deed_text(deed, started):
    """What a line comes to. `started`: the function reset that was under way before it."""
    if deed.refusal:
        return "refused by %s" % registers.refusal(deed.refusal)
    if deed.act == DROPPED:
        return "dropped: " + UNDER_WAY % started.line
    if deed.act in (READ, WRITE):
        ones = deed.act == READ and started is not None and deed.cell != LATCH
        starts = deed.act == WRITE and deed.busy
        return "%s %s%s" % ("a read of" if deed.act == READ else "a write to", where(deed),
                            "; reads give ones, " + UNDER_WAY % started.line if ones else "; a function reset starts" if starts else "")
    if deed.act == END:
        return "the function reset that started at line %d ends" % started.line
    said = {
        LATCHED: "the latch holds %08X, %s" % (deed.latch, names(deed.latch)), UPDATE: "a host update", FAULTED: "a fault, lost where one is held",
        PLATFORM: "everything is default, the locks are open, the latch is 0", ASKED: "a question, which changes nothing"}
    return said.get(deed.act, "nothing: it changes no bit")


def where(deed):
    """The dword and lanes that an access reaches."""
    if deed.cell is None:
        return "an offset of the window with no register"
    if deed.cell == LATCH:
        return "the latch"
    if deed.cell >= registers.SIZE:
        return "%s, lanes %X" % (place(deed.cell)[0], deed.lanes)
    return "the dword at %02X, lanes %X" % (deed.cell, deed.lanes)


def names(latch):
    """What a latch names."""
    if not latch >> 31:
        return "which names nothing"
    if latch >> 8 & 0xFFFF != 2 << 3:
        return "which names another function"
    return "which names the dword at %02X" % (latch & 0xFC)


# ---- bits and locks

def states(history, deed):
    """The bits that a line reaches, as they are after it: the register, and the bits with their kind and what decided them."""
    found = {}
    for cell in reached(deed):
        name, base = place(cell)
        for bit in range(8):
            if deed.cells or deed.value >> 8 * (cell - deed.cell) + bit & 1:
                decision = history.decided(cell, bit)
                key = name, "%s, %s%s" % (history.kind(cell, bit), decision.phrase, tried(history, cell, decision))
                found[key] = found.get(key, 0) | 1 << base + bit
    return [(name, "%-8s %s" % (bits_text(mask), said)) for (name, said), mask in found.items()]


def tried(history, cell, decision):
    """The last guest write to a byte, where it came after what decided a bit."""
    wrote = history.written(cell)
    return "; tried by line %d" % wrote.line if later(wrote, latest(decision.mark, history.platform)) else ""


def reached(deed):
    """The cells of an access, or those of a host update."""
    if deed.act in (UPDATE, FAULTED):
        return [deed.cell + k for k in range(4) if deed.value >> 8 * k & 0xFF]
    return deed.cells


def lock_rows(history):
    """Each lock as it is now."""
    found = []
    for lock in history.locks:
        if lock.closed:
            said = "closed by line %d; so far held through %s and %s, %s" % (
                lock.closed.line, count(lock.resets, "reset"), count(lock.attempts, "attempt"), agreeing(lock.reads))
        else:
            said = "open" + (", closed before by line %d" % lock.closed_at if lock.closed_at else "")
        found.append(row("lock", "%-9s%s" % (lock.name, said)))
    return found
