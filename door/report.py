"""A check as text: the lines that close a lock, the differences, the verdicts, in the log's order."""
import sys

from door.compare import UNTESTED, Listener
from door.locks import NOT_MODELLED, NOT_TESTED, UNMODELLED, UNMODELLED_WHY, count

SHOWN = 20  # differences that are written out, and as many closings and end signals
INDENT = 11


class Text(Listener):
    """Writes to standard output as the log is played."""

    def __init__(self, every=False, quiet=False, before=lambda: None):
        self.every, self.quiet, self.before = every, quiet, before
        self.left = {"closings": 0, "end signals": 0, "differences": 0}
        self.shown = dict(self.left)

    def _say(self, *lines):
        self.before()
        for line in lines:
            sys.stdout.write(line + "\n")

    def _room(self, what):
        """Whether one more of these is written out."""
        if self.quiet:
            return False
        if self.shown[what] < SHOWN or self.every:
            self.shown[what] += 1
            return True
        self.left[what] += 1
        return False

    def closed(self, turn, locks):
        if self._room("closings"):
            self._say(entry(turn.line, turn.text, "closes " + ", ".join("%s (%02X)" % (lock.name, lock.at_bytes[0]) for lock in locks)))

    def ended(self, turn):
        if self._room("end signals"):
            self._say(entry(turn.line, "E", "put before it: AFCTL reads 00, %s" % turn.put))

    def wants(self):
        return self._room("differences")

    def difference(self, difference):
        self._say(*difference_lines(difference))

    def finish(self, check):
        more = ["%s more %s" % (format(left, ","), what) for what, left in self.left.items() if left]
        if more:
            self._say(".. and %s; --all writes them" % ", ".join(more))
        self._say(*verdict_lines(check))
        self._say(*([] if self.quiet else [summary(check)]) + untested(check) + ([check.unwritten] if check.unwritten else []))
        self._say("exit status %d" % check.status)


def entry(line, text, said):
    """A line of the report: `line 3218  W 2C C ABCD0000   closes SID2 (2E)`."""
    return "%-*s%-18s%s" % (INDENT, "line %d  " % line, text, "" if len(text) < 18 else " ") + said


def difference_lines(difference):
    """A difference: the line and both answers, then the bits by register."""
    answers = "" if difference.board is None else "board %s  twin %s" % (difference.board, difference.twin)
    found = [entry(difference.line, difference.text, answers + ("" if difference.failure else "  note" if answers else "note"))]
    if difference.why:
        found.append(" " * INDENT + difference.why)
    found += [" " * INDENT + ("note: " if difference.failure and not part.failure else "") + part_text(part) for part in difference.parts]
    if difference.hint:
        found.append(" " * INDENT + "hint: " + difference.hint)
    return found


def part_text(part):
    """Bits that differ: `SID2 15:0 differ: closed by line 3218; a function reset ended at line 4771 (locked)`."""
    several = ":" in part.bits or "," in part.bits
    name = part.register if " " not in part.register else part.register + (" bits" if several else " bit")
    verb = "differ" if several else "differs"
    return "%s %s %s: %s (%s)" % (name, part.bits, verb, part.decided, part.kind)


def verdict_line(verdict, name, why):
    """`[PASSED]       SVID2      closed at line 12, ..`."""
    return "%-15s%s" % ("[%s]" % verdict.upper(), "%-11s%s" % (name, why) if verdict != NOT_MODELLED else "%s: %s" % (name, why))


def verdict_lines(check):
    found = [verdict_line(lock.verdict, lock.name, lock.why) for lock in check.history.locks]
    return found + [verdict_line(NOT_MODELLED, ", ".join(UNMODELLED), UNMODELLED_WHY)]


def untested(check):
    """Why the status is 3."""
    if check.status != UNTESTED:
        return []
    if not check.reads:
        return ["no read was compared: a read's answer stands behind ` = `, as `R 2C F = FFFF1234`"]
    return ["not tested: " + ", ".join(lock.name for lock in check.history.locks if lock.verdict == NOT_TESTED)]


def summary(check):
    """What was done, in a line."""
    said = [count(check.lines, "line"), count(check.reads, "read") + " compared"]
    if check.words:
        said.append(count(check.words, "other answer") + " compared")
    said += [count(check.failures, "failure"), count(check.notes, "note")]
    if check.ends:
        said.append("E put in " + ("once" if check.ends == 1 else "%s times" % format(check.ends, ",")))
    if check.others:
        said.append(count(check.others, "read") + " of other functions not compared")
    return ", ".join(said)
