"""A log of a board held to the twin: every line played on the proved console, every answer compared, every difference explained."""
from collections import namedtuple

from door import lines, registers
from door.deeds import LANE_MASK, READ, Route
from door.differ import Differ, Difference
from door.follow import History, Mark
from door.locks import NOT_TESTED
from door.proved import BATCH, Failed, Program
from door.reads import Reads

WELL, FAILURE, CANNOT, UNTESTED = 0, 1, 2, 3

KEPT = 500  # differences that are kept for a page or a CI
ENDS = 1000  # end signals whose lines are kept

# a line that is played: its number, the canonical line, the board's answer, what it comes to, and whether it was put in
Turn = namedtuple("Turn", "line text answer deed put")


def turns(items, end=True):
    """The lines of a log with what each comes to; where the board shows the end of a function reset, E is put before the line."""
    route, ones = Route(), False
    for item in items:
        if route.busy:
            byte = route.afctl(item.text, item.answer)
            if byte == 0 and end:
                yield Turn(item.number, "E", None, route.take("E"), ("after ones" if ones else "no ones were read before"))
            ones = ones or byte == 0xFF
        else:
            ones = False
        yield Turn(item.number, item.text, item.answer, route.take(item.text), None)


def batches(source):
    """What a source gives, in lists of at most half of what may be under way, so that two can be."""
    batch = []
    for one in source:
        batch.append(one)
        if len(batch) == BATCH // 2:
            yield batch
            batch = []
    if batch:
        yield batch


def answered(source, program):
    """Batches of turns with their answers; the program works on one while the one before it is looked at."""
    before = None
    for batch in batches(source):
        program.tell([turn.text for turn in batch])
        if before:
            yield before, program.hear(len(before))
        before = batch
    if before:
        yield before, program.hear(len(before))


class Counted:
    """A file of lines that counts them, and ends after so many where that is asked."""

    def __init__(self, file, most=None):
        self.file, self.name, self.most, self.lines, self.last = file, getattr(file, "name", None), most, 0, b""

    def readline(self, limit):
        if self.lines == self.most:
            return b""
        line = self.file.readline(limit)
        if line:
            self.lines, self.last = self.lines + 1, line
        return line


def play(check, file, form="auto", end=True, progress=None):
    """Plays a log on the console, and hands every line with its answer to a check."""
    with Program("console") as program:
        for batch, answers in answered(turns(lines.items(file, form), end), program):
            for turn, answer in zip(batch, answers):
                check.take(turn, answer)
            check.lines = file.lines
            if progress:
                progress.show(check.lines, check.failures + check.notes)
    check.lines = file.lines


class Listener:
    """What is told while a log is played, and at its end; each way of reporting is one."""

    def closed(self, turn, locks):
        """A line closes locks."""

    def ended(self, turn):
        """E was put before a line."""

    def wants(self):
        """Whether the next difference is of use."""
        return False

    def difference(self, difference):
        """An answer differs, and it was wanted."""

    def finish(self, check):
        """The log is over."""


class Check:
    """The comparison of one log, from line to line."""

    def __init__(self, name, listeners=()):
        self.name, self.listeners = name, listeners
        self.history = History()
        self.seen = Reads(self.history)
        self.differ = Differ(self.history, self.seen)
        self.lines = 0  # of the log, by whoever reads it
        self.played = self.reads = self.words = self.failures = self.notes = self.others = self.ends = 0
        self.kept, self.end_lines = [], []
        self.put = None  # the line before which E was last put, while no other reset has started
        self.error = self.unwritten = None  # why the log could not be read to its end, why a report could not be written
        self.strict = False

    # ---- lines

    def take(self, turn, answer):
        """The next line and the twin's answer."""
        self.played += 1
        deed, mark = turn.deed, Mark(self.played, turn.line)
        self._hold(turn, answer)
        if deed.act != READ:
            self._happens(mark, turn)
        if turn.answer is not None:
            self._compare(mark, turn, answer)

    @staticmethod
    def _hold(turn, answer):
        """What is followed here must be what the program does."""
        refusal = turn.deed.refusal
        if refusal is None or (answer == "NO %d" % refusal if refusal else answer.startswith("OK")):
            return
        raise Failed("line %d, %s: the proved console answers %s, and twin follows it as %s: a fault of twin"
                     % (turn.line, turn.text, answer, "refused by %d" % refusal if refusal else "accepted"))

    def _happens(self, mark, turn):
        closed = [self.history.locks[k].lock for k in self.history.take(mark, turn.deed)]
        if closed:
            for listener in self.listeners:
                listener.closed(turn, closed)
        if turn.put:
            self.ends += 1
            self.put = turn.line
            if len(self.end_lines) < ENDS:
                self.end_lines.append(turn.line)
            for listener in self.listeners:
                listener.ended(turn)
        elif self.history.busy or self.history.platform == mark:
            self.put = None
        elif turn.text == "E" and self.put:
            self._say(turn, None, None, False,
                      "the log ends the function reset here, and AFCTL read 00 at line %d: E was put before that; --no-end leaves it out" % self.put)
            self.put = None

    # ---- answers

    def _compare(self, mark, turn, answer):
        refused, board = answer.startswith("NO"), turn.answer
        if turn.text[0] in lines.READS and not refused and not board.startswith("NO"):
            self._compare_value(mark, turn, answer)
        elif refused and not board.startswith("NO") and (turn.text[0] in lines.READS or self._of_others(turn)):
            self._not_compared(turn, answer)
        else:
            self._compare_words(turn, answer[3:] if answer.startswith("OK ") else answer)

    @staticmethod
    def _of_others(turn):
        """Whether a port access is of another function, or of none."""
        return turn.text[0] in "IO" and turn.deed.refusal in (3, 4)

    def _not_compared(self, turn, answer):
        """The twin refuses a read that the board answers: those of other functions are only counted."""
        if self._of_others(turn):
            self.others += turn.text[0] in lines.READS
            return
        why = "the twin refuses this line: %s; not compared" % registers.refusal(turn.deed.refusal)
        self._say(turn, turn.answer, answer, False, why)

    def _compare_words(self, turn, said):
        self.words += 1
        if turn.answer != said:
            why = "the board refuses what the twin answers" if turn.answer.startswith("NO") and not said.startswith("NO") else "the answers differ"
            self._say(turn, turn.answer, said, True, why)

    def _compare_value(self, mark, turn, answer):
        deed = turn.deed
        mask = LANE_MASK[deed.lanes] >> deed.shift
        if not mask:
            return
        self.reads += 1
        board, twin = int(turn.answer, 16), int(answer[3:], 16)
        differs = ((board ^ twin) & mask) << deed.shift
        if not differs:
            self.seen.take(mark, deed, 0)
            return
        notes, blamed = self._weigh(deed, differs, twin << deed.shift)
        self._tell(differs != notes, lambda: self.differ.difference(turn, board, twin, differs, notes, blamed))
        self.seen.take(mark, deed, differs, blamed)

    def _weigh(self, deed, differs, twin):
        """Of a dword's bits that differ: those that are only noted, and those that a guest write is blamed for."""
        notes = blamed = 0
        if not self.history.hidden(deed):
            for cell in deed.cells:
                shift = 8 * (cell - deed.cell)
                noted, changed = self.seen.weigh(cell, differs >> shift & 0xFF, twin >> shift & 0xFF)
                notes, blamed = notes | noted << shift, blamed | changed << shift
        return notes, blamed

    def _tell(self, failure, make):
        """Counts a difference; it is made where someone wants it."""
        if failure:
            self.failures += 1
        else:
            self.notes += 1
        wanting = [listener for listener in self.listeners if listener.wants()]
        if wanting or len(self.kept) < KEPT:
            difference = make()
            if len(self.kept) < KEPT:
                self.kept.append(difference)
            for listener in wanting:
                listener.difference(difference)

    def _say(self, turn, board, twin, failure, why):
        """A difference of words."""
        self._tell(failure, lambda: Difference(turn.line, turn.text, board, twin, failure, (), why, ""))

    # ---- the end

    @property
    def status(self):
        """0 where reads were compared and nothing failed, 1 a failure, 2 it could not be done, 3 nothing compared, or with strict not tested."""
        if self.error or self.unwritten:
            return CANNOT
        if self.failures:
            return FAILURE
        if not self.reads or self.strict and any(lock.verdict == NOT_TESTED for lock in self.history.locks):
            return UNTESTED
        return WELL
