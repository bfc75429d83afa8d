"""One lock through a log: when it was closed, what was tried on it, what it was held through, and the verdict."""
from door.registers import bits_text

PASSED, FAILED, NOT_TESTED, NOT_MODELLED = "passed", "failed", "not tested", "not modelled"

# the locks of the manuals that this device does not have as locks
UNMODELLED = ("GGCLCK", "BDSM lock")
UNMODELLED_WHY = "read-only here, see docs/DIFFERENCES.md"

EVENTS = 60  # events of a lock that are listed
SIGNS, TICKS, STRETCHES = 64, 200, 400  # places on its timeline, at most: for signs, for reads, for where it is closed


def count(number, word, ending="s"):
    """So many of something, in words: no reset, 1 reset, 3 resets."""
    return "no " + word if not number else "%s %s" % (format(number, ","), word if number == 1 else word + ending)


def agreeing(reads):
    """So many reads agree."""
    return count(reads, "read") + (" agree" if reads > 1 else " agrees")


class Bins:
    """Where something happened in a log of any length: a bin's width doubles as the log grows, so that they stay few."""

    def __init__(self, most):
        self.most, self.width, self.bins = most, 1, []  # of each bin: how often, the first line and the last; or None

    def add(self, line, number=1):
        """It happened so many times at a line."""
        while line // self.width >= self.most:
            self.width *= 2
            self.bins = [_joined(self.bins[at:at + 2]) for at in range(0, len(self.bins), 2)]
        at = line // self.width
        self.bins += [None] * (at + 1 - len(self.bins))
        self.bins[at] = _joined((self.bins[at], (number, line, line)))

    def found(self):
        """(how often, first line, last line) of each bin that has something."""
        return [one for one in self.bins if one]


def _joined(bins):
    bins = [one for one in bins if one]
    return (sum(one[0] for one in bins), bins[0][1], bins[-1][2]) if bins else None


class Spans:
    """Which lines of a log something held for, as bins with how many lines of each."""

    def __init__(self, most):
        self.bins, self.since = Bins(most), None

    def start(self, line):
        self.since = line if self.since is None else self.since

    def end(self, line):
        """It holds no more from this line on."""
        at, self.since = self.since, None
        if at is None or at >= line:
            return
        self.bins.add(line - 1, 0)  # so wide are bins from now on
        while at < line:
            until = min(line, (at // self.bins.width + 1) * self.bins.width)
            self.bins.add(at, until - at)
            at = until

    def shares(self, line):
        """(first line, line behind the last, share of these lines) of each stretch, until a line; those of one share are joined."""
        self.end(line)
        found, width = [], self.bins.width
        for at, one in enumerate(self.bins.bins):
            first, behind = at * width, min((at + 1) * width, line)
            share = min(1.0, one[0] / (behind - first)) if one and behind > first else 0
            if share and found and found[-1][1] == first and abs(found[-1][2] - share) < .05:
                found[-1] = (found[-1][0], behind, found[-1][2])
            elif share:
                found.append((first, behind, share))
        return found


class LockHistory:
    """A write-once field from line to line. A bit of it counts as held only where it was read."""

    def __init__(self, lock):
        self.lock, self.name, self.mask = lock, lock.name, lock.mask
        self.closed = None  # the mark of the write that closed it
        self.closed_at = None  # the first line that closed it
        self.reopened = False  # by a platform reset
        self.closings = self.attempts = self.resets = self.reads = self.dropped = 0
        self.waiting_attempts = self.waiting_resets = 0  # since the whole field was last read
        self.unread = 0  # its bits that were not read since the last of those
        self.unseen = lock.mask  # those that were never read while it was closed
        self.failures = {"closed": 0, "open": 0, "busy": 0}
        self.failed_at = {}
        self.events, self.more = [], 0
        self.marks, self.shut, self.busy = {}, Spans(STRETCHES), Spans(STRETCHES)  # for a timeline

    def note(self, what, line):
        """An event: in a list of the first ones, and on the timeline."""
        if len(self.events) < EVENTS:
            self.events.append((what, line))
        else:
            self.more += 1
        self.mark(what, line)

    def mark(self, what, line):
        if what not in self.marks:
            self.marks[what] = Bins(TICKS if what == "read" else SIGNS)
        self.marks[what].add(line)

    # ---- what happens to it

    def write(self, mark):
        """An accepted write that enables one of its bytes: the first closes it, the others are attempts. True where it closes."""
        self.unread = self.mask
        if self.closed is not None:
            self.waiting_attempts += 1
            self.note("tried", mark.line)
            return False
        self.closed = mark
        self.closed_at = self.closed_at or mark.line
        self.closings += 1
        self.shut.start(mark.line)
        self.note("closed", mark.line)
        return True

    def drop(self):
        """A write that enables one of its bytes, and is dropped."""
        self.dropped += 1

    def started(self, mark):
        """A function reset starts."""
        self.busy.start(mark.line)
        self.note("started", mark.line)

    def ended(self, mark):
        """A function reset has ended."""
        self.busy.end(mark.line)
        self.note("reset", mark.line)
        if self.closed is not None:
            self.waiting_resets += 1
            self.unread = self.mask

    def open(self, mark):
        """A platform reset opens it."""
        self.busy.end(mark.line)
        self.shut.end(mark.line)
        self.note("opened", mark.line)
        self.closed, self.reopened = None, True
        self.unread = self.waiting_attempts = self.waiting_resets = 0

    def agreed(self, bits, mark):
        """A read in which these bits of it agreed. What came before counts as held where the whole field was read since."""
        if self.closed is None:
            return
        self.reads += 1
        self.mark("read", mark.line)
        if self.unread or self.unseen:
            self.unread &= ~bits
            self.unseen &= ~bits
            if not self.unread:
                self.attempts += self.waiting_attempts
                self.resets += self.waiting_resets
                self.waiting_attempts = self.waiting_resets = 0

    def differed(self, mark, busy):
        """A read in which a bit of it differed."""
        how = "busy" if busy else "closed" if self.closed else "open"
        self.failures[how] += 1
        self.failed_at.setdefault(how, (mark.line, self.reopened))
        self.note("differed", mark.line)

    # ---- the verdict

    @property
    def verdict(self):
        """One of the four words."""
        if self.failed_at:
            return FAILED
        return PASSED if self.reads else NOT_TESTED

    @property
    def why(self):
        """The verdict's sentence."""
        return {FAILED: self._why_failed, PASSED: self._why_passed, NOT_TESTED: self._why_not_tested}[self.verdict]()

    def _why_failed(self):
        if "closed" in self.failed_at:
            how, said = "closed", "the board shows another value after it was closed"
        elif "open" in self.failed_at:
            how = "open"
            said = "the board shows another value " + (
                "after a platform reset opened it" if self.failed_at["open"][1] else "before it was closed: was it written before the log began?")
        else:
            how, said = "busy", "the board shows a value while a function reset is under way"
        number, line = self.failures[how], self.failed_at[how][0]
        return said + (", at line %d" % line if number == 1 else ", in %s from line %d on" % (count(number, "read"), line))

    def _why_passed(self):
        said = "closed at line %d%s, held through %s and %s, %s" % (
            self.closed_at, self._again(), count(self.resets, "reset"), count(self.attempts, "attempt"), agreeing(self.reads))
        left = [count(number, word) for number, word in ((self.waiting_resets, "reset"), (self.waiting_attempts, "attempt")) if number]
        said += "; %s after the last read of %s" % (" and ".join(left), "all of it" if self.unseen else "it") if left else ""
        return said + ("; bits %s were never read after that" % bits_text(self.unseen) if self.unseen else "")

    def _again(self):
        return "" if self.closings == 1 else " and once again" if self.closings == 2 else " and %s again" % count(self.closings - 1, "time")

    def _why_not_tested(self):
        if not self.closings:
            return "never written" + (", but for %s" % count(self.dropped, "dropped write") if self.dropped else "")
        return "closed at line %d%s, never read after that" % (self.closed_at, self._again())
