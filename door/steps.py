"""A session of steps on a running twin: what each line changed, by name, and what the locks and registers hold.

What the twin holds is read from the proved program after each line; what closed a lock is followed as `twin check` does.
"""
from collections import namedtuple

from door import names, proved, registers, table
from door.deeds import ASKED, DROPPED, END, PLATFORM, READ, WRITE, Route
from door.follow import History, Mark
from door.forms import canonical

Image = namedtuple("Image", "bytes window latch")
Step = namedtuple("Step", "lines answers")

# ---- what the twin holds

PROBES = (
    [canonical("R", offset, 0xF) for offset in range(0, registers.SIZE, 4)]
    + [canonical("U", offset, 0xF) for _, offset in registers.WINDOW] + [canonical("I", 0xCF8, 4)])


def image_of(program):
    """All that reads can show, by the proved program; a read changes nothing."""
    values = [int(answer.split()[1], 16) for answer in program.ask(PROBES)]
    dwords = registers.SIZE // 4
    return Image(b"".join(value.to_bytes(4, "little") for value in values[:dwords]), tuple(values[dwords:-1]), values[-1])


def changes(before, after):
    """What differs between two images: the name, the old and the new value as text."""
    for register in registers.REGISTERS:
        old, new = registers.value_of(before.bytes, register), registers.value_of(after.bytes, register)
        if old != new:
            yield register.name, digits(old, register), digits(new, register)
    for (name, _), old, new in zip(registers.WINDOW, before.window, after.window):
        if old != new:
            yield name, "%08X" % old, "%08X" % new
    if before.latch != after.latch:
        yield "the port latch", "%08X" % before.latch, "%08X" % after.latch


def digits(value, register):
    """A register's value as text."""
    return "%0*X" % (2 * register.size, value)


# ---- a session of steps

class Session:
    """The steps so far on a running twin, what it last showed, and what decided its bits."""

    def __init__(self):
        self.steps = []
        self.program = None
        self.fresh()

    def fresh(self):
        """A fresh twin; the one before it is ended."""
        if self.program:
            self.program.close()
        self.program, self.route, self.history = proved.Program("console"), Route(), History()
        self.seen = image_of(self.program)  # as it was last seen: while a function reset is under way only the latch is
        self.turn = 0

    def do(self, texts, tell=print):
        """A step: lines, one after the other, each with what is to be told of it."""
        step = Step(list(texts), [])
        self.steps.append(step)
        for text in texts:
            step.answers.append(self._line(text, tell))

    def _line(self, text, tell):
        """Plays a line, follows it, reads what the twin now holds, and tells."""
        since, was = self.history.started, self.seen
        deed = self.route.take(text)
        answer, = self.program.ask([text])
        if deed.act != ASKED and (deed.refusal != 0) != answer.startswith("NO"):
            raise proved.Failed("the twin answers %s to `%s`, which was not foreseen: a fault of twin" % (answer, text))
        self.turn += 1
        if not answer.startswith("NO"):
            self.history.take(Mark(self.turn, len(self.steps)), deed)
        now = image_of(self.program)
        self.seen = now if not self.history.busy else Image(was.bytes, was.window, now.latch)
        tell("%s   %s" % (text, answer))
        for sentence in self._told(text, deed, answer, was, since):
            tell("  " + sentence)
        return answer

    def undo(self, count):
        """Plays all but the last steps on a fresh twin."""
        kept = self.steps[:len(self.steps) - count]
        self.steps = []
        self.fresh()
        for step in kept:
            self.do(step.lines, lambda text: None)

    # -- what is told of a line

    def _told(self, text, deed, answer, was, since):
        """Sentences on what a line did."""
        if answer.startswith("NO"):
            return ["refused by %s; nothing changed" % registers.refusal(int(answer.split()[1]))] if deed.act != ASKED else []
        if deed.act == READ:
            return self._read(deed)
        if deed.act == DROPPED:
            return ["dropped: a function reset is under way since step %d" % since.line]
        if deed.act == WRITE and self.history.busy:
            return ["a function reset is under way: reads give ones and writes are dropped until `end`"]
        told = []
        if deed.act == END:
            told.append("the function reset of step %d has ended" % since.line)
        if deed.act == PLATFORM:
            told.append("a platform reset: everything is as it was at the start, and the locks are open")
        told += self._changed(deed, was)
        if self.history.busy and deed.act not in (ASKED, READ) and not told:
            told.append("what it changed shows when the function reset of step %d has ended" % self.history.started.line)
        return told or ([] if deed.act == ASKED else [self._nothing(text, deed)])

    @staticmethod
    def _nothing(text, deed):
        """Why an accepted line changed nothing."""
        if deed.act == WRITE and not deed.lanes:
            return "nothing changed: no lane is enabled"
        if deed.act == WRITE and deed.cell is not None:
            return "nothing changed: it holds that already"
        return "nothing changed" + (": no function reset is under way" if text == "E" else "")

    def _changed(self, deed, was):
        """What shows another value now; of a write also what it closed, and what it left as it was."""
        told = ["%s %s -> %s" % change for change in changes(was, self.seen)]
        if deed.act != WRITE:
            return told
        for k, _ in deed.locks:
            self._on_lock(self.history.locks[k], told)
        return told + self._kept(deed)

    def _on_lock(self, lock, told):
        """A write enables a byte of a lock: it closes one that was open, and leaves one that was closed."""
        if lock.closed.turn != self.turn:
            told.append("%s is closed since step %d: it stays %s" % (lock.name, lock.closed.line, self._held(lock)))
            return
        register = lock.lock.register.name
        closed = ", closed" if lock.name == register else ", %s closed" % lock.name
        for i, sentence in enumerate(told):
            if sentence.startswith(register + " "):
                told[i] = sentence + closed
                return
        told.append("%s keeps its value, and is closed" % lock.name)

    def _held(self, lock):
        """What a lock holds: a register's digits, or a bit."""
        value = registers.value_of(self.seen.bytes, lock.lock.register) & lock.mask
        return digits(value, lock.lock.register) if lock.name == lock.lock.register.name else "1" if value else "0"

    def _kept(self, deed):
        """Why bits that a write enabled do not hold what it wrote, register by register; the locks are told apart."""
        reasons, nowhere = {}, []
        for cell in deed.cells:
            wrong = self._untaken(cell, deed)
            register = registers.register_at(cell)
            if wrong and register is None and cell < registers.SIZE:
                nowhere.append("%02X" % cell)
            for bit in range(8):
                if register and wrong >> bit & 1 and registers.kind_at(cell, bit) != "lock":
                    key = register.name, self._reason(cell, bit)
                    reasons[key] = reasons.get(key, 0) | 1 << 8 * (cell - register.at) + bit
        told = ["%s keeps bit%s %s: %s" % (name, "" if mask & mask - 1 == 0 else "s", registers.bits_text(mask), reason)
                for (name, reason), mask in reasons.items()]
        return told + (["read-only, in no register: %s" % ", ".join(nowhere)] if nowhere else [])

    def _untaken(self, cell, deed):
        """The bits of a byte that do not hold what a write wrote."""
        return self.seen.bytes[cell] ^ deed.value >> 8 * (cell - deed.cell) & 0xFF if cell < registers.SIZE else 0

    @staticmethod
    def _reason(cell, bit):
        return {"host": "only the host changes them", "read-only": "read-only", "computed": "computed from CAPL",
                "power": "a write of 01 or 10 keeps the power state", "size code": "a write of 10 keeps the size code",
                "plain": "taken by the size code of MSAC", "reset start": "it reads 0 when no function reset is under way",
                }[registers.kind_at(cell, bit)]

    def _read(self, deed):
        """The registers that a read shows a byte of, as they are."""
        if self.history.hidden(deed):
            return ["ones: a function reset is under way since step %d" % self.history.started.line]
        found = []
        for cell in deed.cells:
            said = self._shown(cell)
            if said and said not in found:
                found.append(said)
        return found

    def _shown(self, cell):
        """The register that has a cell, with its value; nothing where none has."""
        if cell >= registers.SIZE:
            k = (cell - registers.SIZE) // 4
            return "%s %08X" % (registers.WINDOW[k][0], self.seen.window[k]) if k < len(registers.WINDOW) else ""
        register = registers.register_at(cell)
        if register is None:
            return ""
        return "%s %s%s" % (register.name, digits(registers.value_of(self.seen.bytes, register), register), self._state(register))

    def _state(self, register):
        """Of a register with a lock, whether it is closed."""
        said = ["%s%s" % ("" if lock.name == register.name else lock.name + " ",
                          "closed since step %d" % lock.closed.line if lock.closed else "open")
                for lock in self.history.locks if lock.lock.register is register]
        return "".join(", " + one for one in said)

    # -- what can be asked

    def locks(self):
        """The locks, a line each."""
        for lock in self.history.locks:
            state = "closed since step %d" % lock.closed.line if lock.closed else "open"
            yield "  %-9s %-5s %s" % (lock.name, self._held(lock), state)

    def table(self):
        """The registers as they are now; a star where one is not at its default."""
        if self.history.busy:
            yield "  (as it was before step %d: a function reset is under way, and reads give ones)" % self.history.started.line
        yield "  %-4s%-12s%-18s %s" % ("At", "Name", "Value", "Kinds of bits, with masks (*: not at its default)")
        for register in registers.REGISTERS:
            value = registers.value_of(self.seen.bytes, register)
            yield "  %02X  %-12s%-18s%s%s" % (
                register.at, register.name, digits(value, register), " " if value == register.default else "*",
                table.rule_text(register) + self._state(register))

    def register(self, name):
        """One register: what its bits are, what it holds, and what decided it."""
        register = names.register_named(name)
        yield table.detail(register).rstrip()
        yield "  holds %s%s" % (digits(registers.value_of(self.seen.bytes, register), register), self._state(register))
        masks = {}
        for bit in reversed(range(8 * register.size)):
            phrase = self.history.decided(register.at + bit // 8, bit % 8).phrase.replace("line", "step")
            masks[phrase] = masks.get(phrase, 0) | 1 << bit
        for phrase, mask in masks.items():
            yield "  %-6s %s" % (registers.bits_text(mask), phrase)
