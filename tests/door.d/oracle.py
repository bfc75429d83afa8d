"""A slow and naive reading of the rules of `twin check`, held to it on random logs with wrong bits: failures and notes, ends, verdicts and counts.

The naive one keeps a list of all that happened and looks through it anew for each bit.
"""
import random

from common import Test, quick

from door import registers
from door.proved import Program

DWORDS = (0x00, 0x04, 0x08, 0x2C, 0x3C, 0x54, 0xE8)
HOST_BYTES = (0x02, 0x03, 0x06, 0x08, 0x0A, 0x54)
LANES = (15, 15, 3, 12, 1, 2, 4, 8)
FIELDS = {lock.name: {at: lock.mask >> 8 * (at - lock.register.at) & 0xFF for at in lock.at_bytes} for lock in registers.LOCKS}


# ---- logs

def any_line(rng):
    """A line of a session in which locks, host bits and function resets matter."""
    at, lanes, value = rng.choice(DWORDS), rng.choice(LANES), rng.getrandbits(32)
    host = rng.choice(HOST_BYTES)
    return rng.choices((
        f"R {at:02X} {lanes:X}", f"W {at:02X} {lanes:X} {value:08X}", f"H {host:02X} {registers.HOST[host] & rng.getrandbits(8):02X} {rng.getrandbits(8):02X}",
        "P", "W A8 1 00000001", "R A8 1", "E", f"O 0CF8 4 {0x80001000 | at:08X}", "I 0CFC 4", "I 0CFE 2", f"O 0CFC 4 {value:08X}", f"O 0CFE 2 {value:08X}",
    ), (50, 25, 4, 1, 4, 6, 3, 3, 1, 1, 1, 1))[0]


def made_log(rng, count):
    """(line, the board's answer or None): the console's answers, some with wrong bits that stay for a while; in some logs no E is told."""
    log, wrong, tells = [], {}, rng.random() < 0.5
    with Program("console") as console:
        for _ in range(count):
            text = any_line(rng)
            answer = console.ask([text])[0]
            if text[0] not in "RI" or not answer.startswith("OK "):
                if text != "E" or tells:
                    log.append((text, None))
                continue
            value, place = int(answer[3:], 16), text[:4]
            if rng.random() < 0.15:
                wrong[place] = rng.choice((0, 0, 1 << rng.randrange(32), rng.getrandbits(32)))
            if text[0] == "R" and (value != 0xFFFFFFFF or rng.random() < 0.05):
                value ^= wrong.get(place, 0)
            log.append((text, f"{value:08X}"))
    return log


# ---- the naive reading

class Naive:
    """What a log comes to. Events: P, E (one that ended a reset), W and its bytes, H with byte and mask, R with the bits that differ by byte."""

    def __init__(self, console):
        self.console, self.events, self.busy, self.latch = console, [], False, 0
        self.found, self.ends, self.blamed = [], [], {}
        self.past = {name: [] for name in FIELDS}  # of each lock: closed, tried, E, P, bytes that were read and agree
        self.closed, self.failed = dict.fromkeys(FIELDS, False), dict.fromkeys(FIELDS, False)

    def line(self, number, text, board):
        letter, *fields = text.split()
        numbers = [int(field, 16) for field in fields]
        reached = self.reached(letter, numbers)
        if letter in "RI" and self.shows_the_end(reached, board):
            self.console.ask(["E"])
            self.end()
            self.ends.append(number)
        answer = self.console.ask([text])[0]
        if answer.startswith("NO"):
            return
        if letter == "P":
            self.platform_reset()
        elif letter == "E":
            self.end()
        elif letter == "H":
            self.events.append(("H", numbers[0], numbers[1]))
        elif letter == "O" and numbers[0] == 0xCF8:
            self.latch = numbers[2] & 0x80FFFFFC
        elif letter in "WO" and not self.busy:
            self.write(*reached, numbers[2])
        elif letter in "RI" and reached:
            self.read(number, reached, int(answer[3:], 16), int(board, 16))

    def reached(self, letter, numbers):
        """The dword, the bytes in it and the first of them that an access reaches, or None."""
        if letter in "RW":
            return numbers[0], [at for at in range(numbers[0], numbers[0] + 4) if numbers[1] >> at % 4 & 1], numbers[0]
        if letter in "IO" and numbers[0] >= 0xCFC and self.latch >> 8 == 0x800010:
            first = (self.latch & 0xFC) + numbers[0] - 0xCFC
            return self.latch & 0xFC, list(range(first, first + numbers[1])), first
        return None

    def shows_the_end(self, reached, board):
        """A read of AFCTL's byte that gives 00 while a function reset is under way."""
        return self.busy and reached and 0xA8 in reached[1] and int(board, 16) >> 8 * (0xA8 - reached[2]) & 0xFF == 0

    def platform_reset(self):
        self.events.append(("P",))
        self.busy, self.latch = False, 0
        for name in FIELDS:
            self.closed[name] = False
            self.past[name].append("P")

    def end(self):
        if self.busy:
            self.events.append(("E",))
            for name in FIELDS:
                self.past[name].append("E")
        self.busy = False

    def write(self, _, cells, first, value):
        self.events.append(("W", cells))
        self.busy = 0xA8 in cells and value >> 8 * (0xA8 - first) & 1 == 1
        for name, field in FIELDS.items():
            if set(cells) & set(field):
                self.past[name].append("tried" if self.closed[name] else "closed")
                self.closed[name] = True

    def read(self, number, reached, twin, board):
        differs = {at: (twin ^ board) >> 8 * (at - reached[2]) & 0xFF for at in reached[1]}
        kinds = [self.fails(at, bit) for at, mask in differs.items() for bit in range(8) if mask >> bit & 1]
        if kinds:
            self.found.append((number, "failure" if any(kinds) else "note"))
        for name, field in FIELDS.items():
            seen = {at: differs[at] & mask for at, mask in field.items() if at in differs}
            if any(seen.values()):
                self.failed[name] = True
            elif seen and self.closed[name] and not self.busy:
                self.past[name].append(set(seen))
        if not self.busy:
            self.events.append(("R", differs))

    def fails(self, at, bit):
        """Whether a bit that differs is a failure, and no note."""
        if self.busy or not registers.HOST[at] >> bit & 1:
            return True
        for event in reversed(self.events):
            if event[0] == "P":
                break
            if event[0] == "H" and event[1] == at and event[2] >> bit & 1:
                return True
        # no host update since the last platform reset: did it agree when it was last read, and did only a guest write come between?
        wrote = False
        for event in reversed(self.events):
            if event[0] in "PE":
                break
            wrote = wrote or event[0] == "W" and at in event[1]
            if event[0] == "R" and at in event[1]:
                agreed = not event[1][at] >> bit & 1
                self.blamed[at, bit] = wrote if agreed else self.blamed.get((at, bit), False)
                return self.blamed[at, bit]
        self.blamed[at, bit] = False
        return False

    def lock(self, name):
        """A lock's verdict, and what it was held through: what was followed by reads of the whole field."""
        attempts = resets = tried = ended = reads = 0
        closed, unseen = False, set()
        for event in self.past[name]:
            if event == "closed":
                closed, unseen = True, set(FIELDS[name])
            elif event == "P":
                closed, tried, ended = False, 0, 0
            elif event == "tried" or event == "E" and closed:
                tried, ended, unseen = tried + (event == "tried"), ended + (event == "E"), set(FIELDS[name])
            elif isinstance(event, set):
                reads, unseen = reads + 1, unseen - event
                if not unseen:
                    attempts, resets, tried, ended = attempts + tried, resets + ended, 0, 0
        verdict = "failed" if self.failed[name] else "passed" if reads else "not tested"
        return verdict, attempts, resets, reads


class Naively(Test):
    def test_random_logs(self):
        told = set()
        for seed in range(15):
            log = made_log(random.Random(seed), 400 if seed % 3 else 40)
            path = self.put("random.log", "".join(f"{text} = {board}\n" if board else f"{text}\n" for text, board in log))
            report = quick("check", "--json", path).json
            with Program("console") as console:
                naive = Naive(console)
                for number, (text, board) in enumerate(log, 1):
                    naive.line(number, text, board)
            with self.subTest(seed):
                self.assertEqual(naive.found, [(one["line"], one["kind"]) for one in report["differences"] if one["text"] != "E"])
                self.assertEqual(naive.ends, report["ends"])
                for lock in report["locks"][:3]:
                    self.assertEqual(naive.lock(lock["name"]), tuple(lock[key] for key in ("verdict", "attempts", "resets", "reads")), lock["name"])
            told |= {kind for _, kind in naive.found} | {lock["verdict"] for lock in report["locks"]} | ({"end"} if naive.ends else set())
        # the logs had all of it
        self.assertEqual({"failure", "note", "end", "passed", "failed", "not tested", "not modelled"}, told)
