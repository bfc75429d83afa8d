"""Boards of the second program: the faithful one passes, and each fault is found, by its line, its register and its lock."""
from common import Test, cases, faults, log_of, made, quick, twin

LOCKS = {"SVID2", "SID2", "SWSCI.15"}


def verdicts(report):
    return {lock["name"]: lock["verdict"] for lock in report["locks"]}


class Faults(Test):
    def check(self, log, *words):
        return quick("check", "--json", *words, self.put("board.log", log))

    def test_every_fault_is_tried(self):
        self.assertEqual(faults(), [case.name for case in cases()])

    def test_each_is_found(self):
        for case in cases():
            with self.subTest(case.name):
                done = self.check(log_of(case.session, case.name))
                self.assertStatus(1, done)
                failures = [one for one in done.json["differences"] if one["kind"] == "failure"]
                self.assertEqual(case.line, failures[0]["line"])
                named = [bits["register"] for one in failures for bits in one["bits"]]
                self.assertEqual(set(case.registers), set(named))
                broken = {name for name, verdict in verdicts(done.json).items() if verdict == "failed"}
                self.assertEqual(set(case.locks), broken)

    def test_the_faithful_board_passes_the_same_sessions(self):
        for case in cases():
            with self.subTest(case.name):
                done = self.check(log_of(case.session))
                self.assertStatus(0, done)
                self.assertEqual([], done.json["differences"])
                self.assertTrue(done.json["reads"])

    def test_the_text_names_the_register_and_the_lock(self):
        for case in cases():
            with self.subTest(case.name):
                done = quick("check", self.put("board.log", log_of(case.session, case.name)))
                self.assertStatus(1, done)
                self.assertEqual("exit status 1", done.lines[-1])
                self.assertRegex(done.out, rf"(?m)^line +{case.line}  ")
                for name in case.registers:
                    self.assertIn(name, done.out)
                for name in LOCKS:
                    self.assertRegex(done.out, rf"(?m)^\[{'FAILED' if name in case.locks else '(PASSED|NOT TESTED)'}\] +{name}\b")


class MadeSessions(Test):
    """Long sessions with all that goes on in them: refusals, port accesses, claims, walks, the window, resets."""

    def test_the_faithful_board_passes(self):
        for seed in range(4):
            with self.subTest(seed):
                log = self.put("made.log", log_of(made(seed, 5000)))
                done = twin("check", "--json", "--strict", log)
                self.assertStatus(0, done)
                self.assertEqual([], done.json["differences"])
                self.assertEqual({"passed"}, {verdict for name, verdict in verdicts(done.json).items() if name in LOCKS})

    # what these answer in AFCTL's byte is taken for the end of a function reset, and all goes on otherwise from there
    ENDING = {"busy-zeros", "reset-at-once"}

    def test_each_fault_is_found_at_every_line_where_it_shows(self):
        session = "".join(made(seed, 3000) + "P\n" for seed in (2, 3))
        right = log_of(session).split("\n")
        for name in faults():
            with self.subTest(name):
                log = log_of(session, name)
                done = quick("check", "--json", self.put("made.log", log))
                # these sessions don't read DID2 right before they write it: what shows there are notes
                self.assertStatus(0 if name == "did2-written" else 1, done)
                found = [one["line"] for one in done.json["differences"]]
                if name not in self.ENDING:
                    pairs = enumerate(zip(right, log.split("\n")), 1)
                    self.assertEqual([at for at, (one, other) in pairs if compared(one) != compared(other)], found)


def compared(line):
    """What counts of a log's line: of a read the enabled lanes or the bytes of the width, of other lines all."""
    text, _, answer = line.partition(" = ")
    letter, *fields = text.split() or [""]
    if letter in ("R", "U") and answer:
        lanes = int(fields[1], 16)
        return text, int(answer, 16) & sum(0xFF << 8 * lane for lane in range(4) if lanes >> lane & 1)
    if letter == "I":
        return text, int(answer, 16) & (1 << 8 * int(fields[1])) - 1
    return text, answer
