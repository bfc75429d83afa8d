"""`tools/break`: its lists and its mistakes. That a wrong program is refused is shown in docs/PROOFS.md, and run there."""
import os
import subprocess
import sys

from common import TOP, Test, run, text_of, tool

BREAK = [sys.executable, "-B", os.path.join(TOP, "tools", "break")]
breaking, held = tool("break"), tool("held")
edits = held.edits


class Lists(Test):
    def test_all(self):
        done = run(BREAK)
        self.assertStatus(0, done)
        named = {line.split()[0] for line in done.lines}
        self.assertTrue(held.promised(text_of("docs/PROMISES.md"), set(os.listdir(os.path.join(TOP, "crates")))) <= named)

    def test_those_of_a_crate(self):
        done = run(BREAK + ["twin"])
        self.assertTrue(done.lines)
        self.assertEqual({"twin"}, {line.split("/")[0] for line in done.lines})

    def test_mistakes(self):
        self.refused(run(BREAK + ["rules/end_reopen"]), "rules/end_reopens")
        self.refused(run(BREAK + ["nothing"]), "nothing")
        self.refused(run(BREAK + ["a", "b"]))
        self.refused(run(BREAK + ["--help"]))

    def test_a_closed_pipe(self):
        child = subprocess.Popen(BREAK, cwd=TOP, stdout=subprocess.PIPE, stderr=subprocess.PIPE)
        child.stdout.close()
        self.assertEqual(b"", child.communicate()[1])


class Edits(Test):
    def test_each_stands_once_and_names_a_wrong_program_once(self):
        for (crate, what), changes in breaking.wrong_programs().items():
            for change in changes:
                for file, old, new in change.replacements:
                    text = text_of(os.path.join("crates", crate, file))
                    self.assertEqual(1, text.count(old), f"{crate}/{what}")
                    self.assertNotEqual(old, new)

    def test_what_a_crate_stands_on(self):
        self.assertEqual([], breaking.dependencies("bits"))
        self.assertEqual(["access", "answer", "any_device", "any_map", "bits", "map", "past", "plain"], breaking.dependencies("rules"))
        self.assertIn("bits", breaking.dependencies("console"))

    def test_only_the_named_one_is_made(self):
        # twin's first.edit joins five
        texts, lines = breaking.edited("twin", breaking.wrong_programs()["twin", "locks_forgotten"])
        self.assertEqual(["src/lib.rt"], list(texts))
        # the copy is outside the repository, with what it stands on and no more
        copy = os.path.join(self.room, "copy")
        edits.copied(TOP, "twin", copy)
        edits.put(copy, "twin", texts)
        self.assertEqual(sorted(breaking.dependencies("twin") + ["twin"]), sorted(os.listdir(os.path.join(copy, "crates"))))
        with open(os.path.join(copy, "crates", "twin", "src", "lib.rt"), encoding="utf-8") as file:
            self.assertEqual(texts["src/lib.rt"], file.read())
        self.assertNotEqual(texts["src/lib.rt"], text_of("crates/twin/src/lib.rt"))
        self.assertEqual(1, sum(line.startswith("-") and not line.startswith("---") for line in lines))
        self.assertEqual(1, sum(line.startswith("+") and not line.startswith("+++") for line in lines))
        self.assertIn("+    let answer = guest_write::write(&mut t.bytes, &guest, &mut { t.flags }, offset, lanes, value);", lines)
