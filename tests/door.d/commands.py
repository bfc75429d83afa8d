"""Every command but `check`: what it takes, what it prints, how it ends."""
import os
import pty
import re
import select
import shutil
import subprocess

from common import TOP, TWIN, Test, log_of, made, quick, run, text_of, twin

from door import lines, registers


def proved(name, session, *words):
    """What a proved program answers, without the front door."""
    shell = f'. tools/x86.sh; x86 target/bin/{name} "$@"'
    return run(["bash", "-c", shell, "bash", *words], session).out


class Help(Test):
    def test_the_start(self):
        for words in ([], ["--help"], ["help"], ["-h"]):
            done = twin(*words)
            self.assertStatus(0, done)
            for command in ("check", "run", "step", "snapshot", "sheet", "map", "diff", "--version"):
                self.assertIn(command, done.out)

    def test_every_command(self):
        for command in ("check", "run", "step", "snapshot", "sheet", "map", "diff"):
            with self.subTest(command):
                done = quick(command, "--help")
                self.assertStatus(0, done)
                self.assertIn(f"usage: twin {command}", done.out)
                self.assertEqual(done.out, quick("help", command).out)

    def test_unknown_words(self):
        self.refused(twin("chek"), "twin check")
        self.refused(quick("frobnicate"), "frobnicate")
        self.refused(quick("examples/lock.session"), "twin run examples/lock.session")
        for words in (["run", "--frob"], ["run", "a", "b"], ["map", "--svg"], ["sheet"], ["sheet", "frob"], ["diff", "a"], ["help", "chek"]):
            with self.subTest(words):
                self.refused(quick(*words))

    def test_version(self):
        done = twin("--version")
        self.assertStatus(0, done)
        self.assertRegex(done.out, r"(?m)^twin [0-9a-f]{7,}|^twin .*git")
        self.assertRegex(done.out, r"(?m)^rt ")
        # every source but those that `rt ci` writes: the copies of what a crate is built of, below out/
        sources = [os.path.join(folder, name) for folder, _, names in os.walk(os.path.join(TOP, "crates"))
                   if not {"must-fail", "out"} & set(folder.split(os.sep)) for name in names if name.endswith(".rt")]
        counted = sum(len(re.findall(r"(?m)^\s*(?:#\[[^\]]*\]\s*)?(?:pub )?(?:extern \"C\" )?fn ", text_of(path))) for path in sources)
        self.assertRegex(done.out, rf"(?m)^{counted} functions proved")

    def test_from_another_folder_and_by_a_link(self):
        link = os.path.join(self.room, "twin")
        os.symlink(os.path.join(TOP, "twin"), link)
        done = run([link, "run", "-"], "R 00 F\n", cwd="/")
        self.assertEqual((0, "OK 01528086\n"), (done.status, done.out))

    def test_nothing_is_built_where_all_is(self):
        # rt is not even on the path
        path = os.path.join(self.room, "bin")
        os.mkdir(path)
        for name in ("qemu-x86_64", "env", "sh"):
            found = shutil.which(name)
            if found:
                os.symlink(found, os.path.join(path, name))
        done = run(TWIN + ["run", "-"], "R 00 F\n", env={**os.environ, "PATH": path})
        self.assertEqual((0, "OK 01528086\n", ""), (done.status, done.out, done.err))

    def test_nothing_is_written_beside_the_sources(self):
        twin("map")
        self.assertFalse(os.path.exists(os.path.join(TOP, "door", "__pycache__")))


class Play(Test):
    def test_answers_are_the_consoles(self):
        for path in ("examples/lock.session", "examples/poll.session", "tests/data/seabios-linux.console"):
            with self.subTest(path):
                done = twin("run", path)
                self.assertStatus(0, done)
                self.assertEqual(proved("console", text_of(path)), done.out)

    def test_a_long_session(self):
        log = log_of(made(5, 12000))
        session = "".join(line.split(" = ")[0] + "\n" for line in log.split("\n")[:-1])
        done = twin("run", self.put("made.log", log))
        self.assertStatus(0, done)
        self.assertEqual(proved("console", session), done.out)
        self.assertIn("twin check", done.err)

    def test_beside(self):
        done = twin("run", "--beside", "examples/lock.session")
        self.assertEqual(text_of("examples/lock.session").split("\n")[:-1], [line.split("\t")[0] for line in done.lines])
        self.assertEqual(quick("run", "examples/lock.session").lines, [line.split("\t")[1] for line in done.lines])

    def canonical(self, text):
        done = quick("run", "--beside", self.put("lines", text))
        self.assertStatus(0, done)
        return [line.split("\t")[0] for line in done.lines]

    def test_what_is_understood(self):
        for written, line in (
            ("w 2c 3 1234", "W 2C 3 00001234"), ("W 2C 3 0x1234", "W 2C 3 00001234"), ("W\t2C   3 00001234  ", "W 2C 3 00001234"), ("r svid2 f", "R 2C F"),
            ("R 2C F # why", "R 2C F"), ("R 2C F = FFFF1234", "R 2C F"), ("R 0000002C F", "R 2C F"), ("e", "E"), ("p", "P"), ("h 6 8 8", "H 06 08 08"),
            ("2c.w=1234", "W 2C 3 00001234"), ("2e.w=abcd", "W 2C C ABCD0000"), ("2d.b=12", "W 2C 2 00001200"), ("10.l=f0000000", "W 10 F F0000000"),
            ("2c.w", "R 2C 3"), ("2e.w -> abcd", "R 2C C"), ("SVID2=1234", "W 2C 3 00001234"), ("SUBSYSTEM_ID=abcd", "W 2C C ABCD0000"), ("COMMAND=7", "W 04 3 00000007"),
            ("COMMAND.b=7", "W 04 1 00000007"), ("setpci -s 00:02.0 2c.w=1234", "W 2C 3 00001234"), ("setpci -s 0000:00:02.0 INTERRUPT_LINE=b", "W 3C 1 0000000B"),
            ("write 0xcf8 4 0x80001000", "O 0CF8 4 80001000"), ("read 0xcfc 2 0x8086", "I 0CFC 2"), ("READ 0xCFC 2 0xFFFFFFFF", "I 0CFC 2"),
            ("a f780810c", "A 00000000F780810C"), ("v 810c f 20002", "V 00810C F 00020002"), ("k 13", "K 13"), ("s f000000c ffffffff", "S F000000C FFFFFFFF"),
        ):
            with self.subTest(written):
                self.assertEqual([line], self.canonical(written + "\n"))

    def test_several_words(self):
        self.assertEqual(["W 2C 3 00001234", "W 04 1 00000007", "R 00 3"], self.canonical("setpci -s 00:02.0 2c.w=1234 04.b=7 00.w\n"))

    def test_what_is_not(self):
        for written, words in (
            ("X", "starts with"), ("R 2C", "lanes"), ("R 2C 10", "lanes"), ("W 2C 3", ""), ("W 2C 3 123456789", "digits"), ("R SVID F", "SVID2"), ("R SID2 C", "multiple of 4"),
            ("2f.w=1234", ""), ("2c.w = 1234", "->"), ("04.w=7:7", "whole value"), ("setpci -s 00:1f.0 2c.w=1", ""), ("2c.q=1", ""), ("2c.b=123", ""), ("R 2C G", ""), ("read 0xcfc 3 0", ""),
            ("E 1", ""), ("Z", "sheet"), ("R 2C F =", ""), ("R 2C F = XYZ", ""), ("R 2C F=1234", ""), ("FOO=1", ""), ("K 113", ""), ("H 06 08", ""),
        ):
            with self.subTest(written):
                done = quick("run", self.put("lines", "R 00 F\n" + written + "\n"))
                self.refused(done, "lines:2: ", words)
                self.assertEqual("", done.out, "something was played")

    def test_hints(self):
        done = quick("run", self.put("lines", "R SID2 C\n"))
        self.assertRegex(done.err, r"2E lies in the dword at 2C: lanes C")
        self.assertIn("hint", quick("run", self.put("lines", "R SVID 3\n")).err)

    def test_bad_lines_are_named_up_to_twenty(self):
        done = quick("run", self.put("lines", "X\n" * 30))
        self.refused(done)
        self.assertEqual(20, len(re.findall(r"lines:\d+: ", done.err)))
        self.assertIn("10 more", done.err)


class Steps(Test):
    def said(self, text):
        done = twin("step", given=text)
        self.assertStatus(0, done)
        return done.out

    def test_a_lock_by_name(self):
        out = self.said("SVID2=1234\nreset\nSVID2\nend\nSVID2 = ffff\nlocks\n")
        self.assertRegex(out, r"SVID2 0000 -> 1234, closed")
        self.assertRegex(out, r"FFFFFFFF")
        self.assertRegex(out, r"SVID2 is closed since step 1")
        self.assertRegex(out, r"(?m)^ *SVID2 +1234 +closed")
        self.assertRegex(out, r"(?m)^ *SID2 +0000 +open")

    def test_why_nothing_changed(self):
        self.assertIn("read-only", self.said("VID2=1\n"))
        self.assertIn("dropped", self.said("reset\nGSE=1\n"))

    def test_undo(self):
        out = self.said("SVID2=1234\nSVID2\nundo 2\nSVID2=abcd\nSVID2\n")
        self.assertRegex(out, r"SVID2 0000 -> ABCD, closed")

    def test_undo_more_than_there_is(self):
        for text in ("undo\n", "SVID2=1\nundo 5\n", "undo x\n", "undo 0\n", "undo -1\n"):
            self.assertNotIn("Traceback", twin("step", given=text).err)

    def test_save_is_played_by_run(self):
        path = os.path.join(self.room, "saved.session")
        self.said(f"SVID2=1234\n2c.w\nreset\nend\nsave {path}\n")
        self.assertEqual("W 2C 3 00001234\nR 2C 3\nW A8 1 00000001\nE\n", open(path).read())
        self.assertStatus(0, twin("run", path))

    def test_map_history_help(self):
        out = self.said("GSE=12345678\nmap GSE\nhistory\nhelp\nmap\n")
        self.assertIn("12345678", out)
        self.assertIn("W E4 F 12345678", out)
        self.assertIn("undo", out)

    def test_what_is_not_understood(self):
        done = twin("step", given="foo\nSVID2=1234\nsave /no/such/folder/x\nmap FOO\nlocks\nW\n")
        self.assertNotIn("Traceback", done.err)
        self.assertIn("SVID2 0000 -> 1234", done.out)
        self.assertIn("foo", done.err + done.out)

    def test_a_terminal_has_a_prompt(self):
        terminal, side = pty.openpty()
        child = subprocess.Popen(TWIN + ["step"], cwd=TOP, stdin=side, stdout=side, stderr=side, close_fds=True)
        os.close(side)
        os.write(terminal, b"SVID2=1234\nlocks\nquit\n")
        said = b""
        try:
            while select.select([terminal], [], [], 30)[0]:
                said += os.read(terminal, 4096)
        except OSError:  # the other side is closed
            pass
        finally:
            os.close(terminal)
        self.assertEqual(0, child.wait(timeout=30))
        self.assertIn(b"twin> ", said)
        self.assertIn(b"SVID2 0000 -> 1234, closed", said)

    def test_host_updates_and_the_window(self):
        out = self.said("H 06 08 08\nF 00001152\nU 004094 F\nplatform\n")
        self.assertRegex(out, r"PCISTS2 0090 -> 0098")
        self.assertIn("00001153", out)


class Snapshots(Test):
    def test_they_are_the_proved_programs(self):
        for path in ("examples/snapshot.session", "tests/data/seabios-linux.console"):
            self.assertEqual(proved("snapshot", text_of(path)), twin("snapshot", path).out)

    def test_to_a_file(self):
        path = os.path.join(self.room, "out.lspci")
        done = twin("snapshot", "examples/snapshot.session", "-o", path)
        self.assertStatus(0, done)
        self.assertEqual("", done.out)
        self.assertEqual(quick("snapshot", "examples/snapshot.session").out, open(path).read())

    def test_lspci_reads_it(self):
        path = self.put("x.lspci", twin("snapshot", given="SVID2=1234\r\nSID2=5678\r\n").out)
        self.assertIn("Subsystem: Device 1234:5678", run(["lspci", "-v", "-F", path]).out)

    def test_a_bad_line(self):
        self.refused(twin("snapshot", given="R 2C\n"), ":1: ")


class Sheets(Test):
    def test_show_and_play(self):
        for name in ("uart", "lock"):
            self.assertEqual(text_of(f"tests/data/{name}.table"), quick("sheet", "show", f"examples/{name}.sheet").out)
        self.assertEqual(text_of("tests/data/uart.stdout"), twin("sheet", "play", "examples/uart.sheet", "examples/uart.session").out)

    def test_lines_as_people_write_them(self):
        done = twin("sheet", "play", "examples/uart.sheet", "--beside", given="w 4 1 3\r\nh 6 8 8\nz\n# x\nr 4 f\n")
        self.assertEqual(["W 04 1 00000003\tOK", "H 06 08 08\tOK", "Z\tOK", "R 04 F\tOK 00080000"], done.lines)

    def test_lines_of_another_program(self):
        for line in ("E", "K 13", "O 0CF8 4 80001000", "R SVID2 3", "read 0xcfc 2 0"):
            with self.subTest(line):
                self.refused(twin("sheet", "play", "examples/uart.sheet", given=line + "\n"), ":1: ")

    def test_a_name_that_is_no_text(self):
        # the file's own name, and the folder's
        for path in (os.path.join(os.fsencode(self.room), b"a\xff.sheet"), os.path.join(os.fsencode(self.room), b"\xc3\x28", b"a.sheet")):
            with self.subTest(path):
                os.makedirs(os.path.dirname(path), exist_ok=True)
                shutil.copyfile(os.path.join(TOP, "examples", "uart.sheet"), path)
                name = os.fsdecode(path)
                self.assertEqual(text_of("tests/data/uart.table"), twin("sheet", "show", name).out)
                self.assertEqual(text_of("tests/data/uart.stdout"), twin("sheet", "play", name, "examples/uart.session").out)
                with open(path, "wb") as file:
                    file.write(b"\x01\x10\x09\x05\x00")
                for deed in ("show", "play"):
                    self.refused(twin("sheet", deed, name, given="R 00 F\n"), ".sheet: entry 1 at 10: its length is 9, and a register has 1 to 8 bytes")

    def test_a_refused_sheet(self):
        path = self.put("bad.sheet", b"\x01\x10\x09\x05\x00")
        for words in (["show", path], ["play", path]):
            self.refused(twin("sheet", *words, given="R 00 F\n"), "bad.sheet: entry 1 at 10: its length is 9, and a register has 1 to 8 bytes")


class Maps(Test):
    def test_text(self):
        done = twin("map")
        self.assertStatus(0, done)
        for register in registers.REGISTERS:
            self.assertRegex(done.out, rf"(?m)^{register.at:02X} +{register.name} +{register.size} +{register.default:0{2 * register.size}X} ")

    def test_pictures(self):
        for kind in ("html", "svg"):
            path = os.path.join(self.room, "map." + kind)
            self.assertStatus(0, twin("map", "--" + kind, path))
            text = open(path, encoding="utf-8").read()
            self.assertEqual([], [one for one in re.findall(r"https?://[^\"' <>]+", text) if "www.w3.org" not in one])
            for register in registers.REGISTERS:
                self.assertIn(register.name, text)
            self.assertEqual(text, open(path, encoding="utf-8").read())


class Differences(Test):
    def test_the_same(self):
        done = twin("diff", "examples/lock.session", "examples/lock.session")
        self.assertStatus(0, done)

    def test_sessions_and_snapshots(self):
        one = self.put("one.lspci", twin("snapshot", given="SVID2=1234\n").out)
        two = self.put("two.session", "SVID2=1235\nINTERRUPT_LINE=b\n")
        for words in ((one, two), (two, one)):
            done = twin("diff", *words)
            self.assertStatus(1, done)
            self.assertRegex(done.out, r"(?m)^2C +SVID2 .*\b0\b.*lock")
            self.assertRegex(done.out, r"(?m)^3C +INTRLINE .*plain")

    def test_a_text_of_several_devices(self):
        text = "00:00.0 0600: 8086:0150\n" + "".join(f"{row:02x}: " + " ".join(["11"] * 16) + "\n" for row in range(0, 256, 16)) + "\n"
        path = self.put("all.lspci", text + twin("snapshot", given="").out)
        self.assertStatus(0, twin("diff", path, self.put("empty", "")))

    def test_standard_input(self):
        self.assertStatus(1, twin("diff", "-", self.put("empty", ""), given="GSE=1\n"))


class Made(Test):
    """What is made of the definitions is what they give now."""

    def test_a_changed_row_is_found(self):
        top = os.path.join(self.room, "top")
        os.makedirs(os.path.join(top, "tools"))
        for name in ("crates/map/specs", "crates/rules/specs", "crates/answer/specs"):
            os.makedirs(os.path.dirname(os.path.join(top, name)), exist_ok=True)
            subprocess.run(["cp", "-r", os.path.join(TOP, name), os.path.join(top, name)], check=True)
        subprocess.run(["cp", "-r", os.path.join(TOP, "door"), top], check=True)
        subprocess.run(["cp", os.path.join(TOP, "tools", "registers"), os.path.join(top, "tools")], check=True)
        words = [TWIN[0], os.path.join(top, "tools", "registers")]
        self.assertStatus(0, run(words + ["--check"]))
        for file, old, new in (("map/specs/Map.antt", "row PCISTS2 2 0x0090", "row PCISTS2 2 0x0010"), ("map/specs/Registers.antt", "SID2 = 0x2E", "SID2 = 0x2A"),
                               ("answer/specs/Refusals.antt", "LANES = 6", "LANES = 7"), ("rules/specs/Window.antt", "ASSRREQ = 0x0810C", "ASSRREQ = 0x0810D")):
            with self.subTest(file):
                path = os.path.join(top, "crates", file)
                before = open(path, encoding="utf-8").read()
                self.assertEqual(1, before.count(old))
                with open(path, "w", encoding="utf-8") as out:
                    out.write(before.replace(old, new))
                done = run(words + ["--check"])
                self.assertEqual(1, done.status, str(done))
                with open(path, "w", encoding="utf-8") as out:
                    out.write(before)
        self.assertStatus(0, run(words))
        self.assertStatus(0, run(words + ["--check"]))

    def test_locks(self):
        self.assertEqual(["SVID2", "SID2", "SWSCI.15"], [lock.name for lock in registers.LOCKS])
        self.assertEqual([(0x2C, 0x2D), (0x2E, 0x2F), (0xE9,)], [lock.at_bytes for lock in registers.LOCKS])

    def test_every_bit_has_a_kind(self):
        kinds = [registers.kind_at(byte, bit) for byte in range(256) for bit in range(8)]
        self.assertEqual(set(registers.KINDS), set(kinds))
        self.assertEqual({"lock": 33, "reset start": 1, "power": 2, "size code": 2, "computed": 8}, {kind: kinds.count(kind) for kind in ("lock", "reset start", "power", "size code", "computed")})

    def test_forms_are_those_of_the_programs(self):
        examples = "".join(form.example + "\n" for form in lines.FORMS.values())
        for program, words in (("player", []), ("console", []), ("sheet_player", ["examples/uart.sheet"])):
            said = proved(program, examples, *words).split("\n")
            for form, answer in zip(lines.FORMS.values(), said):
                self.assertEqual(program in form.programs, answer != "NO 9", f"{program}: {form.example}: {answer}")
