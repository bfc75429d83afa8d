"""Files and outputs as they come: any bytes, nothing there, a full disk, a closed pipe. Never a traceback: a sentence and the right status."""
import os
import shutil
import signal
import subprocess

from common import TOP, TWIN, Test, log_of, made, quick, run, twin

from door import proved

SESSION = "W 2C 3 00001234\nR 2C 3 = FFFF1234\n"

# what a command is given in a file's place
BYTES = {
    "random": bytes(range(256)) * 40,
    "nul": b"R 00 F = 01528086\n\0\n",
    "nuls": b"\0" * 10000,
    "latin": "R 00 F = 01528086 \u00e9\n".encode("latin-1"),
    "utf16": "R 00 F = 01528086\n".encode("utf-16"),
    "long": b"R 00 F" + b" " * 1000000 + b"= 01528086\n",
    "longer": b"W" * 3000000,
    "control": b"\x1b[31mR 00 F\x1b[0m = 01528086\n",
    "equals": b"=\n",
    "arrow": b"->\n",
    "dashes": b"--help\n-\n",
    "cr": b"R 00 F\rR 00 F\r",
    "elf": b"\x7fELF\x02\x01\x01" + b"\0" * 100,
    "words": b"the quick brown fox\n",
    "digits": b"R 00 F = 123456789\n",
    "format": b"%s%n %d {0} {}\n",
    "quote": b"'\"`$(reboot)`\n",
}


class Files(Test):
    COMMANDS = (["check"], ["check", "--json"], ["run"], ["snapshot"])

    def test_any_bytes(self):
        for name, content in BYTES.items():
            path = self.put(name, content)
            for words in (["check", "--json"], ["run"], ["snapshot"]):
                with self.subTest(f"{name} {words}"):
                    done = quick(*words, path)
                    self.refused(done)
                    self.assertLess(len(done.err), 6000)
                    self.assertNotIn("\x1b", done.err)
                    self.assertNotIn("\0", done.err)

    def test_sheets_of_any_bytes(self):
        for name, content in list(BYTES.items())[:6] + [("empty", b"")]:
            path = self.put(name, content)
            with self.subTest(name):
                self.refused(quick("sheet", "show", path))
        self.refused(twin("sheet", "play", self.put("sheet", b"\1"), given=SESSION))

    def test_diff_of_any_bytes(self):
        for name, content in list(BYTES.items())[:6] + [("short", b"00: 12 34\n")]:
            with self.subTest(name):
                self.refused(quick("diff", self.put(name, content), "examples/lock.session"))

    def test_what_is_not_there(self):
        for words in self.COMMANDS + (["sheet", "show"], ["sheet", "play"]):
            with self.subTest(words):
                self.refused(quick(*words, "/no/such/file"), "/no/such/file", "No such file")
                self.refused(quick(*words, os.path.join(self.room, "x" * 300)))
        self.refused(twin("diff", "/no/such/file", "examples/lock.session"), "/no/such/file")
        self.refused(twin("diff", "examples/lock.session", "/no/such/file"), "/no/such/file")

    def test_a_folder(self):
        for words in (["run"], ["snapshot"], ["sheet", "show"], ["diff", "examples/lock.session"]):
            with self.subTest(words):
                self.refused(quick(*words, self.room), self.room)

    def test_an_unreadable_file(self):
        # one that opens, and cannot be read, for root too
        for words in self.COMMANDS + (["sheet", "show"], ["diff", "examples/lock.session"]):
            with self.subTest(words):
                self.refused(twin(*words, "/proc/self/mem"), "/proc/self/mem")
        path = self.put("closed.log", SESSION)
        os.chmod(path, 0)
        if os.geteuid():
            self.refused(twin("check", path), "Permission denied")

    def test_an_empty_file(self):
        path = self.put("empty", "")
        self.assertStatus(3, twin("check", path))
        self.assertStatus(0, twin("run", path))
        self.assertEqual(twin("snapshot", path).out, open(os.path.join(TOP, "tests", "data", "fresh.lspci")).read())

    def test_a_carriage_return_is_no_silent_nothing(self):
        session = open(os.path.join(TOP, "examples", "snapshot.session")).read()
        expected = twin("snapshot", "examples/snapshot.session").out
        for ending in ("\r\n", "\n"):
            path = self.put("session", session.replace("\n", ending))
            done = twin("snapshot", path)
            self.assertStatus(0, done)
            self.assertEqual(expected, done.out)
        self.assertStatus(0, twin("run", self.put("crlf", "R 00 F\r\nR 00 3\r\n")))

    def test_a_pipe_and_a_named_pipe(self):
        log = log_of(made(1, 2000))
        self.assertStatus(0, twin("check", "-", given=log))
        fifo = os.path.join(self.room, "fifo")
        os.mkfifo(fifo)
        writer = subprocess.Popen(["sh", "-c", f"cat > '{fifo}'"], stdin=subprocess.PIPE)
        try:
            checking = subprocess.Popen(TWIN + ["check", "--quiet", fifo], cwd=TOP, stdout=subprocess.PIPE, stderr=subprocess.PIPE)
            writer.communicate(log.encode(), timeout=60)
            out, err = checking.communicate(timeout=60)
            self.assertEqual(0, checking.returncode, err)
            self.assertIn(b"PASSED", out)
        finally:
            writer.kill()

    def test_a_file_without_its_last_end(self):
        self.assertStatus(1, twin("check", self.put("cut", "R 00 F = 0")))
        self.assertEqual(["OK 01528086"], twin("run", given="R 00 F").lines)


class Outputs(Test):
    def test_a_full_disk(self):
        log = self.put("board.log", SESSION)
        for words in (["check", log], ["check", "--json", log], ["check", "--explain", "2", log], ["check", log, log], ["run", log], ["snapshot", log],
                      ["map"], ["diff", "examples/lock.session", "examples/poll.session"], ["sheet", "show", "examples/uart.sheet"], ["--help"], ["--version"]):
            with self.subTest(words), open("/dev/full", "wb") as full:
                done = twin(*words, stdout=full)
                self.refused(done, "No space left")

    def test_a_full_disk_for_a_file(self):
        log = self.put("board.log", SESSION)
        for words in (["check", "--html", "/dev/full", log], ["check", "--junit", "/dev/full", log], ["snapshot", "-o", "/dev/full", log],
                      ["map", "--html", "/dev/full"], ["map", "--svg", "/dev/full"]):
            with self.subTest(words):
                self.refused(quick(*words), "/dev/full", "No space left")

    def test_a_file_that_cannot_be_written(self):
        log = self.put("board.log", SESSION)
        for words in (["check", "--html"], ["check", "--junit"], ["snapshot", "-o"], ["map", "--svg"]):
            given = [log] if words[0] != "map" else []
            for path in ("/no/such/folder/file", self.room):
                with self.subTest(f"{words} {path}"):
                    self.refused(quick(*words, path, *given), path)

    def test_a_closed_pipe(self):
        session = self.put("long.session", "R 00 F\n" * 60000)
        log = self.put("long.log", "R 00 F = 0\n" * 5000)
        for words in (["run", session], ["check", "--all", log], ["check", "--json", log], ["map"]):
            with self.subTest(words):
                child = subprocess.Popen(TWIN + words, cwd=TOP, stdout=subprocess.PIPE, stderr=subprocess.PIPE)
                child.stdout.read(1)
                child.stdout.close()
                complaint = child.stderr.read().decode()
                child.stderr.close()
                status = child.wait(timeout=60)
                self.assertEqual("", complaint)
                self.assertIn(status, (0, 1, 141, -signal.SIGPIPE))

    def test_closed_ends(self):
        log = self.put("board.log", SESSION)
        done = run(["bash", "-c", f"exec {' '.join(TWIN)} check '{log}' >&-"])
        self.assertNotIn("Traceback", done.err)
        self.assertEqual(2, done.status)
        done = run(["bash", "-c", f"exec {' '.join(TWIN)} run <&-"])
        self.assertNotIn("Traceback", done.err)
        self.assertIn(done.status, (0, 2))
        done = run(["bash", "-c", f"exec {' '.join(TWIN)} check '{log}' 2>&-"])
        self.assertEqual(0, done.status)

    def test_an_interrupt(self):
        # where these tests run in the background, it would be ignored
        child = subprocess.Popen(TWIN + ["check", "-"], cwd=TOP, stdin=subprocess.PIPE, stdout=subprocess.PIPE, stderr=subprocess.PIPE,
                                 preexec_fn=lambda: signal.signal(signal.SIGINT, signal.SIG_DFL))
        # more than a pipe holds: when all of it is written, most of it was read
        child.stdin.write(b"R 00 F = 01528086\n" * 20000)
        child.stdin.flush()
        child.send_signal(signal.SIGINT)
        _, complaint = child.communicate(timeout=60)
        self.assertNotIn(b"Traceback", complaint)
        self.assertIn(child.returncode, (130, -signal.SIGINT))


class Door(Test):
    """A front door of its own, with a console and commands that are scripts of the shell's."""

    def door(self, console=None, **commands):
        """The words that start it, and its environment; without a console none is built."""
        top, folder = os.path.join(self.room, "top"), os.path.join(self.room, "bin")
        os.makedirs(os.path.join(top, "target", "bin"))
        os.makedirs(folder)
        os.symlink(os.path.join(TOP, "crates.txt"), os.path.join(top, "crates.txt"))
        for name in os.listdir(os.path.join(TOP, "crates")):
            os.makedirs(os.path.join(top, "crates", name))
            # what rt builds goes beside the sources, and not into those of the repository
            for part in proved.SOURCES:
                os.symlink(os.path.join(TOP, "crates", name, part), os.path.join(top, "crates", name, part))
        subprocess.run(["cp", "-r", os.path.join(TOP, "twin"), os.path.join(TOP, "door"), top], check=True)
        if console is not None:
            self.script(os.path.join(top, "target", "bin", "console"), console)
            # the emulator runs a script as it stands
            self.script(os.path.join(folder, "qemu-x86_64"), 'exec "$@"')
        for name, text in commands.items():
            self.script(os.path.join(folder, name), text)
        return [TWIN[0], os.path.join(top, "twin")], {**os.environ, "PATH": folder + os.pathsep + os.environ["PATH"]}

    @staticmethod
    def script(path, text):
        with open(path, "w") as file:
            file.write(f"#!/bin/sh\n{text}\n")
        os.chmod(path, 0o755)


class Building(Door):
    """What a command needs is proved and built first."""

    def test_a_line_for_each_crate(self):
        made = f"for crate in bits answer map console; do echo \"rt: chose --jobs 2 for $crate\"; done; mkdir out; cp {TOP}/target/bin/console out/; echo 'rt: running out/console'"
        words, environment = self.door(rt=f'echo "$@" in "$(basename "$PWD")" >>../../called; {made}')
        done = run(words + ["run", "-"], "R 00 F\n", env=environment)
        self.assertEqual((0, "OK 01528086\n"), (done.status, done.out), str(done))
        for part in (r"console", r"\[1/(\d+)\] bits", r"\[2/\d+\] answer", r"\[\d+/\d+\] map", r"\[(\d+)/\1\] console"):
            self.assertRegex(done.err, part)
        # the second time nothing is built
        done = run(words + ["run", "-"], "R 00 F\n", env=environment)
        self.assertEqual((0, "OK 01528086\n", ""), (done.status, done.out, done.err))
        with open(os.path.join(self.room, "top", "called")) as file:
            self.assertEqual("run in console\n", file.read())

    def test_what_rt_has_built_already(self):
        words, environment = self.door(rt="exit 1")
        out = os.path.join(self.room, "top", "crates", "console", "out")
        os.makedirs(out)
        shutil.copyfile(os.path.join(TOP, "target", "bin", "console"), os.path.join(out, "console"))
        os.chmod(os.path.join(out, "console"), 0o755)
        done = run(words + ["run", "-"], "R 00 F\n", env=environment)
        self.assertEqual((0, "OK 01528086\n", ""), (done.status, done.out, done.err))

    def test_what_is_not_proved(self):
        words, environment = self.door(rt="echo 'rt: chose --jobs 2 for map'; echo 'fn map::class_of: not proved'; echo 'rt: the library map did not build, so nothing above it was checked'; exit 1")
        self.refused(run(words + ["run", "-"], "R 00 F\n", env=environment), "fn map::class_of: not proved")

    def test_a_program_that_fails_is_built_all_the_same(self):
        words, environment = self.door(rt=f"mkdir out; cp {TOP}/target/bin/console out/; echo 'rt: running out/console'; echo error; exit 3")
        done = run(words + ["run", "-"], "R 00 F\n", env=environment)
        self.assertEqual((0, "OK 01528086\n"), (done.status, done.out), str(done))

    def test_rt_is_missing(self):
        words, environment = self.door()
        for name in ("python3", "sh", "env"):
            os.symlink(f"/usr/bin/{name}", os.path.join(self.room, "bin", name))
        done = run(words + ["run", "-"], "R 00 F\n", env={**environment, "PATH": os.path.join(self.room, "bin")})
        self.refused(done, "rt", "Rattle")


class Programs(Door):
    """A proved program that fails is told of: an answer that is missing is never passed over."""

    def test_each_way_to_fail(self):
        log = self.put("board.log", "R 00 F = 01528086\nR 00 F = 01528086\nR 00 F = 01528086\n")
        for name, script in (
            ("one answer too few", "echo OK 01528086; echo OK 01528086"),
            ("none", "exit 0"),
            ("one too many", "for i in 1 2 3 4; do echo OK 01528086; done; cat >/dev/null"),
            ("a bad end", "for i in 1 2 3; do echo OK 01528086; done; cat >/dev/null; exit 7"),
            ("killed", "kill -9 $$"),
            ("a complaint", "echo trouble >&2; for i in 1 2 3; do echo OK 01528086; done; cat >/dev/null"),
            ("nonsense", "for i in 1 2 3; do echo hello; done; cat >/dev/null"),
            ("bytes", "head -c 1000 /dev/zero"),
            ("another answer than is followed", "for i in 1 2 3; do echo NO 5; done; cat >/dev/null"),
        ):
            with self.subTest(name):
                self.setUp()
                words, environment = self.door(script)
                for command in ("check", "run") if name not in ("nonsense", "bytes", "another answer than is followed") else ("check",):
                    done = run(words + [command, log], env=environment)
                    self.refused(done, "console")
