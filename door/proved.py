"""The proved programs and the library: built where they are not; programs are run through pipes, and held to an answer to every line."""
import contextlib
import os
import re
import select
import shutil
import subprocess
import sys
import tempfile

ROOT = os.path.dirname(os.path.dirname(os.path.abspath(__file__)))
EMULATOR = "qemu-x86_64"
LOADER = "/lib64/ld-linux-x86-64.so.2"
BATCH = 1000  # lines that are asked at a time
SOURCES = ("src", "specs", "proofs")


class Failed(Exception):
    """What could not be had of a proved program, as a sentence; `said` is what the program itself wrote to standard error."""

    def __init__(self, text, said=""):
        super().__init__(text)
        self.said = said


def path_of(*parts):
    """A path in the repository."""
    return os.path.join(ROOT, *parts)


@contextlib.contextmanager
def faults_of(name):
    """Gives a file's name to its faults; one without a name is standard output's."""
    try:
        yield
    except OSError as error:
        error.filename = error.filename or name
        raise


# ---- building

def crate_lines(root=ROOT):
    """The crates of a repository's crates.txt, each with its line."""
    with open(os.path.join(root, "crates.txt"), encoding="utf-8") as file:
        listed = (line.partition("#")[0].strip() for line in file)
        return {line.partition(":")[0].split()[0]: line for line in listed if ":" in line}


def crates(root=ROOT):
    """The same, each with those that it names; the kit's own do not count."""
    listed = crate_lines(root)
    return {name: [one for one in line.partition(":")[2].split() if one in listed] for name, line in listed.items()}


def stands_on(name, root=ROOT):
    """The crates that one stands on, each after those that it stands on itself, and itself last."""
    listed, found = crates(root), []

    def add(one):
        if one not in found:
            for below in listed.get(one, []):
                add(below)
            found.append(one)

    add(name)
    return found


def is_program(name):
    return os.path.exists(path_of("crates", name, "src", "main.rt"))


def place_of(name):
    """Where a program stands for all that run it, and the library for all that link it."""
    return path_of("target", "bin", name) if is_program(name) else path_of("target", "staticlib", "lib%s.a" % name)


def made_by_rt(name):
    """Where rt leaves it."""
    return path_of("crates", name, "out", name if is_program(name) else "lib%s.a" % name)


def newest_below(folder):
    """When the newest file below a folder was written, in nanoseconds; 0 where there is none."""
    newest, folders = 0, [folder]
    while folders:
        try:
            with os.scandir(folders.pop()) as entries:
                for entry in entries:
                    if entry.is_dir(follow_symlinks=False):
                        folders.append(entry.path)
                    else:
                        newest = max(newest, entry.stat(follow_symlinks=False).st_mtime_ns)
        except FileNotFoundError:
            continue
    return newest


def built(name, path=None):
    """Whether a program or the library is there and no source of a crate that it stands on is newer."""
    try:
        made = os.stat(path or place_of(name)).st_mtime_ns
    except FileNotFoundError:
        return False
    return all(newest_below(path_of("crates", crate, part)) <= made for crate in stands_on(name) for part in SOURCES)


def build(name):
    """Proves and builds a program or the library where it is missing or older than its sources; says on standard error how far it is."""
    if built(name):
        return
    with _one_at_a_time():
        if built(name):
            return
        # what `rt ci` or `rt run` has proved and built of these very sources is taken as it is
        if not built(name, made_by_rt(name)):
            _prove(name)
        _take(name)


def _take(name):
    """Puts what rt built where it is looked for, in one step: a program that runs meanwhile goes on."""
    place = place_of(name)
    os.makedirs(os.path.dirname(place), exist_ok=True)
    shutil.copy(made_by_rt(name), place + ".new")
    os.replace(place + ".new", place)


class _one_at_a_time:
    """Two commands that find the same program missing build it one after the other."""

    def __enter__(self):
        import fcntl
        os.makedirs(path_of("target"), exist_ok=True)
        self.file = open(path_of("target", ".door"), "w")
        fcntl.flock(self.file, fcntl.LOCK_EX)

    def __exit__(self, *_):
        self.file.close()


def _prove(name):
    """Has rt prove and build it, in its crate's folder: `rt run` a program, which is given nothing and hence ends, `rt lib` the library."""
    if not shutil.which("rt"):
        there = os.path.relpath(place_of(name), ROOT)
        raise Failed("%s %s, and `rt`, which proves and builds it, is not on the path: the Rattle toolchain is needed"
                     % (there, "is older than its sources" if os.path.exists(place_of(name)) else "is not built"))
    plan = stands_on(name)
    progress = _Progress(name, plan)
    run = subprocess.Popen(["rt", "run" if is_program(name) else "lib"], cwd=path_of("crates", name), stdin=subprocess.DEVNULL,
                           stdout=subprocess.PIPE, stderr=subprocess.STDOUT)
    wrong, runs = [], False
    try:
        for line in progress.lines(run.stdout):
            begun = re.match(r"rt: chose --jobs \d+ for (\w+)$", line)
            # what comes from there on is the program's
            runs = runs or line.startswith("rt: running out/")
            if begun and begun[1] in plan:
                progress.step(begun[1])
            elif not runs and re.search(r"\berror\b|: not proved|: no proof|did not build", line):
                wrong.append(line.strip())
        status = run.wait()
    finally:
        progress.end()
        if run.poll() is None:
            run.terminate()
            run.wait()
    if not runs if is_program(name) else status != 0:
        said = " (%s)" % wrong[0][:200] if wrong else ""
        raise Failed("%s could not be proved and built%s; `rt check` in crates/%s of %s says why" % (name, said, name, ROOT))
    if not os.path.exists(made_by_rt(name)):
        raise Failed("rt built no %s" % os.path.relpath(made_by_rt(name), ROOT))


class _Progress:
    """A line that moves: `[7/15] lines`, the seventh crate is being proved, in place on a terminal, else a line each."""

    def __init__(self, name, plan):
        self.plan, self.done, self.name, self.seconds = plan, 0, name, 0
        self.moves = sys.stderr is not None and sys.stderr.isatty()
        self._say("twin: proving and building %s, minutes the first time\n" % name)

    def lines(self, pipe):
        """The lines of a pipe; between them the line moves once a second."""
        rest = b""
        while True:
            ready, _, _ = select.select([pipe], [], [], 1 if self.moves else None)
            if not ready:
                self.seconds += 1
                self._show("")
                continue
            block = os.read(pipe.fileno(), 65536)
            if not block:
                break
            *whole, rest = (rest + block).split(b"\n")
            for line in whole:
                yield line.decode("utf-8", "replace")
        if rest:
            yield rest.decode("utf-8", "replace")

    def step(self, crate):
        self.done, self.name = self.plan.index(crate) + 1, crate
        self._show("" if self.moves else "\n")

    def _show(self, end):
        start = "\r\x1b[K" if self.moves else ""
        clock = "  %d s" % self.seconds if self.moves and self.seconds else ""
        self._say("%s[%d/%d] %s%s%s" % (start, self.done, len(self.plan), self.name, clock, end))

    def end(self):
        if self.moves and (self.done or self.seconds):
            self._say("\r\x1b[K")

    @staticmethod
    def _say(text):
        if sys.stderr is not None:
            sys.stderr.write(text)
            sys.stderr.flush()


# ---- running

def argv(name, *args):
    """How a proved program is run here: itself, or through the emulator."""
    program = path_of("target", "bin", name)
    if os.uname().machine == "x86_64":
        return [program] + list(args)
    if not shutil.which(EMULATOR) or not os.path.exists(LOADER):
        _emulator()
    return [EMULATOR, program] + list(args)


def _emulator():
    """Installs what runs x86-64 programs on another machine, as tools/x86.sh does."""
    done = subprocess.run(["bash", "-ec", ". tools/x86.sh; x86_runner"], cwd=ROOT, stdin=subprocess.DEVNULL, stdout=sys.stderr)
    if done.returncode != 0 or not shutil.which(EMULATOR):
        raise Failed("the programs are x86-64 code, and %s is not here: install Debian's qemu-user, and libc6 of amd64" % EMULATOR)


def start(name, *args, **pipes):
    """Starts a proved program, built first where it is not. Ctrl-C on a terminal is twin's; the program ends with its input."""
    build(name)
    try:
        return subprocess.Popen(argv(name, *args), start_new_session=True, **pipes)
    except OSError as error:
        raise Failed("%s could not be started: %s" % (name, error.strerror)) from None


def ended(name, status, said):
    """Fails where a program ended badly or wrote to standard error."""
    said = said.decode("utf-8", "replace").strip()
    if status != 0 or said:
        how = "status %d" % status if status >= 0 else "signal %d" % -status
        raise Failed("%s %s" % (name, ("said: " + said) if said else "ended with " + how), said)


class Program:
    """A running proved program of lines. Whatever the pipes hold, asking never blocks on a full one."""

    def __init__(self, name, *args):
        self.name, self.asked, self.answered = name, 0, 0
        self.errors = tempfile.TemporaryFile()
        self.process = start(name, *args, stdin=subprocess.PIPE, stdout=subprocess.PIPE, stderr=self.errors, bufsize=0)
        self.into, self.out = self.process.stdin.fileno(), self.process.stdout.fileno()
        os.set_blocking(self.into, False)
        self.pending, self.heard, self.rest, self.over = b"", [], "", False

    def ask(self, lines):
        """The answers to lines, one each."""
        answers = []
        for at in range(0, len(lines), BATCH):
            batch = lines[at:at + BATCH]
            self.tell(batch)
            answers += self.hear(len(batch))
        return answers

    def tell(self, lines):
        """Writes lines; what is answered meanwhile is kept."""
        if lines:
            self.asked += len(lines)
            self.pending += ("\n".join(lines) + "\n").encode("ascii")
            while self.pending:
                self._move(True)

    def hear(self, count):
        """The next answers, as many as `count`."""
        while len(self.heard) < count:
            if self.over:
                self._missing()
            self._move(False)
        answers, self.heard = self.heard[:count], self.heard[count:]
        self.answered += count
        if "NO 9" in answers:
            at = self.answered - count + answers.index("NO 9") + 1
            raise Failed("%s knows no such line (its answer %d is NO 9): a fault of twin" % (self.name, at))
        return answers

    def _move(self, writing):
        """Waits until a pipe is ready, and moves what it takes or gives."""
        readable, writable, _ = select.select([] if self.over else [self.out], [self.into] if writing else [], [])
        if readable:
            block = os.read(self.out, 65536)
            self.over = not block
            *whole, self.rest = (self.rest + block.decode("ascii", "replace")).split("\n")
            self.heard += whole
        if writable:
            try:
                self.pending = self.pending[os.write(self.into, self.pending):]
            except BrokenPipeError:
                self.pending = b""
                self._missing()

    def _missing(self):
        """The program ended, or took no more, before all was answered."""
        self._stop()
        got = self.answered + len(self.heard)
        ended(self.name, self.process.returncode, self._said())
        raise Failed("%s gave %d answers to %d lines" % (self.name, got, self.asked))

    def _said(self):
        """What it wrote to standard error."""
        self.errors.seek(0)
        with self.errors:
            return self.errors.read()

    def _stop(self):
        """Closes the pipes and waits."""
        for pipe in (self.process.stdin, self.process.stdout):
            pipe.close()
        self.process.wait()

    def close(self):
        """Ends the program, and holds it to a good end with nothing more to say."""
        self.process.stdin.close()
        more = "".join(self.heard) + self.rest
        while not self.over:
            block = os.read(self.out, 65536)
            self.over = not block
            more += block.decode("ascii", "replace")
        self._stop()
        ended(self.name, self.process.returncode, self._said())
        if more:
            raise Failed("%s gave more answers than it was asked for" % self.name)

    def __enter__(self):
        return self

    def __exit__(self, kind, *_):
        """After another fault the program is only ended."""
        if kind is None:
            self.close()
        else:
            self.errors.close()
            if self.process.poll() is None:
                self.process.kill()
                self._stop()


def output(name, lines, *args):
    """All that a program writes when it is given lines."""
    with tempfile.TemporaryFile() as into, tempfile.TemporaryFile() as errors:
        with faults_of("a temporary file"):
            into.writelines(line.encode("ascii") + b"\n" for line in lines)
            into.seek(0)
        process = start(name, *args, stdin=into, stdout=subprocess.PIPE, stderr=errors)
        written = process.communicate()[0]
        errors.seek(0)
        ended(name, process.returncode, errors.read())
        return written
