"""What the tests of the front door share: `twin` run, boards and made sessions of the second program, and a folder of their own."""
import importlib.machinery
import importlib.util
import io
import json
import os
import re
import resource
import signal
import subprocess
import sys
import tempfile
import unittest

sys.dont_write_bytecode = True
TOP = os.path.dirname(os.path.dirname(os.path.dirname(os.path.abspath(__file__))))
sys.path.insert(0, TOP)
TWIN = [sys.executable, os.path.join(TOP, "twin")]
SECOND = os.path.join(TOP, "tests", "second", "target", "release")
LIMIT = 60  # seconds after which a run counts as hanging

# programs are run as a user has them: an output without a buffer would tell of a full disk sooner than one with it
for name in [name for name in os.environ if name.startswith("PYTHON")]:
    del os.environ[name]


def text_of(path):
    """A file of the repository."""
    with open(os.path.join(TOP, path), encoding="utf-8") as file:
        return file.read()


def tool(name):
    """A tool of the repository, as a module."""
    loader = importlib.machinery.SourceFileLoader(name, os.path.join(TOP, "tools", name))
    module = importlib.util.module_from_spec(importlib.util.spec_from_loader(name, loader))
    loader.exec_module(module)
    return module


class Run:
    """How a program ended, and what it wrote."""

    def __init__(self, done):
        self.status = done.returncode
        self.out = (done.stdout or b"").decode("utf-8", "replace")
        self.err = (done.stderr or b"").decode("utf-8", "replace")

    @property
    def lines(self):
        return self.out.split("\n")[:-1]

    @property
    def json(self):
        return json.loads(self.out)

    def __str__(self):
        return f"status {self.status}\n-- standard output\n{self.out[-3000:]}\n-- standard error\n{self.err[-3000:]}"


def run(words, given=b"", cwd=TOP, limit=LIMIT, **more):
    """Runs a program on an input."""
    given = given.encode() if isinstance(given, str) else given
    more = {"stdout": subprocess.PIPE, "stderr": subprocess.PIPE, **more}
    return Run(subprocess.run(words, input=given, cwd=cwd, timeout=limit, **more))


def twin(*words, given=b"", **more):
    """Runs `twin` with these words."""
    return run(TWIN + [str(word) for word in words], given, **more)


class Ended:
    """How a call inside this process ended."""

    def __init__(self, returncode, stdout, stderr):
        self.returncode, self.stdout, self.stderr = returncode, stdout, stderr


def quick(*words):
    """`twin` inside this process, for the many runs that look at what it says and not at how it is started."""
    from door import cli
    outputs = [io.TextIOWrapper(io.BytesIO(), encoding="utf-8", write_through=True) for _ in range(2)]
    was = sys.stdout, sys.stderr, os.getcwd()
    sys.stdout, sys.stderr = outputs
    os.chdir(TOP)
    try:
        status = cli.main([str(word) for word in words])
    finally:
        sys.stdout, sys.stderr, folder = was
        os.chdir(folder)
    return Run(Ended(status, *(output.buffer.getvalue() for output in outputs)))


def log_of(session, fault=None):
    """The log of a board that was given console lines, faithful or with a fault."""
    done = run([os.path.join(SECOND, "board")] + (["--fault", fault] if fault else []), session)
    assert done.status == 0, done
    return done.out


def made(seed, lines, mode="console"):
    """A made session of the second program."""
    return run([os.path.join(SECOND, "sessions"), str(seed), str(lines), mode]).out


def faults():
    """The names of the faults that a board can have."""
    return [line.split()[0] for line in run([os.path.join(SECOND, "board"), "--list"]).lines]


class Case:
    """A fault's session in tests/data/boards.txt: where it shows, in which registers, and which locks it breaks."""

    def __init__(self, heading, session):
        found = re.fullmatch(r"(?P<name>[\w-]+): line (?P<line>\d+), (?P<registers>[\w +]+?)(?:, breaks (?P<locks>.+))?", heading)
        self.name, self.line = found["name"], int(found["line"])
        self.registers, self.locks = found["registers"].split(" "), (found["locks"] or "").split()
        self.session = session.strip("\n") + "\n"


def cases():
    """Every fault's session."""
    return [Case(*part.split("\n", 1)) for part in text_of("tests/data/boards.txt").split("\n== ")[1:]]


class Test(unittest.TestCase):
    """A test with a folder of its own, outside the checkout: `rt ci` refuses one in which a crate's file lies elsewhere."""

    maxDiff = 4000

    def setUp(self):
        room = tempfile.TemporaryDirectory(prefix="twin-")
        self.addCleanup(room.cleanup)
        self.room = room.name

    def put(self, name, content):
        """Writes a file of the folder; its path."""
        path = os.path.join(self.room, name)
        os.makedirs(os.path.dirname(path), exist_ok=True)
        with open(path, "wb") as file:
            file.write(content.encode() if isinstance(content, str) else content)
        return path

    def assertStatus(self, status, done):
        self.assertEqual(status, done.status, str(done))
        self.assertNotIn("Traceback", done.err + done.out)

    def refused(self, done, *words, status=2):
        """It ended with a sentence on standard error that has these words."""
        self.assertStatus(status, done)
        self.assertTrue(done.err.strip(), "nothing on standard error")
        for word in words:
            self.assertIn(word, done.err)


def most_memory():
    """The most memory that a child of this process held, in KiB."""
    return resource.getrusage(resource.RUSAGE_CHILDREN).ru_maxrss


def started(words, **more):
    """Starts a program with SIGPIPE as a shell has it."""
    return subprocess.Popen(words, cwd=TOP, preexec_fn=lambda: signal.signal(signal.SIGPIPE, signal.SIG_DFL), **more)


def bash(command, limit=LIMIT, path=None):
    """What a command prints in the repository's root, both outputs together."""
    environment = {**os.environ, "LC_ALL": "C.UTF-8", "PYTHONDONTWRITEBYTECODE": "1"}
    if path:
        environment["PATH"] = path + os.pathsep + environment["PATH"]
    done = subprocess.run(["bash", "-c", command], cwd=TOP, env=environment, timeout=limit,
                          stdin=subprocess.DEVNULL, stdout=subprocess.PIPE, stderr=subprocess.STDOUT)
    return done.stdout.decode("utf-8", "replace")
