"""The must-fail edits: what each says, and what `rt check` says of a crate with one of them.

A crate with an edit is checked in a copy outside the checkout, over what a check of the crate as it stands proved, as many at a time as
there are processors and memory. What a check said is kept in the cache folder by the checksum of all that it read, so that the next run,
in this checkout or another, reads it there.
"""
import contextlib
import fcntl
import hashlib
import os
import re
import shutil
import subprocess
import sys
import tempfile
import threading
import time
from concurrent.futures import FIRST_COMPLETED, ThreadPoolExecutor, wait

sys.path.insert(0, os.path.dirname(os.path.dirname(os.path.abspath(__file__))))
from door import proved  # noqa: E402, the repository's own

PARTS = proved.SOURCES
EACH = 2_500_000_000  # bytes of memory that a check may want
DAYS = 30  # after which a log that nobody asked for goes


class Mistake(Exception):
    """A sentence for whoever called."""


# ---- what an edit says


class Change:
    """A named wrong program: what must fail, whose names those may be, its own name, and the replacements, each a file, its old text and its new one."""

    def __init__(self, fails, what):
        self.fails, self.meant, self.what, self.replacements = fails, {fails}, what, []

    def in_code(self):
        return bool(self.replacements) and all(file.startswith("src/") for file, _, _ in self.replacements)


def read(text):
    """The changes of an edit, and what is wrong with how it is written."""
    changes, wrong, file, old = [], [], "", None
    for line in text.split("\n"):
        word, _, rest = line.partition(": ")
        if word == "fails":
            names = rest.split()
            if len(names) != 2:
                wrong.append(f"'{line}' is not 'fails: F what_it_is'")
            changes.append(Change(*(names + ["?", "?"])[:2]))
        elif word == "file":
            file = rest
        elif word == "old":
            old = rest
        elif line.startswith("new:"):
            if not changes:
                wrong.append("a change stands before the first 'fails:' line")
            else:
                changes[-1].replacements.append((file, old, line[len("new:") :].removeprefix(" ")))
            old = None
    if not changes:
        wrong.append("no 'fails:' line says what must fail")
    return changes, wrong


def replacements(changes):
    """All that the changes replace, in their order."""
    return tuple(one for change in changes for one in change.replacements)


def alone(changes, what):
    """What one wrong program replaces; two laws may refuse it, each by a line of its own."""
    return replacements([change for change in changes if change.what == what])


def listed(crates):
    """(crate, label) of every edit."""
    for crate in sorted(os.listdir(crates)):
        folder = os.path.join(crates, crate, "must-fail")
        for name in sorted(os.listdir(folder)) if os.path.isdir(folder) else []:
            if name.endswith(".edit"):
                yield crate, name[: -len(".edit")]


def text_of(path):
    with open(path, encoding="utf-8", errors="replace") as file:
        return file.read()


# ---- an edit, made


def files_of(folder):
    """The files below src/, specs/ and proofs/, by their paths from the crate's folder."""
    found = []
    for part in PARTS:
        for at, _, names in os.walk(os.path.join(folder, part)):
            found += [os.path.relpath(os.path.join(at, name), folder) for name in names]
    return sorted(found)


def replaced(folder, changed):
    """The texts that replacements make, by their files; a Mistake where an old text does not stand once."""
    texts = {}
    for file, old, new in changed:
        path = os.path.join(folder, file)
        if file not in texts:
            if not file.startswith(tuple(part + "/" for part in PARTS)) or not os.path.isfile(path):
                raise Mistake(f"there is no file {file or '?'}")
            texts[file] = text_of(path)
        count = texts[file].count(old) if old else 0
        if count != 1:
            raise Mistake(f"an old text stands {count} times in {file}, and not once: {old}")
        texts[file] = texts[file].replace(old, new)
    return texts


# ---- copies


def store():
    """The cache folder, outside the checkout."""
    at = os.path.join(os.environ.get("XDG_CACHE_HOME") or os.path.expanduser("~/.cache"), "bronkellis")
    try:
        os.makedirs(at, exist_ok=True)
    except OSError:
        at = os.path.join(tempfile.gettempdir(), f"bronkellis-{os.getuid()}")
        os.makedirs(at, exist_ok=True)
    return at


def link(one, other):
    """A second name for a file that is replaced and never written into; a copy where it cannot have one."""
    try:
        os.link(one, other)
    except OSError:
        shutil.copy2(one, other)


def link_proved(one, other):
    """The same for libraries and for what a check has proved; whatever else there is, is copied."""
    (link if one.endswith(".oantt") or "/out/rlib/" in one else shutil.copy2)(one, other)


def take(folder, to, how):
    """Takes a folder over, if it is there and stays there meanwhile."""
    if os.path.isdir(folder):
        try:
            shutil.copytree(folder, to, copy_function=how)
        except (OSError, shutil.Error):
            shutil.rmtree(to, ignore_errors=True)


@contextlib.contextmanager
def in_room(name):
    """An empty folder for copies, which one run has at a time. Its name stays: rt notes each folder in which it checked."""
    at = os.path.join(store(), name)
    with open(at + ".lock", "w") as lock:
        fcntl.flock(lock, fcntl.LOCK_EX)
        shutil.rmtree(at, ignore_errors=True)
        try:
            yield at
        finally:
            shutil.rmtree(at, ignore_errors=True)


def copied(top, crate, root):
    """Makes a copy of a crate and of what it stands on, with what is proved of them in the checkout."""
    lines, names = proved.crate_lines(top), proved.stands_on(crate, top)
    os.makedirs(root)
    with open(os.path.join(root, "crates.txt"), "w", encoding="utf-8") as file:
        file.write("".join(lines[name] + "\n" for name in names))
    for name in names:
        here, there = (os.path.join(it, "crates", name) for it in (top, root))
        os.makedirs(there)
        for part in PARTS:
            if os.path.isdir(os.path.join(here, part)):
                shutil.copytree(os.path.join(here, part), os.path.join(there, part))
        take(os.path.join(here, "out", "rlib"), os.path.join(there, "out", "rlib"), link)
    out = os.path.join("crates", crate, "out", "incremental")
    take(os.path.join(top, out), os.path.join(root, out), link_proved)


def put(root, crate, texts):
    """Puts changed texts into a copy; the files that they replace may have other names elsewhere."""
    for file, text in texts.items():
        path = os.path.join(root, "crates", crate, file)
        os.remove(path)
        with open(path, "w", encoding="utf-8") as out:
            out.write(text)


def checked(root, crate, *flags):
    """The status of `rt check` in a copy, and all that it says."""
    words = ["rt", "check", *flags]
    run = subprocess.run(words, cwd=os.path.join(root, "crates", crate), stdin=subprocess.DEVNULL, stdout=subprocess.PIPE, stderr=subprocess.STDOUT)
    return run.returncode, run.stdout.decode("utf-8", "replace")


# ---- logs


class Logs:
    """What `rt check` says of edits: out of the cache folder, or made."""

    def __init__(self, top, say=print):
        if not shutil.which("rt"):
            raise Mistake("rt, the Rattle toolchain, is not on the path")
        self.top, self.say, self.sums, self.told = top, say, {}, {}
        self.lines = proved.crate_lines(top)
        self.kept = os.path.join(store(), "held")
        os.makedirs(self.kept, exist_ok=True)
        version = subprocess.run(["rt", "version"], stdin=subprocess.DEVNULL, stdout=subprocess.PIPE)
        self.version = version.stdout.decode("utf-8", "replace").strip()

    def sum_of(self, crate):
        """A sum of a crate's files and its line of crates.txt."""
        if crate not in self.sums:
            folder = os.path.join(self.top, "crates", crate)
            total = hashlib.sha256(repr(self.lines.get(crate)).encode())
            for file in files_of(folder):
                with open(os.path.join(folder, file), "rb") as it:
                    total.update(repr((file, it.read())).encode())
            self.sums[crate] = total.hexdigest()
        return self.sums[crate]

    def key(self, crate, changed):
        read_by = [(name, self.sum_of(name)) for name in proved.stands_on(crate, self.top)]
        return hashlib.sha256(repr((self.version, read_by, changed)).encode()).hexdigest()

    def log(self, crate, changed):
        """What is known of a crate with these replacements, or None."""
        key = self.key(crate, changed)
        if key not in self.told:
            path = os.path.join(self.kept, key)
            try:
                self.told[key] = text_of(path)
                os.utime(path)
            except OSError:
                return None
        return self.told[key]

    def keep(self, crate, changed, status, text):
        """Remembers a log; on the disk only a verdict, which the same check would give again."""
        key = self.key(crate, changed)
        self.told[key] = text
        if status in (0, 1):
            with tempfile.NamedTemporaryFile("w", dir=self.kept, prefix="new-", delete=False, encoding="utf-8") as file:
                file.write(text)
            os.replace(file.name, os.path.join(self.kept, key))

    def make(self, wanted):
        """Makes the logs that are not there: of (crate, what to call it, replacements). Says how long each took."""
        todo = {}
        for crate, name, changed in wanted:
            if self.log(crate, changed) is None:
                todo.setdefault(crate, {})[changed] = name
        count = sum(map(len, todo.values()))
        if not count:
            return
        lanes = at_a_time()
        self.say(f"{count} edits to try, {lanes} at a time")
        with in_room("trying") as room, ThreadPoolExecutor(lanes) as pool:
            free, lock = list(range(lanes)), threading.Lock()

            def seed(crate):
                """The crate as it stands is checked first: each edit begins with what that proved."""
                root = os.path.join(room, crate)
                copied(self.top, crate, root)
                return crate, checked(root, crate, "--jobs", "1")

            def one(crate, changed, name):
                with lock:
                    lane = os.path.join(room, f"lane-{free.pop()}")
                began = time.monotonic()
                try:
                    shutil.copytree(os.path.join(room, crate), lane, copy_function=link_proved)
                    put(lane, crate, replaced(os.path.join(lane, "crates", crate), changed))
                    self.keep(crate, changed, *checked(lane, crate, "--jobs", "1"))
                finally:
                    shutil.rmtree(lane, ignore_errors=True)
                    with lock:
                        free.append(int(lane.rpartition("-")[2]))
                self.say(f"{crate}/{name} tried ({time.monotonic() - began:.0f} s)")

            running = {pool.submit(seed, crate) for crate in sorted(todo, key=lambda it: -len(todo[it]))}
            while running:
                done, running = wait(running, return_when=FIRST_COMPLETED)
                for crate, (status, text) in filter(None, (it.result() for it in done)):
                    if status:
                        self.say(f"{crate} is not proved as it stands, so its edits are not tried: {why(text)}")
                    else:
                        running |= {pool.submit(one, crate, changed, name) for changed, name in todo[crate].items()}
        self.clean()

    def clean(self):
        """Lets go of logs for which nobody asked for long."""
        for entry in os.scandir(self.kept):
            with contextlib.suppress(OSError):
                if entry.stat().st_mtime < time.time() - DAYS * 86400:
                    os.remove(entry.path)


def reached(log):
    """Whether a log is a check's, and not the front end's alone."""
    return re.search(r"(?m)^logic=", log) is not None


def why(text):
    """The line of a log that says most of what went wrong."""
    lines = text.rstrip("\n").split("\n")
    return next((it for pattern in (r"error\b", r"not proved|no proof|did not build") for it in lines if re.search(pattern, it)), lines[-1])[:200]


def at_a_time():
    """How many checks run side by side: RT_JOBS, or as many as there are processors, and memory."""
    if os.environ.get("RT_JOBS", "").isdigit():
        return max(1, int(os.environ["RT_JOBS"]))
    with open("/proc/meminfo", encoding="ascii") as file:
        free = 1024 * int(re.search(r"MemAvailable:\s+(\d+)", file.read())[1])
    return max(1, min(len(os.sched_getaffinity(0)), free // EACH))
