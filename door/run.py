"""Plays a file of lines on the twin and prints an answer to each.

The file has session or console lines, QEMU's port traffic or setpci's lines; comments (#), blank lines, CRLF and lower case are
understood. Every line is read first: where one cannot be understood, nothing is played.
"""
import sys
import tempfile

from door import lines, proved
from door.cli import CANNOT, WELL, say, say_bad

SAID = 20  # bad lines that are named
KEPT = 1 << 20  # bytes of canonical lines that are kept in memory


def add(parser):
    add_file(parser)
    parser.add_argument("--beside", action="store_true", help="put the line as it was played, and a tab, before each answer")


def add_file(parser, name="file", what="the file of lines; - or none is standard input"):
    """The options of every command that plays a file."""
    parser.add_argument(name, metavar=name.upper(), nargs="?", default="-", help=what)
    add_format(parser)


def add_format(parser):
    """The option that names the form of the lines."""
    parser.add_argument("--format", choices=lines.KINDS, default="auto", help="the one form of all lines; auto, each is told by looking")


class Refused(Exception):
    """Lines of a file could not be understood; they were named."""


class Spool:
    """A file's canonical lines, all read before the first is played."""

    def __init__(self, file, form="auto", program=lines.CONSOLE):
        self.file = tempfile.SpooledTemporaryFile(KEPT)
        self.count = self.answers = self.bad = self.noted = 0
        self.hint = ""
        with proved.faults_of("a temporary file"):
            for item in lines.items(file, form, program, self._refuse):
                self.answers += item.answer is not None
                self._keep(item.text)
            self.file.flush()
        if self.bad:
            if self.bad > SAID:
                say("twin: and %s more lines that cannot be understood" % format(self.bad - SAID, ","))
            say("twin: nothing was played")
            self.file.close()
            raise Refused

    def __enter__(self):
        return self

    def __exit__(self, *_):
        self.file.close()

    def _refuse(self, bad):
        """A line that cannot be understood; one that the program refuses by its offset is played, and noted."""
        if bad.line is not None:
            self._keep(bad.line)
            self.noted += 1
            if self.noted <= SAID:
                self._say(bad, "note: ")
            return
        self.bad += 1
        if self.bad <= SAID:
            self._say(bad, "")

    def _say(self, bad, kind):
        """A suggestion is given once, not to each of the lines in a row."""
        bad.hint, self.hint = "" if bad.hint == self.hint else bad.hint, bad.hint
        say_bad(bad, kind)

    def _keep(self, text):
        self.count += 1
        self.file.write(text.encode("ascii") + b"\n")

    def __iter__(self):
        self.file.seek(0)
        for line in self.file:
            yield line[:-1].decode("ascii")

    def batches(self):
        """The lines, some at a time."""
        batch = []
        for line in self:
            batch.append(line)
            if len(batch) == proved.BATCH:
                yield batch
                batch = []
        if batch:
            yield batch


def spooled(path, form, program=lines.CONSOLE):
    """A file's lines; a note where it has a board's answers, which are compared by another command."""
    with lines.opened(path) as file:
        if path == "-" and file.isatty():
            say("twin: lines from the terminal; Ctrl-D ends them")
        spool = Spool(file, form, program)
        if not spool.count:
            say("twin: note: there is no line to play in %s" % lines.name_of(file))
    if spool.answers:
        say("twin: answers of a board in the file (%s) are left aside here; `twin check` compares them" % format(spool.answers, ","))
    return spool


def play(spool, program, beside):
    """Writes the answers of a running program to a spool's lines. Two batches are under way, so that both sides have work."""
    waiting = None
    for batch in spool.batches():
        program.tell(batch)
        if waiting:
            write(waiting, program.hear(len(waiting)), beside)
        waiting = batch
    if waiting:
        write(waiting, program.hear(len(waiting)), beside)


def write(asked, answers, beside):
    pairs = ("%s\t%s\n" % pair for pair in zip(asked, answers)) if beside else (answer + "\n" for answer in answers)
    sys.stdout.write("".join(pairs))


def main(options):
    try:
        spool = spooled(options.file, options.format)
    except Refused:
        return CANNOT
    with spool, proved.Program("console") as program:
        play(spool, program, options.beside)
    return WELL
