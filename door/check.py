"""Holds a log of a board to the twin: does a lock stay locked?

A log has what was done and what the board answered: session or console lines with the answer behind ` = `
(`R 2C F = FFFF1234`), port traffic (`read 0xcfc 2 0x8086`) or setpci's words (`2c.w=1234`, `2c.w -> 1234`).
It starts where the board came out of a platform reset. Only enabled lanes, and the bytes of a port's width, are compared.

Status: 0 reads were compared and nothing failed, 1 a failure, 2 a file or line could not be read or a program failed,
3 no read was compared, or with --strict a lock was not tested. Of many boards the worst: 2, 1, 3, 0.
"""
import argparse
import os
import sys

from door import lines, report
from door.compare import Check, Counted, play
from door.lines import Bad
from door.proved import Failed


def add(parser):
    parser.add_argument("logs", nargs="+", metavar="LOG", help="a log; - is standard input; several, or a folder, are many boards")
    parser.add_argument("--format", choices=lines.KINDS, default="auto", help="the form of the lines; else told by looking at each")
    parser.add_argument("--no-end", dest="end", action="store_false", help="put no E where AFCTL reads 00 after a function reset was started")
    parser.add_argument("--strict", action="store_true", help="status 3 where a lock was not tested")
    parser.add_argument("--all", dest="every", action="store_true", help="write every difference, not the first %d" % report.SHOWN)
    parser.add_argument("--quiet", action="store_true", help="verdicts only; with --json all but the differences")
    parser.add_argument("--json", action="store_true", help="one JSON object on standard output")
    parser.add_argument("--junit", metavar="FILE", help="write a file of JUnit's form, for a CI")
    parser.add_argument("--html", metavar="FILE", help="write a page with a timeline for each lock")
    parser.add_argument("--explain", metavar="LINE", type=_positive, help="all that is known of one line")
    parser.add_argument("--jobs", metavar="N", type=_positive, help="many boards, so many at a time: a table, and one status")


def _positive(text):
    if not text.isdecimal() or int(text) < 1:
        raise argparse.ArgumentTypeError("`%s` is no number from 1 on" % text)
    return int(text)


def main(options):
    many = options.jobs is not None or len(options.logs) > 1 or os.path.isdir(options.logs[0])
    if many and (options.html or options.explain):
        raise Bad("%s takes one log" % ("--html" if options.html else "--explain"))
    if options.junit and options.html and os.path.realpath(options.junit) == os.path.realpath(options.html):
        raise Bad("--junit and --html name one file")
    if options.explain and (options.json or options.junit or options.html):
        raise Bad("--explain is written as text alone")
    # what is not asked for is not loaded: a check answers at once
    if options.explain:
        from door import explain
        return explain.main(options)
    if many:
        from door import boards
        return boards.main(options)
    return one(options)


# ---- one log

def one(options):
    """Checks one log, and reports as asked."""
    path = options.logs[0]
    with lines.opened(path) as file:
        outputs, progress = _outputs(options, path), Progress()
        listener = _json(options) if options.json else report.Text(options.every, options.quiet, progress.hide)
        check = Check(lines.name_of(file), (listener,))
        check.strict = options.strict
        try:
            play(check, Counted(file), options.format, options.end, progress)
        except (Bad, Failed, OSError) as error:
            if _of_the_log(error):
                check.error = sentence(error)
                _write(outputs, check)
                if options.json:
                    listener.finish(check)
            raise
        finally:
            progress.hide()
    unwritten = _write(outputs, check)
    listener.finish(check)
    if unwritten:
        raise unwritten
    return check.status


def _outputs(options, log):
    """The files that are asked for, opened."""
    found = []
    if options.junit:
        from door import machine
        found.append(Output(options.junit, log, machine.junit_of))
    if options.html:
        from door import page
        found.append(Output(options.html, log, page.page_of))
    return found


def _json(options):
    from door import machine
    return machine.Json(options.quiet)


def _of_the_log(error):
    """Whether a fault is the log's or a program's, and not standard output's."""
    return not isinstance(error, OSError) or error.filename is not None


def sentence(error):
    """A fault in a sentence."""
    if isinstance(error, Bad) and error.number:
        return "%s:%d: %s" % (error.file, error.number, error)
    return "%s: %s" % (error.filename, error.strerror) if isinstance(error, OSError) else str(error)


def _write(outputs, check):
    """Writes the files of a check, also where the log could not be read: a file of an earlier run must not be taken for this one's."""
    for output in outputs:
        try:
            output.write(check)
        except OSError as error:
            check.unwritten = sentence(error)
            return error
    return None


class Output:
    """A file that a report goes to: opened before a log is played, so that a wrong name is told at once."""

    def __init__(self, path, log, render):
        if log != "-" and os.path.isfile(path) and os.path.exists(log) and os.path.samefile(path, log):
            raise Bad("%s is the log itself" % path)
        self.path, self.render = path, render
        self.file = open(path, "w", encoding="utf-8", errors="backslashreplace", newline="\n")

    def write(self, check):
        try:
            with self.file:
                self.file.write(self.render(check))
        except OSError as error:
            error.filename = self.path
            raise


class Progress:
    """On a terminal, how far it is: `431,000 lines, 12 differences`."""

    EVERY = 20000

    def __init__(self):
        self.on, self.shown, self.next = sys.stderr is not None and sys.stderr.isatty(), False, self.EVERY

    def show(self, count, differences):
        if self.on and count >= self.next:
            self.next, self.shown = count + self.EVERY, True
            sys.stderr.write("\r  %s lines, %s" % (format(count, ","), report.count(differences, "difference")))
            sys.stderr.flush()

    def hide(self):
        if self.shown:
            self.shown = False
            sys.stderr.write("\r\x1b[K")
            sys.stderr.flush()
