"""A register sheet: a small file that lists the registers of a plain device.

`show` prints it as a table, `play` plays a session on its device: lines W, R, H, P, and Z for a function reset.
"""
import contextlib
import os
import sys
import tempfile

from door import lines, proved, run
from door.cli import CANNOT, WELL


def add(parser):
    deeds = parser.add_subparsers(dest="deed", metavar="show|play", required=True)
    show = deeds.add_parser("show", help="print the sheet as a table")
    show.add_argument("sheet", metavar="SHEET")
    play = deeds.add_parser("play", help="play a session on the sheet's device")
    play.add_argument("sheet", metavar="SHEET")
    run.add_file(play, "session", "the file of lines; - or none is standard input")
    play.add_argument("--beside", action="store_true", help="put the line as it was played, and a tab, before each answer")


@contextlib.contextmanager
def readable(path):
    """A path for a program that runs elsewhere and takes names in UTF-8 alone: any other name gets a link. A fault here where it cannot be read."""
    with proved.faults_of(path), open(path, "rb") as file:
        file.read(1)
    whole = os.path.abspath(path)
    with contextlib.ExitStack() as stack:
        yield whole if is_text(whole) else linked(whole, stack)


def is_text(path):
    try:
        path.encode("utf-8")
    except UnicodeEncodeError:
        return False
    return True


def linked(path, stack):
    """Another name of a file, for as long as the stack stands."""
    with proved.faults_of("a temporary file"):
        room = stack.enter_context(tempfile.TemporaryDirectory(prefix="twin-"))
        link = os.path.join(room, "sheet")
        os.symlink(path, link)
    return link


def told(name, sheet, path):
    """What a program writes of a sheet and no lines; its own sentence where it refuses the sheet."""
    try:
        return proved.output(name, [], path)
    except proved.Failed as failed:
        raise proved.Failed("%s: %s" % (sheet, failed.said)) if failed.said else failed


def main(options):
    with readable(options.sheet) as path:
        if options.deed == "show":
            sys.stdout.write(told("sheet_show", options.sheet, path).decode("ascii"))
            return WELL
        try:
            spool = run.spooled(options.session, options.format, lines.SHEET)
        except run.Refused:
            return CANNOT
        with spool:
            told("sheet_player", options.sheet, path)
            with proved.Program("sheet_player", path) as program:
                run.play(spool, program, options.beside)
    return WELL
