"""Plays a file of lines on the twin and writes the 256 bytes as a guest then reads them, in the form of lspci -n -xxx.

`lspci -vvv -F FILE` decodes it. Where the lines leave a function reset under way, every byte reads ff.
"""
import sys

from door import proved, run
from door.cli import CANNOT, WELL


def add(parser):
    run.add_file(parser)
    parser.add_argument("-o", "--output", metavar="OUT", help="write to this file and not to standard output")


def main(options):
    try:
        with run.spooled(options.file, options.format) as spool:
            text = proved.output("snapshot", spool)
    except run.Refused:
        return CANNOT
    write_file(options.output or "-", text)
    return WELL


def write_file(path, text):
    """Writes a file, or to standard output where it is -; a fault has the file's name."""
    if path == "-":
        sys.stdout.write(text.decode("utf-8"))
        return
    with proved.faults_of(path), open(path, "wb") as file:
        file.write(text)
