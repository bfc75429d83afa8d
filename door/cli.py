"""The commands of `twin`, their help, and what each kind of fault gives: a sentence on standard error and a status."""
import argparse
import difflib
import errno
import importlib
import os
import sys

from door.lines import Bad
from door.proved import Failed

WELL, CANNOT = 0, 2
UNTAKEN = (errno.ENOSPC, errno.EFBIG, errno.EDQUOT, errno.EIO, errno.EBADF)  # what standard output gives that is full or gone

# command: its module, and what it does in a line
COMMANDS = {
    "check": ("check", "hold a log of a board to the twin: does a lock stay locked?"),
    "run": ("run", "play a file of lines and print the answers"),
    "step": ("step", "a prompt: each access by name, and what it changed"),
    "snapshot": ("snapshot", "play a file and write the 256 bytes as lspci has them"),
    "sheet": ("sheet", "a register sheet: show it, or play a session on its device"),
    "map": ("picture", "the 256 bytes by register and kind of bit, as text or a picture"),
    "diff": ("diff", "which bytes differ between two snapshots, by register"),
}

START = """usage: twin COMMAND ..

A software twin of the graphics function at 00:02.0: every answer is a proved program's.

%s

  twin COMMAND --help    what a command takes
  twin --version         the commit, the toolchain, how many functions are proved

A first try: twin check examples/reopened.log

Status: 0 well, 1 a failure was found, 2 it could not be done, 3 nothing was compared or tested.
"""


def start_text():
    return START % "\n".join("  %-9s %s" % (name, what) for name, (_, what) in COMMANDS.items())


def say(text):
    """A sentence on standard error, where there is one."""
    try:
        sys.stderr.write(text + "\n")
        sys.stderr.flush()
    except (AttributeError, OSError, ValueError):
        pass


def main(words):
    """Runs a command; gives its status."""
    if sys.stdout is None:
        say("twin: standard output: it is closed")
        return CANNOT
    if hasattr(sys.stdout, "reconfigure"):
        sys.stdout.reconfigure(errors="backslashreplace")  # a file's name may be no text of this terminal
    try:
        status = _guarded(words)
        sys.stdout.flush()
        return status
    except BrokenPipeError:
        _let_go()
        return 141
    except OSError as error:
        _let_go()
        say("twin: %s%s" % ("standard output: " if error.errno in UNTAKEN else "", error.strerror))
        return CANNOT


def _let_go():
    """Standard output takes no more: what is left for it is dropped."""
    null = os.open(os.devnull, os.O_WRONLY)
    os.dup2(null, sys.stdout.fileno())


def _guarded(words):
    """A command's status; each known fault as a sentence. A fault of standard output is main's."""
    try:
        return _dispatch(words)
    except SystemExit as end:
        return end.code if isinstance(end.code, int) else CANNOT
    except Bad as bad:
        say_bad(bad)
    except Failed as failed:
        say("twin: %s" % failed)
    except KeyboardInterrupt:
        say("")
        return 130
    except OSError as error:
        if error.filename is None:
            raise
        say("twin: %s: %s" % (error.filename, error.strerror))
    except RecursionError:
        say("twin: the input is nested too deep")
    except MemoryError:
        say("twin: the memory is full")
    return CANNOT


def say_bad(bad, kind=""):
    """FILE:17: what is wrong, and a suggestion."""
    where = "%s:%s: " % (bad.file or "line", bad.number) if bad.number else "%s: " % bad.file if bad.file else "twin: "
    say(where + kind + bad.text)
    if bad.hint:
        say("  hint: " + bad.hint)


def _dispatch(words):
    if not words or words == ["help"] or words[0] in ("-h", "--help"):
        sys.stdout.write(start_text())
        return WELL
    if words[0] == "help":
        words = [words[1], "--help"]
    if words[0] in ("--version", "-V", "version"):
        from door import version
        return version.main()
    if words[0] not in COMMANDS:
        return _unknown(words[0])
    module, what = COMMANDS[words[0]]
    command = importlib.import_module("door." + module)
    parser = argparse.ArgumentParser(
        prog="twin " + words[0], description=(command.__doc__ or what).strip(), formatter_class=argparse.RawDescriptionHelpFormatter)
    command.add(parser)
    return command.main(parser.parse_args(words[1:]))


def _unknown(word):
    close = difflib.get_close_matches(word, list(COMMANDS) + ["help"], 1, 0.5)
    if close:
        say("twin: there is no command %s; did you mean `twin %s`?" % (word, close[0]))
    elif os.path.exists(word):
        say("twin: %s is a file; `twin check %s` holds a log to the twin, `twin run %s` plays it" % (word, word, word))
    else:
        say("twin: there is no command %s; `twin --help` lists them" % word)
    return CANNOT

