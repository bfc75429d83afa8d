"""A prompt: accesses by register name or as lines, and after each what it changed, by name.

Lines may come through a pipe too; there is no prompt then. `help` lists what can be said.
"""
import re
import sys

from door import lines, names, proved, registers
from door.cli import CANNOT, WELL, say
from door.steps import Session

PROMPT = "twin> "
HELP = """
  SVID2=1234             a guest write by name; also 2c.w=1234, COMMAND=7, W 2C 3 1234
  SVID2                  a guest read by name; also 2c.w, R 2C F
  reset                  starts a function reset (W A8 1 1)
  end                    ends it: the host's end signal (E)
  platform               a platform reset (P)
  H 06 08 08, K 13, ..   any line of a session or the console, port traffic, setpci's words

  locks                  the locks, open or closed
  map [NAME]             the registers as they are now, or one bit by bit
  history                what was done so far
  undo [N]               takes back the last step, or the last N
  save FILE              writes the lines, for `twin run` (`save! FILE` also where there is one)
  help, quit
"""
WORDS = {"reset": "W A8 1 00000001", "end": "E", "platform": "P"}
ASSIGNED = re.compile(r"([A-Za-z0-9_.+-]+)\s*=\s*(\S+)")


def add(parser):
    """There is nothing to choose."""


class Stop(Exception):
    """The person has had enough."""


# ---- what a person says

def lines_of(text):
    """The canonical lines of an input."""
    word = text.split("#")[0].strip()
    if word.lower() in WORDS:
        return [WORDS[word.lower()]]
    assigned = ASSIGNED.fullmatch(word)
    if assigned and not assigned[1].isdigit():
        word = "%s=%s" % assigned.groups()
    found = lines.parse(_halves(word), None)
    if any(item.answer is not None for item in found):
        say("the answer behind it is left aside here; `twin check` compares answers")
    return [item.text for item in found]


def _halves(word):
    """A register of eight bytes as its two dwords."""
    name, equals, value = word.partition("=")
    register = registers.BY_NAME.get(name.upper())
    if not register or register.size != 8:
        return word
    if not equals:
        return "%02x.l %02x.l" % (register.at, register.at + 4)
    number = names.number_of(value, 16, "its bytes")
    return "%02x.l=%x %02x.l=%x" % (register.at, number & 0xFFFFFFFF, register.at + 4, number >> 32)


def undo(session, words):
    """Takes back the last step, or as many as are named."""
    count = int(words[0]) if words and words[0].isdecimal() and len(words[0]) < 10 else 1 if not words else 0
    there = len(session.steps)
    if not 1 <= count <= there:
        said = "is no step" if there == 0 else "is 1 step" if there == 1 else "are %d steps" % there
        raise lines.Bad("there %s to take back" % said, "`undo` takes back the last step, `undo 3` the last three")
    session.undo(count)
    print("  took back %s; %d left" % ("the last step" if count == 1 else "the last %d steps" % count, len(session.steps)))


def save(session, words, over):
    """Writes the lines of all steps; a file that is there only where it is to be written over."""
    if len(words) != 1:
        raise lines.Bad("save wants one file", "as `save my.session`")
    with proved.faults_of(words[0]), open(words[0], "w" if over else "x", encoding="ascii") as file:
        for step in session.steps:
            file.writelines(text + "\n" for text in step.lines)
    count = sum(len(step.lines) for step in session.steps)
    print("  %d line%s in %s; `twin run` plays them" % (count, "" if count == 1 else "s", words[0]))


def history(session):
    """Prints the steps, a line of the twin each."""
    for number, step in enumerate(session.steps, 1):
        for text, answer in zip(step.lines, step.answers):
            print("  %3d  %-26s %s" % (number, text, answer))


def obey(session, text):
    """One input: a word of the prompt, or an access."""
    word, *rest = text.split() or [""]
    word = word.lower()
    if not word or word.startswith("#"):
        return
    if word in ("quit", "exit", "q") and not rest:
        raise Stop
    if word in ("help", "?") and not rest:
        print(HELP.strip("\n"))
    elif word == "locks" and not rest:
        print("\n".join(session.locks()))
    elif word == "map":
        print("\n".join(line for name in rest for line in session.register(name)) if rest else "\n".join(session.table()))
    elif word == "history" and not rest:
        history(session)
    elif word == "undo":
        undo(session, rest)
    elif word in ("save", "save!"):
        save(session, rest, word == "save!")
    else:
        found = lines_of(text)
        if found:
            session.do(found, lambda line: print("  " + line))


def tried(session, text):
    """An input obeyed; whether it could be."""
    try:
        obey(session, text)
        return True
    except lines.Bad as bad:
        wrong = bad.text + ("\n  hint: " + bad.hint if bad.hint else "")
    except FileExistsError as error:
        wrong = "{0} is there already; `save! {0}` writes over it".format(error.filename)
    except OSError as error:
        if error.filename is None:
            raise
        wrong = "%s: %s" % (error.filename, error.strerror)
    sys.stdout.flush()
    say("  " + wrong)
    return False


# ---- where inputs come from

def typed():
    """What a person types, with the keys of readline and names that TAB completes."""
    try:
        import readline
        known = sorted(registers.BY_NAME) + sorted(WORDS) + ["locks", "map", "history", "undo", "save", "help", "quit"]
        readline.set_completer_delims(" =")
        readline.set_completer(lambda start, n: ([one for one in known if one.lower().startswith(start.lower())] + [None])[n])
        readline.parse_and_bind("tab: complete")
    except ImportError:
        pass
    sys.stdin.reconfigure(errors="replace")
    while True:
        try:
            yield input(PROMPT)
        except KeyboardInterrupt:
            print()
        except EOFError:
            print()
            return


def piped():
    """The lines of a pipe or a file."""
    file = lines.opened("-")
    while True:
        raw = file.readline(lines.LIMIT + 2)
        if not raw:
            return
        text = raw.rstrip(b"\r\n")
        if len(text) > lines.LIMIT:
            while raw and not raw.endswith(b"\n"):
                raw = file.readline(lines.LIMIT)
            text = text[:80]
        yield text.decode("utf-8-sig", "replace")


def main(options):
    person = sys.stdin is not None and sys.stdin.isatty() and sys.stdout.isatty()
    session = Session()
    well = True
    if person:
        print("The twin is fresh. `help` lists what can be said, `quit` ends.")
    try:
        for text in typed() if person else piped():
            well = tried(session, text) and well
            sys.stdout.flush()
    except Stop:
        pass
    session.program.close()
    return WELL if person or well else CANNOT
