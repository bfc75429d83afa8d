"""setpci's words as lines: 2c.w=1234 writes, 2c.w -> 1234 is a read and its answer, 2c.w alone a read."""
import re

from door.forms import FORMS, SHEET, Bad, canonical
from door.names import HEX, lanes_of, named, near, number_of, shown

WIDTHS = {"B": 1, "W": 2, "L": 4}
WORD = re.compile(r"(?P<place>[A-Za-z0-9_-]+)(?:\+(?P<plus>[0-9A-Fa-f]+))?(?:\.(?P<width>[bwlBWL]))?(?:=(?P<values>.*))?")
ADDRESS = re.compile(r"(?:(?:0{1,4}:)?0{0,2}:)?0?2\.0")
COMMAND = "as `setpci -s 00:02.0 2c.w=1234`"


def setpci_line(text, words, program):
    """The canonical lines of a line of setpci words, each with its answer or None."""
    words = _operations(words)
    if not HEX.match(words[0]) and not named(words[0]) and not any(mark in words[0] for mark in ".="):
        raise Bad("`%s` is no line that is known" % shown(text), _what_is_known(words[0]))
    if "=" in words[1:]:
        place, value = words[words.index("=") - 1], (words[words.index("=") + 1:] or ["1234"])[0]
        raise Bad("`=` with blanks around it is neither a write nor a read's answer here",
                  "`{0}={1}` writes, `{0} -> {1}` is a read and its answer".format(shown(place), shown(value)))
    found = []
    while words:
        word = words.pop(0)
        answer = None
        if words and words[0] == "->":
            if len(words) < 2:
                raise Bad("`->` has no answer behind it", "as `2c.w -> 1234`")
            answer = words[1]
            words = words[2:]
        found += _operation(word, answer, program)
    return tuple(found)


def _operations(words):
    """The operations of a setpci command, or of a line that has them alone."""
    words = words[1:] if words[0] == "sudo" and len(words) > 1 else words
    if words[0].rpartition("/")[2].lower() != "setpci":
        return list(words)
    words, here = list(words[1:]), False
    while words and words[0].startswith("-"):
        option = words.pop(0)
        if option in ("-v", "-f", "--"):
            continue
        address = option[2:] or (words.pop(0) if words else "")
        if not option.startswith("-s"):
            raise Bad("setpci's option %s is not known here" % shown(option), COMMAND)
        if not ADDRESS.fullmatch(address):
            raise Bad("`%s` is another function than this one, 00:02.0" % shown(address), "leave out what was done to other functions")
        here = True
    if not here:
        raise Bad("setpci names no function", COMMAND)
    if not words:
        raise Bad("setpci has nothing to do", COMMAND)
    return words


def _operation(word, answer, program):
    """One setpci word: a write, several for values with commas, or a read and its answer."""
    found = WORD.fullmatch(word)
    if not found:
        raise Bad("`%s` is no access that is known" % shown(word), _what_is_known(word.partition(".")[0]))
    at, size = _place(found, word, program)
    if found["values"] is None:
        dword, lanes = _fits(at, size, word)
        return [(canonical("R", dword, lanes), None if answer is None else _into_lanes(answer, at, size))]
    if answer is not None:
        read = word.partition("=")[0]
        raise Bad("`%s` is a write, and has no answer" % shown(word), "`%s -> %s` is a read and its answer" % (shown(read), shown(answer)))
    return [_write(at + i * size, size, value, word) for i, value in enumerate(found["values"].split(","))]


def _what_is_known(word):
    """A suggestion for a word: a name that is close, else what lines there are."""
    return near(word) or (
        "a line is a session or console line (`%s`), port traffic (`read 0xcfc 2 0x8086`) or setpci's (`2c.w=1234`)" % FORMS["W"].example)


def _place(found, word, program):
    """Where a setpci word's bytes lie. A number has its width behind it; a name may leave it to the register."""
    place, width = found["place"], WIDTHS.get((found["width"] or "").upper())
    digits = HEX.fullmatch(place)
    known = named(place) if program != SHEET else None
    if digits and (width or not known):
        if not width:
            raise Bad("`%s` has no width" % shown(word), "`%s.b`, `%s.w` or `%s.l`: one byte, two or four" % ((place.lower(),) * 3))
        at = number_of(place, 2, "an offset")
    elif known:
        at, width = known[0], width or (None if found["plus"] else known[1])
    elif program == SHEET:
        raise Bad("`%s` is no access that is known" % shown(word),
                  "a sheet's registers go by offset and width: `04.w=7` writes, `R 04 F` reads")
    else:
        raise Bad("there is no register %s" % shown(place), _what_is_known(place))
    at += int(found["plus"] or "0", 16)
    if width is None:
        raise Bad("`%s` has no width" % shown(word), "put .b, .w or .l behind it")
    if at > 0xFF:
        raise Bad("offset %X is above FF: the function has 256 bytes" % at)
    return at, width


def _fits(at, size, word):
    found = lanes_of(at, size)
    if not found:
        low = "%02x" % (at & ~3)
        hint = "`%s.l` and `%02x.l` are its two dwords" % (low, at + 4) if size == 8 else "take its bytes one by one, from `%02x.b` on" % at
        raise Bad("`%s` passes the dword at %02X" % (shown(word), at & ~3), hint)
    return found


def _write(at, size, value, word):
    if ":" in value:
        raise Bad("`%s` writes under a mask, which reads first" % shown(word),
                  "read it, and write the whole value: `%s=%s`" % (shown(word.partition("=")[0]), shown(value.partition(":")[0])))
    if not value:
        raise Bad("`%s` has no value" % shown(word), "as `2c.w=1234`")
    dword, lanes = _fits(at, size, word)
    return canonical("W", dword, lanes, number_of(value, 2 * size, "its bytes") << 8 * (at & 3)), None


def _into_lanes(answer, at, size):
    """The answer of a narrow read as a dword's, with FF in the other lanes."""
    shift = 8 * (at & 3)
    value = number_of(answer, 2 * size, "its bytes")
    return "%08X" % (0xFFFFFFFF & ~(((1 << 8 * size) - 1) << shift) | value << shift)
