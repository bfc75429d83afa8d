"""The forms of lines at one place: what the proved programs take, and a line that is of no form."""
from collections import namedtuple

PLAYER, CONSOLE, SHEET = "player", "console", "sheet_player"

# fields, hex digits of each, which programs take it, what it is, an example
Form = namedtuple("Form", "fields digits programs what example")
FORMS = {
    "W": Form(("offset", "lanes", "value"), (2, 1, 8), (PLAYER, CONSOLE, SHEET), "guest write", "W 2C 3 00001234"),
    "R": Form(("offset", "lanes"), (2, 1), (PLAYER, CONSOLE, SHEET), "guest read", "R 2C F"),
    "H": Form(("offset", "mask", "value"), (2, 2, 2), (PLAYER, CONSOLE, SHEET), "host update", "H 06 08 08"),
    "P": Form((), (), (PLAYER, CONSOLE, SHEET), "platform reset", "P"),
    "E": Form((), (), (PLAYER, CONSOLE), "end signal", "E"),
    "Z": Form((), (), (SHEET,), "function reset", "Z"),
    "O": Form(("port", "width", "value"), (4, 1, 8), (CONSOLE,), "port write", "O 0CF8 4 80001000"),
    "I": Form(("port", "width"), (4, 1), (CONSOLE,), "port read", "I 0CFC 2"),
    "A": Form(("address",), (16,), (CONSOLE,), "claim of an address", "A 00000000F780810C"),
    "N": Form(("port",), (4,), (CONSOLE,), "claim of a port", "N F000"),
    "S": Form(("low", "high"), (8, 8), (CONSOLE,), "size probe", "S F000000C FFFFFFFF"),
    "K": Form(("item",), (2,), (CONSOLE,), "capability walk", "K 13"),
    "V": Form(("offset", "lanes", "value"), (6, 1, 8), (CONSOLE,), "guest write in the window", "V 00810C F 00020002"),
    "U": Form(("offset", "lanes"), (6, 1), (CONSOLE,), "guest read in the window", "U 00810C F"),
    "C": Form(("mask",), (8,), (CONSOLE,), "completion", "C 00000002"),
    "F": Form(("value",), (8,), (CONSOLE,), "fault word", "F 00001152"),
    "T": Form(("number",), (8,), (CONSOLE,), "DRAM cycles", "T 000007D0"),
    "Y": Form(("offset", "mask", "value"), (6, 8, 8), (CONSOLE,), "update of a mirror", "Y 1080C0 FFF00001 9AB00001"),
}
READS = "RIU"  # answered by a value
ALIGNED = "WRVUY"  # their offset is a multiple of 4
WINDOWED = "VUY"  # their offset is one inside the window


Item = namedtuple("Item", "number text answer")  # the line of the file, counted from 1; the canonical line; the board's answer or None


class Bad(Exception):
    """A line that cannot be made canonical: what is wrong, and a suggestion or nothing. `line` is the canonical line where there is
    one all the same, which the programs refuse by its offset."""

    def __init__(self, text, hint="", line=None):
        super().__init__(text)
        self.text, self.hint, self.number, self.file, self.line = text, hint, None, None, line


def canonical(letter, *numbers):
    """A line of a form, as the proved programs take it."""
    return " ".join([letter] + ["%0*X" % pair for pair in zip(FORMS[letter].digits, numbers)])


def form_text(letter):
    """A form as the documents write it: W oo l vvvvvvvv."""
    form = FORMS[letter]
    return " ".join([letter] + [name[0] * digits for name, digits in zip(form.fields, form.digits)])


def letters_of(program):
    """The letters of the lines that a program takes."""
    return "".join(letter for letter, form in FORMS.items() if program in form.programs)
