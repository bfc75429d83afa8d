"""The answers of a board behind a line, made canonical."""
from door.forms import READS, Bad
from door.names import HEX, number_of, shown

# words of an answer, and the digits of what follows each
ANSWERS = {
    "A": {"TRANSLATION": (8,), "APERTURE": (8,), "NONE": ()},
    "N": {"IO": (8,), "NONE": ()},
    "S": {"IO": (2,), "MEM32": (2,), "MEM64": (2,)},
    "K": {"FOUND": (2, 2), "ABSENT": (2,)},
}


def answer_of(letter, text):
    """An answer to a line as upper-case text: OK, NO n, or the value or words without OK."""
    words = text.upper().split()
    if words[0] == "OK" and len(words) > 1:
        words = words[1:]
    if words[0] == "NO":
        return _refusal(letter, words)
    if letter in READS:
        if len(words) != 1 or not HEX.fullmatch(words[0]):
            raise Bad("`%s` is no answer to a read" % shown(text.strip()),
                      "a read is answered by up to eight hex digits, or by NO and a number")
        return value_text(words[0])
    if letter in ANSWERS:
        return _words(letter, words)
    if words != ["OK"]:
        raise Bad("`%s` is no answer to %s" % (shown(text.strip()), letter), "it is answered by OK, or by NO and a number")
    return "OK"


def value_text(word):
    """A value's digits in upper case, as many as were written, at most eight."""
    digits = HEX.fullmatch(word)[1].upper()
    if len(digits) > 8:
        number_of(word, 8, "an answer")
        digits = digits[-8:]
    return digits


def _refusal(letter, words):
    counted = letter == "K" and len(words) == 3
    if len(words) != 2 + counted or not words[1].isdecimal() or len(words[1]) > 3:
        raise Bad("`%s` is no refusal" % shown(" ".join(words)), "a refusal is NO and its number, as NO 5")
    count = [] if not counted else ["%02X" % number_of(words[2], 2, "a count")]
    return " ".join(["NO", str(int(words[1]))] + count)


def _words(letter, words):
    digits = ANSWERS[letter].get(words[0])
    if digits is None or len(words) != 1 + len(digits):
        known = ", ".join(" ".join([word] + ["x" * n for n in counts]) for word, counts in ANSWERS[letter].items())
        raise Bad("`%s` is no answer to %s" % (shown(" ".join(words)), letter), "its answers are %s, or NO and a number" % known)
    return " ".join([words[0]] + ["%0*X" % (n, number_of(word, n, "an answer")) for word, n in zip(words[1:], digits)])
