"""A check for programs: JSON on standard output, and a file of JUnit's form for a CI."""
import json
import re
import sys
from html import escape

from door.compare import Listener
from door.locks import FAILED, NOT_MODELLED, NOT_TESTED, UNMODELLED, UNMODELLED_WHY
from door.report import difference_lines, summary


# ---- JSON

def lock_fields(lock):
    """A lock's verdict, as documented in docs/CHECK.md."""
    return {
        "name": lock.name, "verdict": lock.verdict, "closed_at": lock.closed_at, "closings": lock.closings, "attempts": lock.attempts,
        "resets": lock.resets, "reads": lock.reads, "differing": sum(lock.failures.values()), "why": lock.why,
    }


def unmodelled_fields(name):
    return {"name": name, "verdict": NOT_MODELLED, "closed_at": None, "closings": 0, "attempts": 0, "resets": 0, "reads": 0, "differing": 0,
            "why": UNMODELLED_WHY}


def locks_of(check):
    return [lock_fields(lock) for lock in check.history.locks] + [unmodelled_fields(name) for name in UNMODELLED]


def difference_fields(difference):
    return {
        "line": difference.line, "kind": kind_of(difference), "text": difference.text, "board": difference.board, "twin": difference.twin,
        "bits": [
            {"register": part.register, "bits": part.bits, "mask": "%X" % part.mask, "kind": part.kind, "decided": part.decided,
             "decided_at": part.decided_at, "failure": part.failure} for part in difference.parts],
        "why": difference.why, "hint": difference.hint or None,
    }


def kind_of(difference):
    return "failure" if difference.failure else "note"


def summary_fields(check):
    """All of a check but its differences."""
    return {
        "log": check.name, "locks": locks_of(check) if not check.error else [], "lines": check.lines, "reads": check.reads,
        "answers": check.words, "failures": check.failures, "notes": check.notes, "others": check.others,
        "ends": check.end_lines, "ends_put": check.ends, "error": check.error or check.unwritten, "status": check.status,
    }


class Json(Listener):
    """One object; its differences are written as they are found, so that none is kept. With quiet they are left out."""

    def __init__(self, quiet=False):
        self.quiet, self.first = quiet, True
        sys.stdout.write("{" if quiet else '{"differences": [')

    def wants(self):
        return not self.quiet

    def difference(self, difference):
        sys.stdout.write(("\n" if self.first else ",\n") + json.dumps(difference_fields(difference)))
        self.first = False

    def finish(self, check):
        rest = json.dumps(summary_fields(check))[1:]
        sys.stdout.write((rest if self.quiet else ("]" if self.first else "\n]") + ",\n" + rest) + "\n")


# ---- JUnit

# what XML 1.0 has no place for
_NO_XML = re.compile("[^\t\n\r\x20-\ud7ff\ue000-\ufffd\U00010000-\U0010ffff]")


def _clean(text):
    return _NO_XML.sub("\ufffd", text)


def _text(text):
    return escape(_clean(text))


def _attribute(text):
    return '"%s"' % _text(text).replace("\n", "&#10;")


def _case(log, name, inside=""):
    return "    <testcase classname=%s name=%s>%s</testcase>\n" % (_attribute("twin check " + log), _attribute(name), inside)


def _element(kind, message, text=""):
    return "<%s message=%s>%s</%s>" % (kind, _attribute(message), _text(text), kind)


def _lock_case(log, fields, strict, lines):
    if fields["verdict"] == FAILED:
        return _case(log, fields["name"], _element("failure", fields["why"], lines))
    if fields["verdict"] == NOT_TESTED:
        return _case(log, fields["name"], _element("failure" if strict else "skipped", "not tested: " + fields["why"]))
    if fields["verdict"] == NOT_MODELLED:
        return _case(log, fields["name"], _element("skipped", "not modelled: " + fields["why"]))
    return _case(log, fields["name"])


def _reads_case(log, fields, said, lines):
    if fields["failures"]:
        return _case(log, "reads", _element("failure", said, lines))
    return _case(log, "reads", "" if fields["reads"] else _element("error", "no read was compared"))


def suite(fields, strict=False, said="", lines=""):
    """A board's suite: a case for each lock, and one for all reads; a log that cannot be read is one error."""
    log = fields["log"]
    if fields["error"]:
        cases = [_case(log, "log", _element("error", fields["error"]))]
    else:
        cases = [_lock_case(log, lock, strict, lines) for lock in fields["locks"]] + [_reads_case(log, fields, said, lines)]
    counts = {kind: sum("<%s " % kind in case for case in cases) for kind in ("failure", "error", "skipped")}
    return '  <testsuite name=%s tests="%d" failures="%d" errors="%d" skipped="%d">\n%s  </testsuite>\n' % (
        _attribute(log), len(cases), counts["failure"], counts["error"], counts["skipped"], "".join(cases))


def junit(suites):
    return '<?xml version="1.0" encoding="UTF-8"?>\n<testsuites name="twin check">\n%s</testsuites>\n' % "".join(suites)


def junit_of(check):
    """One log's file; the differences that are kept stand in the failures."""
    lines = [line for difference in check.kept if difference.failure for line in difference_lines(difference)][:200]
    return junit([suite(summary_fields(check), check.strict, summary(check), "\n".join(lines))])
