"""A check as one page: verdicts, a timeline for each lock, the differences. Self-contained: no network, no script."""
from html import escape

from door.compare import CANNOT, FAILURE, UNTESTED, WELL
from door.locks import FAILED, NOT_MODELLED, NOT_TESTED, PASSED, UNMODELLED, UNMODELLED_WHY, count

# what a mark on the timeline is: its sign, and what it says of lines
MARKS = {
    "closed": ("&#9679;", "closed"),
    "tried": ("&#10005;", "tried"),
    "reset": ("&#8635;", "a function reset ended"),
    "opened": ("&#9675;", "opened by a platform reset"),
    "differed": ("&#9670;", "the board differs"),
}
EVENTS = dict({what: said for what, (_, said) in MARKS.items()}, started="a function reset starts")

COLOURS = {WELL: "passed", FAILURE: "failed", CANNOT: "failed", UNTESTED: "untested"}
COLUMNS = ("Line", "Access", "Board", "Twin")
CLASSES = {PASSED: "passed", FAILED: "failed", NOT_TESTED: "untested", NOT_MODELLED: "unmodelled"}

FOOT = ("Every answer of the twin is proved: it is the console's, a program that is proved to follow the device's rules. "
        "What <code>twin</code> makes of a log &mdash; the comparison, the verdicts, this page &mdash; is tested.")

STYLE = """
:root { color-scheme: light dark; --ground: #fbfbf9; --card: #ffffff; --ink: #1d2328; --soft: #5c666f; --line: #d9dde0; --track: #e9ecee;
  --closed: #2f6f9f; --busy: #b9a46a; --passed: #1f7a45; --failed: #b3261e; --untested: #8a5a00; --unmodelled: #66707a; --badge: #ffffff; --row: #f4f6f7; }
@media (prefers-color-scheme: dark) {
  :root { --ground: #14181b; --card: #1c2226; --ink: #e4e8ea; --soft: #9aa6ae; --line: #343c42; --track: #2a3136;
    --closed: #5aa2d6; --busy: #8f7c45; --passed: #58bd83; --failed: #f2827a; --untested: #e0ad4d; --unmodelled: #98a3ac; --badge: #14181b; --row: #20272b; } }
* { box-sizing: border-box; }
body { margin: 0; background: var(--ground); color: var(--ink); font: 15px/1.5 system-ui, "Liberation Sans", "DejaVu Sans", sans-serif; }
main { max-width: 62rem; margin: 0 auto; padding: 1.5rem 1rem 3rem; }
h1 { font-size: 1.5rem; line-height: 1.25; margin: 0 0 .25rem; overflow-wrap: anywhere; }
h2 { font-size: 1.1rem; margin: 2rem 0 .6rem; }
p { margin: .3rem 0; }
code, .mono { font-family: ui-monospace, "Liberation Mono", "DejaVu Sans Mono", monospace; font-size: .92em; overflow-wrap: anywhere; }
.soft { color: var(--soft); }
.head { border-left: .35rem solid var(--soft); padding: .2rem 0 .2rem 1rem; margin-bottom: 1rem; }
.head.passed { border-color: var(--passed); } .head.failed { border-color: var(--failed); } .head.untested { border-color: var(--untested); }
.card { background: var(--card); border: 1px solid var(--line); border-radius: .5rem; padding: .9rem 1rem; margin: .8rem 0; }
.card h3 { margin: 0 .4rem 0 0; font-size: 1.05rem; display: inline-block; min-width: 5.6rem; }
.badge { display: inline-block; color: var(--badge); border-radius: .3rem; padding: 0 .5rem; font-size: .8rem; font-weight: 600; letter-spacing: .02em; white-space: nowrap; }
.badge.passed { background: var(--passed); } .badge.failed { background: var(--failed); }
.badge.untested { background: var(--untested); } .badge.unmodelled { background: var(--unmodelled); }
.time { position: relative; height: 4.9rem; margin: .7rem .6rem 0; }
.track { position: absolute; left: 0; right: 0; top: 2.4rem; height: .8rem; background: var(--track); border-radius: .4rem; overflow: hidden; }
.track i { position: absolute; top: 0; bottom: 0; }
.shut { background: var(--closed); }
.busy { background: repeating-linear-gradient(135deg, var(--busy) 0 4px, transparent 4px 8px); border-left: 1px solid var(--busy); border-right: 1px solid var(--busy); min-width: 3px; }
.mark { position: absolute; width: 1.2rem; margin-left: -.6rem; text-align: center; line-height: 1; font-size: .95rem; cursor: default; }
.mark.closed, .mark.opened { top: .1rem; color: var(--closed); font-size: 1.1rem; }
.mark.tried { top: 1.35rem; color: var(--untested); font-size: .85rem; font-weight: 700; }
.mark.reset { top: .1rem; color: var(--soft); font-size: 1.05rem; }
.mark.differed { top: 3.95rem; color: var(--failed); font-size: 1.05rem; }
.read { position: absolute; top: 3.3rem; width: 2px; margin-left: -1px; background: var(--passed); opacity: .8; }
.scale { display: flex; justify-content: space-between; margin: 0 .2rem; font-size: .8rem; color: var(--soft); }
.legend { display: flex; flex-wrap: wrap; gap: .2rem 1.1rem; font-size: .85rem; color: var(--soft); margin: .4rem 0 0; padding: 0; list-style: none; }
.legend .mark { position: static; margin: 0 .1rem 0 0; display: inline-block; }
.legend .bar { display: inline-block; width: 1.6rem; height: .7rem; border-radius: .2rem; background: var(--track); position: relative; overflow: hidden; margin-right: .3rem; vertical-align: -.05rem; }
.legend .bar i { position: absolute; inset: 0; }
.legend .tick { display: inline-block; width: 2px; height: .7rem; background: var(--passed); margin: 0 .4rem 0 .2rem; vertical-align: -.05rem; }
details { margin-top: .5rem; font-size: .9rem; } summary { cursor: pointer; color: var(--soft); }
.events { columns: 16rem; margin: .4rem 0 0; padding-left: 1.2rem; }
table { border-collapse: collapse; width: 100%; font-size: .92rem; }
th { text-align: left; color: var(--soft); font-weight: 600; font-size: .82rem; padding: .35rem .6rem; border-bottom: 1px solid var(--line); }
td { padding: .4rem .6rem; border-bottom: 1px solid var(--line); vertical-align: top; }
td.mono { white-space: nowrap; } td ul { margin: 0; padding: 0; list-style: none; } td li + li { margin-top: .3rem; }
.kind { color: var(--soft); } tr.note td:first-child { color: var(--soft); } .hint { color: var(--untested); }
.wide { overflow-x: auto; background: var(--card); border: 1px solid var(--line); border-radius: .5rem; }
footer { margin-top: 2.5rem; border-top: 1px solid var(--line); padding-top: .8rem; font-size: .88rem; color: var(--soft); }
@media (max-width: 42rem) {
  table, tbody, tr, td { display: block; width: 100%; } thead { display: none; }
  tr { padding: .6rem .2rem; border-bottom: 1px solid var(--line); } tr:last-child { border-bottom: 0; }
  td { border: 0; padding: .1rem .7rem; } td.mono { white-space: normal; }
  td[data-name]::before { content: attr(data-name) " "; color: var(--soft); font-family: system-ui, sans-serif; font-size: .82rem; }
}
"""


def page_of(check):
    """The page of a check that is over."""
    body = [_head(check)]
    if not check.error:
        body += ["<h2>Locks</h2>", _legend()] + [_lock(lock, check.lines) for lock in check.history.locks]
        body += [_unmodelled(), "<h2>Differences</h2>", _differences(check)]
    return PAGE % {"title": escape("twin check: " + check.name), "style": STYLE, "body": "\n".join(body), "foot": FOOT}


PAGE = """<!doctype html>
<html lang="en">
<head>
<meta charset="utf-8">
<meta name="viewport" content="width=device-width, initial-scale=1">
<meta http-equiv="Content-Security-Policy" content="default-src 'none'; style-src 'unsafe-inline'">
<title>%(title)s</title>
<style>%(style)s</style>
</head>
<body>
<main>
%(body)s
<footer><p>%(foot)s</p></footer>
</main>
</body>
</html>
"""


def headline(check):
    """The answer to the question, in a line."""
    if check.error:
        return "The check could not be done"
    opened = [lock.name for lock in check.history.locks if lock.failures["closed"]]
    kept = [lock.name for lock in check.history.locks if lock.verdict == PASSED]
    if opened:
        return "%s %s not stay locked" % (_listing(opened), "does" if len(opened) == 1 else "do")
    if check.failures:
        return "The board differs from the twin"
    if check.status == UNTESTED:
        return "Not tested"
    return "%s stay%s locked" % (_listing(kept), "s" * (len(kept) == 1)) if kept else "No failure, and no lock was tested"


def _listing(names):
    return names[0] if len(names) == 1 else ", ".join(names[:-1]) + " and " + names[-1]


def _head(check):
    numbers = [count(check.lines, "line"), count(check.reads, "read") + " compared", count(check.failures, "failure"), count(check.notes, "note")]
    if check.ends:
        where = "before line " + _listing(["%d" % line for line in check.end_lines])
        numbers.append("E put in " + (where if check.ends <= 5 else "%s times" % format(check.ends, ",")))
    if check.others:
        numbers.append(count(check.others, "read") + " of other functions not compared")
    said = escape(check.error) if check.error else escape(", ".join(numbers))
    return ('<div class="head %s"><p class="soft">Does a lock stay locked?</p><h1>%s</h1><p class="mono">%s</p>'
            '<p class="soft">%s. Exit status %d.</p></div>' % (COLOURS[check.status], headline(check), escape(check.name), said, check.status))


def _badge(verdict):
    return '<span class="badge %s">%s</span>' % (CLASSES[verdict], verdict.upper())


def _unmodelled():
    return '<div class="card"><h3>%s</h3> %s<p>%s</p></div>' % (escape(", ".join(UNMODELLED)), _badge(NOT_MODELLED), escape(UNMODELLED_WHY))


# ---- timelines

def _legend():
    bars = "".join('<li><span class="bar"><i class="%s"></i></span>%s</li>' % (kind, said) for kind, said in (
        ("", "open"), ("shut", "closed"), ("busy", "a function reset is under way")))
    marks = "".join('<li><span class="mark %s">%s</span> %s</li>' % (what, sign, said) for what, (sign, said) in MARKS.items())
    return '<ul class="legend">%s%s<li><span class="tick"></span>reads that agree</li></ul>' % (bars, marks)


def _lock(lock, lines):
    return '<section class="card"><h3>%s</h3> %s<p>%s</p>%s%s</section>' % (
        escape(lock.name), _badge(lock.verdict), escape(lock.why), _timeline(lock, max(lines, 1)), _listed(lock))


def _at(line, lines):
    return "%.2f%%" % (100.0 * min(line, lines) / lines)


def _timeline(lock, lines):
    track = _stretches("shut", lock.shut, lines) + _stretches("busy", lock.busy, lines)
    marks = "".join(_marks(what, lock.marks[what], lines) for what in MARKS if what in lock.marks)
    reads = _reads(lock.marks["read"], lines) if "read" in lock.marks else ""
    scale = '<div class="scale"><span>line 1</span><span>line %s</span></div>' % format(lines, ",")
    return '<div class="time" role="img" aria-label="%s: %s"><div class="track">%s</div>%s%s</div>%s' % (
        escape(lock.name), escape(lock.why), track, marks, reads, scale)


def _stretches(kind, spans, lines):
    """The stretches in which it is closed, or a function reset is under way; fainter where that holds for a part of the lines."""
    return "".join('<i class="%s" style="left:%s;width:%.2f%%%s"></i>' % (
        kind, _at(first, lines), 100.0 * (behind - first) / lines, ";opacity:%.2f" % (.15 + .85 * share) if share < .95 else "")
        for first, behind, share in spans.shares(lines + 1))


def _marks(what, bins, lines):
    """A sign for each place at which something happened, with the lines in its title."""
    sign, said = MARKS[what]
    return "".join('<span class="mark %s" style="left:%s" title="%s: %s">%s</span>' % (
        what, _at((first + last) / 2, lines), _lines(number, first, last), said, sign) for number, first, last in bins.found())


def _lines(number, first, last):
    return "line %d" % first if number == 1 else "lines %d to %d, %s" % (first, last, count(number, "time"))


def _reads(bins, lines):
    """Reads that agree, as small bars: the higher the more."""
    most = max(number for number, _, _ in bins.found())
    return "".join('<span class="read" style="left:%s;height:%.2frem" title="%s: agrees"></span>' % (
        _at((first + last) / 2, lines), .2 + .45 * number / most, _lines(number, first, last)) for number, first, last in bins.found())


def _listed(lock):
    if not lock.events:
        return ""
    rows = "".join("<li>line %s: %s</li>" % (format(line, ","), EVENTS[what]) for what, line in lock.events)
    return "<details><summary>%s</summary><ol class=\"events\">%s</ol>%s</details>" % (
        count(len(lock.events) + lock.more, "event"), rows, "<p>.. and %s more</p>" % format(lock.more, ",") if lock.more else "")


# ---- differences

def _differences(check):
    if not check.kept:
        return '<p class="soft">%s</p>' % ("None: every read that was compared agrees." if check.reads else "None: no read was compared.")
    heads = "".join("<th>%s</th>" % head for head in COLUMNS + ("What differs",))
    rows = "".join(_row(one) for one in check.kept)
    more = check.failures + check.notes - len(check.kept)
    return '<div class="wide"><table><thead><tr>%s</tr></thead><tbody>\n%s</tbody></table></div>%s' % (
        heads, rows, '<p class="soft">.. and %s more; <code>--json</code> has them all.</p>' % format(more, ",") if more else "")


def _row(one):
    cells = format(one.line, ",") + ("" if one.failure else " (note)"), escape(one.text), escape(one.board or ""), escape(one.twin or "")
    row = "".join('<td%s data-name="%s">%s</td>' % (' class="mono"' if at else "", name, cell) for at, (name, cell) in enumerate(zip(COLUMNS, cells)))
    return '<tr class="%s">%s<td><ul>%s</ul></td></tr>\n' % (
        "failure" if one.failure else "note", row, "".join("<li>%s</li>" % text for text in _differing(one)))


def _differing(one):
    """What differs, as the items of a list."""
    said = [escape(one.why)] if one.why else []
    said += ['<b>%s</b> %s <span class="kind">(%s)</span><br>%s' % (escape(part.register), part.bits, escape(part.kind), escape(part.decided))
             for part in one.parts]
    return said + (['<span class="hint">%s</span>' % escape(one.hint)] if one.hint else [])
