"""The 256 bytes of the function by register and kind of bit: a table, one register in full (NAME), or a picture.

Every bit that no kind is named for is read-only, and every byte in no register reads 00.
"""
import html
import sys

from door import registers
from door.cli import WELL
from door.names import register_named
from door.snapshot import write_file
from door.table import KIND_TEXT, detail, rule_text, runs_of, table

FOOT = ("Made from the rows of the proved register map (crates/map/specs/Map.antt). Every answer of the twin is proved; "
        "what is told beside it, this picture too, is tested.")


def add(parser):
    parser.add_argument("names", metavar="NAME", nargs="*", help="a register, to be told bit by bit; none is the whole map")
    parser.add_argument("--html", metavar="FILE", help="write a page with the 16 by 16 bytes coloured by kind, locks outlined")
    parser.add_argument("--svg", metavar="FILE", help="write the same picture as an SVG file")


def main(options):
    for path, made in ((options.html, page), (options.svg, picture)):
        if path is not None:
            write_file(path, made().encode("utf-8"))
    if options.names:
        sys.stdout.write("\n".join(detail(register_named(name)) for name in options.names))
    elif options.html is None and options.svg is None:
        sys.stdout.write(table())
    return WELL


# ---- the picture

CELL_W, CELL_H, LEFT, TOP = 66, 46, 34, 26
SHORT_TEXT = {"lock": "write-once: the first write to it closes it"}
CELL_TEXT = "A cell is a byte, its bits from 7 at the left to 0; under the name the default. Bytes in no register read 00."
LABEL = "The register map, byte by byte"
GRID_W, GRID_H = 16 * CELL_W, 16 * CELL_H
LEGEND_TOP, LEGEND_ROW = TOP + GRID_H + 24, 22
WIDTH, HEIGHT = LEFT + GRID_W + 10, LEGEND_TOP + 6 * LEGEND_ROW + 4

# a colour for each kind, on a light and on a dark ground; they stay apart for eyes that see few colours
COLOURS = {
    "read-only": ("#dcdfe3", "#3a3f46"),
    "host": ("#8fcdf2", "#1f5f86"),
    "plain": ("#8fd6bb", "#1d6b52"),
    "lock": ("#f0925a", "#a84a10"),
    "size code": ("#d9a3c4", "#7d3f66"),
    "power": ("#f2c14e", "#86611a"),
    "computed": ("#f5ec84", "#706a12"),
    "reset start": ("#7fa3e0", "#2c4f96"),
}
GROUND = ("#ffffff", "#16181c")
INK = ("#16181c", "#eceef1")
FAINT = ("#6b7280", "#9aa3ae")
EMPTY = ("#f4f5f7", "#1e2126")
LINE = ("#ffffff", "#16181c")
FRAME = ("#4b5563", "#9aa3ae")
OUTLINE = ("#8a1c00", "#ffb38a")


def _class_of(kind):
    return "k-" + kind.replace(" ", "-")


def _colours(which):
    rules = [".%s{fill:%s}" % (_class_of(kind), pair[which]) for kind, pair in COLOURS.items()]
    rules += [
        ".ground{fill:%s}" % GROUND[which], ".empty{fill:%s;stroke:%s}" % (EMPTY[which], LINE[which]), "text{fill:%s}" % INK[which],
        ".faint{fill:%s}" % FAINT[which], ".frame{stroke:%s}" % FRAME[which], ".lock{stroke:%s}" % OUTLINE[which],
        ".f{fill:%s}" % INK[which], ".split{stroke:%s}" % LINE[which],
    ]
    return "".join(rules)


def style():
    return (
        "text{font-family:system-ui,-apple-system,'DejaVu Sans',sans-serif;font-size:13px}"
        ".name{font-weight:600;font-size:13px}.small{font-size:11px}.mono{font-family:ui-monospace,'DejaVu Sans Mono',monospace}"
        ".frame{fill:none;stroke-width:1}.lock{fill:none;stroke-width:3.5}.split{stroke-width:1}.f{opacity:.55}"
        + _colours(0) + "@media(prefers-color-scheme:dark){" + _colours(1) + "}"
    )


def _place(byte):
    return LEFT + byte % 16 * CELL_W, TOP + byte // 16 * CELL_H


def _rect(x, y, width, height, kind, more=""):
    return '<rect x="%g" y="%g" width="%g" height="%g" class="%s"%s/>' % (x, y, width, height, kind, more)


def _text(x, y, text, kind="", more=""):
    return '<text x="%g" y="%g"%s%s>%s</text>' % (x, y, ' class="%s"' % kind if kind else "", more, html.escape(text))


def _byte(byte):
    """A byte's bits from left to right, 7 to 0, coloured by kind; a bar below those that a function reset returns."""
    x, y = _place(byte)
    made = []
    for high, low, word in runs_of([registers.class_at(byte, bit) for bit in range(8)]):
        left, width = x + (7 - high) * CELL_W / 8, (high - low + 1) * CELL_W / 8
        made.append(_rect(left, y, width, CELL_H, _class_of(registers.CLASSES[word].kind)))
        if registers.CLASSES[word].returned:
            made.append(_rect(left, y + CELL_H - 4, width, 3, "f"))
    return "".join(made)


def _title(register):
    return "%s, %02X\n%s" % (register.name, register.at, detail(register).partition("\n")[2].rstrip())


def _register(register):
    """A register: its bytes, a frame, its name and default; hovering tells its bits."""
    x, y = _place(register.at)
    width = register.size * CELL_W
    made = ["<g><title>%s</title>" % html.escape(_title(register))]
    made += [_byte(byte) for byte in range(register.at, register.at + register.size)]
    made += ['<line x1="{0:g}" y1="{1:g}" x2="{0:g}" y2="{2:g}" class="split"/>'.format(x + i * CELL_W, y, y + CELL_H)
             for i in range(1, register.size)]
    made.append(_rect(x + .5, y + .5, width - 1, CELL_H - 1, "frame"))
    made.append(_label(register, x, y))
    return "".join(made) + "</g>"


def _label(register, x, y):
    """The name and the default, in the middle of the bytes before a lock's single bits; a long name is drawn narrower."""
    narrow = [lock for lock in registers.LOCKS if lock.register is register and lock.name != register.name]
    width = CELL_W * (narrow[0].at_bytes[0] - register.at if narrow else register.size)
    middle = ' text-anchor="middle"'
    fit = ' textLength="%d" lengthAdjust="spacingAndGlyphs"' % (width - 8) if 9 * len(register.name) > width else ""
    name = _text(x + width / 2, y + 19, register.name, "name", middle + fit)
    return name + _text(x + width / 2, y + 35, "%0*X" % (2 * register.size, register.default), "small mono", middle)


def _lock(lock):
    """An outline around a lock: whole bytes, or the bits of one."""
    x, y = _place(lock.at_bytes[0])
    if lock.name == lock.register.name:
        return _rect(x + 2, y + 2, CELL_W * len(lock.at_bytes) - 4, CELL_H - 4, "lock", ' rx="2"')
    bits = [bit for bit in range(8) if lock.mask >> 8 * (lock.at_bytes[0] - lock.register.at) + bit & 1]
    return _rect(x + (7 - bits[-1]) * CELL_W / 8, y + 2, len(bits) * CELL_W / 8, CELL_H - 4, "lock", ' rx="2"')


def _entry(column, row, sign, name, text):
    """An entry of the legend: its sign, drawn from a corner on, its name and a sentence."""
    x, y = LEFT + column * (GRID_W / 2 + 30), LEGEND_TOP + row * LEGEND_ROW
    return sign(x, y) + _text(x + 30, y + 12, name, "name") + _text(x + 118, y + 12, text, "small")


def _legend():
    """The kinds in two columns, then F and the locks' outline."""
    made = []
    for i, kind in enumerate(KIND_TEXT):
        made.append(_entry(i % 2, i // 2, lambda x, y: _rect(x, y, 22, 14, _class_of(kind)), kind, SHORT_TEXT.get(kind, KIND_TEXT[kind])))
    row = (len(KIND_TEXT) + 1) // 2
    made.append(_entry(0, row, lambda x, y: _rect(x, y + 8, 22, 3, "f"), "F", "a function reset returns it to its default"))
    locks = ", ".join(lock.name for lock in registers.LOCKS)
    made.append(_entry(1, row, lambda x, y: _rect(x + 1, y + 1, 20, 12, "lock", ' rx="2"'), "outline", "the locks: " + locks))
    made.append(_text(LEFT, LEGEND_TOP + (row + 1) * LEGEND_ROW + 12, CELL_TEXT, "small faint"))
    return "".join(made)


def picture(style_too=True):
    """The picture as SVG."""
    made = [
        '<svg xmlns="http://www.w3.org/2000/svg" viewBox="0 0 %d %d" role="img" aria-label="%s">' % (WIDTH, HEIGHT, LABEL),
        "<style>%s</style>" % style() if style_too else "",
        _rect(0, 0, WIDTH, HEIGHT, "ground"),
    ]
    for i in range(16):
        made.append(_text(LEFT + i * CELL_W + CELL_W / 2, TOP - 8, "%X" % i, "faint mono", ' text-anchor="middle"'))
        made.append(_text(LEFT - 8, TOP + i * CELL_H + CELL_H / 2 + 5, "%X0" % i, "faint mono", ' text-anchor="end"'))
    made += [_rect(*_place(byte), CELL_W, CELL_H, "empty") for byte in range(registers.SIZE) if registers.register_at(byte) is None]
    made += [_register(register) for register in registers.REGISTERS]
    made += [_lock(lock) for lock in registers.LOCKS]
    made.append(_legend())
    return "\n".join(part for part in made if part) + "\n</svg>\n"


PAGE_STYLE = """
:root { color-scheme: light dark }
body { margin: 0; background: %(ground)s; color: %(ink)s; font: 16px/1.5 system-ui, -apple-system, 'DejaVu Sans', sans-serif }
main { max-width: 1180px; margin: 0 auto; padding: 24px 16px 40px }
h1 { font-size: 1.5rem; margin: 0 0 4px }
p { margin: 0 0 16px; max-width: 90ch }
.wide { overflow-x: auto }
.wide svg { display: block; min-width: 760px; width: 100%%; height: auto }
table { border-collapse: collapse; font-size: .9rem; margin-top: 20px; width: 100%% }
td, th { text-align: left; padding: 4px 10px 4px 0; border-bottom: 1px solid %(line)s; vertical-align: top }
td.m { font-family: ui-monospace, 'DejaVu Sans Mono', monospace; white-space: nowrap }
footer { margin-top: 24px; font-size: .85rem; opacity: .75; max-width: 80ch }
@media (prefers-color-scheme: dark) {
  body { background: %(dark_ground)s; color: %(dark_ink)s }
  td, th { border-color: %(dark_line)s }
}
"""
PAGE = """<!DOCTYPE html>
<html lang="en">
<head>
<meta charset="utf-8">
<meta name="viewport" content="width=device-width,initial-scale=1">
<title>Register map</title>
<style>%s%s</style>
</head>
<body>
<main>
<h1>The register map</h1>
<p>The 256 configuration bytes of the graphics function at 00:02.0, by register and kind of bit. The locks are outlined.</p>
<div class="wide">
%s</div>
<div class="wide">
<table>
<tr><th>At</th><th>Name</th><th>Bytes</th><th>Default</th><th>Kinds of bits, with masks</th></tr>
%s</table>
</div>
<footer>%s</footer>
</main>
</body>
</html>
"""
ROW = '<tr><td class="m">%02X</td><td class="m">%s</td><td>%d</td><td class="m">%0*X</td><td>%s</td></tr>\n'


def page_style():
    """The page's colours, light and dark."""
    used = {"ground": GROUND, "ink": INK, "line": COLOURS["read-only"]}
    light, dark = ({name: pair[which] for name, pair in used.items()} for which in (0, 1))
    return PAGE_STYLE % {**light, **{"dark_" + name: colour for name, colour in dark.items()}}


def page():
    """The picture and the table as one page that needs nothing else."""
    rows = "".join(ROW % (r.at, html.escape(r.name), r.size, 2 * r.size, r.default, html.escape(rule_text(r))) for r in registers.REGISTERS)
    return PAGE % (page_style(), style(), picture(False), rows, html.escape(FOOT))
