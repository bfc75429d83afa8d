#!/usr/bin/env python3
"""The documents: what they show is what the commands print, and their tables, names and links are right.

In README.md and docs/*.md an indented line `$ COMMAND` is run in the repository's root, by bash; lines `> ..` under it go on with it, and
what stands below, to the next command or the block's end, is what it prints, both outputs together. A line of `..` alone stands for any lines.

    tests/door.d/documents.py --write [FILE..]    puts what they print now into the documents
"""
import glob
import os
import platform
import re
import shutil
import sys
from concurrent.futures import ThreadPoolExecutor

sys.dont_write_bytecode = True
from common import TOP, Test, bash, quick, run, text_of, tool, twin

from door import lines, registers, rows

INDENT = "    "
LIMIT = 120  # seconds for a command
held = tool("held")


def documents():
    """README.md and the pages of docs/, by their paths from the root."""
    return ["README.md"] + sorted(os.path.relpath(path, TOP) for path in glob.glob(os.path.join(TOP, "docs", "*.md")))


# ---- commands

class Shown:
    """A command of a document, what it is said to print, and between which lines that stands."""

    def __init__(self, path, at, command):
        self.path, self.at, self.command, self.output, self.begin = path, at, command, [], at

    def __str__(self):
        return f"{self.path}:{self.at}: {self.command}"


def shown_in(path, text):
    """The commands that a document shows."""
    found, now = [], None
    for at, row in enumerate(text.split("\n"), 1):
        body = row[len(INDENT):]
        if not row.startswith(INDENT) and row.strip():
            now = None
        elif body.startswith("$ "):
            now = Shown(path, at, body[2:])
            found.append(now)
        elif now and body.startswith("> ") and not now.output:
            now.command, now.begin = now.command + "\n" + body[2:], at
        elif now:
            now.output.append(body)
    for shown in found:
        while shown.output and not shown.output[-1].strip():
            shown.output.pop()
    return found


def here(command):
    """A command as it is run on this machine: programs below target/ are x86-64 code, and so is what cc makes for them."""
    if platform.machine() == "x86_64":
        return command
    command = re.sub(r"(^|[|;&(]\s*)(target/)", r"\1qemu-x86_64 \2", command)
    return re.sub(r"(^|[|;&(]\s*)cc ", r"\1x86_64-linux-gnu-gcc ", command)


def printed(shown):
    """What a command prints, line by line."""
    # lspci may complain of the machine's own module list
    said = re.sub(r"(?m)^lspci: .*\n", "", bash(here(shown.command), LIMIT)).rstrip("\n")
    return [row.rstrip(" ") for row in said.split("\n")] if said else []


def page(path):
    """The commands of a page with what each prints, one after the other: they may stand on one another."""
    return [(shown, printed(shown)) for shown in shown_in(path, text_of(path)) if shutil.which("parallel") or not shown.command.startswith("parallel ")]


def agrees(said, got):
    """Whether lines are what a document says, where a line of `..` stands for any."""
    if not said:
        return not got
    if said[0].strip() == "..":
        return any(agrees(said[1:], got[skip:]) for skip in range(len(got) + 1))
    return bool(got) and settled(said[0]) == settled(got[0]) and agrees(said[1:], got[1:])


def settled(line):
    """A line without what every change of a proof moves: where in its file an error stands."""
    return re.sub(r"(\.antt):\d+:\d+: error", r"\1: error", line.rstrip(" "))


def rewritten(path):
    """A page with what its commands print now; where `..` stands in for lines that fit, it stays."""
    text = text_of(path)
    rows_of = text.split("\n")
    for shown, got in reversed(page(path)):
        if not agrees(shown.output, got):
            rows_of[shown.begin:shown.begin + len(shown.output)] = [(INDENT + row).rstrip(" ") for row in got]
    return "\n".join(rows_of)


class Commands(Test):
    def test_they_print_what_is_shown(self):
        with ThreadPoolExecutor(2) as workers:
            for done in workers.map(page, documents()):
                for shown, got in done:
                    with self.subTest(str(shown)):
                        if not agrees(shown.output, got):
                            self.assertEqual("\n".join(shown.output), "\n".join(got))

    def test_examples_write_below_target(self):
        for path in documents():
            for shown in shown_in(path, text_of(path)):
                quoted = re.sub(r"'[^']*'|\"[^\"]*\"", "''", shown.command)
                for names in re.findall(r"[^<-]>\s*([\w./-]+)|(?:\s-o|--html|--junit|--svg)\s+([\w./-]+)", quoted):
                    self.assertRegex("".join(names), r"^(target/|/dev/)", str(shown))


# ---- tables

def cells(text, heading):
    """The rows of the table under a heading row, cell by cell."""
    rows_of = text.split("\n")
    start = next(at for at, row in enumerate(rows_of) if row.startswith(heading))
    table = []
    for row in rows_of[start + 2:]:
        if not row.startswith("|"):
            break
        table.append([cell.strip() for cell in row.strip("| ").split("|")])
    return table


WORDS = {"host": "host", "guest": "plain", "guestF": "plain", "once": "lock", "size_code": "size code", "aperture": "aperture",
         "power": "power", "computed": "computed", "reset_start": "reset start"}


def bits_of(size, parts):
    """The cell of a register's bits."""
    def part(word, mask):
        return f"{WORDS[word]} {mask:0{2 * size}X}" + (", F" if registers.CLASSES[word].returned else "")
    return "; ".join(part(*pair) for pair in parts) or "read-only"


class Tables(Test):
    def setUp(self):
        super().setUp()
        self.rules = text_of("docs/RULES.md")

    def test_registers_are_the_map(self):
        table = [row[:5] for row in cells(self.rules, "| At | Name | Bytes |")]
        self.assertEqual([[f"{at:02X}", name, str(size), f"{default:0{2 * size}X}", bits_of(size, parts)]
                          for name, at, size, default, parts in rows.ROWS], table)

    def test_kinds_are_those_of_the_map(self):
        kinds = [row[0] for row in cells(self.rules, "| Kind | A guest write")]
        self.assertEqual({"read-only"} | set(WORDS.values()), set(kinds))

    def test_window(self):
        table = [row[:2] for row in cells(self.rules, "| At | Register | Guest |")]
        self.assertEqual([[f"{offset:06X}", name] for name, offset in registers.WINDOW], table)

    def test_lines(self):
        table = [(row[0], row[3]) for row in cells(self.rules, "| Line | What it does |")]
        self.assertEqual([(f"`{lines.form_text(letter)}`", ", ".join(form.programs).replace("_", " ")) for letter, form in lines.FORMS.items()], table)

    def test_refusals(self):
        table = [row[:2] for row in cells(self.rules, "| No | Name |")]
        self.assertEqual([[str(number), name] for number, name in sorted(rows.REFUSALS.items())], table)

    def test_refusals_of_a_sheet(self):
        for row in cells(text_of("docs/SHEETS.md"), "| What is wrong |"):
            self.assertIn(int(row[1]), (12, 13, 14))
            self.assertIn(row[2].strip("`"), text_of("tests/second/src/bin/sentences.rs").replace('\\\n', ""), row)

    def test_fields_of_a_report(self):
        path = self.put("board.log", "W 2C 3 00001234\nR 2C 3 = FFFF\n")
        report = quick("check", "--json", path).json
        for row in cells(text_of("docs/CHECK.md"), "| Field | What it is |"):
            inside = report
            for name in re.findall(r"`([^`]+)`", row[0]):
                whole, _, part = name.rpartition(".")
                inside = report[whole.rstrip("[]")][0] if whole.endswith("[]") else inside
                self.assertIn(part, inside, name)

    def test_the_rows_are_the_definitions(self):
        self.assertStatus(0, run([sys.executable, os.path.join(TOP, "tools", "registers"), "--check"]))

    def test_the_picture_is_what_twin_map_makes(self):
        path = os.path.join(self.room, "map.svg")
        self.assertStatus(0, twin("map", "--svg", path))
        self.assertEqual(text_of("docs/map.svg"), text_of(path), "docs/map.svg: ./twin map --svg docs/map.svg makes it anew")


# ---- names and links

def anchors(text):
    """The anchors of a page's headings, as they are made of their words."""
    made = []
    for heading in re.findall(r"^#+ (.*)$", re.sub(r"```.*?```", "", text, flags=re.S), re.M):
        words = re.sub(r"\[([^]]*)\]\([^)]*\)", r"\1", heading).replace("`", "").lower()
        made.append(re.sub(r"[^\w\- ]", "", words).replace(" ", "-"))
    return made


class Names(Test):
    def test_links_lead_somewhere(self):
        pages = documents() + [os.path.relpath(path, TOP) for path in glob.glob(os.path.join(TOP, "docs", "landings", "*.md"))] + ["bench/README.md"]
        for path in pages:
            for link in re.findall(r"\]\(([^)\s]+)\)", text_of(path)):
                file, _, anchor = link.partition("#")
                if "://" in link:
                    continue
                target = os.path.normpath(os.path.join(os.path.dirname(path), file)) if file else path
                self.assertTrue(os.path.exists(os.path.join(TOP, target)), f"{path}: {link}")
                if anchor:
                    self.assertIn(anchor, anchors(text_of(target)), f"{path}: {link}")

    def test_files_that_are_named_are_there(self):
        for path in documents():
            for name in re.findall(r"`((?:crates|tests|tools|docs|door|examples|include|bindings|bench)/[\w./-]+)`", text_of(path)):
                if "/NAME" not in name:
                    self.assertTrue(os.path.exists(os.path.join(TOP, name)), f"{path} names {name}")

    def test_wrong_programs_that_are_named_are_there(self):
        crates = set(os.listdir(os.path.join(TOP, "crates")))
        known = {f"{crate}/{what}" for crate, what in tool("break").wrong_programs()}
        for path in documents():
            self.assertEqual(set(), held.promised(text_of(path), crates) - known, path)

    def test_definitions_that_the_index_names_are_there(self):
        for row in cells(text_of("docs/PROOFS.md"), "| Rule | Said in |"):
            for file, names in re.findall(r"`(crates/[\w/.]+)`((?:,? `[^`/]+`)*)", " ".join(row[1:])):
                for name in re.findall(r"`([^`]+)`", names):
                    self.assertRegex(text_of(file), rf"(?<![\w-]){re.escape(name)}(?![\w-])", row[0])

    def test_every_crate_has_a_line(self):
        named = set(re.findall(r"`(\w+)`", " ".join(row[0] for row in cells(text_of("docs/PROOFS.md"), "| Crate | What it is |"))))
        self.assertEqual(set(os.listdir(os.path.join(TOP, "crates"))), named)

    def test_what_the_bindings_print(self):
        said = "".join(INDENT + row + "\n" for row in text_of("tests/data/lock-bindings.stdout").split("\n")[:-1])
        self.assertIn("\n" + said, text_of("docs/LIBRARY.md"))

    def test_readme(self):
        readme = text_of("README.md").split("\n")
        self.assertEqual("*a reset may undo your lock in the name of convenience.*", readme[0])
        self.assertLessEqual(len(readme), 120)
        for page_ in ("CHECK", "CONSOLE", "SHEETS", "LIBRARY", "PROOFS", "RULES"):
            self.assertIn(f"docs/{page_}.md", "\n".join(readme))


def main(words):
    if words[:1] != ["--write"]:
        print(__doc__, file=sys.stderr)
        return 2
    for path in words[1:] or documents():
        after = rewritten(path)
        with open(os.path.join(TOP, path), "w", encoding="utf-8") as file:
            file.write(after)
    return 0


if __name__ == "__main__":
    sys.exit(main(sys.argv[1:]))
