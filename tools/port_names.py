#!/usr/bin/env python3
"""Brings the names that this repository declares in specs/ and proofs/ to today's spelling.

usage: tools/port_names.py [ROOT] [--say]

Run once, after the toolchain's port.py, at the top of the repository. Words are in snake case, so `badOffset` becomes
`bad_offset` and `blend-same` `blend_same`; a fact or a type is in camel case, so `Read-only` becomes `ReadOnly`; a constant
keeps its capitals, so `CAPID0-A` becomes `CAPID0_A`. A name of Rust and a name that the check makes keep theirs.
Where two names would fall together, the definition has the name and the lemma gets `_lem` behind it. --say prints the
names and writes nothing.
"""
import collections
import glob
import os
import re
import sys

DECLARED = re.compile(
    r"^\s*(?:(?:abbrev|unfoldable|pub|opaque|private|data|record|ruleset)\s+)*"
    r"([^\s:(){}\[\],;.=]+)(?:\s*\{[^}]*\})*\s*(?::|=)(?:\s|$)"
)
# what a token of antt ends at
EDGE = r"\s(){}\[\],;.λ:`\"'"
# the goals and records that the check makes, which proofs/F/ names
MADE = re.compile(r"^(returns|invariant|decreases|loop|need)(-|$)|-requires(-\d+)?$|^(add|sub|mul|cast|slice-aggregate|slice-write)-")


def spelled(name):
    """Today's spelling of a name, hole by hole where it is an operator."""
    return "◌".join(part_spelled(p) for p in name.split("◌"))


def part_spelled(part):
    if re.match(r"^[A-Z]", part):
        if "-" not in part or re.match(r"^[A-Z0-9-]+$", part):
            return part.replace("-", "_")
        head, *rest = part.split("-")
        return head + "".join(w[:1].upper() + w[1:] for w in rest)
    part = part.replace("getD", "get_or")
    part = re.sub(r"([a-z])([A-Z])|([0-9])([A-Z])(?=[a-z])", lambda m: (m.group(1) or m.group(3)) + "_" + (m.group(2) or m.group(4)).lower(), part)
    return part.replace("-", "_")


def by_port(root, names):
    """The names in the pages that port.py has turned in the sources already, and not in the pages."""
    text = " ".join(open(p, encoding="utf-8").read() for p in glob.glob(root + "/*.md") + glob.glob(root + "/docs/**/*.md", recursive=True))
    words = set(re.findall(r"(?<![\w-])[a-z][A-Za-z0-9]*(?:-[A-Za-z0-9]+)*(?![\w-])", " ".join(re.findall(r"`[^`\n]*`", text))))
    return {w: spelled(w) for w in words if spelled(w) != w and spelled(w) in names and w not in names}


def of_function(path):
    return re.search(r"/proofs/[^/]+/[^/]+\.antt$", path) is not None


def declared(root):
    """The names declared in specs/ and proofs/, each with the files that declare it."""
    found = collections.defaultdict(set)
    for path in sorted(glob.glob(root + "/crates/*/*/**/*.antt", recursive=True)):
        for line in open(path, encoding="utf-8"):
            m = DECLARED.match(line)
            if m and not (of_function(path) and MADE.search(m.group(1))):
                found[m.group(1)].add(path)
    return found


def renames(root):
    names = declared(root)
    turned = {}
    for name, paths in names.items():
        if of_function(next(iter(paths))) and all(of_function(p) for p in paths):
            # a function's own file: its proof by its name alone, what else it says there stays
            if name.endswith("-spec"):
                turned[name] = spelled(name)
            continue
        new = spelled(name)
        if new != name:
            turned[name] = new
    clash = collections.defaultdict(set)
    for name in names:
        clash[turned.get(name, name)].add(name)
    for new, old in clash.items():
        if len(old) > 1:
            # in camel case a definition, and a name that stands in specs/ before one of a lemma
            first = sorted(old, key=lambda n: ("-" in n, not any("/specs/" in p for p in names[n]), n))[0]
            for name in old - {first}:
                turned[name] = new + "_lem"
    clash = collections.defaultdict(set)
    for name in names:
        clash[turned.get(name, name)].add(name)
    together = {new: old for new, old in clash.items() if len(old) > 1}
    specs = {n for n, paths in names.items() if any("/specs/" in p for p in paths)}
    for name in list(turned):
        # the words of an operator stand alone where it is used
        if "◌" in name:
            for old, new in zip(name.split("◌"), turned[name].split("◌")):
                if old and old != new:
                    turned[old] = new
    return turned, together, names, specs


class Turner:
    """Turns each name that stands alone."""

    def __init__(self, turned):
        words = sorted(turned, key=len, reverse=True)
        self.turned = turned
        self.pattern = re.compile(r"(?<![^%s◌])(%s)(?![^%s◌])" % (EDGE, "|".join(map(re.escape, words)), EDGE))

    def turn(self, text):
        return self.pattern.sub(lambda m: self.turned[m.group(1)], text)


def lines_turned(text, mark, code, words):
    """The text with the names in its code turned, and in a comment only those that are no words of English."""
    out = []
    for line in text.split("\n"):
        m = re.search(r"(^|\s)%s" % mark, line)
        at = m.end() if m else len(line)
        out.append(code.turn(line[:at]) + words.turn(line[at:]))
    return "\n".join(out)


def main():
    args = [a for a in sys.argv[1:] if not a.startswith("--")]
    root = args[0] if args else "."
    turned, together, names, specs = renames(root)
    if "--say" in sys.argv:
        for old in sorted(turned):
            print(old, turned[old])
    for new, old in sorted(together.items()):
        print("together:", new, sorted(old), sorted({os.path.relpath(p, root) for o in old for p in names[o]})[:4], file=sys.stderr)
    if "--say" in sys.argv:
        return
    # a word with a dash may be English in a comment, and a minus in Rust
    words = Turner({o: n for o, n in turned.items() if "-" not in o and "_" not in o or re.match(r"^[A-Z][A-Z0-9-]+$", o)})
    rust = Turner({o: n for o, n in turned.items() if "-" not in o or o in specs})
    proofs = Turner(turned)
    pages = Turner(by_port(root, names))
    count = 0
    for path in sorted(glob.glob(root + "/crates/*/*/**/*", recursive=True)) + sorted(
        glob.glob(root + "/*.md") + glob.glob(root + "/*/*.md") + glob.glob(root + "/docs/*/*.md")
    ):
        text = open(path, encoding="utf-8").read() if re.search(r"\.(antt|rt|md)$", path) else ""
        if path.endswith(".antt"):
            new = lines_turned(text, "--", proofs, words)
        elif path.endswith(".rt"):
            new = lines_turned(text, "//", rust, words)
        elif path.endswith(".md"):
            new = re.sub(r"`[^`\n]*`", lambda m: pages.turn(proofs.turn(m.group(0))), text)
        else:
            continue
        if new != text:
            open(path, "w", encoding="utf-8").write(new)
            count += 1
    print("names:", len(turned), "files:", count)


if __name__ == "__main__":
    main()
