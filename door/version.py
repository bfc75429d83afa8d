"""The commit, the toolchain, and how many functions are proved."""
import os
import re
import subprocess

from door import proved
from door.cli import WELL

# a function with a body, as a source of the twin has it; an operation of C that is only declared is the kit's
FUNCTION = re.compile(r"^ *(?:pub(?:\([a-z]+\))? )?(?:const )?(?:extern \"C\" )?fn \w+", re.M)


def said(*words):
    """The first line that a command writes, or None where it is missing or fails."""
    try:
        done = subprocess.run(words, cwd=proved.ROOT, stdin=subprocess.DEVNULL, stdout=subprocess.PIPE, stderr=subprocess.DEVNULL)
    except OSError:
        return None
    text = done.stdout.decode("utf-8", "replace").strip()
    return text.splitlines()[0] if done.returncode == 0 and text else None


def commit():
    """The commit and its day; a mark where files that are kept there were changed since."""
    inside = said("git", "rev-parse", "--show-toplevel")
    found = said("git", "log", "-1", "--format=%h (%cs)")
    if not found or not inside or os.path.realpath(inside) != os.path.realpath(proved.ROOT):
        return "of no known commit (git, or its folder, is not here)"
    return found + (", with changes since" if said("git", "status", "--porcelain", "--untracked-files=no") else "")


def functions():
    """How many functions the sources of the listed crates have: each is proved, or its crate is not built."""
    count = 0
    for crate in proved.crates():
        for folder, _, names in os.walk(proved.path_of("crates", crate, "src")):
            for name in names:
                if name.endswith(".rt"):
                    with open(os.path.join(folder, name), encoding="utf-8", errors="replace") as file:
                        count += len(FUNCTION.findall(file.read()))
    return count


def main():
    print("twin %s" % commit())
    print("rt %s" % (said("rt", "version") or "is not on the path"))
    print("%d functions proved (counted in the sources of the %d crates of crates.txt; .ci/run proves each of them)"
          % (functions(), len(proved.crates())))
    return WELL
