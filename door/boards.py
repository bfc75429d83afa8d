"""Many boards: each log checked by a process of its own, a table of boards, and one status."""
import json
import os
import subprocess
import sys
from concurrent.futures import ThreadPoolExecutor

from door import cli, machine, proved
from door.lines import Bad
from door.registers import LOCKS

ENDINGS = (".log", ".session", ".console", ".trace", ".ports")
WORST = (2, 1, 3, 0)  # of many statuses the first of these that is there


def main(options):
    logs = [log for path in options.logs for log in logs_of(path)]
    junit = _opened(options.junit, logs) if options.junit else None
    proved.build("console")
    found = []
    table = Table(logs) if not options.json else None
    with ThreadPoolExecutor(options.jobs or 1) as workers:
        try:
            for fields in workers.map(lambda log: board(log, options), logs):
                found.append(fields)
                if table:
                    table.row(fields)
        except BaseException:
            workers.shutdown(wait=False, cancel_futures=True)
            raise
    status = next(one for one in WORST if any(fields["status"] == one for fields in found))
    if table:
        table.end(found, status)
    else:
        sys.stdout.write(json.dumps({"boards": found, "status": status}) + "\n")
    if junit:
        _written(junit, machine.junit([machine.suite(fields, options.strict, _said(fields)) for fields in found]))
    return status


def logs_of(path):
    """The logs that a path names: itself, or every log below a folder."""
    if not os.path.isdir(path):
        return [path]

    def unreadable(error):
        raise error
    found = sorted(os.path.join(folder, name) for folder, _, names in os.walk(path, onerror=unreadable) for name in names if name.endswith(ENDINGS))
    if not found:
        raise Bad("no log is below %s" % path, "logs are files that end in " + ", ".join(ENDINGS))
    return found


def board(log, options):
    """What a check of one log says, but for its differences. What it cannot do it says on standard error."""
    words = ["--json", "--quiet", "--format", options.format] + ["--strict"] * options.strict + ["--no-end"] * (not options.end)
    run = subprocess.run([sys.executable, proved.path_of("twin"), "check"] + words + ["--", log],
                         stdin=None if log == "-" else subprocess.DEVNULL, stdout=subprocess.PIPE, stderr=subprocess.PIPE)
    said = run.stderr.decode("utf-8", "backslashreplace").strip()
    if said:
        cli.say(said)
    try:
        fields = json.loads(run.stdout)
        return dict(fields, log=log)
    except ValueError:
        return {"log": log, "locks": [], "lines": 0, "reads": 0, "failures": 0, "notes": 0, "status": 2,
                "error": said.splitlines()[0] if said else "the check ended with status %d" % run.returncode}


def _said(fields):
    return "%d failures in %d reads" % (fields["failures"], fields["reads"])


# ---- the table

class Table:
    """A row for each board, as it is known."""

    def __init__(self, logs):
        self.width = min(max([len(log) for log in logs] + [5]), 48)
        self._row("board", "lines", "reads", [lock.name for lock in LOCKS], "failures", "notes", "status")

    def _row(self, log, lines, reads, verdicts, failures, notes, status):
        cells = [log.ljust(self.width), lines.rjust(9), reads.rjust(9)] + [verdict.ljust(10) for verdict in verdicts]
        sys.stdout.write("  ".join(cells + [failures.rjust(8), notes.rjust(7), status.rjust(6)]) + "\n")

    def row(self, fields):
        verdicts = {lock["name"]: lock["verdict"] for lock in fields["locks"]}
        self._row(fields["log"], format(fields["lines"], ","), format(fields["reads"], ","), [verdicts.get(lock.name, "-") for lock in LOCKS],
                  format(fields["failures"], ","), format(fields["notes"], ","), str(fields["status"]))
        sys.stdout.flush()

    @staticmethod
    def end(found, status):
        counts = ", ".join("%d with status %d" % (sum(fields["status"] == one for fields in found), one) for one in WORST[::-1]
                           if any(fields["status"] == one for fields in found))
        sys.stdout.write("%d board%s: %s\nexit status %d\n" % (len(found), "s" * (len(found) != 1), counts, status))


# ---- files

def _opened(path, logs):
    if any(os.path.exists(log) and os.path.exists(path) and os.path.isfile(path) and os.path.samefile(path, log) for log in logs):
        raise Bad("%s is one of the logs" % path)
    return open(path, "w", encoding="utf-8", errors="backslashreplace", newline="\n")


def _written(file, text):
    try:
        with file:
            file.write(text)
    except OSError as error:
        error.filename = file.name
        raise
