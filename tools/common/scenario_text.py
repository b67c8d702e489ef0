"""Judges whether a text is a scenario, with the package's reader (python/dnlab/io/scenario.py), and whether a
report is complete.

It gives tools/attack/hostile, tools/attack/limits and tools/second/differ an independent opinion on faults
and their lines, which is written only from docs/reference/scenario.md, faults.md and report.md. It does not
simulate, so it does not judge the finishes and drops of a report.
"""
import pathlib
import re
import sys
from collections.abc import Iterable

sys.path.insert(0, str(pathlib.Path(__file__).resolve().parents[2] / "python"))

from dnlab.io.scenario import Judged  # noqa: E402  (the path is set first)
from dnlab.io.scenario_parts import MOST_BYTES, MOST_LINE, SCALES, TIMES  # noqa: E402

__all__ = ["MOST_BYTES", "MOST_LINE", "SCALES", "TIMES", "Judged", "trouble"]

COUNTERS = re.compile(rb"counters" + rb" ([0-9]+)" * 11)
BODY = re.compile(rb"[0-9]+ (?:ok|refused|make|identify|arrive|finish|pass|deliver|drop|ack|expire|spent).*"
                  rb"|rule .*|pipe .*|instance .*")
CLOSING = re.compile(rb"[0-9]+ (?:ok [0-9]+|spent)")


def trouble(experiments: Iterable[tuple[str, int]], report: bytes) -> str | None:
    """Returns a sentence on why a report is not complete, or None if it is. `experiments` has names and
    numbers of commands."""
    if report and not report.endswith(b"\n"):
        return "the last line has no LF"
    lines = iter(report.split(b"\n")[:-1])
    for name, commands in experiments:
        if next(lines, None) != b"experiment " + name.encode():
            return f"the heading of {name} isn't where it belongs"
        before, counters = b"", None
        for line in lines:
            counters = COUNTERS.fullmatch(line)
            if counters:
                break
            if not BODY.fullmatch(line):
                return f"in {name} stands {line[:60]!r}"
            before = line
        if not counters:
            return f"{name} has no counters"
        made, *others = map(int, counters.groups())
        if made != sum(others):
            return f"{name} made {made}, and delivered, held and dropped {sum(others)}"
        words = before.split()
        if not CLOSING.fullmatch(before) or (words[1] == b"ok" and int(words[2]) != commands - 1):
            return f"the last record of {name} is {before[:60]!r}"
    return None if next(lines, None) is None else "more stands behind the last counters"
