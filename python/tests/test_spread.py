"""tools/spread: it has the bytes, the errors and the status of `dnlab alone`, however a scenario is split.

Runs all scenarios of examples/ and cookbook/ in parts, those with many experiments in 1, 2, 3 and 300, the
others in one of these in turn; and texts that the program itself refuses for their length. Needs GNU parallel
(Debian: parallel)."""
import os
from pathlib import Path

import pytest
from conftest import EXAMPLES, ROOT, in_part
from hypothesis import given
from hypothesis import strategies as some
from spreading import MOST, SMALL, SMALL_REPORT, SPREAD, begins, ended, spread

from dnlab.io.scenario_text import experiments_in, groups, most_report, shares, texts_of

PARTS = 1, 2, 3, 300
FILES = sorted([*ROOT.glob("examples/*/*/scenario.txt"), *ROOT.glob("cookbook/*/scenario.txt")])


def ways(turn: int, text: bytes) -> tuple[int, ...]:
    """Returns the numbers of parts in which a text is tried. 256 experiments in 256 parts are tried only
    once, which takes about 10 s."""
    starts = len(begins(text))
    all_ways = PARTS[:3] if starts == MOST else PARTS
    return all_ways if starts > 1 else (PARTS[turn % 4],)


@pytest.mark.parametrize("turn", in_part(range(len(FILES)), 5),
                         ids=in_part([file.parent.name for file in FILES], 5))
def test_each_scenario(turn: int, program: str) -> None:
    text = FILES[turn].read_bytes()
    want = ended([program, "alone"], text)
    for parts in ways(turn, text):
        assert spread("--parts", parts, text=text, program=program) == want


# Three times as many small experiments as a text for the program can have.
NAMES = [f"e{number}" for number in range(700)]
LONG = "".join(f"# one\nexperiment {name} seed 0 budget 10\n@0 add 100 allow ip from any to any\n"
               f"@5 inject udp 10.0.0.1 1 10.0.0.2 2 100\n@9 end\n" for name in NAMES).encode()
LONG_REPORT = "".join(f"experiment {name}\n0 ok 0\n5 ok 1\n6 deliver 0 plain\n9 ok 2\n"
                      "counters 1 1 0 0 0 0 0 0 0 0 0\n" for name in NAMES).encode()


def test_more_experiments_than_the_program_takes(program: str) -> None:
    assert ended([program, "alone"], LONG) == (b"", b"line %d: toomany\n" % (5 * 256 + 2), 1)
    assert spread("--parts", 2, text=LONG, program=program) == (LONG_REPORT, b"", 0)


LONG_FAULTS = [
    ("a fault in the second text", 300, lambda own: own.replace(b"inject", b"injekt"), 3, b"badword"),
    ("a heading behind a text that fits", 256, lambda own: own.replace(b"budget", b"buget"), 1, b"badword"),
    ("an end that is missing before it", 255, lambda own: own.replace(b"@9 end\n", b""), 5, b"noend"),
    ("a name of another text", 400, lambda own: own.replace(b"e400", b"e3"), 1, b"samename"),
    ("a fault behind a name of another text", 400,
     lambda own: own.replace(b"e400", b"e3").replace(b"inject", b"injekt"), 1, b"samename"),
    ("a fault before a name of another text", 400,
     lambda own: own.replace(b"e400", b"e3").replace(b"seed 0", b"seed x"), 1, b"badword"),
    ("a moment that falls", 699, lambda own: own.replace(b"@9", b"@4"), 4, b"backwards"),
    ("a byte that isn't printed", 699, lambda own: own.replace(b"udp", b"u\tp"), 3, b"badbyte"),
]


@pytest.mark.parametrize("name,which,change,line,cause", LONG_FAULTS, ids=[fault[0] for fault in LONG_FAULTS])
def test_faults_in_long_texts(name, which, change, line, cause, program: str) -> None:
    """By hand: an experiment has five lines, of which the second is its heading. `noend` is reported at the
    next heading."""
    parts = [b"# one\nexperiment" + part for part in LONG.split(b"# one\nexperiment")[1:]]
    before = 5 * which + 1
    parts[which] = change(parts[which])
    wanted = before + line if cause != b"noend" else 5 * (which + 1) + 1
    assert spread(text=b"".join(parts), program=program) == (b"", b"line %d: %s\n" % (wanted, cause), 1)


def test_more_bytes_than_the_program_takes(program: str) -> None:
    """Two experiments, each with nearly the maximum length of a text, and then one that exceeds it."""
    filler = (b"#" * 511 + b"\n") * 32000
    small = [b"experiment" + one for one in SMALL.split(b"experiment")[1:]]
    text = small[0] + filler + small[1] + filler
    assert ended([program, "check"], text) == (b"", b"line 0: toobig\n", 1)
    reports = SMALL_REPORT.split(b"experiment")
    assert spread("--parts", 1, text=text,
                  program=program) == (b"experiment" + reports[1] + b"experiment" + reports[2], b"", 0)
    line = 1 + (small[0] + filler).count(b"\n")
    assert spread(text=text + filler, program=program) == (b"", b"line %d: toobig\n" % line, 1)
    nothing = (b"#" * 511 + b"\n") * 32769
    assert spread(text=nothing, program=program) == (b"", b"", 0)
    assert spread(text=nothing + b"x\n", program=program) == (b"", b"line 32770: badword\n", 1)


def test_several_texts(tmp_path: Path, program: str) -> None:
    small = [b"experiment" + one for one in SMALL.split(b"experiment")[1:]]
    for name, text in zip("abc", small):
        (tmp_path / name).write_bytes(b"# before\n" + text)
    how = {"env": {**os.environ, "DNLAB": program}, "cwd": tmp_path}
    assert ended([SPREAD, "a", "b", "c", "--jobs", "1"], b"", **how) == (SMALL_REPORT, b"", 0)
    assert ended([SPREAD, "a", "--jobs", "1", "-", "c"], small[1], **how) == (SMALL_REPORT, b"", 0)
    assert ended([SPREAD, "a", "b", "a"], b"", **how) == (b"", b"a: line 2: samename\n", 1)
    (tmp_path / "b").write_bytes(b"experiment b seed 0 budget 1\n@9 end")
    assert ended([SPREAD, "b", "a"], b"", **how) == (b"", b"b: line 2: cut\n", 1)
    (tmp_path / "b").write_bytes(small[1].replace(b"@9 end", b"@9 en"))
    assert ended([SPREAD, "a", "b"], b"", **how) == (b"", b"b: line 4: badword\n", 1)
    assert ended([SPREAD, "-", "-"], b"", **how)[2] == 2


@given(some.lists(some.integers(1, 50), min_size=1, max_size=40), some.integers(1, 45))
def test_groups(costs: list[int], parts: int) -> None:
    """Groups are contiguous and not empty, and each end is as near to its share as possible with at least one
    item for all others."""
    ends = groups(costs, parts)
    count = min(parts, len(costs))
    assert ends[-1] == len(costs) and len(ends) == count and all(a < b for a, b in zip([0, *ends], ends))
    sums = [sum(costs[:end]) for end in range(len(costs) + 1)]
    for part, end in enumerate(ends[:-1], 1):
        least, most = (ends[part - 2] if part > 1 else 0) + 1, len(costs) - (count - part)
        apart = [abs(sums[other] * count - part * sums[-1]) for other in range(least, most + 1)]
        assert apart[end - least] == min(apart)


@given(some.lists(some.tuples(some.integers(0, 3), some.booleans()), min_size=1, max_size=600),
       some.integers(1, 9))
def test_nothing_is_lost_in_splitting(shapes, count: int) -> None:
    """The parts have all bytes from the first heading on, in order, and no part has more than 256
    experiments."""
    text = b"# before\n" + b"".join(b"%sexperiment n%d seed 0 budget 1\n%s@1 end\n" % (
        b"  " if indented else b"", number, b"# experiment\n" * comments) for number, (comments, indented)
        in enumerate(shapes))
    found = experiments_in([text])
    assert b"".join(part.text for part in found) == text[len(b"# before\n"):]
    assert [part.name for part in found] == [f"n{number}" for number in range(len(shapes))]
    lines = text.split(b"\n")
    assert all(lines[part.line - 1].split()[1].decode() == part.name for part in found)
    for way in (texts_of(found), shares(found, count)):
        assert [part for one in way for part in one] == found and all(len(one) <= MOST for one in way)


def test_no_report_is_longer_than_its_bound() -> None:
    """Checks the worked examples, whose texts have spaces and comments of all kinds, few steps and large
    listings."""
    tried = 0
    for scenario in EXAMPLES.glob("*/scenario.txt"):
        tried += 1
        assert (scenario.parent / "expected.txt").stat().st_size <= most_report(
            scenario.read_bytes()), scenario
    assert tried > 100
