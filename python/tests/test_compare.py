"""tools/compare: metrics side by side, and where two runs diverge, for runs whose times are calculated by
hand."""
import gzip
import json
import os
from fractions import Fraction
from pathlib import Path
from typing import Callable, Optional

import pytest
from calls_and_flows import FLOWS
from conftest import records_in, report_of, tool

from dnlab.analysis.bounds import Pair, tolerance_of
from dnlab.analysis.metrics import metric_of
from dnlab.analysis.divergence import parting
from dnlab.analysis.view import View
from dnlab.io import scenario

Alone = Callable[[bytes], bytes]
# Five packets of 1000 bytes at once: at 8 Mbit/s each is served in 1 ms, and delivered 10 ms later: 11 .. 15
# ms.
TRAIN = """experiment a seed 0 budget 100
@0 pipe 1 config bw 8Mbit/s delay 10
@0 add 100 pipe 1 ip from any to any
@0 train 9 udp 10.0.0.1 1 10.0.0.2 2 1000 count 5 gap 0
@100000000 end
"""
SLOW = TRAIN.replace("8Mbit/s", "4Mbit/s")


@pytest.fixture
def two(traced: Alone, tmp_path: Path) -> list[Path]:
    """Returns the files of both runs: a's report and scenario, b's report and scenario."""
    paths = []
    for name, text in (("a", TRAIN), ("b", SLOW)):
        for kind, data in (("report", traced(text.encode())), ("scenario", text.encode())):
            paths.append(tmp_path / f"{name}.{kind}")
            paths[-1].write_bytes(data)
    return paths


FLOW = (b"experiment f seed 0 budget 9\n@0 add 1 allow ip from any to any\n@0 flow 1 10.0.0.1 1 10.0.0.2 2 "
        b"smss 100 segments 9\n@9 end\n")


def view(traced: Alone, text: str, joined: bool = True) -> View:
    plan = scenario.read(text.encode())["a"] if joined else None
    return View(records_in(traced(text.encode()))[0], plan)


def test_metrics_and_ratio(two: list[Path]) -> None:
    a, plan, b, other = two
    status, out, err = tool("compare", a, b, plan, other, "--json", "--percentiles", "50,95")
    found = {(one["sender"], one["metric"]): (one["a"], one["b"], one["ratio"], one["judged"])
             for one in json.loads(out)["metrics"]}
    assert status == 1 and not err
    # At 4 Mbit/s a packet takes 2 ms, so they arrive at 12, 14, 16, 18 and 20 ms.
    assert found["train 9", "delay.p50"] == (13 * 10**6, 16 * 10**6, 16 / 13, "differs")
    assert found["train 9", "delay.p95"] == (15 * 10**6, 20 * 10**6, 20 / 15, "differs")
    assert found["train 9", "goodput"] == (5000 * 8 * 10**9 // (15 * 10**6), 2 * 10**6, 2 * 10**6 / 2666666,
                                           "differs")
    assert found["train 9", "packets"] == (5, 5, 1.0, "same")
    status, out, _ = tool("compare", a, b, plan, other, "--percentiles", "95", "--of", "train *")
    row = [line.split() for line in out.split("\n") if "delay.p95" in line]
    assert row == [["a", "train", "9", "delay.p95", "15ms", "20ms", "1.333", "differs"]]


def pair(first: Optional[Fraction], second: Optional[Fraction], word: str = "delay.max") -> Pair:
    return Pair("x", "train 1", metric_of(word), first, second, "")


def test_three_digits_unless_exact() -> None:
    """1234567 ns are 1.235 ms with three digits. Values that differ never look equal, and a difference never
    looks like zero."""
    apart = pair(Fraction(1234567), Fraction(2469134))
    assert apart.shown(exact=False) == ["1.235ms", "2.469ms", "2.000"]
    assert apart.shown(exact=True) == ["1.234567ms", "2.469134ms", "2"]
    near = pair(Fraction(1234567), Fraction(1234568))
    assert near.shown(exact=False) == ["1.234567ms", "1.234568ms", "1.00000081"]
    assert pair(Fraction(1, 5000), Fraction(1), "loss").shown(exact=False) == ["0.02%", "100%", "5000.000"]
    assert pair(None, Fraction(1, 500000), "loss").shown(exact=False) == ["-", "0.0002%", "-"]
    assert pair(Fraction(0), Fraction(0)).shown(exact=False) == ["0ns", "0ns", "-"]


def test_where_they_part(two: list[Path]) -> None:
    a, plan, b, other = two
    status, out, _ = tool("compare", a, b, plan, other, "--lines", "1")
    lines = out.split("\n")
    assert lines[:6] == ["a: they diverge at 1000000 ns",
                         "  only in A: line 2: @0 pipe 1 config bw 8Mbit/s delay 10",
                         "  only in B: line 2: @0 pipe 1 config bw 4Mbit/s delay 10",
                         "  last equal: A line 15: 0 ns arrive train 9 packet 4 at 1.0 | B line 15: 0 ns "
                         "arrive train 9 packet 4 at 1.0",
                         "  A: line 16: 1000000 ns finish train 9 packet 0 at 1.0",
                         "  B: line 16: 2000000 ns finish train 9 packet 0 at 1.0"]
    # At 1 ms, one of the five packets has left the queue of A and is in the delay line.
    assert [line.split() for line in lines[6:8]] == [
        ["packets", "A", "before", "A", "after", "B", "before", "B", "after"],
        ["at", "1.0", "5+0", "4+1", "5+0", "5+0"]]
    assert json.loads(tool("compare", a, b, plan, other, "--json")[1])["partings"] == [
        {"experiment": "a", "moment": 10**6, "a": "line 16: 1000000 ns finish train 9 packet 0 at 1.0",
         "b": "line 16: 2000000 ns finish train 9 packet 0 at 1.0"}]


@pytest.mark.parametrize("tolerances, status, said", [
    # The median is 16/13 = 123.1 % of A's, and 3 ms above it.
    (["delay.p50=24%"], 0, ""), (["delay.p50=23%"], 1, ""), (["delay.p50=3ms"], 0, ""),
    (["delay.p50=2999999ns"], 1, ""), (["packets=0"], 0, ""), (["*=1%"], 1, ""),
    (["*=100%", "delay.p50=1%"], 1, ""), (["delay.p50=1%", "*=100%"], 0, ""),
    (["fct=5%"], 2, "only a flow has a completion"), (["retransmissions=5"], 2, "only a flow retransmits"),
    (["delay.95=5%"], 2, "there is no metric 'delay.95'"),
    (["delay.p95=5"], 2, "its unit is missing: ns, us")])
def test_tolerances(tolerances: list[str], status: int, said: str, two: list[Path]) -> None:
    a, plan, b, other = two
    given = [word for one in tolerances for word in ("--tolerance", one)]
    got, out, err = tool("compare", a, b, plan, other, "--of", "train *", *given)
    assert got == status and said in err
    assert "within 24%" in out or tolerances != ["delay.p50=24%"]


def test_tolerances_of_counts() -> None:
    assert (tolerance_of("drops=2").allows(Fraction(3), Fraction(5))
            and not tolerance_of("drops=2").allows(Fraction(3), Fraction(6)))


@pytest.mark.parametrize("tolerance, status, said", [
    ("delay.p95=5%", 2, "no row has this metric, so nothing is judged: make the report with --trace"),
    ("goodput=5%", 2, "no row has this metric"), ("delay.*=1s", 2, "no row has this metric"),
    ("*=1000%", 0, "no row has bytes, useful, first, time, rate, goodput"), ("packets=0", 0, "")])
def test_tolerances_that_judge_nothing(tolerance: str, status: int, said: str, tmp_path: Path) -> None:
    for name, text in (("a", TRAIN), ("b", SLOW)):
        (tmp_path / name).write_bytes(report_of(text.encode()))
    got, _, err = tool("compare", tmp_path / "a", tmp_path / "b", "--tolerance", tolerance)
    assert got == status and said in err


def test_what_both_lack_is_not_within(files: Callable[..., list[Path]]) -> None:
    """In both runs flow 1 ended and flow 2 didn't. A missing value can't be within the tolerance on
    completion."""
    report, plan = files(FLOWS)
    status, out, _ = tool("compare", report, report, plan, "--tolerance", "fct=5%")
    row = next(line for line in out.split("\n") if " flow 2 " in line)
    assert status == 1 and "can't be told: it had not finished when the experiment ended, at 0.1s" in row
    for flow, status in (1, 0), (2, 2):
        assert tool("compare", report, report, plan, "--tolerance", "fct=5%", "--of",
                    f"flow {flow}")[0] == status


def test_stored_summaries(two: list[Path], tmp_path: Path) -> None:
    first, plan, second, other = two
    base = tmp_path / "base.json"
    base.write_text(tool("summary", first, plan, "--json", "--percentiles", "50,95")[1])
    same = tool("compare", base, first, plan)
    assert same[0] == 0 and "a: only rows are compared, since a summary has no lines" in same[1]
    assert tool("compare", first, base, plan)[0] == 0 and tool("compare", base, second, other)[0] == 1
    (tmp_path / "packed.gz").write_bytes(gzip.compress(base.read_bytes()))
    assert tool("compare", tmp_path / "packed.gz", base)[0] == 0
    # The 95th percentile of train 9 is 15 ms, and 20 ms at half the rate: a third more.
    for tolerance, status in ("delay.p95=34%", 0), ("delay.p95=33%", 1):
        assert tool("compare", base, second, other, "--tolerance", tolerance, "--of",
                    "train 9")[0] == status
    status, _, err = tool("compare", base, second, other, "--tolerance", "delay.p99=5%")
    assert status == 2 and "base.json was made without it" in err
    for text in ("[1]", base.read_text()[:-9], '[{"experiment": "a", "of": "b"}]',
                 tool("summary", first, plan, "--json", "--every", "10ms")[1]):
        (tmp_path / "bad.json").write_text(text)
        status, out, err = tool("compare", tmp_path / "bad.json", first, plan)
        assert status == 2 and "it is not a complete summary" in err and not out, text[:40]


def test_serial_numbers_that_shift(traced: Alone) -> None:
    """An additional packet that no line names shifts all serial numbers, and changes nothing else."""
    more = TRAIN.replace("@0 add 100",
                         "@0 pipe 2 config bw 1bit/s\n@0 add 50 pipe 2 tcp from any to any\n@0 add 100")
    first = view(traced, more)
    second = view(traced, more.replace("@0 train", "@0 inject tcp 10.0.0.1 1 10.0.0.2 2 1000\n@0 train"))
    assert second.counters.made == first.counters.made + 1
    assert first.records.rows["packet"].max() == 4 and second.records.rows["packet"].max() == 5
    found = parting(first, second)
    # Only the `ok` of the command that one run lacks remains.
    assert found is not None and "inject" in found.told[1].line(found.rows[1] or 0)
    assert parting(first, view(traced, more)) is None


def test_a_traced_run_beside_one_that_is_not(traced: Alone) -> None:
    """Lines that only a traced run has are not a difference in the events, but the command is."""
    found = parting(view(traced, TRAIN), view(traced, TRAIN.replace("@0 train", "@0 trace 1\n@0 train")))
    assert found is not None and "`trace 1`" in found.told[1].line(found.rows[1] or 0)
    bare, whole = View(records_in(report_of(FLOW))[0]), View(records_in(traced(FLOW))[0])
    assert parting(bare, whole) is None and parting(whole, bare) is None


def test_segments_are_told_by_bytes(traced: Alone) -> None:
    """Lost segments are sent again. Where B stops, A's next line is the third transmission of the first
    byte."""
    text = ("experiment a seed 0 budget 100\n@0 pipe 1 config plr 1\n@0 add 100 pipe 1 ip from any to any\n"
            "@0 flow 1 10.0.0.1 1 10.0.0.2 2 smss 1000 segments 3\n@STOP stop 1\n@9000000000 end\n")
    # The first expiry is after 1 s, the next after 2 s more.
    first, second = view(traced,
                         text.replace("STOP", "8000000000")), view(traced, text.replace("STOP", "2000000000"))
    found = parting(first, second)
    assert found is not None and found.moment == 3 * 10**9
    assert (found.told[0].line(found.rows[0]
                               or 0).split(": ")[1] == "3000000000 ns expire flow 1 cwnd 1000 ssthresh 2000")
    assert found.rows[1] is None
    following = [found.told[0].line(int(row)).split(": ")[1] for row in found.following[0][:4]]
    assert following[1].startswith("3000000000 ns make flow 1 byte 0 (sent 3 times) 1040 bytes, tcp")
    assert following[3] == "3000000000 ns drop flow 1 byte 0 (sent 3 times) lost"


def test_what_compare_refuses(two: list[Path]) -> None:
    a, plan, b, other = two
    for said, words in (
            ("two scenarios", (a, b, plan, plan, plan)), ("no row matches", (a, b, "--of", "train 8")),
            ("it has no experiment x; its experiments are a", (a, b, plan, other, "--experiment", "x")),
            ("it has no experiment, so", (a, os.devnull)), ("line 1", (a, plan)),
            ("standard input", ("-", "-"))):
        status, out, err = tool("compare", *words)
        assert (status, out) == (2, "") and said in err, words


def test_experiments_that_one_report_lacks(two: list[Path], tmp_path: Path) -> None:
    a, plan, b, other = two
    many, plans = tmp_path / "many", tmp_path / "plans"
    many.write_bytes(a.read_bytes() + b.read_bytes().replace(b"experiment a", b"experiment b"))
    plans.write_bytes(plan.read_bytes() + other.read_bytes().replace(b"experiment a", b"experiment b"))
    status, out, _ = tool("compare", a, many)
    assert status == 1 and f"{a} has no experiment b" in out and "a: the same" in out
    assert tool("compare", many, many, "--experiment", "a=b")[0] == 1
    status, _, err = tool("compare", a, a, plans)
    assert status == 2 and "it has no experiment b" in err
