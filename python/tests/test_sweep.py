"""Sweeps: tables, intervals, pictures and the texts that they run. Values are calculated by hand, with grep
on the report, or from the formulas of Student's t with numbers of a table."""
import hashlib
import json
import math
import os
import pickle
import random
import re
from pathlib import Path

import pytest
from conftest import tool
from sweeps import BOTTLENECK, ONE, rows_of, size_of, template

import dnlab
from dnlab.analysis.quantities import Interval, interval
from dnlab.sweeps.grid import cases_of, hints_of, name_of, seeds_of, setting_of, value_of


def test_names() -> None:
    assert name_of({"queue": 10, "plr": value_of("0.001")}, 3) == "queue10-plr0_001-s3"
    check = hashlib.sha256(b"queue=200 codel target 5").hexdigest()[:8]
    assert name_of({"queue": "200 codel target 5"}, 12) == f"queue200-codel-targ-{check}-s12"
    names = [name_of({"queue": value}, 2**64 - 1) for value in (5, "5 ", "5.", "A", "a-", "a_")]
    assert len(set(names)) == len(names) and all(re.fullmatch("[a-z0-9_-]{1,32}", name) for name in names)
    assert [case.name for case in cases_of({"a": [1, 2], "b": [0.5]}, (3, 4))] == [
        "a1-b0_5-s3", "a1-b0_5-s4", "a2-b0_5-s3", "a2-b0_5-s4"]


def test_more_experiments_than_can_be_listed() -> None:
    with pytest.raises(dnlab.InputError, match="1001000 experiments"):
        cases_of({"a": range(1001)}, range(1000))
    assert len(cases_of({"a": range(10)}, range(1000))) == 10000


@pytest.mark.parametrize("text", ["queue", "queue=", "queue=1,,2", "queue=1,1", "seed=1", "1x=2", "mean=4"])
def test_wrong_settings(text: str) -> None:
    with pytest.raises(ValueError):
        setting_of(text)


@pytest.mark.parametrize("text", ["", "1-", "3-1", "1,1", "1-3,2", "-1", "1.5", str(2**64), "1-10000000"])
def test_wrong_seeds(text: str) -> None:
    with pytest.raises(ValueError):
        seeds_of(text)


WRONG = [["--set", "queue"], ["--set", "delay=1", "--set", "delay=2"], ["--seeds", "3-1"], ["--stat", "lost"],
         ["--of", "all", "--stat", "speed"], ["--of", "all", "--stat", "delay.p0"], ["--ci", "100"],
         ["--ci", "x"], ["--interval", "z"], ["--plot", "x.gif"], ["--csv", "-", "--json", "-"],
         ["--csv", "/nowhere/x"], ["--each", "x.txt"], ["--program", "x"], ["--workers", "0"], ["--colour"]]


@pytest.mark.parametrize("words", WRONG, ids=" ".join)
def test_wrong_usage(words: list[str], tmp_path: Path, program: str) -> None:
    status, out, err = tool("sweep", template(tmp_path), *words, DNLAB=program)
    assert status == 2 and not out and "usage" in err and "Traceback" not in err


def test_what_is_refused_says_what_there_is(tmp_path: Path, program: str) -> None:
    file = template(tmp_path)
    err = tool("sweep", file, "--set", "delay=1", "--of", "flows", DNLAB=program)[2]
    assert (err == "sweep: --of 'flows': no such sender; the template has trains, train 1, pipe 1.0, "
                   "there, back, all\n")
    assert "drops.codel" in tool("sweep", file, "--of", "all", "--stat", "speed", DNLAB=program)[2]
    assert "{{ bw }}" in tool("sweep", file, "--set", "delay=1", "--set", "bw=2", DNLAB=program)[2]
    assert "'delay' is undefined" in tool("sweep", file, DNLAB=program)[2]
    status, _, err = tool("sweep", file, "--set", "delay=1", "--kept", file, DNLAB=program)
    assert status == 2 and "--kept" in err and file.read_text() == ONE
    # `n`, the most natural name for a number of senders, is a column of the tables.
    err = tool("sweep", template(tmp_path, ONE.replace("{{ delay }}", "{{ n }}")), DNLAB=program)[2]
    assert "'n' is undefined" in err and "call it n_ here and in the template" in err
    with pytest.raises(dnlab.InputError, match="no setting can be called min"):
        dnlab.sweep(ONE + "# {{ min }}\n", settings={"min": [1, 2], "delay": 5})


def test_the_table_by_hand(tmp_path: Path, program: str) -> None:
    """A packet takes 8000 ns per byte plus the delay. For the five seeds, compare the mean and Student's
    interval, whose t is 2.776 for four degrees of freedom and 95 %, and 2.132 for 90 %."""
    file = template(tmp_path)
    made = dnlab.sweep(file, delay=[5, 20], seed=range(1, 6), of="train 1", stat="delay.p50,bytes",
                       dnlab=program)
    sizes = [size_of(made.text(case)) for case in made.cases]
    assert sizes[:5] == sizes[5:] and len(set(sizes)) == 5
    for delay, level, t in ((5, 95, 2.776445), (20, 90, 2.131847)):
        row = made.table(level).query(f"delay == {delay} and stat == 'delay.p50'").iloc[0]
        times = [8000 * size + delay * 10**6 for size in sizes[:5]]
        mean = sum(times) / 5
        half = t * math.sqrt(sum((time - mean) ** 2 for time in times) / 4 / 5)
        assert (row.n, row.unit, row["min"], row["max"],
                row.level) == (5, "ns", min(times), max(times), level)
        assert row["mean"] == mean and abs(row.high - mean - half) < 1e-6 * half
        assert abs(row.high + row.low - 2 * mean) < 1
    rows = made.rows()
    assert list(rows.columns) == ["delay", "seed", "experiment", "sender", "delay.p50", "bytes", "warnings"]
    assert rows.bytes.tolist() == sizes and rows.experiment.tolist()[:2] == ["delay5-s1", "delay5-s2"]


def test_intervals_by_another_way() -> None:
    """Compares the bootstrap with percentiles of means that are generated here, for values far from normal,
    and t with a table."""
    values = [1.0, 1.1, 1.2, 1.3, 1.5, 2.0, 9.0, 1.4, 1.6, 1.2]
    found = interval(values, 90, "bootstrap")
    chance = random.Random(5)
    means = sorted(sum(chance.choices(values, k=10)) / 10 for _ in range(20000))
    # Here the correction for bias and skewness moves both ends up, by at most a third of the width.
    low, high = means[1000], means[19000]
    assert found.mean == pytest.approx(2.13) and low <= found.low <= low + (high - low) / 3
    assert high <= found.high <= high + (high - low) / 3
    assert found == interval(values, 90, "bootstrap") != interval(values, 95, "bootstrap")
    half = 1.833113 * math.sqrt(sum((value - 2.13) ** 2 for value in values) / 9 / 10)
    assert interval(values, 90).high == pytest.approx(2.13 + half, rel=1e-6)
    assert interval([3.0, 3.0, 3.0]) == Interval(3, 3, 0, 3, 3) == interval([3.0, 3.0, 3.0], kind="bootstrap")
    assert interval([4.0]) == Interval(1, 4) and interval([]) == Interval(0, None)


def test_flows_together(tmp_path: Path, program: str) -> None:
    """Two flows of 4 and 2 segments over links that are never full: 1000 bytes take 8 ms at 1 Mbit/s, and 10
    ms back."""
    text = """experiment {{ name }} seed {{ seed }} budget 100
@0 pipe 1 config bw 1Mbit/s delay 10 mask src-ip 0xffffffff
@0 add 100 pipe 1 ip from 10.0.0.0/24 to any
@0 add 200 allow ip from any to 10.0.0.0/24
@0 flow 1 10.0.0.1 1000 10.0.1.1 80 smss 960 segments 4
@0 flow 2 10.0.0.2 1000 10.0.1.2 80 smss 960 segments 2
@1000000000 end
"""
    stats = ["goodput", "fct", "jain", "retransmissions", "useful"]
    made = dnlab.sweep(text, of={"flows": stats, "flow *": ["fct"], "flow * acks": ["delivered"]},
                       dnlab=program)
    rows = {(row.sender, row.stat): row["mean"] for _, row in made.table().iterrows()}
    # `flow *` only names flows. Each segment has its own acknowledgement.
    assert {of for of, stat in rows if stat == "fct"} == {"flows", "flow 1", "flow 2"}
    assert {of: mean for (of, stat), mean in rows.items()
            if stat == "delivered"} == {"flow 1 acks": 4, "flow 2 acks": 2}
    # The last segment of flow 1 is served until 32 ms and delivered at 42, that of flow 2 at 26 ms.
    assert rows["flows", "fct"] == rows["flow 1", "fct"] == 42_000_000
    assert rows["flow 2", "fct"] == 26_000_000 and rows["flows", "retransmissions"] == 0
    assert rows["flows", "useful"] == 6 * 960 and rows["flows", "goodput"] == 6 * 960 * 8 * 1000 // 42
    first, second = 4 * 960 * 8 * 1000 // 42, 2 * 960 * 8 * 1000 // 26
    assert rows["flows", "jain"] == pytest.approx((first + second) ** 2 / 2 / (first**2 + second**2),
                                                  abs=1e-6)


def test_the_usual_questions(tmp_path: Path, program: str) -> None:
    found = dnlab.sweep(BOTTLENECK, length=1, queue=50, seed=(1, 2), dnlab=program).table()
    assert list(zip(found.sender, found.stat)) == [
        (of, stat) for of in ("flows", "train 9") for stat in ("goodput", "delay.p50", "delay.p95", "lost")]


def test_marks_and_what_is_said(tmp_path: Path, program: str) -> None:
    """Runs whose steps ran out are marked, and so are seeds that change nothing, and statistics that can't be
    calculated."""
    text = ONE.replace("budget 10",
                       "budget 10 steps {{ steps }}").replace("{{ rng.whole(100, 1500) }}", "500")
    words = ["--set", "delay=5", "--set", "steps=3,100", "--seeds", "1-2", "--of", "pipe 1.0", "--stat",
             "rate,lost", "--csv", "-"]
    status, out, err = tool("sweep", template(tmp_path, text), *words, DNLAB=program)
    assert status == 2 and not out and "(delay=5, steps=3, seed " in err and "its steps were spent" in err
    words += ["--allow", "spent"]
    status, out, err = tool("sweep", template(tmp_path, text), *words, DNLAB=program)
    assert status == 0 and {row["warnings"] for row in rows_of(out) if row["steps"] == "3"} == {"spent"}
    assert {row["warnings"] for row in rows_of(out) if row["steps"] == "100"} == {""}
    assert "2 of 4 experiments: their steps were spent" in err and "the seeds change nothing" in err
    assert ("rate of pipe 1.0 has no value in 2 of 2 experiments with delay=5, steps=3; one more "
            "mean lacks values" in err)
    assert "seeds change nothing" not in tool("sweep", template(tmp_path), "--set", "delay=5", "--seeds",
                                              "1-2", DNLAB=program)[2]


def test_the_same_bytes(tmp_path: Path, program: str) -> None:
    files = []
    for turn, workers in (("a", 1), ("b", 3)):
        own = [tmp_path / f"{turn}.{ending}" for ending in ("csv", "json", "svg", "each.csv")]
        status, out, err = tool(
            "sweep", BOTTLENECK, "--set", "length=1", "--set", "queue=10,100", "--set", "delay=5,20",
            "--seeds", "1-3", "--of", "flows", "--stat", "goodput,delay.p95", "--csv", own[0], "--json",
            own[1], "--plot", own[2], "--each", own[3], "--interval", "bootstrap", "--workers", workers,
            "--kept", tmp_path / turn, DNLAB=program)
        assert status == 0 and "12 were run, 0 were kept" in err
        files.append([out, *(file.read_bytes() for file in own)])
    assert files[0] == files[1] and files[0][0].startswith("length  queue  delay  flows goodput Mbit/s")
    assert (len(rows_of(files[0][1].decode())) == 8 == len(json.loads(files[0][2]))
            and files[0][3].startswith(b"<?xml"))
    assert [len(list(tmp_path.glob(f"{turn}.*"))) for turn in "ab"] == [4, 4]


def test_dry_run(tmp_path: Path) -> None:
    """A dry run needs no program, and prints the first text as it would be run."""
    status, out, err = tool("sweep", template(tmp_path), "--set", "delay=5,7", "--seeds", "9-12", "--dry-run",
                            DNLAB="")
    assert (status == 0 and "8 experiments" in err
            and out.startswith("experiment delay5-s9 seed 9 budget 10\n@0 pipe 1 config"))
    assert 100 <= size_of(out) <= 1500 and os.listdir(tmp_path) == ["one.tmpl"]


def test_standard_input(tmp_path: Path, program: str) -> None:
    status, out, err = tool("sweep", "-", "--set", "delay=5", "--csv", "-", text=ONE.encode(), DNLAB=program)
    assert status == 0 and len(rows_of(out)) == 4 and "0 were kept\n" in err


@pytest.mark.parametrize("means, said", [
    ([5, 5, 5], "identical"), ([5, 5, 6], ""), ([0, 0, 0, 0], ""), ([1, 1, 1], ""), ([1, 2, 4, 8], ""),
    ([4, 1, 4], "jumps at queue 1"),
    ([1, 4, 1], "jumps at queue 1"), ([1, 1.2, 1], ""), ([5, None, 5, 5], "identical"), ([5, 5], ""),
    ([2, 0, 2], ""),
])
def test_neighbours(means: "list[float | None]", said: str) -> None:
    """Neighbouring cells that are the same, or that jump, are worth a look."""
    told = hints_of([{"queue": place, "sender": "flow 1", "stat": "goodput", "mean": mean}
                     for place, mean in enumerate(means)], ["queue"])
    assert (said in told[0]) if said else told == []


def test_a_setting_in_words_has_no_neighbours() -> None:
    assert hints_of([{"queue": word, "sender": "a", "stat": "b", "mean": 5}
                     for word in ("1 codel", "2 codel", "3 codel")], ["queue"]) == []


def test_runs_that_are_the_same_count_once(tmp_path: Path, program: str) -> None:
    """Without losses the seeds change nothing, so no value has an interval; with losses they do. The CSV has
    the settings as given."""
    text = ONE.replace("delay {{ delay }}", "queue {{ queue }} plr {{ loss }}").replace(
        "{{ rng.whole(100, 1500) }} count 1 gap 0", "100 count 9 gap 1000000")
    status, out, told = tool("sweep", template(tmp_path, text), "--set", "queue=5,6,7", "--set",
                             "loss=0,0.5", "--seeds", "1-4", "--of", "train 1", "--stat", "delay.mean",
                             "--csv", "-", DNLAB=program)
    assert status == 0 and "the seeds change nothing" in told and "is identical for queue 5 to 7" in told
    table = rows_of(out)
    assert [(row["queue"], row["loss"], row["n"]) for row in table] == [
        (queue, loss, n) for queue in "567" for loss, n in (("0", "1"), ("0.5", "4"))]
    assert all(bool(row["low"]) == (row["loss"] != "0") for row in table)


def test_reports_and_sweeps_are_pickled(program: str) -> None:
    """A report keeps its bytes, and a sweep its statistics and results. The second sweep runs in the other
    process."""
    made = dnlab.sweep(ONE, delay=[5], seed=range(1, 4), of="train 1", stat="bytes", dnlab=program)
    again = pickle.loads(pickle.dumps(made))
    assert again.rows()["bytes"].tolist() == made.rows()["bytes"].tolist() == [
        size_of(made.text(case)) for case in made.cases]
    report = dnlab.run(made.text(made.cases[0]), dnlab=program)
    copied = pickle.loads(pickle.dumps(report))
    del report
    assert copied["delay5-s1"].packets()["bytes"].tolist() == [size_of(made.text(made.cases[0]))]
