"""Statistics of a sweep: functions of the user's own, and a part of the time. Values are calculated by hand
from `TRAIN` of `hand_calculated`."""
import csv
import io
from pathlib import Path

import pytest
from conftest import tool
from hand_calculated import TRAIN

import dnlab

# TRAIN with a queue that is open.
TEMPLATE = TRAIN.scenario.decode().replace("experiment train seed 0",
                                           "experiment {{ name }} seed {{ seed }}").replace(
    "queue 2", "queue {{ queue }}")


@pytest.fixture
def template(tmp_path: Path) -> Path:
    (tmp_path / "t").write_text(TEMPLATE)
    return tmp_path / "t"


def late(run: dnlab.Experiment, of: str) -> float:
    """Returns the share of a sender's delivered packets that took more than 11.5 ms."""
    packets = run.packets()
    own = packets[(packets["sender"] == of) & (packets["outcome"] == "delivered")]
    return float((own.delay > 11_500_000).mean())


def made(run: dnlab.Experiment) -> int:
    return run.counters.made


def test_a_function_is_a_stat(template: Path, tmp_path: Path, program: str) -> None:
    """One of the train's two delivered packets took 12 ms; five packets were created in all. Separate
    processes call the function."""
    swept = dnlab.sweep(template, queue=[2], seed=[1, 2], of="train 1", stat=[late, "delivered"],
                        dnlab=program)
    assert [(row.stat, row.n, row.mean)
            for row in swept.table().itertuples()] == [("late", 1, 0.5), ("delivered", 1, 2.0)]
    assert dnlab.sweep(template, queue=[2], stat=made, dnlab=program).rows()["made"].tolist() == [5.0]


def test_what_a_function_answers_is_never_kept(template: Path, tmp_path: Path, program: str) -> None:
    """A function's body may change while its name stays."""
    for wanted in (1.0, 2.0):
        def mine(run: dnlab.Experiment, wanted: float = wanted) -> float:
            return wanted
        swept = dnlab.sweep(template, queue=[2], stat=mine, kept=tmp_path / "kept", dnlab=program)
        assert swept.table()["mean"].tolist() == [wanted]


@pytest.mark.parametrize("body, status, said", [
    ("p = run.packets()\n    return int((p[p['sender'] == of].delay > LIMIT).sum())", 0, ""),
    ("return 'x'", 2, "the statistic mine: experiment queue2-s1, train 1: 'x' is not a number"),
    ("return run.nothing", 2, "AttributeError")])
def test_a_function_of_a_file(body: str, status: int, said: str, template: Path, tmp_path: Path) -> None:
    (tmp_path / "mine.py").write_text(f"LIMIT = 11_500_000\ndef mine(run, of):\n    {body}\n"
                                      "mine.unit = 'packets'\n")
    words = ["sweep", template, "--set", "queue=2", "--of", "train 1", "--csv", "-", "--stat"]
    got, out, err = tool(*words, f"{tmp_path}/mine.py:mine")
    assert got == status and said in err
    if not status:
        row, = csv.DictReader(io.StringIO(out))
        assert (row["stat"], row["unit"], row["mean"]) == ("mine", "packets", "1.0")
    got, _, err = tool(*words, f"{tmp_path}/mine.py:never")
    assert got == 2 and "never" in err


def test_stat_without_of_is_refused() -> None:
    with pytest.raises(dnlab.InputError, match="stat needs of"):
        dnlab.sweep(TEMPLATE, queue=[2], stat="delay.p95")


def test_parts_of_the_time_are_kept_apart(template: Path, tmp_path: Path, program: str) -> None:
    def delivered(**more: int) -> list[float]:
        found = dnlab.sweep(template, queue=[2, 3], of="train 1", stat="delivered",
                            kept=tmp_path / "kept", dnlab=program, **more)
        return [float(one) for one in found.table()["mean"]]

    # With three slots the fourth packet is accepted too, and arrives at 14 ms, which is not before the end.
    assert (delivered() == [2, 2] and delivered(begin=11_500_000) == [1, 1]
            and delivered(end=11_500_000) == [1, 1])
    assert delivered(begin=11_000_000, end=11_000_001) == [1, 1] and delivered() == [2, 2]
    status, out, err = tool("sweep", template, "--set", "queue=2", "--of", "train 1", "--stat",
                            "delivered,drops.full", "--from", "11.5ms", "--csv", "-")
    assert status == 0 and [row["mean"] for row in csv.DictReader(io.StringIO(out))] == ["1.0", "0.0"], err
