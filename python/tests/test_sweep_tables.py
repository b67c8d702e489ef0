"""Tables of a sweep over several seeds: pairs, the number of seeds needed, the long form, and warnings.

Values are calculated by hand: a packet of S bytes takes S * 8000 ns at 1 Mbit/s plus the delay, and Student's
t is from printed tables."""
from pathlib import Path

import pandas as pd
import pytest
from conftest import tool
from sweeps import WIDE, rows_of, template

import dnlab
from dnlab.sweeps.results import compared, seeds_needed

MS = 10**6


@pytest.fixture
def wide(tmp_path: Path) -> Path:
    return template(tmp_path, WIDE)


def test_the_same_chance_leaves_the_setting_alone(program: str) -> None:
    """Intervals over seeds are wide, because sizes differ. 15 ms more delay are 15 ms more with each seed."""
    made = dnlab.sweep(WIDE, delay=[5, 20, 9], seed=range(1, 6), of="train 1", stat="delay.p50",
                       dnlab=program)
    found = made.compare("delay")
    assert [(row.delay, row.base, row.n, row.mean, row.low, row.high, row.differs)
            for row in found.itertuples()] == [
        (20, 5, 5, 15.0 * MS, 15.0 * MS, 15.0 * MS, True), (9, 5, 5, 4.0 * MS, 4.0 * MS, 4.0 * MS, True)]
    wide = made.table()
    assert (wide.high - wide.low > MS).all()
    assert made.compare("delay", base=20)["mean"].tolist() == [-15.0 * MS, -11.0 * MS]


def test_pairs_by_hand() -> None:
    """Differences 1, 2 and 3: their mean is 2, and t for two degrees, 4.303, times their deviation of 1 over
    the root of 3 is 2.484. A seed that one of the two lacks is left out, and 0 is in the interval."""
    rows = pd.DataFrame({"q": [1, 1, 1, 1, 2, 2, 2, 2], "seed": [1, 2, 3, 4, 4, 3, 2, 1], "sender": "all",
                         "warnings": [""] * 7 + ["spent"],
                         "goodput": pd.array([10, 20, 30, 5, None, 33, 22, 11], "Int64")})
    found = compared(rows, ["q"], ["goodput"], "q").iloc[0]
    assert (found.n, found["mean"], found.differs, found.warnings) == (3, 2.0, False, "spent")
    assert (found.low, found.high) == pytest.approx((2 - 2.484, 2 + 2.484), abs=1e-3)


@pytest.mark.parametrize("pairs, said", [("bw", "no such setting"), ("delay=7", "no such value"),
                                         ("count", "it has only one value")])
def test_what_can_be_no_pair(pairs: str, said: str, wide: Path) -> None:
    """It is refused before anything runs."""
    status, out, err = tool("sweep", wide, "--set", "delay=5,20", "--set", "count=1", "--of", "all",
                            "--stat", "lost", "--pairs", pairs)
    assert (status, out) == (2, "") and said in err and not Path(f"{wide}.kept").exists()


def test_pairs_are_printed(wide: Path) -> None:
    out = tool("sweep", wide, "--set", "delay=5,20", "--seeds", "1-3", "--of", "train 1", "--stat",
               "delay.p50", "--pairs", "delay")[1]
    assert out.splitlines()[-1].split("  ")[0] == "20 - 5" and out.splitlines()[-1].endswith("15 ± 0")


def test_needed_by_the_tables() -> None:
    """A deviation of 10 around 100, to within 2: t for 98 degrees is 1.9845, which times 10 over the root of
    99 is 1.994; with 98 seeds it is 2.005. To within 10: t for 6 degrees is 2.447 and results in 9.25, for 5
    degrees 2.571 and 10.5."""
    assert seeds_needed([90.0, 100.0, 110.0], 0.02) == 99 and seeds_needed([90.0, 100.0, 110.0], 0.10) == 7
    assert (seeds_needed([5.0], 0.1) is None and seeds_needed([-1.0, 1.0], 0.1) is None
            and seeds_needed([3.0, 3.0], 0.1) == 2)
    # At 99 %: t for 9 degrees is 3.250 and results in 10.3, for 10 degrees 3.169 and 9.56.
    assert seeds_needed([90.0, 100.0, 110.0], 0.10, 99) == 11


def test_needed_is_said_and_a_column(wide: Path) -> None:
    status, out, err = tool("sweep", wide, "--set", "delay=5", "--seeds", "1-3", "--of", "train 1",
                            "--stat", "delay.p50,lost", "--within", "1%", "--csv", "-")
    rows = rows_of(out)
    assert status == 0 and int(rows[0]["needed"]) > 3 and rows[1]["needed"] == "2"
    assert ("--within 0.01: 1 of 2 means need more than the 3 seeds of this sweep; the most, "
            f"{rows[0]['needed']}, delay.p50" in err)
    assert tool("sweep", wide, "--set", "delay=5", "--within", "0%")[0] == 2


def test_long_form(wide: Path, tmp_path: Path) -> None:
    """There is a row for each experiment, sender and statistic: 2 settings, 3 seeds, 2 statistics."""
    status, _, err = tool("sweep", wide, "--set", "delay=5,20", "--seeds", "1-3", "--of", "train 1",
                          "--stat", "delivered,fct", "--long", tmp_path / "long.csv")
    rows = rows_of((tmp_path / "long.csv").read_text())
    assert status == 0 and len(rows) == 12, err
    assert [(row["delay"], row["seed"], row["stat"], row["unit"], row["value"]) for row in rows[:2]] == [
        ("5", "1", "delivered", "packets", "1.0"), ("5", "1", "fct", "ns", "")]


def test_marked_cells_are_told_in_the_table(wide: Path) -> None:
    """A train of five packets needs 1.2 s, and the run has one."""
    out = tool("sweep", wide, "--set", "count=1,5", "--set", "delay=5", "--of", "train 1", "--stat",
               "delivered")[1]
    lines = [line.split() for line in out.splitlines()]
    assert lines[0][-1] == "warnings" and [line[-1] for line in lines[1:]] == ["-", "unsent"]
