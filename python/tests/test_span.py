"""Summaries of a part of the time, compared with values calculated by hand from the experiments of
`hand_calculated`."""
import json
from pathlib import Path

import pytest
from conftest import report_of, text_view, tool
from hand_calculated import FLOWS, TRAIN, Run

import dnlab
from dnlab.analysis.metrics import Row, Span
from dnlab.analysis.tables import Tables

MS = 10**6


def rows_of(run: Run, span: Span) -> dict[str, Row]:
    return {row["sender"]: row
            for row in Tables(text_view(run.report, run.scenario), (50,), span=span).rows()}


def picked(row: Row, *names: str) -> list[object]:
    return [row[name] for name in names]


def test_the_last_millisecond() -> None:
    """From 11.5 to 12.5 ms the second packet arrives, the third is in flight, and none is created, served or
    dropped."""
    rows = rows_of(TRAIN, Span(11_500_000))
    names = ("packets", "delivered", "in_flight", "full", "bytes", "time", "rate", "p50", "from", "to")
    assert picked(rows["train 1"], *names) == [0, 1, 1, 0, 1000, MS, 8 * MS, 12 * MS, 11_500_000, 12_500_000]
    assert picked(rows["injected"], *names[:5]) == [0, 0, 1, 0, 0]
    assert picked(rows["pipe 1.0"], "packets", "delivered", "in_flight", "bytes",
                  "utilisation") == [0, 1, 2, 0, 0.0]


def test_before_a_moment() -> None:
    """Before 5 ms four packets are created and one of them is dropped; three are served in 3 of 5 ms; the
    single packet comes later."""
    rows = rows_of(TRAIN, Span(0, 5 * MS))
    assert picked(rows["train 1"], "packets", "delivered", "in_flight", "full", "bytes", "rate",
                  "p50") == [4, 0, 3, 1, 0, 0, None]
    assert picked(rows["injected"], "packets", "in_flight") == [0, 0]
    assert picked(rows["pipe 1.0"], "packets", "delivered", "in_flight", "bytes", "rate", "utilisation") == [
        3, 0, 3, 3000, 4_800_000, 0.6]


def test_a_moment_belongs_to_what_begins_with_it() -> None:
    """A packet that arrives at 12 ms is in the part that starts then, and not in the one that ends then. Both
    parts make the whole."""
    one, other = rows_of(TRAIN, Span(0, 12 * MS)), rows_of(TRAIN, Span(12 * MS))
    assert [rows["train 1"]["delivered"] for rows in (one, other)] == [1, 1]
    assert [rows["pipe 1.0"]["packets"] for rows in (one, other)] == [4, 0]
    # 12.5 ms is the end. The time after it adds nothing, not even to the duration of a rate.
    assert rows_of(TRAIN, Span(12 * MS, 10**9))["train 1"]["rate"] == 8000 * 10**9 // 500_000


def test_flows_in_a_part() -> None:
    """Flow 1 completes at 12 ms; flow 2 is sent again at 1 s."""
    before, after = rows_of(FLOWS, Span(0, 12 * MS)), rows_of(FLOWS, Span(12 * MS))
    assert picked(before["flow 1"], "useful", "goodput", "fct", "packets") == [960, 640_000, None, 2]
    assert picked(after["flow 1"], "useful", "goodput", "fct", "packets") == [
        960, 960 * 8 * 10**9 // 1_988_000_000, 12 * MS, 0]
    assert (picked(before["flow 2"], "retransmissions", "denied") == [0, 1]
            and picked(after["flow 2"], "retransmissions", "denied") == [1, 0])
    # Both flows delivered 960 bytes in the second part, which is fair.
    assert after["there"]["jain"] == 1.0


def files(folder: Path, run: Run) -> tuple[str, str]:
    (folder / "report.txt").write_bytes(run.report)
    (folder / "scenario.txt").write_bytes(run.scenario)
    return str(folder / "report.txt"), str(folder / "scenario.txt")


def test_summary_and_expect_take_it(tmp_path: Path) -> None:
    names = files(tmp_path, TRAIN)
    status, out, _ = tool("summary", *names, "--from", "11.5ms", "--of", "train 1", "--json")
    row = json.loads(out)[0]
    assert status == 0 and (row["delivered"], row["from"], row["to"]) == (1, 11_500_000, 12_500_000)
    assert tool("expect", *names, "train 1: drops == 0", "--from", "1ms")[0] == 0
    assert tool("expect", *names, "train 1: drops == 0", "--to", "1ms")[0] == 1
    found = dnlab.read(*names).summary(begin=11_500_000)
    assert int(found[found.sender == "train 1"].delivered.iloc[0]) == 1


@pytest.mark.parametrize("words, said", [
    (("--from", "5ms", "--to", "5ms"), "the second time must be later than the first"),
    (("--from", "13ms"), "experiment train: it ended at 12500000 ns"),
    (("--from", "soon"), "'soon' is not a time")])
def test_what_can_be_no_part(tmp_path: Path, words: tuple[str, ...], said: str) -> None:
    status, out, err = tool("summary", *files(tmp_path, TRAIN), *words)
    assert (status, out) == (2, "") and said in err


def test_a_part_needs_moments(tmp_path: Path) -> None:
    """An untraced report doesn't have the times at which packets were created."""
    (tmp_path / "untraced").write_bytes(report_of(TRAIN.scenario))
    status, out, err = tool("summary", tmp_path / "untraced", "--from", "1ms")
    assert (status, out) == (2, "") and "need creation times" in err
