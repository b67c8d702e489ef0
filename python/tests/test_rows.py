"""Rows of `dnlab alone --format npy`: tables calculated by hand, files that were cut or belong to another
scenario, and the tools on them."""
import gzip
import io
from pathlib import Path
from typing import Callable

import numpy as np
import pytest
from conftest import EXAMPLES, records_in, report_of, text_of, text_view, tool, views_of

import dnlab
from hand_calculated import FLOWS, TRAIN
from dnlab.errors import ParseError, RowError
from dnlab.io.rows import ROW, ends_of, header_of, join, kinds_of, opened

Traced = Callable[[bytes], bytes]
HEADER = 512


@pytest.fixture(scope="module")
def data() -> bytes:
    """Returns the rows of four packets and one more; `TRAIN` explains them."""
    return report_of(TRAIN.scenario, "--format", "npy")


def test_packets_by_hand() -> None:
    view, = views_of(TRAIN.scenario)
    table = view.packets
    assert [table.names[who] for who in table.who] == ["train 1"] * 4 + ["injected"]
    assert table.made.tolist() == [0, 0, 0, 0, 5_000_000] and table.size.tolist() == [1000] * 5
    # Two are delivered, the fourth finds no room, and two are in flight at the end.
    assert (table.outcome.tolist() == [1, 1, 0, 6, 0]
            and table.ended.tolist() == [11_000_000, 12_000_000, -1, 0, -1])
    assert view.visits.arrival.tolist() == [0, 0, 0, 0, 5_000_000]
    assert view.visits.finish.tolist() == [1_000_000, 2_000_000, 3_000_000, -1, 6_000_000]
    assert view.visits.exit.tolist() == [11_000_000, 12_000_000, -1, 0, -1]


def test_flows_by_hand() -> None:
    view, = views_of(FLOWS.scenario)
    table = view.packets
    assert [table.names[who] for who in table.who] == [
        "flow 1", "flow 1", "flow 2", "flow 1 acks", "flow 1 acks", "flow 2", "flow 2 acks"]
    assert (table.number.tolist() == [0, 960, 0, 960, 1920, 0, 960]
            and table.retransmission.tolist() == [False] * 5 + [True, False])


def test_two_trains_with_one_header() -> None:
    """Rows say which of them sent a packet; a text doesn't, and its note says so."""
    text = (b"experiment a seed 1 budget 9\n@0 add 1 allow ip from any to any\n@0 train 1 udp 10.0.0.1 1 "
            b"10.0.0.2 2 100 count 2 gap 5\n"
            b"@3 train 2 udp 10.0.0.1 1 10.0.0.2 2 200 count 1 gap 0\n@99 end\n")
    view, = views_of(text)
    assert [view.packets.names[who] for who in view.packets.who] == ["train 1", "train 2", "train 1"]
    told = text_view(report_of(text, "--trace"), text)
    assert {name for name, _ in told.senders} == {"udp 10.0.0.1 1 10.0.0.2 2"}
    note, = (note for note in told.notes if note.kind == "same header")
    assert "train 1, train 2 have the same header" in note.text and "--format npy" in note.text


def test_a_file_that_was_cut(data: bytes) -> None:
    """Wherever it ends, the row is named: 24 rows of 40 bytes follow the header."""
    assert len(data) == HEADER + 24 * ROW.itemsize
    for end in range(len(data)):
        with pytest.raises(RowError) as refused:
            opened(data[:end])
        assert refused.value.line == max(0,
                                         (end - HEADER) // ROW.itemsize) and "cut" in refused.value.cause, end
    with pytest.raises(RowError, match=r"rows\[24\]: .* more bytes follow"):
        opened(data + b"\0")


def test_a_cut_file_is_named_by_the_tools(data: bytes, tmp_path: Path) -> None:
    (tmp_path / "r.npy").write_bytes(data[:-45])
    (tmp_path / "s.txt").write_bytes(TRAIN.scenario)
    for name, more in (("summary", []), ("plot", ["--out", tmp_path / "p.svg"]),
                       ("expect", ["all: drops = 0"])):
        status, out, err = tool(name, tmp_path / "r.npy", tmp_path / "s.txt", *more)
        assert ((status, out) == (2, "") and "r.npy: rows[22]: the file ends here, in the row" in err
                and len(err.splitlines()) == 1)


@pytest.mark.parametrize("change, said", [
    (lambda data: data.replace(b"(24,)", b"(23,)"), "more bytes follow"),
    (lambda data: data.replace(b"'<i8'", b"'<u8'"), "other columns"),
    (lambda data: data.replace(b"False", b"True "), "other columns"),
    (lambda data: data.replace(b"NUMPY\1", b"NUMPY\2"), "not that of .npy 1.0")])
def test_another_header(data: bytes, change: Callable[[bytes], bytes], said: str) -> None:
    with pytest.raises(RowError, match=said):
        opened(change(data))


def changed(data: bytes, row: int, column: str, value: int) -> bytes:
    rows = np.frombuffer(data[HEADER:], dtype=ROW).copy()
    rows[column][row] = value
    return data[:HEADER] + rows.tobytes()


@pytest.mark.parametrize("row, column, value, said", [
    (-1, "kind", 21, r"rows\[23\]: the last row is not that of counters"),
    (5, "kind", 99, r"rows\[5\]: this kind of row is unknown"),
    (-1, "packet", 6, r"rows\[23\]: the counters have 6 created packets"),
    (-1, "number", 3, r"rows\[23\]: the counters have 3 delivered"),
    (3, "packet", 1, "not in order"),
    (22, "moment", 7, r"rows\[22\]: command 4 at 7, where line 6 of the scenario has 12500000"),
    (3, "size", 999, r"rows\[3\]: the first of 4 packets of train 1 is created at 0 with 999 bytes"),
    (3, "source", 2, r"rows\[0\]: .* train 2, which the scenario doesn't start")])
def test_rows_that_contradict(data: bytes, row: int, column: str, value: int, said: str,
                              tmp_path: Path) -> None:
    (tmp_path / "r.npy").write_bytes(changed(data, row, column, value))
    (tmp_path / "s.txt").write_bytes(TRAIN.scenario)
    with pytest.raises(dnlab.InputError, match=said):
        dnlab.read(tmp_path / "r.npy", tmp_path / "s.txt")["train"]


def test_another_number_of_experiments(data: bytes, tmp_path: Path) -> None:
    (tmp_path / "r.npy").write_bytes(data)
    (tmp_path / "s.txt").write_bytes(TRAIN.scenario + FLOWS.scenario)
    with pytest.raises(dnlab.InputError,
                       match=r"rows\[24\]: the rows end after 1 experiments, but the scenario has 2"):
        dnlab.read(tmp_path / "r.npy", tmp_path / "s.txt")


def test_joined_files(tmp_path: Path) -> None:
    """Files of parts become one, with the header that the program writes."""
    parts = [report_of(run.scenario, "--format", "npy") for run in (TRAIN, FLOWS)]
    for number, part in enumerate(parts):
        (tmp_path / str(number)).write_bytes(part)
    out = io.BytesIO()
    join([tmp_path / "0", tmp_path / "1"], out)
    rows = np.load(io.BytesIO(out.getvalue()))
    assert len(rows) == sum((len(part) - HEADER) // ROW.itemsize for part in parts) and rows.dtype == ROW
    assert parts[0][:HEADER] == header_of(24) and len(ends_of(kinds_of(rows))) == 2
    assert [one.counters.made for one in records_in(out.getvalue(), ["train", "flows"])] == [5, 7]


def test_spread_joins_rows(tmp_path: Path) -> None:
    """In parts, the rows are byte for byte those of one run, and so is the traced text."""
    scenario = EXAMPLES / "four_experiments" / "scenario.txt"
    for words, name in ((("--format", "npy"), "r.npy"), (("--trace",), "r.txt")):
        assert tool("spread", scenario, "--parts", 3, "--out", tmp_path / name, *words) == (0, "", "")
        assert (tmp_path / name).read_bytes() == report_of(scenario.read_bytes(), *words)
    assert tool("summary", tmp_path / "r.npy", scenario)[0] == 0


def test_without_the_scenario(data: bytes) -> None:
    """Experiments have numbers instead of names, and packets their senders."""
    experiment, = records_in(data)
    assert experiment.name == "0" and experiment.counters.drops["full"] == 1
    with pytest.raises(ParseError):
        records_in(data[:700])


@pytest.mark.parametrize("name", ["drawn_05", "four_experiments"])
def test_tools_on_rows(name: str, tmp_path: Path, traced: Traced) -> None:
    """Each tool prints the same of rows, of packed rows, of rows on standard input and of a traced text."""
    scenario, text = EXAMPLES / name / "scenario.txt", text_of(name, "scenario.txt")
    rows = report_of(text, "--format", "npy")
    for file, written in (("r.npy", rows), ("r.npy.gz", gzip.compress(rows)), ("r.txt", traced(text))):
        (tmp_path / file).write_bytes(written)
    wanted = tool("summary", tmp_path / "r.txt", scenario, "--json")
    assert wanted[0] == 0
    assert tool("summary", tmp_path / "r.npy", scenario, "--json")[1] == wanted[1]
    assert tool("summary", tmp_path / "r.npy.gz", scenario, "--json", "--workers", 2)[1] == wanted[1]
    assert tool("summary", "-", scenario, "--json", text=rows)[1] == wanted[1]
    status, out, _ = tool("compare", tmp_path / "r.npy", tmp_path / "r.txt", scenario, scenario)
    assert status == 0 and "they diverge" not in out
