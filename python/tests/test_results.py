"""The functions for notebooks: read, run, and the tables of experiments as DataFrames."""
import os
import subprocess
import sys
import warnings
from pathlib import Path
from typing import Callable

import numpy as np
import pandas as pd
import pytest
from calls_and_flows import CALL, REFUSED, SLOW
from conftest import EXAMPLES, ROOT, records_in, report_of, text_of, view_of

import dnlab
from dnlab.analysis.results import Experiment
from dnlab.analysis.view import View

FOUR = EXAMPLES / "four_experiments"


def experiment(name: str, joined: bool = True) -> Experiment:
    return Experiment(view_of(name, joined))


def test_packets() -> None:
    table = experiment("reno_four_segments").packets()
    assert list(table.columns[:7]) == ["made", "delivered", "delay", "bytes", "sender", "queue", "outcome"]
    assert table.made.dtype == "Int64" and table.index.name == "packet"
    assert table.made.tolist() == [0, 0, 0, 11200000, 12400000, 13600000, 21200000, 32400000]
    assert table[table.sender == "flow 1"].delay.tolist() == [11200000, 12400000, 13600000, 11200000]
    assert table.queue.tolist() == ["1.0"] * 3 + ["2.0"] * 3 + ["1.0", "2.0"]
    assert set(table.outcome) == {"delivered"} and not table.retransmission.any()
    lost = experiment("reno_timeouts").packets()
    assert lost.delivered.isna().all() and lost.outcome.tolist() == ["lost"] * 5
    assert lost.retransmission.tolist() == [False, False, False, True, True]
    assert experiment("reno_four_segments", joined=False).packets().equals(table)


def test_a_report_that_is_not_traced() -> None:
    """It has deliveries, and no queues; the error has the command that traces."""
    bare = Experiment(View(records_in(text_of("reno_four_segments", "expected.txt"))[0]))
    packets = bare.packets()
    assert packets.made.isna().all() and packets.delay.isna().all() and packets.delivered.notna().all()
    for table in (bare.queues, bare.visits):
        with pytest.raises(dnlab.InputError, match="dnlab alone --trace < scenario.txt > report.txt"):
            table()
    assert "not traced" in [note.kind for note in bare.notes]


def test_other_tables() -> None:
    one = experiment("reno_four_segments")
    windows = one.windows()
    assert list(windows.event) == ["begin", "ack", "ack", "ack", "ack"]
    assert windows.cwnd.tolist() == [4380, 5840, 7300, 8760, 10220] and windows.moment.iloc[1] == 21200000
    queues = one.queues()
    first = queues[queues.queue == "1.0"]
    assert list(zip(first.moment, first.waiting))[:4] == [(0, 3), (1200000, 2), (2400000, 1), (3600000, 0)]
    assert first.in_flight.max() == 3 and first.in_flight.iloc[-1] == 0
    visits = one.visits()
    assert visits.iloc[0].tolist() == [0, "1.0", 0, 1200000, 11200000]
    commands = one.commands()
    assert commands.answer.tolist() == ["ok"] * 6 and commands.text.iloc[-1] == "end"
    # 26 lines of the report, and 8 packets: a line for each creation, arrival and pass, and two identifiers.
    assert one.records().loc[1].word == "ok" and one.records().word.value_counts()["make"] == 8
    assert (one.counters.made, one.counters.delivered, one.ended) == (8, 8, ("end", 100000000, 100000000))
    drops = experiment("codel_one_drop").drops()
    assert drops[["moment", "sender", "cause", "queue",
                  "bytes"]].values.tolist() == [[112000000, "train 1", "codel", "1.0", 1000]]


def test_read() -> None:
    report = dnlab.read(FOUR / "expected.txt", FOUR / "scenario.txt")
    names = [line.split()[1]
             for line in (FOUR / "expected.txt").read_text().split("\n") if line.startswith("experiment")]
    assert list(report) == names and len(report) == 4 and names[1] in report
    rows = report.summary(percentiles=(50, 95), of="flow *")
    assert "p95" in rows and "p99" not in rows and all(sender.startswith("flow") for sender in rows.sender)
    assert rows.seed.notna().all() and (rows.ended == "end").all()
    for name in report:
        assert report[name].summary().to_csv() == report.summary(experiments=[name]).to_csv()


def test_a_scenario_of_another_report() -> None:
    with pytest.raises(dnlab.InputError, match="it has no experiment"):
        dnlab.read(FOUR / "expected.txt", EXAMPLES / "one_packet" / "scenario.txt")
    report = dnlab.read(EXAMPLES / "loss_none" / "expected.txt", EXAMPLES / "loss_none" / "scenario.txt")
    assert report[next(iter(report))].packets() is not None


def test_run(program: str, tmp_path: Path, monkeypatch: pytest.MonkeyPatch) -> None:
    monkeypatch.setenv("DNLAB", program)
    text = (FOUR / "scenario.txt").read_text()
    report = dnlab.run(text, workers=4)
    assert np.load(report.given.report).dtype.names[0] == "moment"
    assert dnlab.run(FOUR / "scenario.txt", out=tmp_path / "report").given.report == str(tmp_path / "report")
    assert (tmp_path / "report").read_bytes() == report_of((FOUR / "scenario.txt").read_bytes(), "--trace")
    dnlab.run(FOUR / "scenario.txt", out=tmp_path / "rows.npy")
    assert (tmp_path / "rows.npy").read_bytes() == Path(report.given.report).read_bytes()
    with pytest.raises(dnlab.ProgramError, match="line 2: badword") as failed:
        dnlab.run(CALL.replace("8Mbit/s", "8Mbps"), out=tmp_path / "none")
    # The fault is explained.
    assert failed.value.status == 1 and "10Mbit/s" in failed.value.said and not (tmp_path / "none").exists()
    with pytest.raises(dnlab.ProgramError, match="is no program"):
        dnlab.run(text, dnlab="/nowhere/dnlab")


def test_run_more_than_the_program_takes(program: str, monkeypatch: pytest.MonkeyPatch) -> None:
    monkeypatch.setenv("DNLAB", program)
    text = "".join(f"# a\nexperiment e{number} seed 0 budget 10\n@0 add 1 allow ip from any to any\n"
                   f"@{number} inject udp 10.0.0.1 1 10.0.0.2 2 100\n@999 end\n" for number in range(600))
    report = dnlab.run(text)
    assert len(report) == 600 and list(report)[300] == "e300"
    assert [report[name].packets().made.tolist()
            for name in ("e0", "e255", "e256", "e599")] == [[0], [255], [256], [599]]
    with pytest.raises(dnlab.ProgramError, match="line 2504: badword"):
        dnlab.run(text.replace("@500 inject", "@500 injekt"))


def test_programs_that_are_not_dnlab(tmp_path: Path, files: Callable[..., list[Path]]) -> None:
    for name, body, said in (("silent", "exit 0", "wrote no report of experiment a"),
                             ("other", f"cat {files(SLOW)[0]}", "wrote no report of experiment a"),
                             ("chatty", "echo hello", "wrote no report")):
        (tmp_path / name).write_text(f"#!/bin/sh\n{body}\n")
        (tmp_path / name).chmod(0o755)
        with pytest.raises(dnlab.ProgramError) as failed:
            dnlab.run(CALL, dnlab=str(tmp_path / name), out=tmp_path / "out")
        assert said in failed.value.said and not list(tmp_path.glob("out*")), name
    with pytest.raises(dnlab.ProgramError, match="is it dnlab"):
        dnlab.run(CALL, dnlab="/bin/true")


def test_a_typed_text_may_lack_its_last_line_feed(program: str, tmp_path: Path) -> None:
    """Strings in Python often lack the last line feed. A file without it may have been cut."""
    typed = CALL.rstrip("\n")
    for number, text in enumerate((typed, CALL)):
        dnlab.run(text, dnlab=program, out=tmp_path / str(number))
    assert (tmp_path / "0").read_bytes() == (tmp_path / "1").read_bytes()
    (tmp_path / "cut.txt").write_text(typed)
    for text in (tmp_path / "cut.txt", typed.encode()):
        with pytest.raises(dnlab.ProgramError, match="cut"):
            dnlab.run(text, dnlab=program)


def test_refused_commands(files: Callable[..., list[Path]]) -> None:
    opened = dnlab.read(*files(REFUSED))
    one, rows = opened["a"], opened.summary()
    assert [(row.line, row.code) for row in one.refused] == [(5, 10), (6, 22)] and one.warnings == "refused"
    assert rows.warnings.unique().tolist() == ["refused"] and rows.refused.unique().tolist() == [2]
    assert rows.codes.unique().tolist() == ["10:1 22:1"]


def test_columns_are_attributes(files: Callable[..., list[Path]]) -> None:
    """pandas uses none of their names except `min` and `max`, and warns of nothing."""
    report = dnlab.read(*files(CALL))
    with warnings.catch_warnings():
        warnings.simplefilter("error")
        one, summary = report["a"], report.summary()
        packets, row = one.packets(), summary[summary.sender == "train 9"].iloc[0]
        assert packets[packets.sender == "train 1"].bytes.tolist() == [100] * 3
        assert (row["min"], row.p50, row["max"], row.in_flight) == (11_000_000, 13_000_000, 15_000_000, 0)
        assert {"fct", "retransmissions", "params", "warnings", "p99"} <= set(summary.columns)
        assert one.params == "pipe 1 bw 8Mbit/s delay 10" and one.warnings == ""


def test_shown_in_a_notebook(files: Callable[..., list[Path]]) -> None:
    report = dnlab.read(*files(CALL))
    with pytest.raises(KeyError, match="nope: there is no such experiment, only a"):
        report["nope"]
    shown = str(report["a"])
    assert len(shown.splitlines()) <= 5 and "train 9" in shown and len(shown) < 500


def test_settings_are_columns_with_their_defaults(program: str) -> None:
    """According to docs/reference/scenario.md: no rate, no delay, 50 slots, no loss, droptail; CoDel has 5
    and 100 ms, a flow 65535 bytes."""
    text = ("experiment a seed 1 budget 9\n@0 pipe 1 config\n@0 pipe 2 config bw 8Mbit/s delay 3\n@0 flow 1 "
            "10.0.0.1 1 10.0.0.2 2 smss 100 segments 2\n@1 pipe 2 config bw 4Mbit/s delay 3\n@9 "
            "end\nexperiment b seed 2 budget 9\n@0 pipe 1 config codel interval 200us mask dst-ip 0xff proto "
            "0x0f queue 3KBytes plr 0.5\n@9 end\nexperiment c seed 2 budget 9\n@0 pipe 1 config codel "
            "target 1\n@9 end\n")
    found = dnlab.run(text, dnlab=program).params()
    a, b = found.loc["a"], found.loc["b"]
    names = ("bw", "delay", "queue", "plr", "discipline", "mask")
    assert [a[f"pipe1_{name}"] for name in names] == [0, 0, 50, 0, "droptail", ""]
    names = ("queue_bytes", "plr", "discipline", "target", "interval", "mask")
    wanted = [3072, 0.5, "codel", 5_000_000, 200_000, "dst-ip 0xff proto 0x0f"]
    assert [b[f"pipe1_{name}"] for name in names] == wanted
    assert (found.loc["c", ["pipe1_target", "pipe1_interval"]].tolist() == [1_000_000, 100_000_000]
            and a["pipe1_target"] is pd.NA)
    assert (a["pipe2_bw"], a["pipe2_delay"], a["flow1_window"],
            a["flow1_segments"]) == ("varies", 3_000_000, 65535, 2)
    assert "pipe1_bw" not in dnlab.run(text, dnlab=program).params(changed=True)


def test_intervals() -> None:
    rows = pd.DataFrame({"varied": ["a", "a", "b", "b"], "p95": pd.array([1, 3, 5, None], "Int64"),
                         "rate": [1, 1, 1, 3]})
    found = dnlab.intervals(rows, "varied", "p95")
    assert (found.loc["a", "mean"] == 2 and found.loc["b", "n"] == 1
            and np.isclose(found.loc["a", "ci95"], 12.7062))
    both = dnlab.intervals(rows, ["varied"], ["p95", "rate"])
    assert both.loc["b", ("rate", "mean")] == 2


def test_without_numpy() -> None:
    """Missing packages are named, and functions that need none work. With -S Python has no packages."""
    words = ("import dnlab, dnlab.io.scenario, dnlab.io.scenario_text\ntry:\n    dnlab.read\nexcept "
             "ModuleNotFoundError as fault:\n    print(fault)")
    done = subprocess.run([sys.executable, "-B", "-S", "-c", words], capture_output=True, text=True,
                          check=False, env={**os.environ, "PYTHONPATH": str(ROOT / "python")})
    assert done.stdout == "numpy is missing (Debian: apt-get install python3-numpy)\n" and not done.stderr
