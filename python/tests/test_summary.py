"""tools/summary: its tables, columns and forms, called as by a user. Packet k of the example codel_one_drop
is delivered at 8 ms * k + 1 ns, k from 1 to 29."""
import csv
import io
import json
import os
import re
import subprocess
import sys
from pathlib import Path

import pytest
from conftest import EXAMPLES, ROOT, rows_file, tool

SCENARIO = EXAMPLES / "codel_one_drop" / "scenario.txt"
FOUR = EXAMPLES / "four_experiments" / "scenario.txt"


@pytest.fixture(scope="module")
def report(tmp_path_factory: pytest.TempPathFactory) -> Path:
    return rows_file(SCENARIO, tmp_path_factory.mktemp("summary"))


@pytest.mark.parametrize("words", ["--csv --json", "--percentiles 0", "--percentiles 101", "--every 5",
                                   "--percentiles 0.95", "--columns median", "--by colour", "--workers 0",
                                   "--every 1s --losses", "--columns p50 --losses", "--from 1ms --every 1ms"])
def test_wrong_words(words: str, report: Path) -> None:
    status, out, err = tool("summary", report, SCENARIO, *words.split())
    assert (status, out) == (2, "") and words.split()[0].lstrip("-") in err


def test_forms(report: Path) -> None:
    status, out, err = tool("summary", "-", SCENARIO, "--json", text=report.read_bytes())
    assert status == 0 and json.loads(out)[0]["p50"] == 120000001 and not err
    status, out, err = tool("summary", report, "--csv")
    # Rows have no names of experiments, but senders and sizes.
    assert status == 0 and out.split("\n")[1].startswith("0,train 1,30,29,0,29000,0,232000001,") and not err
    status, out, err = tool("summary", EXAMPLES / "codel_one_drop" / "expected.txt", "--csv")
    assert (status == 0 and out.split("\n")[1].startswith("codel-one-drop,plain,30,29,0,,,")
            and "dnlab alone --trace <" in err)
    status, out, _ = tool("summary", report, SCENARIO)
    assert status == 0 and "120.000 " in out.split("\n")[1] and "120.000001" not in out and "codel:1" in out


def test_percentiles_and_senders(report: Path) -> None:
    _, out, err = tool("summary", report, SCENARIO, "--percentiles", "50,95,99", "--csv", "--of", "train *")
    row, = csv.DictReader(io.StringIO(out))
    assert not err and row["sender"] == "train 1"
    assert (row["p50"], row["p95"], row["p99"]) == ("120000001", "224000001", "232000001")
    assert (row["seed"], row["ended"]) == ("0", "end")


def test_some_columns(report: Path) -> None:
    words = ("summary", report, SCENARIO, "--of", "train 1", "--columns", "p50,codel")
    assert tool(*words, "--csv")[1] == "experiment,sender,p50,codel\ncodel-one-drop,train 1,120000001,1\n"
    assert [line.split() for line in tool(*words)[1].splitlines()] == [
        ["experiment", "sender", "p50", "ms", "codel"], ["codel-one-drop", "train", "1", "120.000", "1"]]
    status, _, err = tool("summary", report, SCENARIO, "--by", "sender", "--columns", "median")
    assert (status == 2 and "there is no column median; the columns are experiment, sender, packets, "
            "delivered, in_flight, " in err)


def test_other_tables(report: Path) -> None:
    """With intervals, losses, and groups; people read ms."""
    words = ("summary", report, SCENARIO)
    out = tool(*words, "--every", "100ms", "--csv")[1].split("\n")
    assert out[0] == "experiment,sender,begin,end,packets,bytes,rate,useful,goodput,seed,varied,ended"
    # Twelve are delivered before 100 ms.
    assert out[1] == "codel-one-drop,train 1,0,100000000,12,12000,960000,12000,960000,0,,end"
    out = tool(*words, "--every", "100ms")[1].split("\n")
    assert out[0].split()[2:6] == ["begin", "ms", "end", "ms"] and out[1].split()[3:5] == ["0.000", "100.000"]
    out = tool(*words, "--losses")[1].split("\n")
    assert out[1].split() == ["codel-one-drop", "train", "1", "codel", "1.0", "1", "0", "end"]
    groups = (*words, "--by", "varied", "--columns", "p50", "--of", "train*")
    assert json.loads(tool(*groups, "--json")[1]) == [
        {"varied": "", "sender": "train 1", "rows": 1, "p50 n": 1, "p50 mean": 120000001.0, "p50 ci95": None}]
    assert [line.split() for line in tool(*groups)[1].splitlines()] == [
        ["varied", "sender", "rows", "p50", "n", "p50", "mean", "ms", "p50", "ci95", "ms"],
        ["train", "1", "1", "1", "120.000", "-"]]


def test_the_printed_table_has_the_names_of_columns(report: Path) -> None:
    """Each heading is a column of --csv, except for `drops`, which has all causes. Only headings of times end
    with ` ms`."""
    printed = re.split("  +", tool("summary", report, SCENARIO)[1].split("\n")[0])
    columns = tool("summary", report, SCENARIO, "--csv")[1].split("\n")[0].split(",")
    assert set(printed) - {"drops"} <= {name for column in columns for name in (column, f"{column} ms")}
    assert [one for one in printed if one.endswith(" ms")] == ["time ms", "min ms", "p50 ms", "p99 ms",
                                                               "max ms", "fct ms"]


def test_several_processes_and_experiments(tmp_path: Path) -> None:
    four = rows_file(FOUR, tmp_path)
    one = tool("summary", four, FOUR, "--csv", "--workers", "1")
    assert one[0] == 0 and one == tool("summary", four, FOUR, "--csv", "--workers", "3")
    assert one == tool("summary", "-", FOUR, "--csv", "--workers", "2", text=four.read_bytes())
    names = list(dict.fromkeys(row["experiment"] for row in csv.DictReader(io.StringIO(one[1]))))
    some = tool("summary", four, FOUR, "--csv", "--experiment", names[2])
    assert {row["experiment"] for row in csv.DictReader(io.StringIO(some[1]))} == {names[2]}
    # With many experiments each kind of note is printed once.
    status, _, err = tool("summary", FOUR.parent / "expected.txt")
    assert status == 0 and err.count("made without --trace") == 2 and "3 of 4 experiments" in err


def test_scenarios_in_several_texts(tmp_path: Path) -> None:
    four, text = rows_file(FOUR, tmp_path), FOUR.read_text()
    cut = text.index("\nexperiment ", text.index("experiment ") + 1) + 1
    (tmp_path / "a").write_text(text[:cut])
    (tmp_path / "b").write_text(text[cut:])
    assert tool("summary", four, tmp_path / "a", tmp_path / "b",
                "--csv") == tool("summary", four, FOUR, "--csv")
    status, _, err = tool("summary", four, FOUR, tmp_path / "b")
    assert status == 2 and "a second experiment" in err


def module(words: str) -> "subprocess.CompletedProcess[str]":
    return subprocess.run(["sh", "-c", f"{sys.executable} -B -m dnlab {words}"], capture_output=True,
                          text=True, check=False, env={**os.environ, "PYTHONPATH": str(ROOT / "python")})


def test_as_a_module(report: Path) -> None:
    assert "Example:" in module("--help").stdout and module("sum").returncode == 2
    done = module(f"summary {report} {SCENARIO}")
    assert done.returncode == 0 and done.stdout == tool("summary", report, SCENARIO)[1]
    # The reader of its output leaves early.
    done = module(f"summary {report} {SCENARIO} --every 10us --csv | head -n 1")
    assert done.returncode == 0 and done.stdout.count("\n") == 1 and "Traceback" not in done.stderr
