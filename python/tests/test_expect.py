"""tools/expect: which bounds hold, which say nothing, which runs fail by themselves, and the verdict for CI
services, which is parsed with the standard library and by the rules of GitHub's documentation."""
import json
import os
import pty
import subprocess
import sys
from fractions import Fraction
from pathlib import Path
from typing import Callable
from xml.etree import ElementTree

import pytest
from calls_and_flows import CALL, FLOWS, REFUSED, SPENT
from conftest import ROOT, report_of, tool

from dnlab.analysis.bounds import bound_of, bounds_in
from dnlab.analysis.metrics import metric_of
from dnlab.analysis.quantities import amount_of, shown
from dnlab.errors import InputError

Files = Callable[..., list[Path]]
UNTRACED = "it is unknown for a/plain: make the report with --trace: `dnlab alone --trace < scenario.txt"

# Train 9 arrives after 11, 12, 13, 14 and 15 ms. Train 1 sends at 1, 21 and 41 ms; its first packet waits for
# the five until 5 ms, and takes 0.1 ms: 14.1, 10.1 and 10.1 ms, with differences of 4 ms and 0, so the jitter
# is 4/16 * 15/16 ms. The pipe serves 5300 bytes from 0 to 41.1 ms: 42400 of 328800 bits. Each bound with its
# verdict, and words of the line.
OF_CALL = [
    ("train 9: delay.p95 <= 15ms", "holds", "(measured 15ms of a/train 9; holds by 0 %)"),
    ("a/train 9: goodput > 2.6Mbit/s", "holds", "(measured 2.666666Mbit/s of a/train 9; holds by 2.6 %)"),
    ("all: drops = 0", "holds", "(measured 0 of a/all)"),
    ("train 9 : delay.p95<15 ms", "FAILS", "(measured 15ms of a/train 9)"),
    ("all: packets > 8", "FAILS", "(measured 8 of a/all)"),
    ("train 9: delay.mean == 13ms", "holds", ""), ("train 9: delay.p1 < 150ms", "holds", ""),
    ("train 1: jitter < 0.235ms", "holds", ""), ("train 1: jitter > 0.234ms", "holds", ""),
    ("pipe 1.0: utilisation > 12.89%", "holds", ""), ("pipe 1.0: utilisation < 12.9%", "holds", ""),
    ("all: ended == end", "holds", ""), ("all: refused == 0", "holds", ""),
    ("train 9: delay.p95 > 0ms", "holds", ""),
    ("train 9: loss >= 0%", "FAILS", "vacuous: any value of loss satisfies it"),
    ("train 9: loss <= 100%", "FAILS", "vacuous: any value of loss"),
    ("train 9: drops >= 0", "FAILS", "vacuous: any value of drops"),
]
# Flow 1 ends, flow 2 does not.
OF_FLOWS = [
    ("flow *: goodput > 1kbit/s", "holds", "the nearest of 2 rows"),
    ("flow * acks: delivered > 0", "holds", "the nearest of 2 rows"),
    ("flow 1: fct < 10s", "holds", ""),
    ("flow *: fct < 10s", "FAILS",
     "it is unknown for f/flow 2: it had not finished when the experiment ended, at 0.1s"),
    ("pipe 1.0: utilisation < 101%", "holds", ""), ("pipe 1.0: loss < 1%", "holds", ""),
    ("pipe 2.0: utilisation < 50%", "FAILS", "the pipe has no rate"),
    ("all: delay.p95 < 1s", "FAILS", "use `there` or `back`"),
    ("flow 1 acks: goodput > 1bit/s", "FAILS", "rows of this kind"),
]
ONE_FLOW = """experiment a seed 0 budget 99
@0 add 1 allow ip from any to any
@0 flow 1 10.0.0.1 1 10.0.0.2 2 smss 100 segments 3
@9000000000 end
"""
DENIED = """experiment a seed 0 budget 99
@0 add 1 deny ip from any to any
@0 train 1 udp 10.0.0.1 1 10.0.0.2 2 100 count 3 gap 10
@9000 end
"""


@pytest.mark.parametrize("scenario, bounds", [(CALL, OF_CALL), (FLOWS, OF_FLOWS)], ids=["call", "flows"])
def test_each_bound_has_its_line(scenario: str, bounds: list[tuple[str, str, str]], files: Files) -> None:
    status, out, _ = tool("expect", *files(scenario), "--allow", "unsent", *(one for one, _, _ in bounds))
    assert status == 1
    lines = out.splitlines()
    assert len(lines) == len(bounds)
    for number, (line, (bound, verdict, said)) in enumerate(zip(lines, bounds), 1):
        assert line.startswith(f"{verdict}  bound {number}: {bound}  (") and said in line


@pytest.mark.parametrize("scenario, bound, said", [
    (ONE_FLOW, "there: jain > 0.9", "a single flow is always fair"),
    (DENIED, "all: drops.full == 0", "rules denied all 3 packets"),
    (CALL + CALL.replace("experiment a", "experiment b").replace("train 9", "train 8"),
     "train 9: loss < 1%", "experiment b has no row 'train 9'")])
def test_bounds_that_say_nothing(scenario: str, bound: str, said: str, files: Files) -> None:
    texts = files(scenario)
    status, out, _ = tool("expect", *texts, bound)
    assert status == 1 and said in out and "--allow vacuous" in out
    assert tool("expect", *texts, bound, "--allow", "vacuous")[0] == 0


def test_delays_that_losses_make_easy(files: Files) -> None:
    """Dropped packets have no delay, which is only said where no bound limits the drops."""
    texts = files(CALL.replace("delay 10", "delay 10 queue 2"))
    bound = "train 9: delay.p95 < 50ms"
    assert ("2 of the 5 packets of a/train 9 were dropped and have no delay: add a bound such as 'train 9: "
            "loss" in tool("expect", *texts, bound)[1])
    for more in "train 9: loss < 50%", "train 9: drops < 3":
        assert "have no delay" not in tool("expect", *texts, bound, more)[1]
    assert "have no delay" not in tool("expect", *texts, "train 9: packets == 5",
                                       "train 1: delay.p95 < 50ms")[1]


def test_files_of_bounds(files: Files, tmp_path: Path) -> None:
    texts, bounds = files(CALL), tmp_path / "bounds"
    bounds.write_text("# of the train\ntrain 9: delay.min >= 11ms  # owner: voice\n\n"
                      " train 9 : delay.p95<15 ms\nall: packets > 9\n")
    lines = [f"holds  {bounds}: line 2: train 9: delay.min >= 11ms  (measured 11ms of a/train 9; holds by 0 "
             "%)", f"FAILS  {bounds}: line 4: train 9 : delay.p95<15 ms  (measured 15ms of a/train 9)",
             f"FAILS  {bounds}: line 5: all: packets > 9  (measured 8 of a/all)"]
    status, out, _ = tool("expect", *texts, "--bounds", bounds)
    assert status == 1 and out.splitlines() == lines
    status, out, _ = tool("expect", *texts, "--bounds", bounds, "--first")
    assert status == 1 and out.splitlines() == lines[:2]


@pytest.mark.parametrize("text, said", [
    ("train 9: delay.p95 < 50", "its unit is missing: ns, us, ms, s"),
    ("train 9: delay.p95 < 50kg", "'kg' is not a unit here"),
    ("train 9: delay.q95 < 50ms", "there is no metric 'delay.q95'; the metrics are packets, delivered"),
    ("train 9 delay.p95 < 50ms", "the colon"),
    ("train 9: delay.p95 50ms", "a sign"), ("train 9: delay.p95 => 50ms", "'=>' is not a sign"),
    (": drops < 1", "WHO"), ("all: drops < many", "'many' is not an amount such as 3"),
    ("all: delay.p0 < 1ms", "no metric 'delay.p0'"), ("all: delay.p100.5 < 1ms", "no metric"),
    ("all: delay.p0.95 < 1ms", "write p95"), ("all: loss < 5", "%"),
    ("all: ended < spent", "by == or !="), ("all: ended == never", "not an ending"),
    ("all: rate < 5Mbps", "'Mbps' is not a unit here: bit/s, kbit/s")])
def test_what_is_no_bound(text: str, said: str) -> None:
    with pytest.raises(InputError, match="line 2: ") as faulty:
        bounds_in("bounds", f"# first\n{text}\n")
    assert said in str(faulty.value)


@pytest.mark.parametrize("words, said", [
    (["train 8: drops < 1"], "no row 'train 8'; there are train 9, train 1, pipe 1.0, all"),
    (["b/train 9: drops < 1"], "no experiment 'b'; there are a"),
    ([], "no bound"), (["train 9: drops 1"], "a sign"), (["--bounds", os.devnull], "it has no bound"),
    (["all: drops < 1", "--all", "--first"], "can't be combined"),
    (["all: drops < 1", "--allow", "denied"], "denied")], ids=lambda words: " ".join(words)[:30])
def test_wrong_words(words: list[str], said: str, files: Files) -> None:
    status, out, err = tool("expect", *files(CALL), *words)
    assert (status, out) == (2, "") and said in err


def test_amounts() -> None:
    assert amount_of("1.5us", "time") == (1500, "us") and amount_of("10 Mbit/s", "rate") == (10**7, "Mbit/s")
    assert shown(Fraction(10**15 + 1), "time", "s") == "1000000.000000001s"
    row = {"packets": 40, "denied": 1,
           **dict.fromkeys(("nopipe", "noinstance", "lost", "full", "codel", "deleted", "budget"), 0)}
    # The share is 2.5 % exactly.
    assert bound_of("all: loss<2.5%", "").holds(Fraction(1, 40)) is False
    loss = metric_of("loss")
    assert loss.of(row) == Fraction(1, 40) and loss.of({**row, "full": None}) is None


def test_run_and_judge_at_once(files: Files, tmp_path: Path) -> None:
    """`--run` judges a report that it has just made, so that it can't belong to another scenario."""
    scenario = files(CALL)[1]
    status, out, err = tool("expect", "--run", scenario, "train 9: loss == 0%")
    assert status == 0 and out.startswith("holds  ") and not err
    assert tool("expect", "--run", scenario, "train 9: delay.p95 < 1ns")[0] == 1
    (tmp_path / "wrong.txt").write_text("nothing\n")
    for words in (["--run", tmp_path / "wrong.txt", "all: drops == 0"],
                  ["--run", tmp_path / "gone.txt", "all: drops == 0"], ["--run", "-", "all: drops == 0"],
                  [scenario, "--run", scenario, "all: drops == 0"]):
        status, out, err = tool("expect", *words)
        assert (status, out) == (2, "") and err and "Traceback" not in err, (words, err)


# ---- runs that fail by themselves

def test_refused_commands_fail(files: Files) -> None:
    texts = files(REFUSED)
    status, out, err = tool("expect", *texts, "train 9: delay.p95 < 50ms")
    assert status == 1 and out.startswith("holds  bound 1") and not err
    assert "FAILS  refused: experiment a: 2 of 6 commands were refused" in out and "--allow refused" in out
    assert "line 5: `add 70000 allow ip from any to any` (10: a rule's number is 1 to 65534)" in out
    for words, wanted in ((["--allow", "refused"], 0), (["--allow", "spent"], 1),
                          (["--allow", "spent,refused"], 0), (["--first"], 1),
                          (["--allow=refused", "--json"], 0), (["all: refused == 0", "--allow=refused"], 1)):
        assert tool("expect", *texts, "train 9: delay.p95 < 50ms", *words)[0] == wanted, words
    # It is also known without the scenario.
    status, out, _ = tool("expect", texts[0], "all: drops == 0")
    assert status == 1 and "command 3 at 0 ns (10: " in out


def test_spent_runs_fail(files: Files) -> None:
    texts = files(SPENT)
    status, out, _ = tool("expect", *texts, "all: drops == 0", "all: ended == end")
    assert (status == 1 and "FAILS  spent: experiment a: its steps were spent at " in out
            and "FAILS  bound 2" in out)
    assert tool("expect", *texts, "all: ended == spent", "all: ended != end", "--allow", "spent")[0] == 0


def test_packets_dropped_for_the_budget_fail(files: Files) -> None:
    """By hand: four of five packets at once exceed the budget."""
    texts = files(CALL.replace("budget 100", "budget 1"))
    status, out, _ = tool("expect", *texts, "train 9: delay.p95 < 150ms")
    assert status == 1 and "FAILS  budget: experiment a: train 9: 4 of 5 packets" in out
    assert tool("expect", *texts, "train 9: delay.p95 < 150ms", "--allow", "budget")[0] == 0


def test_a_report_that_is_not_traced(files: Files, tmp_path: Path) -> None:
    (tmp_path / "untraced").write_bytes(report_of(CALL.encode()))
    status, out, _ = tool("expect", tmp_path / "untraced", "plain: delay.p95 < 1s")
    assert status == 1 and UNTRACED in out


# ---- the verdict in other forms

def test_as_json(files: Files) -> None:
    status, out, _ = tool("expect", *files(REFUSED), "train 9: delay.p95 < 12ms", "all: drops == 0",
                          "all: ended == end", "--json")
    told = json.loads(out)
    assert (status == 1 and told["holds"] is False
            and [one["holds"] for one in told["bounds"]] == [False, True, True])
    assert told["bounds"][0] | {"said": ""} == {
        "bound": "train 9: delay.p95 < 12ms", "where": "bound 1", "holds": False, "experiment": "a",
        "sender": "train 9", "metric": "delay.p95", "measured": 15 * 10**6, "asked": 12 * 10**6, "said": ""}
    assert told["bounds"][2]["measured"] == "end" and [one["mark"] for one in told["failing"]] == ["refused"]


BOUNDS = "# the call\ntrain 9: delay.max < 20ms\ntrain 9: delay.max < 12ms\n"


def test_junit(files: Files, tmp_path: Path) -> None:
    """A run that fails by itself is a test case too."""
    bounds, made = tmp_path / "bounds", tmp_path / "out.xml"
    bounds.write_text(BOUNDS)
    status, _, err = tool("expect", *files(REFUSED), "all: packets == 5", "--bounds", bounds, "--junit", made)
    suite, = ElementTree.parse(made).getroot()
    assert status == 1 and not err
    assert (suite.tag, suite.get("tests"), suite.get("failures"),
            suite.get("errors")) == ("testsuite", "4", "2", "0")
    assert [(case.get("name"), case.get("classname"), case.get("file"), case.get("line"), len(case))
            for case in suite] == [
        ("all: packets == 5", "bounds", None, None, 0),
        ("train 9: delay.max < 20ms", str(bounds), str(bounds), "2", 0),
        ("train 9: delay.max < 12ms", str(bounds), str(bounds), "3", 1),
        ("refused", "experiment a", None, None, 1)]
    failure = suite[2][0]
    assert failure.tag == "failure" and failure.get("message") == "measured 15ms of a/train 9"
    status, _, err = tool("expect", *files(CALL), "all: packets == 8", "--junit", tmp_path / "none/out.xml")
    assert status in (2, 3) and "none" in err and err.count("\n") == 1


def test_annotations(files: Files, tmp_path: Path) -> None:
    bounds = tmp_path / "bounds,100%.txt"
    bounds.write_text(BOUNDS)
    status, out, _ = tool("expect", *files(CALL), "--bounds", bounds, "--github", "--quiet")
    place = str(bounds).replace("%", "%25").replace(",", "%2C")
    assert status == 1 and out.splitlines() == [
        f"FAILS  {bounds}: line 3: train 9: delay.max < 12ms  (measured 15ms of a/train 9)",
        f"::error file={place},line=3,title=dnlab-expect::train 9: delay.max < 12ms: measured "
        "15ms of a/train 9"]
    assert tool("expect", *files(CALL), "all: packets == 8", "-q", "--github") == (0, "", "")


@pytest.mark.parametrize("words, names, is_coloured", [
    ((), {}, True), ((), {"NO_COLOR": "1"}, False), (("--color", "never"), {}, False),
    (("--color", "always"), {"NO_COLOR": "1"}, True)])
def test_colours_on_a_terminal(words: tuple[str, ...], names: dict[str, str], is_coloured: bool,
                               files: Files) -> None:
    ours, theirs = pty.openpty()
    environment = {name: value for name, value in os.environ.items() if name != "NO_COLOR"}
    subprocess.run([sys.executable, ROOT / "tools/expect", *files(CALL), "all: packets == 8", *words],
                   stdout=theirs, env={**environment, **names}, timeout=60, check=True)
    os.close(theirs)
    said = os.read(ours, 4096)
    os.close(ours)
    assert (b"\x1b[32mholds\x1b[0m" in said) == is_coloured and b"holds" in said and b"\\x1b" not in said
    # A file has none unless they are requested.
    assert ("\x1b" in tool("expect", *files(CALL), "all: packets == 8", *words)[1]) == ("always" in words)


def test_the_fixture(files: Files, tmp_path: Path) -> None:
    """A user's test fails for the run too, unless that is allowed. docs/howto/pytest.md shows bounds."""
    (tmp_path / "own").mkdir()
    (tmp_path / "own" / "conftest.py").write_text('pytest_plugins = ["dnlab.testing"]\n')
    refused, spent = (f"dnlab.read({str(report)!r}, {str(scenario)!r})" for report, scenario in
                      (files(REFUSED, "refused"), files(SPENT, "spent")))
    tests = {"refused": f"{refused}, 'all: drops == 0'", "spent": f"{spent}, 'all: drops == 0'",
             "no_bound": f"{spent}, allow='spent'",
             "second": f"{refused}, 'all: drops == 0', 'all: drops == 2', allow='refused'",
             "allowed": f"{refused}, 'all: drops == 0', allow=['refused', 'spent']",
             "file": f"{refused}, tmp_path / 'b', allow='refused'"}
    (tmp_path / "own" / "test_own.py").write_text("import dnlab\n" + "".join(
        f"def test_{name}(expect, tmp_path):\n    (tmp_path / 'b').write_text('all: drops == 0')\n"
        f"    expect({words})\n" for name, words in tests.items()))
    done = subprocess.run([sys.executable, "-B", "-m", "pytest", "-q", "-p", "no:cacheprovider",
                           str(tmp_path / "own")], cwd=tmp_path, capture_output=True, text=True, check=False,
                          env={**os.environ, "PYTHONPATH": str(ROOT / "python")})
    assert "4 failed, 2 passed" in done.stdout, done.stdout
    for said in ("FAILS  refused: experiment a: 2 of 6", "FAILS  spent: experiment a", "no bound was given",
                 "FAILS  bound 2: all: drops == 2"):
        assert said in done.stdout
