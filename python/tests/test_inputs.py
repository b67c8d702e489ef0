"""What the tools that read reports do with inputs that are wrong, cut short, empty or of another scenario:
status 2 and one line, since status 1 is a bound that fails or a difference."""
from pathlib import Path
from typing import Callable

import pytest
from calls_and_flows import CALL, REFUSED, SLOW
from conftest import EXAMPLES, in_part, report_of, tool

import dnlab

Files = Callable[..., list[Path]]
# The tools, and the words that each needs besides the report and the scenario.
READERS = {"expect": ["all: drops == 0"], "compare": [], "plot": ["--out", "p.svg"],
           "view": ["--out", "p.html"], "summary": [], "pcap": ["--out", "a.pcap"]}


@pytest.fixture(params=READERS)
def reader(request: pytest.FixtureRequest, tmp_path: Path) -> Callable[..., tuple[int, str, str]]:
    """Calls one of the tools; a picture or a page would be the file `p.*`."""
    name, words = request.param, [str(tmp_path / it) if it.startswith(("p.", "a.")) else it
                                  for it in READERS[request.param]]

    def called(report: object, *more: object) -> tuple[int, str, str]:
        given = [report, report] if name == "compare" else [report]
        return tool(name, *given, *more, *words)
    return called


def test_wrong_files(reader: Callable[..., tuple[int, str, str]], files: Files, tmp_path: Path) -> None:
    report, plan = files(CALL)
    cut, bad, faulty = (tmp_path / name for name in ("cut", "bad.txt", "faulty"))
    cut.write_bytes(report.read_bytes()[:-40])
    bad.write_text(CALL.replace("train 9", "trian 9"))
    faulty.write_text("experiment a\n0 okay 0\n")
    for given, said in in_part([([cut, plan], "cut"), ([report, bad], "line 4"), ([report, tmp_path], ""),
                                ([tmp_path / "none", plan], "none"), ([plan, plan], "line 1"),
                                ([tmp_path, plan], ""), ([faulty], "line 2")], 3):
        status, out, err = reader(*given)
        assert (status, out) == (2, "") and said in err and len(err.splitlines()) == 1, (given, err)
        assert "Traceback" not in err
    assert not list(tmp_path.glob("p.*"))


def test_a_report_that_lacks_an_experiment(reader: Callable[..., tuple[int, str, str]], tmp_path: Path,
                                           request: pytest.FixtureRequest) -> None:
    plan, cut = tmp_path / "plan", tmp_path / "cut"
    plan.write_text(CALL + SLOW)
    cut.write_bytes(report_of((CALL + SLOW).encode(), "--trace").partition(b"experiment b")[0])
    status, _, err = reader(cut, plan)
    assert status == 2 and len(err.splitlines()) == 1 and not list(tmp_path.glob("p.*"))
    assert "it has no experiment b" in err or "pcap" in request.node.name
    assert tool("expect", cut, plan, "all: drops == 0", "--experiment", "a")[0] == 0


@pytest.mark.parametrize("name", ["summary", "plot", "view", "expect"])
def test_experiments_that_are_not_there(name: str, files: Files, tmp_path: Path) -> None:
    report, plan = files(CALL)
    words = ["all: drops == 0"] if name == "expect" else ["--out", tmp_path / "p"] if name == "view" else []
    status, _, err = tool(name, report, plan, "--experiment", "other", *words)
    assert status == 2 and "other" in err
    assert tool(name, report, EXAMPLES / "one_packet" / "scenario.txt", *words)[0] == 2


@pytest.mark.parametrize("name", READERS)
def test_wrong_words(name: str) -> None:
    for words in [], ["--no-such-word"], ["-", "-"]:
        status, out, err = tool(name, *words)
        assert (status, out) == (2, "") and err


@pytest.mark.parametrize("text", ["", "# nothing but words\n\n"])
def test_nothing_to_read(text: str, files: Files) -> None:
    report, plan = files(text)
    status, _, err = tool("summary", report, plan)
    assert status == 0 and "it is empty, and has no experiment: was the scenario empty" in err
    assert tool("expect", report, plan, "all: drops == 0")[0] == 2
    with pytest.warns(UserWarning, match="has no experiment"):
        assert len(dnlab.run(text)) == 0


def test_pages_and_pictures_have_warnings(files: Files, tmp_path: Path) -> None:
    texts = files(REFUSED)
    for name, file in ("view", "p.html"), ("plot", "p.svg"):
        status, _, err = tool(name, *texts, "--out", tmp_path / file)
        assert status == 0 and "2 of 6 commands were refused" in err
    assert "2 of 6 commands were refused" in (tmp_path / "p.html").read_text()
