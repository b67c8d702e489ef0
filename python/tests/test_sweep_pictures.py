"""The pictures of a sweep, compared with tables written by hand: means, one statistic against another, and
distributions."""
import re
from pathlib import Path

import pandas as pd
import pytest
from conftest import tool
from sweeps import WIDE, template

import dnlab
from dnlab.errors import InputError
from dnlab.plot import curves
from dnlab.plot.style import Look, check_panels

MS, MBIT = 10**6, 10**6
# The call's delay and the flows' goodput with queues of 10 and 50 packets and with CoDel: mean and half of
# the interval.
DELAYS = {"50": (80, 4), "10": (30, 2), "50 codel": (25, 1)}
GOODPUTS = {"50": (9, 0.5), "10": (6, 1), "50 codel": (8.5, 0.25)}


def table(delays=DELAYS, goodputs=GOODPUTS, **more) -> pd.DataFrame:
    rows = [{"queue": queue, "sender": sender, "stat": stat, "unit": unit, "n": 20, "mean": mean * scale,
             "low": (mean - half) * scale, "high": (mean + half) * scale, "level": 95, "method": "t",
             "warnings": "", **more}
            for sender, stat, unit, scale, values in (("train 9", "delay.p95", "ns", MS, delays),
                                                      ("flows", "goodput", "bit/s", MBIT, goodputs))
            for queue, (mean, half) in values.items()]
    return pd.DataFrame(rows)


LABELS = {"queue": "Queue limit (packets)", "train 9": "the call", "queue:50 codel": "CoDel"}


def lines(axes) -> list[list[tuple[float, float]]]:
    return [[tuple(map(float, xy)) for xy in line.get_xydata()]
            for line in axes.get_lines() if len(line.get_xdata()) > 0]


def test_means_of_numbers_and_words() -> None:
    """Numbers are in order and joined, and the word is separate, after a thin line. Axes have the setting's
    label and unit."""
    figure = curves.figure_of(table(), ["queue"], Look(labels=LABELS))
    delay, goodput = figure.axes
    assert (delay.get_ylabel(), goodput.get_ylabel()) == ("95th percentile of delay (ms)", "Goodput (Mbit/s)")
    assert goodput.get_xlabel() == "Queue limit (packets)"
    assert [text.get_text() for text in goodput.get_xticklabels()] == ["10", "50", "CoDel"]
    assert lines(delay)[0] == [(0, 30), (1, 80)] and lines(goodput)[0] == [(0, 6), (1, 9)]
    assert lines(delay)[1] == [(0, 30), (1, 80), (2, 25)]
    assert [line.get_xdata()[0]
            for line in delay.get_lines() if list(line.get_xdata()) == [1.5, 1.5]] == [1.5]
    assert [axes.get_title("left") for axes in figure.axes] == ["the call", "all flows"]
    assert figure._suptitle.get_text() == "Comparison by queue limit"
    assert figure._supxlabel.get_text() == "Points: means of 20 seeds; bars: 95 % intervals"


def test_long_times_are_in_seconds() -> None:
    rows = table({"10": (9_000, 500), "50": (20_000, 1_000)}, {})
    axes, = curves.figure_of(rows.assign(stat="fct"), ["queue"]).axes
    assert axes.get_ylabel() == "Flow completion time (s)" and lines(axes)[0] == [(10, 9), (50, 20)]


def test_delay_against_goodput() -> None:
    """There is one point for each setting, with both intervals and the setting's value. The delay is on the
    vertical axis."""
    figure = curves.figure_of(table(), ["queue"], Look(labels=LABELS, kind="tradeoff"))
    axes, = figure.axes
    assert (axes.get_xlabel(), axes.get_ylabel()) == ("Goodput, all flows (Mbit/s)",
                                                      "95th percentile of delay, the call (ms)")
    assert figure._suptitle.get_text() == "95th percentile of delay against goodput"
    points, = axes.containers
    assert list(map(tuple, points[0].get_xydata())) == [(6, 30), (9, 80), (8.5, 25)]
    across, up = (collection.get_segments() for collection in points[2])
    assert [tuple(end[0] for end in bar) for bar in across] == [(5, 7), (8.5, 9.5), (8.25, 8.75)]
    assert [tuple(end[1] for end in bar) for bar in up] == [(28, 32), (76, 84), (24, 26)]
    assert [(text.get_text(), text.xy)
            for text in axes.texts] == [("10", (6, 30)), ("50", (9, 80)), ("CoDel", (8.5, 25))]
    # The numbers are joined, and the word isn't.
    assert lines(axes)[0] == [(6, 30), (9, 80)]
    with pytest.raises(InputError, match="expected two statistics.* 1$"):
        check_panels(table(), ["queue"], [("train 9", "delay.p95")], Look(kind="tradeoff"))
    with pytest.raises(InputError, match="--rows and --columns"):
        check_panels(table(), ["queue"], [("train 9", "delay.p95")], Look(kind="tradeoff", rows="queue"))


def each() -> pd.DataFrame:
    """Returns values of five seeds, in ms: for 10 packets 1 to 5, for 50 packets 2, 2, 4, 8 and an unknown
    one."""
    rows = [{"queue": queue, "seed": seed, "sender": "flow 1", "stat": "fct", "unit": "ns", "value": value,
             "warnings": ""}
            for queue, values in ((10, (1, 2, 3, 4, 5)), (50, (8, 2, None, 2, 4)))
            for seed, value in enumerate(values)]
    found = pd.DataFrame(rows)
    return found.assign(value=found["value"] * MS)


def means() -> pd.DataFrame:
    rows = table({10: (3, 1), 50: (4, 2)}, {})
    return rows.assign(sender="flow 1", stat="fct")


def test_distributions() -> None:
    """There is a step of a fifth for each of five seeds, and of a quarter for each of four."""
    figure = curves.figure_of(means(), ["queue"], Look(kind="ecdf", labels=LABELS), each())
    axes, = figure.axes
    assert (axes.get_xlabel(), axes.get_ylabel(),
            axes.get_ylim()) == ("Flow completion time (ms)", "Fraction of seeds", (0, 1))
    ten, fifty = lines(axes)
    assert (ten == [(1, 0), (1, .2), (2, .4), (3, .6), (4, .8), (5, 1)]
            and fifty == [(2, 0), (2, .25), (2, .5), (4, .75), (8, 1)])
    legend = axes.get_legend()
    assert (legend.get_title().get_text() == "Queue limit (packets)"
            and [text.get_text() for text in legend.get_texts()] == ["10", "50"])
    # The legend is next to the axes, so that it hides no data.
    figure.canvas.draw()
    assert legend.get_window_extent().x0 >= axes.get_window_extent().x1


def test_boxes() -> None:
    """The quartiles of 1 to 5 are 2, 3 and 4; those of 2, 2, 4, 8 are 2, 3 and 5."""
    axes, = curves.figure_of(means(), ["queue"], Look(kind="box", labels=LABELS), each()).axes
    heights = [sorted({float(y) for y in line.get_ydata()}) for line in axes.get_lines()]
    assert [2, 4] in heights and [2, 5] in heights and heights.count([3]) == 2
    assert ([text.get_text() for text in axes.get_xticklabels()] == ["10", "50"]
            and axes.get_xlabel() == "Queue limit (packets)")
    assert axes.get_ylabel() == "Flow completion time (ms)"


@pytest.mark.parametrize("words,said", [
    (["--kind", "tradeoff"], "expected two statistics"),
    (["--style", "no-such"], "--style no-such: neither a file nor a matplotlib style sheet"),
    (["--font", "No Such Font"], "no such font"), (["--size", "16x9"], "WIDTHxHEIGHT"),
    (["--label", "x"], "expected NAME=TEXT"),
    (["--kind", "pie"], "invalid choice: 'pie'"), (["--legend", "below"], "invalid choice: 'below'")])
def test_wrong_words(words: list[str], said: str, tmp_path: Path) -> None:
    """Wrong arguments are refused before anything is run, because there is no program."""
    (tmp_path / "t.tmpl").write_text(
        "experiment {{ name }} seed {{ seed }} budget 1\n@0 pipe 1 config queue {{ queue }}\n@1 end\n")
    status, out, err = tool("sweep", tmp_path / "t.tmpl", "--set", "queue=1,2", "--of", "all", "--stat",
                            "lost", "--plot", tmp_path / "x.svg", *words, DNLAB="")
    assert status == 2 and not out and said in err and not (tmp_path / "x.svg").exists()


def test_designs_need_a_picture(tmp_path: Path) -> None:
    for words in (["--kind", "box"], ["--title", "x"], ["--size", "5x4in"]):
        status, _, err = tool("sweep", tmp_path / "t.tmpl", *words, DNLAB="")
        assert status == 2 and "go with --plot" in err


@pytest.fixture
def wide(tmp_path: Path) -> Path:
    return template(tmp_path, WIDE)


def test_a_picture_for_a_paper(program: str, tmp_path: Path) -> None:
    """Labels have words and units, there is a panel for each setting, axes are logarithmic, and marked points
    are hollow."""
    made = dnlab.sweep(WIDE, delay=[5, 20], count=[1, 5], bw=["1Mbit/s", "2Mbit/s"], seed=[1, 2],
                       of="train 1", stat="delay.p95", dnlab=program)
    figure = made.plot(along="delay", columns="count", log=["x", "y"],
                       labels={"delay": "One-way delay (ms)", "count": "Packets", "bw": "Link",
                               "bw:1Mbit/s": "1 Mbit/s"})
    left, right = figure.axes
    assert (left.get_ylabel(), left.get_xlabel()) == ("95th percentile of delay (ms)", "One-way delay (ms)")
    assert [axes.get_title("left") for axes in figure.axes] == ["Packets: 1", "Packets: 5"]
    assert left.get_xscale() == left.get_yscale() == "log"
    assert [tick.get_text() for tick in left.get_xticklabels()] == ["5", "20"]
    # The ticks are plain numbers: 1, 2 and 5 in each decade.
    assert all(re.fullmatch(r"[125]0*|0\.0*[125]", tick.get_text()) for tick in left.get_yticklabels())
    # The legend is next to the last panel.
    legend = right.get_legend()
    assert (legend.get_title().get_text() == "Link"
            and [text.get_text() for text in legend.get_texts()] == ["1 Mbit/s", "2Mbit/s"])

    def hollow(axes) -> int:
        return sum(len(line.get_xdata())
                   for line in axes.get_lines() if line.get_markerfacecolor() == "white")

    assert ((hollow(left), hollow(right)) == (0, 4)
            and figure._supxlabel.get_text().endswith("; hollow points: unsent"))


def test_rows_and_columns(program: str) -> None:
    made = dnlab.sweep(WIDE, delay=[5, 20], count=[1, 2], bw=["1Mbit/s", "2Mbit/s", "4Mbit/s"], of="train 1",
                       stat="delivered", dnlab=program)
    figure = made.plot(along="delay", rows="bw", columns="count")
    assert len(figure.axes) == 6 and figure.axes[5].get_title("left") == "Link rate: 4Mbit/s\nCount: 2"
    several = dnlab.sweep(WIDE, delay=[5, 20], count=1, bw=["1Mbit/s", "2Mbit/s"], of="train 1",
                          stat=["delivered", "delay.p95"], dnlab=program)
    figure = several.plot(along="delay", rows="bw")
    assert figure._suptitle.get_text() == "Train 1 by link delay"
    assert [axes.get_title("left") for axes in figure.axes] == ["Link rate: 1Mbit/s",
                                                                "Link rate: 2Mbit/s"] * 2
    assert [axes.get_ylabel()[:5] for axes in figure.axes] == ["Packe"] * 2 + ["95th "] * 2
    for wrong, said in (({"rows": "nothing"}, "no such setting"),
                        ({"rows": "bw", "columns": "bw"}, "another setting"),
                        ({"log": ["z"]}, "--log z")):
        with pytest.raises(dnlab.InputError, match=said):
            made.plot(**wrong)


def test_a_pdf_by_the_tool(wide: Path, tmp_path: Path) -> None:
    words = ["--set", "delay=5,20", "--of", "train 1", "--stat", "delay.p95", "--plot", tmp_path / "a.pdf"]
    status, _, err = tool("sweep", wide, *words, "--label", "delay=One-way delay (ms)", "--log", "x")
    assert status == 0 and (tmp_path / "a.pdf").read_bytes().startswith(b"%PDF"), err
    assert tool("sweep", wide, *words, "--label", "delay")[0] == 2
    assert tool("sweep", wide, *words, "--rows", "bw")[0] == 2
    assert tool("sweep", wide, *words[:6], "--log", "x")[0] == 2
