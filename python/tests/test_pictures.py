"""The axes of figures, compared with values calculated by hand from the reports (times in ms). Long series
are thinned."""
from pathlib import Path

import numpy as np
import pytest
from conftest import EXAMPLES, records_in, rows_file, text_of, tool, view_of
from hypothesis import given, settings
from hypothesis import strategies as some

from dnlab.analysis.series import Series, thinned
from dnlab.analysis.view import View
from dnlab.plot import pictures


def lines_on(axes) -> dict[str, list[tuple[float, float]]]:
    """Returns the values of each line on the axes by its label."""
    return {line.get_label(): [(float(x), float(y)) for x, y in line.get_xydata()]
            for line in axes.get_lines()}


def near(got, want) -> bool:
    return (len(got) == len(want)
            and all(abs(a - c) < 1e-9 and abs(b - d) < 1e-9 for (a, b), (c, d) in zip(got, want)))


PANELS = ["window", "queue", "sojourn", "delivered", "drops"]


def test_four_segments() -> None:
    """Windows are in segments of 1460 bytes. Of the three packets at 0, one is in service and two wait; a
    single packet never waits. Acknowledgements of 40 bytes, and their pipe, are drawn on request."""
    figure = pictures.figure_of([view_of("reno_four_segments")], PANELS)
    window, queue, sojourn, delivered, drops = figure.axes
    want = {
        (window, "cwnd 1"): [(0, 3), (21.2, 4), (22.4, 5), (23.6, 6), (42.4, 7)],
        (queue, "pipe 1"): [(0, 2), (1.2, 1), (2.4, 0), (3.6, 0), (21.2, 0), (22.4, 0), (42.4, 0)],
        (sojourn, "flow 1"): [(11.2, 11.2), (12.4, 12.4), (13.6, 13.6), (32.4, 11.2)],
        (delivered, "flow 1"): [(0, 0), (11.2, 1.5), (12.4, 3), (13.6, 4.5), (32.4, 6), (42.4, 6)],
        (delivered, "through pipe 1"): [(0, 0), (1.2, 1.5), (2.4, 3), (3.6, 4.5), (22.4, 6), (42.4, 6)],
    }
    for (axes, label), values in want.items():
        assert near(lines_on(axes).get(label, []), values), label
    # ssthresh stays at 65535 bytes, above the axis.
    assert [list(lines_on(axes)) for axes in figure.axes] == [["cwnd 1"], ["pipe 1"], ["flow 1"],
                                                              ["flow 1", "through pipe 1"], []]
    assert [text.get_text() for text in drops.texts] == ["no packet was dropped"] and not window.texts
    assert [axes.get_ylabel() for axes in figure.axes] + [drops.get_xlabel()] == [
        "Congestion window (segments)", "Queue length (packets)", "One-way delay (ms)", "Delivered data (kB)",
        "Drops (packets)", "Time (ms)"]
    assert [axes.get_title("left") for axes in figure.axes] == [
        "Congestion window", "Queue length (limit of pipe 1 is 50 packets)", "One-way delay",
        "Delivered data, cumulative",
        "Drops by cause, cumulative"]
    # The last line of the report is at 42.4 ms, and so is the end of the axes.
    assert {axes.get_xlim() for axes in figure.axes} == {(0, 42.4)}


def test_acknowledgements_on_request() -> None:
    sojourn, delivered, queue, flight = pictures.figure_of(
        [view_of("reno_four_segments")], ["sojourn", "rate", "queue", "flight"], acks=True).axes
    assert near(lines_on(sojourn)["flow 1 acks"], [(x, 10) for x in (21.2, 22.4, 23.6, 42.4)])
    assert near(lines_on(delivered)["through pipe 2"],
                [(0, 0), (11.2, .04), (12.4, .08), (13.6, .12), (32.4, .16), (42.4, .16)])
    assert list(lines_on(queue)) == ["pipe 1", "pipe 2"]
    assert near(lines_on(flight)["in flight"],
                list(zip((0, 11.2, 12.4, 13.6, 21.2, 22.4, 23.6, 32.4, 42.4), (3, 3, 3, 3, 3, 2, 1, 1, 0))))


def test_two_columns() -> None:
    """The names are above the columns, which have the same ranges of time and values. ssthresh is drawn once
    it is on the axis."""
    figure = pictures.figure_of([view_of("codel_one_drop"), view_of("reno_timeouts")], ["window", "drops"])
    first, second, one, five = figure.axes
    assert near(lines_on(one)["codel"], [(0.0, 0.0), (0.112, 1.0), (0.232000001, 1.0)])
    assert lines_on(five) == {"lost": [(0.0, 3.0), (1.0, 4.0), (3.0, 5.0)]}
    assert {label: lines_on(second).get(label) for label in ("loss 1", "timeout 1")} == {
        "loss 1": [(0, 3)] * 3 + [(1, 1), (3, 1)], "timeout 1": [(1, 1), (3, 1)]}
    assert (lines_on(first) == {}
            and [axes.get_title("left") for axes in (first, second)] == ["codel-one-drop", "reno-timeouts"])
    # The first window is 3 segments, and the axis ends a tenth above it; ssthresh falls to 2920 bytes at 1 s.
    assert (second.get_ylim() == pytest.approx((0, 3.3))
            and lines_on(second)["ssthresh 1"][1:] == [(1, 2), (3, 2)])
    assert np.isnan(lines_on(second)["ssthresh 1"][0][1]) and not second.texts
    assert one.get_ylim() == five.get_ylim() and figure._suptitle.get_text() == "Congestion window, drops"


def test_untraced() -> None:
    bare = pictures.figure_of([View(records_in(text_of("reno_four_segments", "expected.txt"))[0])],
                              ["sojourn", "delivered"]).axes
    assert not bare[0].get_lines() and "--trace" in bare[0].texts[0].get_text()
    assert bare[1].get_ylabel() == "Delivered (packets)"
    assert near(lines_on(bare[1])["flow 1"], [(0, 0), (11.2, 1), (12.4, 2), (13.6, 3), (32.4, 4), (42.4, 4)])


def test_a_traced_report_alone() -> None:
    """The picture has everything but a flow's initial window."""
    axes = pictures.figure_of([view_of("traced_flow", joined=False)], ["window", "queue", "sojourn"]).axes
    assert lines_on(axes[0])["cwnd 1"][0][0] > 0 and axes[2].get_lines()


@given(some.lists(some.integers(-1000, 1000), min_size=1, max_size=400), some.integers(1, 20),
       some.randoms(use_true_random=False))
@settings(max_examples=200)
def test_thinned(values: list[int], stretches: int, chance) -> None:
    """In each interval only the first, the minimum, the maximum and the last value remain."""
    moments = np.cumsum([chance.randrange(0, 3) for _ in values])
    one = Series("x", "steps", moments, np.array(values))
    few = thinned(one, stretches)
    if len(values) <= 4 * stretches:
        assert few is one
        return
    assert len(few.moments) <= 4 * stretches
    at = (moments - moments[0]) * stretches // (moments[-1] - moments[0] + 1)
    kept = (few.moments - moments[0]) * stretches // (moments[-1] - moments[0] + 1)
    for stretch in set(at.tolist()):
        before, after = one.values[at == stretch], few.values[kept == stretch]
        assert (before.min(), before.max(), before[0],
                before[-1]) == (after.min(), after.max(), after[0], after[-1])


def test_files_drawn(tmp_path: Path) -> None:
    scenario = EXAMPLES / "reno_four_segments" / "scenario.txt"
    report = rows_file(scenario, tmp_path)
    for ending, begins in (("svg", b"<?xml"), ("png", b"\x89PNG"), ("pdf", b"%PDF")):
        twice = []
        for name in (f"a.{ending}", f"b.{ending}"):
            status, _, err = tool("plot", report, scenario, "--out", tmp_path / name)
            assert status == 0 and not err
            twice.append((tmp_path / name).read_bytes())
        assert twice[0].startswith(begins) and twice[0] == twice[1]
    status, _, err = tool("plot", report, scenario, "--out", tmp_path / "none" / "a.svg")
    assert status == 3 and "a.svg" in err
