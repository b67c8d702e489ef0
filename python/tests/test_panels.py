"""Panels of throughput, CDFs and boxes, spans of time and overlays, compared with values calculated by hand.

Of `reno_four_segments` the four segments of 1500 bytes are delivered at 11.2, 12.4, 13.6 and 32.4 ms, so long
after they were made: 11.2, 12.4, 13.6 and 11.2 ms; the acknowledgements of 40 bytes take 10 ms each.
"""
from pathlib import Path
from typing import Callable

import numpy as np
import pytest
from conftest import EXAMPLES, records_in, rows_file, text_of, text_view, tool, view_of
from hypothesis import given
from hypothesis import strategies as some

from dnlab.analysis.distributions import link_rates, overlaid
from dnlab.analysis.metrics import MORE
from dnlab.analysis.series import Panel, Series, Span, fewest, panel_of, windows, within
from dnlab.analysis.view import View
from dnlab.errors import InputError
from dnlab.plot import pictures

MS = 10**6
Alone = Callable[[bytes], bytes]


def drawn(what: str, span: Span = Span(), every: "int | None" = None) -> dict[str, list[tuple[float, float]]]:
    """Returns the lines of a panel of the four segments, by label, with times in ms."""
    panel = panel_of(view_of("reno_four_segments"), what, span, every, acks=True)
    return {one.label: list(zip((one.moments / MS).tolist(), one.values.tolist())) for one in panel.series}


def test_throughput() -> None:
    """Three segments arrive in the second 10 ms: 4500 bytes, 3.6 Mbit/s; one in the fourth, 1.2 Mbit/s."""
    lines = drawn("throughput", every=10 * MS)
    assert lines["flow 1"] == [(0, 0), (10, 3.6), (20, 0), (30, 1.2), (40, 0), (50, 0)]
    # Acknowledgements at 21.2, 22.4, 23.6 and 42.4 ms.
    assert lines["flow 1 acks"] == [(0, 0), (10, 0), (20, 0.096), (30, 0), (40, 0.032), (50, 0.032)]
    # The last line is at 42.4 ms. For only four packets there are at least 10 intervals, of 2 ms.
    assert panel_of(view_of("reno_four_segments"),
                    "throughput").title.startswith("Throughput in intervals of 2 ms")


def test_distributions() -> None:
    lines = drawn("cdf:sojourn")
    assert lines["flow 1"] == [(11.2, .25), (11.2, .5), (12.4, .75), (13.6, 1)]
    assert lines["flow 1 acks"] == [(10, .25), (10, .5), (10, .75), (10, 1)]
    assert drawn("cdf:sojourn", Span(12 * MS, 20 * MS))["flow 1"] == [(12.4, .5), (13.6, 1)]
    # Only whole windows: four of 10 ms before 42.4 ms.
    assert drawn("cdf:throughput", every=10 * MS)["flow 1"] == [(0, .25), (0, .5), (1.2, .75), (3.6, 1)]


def test_boxes() -> None:
    """By the nearest rank of four, the 5th and 25th percentiles are the first, the 50th the second, and the
    75th the third."""
    marks = [x for x, _ in drawn("box:sojourn")["flow 1"]]
    assert marks == [11.2, 11.2, 11.2, 11.2, 12.4, 13.6, 13.6]
    assert [x for x, _ in drawn("box:throughput", every=10 * MS)["flow 1"]] == [0, 0, 0, 0, 1.2, 3.6, 3.6]


def test_a_span_of_time() -> None:
    assert drawn("sojourn", Span(12 * MS, 33 * MS))["flow 1"] == [(12.4, 12.4), (13.6, 13.6), (32.4, 11.2)]
    # The window is 4380 bytes at 12 ms, and 8760 bytes from 23.6 ms to 33 ms.
    assert drawn("window", Span(12 * MS, 33 * MS))["cwnd 1"] == [(12, 4380), (21.2, 5840), (22.4, 7300),
                                                                 (23.6, 8760), (33, 8760)]
    assert drawn("delivered",
                 Span(12 * MS, 14 * MS))["flow 1"] == [(12, 1500), (12.4, 3000), (13.6, 4500), (14, 4500)]
    panel = panel_of(view_of("reno_four_segments"), "sojourn", Span(50 * MS))
    assert not panel.series and panel.words == "no events in this time range"


@given(some.lists(some.tuples(some.integers(0, 5), some.integers(0, 9)), min_size=1, max_size=12),
       some.integers(0, 40),
       some.integers(1, 40))
def test_steps_hold_what_they_held(steps: list[tuple[int, int]], begin: int, length: int) -> None:
    """Within the span the value at each time is that of the whole series."""
    moments = np.cumsum([1 + gap for gap, _ in steps])
    whole = Series("x", "steps", moments, np.array([value for _, value in steps]))
    part = within(whole, Span(begin, begin + length))
    assert not len(part.moments) or begin <= part.moments[0] <= part.moments[-1] <= begin + length

    def held(one: Series, moment: int) -> "int | None":
        past = [value for at, value in zip(one.moments, one.values) if at <= moment]
        return int(past[-1]) if past else None

    for moment in range(begin, begin + length + 1):
        assert held(part, moment) == held(whole, moment)


def test_untraced() -> None:
    for what in MORE:
        panel = panel_of(View(records_in(text_of("reno_four_segments", "expected.txt"))[0]), what)
        assert not panel.series and "--trace" in panel.words
    # A traced report has everything.
    assert all(panel_of(view_of("traced_flow", joined=False), what).series for what in MORE)


def line(label: str, count: int, form: str = "steps") -> Series:
    return Series(label, form, np.arange(count), np.arange(count))


def test_acknowledgements_are_left_out_first() -> None:
    """Two of ten lines are left out: those of acknowledgements, although the data's lines have fewer
    changes."""
    lines = [line(f"flow {number}{more}", count) for number in range(5)
             for more, count in (("", 3 + number), (" acks", 90))]
    assert [one.label for one in fewest(lines)] == [
        "flow 0", "flow 0 acks", "flow 1", "flow 1 acks", "flow 2", "flow 2 acks", "flow 3", "flow 4"]
    assert [one.label for one in fewest([line(f"flow {number}", number) for number in range(1, 11)])] == [
        f"flow {number}" for number in range(3, 11)]


def test_overlaid() -> None:
    panels = [[Panel("T", "ms", [line("flow 1", 3), line("loss", 2, "marks")], top=5.0)],
              [Panel("T", "ms", [line("flow 1", 4)], top=7.0)]]
    made, notes = overlaid(["a", "b"], panels)
    assert ([one.label for one in made[0].series] == ["a: flow 1", "b: flow 1", "a: loss"]
            and made[0].top == 7 and not notes)
    made, notes = overlaid(list("abcdefghij"), [[Panel("T", "ms", [line("flow 1", 3)])]] * 10)
    assert len(made[0].series) == 8 and "10 lines" in notes[0][1].text
    boxes = [[Panel("T", "ms", [line("flow 1", 7, "box")])]]
    assert len(overlaid([str(number) for number in range(60)], boxes * 60)[0][0].series) == 60
    with pytest.raises(InputError, match="61 boxes"):
        overlaid([str(number) for number in range(61)], boxes * 61)


def test_axes() -> None:
    view, span = view_of("reno_four_segments"), Span(10 * MS, 30 * MS)
    panels = [panel_of(view, what, span, 10 * MS, acks=True)
              for what in ("cdf:sojourn", "box:sojourn", "throughput", "window")]
    shares, boxes, throughput, window = pictures.figure_of_panels(["x"], [panels], span).axes
    assert (shares.get_xlabel(), shares.get_ylabel(),
            shares.get_ylim()) == ("One-way delay (ms)", "Fraction of packets", (0, 1))
    assert [text.get_text() for text in boxes.get_xticklabels()] == ["flow 1", "flow 1 acks"]
    assert boxes.get_ylabel() == "One-way delay (ms)"
    # Delivered in this span: 11.2, 12.4, 13.6 ms. The box is from the first to the third.
    assert sorted({float(y) for y in boxes.get_lines()[0].get_ydata()}) == [11.2, 13.6]
    assert (throughput.get_ylabel() == "Throughput (Mbit/s)"
            and throughput.get_xlim() == window.get_xlim() == (10, 30))
    assert window.get_xlabel() == "Time (ms)"


# A link of 8 Mbit/s with 10 ms in each direction: flow 1 may have 3000 bytes in flight, flow 2 has one
# segment.
NARROW = b"""experiment narrow seed 0 budget 99
@0 pipe 1 config bw 8Mbit/s delay 10
@0 add 100 pipe 1 tcp from any to 10.0.0.2
@0 add 200 allow tcp from 10.0.0.2 to any
@0 flow 1 10.0.0.1 1 10.0.0.2 2 smss 1000 segments 6 window 3000
@0 flow 2 10.0.0.3 1 10.0.0.2 2 smss 1000 segments 1
@90000000 end
"""


def seen(text: bytes, traced: Alone) -> View:
    return text_view(traced(text), text)


def test_the_effective_window(traced: Alone) -> None:
    """cwnd starts with 4 segments and grows by one for each acknowledgement; 3000 bytes may always be in
    flight. Flow 2, whose window is larger than cwnd, has no such line."""
    panel = windows(seen(NARROW, traced))
    lines = {one.label: one for one in panel.series}
    assert lines["cwnd 1"].values.tolist() == [4000 + 1000 * k for k in range(7)]
    assert lines["effective 1"].values.tolist() == [3000] * 7 and lines["effective 1"].under == "cwnd 1"
    # Both thresholds stay at 65535, above the axis of at most 11000 bytes.
    assert set(lines) == {"cwnd 1", "effective 1", "cwnd 2"}
    assert [one.label for one in panel_of(seen(NARROW, traced), "window").series] == ["cwnd 1", "cwnd 2"]


def test_windows_are_in_segments(traced: Alone) -> None:
    """A segment has 1000 bytes. If segments differ in size, the axis is in kB."""
    axes, = pictures.figure_of([seen(NARROW, traced)], ["window"]).axes
    assert axes.get_ylabel() == "Congestion window (segments)"
    assert [line.get_ydata().tolist()
            for line in axes.get_lines() if line.get_label() == "cwnd 1"] == [[4, 5, 6, 7, 8, 9, 10]]
    axes, = pictures.figure_of([seen(NARROW.replace(b"smss 1000 segments 1\n", b"smss 500 segments 1\n"),
                                     traced)], ["window"]).axes
    assert axes.get_ylabel() == "Congestion window (kB)"
    assert [line.get_ydata().tolist()
            for line in axes.get_lines() if line.get_label() == "cwnd 1"] == [[4, 5, 6, 7, 8, 9, 10]]


def many(flows: int) -> bytes:
    lines = "".join(f"@{flow} flow {flow} 10.0.0.1 {flow} 10.0.0.2 80 smss 100 segments 3 ssthresh 200\n"
                    for flow in range(1, flows + 1))
    return ("experiment many seed 0 budget 999\n@0 pipe 1 config bw 8Mbit/s delay 10 queue 200\n@0 add 1 "
            "pipe 1 ip from 10.0.0.1 to 10.0.0.2\n@0 add 2 allow ip from any to "
            f"any\n{lines}@900000000 end\n").encode()


def test_thresholds_of_sixteen_flows(traced: Alone) -> None:
    """Each flow has a line and a threshold that can be distinguished. A note says that the seventeenth flow
    is left out. `--of 'flow 3'` applies too."""
    view = seen(many(17), traced)
    assert len([one for one in windows(view).series if one.label.startswith("cwnd")]) == 16
    assert "window: 17 lines are too many" in view.more_notes[0].text
    view.senders = [(name, packets) for name, packets in view.senders if name == "flow 3"]
    assert [one.label for one in windows(view).series] == ["cwnd 3", "ssthresh 3"]
    axes, = pictures.figure_of([seen(many(16), traced)], ["window"]).axes
    looks = {(line.get_color(), str(line._unscaled_dash_pattern))
             for line in axes.get_lines() if line.get_label()[:4] == "cwnd"}
    assert len(looks) == 16


CHANGING = b"""experiment changing seed 0 budget 9
@0 pipe 1 config bw 8Mbit/s delay 1
@0 add 100 pipe 1 ip from any to any
@0 inject udp 10.0.0.1 1 10.0.0.2 2 1000
@1000000 pipe 1 config bw 4Mbit/s delay 1
@1000000 inject udp 10.0.0.1 1 10.0.0.2 2 1000
@4000000 pipe 1 config bw 0 delay 1
@5000000 inject udp 10.0.0.1 1 10.0.0.2 2 1000
@9000000 end
"""


def test_the_rate_of_the_link(traced: Alone) -> None:
    """8, then 4 Mbit/s, then no limit, which is not a number. It is drawn with the throughput."""
    view = seen(CHANGING, traced)
    rate, = link_rates(view)
    assert (rate.moments[:3].tolist() == [0, MS, 4 * MS] and rate.values[:2].tolist() == [8, 4]
            and np.isnan(rate.values[2:]).all())
    assert [one.label
            for one in panel_of(view, "throughput").series] == ["delivered (injected)", "rate of pipe 1"]


def test_senders_are_chosen(tmp_path: Path) -> None:
    scenario = EXAMPLES / "reno_four_segments" / "scenario.txt"
    report = rows_file(scenario, tmp_path)
    words = ["--what", "sojourn,cdf:sojourn", "--out", tmp_path / "x.svg"]
    assert tool("plot", report, scenario, "--of", "flow 1", *words)[0] == 0
    drawn = (tmp_path / "x.svg").read_text()
    assert ">flow 1<" in drawn and "acks" not in drawn
    status, _, err = tool("plot", report, scenario, "--of", "train *", *words)
    assert status == 0 and "--of 'train *': no sender matches; the senders are flow 1, flow 1 acks" in err


def report_of(count: int) -> bytes:
    return b"".join(b"experiment e%d\n0 ok 0\ncounters 0 0 0 0 0 0 0 0 0 0 0\n" % number
                    for number in range(count))


def test_too_many_side_by_side(tmp_path: Path) -> None:
    """21 or more are refused, with what to do. They are refused before a file or standard input is read."""
    for count in 21, 250:
        (tmp_path / "report").write_bytes(report_of(count))
        for report, text in ((tmp_path / "report", b""), ("-", report_of(count))):
            status, out, err = tool("plot", report, "--out", tmp_path / "x.svg", text=text)
            assert status == 2 and not out and "Traceback" not in err and len(err.splitlines()) == 1
            assert "side by side (20 at most)" in err and "--only" in err and "--overlay" in err
    (tmp_path / "report").write_bytes(report_of(20))
    assert tool("plot", tmp_path / "report", "--what", "drops", "--out", tmp_path / "x.svg")[0] == 0
    (tmp_path / "report").write_bytes(report_of(250))
    words = ["--what", "drops", "--out", tmp_path / "x.svg"]
    status, out, _ = tool("plot", tmp_path / "report", "--only", "e3,e5", "--only", "e9", *words)
    assert status == 0 and "experiments: 3" in out
    assert tool("plot", tmp_path / "report", "--only", "e3,none", *words)[0] == 2
    assert tool("plot", tmp_path / "report", "--overlay", *words)[0] == 0


@pytest.mark.parametrize("words", [
    ["--from", "2s", "--to", "1s"], ["--from", "5"], ["--to", "0"], ["--bin", "1ms"], ["--what", "cdf"],
    ["--what", "box:window"], ["--what", "windows"], ["--out", "x"],
    ["--bin", "0s", "--what", "throughput"]], ids=" ".join)
def test_wrong_words(words: list[str], tmp_path: Path) -> None:
    (tmp_path / "report").write_bytes(report_of(1))
    status, out, err = tool("plot", tmp_path / "report", *words)
    assert status == 2 and not out and "usage" in err
