"""Rows of a summary, windows, losses and groups, compared with values calculated by hand."""
import pytest
from conftest import records_in, text_of, view_of, views_of

from dnlab.analysis.intervals import losses, windows_of
from dnlab.analysis.names import varied
from dnlab.analysis.summary import grouped
from dnlab.analysis.tables import Tables
from dnlab.analysis.view import View
from dnlab.errors import InputError
from dnlab.io import scenario


def rows_of(view: View, percentiles=(50, 99)):
    return {row["sender"]: row for row in Tables(view, percentiles).rows()}


def test_untraced_and_without_the_scenario() -> None:
    bare = Tables(View(records_in(text_of("codel_one_drop", "expected.txt"))[0])).rows()[0]
    assert (bare["sender"], bare["packets"], bare["codel"], bare["bytes"], bare["p50"], bare["seed"]) == (
        "plain", 30, 1, None, None, None)


def test_a_flow() -> None:
    """reno_four_segments, calculated line by line: four segments of 1460 bytes, the last at 32.4 ms."""
    rows = rows_of(view_of("reno_four_segments"))
    flow = rows["flow 1"]
    assert (flow["useful"], flow["goodput"]) == (5840, 5840 * 8 * 10**9 // 32400000)
    assert (flow["bytes"], flow["fct"], flow["retransmissions"]) == (6000, 32400000, 0)
    # The acknowledgements go back: neither a pipe's row nor the whole adds both directions.
    assert list(rows) == ["flow 1", "flow 1 acks", "pipe 1.0", "pipe 2.0", "there", "back", "all"]
    assert (rows["there"]["bytes"], rows["back"]["bytes"], rows["all"]["bytes"]) == (6000, 160, None)
    assert (rows["all"]["packets"], rows["there"]["packets"], rows["back"]["packets"]) == (8, 4, 4)
    assert rows["all"]["jain"] == 1.0


BOTH = b"""experiment both seed 7 budget 20 steps 100
@0 pipe 1 config bw 8Mbit/s
@0 add 100 pipe 1 ip from any to any
@0 flow 1 10.0.0.1 1 10.0.0.2 2 smss 960 segments 2
@1000000000 end
"""
# By hand: a segment of 1000 bytes takes 1 ms, an acknowledgement of 40 bytes 40 us, one after the other; each
# leaves 1 ns after its service. The first acknowledgement waits for the second segment.
BOTH_REPORT = b"""experiment both
0 ok 0
0 ok 1
0 ok 2
1000000 finish 0 1.0
1000001 deliver 0 data 1 0
2000000 finish 1 1.0
2000001 deliver 1 data 1 960
2040000 finish 2 1.0
2040001 deliver 2 ack 1 960
2040001 ack 1 4800 65535
2080000 finish 3 1.0
2080001 deliver 3 ack 1 1920
2080001 ack 1 5760 65535
1000000000 ok 3
counters 4 4 0 0 0 0 0 0 0 0 0
"""


def test_one_pipe_for_both_directions(alone) -> None:
    assert alone(BOTH) == BOTH_REPORT
    view, = views_of(BOTH)
    rows = rows_of(view)
    assert (rows["pipe 1.0"]["packets"], rows["pipe 1.0"]["bytes"]) == (2, 2000)
    assert (rows["pipe 1.0 back"]["packets"], rows["pipe 1.0 back"]["bytes"]) == (2, 80)
    assert rows["pipe 1.0"]["rate"] == 2000 * 8 * 10**9 // 2000000
    assert (rows["all"]["seed"], rows["all"]["budget_packets"], rows["all"]["budget_steps"]) == (7, 20, 100)
    assert rows["all"]["params"] == "pipe 1 bw 8Mbit/s"
    assert rows["flow 1"]["fct"] == 2000001


IDLE = b"""experiment idle seed 0 budget 9
@0 pipe 1 config bw 8Mbit/s delay 10
@0 add 100 pipe 1 tcp from 10.0.0.1 to 10.0.0.2
@0 add 200 allow tcp from 10.0.0.2 to 10.0.0.1
@0 flow 1 10.0.0.1 1000 10.0.0.2 80 smss 960 segments 1
@0 flow 2 10.0.0.3 1000 10.0.0.2 80 smss 960 segments 1
@900000000 end
"""
# No rule lets the segment of flow 2 pass, and the experiment ends before the timer's second is over.
IDLE_REPORT = b"""experiment idle
0 ok 0
0 ok 1
0 ok 2
0 ok 3
0 ok 4
0 drop 1 data 2 0 denied
1000000 finish 0 1.0
11000000 deliver 0 data 1 0
11000001 deliver 2 ack 1 960
11000001 ack 1 4800 65535
900000000 ok 5
counters 3 2 0 1 0 0 0 0 0 0 0
"""


def test_a_flow_that_gets_nothing_counts_in_jain(alone) -> None:
    """One of two flows has everything: (x + 0)^2 / (2 * (x^2 + 0^2)) is a half."""
    assert alone(IDLE) == IDLE_REPORT
    rows = rows_of(views_of(IDLE)[0])
    assert (rows["flow 1"]["goodput"], rows["flow 2"]["goodput"]) == (960 * 8 * 10**9 // 11000000, None)
    assert (rows["flow 1"]["fct"], rows["flow 2"]["fct"]) == (11000000, None)
    assert rows["there"]["jain"] == rows["all"]["jain"] == 0.5


CHANGING = b"""experiment changing seed 0 budget 9
@0 pipe 1 config bw 8Mbit/s delay 1
@0 add 100 pipe 1 ip from any to any
@0 inject udp 10.0.0.1 1 10.0.0.2 2 1000
@1000000 pipe 1 config bw 4Mbit/s delay 1
@MOMENT inject udp 10.0.0.1 1 10.0.0.2 2 1000
@9000000 end
"""


@pytest.mark.parametrize("moment, wanted", [(b"1000000", 1.0), (b"2000000", 0.8)])
def test_utilisation_by_what_the_link_could_carry(moment: bytes, wanted: float) -> None:
    """1000 bytes take 1 ms, then 2 ms: the link is always busy, or 16000 of 20000 bits until 4 ms."""
    view, = views_of(CHANGING.replace(b"MOMENT", moment))
    assert rows_of(view)["pipe 1.0"]["utilisation"] == wanted


def test_windows() -> None:
    view, = views_of(BOTH)
    rows = [row for row in windows_of(view, 2000001) if row["sender"] == "flow 1"]
    # The end of a window is not in it: the second segment arrives in the second window.
    assert [(row["begin"], row["end"], row["packets"], row["bytes"], row["useful"]) for row in rows[:3]] == [
        (0, 2000001, 1, 1000, 960), (2000001, 4000002, 1, 1000, 960), (4000002, 6000003, 0, 0, 0)]
    assert (rows[0]["rate"], rows[0]["goodput"]) == (1000 * 8 * 10**9 // 2000001, 960 * 8 * 10**9 // 2000001)
    assert rows[-1]["end"] == 10**9 and len(rows) == 500
    with pytest.raises(InputError, match="choose a longer interval"):
        windows_of(view, 1)


def test_losses() -> None:
    assert losses(view_of("codel_one_drop")) == [
        {"experiment": "codel-one-drop", "sender": "train 1", "cause": "codel", "queue": "1.0", "packets": 1}]
    timeouts = losses(view_of("reno_timeouts"))
    assert [(row["sender"], row["cause"], row["queue"], row["packets"])
            for row in timeouts] == [("flow 1", "lost", "1.0", 5)]


def test_groups() -> None:
    rows = [{"sender": "train 1", "varied": setting, "p95": value} for setting, value in
            (("a", 1), ("b", 10), ("a", 3), ("b", None))]
    found = grouped(rows, ["varied"], ["p95"])
    assert [(row["varied"], row["sender"], row["rows"], row["p95 n"], row["p95 mean"]) for row in found] == [
        ("a", "train 1", 2, 2, 2.0), ("b", "train 1", 2, 1, 10.0)]
    assert found[1]["p95 ci95"] is None


EVERY = "experiment {} seed 1 budget 9\n@0 pipe 1 config {}\n@9 end\n"


@pytest.mark.parametrize("configs, wanted", [
    # A queue of 50 slots is the default, and 1000Kbit/s is 1Mbit/s: only values that differ are listed.
    (["bw 1Mbit/s", "bw 1000Kbit/s queue 50", "bw 1Mbit/s queue 9"], ["queue 50", "queue 50", "queue 9"]),
    (["queue 5", "queue 5 codel target 5 interval 9", "mask proto 0xff queue 7"],
     ["queue 5 droptail", "queue 5 codel target 5 interval 9", "queue 7 droptail mask proto 0xff"]),
    (["bw 1Mbit/s\n@5 pipe 1 config bw 2Mbit/s", "bw 1Mbit/s"],
     ["bw 1Mbit/s then bw 2Mbit/s", "bw 1Mbit/s"])])
def test_what_varies(configs: list[str], wanted: list[str]) -> None:
    text = "".join(EVERY.format(f"e{number}", words) for number, words in enumerate(configs))
    assert varied(scenario.read(text.encode())) == {
        f"e{number}": f"pipe 1 {words}" for number, words in enumerate(wanted)}


def test_a_pipe_that_some_experiments_lack() -> None:
    """Options that were given are listed, defaults are not."""
    text = EVERY.format("a", "\n@0 pipe 2 config delay 9") + EVERY.format("b", "")
    assert varied(scenario.read(text.encode())) == {"a": "pipe 2 delay 9", "b": ""}


@pytest.mark.parametrize("name", ["masked_instances", "deleted_everywhere", "one_packet_held"])
def test_rows_add_up(name: str) -> None:
    """The packets of the senders, and their fates, add up to the counters."""
    for view in views_of(text_of(name, "scenario.txt")):
        rows = Tables(view).rows()
        whole, senders = rows[-1], rows[:len(view.senders)]
        for column in ("packets", "delivered", "in_flight"):
            assert whole[column] == sum(row[column] for row in senders)
        assert (whole["packets"], whole["delivered"], whole["in_flight"]) == (
            view.counters.made, view.counters.delivered, view.counters.held)
        assert {cause: whole[cause] for cause in view.counters.drops} == view.counters.drops
