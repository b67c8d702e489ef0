"""The answers of the playground's lessons are correct: each of their numbers is measured in a run of the
lesson's scenario."""
import re
from fractions import Fraction
from typing import Callable

import pytest
from conftest import ROOT

LESSONS = {path.stem.partition("-")[2]: path.read_text()
           for path in sorted((ROOT / "playground/lessons").glob("*.txt"))}
Alone = Callable[[bytes], bytes]


def text_of(name: str, **moved: int) -> str:
    """Returns the scenario of a lesson, with its sliders at their first values, or moved."""
    text = LESSONS[name].split("\n---\n")[3]
    values = {**dict(re.findall(r"^#\? (\w+) .*= (\d+)$", text, re.MULTILINE)),
              **{slider: str(value) for slider, value in moved.items()}}
    assert {*moved} <= {*values}
    return re.sub(r"\{\{ (\w+) \}\}", lambda found: values[found[1]], text)


def report(alone: Alone, name: str, **moved: int) -> list[list[list[str]]]:
    """Returns the lines of each experiment of a lesson, split into words."""
    parts = alone(text_of(name, **moved).encode()).decode().split("experiment ")[1:]
    return [[line.split() for line in part.splitlines()] for part in parts]


def delays(lines: list[list[str]], gap: int, first: int = 0, load: str = "plain") -> list[Fraction]:
    """Returns the delays (ms) of the delivered packets of a train, which leave in the order in which they
    were sent."""
    came = [int(words[0]) for words in lines if words[1:2] == ["deliver"] and words[3] == load]
    return [Fraction(at - first - k * gap, 10**6) for k, at in enumerate(came)]


def test_a_packet(alone: Alone) -> None:
    """1000 * 8 bits at 1 Mbit/s take 8 ms, and the delay is 10 ms."""
    assert delays(report(alone, "packet")[0], 0) == [18]
    assert delays(report(alone, "packet", rate=10000)[0], 0) == [Fraction("10.8")]


def test_a_queue(alone: Alone) -> None:
    lines, = report(alone, "queue")
    assert ["10000000", "drop", "5", "plain", "full"] in lines and delays(lines, 2_000_000)[-1] == 42
    assert ["50000000", "deliver", "4", "plain"] in lines
    for gap, waits in ((7, True), (8, False)):
        found = delays(report(alone, "queue", gap=gap)[0], gap * 10**6)
        assert (max(found) > 18) == waits and found[0] == 18
    assert len(delays(report(alone, "queue", queue=4)[0], 2_000_000)) == 6


def test_bufferbloat(alone: Alone) -> None:
    lines, = report(alone, "bufferbloat")
    found = delays(lines, 170_000_000, 50_000_000)
    assert ((len(found), min(found), max(found)) == (7, 124, 260)
            and not [words for words in lines if words[1:2] == ["drop"]])
    short, = report(alone, "bufferbloat", queue=3)
    assert (max(delays(short, 170_000_000, 50_000_000)) == 124
            and [words[3] for words in short if words[1:2] == ["drop"]] == ["data"] * 2)
    four, = report(alone, "bufferbloat", queue=4)
    assert [words[3] for words in four if words[1:2] == ["drop"]].count("plain") == 3
    # Without the upload: 100 bytes at 200 kbit/s take 4 ms.
    alone_there = re.sub(r"(?m)^@0 flow .*\n", "", text_of("bufferbloat"))
    assert {*delays([line.split() for line in alone(alone_there.encode()).decode().splitlines()], 170_000_000,
                    50_000_000)} == {14}


@pytest.mark.parametrize("queue, most, half", [(10, 17, 8160), (4, 11, 5280)])
def test_the_sawtooth(queue: int, most: int, half: int, alone: Alone) -> None:
    lines, = report(alone, "sawtooth", queue=queue)
    drops = [int(words[0]) for words in lines if words[1:2] == ["drop"]]
    windows = [(int(words[0]), int(words[3]), int(words[4])) for words in lines if words[1:2] == ["ack"]]
    assert len(drops) > 5 and not [words for words in lines if words[1:2] == ["expire"]]
    if queue == 10:
        assert {after - before for before, after in zip(drops, drops[1:])} == {1_136_000_000}
    # The window at each loss, in whole segments, and half of it afterwards.
    assert {[window for at, window, _ in windows if at <= drop][-1] // 960 for drop in drops} == {most}
    assert windows[-1][2] == half and most * 960 // 2 == half
    delivered = [int(words[0]) for words in lines if words[1:2] == ["deliver"] and words[3] == "data"
                 and int(words[0]) > drops[0]]
    # A packet takes 8 ms on the link, so the link was idle if more time is between two packets.
    assert (max(after - before
                for before, after in zip(delivered, delivered[1:])) > 8_000_000) == (queue == 4)


def test_codel(alone: Alone) -> None:
    deep, codel = report(alone, "codel")
    (a, b), (lost, none) = (sorted(delays(lines, 170_000_000, 50_000_000)) for lines in (deep, codel)), (
        [words for words in lines if words[1:2] == ["drop"]] for lines in (codel, deep))
    assert (round(a[3]), round(a[-1]), round(b[3]), round(b[-1])) == (198, 260, 78, 112)
    assert [words[-1] for words in lost] == ["codel", "codel"] and not none
    later = alone(text_of("codel").replace("target 10",
                                           "target 120").encode()).decode().split("experiment codel\n")[1]
    longer = sorted(delays([line.split() for line in later.splitlines()], 170_000_000, 50_000_000))
    assert (round(longer[3]), round(longer[-1])) == (134, 198)
    ends = [max(int(words[0]) for words in lines if words[1:2] == ["deliver"] and words[3] == "data")
            for lines in (deep, codel)]
    assert round((ends[1] - ends[0]) / 10**6) == 16


def test_the_answers_of_the_worksheet(alone: Alone) -> None:
    """Checks the answers in docs/howto/teaching.md."""
    page = (ROOT / "docs/howto/teaching.md").read_text()
    packet = delays(report(alone, "packet", rate=500, delay=30, size=1500)[0], 0)
    assert packet == [54] and "= 54 ms" in page and Fraction(1500 * 8, 400) == 30
    calls = [delays(report(alone, "bufferbloat", queue=queue)[0], 170_000_000, 50_000_000)
             for queue in (100, 3)]
    assert [(max(found), len(found)) for found in calls] == [(260, 7), (124, 7)]
    five, = report(alone, "bufferbloat", queue=5)
    # The packets of the train are those without a flow, in the order of their serial numbers; three of them
    # are dropped.
    assert [words[3] for words in five if words[1:2] == ["drop"]].count("plain") == 3
    for queue, most in ((6, 13), (20, 27), (5, 12)):
        lines, = report(alone, "sawtooth", queue=queue)
        drops = [int(words[0]) for words in lines if words[1:2] == ["drop"]]
        assert {[int(words[3]) for words in lines if words[1:2] == ["ack"]
                 and int(words[0]) <= drop][-1] // 960 for drop in drops} == {most}
    for queue, idle in ((5, False), (4, True)):
        lines, = report(alone, "sawtooth", queue=queue)
        first = next(int(words[0]) for words in lines if words[1:2] == ["drop"])
        came = [int(words[0]) for words in lines if words[1:2] == ["deliver"] and words[3] == "data"
                and int(words[0]) > first]
        assert (max(after - before for before, after in zip(came, came[1:])) > 8_000_000) == idle
