"""Each metric of a summary, compared with values calculated by hand, for reports that the program writes."""
import re
from fractions import Fraction
from typing import Callable

import pytest
from conftest import text_of, views_of
from hand_calculated import FLOWS, TRAIN, Run, rows_of

from dnlab.analysis.metrics import WORDS, metric_of
from dnlab.analysis.tables import Tables

# Two of the train's four packets arrived, after 11 and 12 ms. 16000 bits in 12 ms are 1333333 bit/s. The only
# difference, 1 ms, counts a sixteenth in the jitter (RFC 3550). The pipe served 32000 bits by 6 ms, and could
# have served 48000. `ended` is 0 for `end`. Flow 1 delivers 1920 bytes without headers in 12 ms; flow 2
# retransmits after 1 s. With rates of 1280000 and 7679 bit/s Jain's index is 1287679^2 / (2 * (1280000^2 +
# 7679^2)).
VALUES = [
    (TRAIN, "train 1", {
        "packets": 4, "delivered": 2, "in_flight": 1, "drops": 1, "drops.full": 1, "drops.lost": 0,
        "loss": Fraction(1, 4), "bytes": 2000, "useful": 2000, "first": 0, "last": 12000000, "time": 12000000,
        "delay.min": 11000000, "delay.p50": 11000000, "delay.mean": 11500000, "delay.p95": 12000000,
        "delay.max": 12000000, "rate": 1333333, "goodput": 1333333, "jitter": 62500, "refused": 0,
        "ended": 0}),
    (TRAIN, "pipe 1.0", {"utilisation": Fraction(32000, 48000)}),
    (FLOWS, "flow 1", {"bytes": 2000, "useful": 1920, "goodput": 1280000, "retransmissions": 0,
                       "fct": 12000000, "refused": 1}),
    (FLOWS, "flow 2", {"packets": 2, "drops.denied": 1, "loss": Fraction(1, 2), "goodput": 7679,
                       "retransmissions": 1, "fct": 1000000001}),
    (FLOWS, "there", {"jain": Fraction(1287679**2, 2 * (1280000**2 + 7679**2))}),
]


@pytest.mark.parametrize("run", [TRAIN, FLOWS], ids=["train", "flows"])
def test_the_program_writes_it(run: Run, traced: Callable[[bytes], bytes]) -> None:
    assert traced(run.scenario) == run.report


@pytest.mark.parametrize("run, sender, wanted", VALUES, ids=[sender for _, sender, _ in VALUES])
def test_metrics(run: Run, sender: str, wanted: dict[str, Fraction]) -> None:
    row = rows_of(run)[sender]
    for word, value in wanted.items():
        found = metric_of(word).of(row)
        assert found is not None and abs(found - value) < Fraction(1, 10**9), word


def test_each_metric_has_an_example() -> None:
    """Three of the drops by cause stand for all, because these columns work in the same way."""
    shown = {word for _, _, values in VALUES for word in values}
    wanted = {word.replace("pN", "p95") for word in WORDS if not word.startswith("drops.")}
    assert wanted | {"drops.full", "drops.lost", "drops.denied"} <= shown


def test_bytes_that_come_twice_count_once() -> None:
    """Some segments of these examples arrive twice."""
    twice = 0
    for name in ("drawn_03", "drawn_07", "random_08"):
        parts = re.split(r"(?m)^experiment ", text_of(name, "expected.txt").decode())[1:]
        for view, part in zip(views_of(text_of(name, "scenario.txt")), parts):
            rows = {row["sender"]: row for row in Tables(view).rows()}
            came: dict[str, list[str]] = {}
            for flow, first in re.findall(r"(?m)^\d+ deliver \d+ data (\d+) (\d+)", part):
                came.setdefault(flow, []).append(first)
            for flow, firsts in came.items():
                row, once = rows[f"flow {flow}"], len(set(firsts))
                twice += len(firsts) - once
                # A data packet has its segment's bytes and 40 bytes of headers.
                assert row["useful"] == once * (row["bytes"] // len(firsts) - 40)
    assert twice >= 7
