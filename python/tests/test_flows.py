"""A flow of `dnlab.senders` by itself: the segments that it sends for acknowledgements, by hand from the
RFCs."""
from typing import Any, Optional

import pytest

from dnlab.senders import Cubic, NewReno, Reno
from dnlab.senders.flows import Ack, Flow, Segment

MS, S = 10**6, 10**9


class Fake:
    """A network without a link, which records the segments that are sent."""

    def __init__(self) -> None:
        self.now, self.out, self.called = 0, [], []  # type: int, list[Any], list[tuple[int, Flow]]

    def carry(self, source: Any, target: Any, size: int, payload: Any) -> None:
        self.out.append(payload)

    def wake(self, moment: int, flow: Flow) -> None:
        self.called.append((moment, flow))

    def finished(self, flow: Flow) -> None:
        pass

    def sent(self) -> list[int]:
        """Returns the segments sent since the last call, by number."""
        found = [one.first // 1000 for one in self.out if isinstance(one, Segment)]
        self.out.clear()
        return found


def begun(window: Any, segments: int = 40, limit: Optional[int] = None) -> tuple[Fake, Flow]:
    fake = Fake()
    flow = Flow(fake, 1, ("10.0.0.1", 1), ("10.0.1.1", 2), segments * 1000, window(1000), 1000, limit)
    flow.begin()
    return fake, flow


def ack(fake: Fake, flow: Flow, upto: int, times: int = 1) -> list[int]:
    """Acknowledges the first segments. Returns the segments that are sent then."""
    for _ in range(times):
        fake.now += MS
        flow.acknowledged(upto * 1000)
    return fake.sent()


def test_slow_start_and_fast_retransmit() -> None:
    """RFC 5681: 4 segments at first, two for each acknowledgement. The third duplicate sends the missing
    segment again, and the window is half of the 8 in flight plus 3; each further duplicate adds one."""
    fake, flow = begun(Reno)
    assert fake.sent() == [0, 1, 2, 3] and ack(fake, flow, 1) == [4, 5] and ack(fake, flow, 2) == [6, 7]
    assert ack(fake, flow, 3) == [8, 9] and ack(fake, flow, 4) == [10, 11]
    assert (ack(fake, flow, 4, 2) == [] and ack(fake, flow, 4) == [4]
            and (flow.window.cwnd, flow.window.ssthresh) == (4000, 4000))
    # 8 segments are in flight and the window is 4 + 3: the next duplicates make it 8 and 9, and a ninth
    # segment is sent.
    assert ack(fake, flow, 4) == [] and ack(fake, flow, 4) == [12]
    before = flow.timeout.smoothed
    # The missing segment has arrived: recovery ends with a window of 4, and 3 segments after 10 are in
    # flight.
    assert ack(fake, flow, 10) == [13] and flow.retransmissions == 1
    # RFC 6298, section 3: a segment that was sent again is no sample.
    assert flow.timeout.smoothed == before


def test_reno_waits_where_newreno_sends() -> None:
    """After two losses in a window, a partial acknowledgement ends Reno's recovery. With RFC 6582 it sends
    the next hole at once."""
    fake, flow = begun(Reno)
    fake.sent()
    for upto in (1, 2, 3, 4):
        ack(fake, flow, upto)
    assert ack(fake, flow, 4, 3) == [4] and ack(fake, flow, 6) == []
    assert NewReno(1000).is_newreno
    fake, flow = begun(Cubic)
    assert fake.sent() == list(range(10)) and ack(fake, flow, 0, 3) == [0] and flow.window.cwnd == 7000
    # 10 in flight, 7 + 3 allowed. The first 4 arrive: 4 less and 1 more, so 7 are allowed; 6 in flight, and
    # the hole is sent again.
    assert ack(fake, flow, 4) == [4, 10] and flow.retransmissions == 2
    # Everything sent before the loss has arrived: recovery ends with a window of 7, and one segment is in
    # flight.
    assert ack(fake, flow, 10) == [11, 12, 13, 14, 15, 16]


def test_the_timer() -> None:
    """RFC 6298: the timeout is a second at first, and remains so after a round trip of 1 ms; it doubles when
    it expires, and a segment that was sent twice is not a sample. RFC 5681: then the window is one segment,
    and the threshold half of the flight."""
    fake, flow = begun(Reno)
    assert fake.called == [(S, flow)]
    ack(fake, flow, 1)
    assert (flow.timeout.smoothed, flow.timeout.varied, flow.timeout.value) == (MS, MS // 2, S)
    fake.sent()
    fake.now = S + MS
    flow.woken()
    assert (fake.sent() == [1]
            and (flow.window.cwnd, flow.window.ssthresh, flow.timeouts,
                 flow.timeout.value) == (1000, 2500, 1, 2 * S))
    assert ack(fake, flow, 2) == [2, 3] and flow.timeout.value == 2 * S
    fake.now = 4 * S
    flow.woken()
    first = flow.window.ssthresh
    fake.now = 9 * S
    flow.woken()
    assert flow.timeouts == 3 and flow.window.ssthresh == first and flow.timeout.value == 8 * S


def test_a_shorter_timer_isn_t_missed() -> None:
    """After a timeout the timer is 2 s. A sample sets it back to 1 s, which is before the call that was
    requested."""
    fake, flow = begun(Reno)
    fake.now = S
    flow.woken()
    ack(fake, flow, 1)
    ack(fake, flow, 3)
    assert flow.timeout.value == 2 * S and fake.called[-1][0] == 3 * S
    # Segment 4, the first one that was not sent before, is acknowledged 1 ms after it was sent.
    ack(fake, flow, 5)
    assert flow.timeout.value == S and fake.called[-1][0] == fake.now + S < 3 * S


def test_the_receiver_keeps_what_came_early() -> None:
    fake, flow = begun(Reno, 4)
    fake.out.clear()
    for number in (1, 3, 0, 2):
        flow.received(Segment(flow, number * 1000, (number + 1) * 1000))
    assert fake.out == [Ack(flow, 0), Ack(flow, 0), Ack(flow, 2000), Ack(flow, 4000)] and flow.arrived == 0


def test_the_limit_and_the_last_bytes() -> None:
    """The receiver's window of 2500 bytes allows two segments of 1000. The last segment has the remaining
    bytes."""
    fake, flow = begun(Reno, limit=2500)
    assert fake.sent() == [0, 1]
    fake = Fake()
    flow = Flow(fake, 1, ("10.0.0.1", 1), ("10.0.1.1", 2), 2100, Reno(1000), 1000)
    flow.begin()
    assert [one.after - one.first for one in fake.out] == [1000, 1000, 100]
    with pytest.raises(ValueError, match="1 byte or more"):
        Flow(fake, 1, ("10.0.0.1", 1), ("10.0.1.1", 2), 0, Reno(1000), 1000)


def test_what_has_arrived() -> None:
    """Each byte counts once, even if it waits behind a gap."""
    fake, flow = begun(Reno)
    for first in (0, 2000, 2000, 3000):
        flow.received(Segment(flow, first, first + 1000))
    assert flow.received_bytes == 3000
    flow.received(Segment(flow, 1000, 2000))
    assert flow.received_bytes == 4000
