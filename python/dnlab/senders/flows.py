"""A transfer over a link: a sender with a window and a timer, and a receiver that acknowledges what it has in
order.

It behaves like the link's own flows (docs/explanation/reno.md): no handshake, each segment acknowledged at
once, segments of SMSS bytes and 40 of headers. With `Reno` it equals such a flow; a window can select
NewReno's recovery (RFC 6582).
"""
from typing import TYPE_CHECKING, Any, Callable, NamedTuple, Optional

from dnlab.senders.windows import Timeout, Window
from dnlab.session.transport import Address

if TYPE_CHECKING:
    from dnlab.senders.network import Network

HEADER = 40
# RFC 5681, section 3.2: this many duplicates mean a loss.
DUPLICATES = 3


class Segment(NamedTuple):
    """The content of a data packet: the flow's bytes from `first` to before `after`."""
    flow: "Flow"
    first: int
    after: int


class Ack(NamedTuple):
    """The content of an acknowledgement: the first missing byte."""
    flow: "Flow"
    upto: int


class Flow:
    """A transfer; times are ns, None until they happen.

    begun         when it started, `arrived` when its last missing byte arrived, `done` when the sender knew
    sent          segments sent, `retransmissions` those of them that were sent before, `timeouts`
    history       with `record`: (moment, cwnd, ssthresh) at the start and at each change, bytes"""

    def __init__(self, network: "Network", number: int, source: Address, target: Address, size: int,
                 window: Window, smss: int, limit: Optional[int] = None, timeout: Optional[Timeout] = None,
                 record: bool = False) -> None:
        if size < 1:
            raise ValueError(f"a flow has 1 byte or more, not {size}")
        self.network, self.number, self.source, self.target = network, number, source, target
        self.size, self.window, self.smss, self.limit = size, window, smss, limit
        self.timeout = timeout or Timeout()
        self.begun = network.now
        self.arrived: Optional[int] = None
        self.done: Optional[int] = None
        self.sent = self.retransmissions = self.timeouts = 0
        self.history: Optional[list[tuple[int, int, int]]] = [] if record else None
        self.una = self._next = self._max = self._duplicates = 0
        # Bytes that fast recovery adds to the window (or subtracts); its end, None outside of it.
        self._inflated, self._recover = 0, None  # type: int, Optional[int]
        self._backed_off = False
        # When the timer expires, and the time of the call that was scheduled: with a later timer, that call
        # does nothing.
        self._due: Optional[int] = None
        self._called_at: Optional[int] = None
        # The sample that is running: the end of a segment, and when that was sent.
        self._timed: Optional[tuple[int, int]] = None
        self._expected, self._early = 0, {}  # type: int, dict[int, int]
        self._then: list[Callable[[], Any]] = []
        self._on_arrival: list[Callable[[], Any]] = []

    @property
    def received_bytes(self) -> int:
        """Returns how many bytes have arrived, each once, in order or not."""
        return self._expected + sum(after - first for first, after in self._early.items())

    def begin(self) -> None:
        """Sends the first segments."""
        self._note()
        self._fill()

    def then(self, call: Callable[[], Any]) -> "Flow":
        """Calls when the sender knows that everything has arrived, or at once if it already does."""
        if self.done is None:
            self._then.append(call)
        else:
            call()
        return self

    def on_arrival(self, call: Callable[[], Any]) -> "Flow":
        """Calls when the last missing byte has reached the receiver."""
        if self.arrived is None:
            self._on_arrival.append(call)
        else:
            call()
        return self

    # Sender.

    def _note(self) -> None:
        if self.history is not None:
            found = (self.network.now, self.window.cwnd + self._inflated, self.window.ssthresh)
            if not self.history or self.history[-1][1:] != found[1:]:
                self.history.append(found)

    def _fill(self) -> None:
        """Sends what the window allows."""
        allowed = self.window.cwnd + self._inflated
        if self.limit is not None:
            allowed = min(allowed, self.limit)
        while self._next < self.size:
            after = min(self._next + self.smss, self.size)
            if after - self.una > allowed:
                break
            self._send(self._next, after)
            self._next = after

    def _send(self, first: int, after: int) -> None:
        self.sent += 1
        if first < self._max:
            self.retransmissions += 1
        elif self._timed is None:
            self._timed = (after, self.network.now)
        self._max = max(self._max, after)
        self.network.carry(self.source, self.target, after - first + HEADER, Segment(self, first, after))
        if self._due is None:
            self._set_timer()

    def _resend(self) -> None:
        """Sends the first unacknowledged segment again. Segments that were sent twice give no RTT sample (RFC
        6298, section 3)."""
        self._timed = None
        after = min(self.una + self.smss, self.size)
        self._send(self.una, after)
        self._next = max(self._next, after)

    def _set_timer(self) -> None:
        self._due = self.network.now + self.timeout.value
        self._ask_for_call(self._due)

    def _ask_for_call(self, moment: int) -> None:
        if self._called_at is None or moment < self._called_at:
            self._called_at = moment
            self.network.wake(moment, self)

    def acknowledged(self, upto: int) -> None:
        """Handles an acknowledgement."""
        if self.done is not None:
            return
        if upto > self.una:
            self._new(upto)
        elif upto == self.una < self._max:
            self._duplicate()
        self._note()

    def _new(self, upto: int) -> None:
        """Handles an acknowledgement of new data."""
        count, now = upto - self.una, self.network.now
        if self._timed is not None and upto >= self._timed[0]:
            self.timeout.measured(now - self._timed[1])
            self._timed = None
        is_partial = self._recover is not None and self.window.is_newreno and upto < self._recover
        if self._recover is None:
            self.window.acknowledged(count, now, self.timeout.smoothed)
        elif is_partial:
            # RFC 6582, section 3.2, step 3: deflate by the amount acknowledged, and add one segment; at least
            # one remains.
            deflated = self._inflated - count + (self.smss if count >= self.smss else 0)
            self._inflated = max(deflated, self.smss - self.window.cwnd)
        else:
            self._recover, self._inflated = None, 0
        self.una, self._next = upto, max(self._next, upto)
        self._duplicates, self._backed_off = 0, False
        self._due = None
        if upto >= self.size:
            self._finish()
            return
        if self.una < self._max:
            self._set_timer()
        if is_partial:
            self._resend()
        self._fill()

    def _duplicate(self) -> None:
        self._duplicates += 1
        if self._recover is not None:
            self._inflated += self.smss
        elif self._duplicates == DUPLICATES:
            self.window.lost(self._max - self.una, self.network.now)
            self._inflated, self._recover = DUPLICATES * self.smss, self._max
            self._resend()
        self._fill()

    def _finish(self) -> None:
        self.done = self.network.now
        self.network.finished(self)
        for call in self._then:
            call()
        self._then.clear()

    def woken(self) -> None:
        """Handles a call of the network: the timer expires, or was set to a later time since."""
        if self._called_at is not None and self._called_at <= self.network.now:
            self._called_at = None
        if self._due is None or self.done is not None:
            return
        if self._due > self.network.now:
            self._ask_for_call(self._due)
            return
        self.timeouts += 1
        self.window.timed_out(self._max - self.una, self.network.now, self._backed_off)
        self.timeout.passed()
        self._next, self._duplicates, self._backed_off = self.una, 0, True
        self._inflated, self._recover, self._timed = 0, None, None
        self._set_timer()
        self._note()
        self._fill()

    # Receiver.

    def received(self, segment: Segment) -> None:
        """Handles a segment: acknowledges it at once with the first missing byte."""
        if segment.first == self._expected:
            self._expected = segment.after
            while self._expected in self._early:
                self._expected = self._early.pop(self._expected)
        elif segment.first > self._expected:
            self._early[segment.first] = segment.after
        self.network.carry(self.target, self.source, HEADER, Ack(self, self._expected))
        if self._expected == self.size and self.arrived is None:
            self.arrived = self.network.now
            for call in self._on_arrival:
                call()
            self._on_arrival.clear()
