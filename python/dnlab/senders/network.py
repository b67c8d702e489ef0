"""A network of flows with the senders of this package, and the patterns of applications: requests, bursts and
web users."""
import heapq
import itertools
from typing import TYPE_CHECKING, Any, Callable, Iterable, Optional, Sequence, Union

from dnlab.errors import InputError
from dnlab.rng import Chance
from dnlab.senders.flows import Ack, Flow, Segment
from dnlab.senders.windows import Reno, Timeout, Window
from dnlab.session.sessions import Link
from dnlab.session.transport import LATEST, Address, Event

if TYPE_CHECKING:
    import pandas as pd

# Default receiver window, in bytes.
LIMIT = 1 << 18
CLIENT, SERVER = "10.0.0.1", "10.0.1.1"
# Default ports, which flows use in turn.
_PORTS = range(1024, 65536)
Call = Callable[[], Any]


class Network:
    """Flows over a link. `run` advances time; callbacks may start further flows, without a limit.

    hold  how long (ns) the link continues after the first delivery before its flows are notified: 1 is
          exact, more is faster, and delays each reaction by at most that much"""

    def __init__(self, link: Link, hold: int = 1) -> None:
        self.link, self.hold = link, hold
        self.flows: list[Flow] = []
        self._timers: list[tuple[int, int, Call]] = []
        self._count = itertools.count()
        # Unfinished flows, and scheduled calls.
        self._open = 0

    @property
    def now(self) -> int:
        """Returns the earliest time (ns) at which something can be done."""
        return self.link.now

    def flow(self, size: int, window: Callable[[int], Window] = Reno, source: Optional[Address] = None,
             target: Optional[Address] = None, smss: int = 1460, limit: Optional[int] = LIMIT,
             least_timeout: int = 10**9, record: bool = False) -> Flow:
        """Starts a flow of `size` bytes now, by default from 10.0.0.1 to 10.0.1.1 with a port of its own.

        window         `Reno`, `NewReno`, `Cubic`, or your own class with the members of
                       `dnlab.senders.Window`
        limit          the receiver's window in bytes, by default 262144 (21 Mbit/s at 100 ms; the link's own
                       flows have 65535); None is no limit: Reno then follows RFC 5681 literally and sends
                       more for each duplicate while a lost retransmission waits for its timer, far beyond
                       the capacity of the path
        least_timeout  the minimum retransmission time, ns (RFC 6298 has 1 s)
        record         whether the flow keeps its `history` of windows"""
        number = len(self.flows)
        port = _PORTS[number % len(_PORTS)]
        flow = Flow(self, number + 1, source or (CLIENT, port), target or (SERVER, 80), size, window(smss),
                    smss, limit, Timeout(least_timeout), record)
        self.flows.append(flow)
        self._open += 1
        flow.begin()
        return flow

    def at(self, moment: int, call: Call) -> None:
        """Schedules a call at a time (ns), or now if that is past."""
        def called() -> None:
            self._open -= 1
            call()

        self._open += 1
        self._push(moment, called)

    def _push(self, moment: int, call: Call) -> None:
        heapq.heappush(self._timers, (moment, next(self._count), call))

    def after(self, time: int, call: Call) -> None:
        """Schedules a call after a time (ns)."""
        self.at(self.now + time, call)

    def run(self, until: int = LATEST) -> None:
        """Advances time to `until` (ns), or until all flows and calls are done. Raises `InputError` if the
        experiment's steps are spent."""
        while self.now < until:
            while self._timers and self._timers[0][0] <= self.now:
                heapq.heappop(self._timers)[2]()
            if not self._open:
                return
            wanted = min(until, self._timers[0][0]) if self._timers else until
            for event in self.link.until_mine(max(wanted, self.now), self.hold):
                self._take(event)
            if self.link.is_over:
                raise InputError(
                    f"experiment {self.link.name}: its steps were spent at {self.now} ns, before all flows "
                    "were done: begin it with more steps, or end it before")

    def _take(self, event: Event) -> None:
        """Handles a delivery. Senders do not learn of drops."""
        if event.cause or event.packet is None:
            return
        payload = event.packet.payload
        if isinstance(payload, Segment):
            payload.flow.received(payload)
        elif isinstance(payload, Ack):
            payload.flow.acknowledged(payload.upto)

    # For flows only.

    def carry(self, source: Address, target: Address, size: int, payload: Any) -> None:
        """Sends a packet."""
        self.link.send(source, target, size, payload, "tcp")

    def wake(self, moment: int, flow: Flow) -> None:
        """Schedules a call of the flow at a time (ns)."""
        self._push(moment, flow.woken)

    def finished(self, flow: Flow) -> None:
        """Handles a flow's end: everything that it sends was acknowledged."""
        self._open -= 1

    # Results.

    def rows(self) -> list[dict[str, Any]]:
        """Returns a row for each flow, in the order in which they started.

        Columns: flow (number), window (the class), begin, arrived (ns), fct (flow completion time: from its
        start to the arrival of its last missing byte, ns), bytes, goodput (bit/s over that time), segments
        (sent), retransmissions, timeouts. What has not happened is None."""
        return [dict(zip(_COLUMNS, _values(flow))) for flow in self.flows]

    def table(self) -> "pd.DataFrame":
        """Returns `rows` as a DataFrame; integers stay integers, and <NA> is what has not happened."""
        from dnlab.analysis import results

        return results.of_rows(self.rows(), list(_COLUMNS))


_COLUMNS = ("flow", "window", "begin", "arrived", "fct", "bytes", "goodput", "segments", "retransmissions",
            "timeouts")


def _values(flow: Flow) -> tuple[Any, ...]:
    fct = None if flow.arrived is None else flow.arrived - flow.begun
    return (flow.number, type(flow.window).__name__, flow.begun, flow.arrived, fct, flow.size,
            flow.size * 8 * 10**9 // fct if fct else None, flow.sent, flow.retransmissions, flow.timeouts)


Make = Callable[[int], Window]
# A number of bytes or ns, or a function that draws one.
Drawn = Union[int, Callable[[Chance], int]]


def drawn(value: Drawn, chance: Chance) -> int:
    """Returns a number, or what the function draws; at least 1.

    >>> drawn(5, Chance(1)), drawn(lambda chance: chance.whole(7, 7), Chance(1))
    (5, 7)
    """
    return max(1, int(value if isinstance(value, int) else value(chance)))


class Chain:
    """Flows one after another: each starts `gap` ns after the one before has finished, which is when its
    sender knows.

    flows  those that have started, in order"""

    def __init__(self, network: Network, sizes: Iterable[int], window: Make = Reno, gap: int = 0,
                 **more: Any) -> None:
        self.network, self.window, self.gap, self.more = network, window, gap, more
        self._left = list(sizes)[::-1]
        self.flows: list[Flow] = []
        self._begin()

    def _begin(self) -> None:
        if self._left:
            flow = self.network.flow(self._left.pop(), self.window, **self.more)
            self.flows.append(flow)
            flow.then(lambda: self.network.after(self.gap, self._begin))


class Requests:
    """A client that sends requests to a server repeatedly: the answer starts `work` ns after the request has
    arrived, and the next request `think` ns after the answer has arrived.

    times  for each answer that has arrived, the time since the start of its request, ns"""

    def __init__(self, network: Network, count: int, request: Drawn, answer: Drawn, seed: object = 0,
                 window: Make = Reno, work: int = 0, think: Drawn = 1, client: str = CLIENT,
                 server: str = SERVER, begin: int = 0, until: Optional[int] = None, **more: Any) -> None:
        self.network, self.count, self.request, self.answer = network, count, request, answer
        self.window, self.work, self.think, self.until, self.more = window, work, think, until, more
        self.client, self.server = client, server
        self.chance = Chance(seed)
        self.times: list[int] = []
        self._asked = 0
        network.at(begin, self._ask)

    def _ask(self) -> None:
        if self._asked == self.count or (self.until is not None and self.network.now >= self.until):
            return
        self._asked += 1
        begun, size = self.network.now, drawn(self.answer, self.chance)
        port = 1024 + len(self.network.flows) % 60000
        asked = self.network.flow(drawn(self.request, self.chance), self.window, (self.client, port),
                                  (self.server, 80),
                                  **self.more)

        def answer() -> None:
            flow = self.network.flow(size, self.window, (self.server, 80), (self.client, port), **self.more)
            flow.on_arrival(answered)

        def answered() -> None:
            self.times.append(self.network.now - begun)
            self.network.after(drawn(self.think, self.chance), self._ask)

        asked.on_arrival(lambda: self.network.after(self.work, answer))


class Web:
    """Users who request a page, read it and request the next, each as `Requests`. Every user has an
    independent random stream, so settings are compared under the same requests.

    users  the `Requests` of each user"""

    def __init__(self, network: Network, users: int, page: Drawn, think: int, until: int, seed: object = 0,
                 request: Drawn = 300, window: Make = Reno, count: int = 10**9, **more: Any) -> None:
        self.users: list[Requests] = []
        for user in range(1, users + 1):
            first = Chance(f"{seed} begin {user}").exponential(think)
            self.users.append(Requests(
                network, count, request, page, f"{seed} user {user}", window,
                think=lambda chance: chance.exponential(think),
                client=f"10.0.0.{1 + user % 250}", begin=first, until=until, **more))

    def times(self) -> list[int]:
        """Returns the time of each page from its request to its last byte, ns, user by user."""
        return [time for user in self.users for time in user.times]


class Arrivals:
    """Flows that arrive at random, `mean` ns apart (a Poisson process). Each starts when it is due, whatever
    the others do.

    flows  those that have started, in order"""

    def __init__(self, network: Network, count: int, mean: int, size: Drawn, seed: object = 0,
                 window: Union[Make, Sequence[Make]] = Reno, begin: int = 0, **more: Any) -> None:
        self.network, self.size, self.more = network, size, more
        self._windows = window if isinstance(window, Sequence) else [window]
        self._left, self._mean = count, mean
        self.chance = Chance(seed)
        self.flows: list[Flow] = []
        if count:
            network.at(begin + self.chance.exponential(mean), self._begin)

    def _begin(self) -> None:
        """Starts the next flow, and schedules the one after it. The windows are used in turn."""
        self._left -= 1
        make = self._windows[len(self.flows) % len(self._windows)]
        if self._left:
            self.network.after(self.chance.exponential(self._mean), self._begin)
        self.flows.append(self.network.flow(drawn(self.size, self.chance), make, **self.more))
