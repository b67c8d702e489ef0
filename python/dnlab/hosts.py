"""Your programs on a session's link: hosts that are called when a packet arrives, timers, and generators."""
import heapq
from typing import Callable, Generator, Iterable, Union

from dnlab.session.transport import LATEST, Address, Event
from dnlab.session.sessions import Link

# A generator that yields the time (ns) until which it waits, and is sent the events since then.
Waiting = Generator[int, list[Event], None]


class Loop:
    """Hosts and timers on a link. Packets come before timers of the same time."""

    def __init__(self, link: Link) -> None:
        self.link = link
        self._hosts: dict[Address, Callable[[Event], None]] = {}
        self._timers: list[tuple[int, int, Callable[[], None]]] = []
        self._count = 0

    @property
    def now(self) -> int:
        """Returns the earliest time (ns) at which something can be done."""
        return self.link.now

    def host(self, address: Address, receive: Callable[[Event], None]) -> None:
        """Calls `receive` for each delivery to an address."""
        self._hosts[address] = receive

    def at(self, moment: int, call: Callable[[], None]) -> None:
        """Schedules a call at a time (ns), at once if that is past."""
        self._count += 1
        heapq.heappush(self._timers, (moment, self._count, call))

    def run(self, until: int = LATEST, hold: int = 1) -> None:
        """Advances time to `until` (ns), calling hosts and timers. Stops earlier if the experiment ends, or
        nothing is left to do."""
        while not self.link.is_over and self.now < until:
            while self._timers and self._timers[0][0] <= self.now:
                heapq.heappop(self._timers)[2]()
            wanted = min(until, self._timers[0][0]) if self._timers else until
            if wanted == LATEST and self.link.next_due() is None and not self._timers:
                return
            for event in self.link.until_mine(max(wanted, self.now), hold):
                if event.packet is not None and not event.cause and event.packet.target in self._hosts:
                    self._hosts[event.packet.target](event)


class _Player:
    """A generator that has started."""

    def __init__(self, program: Waiting) -> None:
        self.program = program
        self.moment = 0
        self.is_done = False

    def step(self, events: Union[list[Event], None]) -> None:
        try:
            self.moment = next(self.program) if events is None else self.program.send(events)
        except StopIteration:
            self.is_done = True


def play(link: Link, programs: Iterable[Waiting], until: int = LATEST) -> None:
    """Runs generators until they end, or until time `until` (ns). A generator yields the time (ns) until
    which it waits. It continues then, or after the first event, and is sent all events since."""
    players = [_Player(program) for program in programs]
    for player in players:
        player.step(None)
    while link.now < until and not link.is_over:
        players = [player for player in players if not player.is_done]
        if not players:
            return
        wanted = min(player.moment for player in players)
        events = link.until_mine(max(link.now, min(until, wanted)))
        for player in players:
            if events or player.moment <= link.now:
                player.step(events)
