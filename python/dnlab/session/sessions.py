"""Sessions with `dnlab live`, and their experiments: your own program sends packets at chosen times, and
learns when each is delivered or dropped. Needs only Python; `dnlab.hosts` has callbacks and generators,
`dnlab.sim` an event loop for asyncio.
"""
import io
from collections import deque
from pathlib import Path
from types import TracebackType
from typing import IO, Any, Literal, Optional, Union

from dnlab.io.files import whole_file
from dnlab.io.scenario_parts import STEPS
from dnlab.programs import program
from dnlab.session.transport import (LATEST, LEAST_SIZE, MOST_SIZE, Address, CommandRefusedError, Event,
                                     ExperimentEndedError, LibraryTransport, LineRejectedError, Packet,
                                     ProcessTransport, Transport, header_of)

# Bytes to collect before they are sent although no reply is needed.
_MOST_GATHERED = 1 << 15


class Link:
    """An experiment of a session. Time advances only in `until`, `until_mine`, `until_any` and `end`, and for
    actions `at` a later time (ns).

    now       the earliest time (ns) of the next action
    is_over   whether it has ended
    counters  after the end: made, delivered, held, and the drops by cause
    listings  the lines of `show` and `pipe show`"""

    def __init__(self, session: "Session", name: str, show: str, transcript: Optional[IO[bytes]],
                 report: Optional[IO[bytes]]) -> None:
        self._session, self.name, self._show = session, name, show
        self.now = 0
        self.is_over = False
        self.counters: Optional[tuple[int, ...]] = None
        self.listings: list[str] = []
        self._transcript: IO[bytes] = transcript if transcript is not None else io.BytesIO()
        self._report: IO[bytes] = report if report is not None else io.BytesIO()
        self._events: list[Event] = []
        self._flying: dict[int, Packet] = {}
        # Report lines about packets of which it is not yet known whether they are the program's own.
        self._early: dict[int, Event] = {}
        self._wants_all = False
        # When the next event is due, and whether replies have this time.
        self._next: Optional[int] = None
        self._adds_next = False

    def command(self, words: str, at: Optional[int] = None) -> None:
        """Executes a command, without its time. Raises `LineRejectedError` or `CommandRefusedError`."""
        self._move(at)
        self._session.post(self, f"@{self.now} {words}")
        self._session.exchange()

    def send(self, source: Address, target: Address, size: int, payload: Any = None, protocol: str = "udp",
             at: Optional[int] = None) -> Packet:
        """Queues a packet of 40 to 1500 bytes, with headers (else `ValueError`); the next reply sends it."""
        if not LEAST_SIZE <= size <= MOST_SIZE:
            raise ValueError(f"a packet has {LEAST_SIZE} to {MOST_SIZE} bytes, not {size}")
        header = header_of(protocol, source, target)
        self._move(at)
        packet = Packet(source, target, size, self.now, payload, protocol)
        self._session.post(self, f"@{self.now} inject {header} {size}", packet)
        return packet

    def until(self, moment: int) -> list[Event]:
        """Advances time to `moment` (ns). Returns your packets' deliveries and drops since the last call."""
        return self._pass(f"#> until @{self._later(moment)}")

    def until_mine(self, moment: int = LATEST, hold: int = 1) -> list[Event]:
        """Like `until`, but stops at most `hold` ns after the first of these deliveries or drops, so that you
        can react. A packet that is dropped when sent doesn't stop time."""
        self._later(moment)
        if self._events:
            # A command at a later time produced events: time stands still until the program has seen them.
            return self._taken()
        # (a packet takes at least 1 ns, so packets and the request can be sent together)
        return self._pass(f"#> until @{moment} first{'' if hold == 1 else f' {hold}'}")

    def until_any(self, moment: int = LATEST, hold: int = 1) -> list[Event]:
        """Like `until_mine`, for any packet. Also returns events of other packets, unless show='mine'."""
        self._later(moment)
        self._session.exchange()
        if self._events:
            return self._taken()
        self._wants_all = True
        try:
            return self._pass(f"#> until @{moment} first any{'' if hold == 1 else f' {hold}'}")
        finally:
            self._wants_all = False

    def next_due(self) -> Optional[int]:
        """Returns the time of the link's next event (ns), or None."""
        self._check()
        if not self._adds_next:
            self._session.post(self, "#> next on")
            self._adds_next = True
        self._session.exchange()
        return self._next

    def end(self, at: Optional[int] = None) -> list[Event]:
        """Ends the experiment, even if its steps are spent, and returns the events since the last call."""
        if at is not None:
            self.now = max(at, self.now) if self.is_over else self._later(at)
        self._session.post(self, f"@{self.now} end")
        self._session.exchange()
        return self._taken()

    def transcript(self) -> str:
        """Returns the scenario of everything that was done. After the end, `dnlab alone` writes the same
        report for it, and `dnlab alone --trace` that of a session with `trace=True`."""
        self._session.exchange()
        return _kept(self._transcript, "transcript").decode()

    def report(self) -> bytes:
        """Returns the report so far."""
        if self._show == "mine":
            raise ValueError("the report has only lines about the program's own packets (show='mine'): "
                             "`dnlab alone` writes the report of transcript()")
        self._session.exchange()
        return _kept(self._report, "report")

    def save(self, scenario: Union[str, Path], report: Union[str, Path, None] = None) -> None:
        """Writes the transcript, and the report if you name a file."""
        with whole_file(scenario) as file:
            file.write(self.transcript().encode())
        if report is not None:
            told = self.report()
            with whole_file(report) as file:
                file.write(told)

    # Callbacks of the session.

    def answered(self, line: str, words: list[bytes], packet: Optional[Packet]) -> None:
        """Handles the reply to an accepted line."""
        kind = words[1]
        if kind == b"now":
            self.now = int(words[2])
        elif kind == b"packet" and packet is not None:
            packet.number = int(words[2])
            self._name(packet)
        elif kind == b"over":
            self.is_over, self.now, self._next = True, int(words[2]), None
        if words[-2] == b"next":
            self._next = None if words[-1] == b"none" else int(words[-1])
        self._early.clear()
        if line[0] != "#":
            self._transcript.write(line.encode() + b"\n")

    def told(self, line: bytes) -> None:
        """Handles a line of the report."""
        self._report.write(line + b"\n")
        words = line.split(b" ")
        if len(words) > 3 and words[1] in (b"deliver", b"drop"):
            self._fate(words)
        elif words[0] == b"counters":
            self.counters = tuple(int(word) for word in words[1:])
        elif words[0] in (b"rule", b"pipe", b"instance"):
            self.listings.append(line.decode())

    def _fate(self, words: list[bytes]) -> None:
        number = int(words[2])
        load, cause = words[3:], b""
        if words[1] == b"drop":
            load, cause = words[3:-1], words[-1]
        packet = self._flying.pop(number, None)
        event = Event(int(words[0]), packet, cause.decode(), number, b" ".join(load).decode())
        if packet is not None or self._wants_all:
            self._events.append(event)
        elif load == [b"plain"]:
            # The record of a packet that is dropped or delivered at once precedes the reply with its number.
            self._early[number] = event

    def _name(self, packet: Packet) -> None:
        event = self._early.pop(packet.number, None)
        if event is None:
            self._flying[packet.number] = packet
        else:
            self._events.append(event._replace(packet=packet))

    # Parts of actions.

    def _check(self) -> None:
        if self.is_over:
            raise ExperimentEndedError(self.name, self.now)

    def _later(self, moment: int) -> int:
        self._check()
        if not self.now <= moment <= LATEST:
            raise ValueError(f"{moment} ns: the time must be from {self.now} (now) to {LATEST} ns")
        return moment

    def _move(self, at: Optional[int]) -> None:
        self.now = self._later(self.now if at is None else at)

    def _pass(self, request: str) -> list[Event]:
        self._check()
        self._session.post(self, request)
        self._session.exchange()
        return self._taken()

    def _taken(self) -> list[Event]:
        events, self._events = self._events, []
        return events


def _kept(file: IO[bytes], what: str) -> bytes:
    if not isinstance(file, io.BytesIO):
        raise ValueError(f"the {what} is written to the given file, and not kept")
    return file.getvalue()


class Session:
    """A running program or library, with experiments. It ends with its block, even after an exception."""

    def __init__(self, dnlab: Optional[str] = None, engine: str = "process", trace: bool = False) -> None:
        if engine not in ("process", "library"):
            raise ValueError(f'the engine is "process" or "library", not {engine!r}')
        if engine == "library" and dnlab is not None:
            raise ValueError('engine="library" takes no program: leave it out, or use engine="process"')
        self.transport: Transport = (LibraryTransport() if engine == "library"
                                     else ProcessTransport(program(dnlab)))
        self._traces = trace
        self._lines: list[str] = []
        self._bytes = 0
        self._asked: deque[tuple[Link, str, Optional[Packet]]] = deque()
        self._links: list[Link] = []
        self._current: Optional[Link] = None
        self._trouble: Optional[Exception] = None
        # The number of waits for a reply.
        self.round_trips = 0

    def experiment(self, name: str, seed: int = 0, budget: int = 1000, steps: int = STEPS,
                   show: Literal["all", "mine"] = "all", transcript: Optional[IO[bytes]] = None,
                   report: Optional[IO[bytes]] = None) -> Link:
        """Starts an experiment (docs/reference/scenario.md has the ranges).

        show                "mine" reads only lines about your own packets, which is faster
        transcript, report  files for them, instead of memory

        Raises `LineRejectedError` if an argument is invalid."""
        link = Link(self, name, show, transcript, report)
        self._links.append(link)
        self._current = link
        try:
            if self._traces and len(self._links) == 1:
                self.post(link, "#> trace on")
            self.post(link, f"experiment {name} seed {seed} budget {budget} steps {steps}")
            self.exchange()
        except LineRejectedError:
            self._links.remove(link)
            self._current = None
            raise
        if show == "mine":
            self.post(link, "#> show mine")
        return link

    def transcript(self) -> str:
        """Returns the scenario of all experiments, in the order of their starts."""
        return "".join(link.transcript() for link in self._links)

    def report(self) -> bytes:
        """Returns the report of all experiments so far."""
        return b"".join(link.report() for link in self._links)

    def post(self, link: Link, line: str, packet: Optional[Packet] = None) -> None:
        """Queues a line for the next exchange."""
        if self._current is not link:
            self._lines.append(f"#> use {link.name}\n")
            self._asked.append((link, "#> use", None))
            self._current = link
        self._lines.append(line + "\n")
        self._asked.append((link, line, packet))
        self._bytes += len(line) + 1
        if self._bytes > _MOST_GATHERED:
            self.exchange()

    def exchange(self) -> None:
        """Sends the queued lines and handles the replies. Raises the first fault or refusal."""
        if not self._asked:
            return
        data = "".join(self._lines).encode(errors="replace")
        self._lines.clear()
        self._bytes = 0
        self.round_trips += 1
        self.transport.exchange(data, self._take)
        trouble, self._trouble = self._trouble, None
        if trouble is not None:
            raise trouble

    def _take(self, line: bytes) -> bool:
        """Handles a line from the program. Returns whether more lines are expected."""
        if line[:1] != b"#":
            self._asked[0][0].told(line)
        elif line[:3] == b"#< ":
            self._answer(line.split(b" "))
        return bool(self._asked)

    def _answer(self, words: list[bytes]) -> None:
        link, line, packet = self._asked.popleft()
        if words[1] == b"fault":
            cause = words[2].decode()
            self._trouble = self._trouble or LineRejectedError(cause, line, self._explained(line))
            return
        link.answered(line, words, packet)
        if words[1] == b"refused":
            self._trouble = self._trouble or CommandRefusedError(int(words[2]), line)

    def _explained(self, line: str) -> str:
        """Returns what `check --explain` says of a line, without the line; '' if it alone has no fault."""
        before = "" if line.startswith("experiment") else "experiment x seed 0 budget 1\n"
        text = f"{before}{line}\n@{10**15} end\n".encode(errors="replace")
        said = self.transport.explained(text).split("\n\n")[0].splitlines()[1:]
        return "".join(f"\n{it}" for it in said if not it.startswith("line "))

    def close(self) -> None:
        """Ends the program after all replies. Experiments without an `end` are cut off."""
        if not self.transport.has_ended:
            try:
                self.exchange()
            finally:
                self.transport.close()

    def __enter__(self) -> "Session":
        return self

    def __exit__(self, kind: Optional[type[BaseException]], value: Optional[BaseException],
                 where: Optional[TracebackType]) -> None:
        if kind is None:
            self.close()
        elif not self.transport.has_ended:
            self.transport.kill()


def live(dnlab: Optional[str] = None, engine: str = "process", trace: bool = False) -> Session:
    """Starts a session, for use as a block:
    `with dnlab.live() as session: link = session.experiment("mine", seed=1)`.

    dnlab   the program; by default that of `dnlab.programs.program`
    engine  "process" starts the program; "library" calls libdnlab in this process
    trace   whether reports also have the creations and arrivals of packets, from which their sizes and
            delays are read

    Raises `ProgramError` if there is no program."""
    return Session(dnlab, engine, trace)
