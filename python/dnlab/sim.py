"""An asyncio event loop in simulated time. Programs that use datagrams run unchanged over a link.

    async def main():
        loop = asyncio.get_running_loop()
        with sim.host("10.0.1.1"):
            await loop.create_datagram_endpoint(Server, local_addr=("0.0.0.0", 53))
        await asyncio.sleep(3600)                      # takes no real time

    with dnlab.live() as session:
        link = session.experiment("loop", seed=1)
        link.command("add 100 allow ip from any to any")
        dnlab.sim.run(main(), link=link)

Nothing waits for real time and no socket is opened, so two runs have the same transcript if the program seeds
its own random numbers. Streams, subprocesses and signals are refused; work for an executor is done at once.
"""
import asyncio
import contextvars
import errno
import ipaddress
import os
import socket
import time
from contextlib import contextmanager
from typing import Any, Callable, Coroutine, Iterator, Mapping, NoReturn, Optional, TypeVar

from dnlab.session.sessions import Link
from dnlab.session.transport import LATEST, LEAST_SIZE, MOST_SIZE, Address, Event

__all__ = ["DeadlockError", "Loop", "host", "run"]
_Result = TypeVar("_Result")
# The wall clock at the link's time 0: the start of 2026, in seconds since 1970.
EPOCH = 1_767_225_600
# This many turns of the loop without time passing must be a mistake.
_MOST_TURNS = 1_000_000
_REFUSED = ("create_connection", "create_server", "create_unix_connection", "create_unix_server",
            "connect_accepted_socket", "connect_read_pipe", "connect_write_pipe", "subprocess_shell",
            "subprocess_exec", "add_reader", "remove_reader", "add_writer", "remove_writer", "sock_recv",
            "sock_recv_into", "sock_recvfrom", "sock_recvfrom_into", "sock_sendall", "sock_sendto",
            "sock_connect", "sock_accept", "sock_sendfile", "sendfile", "start_tls", "add_signal_handler",
            "remove_signal_handler")


class DeadlockError(Exception):
    """Nothing can happen any more, but tasks still wait: the text lists them."""


def _waits(task: "asyncio.Task[Any]") -> str:
    """Returns where a task waits."""
    inner: Any = task.get_coro()
    while True:
        further = (getattr(inner, "cr_await", None) or getattr(inner, "ag_await", None)
                   or getattr(inner, "gi_yieldfrom", None))
        if further is None or not any(hasattr(further, it) for it in ("cr_frame", "gi_frame", "ag_frame")):
            break
        inner = further
    frame = getattr(inner, "cr_frame", None) or getattr(inner, "gi_frame", None)
    where = f"{frame.f_code.co_filename}:{frame.f_lineno}" if frame else "?"
    return f"{task.get_name()} waits in {getattr(inner, '__qualname__', inner)} ({where})"


class _Selector:
    """The selector of the loop: it does not wait, but advances the link's time to the first delivery."""

    def __init__(self, loop: "Loop") -> None:
        self._loop = loop
        self._turns = 0

    def select(self, timeout: Optional[float]) -> list[Event]:
        """Returns the deliveries and drops within a time (s); None means forever."""
        if timeout is not None and timeout <= 0:
            self._turns += 1
            if self._turns > _MOST_TURNS:
                raise DeadlockError(
                    f"{_MOST_TURNS} turns of the loop, and no time passes (a loop round asyncio.sleep(0)?): "
                    + self._loop.waiting())
            return []
        self._turns = 0
        link = self._loop.link
        if timeout is None and link.next_due() is None or link.now >= LATEST:
            waiting = self._loop.waiting()
            raise DeadlockError(f"nothing is due at {link.now} ns, and no timer is set: {waiting}")
        # A timer's time differs from a whole nanosecond by less than half of one: seconds go up to 10^6.
        until = LATEST if timeout is None else link.now + max(1, round(timeout * 1e9))
        return link.until_mine(min(until, LATEST), self._loop.hold)


class Loop(asyncio.BaseEventLoop):
    """The event loop of a link."""

    def __init__(self, link: Link, hold: int = 1, names: Optional[Mapping[str, str]] = None) -> None:
        super().__init__()
        self.link, self.hold = link, hold
        self._names = {"localhost": "127.0.0.1", **(names or {})}
        self._network = _Network(link)
        self._clock_resolution = 1e-9  # asyncio runs a timer that is due within this time (s)
        self._selector = _Selector(self)

    def time(self) -> float:
        """Returns the link's time in seconds."""
        return self.link.now / 1e9

    def waiting(self) -> str:
        """Returns what waits, for a message."""
        return "; ".join(sorted(map(_waits, asyncio.all_tasks(self)))) or "no task is left"

    def _process_events(self, events: list[Event]) -> None:
        for event in events:
            self._network.deliver(event)

    def _write_to_self(self) -> None:
        """Does nothing: it would wake a loop that waits for real time, which this one never does."""

    def run_in_executor(self, executor: Any, func: Callable[..., Any], *args: Any) -> "asyncio.Future[Any]":
        """Runs a function at once, in no simulated time."""
        future = self.create_future()
        try:
            future.set_result(func(*args))
        except Exception as fault:  # noqa: BLE001  (it belongs to who awaits it)
            future.set_exception(fault)
        return future

    def address_of(self, name: Any) -> str:
        """Returns the IPv4 address of a name (if empty, the current host's). Raises `OSError`."""
        said = str(name or "0.0.0.0")
        said = self._names.get(said, said)
        try:
            found = ipaddress.ip_address(said)
        except ValueError:
            raise socket.gaierror(socket.EAI_NONAME,
                                  f"{said} is neither an address nor one of the given names") from None
        if found.version != 4:
            raise _fault_of(errno.EAFNOSUPPORT)
        return here() if found.is_unspecified or found.is_loopback else said

    async def getaddrinfo(self, host: Any, port: Any, *, family: int = 0, type: int = 0, proto: int = 0,
                          flags: int = 0) -> list[Any]:
        kind = socket.SocketKind(type or socket.SOCK_DGRAM)
        return [(socket.AF_INET, kind, proto or socket.IPPROTO_UDP, "",
                 (self.address_of(host), int(port or 0)))]

    async def getnameinfo(self, sockaddr: Any, flags: int = 0) -> tuple[str, str]:
        return str(sockaddr[0]), str(sockaddr[1])

    async def create_datagram_endpoint(self, protocol_factory: Callable[[], Any], local_addr: Any = None,
                                       remote_addr: Any = None, *, family: int = 0, sock: Any = None,
                                       **_: Any) -> tuple[Any, Any]:
        """Creates an endpoint; without an address, at a free port of the host. Raises `OSError`."""
        if sock is not None:
            raise ValueError("a real socket can't be used in simulated time")
        if family not in (0, socket.AF_INET):
            raise _fault_of(errno.EAFNOSUPPORT)
        local: Address = (self.address_of(local_addr[0]), int(local_addr[1])) if local_addr else (here(), 0)
        remote = (self.address_of(remote_addr[0]), int(remote_addr[1])) if remote_addr else None
        endpoint = self._network.bind(self, local, remote)
        protocol = protocol_factory()
        endpoint.begin(protocol)
        await asyncio.sleep(0)
        return endpoint, protocol


def _refusal(name: str) -> Callable[..., NoReturn]:
    def refused(*_: Any, **__: Any) -> NoReturn:
        raise NotImplementedError(
            f"{name} is not available in simulated time: only datagrams, timers and tasks are")
    return refused


for _name in _REFUSED:
    setattr(Loop, _name, _refusal(_name))


@contextmanager
def clocks(link: Link) -> Iterator[None]:
    """Makes `time.time`, `time.monotonic` and `time.perf_counter` (also `_ns`) return the link's time within
    the block. Functions that a program imported earlier keep the machine's time."""
    kept = {name: getattr(time, name) for word in ("time", "monotonic", "perf_counter")
            for name in (word, word + "_ns")}
    for name in kept:
        begin = EPOCH * 10**9 if name.startswith("time") else 0
        if name.endswith("_ns"):
            setattr(time, name, lambda begin=begin: begin + link.now)
        else:
            setattr(time, name, lambda begin=begin: (begin + link.now) / 1e9)
    try:
        yield
    finally:
        for name, call in kept.items():
            setattr(time, name, call)


def run(main: Coroutine[Any, Any, _Result], *, link: Link, hold: int = 1,
        names: Optional[Mapping[str, str]] = None,
        has_clocks: bool = True) -> _Result:
    """Runs a coroutine and returns its result, like `asyncio.run`.

    link        a link with its rules and pipes, which the call doesn't end
    hold        as in `Link.until_mine`
    names       the addresses of names: {"server": "10.0.1.1"}
    has_clocks  whether to use `clocks`

    Raises `DeadlockError` if everything left waits forever, and `ExperimentEndedError`."""
    with asyncio.Runner(loop_factory=lambda: Loop(link, hold, names)) as runner:
        if not has_clocks:
            return runner.run(main)
        with clocks(link):
            return runner.run(main)


# Size of the IPv4 and UDP headers of a datagram, in bytes.
HEADERS = 28
# The first and the last port for endpoints without one.
_FREE, _LAST = 49152, 65535
_HERE: contextvars.ContextVar[str] = contextvars.ContextVar("dnlab.sim.host")


def _fault_of(number: int) -> OSError:
    """Returns the `OSError` of an error number."""
    return OSError(number, os.strerror(number))


@contextmanager
def host(address: str) -> Iterator[None]:
    """Runs the block, and the tasks and endpoints that it creates, at this IPv4 address of the link."""
    token = _HERE.set(str(ipaddress.IPv4Address(address)))
    try:
        yield
    finally:
        _HERE.reset(token)


def here() -> str:
    """Returns the address at which the code runs. Raises `OSError` if none is set."""
    found = _HERE.get("")
    if not found:
        raise OSError(errno.EADDRNOTAVAIL,
                      "at which address of the link does this run? Say it by `with dnlab.sim.host(ADDRESS):` "
                      "or by a local address")
    return found


class _Endpoint(asyncio.DatagramTransport):
    """A bound address, as an asyncio transport for datagrams."""

    def __init__(self, network: "_Network", loop: asyncio.AbstractEventLoop, local: Address,
                 remote: Optional[Address]) -> None:
        super().__init__({"sockname": local, "peername": remote, "socket": None})
        self._network, self._loop, self.local, self.remote = network, loop, local, remote
        self._protocol: Optional[asyncio.BaseProtocol] = None
        self._context = contextvars.copy_context()
        self._is_closing = False

    def begin(self, protocol: asyncio.BaseProtocol) -> None:
        self._protocol = protocol
        self._loop.call_soon(protocol.connection_made, self)

    def get_protocol(self) -> asyncio.BaseProtocol:
        assert self._protocol is not None
        return self._protocol

    def set_protocol(self, protocol: asyncio.BaseProtocol) -> None:
        self._protocol = protocol

    def sendto(self, data: Any, addr: Optional[Any] = None) -> None:
        """Sends a datagram. As in asyncio, the protocol's `error_received` gets errors."""
        if self.remote is not None and addr not in (None, self.remote):
            raise ValueError(f"Invalid address: must be None or {self.remote}")
        target = addr if self.remote is None else self.remote
        if target is None:
            raise ValueError("an endpoint without a remote address needs one for each datagram")
        if self._is_closing:
            return
        try:
            self._network.send(self.local, (str(target[0]), int(target[1])), bytes(data))
        except OSError as fault:
            self._call("error_received", fault)

    def receive(self, data: bytes, source: Address) -> None:
        """Passes a delivered datagram to the protocol."""
        if self.remote in (None, source) and not self._is_closing:
            self._call("datagram_received", data, source)

    def _call(self, name: str, *words: Any) -> None:
        if self._protocol is not None:
            self._loop.call_soon(getattr(self._protocol, name), *words, context=self._context)

    def is_closing(self) -> bool:
        return self._is_closing

    def get_write_buffer_size(self) -> int:
        """Returns 0: an endpoint buffers nothing."""
        return 0

    def close(self) -> None:
        if not self._is_closing:
            self._is_closing = True
            self._network.leave(self)
            self._call("connection_lost", None)

    def abort(self) -> None:
        self.close()


class _Network:
    """The endpoints of a link."""

    def __init__(self, link: Link) -> None:
        self.link = link
        self._endpoints: dict[Address, _Endpoint] = {}
        self._free: dict[str, int] = {}

    def bind(self, loop: asyncio.AbstractEventLoop, local: Address, remote: Optional[Address]) -> _Endpoint:
        """Returns a new endpoint at an address; for port 0, at a free port. Raises `OSError`."""
        if not local[1]:
            local = (local[0], self._free_port(local[0]))
        if local in self._endpoints:
            raise _fault_of(errno.EADDRINUSE)
        self._endpoints[local] = _Endpoint(self, loop, local, remote)
        return self._endpoints[local]

    def _free_port(self, address: str) -> int:
        first = self._free.get(address, _FREE)
        for port in [*range(first, _LAST + 1), *range(_FREE, first)]:
            if (address, port) not in self._endpoints:
                self._free[address] = port + 1
                return int(port)
        raise _fault_of(errno.EADDRINUSE)

    def leave(self, endpoint: _Endpoint) -> None:
        self._endpoints.pop(endpoint.local, None)

    def send(self, source: Address, target: Address, data: bytes) -> None:
        """Sends a datagram. Raises `OSError` if it is too big, or the experiment has ended."""
        size = len(data) + HEADERS
        if size > MOST_SIZE:
            raise _fault_of(errno.EMSGSIZE)
        if self.link.is_over:
            raise _fault_of(errno.ENETDOWN)
        try:
            ipaddress.IPv4Address(target[0])
        except ValueError:
            raise OSError(errno.EAFNOSUPPORT, f"{target[0]} is not an IPv4 address") from None
        self.link.send(source, target, max(size, LEAST_SIZE), data)

    def deliver(self, event: Event) -> None:
        """Passes a delivery to its endpoint. Drops are ignored, since hosts don't learn of them."""
        if event.packet is not None and not event.cause:
            endpoint = self._endpoints.get(event.packet.target)
            if endpoint is not None:
                endpoint.receive(event.packet.payload, event.packet.source)
