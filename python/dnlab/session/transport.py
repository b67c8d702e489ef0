"""The transports of sessions: a running `dnlab live`, or libdnlab in this process; and the events and errors
that they bring."""
import ipaddress
import os
import select
import subprocess
import tempfile
from contextlib import suppress
from dataclasses import dataclass
from functools import lru_cache, partial
from typing import Any, Callable, NamedTuple, Optional, Union

from dnlab import library
from dnlab.errors import InputError, ProgramError
from dnlab.io.scenario_parts import MOMENTS
from dnlab.processes import subprocesses

# An IPv4 address and a port.
Address = tuple[str, int]
LATEST = MOMENTS[1]
# The minimum and maximum size of a packet (bytes), headers included.
LEAST_SIZE, MOST_SIZE = 40, 1500


class LineRejectedError(InputError):
    """A line was rejected, and changed nothing. Has `line`, and `cause` (docs/reference/faults.md)."""

    def __init__(self, cause: str, line: str, more: str = "") -> None:
        super().__init__(f"{cause}: {line}{more}")
        self.cause, self.line = cause, line


class CommandRefusedError(InputError):
    """A command was refused; only the transcript changed. Has `line`, and `code`
    (docs/reference/faults.md)."""

    def __init__(self, code: int, line: str) -> None:
        super().__init__(f"refused {code}: {line} (docs/reference/faults.md says what each code means)")
        self.code, self.line = code, line


class ExperimentEndedError(Exception):
    """The experiment has ended, or its steps are spent. Has `moment` (ns)."""

    def __init__(self, name: str, moment: int) -> None:
        super().__init__(
            f"experiment {name} ended at {moment} ns, by `end` or because its steps are spent (begin it "
            "with more steps)")
        self.moment = moment


@dataclass(slots=True, eq=False)
class Packet:
    """A packet of `size` bytes that was sent at `sent` (ns). `payload` stays in your program. `number` is the
    serial number, -1 until `dnlab` has replied."""
    source: Address
    target: Address
    size: int
    sent: int
    payload: Any = None
    protocol: str = "udp"
    number: int = -1


class Event(NamedTuple):
    """The outcome of a packet at `moment` (ns): delivered if `cause` is '', otherwise dropped. `packet` is
    None for packets of flows and trains, which only `until_any` returns. `number` and `load` are those of the
    report."""
    moment: int
    packet: Optional[Packet]
    cause: str
    number: int
    load: str


@lru_cache(4096)
def header_of(protocol: str, source: Address, target: Address) -> str:
    """Returns the header of a packet as a scenario has it. Raises `ValueError` if it is invalid.

    >>> header_of("udp", ("10.0.0.1", 1000), ("10.0.1.1", 53))
    'udp 10.0.0.1 1000 10.0.1.1 53'
    """
    if protocol not in ("udp", "tcp"):
        raise ValueError(f"{protocol!r} is not supported: use udp or tcp")
    for address, port in (source, target):
        ipaddress.IPv4Address(address)
        if not 0 <= port <= 65535:
            raise ValueError(f"{port} is not a port from 0 to 65535")
    return f"{protocol} {source[0]} {source[1]} {target[0]} {target[1]}"


# Bytes per read.
_CHUNK = 1 << 16
_TORN = "the session was interrupted while it waited for a reply: start a new one"


class LibraryTransport:
    """A session in this process, through libdnlab. It has the same calls as `ProcessTransport`."""

    def __init__(self) -> None:
        self._talk = library.Talk()
        self._is_torn = False

    @property
    def has_ended(self) -> bool:
        """Returns whether it is closed."""
        return self._talk.has_ended

    def exchange(self, data: bytes, take: Callable[[bytes], bool]) -> None:
        """Sends whole lines, and passes each line of the reply to `take`. Raises `ProgramError` if memory
        runs out."""
        if self._is_torn and not self.has_ended:
            raise ProgramError(0, _TORN)
        self._is_torn = True
        for line in data.split(b"\n")[:-1]:
            for said in self._talk.take(line).splitlines():
                take(said)
        self._is_torn = False

    def explained(self, text: bytes) -> str:
        """Returns the explanation of `check --explain` for a text."""
        try:
            library.check(text)
        except library.FaultIn as fault:
            return f"{fault.said}\n{library.explain(text)}".strip()
        return library.explain(text).strip()

    def close(self) -> None:
        """Ends it. An experiment without its `end` is cut off there."""
        with suppress(library.FaultIn):
            self._talk.close()

    def kill(self) -> None:
        """Ends it, and ignores its errors."""
        with suppress(ProgramError):
            self._talk.close()


class ProcessTransport:
    """The running program. It has a process group of its own, so that Ctrl-C reaches only the caller, and
    ends with the thread that started it."""

    def __init__(self, called: str) -> None:
        self._called = called
        self._errors = tempfile.TemporaryFile()
        with subprocesses.signals_delayed():
            self.process = subprocesses.start([called, "live"], stdin=subprocess.PIPE, stdout=subprocess.PIPE,
                                           stderr=self._errors, bufsize=0)
            self._chore = partial(subprocesses.kill, self.process)
            subprocesses.add_chore(self._chore)
        assert self.process.stdin is not None and self.process.stdout is not None
        self._in, self._out = self.process.stdin.fileno(), self.process.stdout.fileno()
        os.set_blocking(self._in, False)
        self._poll = select.poll()
        self._poll.register(self._in, select.POLLOUT)
        self._poll.register(self._out, select.POLLIN)
        self._rest = b""
        self._failed: Optional[ProgramError] = None
        # Whether an exchange was interrupted before its last line, which a later read would then return.
        self._is_torn = False

    @property
    def has_ended(self) -> bool:
        """Returns whether the program has ended."""
        return self.process.returncode is not None

    def exchange(self, data: bytes, take: Callable[[bytes], bool]) -> None:
        """Sends whole lines, and passes each line of the reply (without its line feed) to `take` until that
        returns False. Raises `ProgramError` with the program's status and standard error if it has ended."""
        self._check()
        self._is_torn = True
        left = memoryview(data)
        goes_on = True
        while goes_on:
            if left:
                left = self._write(left)
            goes_on = self._take(take)
        self._is_torn = False

    def _check(self) -> None:
        if self._failed is not None:
            raise self._failed
        if self.has_ended:
            raise ProgramError(0, "the session is closed")
        if self._is_torn:
            raise ProgramError(0, _TORN)

    def _write(self, data: memoryview) -> memoryview:
        """Writes as much as the pipe accepts, or waits until something can be read. Returns what is left."""
        try:
            return data[os.write(self._in, data):]
        except BlockingIOError:
            self._poll.poll()
            return data
        except BrokenPipeError:
            # The program has ended; its last output is still read.
            return memoryview(b"")

    def _take(self, take: Callable[[bytes], bool]) -> bool:
        said = os.read(self._out, _CHUNK)
        if not said:
            self._lost()
        lines = (self._rest + said).split(b"\n")
        self._rest = lines.pop()
        return all([take(line) for line in lines])

    def _lost(self) -> None:
        """Raises `ProgramError`, because the program ended unexpectedly."""
        status = subprocesses.wait(self.process)
        said = self._said()
        by = subprocesses.signal_of(status)
        if by:
            self._failed = subprocesses.Killed(f"the session's program was {subprocesses.describe_exit(by)}",
                                               by)
        else:
            self._failed = ProgramError(status, f"the session's program ended{': ' + said if said else ''}")
        self._release()
        raise self._failed

    def _said(self) -> str:
        self._errors.seek(0)
        return self._errors.read().decode(errors="replace").strip()

    def _release(self) -> None:
        for pipe in (self.process.stdin, self.process.stdout, self._errors):
            if pipe is not None:
                with suppress(OSError):
                    pipe.close()
        subprocesses.remove_chore(self._chore)

    def close(self) -> None:
        """Ends the program and waits for it. An experiment without its `end` is cut off there. Raises
        `ProgramError` if the program ends with another fault."""
        if self.has_ended:
            return
        if self._is_torn:
            self.kill()
            return
        assert self.process.stdin is not None
        self.process.stdin.close()
        while os.read(self._out, _CHUNK):
            pass
        status = subprocesses.wait(self.process)
        said = self._said()
        self._release()
        if status not in (0, 1):
            raise ProgramError(status, said)

    def explained(self, text: bytes) -> str:
        """Returns the explanation of `check --explain` for a text, or '' if the program can't be run."""
        try:
            return subprocesses.run([self._called, "check", "--explain"], text).said()
        except (ProgramError, OSError):
            return ""

    def kill(self) -> None:
        """Ends the program at once."""
        subprocesses.kill(self.process)
        self._release()


Transport = Union[LibraryTransport, ProcessTransport]
