"""The parts of a hosts file: amounts, hosts, processes and settings; and the check of its network by the
program."""
import datetime
import hashlib
import ipaddress
import re
import shlex
import signal
from dataclasses import dataclass, field
from fractions import Fraction
from pathlib import Path
from typing import NamedTuple, Optional

from dnlab.errors import InputError, ProgramError
from dnlab.io.scenario import Finding, findings
from dnlab.processes import subprocesses
from dnlab.programs import program

# Each function returns the value, or raises `ValueError` with the cause and what is expected.

_TIME_UNITS = {
    "ns": ("ns", "nsec", "nsecs", "nanosecond", "nanoseconds"),
    "us": ("us", "usec", "usecs", "microsecond", "microseconds"),
    "ms": ("ms", "msec", "msecs", "millisecond", "milliseconds"),
    "s": ("s", "sec", "secs", "second", "seconds"),
    "min": ("m", "min", "mins", "minute", "minutes"),
    "h": ("h", "hr", "hrs", "hour", "hours"),
}
_TIME_SIZES = {"ns": 1, "us": 10**3, "ms": 10**6, "s": 10**9, "min": 60 * 10**9, "h": 3600 * 10**9}
NANOSECONDS = {name: _TIME_SIZES[unit] for unit, names in _TIME_UNITS.items() for name in names}
_BYTES = {"K": 2**10, "KB": 10**3, "KiB": 2**10, "M": 2**20, "MB": 10**6, "MiB": 2**20,
          "G": 2**30, "GB": 10**9, "GiB": 2**30}
_AMOUNT = re.compile(r"([0-9]+(?:\.[0-9]+)?) ?([A-Za-z]*)")
# The last moment of a scenario, in ns (docs/reference/scenario.md).
MAX_TIME = 10**15


def time_of(text: str) -> int:
    """Returns a time in ns. Units are those of Shadow's files; a number without a unit is in seconds.

    >>> time_of("15s"), time_of("100ms"), time_of("1 min"), time_of("2")
    (15000000000, 100000000, 60000000000, 2000000000)
    """
    found = _AMOUNT.fullmatch(text)
    if found is None:
        raise ValueError(f"{text!r} is not a time; expected a number and a unit, as 15s, 100ms or 1 min")
    unit = found[2] or "s"
    if unit not in NANOSECONDS:
        raise ValueError(f"{unit!r} is not a unit of time; expected ns, us, ms, s, min or h")
    time = Fraction(found[1]) * NANOSECONDS[unit]
    if time.denominator != 1:
        raise ValueError(f"{text!r} is not a whole number of nanoseconds; expected at most nine digits after"
                         " the point of seconds")
    if time > MAX_TIME:
        raise ValueError(f"{text!r} is too long; expected at most 1000000s")
    return int(time)


def positive_time_of(text: str) -> int:
    """Returns a time above 0, in ns."""
    time = time_of(text)
    if time == 0:
        raise ValueError(f"{text!r} is no time at all; expected a time above 0, as 15s")
    return time


def memory_of(text: str) -> int:
    """Returns an amount of memory in MiB.

    >>> memory_of("512 MiB"), memory_of("1G")
    (512, 1024)
    """
    found = _AMOUNT.fullmatch(text)
    if found is None or found[2] not in _BYTES:
        raise ValueError(f"{text!r} is not an amount of memory; expected a number and a unit, as 512 MiB")
    size = int(Fraction(found[1]) * _BYTES[found[2]]) // 2**20
    if not 64 <= size <= 65536:
        raise ValueError(f"{text!r} is out of range; expected 64 MiB to 64 GiB")
    return size


def whole_number(least: int, most: int, text: str) -> int:
    """Returns a whole number from `least` to `most`."""
    if not re.fullmatch(r"0|[1-9][0-9]{0,19}", text) or not least <= int(text) <= most:
        raise ValueError(f"{text!r} is not a whole number from {least} to {most}; expected one, as"
                         f" {max(least, 1)}")
    return int(text)


def date_of(text: str) -> int:
    """Returns a date of UTC in ns since 1970.

    >>> date_of("2027-01-01") == date_of("2027-01-01T00:00:00Z") == 1798761600000000000
    True
    """
    # What YAML spells as a date may have a space where ISO 8601 has a T.
    try:
        date = datetime.datetime.fromisoformat(text.replace("Z", "+00:00"))
    except ValueError:
        raise ValueError(f"{text!r} is not a date; expected one of ISO 8601, as 2027-01-01 or"
                         " 2027-01-01T12:00:00Z") from None
    if date.tzinfo is None:
        date = date.replace(tzinfo=datetime.timezone.utc)
    if not 1971 <= date.year <= 2200:
        raise ValueError(f"{text!r} is out of range; expected a year from 1971 to 2200")
    since = date - datetime.datetime(1970, 1, 1, tzinfo=datetime.timezone.utc)
    return (since.days * 86400 + since.seconds) * 10**9 + since.microseconds * 1000


def signal_of(text: str) -> int:
    """Returns the number of a signal, by its name or its number.

    >>> signal_of("SIGTERM"), signal_of("9")
    (15, 9)
    """
    if text.isascii() and text.isdigit() and 1 <= int(text) <= 64:
        return int(text)
    if text in signal.Signals.__members__:
        return int(signal.Signals[text])
    raise ValueError(f"{text!r} is not a signal; expected a name or a number, as SIGTERM or 15")


def signal_name(number: int) -> str:
    """Returns the name of a signal, or its number where it has no name.

    >>> signal_name(15), signal_name(40)
    ('SIGTERM', '40')
    """
    return signal.Signals(number).name if number in signal.valid_signals() and number < 32 else str(number)


def address_of(text: str) -> str:
    """Returns an IPv4 address that a host may have."""
    try:
        address = ipaddress.IPv4Address(text)
    except ValueError:
        raise ValueError(f"{text!r} is not an IPv4 address; expected four numbers, as 10.0.0.1") from None
    if address.is_loopback or address.is_multicast or address.is_unspecified or int(address) == 2**32 - 1:
        raise ValueError(f"{text} cannot be a host's address (loopback, multicast, 0.0.0.0 and broadcast are"
                         " not); expected one as 10.0.0.1")
    return str(address)


def words_of(text: str) -> list[str]:
    """Returns the words of a text, split and unquoted as a shell does."""
    try:
        return shlex.split(text)
    except ValueError as fault:
        raise ValueError(f"{text!r} cannot be split into words ({str(fault).lower()}); expected closed"
                         " quotes, or a list of words") from None


# Times are whole nanoseconds; moments count from time 0 of the scenario. Memory is in MiB.

# 2027-01-01T00:00:00Z: certificates that machines have when this version is published must already be valid
# then.
START_DATE = 1798761600 * 10**9


class Ending(NamedTuple):
    """How a process ends: `exited` with a status, `signaled` by a signal, or still `running` at the end."""
    kind: str
    number: Optional[int] = None

    def __str__(self) -> str:
        """Returns it in words.

        >>> str(Ending("exited", 0)), str(Ending("signaled", 15)), str(Ending("running"))
        ('exited 0', 'signaled SIGTERM', 'running')
        """
        if self.number is None:
            return self.kind
        return f"{self.kind} {signal_name(self.number) if self.kind == 'signaled' else self.number}"


@dataclass(frozen=True)
class Process:
    """A program that a host runs; `line` is its line of the file. At `stop_ns` it gets `stop_signal`."""
    line: int
    path: str
    arguments: tuple[str, ...] = ()
    environment: tuple[tuple[str, str], ...] = ()
    start_ns: int = 0
    stop_ns: Optional[int] = None
    stop_signal: int = 15
    expected: Ending = Ending("exited", 0)
    user: Optional[str] = None

    @property
    def program(self) -> str:
        """The name of the program, without its folder."""
        return Path(self.path).name


@dataclass(frozen=True)
class Host:
    """A host: its name, its address, what is set before time 0, and its processes."""
    line: int
    name: str
    address: str
    sysctl: tuple[tuple[str, str], ...] = ()
    setup: tuple[str, ...] = ()
    processes: tuple[Process, ...] = ()

    def stem(self, index: int) -> str:
        """Returns how the names of a process's output files start, relative to the output folder."""
        return f"hosts/{self.name}/{self.processes[index].program}.{index}"


class NetworkLine(NamedTuple):
    """A command of the scenario at a moment (ns), and the line of the file that has it."""
    moment: int
    command: str
    line: int


@dataclass(frozen=True)
class Settings:
    """What simulated time costs, and what the guest is: part of an experiment, as its seed is.

    `syscall_ns` and `clock_read_ns` are the costs of a system call and of a clock read. One in `reads` clock
    reads is a system call. A poll without other work since the previous poll costs twice as much as that one,
    up to 2^(`polls` - 1) system calls; if `polls` is 0, all cost the same. `limit_s` is the longest run in
    seconds of real time. `jitter_ns` bounds the random delay of each start.
    """
    syscall_ns: int = 1000
    clock_read_ns: int = 0
    reads: int = 8
    polls: int = 6
    start_date_ns: int = START_DATE
    memory_mib: int = 512
    rootfs: Optional[Path] = None
    limit_s: int = 600
    jitter_ns: int = 0


@dataclass(frozen=True)
class Experiment:
    """A hosts file. Before the run `files` are written into the output folder; `template` is copied there."""
    file: str
    stop_ns: int
    seed: int
    network: tuple[NetworkLine, ...]
    hosts: tuple[Host, ...]
    steps: int = 10**7
    settings: Settings = field(default_factory=Settings)
    files: tuple[tuple[str, str], ...] = ()
    template: Optional[Path] = None

    def start_of(self, host: Host, index: int) -> int:
        """Returns when a process starts (ns): its start time plus a part of the jitter, by the seed."""
        start, jitter = host.processes[index].start_ns, self.settings.jitter_ns
        if jitter == 0:
            return start
        drawn = hashlib.sha256(f"{self.seed} {host.name} {index}".encode()).digest()
        return start + int.from_bytes(drawn, "big") % jitter

    def scenario(self) -> str:
        """Returns the network as a scenario, without traffic: line N + 1 of it is `network[N]`."""
        head = f"experiment hosts seed {self.seed} budget 65535 steps {self.steps}\n"
        lines = "".join(f"@{line.moment} {line.command}\n" for line in self.network)
        return f"{head}{lines}@{self.stop_ns} end\n"


# A warning of `check --explain` that means nothing here, since the seed has other uses than losses.
_EXPECTED = {"seed"}


class NetworkError(InputError):
    """A line of `network` that is not a command or would be refused. Has its `cause`, without its line."""

    def __init__(self, said: str, cause: str) -> None:
        super().__init__(said)
        self.cause = cause


def check_network(experiment: Experiment) -> list[str]:
    """Returns warnings about lines of `network`, each with its line of the file.

    Raises `NetworkError` with the file's line for the first line that is not a command or would be refused,
    and `ProgramError` if `dnlab` cannot be started."""
    done = subprocesses.run([program(), "check", "--explain"],
                            experiment.scenario().encode("ascii", "replace"))
    said = done.errors.decode(errors="replace")
    if done.status not in (0, 1):
        raise ProgramError(3, f"dnlab check ended with status {done.status}: {said.strip()}")
    found = list(findings(said))
    refused = [one for one in found if one.kind == "refused"]
    if done.status == 1 or refused:
        first = (refused or found)[0]
        raise NetworkError(_told(experiment, first), _cause_of(first))
    return [_told(experiment, one) for one in found if one.cause not in _EXPECTED]


def _told(experiment: Experiment, found: Finding) -> str:
    """Returns a message about a line of the file; the first line of the scenario is the experiment's."""
    place = found.line - 2
    line = experiment.network[place].line if 0 <= place < len(experiment.network) else 1
    return f"{experiment.file}:{line}: network: {_cause_of(found)}"


def _cause_of(found: Finding) -> str:
    return f"{found.cause}: {found.told()}"
