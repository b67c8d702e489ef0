"""The contents of a scenario: experiments, their commands and what these send; and the limits of
docs/reference/scenario.md."""
import re
from bisect import bisect_right
from typing import TYPE_CHECKING, Iterable, Iterator, Mapping, NamedTuple, Optional, Sequence, Union, overload

if TYPE_CHECKING:
    from dnlab.io.rows import Ints

DROP_CAUSES = ("denied", "nopipe", "noinstance", "lost", "full", "codel", "deleted", "budget")
MOST_BYTES = 16777216
MOST_LINE = 512
MOST_EXPERIMENTS = 256
CAUSES = ("toobig", "cut", "toolong", "badbyte", "badword", "outofrange", "noend", "toomany", "samename",
          "noexperiment", "afterend", "backwards")
NUMBER = r"(?:0|[1-9][0-9]{0,19})"
BIT_UNITS = {"": 1, "bit/s": 1, "Byte/s": 8}
SCALES = {"": 1, "K": 10**3, "M": 10**6, "G": 10**9}
TIMES = {"": 10**6, "s": 10**9, "ms": 10**6, "us": 10**3}
MASKS = {"src-ip": 8, "dst-ip": 8, "src-port": 4, "dst-port": 4, "proto": 2}
MOMENTS = (0, 10**15)
STEPS = 10**6
# The defaults of a flow, and the size of its headers.
WINDOW = 65535
SSTHRESH = 65535
HEADER = 40
# The sender of injected packets without a name of the user's.
INJECTED = "injected"


class Sends(NamedTuple):
    """What a command sends: a packet of `inject`, a train or a flow.

    `size` is a packet's size in bytes, for flows with 40 bytes of headers; `count` packets or segments; `gap`
    in ns; `smss`, `window` and `ssthresh` in bytes; `source` and `target` are addresses."""
    word: str
    number: Optional[int]
    size: int
    count: int = 1  # type: ignore[assignment]  # tuples have a method of this name
    gap: int = 0
    smss: int = 0
    window: int = WINDOW
    ssthresh: int = SSTHRESH
    source: str = ""
    target: str = ""

    def name(self) -> str:
        """Returns the sender's name in tables.

        >>> Sends("train", 9, 100).name()
        'train 9'
        """
        return INJECTED if self.number is None else f"{self.word} {self.number}"


def first_window(smss: int) -> int:
    """Returns a flow's initial window, in bytes (RFC 5681, section 3.1, and docs/explanation/reno.md).

    >>> first_window(1095), first_window(1460)
    (4380, 4380)
    """
    return (4 if smss <= 1095 else 3) * smss


class Command(NamedTuple):
    """A command: its line, its time in ns, its first word and its text after the time.

    `sends` is what it sends, `stops` the flow that it stops, `pipe` the pipe that it configures, else
    None."""
    line: int
    moment: int
    word: str
    text: str
    sends: Optional[Sends] = None
    stops: Optional[int] = None
    pipe: Optional[int] = None


class Run(NamedTuple):
    """Successive `inject` lines, and empty ones between them: the number of the first, from 1, their bytes,
    and the times of the packets, ns."""
    line: int
    text: bytes
    moments: "Ints"

    def commands(self, begin: int = 0) -> Iterator[Command]:
        """Yields the commands, from an index on."""
        lines = [one for one in enumerate(self.text.decode("ascii").split("\n"), self.line) if one[1]]
        for number, line in lines[begin:]:
            moment, text = line[1:].split(" ", 1)
            words = text.split(" ")
            yield Command(number, int(moment), "inject", text,
                          Sends("inject", None, int(words[6]), source=words[2], target=words[4]))


class Commands(Sequence[Command]):
    """The commands of an experiment, in order. `inject` lines may be kept in `runs`, whose commands are
    created on use; `plain` has all others, each with its index. `runs` has the index of the first command of
    each."""

    def __init__(self) -> None:
        self.plain: list[tuple[int, Command]] = []
        self.runs: list[tuple[int, Run]] = []
        self._parts: list[Union[Command, Run]] = []
        self._places: list[int] = []
        self._count = 0

    def add(self, part: Union[Command, Run]) -> None:
        self._parts.append(part)
        self._places.append(self._count)
        if isinstance(part, Run):
            self.runs.append((self._count, part))
            self._count += len(part.moments)
        else:
            self.plain.append((self._count, part))
            self._count += 1

    def __len__(self) -> int:
        return self._count

    def __iter__(self) -> Iterator[Command]:
        for part in self._parts:
            if isinstance(part, Run):
                yield from part.commands()
            else:
                yield part

    @overload
    def __getitem__(self, place: int) -> Command:
        ...

    @overload
    def __getitem__(self, place: slice) -> list[Command]:
        ...

    def __getitem__(self, place: Union[int, slice]) -> Union[Command, list[Command]]:
        if isinstance(place, slice):
            return list(self)[place]
        at = range(self._count)[place]
        number = bisect_right(self._places, at) - 1
        part = self._parts[number]
        return next(part.commands(at - self._places[number])) if isinstance(part, Run) else part

    def text(self) -> bytes:
        """Returns all lines, without comments, empty lines and extra spaces."""
        return b"".join(re.sub(rb"\n+", b"\n", part.text).lstrip(b"\n") if isinstance(part, Run)
                        else f"@{part.moment} {part.text}\n".encode() for part in self._parts)


class Plan(NamedTuple):
    """An experiment of a scenario: its name, the line of its heading, seed, budgets of packets and of steps;
    `names` has the user's names for sources of injected packets (`dnlab.analysis.names`)."""
    name: str
    line: int
    seed: int
    budget: int
    steps: int
    commands: Commands
    names: Mapping[str, str] = {}

    def end(self) -> Optional[int]:
        """Returns the time of its `end`, in ns, or None."""
        return self.commands[-1].moment if self.commands and self.commands[-1].word == "end" else None

    def settings(self) -> str:
        """Returns the configurations of its pipes, in order, without extra spaces."""
        return "; ".join(command.text.replace(" config", "", 1) for _, command in self.commands.plain
                         if command.pipe is not None)


# CoDel's times, ns, and what a second `config` easily resets by omission, with the defaults as text.
CODEL = {"target": 5 * 10**6, "interval": 100 * 10**6}
DEFAULTS = {"bw": "no limit", "delay": "0 ms", "queue": "50 slots", "plr": "0"}
_MASK = "(?:" + "|".join(f"{name} 0x[0-9a-fA-F]{{1,{digits}}}" for name, digits in MASKS.items()) + ")"
_TIME = f"{NUMBER}(?:s|ms|us)?"
# The options of a `config`, each with a space before it; that each is there once isn't part of the pattern.
OPTIONS = (
    rf"(?: bw (?P<bw>{NUMBER}(?:[KMG]?(?:bit/s|Byte/s))?)| delay (?P<delay>{NUMBER}(?:ms)?)"
    rf"| queue (?P<queue>{NUMBER}(?:KBytes|Kbytes|KB|K)?)| plr (?P<plr>[01](?:\.[0-9]{{1,6}})?)"
    rf"| mask (?P<mask>all|{_MASK}(?: {_MASK})*)| droptail"
    rf"| (?P<codel>codel)(?: target (?P<target>{_TIME})| interval (?P<interval>{_TIME}))*)*")
_CONFIG = f"pipe {NUMBER} config{OPTIONS}"


class Config(NamedTuple):
    """A `config` of a pipe, with its line.

    `bw` is in bit/s (0 is unlimited), `delay` in ns, the queue's limit in `slots` or `bytes` (the other is
    None), `plr` in millionths; CoDel's `target` and `interval` are in ns (None without CoDel); `mask` is
    text; `given` has the options that it names, with their text."""
    line: int
    bw: int = 0
    delay: int = 0
    slots: Optional[int] = 50
    bytes: Optional[int] = None
    plr: int = 0
    codel: bool = False
    target: Optional[int] = None
    interval: Optional[int] = None
    mask: str = ""
    given: tuple[tuple[str, str], ...] = ()

    def words(self, *names: str) -> str:
        """Returns options in scenario syntax, with defaults for those it omits.

        >>> config_of(2, "pipe 1 config bw 8Mbit/s").words("bw", "delay")
        'bw 8Mbit/s delay 0'
        """
        known = {"bw": "0", "delay": "0", "queue": "50", "plr": "0", **dict(self.given)}
        return " ".join(f"{name} {known[name]}" for name in names)

    def fits(self) -> bool:
        """Returns whether all values are in their ranges."""
        times = [time for time in (self.target, self.interval) if time is not None]
        return (self.bw <= 10**10 and self.delay <= 60 * 10**9 and self.plr <= 10**6
                and 1 <= (self.slots or 1000) <= 1000 and 1024 <= (self.bytes or 1024) <= 2**20
                and self.slots != 0 != self.bytes and all(10**3 <= time <= 60 * 10**9 for time in times))


def config_of(line: int, text: str) -> Config:
    """Parses a valid `config`.

    >>> one = config_of(2, "pipe 1 config bw 8Mbit/s delay 10 queue 30KBytes mask src-ip 0xff codel target 5")
    >>> one.bw, one.delay, one.slots, one.bytes, one.target, one.interval
    (8000000, 10000000, None, 30720, 5000000, 100000000)
    """
    found = re.fullmatch(_CONFIG, text)
    assert found is not None
    queue, unit, _ = (found["queue"] or "50").partition("K")
    times = {name: time_of(found[name]) if found[name] else CODEL[name] if found["codel"] else None
             for name in CODEL}
    return Config(line, rate_of(found["bw"] or "0"), time_of(found["delay"] or "0"),
                  None if unit else int(queue),
                  int(queue) * 1024 if unit else None,
                  int((found["plr"] or "0").replace(".", "").ljust(7, "0")),
                  found["codel"] is not None, times["target"], times["interval"], found["mask"] or "",
                  tuple((name, found[name]) for name in DEFAULTS if found[name]))


def time_of(word: str) -> int:
    """Returns a time of an option in ns; milliseconds need no unit.

    >>> time_of("20"), time_of("5us")
    (20000000, 5000)
    """
    number = word.rstrip("mus")
    return int(number) * TIMES[word[len(number):]]


def rate_of(word: str) -> int:
    """Returns a rate in bit/s.

    >>> rate_of("10"), rate_of("8Mbit/s"), rate_of("2KByte/s")
    (10, 8000000, 16000)
    """
    for unit in ("bit/s", "Byte/s"):
        if word.endswith(unit):
            number = word.removesuffix(unit)
            scale = number[-1] if number[-1] in SCALES else ""
            return int(number.removesuffix(scale)) * SCALES[scale] * BIT_UNITS[unit]
    return int(word)


def rate_text(rate: int) -> str:
    """Returns a rate in scenario syntax.

    >>> rate_text(12000000), rate_text(1234), rate_text(0)
    ('12Mbit/s', '1234bit/s', '0bit/s')
    """
    scale = next((one for one in "GMK" if rate and rate % SCALES[one] == 0), "")
    return f"{rate // SCALES[scale]}{scale}bit/s"


class Change(NamedTuple):
    """An executed `config` of a pipe, or its deletion (`config` is None), and its time, ns."""
    moment: int
    config: Optional[Config]


def changes_of(done: Iterable[Command]) -> dict[int, list[Change]]:
    """Returns the changes of each pipe, in order, by the executed commands."""
    found: dict[int, list[Change]] = {}
    for command in done:
        if command.pipe is not None:
            found.setdefault(command.pipe, []).append(Change(command.moment,
                                                             config_of(command.line, command.text)))
        elif command.text.startswith("pipe delete "):
            found.setdefault(int(command.text.split()[2]), []).append(Change(command.moment, None))
    return found


def stretches_of(changes: Iterable[Change]) -> list[list[Change]]:
    """Returns the configurations of a pipe, in a list for each of its lifetimes between deletions."""
    found: list[list[Change]] = [[]]
    for change in changes:
        if change.config is None:
            found.append([])
        else:
            found[-1].append(change)
    return found


class Rule(NamedTuple):
    """A rule: its number, its action (`allow`, `deny`, `count`, `skipto`, `pipe`) with its argument (0 if it
    has none), the protocol, and addresses and ports of source and destination ('' is any port)."""
    number: int
    action: str
    value: int
    protocol: str
    source: str
    source_ports: str
    target: str
    target_ports: str

    def text(self) -> str:
        """Returns it in scenario syntax, without `add`."""
        action = f"{self.action} {self.value}" if self.value else self.action
        ends = (f"{self.source} {self.source_ports}".strip(), f"{self.target} {self.target_ports}".strip())
        return f"{self.number} {action} {self.protocol} from {ends[0]} to {ends[1]}"


def rule_of(text: str) -> Rule:
    """Parses a valid `add` command.

    >>> rule_of("add 100 pipe 1 tcp from 10.0.0.0/24 1-9 to any").text()
    '100 pipe 1 tcp from 10.0.0.0/24 1-9 to any'
    """
    words = text.split()
    number, action = int(words[1]), words[2]
    has_value = action in ("skipto", "pipe")
    value = int(words[3]) if has_value else 0
    rest = words[3 + has_value:]
    place = rest.index("to")
    source, target = rest[2:place], rest[place + 1:]
    return Rule(number, action, value, rest[0], source[0], source[1] if len(source) > 1 else "", target[0],
                target[1] if len(target) > 1 else "")
