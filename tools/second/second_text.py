"""Parts of tools/second/second: reads and lists rules and configurations, written from
docs/explanation/rules.md, docs/reference/scenario.md and docs/reference/report.md. It assumes that the words
are a valid line of a scenario."""
from collections import deque
from dataclasses import dataclass
from typing import NamedTuple

import scenario_text

PROTOCOLS = {"tcp": 6, "udp": 17}
# The protocol number that a rule matches; None matches any.
RULE_PROTOCOLS: dict[str, int | None] = {"ip": None, **PROTOCOLS}
FIELDS = {"proto": ("proto", 2), "src-ip": ("src", 8), "dst-ip": ("dst", 8), "src-port": ("sport", 4),
          "dst-port": ("dport", 4)}

# The words of a line that are not read yet.
Words = deque[str]


class Load(NamedTuple):
    """The load of a packet: the numbers of a flow and of a byte ("data" or "ack"), or nothing ("plain")."""

    kind: str
    flow: int
    byte: int


PLAIN = Load("plain", 0, 0)


@dataclass
class Packet:
    proto: int
    src: int
    sport: int
    dst: int
    dport: int
    size: int
    load: Load
    serial: int
    # The place of the rule after which the packet's search continues.
    place: tuple[int, int]


def number_of(address: str) -> int:
    parts = [int(part) for part in address.split(".")]
    return parts[0] << 24 | parts[1] << 16 | parts[2] << 8 | parts[3]


def dotted(number: int) -> str:
    return ".".join(str(number >> shift & 255) for shift in (24, 16, 8, 0))


class End:
    """One end of a rule: an address with a prefix length, and ports."""

    def __init__(self, words: Words) -> None:
        word = words.popleft()
        address, _, length = ("0.0.0.0/0" if word == "any" else word).partition("/")
        self.length = int(length or 32)
        self.mask = (2**32 - 1) >> self.length ^ (2**32 - 1)
        self.address = number_of(address) & self.mask
        self.ports: tuple[int, int] | None = None
        if words and words[0] != "to":
            first, _, last = words.popleft().partition("-")
            self.ports = (int(first), int(last or first))

    def has(self, address: int, port: int) -> bool:
        return (address & self.mask == self.address
                and (not self.ports or self.ports[0] <= port <= self.ports[1]))

    def text(self) -> str:
        address = ("any" if not self.length
                   else dotted(self.address) + (f"/{self.length}" if self.length < 32 else ""))
        if not self.ports:
            return address
        first, last = self.ports
        return f"{address} {first}" if first == last else f"{address} {first}-{last}"


class Rule:
    def __init__(self, line: list[str], order: int) -> None:
        words = deque(line[1:])
        self.number = int(words.popleft())
        self.place = (self.number, order)
        self.action = words.popleft()
        self.target = int(words.popleft()) if self.action in ("skipto", "pipe") else None
        self.proto = words.popleft()
        words.popleft()
        self.source = End(words)
        words.popleft()
        self.sink = End(words)
        self.packets = self.bytes = 0

    def goal(self) -> int:
        """Returns the number of the rule or the pipe that skipto or pipe names."""
        assert self.target is not None
        return self.target

    def matches(self, packet: Packet) -> bool:
        return (RULE_PROTOCOLS[self.proto] in (None, packet.proto)
                and self.source.has(packet.src, packet.sport)
                and self.sink.has(packet.dst, packet.dport))

    def text(self) -> str:
        action = self.action if self.target is None else f"{self.action} {self.target}"
        return (f"rule {self.number:05} {self.packets} {self.bytes} {action} {self.proto} "
                f"from {self.source.text()} to {self.sink.text()}")


def split_unit(word: str) -> tuple[int, str]:
    digits = word.rstrip("KMGBytesbit/mu")
    return int(digits), word[len(digits):]


class Config:
    """The configuration of a line `pipe P config ..`. Options that are not given have their defaults."""

    def __init__(self, line: list[str]) -> None:
        # Options, and those of `mask` and `codel`, have names of their own, and each is before its value.
        found = dict(zip(line, [*line[1:], ""]))
        number, unit = split_unit(found.get("bw", "0"))
        scale = scenario_text.SCALES[unit[:1] if unit[:1] in ("K", "M", "G") else ""]
        self.bw = number * scale * (8 if unit.endswith("Byte/s") else 1)
        self.delay = split_unit(found.get("delay", "0"))[0]
        self.queue, unit = split_unit(found.get("queue", "50"))
        self.kbytes = bool(unit)
        whole, _, part = found.get("plr", "0").partition(".")
        self.plr = int(whole) * 10**6 + int(part.ljust(6, "0"))
        self.is_codel = "codel" in found
        times = [split_unit(found.get(name, usual)) for name, usual in (("target", "5"), ("interval", "100"))]
        self.target, self.interval = (number * scenario_text.TIMES[unit] for number, unit in times)
        self.mask = {name: int(found.get(name, "0"), 16) for name in FIELDS}
        if found.get("mask") == "all":
            self.mask = {name: 16**digits - 1 for name, (_, digits) in FIELDS.items()}

    def discipline(self) -> str:
        return f"codel target {self.target} interval {self.interval}" if self.is_codel else "droptail"

    def text(self) -> str:
        mask = "/".join(f"{self.mask[name]:0{digits}x}" for name, (_, digits) in FIELDS.items())
        queue = f"{self.queue}KBytes" if self.kbytes else self.queue
        return f"bw {self.bw} delay {self.delay} queue {queue} plr {self.plr} mask {mask} {self.discipline()}"
