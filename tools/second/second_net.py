"""Parts of tools/second/second: the code that moves packets in one experiment, written from
docs/explanation/rules.md and docs/explanation/order.md."""
import heapq
from collections import deque
from collections.abc import Callable, Iterator
from dataclasses import dataclass
from typing import NamedTuple

from second_parts import MOST_INSTANCES, Codel, Instance, Sender
from second_text import FIELDS, PLAIN, Config, Load, Packet, Rule, dotted

CAUSES = ("denied", "nopipe", "noinstance", "lost", "full", "codel", "deleted", "budget")
TRANSPORTS = {6: "tcp", 17: "udp"}
DEFAULT = "add 65535 deny ip from any to any".split()

# The source address and port, and the destination address and port.
Ends = tuple[int, int, int, int]
# The masked fields of a packet, which identify its instance.
Name = tuple[int, ...]
# A time (ns), a class and a number, by which order.md sorts events.
Due = tuple[int, int, int]


class Event(NamedTuple):
    """An event, the function that executes it, and its place: a pipe's number and an instance's index, or a
    source's number and 0."""

    due: Due
    call: Callable[[int, int], None]
    where: tuple[int, int]


@dataclass
class Train:
    proto: int
    ends: Ends
    size: int
    # The number of packets still to be sent, the time between two of them, and the time of the next one (ns).
    left: int
    gap: int
    next: int


@dataclass
class Flow:
    sender: Sender
    ends: Ends
    # The first bytes of segments that arrived out of order, and the first byte that has not arrived.
    kept: set[int]
    missing: int


Source = Train | Flow


class Pipe:
    def __init__(self, config: Config) -> None:
        self.config = config
        self.places: dict[Name, int] = {}
        self.instances: list[Instance] = []

    def name_of(self, packet: Packet) -> Name:
        """Returns the masked fields of a packet."""
        return tuple(getattr(packet, field) & self.config.mask[word] for word, (field, _) in FIELDS.items())

    def find(self, packet: Packet) -> int | None:
        """Returns the index of the packet's instance, which is created if it is new, or None if there can be
        no more."""
        name = self.name_of(packet)
        if name not in self.places:
            if len(self.instances) == MOST_INSTANCES:
                return None
            self.places[name] = len(self.instances)
            self.instances.append(Instance())
        return self.places[name]

    def configure(self, config: Config) -> None:
        for instance in self.instances:
            instance.cut_period()
            if config.discipline() != self.config.discipline():
                instance.codel = Codel()
        self.config = config


def load_text(load: Load) -> str:
    return load.kind if load == PLAIN else f"{load.kind} {load.flow} {load.byte}"


def identifier_text(name: Name) -> str:
    return "/".join(f"{value:0{digits}x}" for value, (_, digits) in zip(name, FIELDS.values()))


class Net:
    """The state of one experiment, and the lines of its report."""

    pipes: dict[int, Pipe]
    sources: dict[int, Source]

    def __init__(self, seed: int, budget: int) -> None:
        self.seed, self.budget = seed, budget
        self.rules, self.adds = [Rule(DEFAULT, 0)], 0
        self.pipes, self.sources = {}, {}
        # The events of pipes, noted when an instance changed. Some of them may be obsolete.
        self.noted: list[Due] = []
        self.link: deque[tuple[int, Packet]] = deque()
        self.one_pass, self.trace, self.now, self.is_over = 1, 0, 0, False
        self.made = self.held = self.delivered = 0
        self.drops = [0] * 8
        self.lines: list[str] = []

    def say(self, *words: object) -> None:
        self.lines.append(" ".join(str(word) for word in (self.now, *words)))

    def make(self, proto: int, src: int, sport: int, dst: int, dport: int, size: int, load: Load) -> None:
        packet = Packet(proto=proto, src=src, sport=sport, dst=dst, dport=dport, size=size, load=load,
                        serial=self.made, place=(0, 0))
        self.made += 1
        self.held += 1
        if self.trace:
            self.say("make", packet.serial, load_text(load), TRANSPORTS[proto], dotted(src), sport,
                     dotted(dst), dport, size)
        if self.held > self.budget:
            self.drop(packet, "budget")
        else:
            self.search(packet)

    def drop(self, packet: Packet, cause: str) -> None:
        self.held -= 1
        self.drops[CAUSES.index(cause)] += 1
        self.say("drop", packet.serial, load_text(packet.load), cause)

    def search(self, packet: Packet) -> None:
        """Applies the rules after the packet's place."""
        least = 0
        for rule in self.rules:
            if rule.place <= packet.place or rule.number < least or not rule.matches(packet):
                continue
            rule.packets += 1
            rule.bytes += packet.size
            if rule.action == "skipto":
                least = rule.goal()
            elif rule.action != "count":
                break
        if rule.action == "deny":
            self.drop(packet, "denied")
        elif rule.action == "allow":
            self.link.append((self.now + 1, packet))
        else:
            packet.place = rule.place
            self.arrive(packet, rule.goal())

    def arrive(self, packet: Packet, number: int) -> None:
        pipe = self.pipes.get(number)
        if not pipe:
            return self.drop(packet, "nopipe")
        there = len(pipe.instances)
        place = pipe.find(packet)
        if place is None:
            return self.drop(packet, "noinstance")
        if self.trace:
            if place == there:
                self.say("identify", f"{number}.{place}", identifier_text(pipe.name_of(packet)))
            self.say("arrive", packet.serial, f"{number}.{place}")
        instance = pipe.instances[place]
        if instance.is_lost(self.seed, (number - 1) * 65536 + place, pipe.config.plr):
            return self.drop(packet, "lost")
        if not instance.has_room(packet.size, pipe.config):
            return self.drop(packet, "full")
        instance.enqueue(packet, self.now)
        if not instance.serving:
            instance.serve(self.now, pipe.config, False)
            self.note(number, place)

    def finish(self, number: int, place: int) -> None:
        pipe = self.pipes[number]
        instance = pipe.instances[place]
        assert instance.serving is not None
        self.say("finish", instance.serving.serial, f"{number}.{place}")
        instance.enter_line(instance.serving, self.now, pipe.config)
        for packet in instance.serve(self.now, pipe.config, True):
            self.drop(packet, "codel")
        self.note(number, place)

    def exit(self, number: int, place: int) -> None:
        if not number:
            return self.deliver(self.link.popleft()[1])
        _, packet = self.pipes[number].instances[place].line.popleft()
        self.note(number, place)
        if self.one_pass:
            return self.deliver(packet)
        self.say("pass", packet.serial, f"{number}.{place}")
        self.search(packet)

    def flow_of(self, number: int) -> Flow:
        """Returns the source of this number, which must be a flow."""
        source = self.sources[number]
        assert isinstance(source, Flow)
        return source

    def deliver(self, packet: Packet) -> None:
        self.held -= 1
        self.delivered += 1
        self.say("deliver", packet.serial, load_text(packet.load))
        if packet.load.kind == "data":
            flow = self.flow_of(packet.load.flow)
            flow.kept.add(packet.load.byte)
            while flow.missing in flow.kept:
                flow.kept.remove(flow.missing)
                flow.missing += flow.sender.smss
            dst, dport, src, sport = flow.ends
            self.make(6, src, sport, dst, dport, 40, Load("ack", packet.load.flow, flow.missing))
        elif packet.load.kind == "ack" and not self.flow_of(packet.load.flow).sender.is_stopped:
            sender = self.flow_of(packet.load.flow).sender
            sender.ack(packet.load.byte, self.now)
            self.say("ack", packet.load.flow, sender.cwnd, sender.ssthresh)

    def expire(self, number: int, _: int) -> None:
        sender = self.flow_of(number).sender
        sender.expire(self.now)
        self.say("expire", number, sender.cwnd, sender.ssthresh)

    def emit(self, number: int, _: int) -> None:
        source = self.sources[number]
        if isinstance(source, Flow):
            sender = source.sender
            self.make(6, *source.ends, sender.smss + 40, Load("data", number, sender.emit(self.now)))
        else:
            source.left -= 1
            source.next += source.gap
            self.make(source.proto, *source.ends, source.size, PLAIN)

    def due_of(self, kind: int, number: int, place: int) -> int | None:
        """Returns the time (ns) of the next exit (kind 1) or finish (kind 2) of an instance, or None."""
        pipe = self.pipes.get(number)
        if not pipe or place >= len(pipe.instances):
            return None
        instance = pipe.instances[place]
        if kind == 1:
            return instance.line[0][0] if instance.line else None
        return instance.finish

    def note(self, number: int, place: int) -> None:
        for kind in 1, 2:
            moment = self.due_of(kind, number, place)
            if moment is not None:
                heapq.heappush(self.noted, (moment, kind, number * 256 + place))

    def least_of_pipes(self) -> Due | None:
        """Returns the first noted event that is still due, or None."""
        while self.noted:
            moment, kind, where = self.noted[0]
            if self.due_of(kind, where // 256, where % 256) == moment:
                return self.noted[0]
            heapq.heappop(self.noted)
        return None

    def dues(self) -> Iterator[Event]:
        """Yields the events that are due, except the command; of the events of pipes only the first."""
        if self.link:
            yield Event((self.link[0][0], 1, 0), self.exit, (0, 0))
        least = self.least_of_pipes()
        if least:
            yield Event(least, self.exit if least[1] == 1 else self.finish, divmod(least[2], 256))
        for number, source in self.sources.items():
            if isinstance(source, Train):
                if source.left:
                    yield Event((source.next, 4, number), self.emit, (number, 0))
            elif not source.sender.is_stopped:
                sender = source.sender
                if sender.timer is not None:
                    yield Event((sender.timer, 3, number), self.expire, (number, 0))
                if sender.may_emit():
                    yield Event((self.now, 4, number), self.emit, (number, 0))
