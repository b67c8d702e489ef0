"""The terms of a scenario's commands and of a report's lines, as emu_laws writes them."""
import pathlib
import re
import sys
from collections.abc import Callable
from typing import NamedTuple

sys.path.append(str(pathlib.Path(__file__).resolve().parents[1] / "second"))

from second_text import Config, number_of  # noqa: E402  (the path is set first)

REFUSALS = {10: "BadNumber", 11: "BadSkip", 12: "RulesFull", 13: "NoRule", 20: "NoSuchPipe",
            21: "MaskFixed", 22: "FlowThere", 23: "NoFlow", 24: "TooManyPipes", 25: "TooManyFlows"}
CAUSES = {"denied": "Denied", "nopipe": "NoPipe", "noinstance": "NoInstance", "lost": "Lost",
          "full": "Full", "codel": "Codel", "deleted": "Deleted", "budget": "Budget"}
ACTIONS = {"allow": "Allow", "deny": "Deny", "count": "Count", "skipto": "(SkipTo {})", "pipe": "(Pipe {})"}
PROTOCOLS = {"ip": "AnyProtocol", "tcp": "OnlyTcp", "udp": "OnlyUdp"}
# The time of a command (ns), and its term.
Timed = tuple[int, str]


class Experiment(NamedTuple):
    name: str
    seed: int
    packets: int
    steps: int
    commands: list[Timed]


def place(words: list[str]) -> str:
    """Returns the terms of a rule's prefix and ports. Like `Prefix::new`, it clears the bits after the
    length."""
    base, _, length = words[0].partition("/")
    prefix = ("anywhere" if base == "any"
              else f"(address_span {number_of(base)} {int(length) if length else 32})")
    if len(words) == 1:
        return f"{prefix} None"
    low, _, high = words[1].partition("-")
    return f"{prefix} (ports {int(low)} {int(high or low)})"


def rule(number: int, words: list[str]) -> str:
    """Returns the term of a rule, from its words from ACTION on."""
    action = ACTIONS[words[0]]
    if "{}" in action:
        action = action.format(int(words[1]))
        words = words[1:]
    to = words.index("to")
    ends = f"{place(words[3:to])} {place(words[to + 1:])}"
    if ends == "anywhere None anywhere None":
        return f"rule_for_all {number} {action} {PROTOCOLS[words[1]]}"
    return f"rule {number} {action} {PROTOCOLS[words[1]]} {ends}"


def queue(word: str) -> str:
    return f"({'Slots' if word.isdigit() else 'KBytes'} {int(word.rstrip('KBbytes'))})"


def pipe_with(bw: int, delay: int, limit: str, plr: int, mask: tuple[int, ...], discipline: str) -> str:
    masked = f"(masked {' '.join(map(str, mask))})" if any(mask) else "unmasked"
    return f"pipe_with {bw} {delay} {limit} {plr} {masked} {discipline}"


def config(words: list[str]) -> str:
    """Returns the term of a pipe's configuration, from its options."""
    read = Config(words)
    discipline = f"(ControlledDelay {read.target} {read.interval})" if read.is_codel else "TailDrop"
    limit = f"({'KBytes' if read.kbytes else 'Slots'} {read.queue})"
    return pipe_with(read.bw, read.delay, limit, read.plr, tuple(read.mask.values()), discipline)


def packet(protocol: str, words: list[str]) -> str:
    source, sport, target, dport, size = words
    return (f"packet {protocol.capitalize()} {number_of(source)} {int(sport)} {number_of(target)} "
            f"{int(dport)} {int(size)}")


def flow(words: list[str]) -> str:
    options = dict(ssthresh="65535", window="65535", rto="1000") | dict(zip(words[8::2], words[9::2]))
    timing = "Adaptive" if options["rto"] == "adaptive" else f"(Fixed {int(options['rto'])})"
    return (f"flow {number_of(words[0])} {int(words[1])} {number_of(words[2])} {int(words[3])} "
            f"{int(words[5])} {int(words[7])} {int(options['ssthresh'])} {int(options['window'])} {timing}")


def pipe(words: list[str]) -> str:
    if words[0] == "show":
        return "PipeShow"
    return (f"PipeDelete {int(words[1])}" if words[0] == "delete"
            else f"Config {int(words[0])} ({config(words[2:])})")


# The functions that return the term of a command, by its first word, from the others.
COMMANDS: dict[str, Callable[[list[str]], str]] = {
    "add": lambda w: f"Add ({rule(int(w[0]), w[1:])})",
    "delete": lambda w: f"Delete {int(w[0])}",
    "pipe": pipe,
    "show": lambda w: "Show",
    "inject": lambda w: f"Inject ({packet(w[0], w[1:])})",
    "train": lambda w: f"Train {int(w[0])} (train ({packet(w[1], w[2:7])}) {int(w[8])} {int(w[10])})",
    "one_pass": lambda w: f"OnePass {'true' if w[0] == '1' else 'false'}",
    "trace": lambda w: f"Trace {'true' if w[0] == '1' else 'false'}",
    "flow": lambda w: f"Flow {int(w[0])} ({flow(w[1:])})",
    "stop": lambda w: f"Stop {int(w[0])}",
    "end": lambda w: "End",
}


def load(words: list[str]) -> tuple[str, list[str]]:
    """Returns the term of a load, and the words after it."""
    if words[0] == "plain":
        return "Plain", words[1:]
    return f"({'Seg' if words[0] == 'data' else 'Ack'} {int(words[1])} {int(words[2])})", words[3:]


def shown(words: list[str]) -> str:
    """Returns the term of a line of `show` or `pipe show`, which has no time."""
    if words[0] == "rule":
        return f"RuleLine ({rule(int(words[1]), words[4:])}) {int(words[2])} {int(words[3])}"
    found = dict(zip(words[2::2], words[3::2]))
    if words[0] == "instance":
        busy = "true" if found["busy"] == "1" else "false"
        return (f"InstanceLine {words[1].replace('.', ' ')} {found['waiting']} {found['bytes']} {busy}"
                f" {found['flight']} {found['drawn']}")
    discipline = (f"(ControlledDelay {int(words[14])} {int(words[16])})" if words[12] == "codel"
                  else "TailDrop")
    mask = tuple(int(word, 16) for word in found["mask"].split("/"))
    described = pipe_with(int(found["bw"]), int(found["delay"]), queue(found["queue"]), int(found["plr"]),
                          mask, discipline)
    return f"PipeLine {int(words[1])} ({described})"


def made(moment: str, words: list[str], plain: str) -> str:
    """Returns the term of a line `make`, if a packet without a load has the origin `plain`."""
    term, (protocol, source, sport, target, dport, size) = load(words[1:])
    by = {"Plain": plain}.get(term, term.replace("Seg", "BySender").replace("Ack", "ByReceiver")).strip("()")
    return (f"PacketMade {moment} {words[0]} ({by}) {protocol.capitalize()} {number_of(source)} {sport} "
            f"{number_of(target)} {dport} {size}")


def dropped(moment: str, words: list[str]) -> str:
    term, rest = load(words[1:])
    return f"PacketDropped {moment} {words[0]} {term} {CAUSES[rest[0]]}"


def identified(moment: str, words: list[str]) -> str:
    fields = " ".join(str(int(word, 16)) for word in words[1].split("/"))
    return f"InstanceIdentified {moment} {words[0].replace('.', ' ')} {fields}"


# The functions that return the term of a line, by the line's second word, from its time and the words after
# the second.
RECORDS: dict[str, Callable[[str, list[str]], str]] = {
    "ok": lambda m, w: f"CommandDone {m} {w[0]}",
    "refused": lambda m, w: f"CommandRefused {m} {w[0]} {REFUSALS[int(w[1])]}",
    "arrive": lambda m, w: f"PacketArrived {m} {w[0]} {w[1].replace('.', ' ')}",
    "identify": identified,
    "finish": lambda m, w: f"PacketFinished {m} {w[0]} {w[1].replace('.', ' ')}",
    "deliver": lambda m, w: f"PacketDelivered {m} {w[0]} {load(w[1:])[0]}",
    "drop": dropped,
    "pass": lambda m, w: f"PacketPassed {m} {w[0]} {w[1].replace('.', ' ')}",
    "ack": lambda m, w: f"AckTaken {m} {w[0]} {w[1]} {w[2]}",
    "expire": lambda m, w: f"TimerExpired {m} {w[0]} {w[1]} {w[2]}",
    "spent": lambda m, w: f"StepsSpent {m}",
}


class Origins:
    """Finds what created the packets without a load, from the commands and the lines of a report, in their
    order."""

    def __init__(self, commands: list[Timed]) -> None:
        self.commands = commands
        # The number of the last line's command, if that line is an `ok`.
        self.done: int | None = None
        # The times at which each train sends its next packets, by its number.
        self.trains: dict[int, list[int]] = {}

    def of(self, now: int) -> str:
        """Returns the term of the origin of such a packet that is created now.

        The line of an `inject` is directly before that of its packet. Of the trains that are due, the one
        with the least number comes first, until it has sent its packets of this time.
        """
        if self.done is not None and self.commands[self.done][1].startswith("Inject "):
            return f"ByCommand {self.done}"
        number = min(number for number, times in self.trains.items() if now in times)
        self.trains[number].remove(now)
        return f"ByTrain {number}"

    def record(self, line: str) -> str:
        """Returns the term of the next line."""
        words = line.split()
        if not words[0].isdigit():
            term = shown(words)
        elif words[1] == "make":
            term = made(words[0], words[2:], self.of(int(words[0])) if words[3] == "plain" else "")
        else:
            term = RECORDS[words[1]](words[0], words[2:])
        self.done = int(words[2]) if words[1] == "ok" else None
        train = re.fullmatch(r"Train (\d+) \(train \(.*\) (\d+) (\d+)\)", self.commands[self.done or 0][1])
        if self.done is not None and train:
            number, count, gap = map(int, train.groups())
            self.trains[number] = [int(words[0]) + sent * gap for sent in range(count)]
        return term


def experiments(text: str) -> list[Experiment]:
    """Returns the experiments of a scenario."""
    found: list[Experiment] = []
    for line in text.splitlines():
        words = line.split()
        if words[:1] == ["experiment"]:
            steps = int(words[7]) if len(words) > 6 else 10**6
            found.append(Experiment(words[1], int(words[3]), int(words[5]), steps, []))
        elif words and not words[0].startswith("#"):
            found[-1].commands.append((int(words[0][1:]), COMMANDS[words[1]](words[2:])))
    return found
