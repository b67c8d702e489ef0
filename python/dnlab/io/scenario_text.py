"""Texts of scenarios: split between their experiments, so that the program can read them, and traced."""
import re
from typing import Iterable, Iterator, NamedTuple, Optional, Sequence

from dnlab.io.scenario import Judged
from dnlab.io.scenario_parts import MOST_BYTES, MOST_EXPERIMENTS, STEPS

class Part(NamedTuple):
    """An experiment of a text: its name, the line of its heading (from 1), its number of commands, and its
    lines up to the next heading."""
    name: str
    line: int
    commands: int
    text: bytes


class Fault(NamedTuple):
    """The first fault of a text: its line and the cause."""
    line: int
    cause: str


def lines_in(text: bytes) -> Iterator[tuple[int, bytes, int]]:
    """Yields the lines of a text that start an experiment: position, line (bytes) and number, from 1."""
    place = number = 0
    while True:
        found = text.find(b"experiment", place)
        if found < 0:
            return
        begin = text.rfind(b"\n", 0, found) + 1
        end = text.find(b"\n", found)
        end = len(text) if end < 0 else end
        number += text.count(b"\n", place, begin)
        if text[begin:end].split(None, 1)[0] == b"experiment":
            yield begin, text[begin:end], number + 1
        number += end < len(text)
        place = min(end + 1, len(text))


def names_of(text: bytes) -> list[str]:
    """Returns the names of a text's experiments, '' for a heading without one."""
    return [(heading.split()[1:2] or [b""])[0].decode("ascii", "replace") for _, heading, _ in lines_in(text)]


def experiments_in(texts: Iterable[bytes]) -> list[Part]:
    """Returns the experiments of some texts, in order. What precedes the first heading of a text is left out,
    since it is comments."""
    found = []
    for text in texts:
        headings = list(lines_in(text))
        ends = [place for place, _, _ in headings[1:]] + [len(text)]
        for (place, heading, number), end in zip(headings, ends):
            words = heading.split()
            own = text[place:end]
            commands = own.count(b"\n@") + sum(line.lstrip(b" ").startswith(b"@") for line in own.split(b"\n")
                                               if line.startswith(b" "))
            found.append(Part(words[1].decode("ascii", "replace") if len(words) > 1 else "", number,
                              commands, own))
    return found


def texts_of(parts: Sequence[Part]) -> list[list[Part]]:
    """Returns the experiments in as few texts as the program's limits allow, in order: each has at most 256
    of them and 16777216 bytes."""
    found: list[list[Part]] = []
    size = 0
    for part in parts:
        if not found or len(found[-1]) == MOST_EXPERIMENTS or size + len(part.text) > MOST_BYTES:
            found.append([])
            size = 0
        found[-1].append(part)
        size += len(part.text)
    return found


def groups(costs: Sequence[int], parts: int) -> list[int]:
    """Returns where each of `parts` groups ends: contiguous, none empty, each end as close as possible to its
    share of all costs.

    >>> groups([9, 1, 1, 1], 2), groups([3, 3, 3, 3], 2)
    ([1, 4], [2, 4])
    """
    parts = max(1, min(parts, len(costs)))
    ends: list[int] = []
    sums = [0]
    for cost in costs:
        sums.append(sums[-1] + cost)
    for part in range(1, parts):
        least, most = (ends[-1] if ends else 0) + 1, len(costs) - (parts - part)
        wanted = part * sums[-1]
        end = least
        # The sums increase, so the nearest is the first one that is not farther than the next.
        while end < most and abs(sums[end + 1] * parts - wanted) < abs(sums[end] * parts - wanted):
            end += 1
        ends.append(end)
    return ends + [len(costs)]


def shares(parts: Sequence[Part], count: int) -> list[list[Part]]:
    """Returns the experiments in `count` groups with about the same number of commands; in more, if a group
    would exceed the program's limits."""
    found = []
    begin = 0
    for end in groups([part.commands for part in parts], count) if parts else []:
        found += texts_of(parts[begin:end])
        begin = end
    return found


def repeated(parts: Sequence[Part], before: set[str]) -> Optional[Part]:
    """Returns the first experiment whose name occurred before, and adds the names to `before`."""
    for part in parts:
        if part.name in before:
            return part
        before.add(part.name)
    return None


def heading_fault(line: bytes) -> Optional[str]:
    """Returns the fault of a heading by itself, or None."""
    fault = Judged(line.split(b"\n")[0] + b"\n").fault
    return None if fault is None or fault[1] == "noend" else fault[1]


# The maximum output of one step, one command, one `show` and one `pipe show`, in bytes, with a margin: a
# listing has 256 rules, or 64 pipes of 256 instances.
_STEP, _COMMAND, _RULES, _INSTANCES = 1 << 10, 1 << 8, 1 << 16, 1 << 22
# Further output, on standard error.
_SAID = 1 << 20
# What one step may send at once: windows of many flows, in steps.
_BURST = 1 << 14
_LISTING = re.compile(rb" show\b")
_WORDS = re.compile(rb" steps +([0-9]{1,8})")


def most_report(text: bytes) -> int:
    """Returns the maximum length of the reports of a text in bytes, from its steps and commands.

    >>> most_report(b"experiment a seed 1 budget 1 steps 10\\n@0 end\\n")
    17836544
    """
    said = [_WORDS.search(heading) for _, heading, _ in lines_in(text)]
    steps = sum(_BURST + (int(found[1]) if found else STEPS) for found in said)
    listings = [text[text.rfind(b"\n", 0, found.start()) + 1:found.start()]
                for found in _LISTING.finditer(text)]
    pipes = sum(before.split()[-1:] == [b"pipe"] for before in listings)
    return _SAID + steps * _STEP + text.count(b"\n") * _COMMAND + pipes * _INSTANCES + (
        len(listings) - pipes) * _RULES


_HEADING = re.compile(rb"^( *experiment\b[^\n]*?)(?:( +steps +)([0-9]+))? *\n", re.MULTILINE)
_OFF = re.compile(rb"^( *@[0-9]+ +trace +)0", re.MULTILINE)
_ANSWER = re.compile(rb"^([0-9]+ (?:ok|refused) )([0-9]+)", re.MULTILINE)
# The maximum of `steps`; an experiment that has it gets no more.
_MOST_STEPS = 10**7


def traced(text: bytes) -> bytes:
    """Returns a valid scenario with tracing from the first command of each experiment on, for an engine
    without `--trace`: the library, and sessions.

    A `trace 1` becomes the first command of each experiment, which has one more step for it, and later
    `trace` commands say 1. The command is removed from the report, so the others keep their numbers.

    >>> traced(b"experiment a seed 1 budget 2 steps 30\\n@5 trace 0\\n@9 end\\n")
    b'experiment a seed 1 budget 2 steps 31\\n@0 trace 1\\n@5 trace 1\\n@9 end\\n'
    """
    def more(found: "re.Match[bytes]") -> bytes:
        steps = min(int(found[3] or STEPS) + 1, _MOST_STEPS)
        return found[1] + (found[2] or b" steps ") + str(steps).encode() + b"\n@0 trace 1\n"

    return _HEADING.sub(more, _OFF.sub(rb"\g<1>1", text))


def without_trace(report: bytes) -> bytes:
    """Returns the report of a scenario from `traced` without the added command.

    >>> without_trace(b"experiment a\\n0 ok 0\\n9 ok 1\\ncounters 0 0 0 0 0 0 0 0 0 0 0\\n")
    b'experiment a\\n9 ok 0\\ncounters 0 0 0 0 0 0 0 0 0 0 0\\n'
    """
    report = re.sub(rb"^(experiment [^\n]*\n)0 ok 0\n", rb"\1", report, flags=re.MULTILINE)
    return _ANSWER.sub(lambda found: found[1] + str(int(found[2]) - 1).encode(), report)
