"""The only reader of scenarios, written from docs/reference/scenario.md alone.

`Judged` finds the first fault and its line, as `dnlab check` must; `read` returns the experiments with their
commands. Needs only Python, and simulates nothing.
"""
import importlib.util
import re
from functools import cache, lru_cache
from typing import TYPE_CHECKING, Iterator, NamedTuple, Optional, Sequence, Union

from dnlab.errors import ParseError
from dnlab.io.scenario_parts import (HEADER, MASKS, MOMENTS, MOST_BYTES, MOST_EXPERIMENTS, MOST_LINE, NUMBER,
                                     OPTIONS, SSTHRESH, STEPS, WINDOW, Command, Commands, Plan, Run, Sends,
                                     config_of)

if TYPE_CHECKING:
    from dnlab.io.rows import Ints

__all__ = ["Command", "Judged", "MOST_BYTES", "MOST_EXPERIMENTS", "MOST_LINE", "Plan", "Sends", "read"]

# Below this number of injected packets, loading NumPy costs more than it saves.
MANY = 1000
# The numbers of lines, which the patterns have as `#port`, with their ranges. `upto` ends a range of ports.
RANGES = {"moment": MOMENTS, "seed": (0, 2**64 - 1), "budget": (1, 65535), "steps": (1, 10**7),
          "rule": (0, 99999), "number": (1, 65535), "octet": (0, 255), "prefix": (0, 32), "port": (0, 65535),
          "upto": (0, 65535), "size": (40, 1500), "count": (1, 10**6), "gap": (0, 10**12), "smss": (64, 1460),
          "ssthresh": (1, 10**9), "window": (1, 65535), "rto": (1, 60000), "switch": (0, 1)}
_IP = r"#octet\.#octet\.#octet\.#octet"
_END = rf"(?:any|{_IP}(?:/#prefix)?)(?: #port(?:-#upto)?)?"
_ENDS = rf"(?P<source>{_IP}) #port (?P<target>{_IP}) #port"
# The arguments of each command.
COMMANDS = {
    "add": rf" #rule (?:allow|deny|count|skipto #rule|pipe #number) (?:ip|tcp|udp) from {_END} to {_END}",
    "delete": " #rule", "pipe": f" (?:delete #number|show|#number config{OPTIONS})", "show": "",
    "inject": f" (?:tcp|udp) {_ENDS} #size",
    "train": f" #number (?:tcp|udp) {_ENDS} #size count #count gap #gap",
    "flow": f" #number {_ENDS} smss #smss segments #count(?: ssthresh #ssthresh| window #window| rto "
    "(?:#rto|adaptive))*",
    "stop": " #number", "one_pass": " #switch", "trace": " #switch", "end": ""}
# Options, which are in any order, but once.
_OPTIONS = {"pipe": ("bw", "delay", "queue", "plr", "codel", "target", "interval", "mask", *MASKS),
            "flow": ("ssthresh", "window", "rto")}


_HEADING = "experiment (?P<name>[a-z0-9_-]{1,32}) seed #seed budget #budget(?: steps #steps)?"


@cache
def _pattern(word: str) -> "re.Pattern[str]":
    """Returns the pattern of a command, or of a heading."""
    parts = re.split("#([a-z]+)", f"@#moment {word}{COMMANDS[word]}" if word in COMMANDS else _HEADING)
    return re.compile("".join(f"(?P<{part}_{place}>{NUMBER})" if place % 2 else part
                              for place, part in enumerate(parts)))


class BadLine(Exception):
    """A line is none of docs/reference/scenario.md by itself: `badword` or `outofrange`."""


def read_line(line: int, words: Sequence[str]) -> Union[Plan, Command]:
    """Returns an experiment, which has no commands yet, or a command, by the words of its line. Raises
    `BadLine`."""
    is_heading = words[0] == "experiment"
    word = words[1] if len(words) > 1 and not is_heading else ""
    found = _pattern(word if word in COMMANDS else "").fullmatch(" ".join(words))
    given = ["codel" if one == "droptail" else one for one in words]
    if found is None or any(given.count(option) > 1 for option in _OPTIONS.get(word, ())):
        raise BadLine("badword")
    of = _numbers(found)
    if is_heading:
        return Plan(found["name"], line, of["seed"], of["budget"], of.get("steps", STEPS), Commands())
    text, sends = " ".join(words[1:]), None
    is_config = word == "pipe" and "config" in words
    if is_config and not config_of(line, text).fits():
        raise BadLine("outofrange")
    if word in ("inject", "train", "flow"):
        smss = of.get("smss", 0)
        sends = Sends(word, of.get("number"), of.get("size", smss + HEADER), of.get("count", 1),
                      of.get("gap", 0), smss, of.get("window", WINDOW), of.get("ssthresh", SSTHRESH),
                      found["source"], found["target"])
    return Command(line, of["moment"], word, text, sends, of["number"] if word == "stop" else None,
                   of["number"] if is_config else None)


def _numbers(found: "re.Match[str]") -> dict[str, int]:
    """Returns the numbers of a line by their names, the last one of each. Raises `BadLine` for one out of its
    range."""
    numbers: dict[str, int] = {}
    for name, text in found.groupdict().items():
        kind = name.partition("_")[0]
        if text is not None and kind in RANGES:
            numbers[kind] = int(text)
            least, most = RANGES[kind]
            if not max(least, numbers["port"] if kind == "upto" else 0) <= numbers[kind] <= most:
                raise BadLine("outofrange")
    return numbers


class Judged:
    """The result of parsing a text: `fault` is None or (line, cause); `experiments` has the name and the
    number of commands of each.

    `plans` has the experiments with their commands, if they are kept. Texts that will be split may exceed the
    program's limits: then `limited` is False."""

    def __init__(self, text: bytes, keep: bool = False, limited: bool = True) -> None:
        self.experiments: list[tuple[str, int]] = []
        self.plans: dict[str, Plan] = {}
        self.keep = keep
        self.limited = limited
        self.names: set[str] = set()
        self.last = 0
        self.is_open = False
        self.fault: Optional[tuple[int, str]] = self.judge(text)

    def judge(self, text: bytes) -> Optional[tuple[int, str]]:
        if self.limited and len(text) > MOST_BYTES:
            return 0, "toobig"
        end = text.rfind(b"\n") + 1
        # Runs of many `inject` lines are read together, if NumPy is installed.
        is_many = text.count(b" inject ") >= MANY and importlib.util.find_spec("numpy") is not None
        for line, part in runs_in(text[:end]) if is_many else enumerate(text[:end].split(b"\n")[:-1], 1):
            if isinstance(part, Run):
                fault = self.injected(part)
                if fault:
                    return fault
            elif cause := self.cause(part, line):
                return line, cause
        cause = "cut" if end < len(text) else "noend" if self.is_open else None
        return (text.count(b"\n") + 1, cause) if cause else None

    def injected(self, run: Run) -> Optional[tuple[int, str]]:
        """Adds lines that inject. Returns the first one that is refused, and the cause."""
        moments = run.moments
        falls = (moments[1:] < moments[:-1]).nonzero()[0]
        cause = self.misplaced(int(moments[0]))
        if cause or len(falls):
            return next(run.commands(0 if cause else int(falls[0]) + 1)).line, cause or "backwards"
        self.take(run, int(moments[-1]), len(moments))
        return None

    def cause(self, line: bytes, number: int) -> Optional[str]:
        """Adds a line. Returns why it is refused, or None."""
        if len(line) > MOST_LINE:
            return "toolong"
        if re.search(rb"[^ -~]", line):
            return "badbyte"
        words = line.decode("ascii").split()
        if not words or words[0].startswith("#"):
            return None
        try:
            found = read_line(number, words)
        except BadLine as bad:
            return str(bad)
        if isinstance(found, Plan):
            return self.begun(found)
        cause = self.misplaced(found.moment)
        if not cause:
            self.is_open = found.word != "end"
            self.take(found, found.moment, 1)
        return cause

    def begun(self, plan: Plan) -> Optional[str]:
        if self.is_open:
            return "noend"
        if self.limited and len(self.experiments) == MOST_EXPERIMENTS:
            return "toomany"
        if plan.name in self.names:
            return "samename"
        self.names.add(plan.name)
        self.experiments.append((plan.name, 0))
        if self.keep:
            self.plans[plan.name] = plan
        self.last, self.is_open = 0, True
        return None

    def misplaced(self, moment: int) -> Optional[str]:
        """Returns why no command of this time can be here, or None."""
        if not self.experiments:
            return "noexperiment"
        if not self.is_open:
            return "afterend"
        return "backwards" if moment < self.last else None

    def take(self, part: Union[Command, Run], last: int, more: int) -> None:
        """Adds one or more commands to the experiment, the last of them at a time (ns)."""
        self.last = last
        name, count = self.experiments[-1]
        self.experiments[-1] = name, count + more
        if self.keep:
            self.plans[name].commands.add(part)


# How many bytes of `inject` lines to read at once: a line that is read by itself takes its block with it.
BLOCK = 1 << 16
# The end of a line before one that isn't empty and sends no packet.
_OTHER = re.compile(rb"\n(?!@[0-9]+ inject |\n)")
_ADDRESS = r"\.".join(["(?:[1-9]?[0-9]|1[0-9]{2}|2[0-4][0-9]|25[0-5])"] * 4)
_PORT = "(?:0|[1-9][0-9]{0,3}|[1-5][0-9]{4}|6[0-4][0-9]{3}|65[0-4][0-9]{2}|655[0-2][0-9]|6553[0-5])"
_PACKET = (rf"(?:tcp|udp) {_ADDRESS} {_PORT} {_ADDRESS} {_PORT} "
           "(?:[4-9][0-9]|[1-9][0-9]{2}|1[0-4][0-9]{2}|1500)").encode()


def runs_in(text: bytes) -> Iterator[tuple[int, Union[bytes, Run]]]:
    """Yields the lines of a text of whole lines, in order, each with its number from 1: runs of `inject`
    lines together, each other line by itself. Only `inject` lines that are certainly valid are in runs, so
    all faults are in lines by themselves."""
    begin, number = 0, 1
    while begin < len(text):
        other = _OTHER.search(text, begin - 1, begin + BLOCK) if begin else None
        end = (other.start() if other else text.rfind(b"\n", begin, begin + BLOCK) if begin else -1) + 1
        moments = moments_of(text[begin:end]) if end > begin else None
        if moments is not None:
            yield number, Run(number, text[begin:end], moments)
        else:
            end = max(end, text.index(b"\n", begin) + 1)
            yield from enumerate(text[begin:end - 1].split(b"\n"), number)
        number += text.count(b"\n", begin, end)
        begin = end


@lru_cache(maxsize=1 << 14)
def _is_packet(words: bytes) -> bool:
    return re.fullmatch(_PACKET, words) is not None


def moments_of(text: bytes) -> "Optional[Ints]":
    """Returns the times of lines that begin with `@TIME inject ` or are empty, or None if one of them may be
    invalid."""
    import numpy as np

    # Often all lines send the same packet. What is left of a line without it has no space then.
    begin = text.find(b" inject ")
    packet = text[begin:text.find(b"\n", begin) + 1]
    times, packets = text.replace(packet, b"").replace(b"\n", b""), {packet[8:-1]}
    if b" " in times:
        # Times and packets alternate, and most lines send one of few packets.
        words = [*filter(None, text.replace(b" inject ", b"\n").split(b"\n"))]
        if len(words) % 2:
            return None
        times, packets = b"".join(words[::2]), set(words[1::2])
    if not all(map(_is_packet, packets)):
        return None
    found = np.fromstring(times.replace(b"@", b" "), dtype=np.int64, sep=" ")
    # Without leading zeros, the digits are as many as the numbers need.
    digits = len(found) + int(np.searchsorted(10 ** np.arange(1, 16), found, "right").sum())
    is_valid = len(found) > 0 and len(times) == len(found) + digits and int(found.max()) <= MOMENTS[1]
    return found if is_valid else None


def read(text: bytes) -> dict[str, Plan]:
    """Returns the experiments of a scenario, by name. Raises `ParseError` with the line and the cause.

    It may have more experiments and bytes than the program reads at once, as for `dnlab-spread`."""
    judged = Judged(text, keep=True, limited=False)
    if judged.fault:
        line, cause = judged.fault
        lines = text.split(b"\n")
        shown = (lines[line - 1][:60].decode("ascii", "replace") if line <= len(lines)
                 else "the end of the text")
        raise ParseError(line, f"{cause}: not a line of a scenario: {shown!r}")
    return judged.plans


_HEAD = re.compile(r"^line ([0-9]+): ([a-z][a-z-]*(?: [0-9]+)?)$", re.MULTILINE)
_ROW = re.compile(r"(experiment|means|expected|example|hint|before|also): (.*)")


class Finding(NamedTuple):
    """A fault, a command that is or will be refused, or a warning.

    line        its number in the text, from 1; 0 for the whole text
    column      of the first faulty character, from 1; None if the whole line is meant
    width       how many characters are faulty
    kind        `fault`, `refused` or `warning`
    cause       one of docs/reference/faults.md, as `badword`, `refused 13` or `unused`
    text        the line, as the program repeats it
    also        further faulty words of the line, and what was expected in their place
    """
    line: int
    column: Optional[int]
    width: Optional[int]
    kind: str
    cause: str
    text: Optional[str]
    experiment: Optional[str]
    means: Optional[str]
    expected: Optional[str]
    example: Optional[str]
    hint: Optional[str]
    before: Optional[str]
    also: tuple[str, ...]

    def told(self) -> str:
        """Returns the line and all that is said of it, on one line."""
        rows = [f"{name}: {value}" for name in ("means", "expected", "example", "hint", "before")
                if (value := getattr(self, name))]
        return "; ".join([*([self.text.strip()] if self.text else []), *rows,
                          *(f"also: {one}" for one in self.also)])


def findings(said: str) -> Iterator[Finding]:
    """Returns what a text of `--explain` says, in its order.

    >>> said = "line 2: badword\\n  @0 shw\\n     ^^^\\n  expected: a command\\n"
    >>> one, = findings(said + "  hint: did you mean `show`?\\n")
    >>> one.line, one.column, one.width, one.kind, one.cause, one.expected
    (2, 4, 3, 'fault', 'badword', 'a command')
    """
    found = list(_HEAD.finditer(said))
    for head, end in zip(found, [one.start() for one in found[1:]] + [len(said)]):
        rows = [row[2:] for row in said[head.end():end].split("\n") if row.startswith("  ")]
        yield _finding(int(head[1]), head[2], rows)


def _finding(line: int, cause: str, rows: list[str]) -> Finding:
    """Returns a finding by the rows below its head."""
    marks = re.fullmatch(r"( *)(\^+)", rows[1]) if len(rows) > 1 else None
    has_text = bool(marks or (len(rows) > 1 and rows[1].startswith(("experiment: ", "expected: "))))
    pairs = [(found[1], found[2]) for row in rows[has_text + bool(marks):] if (found := _ROW.fullmatch(row))]
    of = dict(pairs)
    kind = "refused" if cause.startswith("refused ") else "warning" if "experiment" in of else "fault"
    return Finding(line, len(marks[1]) + 1 if marks else None, len(marks[2]) if marks else None, kind, cause,
                   rows[0] if has_text else None,
                   of.get("experiment"), of.get("means"), of.get("expected"), of.get("example"),
                   of.get("hint"), of.get("before"),
                   tuple(value for name, value in pairs if name == "also"))
