"""Translates lines of ipfw(8) into commands of a scenario, and the scenario that they become."""
import re
from collections import Counter
from dataclasses import dataclass
from decimal import Decimal
from typing import Mapping, Optional, Sequence

from dnlab.io import ipfw_rules, ipfw_words
from dnlab.io.ipfw_rules import Known
from dnlab.io.ipfw_words import (APPROXIMATED, DROPPED, KINDS, REFUSED, REWRITTEN, SAME, How, Line,
                                 Unmatchable, UnsupportedError)

_LAST, _MOST_RULES, _MOST_PIPES = 65534, 256, 64
_TICKS = "not modelled: a real machine rounds to ticks of 1/kern.hz, here time is whole nanoseconds"


@dataclass(frozen=True)
class Translation:
    """A line of ipfw, its kind (`same`, `rewritten`, `approximated`, `dropped`, `refused`), the scenario
    commands that it became, without their time, and what that costs or why it is refused."""
    text: str
    kind: str
    moment: int
    commands: tuple[str, ...] = ()
    said: tuple[str, ...] = ()


class Import:
    """Translates lines one by one. `behind` are prefixes by interface, `me` the machine's address; `flatten`
    replaces queues by their pipes; `drop_unmatchable` leaves out rules that match no packet of a scenario."""

    def __init__(self, behind: Mapping[str, str], me: Optional[str] = None, flatten: bool = False,
                 drop_unmatchable: bool = False, moment: int = 0) -> None:
        self.behind, self.me = dict(behind), me
        self.flatten, self.drop_unmatchable = flatten, drop_unmatchable
        self.moment = moment
        self.became: list[Translation] = []
        self._tables: dict[str, dict[str, str]] = {}
        # The kind of each pipe, scheduler and queue.
        self._pipes: dict[int, list[str]] = {}
        self._schedulers: dict[int, int] = {}
        self._queues: dict[int, int] = {}
        # How many commands each number's rules have, and whether one of them skips the others.
        self._rules: Counter[int] = Counter()
        self._around: set[int] = set()
        self._step = 100
        self._one_pass = True
        # Pipes that a later line configures, whether packets continue after a pipe although one_pass is 1
        # (for `prob .. deny`), and sets that are disabled.
        self._later, self._goes_on, self._off = set[int](), False, set[str]()

    def take_all(self, lines: Sequence[Line]) -> None:
        """Translates all lines. Sets that are disabled anywhere, pipes and random denials are known from the
        beginning."""
        bare = [line.bare() for line in lines]
        for words in bare:
            if words[:2] == ["set", "disable"]:
                self._off |= set(words[2:words.index("enable") if "enable" in words else None])
            if words[:1] == ["pipe"] and "config" in words[1:3]:
                self._later |= {int(word) for word in words[1:3] if word.isdigit()}
        is_zero = any(words[-1:] == ["net.inet.ip.fw.one_pass=0"] or words[-2:] == ["disable", "one_pass"]
                      for words in bare)
        self._goes_on = not is_zero and any(words[:1] == ["add"] and {"prob", "deny"} <= set(words)
                                            for words in bare)
        for line in lines:
            self.take(line)

    def take(self, line: Line) -> None:
        """Translates one line."""
        words = line.bare()
        if (line.words[0] == "sysctl"
            and not re.match(r"net\.inet\.ip\.(fw|dummynet)\.|kern\.hz", " ".join(words))):
            return
        self._costs: list[str] = []
        try:
            if line.words[0] == "sleep":
                self._sleep(words)
                return
            commands = self._sysctl(words) if line.words[0] == "sysctl" else self._ipfw(words)
        except UnsupportedError as cannot:
            self.became.append(Translation(line.text(), REFUSED, self.moment, (), (str(cannot),)))
            return
        if commands is None:
            kind, commands = DROPPED, []
        elif self._costs:
            kind = APPROXIMATED
        else:
            kind = SAME if commands == [" ".join(words)] else REWRITTEN
        self.became.append(Translation(line.text(), kind, self.moment, tuple(commands), tuple(self._costs)))

    def tally(self) -> dict[str, int]:
        """Returns how many lines are of each kind."""
        counts = Counter(one.kind for one in self.became)
        return {kind: counts[kind] for kind in KINDS}

    def _sleep(self, words: list[str]) -> None:
        """Advances the time for the lines that follow."""
        if len(words) != 1 or not re.fullmatch(r"[0-9]{1,6}(\.[0-9]{1,9})?s?", words[0]):
            raise UnsupportedError(f"`sleep {' '.join(words)}`: a number of seconds must follow, as 0.5")
        self.moment += int(Decimal(words[0].rstrip("s")) * 10**9)

    def _say(self, how: How) -> str:
        self._costs += filter(None, [how.cost])
        return how.words

    def _sysctl(self, words: list[str]) -> Optional[list[str]]:
        name, _, value = words[-1].partition("=")
        if name == "net.inet.ip.fw.one_pass" and value in ("0", "1"):
            return self._one_pass_is(value)
        if name == "net.inet.ip.fw.autoinc_step" and value.isdigit():
            self._step = min(max(int(value), 1), 1000)
            return None
        self._costs.append(f"`{words[-1]}`: {_TICKS}")
        return []

    def _one_pass_is(self, value: str) -> list[str]:
        self._one_pass = value == "1"
        return [] if self._goes_on else [f"one_pass {value}"]

    def _ipfw(self, words: list[str]) -> Optional[list[str]]:
        if not words:
            raise UnsupportedError("a command must follow `ipfw`")
        first, *rest = words
        if first == "add":
            return self._add(rest)
        if first in ("pipe", "queue", "sched"):
            return self._shaper(first, rest)
        if first == "table":
            return self._table(rest)
        if first == "flush":
            self._judge_flush(bool(self._rules), "rules")
            return None
        if first in ("zero", "resetlog") or words[:2] in (["set", "disable"], ["set", "enable"]):
            return None
        if first in ("show", "list"):
            return ["show"]
        if first == "delete":
            return self._delete(rest)
        if first in ("enable", "disable") and rest == ["one_pass"]:
            return self._one_pass_is("1" if first == "enable" else "0")
        raise UnsupportedError(f"`{first}` is not supported here")

    def _judge_flush(self, is_late: bool, what: str) -> None:
        if is_late:
            raise UnsupportedError(
                f"`flush` after {what}: a scenario starts empty, so leave out what precedes it")

    def _delete(self, words: list[str]) -> Optional[list[str]]:
        numbers = [int(word) for word in words if word.isdigit()]
        if len(numbers) != len(words) or not numbers:
            raise UnsupportedError("`delete`: numbers of rules must follow")
        for number in numbers:
            if number not in self._rules:
                raise UnsupportedError(f"`delete {number}`: no rule has this number")
        given = [number for number in numbers if self._rules[number]]
        for number in numbers:
            self._rules.pop(number, None)
            self._around.discard(number)
        return [f"delete {number}" for number in given] or None

    def _table(self, words: list[str]) -> Optional[list[str]]:
        name, *rest = words if words else [""]
        if rest[:1] == ["create"]:
            if "type" in rest and rest[rest.index("type") + 1:][:1] != ["addr"]:
                raise UnsupportedError(f"`table {name}`: only tables of addresses are supported")
            self._tables.setdefault(name, {})
        elif rest[:1] == ["add"] and len(rest) in (2, 3):
            entry = ipfw_words.address(rest[1])
            self._tables.setdefault(name, {})[entry] = rest[2] if len(rest) == 3 else ""
        elif rest[:1] == ["delete"] and len(rest) == 2:
            self._tables.get(name, {}).pop(ipfw_words.address(rest[1]), None)
        elif rest in (["flush"], ["destroy"]):
            for one in list(self._tables) if name == "all" else [name]:
                self._tables[one] = {}
        elif rest[:1] in (["list"], ["info"]):
            return None
        else:
            raise UnsupportedError(
                f"`table {' '.join(words)}`: only create, add, delete, flush and destroy are supported")
        return []

    def _shaper(self, what: str, words: list[str]) -> Optional[list[str]]:
        """Translates `pipe`, `queue` or `sched`, with its number before or after the action."""
        if words[:1] == ["flush"]:
            self._judge_flush(bool(self._pipes), "pipes")
            return None
        if set(words[:2]) & {"show", "list"}:
            return ["pipe show"] if what == "pipe" else None
        number, does = next((word for word in words[:2] if word.isdigit()), ""), words[:2]
        if len(words) < 2 or not number or not 1 <= int(number) <= 65535:
            raise UnsupportedError(f"`{what}`: a number from 1 to 65535 and `config` must follow")
        if "delete" in does:
            if what != "pipe" or self._pipes.pop(int(number), None) is None:
                raise UnsupportedError(f"`{what} {number} delete`: there is no such pipe")
            return [f"pipe delete {number}"]
        if "config" not in does:
            raise UnsupportedError(f"`{what} {' '.join(does)}`: only config, delete and show are supported")
        if what != "pipe":
            return self._scheduled(what, int(number), words[2:])
        return self._pipe(int(number), words[2:])

    def _pipe(self, number: int, words: list[str]) -> list[str]:
        if number not in self._pipes and len(self._pipes) == _MOST_PIPES:
            raise UnsupportedError(f"there are {_MOST_PIPES} pipes already")
        options: list[str] = []
        while words:
            name = words.pop(0)
            if name == "mask":
                options.append(self._say(ipfw_words.mask(words)))
            elif name == "codel":
                options.append(self._say(ipfw_words.codel(words)))
            elif name == "droptail":
                options.append(name)
            elif name in ("red", "gred") and self.flatten and words:
                self._costs.append(f"`{name} {words.pop(0)}` left out: the queue only drops at its end")
            elif name in ("noerror", "buckets"):
                del words[:name == "buckets"]
            elif name in ("bw", "bandwidth", "delay", "plr", "queue") and words:
                reads = {"delay": ipfw_words.delay, "plr": ipfw_words.loss,
                         "queue": ipfw_words.queue}.get(name, ipfw_words.rate)
                options.append(("bw" if name == "bandwidth" else name) + " " + self._say(reads(words.pop(0))))
            else:
                raise UnsupportedError(
                    f"`{name}`: pipes here have bw, delay, queue, plr, mask, droptail and "
                    "codel: leave it out")
        self._pipes[number] = options
        return [" ".join(["pipe", str(number), "config", *options])]

    def _scheduled(self, what: str, number: int, words: list[str]) -> list[str]:
        """Translates a queue or a scheduler, which is replaced by its pipe if requested."""
        if not self.flatten:
            raise UnsupportedError(
                f"`{what} {number}`: weighted queues and schedulers (WF2Q+, FQ-CoDel) are not supported: "
                "--flatten uses the pipe instead")
        named = {name: int(value)
                 for name, value in zip(words, words[1:]) if name in ("pipe", "sched") and value.isdigit()}
        pipe = named.get("pipe",
                         number if what == "sched" else self._schedulers.get(named.get("sched", -1), -1))
        if pipe not in self._pipes and (pipe not in self._later or {"fq_codel", "codel"} & set(words)):
            raise UnsupportedError(f"`{what} {number}`: its pipe must be configured before it")
        if what == "queue":
            self._queues[number] = pipe
            self._costs.append(
                f"`queue {number}` is replaced by pipe {pipe}: its own weight, queue, mask and red are lost")
            return []
        self._schedulers[number] = pipe
        self._costs.append(f"`sched {number}` is replaced by pipe {pipe}: one queue for all, and no weights")
        if not {"fq_codel", "codel"} & set(words):
            return []
        begin = next(place for place, word in enumerate(words) if word in ("fq_codel", "codel"))
        times = [word for name, value in zip(words[begin:], words[begin + 1:])
                 if name in ("target", "interval") for word in (name, value)]
        kept = [one for one in self._pipes[pipe] if not one.startswith(("codel", "droptail"))]
        self._pipes[pipe] = [*kept, " ".join(["codel", *times])]
        return [" ".join(["pipe", str(pipe), "config", *self._pipes[pipe]])]

    def _number(self, words: list[str]) -> int:
        """Returns a rule's number, removing it from the words; by default the highest so far plus a step."""
        if words and re.fullmatch(r"[0-9]+", words[0]):
            number = int(words.pop(0))
            if not 1 <= number <= _LAST:
                raise UnsupportedError(f"a rule's number is 1 to {_LAST}")
            return number
        last = max(self._rules, default=0)
        return last + self._step if last + self._step <= _LAST else last

    def _add(self, words: list[str]) -> Optional[list[str]]:
        number = self._number(words)
        known = Known(self.behind, self.me, self._tables, self._queues)
        # A refused rule uses up its number too, as in ipfw.
        self._rules[number] += 0
        try:
            rule = ipfw_rules.read(words, known)
        except Unmatchable:
            if self.drop_unmatchable:
                return None
            raise
        if rule.is_void or rule.group in self._off:
            return None
        self._costs += rule.costs
        before = self._by_chance(rule) if rule.share else []
        commands = ipfw_rules.commands_of(rule, number, known)
        if self._goes_on and rule.action.startswith("pipe ") and not rule.share:
            # A rule of its own allows what leaves the pipe, as one_pass 1 would.
            commands = [each for one in commands
                        for each in dict.fromkeys((one, re.sub(r"^(add \d+) pipe \d+", r"\1 allow", one)))]
        if number in self._around or (rule.excluded and self._rules[number]):
            raise UnsupportedError(
                f"rule {number}: `not` skips all rules of this number: give one of them another number")
        if sum(self._rules.values()) + len(commands) > _MOST_RULES:
            raise UnsupportedError(
                f"with it there are more than {_MOST_RULES} rules, the maximum of an experiment")
        self._judge(rule, number)
        if rule.excluded:
            self._around.add(number)
        self._rules[number] += len(commands)
        return [*before, *commands]

    def _judge(self, rule: ipfw_rules.Rule, number: int) -> None:
        """Adds what a rule's action implies."""
        name, _, value = rule.action.partition(" ")
        if name == "skipto" and int(value) <= number:
            raise UnsupportedError(f"`{rule.action}` goes backwards, which is not supported")
        if (name == "pipe" and not any("passes the rules once here" in one for one in rule.costs)
            and not rule.share):
            self._costs.append(
                "on a router this rule shapes a packet twice, coming in and going out; here once")

    def _by_chance(self, rule: ipfw_rules.Rule) -> list[str]:
        """Translates a rule that denies at random into a pipe with losses."""
        if rule.action != "deny":
            raise UnsupportedError(
                f"`prob {rule.share}`: only random `deny` is supported, as a pipe with losses: route by "
                "addresses and ports instead")
        if self._one_pass:
            self._costs.append(
                "one_pass 0 from here, and an `allow` after each rule to a pipe instead of "
                "one_pass 1: 1 ns more")
        pipe = next(number for number in range(65535, 0, -1) if number not in self._pipes)
        share = self._say(ipfw_words.loss(rule.share))
        self._pipes[pipe] = [f"plr {share}", "queue 1000"]
        rule.action = f"pipe {pipe}"
        self._costs.append(
            f"`prob` as pipe {pipe}, which loses this share: it has its own random numbers, and takes 1 ns")
        return [*(["one_pass 0"] if self._one_pass else []), f"pipe {pipe} config plr {share} queue 1000"]


def scenario_of(became: Sequence[Translation], head: str, traffic: Sequence[tuple[int, str]],
                end: int) -> str:
    """Returns a scenario: each line of ipfw that is not the same is a comment before its translation; then
    the commands of `traffic`, each with its time, merged by time."""
    parts: list[tuple[int, str]] = []
    for one in became:
        above = ("" if one.kind == SAME
                 else f"# {'refused' if one.kind == REFUSED else 'ipfw'}: {_printable(one.text)}\n")
        parts.append((one.moment, above + "".join(f"@{one.moment} {command}\n" for command in one.commands)))
    parts += [(moment, f"@{moment} {words}\n") for moment, words in traffic]
    body = "".join(text for _, text in sorted(parts, key=lambda part: part[0]))
    return f"{head}\n{body}@{end} end\n"


def _printable(text: str) -> str:
    """Returns text for a comment: printable ASCII, short enough for a line.

    >>> _printable("caf\\u00e9")
    'caf?'
    """
    shown = re.sub(r"[^ -~]", "?", text)
    return shown if len(shown) <= 480 else shown[:476] + " .."
