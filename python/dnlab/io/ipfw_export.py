"""Writes pipes and rules of a scenario for other emulators: what their exports share, and the script for
ipfw(8)."""
import re
from typing import Mapping, NamedTuple, Optional, Sequence

from dnlab.errors import InputError
from dnlab.io.ipfw_words import network
from dnlab.io.scenario_parts import Command, Config, Plan, Rule, config_of, rule_of

_SENDS = ("flow", "train", "inject", "stop")
_UNSEEN = ("show", "trace", "end")


class Setting(NamedTuple):
    """The commands that configure a machine, in order, and those that send."""
    plan: Plan
    sets: tuple[Command, ...]
    sends: tuple[Command, ...]

    def rules(self) -> list[Rule]:
        """Returns the rules in search order."""
        return sorted((rule_of(one.text) for one in self.sets if one.word == "add"),
                      key=lambda rule: rule.number)

    def pipes(self) -> dict[int, Config]:
        """Returns the last `config` of each pipe."""
        return {one.pipe: config_of(one.line, one.text) for one in self.sets if one.pipe is not None}

    def one_pass(self) -> bool:
        said = [one.text.split()[1] for one in self.sets if one.word == "one_pass"]
        return said[-1:] != ["0"]


def setting_of(plan: Plan, timed: bool) -> Setting:
    """Returns the configuration of an experiment. Raises `InputError` for commands after its start, unless
    `timed`, and for deletions at its start."""
    sets = [one for one in plan.commands if one.word not in (*_SENDS, *_UNSEEN) and one.text != "pipe show"]
    late = next((one for one in sets if one.moment > 0), None)
    if late is not None and not timed:
        raise InputError(f"line {late.line}: @{late.moment} {late.text}: only commands at @0 are written")
    return Setting(plan, tuple(sets), tuple(one for one in plan.commands if one.word in _SENDS))


def chosen(plans: "dict[str, Plan]", name: Optional[str], file: str) -> Plan:
    """Returns the selected experiment. Raises `InputError` if there isn't exactly one."""
    if name is not None and name in plans:
        return plans[name]
    known = ", ".join(plans) or "none"
    if name is not None or len(plans) != 1:
        raise InputError(f"{file}: choose an experiment with --experiment: it has {known}")
    return next(iter(plans.values()))


def iperf_of(sends: Sequence[Command]) -> list[str]:
    """Returns iperf3 commands for flows and UDP trains, as comments: one for the receiver and one for the
    sender of each."""
    found = []
    for command in sends:
        one = command.sends
        words = command.text.split()
        if one is None or one.word == "inject" or (one.word == "train" and words[2] != "udp"):
            continue
        # `train F PR A PORT A PORT ..`, `flow F A PORT A PORT ..`
        port = words[6] if one.word == "train" else words[5]
        if one.word == "flow":
            how = f"-M {one.smss} -C reno -n {one.smss * one.count}"
        else:
            load = one.size - 28
            rate = load * 8 * 10**9 // one.gap if one.gap else 0
            how = f"-u -l {load} -b {rate} -n {load * one.count}"
        found.append(
            f"# after {command.moment / 10**9:g} s, {one.name()}: on {one.target}: iperf3 -s -p {port}; on "
            f"{one.source}: iperf3 -c {one.target} -p {port} {how}")
    return found


def printable(text: str) -> str:
    """Returns a file's name for a comment of a script: one line.

    >>> printable("a\\nrm b")
    'a?rm b'
    """
    return re.sub(r"[^ -~]", "?", text)


_MOST_DELAY = 10**10
_SLOTS = 100


class Machine(NamedTuple):
    """The target machine: a router with the addresses behind each interface, or a host (`behind` is None)."""
    behind: Optional[Mapping[str, str]]


def script_of(setting: Setting, machine: Machine, source: str, iperf: bool = False) -> str:
    """Returns the script. Raises `InputError` for what ipfw cannot express, with the line and what to do."""
    plan = setting.plan
    lines = ["#!/bin/sh", f"# dnlab-to-ipfw: {printable(source)}, experiment {plan.name}", *_differs(setting),
             "kldload -n ipfw dummynet", "ipfw -q -f flush", "ipfw -q -f pipe flush"]
    if not any(one.word == "one_pass" for one in setting.sets):
        lines.append("sysctl net.inet.ip.fw.one_pass=1")
    slots = max((config_of(one.line, one.text).slots or 0 for one in setting.sets if one.pipe is not None),
                default=0)
    if slots > _SLOTS:
        lines.append(f"sysctl net.inet.ip.dummynet.pipe_slot_limit={slots}")
    moment, has_default = 0, False
    for command in setting.sets:
        if command.moment > 0 and not has_default:
            # It must precede the first `sleep`.
            lines.append(_DEFAULT)
            has_default = True
        if command.moment > moment:
            lines.append(f"sleep {_seconds(command.moment - moment)}")
            moment = command.moment
        lines.append(_line(command, machine))
    lines += [] if has_default else [_DEFAULT]
    sends = len(setting.sends)
    lines.append(f"# {sends} commands that send were left out"
                 + ("" if iperf or not sends else ": --iperf writes them for iperf3"))
    return "\n".join([*lines, *(iperf_of(setting.sends) if iperf else [])]) + "\n"


_DEFAULT = "ipfw -q add 65534 deny ip from any to any"


def _differs(setting: Setting) -> list[str]:
    """Returns comments about what differs on the real machine."""
    said = ["# It removes all existing rules and pipes (`-f flush`, `pipe flush`), and ends with `65534 deny "
            "ip from any to any`.",
            "# Packets that match no rule are denied, as in the scenario, including your own login: incoming "
            "packets need a rule of their own.",
            "# dummynet works in ticks of 1/kern.hz: times are whole ticks (sysctl kern.hz, "
            "1000 by default).",
            "# one_pass 1: a packet that leaves a pipe is accepted; on a router a packet passes the rules "
            "coming in and going out."]
    configs = setting.pipes().values()
    if any(one.plr for one in configs):
        said.append("# plr uses its own random numbers: as many losses on average, but other packets.")
    if any(one.mask for one in configs):
        said.append("# mask: at most 256 instances in the scenario; here one for each flow, in buckets.")
    return said


def _seconds(time: int) -> str:
    """Returns ns as seconds for sleep(1).

    >>> _seconds(1500000000), _seconds(2 * 10**9)
    ('1.5', '2')
    """
    return f"{time / 10**9:.9f}".rstrip("0").rstrip(".")


def _line(command: Command, machine: Machine) -> str:
    if command.word == "one_pass":
        return f"sysctl net.inet.ip.fw.one_pass={command.text.split()[1]}"
    if command.word == "add":
        return f"ipfw -q add {_rule(command, rule_of(command.text), machine)}"
    if command.pipe is None:
        return f"ipfw -q {command.text}"
    return _pipe(command, config_of(command.line, command.text))


def _pipe(command: Command, config: Config) -> str:
    if config.delay > _MOST_DELAY:
        raise InputError(f"line {command.line}: `{config.words('delay')}`: dummynet has at most 10000 ms")
    text = f"ipfw -q {command.text}"
    # Otherwise FreeBSD may mark packets that are dropped here.
    return re.sub(r"\bcodel((?: (?:target|interval) \S+)*)", r"codel\1 noecn", text) if config.codel else text


def _rule(command: Command, rule: Rule, machine: Machine) -> str:
    if rule.action != "pipe" or machine.behind is None:
        return rule.text()
    twice = (
        f"line {command.line}: {command.text}: on a router this rule would act twice, on a packet coming in "
        "and going out:")
    if rule.source == rule.target == "any":
        raise InputError(
            f"{twice} no --if fits a rule whose addresses are `any`: narrow its source or destination, or "
            "use --host if the packets start or end there")
    source, target = (_beyond(address, machine.behind) for address in (rule.source, rule.target))
    if source is not None and source == target:
        raise InputError(
            f"{twice} both its ends are behind {source} by --if {source}={machine.behind[source]}, so it has "
            "no direction: name the addresses behind each interface, as --if em0=10.0.0.0/24 --if "
            "em1=10.0.1.0/24")
    if source is not None and rule.source != "any":
        return f"{rule.text()} in recv {source}"
    if target is not None and rule.target != "any":
        return f"{rule.text()} out xmit {target}"
    raise InputError(
        f"{twice} name the addresses behind an interface, as --if em1=10.0.1.0/24, or use --host if the "
        "packets start or end there")


def _beyond(address: str, behind: Mapping[str, str]) -> Optional[str]:
    """Returns the interface behind which an address is: the one with the longest prefix that contains it, or
    None.

    >>> _beyond("10.0.1.7", {"em0": "any", "em1": "10.0.1.0/24"})
    'em1'
    >>> _beyond("10.0.0.0/8", {"em1": "10.0.1.0/24"}) is None
    True
    """
    holding = [name for name, prefix in behind.items() if network(address).subnet_of(network(prefix))]
    return max(holding, key=lambda name: network(behind[name]).prefixlen) if holding else None
