"""The configuration of a scenario as a script for Linux's tc(8): rates and queues where packets leave, delays
and losses where they come in.

A constant delay may be applied before the queue or after it: packets leave at the same time. netem below a
class with a rate would count packets in flight towards its limit, so it is on an ifb at the other interface.
"""
import ipaddress
from typing import Iterator, NamedTuple, Optional, Sequence

from dnlab.errors import InputError
from dnlab.io.ipfw_export import Setting, printable
from dnlab.io.ipfw_words import network
from dnlab.io.scenario_parts import Config, Rule

_FAST = "100000000000bit quantum 1514"
_LEAST = 64
_MOST_CLASSES = 4000


class Place(NamedTuple):
    """The interface where packets leave, the one where they come in (for delays and losses; None if there is
    none), and the hosts that get a class each if a pipe has a mask."""
    leave: str
    enter: Optional[str]
    hosts: tuple[str, ...] = ()


class _Class(NamedTuple):
    """An instance of a pipe: its number in tc, its pipe, and the only address that it serves ('' for all)."""
    number: int
    pipe: int
    host: str
    side: str


def script_of(setting: Setting, place: Place, source: str) -> str:
    """Returns the script. Raises `InputError` for what tc cannot express, with what to do."""
    rules = setting.rules()
    _judge(setting, rules, place)
    classes = list(_classes(setting, place))
    name = setting.plan.name
    lines = ["#!/bin/sh",
             f"# dnlab-to-tc: {printable(source)}, experiment {name}; packets that leave {place.leave}",
             *_differs(setting, classes)]
    lines += [f"tc qdisc del dev {place.leave} root 2>/dev/null",
              f"tc qdisc add dev {place.leave} root handle 1: stab overhead -14 linklayer "
              "ethernet htb default 1",
              f"tc class add dev {place.leave} parent 1: classid 1:1 htb rate {_FAST}"]
    for one in classes:
        lines += _served(place.leave, one, setting.pipes()[one.pipe])
    lines += _filters(place.leave, rules, classes, True)
    late = [one for one in classes if _late(setting.pipes()[one.pipe])]
    if late:
        lines += _ifb(setting, place, late, rules)
    lines.append(f"# {len(setting.sends)} commands that send were left out")
    return "\n".join(lines) + "\n"


def _judge(setting: Setting, rules: Sequence[Rule], place: Place) -> None:
    for rule in rules:
        if rule.action in ("count", "skipto"):
            raise InputError(
                f"rule {rule.text()}: tc has no filter for `{rule.action}`: write rules that allow, "
                "deny or use a pipe")
        if rule.action == "pipe" and rule.value not in setting.pipes():
            raise InputError(f"rule {rule.text()}: no command configures pipe {rule.value}")
    if any(one.word == "delete" or one.text.startswith("pipe delete") for one in setting.sets):
        raise InputError("`delete`: leave out what is deleted immediately")
    if not setting.one_pass():
        raise InputError(
            "`one_pass 0`: a chain of pipes needs an interface for each: write one pipe, or an "
            "experiment for each link")
    late = [number for number, config in setting.pipes().items() if _late(config)]
    if late and place.enter is None:
        raise InputError(
            f"pipe {late[0]} has a delay or losses: name the interface where its packets come "
            "in, as --in eth0")


def _late(config: Config) -> bool:
    return bool(config.delay or config.plr)


def _differs(setting: Setting, classes: Sequence[_Class]) -> list[str]:
    """Returns comments about what differs on the real machine."""
    said = ["# Packets that match no rule are dropped on this interface, as in the scenario, including your "
            "own login; ARP and IPv6 are unaffected.",
            "# htb sends one packet immediately, and counts in ticks of the kernel's timers; sizes count "
            "without Ethernet (stab)."]
    if any(config.codel for config in setting.pipes().values()):
        said.append(
            "# Linux's CoDel continues with a higher count of drops after an idle time than RFC 8289's.")
    if any(config.plr for config in setting.pipes().values()):
        said.append("# Losses by netem use their own random numbers: as many on average, but other packets.")
    if any(one.host for one in classes):
        said.append(
            "# A mask becomes a class for each named host; other hosts of the rule are dropped, because no "
            "rule matches them.")
    return said


def _classes(setting: Setting, place: Place) -> Iterator[_Class]:
    number = 16
    for pipe, config in setting.pipes().items():
        if not config.mask:
            yield _Class(number, pipe, "", "")
            number += 1
            continue
        side = {"src-ip 0xffffffff": "src", "dst-ip 0xffffffff": "dst"}.get(config.mask)
        if side is None or not place.hosts:
            raise InputError(
                f"pipe {pipe} has a mask, but tc creates no classes by itself: --hosts 10.0.0.1-10.0.0.9 "
                "writes a class for each, if the mask is only src-ip or dst-ip 0xffffffff")
        for host in place.hosts:
            yield _Class(number, pipe, host, side)
            number += 1


def _served(device: str, one: _Class, config: Config) -> list[str]:
    """Returns a class with the rate, and the queue below it."""
    rate = f"{config.bw}bit burst 1514b cburst 1514b quantum 1514" if config.bw else _FAST
    made = [f"tc class add dev {device} parent 1: classid 1:{one.number:x} htb rate {rate}"]
    begin = f"tc qdisc add dev {device} parent 1:{one.number:x} handle {one.number:x}:"
    if config.codel:
        # Linux's CoDel only has a limit in packets.
        limit = config.slots if config.slots is not None else max(1, (config.bytes or 0) // 1500)
        target, interval = (time // 1000 for time in (config.target, config.interval) if time is not None)
        made.append(f"{begin} codel limit {limit} target {target}us interval {interval}us noecn")
    elif config.slots is not None:
        made.append(f"{begin} pfifo limit {config.slots}")
    else:
        made.append(f"{begin} bfifo limit {config.bytes}b")
    return made


def _matches(rule: Rule, one: Optional[_Class]) -> Iterator[str]:
    """Yields the arguments of `flower` for a rule: TCP and UDP separately if it has ports."""
    source, target = rule.source, rule.target
    if one is not None and one.host:
        own = source if one.side == "src" else target
        if not ipaddress.IPv4Address(one.host) in network(own):
            return
        source, target = (one.host, target) if one.side == "src" else (source, one.host)
    has_ports = rule.source_ports or rule.target_ports
    for protocol in ("tcp", "udp") if rule.protocol == "ip" and has_ports else (rule.protocol,):
        words = [] if protocol == "ip" else [f"ip_proto {protocol}"]
        words += [f"src_ip {source}"] if source != "any" else []
        words += [f"dst_ip {target}"] if target != "any" else []
        words += [f"src_port {rule.source_ports}"] if rule.source_ports else []
        words += [f"dst_port {rule.target_ports}"] if rule.target_ports else []
        yield " ".join(["flower", *words])


def _filters(device: str, rules: Sequence[Rule], classes: Sequence[_Class], denies: bool) -> list[str]:
    """Returns a filter for each rule, in order; with `denies`, packets that match no rule are dropped."""
    made: list[str] = []

    def add(words: str) -> None:
        made.append(f"tc filter add dev {device} parent 1: protocol ip prio {len(made) + 1} {words}")

    for rule in rules:
        wanted: list[Optional[_Class]] = [None]
        if rule.action == "pipe":
            wanted = [one for one in classes if one.pipe == rule.value]
        for one in wanted:
            for match in _matches(rule, one):
                if one is not None:
                    add(f"{match} classid 1:{one.number:x}")
                elif rule.action == "allow" or denies:
                    add(f"{match} classid 1:1" if rule.action == "allow" else f"{match} action drop")
    if denies:
        add("flower action drop")
    if len(made) > _MOST_CLASSES:
        raise InputError(f"it needs {len(made)} filters: name fewer hosts")
    return made


def _ifb(setting: Setting, place: Place, late: Sequence[_Class], rules: Sequence[Rule]) -> list[str]:
    """Returns delays and losses, on an ifb that receives what comes in at the other interface. Pipes without
    either are unaffected."""
    made = ["ip link add ifb0 type ifb 2>/dev/null", "ip link set ifb0 up",
            f"tc qdisc del dev {place.enter} ingress 2>/dev/null",
            f"tc qdisc add dev {place.enter} handle ffff: ingress",
            f"tc filter add dev {place.enter} parent ffff: protocol ip matchall action mirred egress "
            "redirect dev ifb0",
            "tc qdisc del dev ifb0 root 2>/dev/null", "tc qdisc add dev ifb0 root handle 1: htb default 1",
            f"tc class add dev ifb0 parent 1: classid 1:1 htb rate {_FAST}"]
    for one in late:
        config = setting.pipes()[one.pipe]
        # The number of smallest packets in flight at the pipe's rate, and a queue of them.
        flying = (config.bw or 10**10) * config.delay // (8 * 10**9 * _LEAST) + 1000
        loss = f" loss {config.plr / 10**4:g}%" if config.plr else ""
        made += [f"tc class add dev ifb0 parent 1: classid 1:{one.number:x} htb rate {_FAST}",
                 f"tc qdisc add dev ifb0 parent 1:{one.number:x} handle {one.number:x}: netem delay "
                 f"{config.delay // 1000}us{loss} limit {flying}"]
    # All rules in order, so that each packet goes where its first rule sends it.
    known = {one.pipe for one in late}
    told = [rule if rule.action != "pipe" or rule.value in known else rule._replace(action="allow", value=0)
            for rule in rules]
    return made + _filters("ifb0",
                           [rule if rule.action != "deny" else rule._replace(action="allow")
                            for rule in told], late, False)
