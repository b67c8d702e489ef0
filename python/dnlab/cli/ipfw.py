"""Translates configurations of ipfw(8) into scenarios, and scenarios into scripts for ipfw(8) and tc(8)."""
import argparse
import ipaddress
import re
import sys
from pathlib import Path
from typing import Sequence

from dnlab.cli.arguments import matching, moment_of, parser_of
from dnlab.errors import InputError, ParseError, reading
from dnlab.io import tc_export
from dnlab.io.files import whole_file
from dnlab.io.ipfw_export import Machine, chosen, script_of, setting_of
from dnlab.io.ipfw_import import Import, Translation, scenario_of
from dnlab.io.ipfw_words import APPROXIMATED, REFUSED, lines_of
from dnlab.io.scenario import Judged, read
from dnlab.io.scenario_parts import Plan
from dnlab.io.tc_export import Place
from dnlab.programs import say

def prefix_of(text: str) -> tuple[str, str]:
    """Returns an interface and the addresses behind it.

    >>> prefix_of("em1=10.0.1.0/24"), prefix_of("dc0=any")
    (('em1', '10.0.1.0/24'), ('dc0', 'any'))
    """
    name, _, prefix = text.partition("=")
    try:
        # The name may be put into a script.
        if (not re.fullmatch(r"[A-Za-z][A-Za-z0-9_.:-]{0,31}", name)
            or (prefix != "any" and not ipaddress.IPv4Network(prefix, strict=False))):
            raise ValueError
    except ValueError:
        raise argparse.ArgumentTypeError(
            f"{text!r}: expected an interface and the addresses behind it, as "
            "em1=10.0.1.0/24 or em1=any") from None
    return name, prefix


def address_of(text: str) -> str:
    try:
        return str(ipaddress.IPv4Address(text))
    except ValueError:
        raise argparse.ArgumentTypeError(f"{text!r} is not an address such as 203.0.113.10") from None


def from_ipfw_words(given: Sequence[str]) -> argparse.Namespace:
    parser = parser_of("from-ipfw")
    parser.add_argument("file", metavar="FILE", help="a script or a listing, or - for standard input")
    parser.add_argument("--if", action="append", default=[], type=prefix_of, metavar="NAME=PREFIX",
                        dest="behind",
                        help="the addresses behind an interface, a prefix or `any` (repeatable)")
    parser.add_argument("--me", type=address_of, metavar="ADDRESS", help="the address that `me` stands for")
    parser.add_argument("--flatten", action="store_true",
                        help="send to the pipes of queues and schedulers instead; weights are lost")
    parser.add_argument("--drop-unmatchable", action="store_true",
                        help="leave out rules, as for icmp, that match no packet here")
    parser.add_argument("--lenient", action="store_true",
                        help="write refused lines as comments, and the rest")
    parser.add_argument("--all", action="store_true", help="print each line, with its translation")
    parser.add_argument("--traffic", metavar="FILE",
                        help="commands that send, each with its time, or a scenario that has them")
    parser.add_argument("--moment", type=moment_of, default=0, metavar="TIME",
                        help="the time of the first line [0]")
    parser.add_argument("--end", type=moment_of, metavar="TIME",
                        help="when the experiment ends [10 s after the last command]")
    parser.add_argument("--name", default="imported", help="the experiment's name [imported]")
    parser.add_argument("--seed", type=int, default=1, help="the experiment's [1]")
    parser.add_argument("--budget", type=int, default=1000, help="maximum number of packets in flight [1000]")
    parser.add_argument("--out", metavar="FILE", help="the output file [standard output]")
    return parser.parse_args(list(given))


def text_of(name: str) -> str:
    """Returns the text of a file or of standard input."""
    with reading(name):
        data = sys.stdin.buffer.read() if name == "-" else Path(name).read_bytes()
    return data.decode("utf-8", "replace").replace("\r\n", "\n")


def traffic_of(name: str) -> list[tuple[int, str]]:
    """Returns the commands of a file, each with its time (ns), without `end`."""
    text = text_of(name)
    before = 0
    if not any(line.startswith("experiment ") for line in text.splitlines()):
        text, before = f"experiment traffic seed 0 budget 1\n{text}", 1
    if text[-1:] not in ("", "\n"):
        text += "\n"
    try:
        if not any(line.split()[1:] == ["end"] for line in text.splitlines()):
            text += f"@{10**15} end\n"
        plans = list(read(text.encode("ascii", "replace")).values())
    except ParseError as fault:
        raise InputError(f"{name}: line {fault.line - before}: {fault.cause}") from None
    if len(plans) != 1:
        raise InputError(f"{name}: it has {len(plans)} experiments; exactly one is required")
    return [(command.moment, command.text) for command in plans[0].commands if command.word != "end"]


def print_translations(became: Sequence[Translation], is_all: bool) -> None:
    """Reports the translation of the lines on standard error."""
    for one in became:
        if is_all or one.kind in (APPROXIMATED, REFUSED):
            said = "; ".join(one.said) or "; ".join(one.commands)
            print(f"{one.kind}: {one.text}" + (f"\n    {said}" if said else ""), file=sys.stderr)


def scenario_text(given: argparse.Namespace, imported: Import) -> str:
    """Returns the scenario, after checking it as the program would."""
    traffic = traffic_of(given.traffic) if given.traffic else []
    last = max([imported.moment, *(moment for moment, _ in traffic)])
    end = last + 10**10 if given.end is None else given.end
    if end < last:
        raise InputError(f"--end: there is a later command, at {last} ns")
    head = f"experiment {given.name} seed {given.seed} budget {given.budget} steps 10000000"
    text = scenario_of(imported.became, head, traffic, end)
    fault = Judged(text.encode("ascii")).fault
    if fault:
        line = "" if not fault[0] else f": {text.splitlines()[fault[0] - 1][:80]}"
        raise InputError(f"the output would not be a valid scenario: line {fault[0]}: {fault[1]}{line}")
    return text


def from_ipfw(words_given: Sequence[str]) -> int:
    given = from_ipfw_words(words_given)
    imported = Import(dict(given.behind), given.me, given.flatten, given.drop_unmatchable, given.moment)
    imported.take_all(lines_of(text_of(given.file), given.file))
    if not imported.became:
        raise InputError(f"{given.file}: it has no line of ipfw")
    text = scenario_text(given, imported)
    print_translations(imported.became, given.all)
    counts = imported.tally()
    say("from-ipfw",
        f"{given.file}: {len(imported.became)} lines: "
        + ", ".join(f"{count} {kind}" for kind, count in counts.items()))
    if counts[REFUSED] and not given.lenient:
        raise InputError(
            "nothing was written, because lines were refused; --lenient writes the rest, with "
            "these as comments")
    write(text, given.out)
    return 0


def add_scenario(parser: argparse.ArgumentParser) -> None:
    """Adds the arguments that `to-ipfw` and `to-tc` share."""
    parser.add_argument("scenario", metavar="SCENARIO", help="a scenario, or - for standard input")
    parser.add_argument("--experiment", metavar="NAME", help="which of its experiments, if it has several")
    parser.add_argument("--out", metavar="FILE", help="the output file [standard output]")


def to_ipfw_words(given: Sequence[str]) -> argparse.Namespace:
    parser = parser_of("to-ipfw")
    add_scenario(parser)
    which = parser.add_mutually_exclusive_group()
    which.add_argument("--if", action="append", default=[], type=prefix_of, metavar="NAME=PREFIX",
                       dest="behind",
                       help="the addresses behind an interface of the router (repeatable)")
    which.add_argument("--host", action="store_true", help="the packets start or end on this machine")
    parser.add_argument("--timed", action="store_true",
                        help="also write later commands, with `sleep` between them")
    parser.add_argument("--iperf", action="store_true",
                        help="write iperf3 commands for the senders, as comments")
    return parser.parse_args(list(given))


def plan_of(file: str, name: "str | None") -> Plan:
    """Returns the selected experiment of a scenario."""
    with reading(file):
        return chosen(read(text_of(file).encode("utf-8")), name, file)


def write(text: str, out: "str | None") -> None:
    """Writes to a file, completely or not at all, or to standard output."""
    if out in (None, "-"):
        sys.stdout.write(text)
        return
    with whole_file(str(out)) as file:
        file.write(text.encode("utf-8"))


def to_ipfw(words_given: Sequence[str]) -> int:
    given = to_ipfw_words(words_given)
    plan = plan_of(given.scenario, given.experiment)
    try:
        setting = setting_of(plan, given.timed)
    except InputError as fault:
        raise InputError(f"{given.scenario}: {fault}: --timed writes it after a `sleep`") from None
    machine = Machine(None if given.host else dict(given.behind))
    write(script_of(setting, machine, given.scenario, given.iperf), given.out)
    return 0


_MOST_HOSTS = 256


def hosts_of(text: str) -> list[str]:
    """Returns the addresses of a range.

    >>> hosts_of("10.0.0.1-10.0.0.3")
    ['10.0.0.1', '10.0.0.2', '10.0.0.3']
    """
    try:
        first, _, last = text.partition("-")
        begin = int(ipaddress.IPv4Address(first))
        end = int(ipaddress.IPv4Address(last or first))
    except ValueError:
        raise argparse.ArgumentTypeError(
            f"{text!r} is not a range of addresses such as 10.0.0.1-10.0.0.9") from None
    if not 0 <= end - begin < _MOST_HOSTS:
        raise argparse.ArgumentTypeError(f"{text!r}: 1 to {_MOST_HOSTS} addresses, the lowest first")
    return [str(ipaddress.IPv4Address(one)) for one in range(begin, end + 1)]


device_of = matching(r"[A-Za-z0-9_.:@-]{1,15}", " is not an interface such as eth0")


def to_tc_words(given: Sequence[str]) -> argparse.Namespace:
    parser = parser_of("to-tc")
    add_scenario(parser)
    parser.add_argument("--dev", required=True, type=device_of, metavar="NAME",
                        help="the interface where the packets leave")
    parser.add_argument("--in", type=device_of, metavar="NAME", dest="enter",
                        help="the interface where they come in")
    parser.add_argument("--hosts", type=hosts_of, default=[], metavar="A-B",
                        help="the hosts that get a class each if a pipe has a mask")
    return parser.parse_args(list(given))


def to_tc(words_given: Sequence[str]) -> int:
    given = to_tc_words(words_given)
    plan = plan_of(given.scenario, given.experiment)
    try:
        setting = setting_of(plan, False)
    except InputError as fault:
        raise InputError(
            f"{given.scenario}: {fault}: put the settings of one time into an "
            "experiment of their own") from None
    write(tc_export.script_of(setting, Place(given.dev, given.enter, tuple(given.hosts)), given.scenario),
          given.out)
    return 0
