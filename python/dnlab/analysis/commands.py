"""The commands of an experiment as the report and the scenario have them: which were executed, the rules at
each time, what they send, and the senders of packets, which the text of a report lacks."""
from __future__ import annotations

import ipaddress
from collections import defaultdict
from typing import TYPE_CHECKING, NamedTuple, Optional

import numpy as np

from dnlab.analysis.packets import distinct, headers_in, keys_of
from dnlab.errors import Note
from dnlab.io.rows import (ACKNOWLEDGES, MAKE_COMMAND, OK, REFUSED, UNKNOWN_SOURCE, Flags, Ints, Ints32,
                           Records, header_text, number_of)
from dnlab.io.scenario_parts import Command, Plan, Rule, rule_of

if TYPE_CHECKING:
    from dnlab.analysis.view import View

def done_of(records: Records, plan: Optional[Plan]) -> list[tuple[int, Command]]:
    """Returns the executed commands of a scenario that inject nothing, each with its number. Raises
    `ParseError` if the report has other commands."""
    if plan is None:
        return []
    rows = records.commands()
    _compare(records, plan, rows)
    refused = set(records.take("source", records.at(REFUSED)).tolist())
    return [(number, one) for number, one in plan.commands.plain
            if number < len(rows) and number not in refused and one.word != "inject"]


def _compare(records: Records, plan: Plan, rows: Ints) -> None:
    """Raises `ParseError` if the report's commands have other times than the scenario's, or another
    number."""
    moments = np.zeros(len(plan.commands), dtype=np.int64)
    moments[[number for number, _ in plan.commands.plain]] = [one.moment for _, one in plan.commands.plain]
    for number, run in plan.commands.runs:
        moments[number:number + len(run.moments)] = run.moments
    told = records.take("moment", rows)
    both = min(len(rows), len(moments))
    bad = np.flatnonzero(told[:both] != moments[:both])
    if len(bad):
        number = int(bad[0])
        raise records.refused(int(rows[number]),
                              f"command {number} at {told[number]}, where line {plan.commands[number].line} "
                              f"of the scenario has {moments[number]}")
    if len(rows) > both:
        raise records.refused(int(rows[both]), f"the scenario has no command {both} in {plan.name}")
    if len(moments) > both and not records.is_spent():
        raise records.refused(len(records), f"the report ends before command {both}, which is in line"
                              f" {plan.commands[both].line} of the scenario")


# The end of a search other than a pipe; pipes have numbers above 0.
DENIED, ALLOWED = 0, -1
# The columns of a header: protocol (6 or 17), source, its port, target, its port.
_COLUMNS = 5


class Epoch(NamedTuple):
    """The rules from a time (ns) on, in search order, each with its line, and `is_one_pass`."""
    moment: int
    rules: tuple[tuple[int, Rule], ...]
    is_one_pass: bool


def epochs_of(view: View) -> list[Epoch]:
    """Returns the sets of rules that an experiment had, by its executed commands."""
    rules: list[tuple[int, Rule]] = []
    found = [Epoch(0, (), True)]
    for _, command in view.done:
        words = command.text.split()
        if command.word == "add":
            rules = sorted([*rules, (command.line, rule_of(command.text))], key=lambda one: one[1].number)
        elif command.word == "delete":
            rules = [one for one in rules if one[1].number != int(words[1])]
        elif command.word != "one_pass":
            continue
        one_pass = words[1] == "1" if command.word == "one_pass" else found[-1].is_one_pass
        found = [one for one in found
                 if one.moment < command.moment] + [Epoch(command.moment, tuple(rules), one_pass)]
    return found


def header_by(command: Command) -> list[int]:
    """Returns the header that a `train` or a `flow` command sends."""
    words = command.text.split()
    protocol, source, port, target, other = words[2:7] if command.word == "train" else ["tcp", *words[2:6]]
    return [6 if protocol == "tcp" else 17, number_of(source), int(port), number_of(target), int(other)]


def headers_of(view: View) -> tuple[Ints, Ints32]:
    """Returns the headers that are sent, and the index of each packet's (-1 if unknown). Shapes (n, 5) and
    (packets,)."""
    rows: list[list[int]] = []
    by_name: dict[str, int] = {}
    for _, command in view.done:
        if command.sends is not None:
            name = command.sends.name()
            by_name[name] = len(rows)
            rows.append(header_by(command))
            if command.word == "flow":
                protocol, source, port, target, other = rows[-1]
                by_name[f"{name} acks"] = len(rows)
                rows.append([protocol, target, other, source, port])
    codes = np.array([*(by_name.get(name, -1) for name in view.packets.names), -1], dtype=np.int32)
    which = codes[view.packets.who]
    table = view.packets
    if len(table.headers):
        which = np.where((which < 0) & (table.header >= 0), table.header + len(rows), which)
    return np.concatenate((np.array(rows, dtype=np.int64).reshape(-1, _COLUMNS), table.headers)), which


def search(epoch: Epoch, headers: Ints, is_whole: bool = False) -> tuple[Ints, Flags]:
    """Returns where the search for each header first ends (a pipe's number, `DENIED` or `ALLOWED`), and which
    rules some of them meet. With `is_whole`, packets that leave a pipe under `one_pass 0` continue."""
    ends = np.full(len(headers), DENIED, dtype=np.int64)
    open_, skips = np.ones(len(headers), dtype=np.bool_), np.zeros(len(headers), dtype=np.int64)
    met = np.zeros(len(epoch.rules), dtype=np.bool_)
    for place, (_, rule) in enumerate(epoch.rules):
        here = open_ & (skips <= rule.number) & _matches(rule, headers)
        met[place] = here.any()
        if rule.action == "skipto":
            skips[here] = rule.value
        elif rule.action != "count":
            ends[here] = {"allow": ALLOWED, "deny": DENIED}.get(rule.action, rule.value)
            if rule.action != "pipe" or epoch.is_one_pass or not is_whole:
                open_ &= ~here
    return ends, met


def _matches(rule: Rule, headers: Ints) -> Flags:
    found: Flags = np.ones(len(headers), dtype=np.bool_)
    if rule.protocol != "ip":
        found &= headers[:, 0] == (6 if rule.protocol == "tcp" else 17)
    for column, address, ports in ((1, rule.source, rule.source_ports), (3, rule.target, rule.target_ports)):
        if address != "any":
            network = ipaddress.IPv4Network(address, strict=False)
            found &= (headers[:, column] & int(network.netmask)) == int(network.network_address)
        if ports:
            least, _, most = ports.partition("-")
            found &= (headers[:, column + 1] >= int(least)) & (headers[:, column + 1] <= int(most or least))
    return found


def unmet(view: View) -> tuple[list[tuple[int, Rule]], list[int]]:
    """Returns the rules that no packet met, each with its line, and the pipes. What a packet's return path
    would meet counts as met; so does everything if no packet was created."""
    if not len(view.packets):
        return [], []
    there, _ = view.headers
    headers = np.concatenate((there, there[:, [0, 3, 4, 1, 2]]))
    headers = headers[distinct(*keys_of(headers))[0]]
    rules: dict[tuple[int, Rule], bool] = {}
    for epoch in view.epochs:
        for one, is_met in zip(epoch.rules, search(epoch, headers, True)[1].tolist()):
            rules[one] = rules.get(one, False) or is_met
    pipes = {rule.value for (_, rule), is_met in rules.items() if is_met and rule.action == "pipe"}
    pipes |= {instance // 256 for instance, _ in view.visits.instances}
    return [one for one, is_met in rules.items() if not is_met], [pipe for pipe in view.changes
                                                                  if pipe not in pipes]


def are_emissions(view: View, packets: slice) -> Flags:
    """Returns which packets a flow or a train emits, which follows everything else of its time."""
    names = np.array([name.startswith(("flow", "train")) for name in view.packets.names] + [False])
    found: Flags = names[view.packets.who[packets]] & (view.packets.kind[packets] != ACKNOWLEDGES)
    return found


def find_senders(records: Records, plan: Plan, notes: list[Note]) -> frozenset[str]:
    """Sets the senders in the rows of a text, by its scenario. An injected packet follows the `ok` of its
    command; a train's has the train's header. Returns the trains that share a header, so that no packet of
    theirs can be attributed, and adds a note."""
    makes = records.at(MAKE_COMMAND)
    makes = makes[records.rows["source"][makes] == UNKNOWN_SOURCE]
    if not len(makes):
        return frozenset()
    before = np.maximum(makes - 1, 0)
    number = np.minimum(records.take("source", before), len(plan.commands))
    injects = np.zeros(len(plan.commands) + 1, dtype=np.bool_)
    injects[[place for place, one in plan.commands.plain if one.word == "inject"]] = True
    for place, run in plan.commands.runs:
        injects[place:place + len(run.moments)] = True
    is_injected = (records.kind[before] == OK) & injects[number]
    records.rows["source"][makes[is_injected]] = number[is_injected]
    return _find_trains(records, plan, makes[~is_injected], notes)


def _find_trains(records: Records, plan: Plan, makes: Ints, notes: list[Note]) -> frozenset[str]:
    trains: dict[tuple[int, ...], dict[str, int]] = defaultdict(dict)
    for _, command in plan.commands.plain:
        if command.word == "train" and command.sends is not None and command.sends.number is not None:
            trains[tuple(header_by(command))][command.sends.name()] = command.sends.number
    shared: list[str] = []
    headers, which = headers_in(records.rows, makes)
    for place, header in enumerate(headers.tolist()):
        names = trains.get(tuple(header), {})
        if len(names) == 1:
            records.name_train(makes[which == place], next(iter(names.values())))
        elif names:
            shared += names
            notes.append(Note("same header",
                              f"{', '.join(names)} have the same header, so their packets are named "
                              f"{header_text(header)}: the text of a report doesn't tell them apart, but "
                              "rows do (`dnlab alone --format npy < scenario.txt > rows.npy`)", "",
                              header_text(header)))
    return frozenset(shared)
