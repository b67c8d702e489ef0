"""Finds where two runs diverge. Packets are matched by content, not by serial number.

Serial numbers shift as soon as one more packet is created, so a packet is identified by its sender and its
place: a train's by its index, a flow's by the first byte of its segment (or the number that it acknowledges)
and the number of transmissions before it. Lines of commands (`ok`) and listings are compared only if nothing
else differs. If one run is not traced, the lines that only a traced run has are ignored.
"""
from dataclasses import dataclass
from typing import Any, NamedTuple, Optional

import numpy as np

from dnlab.analysis.distributions import in_flight, waiting
from dnlab.analysis.packets import UNKNOWN
from dnlab.analysis.view import View
from dnlab.io.rows import (ACK, ACKNOWLEDGES, ARRIVE, DATA, DROP, DROP_ACK, EXPIRE, IDENTIFY, MAKE_ACK,
                           MAKE_COMMAND, OK, PASS, PIPE, REFUSED, RULE, WORD_OF, WORDS, AnyInts, Ints, Ints32,
                           header_text, headers_at, instance_name)
from dnlab.io.scenario_parts import DROP_CAUSES


class Names(NamedTuple):
    """The identity of each packet, by serial number: shapes (packets,), int64.

    `who` is an index in `told`; `number` the index of a plain packet among its sender's, from 0, else the
    load's; `nth` counts its sender's packets with that number."""
    told: list[str]
    who: Ints
    number: Ints
    nth: Ints


def names_of(view: View) -> Names:
    """Returns the identities of an experiment's packets."""
    table = view.packets
    told: list[str] = []
    who = np.full(len(table), -1, dtype=np.int64)
    number, nth = np.zeros(len(table), dtype=np.int64), np.zeros(len(table), dtype=np.int64)
    for name, packets in view.senders:
        who[packets] = len(told)
        told.append(name)
        if int(table.kind[packets[0]]) not in (DATA, ACKNOWLEDGES):
            number[packets] = np.arange(len(packets))
            continue
        number[packets] = table.number[packets]
        order = packets[np.argsort(table.number[packets], kind="stable")]
        sorted_numbers = table.number[order]
        begins = np.flatnonzero(np.append(True, sorted_numbers[1:] != sorted_numbers[:-1]))
        nth[order] = np.arange(len(order)) - np.repeat(begins, np.diff(np.append(begins, len(order))))
    return Names(told, who, number, nth)


class Told:
    """The records of an experiment, each as a row of numbers that don't depend on serial numbers."""

    def __init__(self, view: View, texts: dict[str, int], with_listings: bool) -> None:
        """Encodes the records. `texts` has a number for each name and text, and is shared by the runs to
        compare; `with_listings` compares the texts of listings, which rows don't have."""
        self.view = view
        self.names = names_of(view)
        own, kind = view.records, view.records.kind
        every = np.arange(len(own))
        codes = np.array([texts.setdefault(name, len(texts)) for name in self.names.told] + [-1],
                         dtype=np.int32)
        self.has_packet = ((kind >= MAKE_COMMAND) & (kind <= MAKE_ACK)) | (
            (kind >= ARRIVE) & (kind <= DROP_ACK))
        packet = np.where(self.has_packet, own.take("packet", every), -1)
        is_window, is_listing = (kind == ACK) | (kind == EXPIRE), kind >= RULE
        # A command's number shifts like those of packets; its text is compared if it is known.
        counts = is_window | is_listing | ((kind <= REFUSED) & (view.plan is None))
        more = is_window | is_listing | (kind == IDENTIFY) | ((kind >= MAKE_COMMAND) & (kind <= MAKE_ACK))

        def of(values: Ints) -> Ints:
            return (np.where(self.has_packet, values[packet], -1) if len(values)
                    else np.full(len(own), -1, dtype=np.int64))

        self.columns: tuple[AnyInts, ...] = (
            own.take("moment", every), WORD_OF[kind], own.instances(every), codes[of(self.names.who)],
            of(self.names.number), of(self.names.nth).astype(np.int32),
            np.where(counts, own.take("source", every), -1),
            np.where(is_window | is_listing, own.take("number", every), -1),
            np.where(more, own.take("more", every), -1), own.rows["src"], own.rows["dst"], own.rows["size"],
            own.rows["code"], np.where(is_listing, own.take("packet", every), -1),
            self.texts(texts, with_listings))

    def texts(self, texts: dict[str, int], with_listings: bool) -> Ints32:
        """Returns the numbers of the texts of commands and listings. Shape (rows,); -1 if there is none."""
        own = self.view.records
        found = np.full(len(own), -1, dtype=np.int32)
        for row, text in own.listings.items() if with_listings else ():
            found[row] = texts.setdefault(text, len(texts))
        if self.view.plan is not None:
            for row, command in zip(own.commands(), self.view.plan.commands):
                found[row] = texts.setdefault(command.text, len(texts))
        return found

    def packet(self, serial: int) -> str:
        """Returns a packet's identity as text."""
        who, number, nth = (int(values[serial]) for values in self.names[1:])
        name = self.names.told[who] if who >= 0 else UNKNOWN
        kind = int(self.view.packets.kind[serial])
        if kind not in (DATA, ACKNOWLEDGES):
            return f"{name} packet {number}"
        flow = name.removesuffix(" acks")
        again = f" (sent {nth + 1} times)" if nth and kind == DATA else f" (number {nth + 1})" if nth else ""
        return f"{flow} {'byte' if kind == DATA else 'acknowledges'} {number}{again}"

    def line(self, row: int) -> str:
        """Returns a record as text: its line or row, its time, what happened and to which packet."""
        own = self.view.records
        one, kind = own.rows[row], int(own.kind[row])
        if kind >= RULE:
            return f"{own.where(row)}: {own.listings.get(row) or listed(one, kind)}"
        said = [f"{own.where(row)}: {int(one['moment'])} ns {WORDS[WORD_OF[kind]]}"]
        if self.has_packet[row]:
            said.append(self.packet(int(one["packet"])))
        if ARRIVE <= kind <= PASS or kind == IDENTIFY:
            instance = instance_name(int(one["pipe"]) * 256 + int(one["instance"]))
            said.append(instance if kind == IDENTIFY else f"at {instance}")
        if kind in (ACK, EXPIRE):
            said.append(f"flow {one['source']} cwnd {one['number']} ssthresh {one['more']}")
        elif DROP <= kind <= DROP_ACK:
            said.append(DROP_CAUSES[int(one["code"]) - 1])
        elif MAKE_COMMAND <= kind <= MAKE_ACK:
            said.append(f"{one['size']} bytes, {header_text(headers_at(own.rows, np.array([row]))[0])}")
        elif kind == IDENTIFY:
            ports = f"{one['more'] & 65535:04x}/{one['more'] >> 16:04x}"
            said.append(f"{one['code']:02x}/{one['src']:08x}/{one['dst']:08x}/{ports}")
        elif kind in (OK, REFUSED):
            said.append(self.command(row))
        return " ".join(said)

    def command(self, row: int) -> str:
        """Returns a command's text if the scenario has it, else its number, with the code of its refusal."""
        own, plan = self.view.records, self.view.plan
        number = int(own.rows["source"][row])
        text = f"command {number}" if plan is None else f"`{plan.commands[number].text}`"
        return text if own.kind[row] == OK else f"{text} (code {int(own.rows['code'][row])})"


def listed(one: Any, kind: int) -> str:
    """Returns a row of a listing as text."""
    if kind == RULE:
        return f"rule {one['source']}: packets {one['number']}, bytes {one['more']}"
    if kind == PIPE:
        return f"pipe {one['pipe']}"
    return (f"instance {one['pipe']}.{one['instance']} waiting {one['number']} bytes {one['more']} busy "
            f"{one['code']} flight {one['packet']} drawn {one['source']}")


@dataclass
class Parting:
    """Where two runs diverge: the rows of the first lines that differ (None if one has ended), of the last
    equal lines before them, and the time, ns."""
    told: tuple[Told, Told]
    rows: tuple[Optional[int], Optional[int]]
    equal: Optional[tuple[int, int]]
    moment: int
    following: tuple[Ints, Ints]

    def queues(self) -> list[tuple[str, list[str]]]:
        """Returns for each instance how many packets it had in both runs, before the time and after it, as
        `waiting + in the delay line`; `-` if the report doesn't have the number of waiting packets."""
        names: dict[int, list[str]] = {}
        for place, told in enumerate(self.told):
            for pipe, own in told.view.visits.instances:
                names.setdefault(pipe,
                                 ["0+0"] * 4)[2 * place:2 * place + 2] = _held(told.view, own, self.moment)
        return [(instance_name(pipe), names[pipe]) for pipe in sorted(names)]


def _held(view: View, own: Ints, moment: int) -> list[str]:
    """Returns the packets that wait and that are in the delay line of an instance, before a time and after
    it."""
    found = []
    for end in (moment - 1, moment):
        counts = [int(amounts[moments <= end].sum())
                  for moments, amounts in (waiting(view, own), in_flight(view, own))]
        found.append(f"{counts[0] if view.is_told else '-'}+{counts[1]}")
    return found


def parting(first: View, second: View) -> Optional[Parting]:
    """Returns where two experiments diverge, or None if their records are the same except for serial
    numbers."""
    texts: dict[str, int] = {}
    are_texts = first.records.first is None and second.records.first is None
    told = Told(first, texts, are_texts), Told(second, texts, are_texts)
    kinds = [one.view.records.kind for one in told]
    traced = [((kind >= MAKE_COMMAND) & (kind <= MAKE_ACK)) | (kind == IDENTIFY) | (kind == ARRIVE)
              for kind in kinds]
    both = all(lines.any() for lines in traced)
    kept = [np.ones(len(kind), dtype=np.bool_) if both else ~lines for kind, lines in zip(kinds, traced)]
    events = [np.flatnonzero(own & (kind != OK) & (kind < RULE)) for own, kind in zip(kept, kinds)]
    rest = [np.flatnonzero(own) for own in kept]
    return _parted(told, events) or _parted(told, rest)


def _parted(told: tuple[Told, Told], rows: list[Ints]) -> Optional[Parting]:
    """Returns where some rows of both diverge."""
    count = min(len(rows[0]), len(rows[1]))
    different = np.zeros(count, dtype=np.bool_)
    for first, second in zip(told[0].columns, told[1].columns):
        different |= first[rows[0][:count]] != second[rows[1][:count]]
    differs = np.flatnonzero(different)
    if not len(differs) and len(rows[0]) == len(rows[1]):
        return None
    at = int(differs[0]) if len(differs) else count
    here = [int(own[at]) if at < len(own) else None for own in rows]
    # A listing line has no time of its own, only that of the command before it.
    moments = [int(one.view.records.rows["moment"][:row + 1].max())
               for one, row in zip(told, here) if row is not None]
    equal = (int(rows[0][at - 1]), int(rows[1][at - 1])) if at else None
    return Parting(told, (here[0], here[1]), equal, min(moments), (rows[0][at:], rows[1][at:]))
