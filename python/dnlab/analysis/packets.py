"""The outcome of each packet of an experiment, and its path through pipes, as columns."""
from dataclasses import dataclass
from functools import cached_property
from typing import Any, Mapping

import numpy as np

from dnlab.io.rows import (ACKNOWLEDGES, ARRIVE, DATA, DROP, DROP_ACK, FINISH, KINDS, LOAD_OF, MAKE_TRAIN,
                           PASS, PLAIN, UNKNOWN_SOURCE, AnyInts, Bytes, Flags, Ints, Ints8, Ints32, Records,
                           Rows, header_text, headers_at)
from dnlab.io.scenario_parts import INJECTED, DROP_CAUSES as CAUSES

HELD, DELIVERED, DROPPED = 0, 1, 2
OUTCOMES = ("held", "delivered") + CAUSES
UNKNOWN = "unknown"


def sender_name(header: tuple[int, ...], is_injected: bool, names: Mapping[str, str]) -> str:
    """Returns the name of a plain packet's sender: for an injected one the user's for its address, its
    address with port, or its whole header; for a text, which doesn't tell, the header."""
    if is_injected and not names:
        return INJECTED
    words = header_text(header)
    _, address, port, _, _ = words.split()
    return (next((names[key] for key in (address, f"{address}:{port}", words) if key in names), INJECTED)
            if is_injected else words)


@dataclass
class Packets:
    """A row for each packet, by serial number; all arrays have the shape (packets,). Unknown values are -1.

    made    int64  ns
    ended   int64  ns: when it was delivered or dropped; -1 if it is held
    outcome int8   an index in `OUTCOMES`: `held`, `delivered`, or the cause of its drop
    size    int64  bytes, with headers
    who     int32  its sender, an index in `names`
    kind    int8   of the load, an index in `dnlab.io.rows.KINDS`
    flow    int32  of its load
    number  int64  of its load: the first byte, or the acknowledged number
    row     int64  the row that creates it
    header  int32  for packets that are neither of a flow nor of a train, an index in `headers`; else -1"""
    names: list[str]
    made: Ints
    ended: Ints
    outcome: Ints8
    size: Ints
    who: Ints32
    kind: Ints8
    flow: Ints32
    number: Ints
    row: Ints
    header: Ints32
    headers: Ints

    def __len__(self) -> int:
        return len(self.made)

    @cached_property
    def delay(self) -> Ints:
        """Returns the one-way delay, in ns; -1 if unknown. Shape (packets,), int64."""
        known = (self.made >= 0) & (self.outcome == DELIVERED)
        return np.where(known, self.ended - self.made, -1)

    @cached_property
    def retransmission(self) -> Flags:
        """Returns whether a segment was sent before. Shape (packets,); False for packets that are no
        segments."""
        rows = np.flatnonzero(self.kind == DATA)
        again = np.zeros(len(self), dtype=np.bool_)
        again[rows] = True
        again[self._first_of_each(rows)] = False
        return again

    @cached_property
    def is_new(self) -> Flags:
        """Returns whether a packet was delivered with new data: a plain one, or a segment for the first time.
        Shape (packets,)."""
        delivered = self.outcome == DELIVERED
        rows = np.flatnonzero(delivered & (self.kind == DATA))
        new: Flags = delivered & (self.kind == PLAIN)
        new[self._first_of_each(rows[order_of(self.ended[rows])])] = True
        return new

    def _first_of_each(self, rows: Ints) -> Ints:
        """Returns the first transmission of each segment among some packets."""
        rows = rows[order_of(self.flow[rows])]
        key = (self.flow[rows].astype(np.int64) << 40) | self.number[rows]
        if not len(key):
            return rows
        # A number above all before it is new. The others, which are few, are mostly of such a segment.
        most = np.maximum.accumulate(key)
        is_first = np.append(True, key[1:] > most[:-1])
        known, others = key[is_first], key[~is_first]
        if not bool((known[np.minimum(np.searchsorted(known, others), len(known) - 1)] == others).all()):
            _, is_first = np.unique(key, return_index=True)
        found: Ints = rows[is_first]
        return found

    def senders(self) -> list[tuple[str, Ints]]:
        """Returns the senders, in the order of the first packet, with the packets of each."""
        parts = sorted(_parts(self.who), key=lambda part: int(part[0]))
        return [(self.names[self.who[part[0]]] if self.who[part[0]] >= 0 else UNKNOWN, part)
                for part in parts]


def kept(values: Ints, mask: Flags) -> Ints:
    """Returns the values that a mask has; without a copy if it has all."""
    return values if mask.all() else values[mask]


def order_of(values: AnyInts) -> Any:
    """Returns a stable order of values, as an index: values that are in order need no sort, and those of 16
    bits only a fast one."""
    if len(values) < 2 or bool((values[1:] >= values[:-1]).all()):
        return slice(None)
    is_short = int(values.min()) >= 0 and int(values.max()) < 65536
    return np.argsort(values.astype(np.uint16) if is_short else values, kind="stable")


# Up to this many values are looked for one by one; more are sorted.
_FEW = 16


def _parts(values: AnyInts) -> list[Ints]:
    """Returns the places of each value, in the order of the values."""
    if not len(values):
        return []
    if 0 <= int(values.min()) and int(values.max()) < 65536:
        short = values.astype(np.uint16)
        found = np.flatnonzero(np.bincount(short))
        if len(found) <= _FEW:
            return [np.flatnonzero(short == one) for one in found]
    order = np.arange(len(values))[order_of(values)]
    ordered = values[order]
    return np.split(order, np.flatnonzero(ordered[1:] != ordered[:-1]) + 1)


@dataclass
class Visits:
    """A row for each visit of a packet to an instance, by packet and time; shapes (visits,). Unknown values
    are -1.

    packet   int64  serial number
    pipe     int64  pipe * 256 + instance
    arrival  int64  ns
    finish   int64  ns: the end of service; -1 if it wasn't served
    exit     int64  ns: when it left, or was dropped there"""
    packet: Ints
    pipe: Ints
    arrival: Ints
    finish: Ints
    exit: Ints

    def __len__(self) -> int:
        return len(self.packet)

    @cached_property
    def instances(self) -> list[tuple[int, Ints]]:
        """Returns the instances by number, with the visits to each."""
        return [(int(self.pipe[part[0]]), part) for part in _parts(self.pipe)]

    def of_pipe(self, pipe: int) -> Ints:
        """Returns the visits to all instances of a pipe."""
        parts = [part for instance, part in self.instances if instance >> 8 == pipe]
        return parts[0] if len(parts) == 1 else np.sort(np.concatenate([np.zeros(0, dtype=np.int64), *parts]))


def packets_of(records: Records, given: Mapping[str, str] = {}) -> Packets:
    """Returns the packets of an experiment, as far as the rows have them; `given` has the user's names for
    sources of injected ones."""
    count = records.counters.made
    own, came, lost = (records.parts[name] for name in ("make", "deliver", "drop"))
    ended, fate = np.full(count, -1, dtype=np.int64), np.zeros(count, dtype=np.int8)
    ended[came["packet"]], fate[came["packet"]] = came["moment"], DELIVERED
    ended[lost["packet"]], fate[lost["packet"]] = lost["moment"], lost["code"] + (DROPPED - 1)
    made, size, row, source, number = (own[name] for name in ("moment", "size", "row", "source", "number"))
    loads = LOAD_OF[records.kind[row]]
    if len(row) < count:
        # The report is traced only in part, or not at all.
        ends = np.concatenate((came["row"], lost["row"], row))
        packet = records.take("packet", ends)
        made, size, row = (_scattered(count, own["packet"], values) for values in (made, size, row))
        loads, source, number = (_scattered(count, packet, values) for values in (
            LOAD_OF[records.kind[ends]], records.take("source", ends), records.take("number", ends)))
    kind: Ints8 = loads.astype(np.int8)
    flow = source.astype(np.int32)
    if (kind <= PLAIN).any():
        flow, number = np.where(kind <= PLAIN, np.int32(-1), flow), np.where(kind <= PLAIN, -1, number)
    header = np.full(count, -1, dtype=np.int32)
    names, who, headers = _senders(records, kind, flow, header, given)
    return Packets(names, made, ended, fate, size, who, kind, flow, number, row, header, headers)


def _scattered(count: int, places: Ints, values: AnyInts) -> Ints:
    """Returns values by packet, -1 where there is none."""
    found = np.full(count, -1, dtype=np.int64)
    found[places] = values
    return found


def _senders(records: Records, kind: Ints8, flow: Ints32, header: Ints32,
             names: Mapping[str, str]) -> tuple[list[str], Ints32, Ints]:
    """Returns the names of the senders, the index of each packet's (-1 if it is unknown), and the headers of
    packets that are neither of a flow nor of a train, by the rows that create packets; sets `header`."""
    # A flow's number and direction; below 0 a train's number; else the place of a name.
    key = flow.astype(np.int64) * 4 + kind
    key[kind <= PLAIN] = -1
    row, packet, source = (records.parts["make"][name] for name in ("row", "packet", "source"))
    plain = np.flatnonzero(records.kind[row] <= MAKE_TRAIN)
    row, packet, source = row[plain], packet[plain], source[plain]
    is_train = records.kind[row] == MAKE_TRAIN
    key[packet[is_train]] = source[is_train] * 4 + ACKNOWLEDGES + 1
    found: dict[str, int] = {}
    every = np.zeros((0, 5), dtype=np.int64)
    for others in (~is_train & (source != UNKNOWN_SOURCE), ~is_train & (source == UNKNOWN_SOURCE)):
        if others.any():
            headers, which = headers_in(records.rows, row[others])
            is_injected = bool(source[others][0] != UNKNOWN_SOURCE)
            codes = [found.setdefault(sender_name(tuple(one), is_injected, names), len(found))
                     for one in headers.tolist()]
            key[packet[others]] = np.array(codes, dtype=np.int64)[which] * 4 + PLAIN
            header[packet[others]] = which + len(every)
            every = np.concatenate((every, headers))
    lonely = (kind == PLAIN) & (key < 0)
    if lonely.any():
        key[lonely] = found.setdefault(KINDS[PLAIN], len(found)) * 4 + PLAIN
    given = list(found)
    keys, who = _codes(key)
    return [_name(one, given) for one in keys], who, every


def _codes(key: Ints) -> tuple[list[int], Ints32]:
    """Returns the keys from 0 on, each once, in the order of the first, and the index of each one's, -1 for
    keys below 0."""
    first = np.full(int(key.max(initial=-1)) + 2, len(key), dtype=np.int64)
    first[key[::-1]] = np.arange(len(key))[::-1]
    first[-1] = len(key)
    keys = np.flatnonzero(first < len(key))
    keys = keys[np.argsort(first[keys])]
    code = np.full(len(first), -1, dtype=np.int32)
    code[keys] = np.arange(len(keys))
    return keys.tolist(), code[key]


def _name(key: int, given: list[str]) -> str:
    if key < 0:
        return UNKNOWN
    number, kind = divmod(key, 4)
    return (given[number] if kind == PLAIN else f"flow {number}" if kind == DATA else f"flow {number} acks"
            if kind == ACKNOWLEDGES
            else f"train {number}")


def headers_in(rows: Rows, places: Ints) -> tuple[Ints, Ints]:
    """Returns the headers of the packets that some rows create, each once, in the order of the first, and the
    index of each; shapes (h, 5) and (n,)."""
    addresses = rows.view("<i8").reshape(-1, 5)[:, 3][places]
    first, which = distinct(addresses, rows["more"][places].astype(np.int64) << 8 | rows["code"][places])
    return headers_at(rows, places[first]), which


def keys_of(headers: Ints) -> tuple[Ints, Ints]:
    """Returns two numbers for each header, which tell headers apart."""
    return ((headers[:, 1] << 16 | headers[:, 2]) << 8 | headers[:, 0], headers[:, 3] << 16 | headers[:, 4])


def distinct(begin: Ints, end: Ints) -> tuple[Ints, Ints]:
    """Returns the first of each pair of numbers, in order, and for each pair the index of its first.

    >>> distinct(np.array([6, 17, 6]), np.array([1, 1, 1]))[1].tolist()
    [0, 1, 0]
    """
    if len(begin) and (begin == begin[0]).all() and (end == end[0]).all():
        return np.zeros(1, dtype=np.int64), np.zeros(len(begin), dtype=np.int64)
    _, source = np.unique(begin, return_inverse=True)
    _, target = np.unique(end, return_inverse=True)
    _, first, which = np.unique(source * (len(begin) + 1) + target, return_index=True, return_inverse=True)
    order = np.argsort(first)
    return first[order], np.argsort(order)[which]


def visits_of(records: Records, packets: Packets) -> Visits:
    """Returns the visits of all packets to pipes, as far as the rows have them: without tracing, `arrive` is
    missing, a visit begins with the finish, and its arrival is unknown."""
    packet, served = records.parts["arrive"]["packet"], records.parts["finish"]["packet"]
    comes = np.zeros(len(packets), dtype=np.bool_)
    comes[packet] = True
    if int(np.count_nonzero(comes)) == len(packet) and bool(comes[served].all()):
        return _single_visits(records, packets)
    return _many_visits(records)


def _single_visits(records: Records, packets: Packets) -> Visits:
    """Returns the visits if no packet came to a second instance: nothing has to be sorted by packet."""
    finish, left = np.full(len(packets), -1, dtype=np.int64), np.full(len(packets), -1, dtype=np.int64)
    arrives, served, passes = (records.parts[name] for name in ("arrive", "finish", "pass"))
    finish[served["packet"]] = served["moment"]
    # A drop behind the service is none of the instance; the first way out is the `pass`, if there is one.
    ends = (packets.outcome == DELIVERED) | ((packets.outcome >= DROPPED) & (finish < 0))
    left[ends] = packets.ended[ends]
    left[passes["packet"]] = passes["moment"]
    packet, moment = arrives["packet"], arrives["moment"]
    pipe = arrives["pipe"] << 8 | arrives["instance"]
    order = order_of(packet)
    packet, moment, pipe = packet[order], moment[order], pipe[order]
    return Visits(packet, pipe, moment, finish[packet], left[packet])


def _many_visits(records: Records) -> Visits:
    rows = records.at(ARRIVE, DROP_ACK)
    packet = records.rows["packet"][rows]
    order = np.argsort(packet, kind="stable")
    rows, packet = rows[order], packet[order].astype(np.int64)
    kind, moment = records.kind[rows], records.rows["moment"][rows]
    begins = (kind == ARRIVE) | _unseen(kind, packet)
    first = np.flatnonzero(begins)
    visit = np.cumsum(begins) - 1
    inside = (visit >= 0) & (packet[first[visit]] == packet) if len(first) else begins
    finish, left, arrival = (np.full(len(first), -1, dtype=np.int64) for _ in range(3))
    served = np.flatnonzero(inside & (kind == FINISH))
    finish[visit[served]] = moment[served]
    # Assigned last to first, so that the first row after which a packet has left remains; a drop ends no
    # visit that was left before.
    leaves = np.flatnonzero(inside & (kind >= PASS))[::-1]
    leaves = leaves[~((kind[leaves] >= DROP) & (finish[visit[leaves]] >= 0))]
    left[visit[leaves]] = moment[leaves]
    come = kind[first] == ARRIVE
    arrival[come] = moment[first[come]]
    return Visits(packet[first], records.instances(rows[first]), arrival, finish, left)


def _unseen(kind: Bytes, packet: Ints) -> Flags:
    """Returns which rows, in the order of packets, are finishes without an `arrive`."""
    waits = np.zeros(len(kind), dtype=np.bool_)
    waits[1:] = (packet[1:] == packet[:-1]) & (kind[:-1] == ARRIVE)
    found: Flags = (kind == FINISH) & ~waits
    return found
