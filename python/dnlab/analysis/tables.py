"""The rows of a summary: one for each sender, each pipe, each direction and each experiment as a whole.

Unknown values are None. Times are nanoseconds, rates bits per second, rounded down.
"""
from dataclasses import dataclass
from typing import Any, Optional, Sequence

import numpy as np

from dnlab.analysis.diagnostics import codes_of
from dnlab.analysis.metrics import PERCENTILES, WHOLE, Row, Span, columns_of, times_of
from dnlab.analysis.packets import DELIVERED, DROPPED, HELD, kept, order_of
from dnlab.analysis.quantities import Percentile, jain, place
from dnlab.analysis.view import View, flows_of
from dnlab.io.rows import DATA, PLAIN, Flags, Ints, instance_name
from dnlab.io.scenario_parts import DROP_CAUSES, HEADER

def spread(times: Optional[Ints], percentiles: Sequence[Percentile], with_mean: bool = False) -> Row:
    """Returns minimum, percentiles by nearest rank, and maximum, optionally with the mean; None if there are
    no times or one is unknown. Of three times the 50th percentile is the second, the 99th the third:

    >>> spread(np.array([30, 10, 26], dtype=np.int64), (50, 99), with_mean=True)
    {'min': 10, 'p50': 26, 'p99': 30, 'max': 30, 'mean': 22.0}
    """
    names = times_of(percentiles)
    least = int(times.min()) if times is not None and len(times) else -1
    if times is None or least < 0:
        return dict.fromkeys((*names, "mean") if with_mean else names)
    greatest = int(times.max())
    places = [place(len(times), one) for one in percentiles]
    ordered = np.partition(times, sorted(set(places))) if places else times
    found: Row = dict(zip(names, (least, *(int(ordered[at]) for at in places), greatest)))
    if with_mean:
        # If need be summed in two halves, so that no sum exceeds 64 bits.
        total = (int(times.sum()) if greatest * len(times) < 2**63
                 else (int((times >> 20).sum()) << 20) + int((times & 0xFFFFF).sum()))
        found["mean"] = total / len(times)
    return found


# The weight of the newest difference in the jitter of RFC 3550; those before the last few thousand weigh less
# than 2^-180.
_NEWEST = 1 / 16
_HEARD = 2000


def jitter(times: Ints) -> Optional[float]:
    """Returns the interarrival jitter after the last packet, ns (RFC 3550, section 6.4.1): J + (|D| - J) / 16
    for each difference D of two one-way delays in the order of arrival. None for fewer than two, or if one is
    unknown. Shape (n,).

    >>> jitter(np.array([10, 26, 26], dtype=np.int64))
    0.9375
    """
    if len(times) < 2 or int(times.min()) < 0:
        return None
    steps = np.abs(np.diff(times[-_HEARD - 1:])).astype(np.float64)
    return float(np.dot(steps[::-1], (1 - _NEWEST) ** np.arange(len(steps))) * _NEWEST)


def span(firsts: Ints, lasts: Ints, size: Optional[int]) -> Row:
    """Returns the first and last time, the time between, and the bit/s over it, rounded down. 16000 bits in
    12 ms:

    >>> span(np.array([0, 5_000_000]), np.array([12_000_000, 11_000_000]), 2000)
    {'first': 0, 'last': 12000000, 'time': 12000000, 'rate': 1333333}
    """
    known = len(firsts) > 0 and len(lasts) > 0 and int(firsts.min()) >= 0
    first = int(firsts.min()) if known else None
    last = int(lasts.max()) if len(lasts) else None
    time = last - first if first is not None and last is not None else None
    rate = size * 8 * 10**9 // time if time and size is not None else None
    return {"first": first, "last": last, "time": time, "rate": rate}


def sum_of(sizes: Ints) -> Optional[int]:
    """Returns the sum of sizes, or None if one is unknown (-1).

    >>> sum_of(np.array([40, 1500])), sum_of(np.array([40, -1]))
    (1540, None)
    """
    return None if len(sizes) and int(sizes.min()) < 0 else int(sizes.sum())


class _Set:
    """The packets of a row, with their columns, and which of them were delivered in a time range."""

    def __init__(self, view: View, packets: Ints, now: Span) -> None:
        table = view.packets
        # All packets are in order.
        own: Any = slice(None) if len(packets) == len(table) else packets
        self.packets, self.own = packets, own
        self.fate, self.kind, self.made = table.outcome[own], table.kind[own], table.made[own]
        self.ended, self.size = table.ended[own], table.size[own]
        self.came: Flags = (self.fate == DELIVERED) & now.has(self.ended)
        self.row: Optional[Row] = None
        self.useful: Optional[Row] = None

    def delays(self) -> Ints:
        """Returns the one-way delays of the delivered packets, in ns; -1 if unknown."""
        made = kept(self.made, self.came)
        return np.where(made >= 0, kept(self.ended, self.came) - made, -1)

    def jitter(self, delays: Ints) -> Optional[float]:
        """Returns the jitter after the last delivery, by these delays."""
        return jitter(delays[order_of(kept(self.ended, self.came))])


@dataclass
class Tables:
    """Creates the rows of an experiment. `varied` are the settings that differ between experiments, and
    `with_mean` adds the `mean` one-way delay to rows of packets and pipes.

    With a `span`, rows have what happened in it: packets created, delivered and dropped in it, those in
    flight at its end, and rates over its whole length."""
    view: View
    percentiles: Sequence[Percentile] = PERCENTILES
    varied: Optional[str] = None
    with_mean: bool = True
    span: Span = Span()

    def __post_init__(self) -> None:
        self.span.check(self.view)
        self._sets: dict[tuple[int, int], _Set] = {}

    def rows(self) -> list[Row]:
        """Returns all rows of the experiment, that of the whole last."""
        view = self.view
        rows = [self.sender(name, packets) for name, packets in view.senders]
        rows += [row for pipe, visits in view.visits.instances for row in self.pipe(pipe, visits)]
        rows += self.whole()
        own = self.own()
        return [{**dict.fromkeys(columns_of(self.percentiles, self.span)), **row, **own,
                 "warnings": view.marks("" if row["sender"] in WHOLE else row["sender"])} for row in rows]

    def own(self) -> Row:
        """Returns the columns that all rows of the experiment share."""
        plan, ended = self.view.plan, self.view.ended
        return {"experiment": self.view.name,
                "seed": plan.seed if plan else None, "budget_packets": plan.budget if plan else None,
                "budget_steps": plan.steps if plan else None, "params": plan.settings() if plan else None,
                "varied": self.varied, "refused": len(self.view.refused),
                "codes": codes_of(self.view.refused),
                "ended": ended.how, "ended_at": ended.moment, "end": ended.end,
                **({} if self.span.is_whole() else {"from": self.span.begin, "to": self.until()})}

    def until(self) -> int:
        """Returns the end of the span, ns, or of the experiment if that is earlier."""
        last = self.view.ended.moment
        return last if self.span.end is None else min(self.span.end, last)

    def over(self, firsts: Ints, lasts: Ints, size: Optional[int]) -> Row:
        """Like `span`; for a time range, the rate is over its whole length."""
        found = span(firsts, lasts, size)
        if self.span.is_whole():
            return found
        time = self.until() - self.span.begin
        return {**found, "time": time, "rate": None if size is None else size * 8 * 10**9 // time}

    def set_of(self, packets: Ints) -> _Set:
        """Returns the columns of some packets. Those of one direction are often those of its only sender."""
        key = len(packets), int(packets[0]) if len(packets) else -1
        known = self._sets.get(key)
        if known is None or not (known.packets is packets or bool((known.packets == packets).all())):
            known = self._sets[key] = _Set(self.view, packets, self.span)
        return known

    def packets(self, of: str, packets: Ints) -> Row:
        """Returns a row of packets: bytes, last and rate are of deliveries, first is the creation of the
        first packet."""
        own = self.set_of(packets)
        if own.row is None:
            own.row = self._packets(own)
        return {"sender": of, **own.row}

    def _packets(self, own: _Set) -> Row:
        now = self.span
        made, size = kept(own.made, now.has(own.made)), sum_of(kept(own.size, own.came))
        lost = own.fate[(own.fate >= DROPPED) & now.has(own.ended)].astype(np.int64) - DROPPED
        causes = np.bincount(lost, minlength=len(DROP_CAUSES))
        held = ((own.fate == HELD) | now.is_over(own.ended)) & ~now.is_over(own.made)
        delays = own.delays()
        return {"packets": len(made), "delivered": len(delays),
                "in_flight": int(np.count_nonzero(held)), "bytes": size,
                **self.over(made, kept(own.ended, own.came), size), **dict(zip(DROP_CAUSES, causes.tolist())),
                **spread(delays, self.percentiles, self.with_mean), "jitter": own.jitter(delays)}

    def sender(self, of: str, packets: Ints) -> Row:
        return {**self.packets(of, packets), **self.useful(packets), **self.progress(of, packets)}

    def useful(self, packets: Ints) -> Row:
        """Returns the bytes that arrived, each once, and their rate: for a flow without headers, for a train
        all packets. For injected packets only their program knows which data was new."""
        own = self.set_of(packets)
        if own.useful is None:
            own.useful = self._useful(own)
        return own.useful

    def _useful(self, own: _Set) -> Row:
        table = self.view.packets
        sends: Flags = (own.kind == DATA) | (own.kind == PLAIN)
        came = own.came & sends
        size = kept(own.size, came)
        if (not sends.any() or self.view.has_injected and self.view.is_injected[own.own][sends].any()
            or (len(size) and int(size.min()) < 0)):
            return {}
        once = came & table.is_new[own.own]
        count = int(np.count_nonzero(once & (own.kind == DATA)))
        useful = int(kept(own.size, once).sum()) - HEADER * count
        over = self.over(kept(own.made, sends), kept(own.ended, once), useful)
        return {"useful": useful, "goodput": over["rate"]}

    def progress(self, of: str, packets: Ints) -> Row:
        """Returns for a flow the number of retransmissions, and the time from its command to its last missing
        byte."""
        own, table = self.set_of(packets), self.view.packets
        if int(own.kind[0]) != DATA or not self.view.is_told:
            return {}
        again = int(np.count_nonzero(table.retransmission[own.own] & self.span.has(own.made)))
        moment, sends = self.view.sends.get(of, (0, None))
        ended = kept(own.ended, table.is_new[own.own])
        last = int(ended.max(initial=0))
        is_whole = (sends is not None and len(ended) == sends.count
                    and bool(self.span.has(np.array([last])).all()))
        return {"retransmissions": again, "fct": last - moment if is_whole else None}

    def pipe(self, pipe: int, visits: Ints) -> list[Row]:
        """Returns the rows of an instance: one, or one for each direction if it had packets of both."""
        back = self.view.backs[pipe]
        name = f"pipe {instance_name(pipe)}"
        if back.all() or not back.any():
            return [self.visits(name, visits)]
        return [self.visits(name, visits[~back]), self.visits(f"{name} back", visits[back])]

    def visits(self, of: str, visits: Ints) -> Row:
        """Returns a row of an instance: packets that it served, of which `delivered` have left it.

        Which pipe dropped a packet is known from its arrival there, which only traced reports have."""
        table, packets, now = self.view.visits, self.view.packets, self.span
        finish, left, packet = table.finish[visits], table.exit[visits], table.packet[visits]
        arrival, is_served = table.arrival[visits], finish >= 0
        served, gone = is_served & now.has(finish), is_served & (left >= 0) & now.has(left)
        size = sum_of(packets.size[kept(packet, served)])
        held = is_served & ~now.is_over(finish) & (((left < 0) & (packets.outcome[packet] == HELD))
                                                   | now.is_over(left))
        came = kept(arrival, gone)
        times = np.where(came < 0, -1, kept(left, gone) - came)
        lost = packets.outcome[packet[~is_served & (left >= 0) & now.has(left)]].astype(np.int64) - DROPPED
        causes = np.bincount(lost[lost >= 0], minlength=len(DROP_CAUSES)).tolist()
        known = DROP_CAUSES if self.view.is_told else ()
        known_span = self.over(kept(arrival, served), kept(finish, served), size)
        return {"sender": of, "packets": int(np.count_nonzero(served)), "delivered": len(times),
                "in_flight": int(np.count_nonzero(held)),
                "bytes": size, **known_span, "utilisation": self.utilisation(of, known_span, size),
                **{cause: count if cause in known else None for cause, count in zip(DROP_CAUSES, causes)},
                **spread(times, self.percentiles, self.with_mean)}

    def utilisation(self, of: str, known: Row, size: Optional[int]) -> Optional[float]:
        """Returns what an instance served divided by what its rate could have carried from the first arrival
        to the last finish; None without a rate, or if unknown."""
        if size is None or not known["time"]:
            return None
        could, begin, end = 0, known["first"], known["last"]
        if not self.span.is_whole():
            begin, end = self.span.begin, self.until()
        changes = [change
                   for change in self.view.changes.get(int(of.split()[1].split(".")[0]), []) if change.config]
        for change, following in zip(changes, [*changes[1:], None]):
            assert change.config is not None
            until = end if following is None else min(following.moment, end)
            time = until - max(change.moment, begin)
            if time > 0 and not change.config.bw:
                return None
            could += max(time, 0) * change.config.bw
        return size * 8 * 10**9 / could if could else None

    def whole(self) -> list[Row]:
        """Returns the row of all packets; with two directions, their rows have bytes, rates and times."""
        packets = np.arange(len(self.view.packets))
        back = self.view.is_back
        fair = {"jain": self.fairness()}
        if back.all() or not back.any():
            return [{**self.packets("all", packets), **(self.useful(packets) if len(packets) else {}),
                     **fair}]
        there = {**self.packets("there", packets[~back]), **self.useful(packets[~back]), **fair}
        behind = self.packets("back", packets[back])
        sums = {column: there[column] + behind[column]
                for column in ("packets", "delivered", "in_flight", *DROP_CAUSES)}
        return [there, behind, {"sender": "all", **sums, **fair}]

    def fairness(self) -> Optional[float]:
        """Returns Jain's index over the flows' goodputs, or None if there is no flow or sizes are unknown."""
        flows = [self.useful(packets) for _, packets in flows_of(self.view)]
        if not flows or not all("goodput" in flow for flow in flows):
            return None
        return jain([flow["goodput"] or 0 for flow in flows])
