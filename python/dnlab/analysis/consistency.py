"""Refuses a report that cannot come from its scenario: senders, rates, delays, losses, packets in flight,
steps, instances and routes.

Only what is cheap to see is compared, and no state that the report doesn't show, such as CoDel's times before
its first drop (docs/reference/tools.md).
"""
from __future__ import annotations

import math
from typing import TYPE_CHECKING

import numpy as np

from dnlab.analysis import commands
from dnlab.analysis.packets import DROPPED, HELD, distinct, kept, keys_of, order_of
from dnlab.errors import ParseError
from dnlab.io.rows import (ACK, DELIVER, DELIVER_ACK, DROP_ACK, EXPIRE, FINISH, MAKE_ACK, MAKE_COMMAND,
                           OK, PASS, REFUSED, Flags, Ints, Ints32, header_text, headers_at, instance_name)
from dnlab.io.scenario_parts import DROP_CAUSES, MASKS, Config

if TYPE_CHECKING:
    from dnlab.analysis.view import View

_DENIED, _LOST, _FULL, _CODEL, _BUDGET = (DROPPED + DROP_CAUSES.index(cause)
                                          for cause in ("denied", "lost", "full", "codel", "budget"))
# Losses with a lower probability than this are not attributed to chance.
_SURELY_NOT = 1e-10


def check_consistency(view: View) -> None:
    """Raises `ParseError` if the report cannot come from the scenario; `view` must have a plan."""
    _steps(view)
    _thresholds(view)
    for check in (_senders, _budget, _links, _losses, _ways, _instances) if view.is_told else ():
        check(view)


def _no(view: View, cause: str) -> ParseError:
    return view.records.refused(-1, f"experiment {view.name}: {cause}: the report isn't this scenario's")


def _steps(view: View) -> None:
    assert view.plan is not None
    records = view.records
    least = sum(len(records.at(*kinds)) for kinds in ((OK, REFUSED), (FINISH,), (PASS,), (EXPIRE,),
                                                      (DELIVER, DELIVER_ACK)))
    if least > view.plan.steps:
        raise _no(view, f"its lines need {least} steps, but the scenario has `steps {view.plan.steps}`")


def _budget(view: View) -> None:
    """Checks the packets in flight, which the rows count in order; one that the budget drops is created
    first."""
    assert view.plan is not None
    records, budget = view.records, view.plan.budget
    makes, ends = records.at(MAKE_COMMAND, MAKE_ACK), records.at(DELIVER, DROP_ACK)
    drops = records.parts["drop"]["row"][records.parts["drop"]["code"] == _BUDGET - DROPPED + 1]
    # If each packet follows the end of the one `budget` places before it, no more are in flight at once.
    if not len(drops) and len(ends) >= len(makes) - budget and bool(
            (ends[:max(0, len(makes) - budget)] < makes[budget:]).all()):
        return
    change = np.zeros(len(records), dtype=np.int32)
    change[makes], change[ends] = 1, -1
    flying = np.cumsum(change, dtype=np.int32)
    most = int(flying.max(initial=0)) - (len(drops) > 0)
    if most > budget:
        raise _no(view, f"{most} packets are in flight at once, but the scenario has `budget {budget}`")
    if len(drops) and int(flying[drops].min()) < budget:
        raise _no(view, f"packets are dropped for the budget, with fewer than {budget} in flight")


def _senders(view: View) -> None:
    """Checks the header and the size of each sender's first packet, and when it was created."""
    rows, table = view.records.rows, view.packets
    for name, packets in view.senders:
        moment, sends = view.sends.get(name, (0, None))
        if sends is None:
            if name.startswith(("flow ", "train ")) and name.removesuffix(" acks") not in view.sends:
                raise _no(view, f"it has packets of {name}, which the scenario doesn't start")
            continue
        first = packets[:1]
        command = next(one for _, one in view.done if one.sends is sends)
        told = headers_at(rows,
                          table.row[first])[0].tolist(), int(table.size[first[0]]), int(table.made[first[0]])
        if (told != (commands.header_by(command), sends.size, moment) or len(packets) > sends.count
            and sends.word == "train"):
            header, size, made = told
            raise view.records.refused(int(table.row[first[0]]),
                                       f"the first of {len(packets)} packets of {name} is created at {made} "
                                       f"with {size} bytes and the header {header_text(header)}, but the "
                                       f"scenario has `{command.text}` at {moment} (line {command.line}): "
                                       "the report isn't this scenario's")


def _links(view: View) -> None:
    """Checks the service of packets that found an idle instance, and the delays, of pipes whose rate or delay
    never changes."""
    visits = view.visits
    for pipe, changes in view.changes.items():
        configs = [change.config for change in changes if change.config is not None]
        own = visits.of_pipe(pipe)
        own = kept(own, visits.finish[own] >= 0)
        if not configs or not len(own):
            continue
        finish, left = visits.finish[own], visits.exit[own]
        if len({config.bw for config in configs}) == 1:
            _rate(view, own, finish, configs[0])
        if len({config.delay for config in configs}) == 1:
            is_out = left >= 0
            _refuse_time(view, kept(own, is_out), kept(left, is_out),
                         kept(finish, is_out) + max(configs[0].delay, 1), "leaves its pipe",
                         f"line {configs[0].line}: {configs[0].words('delay')}")


def _rate(view: View, own: Ints, finish: Ints, config: Config) -> None:
    visits, pipe = view.visits, view.visits.pipe[own]
    order = order_of(finish) if (pipe == pipe[0]).all() else np.lexsort((finish, pipe))
    own, finish, pipe = own[order], finish[order], pipe[order]
    before = np.concatenate((np.full(1, -1, dtype=np.int64), finish[:-1]))
    before[np.flatnonzero(pipe[1:] != pipe[:-1]) + 1] = -1
    arrival = visits.arrival[own]
    is_idle = arrival > before
    idle, expected = kept(own, is_idle), kept(arrival, is_idle)
    if config.bw:
        expected = expected - (view.packets.size[visits.packet[idle]] * -8 * 10**9 // config.bw)
    _refuse_time(view, idle, kept(finish, is_idle), expected, "finishes",
                 f"line {config.line}: {config.words('bw')}")


def _refuse_time(view: View, visits: Ints, told: Ints, expected: Ints, what: str, said: str) -> None:
    bad = np.flatnonzero(told != expected)
    if len(bad):
        place = int(bad[0])
        raise _no(view,
                  f"packet {view.visits.packet[visits[place]]} {what} at {told[place]}, but the scenario has "
                  f"{expected[place]} ({said})")


def _losses(view: View) -> None:
    """Checks the losses of a pipe against its `plr`, if that never changes."""
    shares = {pipe: {change.config.plr for change in changes if change.config is not None}
              for pipe, changes in view.changes.items()}
    visits = view.visits
    for pipe, share in shares.items():
        if share == {10**6} and (visits.finish[visits.of_pipe(pipe)] >= 0).any():
            raise _no(view, f"pipe {pipe} served packets, but the scenario has `plr 1`")
    configs = [change.config for changes in view.changes.values()
               for change in changes if change.config is not None]
    for cause, name in ((_LOST, "plr"), (_CODEL, "codel")):
        if (view.packets.outcome == cause).any() and not any(getattr(config, name) for config in configs):
            raise _no(view,
                      f"packets are dropped as `{DROP_CAUSES[cause - DROPPED]}`, but no pipe of the "
                      f"scenario has {name}")
    lossy = [pipe for pipe, share in shares.items() if share != {0}]
    if len(lossy) != 1 or len(shares[lossy[0]]) != 1:
        return
    plr = shares[lossy[0]].pop() / 10**6
    lost = int(np.count_nonzero(view.packets.outcome == _LOST))
    fates = view.packets.outcome[visits.packet[visits.of_pipe(lossy[0])]]
    # Whether a full queue or a loss comes first isn't known here.
    came = len(fates)
    least = came - int(np.count_nonzero(np.isin(fates, (_FULL, _CODEL))))
    if (lost < least * plr and _chance(lost, least, plr) < _SURELY_NOT
            or came and lost > came * plr and _chance(lost, came, plr) < _SURELY_NOT):
        raise _no(view,
                  f"{lost} of {came} packets were lost, but the scenario has `plr {plr:g}` in "
                  f"pipe {lossy[0]}")


def _chance(lost: int, came: int, share: float) -> float:
    """Returns an upper bound for the probability that this many or fewer are lost, or this many or more if
    that is above the share (Chernoff).

    >>> _chance(0, 100, 0.5) < 1e-10 < _chance(30, 100, 0.5)
    True
    """
    parts = [(lost / came, share), (1 - lost / came, 1 - share)]
    if any(one > 0 and other == 0 for one, other in parts):
        return 0.0
    return math.exp(-came * sum(one * math.log(one / other) for one, other in parts if one > 0))


def _thresholds(view: View) -> None:
    """Checks that the first `ack` line of a flow has its initial threshold."""
    records = view.records
    rows, flows = (records.parts["window"][name] for name in ("row", "source"))
    for name, (_, sends) in view.sends.items():
        own = np.flatnonzero(flows == sends.number)[:1] if sends.word == "flow" else rows[:0]
        row = int(rows[own[0]]) if len(own) else -1
        if row >= 0 and records.kind[row] == ACK and int(records.rows["more"][row]) != sends.ssthresh:
            raise records.refused(row,
                                  f"{name} has ssthresh {int(records.rows['more'][row])}, but the scenario "
                                  f"has {sends.ssthresh}: the report isn't this scenario's")


def _ways(view: View) -> None:
    """Checks where each packet went first, by the rules at its time."""
    headers, which = view.headers
    made = view.packets.made
    falls = np.flatnonzero(made[1:] < made[:-1])
    if len(falls):
        raise view.records.refused(int(view.packets.row[falls[0] + 1]),
                                   f"time {made[falls[0] + 1]} after {made[falls[0]]}")
    known = (which >= 0) & (view.packets.outcome != _BUDGET)
    # The first pipe of each packet, 0 if no line has it.
    first = np.zeros(len(view.packets), dtype=np.int32)
    first[view.visits.packet[::-1]] = view.visits.pipe[::-1] >> 8
    moments = [epoch.moment for epoch in view.epochs]
    begins, ends = np.searchsorted(made, moments).tolist(), np.searchsorted(made, moments, "right").tolist()
    for epoch, begin, until, end in zip(view.epochs, begins, ends, [*begins[1:], len(made)]):
        # Only emissions certainly follow the other commands of their time.
        if until > begin:
            known[begin:until] &= commands.are_emissions(view, slice(begin, until))
        _check_ways(view, epoch, first, which, known, headers, slice(begin, end))


def _check_ways(view: View, epoch: commands.Epoch, first: Ints32, which: Ints32, known: Flags, headers: Ints,
                own: slice) -> None:
    if own.start == own.stop or not len(headers):
        return
    ends = commands.search(epoch, headers)[0]
    # Whoever goes first to the pipe of the rules is right.
    pipes = np.where(ends > 0, ends, -1).astype(np.int32)
    others = np.flatnonzero(known[own] & (first[own] != pipes[which[own]])) + own.start
    ends, fate, pipe = ends[which[others]], view.packets.outcome[others], first[others]
    wrong = (ends == commands.DENIED) & (fate != _DENIED) & (fate != HELD)
    wrong |= (ends == commands.ALLOWED) & ((pipe > 0) | (fate == _DENIED))
    wrong |= (ends > 0) & (pipe > 0)
    if wrong.any():
        place = int(np.flatnonzero(wrong)[0])
        said = {commands.DENIED: "deny it",
                commands.ALLOWED: "allow it at once"}.get(int(ends[place]),
                                                          f"send it to pipe {ends[place]} first")
        sender = view.packets.names[view.packets.who[others[place]]]
        raise _no(view,
                  f"packet {others[place]} of {sender} did not go where the rules send it, which {said}")


def _instances(view: View) -> None:
    """Checks which instance each packet entered, by the mask of its pipe, if that never changes."""
    headers, which = view.headers
    visits = view.visits
    for pipe, changes in view.changes.items():
        masks = {change.config.mask if change.config else None for change in changes}
        count = sum(instance >> 8 == pipe for instance, _ in visits.instances)
        if len(masks) != 1 or None in masks or not count or masks == {""} and count == 1:
            continue
        own = visits.of_pipe(pipe)
        own = kept(own, which[visits.packet[own]] >= 0)
        _, key = distinct(*keys_of(headers & _bits(str(masks.pop()))))
        pairs = np.flatnonzero(np.bincount(key[which[visits.packet[own]]] << 8 | visits.pipe[own] % 256))
        if len(np.unique(pairs >> 8)) != len(pairs) or len(np.unique(pairs & 255)) != len(pairs):
            raise _no(view,
                      f"packets are in other instances of pipe {pipe} than its mask selects, as "
                      f"{instance_name(int(visits.pipe[own[0]]))}")


def _bits(mask: str) -> Ints:
    """Returns the bits of a mask, in the columns of a header."""
    columns = {"proto": 0, "src-ip": 1, "src-port": 2, "dst-ip": 3, "dst-port": 4}
    found = np.zeros(len(columns), dtype=np.int64)
    if mask == "all":
        return found | 0xffffffff
    for name, value in zip(mask.split()[::2], mask.split()[1::2]):
        assert name in MASKS
        found[columns[name]] = int(value, 16)
    return found
