"""Judges a run: warnings for its rows, and hints at what a scenario does although its author hardly meant
it."""
from __future__ import annotations

from collections import Counter
from typing import TYPE_CHECKING, Iterable, Iterator, NamedTuple, Optional, Sequence

import numpy as np

from dnlab.analysis.commands import unmet
from dnlab.analysis.packets import OUTCOMES
from dnlab.errors import Note
from dnlab.io.rows import ACKNOWLEDGES, MAKE_COMMAND, REFUSED, UNKNOWN_SOURCE, instance_name
from dnlab.io.scenario_parts import DEFAULTS, Change, Config, Sends, first_window, stretches_of

if TYPE_CHECKING:
    from dnlab.analysis.view import View

# `unsent`          `end` cut off a train or a flow
# `reconfigured`    a later `config` of a pipe reset an option of an earlier one to its default
# `outage`          in a link that changes: `bw 0`, which means unlimited, or a rate at which a packet takes
#                   longer than it lasts
# `half-duplex`     a flow's acknowledgements wait in the pipe of its segments
# `window-limited`  for part of a flow's time its `window`, and not cwnd, was the limit
# `unused`          a rule or a pipe that no packet met
# `units`           a time, a gap or a rate that looks like another unit

# A flow with this many segments, the maximum of a scenario, is meant to continue to the end.
ENDLESS = 10**6
# No pipe is faster (bit/s), so a smaller gap than that of packets at this rate must be a mistake.
_FASTEST = 10**10
_SLOWEST = 1000
# A run that ends before this (ns) without a delivery was meant to be longer; so were times below the other
# value.
_SHORT = 10**6
_ODD = range(10, 1000)
# The maximum number of rules and pipes in a message.
_MOST_UNUSED = 3


def spoken(moment: int) -> str:
    """Returns a time in the unit that fits it.

    >>> spoken(1500000), spoken(100), spoken(0)
    ('1.5 ms', '100 ns', '0 ns')
    """
    for size, unit in ((10**9, "s"), (10**6, "ms"), (10**3, "us")):
        if moment >= size:
            return f"{moment / size:.6g} {unit}"
    return f"{moment} ns"


def _unsent(view: View) -> Iterator[Note]:
    if view.ended.is_short():
        return
    stopped = {command.stops for _, command in view.done if command.stops is not None}
    packets = dict(view.senders)
    for name, (moment, sends) in view.sends.items():
        own = packets.get(name, np.zeros(0, dtype=np.int64))
        is_flow = sends.word == "flow"
        if name in view.alike or is_flow and (sends.count == ENDLESS or sends.number in stopped):
            continue
        sent = int(np.count_nonzero(~view.packets.retransmission[own])) if is_flow else len(own)
        if sent < sends.count:
            what = "segments were sent" if is_flow else "packets were made"
            more = (f"segments {ENDLESS} means an endless flow" if is_flow else
                    f"its last is due at {moment + sends.gap * (sends.count - 1)} ns")
            yield Note("unsent",
                       f"{name}: {sent} of {sends.count} {what} before `end` at "
                       f"{spoken(view.ended.moment)} ({more})", "unsent", name)


def _by_pipes(view: View) -> Iterator[Note]:
    """Returns notes about successive configurations of a pipe."""
    largest = max([*(sends.size for _, sends in view.sends.values()), int(view.packets.size.max(initial=0))])
    for pipe, changes in view.changes.items():
        for stretch in stretches_of(changes):
            for place, change in enumerate(stretch[1:], 1):
                yield from _reconfigured(pipe, stretch[:place], change)
            if len({change.config.bw for change in stretch if change.config}) > 1:
                yield from _outages(pipe, stretch, largest)


def _reconfigured(pipe: int, earlier: Sequence[Change], change: Change) -> Iterator[Note]:
    """Returns notes about options that fall back to a default which the pipe never had. A return to an
    earlier value is normal, as at the end of an outage."""
    known = [one.config for one in earlier if one.config is not None]
    config, before, usual = change.config, known[-1], Config(0)
    assert config is not None
    lost = [name for name in DEFAULTS if name not in dict(config.given)
            and all(_value(one, name) != _value(usual, name) for one in known)]
    if lost:
        back = ", ".join(f"{name} ({DEFAULTS[name]})" for name in lost)
        yield Note("reconfigured",
                   f"line {config.line}: this `config` of pipe {pipe} resets {back} to the default, because "
                   f"it omits what line {before.line} set ({before.words(*lost)}): write every option again",
                   "reconfigured")


def _value(config: Config, name: str) -> object:
    return (config.slots, config.bytes) if name == "queue" else getattr(config, name)


def _outages(pipe: int, stretch: Sequence[Change], largest: int) -> Iterator[Note]:
    for change, following in zip(stretch, [*stretch[1:], None]):
        config = change.config
        assert config is not None
        if config.bw == 0 and "bw" in dict(config.given):
            yield Note("outage",
                       f"line {config.line}: `bw 0` of pipe {pipe} means unlimited, not an outage: `plr 1` "
                       "loses every packet", "outage")
        elif config.bw and following is not None:
            time, holds = -(-8 * 10**9 * largest // config.bw), following.moment - change.moment
            if time > holds > 0:
                yield Note("outage",
                           f"line {config.line}: at {config.words('bw')} a packet of {largest} bytes takes "
                           f"{spoken(time)}, and this rate of pipe {pipe} lasts {spoken(holds)}: the packet "
                           "in service keeps its finish time, so the link is busy until then", "outage")


def _half_duplex(view: View) -> Iterator[Note]:
    who, names = view.packets.who, view.packets.names
    both: list[tuple[int, int]] = []
    for pipe, visits in view.visits.instances:
        if view.backs[pipe].all() or not view.backs[pipe].any():
            continue
        here = {names[one]
                for one in np.flatnonzero(np.bincount(who[view.visits.packet[visits]], minlength=len(names)))}
        both += [(int(name.split()[1]), pipe)
                 for name in here if name.startswith("flow ") and f"{name} acks" in here]
    for number, pipe in sorted(both):
        if any(change.config is not None and change.config.bw
               for change in view.changes.get(pipe // 256, [])):
            yield Note("half-duplex",
                       f"flow {number}: its acknowledgements wait behind its segments, in "
                       f"{instance_name(pipe)}: a pipe has one direction, so give the return path a rule and "
                       "a pipe of its own", "half-duplex", f"flow {number}")


def _window_limited(view: View) -> Iterator[Note]:
    flows, moment, window = (view.records.parts["window"][name] for name in ("source", "moment", "number"))
    packets = dict(view.senders)
    for name, (begin, sends) in view.sends.items():
        if sends.word != "flow" or name not in packets:
            continue
        own = np.flatnonzero(flows == sends.number)
        cwnd = np.concatenate((np.array([first_window(sends.smss)]), window[own]))
        # In whole segments.
        over = cwnd >= (sends.window // sends.smss + 1) * sends.smss
        if not over.any():
            continue
        sent = packets[name][~view.packets.retransmission[packets[name]]]
        until = (int(view.packets.made[sent].max()) if len(sent) == sends.count or not len(own)
                 else int(moment[own[-1]]))
        moments = np.concatenate((np.array([begin]), moment[own], np.array([until])))
        times = np.maximum(np.minimum(moments[1:], until) - moments[:-1], 0)
        held = int(times[over].sum())
        if 100 * held >= until - begin > 0:
            share, more = 100 * held // (
                until - begin), ": a longer queue gives it nothing more" if 2 * held > until - begin else ""
            yield Note("window-limited",
                       f"{name}: its window of {sends.window} bytes, and not the network, held it back for "
                       f"{share} % of its time{more}", "window-limited", name)


def _unused(view: View) -> Iterator[Note]:
    rules, pipes = unmet(view)
    names = [f"pipe {pipe}" for pipe in pipes] + [f"`add {rule.text()}`" for _, rule in rules]
    if names:
        more = f" and {len(names) - _MOST_UNUSED} more" if len(names) > _MOST_UNUSED else ""
        yield Note("unused",
                   f"no packet met {', '.join(names[:_MOST_UNUSED])}{more}: an earlier rule decides, or it "
                   "matches no sender", "unused")


def _units(view: View) -> Iterator[Note]:
    end = view.ended.moment
    sent = [(number, command.line, command.moment, command.sends) for number, command in view.done]
    if view.plan is not None:
        # A command that injects sends nothing to judge but its time, which may look like milliseconds.
        rows = view.records.at(MAKE_COMMAND)
        odd = np.isin(view.records.rows["moment"][rows], _ODD)
        sent += [(number, view.plan.commands[number].line, view.plan.commands[number].moment, None)
                 for number in view.records.take("source", rows[odd]).tolist() if number != UNKNOWN_SOURCE]
    for _, line, moment, sends in sorted(sent, key=lambda one: one[0]):
        if (sends is not None and sends.count > 1 and 0 < sends.gap
            and sends.size * 8 * 10**9 > _FASTEST * sends.gap):
            yield _unit(line,
                        f"gap {sends.gap} is {spoken(sends.gap)}, so the train is faster than any pipe: gaps "
                        f"are nanoseconds, {sends.gap} ms is {sends.gap * 10**6}", sends)
        if moment in _ODD and end >= _SHORT:
            yield _unit(line,
                        f"@{moment} is {spoken(moment)}: times are in nanoseconds, {moment} ms is "
                        f"@{moment * 10**6}")
    for changes in view.changes.values():
        for config in (change.config for change in changes if change.config is not None):
            if 0 < config.bw < _SLOWEST:
                yield Note("units",
                           f"line {config.line}: {config.words('bw')} is {config.bw} bit/s: is a unit "
                           "missing, as in 10Mbit/s?", "units")
    if ((view.sends or view.counters.made) and 0 < end < _SHORT and not view.ended.is_short()
        and not view.counters.delivered):
        yield _unit(view.done[-1][1].line,
                    f"@{end} end is {spoken(end)}, and nothing was delivered by then: times are in "
                    f"nanoseconds, {end} ms is @{end * 10**6}")


def _unit(line: int, said: str, sends: Sends | None = None) -> Note:
    return Note("units", f"line {line}: {said}", "units", sends.name() if sends is not None else "")


# The meaning of each code of a refused command (docs/reference/faults.md).
MEANS = {
    10: "a rule's number is 1 to 65534",
    11: "`skipto` must go forward",
    12: "there are 256 rules already",
    13: "no rule has this number",
    20: "there is no pipe of this number",
    21: "the pipe's mask is fixed, since packets have come to it",
    22: "a flow or a train has this number already",
    23: "there is no flow of this number",
    24: "there are 64 pipes already",
    25: "there are 256 flows and trains already, those that have ended too",
}
# The maximum number of refused commands that are listed.
_MOST_TOLD = 3


class Refusal(NamedTuple):
    """A refused command: its index in the experiment (from 0), its time in ns, the code, its line in the
    report (or its row), and its line and text in the scenario (None if the scenario isn't known)."""
    experiment: str
    number: int
    moment: int
    code: int
    report_line: int
    line: Optional[int] = None
    text: Optional[str] = None

    def told(self) -> str:
        """Returns the command, its code and the reason as text.

        >>> Refusal("a", 1, 0, 13, 3, 4, "delete 7").told()
        'line 4: `delete 7` (13: no rule has this number)'
        """
        what = (f"command {self.number} at {self.moment} ns" if self.line is None
                else f"line {self.line}: `{self.text}`")
        return f"{what} ({self.code}: {MEANS[self.code]})"


def refused_of(view: View) -> list[Refusal]:
    """Returns the refused commands of an experiment, in order."""
    records, rows = view.records, view.records.at(REFUSED)
    commands = view.plan.commands if view.plan else []
    numbers, moments, codes = (records.take(column, rows).tolist() for column in ("source", "moment", "code"))
    return [Refusal(records.name, number, moment, code, records.number_of(row),
                    *((commands[number].line, commands[number].text) if number < len(commands)
                      else (None, None)))
            for row, number, moment, code in zip(rows.tolist(), numbers, moments, codes)]


def codes_of(refused: Iterable[Refusal]) -> str:
    """Returns each code with the number of commands, as `10:1 22:3`; '' if none was refused."""
    counts = Counter(one.code for one in refused)
    return " ".join(f"{code}:{counts[code]}" for code in sorted(counts))


def told_of(refused: Sequence[Refusal], commands: int) -> str:
    """Returns the message about refused commands, with the first of them; `commands` is the number of all
    commands."""
    said = "; ".join(one.told() for one in refused[:_MOST_TOLD])
    more = (f"; and {len(refused) - _MOST_TOLD} more, codes {codes_of(refused)}"
            if len(refused) > _MOST_TOLD else "")
    were = "was" if len(refused) == 1 else "were"
    return f"{len(refused)} of {commands} commands {were} refused and did nothing: {said}{more}"


def marks_of(view: View) -> list[Note]:
    """Returns the notes of an experiment that cause warnings, the most serious first."""
    found = []
    if view.refused:
        found.append(Note("refused", told_of(view.refused, len(view.records.commands())), "refused"))
    if view.ended.is_short():
        end = "" if view.ended.end is None else f", before its end at {view.ended.end} ns"
        found.append(Note("spent",
                          f"its steps were spent at {view.ended.moment} ns{end}: what follows is missing; "
                          "give it more `steps`", "spent"))
    found += _losses(view)
    if view.plan is not None:
        # An untraced report has only what the notes about pipes and units need.
        for kind in (_unsent, _by_pipes, _half_duplex, _window_limited, _unused,
                     _units) if view.is_told else (_by_pipes, _units):
            found += kind(view)
    return found


def _losses(view: View) -> Iterator[Note]:
    """Returns notes about drops that suggest a mistake: by rules, in a pipe that doesn't exist, or for the
    budget."""
    for name, packets in view.senders:
        counts = np.bincount(view.packets.outcome[packets], minlength=len(OUTCOMES)).tolist()
        came, denied, nowhere, over = (counts[OUTCOMES.index(name)]
                                       for name in ("delivered", "denied", "nopipe", "budget"))
        if denied and not came and int(view.packets.kind[packets[0]]) == ACKNOWLEDGES:
            yield Note("no way back",
                       f"{name}: all {denied} that ended were denied: no rule allows the return path, so the "
                       "sender never saw an acknowledgement", "no-way-back", name)
        elif denied:
            yield Note("denied", f"{name}: {denied} of {len(packets)} packets were denied: no rule matched,"
                       " or a `deny`", "denied", name)
        if nowhere:
            yield Note("nopipe",
                       f"{name}: {nowhere} of {len(packets)} packets were dropped because a rule sends them "
                       "to a pipe that does not exist: configure that pipe, or name another", "nopipe", name)
        if over:
            yield Note("budget", f"{name}: {over} of {len(packets)} packets were dropped because the budget"
                       " of packets in flight was used up", "budget", name)
