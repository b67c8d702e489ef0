"""Data of pipes for pictures: queues, packets in flight and rates over time, and distributions of throughput
and one-way delay."""
from collections import Counter
from dataclasses import replace
from typing import Optional, Sequence

import numpy as np

from dnlab.analysis.metrics import Span
from dnlab.analysis.packets import DELIVERED
from dnlab.analysis.quantities import place
from dnlab.analysis.series import MOST, Panel, Series, fewest, most, steps, too_many
from dnlab.analysis.view import Note, View
from dnlab.errors import InputError
from dnlab.io.rows import ACKNOWLEDGES, Ints, instance_name

# A limit or rate of more than this many times the values is named in the title, because its line would
# flatten the others.
_TIMES = 3


def labelled(view: View) -> list[tuple[str, Ints]]:
    """Returns the pipes to show, with the visits to each: `pipe 1`, or `pipe 1.3` if it has several
    instances. Pipes that carry only acknowledgements are shown only if their senders are."""
    pipes = view.visits.instances
    instances = Counter(pipe // 256 for pipe, _ in pipes)
    is_ack = view.packets.kind[view.visits.packet] == ACKNOWLEDGES
    has_acks = not view.senders or any(name.endswith(" acks") for name, _ in view.senders)
    return [(
        f"pipe {pipe // 256 if pipe % 256 == 0 and instances[pipe // 256] == 1 else instance_name(pipe)}",
        own)
            for pipe, own in pipes if has_acks or not is_ack[own].all()]


def queues(view: View) -> Panel:
    """Returns the number of packets that wait at each pipe, without the one in service, and the limits of the
    queues."""
    pipes = labelled(view)
    if not view.is_told:
        lines = [steps(view, f"delay line of {label}", *in_flight(view, own)) for label, own in pipes]
        return Panel("Packets in delay lines (the queue needs --trace)", "packets",
                     most(view, "queue", lines),
                     "" if lines else "no packet finished in a pipe", quantity="Packets in the delay line")
    lines = [line._replace(values=np.maximum(line.values - 1, 0))
             for line in (steps(view, label, *waiting(view, own)) for label, own in pipes)]
    lines = most(view, "queue", lines)
    levels, named = drawable(limits(view, lines), lines, "packets")
    return Panel("Queue length" + named, "packets", lines + levels, "" if lines else "no packet met a pipe",
                 quantity="Queue length")


def flights(view: View) -> Panel:
    """Returns the number of packets in flight: created, and neither delivered nor dropped."""
    if not view.is_told:
        return Panel("Packets in flight", "packets", [], "The creation times of packets\nneed --trace.")
    made, ended = view.packets.made, view.packets.ended
    line = steps(view, "in flight", *_changes(made, ended[ended >= 0]))
    return Panel("Packets in flight", "packets", [line] if len(made) else [],
                 "" if len(made) else "no packet was created",
                 quantity="In flight")


def _changes(more: Ints, less: Ints) -> tuple[Ints, Ints]:
    return np.concatenate((more, less)), np.repeat(np.array([1, -1], dtype=np.int64), [len(more), len(less)])


def waiting(view: View, own: Ints) -> tuple[Ints, Ints]:
    """Returns the changes in the number of packets that wait or are in service, for some visits: times and
    amounts."""
    visits = view.visits
    left = np.where(visits.finish[own] >= 0, visits.finish[own], visits.exit[own])
    came = visits.arrival[own]
    return _changes(came[came >= 0], left[(came >= 0) & (left >= 0)])


def in_flight(view: View, own: Ints) -> tuple[Ints, Ints]:
    """Returns the changes in the number of packets in the delay line, for some visits: times and amounts."""
    visits = view.visits
    own = own[visits.finish[own] >= 0]
    left = np.where(visits.exit[own] >= 0, visits.exit[own], view.packets.ended[visits.packet[own]])
    return _changes(visits.finish[own], left[left >= 0])


def limits(view: View, lines: Sequence[Series]) -> list[Series]:
    """Returns the limits in packets of the queues whose pipes have a line, over time; NaN while the limit is
    in bytes."""
    found = []
    for pipe, changes in view.changes.items():
        own = [line for line in lines if line.label.split(".")[0] == f"pipe {pipe}"]
        values = [np.nan if change.config is None or change.config.slots is None else change.config.slots
                  for change in changes]
        if own and not np.isnan(values).all():
            found.append(_level(view, f"limit of pipe {pipe}", [change.moment for change in changes], values))
    return found


def link_rates(view: View) -> list[Series]:
    """Returns the rate of each pipe that has one, Mbit/s, over time, by the executed configurations; NaN
    while it is unlimited, or does not exist."""
    shown = {label.split(".")[0] for label, _ in labelled(view)}
    found = []
    for pipe, changes in view.changes.items():
        values = [change.config.bw / 10**6 if change.config and change.config.bw else np.nan
                  for change in changes]
        if f"pipe {pipe}" in shown and not np.isnan(values).all() and changes[0].moment <= view.last:
            found.append(_level(view, f"rate of pipe {pipe}", [change.moment for change in changes], values))
    return found


def _level(view: View, label: str, changed: Sequence[int], held: Sequence[float]) -> Series:
    """Returns a setting over time, up to the experiment's last event; if it changes twice at a time, the last
    value."""
    moments, values = np.array(changed, dtype=np.int64), np.array(held, dtype=np.float64)
    last = np.flatnonzero(np.append(moments[1:] != moments[:-1], True))
    moments, values = moments[last], values[last]
    if int(moments[-1]) < view.last:
        moments, values = np.append(moments, view.last), np.append(values, values[-1])
    return Series(label, "level", moments, values)


def drawable(levels: Sequence[Series], lines: Sequence[Series], unit: str) -> tuple[list[Series], str]:
    """Returns the levels that fit on the axis of the lines, and the text about the others for the title."""
    greatest = max((float(line.values.max()) for line in lines), default=0)
    kept = [one for one in levels if float(np.nanmin(one.values)) <= _TIMES * max(greatest, 1e-9)]
    above = [f"{one.label} is {np.nanmin(one.values):g} {unit}"
             for one in levels if not any(one is other for other in kept)]
    return kept, f" ({', '.join(above)})" if above else ""


# The default interval gives at least this many values of throughput.
_BINS = 50
_FEWEST = 10
_PACKETS = 5
_MOST_BINS = 10**6
_BOXES = 60
_PERCENTILES = (5, 25, 50, 75, 95)
_NAMES = {"sojourn": ("One-way delay", "ms"), "throughput": ("Throughput", "Mbit/s")}
_FRACTIONS = {"sojourn": "Fraction of packets", "throughput": "Fraction of intervals"}
# The text of a panel that lacks something.
_NEEDS = {"sojourn": "The creation times of packets\nneed --trace.",
          "throughput": "Sizes need --trace."}
Samples = list[tuple[str, Ints]]


def bin_of(time: int, packets: int = 10**9) -> int:
    """Returns a round number of ns (1, 2 or 5 with zeros) that divides a time into 50 or more intervals, or
    fewer (down to 10) if they would have less than 5 packets on average.

    >>> bin_of(10**10), bin_of(3 * 10**9), bin_of(10**10, 100)
    (200000000, 50000000, 500000000)
    """
    wanted = max(time // min(_BINS, max(packets // _PACKETS, _FEWEST)), 1)
    scale: int = 10 ** (len(str(wanted)) - 1)
    return next(scale * step for step in (5, 2, 1) if scale * step <= wanted)


def shown_time(time: int) -> str:
    """Returns a time in its largest unit.

    >>> shown_time(200000000), shown_time(1500)
    ('200 ms', '1500 ns')
    """
    return next(f"{time // unit} {name}"
                for unit, name in ((10**9, "s"), (10**6, "ms"), (10**3, "us"), (1, "ns"))
                if time % unit == 0)


def panel_of(view: View, what: str, span: Span, every: Optional[int]) -> Panel:
    """Returns a panel by its name in `panels.MORE`."""
    kind, _, of = what.rpartition(":")
    quantity, unit = _NAMES[of]
    until = view.last if span.end is None else min(span.end, view.last)
    delivered = sum(int(np.count_nonzero(view.packets.outcome[packets] == DELIVERED))
                    for _, packets in view.senders)
    every = every or bin_of(max(until - span.begin, 1), delivered)
    title = quantity + (f" in intervals of {shown_time(every)}" if of == "throughput" else "")
    if kind:
        title = (f"CDF of {title[:1].lower()}{title[1:]}" if kind == "cdf"
                 else f"{title}, quartiles, 5th to 95th percentile, minimum and maximum")
    across = {"cdf": f"{quantity} ({unit})", "box": "Sender"}.get(kind, "")
    # For a report without sizes or creation times, the text appears instead of zeros.
    if not view.is_told:
        return Panel(title, unit, [], _NEEDS[of], across=across, quantity=quantity)
    if not kind:
        # A rate holds until the next interval, the last to its own end.
        series = [Series(_came(label), "steps", np.append(moments, moments[-1] + every),
                         np.append(values, values[-1]) / 10**6)
                  for label, moments, values in throughputs(view, every)]
        series = most(view, what, series)
        rates, named = drawable(link_rates(view), series, unit)
        return Panel(title + named, unit, series + rates, "" if series else "nothing was delivered",
                     quantity=quantity)
    samples = _times(view, span) if of == "sojourn" else [
        (_came(label), np.sort(values[(moments >= span.begin) & (moments + every <= until)]))
        for label, moments, values in throughputs(view, every)]
    samples = [(label, values) for label, values in samples if len(values)]
    words = "" if samples else "nothing was delivered in this time"
    if kind == "box":
        return Panel(title, unit, [_box(label, values) for label, values in samples], words, across=across,
                     quantity=quantity)
    series = [Series(label, "share", values, np.arange(1, len(values) + 1) / len(values))
              for label, values in samples]
    return Panel(title, "", most(view, what, series), words, 1.0, across, quantity=_FRACTIONS[of])


def throughputs(view: View, every: int) -> list[tuple[str, Ints, Ints]]:
    """Returns for each sender the starts of intervals of `every` ns, up to the last in which anything was
    delivered, and what was delivered in each, bit/s with headers."""
    table = view.packets
    count = view.last // every + 1
    if count > _MOST_BINS:
        raise InputError(
            f"experiment {view.name}: {count} intervals of {every} ns are more than {_MOST_BINS}: choose "
            "a longer --bin")
    found = []
    for who, packets in view.senders:
        delivered = packets[table.outcome[packets] == DELIVERED]
        # Sums of sizes stay below 2^53, so sums of floats are exact.
        sizes = np.bincount(table.ended[delivered] // every, weights=table.size[delivered], minlength=count)
        found.append((who, np.arange(count, dtype=np.int64) * every,
                      sizes.astype(np.int64) * 8 * 10**9 // every))
    return found


def _came(label: str) -> str:
    """Returns a sender's label for deliveries: `injected` alone would suggest what was sent.

    >>> _came("injected"), _came("train 9")
    ('delivered (injected)', 'train 9')
    """
    return "delivered (injected)" if label == "injected" else label


def _times(view: View, span: Span) -> Samples:
    """Returns for each sender the one-way delays of deliveries in a time range, ns, sorted."""
    table, found = view.packets, []
    for who, packets in view.senders:
        ended = table.ended[packets]
        is_in = (table.outcome[packets] == DELIVERED) & (ended >= span.begin)
        if span.end is not None:
            is_in &= ended <= span.end
        found.append((who, np.sort(table.delay[packets[is_in]])))
    return found


def _box(label: str, values: Ints) -> Series:
    """Returns the minimum, percentiles by nearest rank, and the maximum."""
    marks = [0, *(place(len(values), percentile) for percentile in _PERCENTILES), len(values) - 1]
    return Series(label, "box", values[marks], values[marks])


def overlaid(names: Sequence[str],
             columns: Sequence[Sequence[Panel]]) -> tuple[list[Panel], list[tuple[str, Note]]]:
    """Returns the panels of several experiments drawn over one another, with the experiment's name in each
    label, and notes about what is left out. Raises `InputError` for more than 60 boxes."""
    panels, notes = [], []
    for same in zip(*columns):
        series = [one._replace(label=f"{name}: {one.label}", under=one.under and f"{name}: {one.under}")
                  for name, panel in zip(names, same) for one in panel.series]
        lines = [one for one in series if one.form not in ("marks", "level") and not one.under]
        first = same[0]
        if lines and lines[0].form == "box":
            if len(lines) > _BOXES:
                raise InputError(f"{len(lines)} boxes in a panel are too many ({_BOXES} at most): choose some"
                             " experiments with --only")
        elif len(lines) > MOST:
            notes.append((names[0], too_many(first.title, len(lines))))
            lines = fewest(lines)
        kept = {one.label for one in lines}
        lines += [one for one in series if one.under in kept
                  or (not one.under and one.form == "marks")] + _levels(names, same)
        tops = [panel.top for panel in same if panel.top is not None]
        sizes = {panel.segment for panel in same if panel.series}
        title = first.title if len({panel.title for panel in same}) == 1 else first.quantity or first.title
        panels.append(replace(first, title=title, series=lines,
                              words=next((panel.words for panel in same if panel.words), ""),
                              top=max(tops) if len(tops) == len(same) else None,
                              segment=sizes.pop() if len(sizes) == 1 else 0,
                              note=next((panel.note for panel in same if panel.note), "")))
    return panels, notes


def _levels(names: Sequence[str], panels: Sequence[Panel]) -> list[Series]:
    """Returns the levels of several experiments; one that is the same in all has no experiment's name."""
    found: dict[tuple[str, str], Series] = {}
    for name, panel in zip(names, panels):
        for one in panel.series:
            if one.form == "level":
                found.setdefault((one.label, str(one.values)), one._replace(label=f"{name}: {one.label}"))
    labels = [label for label, _ in found]
    return [one._replace(label=label) if labels.count(label) == 1 else one
            for (label, _), one in found.items()]
