"""Data of an experiment for pictures: panels, each with its unit and its series.

Times are in nanoseconds here; `pictures` scales them. A panel that needs unknown values has no series but
`words`, which explain it.
"""
import copy
from dataclasses import dataclass
from typing import Any, Callable, NamedTuple, Optional, Sequence

import numpy as np

from dnlab.analysis.packets import DELIVERED, DROPPED
from dnlab.analysis.metrics import ALIASES, Span
from dnlab.analysis.view import Note, View
from dnlab.io.rows import ACK, DROP_DATA, EXPIRE, Ints, Records
from dnlab.io.scenario_parts import DROP_CAUSES, first_window

# With more lines, a panel is unreadable without colour. Windows are drawn for at most FLOWS flows.
MOST = 8
FLOWS = 16
# A panel is about 750 dots wide. A series of more than four times this many times is thinned to this many
# intervals.
STRETCHES = 1500

Values = np.ndarray[Any, np.dtype[np.float64]]


# The explanation of the spikes in a window.
_INFLATION = (
    "In fast recovery cwnd grows by one segment with each duplicate acknowledgement (the spikes), and falls "
    "back to ssthresh at its end.")


class Series(NamedTuple):
    """A series of a panel.

    `form` is `steps` (a value holds until the next), `level` (steps of a setting, such as a queue's limit),
    `points` or `marks` (events), `share` (the fraction, 0 to 1, of values that are at most the one in
    `moments`) or `box` (`moments` are the minimum, the 5th, 25th, 50th, 75th and 95th percentile, and the
    maximum).

    `moments` are int64, ns (for a share or box the values, ns or bit/s), in order; `values` have the same
    shape (n,). `under` is the label of another line, whose colour it has."""
    label: str
    form: str
    moments: Ints
    values: "Ints | Values"
    under: str = ""


@dataclass
class Panel:
    """The data of one pair of axes.

    unit      of the values: packets, bytes, ms, Mbit/s, or '' for a fraction
    words     the text of a panel that has no series
    top       the maximum of the vertical axis, if it isn't that of the values
    across    the label of the horizontal axis, if it isn't time
    segment   the bytes of a segment, if the values can be counted in segments
    quantity  the label of the vertical axis, without its unit [the title]
    note      a sentence below the picture"""
    title: str
    unit: str
    series: list[Series]
    words: str = ""
    top: Optional[float] = None
    across: str = ""
    segment: int = 0
    quantity: str = ""
    note: str = ""


def panel_of(view: View, what: str, span: Span = Span(), every: Optional[int] = None, effective: bool = False,
             acks: bool = False) -> Panel:
    """Returns a panel of an experiment, by its name in `WHAT`, `MORE` or `ALIASES`, for a time range; long
    series are thinned.

    `every` is the length of an interval of throughput, ns; by default a round number (1, 2 or 5 with zeros)
    for 50 or more. `effective` adds the effective windows, and `acks` the senders of acknowledgements."""
    # Imported here, because they import this module.
    from dnlab.analysis import distributions

    view = view if acks else without_acks(view)
    what = ALIASES.get(what, what)
    makers: dict[str, Callable[[View], Panel]] = {
        "window": lambda view: windows(view, FLOWS, effective), "queue": distributions.queues,
        "flight": distributions.flights,
        "sojourn": sojourns, "delivered": rates, "drops": drops}
    panel = makers[what](view) if what in makers else distributions.panel_of(view, what, span, every)
    if not panel.across and panel.series and span != Span():
        panel.series = [one for one in (within(one, span) for one in panel.series) if len(one.moments)]
        panel.words = panel.words if panel.series else "no events in this time range"
    panel.series = [thinned(one) for one in panel.series]
    return panel


def without_acks(view: View) -> View:
    """Returns the view without the senders of acknowledgements, or unchanged if it has no others."""
    senders = [(name, packets) for name, packets in view.senders if not name.endswith(" acks")]
    if not senders or len(senders) == len(view.senders):
        return view
    own = copy.copy(view)
    own.senders = senders
    return own


def within(one: Series, span: Span) -> Series:
    """Returns the part of a series in a time range; steps start with the value at its start, and hold to its
    end."""
    moments, values = one.moments, one.values
    end = int(moments[-1]) if span.end is None and len(moments) else span.end or 0
    begin, after = (int(np.searchsorted(moments, moment, side=side))  # type: ignore[call-overload]
                    for moment, side in ((span.begin, "left"), (end, "right")))
    if one.form not in ("steps", "level"):
        return one._replace(moments=moments[begin:after], values=values[begin:after])
    held, left = min(begin, 1), int(0 < after < len(moments))
    return one._replace(
        moments=np.concatenate((np.full(held, span.begin, dtype=np.int64), moments[begin:after],
                                np.full(left, end, dtype=np.int64))),
        values=np.concatenate((values[begin - held:begin], values[begin:after], values[after - left:after])))


def thinned(one: Series, stretches: int = STRETCHES) -> Series:
    """Returns a series in which each interval of time keeps the first, minimum, maximum and last value, so
    that the picture looks the same; a short series is unchanged."""
    if len(one.moments) <= 4 * stretches:
        return one
    begin, end = int(one.moments[0]), int(one.moments[-1])
    at = (one.moments - begin) * stretches // (end - begin + 1)
    first = np.flatnonzero(np.concatenate((np.ones(1, dtype=np.bool_), at[1:] != at[:-1])))
    last = np.append(first[1:], len(at)) - 1
    # Sorted by value within an interval, its minimum and maximum are at its ends.
    order = np.lexsort((one.values, at))
    kept = np.unique(np.concatenate((first, last, order[first], order[last])))
    return one._replace(moments=one.moments[kept], values=one.values[kept])


def steps(view: View, label: str, moments: Ints, amounts: "Ints | int") -> Series:
    """Returns the running sum of changes, from 0 to the experiment's last event; changes at one time are one
    step."""
    if not len(moments):
        return Series(label, "steps", moments, moments)
    amounts = np.broadcast_to(np.asarray(amounts, dtype=np.int64), moments.shape)
    order = np.argsort(moments, kind="stable")
    moments = moments[order]
    values = np.cumsum(amounts[order])
    last = np.flatnonzero(np.append(moments[1:] != moments[:-1], True))
    moments, values = moments[last], values[last]
    zero = np.zeros(1, dtype=np.int64)
    if moments[0] > 0:
        moments, values = np.concatenate((zero, moments)), np.concatenate((zero, values))
    if moments[-1] < view.last:
        moments, values = np.append(moments, view.last), np.append(values, values[-1])
    return Series(label, "steps", moments, values)


def most(view: View, panel_name: str, series: Sequence[Series], limit: Optional[int] = MOST) -> list[Series]:
    """Returns the series with most steps or points if there are too many to tell apart; all if there is no
    limit."""
    series = [one for one in series if len(one.moments)]
    kept = list(series) if limit is None else fewest(series, limit)
    if len(kept) < len(series):
        view.more_notes.append(too_many(panel_name, len(series), len(kept)))
    return kept


def fewest(series: Sequence[Series], limit: int = MOST) -> list[Series]:
    """Returns at most `limit` series: acknowledgements are left out first, then those with the fewest
    changes."""
    kept = sorted(range(len(series)),
                  key=lambda place: (series[place].label.endswith(" acks"),
                                     -len(series[place].moments)))[:limit]
    return [series[place] for place in sorted(kept)]


def too_many(panel_name: str, count: int, kept: int = MOST) -> Note:
    """Returns the note about lines that are left out."""
    return Note(f"{panel_name} lines",
                f"{panel_name}: {count} lines are too many to be told apart, so {kept} are drawn: those with "
                "most changes, acknowledgements last")


def windows(view: View, limit: Optional[int] = FLOWS, effective: bool = True) -> Panel:
    """Returns cwnd and ssthresh of each flow, with losses and timeouts, and the effective window, which
    limits the bytes in flight, if the flow's `window` is below cwnd. With a limit, only the 16 flows with
    most changes are shown, and no ssthresh above the axis."""
    # Which flows the panel shows is decided by --of.
    shown = {name for name, _ in view.senders}
    rows = view.records.at(ACK, EXPIRE)
    own = view.records.take("source", rows)
    flows = [flow for flow in np.unique(own).tolist() if f"flow {flow}" in shown or not view.is_told]
    found = {flow: flow_windows(view, flow, rows[own == flow]) for flow in flows}
    if not found:
        return Panel("Congestion window", "bytes", [], "no flow: no `ack` or `expire` line")
    cwnds = most(view, "window", [parts[0] for parts in found.values()], limit)
    kept = [parts for parts in found.values() if any(parts[0] is one for one in cwnds)]
    top = 1.1 * max(int(parts[0].values.max()) for parts in kept)
    lines = [one if limit is None or not one.label.startswith("ssthresh")
             else one._replace(values=np.where(one.values > top, np.nan, one.values))
             for parts in kept for one in parts if effective or not one.label.startswith("effective")]
    lines = [one for one in lines if len(one.moments) and not np.isnan(one.values).all()]
    sizes = {view.sends[f"flow {flow}"][1].smss for flow in found if f"flow {flow}" in view.sends}
    return Panel("Congestion window", "bytes", lines, top=top, segment=sizes.pop() if len(sizes) == 1 else 0,
                 note=_INFLATION if any(inflates(view.records, rows[own == flow]) for flow in flows) else "")


def inflates(records: Records, rows: Ints) -> bool:
    """Returns whether a flow enters fast recovery, by its windows: a third duplicate acknowledgement lowers
    ssthresh."""
    falls = np.diff(records.take("more", rows)) < 0
    return bool((falls & (records.kind[rows][1:] == ACK)).any())


def flow_windows(view: View, flow: int, rows: Ints) -> list[Series]:
    """Returns cwnd, the effective window where it is smaller, ssthresh, losses and timeouts of a flow; losses
    are drawn on cwnd."""
    records = view.records
    moments, cwnd, ssthresh = (records.take(column, rows) for column in ("moment", "number", "more"))
    moment, sends = view.sends.get(f"flow {flow}", (0, None))
    if sends is not None:
        moments = np.concatenate((np.array([moment]), moments))
        cwnd = np.concatenate((np.array([first_window(sends.smss)]), cwnd))
        ssthresh = np.concatenate((np.array([sends.ssthresh]), ssthresh))
    dropped = records.at(DROP_DATA)
    dropped = dropped[records.rows["source"][dropped] == flow]
    timeouts = records.take("moment", rows[records.kind[rows] == EXPIRE])
    marks, name = [], f"cwnd {flow}"
    for label, at in (("loss", records.take("moment", dropped)), ("timeout", timeouts)):
        held = np.maximum(np.searchsorted(moments, at, side="right") - 1, 0)
        marks.append(Series(f"{label} {flow}", "marks", at, cwnd[held], name))
    lines = [Series(name, "steps", moments, cwnd)]
    if sends is not None and int(cwnd.max()) > sends.window:
        lines.append(Series(f"effective {flow}", "steps", moments, np.minimum(cwnd, sends.window), name))
    return [*lines, Series(f"ssthresh {flow}", "steps", moments, ssthresh, name), *marks]


def sojourns(view: View, limit: Optional[int] = MOST) -> Panel:
    """Returns the one-way delay of each delivered packet, at its delivery."""
    if not view.is_told:
        return Panel("One-way delay", "ms", [], "The creation times of packets\nneed --trace.")
    table, delay = view.packets, view.packets.delay
    series = []
    for who, packets in view.senders:
        delivered = packets[table.outcome[packets] == DELIVERED]
        # In the order of delivery, which thinning needs.
        delivered = delivered[np.argsort(table.ended[delivered], kind="stable")]
        series.append(Series(who, "points", table.ended[delivered], delay[delivered] / 10**6))
    series = most(view, "sojourn", series, limit)
    return Panel("One-way delay", "ms", series, "" if series else "nothing was delivered")


def rates(view: View, limit: Optional[int] = MOST) -> Panel:
    """Returns the data delivered, by sender, and the data through each pipe, cumulative."""
    # Imported here, because it imports this module.
    from dnlab.analysis.distributions import labelled

    known = view.is_told
    table, visits = view.packets, view.visits
    amounts = table.size if known else np.ones(len(table), dtype=np.int64)
    series = []
    for who, packets in view.senders:
        delivered = packets[table.outcome[packets] == DELIVERED]
        series.append(steps(view, who, table.ended[delivered], amounts[delivered]))
    for label, own in labelled(view):
        served = own[visits.finish[own] >= 0]
        series.append(steps(view, f"through {label}", visits.finish[served], amounts[visits.packet[served]]))
    series = most(view, "delivered", series, limit)
    title = "Delivered data, cumulative" if known else "Delivered packets, cumulative (bytes need --trace)"
    return Panel(title, "bytes" if known else "packets", series, "" if series else "nothing was delivered",
                 quantity="Delivered data" if known else "Delivered")


def drops(view: View) -> Panel:
    """Returns the drops by cause, cumulative."""
    table = view.packets
    series = [steps(view, cause, table.ended[table.outcome == DROPPED + place], 1)
              for place, cause in enumerate(DROP_CAUSES)]
    series = [one for one in series if len(one.moments)]
    return Panel("Drops by cause, cumulative", "packets", series, "" if series else "no packet was dropped",
                 quantity="Drops")
