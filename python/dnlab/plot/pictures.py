"""Draws panels over time with matplotlib, a column for each experiment, readable in black and white."""
import re
from dataclasses import replace
from typing import Any, Iterable, Mapping, NamedTuple, Sequence

import matplotlib
import numpy as np
from matplotlib.figure import Figure
from matplotlib.lines import Line2D
from matplotlib.ticker import MaxNLocator, NullLocator

from dnlab.analysis.series import Panel, Series, panel_of
from dnlab.analysis.metrics import Span
from dnlab.analysis.view import View
from dnlab.analysis import names
from dnlab.plot.style import LINES, MARKERS, Design, add_legend, subplots

Unit = tuple[int, str]
UNITS: tuple[Unit, ...] = ((10**9, "s"), (10**6, "ms"), (10**3, "us"), (1, "ns"))
_BYTES: tuple[Unit, ...] = ((10**9, "GB"), (10**6, "MB"), (10**3, "kB"), (1, "bytes"))
# Shares and boxes have ns or bit/s, and are drawn in ms or Mbit/s.
_MILLION = 10**6
# Up to this many points of a sender are joined by thin lines; above the second number, points are small.
_JOINED, _SMALL = 10, 100
_OF_FLOW = re.compile(r"(.*: )?(cwnd|ssthresh|effective|loss|timeout) ([0-9]+)")
_KINDS = {"effective": "effective window"}
_GREY = "#555555"


class Look(NamedTuple):
    """The look of everything that belongs to a sender or pipe."""
    colour: str
    dash: Any
    marker: str


def owner_of(label: str) -> str:
    """Returns the sender or pipe of a series, which has one colour in all panels.

    >>> owner_of("loss 1"), owner_of("deep: cwnd 2"), owner_of("limit of pipe 1"), owner_of("train 9")
    ('flow 1', 'deep: flow 2', 'pipe 1', 'train 9')
    """
    found = _OF_FLOW.fullmatch(label)
    return (f"{found[1] or ''}flow {found[3]}" if found
            else re.sub(r"(limit of|rate of|through|delay line of) (?=pipe )", "", label))


def kind_of(label: str) -> str:
    """Returns the part of a flow's window that a series shows; '' for others.

    >>> kind_of("ssthresh 1"), kind_of("train 9")
    ('ssthresh', '')
    """
    found = _OF_FLOW.fullmatch(label)
    return found[2] if found else ""


def looks_of(panels: Iterable[Panel], colours: Mapping[str, str] = {}) -> dict[str, Look]:
    """Returns a look for each sender and pipe of the panels, in drawing order; after nine, other lines and
    markers are combined with the colours. Colours are given if they are those of a larger picture."""
    owners = list(dict.fromkeys(owner_of(one.label) for panel in panels for one in panel.series))
    cycle = matplotlib.rcParams["axes.prop_cycle"].by_key()["color"]
    looks = {}
    for place, owner in enumerate(owners):
        turn = place // len(LINES)
        looks[owner] = Look(colours.get(owner, cycle[place % len(cycle)]), LINES[(place + turn) % len(LINES)],
                            MARKERS[(place + 2 * turn) % len(MARKERS)])
    return looks


def time_unit(panels: Sequence[Panel]) -> Unit:
    """Returns the largest unit in which the panels' times reach two."""
    last = max((int(one.moments[-1]) for panel in panels if not panel.across for one in panel.series
                if len(one.moments)), default=0)
    return next((unit for unit in UNITS if last >= 2 * unit[0]), UNITS[-1])


def is_sparse(series: Sequence[Series]) -> bool:
    """Returns whether points are so few that a thin line may join them."""
    return all(len(one.moments) <= _JOINED for one in series if one.form == "points")


def style_of(one: Series, look: Look, is_joined: bool = False) -> dict[str, Any]:
    """Returns matplotlib's arguments for a series."""
    kind, words = kind_of(one.label), {"color": look.colour, "linestyle": look.dash}
    if one.form == "marks":
        return {**words, "linestyle": "none", "marker": "v" if kind == "timeout" else "x", "markersize": 6,
                "zorder": 4}
    if one.form == "points":
        return {**words, "linestyle": "-" if is_joined else "none", "linewidth": 0.6, "marker": look.marker,
                "markersize": 2 if len(one.moments) > _SMALL else 4, "markeredgewidth": 0}
    words["drawstyle"] = "steps-post"
    if one.form == "level":
        return {**words, "linestyle": (0, (8, 4)), "linewidth": 0.9}
    if kind == "ssthresh":
        return {**words, "linestyle": ":", "linewidth": 1.0}
    return {**words, "linestyle": "-", "linewidth": 5, "alpha": 0.3} if kind == "effective" else words


def draw_series(axes: Any, one: Series, style: Mapping[str, Any], scale: int, is_clipped: bool) -> None:
    """Draws a series; a distribution starts at 0."""
    moments, values = np.asarray(one.moments) / scale, np.asarray(one.values)
    if one.form == "share":
        moments, values = np.append(moments[:1], moments), np.append(0.0, values)
    axes.plot(moments, values, label=one.label, clip_on=is_clipped, **style)


def draw_panel(axes: Any, panel: Panel, unit: Unit, looks: Mapping[str, Look] = {},
               labels: names.Labels = {}) -> None:
    """Draws a panel with its axis labels; one without series shows its words."""
    axes.set_ylabel(names.quantity(panel.quantity or panel.title, panel.unit))
    if not panel.series:
        axes.text(0.5, 0.5, panel.words, ha="center", va="center", transform=axes.transAxes)
        axes.xaxis.set_major_locator(NullLocator())
        axes.grid(False)
        return
    if panel.across:
        axes.set_xlabel(panel.across)
    if panel.series[0].form == "box":
        draw_boxes(axes, panel.series, labels)
        return
    looks = looks or looks_of([panel])
    is_joined = is_sparse(panel.series)
    for one in panel.series:
        draw_series(axes, one, style_of(one, looks[owner_of(one.label)], is_joined),
                    _MILLION if panel.across else unit[0], panel.top is not None)
    if panel.across:
        axes.set_xlim(0, max(float(one.moments[-1]) for one in panel.series) / _MILLION or None)


def draw_boxes(axes: Any, boxes: Sequence[Series], labels: names.Labels) -> None:
    """Draws a box for each: its quartiles and median, whiskers from the 5th to the 95th percentile, the
    minimum and the maximum."""
    shapes = []
    for one in boxes:
        least, low, first, median, third, high, greatest = (float(value) / _MILLION for value in one.moments)
        shapes.append({"label": text_of(one.label, labels), "whislo": low, "q1": first, "med": median,
                       "q3": third, "whishi": high, "fliers": [least, greatest]})
    axes.bxp(shapes, medianprops={"color": "#d55e00"}, flierprops={"marker": "_", "markersize": 4})
    axes.grid(False, axis="x")
    if len(boxes) > 4:
        axes.tick_params(axis="x", labelrotation=30)


def text_of(label: str, labels: names.Labels) -> str:
    """Returns a label with the user's texts for the experiment, the sender or the pipe in it.

    >>> text_of("deep: train 9", {"train 9": "the call"}), text_of("limit of pipe 1", {"pipe 1": "uplink"})
    ('deep: the call', 'limit of uplink')
    """
    if label in labels:
        return labels[label]
    found = re.fullmatch(r"(?:([^:]*)(: ))?(limit of |rate of |through |delay line of )?(.*)", label,
                         re.DOTALL)
    assert found
    name, colon, prefix, own = (found[place] or "" for place in (1, 2, 3, 4))
    return labels.get(name, name) + colon + prefix + names.of_whom(own, labels)


def entries_of(panels: Sequence[Panel], looks: Mapping[str, Look],
               labels: names.Labels) -> tuple[str, dict[str, Any]]:
    """Returns the legend of a row of panels: its title, and handles by their texts. Several flows have a line
    each, and the parts of their windows share entries in grey. What all lines have in common is the title."""
    series = [one for panel in panels for one in panel.series if one.form != "box"]
    owners = list(dict.fromkeys(owner_of(one.label) for one in series if one.form != "level"))
    windows = {owner_of(one.label) for one in series if kind_of(one.label)}
    parts = [tuple(text_of(owner, labels).rpartition(": ")[::2]) for owner in owners]
    is_same = len(owners) > 1 and len({own for _, own in parts}) == 1
    found: dict[str, Any] = {}
    for one in sorted(series, key=lambda one: bool(one.under) or one.form == "level"):
        kind, look = kind_of(one.label), looks[owner_of(one.label)]
        if kind and (one.under or len(windows) == 1):
            text, look = _KINDS.get(kind, kind), look if len(windows) == 1 else Look(_GREY, "-", "o")
        else:
            text = text_of(one.label if not kind else owner_of(one.label), labels)
            text = text.rpartition(": ")[0] if is_same and one.form != "level" else text
        found.setdefault(text, Line2D([], [], **style_of(one, look, is_sparse(series))))
    title = parts[0][1] if is_same else text_of(min(windows), labels) if len(windows) == 1 else ""
    return title[:1].upper() + title[1:], found


def in_units(panels: Sequence[Panel]) -> list[Panel]:
    """Returns a row of panels with values in one suitable unit: windows in segments, bytes in kB, MB or
    GB."""
    drawn = [panel for panel in panels if panel.series]
    if not drawn or drawn[0].unit != "bytes":
        return list(panels)
    if all(panel.segment for panel in drawn):
        return [_scaled(panel, panel.segment or 1, "segments") for panel in panels]
    most = max(panel.top or max(float(one.values.max()) for one in panel.series) for panel in drawn)
    size, unit = next((one for one in _BYTES if most >= 2 * one[0]), _BYTES[-1])
    return [_scaled(panel, size, unit) for panel in panels]


def _scaled(panel: Panel, size: int, unit: str) -> Panel:
    return replace(panel, unit=unit, series=[one._replace(values=one.values / size) for one in panel.series],
                   top=None if panel.top is None else panel.top / size)


def frame(row: Sequence[Any], panels: Sequence[Panel]) -> None:
    """Sets one range of values for a row of panels, so that columns can be compared."""
    drawn = [panel for panel in panels if panel.series]
    if not drawn:
        row[0].yaxis.set_major_locator(NullLocator())
        return
    known = [panel.top for panel in drawn if panel.top is not None]
    row[0].set_ylim(bottom=0, top=max(known) if len(known) == len(drawn) else None)
    if drawn[0].unit in ("packets", "segments"):
        row[0].yaxis.set_major_locator(MaxNLocator("auto", integer=True))


def figure_of(views: Sequence[View], what: Sequence[str], effective: bool = False, acks: bool = False,
              design: Design = Design()) -> Figure:
    """Returns a figure with a column for each experiment and a row for each panel."""
    return figure_of_panels([view.name for view in views],
                            [[panel_of(view, one, effective=effective, acks=acks) for one in what]
                             for view in views], design=design)


def figure_of_panels(experiments: Sequence[str], columns: Sequence[Sequence[Panel]], span: Span = Span(),
                     design: Design = Design()) -> Figure:
    """Returns a figure of columns of panels with their experiments' names above. The time axis covers the
    span, if given."""
    with matplotlib.rc_context(design.rc()):
        rows = [in_units(row) for row in zip(*columns)]
        colours = {owner: look.colour
                   for owner, look in looks_of(panel for row in rows for panel in row).items()}
        count = len(columns)
        size = (2.0 + (4.8 if count == 1 else 3.0 * count), 0.7 + 2.3 * len(rows))
        figure, grid = subplots(len(rows), count, size, design, squeeze=False, sharey="row")
        unit = time_unit([panel for row in rows for panel in row])
        for line, panels in zip(grid, rows):
            looks = looks_of(panels, colours)
            for axes, panel in zip(line, panels):
                draw_panel(axes, panel, unit, looks, design.labels)
            for axes in line[1:]:
                axes.set_ylabel("")
            frame(line, panels)
            title, entries = entries_of(panels, looks, design.labels)
            add_legend(line[-1], list(entries.values()), list(entries), design.legend, title)
        for column in range(count):
            share_time([line[column] for line, panels in zip(grid, rows) if not panels[column].across], unit,
                       span)
        _head(figure, grid, [text_of(name, design.labels) for name in experiments], [row[0] for row in rows],
              design)
        notes = dict.fromkeys(panel.note for row in rows for panel in row if panel.note)
        if notes:
            figure.supxlabel("\n".join(notes), x=0.01, ha="left", size="x-small")
    return figure


def _head(figure: Figure, grid: Any, experiments: Sequence[str], panels: Sequence[Panel],
          design: Design) -> None:
    """Adds the titles of panels, and the experiments' names above their columns."""
    if len(experiments) > 1:
        for axes, name in zip(grid[0], experiments):
            axes.set_title(name)
        shown = dict.fromkeys((panel.across or panel.quantity or panel.title).partition(" (")[0]
                              for panel in panels)
        overall = (panels[0].title if len(panels) == 1
                   else ", ".join([list(shown)[0], *(one.lower() for one in list(shown)[1:])]))
    elif len(panels) > 1:
        for line, panel in zip(grid, panels):
            line[0].set_title(panel.title)
        overall = experiments[0]
    else:
        overall = f"{panels[0].title}: {experiments[0]}"
    if design.title != "":
        figure.suptitle(design.title or overall, x=0.01, ha="left")


def share_time(axes_of_time: Sequence[Any], unit: Unit, span: Span = Span()) -> None:
    """Sets one time range, which ends with the data, for all panels of a column with a time axis; the last
    one has the label."""
    ends = [float(line.get_xdata()[-1]) for axes in axes_of_time
            for line in axes.get_lines() if len(line.get_xdata())]
    if ends:
        last = max(ends) if span.end is None else span.end / unit[0]
        for axes in axes_of_time:
            axes.set_xlim(span.begin / unit[0], last if last > span.begin / unit[0] else None)
    if axes_of_time:
        axes_of_time[-1].set_xlabel(names.quantity("Time", unit[1]))
