"""Pictures of a sweep: means with their intervals over a setting, one statistic against another, and
distributions over seeds."""
from typing import Any, Callable, Optional, Sequence

import matplotlib
import numpy as np
import pandas as pd
from matplotlib.axes import Axes
from matplotlib.figure import Figure
from matplotlib.lines import Line2D
from matplotlib.ticker import FuncFormatter, LogLocator, NullLocator

from dnlab.analysis import names
from dnlab.errors import InputError
from dnlab.plot.style import (Line, Look, add_legend, axis_of, check_count, check_two, in_order, lines_of,
                              number_of, others_of, places_of, subplots)

# Up to this many values have a tick each on a logarithmic axis.
_MOST_TICKS = 8
# Longer tick labels are rotated.
_LONG = 8


def figure_of(table: pd.DataFrame, settings: Sequence[str], look: Look = Look(),
              each: Optional[pd.DataFrame] = None) -> Figure:
    """Returns the picture of a sweep: by its table (`Sweep.table`), or for distributions by each value
    (`Sweep.long`).

    It has a row of panels for each sender and statistic (and each value of `look.rows`), with a line for each
    combination of the remaining settings; hollow points have warnings, which are named below. Raises
    `InputError` for more than eight lines or 24 panels."""
    # Imported here, because it imports this module.

    look.check(settings)
    along = axis_of(table, settings, look)
    others = others_of(table, settings, along, look)
    panels = list(table[["sender", "stat"]].drop_duplicates().itertuples(index=False, name=None))
    with matplotlib.rc_context(look.rc()):
        if look.kind == "tradeoff":
            check_two(panels)
            return tradeoff(table, panels, along, others, look)
        if look.kind == "means":
            return _grid(table, panels, along, others, look, means)
        assert each is not None
        each = each[each["value"].notna()]
        return _grid(each, panels, along, others, look, ecdf if look.kind == "ecdf" else boxes)


def _grid(data: pd.DataFrame, panels: Sequence[tuple[str, str]], along: str, others: Sequence[str],
          look: Look, draw: Callable[..., list[Any]]) -> Figure:
    """Returns panels in rows and columns, filled by `draw`, which returns the handles of the legend."""
    values = [None] if look.rows is None else list(dict.fromkeys(data[look.rows]))
    rows = [(panel, value) for panel in panels for value in values]
    columns: list[Any] = [None] if look.columns is None else list(dict.fromkeys(data[look.columns]))
    check_count(len(rows) * len(columns))
    width = (4.8 if len(columns) == 1 else 2.8 * len(columns)) + (1.8 if others else 0.6)
    figure, grid = subplots(len(rows), len(columns), (width, 0.9 + 2.1 * len(rows)), look, squeeze=False,
                            sharex=look.kind != "ecdf", sharey="row")
    before = None
    for line, (panel, one) in zip(grid, rows):
        whole = data[(data["sender"] == panel[0]) & (data["stat"] == panel[1])]
        scale = _scale(whole)
        for axes, value in zip(line, columns):
            handles = draw(axes, lines_of(_part(whole, look, one, value), others, look), along, look, scale)
            axes.set_title(_title(look, panel[0] if len({of for of, _ in panels}) > 1 and panel[0] != before
                                  else None, one, value))
        before = panel[0]
        _name_axes(line, panel[1], scale[0], along, look)
    for axes in grid[-1] if look.kind != "ecdf" else []:
        axes.set_xlabel(names.of_setting(along, look.labels))
    if others:
        add_legend(grid[0][-1], handles, [line.label for line in lines_of(data, others, look)], look.legend,
                   "\n".join(names.of_setting(name, look.labels) for name in others))
    _add_texts(figure, data, panels, along, look)
    return figure


def _scale(rows: pd.DataFrame) -> tuple[str, int]:
    column = ("high" if "high" in rows and rows["high"].notna().any() else "mean" if "mean" in rows
              else "value")
    greatest = rows[column].dropna().astype(float).max() if len(rows) else 0
    return names.shown_in(rows["unit"].iloc[0] if len(rows) else "", greatest)


def _name_axes(line: Sequence[Any], stat: str, unit: str, along: str, look: Look) -> None:
    label = names.of_stat(stat, unit, look.labels)
    if look.kind == "ecdf":
        for axes in line:
            axes.set_xlabel(label)
        label = "Fraction of seeds"
    if "y" not in look.log:
        line[0].set_ylim(bottom=0)
    line[0].set_ylabel(label)


def _add_texts(figure: Figure, data: pd.DataFrame, panels: Sequence[tuple[str, str]], along: str,
               look: Look) -> None:
    """Adds the title, and the explanation of points, bars and boxes below the panels."""

    of = list(dict.fromkeys(sender for sender, _ in panels))
    whose = names.of_whom(of[0], look.labels) if len(of) == 1 else "comparison"
    by = (": distribution over seeds" if look.kind == "ecdf"
          else f" by {_lower(names.of_setting(along, look.labels))}")
    title = look.title if look.title is not None else f"{whose[:1].upper()}{whose[1:]}{by}"
    if title:
        figure.suptitle(title, x=0.01, ha="left")
    marks = list(dict.fromkeys(mark for words in data["warnings"].fillna("") for mark in words.split()))
    said = intervals_in_words(data) if look.kind == "means" else WORDS[look.kind]
    said += f"; hollow points: {', '.join(marks)}" if marks and look.kind == "means" else ""
    figure.supxlabel(said, x=0.01, ha="left", size="x-small")


def intervals_in_words(table: pd.DataFrame) -> str:
    """Returns the explanation of points and bars."""
    fewest, seeds = (int(table["n"].min()), int(table["n"].max())) if len(table) else (0, 0)
    if seeds < 2:
        return "Points: single runs"
    method = " (bootstrap)" if "bootstrap" in set(table["method"]) else ""
    return (f"Points: means of {seeds if fewest == seeds else f'{fewest} to {seeds}'} seeds; bars: "
            f"{table['level'].iloc[0]:g} % intervals{method}")


def _lower(label: str) -> str:
    """Returns a label for use within a sentence, without its unit; CoDel keeps its capitals.

    >>> _lower("Queue limit (packets)"), _lower("CoDel target (ms)")
    ('queue limit', 'CoDel target')
    """
    words = label.partition(" (")[0]
    return words if words[1:2].isupper() or words.startswith("CoDel") else words[:1].lower() + words[1:]


def _part(rows: pd.DataFrame, look: Look, row: Any, column: Any) -> pd.DataFrame:
    """Returns the rows of a panel."""
    for name, value in ((look.rows, row), (look.columns, column)):
        if name is not None:
            rows = rows[rows[name] == value]
    return rows


def _title(look: Look, sender: Optional[str], row: Any, column: Any) -> str:
    parts = [] if sender is None else [names.of_whom(sender, look.labels)]
    parts += [
        f"{names.of_setting(name, look.labels).partition(' (')[0]}: "
        f"{names.of_value(name, value, look.labels)}"
        for name, value in ((look.rows, row), (look.columns, column)) if name is not None]
    return "\n".join(parts) if look.rows is not None else ", ".join(parts)


def means(axes: Any, lines: Sequence[Line], along: str, look: Look, scale: tuple[str, int]) -> list[Any]:
    """Draws means with their intervals. Numbers are joined by lines, words are not."""
    values = [value for line in lines for value in line.rows[along]]
    places = places_of(values)
    is_number = all(number_of(value) is not None for value in places)
    handles = [_line(axes, line, along, places, scale[1]) for line in lines]
    if "y" in look.log:
        axes.set_yscale("log")
        _plain(axes.yaxis)
    if is_number:
        _ticks(axes, sorted(places.values()), "x" in look.log)
    else:
        label_values(axes, places, along, look)
    return handles


def label_values(axes: Any, places: dict[Any, float], along: str, look: Look) -> None:
    """Draws a tick for each value, and a thin line between numbers and words."""
    texts = [names.of_value(along, value, look.labels) for value in places]
    is_long = max(map(len, texts), default=0) > _LONG
    axes.set_xticks(list(places.values()), texts, rotation=20 if is_long else 0,
                    ha="right" if is_long else "center")
    axes.grid(False, axis="x")
    numbers = sum(number_of(value) is not None for value in places)
    if 0 < numbers < len(places):
        axes.axvline(numbers - 0.5, color="#999999", linewidth=0.8)


def _line(axes: Any, line: Line, along: str, places: dict[Any, float], scale: int) -> Any:
    """Draws one line with its intervals; points whose experiments have warnings are hollow."""
    known = line.rows[line.rows["mean"].notna()]
    known = known.assign(_at=[places[value] for value in known[along]]).sort_values("_at", kind="stable")
    mean = known["mean"].astype(float) / scale
    bars = [(mean - known["low"].astype(float) / scale).fillna(0).clip(lower=0).to_numpy(),
            (known["high"].astype(float) / scale - mean).fillna(0).clip(lower=0).to_numpy()]
    is_joined = known[along].map(lambda value: number_of(value) is not None).astype(bool)
    axes.plot(known["_at"][is_joined], mean[is_joined], linestyle=line.dash(), color=line.style()["color"])
    handle = axes.errorbar(known["_at"], mean, yerr=bars, capsize=2.5, elinewidth=1, linestyle="none",
                           label=line.label, **line.style())
    hollow = known["warnings"].fillna("") != ""
    if hollow.any():
        axes.plot(known["_at"][hollow], mean[hollow], linestyle="none", markerfacecolor="white", zorder=5,
                  **line.style())
    return handle


def _ticks(axes: Any, values: Sequence[float], is_log: bool) -> None:
    """Draws a tick for each value if there are few, in plain numbers on a logarithmic axis too."""
    if is_log:
        if values[0] <= 0:
            raise InputError(f"--log x: {values[0]:g} has no place on a logarithmic axis")
        axes.set_xscale("log")
        _plain(axes.xaxis)
        if len(values) <= _MOST_TICKS:
            axes.set_xticks(values)


def _plain(axis: Any) -> None:
    """Uses plain numbers on a logarithmic axis: 1, 2, 5, 10 and so on."""
    axis.set_major_locator(LogLocator(subs=(1, 2, 5)))
    axis.set_major_formatter(FuncFormatter(lambda value, _: f"{value:g}"))
    axis.set_minor_locator(NullLocator())


# The explanations below a picture.
WORDS = {"ecdf": "Empirical distribution over seeds, one step for each",
         "box": "Boxes: quartiles and median over seeds; whiskers: up to 1.5 interquartile ranges; "
                "circles: seeds beyond"}


def ecdf(axes: Any, lines: Sequence[Line], along: str, look: Look, scale: tuple[str, int]) -> list[Any]:
    """Draws the empirical distribution of each line's values."""
    handles = []
    for line in lines:
        values = np.sort(line.rows["value"].astype(float).to_numpy()) / scale[1]
        shares = np.arange(len(values) + 1) / max(len(values), 1)
        handles += axes.step(np.append(values[:1], values), shares[:len(values) + 1] if len(values) else [],
                             where="post",
                             linestyle=line.dash(), color=line.style()["color"], label=line.label)
    axes.set_ylim(0, 1)
    return handles


def boxes(axes: Any, lines: Sequence[Line], along: str, look: Look, scale: tuple[str, int]) -> list[Any]:
    """Draws a box for each value of the setting, side by side for each line."""
    places = in_order([value for line in lines for value in line.rows[along]])
    width = 0.7 / len(lines)
    for line in lines:
        own = [(places[value], group["value"].astype(float) / scale[1])
               for value, group in line.rows.groupby(along, sort=False)]
        look_of = {"color": line.style()["color"]}
        axes.boxplot([group for _, group in own],
                     positions=[at + (line.place - (len(lines) - 1) / 2) * width for at, _ in own],
                     widths=0.8 * width, manage_ticks=False, boxprops=look_of, whiskerprops=look_of,
                     capprops=look_of,
                     medianprops={**look_of, "linewidth": 2},
                     flierprops={"markersize": 3, "markeredgecolor": look_of["color"]})
    label_values(axes, places, along, look)
    return [Line2D([], [], color=line.style()["color"]) for line in lines]


def tradeoff(table: pd.DataFrame, panels: Sequence[tuple[str, str]], along: str, others: Sequence[str],
             look: Look) -> Figure:
    """Returns a picture of one statistic against another: a point for each setting with both intervals; a
    time is on the vertical axis."""
    keys = [along, *others]
    sides = [table[(table["sender"] == of) & (table["stat"] == stat)] for of, stat in panels]
    if sides[0]["unit"].iloc[0] == "ns" and sides[1]["unit"].iloc[0] != "ns":
        sides, panels = sides[::-1], panels[::-1]
    scales = [names.shown_in(side["unit"].iloc[0], float(side["mean"].max())) for side in sides]
    figure, axes = subplots(1, 1, (6.4 if others else 5.4, 4.2), look)
    handles = []
    for line in lines_of(sides[0].merge(sides[1], on=keys, suffixes=("", "_y")), others, look):
        rows = line.rows[line.rows["mean"].notna() & line.rows["mean_y"].notna()]
        places = places_of(rows[along])
        rows = rows.assign(_at=[places[value] for value in rows[along]]).sort_values("_at", kind="stable")
        (x, across), (y, up) = (_bars(rows, suffix, scale[1]) for suffix, scale in zip(("", "_y"), scales))
        is_joined = [number_of(value) is not None for value in rows[along]]
        axes.plot(x[is_joined], y[is_joined], linewidth=0.8, linestyle=line.dash(),
                  color=line.style()["color"])
        handles.append(axes.errorbar(x, y, xerr=across, yerr=up, capsize=2.5, elinewidth=1, linestyle="none",
                                     **line.style()))
        for value, at, height in zip(rows[along], x, y):
            axes.annotate(names.of_value(along, value, look.labels), (at, height), xytext=(7, 4),
                          textcoords="offset points", size="small", color=line.style()["color"],
                          bbox={"facecolor": "white", "edgecolor": "none", "alpha": 0.7, "pad": 0.5})
    for (of, stat), scale, name in zip(panels, scales, (axes.set_xlabel, axes.set_ylabel)):
        words = look.labels.get(stat, names.of_stat(stat, ""))
        name(names.quantity(f"{words}, {names.of_whom(of, look.labels)}", scale[0]))
    _begin_at_zero(axes, look)
    if others:
        add_legend(axes, handles, [line.label for line in lines_of(sides[0], others, look)], look.legend,
                   "\n".join(names.of_setting(name, look.labels) for name in others))
    title = look.title if look.title is not None else f"{_stat(panels[1])} against {_stat(panels[0]).lower()}"
    if title:
        figure.suptitle(title, x=0.01, ha="left")
    said = f"{intervals_in_words(table)}; number at each point: {names.of_setting(along, look.labels)}"
    figure.supxlabel(said, x=0.01, ha="left", size="x-small")
    return figure


def _begin_at_zero(axes: Axes, look: Look) -> None:
    """Makes each axis begin at 0, or logarithmic."""
    if "x" not in look.log:
        axes.set_xlim(left=0)
    if "y" not in look.log:
        axes.set_ylim(bottom=0)
    for axis in look.log:
        getattr(axes, f"set_{axis}scale")("log")


def _stat(panel: tuple[str, str]) -> str:
    return names.of_stat(panel[1], "")


def _bars(rows: pd.DataFrame, suffix: str, scale: int) -> tuple[Any, Any]:
    """Returns means, and the distances to both ends of their intervals."""
    mean, low, high = (rows[name + suffix].astype(float).to_numpy() / scale
                       for name in ("mean", "low", "high"))
    return mean, np.nan_to_num([mean - low, high - mean]).clip(min=0)
