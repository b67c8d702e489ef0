"""The look of pictures: sizes, fonts, colours, line styles and legends, the files they are written to, and
the layout of a sweep's picture."""
from dataclasses import dataclass, field
from pathlib import Path
from typing import TYPE_CHECKING, Any, Mapping, NamedTuple, Optional, Sequence

import matplotlib
import matplotlib.style
from matplotlib import cycler
from matplotlib.backends.backend_agg import FigureCanvasAgg
from matplotlib.figure import Figure
from matplotlib.font_manager import FontProperties, findfont

from dnlab.analysis import names
from dnlab.analysis.series import MOST
from dnlab.errors import InputError
from dnlab.io.files import whole_file

if TYPE_CHECKING:
    import pandas as pd

# matplotlib draws (Debian: python3-matplotlib). Lines can be distinguished in black and white.

# Dark and light alternate, so the shades differ without colour; Okabe and Ito's colours can be distinguished
# by everyone.
COLOURS = ("#000000", "#d55e00", "#0072b2", "#999999", "#009e73", "#555555", "#cc79a7", "#222288", "#b08000")
# Dotted lines are thresholds.
LINES: tuple[Any, ...] = ("-", (0, (6, 1.5)), (0, (6, 1.5, 1.5, 1.5)), (0, (3, 1)), (0, (10, 2)),
                          (0, (3, 1, 1, 1, 1, 1)), (0, (10, 2, 2, 2)), (0, (2, 2)), (0, (6, 4)))
MARKERS = ("o", "s", "^", "D", "v", "P", "*", "<", ">")
# Text stays text in a file, and no file depends on the date or on random numbers, so a report always gives
# the same bytes.
FILES = {"svg.fonttype": "none", "pdf.fonttype": 42, "svg.hashsalt": "dnlab"}
STYLE: dict[str, Any] = {
    "font.size": 9, "axes.titlesize": 10, "axes.titlelocation": "left", "figure.titlesize": 11,
    "legend.fontsize": 8, "legend.frameon": False, "axes.spines.top": False, "axes.spines.right": False,
    "axes.grid": True, "grid.color": "#dddddd", "grid.linewidth": 0.6, "axes.axisbelow": True,
    "lines.linewidth": 1.3, "lines.markersize": 4, "axes.prop_cycle": cycler(color=COLOURS)}
METADATA: dict[str, dict[str, Any]] = {"svg": {"Date": None}, "pdf": {"CreationDate": None}, "png": {}}
LEGENDS = ("right", "inside", "none")


@dataclass(frozen=True)
class Design:
    """The user's choices for a picture.

    title   the title, instead of the default one
    labels  texts for names, as {"train 9": "the call", "queue:codel": "CoDel", "rate": "Link rate (Mbit/s)"}
    size    width and height in inches
    font    a family, points, or both: "DejaVu Serif,10"
    style   a matplotlib style sheet, by name or file
    legend  one of `LEGENDS`"""
    title: Optional[str] = None
    labels: Mapping[str, str] = field(default_factory=dict)
    size: Optional[tuple[float, float]] = None
    font: str = ""
    style: Optional[str] = None
    legend: str = "right"

    def rc(self) -> dict[str, Any]:
        """Returns matplotlib's settings for the picture. Raises `InputError` if the style or font does not
        exist."""
        return {**STYLE, **_style_of(self.style), **_font_of(self.font), **FILES}


def _style_of(name: Optional[str]) -> dict[str, Any]:
    if name is None:
        return {}
    if name in matplotlib.style.library:
        return dict(matplotlib.style.library[name])
    if Path(name).is_file():
        return dict(matplotlib.rc_params_from_file(name, use_default_template=False))
    raise InputError(
        f"--style {name}: neither a file nor a matplotlib style sheet; the style sheets are "
        f"{', '.join(matplotlib.style.available)}")


def _font_of(text: str) -> dict[str, Any]:
    """Returns the settings for a font's family and points.

    >>> _font_of("12")["font.size"], _font_of("serif,8")["font.family"]
    (12.0, 'serif')
    """
    found: dict[str, Any] = {}
    for part in filter(None, text.split(",")):
        if part.replace(".", "", 1).isdigit():
            points = float(part)
            found.update({"font.size": points, "axes.titlesize": points + 1, "figure.titlesize": points + 2,
                          "legend.fontsize": points - 1})
            continue
        try:
            findfont(FontProperties(family=part), fallback_to_default=False)
        except ValueError:
            raise InputError(
                f"--font {part}: no such font is installed; `fc-list : family` lists "
                "those that are") from None
        found["font.family"] = part
    return found


def subplots(rows: int, columns: int, figsize: tuple[float, float], design: Design = Design(),
             **words: Any) -> tuple[Figure, Any]:
    """Returns a figure with a grid of axes, like pyplot's, but without pyplot's global state."""
    with matplotlib.rc_context(design.rc()):
        figure = Figure(figsize=design.size or figsize, layout="constrained")
        FigureCanvasAgg(figure)
        return figure, figure.subplots(rows, columns, **words)


def add_legend(axes: Any, handles: list[Any], labels: list[str], where: str, title: str = "") -> None:
    """Adds a legend next to the axes, or inside them where it hides least."""
    if where == "none" or not handles:
        return
    place = ({"loc": "upper left", "bbox_to_anchor": (1.0, 1.0), "borderaxespad": 0.3} if where == "right"
             else {"loc": "best", "frameon": True, "framealpha": 0.8})
    made = axes.legend(handles, labels, title=title or None, ncols=1 + (len(handles) - 1) // 12,
                       alignment="left", **place)
    made.get_title().set_fontsize("small")


def save(figure: Figure, name: str) -> None:
    """Writes the figure in the format of its extension, .svg, .png or .pdf, completely or not at all. Raises
    `OSError`."""
    ending = name.rsplit(".", 1)[-1]
    with matplotlib.rc_context(FILES), whole_file(name) as file:
        figure.savefig(file, format=ending, metadata=METADATA[ending], dpi=150)


# With more panels than this, a picture is unreadable.
_MOST_PANELS = 24
AXES = ("x", "y")
KINDS = ("means", "tradeoff", "ecdf", "box")


@dataclass(frozen=True)
class Look(Design):
    """The layout of a sweep's picture, in addition to its design.

    along          the setting on the horizontal axis; by default the first with several values, numbers
                   before words
    rows, columns  settings with a row or a column of panels for each value; the others are the lines of a
                   panel
    log            which axes are logarithmic, of `x` and `y`
    kind           `means` with their intervals; `tradeoff`, one statistic against another; `ecdf` or `box`,
                   the distribution of the values of the seeds"""
    along: Optional[str] = None
    rows: Optional[str] = None
    columns: Optional[str] = None
    log: Sequence[str] = ()
    kind: str = "means"

    def check(self, settings: Sequence[str]) -> None:
        """Raises `InputError` if a setting does not exist, or is used twice."""
        said = [(word, name) for word, name in (("--along", self.along), ("--rows", self.rows),
                                                ("--columns", self.columns))
                if name is not None]
        for word, name in said:
            if name not in settings:
                raise InputError(
                    f"{word} {name}: no such setting; the settings are {', '.join(settings) or 'none'}")
        if len({name for _, name in said}) < len(said):
            raise InputError("--along, --rows and --columns: each must name another setting")
        for axis in self.log:
            if axis not in AXES:
                raise InputError(f"--log {axis}: expected x, y or x,y")
        if self.kind not in KINDS:
            raise InputError(f"--kind {self.kind}: expected one of {', '.join(KINDS)}")
        if self.kind == "tradeoff" and (self.rows or self.columns):
            raise InputError("--kind tradeoff is one panel: --rows and --columns don't go with it")


class Line(NamedTuple):
    """The rows of a line, its index among the lines, and its text in the legend."""
    rows: "pd.DataFrame"
    place: int
    label: str

    def style(self) -> dict[str, Any]:
        colours = matplotlib.rcParams["axes.prop_cycle"].by_key()["color"]
        return {"color": colours[self.place % len(colours)], "marker": MARKERS[self.place % len(MARKERS)]}

    def dash(self) -> Any:
        return LINES[self.place % len(LINES)]


def axis_of(table: "pd.DataFrame", settings: Sequence[str], look: Look = Look()) -> str:
    """Returns the setting on the horizontal axis."""
    if look.along is not None:
        return look.along
    several = [name
               for name in settings if table[name].nunique() > 1 and name not in (look.rows, look.columns)]
    # Imported here, because pictures of reports need no pandas.
    from pandas.api.types import is_numeric_dtype

    numbers = [name for name in several if is_numeric_dtype(table[name])]
    return str([*numbers, *several, *settings, "sender"][0])


def check_panels(cases: "pd.DataFrame", settings: Sequence[str], panels: Sequence[tuple[str, str]],
                 look: Look = Look()) -> None:
    """Raises `InputError` for a picture of a sweep that could not be drawn, before anything runs, given the
    settings of its experiments and the requested statistics."""
    look.check(settings)
    look.rc()
    if settings:
        others_of(cases, settings, axis_of(cases, settings, look), look)
    rows = len(panels) * (1 if look.rows is None else cases[look.rows].nunique())
    check_count(rows * (1 if look.columns is None else cases[look.columns].nunique()))
    if look.kind == "tradeoff":
        check_two(panels)


def check_count(panels: int) -> None:
    """Raises `InputError` for too many panels, or none."""
    if not 1 <= panels <= _MOST_PANELS:
        raise InputError(
            f"--plot: {panels} panels, but 1 to {_MOST_PANELS} can be drawn: use fewer --of and --stat")


def check_two(panels: Sequence[tuple[str, str]]) -> None:
    """Raises `InputError` unless there are two statistics, one for each axis."""
    if len(panels) != 2:
        raise InputError(
            "--kind tradeoff: expected two statistics, as --of 'train 9' --stat delay.p95 --of flows --stat "
            f"goodput, but there are {len(panels)}")


def others_of(table: "pd.DataFrame", settings: Sequence[str], along: str, look: Look) -> list[str]:
    """Returns the settings whose combinations are the lines of a panel. Raises `InputError` for too many."""
    apart = (look.rows, look.columns, None if look.kind == "ecdf" else along)
    others = [name for name in settings if name not in apart and table[name].nunique() > 1]
    lines = len(table[others].drop_duplicates()) if others else 1
    if lines > MOST:
        raise InputError(
            f"--plot: {lines} lines in a panel can't be told apart, {MOST} at most: one for each combination "
            f"of {', '.join(others)}; use fewer values, or separate panels with --rows and --columns")
    return others


def lines_of(rows: "pd.DataFrame", others: Sequence[str], look: Look) -> list[Line]:
    """Returns the lines of a panel: one for each combination of the other settings."""
    # With a single column name, pandas returns keys that are not tuples.
    by = others[0] if len(others) == 1 else list(others)
    groups = rows.groupby(by, sort=False, dropna=False) if others else [((), rows)]
    return [Line(group, place, ", ".join(names.of_value(name, value, look.labels)
                                         for name, value in zip(others,
                                                                key if isinstance(key, tuple) else (key,))))
            for place, (key, group) in enumerate(groups)]


def number_of(value: Any) -> Optional[float]:
    """Returns a setting's value as a number, or None for words.

    >>> number_of("10"), number_of("50 codel")
    (10.0, None)
    """
    try:
        return float(value)
    except ValueError:
        return None


def in_order(values: Sequence[Any]) -> dict[Any, float]:
    """Returns positions 0, 1, 2 and so on for the values of a setting: numbers in order, and then words.

    >>> in_order(["50", "10", "50 codel"])
    {'10': 0.0, '50': 1.0, '50 codel': 2.0}
    """
    known = list(dict.fromkeys(values))
    numbers = sorted((value for value in known if number_of(value) is not None), key=float)
    return {value: float(place)
            for place, value in enumerate([*numbers, *(value for value in known if value not in numbers)])}


def places_of(values: Sequence[Any]) -> dict[Any, float]:
    """Returns the positions of a setting's values on its axis: numbers at their value, unless some values are
    words.

    >>> places_of([10, 5])
    {10: 10.0, 5: 5.0}
    """
    if all(number_of(value) is not None for value in values):
        return {value: float(value) for value in dict.fromkeys(values)}
    return in_order(values)
