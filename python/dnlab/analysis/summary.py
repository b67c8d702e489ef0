"""Summarises a report: the rows and notes of all experiments, and groups with intervals."""
from functools import partial
from typing import Callable, Iterable, Iterator, NamedTuple, Optional, Sequence, TypeVar

from dnlab.analysis.intervals import losses, windows_of
from dnlab.analysis.metrics import PERCENTILES, Row, Span, is_named
from dnlab.analysis.names import varied
from dnlab.analysis.quantities import Percentile, interval
from dnlab.analysis.reports import Inputs, lacking, map_experiments
from dnlab.analysis.tables import Tables
from dnlab.analysis.view import KINDS, Note, View
from dnlab.io.files import check_beside
from dnlab.io.scenario_parts import Plan
from dnlab.programs import say

T = TypeVar("T")


class Summed(NamedTuple):
    """The part of one experiment in a summary."""
    name: str
    rows: list[Row]
    notes: list[Note]


def sum_one(view: View, percentiles: Sequence[Percentile], shown: dict[str, str], patterns: Sequence[str],
            kind: str, every: int, span: Span = Span()) -> Summed:
    """Returns the rows of one experiment: `summary` (for a time range), `windows` or `losses`. Runs in
    another process."""
    if kind == "windows":
        rows = windows_of(view, every)
    elif kind == "losses":
        rows = losses(view)
    else:
        rows = Tables(view, percentiles, shown.get(view.name), span=span).rows()
    if kind != "summary":
        own = {"seed": view.plan.seed if view.plan else None, "varied": shown.get(view.name),
               "ended": view.ended.how}
        rows = [{**row, **own} for row in rows]
    if patterns:
        rows = [row for row in rows if any(is_named(row["sender"], pattern) for pattern in patterns)]
    return Summed(view.name, rows, view.notes)


def summed(given: Inputs, plans: Optional[dict[str, Plan]], wanted: Sequence[str] = (),
           percentiles: Sequence[Percentile] = PERCENTILES, patterns: Sequence[str] = (),
           kind: str = "summary", every: int = 0, workers: Optional[int] = None,
           span: Span = Span()) -> Iterator[Summed]:
    """Yields the rows and notes of each experiment of a report, in order. Raises `InputError` if the scenario
    isn't the report's."""
    shown = varied(plans) if plans else {}
    one = partial(sum_one, percentiles=tuple(percentiles), shown=shown, patterns=tuple(patterns), kind=kind,
                  every=every, span=span)
    return whole(given, plans, wanted, map_experiments(given, one, plans, wanted, workers, "summary"),
                 lambda made: made.name)


def whole(given: Inputs, plans: Optional[dict[str, Plan]], wanted: Sequence[str], found: Iterable[T],
          name_of: Callable[[T], str]) -> Iterator[T]:
    """Yields the results for a report's experiments, in order.

    Raises `InputError` before the first if the record next to the report has another scenario, and after the
    last if the report lacks an experiment of its scenario (unless only some are wanted)."""
    check_beside(given.report, plans, given.scenario())
    names = set()
    for made in found:
        names.add(name_of(made))
        yield made
    lacking(given.report, given.scenario(),
            [] if wanted or plans is None else [name for name in plans if name not in names])


def grouped(rows: Sequence[Row], by: Sequence[str], columns: Sequence[str]) -> list[Row]:
    """Returns a row for each group of rows: for each column the number of values (`n`), their mean, and the
    half-width of its 95 % confidence interval. Groups are in the order of their first row, and always include
    the sender."""
    keys = [*by, *([] if "sender" in by else ["sender"])]
    groups: dict[tuple[object, ...], list[Row]] = {}
    for row in rows:
        groups.setdefault(tuple(row[key] for key in keys), []).append(row)
    found = []
    for key, members in groups.items():
        made: Row = {**dict(zip(keys, key)), "rows": len(members)}
        for column in columns:
            one = interval(float(row[column]) for row in members if row[column] is not None)
            # Eleven digits: further digits of a float differ between versions of scipy.
            half = None if one.half is None else float(f"{one.half:.11g}")
            made |= {f"{column} n": one.count, f"{column} mean": one.mean, f"{column} ci95": half}
        found.append(made)
    return found


def tell(tool: str, notes: Iterable[tuple[str, Note]], total: int) -> None:
    """Prints the notes of experiments on standard error: each kind once, with the number of experiments that
    have it."""
    kinds: dict[str, list[tuple[str, Note]]] = {}
    for name, note in notes:
        kinds.setdefault(note.kind, []).append((name, note))
    for kind, found in kinds.items():
        name, note = found[0]
        names = dict.fromkeys(name for name, _ in found)
        if len(found) == 1:
            said = f"experiment {name}: {note.text}"
        elif len(names) == 1:
            said = f"experiment {name}: {note.text} (and {len(found) - 1} more like it)"
        else:
            said = (f"{len(names)} of {total} experiments: {KINDS.get(kind, kind)}; the first is "
                    f"{name}: {note.text}")
        say(tool, said)
