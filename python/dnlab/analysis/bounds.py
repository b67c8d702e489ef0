"""Bounds on the metrics of a report, as `train 9: delay.p95 < 50ms`, and tolerances between the metrics of
two runs.

A bound is `[EXPERIMENT/]ROW: METRIC SIGN VALUE` (docs/reference/tools.md). It must hold in every row that it
names, and is refused if it names none. A run in which commands were refused, or that was cut short, fails
independently of the bounds, unless that is allowed.
"""
import operator
import re
from dataclasses import dataclass, replace
from fnmatch import fnmatchcase
from fractions import Fraction
from pathlib import Path
from typing import Any, Callable, Iterator, NamedTuple, Optional, Sequence, Union

from dnlab.analysis.metrics import WORDS, Metric, Row, is_named, metric_of, metrics, percentiles_in
from dnlab.analysis.quantities import amount_of, fitting, shown
from dnlab.errors import InputError
from dnlab.io.scenario_parts import DROP_CAUSES

SIGNS: dict[str, Callable[[Any, Any], bool]] = {"<=": operator.le, ">=": operator.ge, "==": operator.eq,
                                                "!=": operator.ne, "<": operator.lt, ">": operator.gt,
                                                "=": operator.eq}
FORM = "WHO: METRIC SIGN VALUE, as 'train 9: delay.p95 < 50ms'"
_SIGN = re.compile(r"[<>=!]+")
_COMMENT = re.compile(r"(^|\s)#.*")
# The maximum number of names in a message.
_MOST_NAMES = 40


@dataclass(frozen=True)
class Bound:
    """A bound, its origin `where` (`bounds.txt: line 2`, `bound 1`) and its `text`; `value` is in the
    metric's base unit. A bound from a file has the file's name and the line."""
    where: str
    text: str
    experiment: str
    of: str
    metric: Metric
    sign: str
    value: Fraction
    unit: str
    file: Optional[str] = None
    line: Optional[int] = None

    def rows(self, rows: Sequence[Row]) -> list[Row]:
        """Returns the rows that the bound names. Raises `InputError` with the names that exist if there are
        none."""
        own = [row for row in rows if fnmatchcase(row["experiment"], self.experiment)]
        found = [row for row in own if is_named(row["sender"], self.of)]
        if found:
            return found
        kind, names = ("row", own) if own else ("experiment", list(rows))
        known = list(dict.fromkeys(row["sender" if own else "experiment"] for row in names))
        more = f" and {len(known) - _MOST_NAMES} more" if len(known) > _MOST_NAMES else ""
        raise InputError(f"{self.where}: no {kind} {self.of if own else self.experiment!r}; there are"
                     f" {', '.join(known[:_MOST_NAMES])}{more}")

    def holds(self, measured: Fraction) -> bool:
        return SIGNS[self.sign](measured, self.value)

    def show(self, amount: Fraction) -> str:
        """Returns an amount as text, in the unit of the bound."""
        return shown(amount, self.metric.kind, self.unit)


class Judged(NamedTuple):
    """A judged bound: whether it holds, and what was measured where, as text. `row` is the row that decides,
    `measured` its value in base units (None if unknown)."""
    bound: Bound
    holds: bool
    said: str
    row: Row
    measured: Optional[Fraction]

    def line(self) -> str:
        return f"{'holds' if self.holds else 'FAILS'}  {self.bound.where}: {self.bound.text}  ({self.said})"

    def record(self) -> dict[str, Any]:
        """Returns it for JSON; amounts in ns, bytes, bit/s, or fractions."""
        metric = self.bound.metric
        return {"bound": self.bound.text, "where": self.bound.where, "holds": self.holds,
                "experiment": self.row["experiment"], "sender": self.row["sender"], "metric": metric.word,
                "measured": plain_amount(metric, self.measured),
                "asked": plain_amount(metric, self.bound.value),
                "said": self.said}


def plain_amount(metric: Metric, value: Optional[Fraction]) -> Union[int, float, str, None]:
    """Returns an amount for JSON, in base units: an integer if possible; for an ending, its word."""
    if value is not None and metric.kind == "ending":
        return shown(value, metric.kind)
    return None if value is None else int(value) if value.denominator == 1 else float(value)


def bound_of(text: str, where: str) -> Bound:
    """Parses a bound. Raises `InputError` with its origin and the cause."""
    try:
        return _read(text.strip(), where)
    except ValueError as fault:
        raise InputError(f"{where}: {fault}") from None


def _read(text: str, where: str) -> Bound:
    who, colon, rest = text.partition(":")
    sign = _SIGN.search(rest)
    if not colon or sign is None or not who.strip():
        lacking = ("the colon after WHO" if not colon else "WHO before the colon" if sign
                   else "a sign such as < or >=")
        raise ValueError(f"{text!r} lacks {lacking}: a bound is {FORM}")
    if sign[0] not in SIGNS:
        raise ValueError(f"{sign[0]!r} is not a sign; use {', '.join(one for one in SIGNS if one != '=')}")
    metric = metric_of(rest[:sign.start()].strip())
    value, unit = amount_of(rest[sign.end():].strip(), metric.kind)
    if metric.kind == "ending" and sign[0] not in ("==", "=", "!="):
        raise ValueError(f"{text!r}: `ended` is compared by == or !=, as 'all: ended == end'")
    experiment, slash, of = who.rpartition("/")
    return Bound(where, text, experiment.strip() if slash else "*", " ".join(of.split()), metric, sign[0],
                 value, unit)


def bounds_in(path: Union[str, Path], text: str) -> list[Bound]:
    """Returns the bounds of a file, one per line. A comment starts with `#`, at the start of a line or after
    a space."""
    lines = ((number, _COMMENT.sub("", line)) for number, line in enumerate(text.split("\n"), 1))
    found = [replace(bound_of(line, f"{path}: line {number}"), file=str(path), line=number)
             for number, line in lines if line.strip()]
    if not found:
        raise InputError(f"{path}: it has no bound")
    return found


def percentiles_for(bounds: Sequence[Bound]) -> list[str]:
    """Returns the percentiles that the bounds need."""
    return percentiles_in(bound.metric for bound in bounds)


def judge(bounds: Sequence[Bound], rows: Sequence[Row], first: bool = False,
          allow: Sequence[str] = ()) -> Iterator[Judged]:
    """Judges the bounds in order, all or up to the first that fails. Raises `InputError` if one names no row,
    before any is judged. A bound that always holds fails, unless `vacuous` is allowed."""
    found = [(bound, bound.rows(rows)) for bound in bounds]
    losses = [row for bound, named in found if bound.metric.word in ("loss", "drops") for row in named]
    bounded = {(row["experiment"], row["sender"]) for row in losses}
    for bound, named in found:
        judged = _judge(bound, named, bounded)
        vacuous = _vacuous(bound, named, rows) if judged.holds and "vacuous" not in allow else ""
        if vacuous:
            judged = judged._replace(holds=False, said=f"vacuous: {vacuous} (--allow vacuous permits it)")
        yield judged
        if first and not judged.holds:
            return


def _judge(bound: Bound, rows: Sequence[Row], bounded: set[tuple[str, str]]) -> Judged:
    nearest: Optional[tuple[Fraction, Row]] = None
    for row in rows:
        measured = bound.metric.of(row)
        if measured is None:
            return Judged(bound, False, f"it is unknown for {_place(row)}: {bound.metric.why(row)}", row,
                          None)
        if not bound.holds(measured):
            return Judged(bound, False, f"measured {bound.show(measured)} of {_place(row)}", row, measured)
        if nearest is None or abs(measured - bound.value) < abs(nearest[0] - bound.value):
            nearest = measured, row
    assert nearest is not None
    of = f"; the nearest of {len(rows)} rows" if len(rows) > 1 else ""
    said = (f"measured {bound.show(nearest[0])} of "
            f"{_place(nearest[1])}{of}{_slack(bound, nearest[0])}{_easy(bound, rows, bounded)}")
    return Judged(bound, True, said, nearest[1], nearest[0])


def _slack(bound: Bound, measured: Fraction) -> str:
    """Returns the margin of a bound that holds, as a share of the bound."""
    if bound.sign in ("==", "=", "!=") or not bound.value:
        return ""
    share = float(100 * abs(measured - bound.value) / bound.value)
    return f"; holds by {share:.2g} %" if share < 10 else f"; holds by {share:.0f} %"


def _vacuous(bound: Bound, named: Sequence[Row], rows: Sequence[Row]) -> str:
    """Returns why a bound always holds, or ''."""
    least, most = {"share": (0, 1), "index": (0, 1), "ending": (None, None)}.get(bound.metric.kind, (0, None))
    if bound.metric.kind == "share" and bound.metric.word == "utilisation":
        most = None
    always = (bound.sign == ">=" and least is not None and bound.value <= least or bound.sign == ">"
              and bound.value < 0
              or most is not None
              and (bound.sign == "<=" and bound.value >= most or bound.sign == "<" and bound.value > most))
    if always:
        return f"any value of {bound.metric.word} satisfies it"
    if bound.metric.word == "jain" and any(sum(1 for row in rows if row["experiment"] == one["experiment"]
                                               and is_named(row["sender"], "flow *")) < 2
                                           for one in named):
        return "a single flow is always fair"
    denied = next((row for row in named if row["packets"] and not row["delivered"]
                   and row.get("denied") == row["packets"]), None)
    if denied is not None and bound.metric.word not in ("denied", "loss", "drops", "delivered", "packets"):
        return f"rules denied all {denied['packets']} packets of {_place(denied)}"
    asked = {row["experiment"] for row in rows if fnmatchcase(row["experiment"], bound.experiment)}
    missing = sorted(asked - {row["experiment"] for row in named})
    if missing:
        return f"experiment {missing[0]} has no row {bound.of!r}: name the experiments that have"
    return ""


def _easy(bound: Bound, rows: Sequence[Row], bounded: set[tuple[str, str]]) -> str:
    """Returns a hint for a bound on delay that drops make easier to satisfy, if no bound limits the drops."""
    if not bound.metric.is_delay() or bound.sign not in ("<", "<=") or bound.metric.word == "delay.least":
        return ""
    for row in rows:
        lost = sum(row.get(cause) or 0 for cause in DROP_CAUSES)
        if lost and (row["experiment"], row["sender"]) not in bounded:
            return (f"; {lost} of the {row['packets']} packets of {_place(row)} were dropped and have no "
                    f"delay: add a bound such as '{row['sender']}: loss < 1%'")
    return ""


def _place(row: Row) -> str:
    return f"{row['experiment']}/{row['sender']}"


CANT = "can't be told"


class Tolerance(NamedTuple):
    """How much a metric may differ: by a `share` of the first run's value, or by an amount in its base
    unit."""
    text: str
    is_pattern: bool
    metrics: list[Metric]
    share: Optional[Fraction]
    amount: Optional[Fraction]

    def allows(self, first: Fraction, second: Fraction) -> bool:
        if self.share is not None:
            return abs(second - first) <= self.share * abs(first)
        assert self.amount is not None
        return abs(second - first) <= self.amount


def tolerance_of(text: str) -> Tolerance:
    """Parses `delay.p95=5%`, `drops=2`, `delay.*=1ms` or `*=1%`. Raises `ValueError` with the cause."""
    word, sign, value = text.partition("=")
    if not sign:
        raise ValueError(f"{text!r} is not a tolerance such as delay.p95=5% or drops=2")
    found = [one for one in metrics() if fnmatchcase(one.word, word)] if "*" in word else [metric_of(word)]
    if not found:
        raise ValueError(f"no metric matches {word!r}; the metrics are {', '.join(WORDS)}")
    if value.endswith("%"):
        return Tolerance(text, "*" in word, found, amount_of(value, "share")[0], None)
    if len({one.kind for one in found}) > 1:
        raise ValueError(f"{text!r}: metrics with different units can share only a percentage, as 5%")
    return Tolerance(text, "*" in word, found, None, amount_of(value, found[0].kind)[0])


class Pair(NamedTuple):
    """A metric of a row in both runs, None where it is unknown.

    `judged` is '' if it is not judged, else `same`, `within` and a tolerance, `differs`, `beyond` and the
    tolerance, or `can't be told` and the reason."""
    experiment: str
    of: str
    metric: Metric
    first: Optional[Fraction]
    second: Optional[Fraction]
    judged: str

    def is_same(self) -> bool:
        return self.first == self.second

    def is_bad(self) -> bool:
        return self.judged.startswith(("differs", "beyond", CANT))

    def is_untold(self) -> bool:
        """Returns whether neither run has the metric, although it was named."""
        return self.judged.startswith(CANT)

    def ratio(self) -> Optional[float]:
        """Returns the second run's value divided by the first's."""
        return float(self.second / self.first) if self.first and self.second is not None else None

    def shown(self, exact: bool = True) -> list[str]:
        """Returns both values in one unit, and their ratio, with at most three decimals unless `exact`.
        Values that differ are shown exactly if three decimals would make them look equal, or like zero."""
        kind = self.metric.kind
        known = [abs(value) for value in (self.first, self.second) if value is not None]
        unit = fitting(max(known, default=Fraction(0)), kind)
        whole, short = ([shown(value, kind, unit, digits) if value is not None else "-"
                         for value in (self.first, self.second)]
                        for digits in (9, 3))
        if exact or (whole[0] != whole[1] and short[0] == short[1]):
            return [*whole, self._ratio_shown(exact)]
        values = [short_one if re.search("[1-9]", short_one) else one for one, short_one in zip(whole, short)]
        return [*values, self._ratio_shown(exact)]

    def _ratio_shown(self, exact: bool) -> str:
        ratio = self.ratio()
        if ratio is None:
            return "-"
        short = f"{ratio:.3f}"
        return f"{ratio:.9g}" if exact or (short in ("0.000", "1.000") and ratio != float(short)) else short


def pairs(name: str, first: Sequence[Row], second: Sequence[Row], asked: Sequence[Metric],
          tolerances: Sequence[Tolerance]) -> Iterator[Pair]:
    """Returns the metrics of all rows of an experiment in both runs, in the first run's order. A row that one
    run lacks has None.

    Without tolerances every metric must be the same. With tolerances, only the metrics that they name are
    judged, and a metric that is named without a pattern must be known in every row that can have it."""
    rows = {row["sender"]: row for row in first}
    others = {row["sender"]: row for row in second}
    for of in dict.fromkeys([*rows, *others]):
        for metric in asked:
            values = [metric.of(found[of]) if of in found else None for found in (rows, others)]
            if (values == [None, None]
                and any(metric in one.metrics and not one.is_pattern for one in tolerances)):
                known = rows.get(of) or others[of]
                if metric.applies(known):
                    yield Pair(name, of, metric, None, None, f"{CANT}: {metric.why(known)}")
            if values[0] is not None or values[1] is not None:
                yield Pair(name, of, metric, values[0], values[1],
                           _judged(metric, values[0], values[1], tolerances))


def _judged(metric: Metric, first: Optional[Fraction], second: Optional[Fraction],
            tolerances: Sequence[Tolerance]) -> str:
    own = [one for one in tolerances if metric in one.metrics]
    if tolerances and not own:
        return ""
    if first == second:
        return "same"
    if not own:
        return "differs"
    if first is None or second is None:
        return "differs: only one run has it"
    # The last matching tolerance applies, so `*=1%` can precede exceptions.
    word = "within" if own[-1].allows(first, second) else "beyond"
    return f"{word} {own[-1].text.partition('=')[2]}"
