"""Compares two reports: where they diverge, and their metrics side by side."""
import argparse
import json
from dataclasses import dataclass, field
from typing import TYPE_CHECKING, Any, Iterator, NamedTuple, Optional, Sequence

from dnlab.analysis.bounds import Pair, pairs, plain_amount, tolerance_of
from dnlab.analysis.metrics import Row, is_named, metrics, percentiles_in, stored_rows
from dnlab.analysis.reports import lacking, pieces_of, plans_of
from dnlab.cli.summary import lines_of
from dnlab.cli.arguments import add_of, add_percentiles, checked, count_of, parser_of
from dnlab.errors import DIFFERS, InputError
from dnlab.io.files import check_beside
from dnlab.io.pieces import Piece
from dnlab.io.scenario_parts import Plan
from dnlab.programs import say

if TYPE_CHECKING:
    from dnlab.analysis.divergence import Parting
    from dnlab.analysis.view import View

class Part(NamedTuple):
    """The comparison of two experiments, without their columns.

    `rows` is the number of selected rows in both, `divergence` where they diverge (time in ns, and the first
    line of each), None if they do not, and `said` the same as lines of text."""
    name: str
    rows: int
    pairs: list[Pair]
    divergence: Optional[dict[str, Any]]
    said: list[str]


@dataclass
class Run:
    """A report with its scenario, and its experiments by name. For a stored summary, `stored` has the rows
    and `pieces` is empty."""
    report: str
    scenario: list[str]
    plans: Optional[dict[str, Plan]] = None
    pieces: dict[str, Piece] = field(default_factory=dict)
    stored: Optional[dict[str, list[Row]]] = None

    def open(self) -> None:
        self.stored = stored_rows(self.report)
        if self.stored is None:
            self.plans = plans_of(self.scenario)
            self.pieces = {piece.name: piece for piece in pieces_of(self.report, plans=self.plans)}
            check_beside(self.report, self.plans, ", ".join(self.scenario))

    def names(self) -> list[str]:
        return [*self.pieces] if self.stored is None else [*self.stored]

    def view(self, name: str) -> "Optional[View]":
        """Returns an experiment joined with its plan, or None for a stored summary."""
        if self.stored is not None:
            return None
        from dnlab.analysis.view import view_of

        return view_of(self.pieces[name], self.plans, self.report, ", ".join(self.scenario))

    def rows(self, name: str, view: "Optional[View]", percentiles: Sequence[str]) -> list[Row]:
        if view is not None:
            from dnlab.analysis.tables import Tables

            return Tables(view, percentiles).rows()
        assert self.stored is not None
        return self.stored[name]

    def has(self, column: str) -> bool:
        """Returns whether all rows have this column."""
        return (self.stored is None or not column
                or all(column in row for rows in self.stored.values() for row in rows))


def words(given: Sequence[str]) -> argparse.Namespace:
    parser = parser_of("compare")
    parser.add_argument("a", metavar="A", help="a report, or - for standard input")
    parser.add_argument("b", metavar="B", help="another report, or the same one")
    parser.add_argument("scenarios", metavar="SCENARIO", nargs="*",
                        help="the scenario of both, or A's and B's")
    parser.add_argument("--experiment", action="append", default=[], metavar="NAME[=OTHER]",
                        help="only this experiment of A, and OTHER of B (repeatable) [all]")
    add_of(parser, "only these rows, as 'flow 1', 'train *', 'pipe 1.0' (repeatable) [all]")
    parser.add_argument("--tolerance", action="append", default=[], type=checked(tolerance_of),
                        metavar="METRIC=VALUE",
                        help="how much a metric may differ (repeatable)")
    add_percentiles(parser)
    parser.add_argument("--lines", type=count_of, default=3, metavar="N",
                        help="number of lines to show from each report where they diverge [3]")
    parser.add_argument("--all", action="store_true", help="also show metrics that are the same")
    parser.add_argument("--exact", action="store_true",
                        help="print all digits of values and ratios [three decimals]")
    parser.add_argument("--json", action="store_true",
                        help="print a JSON object, with values in ns, bytes and bit/s")
    found = parser.parse_intermixed_args(list(given))
    if len(found.scenarios) > 2:
        parser.error("at most two scenarios: A's and B's")
    if [found.a, found.b, *found.scenarios].count("-") > 1:
        parser.error("only one of A, B and SCENARIO can be - (standard input)")
    return found


def names_of(wanted: Sequence[str], first: Run, second: Run) -> list[tuple[str, str]]:
    """Returns the pairs of experiments to compare. Raises `InputError` if one does not exist."""
    asked = [(name.partition("=")[0], name.partition("=")[2] or name) for name in wanted]
    for names in asked:
        for name, run in zip(names, (first, second)):
            if name not in run.names():
                raise InputError(
                    f"{run.report}: it has no experiment {name}; its experiments are "
                    f"{', '.join(run.names()[:40])}")
    return asked or [(name, name) for name in first.names() if name in second.names()]


def differing_commands(first: Optional[Plan], second: Optional[Plan], lines: int) -> list[str]:
    """Returns the settings and commands that only one of two plans has, as lines of text."""
    if first is None or second is None:
        return []
    said = [f"{what} {one} | {other}" for what, one, other in
            (("seed", first.seed, second.seed), ("budget", first.budget, second.budget),
             ("steps", first.steps, second.steps)) if one != other]
    texts = [[(command.moment, command.text) for command in plan.commands] for plan in (first, second)]
    for name, plan, others in (("A", first, set(texts[1])), ("B", second, set(texts[0]))):
        own = [command for command in plan.commands if (command.moment, command.text) not in others]
        said += [f"only in {name}: line {command.line}: @{command.moment} {command.text}"
                 for command in own[:lines]]
        said += [f"only in {name}: {len(own) - lines} more commands"] if len(own) > lines else []
    return said


def parts_of(given: argparse.Namespace, first: Run, second: Run) -> Iterator[Part]:
    """Compares each pair of experiments."""
    from dnlab.analysis.divergence import parting

    named = [metric for one in given.tolerance for metric in one.metrics]
    percentiles = list(dict.fromkeys([*given.percentiles, *percentiles_in(named)]))
    for name, other in names_of(given.experiment, first, second):
        one, two = first.view(name), second.view(other)
        rows = [[row for row in run.rows(own, view, percentiles)
                 if not given.of or any(is_named(row["sender"], pattern) for pattern in given.of)]
                for run, own, view in ((first, name, one), (second, other, two))]
        shown = name if name == other else f"{name}={other}"
        asked = [metric
                 for metric in metrics(percentiles) if first.has(metric.column) and second.has(metric.column)]
        made = list(pairs(shown, rows[0], rows[1], asked, given.tolerance))
        if one is None or two is None:
            yield Part(shown, len(rows[0]) + len(rows[1]), made, None,
                       [f"{shown}: only rows are compared, since a summary has no lines"])
            continue
        found = parting(one, two)
        yield Part(shown, len(rows[0]) + len(rows[1]), made, divergence_record(shown, found),
                   divergence_lines(shown, found, differing_commands(one.plan, two.plan, given.lines),
                                    given.lines))


def divergence_record(name: str, found: "Optional[Parting]") -> Optional[dict[str, Any]]:
    """Returns where two experiments diverge, for JSON."""
    if found is None:
        return None
    lines = {run: one.line(row) if row is not None else None
             for run, one, row in zip("ab", found.told, found.rows)}
    return {"experiment": name, "moment": found.moment, **lines}


def divergence_lines(name: str, found: "Optional[Parting]", differs: Sequence[str], lines: int) -> list[str]:
    """Returns where two experiments diverge, and how their scenarios differ, as lines of text."""
    if found is None:
        return [f"{name}: the same, line by line"]
    said = [f"{name}: they diverge at {found.moment} ns", *(f"  {text}" for text in differs)]
    equal = found.equal
    said.append("  last equal: "
                + (f"A {found.told[0].line(equal[0])} | B {found.told[1].line(equal[1])}" if equal
                                    else "none, they diverge at the first line"))
    for run, one, rows in zip("AB", found.told, found.following):
        said += [f"  {run}: {one.line(int(row))}" for row in rows[:lines]] or [f"  {run}: no more lines"]
    cells = [["  packets", "A before", "A after", "B before", "B after"],
             *([f"  at {pipe}", *counts] for pipe, counts in found.queues())]
    return said + (lines_of(cells, (0,)).rstrip("\n").split("\n") if len(cells) > 1 else [])


def table(found: Sequence[Pair], everything: bool, exact: bool) -> str:
    """Returns the metrics that differ, or all of them, as a table, with the number of metrics that are the
    same."""
    kept = [pair for pair in found if everything or not pair.is_same() or pair.is_bad()
            or pair.judged.startswith("within")]
    cells = [["experiment", "sender", "metric", "A", "B", "B/A", "judged"]]
    cells += [[pair.experiment, pair.of, pair.metric.word, *pair.shown(exact), pair.judged or "-"]
              for pair in kept]
    same = sum(pair.is_same() and not pair.is_bad() for pair in found)
    return (lines_of(cells, (0, 1, 2, 6)) if kept else "") + f"{same} of {len(found)} metrics are the same\n"


def as_json(parts: Sequence[Part], missing: Sequence[str]) -> str:
    return json.dumps({
        "metrics": [{"experiment": pair.experiment, "sender": pair.of, "metric": pair.metric.word,
                     "a": plain_amount(pair.metric, pair.first), "b": plain_amount(pair.metric, pair.second),
                     "ratio": pair.ratio(), "judged": pair.judged} for part in parts for pair in part.pairs],
        "partings": [part.divergence for part in parts if part.divergence],
        "missing": list(missing)}, indent=1)


def missing_of(given: argparse.Namespace, first: Run, second: Run) -> list[str]:
    """Returns the experiments that only one of the reports has. Raises `InputError` if both lack one of their
    scenario."""
    for one in (first, second):
        if not one.names():
            raise InputError(f"{one.report}: it has no experiment, so there is nothing to compare")
    if given.experiment:
        return []
    known = {*first.names(), *second.names()}
    for one in (first, second):
        lacking(one.report, ", ".join(one.scenario), [name for name in one.plans or {} if name not in known])
    return [f"{one.report} has no experiment {name}" for one, other in ((first, second), (second, first))
            for name in other.names() if name not in one.names()]


def check_judged(given: argparse.Namespace, runs: Sequence[Run], found: Sequence[Pair]) -> None:
    """Raises `InputError` for a tolerance that judges no metric."""
    for one in given.tolerance:
        own = [pair for pair in found if pair.metric in one.metrics]
        if not any(not pair.is_untold() for pair in own):
            metric = one.metrics[0]
            without = [run.report for run in runs if not run.has(metric.column)]
            why = (f"{without[0]} was made without it (dnlab-summary --json --percentiles 50,95,99)"
                   if without
                   else own[0].judged.partition(": ")[2] if own else metric.only())
            raise InputError(f"--tolerance {one.text}: no row has this metric, so nothing is judged: {why}")


def print_unjudged(given: argparse.Namespace, found: Sequence[Pair]) -> None:
    """Reports on standard error the metrics of a pattern that no row has without the scenario."""
    told = {pair.metric for pair in found}
    names = dict.fromkeys(metric.word for one in given.tolerance if one.is_pattern for metric in one.metrics
                          if metric not in told and metric.kind in ("time", "rate", "size"))
    if names and not given.scenarios:
        say("compare",
            f"without --trace and the scenario no row has {', '.join(names)}, so these are not judged")


def main(words_given: Sequence[str]) -> int:
    given = words(words_given)
    first, second = Run(given.a, given.scenarios[:1]), Run(given.b, given.scenarios[-1:])
    first.open()
    second.open()
    missing = missing_of(given, first, second)
    parts = list(parts_of(given, first, second))
    found = [pair for part in parts for pair in part.pairs]
    if parts and not any(part.rows for part in parts):
        raise InputError(f"no row matches {' or '.join(given.of)}; dnlab-summary shows the rows")
    if parts:
        check_judged(given, (first, second), found)
    print_unjudged(given, found)
    if given.json:
        print(as_json(parts, missing))
    else:
        for part in parts:
            print("\n".join(part.said))
        print("\n".join(missing) + "\n" if missing else "", table(found, given.all, given.exact),
              sep="", end="")
    has_parted = not given.tolerance and any(part.divergence for part in parts)
    return DIFFERS if missing or has_parted or any(pair.is_bad() for pair in found) else 0
