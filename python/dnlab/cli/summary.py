"""Prints a table of a report, by flow, train, pipe and experiment."""
import argparse
import csv
import json
import math
import re
import sys
from typing import Optional, Sequence, TextIO

from dnlab.analysis.metrics import PERCENTILES, Row, Span, columns_of, times_of
from dnlab.analysis.quantities import FOR_PEOPLE, Percentile
from dnlab.cli.arguments import (add_names, add_of, add_percentiles, add_span, add_texts, add_workers,
                                 checked_span, parse_files, parser_of, time_of, words_in)
from dnlab.errors import Note
from dnlab.io.scenario_parts import DROP_CAUSES
from dnlab.programs import say

_COUNTS = ("packets", "delivered", "in_flight", "bytes")
# Columns with times in ns, also with the suffixes that `grouped` adds.
_TIME = re.compile(r"^(p[0-9.]+|min|max|mean|jitter|time|first|last|begin|end|fct|ended_at)( mean| ci95)?$")


def milliseconds(value: Optional[int], exact: bool = True) -> str:
    """Returns nanoseconds as milliseconds, with all digits or rounded to three decimals (halves up).

    >>> milliseconds(1234567), milliseconds(1234567, exact=False), milliseconds(999500, exact=False)
    ('1.234567', '1.235', '1.000')
    """
    if value is None:
        return "-"
    if exact:
        return f"{value // 10**6}.{value % 10**6:06}"
    micro = (value + 500) // 1000
    return f"{micro // 1000}.{micro % 1000:03}"


def plain(value: object, exact: bool = True) -> str:
    """Returns a value as shown in a table; fractions have three decimals unless `exact`.

    >>> plain(None), plain(0.123456789), plain(7), plain(0.123456789, exact=False)
    ('-', '0.123457', '7', '0.123')
    """
    if isinstance(value, float):
        return f"{value:.6g}" if exact else f"{value:.3f}"
    return "-" if value is None else str(value)


def loss_of(row: Row) -> str:
    """Returns the drops by cause as text, `-` if they are unknown, as for pipes of an untraced report."""
    if row["full"] is None:
        return "-"
    return " ".join(f"{cause}:{row[cause]}" for cause in DROP_CAUSES if row[cause]) or "none"


def ended_of(row: Row, exact: bool) -> str:
    """Returns how the experiment ended, with both times if it was cut short."""
    if row["ended"] == "end":
        return "end"
    of = "" if row["end"] is None else f" of {milliseconds(row['end'], exact)}"
    return f"spent {milliseconds(row['ended_at'], exact)}{of} ms"


def lines_of(cells: Sequence[Sequence[str]], left: Sequence[int]) -> str:
    """Returns cells as lines of text, the first the heading. Columns in `left` are left-aligned, the others
    right-aligned."""
    widths = [max(len(line[place]) for line in cells) for place in range(len(cells[0]))]
    lines = []
    for line in cells:
        shown = [cell.ljust(width) if place in left else cell.rjust(width)
                 for place, (cell, width) in enumerate(zip(line, widths))]
        lines.append("  ".join(shown).rstrip())
    return "\n".join(lines) + "\n"


def table(rows: Sequence[Row], percentiles: Sequence[Percentile] = PERCENTILES, exact: bool = False) -> str:
    """Returns the rows of a summary as a table. Times are in ms; fractions have three decimals unless
    `exact`; all drops share one column."""
    times = times_of(percentiles)
    names = ["experiment", "sender", *_COUNTS, "time", "rate", "drops", *times, "goodput", "retransmissions",
             "fct", "jain", "ended", "warnings"]
    cells = [[heading(name) for name in names]]
    for row in rows:
        cells.append([row["experiment"], row["sender"], *(plain(row[name]) for name in _COUNTS),
                      milliseconds(row["time"], exact), plain(row["rate"]), loss_of(row),
                      *(milliseconds(row[name], exact) for name in times), plain(row["goodput"]),
                      plain(row["retransmissions"]), milliseconds(row["fct"], exact),
                      plain(row["jain"], exact), ended_of(row, exact), row["warnings"] or "-"])
    return lines_of(cells,
                    [names.index(name) for name in ("experiment", "sender", "drops", "ended", "warnings")])


def heading(name: str) -> str:
    """Returns a column's heading in a printed table, with the unit if that differs from the column's own.

    >>> heading("p50"), heading("p50 mean"), heading("p50 n"), heading("goodput")
    ('p50 ms', 'p50 mean ms', 'p50 n', 'goodput')
    """
    return f"{name} ms" if _TIME.match(name) else name


def _shown(name: str, value: object, exact: bool) -> str:
    """Returns a value of a column as printed."""
    if value is None or not _TIME.match(name):
        return plain(value, exact)
    return milliseconds(value, exact) if isinstance(value, int) else plain(float(str(value)) / 10**6, exact)


def bare_table(rows: Sequence[Row], exact: bool = False) -> str:
    """Returns any rows with their own column names; times, and means of times, are in ms and rounded as in
    `table`."""
    names = list(rows[0])
    cells = [[heading(name) for name in names],
             *([_shown(name, row[name], exact) for name in names] for row in rows)]
    texts = [place for place, name in enumerate(names) if all(isinstance(row[name], str) for row in rows)]
    return lines_of(cells, texts)


def estimated(row: Row, exact: bool = False) -> str:
    """Returns a mean with its confidence interval, in units for people: two significant digits of the
    interval's half-width, or nine decimals if `exact`. Bootstrap intervals are shown by their ends, since
    they are not symmetric about the mean.

    >>> row = {"unit": "ns", "mean": 31270001.0, "low": 31190001.0, "high": 31350001.0, "method": "t"}
    >>> estimated(row), estimated(row, exact=True)
    ('31.270 ± 0.080', '31.270001000 ± 0.080000000')
    """
    if row["mean"] is None:
        return "-"
    _, scale = FOR_PEOPLE.get(row["unit"], ("", 1))
    mean = row["mean"] / scale
    if row["low"] is None:
        return f"{mean:.9f}" if exact else f"{mean:.6g}"
    low, high = row["low"] / scale, row["high"] / scale
    half = (high - low) / 2
    if half <= 0:
        return f"{mean:.9f} ± 0" if exact else f"{mean:.6g} ± 0"
    digits = 9 if exact else min(9, max(0, 1 - math.floor(math.log10(half))))
    if row["method"] == "t":
        return f"{mean:.{digits}f} ± {half:.{digits}f}"
    return f"{mean:.{digits}f} [{low:.{digits}f}, {high:.{digits}f}]"


def sweep_table(rows: Sequence[Row], settings: Sequence[str], exact: bool = False) -> str:
    """Returns the rows of a sweep as a table: one line per setting, one column per sender and statistic,
    times in ms. Warnings are at the end of their line."""
    columns = {(row["sender"], row["stat"]): FOR_PEOPLE.get(row["unit"], (row["unit"], 1))[0] for row in rows}
    lines: dict[tuple[str, ...], dict[tuple[str, str], str]] = {}
    marks: dict[tuple[str, ...], dict[str, None]] = {}
    for row in rows:
        key = tuple(plain(row[name]) for name in settings)
        lines.setdefault(key, {})[row["sender"], row["stat"]] = estimated(row, exact)
        marks.setdefault(key, {}).update(dict.fromkeys((row["warnings"] or "").split()))
    names = [*settings, *(" ".join(filter(None, (*column, unit))) for column, unit in columns.items())]
    cells = [names, *([*key, *(own.get(column, "-") for column in columns)] for key, own in lines.items())]
    left = list(range(len(settings)))
    if any(marks.values()):
        left.append(len(names))
        cells = [line + [words]
                 for line, words in zip(cells,
                                        ("warnings", *(" ".join(own) or "-" for own in marks.values())))]
    return lines_of(cells, left)


def words(given: Sequence[str]) -> argparse.Namespace:
    parser = parser_of("summary")
    add_texts(parser)
    add_names(parser)
    add_of(parser, "only these rows, as 'flow 1', 'train *', 'pipe 1.0' (repeatable) [all]")
    add_percentiles(parser)
    kind = parser.add_mutually_exclusive_group()
    kind.add_argument("--every", type=time_of, metavar="TIME",
                      help="print what arrived in each interval of this length, as 100ms, 20us or 1s, "
                           "instead of the summary")
    kind.add_argument("--losses", action="store_true",
                      help="print drops by sender, cause and pipe, instead of the summary")
    kind.add_argument("--by", type=words_in, default=[], metavar="COLUMN,..",
                      help="group rows by `sender` and these columns (varied, params, experiment, seed ..): "
                           "mean and half-width of the 95 %% interval (ci95)")
    parser.add_argument("--columns", type=words_in, default=[], metavar="COLUMN,..",
                        help="only these columns, after experiment and sender; with --by: the columns whose "
                             "means are printed [the one-way delays and goodput]")
    add_span(parser)
    parser.add_argument("--exact", action="store_true",
                        help="print all digits of times and fractions [three decimals]")
    add_workers(parser)
    form = parser.add_mutually_exclusive_group()
    form.add_argument("--csv", action="store_true", help="print CSV, with a heading")
    form.add_argument("--json", action="store_true", help="print a JSON list of objects")
    found = parse_files(parser, list(given))
    known = columns_of(found.percentiles)
    if checked_span(parser, found) != Span() and (found.every or found.losses):
        parser.error("--from and --to go with the summary; --every has every interval in a row of its own")
    if found.columns and (found.every or found.losses):
        parser.error("--columns goes with the rows of the summary, not with --every or --losses")
    for name in [*found.by, *found.columns]:
        if name not in known:
            parser.error(f"there is no column {name}; the columns are {', '.join(known)}")
    return found


def print_csv(rows: Sequence[Row], names: Sequence[str], out: TextIO) -> None:
    writer = csv.DictWriter(out, names, lineterminator="\n")
    writer.writeheader()
    writer.writerows(rows)


def print_json(rows: Sequence[Row], out: TextIO) -> None:
    """Prints rows as a JSON list, one object per line."""
    out.write("[" + ",".join("\n " + json.dumps(row) for row in rows) + "\n]\n")


def main(words_given: Sequence[str]) -> int:
    given = words(words_given)
    # Imported here, so that --help works without numpy, and loads nothing that reads.
    from dnlab.analysis.names import names_of, with_names
    from dnlab.analysis.reports import Inputs, plans_of
    from dnlab.analysis.summary import grouped, summed, tell

    span = Span(given.begin, given.end)
    kind = "windows" if given.every else "losses" if given.losses else "summary"
    rows: list[Row] = []
    notes: list[tuple[str, Note]] = []
    total = 0
    plans = with_names(plans_of(given.scenarios), names_of(given.names), given.experiment)
    for one in summed(Inputs(given.report, tuple(given.scenarios)), plans, given.experiment,
                      given.percentiles, given.of, kind, given.every or 0, given.workers, span):
        rows += one.rows
        notes += [(one.name, note) for note in one.notes]
        total += 1
    if given.by:
        rows = grouped(rows, given.by, given.columns or [*times_of(given.percentiles), "goodput"])
    elif given.columns:
        rows = [{name: row[name] for name in ("experiment", "sender", *given.columns)} for row in rows]
    is_chosen = bool(given.by or given.columns)
    names = (columns_of(given.percentiles, span) if kind == "summary" and not is_chosen else list(rows[0])
             if rows else [])
    if given.csv:
        print_csv(rows, names, sys.stdout)
    elif given.json:
        print_json(rows, sys.stdout)
    elif kind == "summary" and not is_chosen:
        sys.stdout.write(table(rows, given.percentiles, given.exact))
    elif rows:
        sys.stdout.write(bare_table(rows, given.exact))
    tell("summary", notes, total)
    if not total:
        say("summary",
            f"{given.report}: it is empty, and has no experiment: was the scenario empty, or "
            "all in comments?")
    return 0
