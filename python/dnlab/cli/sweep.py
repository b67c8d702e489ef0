"""Runs a template with each setting and each seed, and prints means with confidence intervals."""
from __future__ import annotations

import argparse
import importlib.util
import io
import sys
from typing import TYPE_CHECKING, Any, BinaryIO, Sequence

from dnlab.analysis.metrics import Span
from dnlab.analysis.statistics import USUAL, CustomStat, StatRequest
from dnlab.cli.arguments import writing
from dnlab.cli.summary import plain, print_csv, print_json, sweep_table
from dnlab.cli.sweep_words import is_of_programs, look_of, pair_in, words
from dnlab.errors import ProgramError, ResourceError
from dnlab.io.files import whole_file
from dnlab.processes import subprocesses
from dnlab.programs import say
from dnlab.sweeps.grid import as_written, hints_of

if TYPE_CHECKING:
    import pandas as pd

    from dnlab.sweeps.sweeping import Sweep


def check_packages(given: argparse.Namespace) -> None:
    """Raises `ResourceError` if a package that a requested file needs is missing."""
    is_parquet = (given.parquet is not None
                  or any(str(name).endswith(".parquet") for name in (given.each, given.long)))
    if is_parquet and importlib.util.find_spec("pyarrow") is None:
        raise ResourceError(
            "pyarrow is missing, so Parquet can't be written (pip install pyarrow); --csv and --json "
            "work without it")
    if given.plot is not None and importlib.util.find_spec("matplotlib") is None:
        raise ResourceError("matplotlib is missing (Debian: apt-get install python3-matplotlib)")


def records_of(frame: pd.DataFrame) -> list[dict[str, Any]]:
    """Returns the rows of a frame, with None for unknown values."""
    import pandas as pd

    return [{name: None if value is pd.NA or value != value else value for name, value in row.items()}
            for row in frame.astype(object).to_dict("records")]


def write(frame: pd.DataFrame, name: str, form: str, settings: Sequence[str] = ()) -> None:
    """Writes a table to a file, completely or not at all; - is standard output. In CSV, settings are written
    as they were given."""
    if form == "csv":
        frame = frame.assign(**{one: [as_written(value) for value in frame[one]]
                                for one in settings}).astype(dict.fromkeys(settings, object))
    if name == "-":
        (print_json(records_of(frame), sys.stdout) if form == "json"
         else print_csv(records_of(frame), list(frame.columns), sys.stdout))
        return
    with writing(name), whole_file(name) as file:
        write_form(frame, file, form)


def write_form(frame: pd.DataFrame, file: BinaryIO, form: str) -> None:
    """Writes a table as CSV, JSON or Parquet."""
    if form == "parquet":
        frame.to_parquet(file, index=False)
        return
    text = io.TextIOWrapper(file, encoding="utf-8", newline="")
    if form == "json":
        print_json(records_of(frame), text)
    else:
        print_csv(records_of(frame), list(frame.columns), text)
    text.flush()
    text.detach()


def write_all(made: Sweep, table: pd.DataFrame, given: argparse.Namespace) -> None:
    """Writes the requested outputs: the table first, then the files, and the picture last."""
    if "-" not in (given.csv, given.json):
        sys.stdout.write(sweep_table(records_of(table), made.settings, given.exact))
        if given.pairs is not None:
            sys.stdout.write("\n" + differences_table(made, given))
        sys.stdout.flush()
    for form in "csv", "json", "parquet":
        if getattr(given, form) is not None:
            write(table, getattr(given, form), form, made.settings)
    if given.each is not None:
        write(made.rows(), given.each, given.each.rsplit(".", 1)[-1], made.settings)
    if given.long is not None:
        write(made.long(), given.long, given.long.rsplit(".", 1)[-1], made.settings)
    if given.plot is not None:
        from dnlab.plot import curves, style

        look = look_of(given, made.setting_labels())
        figure = curves.figure_of(table, made.settings, look,
                                  made.long() if look.kind in ("ecdf", "box") else None)
        with writing(given.plot):
            style.save(figure, given.plot)


def differences_table(made: Sweep, given: argparse.Namespace) -> str:
    """Returns how the values of a setting differ, as a table with a line for each value and each combination
    of the other settings."""
    along, base = pair_in(given.pairs)
    rows = records_of(made.compare(along, base, given.ci, given.interval))
    others = [name for name in made.settings if name != along]
    return sweep_table([{**row, along: f"{plain(row[along])} - {plain(row['base'])}"} for row in rows],
                       [*others, along],
                       given.exact)


def print_seeds_needed(made: Sweep, table: pd.DataFrame, within: float) -> None:
    """Prints how many seeds the requested intervals need, and which statistic needs the most."""
    seeds = len({case.seed for case in made.cases})
    known = table[table["needed"].notna()]
    untold = len(table) - len(known)
    short = known[known["needed"] > seeds]
    if len(short):
        worst = short.loc[short["needed"].astype(float).idxmax()]
        of = ", ".join([str(worst["sender"]), *(f"{name}={worst[name]}" for name in made.settings)])
        say("sweep",
            f"--within {within:.3g}: {len(short)} of {len(table)} means need more than the {seeds} seeds of "
            f"this sweep; the most, {worst['needed']}, {worst['stat']} of {of}")
    else:
        say("sweep",
            f"--within {within:.3g}: {seeds} seeds are enough for {len(known)} of {len(table)} means")
    if untold:
        say("sweep",
            f"--within {within:.3g}: the number of seeds is unknown for {untold} of {len(table)} means: they "
            "have a value under fewer than two seeds, are 0, or need more than 10^6 seeds")


def print_notes(made: Sweep, table: pd.DataFrame) -> None:
    """Prints the notes, warnings and counts of the sweep."""
    from dnlab.analysis.summary import tell

    rows = records_of(table)
    tell("sweep", made.notes(), len(made.cases))
    seeds = len({case.seed for case in made.cases})
    fewer = [row for row in rows if row["n"] < seeds and not (made.unseeded and row["n"] == 1)]
    if fewer:
        first, others = fewer[0], len(fewer) - 1
        of = ", ".join(f"{name}={plain(first[name])}" for name in made.settings)
        more = f"; {others} more means lack values" if others > 1 else "; one more mean lacks values" * others
        say("sweep",
            f"{first['stat']} of {first['sender']} has no value in {seeds - first['n']} of {seeds} "
            f"experiments with {of}{more}")
    for said in filter(None, [made.changeless(), *hints_of(rows, made.settings)]):
        say("sweep", said)
    if made.kept.damaged:
        say("sweep",
            f"{made.kept.damaged} results in {made.kept.path} were damaged; these experiments were run again")
    kept = f"{len(made.cases) - made.ran} were kept" + (f" in {made.kept.path}" if made.kept.path else "")
    say("sweep", f"{len(made.cases)} experiments: {made.ran} were run, {kept}")


def sweep_of(given: argparse.Namespace) -> tuple[Sweep, str | None]:
    """Returns the sweep of the command line, and the file that caches its results, if there is one."""
    from dnlab.sweeps.sweeping import Sweep

    asks = [StatRequest(ask.of, ask.stats or USUAL) for ask in given.asks]
    span = Span(given.begin, given.end)
    if is_of_programs(given):
        from dnlab.sweeps.backends import ProgramSweep

        return ProgramSweep(given.run or given.template, dict(given.set), given.seeds, asks,
                            given.run is not None, given.workers, given.allow, span), None
    source: Any = given.template
    kept = given.kept if given.kept is not None else f"{source}.kept"
    if source == "-":
        source, kept = sys.stdin.read() + "\n", given.kept
    return Sweep(source, dict(given.set), given.seeds, asks, None if given.dry_run else kept, given.workers,
                 given.on, given.program,
                 anew=given.anew, allow=given.allow, parts=given.parts, span=span), kept


def check_options(given: argparse.Namespace, made: Sweep) -> None:
    """Raises `InputError` for a picture or pairs that do not fit the settings, before anything runs."""
    import pandas as pd

    from dnlab.sweeps.results import compared

    if given.plot is not None:
        from dnlab.plot import style

        style.check_panels(pd.DataFrame([case.settings for case in made.cases]), made.settings,
                     [(ask.of, stat) for ask in made.asks for stat in ask.stats], look_of(given))
    if given.pairs is not None:
        along, base = pair_in(given.pairs)
        compared(pd.DataFrame([{**case.settings, "sender": "", "seed": case.seed, "warnings": ""}
                               for case in made.cases]),
                 made.settings, [], along, base)


def sweep(given: argparse.Namespace) -> int:
    subprocesses.set_message(lambda: "no experiment was run")
    made, kept = sweep_of(given)
    if given.dry_run:
        sys.stdout.write(made.text(made.cases[0]))
        say("sweep", f"{len(made.cases)} experiments; this is the scenario of {made.cases[0].told()}")
        return 0
    check_options(given, made)
    subprocesses.set_message(lambda: progress_text(made, kept))
    subprocesses.add_chore(made.kept.close)
    try:
        made.run()
    except ProgramError as failed:
        raise ProgramError(3, f"{failed.said}; {progress_text(made, kept)}") from None
    table = made.table(given.ci, given.interval, given.within)
    write_all(made, table, given)
    print_notes(made, table)
    if given.within is not None:
        print_seeds_needed(made, table, given.within)
    return 0


def progress_text(made: Sweep, kept: str | None) -> str:
    """Returns how many experiments are done, and where their results are."""
    done = f"{len(made.found)} of {len(made.cases)} experiments"
    if any(isinstance(stat, CustomStat) for stat in made.stats()):
        return (f"{done} were done; results of your own functions are not kept, so the same "
                "command starts again")
    return (f"{done} are kept in {kept}; the same command continues" if kept is not None
            else f"{done} were done; none is kept")


def main(words_given: Sequence[str]) -> int:
    given = words(words_given)
    check_packages(given)
    return sweep(given)
