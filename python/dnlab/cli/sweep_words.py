"""The arguments of `dnlab-sweep`."""
import argparse
import os
from typing import Any, Iterator, Mapping, Optional, Sequence

from dnlab.analysis.quantities import KINDS
from dnlab.errors import STOPPING
from dnlab.analysis.statistics import STATS, USUAL, StatRequest, stats_of
from dnlab.cli.arguments import (Parser, add_design, add_span, add_workers, checked, checked_span, count_of,
                                 design_of, listed, parser_of, picture, words_in)
from dnlab.sweeps.grid import DASK, seeds_of, setting_of, value_of


class Asked(argparse.Action):
    """Collects --of and --stat in order: each --stat applies to the --of before it."""

    def __call__(self, parser: argparse.ArgumentParser, given: argparse.Namespace, value: Any,
                 option: Optional[str] = None) -> None:
        if option == "--of":
            given.asks = [*given.asks, StatRequest(value, ())]
        elif not given.asks:
            parser.error(f"--stat {','.join(value)}: put the --of that it applies to before it")
        else:
            *before, last = given.asks
            given.asks = [*before, StatRequest(last.of, last.stats + value)]


def _between(text: str, most: float, what: str) -> float:
    """Returns a number between 0 and `most`."""
    try:
        number = float(text)
    except ValueError:
        number = 0
    if not 0 < number < most:
        raise ValueError(what)
    return number


def level_of(text: str) -> float:
    level = _between(text, 100, f"{text!r} is not a level between 0 and 100, as 95")
    return int(level) if level.is_integer() else level


def share_of(text: str) -> float:
    """Returns a percentage as a fraction.

    >>> share_of("5%"), share_of("0.5")
    (0.05, 0.005)
    """
    return _between(text.removesuffix("%"), 100,
                    f"{text!r} is not a percentage between 0% and 100%, as 5%") / 100


# Equal to `dnlab.plot.style.KINDS`, which needs matplotlib.
PICTURES = ("means", "tradeoff", "ecdf", "box")


def add_look(parser: argparse.ArgumentParser) -> None:
    """Adds the options for the picture and its layout."""
    parser.add_argument("--plot", type=picture, metavar="FILE",
                        help="the picture to write, .svg, .png or .pdf")
    parser.add_argument("--kind", choices=PICTURES, default="means",
                        help="what it shows: means with their intervals over a setting, one statistic "
                             "against another, or the distribution of the values of the seeds (ECDF, "
                             "box plot) [means]")
    parser.add_argument("--along", metavar="NAME",
                        help="the setting on the horizontal axis [the first with several values]")
    parser.add_argument("--rows", metavar="NAME",
                        help="a row of panels for each value of this setting [one row for each statistic]")
    parser.add_argument("--columns", metavar="NAME", help="a column of panels for each value of this setting")
    parser.add_argument("--log", type=words_in, default=[], metavar="x,y", help="logarithmic axes")
    add_design(parser, "a setting, a value of it (queue:codel=CoDel), a statistic or a sender")


def look_of(given: argparse.Namespace, known: Mapping[str, str] = {}) -> Any:
    """Returns the layout of the picture. `known` has labels for settings; --label overrides them."""
    from dnlab.plot.style import Look

    made = design_of(given)
    return Look(made.title, {**known, **made.labels}, made.size, made.font, made.style, made.legend,
                given.along, given.rows, given.columns, given.log, given.kind)


def parser_of_words() -> Parser:
    parser = parser_of("sweep", stats=listed(STATS, indent=9), usual=",".join(USUAL))
    parser.add_argument("template", metavar="TEMPLATE", nargs="?",
                        help="the template's file, or - for standard input; FILE.yaml is a hosts file "
                             "(see tools/hosts)")
    parser.add_argument("--run", metavar="COMMAND",
                        help="instead of TEMPLATE: a command line with {{ settings }} that leaves "
                             "transcript.txt and report.txt in its current folder")
    parser.add_argument("--set", action="append", default=[], type=checked(setting_of),
                        metavar="NAME=VALUE,..",
                        help="a setting and its values (repeatable; all combinations are run)")
    parser.add_argument("--seeds", type=checked(seeds_of), default=[1], metavar="A-B,C",
                        help="the seeds to run each setting with [1]")
    parser.add_argument("--of", action=Asked, dest="asks", default=[], metavar="NAME",
                        help="the sender or pipe to measure (repeatable)")
    parser.add_argument("--stat", action=Asked, dest="asks", type=checked(stats_of), metavar="STAT,..",
                        help="the statistics of the --of before it")
    parser.offered["--stat"] = STATS
    add_span(parser)
    _add_tables(parser)
    add_look(parser)
    parser.add_argument("--dry-run", action="store_true",
                        help="print the scenario of the first experiment, and run nothing")
    parser.add_argument("--kept", metavar="FILE", help="the file that caches results [TEMPLATE.kept]")
    parser.add_argument("--anew", action="store_true", help="run all experiments again, whatever is cached")
    add_workers(parser, "all cores")
    _add_others(parser)
    parser.add_argument("--allow", action="append", choices=STOPPING, default=[],
                        help="continue if commands were refused, or steps were spent (repeatable)")
    return parser


def _add_tables(parser: Parser) -> None:
    parser.add_argument("--ci", type=checked(level_of), default=95, metavar="LEVEL",
                        help="confidence level of the intervals, in percent [95]")
    parser.add_argument("--interval", choices=KINDS, default="t",
                        help="Student's t, or the bootstrap for values that are far from normal [t]")
    parser.add_argument("--exact", action="store_true",
                        help="print means and intervals with nine decimals [two digits of the "
                             "interval's half-width]")
    forms = ("csv", ", or - for standard output"), ("json", ", or - too"), ("parquet", " (it needs pyarrow)")
    for form, more in forms:
        parser.add_argument(f"--{form}", metavar="FILE",
                            help=f"the table, with one row per setting, sender and statistic{more}")
    parser.add_argument("--each", metavar="FILE",
                        help="one row per experiment and sender, as .csv, .json or .parquet")
    parser.add_argument("--long", metavar="FILE",
                        help="one row per experiment, sender and statistic, in the same formats")
    parser.add_argument("--pairs", metavar="NAME[=VALUE]",
                        help="compare the values of this setting with VALUE [the first], seed by seed, and "
                             "print the differences with their intervals; --csv and the others "
                             "have the means")
    parser.add_argument("--within", type=checked(share_of), metavar="PERCENT",
                        help="estimate how many seeds you need for an interval of at most +-PERCENT of "
                             "the mean, as 5%%")


def _add_others(parser: Parser) -> None:
    parser.add_argument("--on", metavar="HOSTS",
                        help="run on other machines, as 4/alpha,beta (see tools/spread --ssh), as an array "
                             "of `slurm`, or with `dask ADDRESS`")
    parser.add_argument("--program", metavar="PATH", help="path of dnlab on the other machines")
    parser.add_argument("--parts", type=count_of, metavar="N",
                        help="with --on: number of parts [parts of about a minute, with ssh 10 s]")


def joined(given: Sequence[str]) -> list[str]:
    """Returns the arguments with `--on dask ADDRESS` joined to one value, because an option has one.

    >>> joined(["--on", "dask", "tcp://a:8786", "x"])
    ['--on', 'dask:tcp://a:8786', 'x']
    """
    found = list(given)
    for place in range(len(found) - 2):
        if found[place:place + 2] == ["--on", "dask"]:
            found[place + 1:place + 3] = [DASK + found[place + 2]]
            break
    return found


def is_of_programs(found: argparse.Namespace) -> bool:
    """Returns whether programs are run, instead of scenarios."""
    return found.run is not None or str(found.template).endswith((".yaml", ".yml"))


def is_designed(given: argparse.Namespace) -> bool:
    """Returns whether an option changes how the picture looks."""
    return (bool(given.label or given.size or given.font or given.style) or given.title is not None
            or given.legend != "right")


def words(given: Sequence[str]) -> argparse.Namespace:
    parser = parser_of_words()
    found = parser.parse_args(joined(given))
    names = [name for name, _ in found.set]
    is_drawn = bool(found.along or found.rows or found.columns or found.log or found.kind != "means"
                    or is_designed(found))
    wrong = (
        (len(set(names)) < len(names),
         "--set: a name is given twice; put all its values into one --set, separated by commas"),
        (found.run is None and found.template is None, "give TEMPLATE or --run COMMAND"),
        (found.run is not None and found.template is not None,
         "--run COMMAND replaces TEMPLATE: leave one out"),
        (is_of_programs(found) and bool(found.on or found.kept or found.anew),
         "--on, --kept and --anew don't go with programs: they run on this machine, and their results "
         "are not cached"),
        (bool(found.program or found.parts) and not found.on,
         "--program and --parts go with --on (on this machine, DNLAB names the program)"),
        (found.on in ("dask", DASK), "--on dask: the scheduler's address must follow, as tcp://alpha:8786"),
        ((found.csv, found.json).count("-") > 1, "standard output can't be both --csv and --json"),
        *(one for option in ("csv", "json", "parquet", "each", "long", "plot", "kept")
          for one in _wrong_file(option, getattr(found, option))),
        (is_drawn and not found.plot,
         "--kind, --along, --rows, --columns, --log, --title, --label, --size, --font, --style and "
         "--legend go with --plot"))
    checked_span(parser, found)
    for is_wrong, why in wrong:
        if is_wrong:
            parser.error(why)
    return found


def _wrong_file(option: str, name: Optional[str]) -> Iterator[tuple[bool, str]]:
    """Yields what can be wrong with a file that an option names."""
    if name is not None and name != "-":
        yield not os.path.isdir(os.path.dirname(name) or "."), f"--{option} {name}: its folder does not exist"
        yield os.path.exists(name) and not os.path.isfile(name), f"--{option} {name}: not a regular file"
    if name is not None and option in ("each", "long"):
        yield (name.rsplit(".", 1)[-1] not in ("csv", "json", "parquet"),
               f"--{option} {name}: the name must end in .csv, .json or .parquet")


def pair_in(text: str) -> tuple[str, Any]:
    """Returns the parts of `--pairs`: a setting, and the value that the others are compared with (None: the
    first).

    >>> pair_in("queue=10"), pair_in("disc")
    (('queue', 10), ('disc', None))
    """
    name, equals, value = text.partition("=")
    return name, value_of(value) if equals else None
