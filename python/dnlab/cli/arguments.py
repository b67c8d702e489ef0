"""The arguments and the streams of the commands."""
import argparse
import os
import re
import sys
import textwrap
from contextlib import contextmanager
from fractions import Fraction
from pathlib import Path
from typing import TYPE_CHECKING, Any, Callable, Iterable, Iterator, NoReturn, TextIO, TypeVar, cast

from dnlab import __version__
from dnlab.analysis.quantities import TIMES
from dnlab.errors import InputError, ResourceError
from dnlab.programs import is_repository

if TYPE_CHECKING:
    from dnlab.analysis.metrics import Span

T = TypeVar("T")
# Characters that control a terminal: C0 and C1 except tab and line feed, and those that change the direction
# of text.
_STEERING = re.compile("[\x00-\x08\x0b-\x1f\x7f-\x9f\u200e\u200f\u2028-\u202e\u2066-\u2069]")


def escaped(text: str) -> str:
    r"""Returns a text in which each control character is replaced by Python's escape.

    >>> escaped("a\x1b[2Jb\n")
    'a\\x1b[2Jb\n'
    """
    return _STEERING.sub(lambda found: found[0].encode("unicode_escape").decode(), text)


class _Shown:
    """A text stream that escapes control characters; `direct` is the stream itself, for output that moves the
    cursor on purpose."""

    def __init__(self, direct: TextIO) -> None:
        self.direct = direct

    def write(self, text: str) -> int:
        self.direct.write(escaped(text))
        return len(text)

    def __getattr__(self, name: str) -> Any:
        return getattr(self.direct, name)


def _fill() -> None:
    """Opens those of 0, 1 and 2 that are closed, so that no file gets their numbers. Reading from 0 and
    writing to 1 or 2 then fail."""
    for number, mode in ((0, os.O_WRONLY), (1, os.O_RDONLY), (2, os.O_WRONLY)):
        try:
            os.fstat(number)
        except OSError:
            # os.open uses the lowest free number, which is this one.
            os.open(os.devnull, mode)


@contextmanager
def guarded() -> Iterator[None]:
    """Guards the streams of this process within the block."""
    before = sys.stdin, sys.stdout, sys.stderr
    _fill()
    sys.stdin = sys.stdin or open(0, encoding="utf-8", closefd=False)
    out = sys.stdout or open(1, "w", encoding="utf-8", closefd=False)
    sys.stdout = cast(TextIO, _Shown(out)) if out.isatty() else out
    sys.stderr = cast(TextIO, _Shown(sys.stderr or open(2, "w", encoding="utf-8", closefd=False)))
    try:
        yield
    finally:
        # Streams that were closed stay guarded, for Python's own flush at exit.
        sys.stdin, sys.stdout = before[0] or sys.stdin, before[1] or sys.stdout
        sys.stderr = before[2] or sys.stderr


class Parser(argparse.ArgumentParser):
    """A parser whose help shows the names of the installed commands (or the paths in a checkout of the
    repository), and whose errors name only required arguments. `offered` has the words that a shell completes
    after an option without `choices`."""

    def __init__(self, **how: Any) -> None:
        super().__init__(**how)
        self.offered: dict[str, Iterable[str]] = {}

    def format_help(self) -> str:
        return as_installed(super().format_help())

    def error(self, message: str) -> NoReturn:
        super().error(message.replace("required: REPORT, SCENARIO", "required: REPORT")
                      .replace("required: A, B, SCENARIO", "required: A, B"))


class _Complete(argparse.Action):
    """Prints what a shell can complete: the values of an option or, without one, all options, each with its
    help after a tab."""

    def __call__(self, parser: argparse.ArgumentParser, _: argparse.Namespace, value: Any,
                 option: object = None) -> NoReturn:
        assert isinstance(parser, Parser)
        named = parser._option_string_actions.get(value)
        if value:
            found = [*parser.offered.get(value, named and named.choices or ())]
        else:
            found = [f"{name}\t{parser._get_formatter()._expand_help(one)}" for one in parser._actions
                     for name in one.option_strings if name.startswith("--")
                     and one.help != argparse.SUPPRESS]
        print("\n".join(found))
        parser.exit()


def as_installed(text: str) -> str:
    """Returns a help text with the names of the installed commands, unless this is the repository."""
    return text if is_repository() else renamed(text)


def renamed(text: str) -> str:
    """Returns a help text with the names of installed commands.

    >>> renamed("usage: tools/plot [-h]\\n./dnlab alone < s.txt | tools/plot - s.txt")
    'usage: dnlab-plot [-h]\\ndnlab alone < s.txt | dnlab-plot - s.txt'
    """
    return re.sub(r"\btools/(?=[a-z]+\b)", "dnlab-", text).replace("./dnlab ", "dnlab ")


def parser_of(name: str, **filled: str) -> Parser:
    """Returns a parser whose help is the command's file in `help/`. There `[[NAME]]` stands for a text of
    `filled`."""
    text = (Path(__file__).parent / "help" / f"{name}.txt").read_text()
    about, _, more = text.rstrip("\n").partition("\n\n")
    more = re.sub(r"\[\[(\w+)\]\]", lambda found: filled[found[1]], more)
    prog = f"tools/{name}" if is_repository() else f"dnlab-{name}"
    parser = Parser(prog=prog, description=about, epilog=more,
                    formatter_class=argparse.RawDescriptionHelpFormatter)
    parser.add_argument("--version", action="version", version=f"dnlab-{name} {__version__}")
    # No abbreviation of another option begins so.
    parser.add_argument("--_complete", action=_Complete, metavar="OPTION", help=argparse.SUPPRESS)
    return parser


@contextmanager
def writing(name: str) -> Iterator[None]:
    """Raises `ResourceError` with the name of a file that can't be written within the block."""
    try:
        yield
    except OSError as fault:
        raise ResourceError(f"{name}: {fault.strerror}") from None


def listed(words: Iterable[str], between: str = ", ", indent: int = 10) -> str:
    """Returns words as lines of a help text, each line indented except the first, which follows other text.

    >>> listed(["flow 1", "flow 2", "flow 3"] * 3 + ["all"])
    'flow 1, flow 2, flow 3, flow 1, flow 2, flow 3, flow 1, flow 2, flow\\n          3, all'
    """
    room = " " * indent
    return textwrap.fill(between.join(words), 80, initial_indent=room, subsequent_indent=room).lstrip()


def add_texts(parser: argparse.ArgumentParser, is_optional: bool = False) -> None:
    """Adds the report, its scenarios and `--experiment`."""
    how = {"nargs": "?"} if is_optional else {}
    parser.add_argument("report", metavar="REPORT", help="a report, or - for standard input",
                        **how)  # type: ignore[arg-type]
    parser.add_argument("scenarios", metavar="SCENARIO", nargs="*",
                        help="its scenario, or - for standard input; several if the report has several")
    parser.add_argument("--experiment", action="append", default=[], metavar="NAME",
                        help="only this experiment; the others are not read (repeatable) [all]")


def add_names(parser: argparse.ArgumentParser) -> None:
    """Adds `--name`, which names sources of injected packets."""
    parser.add_argument("--name", action="append", default=[], dest="names", metavar="SOURCE=NAME",
                        help="a row named NAME for packets injected from an address, or address:port, as"
                        " 10.0.0.1:1000=mine (repeatable) [injected]")


def add_span(parser: argparse.ArgumentParser) -> None:
    """Adds `--from` and `--to`, the time range to measure."""
    parser.add_argument("--from", dest="begin", type=moment_of, default=0, metavar="TIME",
                        help="ignore what happened earlier, as 5s, to leave out the warm-up [0]")
    parser.add_argument("--to", dest="end", type=moment_of, metavar="TIME",
                        help="ignore what happened later [the end]")


def checked_span(parser: argparse.ArgumentParser, given: argparse.Namespace) -> "Span":
    """Returns the range of `--from` and `--to`; an empty one is a usage error."""
    # Imported here, because it needs numpy and not all commands do.
    from dnlab.analysis.metrics import span_of

    try:
        return span_of(given.begin, given.end)
    except InputError as fault:
        parser.error(str(fault))


def parse_files(parser: argparse.ArgumentParser, words: list[str]) -> argparse.Namespace:
    """Parses the arguments; options can be anywhere, and only one file can be standard input."""
    given = parser.parse_intermixed_args(words)
    if [given.report, *given.scenarios].count("-") > 1:
        parser.error("standard input can't be both the report and the scenario")
    return given


def checked(function: Callable[[str], T]) -> Callable[[str], T]:
    """Returns a converter whose `ValueError` argparse reports with its own text."""
    def read(text: str) -> T:
        try:
            return function(text)
        except ValueError as fault:
            raise argparse.ArgumentTypeError(str(fault)) from None
    return read


def words_in(text: str) -> list[str]:
    """Returns words that are separated by commas."""
    return text.split(",")


def add_of(parser: argparse.ArgumentParser, help: str) -> None:
    """Adds `--of`, patterns of rows."""
    parser.add_argument("--of", action="append", default=[], metavar="PATTERN", help=help)


def add_percentiles(parser: argparse.ArgumentParser) -> None:
    """Adds `--percentiles`."""
    parser.add_argument("--percentiles", type=percentiles_of, default=["50", "99"], metavar="P,P..",
                        help="percentiles of the one-way delay [50,99]")


def add_workers(parser: argparse.ArgumentParser, more: str = "all cores if the report is long") -> None:
    """Adds `--workers`."""
    parser.add_argument("--workers", type=count_of, metavar="N", help=f"number of processes [{more}]")


def time_of(text: str) -> int:
    """Returns a time with a unit, in ns.

    >>> time_of("100ms"), time_of("1.5us")
    (100000000, 1500)
    """
    found = re.fullmatch(r"([0-9]+(?:\.[0-9]+)?)(ns|us|ms|s)", text)
    time = Fraction(found[1]) * TIMES[found[2]] if found else Fraction(0)
    if time < 1 or time.denominator != 1:
        raise argparse.ArgumentTypeError(
            f"{text!r} is not a time in whole nanoseconds, such as 100ms, 20us or 1s")
    return int(time)


def moment_of(text: str) -> int:
    """Returns a time with a unit, in ns; 0 needs no unit.

    >>> moment_of("0"), moment_of("0s"), moment_of("1.5s")
    (0, 0, 1500000000)
    """
    return 0 if re.fullmatch(r"0(?:\.0+)?(?:ns|us|ms|s)?", text) else time_of(text)


def count_of(text: str) -> int:
    """Returns an integer from 1 to 999999."""
    if not re.fullmatch(r"[1-9][0-9]{0,5}", text):
        raise argparse.ArgumentTypeError(f"{text!r} is not a positive integer")
    return int(text)


def percentiles_of(text: str) -> list[str]:
    """Returns percentiles, separated by commas, each from 1 to 100."""
    found = text.split(",")
    for one in found:
        if not re.fullmatch(r"[0-9]{1,3}(?:\.[0-9]{1,6})?", one) or not 1 <= Fraction(one) <= 100:
            meant = f": write {float(one) * 100:g}" if re.fullmatch(r"0\.[0-9]{1,6}", one) else ""
            raise argparse.ArgumentTypeError(f"{one!r} is not a percentile from 1 to 100{meant}")
    return found


_INCHES = {"in": 1.0, "cm": 1 / 2.54, "mm": 1 / 25.4}
# matplotlib cannot draw pictures with more dots per side than this gives.
_MOST_INCHES = 400
# Equal to `dnlab.plot.style.LEGENDS`, which needs matplotlib.
LEGENDS = ("right", "inside", "none")


def size_of(text: str) -> tuple[float, float]:
    """Returns a width and a height, in inches.

    >>> size_of("6x4in"), [round(one, 2) for one in size_of("160x90mm")]
    ((6.0, 4.0), [6.3, 3.54])
    """
    found = re.fullmatch(r"([0-9]+(?:\.[0-9]+)?)x([0-9]+(?:\.[0-9]+)?)(in|cm|mm)", text)
    size = [float(one) * _INCHES[found[3]] for one in found.groups()[:2]] if found else [0, 0]
    if not all(1 <= one <= _MOST_INCHES for one in size):
        raise argparse.ArgumentTypeError(
            f"{text!r} is not a size from 1 to {_MOST_INCHES} inches: write WIDTHxHEIGHT with in, cm "
            "or mm, as 16x9cm")
    return size[0], size[1]


def label_of(text: str) -> tuple[str, str]:
    """Returns the parts of a `--label` value: a name, and the text to show for it.

    >>> label_of("rate=Link rate (Mbit/s)")
    ('rate', 'Link rate (Mbit/s)')
    """
    name, equals, label = text.partition("=")
    if not equals or not name or not label:
        raise argparse.ArgumentTypeError(
            f"{text!r}: expected NAME=TEXT, as 'rate=Link rate (Mbit/s)' or 'train 9=the call'")
    return name, label


def matching(pattern: str, what: str) -> Callable[[str], str]:
    """Returns a converter that accepts what matches a pattern, else says what was expected."""
    def read(text: str) -> str:
        if not re.fullmatch(pattern, text):
            raise argparse.ArgumentTypeError(f"{text!r}{what}")
        return text
    return read


picture = matching(r".*\.(svg|png|pdf)|svg|png|pdf", " must end in .svg, .png or .pdf")


def add_design(parser: argparse.ArgumentParser, named: str) -> None:
    """Adds the options for how the picture looks."""
    parser.add_argument("--title", metavar="TEXT", help="the title above the picture; '' for none")
    parser.add_argument("--label", action="append", default=[], type=label_of, metavar="NAME=TEXT",
                        help=f"the text shown for {named} (repeatable)")
    parser.add_argument("--size", type=size_of, metavar="WxH",
                        help="width and height with their unit, as 16x9cm or 6x4in")
    font = matching(r"[^,]+(,[0-9]+(\.[0-9]+)?)?",
                    ": expected a family, points or both, as 'DejaVu Serif', 12 or serif,12")
    parser.add_argument("--font", type=font, metavar="FONT",
                        help="a family, points or both, as 'DejaVu Serif', 12 or serif,12 [9 points]")
    parser.add_argument("--style", metavar="NAME",
                        help="a matplotlib style sheet, by name or file, as ggplot or grayscale")
    parser.add_argument("--legend", choices=LEGENDS, default="right",
                        help="where the legend is: to the right of the axes, inside them where it hides "
                             "least, or nowhere [right]")


def design_of(given: argparse.Namespace) -> Any:
    """Returns the design that the options choose. Raises `InputError` if a style or font does not exist."""
    from dnlab.plot.style import Design

    made = Design(given.title, dict(given.label), given.size, given.font or "", given.style, given.legend)
    made.rc()
    return made
