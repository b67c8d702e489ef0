"""Checks a report against bounds such as 'train 9: delay.p95 < 50ms'."""
from __future__ import annotations

import argparse
import json
import os
import re
import sys
from pathlib import Path
from typing import Iterator, NamedTuple, Optional, Sequence
from xml.etree import ElementTree

from dnlab.analysis.bounds import FORM, Bound, Judged, bound_of, bounds_in, judge, percentiles_for
from dnlab.analysis.metrics import WORDS, Span
from dnlab.analysis.names import names_of, with_names
from dnlab.analysis.quantities import UNITS, named
from dnlab.analysis.reports import Inputs, Report, bytes_of, plans_of
from dnlab.cli.arguments import (Parser, add_names, add_span, add_texts, add_workers, checked, checked_span,
                                 escaped, listed, parse_files, parser_of)
from dnlab.errors import (DIFFERS, FAILING, MACHINE, Failing, InputError, ProgramError, ResourceError,
                          allowed_of, failing, reading)
from dnlab.io.files import whole_file

# XML 1.0 allows no other control characters, not even as references.
_NOT_IN_XML = re.compile("[^\t\n\r -\ud7ff\ue000-\ufffd\U00010000-\U0010ffff]")


class _Case(NamedTuple):
    """A bound, or a run that fails by itself. `failed` is the reason, empty if it holds."""
    group: str
    name: str
    failed: str
    file: Optional[str] = None
    line: Optional[int] = None


def _cases(judged: Sequence[Judged], failed: Sequence[Failing]) -> Iterator[_Case]:
    for one in judged:
        bound = one.bound
        yield _Case(bound.file or "bounds", bound.text, "" if one.holds else one.said, bound.file, bound.line)
    for run in failed:
        yield _Case(f"experiment {run.experiment}", run.mark, run.said)


def junit(judged: Sequence[Judged], failed: Sequence[Failing]) -> bytes:
    """Returns the verdict as JUnit XML: a test suite with a test case for each bound and for each run that
    fails by itself."""
    cases = list(_cases(judged, failed))
    failures = sum(1 for case in cases if case.failed)
    suite = ElementTree.Element("testsuite", name="dnlab-expect", tests=str(len(cases)),
                                failures=str(failures), errors="0", skipped="0")
    for case in cases:
        found = ElementTree.SubElement(suite, "testcase", classname=_xml(case.group), name=_xml(case.name))
        for name, value in (("file", case.file), ("line", case.line)):
            if value is not None:
                found.set(name, _xml(str(value)))
        if case.failed:
            ElementTree.SubElement(found, "failure",
                                   message=_xml(case.failed)).text = _xml(f"{case.name}: {case.failed}")
    top = ElementTree.Element("testsuites")
    top.append(suite)
    ElementTree.indent(top)
    text: bytes = ElementTree.tostring(top, encoding="utf-8", xml_declaration=True)
    return text + b"\n"


def _xml(text: str) -> str:
    return _NOT_IN_XML.sub("\N{REPLACEMENT CHARACTER}", text)


def github_annotations(judged: Sequence[Judged], failed: Sequence[Failing]) -> Iterator[str]:
    """Returns a GitHub Actions workflow command for each failure, with its file and line if known."""
    for case in _cases(judged, failed):
        if case.failed:
            place = [f"{name}={_quoted(value, '%,:')}"
                     for name, value in (("file", case.file), ("line", case.line)) if value is not None]
            text = _quoted(f"{case.name}: {case.failed}", "%")
            yield f"::error {','.join([*place, 'title=dnlab-expect'])}::{text}"


def _quoted(value: object, characters: str) -> str:
    """Returns a text with these characters, and ends of lines, as %XX."""
    return re.sub(f"[{characters}\r\n]", lambda found: f"%{ord(found[0]):02X}", str(value))


def words(given: Sequence[str]) -> argparse.Namespace:
    units = (named(kind) for kind in UNITS if kind not in ("count", "index", "ending"))
    parser = parser_of("expect", form=FORM, words=listed(WORDS), units=listed(units, "; "))
    is_run = any(word == "--run" or word.startswith("--run=") for word in given)
    add_texts(parser, is_run)
    parser.add_argument("--run", metavar="SCENARIO",
                        help="run this scenario and judge its report, instead of REPORT")
    add_names(parser)
    parser.add_argument("--bounds", action="append", default=[], metavar="FILE",
                        help="a file of bounds (repeatable); bounds can also be arguments, each in quotes")
    parser.add_argument("--first", action="store_true", help="stop at the first bound that fails")
    parser.add_argument("--all", action="store_true", help="judge all bounds (the default)")
    parser.add_argument("--allow", action="append", default=[], type=checked(allowed_of), metavar="MARK,..",
                        help=f"don't fail for this: {', '.join(FAILING)}")
    parser.offered["--allow"] = FAILING
    _add_forms(parser)
    add_span(parser)
    add_workers(parser)
    pairs = list(zip(["", *given], given))
    said = [word for before, word in pairs if is_bound(word, before)]
    found = parse_files(parser, [word for before, word in pairs if not is_bound(word, before)])
    found.said = said
    found.allow = [word for words in found.allow for word in words]
    checked_span(parser, found)
    wrong = ((found.run == "-", "argument --run: a file is required, since it is read twice"),
             (is_run and found.report is not None, "--run replaces REPORT and SCENARIO: leave them out"),
             (found.json and found.github, "--json and --github can't be combined"),
             (found.all and found.first, "--all and --first can't be combined"),
             (not said and not found.bounds, f"no bound is given; a bound is {FORM}"),
             ([found.report, *found.scenarios, *found.bounds].count("-") > 1,
              "standard input can be only one of the files"))
    for is_wrong, why in wrong:
        if is_wrong:
            parser.error(why)
    return found


def _add_forms(parser: Parser) -> None:
    parser.add_argument("-q", "--quiet", action="store_true", help="print only what fails")
    parser.add_argument("--junit", metavar="FILE", help="also write the verdict as JUnit's XML")
    parser.add_argument("--github", action="store_true",
                        help="also print annotations for GitHub Actions, with file and line")
    parser.add_argument("--color", choices=("auto", "always", "never"), default="auto",
                        help="colour the verdicts [on a terminal, unless NO_COLOR is set]")
    parser.add_argument("--json", action="store_true",
                        help="print a JSON object, with values in ns, bytes, bit/s, or as fractions")


def is_bound(word: str, before: str = "") -> bool:
    """Returns whether an argument is meant as a bound, right or wrong, and not as a file or as the value of
    `--name`.

    >>> is_bound("all: drops < 3"), is_bound("all: drops 3")
    (True, True)
    >>> is_bound("runs/report.txt"), is_bound("--bounds=a")
    (False, False)
    >>> is_bound("10.0.0.1:1000=mine", "--name")
    False
    """
    is_name = len(before) > 2 and "--name".startswith(before)
    return not is_name and not word.startswith("-") and re.search(r"[<>=]|: ", word) is not None


def bounds_of(given: argparse.Namespace) -> list[Bound]:
    """Returns the bounds of the command line, then those of the files."""
    found = [bound_of(text, f"bound {number}") for number, text in enumerate(given.said, 1)]
    for name in given.bounds:
        found += bounds_in(name, bytes_of(name).decode("utf-8", "replace"))
    return found


def show(judged: Sequence[Judged], failed: Sequence[Failing], given: argparse.Namespace) -> None:
    """Prints the verdict, and writes it in the other requested formats."""
    if given.junit is not None:
        with whole_file(Path(given.junit)) as file:
            file.write(junit(judged, failed))
    if given.json:
        holds = not failed and all(one.holds for one in judged)
        print(json.dumps({"holds": holds, "bounds": [one.record() for one in judged],
                          "failing": [one._asdict() for one in failed]}, indent=1))
        return
    is_coloured = (given.color == "always" or given.color == "auto" and sys.stdout.isatty()
                   and not os.environ.get("NO_COLOR"))
    lines = [(one.line(), one.holds) for one in judged] + [(run.line(), False) for run in failed]
    for line, holds in lines:
        if not (given.quiet and holds):
            show_line(line, holds, is_coloured)
    if given.github:
        for line in github_annotations(judged, failed):
            print(line)


def show_line(line: str, holds: bool, is_coloured: bool) -> None:
    """Prints a line, with its first word in green or red if colours are on."""
    if not is_coloured:
        print(line)
        return
    verdict, space, rest = line.partition(" ")
    # The stream escapes control characters on a terminal, but not what is written to `direct`.
    print(f"\x1b[{32 if holds else 31}m{verdict}\x1b[0m{space}{escaped(rest)}",
          file=getattr(sys.stdout, "direct", sys.stdout))


def run_scenario(given: argparse.Namespace) -> Report:
    """Runs the scenario of `--run` and returns its report, which becomes the report to judge and lives as
    long as the result."""
    # Imported here, because only --run needs a program.
    from dnlab.sweeps.runs import run

    try:
        with reading(given.run):
            report = run(Path(given.run))
    except ProgramError as failed:
        raise (ResourceError if failed.status == MACHINE
               else InputError)(f"{given.run}: {failed.said}") from None
    given.report, given.scenarios = report.given.report, [given.run]
    return report


def main(words_given: Sequence[str]) -> int:
    given = words(words_given)
    # Imported here, so that --help works without numpy.
    from dnlab.analysis.summary import summed, tell

    bounds = bounds_of(given)
    kept = run_scenario(given) if given.run is not None else None
    plans = with_names(plans_of(given.scenarios), names_of(given.names), given.experiment)
    found = list(summed(Inputs(given.report, tuple(given.scenarios)), plans, given.experiment,
                        percentiles_for(bounds), workers=given.workers, span=Span(given.begin, given.end)))
    if not found:
        raise InputError(f"{given.report}: it has no experiment, so no bound can hold")
    judged = list(judge(bounds, [row for one in found for row in one.rows], given.first, given.allow))
    del kept
    notes = [(one.name, note) for one in found for note in one.notes]
    failed = failing(notes, given.allow)
    show(judged, failed, given)
    tell("expect", [(name, note) for name, note in notes if not any(note.text == one.said for one in failed)],
         len(found))
    return DIFFERS if failed or not all(one.holds for one in judged) else 0
