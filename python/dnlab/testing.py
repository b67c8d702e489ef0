"""A pytest fixture, `expect`, that checks a report against bounds in the form of `dnlab-expect`. In
`conftest.py`:

    pytest_plugins = ["dnlab.testing"]

and in a test:

    def test_the_call(expect):
        report = dnlab.run(Path("scenario.txt"))
        expect(report, "train 9: delay.p95 < 50ms", "codel/flow *: drops.budget == 0")
        expect(report, Path("bounds.txt"))
        expect(report, "all: drops == 0", allow="refused")

Refused commands, and an experiment whose steps are spent, also fail, unless `allow` names them.
"""
from pathlib import Path
from typing import Callable, Mapping, Optional, Sequence, Union

import pytest

from dnlab.analysis.bounds import bound_of, bounds_in, judge, percentiles_for
from dnlab.analysis.names import with_names
from dnlab.analysis.reports import Report
from dnlab.analysis.metrics import span_of
from dnlab.analysis.summary import summed
from dnlab.errors import InputError, allowed_of, failing


def expecting(report: Report, *bounds: Union[str, Path], allow: Union[str, Sequence[str]] = (),
              begin: int = 0, end: Optional[int] = None, names: Optional[Mapping[str, str]] = None) -> None:
    """Fails unless all bounds hold, no command was refused and no experiment used up its steps.

    bounds  each a text, or a file of them (docs/reference/tools.md)
    allow   what is not a failure, such as `refused`
    begin, end, names  as in `Report.summary`

    Raises `InputError` for an invalid bound, and if there is nothing to judge."""
    allowed = allowed_of(allow if isinstance(allow, str) else ",".join(allow)) if allow else []
    found = []
    for number, one in enumerate(bounds, 1):
        found += (bounds_in(one, one.read_text()) if isinstance(one, Path)
                  else [bound_of(one, f"bound {number}")])
    if not found:
        raise InputError("no bound was given, so nothing is judged")
    runs = list(summed(report.given, with_names(report.plans, names or {}),
                       percentiles=percentiles_for(found),
                       span=span_of(begin, end)))
    if not runs:
        raise InputError(f"{report.given.report}: it has no experiment, so no bound can hold")
    failed = failing([(one.name, note) for one in runs for note in one.notes], allowed)
    judged = list(judge(found, [row for one in runs for row in one.rows], allow=allowed))
    if failed or not all(one.holds for one in judged):
        pytest.fail("\n".join([*(one.line() for one in failed), *(one.line() for one in judged)]),
                    pytrace=False)


@pytest.fixture
def expect() -> Callable[..., None]:
    """Returns `expecting`, as a pytest fixture."""
    return expecting
