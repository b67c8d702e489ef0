"""Reports for scripts: `read` and `run` return a `Report`, whose experiments are read on demand, by several
processes if there are many."""
import os
import sys
import warnings
from collections.abc import Mapping
from functools import cached_property
from pathlib import Path
from typing import (TYPE_CHECKING, Any, BinaryIO, Callable, Iterable, Iterator, NamedTuple, Optional,
                    Sequence, TypeVar, Union)

from dnlab.analysis.metrics import PERCENTILES, columns_of, span_of
from dnlab.analysis.names import columns_in, varied, with_names
from dnlab.analysis.quantities import Percentile
from dnlab.errors import InputError, reading
from dnlab.io import scenario
from dnlab.io.files import Origin, check_beside, unpacked
from dnlab.io.pieces import Piece, pieces
from dnlab.io.scenario_parts import Plan
from dnlab.processes.progress import Progress

if TYPE_CHECKING:
    import pandas as pd

    from dnlab.analysis.results import Experiment
    from dnlab.analysis.view import View
    from dnlab.processes.process_pool import ProcessPool

T = TypeVar("T")
# For reports below this many bytes a second process costs more than it saves.
_WORTH = 20_000_000


class Inputs(NamedTuple):
    """A report and its scenarios, as named on a command line; `-` is standard input."""
    report: str
    scenarios: tuple[str, ...] = ()

    def scenario(self) -> str:
        """Returns the scenarios' names, for a message."""
        return ", ".join(self.scenarios)


def cores() -> int:
    """Returns how many cores this process may use."""
    return len(os.sched_getaffinity(0)) if hasattr(os, "sched_getaffinity") else os.cpu_count() or 1


def bytes_of(name: str) -> bytes:
    """Returns the bytes of a file, or of standard input (`-`), decompressed if gzip. Raises `InputError` if
    they can't be read."""
    with reading(name):
        return unpacked(sys.stdin.buffer.read() if name == "-" else Path(name).read_bytes())


def plans_of(names: Sequence[str]) -> Optional[dict[str, Plan]]:
    """Returns the experiments of some scenarios, by name, or None if no scenario is named."""
    plans: dict[str, Plan] = {}
    for name in names:
        with reading(name):
            found = scenario.read(bytes_of(name))
        for plan in found.values():
            if plan.name in plans:
                raise InputError(f"{name}: line {plan.line}: a second experiment {plan.name}")
            plans[plan.name] = plan
    return plans if names else None


def pieces_of(report: str, wanted: Sequence[str] = (),
              plans: Optional[Mapping[str, Plan]] = None) -> Iterator[Piece]:
    """Yields the experiments of a report's file, or of standard input; those of rows have the names of the
    plans. Errors have the file's name."""
    source: Union[str, BinaryIO] = sys.stdin.buffer if report == "-" else report
    missing = set(wanted)
    with reading(report):
        for piece in pieces(source, wanted, None if plans is None else list(plans)):
            missing.discard(piece.name)
            yield piece
    for name in wanted:
        if name in missing:
            raise InputError(f"{report}: it has no experiment {name}")


def lacking(report: str, scenario: str, names: Sequence[str]) -> None:
    """Raises `InputError` for a report that lacks experiments of its scenario."""
    if names:
        more = f" and {len(names) - 1} more" if len(names) > 1 else ""
        raise InputError(
            f"{report}: it has no experiment {names[0]}{more}, which {scenario} has: was it cut short? "
            "(--experiment reads those that it has)")


class TooMany(InputError):
    """A report has too many experiments: `count` of them, where `most` are allowed."""

    def __init__(self, count: str, most: int) -> None:
        super().__init__(f"{count} experiments are too many ({most} at most)")
        self.count = count
        self.most = most


def _task(function: "Callable[[View], T]", piece: Piece, plans: Optional[dict[str, Plan]],
          given: Inputs) -> T:
    from dnlab.analysis.view import view_of

    return function(view_of(piece, plans, given.report, given.scenario()))


def map_experiments(given: Inputs, function: "Callable[[View], T]", plans: Optional[dict[str, Plan]],
                    wanted: Sequence[str] = (),
         workers: Optional[int] = None, tool: str = "dnlab", most: Optional[int] = None) -> Iterator[T]:
    """Yields the results of a function for each experiment, in the report's order, using `workers` processes
    (by default all cores if the report is long).

    Another process must be able to import the function by name. A file with more than `most` experiments is
    refused before one is read."""
    found: Iterable[Piece] = pieces_of(given.report, wanted, plans)
    total = None
    if given.report != "-":
        found = list(found)
        total = len(found)
        if workers is None:
            workers = cores() if sum(one.size() for one in found) >= _WORTH else 1
        workers = max(1, min(workers, total))
        if most is not None and total > most:
            raise TooMany(str(total), most)
    with Progress(tool, total) as progress:
        if (workers or 1) == 1:
            for piece in found:
                yield _task(function, piece, plans, given)
                progress.step()
        else:
            for made in _by_processes(given, function, plans, found, workers or 1):
                yield made
                progress.step()


def _by_processes(given: Inputs, function: "Callable[[View], T]", plans: Optional[dict[str, Plan]],
                  found: Iterable[Piece], workers: int) -> Iterator[T]:
    """Yields results in order; early ones wait. Only a few jobs are submitted ahead, so that few texts are in
    memory."""
    from dnlab.processes.process_pool import ProcessPool

    done: dict[int, T] = {}
    head = 0
    with ProcessPool[int](workers) as pool:
        for number, piece in enumerate(found):
            own = None if plans is None else {piece.name: plans[piece.name]} if piece.name in plans else {}
            pool.submit(number, _task, function, piece, own, given)
            while number - head > workers + 1:
                yield from _in_order(pool, done, head)
                head += 1
        while len(pool) or head in done:
            yield from _in_order(pool, done, head)
            head += 1


def _in_order(pool: "ProcessPool[int]", done: dict[int, T], head: int) -> Iterator[T]:
    """Returns the result of the first job that has not been returned yet."""
    while head not in done:
        outcome = pool.next_result()
        done[outcome.token] = outcome.get()
    yield done.pop(head)


Names = Union[str, Path, Sequence[Union[str, Path]]]


def _made_anew(report: bytes, scenarios: Sequence[bytes], given_names: Mapping[str, str]) -> "Report":
    """Restores a report that was pickled by another process, with files of its own."""
    from dnlab.processes.subprocesses import TempDir

    room = TempDir()
    files = [room.path / "report", *(room.path / f"scenario{place}.txt" for place in range(len(scenarios)))]
    for file, data in zip(files, [report, *scenarios]):
        file.write_bytes(data)
    return Report(files[0], files[1:], room, names=given_names)


class Report(Mapping[str, "Experiment"]):
    """A mapping from names to experiments, which are read and checked on demand. One at a time stays in
    memory."""

    def __init__(self, report: Union[str, Path], scenario: Names = (), keep: Any = None,
                 origin: Optional[Origin] = None, names: Optional[Mapping[str, str]] = None,
                 plans: Optional[dict[str, Plan]] = None) -> None:
        files = [scenario] if isinstance(scenario, (str, Path)) else scenario
        self.given = Inputs(str(report), tuple(str(name) for name in files))
        # Objects that must live as long as the report: the file of a run without a name.
        self._keep = keep
        # What made it: the checksums of scenario and program, its version, the command; None if unknown.
        self.origin: Optional[Origin] = origin
        # Names for senders of injected packets, by source.
        self._names = dict(names or {})
        self.plans: Optional[dict[str, Plan]] = with_names(plans or plans_of(self.given.scenarios),
                                                           self._names)
        self._last: "Optional[Experiment]" = None
        # The rows of a run are opened for the first table, which loads NumPy.
        if plans is None:
            self._check()
        if origin is None:
            self.origin = check_beside(self.given.report, self.plans, self.given.scenario())
        if not len(self):
            warnings.warn(
                f"{self.given.report}: it is empty, and has no experiment: was the scenario empty, or "
                "all in comments?", stacklevel=3)

    @cached_property
    def _pieces(self) -> dict[str, Piece]:
        return {piece.name: piece for piece in pieces_of(self.given.report, plans=self.plans)}

    def _check(self) -> None:
        """Raises `InputError` if the report and its scenario have different experiments."""
        for name in self._pieces:
            if self.plans is not None and name not in self.plans:
                raise InputError(f"{self.given.scenario()}: it has no experiment {name}")
        lacking(self.given.report, self.given.scenario(),
                [name for name in self.plans or {} if name not in self._pieces])

    def __reduce__(self) -> "tuple[Any, tuple[bytes, list[bytes], dict[str, str]]]":
        """Makes pickling to another process or machine include the bytes of its files."""
        return _made_anew, (bytes_of(self.given.report), [bytes_of(name) for name in self.given.scenarios],
                            self._names)

    @cached_property
    def _varied(self) -> dict[str, str]:
        return varied(self.plans) if self.plans else {}

    def __getitem__(self, name: str) -> "Experiment":
        # Imported here, because tables need numpy and pandas, but running a scenario does not.
        from dnlab.analysis.results import Experiment
        from dnlab.analysis.view import view_of

        if self._last is None or self._last.name != name:
            if name not in self._pieces:
                raise KeyError(
                    f"{name}: there is no such experiment, only {', '.join(self._pieces) or 'none'}")
            piece = self._pieces[name]
            self._last = None
            view = view_of(piece, self.plans, self.given.report, self.given.scenario())
            self._last = Experiment(view, self._varied.get(name))
        return self._last

    def _order(self) -> list[str]:
        return list(self._pieces) if self.plans is None or "_pieces" in self.__dict__ else list(self.plans)

    def __iter__(self) -> Iterator[str]:
        return iter(self._order())

    def __len__(self) -> int:
        return len(self._order())

    def __repr__(self) -> str:
        return f"Report({self.given.report!r}, {len(self)} experiments)"

    def params(self, changed: bool = False) -> "pd.DataFrame":
        """Returns a row per experiment, with a column per option of its pipes, flows and trains, as
        `pipe1_queue`, defaults included (bit/s, ns). `changed` leaves out options that are the same in all.
        Needs the scenario."""
        from dnlab.analysis import results

        if self.plans is None:
            raise InputError(f"{self.given.report}: its settings are in its scenario, which was not given")
        rows = [{"experiment": name, **columns_in(self.plans[name])} for name in self]
        columns = list(dict.fromkeys(name for row in rows for name in row))
        frame = results.of_rows(rows, columns).set_index("experiment")
        return (frame if not changed
                else frame[[name for name in frame if frame[name].nunique(dropna=False) > 1]])

    def summary(self, percentiles: Sequence[Percentile] = PERCENTILES, of: Sequence[str] = (),
                experiments: Sequence[str] = (), workers: Optional[int] = None, begin: int = 0,
                end: Optional[int] = None, names: Optional[Mapping[str, str]] = None) -> "pd.DataFrame":
        """Returns the rows of `Experiment.summary`, for all experiments or those named. Several processes
        read long reports.

        `of` selects rows by name, such as "train *". `names` replaces those of `read`."""
        from dnlab.analysis import results
        from dnlab.analysis.summary import summed

        patterns = [of] if isinstance(of, str) else of
        span = span_of(begin, end)
        plans = with_names(self.plans, names or {}, experiments)
        rows = [row for one in summed(self.given, plans, experiments, percentiles, patterns, workers=workers,
                                      span=span)
                for row in one.rows]
        return results.of_rows(rows, columns_of(percentiles, span))


def read(report: Union[str, Path], scenario: Names = (), names: Optional[Mapping[str, str]] = None) -> Report:
    """Opens a report, a text or rows (`dnlab alone --format npy`), with its scenario or scenarios if you pass
    any.

    names  names for senders of injected packets, by address or address:port: {"10.0.0.1:1000": "mine"}

    Raises `InputError` for an invalid name or a source without packets. Reading an experiment raises it if
    the scenario doesn't match."""
    return Report(report, scenario, names=names)
