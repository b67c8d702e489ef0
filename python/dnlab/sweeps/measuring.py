"""Runs experiments, and measures the statistics that a sweep collects, here, in other processes and on other
machines."""
import re
from fractions import Fraction
from pathlib import Path
from typing import Any, Iterable, Iterator, NamedTuple, Optional, Sequence, Union

import numpy as np

from dnlab.analysis.metrics import WHOLE, Row, Span, is_named
from dnlab.analysis.quantities import percentile_name
from dnlab.analysis.statistics import USUAL, CustomStat, StatRequest, percentile_of
from dnlab.analysis.tables import Tables
from dnlab.analysis.view import Note, View
from dnlab.errors import InputError, ParseError, ProgramError
from dnlab.io.rows import Ints, instance_name
from dnlab.io.pieces import pieces
from dnlab.io.scenario import BadLine, read, read_line
from dnlab.io.scenario_parts import DROP_CAUSES, Plan
from dnlab.io.scenario_text import lines_in, most_report
from dnlab.processes import subprocesses
from dnlab.processes.process_pool import Outcome
from dnlab.processes.subprocesses import Killed, TempDir
from dnlab.sweeps.grid import Case

# For each pattern of `of` and each statistic: the value by sender (None if unknown).
Values = dict[str, dict[str, dict[str, Any]]]


class StatResults(NamedTuple):
    """The statistics of one experiment, and its notes."""
    values: Values
    notes: list[Note]


def names_in(plans: Iterable[Plan]) -> list[str]:
    """Returns the senders and pipes that can be measured, by the commands of some experiments; of each pipe
    only the first instance."""
    flows: dict[int, None] = {}
    trains: dict[int, None] = {}
    pipes: dict[int, None] = {}
    commands = [plan.commands for plan in plans]
    is_injected = any(own.runs for own in commands)
    for _, command in (one for own in commands for one in own.plain):
        if command.pipe is not None:
            pipes[command.pipe] = None
        elif command.sends is not None and command.sends.number is not None:
            (flows if command.sends.word == "flow" else trains)[command.sends.number] = None
        elif command.sends is not None:
            is_injected = True
    found = [name for flow in flows for name in (f"flow {flow}", f"flow {flow} acks")]
    found += [f"train {train}" for train in trains]
    found = (["flows"] if flows else []) + (["trains"] if trains else []) + found
    found += (["injected"] if is_injected else []) + [f"pipe {pipe}.0" for pipe in pipes]
    return [*found, *WHOLE]


def usual(names: Sequence[str]) -> list[StatRequest]:
    """Returns the default statistics: for all flows together, each train and the injected packets."""
    found = [StatRequest(of, USUAL)
             for of, name in (("flows", "flows"), ("train *", "trains"), ("injected", "injected"))
             if name in names]
    return found or [StatRequest("all", ("delivered", "lost"))]


def check(asks: Sequence[StatRequest], names: Sequence[str]) -> None:
    """Raises `InputError` for an `of` that matches nothing, with the names that exist."""
    for ask in asks:
        # The instances of a pipe are known only after the run.
        pipe = re.match(r"(pipe [0-9]+)\.", ask.of)
        if not any(is_named(name, ask.of) for name in names) and not (pipe and f"{pipe[1]}.0" in names):
            raise InputError(f"--of {ask.of!r}: no such sender; the template has {', '.join(names)}")


def answer(view: View, asks: Sequence[StatRequest], span: Span = Span()) -> StatResults:
    """Returns the statistics of an experiment within a time range. Your own functions always get the whole
    run."""
    stats = [stat for ask in asks for stat in ask.stats if not isinstance(stat, CustomStat)]
    percentiles = sorted({found for found in map(percentile_of, stats) if found}, key=Fraction)
    tables = Tables(view, percentiles, with_mean="delay.mean" in stats, span=span)
    rows = list(_rows(tables, [ask.of for ask in asks]))
    values: Values = {
        ask.of: {str(stat): {row["sender"]: stat.of(view, row["sender"]) if isinstance(stat, CustomStat)
                             else figure(row, stat)
                             for row in rows if is_named(row["sender"], ask.of)}
                 for stat in ask.stats} for ask in asks}
    return StatResults(values, [note for note in view.notes if note.mark])


def figure(row: Row, stat: str) -> Any:
    """Returns a statistic of a row, or None if it is unknown."""
    if stat == "lost":
        drops = [row.get(cause) for cause in DROP_CAUSES]
        return None if None in drops else sum(count for count in drops if count)
    percentile = percentile_of(stat)
    return row.get(percentile_name(percentile) if percentile else stat.rpartition(".")[2])


def _rows(tables: Tables, patterns: Sequence[str]) -> Iterator[Row]:
    """Yields the rows of an experiment that match the patterns, and those of groups."""
    def is_asked(name: str) -> bool:
        return any(is_named(name, pattern) for pattern in patterns)

    view = tables.view
    for name, packets in view.senders:
        if is_asked(name):
            yield tables.sender(name, packets)
    flows = [(name, packets) for name, packets in view.senders if re.fullmatch("flow [0-9]+", name)]
    trains = [(name, packets) for name, packets in view.senders if name.startswith("train ")]
    if flows and is_asked("flows"):
        yield _flows(tables, flows)
    if trains and is_asked("trains"):
        together = np.sort(np.concatenate([packets for _, packets in trains]))
        yield {**tables.packets("trains", together), **tables.useful(together)}
    for pipe, visits in view.visits.instances:
        name = f"pipe {instance_name(pipe)}"
        if is_asked(name) or is_asked(f"{name} back"):
            yield from tables.pipe(pipe, visits)
    if any(is_asked(name) for name in WHOLE):
        yield from tables.whole()


def _flows(tables: Tables, flows: Sequence[tuple[str, Ints]]) -> Row:
    """Returns the row of all flows' segments together; `completion` is that of the slowest flow."""
    together = np.sort(np.concatenate([packets for _, packets in flows]))
    own = [tables.progress(name, packets) for name, packets in flows]
    again = [one.get("retransmissions") for one in own]
    times = [one.get("fct") for one in own]
    return {**tables.packets("flows", together), **tables.useful(together), "jain": tables.fairness(),
            "retransmissions": None if None in again else sum(count for count in again if count),
            "fct": None if None in times else max(time for time in times if time is not None)}


def measured(texts: Sequence[str], asks: Sequence[StatRequest], program: str,
             span: Span = Span()) -> list[StatResults]:
    """Runs experiments, each with a text of its own, as one scenario, and returns their results in order.
    Raises `ProgramError` with the program's status and message, and if its report does not match the
    scenario."""
    with TempDir() as room:
        text = "".join(texts).encode()
        rows = room.path / "rows.npy"
        with open(rows, "wb") as out:
            done = subprocesses.run([program, "alone", "--format", "npy"], text, out, most_report(text))
        if done.status:
            raise ProgramError(done.status, done.said() or f"{program} ended with status {done.status}")
        return answers(rows, texts, asks, span)


def measured_by_turns(batches: Sequence[Sequence[str]], asks: Sequence[StatRequest], program: str,
                      span: Span = Span()) -> list[StatResults]:
    """Like `measured`, for several scenarios, one after another."""
    return [found for texts in batches for found in measured(texts, asks, program, span)]


def answers(rows: Union[str, Path], texts: Sequence[str], asks: Sequence[StatRequest],
            span: Span = Span()) -> list[StatResults]:
    """Returns the results of the experiments of a file of rows, each joined with its own text. Raises
    `ProgramError` if they don't match."""
    plans: dict[str, Plan] = {}
    for text in texts:
        plans |= read(text.encode())
    found: list[StatResults] = []
    name = ""
    try:
        for piece in pieces(rows, names=list(plans)):
            name = piece.name
            if piece.line >= 0:
                raise ProgramError(3,
                                   "the program wrote a text where rows are expected: it must "
                                   "know --format npy")
            found.append(answer(View(piece.read(), plans[name]), asks, span))
    except ParseError as refused:
        of = f" (experiment {name})" if name else ""
        raise ProgramError(3, f"the program's output does not match its scenario{of}: {refused}") from None
    if len(found) != len(plans):
        raise ProgramError(3, "the program wrote no rows (is it dnlab?)")
    return found


# Limits for a single run: the program keeps all reports of a scenario until its end, so the steps are limited
# too.
_MOST_TOGETHER = 4
_MOST_STEPS = 3 * 10**6


class Waiting(NamedTuple):
    """An experiment to run: its case, its text, its key in the cache, and its steps."""
    case: Case
    key: str
    steps: int


Answered = tuple[list[Waiting], list[StatResults]]


def batches_of_waiting(waiting: Sequence[Waiting], workers: int) -> Iterator[list[Waiting]]:
    """Yields groups of experiments to run as one scenario, in order."""
    most = max(1, min(_MOST_TOGETHER, len(waiting) // (4 * workers)))
    batch: list[Waiting] = []
    for one in waiting:
        if batch and (len(batch) == most or sum(other.steps for other in batch) + one.steps > _MOST_STEPS):
            yield batch
            batch = []
        batch.append(one)
    if batch:
        yield batch


def steps_of(text: str) -> int:
    """Returns the step budget of a scenario's experiment."""
    _, heading, number = next(lines_in(text.encode()))
    try:
        plan = read_line(number, heading.decode("ascii", "replace").split())
    except BadLine:
        return _MOST_STEPS
    assert isinstance(plan, Plan)
    return plan.steps


def judged(program: str, text: bytes) -> Optional[str]:
    """Returns the program's explanation of a faulty scenario, or None if it has no fault."""
    done = subprocesses.run([program, "check", "--explain"], text)
    if done.status == 0:
        return None
    if done.status != 1:
        raise ProgramError(done.status, done.said() or f"{program} check ended with status {done.status}")
    return done.said()


def answer_of(outcome: Outcome[tuple[Waiting, ...]]) -> list[StatResults]:
    """Returns the results of experiments. Raises `ProgramError` with the first of them if a signal ended the
    program."""
    if isinstance(outcome.fault, Killed):
        first, *others = outcome.token
        more = f" or one of the {len(others)} after it" if others else ""
        raise outcome.fault.about(f"{first.case.told()}{more}")
    found: list[StatResults] = outcome.get()
    return found


def raise_first(failures: Sequence[ProgramError]) -> None:
    """Raises the first of some failures, with the number of the others."""
    if failures:
        more = f" (and {len(failures) - 1} more experiments)" if len(failures) > 1 else ""
        raise ProgramError(failures[0].status, failures[0].said + more)
