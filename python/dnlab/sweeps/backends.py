"""How a sweep runs its experiments elsewhere: on other machines, with ssh or as a Slurm array, like `spread`,
or with Dask; and as programs, from a hosts file or a command that leaves transcript.txt and report.txt.
"""
import json
import os
import sys
import tempfile
import time
from contextlib import ExitStack
from math import ceil
from pathlib import Path
from typing import TYPE_CHECKING, Any, Iterable, Iterator, Mapping, NamedTuple, Optional, Sequence

from dnlab.analysis.metrics import Span
from dnlab.analysis.names import sources_of, with_names
from dnlab.analysis.statistics import USUAL, StatRequest
from dnlab.analysis.view import UnfitError, View, plan_of_run, view_of_run
from dnlab.errors import InputError, ProgramError
from dnlab.io.scenario_parts import Plan
from dnlab.io.scenario_text import experiments_in, groups, shares
from dnlab.processes import subprocesses
from dnlab.processes.process_pool import ProcessPool
from dnlab.processes.subprocesses import Killed, TempDir
from dnlab.programs import program as program_of
from dnlab.sweeps import engines
from dnlab.sweeps.engines import Job, RunFailedError, RunOptions
from dnlab.sweeps.grid import DASK, Case
from dnlab.sweeps.measuring import (StatResults, Waiting, answer, answers as read_answers, measured,
                                    measured_by_turns)
from dnlab.sweeps.sweeping import Sweep

if TYPE_CHECKING:
    from dnlab.sweeps.measuring import Answered

# The target time of a part on another machine, in seconds. With ssh it is one scenario, all of whose reports
# the program keeps until its end; Slurm and Dask run several scenarios one after another.
_PART = 60.0
_PART_BY_SSH = 10.0
# How long to run experiments on this machine to estimate that.
_TRIAL = 5.0
# With fewer experiments, each is a part.
_FEW = 16


def run_elsewhere(sweep: "Sweep", waiting: Sequence["Waiting"], program: str) -> Iterator["Answered"]:
    """Yields results as they arrive, including those of the experiments that were run on this machine to
    estimate the time."""
    if not waiting:
        return
    parts, tried = sweep.parts or len(waiting), 0
    if sweep.parts is None and len(waiting) >= _FEW:
        begun = time.monotonic()
        known: set[str] = set()
        sample = waiting[::max(1, len(waiting) // _FEW)][:_FEW]
        for batch, found in run_trial(sweep, sample, program):
            yield batch, found
            known |= {one.key for one in batch}
        tried, took = len(known), time.monotonic() - begun
        waiting = [one for one in waiting if one.key not in known]
        is_ssh = sweep.on != "slurm" and not str(sweep.on).startswith(DASK)
        parts = ceil(len(waiting) / experiments_per_part(tried, took, sweep.workers,
                                                         _PART_BY_SSH if is_ssh else _PART))
    if waiting:
        way = by_dask if str(sweep.on).startswith(DASK) else by_spread
        yield from way(sweep, waiting, program, max(1, min(parts, len(waiting))))


def experiments_per_part(tried: int, took: float, workers: int, wanted: float = _PART) -> int:
    """Returns how many experiments take `wanted` seconds, if `tried` of them took `took` seconds with
    `workers` processes.

    >>> experiments_per_part(16, 0.4, 4), experiments_per_part(2, 5.0, 4), experiments_per_part(0, 5.0, 4)
    (600, 12, 1)
    """
    return max(1, round(wanted * tried / (took * min(workers, tried)))) if tried else 1


def batches_of(waiting: Sequence["Waiting"], count: int) -> list[list[list["Waiting"]]]:
    """Returns experiments in `count` parts, each of several scenarios."""
    from dnlab.sweeps.measuring import batches_of_waiting

    batches = list(batches_of_waiting(waiting, ceil(count / 4)))
    ends = groups([len(batch) for batch in batches], count)
    return [batches[begin:end] for begin, end in zip([0, *ends], ends)]


def run_trial(sweep: "Sweep", sample: Sequence["Waiting"], program: str) -> Iterator["Answered"]:
    """Runs experiments on this machine, one by one, for some seconds; those that fail are left for the other
    machines."""
    begun = time.monotonic()
    with ProcessPool["Waiting"](sweep.workers) as pool:
        for one in sample:
            pool.submit(one, measured, [sweep.text(one.case)], sweep.asks, program, sweep.span)
        while len(pool) and time.monotonic() - begun < _TRIAL:
            try:
                outcome = pool.next_result(max(0.0, _TRIAL - (time.monotonic() - begun)))
            except TimeoutError:
                return
            if isinstance(outcome.fault, Killed):
                raise outcome.fault.about(outcome.token.case.told())
            if outcome.fault is None:
                yield [outcome.token], outcome.value


def by_spread(sweep: "Sweep", waiting: Sequence["Waiting"], program: str, count: int) -> Iterator["Answered"]:
    """Runs experiments with the engines of `spread`, and reads each part on this machine as soon as it is
    done."""
    how = RunOptions(count, ssh=None if sweep.on == "slurm" else str(sweep.on), slurm=sweep.on == "slurm",
                     program=sweep.there,
                     form=("--format", "npy"))
    fault = how.fault()
    if fault is not None:
        raise InputError(f"--on {sweep.on}: {fault}")
    with ExitStack() as stack:
        # Slurm's nodes can read the current folder, but not this machine's temporary folder.
        room = stack.enter_context(TempDir("." if sweep.on == "slurm" else None))
        pool = stack.enter_context(ProcessPool[int](sweep.workers))
        by_name = {one.case.name: one for one in waiting}
        texts = {one.case.name: sweep.text(one.case) for one in waiting}
        if sweep.on == "slurm":
            named = [[one.case.name for one in batch] for part in batches_of(waiting, count)
                     for batch in part]
        else:
            found = experiments_in([text.encode() for text in texts.values()])
            named = [[part.name for part in share] for share in shares(found, count)]
        jobs = [Job(room.path, number, names, "".join(texts[name] for name in names).encode(), is_rows=True)
                for number, names in enumerate(named, 1)]
        stop: Optional[RunFailedError] = None
        going = engines.run_parts(how, program, jobs, room.path)
        is_going = True
        while is_going or len(pool):
            try:
                for job in next(going) if is_going else ():
                    pool.submit(job.number, read_answers, str(job.file("whole")),
                                [texts[name] for name in job.names], sweep.asks, sweep.span)
            except StopIteration:
                is_going = False
            except RunFailedError as stopped:
                is_going, stop = False, stopped
            yield from _read(pool, jobs, by_name, None if not is_going else 0.0)
        if stop is not None:
            raise ProgramError(stop.status, str(stop).strip())


def _read(pool: ProcessPool[int], jobs: Sequence[Job], by_name: dict[str, "Waiting"],
          seconds: Optional[float]) -> Iterator["Answered"]:
    """Yields the results of parts that have been read by now; without a time, of all that are ready."""
    while len(pool):
        try:
            outcome = pool.next_result(seconds)
        except TimeoutError:
            return
        names = jobs[outcome.token - 1].names
        if isinstance(outcome.fault, ProgramError):
            raise outcome.fault.about(f"{by_name[names[0]].case.told()} or one after it")
        yield [by_name[name] for name in names], outcome.get()


def by_dask(sweep: "Sweep", waiting: Sequence["Waiting"], program: str, count: int) -> Iterator["Answered"]:
    """Runs and reads experiments on the workers of a Dask scheduler, which need this package and the
    program."""
    try:
        import distributed
    except ModuleNotFoundError:
        raise ProgramError(3,
                           "distributed is missing (Debian: apt-get install python3-distributed)") from None
    dask: Any = distributed
    address = str(sweep.on).removeprefix(DASK)
    try:
        client = dask.Client(address, timeout=10)
    except (OSError, ValueError) as fault:
        raise InputError(
            f"--on dask {address}: there is no scheduler: {str(fault) or type(fault).__name__}") from None
    with client:
        futures = {}
        for part in batches_of(waiting, count):
            texts = [[sweep.text(one.case) for one in batch] for batch in part]
            future = client.submit(measured_by_turns, texts, sweep.asks, sweep.there or program, sweep.span,
                                   pure=False)
            futures[future] = [one for batch in part for one in batch]
        for future in dask.as_completed(list(futures)):
            batch = futures.pop(future)
            if future.status != "finished":
                raised = future.exception()
                said = (raised.said if isinstance(raised, ProgramError)
                        else f"{type(raised).__name__}: {raised}")
                more = f" or one of the {len(batch) - 1} after it" if len(batch) > 1 else ""
                raise ProgramError(3, f"{batch[0].case.told()}{more}: {said}")
            yield batch, future.result()


SUMMARY = "summary.json"
# A step count so large that no two runs share a job.
_STEPS = 10**7
_PACKAGE = Path(__file__).resolve().parents[2]


class Kind(NamedTuple):
    """The kind of texts in a sweep: command lines, or hosts files with names relative to `folder`."""
    is_command: bool
    folder: str


class ProgramSweep(Sweep):
    """A `Sweep` of programs. Results are not cached, because what the programs do may change.

    source      a command line as a template (`is_command`), which is run in an empty folder and leaves
                transcript.txt and report.txt there; or the path of a hosts file as a template"""

    def __init__(self, source: str, grid: Mapping[str, Sequence[Any]], seeds: Iterable[int] = (1,),
                 asks: Sequence[StatRequest] = (), is_command: bool = False, workers: Optional[int] = None,
                 allow: Sequence[str] = (), span: Span = Span()) -> None:
        super().__init__(f"{source}\n" if is_command else source, grid, seeds,
                         asks or [StatRequest("injected", USUAL)], None, workers, allow=allow, span=span)
        self.kind = Kind(is_command, os.path.dirname(os.path.abspath("." if is_command else source)))

    def text(self, case: Case) -> str:
        """Returns the command line or the hosts file of a case."""
        return self._renderer.render(case.name, case.seed, case.settings, case.told())

    def prepare(self) -> list[Waiting]:
        """Returns all cases that were not run, after checking the first hosts file of each setting."""
        waiting = [Waiting(case, case.name, _STEPS) for case in self.cases if case.name not in self.found]
        first = {tuple(map(str, one.case.settings.values())): one.case for one in reversed(waiting)}
        for case in first.values() if not self.kind.is_command else ():
            done = _hosts(["-", "--check"], self.text(case), self.kind.folder, program_of(self._named))
            if done.status == 2:
                raise InputError(f"{case.told()}: {done.said().removeprefix('hosts: ')}")
            if done.status:
                raise ProgramError(done.status, f"{case.told()}: {done.said()}")
        return waiting

    def give(self, pool: "ProcessPool[tuple[Waiting, ...]]", batch: Sequence[Waiting], program: str) -> None:
        """Submits a case to a process."""
        texts = [self.text(one.case) for one in batch]
        pool.submit(tuple(batch), run_programs, texts, self.kind, self.asks, program, self.span)

    def changeless(self) -> Optional[str]:
        """Returns the warning if the texts of two seeds are equal, else None."""
        seeds = {case.seed: case for case in reversed(self.cases)}
        texts = {self.text(Case(case.name, seed, self.cases[0].settings))
                 for seed, case in list(seeds.items())[:2]}
        is_same = len(seeds) > 1 and len(texts) == 1
        return "the seeds change nothing: there is no {{ seed }} in it" if is_same else None


def run_programs(texts: Sequence[str], kind: Kind, asks: Sequence[StatRequest], program: str,
                 span: Span) -> list[StatResults]:
    """Runs programs, one after the other, and returns the results of their reports in order. Raises
    `ProgramError` with a program's message if its status is not 0."""
    found = []
    for text in texts:
        with TempDir() as room:
            out = room.path / "run"
            if kind.is_command:
                out.mkdir()
                done = _run(["sh", "-c", text], "", str(out), program)
            else:
                done = _hosts(["-", "--out", str(out), "--no-verify"], text, kind.folder, program)
            if done.status:
                raise ProgramError(3, done.said() or f"the program ended with status {done.status}")
            found.append(answer(view_of(out, program), asks, span))
    return found


def _hosts(words: Sequence[str], text: str, folder: str, program: str) -> subprocesses.Done:
    return _run([sys.executable, "-B", "-m", "dnlab", "hosts", *words], text, folder, program)


def _run(words: Sequence[str], text: str, folder: str, program: str) -> subprocesses.Done:
    path = os.pathsep.join(filter(None, (str(_PACKAGE), os.environ.get("PYTHONPATH"))))
    with (tempfile.TemporaryFile() as given, tempfile.TemporaryFile() as out,
          tempfile.TemporaryFile() as errors):
        given.write(text.encode())
        given.seek(0)
        with subprocesses.child(words, cwd=folder, stdin=given, stdout=out, stderr=errors,
                            env={**os.environ, "DNLAB": program, "PYTHONPATH": path}) as process:
            status = subprocesses.wait(process)
        for file in out, errors:
            file.seek(0)
        return subprocesses.Done(status, out.read(), errors.read())


def view_of(folder: Path, program: str) -> View:
    """Returns the experiment of a run's folder; packets have their hosts' names, if summary.json has them."""
    try:
        plan = plan_of_run(folder)
        names = with_names({plan.name: plan}, _names(folder, plan))
        return view_of_run(folder, program, names[plan.name].names if names else None)
    except UnfitError as unfit:
        name, cause = unfit.args
        missing = not (folder / name).is_file()
        raise ProgramError(3, f"the program left no {name}: {cause}" if missing
                           else f"{name}: {cause}") from None
    except InputError as fault:
        raise ProgramError(3, str(fault)) from None


def _names(folder: Path, plan: Plan) -> dict[str, str]:
    """Returns the names of the hosts that send, by address."""
    try:
        hosts = json.loads((folder / SUMMARY).read_text())["hosts"]
        names = {str(host["address"]): str(name) for name, host in hosts.items()}
    except (OSError, ValueError, KeyError, TypeError, AttributeError):
        return {}
    sources = {address for address, _ in sources_of(plan)}
    return {address: name for address, name in names.items() if address in sources}
