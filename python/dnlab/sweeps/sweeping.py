"""Sweeps: a template with a grid of settings and seeds. Each experiment is rendered, run and read, and groups
get intervals."""
import re
import shlex
from functools import cached_property
from pathlib import Path
from typing import Any, Iterable, Iterator, Mapping, Optional, Sequence, Union

from dnlab.sweeps.measuring import (Answered, StatResults, Waiting, answer_of, batches_of_waiting, check,
                                    judged, measured, names_in, raise_first, steps_of, usual)
from dnlab.errors import STOPPING, InputError, Note, ProgramError
from dnlab.analysis.statistics import USUAL, CustomStat, StatRequest, merged, stats_given
from dnlab.analysis.metrics import Span, span_of
from dnlab.analysis.reports import cores
from dnlab.io.scenario import read
from dnlab.io.scenario_parts import MOST_BYTES, MOST_EXPERIMENTS, Plan
from dnlab.io.scenario_text import names_of
from dnlab.analysis import names
from dnlab.processes import subprocesses
from dnlab.processes.subprocesses import Killed
from dnlab.processes.process_pool import ProcessPool
from dnlab.processes.progress import Progress
from dnlab.programs import program as program_of
from dnlab.sweeps.grid import Case, as_written, cases_of, why_reserved
from dnlab.sweeps.cache import ResultCache, checksum, program_checksum
from dnlab.sweeps.rendering import Renderer
from dnlab.sweeps.templates import Template
from dnlab.sweeps.results import SweepResults

# An experiment's name depends on the order of --set, but its results don't.
_HEADING = re.compile(r"^( *experiment +)\S+", re.MULTILINE)
_HEADINGS = re.compile(r"^ *experiment .*", re.MULTILINE)
_LOSS = re.compile(r" plr +(?!0(\.0*)?( |$))", re.MULTILINE)


class Sweep(SweepResults):
    """The experiments of a template, in the order of `cases`. They run when `rows()` or `table()` is
    requested.

    template  as in `sweep`
    grid      the values of each setting
    seeds     the seeds of each setting
    asks      senders and their statistics; by default those of flows and trains
    kept      the file that caches results; by default memory
    workers   the number of processes; by default all cores
    on        other machines: `slurm`, `dask:ADDRESS` of a scheduler, or the form of `dnlab-spread --ssh`
    there     the program's path on these machines
    parts     how many parts they get; by default of about a minute each
    dnlab     as in `live`
    anew      whether to ignore cached results
    allow     which of `refused` and `spent` don't raise `InputError`
    span      the time range to measure"""

    def __init__(self, template: Union[str, Path], grid: Mapping[str, Sequence[Any]],
                 seeds: Iterable[int] = (1,), asks: Sequence[StatRequest] = (),
                 kept: Union[str, Path, None] = None, workers: Optional[int] = None, on: Optional[str] = None,
                 there: Optional[str] = None, dnlab: Optional[str] = None, anew: bool = False,
                 allow: Sequence[str] = (), parts: Optional[int] = None, span: Span = Span()) -> None:
        self.template = Template(template)
        for name in grid:
            taken = why_reserved(name)
            if taken is not None:
                raise InputError(taken)
            if name not in self.template.names:
                raise InputError(
                    f"{self.template.name}: {name} is set, but there is no {{{{ {name} }}}} in it")
        self.settings = list(grid)
        self.cases = cases_of(grid, seeds)
        self.asks = merged(asks)
        self.workers = workers or cores()
        self.on, self.there, self.parts = on, there, parts
        self.allow = frozenset(allow)
        self.span = span
        self._renderer = Renderer(self.template, self.workers)
        self._named = dnlab
        self.kept = ResultCache(kept)
        self.anew = anew
        self.found: dict[str, StatResults] = {}
        # The number of experiments that were run, not found in the cache.
        self.ran = 0

    def setting_labels(self) -> dict[str, str]:
        return names.of_template(self.template.text, self.settings)

    def text(self, case: Case) -> str:
        """Returns an experiment's scenario. Raises `InputError` unless it has exactly this experiment."""
        text = self._renderer.render(case.name, case.seed, case.settings, case.told())
        found = names_of(text.encode())
        if found != [case.name]:
            has = f"it has {', '.join(found)}" if found else "it has none"
            raise InputError(
                f"{self.template.name}: {case.told()}: its text must have exactly this experiment, but "
                f"{has}: it must start with `experiment {{{{ name }}}} seed {{{{ seed }}}} budget 1000`")
        return text

    def check_texts(self, cases: Sequence[tuple[Case, str]], program: str) -> None:
        """Checks scenarios with the program. Raises the first fault, as `--explain` shows it."""
        joined = "".join(text for _, text in cases).encode()
        if len(joined) <= MOST_BYTES and judged(program, joined) is None:
            return
        for case, text in cases:
            said = judged(program, text.encode())
            if said is not None:
                words = [f"--set {shlex.quote(f'{name}={as_written(value)}')}"
                         for name, value in case.settings.items()]
                seen = " ".join([*words, f"--seeds {case.seed} --dry-run"])
                raise InputError(
                    f"{self.template.name}: {case.told()}: a fault in the rendered scenario ({seen} "
                    f"shows it)\n{said}")

    def _asked(self, program: str) -> None:
        """Checks the requested statistics against the first scenarios of the settings, or chooses the default
        ones."""
        plans: list[Plan] = []
        firsts = list({tuple(map(str, case.settings.values())): case
                       for case in reversed(self.cases)}.values())[::-1]
        if not self.asks:
            firsts = [firsts[0], firsts[-1]]
        for place, case in enumerate(firsts):
            text = self.text(case)
            self.check_texts([(case, text)], program)
            plans += read(text.encode()).values()
            if self.asks:
                try:
                    return check(self.asks, names_in(plans))
                except InputError:
                    if place + 1 == len(firsts):
                        raise
        self.asks = usual(names_in(plans))

    def prepare(self) -> list[Waiting]:
        """Renders and checks all scenarios, and returns those without a cached result."""
        program = program_of(self._named)
        self._asked(program)
        own = program_checksum(program)
        self._renderer.ahead((case.name, case.seed, case.settings) for case in self.cases
                             if case.name not in self.found)
        waiting: list[Waiting] = []
        texts: list[tuple[Case, str]] = []
        size = 0
        for case in self.cases:
            if case.name in self.found:
                continue
            text = self.text(case)
            key = checksum(_HEADING.sub(r"\1", text, count=1) + self.span.words(), own)
            found = None if self.anew else self.kept.get(key, self.asks)
            if found is not None:
                self.found[case.name] = found
                continue
            if len(texts) == MOST_EXPERIMENTS or size + len(text) > MOST_BYTES:
                self.check_texts(texts, program)
                texts, size = [], 0
            texts.append((case, text))
            size += len(text)
            waiting.append(Waiting(case, key, steps_of(text)))
        self.check_texts(texts, program)
        return waiting

    def run(self) -> None:
        """Runs the experiments that have no result yet."""
        if len(self.found) == len(self.cases):
            return
        try:
            waiting = self.prepare()
            for case in self.cases:
                self._judge(case)
            self.kept.open()
            self._run(waiting)
        finally:
            self._renderer.close()

    def _run(self, waiting: Sequence[Waiting]) -> None:
        program = program_of(self._named)
        with Progress("sweep", len(self.cases), len(self.cases) - len(waiting)) as progress:
            if self.on is None:
                answers = self.here(waiting, program)
            else:
                from dnlab.sweeps.backends import run_elsewhere

                answers = run_elsewhere(self, waiting, program)
            for batch, found in answers:
                with subprocesses.signals_delayed():
                    self.kept.put([(one.key, self._keepable(answered))
                                   for one, answered in zip(batch, found)])
                    self.found.update((one.case.name, answered) for one, answered in zip(batch, found))
                    self.ran += len(batch)
                progress.step(len(batch))
                for one in batch:
                    self._judge(one.case)

    def _keepable(self, found: StatResults) -> StatResults:
        """Returns the part of a result to store: not those of your own functions, which may change."""
        own = {str(stat) for ask in self.asks for stat in ask.stats if isinstance(stat, CustomStat)}
        return found if not own else found._replace(values={
            of: {stat: values for stat, values in stats.items() if stat not in own}
            for of, stats in found.values.items()})

    def _judge(self, case: Case) -> None:
        """Raises `InputError` for an experiment that did not run as written, unless that is allowed."""
        for note in self.found[case.name].notes if case.name in self.found else []:
            if note.mark in STOPPING and note.mark not in self.allow:
                raise InputError(
                    f"{self.template.name}: {case.told()}: {note.text} (--allow {note.mark} continues)")

    def here(self, waiting: Sequence[Waiting], program: str) -> Iterator[Answered]:
        """Runs experiments in processes of this machine, and yields results as they arrive. Raises the first
        failure at the end, but at once if a signal ended a process."""
        failures: list[ProgramError] = []
        with ProcessPool[tuple[Waiting, ...]](min(self.workers, max(len(waiting), 1))) as pool:
            def begin(batch: Sequence[Waiting]) -> None:
                self.give(pool, batch, program)

            for batch in batches_of_waiting(waiting, self.workers):
                begin(batch)
                while len(pool) > 2 * self.workers:
                    yield from self._taken(pool, begin, failures)
            while len(pool):
                yield from self._taken(pool, begin, failures)
        raise_first(failures)

    def give(self, pool: "ProcessPool[tuple[Waiting, ...]]", batch: Sequence[Waiting], program: str) -> None:
        """Submits experiments to a process."""
        pool.submit(tuple(batch), measured, [self.text(one.case) for one in batch], self.asks, program,
                    self.span)

    def _taken(self, pool: ProcessPool[tuple[Waiting, ...]], begin: Any,
               failures: list[ProgramError]) -> Iterator[Answered]:
        """Yields the results of the next job. The experiments of a failed scenario are run again one by one,
        which shows which of them failed, and needs less memory at once."""
        outcome = pool.next_result()
        batch = list(outcome.token)
        if not isinstance(outcome.fault, ProgramError) or isinstance(outcome.fault, Killed):
            yield batch, answer_of(outcome)
        elif len(batch) == 1:
            failures.append(outcome.fault.about(batch[0].case.told()))
        else:
            for one in batch:
                begin([one])

    @cached_property
    def unseeded(self) -> frozenset[str]:
        """Returns the experiments whose seeds change nothing."""
        by_setting: dict[tuple[str, ...], list[Case]] = {}
        for case in self.cases:
            by_setting.setdefault(tuple(map(str, case.settings.values())), []).append(case)
        found: list[str] = []
        for same in by_setting.values():
            texts = [_HEADINGS.sub("", self.text(case)) for case in same[:2]]
            if len(texts) == 2 and texts[0] == texts[1] and not _LOSS.search(texts[0]):
                found += [case.name for case in same]
        return frozenset(found)

    def changeless(self) -> Optional[str]:
        """Returns the warning if seeds change nothing."""
        if not self.unseeded:
            return None
        of = "" if len(self.unseeded) == len(self.cases) else f"of {len(self.unseeded)} experiments "
        return (f"{of}the seeds change nothing: the template does not use rng, and no pipe has a "
                "plr; so n is 1")

    def notes(self) -> list[tuple[str, Note]]:
        """Returns the warnings of experiments that were run, with their names."""
        return [(case.name, note) for case in self.cases if case.name in self.found
                for note in self.found[case.name].notes]


def sweep(template: Union[str, Path], *, seed: Union[int, Iterable[int]] = 1, of: Any = None,
          stat: Any = USUAL, settings: Mapping[str, Any] = {}, kept: Union[str, Path, None] = None,
          workers: Optional[int] = None, on: Optional[str] = None, dnlab: Optional[str] = None,
          allow: Sequence[str] = (), begin: int = 0, end: Optional[int] = None, **grid: Any) -> Sweep:
    """Runs a template with each setting and each seed:
    `dnlab.sweep("link.tmpl", queue=[10, 50], seed=range(30)).table()`.

    template  the path of a Jinja2 template, or its text
    settings  settings named like a parameter of `sweep`
    of, stat  senders and statistics: `of="train 9", stat=["delay.p95", "lost"]`, or
              `of={"train 9": ["delay.p95"], ..}`
    begin, end  as in `Experiment.summary`
    kept, workers, on, dnlab, allow  as in `Sweep`

    Settings and seeds are values or lists; statistics are names or functions (docs/howto/sweeps.md). Raises
    `InputError` for faults in the template and in its scenarios."""
    every = {name: [value] if isinstance(value, (str, int, float)) else list(value)
             for name, value in {**settings, **grid}.items()}
    asked = of if isinstance(of, Mapping) else {} if of is None else {
        one: stat for one in ([of] if isinstance(of, str) else of)}
    if of is None and stat is not USUAL:
        if not all(callable(one) for one in (stat if isinstance(stat, (list, tuple)) else [stat])):
            raise InputError(
                "stat needs of, a sender, as of='train 9' (a function alone applies to the whole run)")
        asked = {"all": stat}
    asks = [StatRequest(one, stats_given(stats)) for one, stats in asked.items()]
    return Sweep(template, every, [seed] if isinstance(seed, int) else seed, asks, kept, workers, on,
                 dnlab=dnlab,
                 allow=allow, span=span_of(begin, end))
