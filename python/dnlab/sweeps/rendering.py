"""Renders texts of a template in other processes, within limits of time and memory."""
import math
import resource
import signal
import time
from collections import deque
from functools import lru_cache
from pathlib import Path
from typing import Any, Iterable, Mapping, NoReturn, Optional, Union

from jinja2 import TemplateRuntimeError

from dnlab.errors import InputError
from dnlab.processes.process_pool import Outcome, ProcessPool
from dnlab.processes.subprocesses import Killed
from dnlab.sweeps.templates import MOST_MEMORY, Template

# The maximum of processor time for a text, in seconds.
MOST_SECONDS = 10.0
# Texts that are needed again are cached up to this many bytes; further ones are rendered again.
MOST_KEPT = 2**28
# How much longer to wait for a process that ignores its signal, or gets no processor time.
_PATIENCE = 6.0
# A text that takes this many seconds is worth a process of its own.
_LONG = 0.05
# A text's name, seed and settings, and the key that identifies it.
_Request = tuple[str, int, Mapping[str, Any]]
_Key = tuple[Any, ...]


class TooLong(TemplateRuntimeError):
    """The time for a text is over; a signal handler raises it in the template."""


@lru_cache(maxsize=1)
def _template(source: Union[str, Path]) -> Template:
    held = int(Path("/proc/self/statm").read_text().split()[0]) * resource.getpagesize()
    _, hard = resource.getrlimit(resource.RLIMIT_AS)
    most = held + MOST_MEMORY
    resource.setrlimit(resource.RLIMIT_AS,
                       (most if hard == resource.RLIM_INFINITY else min(most, hard), hard))
    return Template(source)


def render(source: Union[str, Path], name: str, seed: int, settings: Mapping[str, Any],
           seconds: float) -> str:
    """Renders the text of an experiment in this process; call it in the main thread. Raises `InputError` with
    the line at which the time is over."""
    def stop(*_: object) -> NoReturn:
        raise TooLong(f"rendering it takes more than {seconds:.0f} s")

    signal.signal(signal.SIGPROF, stop)
    signal.setitimer(signal.ITIMER_PROF, seconds)
    try:
        return _template(source).render(name, seed, settings)
    finally:
        signal.setitimer(signal.ITIMER_PROF, 0)


class Renderer:
    """Renders texts of a template in processes that are started on demand: one, and up to `workers` if texts
    take long and those to come are known (`ahead`)."""

    def __init__(self, template: Template, workers: int = 1) -> None:
        self._template, self._workers = template, workers
        self._pool: Optional[ProcessPool[_Key]] = None
        self._kept: dict[_Key, str] = {}
        self._coming: deque[_Request] = deque()
        self._begun: set[_Key] = set()
        self._done: dict[_Key, Outcome[_Key]] = {}
        # The least seconds that a text took to come.
        self._least = math.inf
        self.left = MOST_KEPT

    def __reduce__(self) -> "tuple[type[Renderer], tuple[Template, int]]":
        return Renderer, (self._template, self._workers)

    def ahead(self, requests: Iterable[_Request]) -> None:
        """Names the texts to come, in order: name, seed and settings of each."""
        self._coming = deque(requests)

    def render(self, name: str, seed: int, settings: Mapping[str, Any], told: str) -> str:
        """Returns the text of an experiment. Raises `InputError`, with `told`, if it takes too long or too
        much memory."""
        key = name, seed, *map(str, settings.items())
        if key in self._kept:
            return self._kept[key]
        begun, is_started = time.monotonic(), self._pool is not None
        try:
            outcome = self._outcome((name, seed, settings), key)
        except TimeoutError:
            self.close()
            raise InputError(
                f"{self._template.name}: {told}: rendering it takes more than {MOST_SECONDS:.0f} s") from None
        except Killed as killed:
            others = len(self._begun) - 1
            self.close()
            if others:
                # Which text it was shows when each is rendered alone.
                self._workers = 1
                return self.render(name, seed, settings, told)
            raise killed.about(f"{told}: it could not be rendered") from None
        if is_started:
            self._least = min(self._least, time.monotonic() - begun)
        text: str = outcome.get()
        if len(text) <= self.left:
            self._kept[key] = text
            self.left -= len(text)
        return text

    def _outcome(self, request: _Request, key: _Key) -> Outcome[_Key]:
        """Waits for a text, and begins further ones meanwhile."""
        if self._pool is None:
            self._pool = ProcessPool(self._workers)
        self._begin(request, key)
        while key not in self._done:
            while (self._coming and math.inf > self._least > _LONG and len(self._pool) < self._workers
                   and len(self._begun) <= 2 * self._workers):
                name, seed, settings = self._coming.popleft()
                self._begin((name, seed, settings), (name, seed, *map(str, settings.items())))
            outcome = self._pool.next_result(_PATIENCE * MOST_SECONDS)
            self._done[outcome.token] = outcome
        self._begun.remove(key)
        return self._done.pop(key)

    def _begin(self, request: _Request, key: _Key) -> None:
        if self._pool is not None and key not in self._begun and key not in self._kept:
            source = self._template.text if self._template.path is None else self._template.path
            name, seed, settings = request
            self._begun.add(key)
            self._pool.submit(key, render, source, name, seed, dict(settings), MOST_SECONDS)

    def close(self) -> None:
        """Ends the processes; others are started on demand."""
        self._begun.clear()
        self._done.clear()
        if self._pool is not None:
            self._pool.close()
            self._pool = None
