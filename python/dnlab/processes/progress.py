"""Shows how far a command is, by tqdm (Debian: python3-tqdm), which is loaded when there is something to
show. Without it, nothing is shown."""
import shutil
import sys
import time
from typing import Any, Optional

from dnlab.processes import subprocesses
from dnlab.programs import called

# Seconds between updates: on a terminal, and in a log.
_SEEN, _LOGGED = 0.5, 30.0
_REST = "{n_fmt} of {total_fmt} {unit}, ETA {remaining}"


def _tqdm() -> Any:
    """Returns tqdm's class, or None without it. It has no thread, because this process handles signals and
    children itself."""
    try:
        from tqdm import tqdm
    except ModuleNotFoundError:
        return None
    return type("Bar", (tqdm,), {"monitor_interval": 0})


class Progress:
    """Shows how many of `total` are done, of which `done` before this call; without a total, only how many.

    A log gets a line every half minute. A terminal has one line with a bar, updated twice a second and
    removed at the end of the block, or on a signal."""

    def __init__(self, tool: str, total: Optional[int] = None, done: int = 0,
                 unit: str = "experiments") -> None:
        self.tool, self.total, self.unit = called(tool), total, unit
        self.done = self.before = done
        self.begin = self.last = time.monotonic()
        self._bar: Any = None
        bar = _tqdm() if sys.stderr.isatty() else None
        if bar is not None:
            self._bar = bar(total=total, initial=done, desc=self.tool, unit=unit, leave=False, miniters=1,
                             file=getattr(sys.stderr, "direct", sys.stderr),
                             mininterval=_SEEN, delay=_SEEN, ncols=shutil.get_terminal_size().columns - 1,
                             bar_format=_form(total, "{bar:20} "))

    def __enter__(self) -> "Progress":
        subprocesses.add_chore(self.close)
        return self

    def __exit__(self, *_: object) -> None:
        self.close()
        subprocesses.remove_chore(self.close)

    def step(self, count: int = 1) -> None:
        """Counts `count` more as done."""
        self.done += count
        if self._bar is not None:
            self._bar.update(count)
        elif time.monotonic() - self.last >= _LOGGED and not sys.stderr.isatty() and _tqdm() is not None:
            self.last = time.monotonic()
            print(self.told(self.last), file=sys.stderr, flush=True)

    def told(self, now: float) -> str:
        """Returns the line for a log at a time (s, of `time.monotonic`)."""
        return str(_tqdm().format_meter(self.done, self.total, now - self.begin, initial=self.before,
                                     prefix=self.tool, unit=self.unit, bar_format=_form(self.total)))

    def close(self) -> None:
        """Removes the bar."""
        if self._bar is not None:
            self._bar.close()


def _form(total: Optional[int], bar: str = "") -> str:
    return "{desc}: " + (bar + _REST if total else "{n_fmt} {unit}")
