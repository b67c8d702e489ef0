"""A pool of worker processes that end with this one, and whose ends are reported: concurrent.futures with
files for data.

A job and its result are files, and the queues between the processes have only its number. With Python 3.11 a
pool waits for ever if a worker is killed while a queue has more bytes than a pipe holds (CPython issue
94777)."""
import os
import pickle
import queue
import signal
import sys
import tempfile
import traceback
import weakref
from concurrent.futures import Future, ProcessPoolExecutor
from concurrent.futures.process import BrokenProcessPool
from contextlib import contextmanager, suppress
from functools import partial
from multiprocessing import resource_tracker
from multiprocessing.context import SpawnContext, SpawnProcess
from pathlib import Path
from types import ModuleType
from typing import Any, Callable, Generic, Iterator, NamedTuple, Optional, TypeVar

from dnlab.errors import ProgramError
from dnlab.processes import memory, subprocesses
from dnlab.processes.subprocesses import Killed, TempDir, describe_exit, signal_of

T = TypeVar("T")
# The folder of the jobs of a worker's pool. It is set in the worker.
_FOLDER = Path()


class Outcome(NamedTuple, Generic[T]):
    """A finished job: its token, its result, and the exception that it raised, or None."""
    token: T
    value: Any
    fault: Optional[Exception]

    def get(self) -> Any:
        """Returns the result, or raises the job's exception."""
        if self.fault is not None:
            raise self.fault
        return self.value


class ProcessPool(Generic[T]):
    """A pool of at most `workers` processes, which are started on demand. Call `close`, or use it as a block.

    If a worker ends by itself, `submit` and `next_result` raise `Killed` or `ProgramError`; the pool cannot
    be used any more."""

    def __init__(self, workers: int) -> None:
        self.workers = workers
        self._room = TempDir()
        self._started: list[SpawnProcess] = []
        # The process that removes a pool's semaphores if this process is killed warns of none, and outlives
        # SIGHUP.
        with _inherited("PYTHONWARNINGS", "ignore"):
            resource_tracker.ensure_running()
        self._executor = ProcessPoolExecutor(workers, _Context(self._started), _start_worker,
                                             (os.getpid(), self._room.path))
        self._done: "queue.SimpleQueue[Future[None]]" = queue.SimpleQueue()
        self._jobs: "dict[Future[None], tuple[T, int]]" = {}
        self._count = 0
        chore = partial(_kill_all, self._started, os.getpid())
        subprocesses.add_chore(chore)
        self._left = weakref.finalize(self, _close, chore, self._executor, os.getpid())

    def __enter__(self) -> "ProcessPool[T]":
        return self

    def __exit__(self, *_: object) -> None:
        self.close()

    def __len__(self) -> int:
        """Returns how many jobs are not finished."""
        return len(self._jobs)

    def submit(self, token: T, function: Callable[..., Any], *args: Any) -> None:
        """Submits a job: a function that another process can import by name, and its arguments."""
        self._count += 1
        (self._room.path / f"{self._count}.job").write_bytes(pickle.dumps((function, args)))
        try:
            with subprocesses.signals_delayed():
                future = self._executor.submit(_run_job, self._count)
        except BrokenProcessPool:
            self._raise_lost()
        self._jobs[future] = token, self._count
        future.add_done_callback(self._done.put)

    def next_result(self, seconds: Optional[float] = None) -> Outcome[T]:
        """Waits for the first job that finishes. Raises `TimeoutError` after `seconds`."""
        try:
            future = self._done.get(timeout=seconds)
        except queue.Empty:
            raise TimeoutError from None
        token, number = self._jobs.pop(future)
        if future.exception() is not None:
            self._raise_lost()
        answer = self._room.path / f"{number}.answer"
        value, fault, cause = pickle.loads(answer.read_bytes())
        answer.unlink()
        if fault is not None:
            fault.add_note(cause)
        return Outcome(token, value, fault)

    def _raise_lost(self) -> None:
        """Raises the error for a worker that ended. The other workers are ended by SIGKILL."""
        # The executor's thread waits for the workers too, and knows their exit codes only when it has ended.
        self._left()
        ends = [process.exitcode for process in self._started if process.exitcode is not None]
        status = next((it for it in ends if it != -signal.SIGKILL), -signal.SIGKILL)
        ended_by = signal_of(status)
        if ended_by is None:
            raise ProgramError(3, f"a worker process ended with status {status}") from None
        raise Killed(f"a worker process was {describe_exit(ended_by)}", ended_by) from None

    def close(self) -> None:
        """Kills all workers at once."""
        self._left()
        self._room.close()


def _kill_all(started: list[SpawnProcess], owner: int) -> None:
    """Kills workers and the programs that they run, and waits for the workers' ends."""
    if os.getpid() != owner:  # A forked copy of this process must not end them.
        return
    running = [(process, process.pid) for process in started if process.pid is not None]
    for process, number in running:
        # The group remains if the worker was killed and its programs run. A worker that has just started has
        # no group yet.
        try:
            os.killpg(number, signal.SIGKILL)
        except (ProcessLookupError, PermissionError):
            process.kill()
    for process, _ in running:
        process.join(2)


def _close(chore: subprocesses.Chore, executor: ProcessPoolExecutor, owner: int) -> None:
    if os.getpid() == owner:
        with subprocesses.signals_delayed():
            chore()
            subprocesses.remove_chore(chore)
        executor.shutdown(cancel_futures=True)


class _Context(SpawnContext):
    """Starts new Python processes, and lists them, because an executor does not show how its workers
    ended."""

    def __init__(self, started: list[SpawnProcess]) -> None:
        super().__init__()
        self.started = started

    # It is called like the class that it stands for.
    def Process(self, *args: Any, **how: Any) -> SpawnProcess:  # type: ignore[override]
        self.started.append(_Process(*args, **how))
        return self.started[-1]


class _Process(SpawnProcess):
    """A process that inherits blocked signals, so that none ends it before `_start_worker` handles them, and
    no `__main__`, so that a script needs no guard."""

    def start(self) -> None:
        main, sys.modules["__main__"] = sys.modules["__main__"], ModuleType("__main__")
        try:
            with _inherited("PYTHONDONTWRITEBYTECODE", "1" if sys.dont_write_bytecode else ""):
                super().start()
        finally:
            sys.modules["__main__"] = main


@contextmanager
def _inherited(name: str, value: str) -> Iterator[None]:
    """Makes the processes that are started within the block inherit a variable and blocked signals."""
    mask, before = signal.pthread_sigmask(signal.SIG_BLOCK, subprocesses.SIGNALS), os.environ.get(name)
    os.environ[name] = value
    try:
        yield
    finally:
        del os.environ[name]
        if before is not None:
            os.environ[name] = before
        signal.pthread_sigmask(signal.SIG_SETMASK, mask)


# ---- in the worker

def _start_worker(parent: int, folder: Path) -> None:
    """Puts a new worker into a process group of its own, with its programs, that ends with the parent. Its
    temporary files are in the pool's folder, because a worker is killed and cannot remove them itself."""
    global _FOLDER
    _FOLDER = folder
    tempfile.tempdir = str(folder)
    os.setpgid(0, 0)
    signal.signal(signal.SIGTERM, lambda *_: os.killpg(0, signal.SIGKILL))
    signal.signal(signal.SIGINT, signal.SIG_IGN)
    signal.signal(signal.SIGHUP, signal.SIG_IGN)
    subprocesses.die_with(parent, signal.SIGTERM)
    memory.keep_freed()
    subprocesses.GROUPED = False
    # What a function prints is not part of a result.
    os.dup2(2, 1)
    signal.pthread_sigmask(signal.SIG_UNBLOCK, subprocesses.SIGNALS)


def _run_job(number: int) -> None:
    """Runs the job with a number, and writes its result, its exception and the exception's traceback."""
    job = _FOLDER / f"{number}.job"
    value, raised, cause = None, None, ""
    try:
        function, args = pickle.loads(job.read_bytes())
        job.unlink()
        value = function(*args)
    except Exception as fault:  # Any exception is passed to the caller.
        raised, cause = fault, "".join(traceback.format_exception(fault))
    try:
        answer = pickle.dumps((value, raised, cause))
        pickle.loads(answer)
    except Exception as fault:  # Some exceptions can be pickled but not unpickled.
        answer = pickle.dumps((None, RuntimeError(f"{raised or value!r} ({fault})"), cause))
    with suppress(FileNotFoundError):  # The pool was closed meanwhile, and its folder is removed.
        (_FOLDER / f"{number}.answer").write_bytes(answer)
