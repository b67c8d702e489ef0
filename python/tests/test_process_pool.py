"""The pool of worker processes: results, errors, ends of workers and of their parent."""
import os
import re
import signal
import subprocess
import sys
import time
from pathlib import Path
from typing import Any, Iterator

import pytest
from conftest import ROOT

from dnlab.errors import ParseError, ProgramError
from dnlab.processes.process_pool import ProcessPool


class OneWayError(Exception):
    """An exception that can be pickled, but not unpickled."""

    def __init__(self, first: int, second: int) -> None:
        super().__init__(f"{first} and {second}")


def doubled(number: int) -> int:
    return 2 * number


def refused(line: int) -> None:
    raise ParseError(line, "no such line")


def faulty() -> None:
    raise OneWayError(1, 2)


def ended(number: int) -> None:
    os.kill(os.getpid(), number)


def left(status: int) -> None:
    os._exit(status)


def slept(seconds: float, data: bytes) -> bytes:
    time.sleep(seconds)
    return data


@pytest.fixture
def pool() -> Iterator[ProcessPool[Any]]:
    with ProcessPool[Any](2) as made:
        yield made


def test_results_have_their_tokens(pool: ProcessPool[Any]) -> None:
    for number in range(20):
        pool.submit(number, doubled, number)
    assert len(pool) == 20
    assert sorted((it.token, it.get())
                  for it in (pool.next_result() for _ in range(20))) == [(it, 2 * it) for it in range(20)]
    assert len(pool) == 0
    with pytest.raises(TimeoutError):
        pool.next_result(0.01)


def test_an_exception_has_its_cause(pool: ProcessPool[Any]) -> None:
    pool.submit("a", refused, 7)
    with pytest.raises(ParseError, match="line 7: no such line") as raised:
        pool.next_result().get()
    assert "in refused" in raised.value.__notes__[0]
    pool.submit("b", faulty)
    with pytest.raises(RuntimeError, match="OneWayError"):
        pool.next_result().get()
    # The pool can still be used.
    pool.submit("c", doubled, 4)
    assert pool.next_result().get() == 8


@pytest.mark.parametrize("function, number, said", [
    (ended, signal.SIGKILL, "a worker process was ended by SIGKILL (out of memory?)"),
    (ended, signal.SIGSEGV, "a worker process was ended by SIGSEGV"),
    (left, 5, "a worker process ended with status 5")])
def test_the_end_of_a_worker_is_reported(function: Any, number: int, said: str) -> None:
    """The other worker has a job, and texts wait that are longer than a pipe's buffer."""
    with ProcessPool[int](2) as pool:
        pool.submit(0, slept, 60, b"")
        pool.submit(1, function, number)
        for other in range(4):
            pool.submit(other, slept, 0, bytes(2**20))
        with pytest.raises(ProgramError) as raised:
            for _ in range(6):
                pool.next_result(20)
        assert (raised.value.status, raised.value.said) == (3, said)
        with pytest.raises(ProgramError, match="a worker process"):
            pool.submit(9, doubled, 1)


def test_a_pool_is_closed_at_once() -> None:
    """This holds even if its workers write large results."""
    with ProcessPool[int](2) as pool:
        for number in range(40):
            pool.submit(number, slept, 0.1, bytes(2**20))
        pool.next_result(30)
        began = time.monotonic()
    assert time.monotonic() - began < 2


# A user's script has no `if __name__ == "__main__"`.
SCRIPT = """import sys, time
sys.path.insert(0, {tests!r})
from dnlab.processes.subprocesses import handle_signals
from dnlab.processes.process_pool import ProcessPool
from test_process_pool import doubled, slept
handle_signals("it")
pool = ProcessPool(2)
pool.submit(1, doubled, 21)
print(pool.next_result().get(), flush=True)
for number in range(4):
    pool.submit(number, slept, 60, b"")
time.sleep(60)
"""


def processes_of(session: int) -> list[int]:
    found = []
    for stat in Path("/proc").glob("[0-9]*/stat"):
        try:
            state, _, _, own = stat.read_text().rpartition(")")[2].split()[:4]
        except (FileNotFoundError, ProcessLookupError):
            continue
        if int(own) == session and state != "Z":
            found.append(int(stat.parent.name))
    return found


@pytest.mark.parametrize("number", [signal.SIGINT, signal.SIGTERM, signal.SIGHUP, signal.SIGKILL])
def test_nothing_is_left_of_a_parent(number: signal.Signals, tmp_path: Path) -> None:
    """Semaphores are files in /dev/shm, and jobs are files in the folder for temporary files."""
    (tmp_path / "script.py").write_text(SCRIPT.format(tests=str(ROOT / "python/tests")))
    (tmp_path / "tmp").mkdir()
    with subprocess.Popen([sys.executable, "script.py"], cwd=tmp_path, stdout=subprocess.PIPE,
                          stderr=subprocess.PIPE, text=True,
                          start_new_session=True,
                          preexec_fn=lambda: [signal.signal(it, signal.SIG_DFL) for it in (1, 2, 15)],
                          env={**os.environ, "PYTHONPATH": str(ROOT / "python"),
                               "TMPDIR": str(tmp_path / "tmp")}) as process:
        assert process.stdout and process.stdout.readline() == "42\n"
        time.sleep(0.5)
        semaphores = set(re.findall(r"/dev/shm/\S+", Path(f"/proc/{process.pid}/maps").read_text()))
        assert semaphores
        (os.kill if number == signal.SIGKILL else os.killpg)(process.pid, number)
        began = time.monotonic()
        _, err = process.communicate(timeout=20)
    while processes_of(process.pid) and time.monotonic() - began < 5:
        time.sleep(0.02)
    assert not processes_of(process.pid)
    assert process.returncode == -number
    assert err == ("" if number == signal.SIGKILL else f"it: ended by {number.name}: nothing was written\n")
    assert number == signal.SIGKILL or not os.listdir(tmp_path / "tmp")
    assert not [it for it in semaphores if os.path.exists(it)]
