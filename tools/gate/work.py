"""Commands that run beside each other, of which none is left behind, and lines that say how far they are."""
import contextlib
import ctypes
import fcntl
import os
import pathlib
import shutil
import signal
import subprocess
import sys
import time
from collections.abc import Generator, Sequence

# Seconds between two looks, between two lines that say how far it is, between two tries to remove a folder,
# and those that a command has to end after a signal.
LOOK, TELL, PAUSE, PATIENCE = 0.05, 4.0, 0.05, 3.0
# The word of prctl(2) by which a process gets a signal when the one that started it ends.
END_WITH_PARENT = 1


class Told:
    """Says what is being made: on a line that is written again if standard error is a terminal, else on a
    line of its own every `pause` seconds."""

    def __init__(self, who: str = "dnlab", pause: float = TELL) -> None:
        self.began, self.is_terminal, self.last = time.monotonic(), sys.stderr.isatty(), 0.0
        self.who, self.pause, self.what = who, 1.0 if self.is_terminal else pause, ""

    def tell(self, what: str = "") -> None:
        """Says what is done from now on, or how long it has taken."""
        now = time.monotonic()
        if what or (self.what and now - self.last >= self.pause):
            self.last, self.what = now, what or self.what
            line = f"{self.who}: {self.what}, {now - self.began:.0f} s"
            if self.is_terminal:
                line = f"\r\033[K{line[:shutil.get_terminal_size().columns - 1]}"
            print(line, end="" if self.is_terminal else "\n", file=sys.stderr, flush=True)

    def clear(self) -> None:
        """Removes the line that a terminal shows."""
        if self.is_terminal and self.last:
            print("\r\033[K", end="", file=sys.stderr, flush=True)

    def say(self, text: str) -> None:
        """Prints a line that stays."""
        self.clear()
        print(f"{self.who}: {text}", file=sys.stderr, flush=True)


class Work:
    """Commands that run beside each other, until they end or a signal ends this; none is left behind."""

    def __init__(self, told: Told) -> None:
        self.told, self.number = told, 0
        self.running: list["subprocess.Popen[bytes]"] = []

    def __enter__(self) -> "Work":
        for it in signal.SIGINT, signal.SIGTERM, signal.SIGHUP:
            # What is ignored from outside, as by nohup, stays so.
            if signal.getsignal(it) is not signal.SIG_IGN:
                signal.signal(it, self._note)
        return self

    def __exit__(self, *_: object) -> None:
        for it in self.running:
            end(it)
        self.told.clear()

    def _note(self, number: int, _frame: object) -> None:
        # No exception: it could come between a command's start and the note of it.
        self.number = self.number or number

    def look(self) -> None:
        """Ends this where a signal asked for it."""
        if self.number:
            raise SystemExit(128 + self.number)
        self.told.tell()

    @staticmethod
    def _end_with_parent() -> None:
        # Also where this process is killed, which can't end it then.
        ctypes.CDLL(None).prctl(END_WITH_PARENT, signal.SIGKILL)

    def start(self, words: Sequence[str], log: pathlib.Path, folder: pathlib.Path,
              **names: str) -> "subprocess.Popen[bytes]":
        with open(log, "wb") as out:
            self.running.append(subprocess.Popen(words, cwd=folder, stdin=subprocess.DEVNULL, stdout=out,
                                                 stderr=subprocess.STDOUT, start_new_session=True,
                                                 env={**os.environ, **names},
                                                 preexec_fn=self._end_with_parent))
        return self.running[-1]

    def lines(self, process: "subprocess.Popen[bytes]", log: pathlib.Path) -> Generator[str, None, None]:
        """Yields the lines of a command as it prints them, until it ends. Ends it if this is closed
        before."""
        try:
            with open(log, encoding="utf-8", errors="replace") as file:
                rest, has_ended = "", False
                while not has_ended:
                    has_ended = process.poll() is not None
                    *rows, rest = (rest + file.read()).split("\n")
                    yield from rows
                    self.look()
                    time.sleep(LOOK)
        finally:
            end(process)
            self.running.remove(process)

    def ended(self) -> list[int]:
        """Waits for what was started, and gives each one's status."""
        while any(it.poll() is None for it in self.running):
            self.look()
            time.sleep(LOOK)
        statuses = [it.returncode for it in self.running]
        self.running.clear()
        return statuses

    def lock(self, path: pathlib.Path, why: str) -> None:
        """Waits until nobody else holds a file or folder, and holds it until this process ends. Some file
        systems have no locks."""
        held, has_waited = os.open(path, os.O_RDONLY | os.O_CLOEXEC), False
        with contextlib.suppress(OSError):
            while True:
                try:
                    return fcntl.flock(held, fcntl.LOCK_EX | fcntl.LOCK_NB)
                except BlockingIOError:
                    if not has_waited:
                        self.told.tell(why)
                    has_waited = True
                self.look()
                time.sleep(LOOK)


def end(process: "subprocess.Popen[bytes]") -> None:
    """Ends a command that was started in a session of its own, with all that it started."""
    for number in signal.SIGTERM, signal.SIGKILL:
        with contextlib.suppress(OSError):
            os.killpg(process.pid, number)
        with contextlib.suppress(subprocess.TimeoutExpired):
            process.wait(PATIENCE)


def remove(folder: pathlib.Path) -> None:
    """Removes a folder, also where a command that was ended just now still wrote into it."""
    for _ in range(20):
        shutil.rmtree(folder, ignore_errors=True)
        if not os.path.lexists(folder):
            return
        time.sleep(PAUSE)
