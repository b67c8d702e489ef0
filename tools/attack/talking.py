"""A raw session with a program: sends lines and reads replies, without the package's client."""
import os
import pathlib
import select
import signal
import subprocess
import time
from collections.abc import Sequence

# The time limit for a reply, which is long enough for a busy machine (s).
PATIENCE = 30.0


class Silent(Exception):
    """No reply arrived in time."""


class Raw:
    """A program `dnlab live` with pipes. It is killed at the end of the `with` block."""

    def __init__(self, program: str, before: Sequence[str] = (), words: Sequence[str] = ()) -> None:
        self.process = subprocess.Popen([*before, program, "live", *words], stdin=subprocess.PIPE,
                                        stdout=subprocess.PIPE, stderr=subprocess.PIPE, bufsize=0)
        assert self.process.stdin and self.process.stdout and self.process.stderr
        self.input, self.output, self.errors = self.process.stdin, self.process.stdout, self.process.stderr
        self.rest = b""

    def __enter__(self) -> "Raw":
        return self

    def __exit__(self, *_: object) -> None:
        self.process.kill()
        self.process.wait()
        for pipe in self.input, self.output, self.errors:
            pipe.close()

    def line(self) -> bytes:
        """Returns the next output line without its line feed, or b'' at the end of the output."""
        end = time.monotonic() + PATIENCE
        while b"\n" not in self.rest:
            if not select.select([self.output], [], [], max(0.0, end - time.monotonic()))[0]:
                raise Silent
            said = os.read(self.output.fileno(), 1 << 16)
            if not said:
                return b""
            self.rest += said
        line, _, self.rest = self.rest.partition(b"\n")
        return line

    def ask(self, line: bytes) -> list[bytes]:
        """Sends a line. Returns the output up to its reply, which is the last line."""
        self.input.write(line + b"\n")
        said = [self.line()]
        while said[-1] and not said[-1].startswith(b"#< "):
            said.append(self.line())
        return said

    def fill(self) -> int:
        """Sends harmless lines until the pipe accepts no more for a second. Returns the number of bytes
        sent."""
        os.set_blocking(self.input.fileno(), False)
        went = 0
        lines = b"#> next\n" * 8192
        while select.select([], [self.input], [], 1.0)[1]:
            try:
                went += os.write(self.input.fileno(), lines[went % 8:])
            except BlockingIOError:
                time.sleep(0.01)
        os.set_blocking(self.input.fileno(), True)
        return went

    def drain(self) -> bytes:
        """Closes the input. Returns all remaining output."""
        self.input.close()
        said = [self.rest]
        while True:
            if not select.select([self.output], [], [], PATIENCE)[0]:
                raise Silent
            part = os.read(self.output.fileno(), 1 << 16)
            if not part:
                return b"".join(said)
            said.append(part)

    def status(self) -> int:
        """Waits for the program to end. Returns its status, or the negative number of the signal."""
        return self.process.wait(PATIENCE)

    def memory(self) -> int:
        """Returns the program's peak memory (bytes)."""
        text = pathlib.Path(f"/proc/{self.process.pid}/status").read_text(encoding="utf-8")
        return next(int(line.split()[1]) for line in text.splitlines() if line.startswith("VmHWM")) << 10

    def tell(self, number: signal.Signals) -> int:
        """Sends a signal. Returns the status like `status`."""
        self.process.send_signal(number)
        return self.status()
