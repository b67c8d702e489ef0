"""Writes the plan for the guest, starts the guest, or the link process if the clock is `wall`, and ends it at
a limit or a signal. A shell of a run has a terminal of its own: what you type goes to it, and what it writes
is shown."""
import array
import fcntl
import os
import resource
import select
import shutil
import signal
import socket
import subprocess
import sys
import termios
import time
import tty
from contextlib import contextmanager, suppress
from pathlib import Path
from typing import Any, Callable, Iterator, NamedTuple, Optional, Union

from dnlab.emulation.experiment import Experiment, Host
from dnlab.emulation.kernel_cache import Kernel
from dnlab.errors import InputError, ResourceError
from dnlab.processes import subprocesses
from dnlab.processes.progress import Progress

# The line formats are those of hosts/start and hosts/link.

LINK, PLAN = "guest/link.conf", "guest/plan"
# What the guest leaves.
EXITS, COUNTS, CONSOLE, FAILED = "guest/exits", "guest/counts", "guest/console", "guest/failed"
TRANSCRIPT, REPORT = "transcript.txt", "report.txt"


def capture_of(host: Host) -> str:
    """Returns the name of a host's capture, relative to the output folder."""
    return f"hosts/{host.name}/eth0.pcap"


def link_lines(experiment: Experiment) -> Iterator[str]:
    """Returns the lines of guest/link.conf."""
    yield f"seed {experiment.seed}"
    yield f"steps {experiment.steps}"
    yield f"transcript {TRANSCRIPT}"
    yield f"report {REPORT}"
    for host in experiment.hosts:
        yield f"host {host.name} {host.address} {capture_of(host)}"
    for line in experiment.network:
        yield f"do @{line.moment} {line.command}"


def plan_lines(experiment: Experiment) -> Iterator[str]:
    """Returns the lines of guest/plan."""
    yield f"end {experiment.stop_ns}"
    for host in experiment.hosts:
        yield f"host {host.name} {host.address}"
        yield from (f"sysctl {name} {value}" for name, value in host.sysctl)
        yield from (f"setup {line}" for line in host.setup)
        for index in range(len(host.processes)):
            yield from _process_lines(experiment, host, index)


def _process_lines(experiment: Experiment, host: Host, index: int) -> Iterator[str]:
    process, stem = host.processes[index], host.stem(index)
    yield f"process {index} {experiment.start_of(host, index)} {stem}.stdout {stem}.stderr"
    yield f"path {_escaped(process.path)}"
    yield from (f"argument {_escaped(word)}" for word in process.arguments)
    yield from (f"environment {name}={_escaped(value)}" for name, value in process.environment)
    if process.user is not None:
        yield f"user {process.user}"
    if process.stop_ns is not None:
        yield f"stop {process.stop_ns} {process.stop_signal}"
    expected = process.expected
    yield f"expects {expected.kind}" + ("" if expected.number is None else f" {expected.number}")


def _escaped(text: str) -> str:
    r"""Returns a text on one line.

    >>> _escaped("a\n\\b")
    'a\\n\\\\b'
    """
    return text.replace("\\", "\\\\").replace("\n", "\\n")


def write(experiment: Experiment, out: Path) -> None:
    """Fills the output folder: the user's files, a folder for each host, and what the guest reads.

    All have the start date as their time, so that programs that send file times send the same on each run."""
    if experiment.template is not None:
        shutil.copytree(experiment.template, out, symlinks=True, dirs_exist_ok=True)
    for name, text in experiment.files:
        (out / name).parent.mkdir(parents=True, exist_ok=True)
        (out / name).write_text(text, encoding="utf-8")
        if text.startswith("#!"):
            (out / name).chmod(0o755)
    (out / "guest").mkdir(exist_ok=True)
    for host in experiment.hosts:
        (out / "hosts" / host.name).mkdir(parents=True, exist_ok=True)
    for place, lines in (LINK, link_lines(experiment)), (PLAN, plan_lines(experiment)):
        (out / place).write_text("".join(f"{line}\n" for line in lines), encoding="utf-8")
    moment = experiment.settings.start_date_ns
    for folder, folders, files in os.walk(out, topdown=False):
        for name in (*files, *folders):
            os.utime(os.path.join(folder, name), ns=(moment, moment), follow_symlinks=False)
    os.utime(out, ns=(moment, moment))


def empty_folder(out: Path, is_forced: bool) -> None:
    """Creates the output folder. Raises `InputError` if it has files, unless `is_forced`, which empties it.

    Removes only what a run has written: a folder without guest/plan in it is refused in any case."""
    if out.is_dir() and any(out.iterdir()):
        if not is_forced:
            raise InputError(f"{out} is not empty; name another folder by --out, or overwrite it by --force")
        if not (out / PLAN).is_file():
            raise InputError(
                f"{out} is not the folder of a run, so --force does not remove it; name another by --out")
        for it in out.iterdir():
            shutil.rmtree(it) if it.is_dir() and not it.is_symlink() else it.unlink()
    out.mkdir(parents=True, exist_ok=True)


_TUN = Path("/dev/net/tun")
# How often the progress is shown, in seconds.
_LOOK_S = 0.5


class Ran(NamedTuple):
    """How a guest ended: its status, whether the limit ended it, and its wall and CPU time in seconds."""
    status: int
    is_over_limit: bool
    wall_s: float
    cpu_s: float


def run_simulated(experiment: Experiment, kernel: Kernel, out: Path, limit_s: int) -> Ran:
    """Runs the guest's kernel in the output folder, on one CPU, without this process' environment."""
    with _cpu() as cpu, open(out / CONSOLE, "wb") as console:
        words = ["taskset", "-c", str(cpu), "setarch", "-R", *kernel_words(experiment, kernel)]
        watched = _Watched(out, experiment.stop_ns // 10**9)
        return _run(words, limit_s, watched, cwd=out, stdin=subprocess.DEVNULL, stdout=console,
                    stderr=console, env={"PATH": "/usr/sbin:/usr/bin:/sbin:/bin"})


def run_by_wall_clock(kernel: Kernel, out: Path, limit_s: int, terminal: "Optional[Terminal]" = None) -> Ran:
    """Runs the link process and the programs on this machine; if an ordinary user runs it, in a user
    namespace.

    A shell among the programs has a terminal."""
    if not os.access(_TUN, os.R_OK | os.W_OK):
        raise ResourceError(
            f"{_TUN} cannot be opened, so there are no devices for the hosts: run as root, or type: "
            f"chmod 666 {_TUN}")
    words = [str(kernel.file("link")), LINK, PLAN]
    if os.geteuid() != 0:
        words = ["unshare", "-Urm", *words]
    with open(out / CONSOLE, "wb") as console:
        return _run(words, limit_s, terminal, cwd=out, stdin=subprocess.DEVNULL, stdout=console,
                    stderr=console)


def kernel_words(experiment: Experiment, kernel: Kernel) -> list[str]:
    """Returns the command line of the guest's kernel; its current folder is the output folder."""
    settings = experiment.settings
    return [str(kernel.file("linux")), f"rootflags={settings.rootfs or '/'}", f"mem={settings.memory_mib}M",
            "time-travel=inf-cpu", f"time-travel-start={settings.start_date_ns}",
            f"time-travel-cost={settings.clock_read_ns},{settings.syscall_ns}",
            f"time-travel-reads={settings.reads}", f"time-travel-polls={settings.polls}",
            f"rng-seed={experiment.seed}", "quiet", "con=null", "con0=null,fd:1", f"dnlab={LINK}"]


class _Watched(NamedTuple):
    """A run whose progress is shown: its output folder, and when it stops (s of simulated time)."""
    out: Path
    stop_s: int


def seconds_done(out: Path) -> int:
    """Returns the simulated seconds of a run so far, by the last whole line of its transcript."""
    try:
        with open(out / TRANSCRIPT, "rb") as file:
            file.seek(max(0, os.fstat(file.fileno()).st_size - 4096))
            lines = file.read().split(b"\n")[1:-1]
        return int(lines[-1].split()[0][1:]) // 10**9 if lines and lines[-1].startswith(b"@") else 0
    except (OSError, ValueError, IndexError):
        return 0


def _run(words: list[str], limit_s: int, seen: "Union[_Watched, Terminal, None]", **how: Any) -> Ran:
    """Runs a process to its end or its limit, while its progress or its terminal is shown."""
    began, before = time.monotonic(), _cpu_of_children()
    with subprocesses.child(words, **how) as process:
        if isinstance(seen, Terminal):
            with _descriptor(process) as descriptor:
                seen.relay(descriptor)
        in_time = (_ends_within(process, limit_s, seen) if isinstance(seen, _Watched)
                   else _has_ended(process, limit_s))
        if not in_time:
            subprocesses.kill(process)
        status = subprocesses.wait(process) if process.returncode is None else process.returncode
    return Ran(status, not in_time, time.monotonic() - began, _cpu_of_children() - before)


def _ends_within(process: "subprocess.Popen[bytes]", limit_s: int, watched: _Watched) -> bool:
    """Waits for the end of a process and shows how far it is; returns false at the limit."""
    last = time.monotonic() + limit_s
    with Progress("hosts", watched.stop_s, unit="s") as progress:
        while not _has_ended(process, min(_LOOK_S, max(0.0, last - time.monotonic()))):
            if time.monotonic() >= last:
                return False
            progress.step(max(0, seconds_done(watched.out) - progress.done))
    return True


@contextmanager
def _descriptor(process: "subprocess.Popen[bytes]") -> Iterator[int]:
    """Yields a descriptor that can be read once a process has ended."""
    descriptor = os.pidfd_open(process.pid)
    try:
        yield descriptor
    finally:
        os.close(descriptor)


def _has_ended(process: "subprocess.Popen[bytes]", seconds: float) -> bool:
    """Waits for the end of a process without reaping it; returns false if it is not over in time."""
    with _descriptor(process) as descriptor:
        return bool(select.select([descriptor], [], [], seconds)[0])


def _cpu_of_children() -> float:
    used = resource.getrusage(resource.RUSAGE_CHILDREN)
    return used.ru_utime + used.ru_stime


@contextmanager
def _cpu() -> Iterator[int]:
    """Yields the CPU that is idle most, of those that no other run of this user has."""
    before = _idle()
    time.sleep(0.03)
    idle = {cpu: ticks - before.get(cpu, ticks) for cpu, ticks in _idle().items()}
    allowed = sorted(os.sched_getaffinity(0), key=lambda cpu: (-idle.get(cpu, 0), cpu))
    # A CPU is claimed by a socket's name, which the end of this process frees. A name that begins with a byte
    # 0 is no file (unix(7)).
    with socket.socket(socket.AF_UNIX, socket.SOCK_DGRAM) as claim:
        for chosen in [*allowed, allowed[0]]:
            with suppress(OSError):
                claim.bind(f"\0dnlab-cpu.{os.getuid()}.{chosen}")
                break
        yield chosen


def _idle() -> dict[int, int]:
    """Returns the idle ticks of each CPU."""
    lines = Path("/proc/stat").read_text().splitlines()
    rows = (line.split() for line in lines if line.startswith("cpu") and line[3].isdigit())
    return {int(row[0][3:]): int(row[4]) for row in rows}


_BLOCK = 65536
# What a terminal takes for the end of the input, at the begin of a line.
_END_OF_INPUT = b"\x04"


class Terminal:
    """A pseudoterminal; the shell opens it by its `path`. Leave it by `close`, or as a block."""

    def __init__(self) -> None:
        # The shell's side stays open here too, so that only the process' end ends the relay.
        self._own, self._shells = os.openpty()
        self.path = os.ttyname(self._shells)

    def __enter__(self) -> "Terminal":
        return self

    def __exit__(self, *_: object) -> None:
        self.close()

    def close(self) -> None:
        """Closes both sides."""
        for side in self._own, self._shells:
            with suppress(OSError):
                os.close(side)

    def relay(self, has_ended: int) -> None:
        """Copies both ways until a descriptor (of a process) can be read."""
        with _raw(), _resized(self._resize):
            given: Optional[int] = sys.stdin.fileno()
            while True:
                waiting = [self._own, has_ended, *([] if given is None else [given])]
                ready = select.select(waiting, [], [])[0]
                if self._own in ready:
                    _write(sys.stdout.fileno(), os.read(self._own, _BLOCK))
                elif has_ended in ready:
                    return
                if given is not None and given in ready:
                    typed = os.read(given, _BLOCK)
                    _write(self._own, typed or _END_OF_INPUT)
                    given = given if typed else None

    def _resize(self) -> None:
        """Gives the shell's terminal the size of this one."""
        size = array.array("h", [24, 80, 0, 0])
        with suppress(OSError):
            fcntl.ioctl(sys.stdin.fileno(), termios.TIOCGWINSZ, size)
        fcntl.ioctl(self._own, termios.TIOCSWINSZ, size)


def _write(to: int, data: bytes) -> None:
    while data:
        data = data[os.write(to, data):]


@contextmanager
def _raw() -> Iterator[None]:
    """Has each key go to the shell as it is typed, also Ctrl-C; the terminal's mode comes back at the end."""
    if not sys.stdin.isatty():
        yield
        return
    mode: list[Any] = termios.tcgetattr(sys.stdin)

    def restore() -> None:
        termios.tcsetattr(sys.stdin, termios.TCSADRAIN, mode)

    subprocesses.add_chore(restore)
    try:
        tty.setraw(sys.stdin)
        yield
    finally:
        restore()
        subprocesses.remove_chore(restore)


@contextmanager
def _resized(resize: Callable[[], None]) -> Iterator[None]:
    """Resizes the shell's terminal now, and whenever this one changes."""
    resize()
    before = signal.signal(signal.SIGWINCH, lambda *_: resize())
    try:
        yield
    finally:
        signal.signal(signal.SIGWINCH, before)
