"""What ends with this process: its subprocesses and private folders; and how it reacts to SIGINT, SIGTERM and
SIGHUP."""
import ctypes
import errno
import fcntl
import os
import resource
import shutil
import signal
import stat
import subprocess
import sys
import tempfile
import threading
import weakref
from contextlib import contextmanager, suppress
from functools import partial
from pathlib import Path
from types import FrameType
from typing import IO, Any, Callable, Iterator, NamedTuple, Optional, Sequence, Union

from dnlab.errors import ProgramError

# A tool calls `handle_signals` once. On a signal the chores run, the last one first; then the line is
# written, and the process ends with the same signal, so that its parent sees which. No exception is raised,
# because code at any place could swallow it. In a notebook nobody calls `handle_signals`, and Python's own
# behaviour is unchanged.

SIGNALS = (signal.SIGINT, signal.SIGTERM, signal.SIGHUP)
Chore = Callable[[], None]


class _Watch:
    """The state of the signal handler."""

    def __init__(self) -> None:
        self.tool = ""
        self.chores: list[Chore] = []
        # The number of open blocks that delay signals, and the signal that arrived meanwhile.
        self.held = 0
        self.came: Optional[int] = None
        self.told: Callable[[], str] = lambda: "nothing was written"

    def take(self, number: int, _: Optional[FrameType]) -> None:
        self.came = number
        if not self.held:
            self.end(number)

    def end(self, number: int) -> None:
        for one in SIGNALS:
            signal.signal(one, signal.SIG_IGN)
        self.came = None
        while self.chores:
            with suppress(BaseException):
                self.chores.pop()()
        with suppress(BaseException):
            os.write(2, f"{self.tool}: ended by {signal.Signals(number).name}: {self.told()}\n".encode())
        signal.signal(number, signal.SIG_DFL)
        signal.pthread_sigmask(signal.SIG_UNBLOCK, SIGNALS)
        os.kill(os.getpid(), number)
        os._exit(128 + number)


_WATCH = _Watch()


def handle_signals(tool: str) -> None:
    """Installs the handler. Signals that were ignored before (nohup) stay ignored."""
    _WATCH.tool = tool
    if threading.current_thread() is not threading.main_thread():
        return
    for number in SIGNALS:
        if signal.getsignal(number) != signal.SIG_IGN:
            signal.signal(number, _WATCH.take)
    signal.pthread_sigmask(signal.SIG_UNBLOCK, SIGNALS)


def set_message(said: Callable[[], str]) -> None:
    """Sets the text that follows the signal's name in the line."""
    _WATCH.told = said


def add_chore(chore: Chore) -> None:
    """Adds a chore, which runs before those that were added earlier."""
    _WATCH.chores.append(chore)


def remove_chore(chore: Chore) -> None:
    """Removes a chore that was done or is no longer needed."""
    with suppress(ValueError):
        _WATCH.chores.remove(chore)


@contextmanager
def signals_delayed() -> Iterator[None]:
    """Delays signals until the end of the block, so that what belongs together is done completely or not at
    all."""
    _WATCH.held += 1
    try:
        yield
    finally:
        _WATCH.held -= 1
        if _WATCH.came is not None and not _WATCH.held:
            _WATCH.end(_WATCH.came)


_PR_SET_PDEATHSIG = 1
# Whether a subprocess gets a process group of its own. Those of a worker are in the worker's group, and end
# with it.
GROUPED = True
# The maximum output of a program that does not write a report, in bytes.
MOST_SAID = 1 << 26
_LIBC = ctypes.CDLL(None) if sys.platform == "linux" else None


class Killed(ProgramError):
    """A program was ended by a signal, so it has no exit status. Has the signal's number, `ended_by`."""

    def __init__(self, said: str, ended_by: int) -> None:
        super().__init__(3, said)
        self.ended_by = ended_by

    def __reduce__(self) -> tuple[type, tuple[str, int]]:
        return Killed, (self.said, self.ended_by)

    def about(self, what: str) -> "Killed":
        """Returns the same error, with what it is about before its text."""
        return Killed(f"{what}: {self.said}", self.ended_by)


class Done(NamedTuple):
    """The result of a program: its status (if negative, the number of the signal that ended it), and its
    output."""
    status: int
    out: bytes
    errors: bytes

    def said(self) -> str:
        """Returns its standard error as text."""
        return self.errors.decode(errors="replace").strip()


def _bounded(parent: int, number: int, most: Optional[int]) -> None:
    """Makes a new process end with its parent, and when it writes more than `most` bytes to a file. Runs in
    that process."""
    die_with(parent, number)
    if most is not None:
        _, hard = resource.getrlimit(resource.RLIMIT_FSIZE)
        resource.setrlimit(resource.RLIMIT_FSIZE,
                           (most if hard == resource.RLIM_INFINITY else min(most, hard), hard))


def die_with(parent: int, number: int = signal.SIGKILL) -> None:
    """Makes this process receive a signal when its parent ends. Exits at once if the parent has already
    ended."""
    if _LIBC is not None:
        _LIBC.prctl(_PR_SET_PDEATHSIG, int(number), 0, 0, 0)
    if os.getppid() != parent:
        os._exit(3)


def signal_of(status: int) -> Optional[int]:
    """Returns the number of the signal that ended a program, also for a shell's status; None if no signal
    did.

    >>> signal_of(-9), signal_of(143), signal_of(3)
    (9, 15, None)
    """
    number = -status if status < 0 else status - 128
    return number if number in signal.valid_signals() and number > 0 else None


def kill(process: "subprocess.Popen[bytes]") -> None:
    """Kills a process and its group. Until it is waited for, no other process can get its number."""
    if process.returncode is None:
        with suppress(ProcessLookupError, PermissionError):
            (os.killpg if GROUPED else os.kill)(process.pid, signal.SIGKILL)
        process.wait()


@contextmanager
def child(words: Sequence[str], how_to_end: Callable[["subprocess.Popen[bytes]"], None] = kill,
          **how: Any) -> Iterator["subprocess.Popen[bytes]"]:
    """Starts a process like subprocess.Popen, and kills it and its group at the end of the block."""
    with signals_delayed():
        process = start(words, **how)
        chore = partial(how_to_end, process)
        add_chore(chore)
    try:
        yield process
    finally:
        with signals_delayed():
            chore()
            remove_chore(chore)


def start(words: Sequence[str], death: int = signal.SIGKILL, most: Optional[int] = None,
          **how: Any) -> "subprocess.Popen[bytes]":
    """Starts a process like `child`, but the caller must end it.

    It receives the signal `death` if this process is killed, and SIGXFSZ if it writes more than `most` bytes
    to a file. Raises `ProgramError` if there is no such program."""
    try:
        return subprocess.Popen(words, process_group=0 if GROUPED else None,
                                preexec_fn=partial(_bounded, os.getpid(), death, most), **how)
    except OSError as fault:
        raise ProgramError(3, f"{words[0]}: {fault.strerror}") from None


def wait(process: "subprocess.Popen[bytes]") -> int:
    """Waits for a process, kills what is left of its group, and returns its status."""
    os.waitid(os.P_PID, process.pid, os.WEXITED | os.WNOWAIT)
    kill(process)
    return process.returncode


def run(words: Sequence[str], text: bytes = b"", out: Optional[IO[bytes]] = None,
        most: int = MOST_SAID) -> Done:
    """Runs a program with `text` as its standard input, and returns its result.

    The output goes to `out`, if given. Raises `Killed` if a signal ended the program, as happens after `most`
    bytes of output. Input and output are files, so that nothing can block on a full pipe."""
    with (tempfile.TemporaryFile() as given, tempfile.TemporaryFile() as errors,
          tempfile.TemporaryFile() as own):
        given.write(text)
        given.flush()
        given.seek(0)
        before = os.fstat(out.fileno()).st_size if out else 0
        with child(words, stdin=given, stdout=out or own, stderr=errors, most=before + most) as process:
            status = wait(process)
        for file in own, errors:
            file.seek(0)
        done = Done(status, own.read(), errors.read())
    ended_by = signal_of(done.status)
    if ended_by:
        raise Killed(f"{words[0]} was {describe_exit(ended_by)}", ended_by)
    return done


def describe_exit(ended_by: int) -> str:
    """Returns a description of an end by a signal.

    >>> describe_exit(9)
    'ended by SIGKILL (out of memory?)'
    """
    why = {signal.SIGKILL: " (out of memory?)",
           signal.SIGXFSZ: " (it wrote more than its scenario can produce)"}
    return f"ended by {signal.Signals(ended_by).name}{why.get(signal.Signals(ended_by), '')}"


PREFIX = "dnlab-room."
# The owner holds a lock on this file of the folder until its process ends, however it ends.
OWNER = "owner"
# Jobs of another machine that belong to a folder: a file with the command that ends them.
CANCEL = "cancel"


def lock(path: Path, flags: int) -> Optional[IO[bytes]]:
    """Opens and locks a file. Returns None if another process has locked it, or if it has been removed."""
    try:
        file = os.fdopen(os.open(path, flags | os.O_RDWR | os.O_NOFOLLOW | os.O_CLOEXEC, 0o666), "r+b",
                         buffering=0)
    except (FileNotFoundError, NotADirectoryError):
        return None
    try:
        fcntl.flock(file, fcntl.LOCK_EX | fcntl.LOCK_NB)
    except OSError as fault:
        # Some network file systems have no locks: a new folder is used then, and an old one stays.
        if flags & os.O_CREAT and fault.errno not in (errno.EAGAIN, errno.EACCES):
            return file
        file.close()
        return None
    # The file may have been removed between opening and locking.
    with suppress(FileNotFoundError):
        if os.path.samestat(os.stat(path, follow_symlinks=False), os.fstat(file.fileno())):
            return file
    file.close()
    return None


def remove_leftovers(folder: Path) -> None:
    """Removes folders in `folder` whose owner has ended. Folders of other users, and links, stay."""
    with suppress(OSError), os.scandir(folder) as entries:
        for entry in [one for one in entries if one.name.startswith(PREFIX)]:
            with suppress(OSError):
                found = entry.stat(follow_symlinks=False)
                if stat.S_ISDIR(found.st_mode) and found.st_uid == os.getuid():
                    _remove_leftover(Path(entry.path))


def _remove_leftover(path: Path) -> None:
    if not (path / OWNER).exists():
        # Just created, or its owner has just ended: if empty it is removed, and its owner creates another.
        path.rmdir()
        return
    held = lock(path / OWNER, 0)
    if held is not None:
        with held:
            cancel(path)
            shutil.rmtree(path, ignore_errors=True)


def cancel(path: Path) -> None:
    """Ends the jobs of other machines that belong to a folder."""

    with suppress(OSError):
        words = (path / CANCEL).read_text().split("\n")
        if shutil.which(words[0]):
            run(words)
        (path / CANCEL).unlink()


class TempDir:
    """A private folder, `path`, in `folder` (by default the one for temporary files)."""

    def __init__(self, folder: Union[str, Path, None] = None) -> None:
        within = Path(tempfile.gettempdir() if folder is None else folder).absolute()
        remove_leftovers(within)
        with signals_delayed():
            held = None
            while held is None:
                self.path = Path(tempfile.mkdtemp(prefix=PREFIX, dir=within))
                held = lock(self.path / OWNER, os.O_CREAT)
            chore = partial(_leave, self.path, held, os.getpid())
            add_chore(chore)
        self._left: Callable[[], object] = weakref.finalize(self, _close, chore)

    def close(self) -> None:
        self._left()

    def __enter__(self) -> "TempDir":
        return self

    def __exit__(self, *_: object) -> None:
        self.close()


def _leave(path: Path, held: IO[bytes], owner: int) -> None:
    if os.getpid() == owner:  # A forked copy of this process must not remove the folder.
        cancel(path)
        shutil.rmtree(path, ignore_errors=True)
        held.close()


def _close(chore: Chore) -> None:
    with signals_delayed():
        chore()
        remove_chore(chore)
