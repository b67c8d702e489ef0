"""Runs dnlab in this process through the library libdnlab: the bytes of a scenario in, the bytes of its
report out.

    from dnlab import library
    report = library.alone(b"experiment a seed 0 budget 9\\n@0 end\\n")

Calls release the GIL, so threads run concurrently. A call can't be interrupted: Ctrl-C waits for its end.
`dnlab.run(.., engine="library")` returns the same as tables, and `dnlab.live(engine="library")` opens a
session on `Talk`.
"""
import ctypes
import ctypes.util
import os
import threading
import weakref
from functools import lru_cache
from pathlib import Path
from types import TracebackType
from typing import Any, Callable, Optional, Union, cast

from dnlab.errors import ProgramError
from dnlab.io.scenario_parts import CAUSES
from dnlab.programs import ROOT

__all__ = ["FaultIn", "Talk", "alone", "check", "explain", "library", "records", "version"]

_NAME = "libdnlab.so.1"
# A package of pip contains the library; tools/install puts it into PREFIX/lib, and the package into
# PREFIX/share/dnlab/python.
PLACES = (Path(__file__).resolve().parent / "bin" / _NAME, ROOT.parents[1] / "lib" / _NAME)
_LACKING = (
    "there is no libdnlab: build it with tools/library PREFIX, then name its libdnlab.so by the environment "
    "variable LIBDNLAB, or install it next to the package")


def library() -> str:
    """Returns the library to load: that of the environment variable LIBDNLAB, else the one in the package or
    installed with it, else the system's.

    Raises `ProgramError` with status 2 if LIBDNLAB names no library, with 3 if there is none."""
    named = os.environ.get("LIBDNLAB")
    if named:
        if not os.path.isfile(named):
            raise ProgramError(2, f"{named} is no library (the environment variable LIBDNLAB names it)")
        return os.path.abspath(named)
    found: Optional[Path] = next((place for place in PLACES if place.is_file()), None)
    loaded = str(found) if found is not None else ctypes.util.find_library("dnlab")
    if loaded is None:
        raise ProgramError(3, _LACKING)
    return loaded


DONE, FAULT, CLOSED, STEPS, ROOM = 0, 1, 2, 4, 5
# Initial size of the buffer, in bytes: most reports of short scenarios fit.
FIRST = 1 << 16


class Answer(ctypes.Structure):
    """The result of a call: a status, and lengths and lines as in library/dnlab.h."""
    _fields_ = [("status", ctypes.c_uint32), ("cause", ctypes.c_uint32), ("line", ctypes.c_uint64),
                ("length", ctypes.c_uint64)]


class Place(ctypes.Structure):
    """A pointer to a session; null if there is none."""
    _fields_ = [("at", ctypes.c_void_p)]


class FaultIn(ProgramError):
    """A text is not a valid scenario. Has `line` (from 1) and `cause`, as the program reports them."""

    def __init__(self, line: int, cause: str) -> None:
        super().__init__(1, f"line {line}: {cause}")
        self.line = line
        self.cause = cause

    def __reduce__(self) -> tuple[type, tuple[int, str]]:
        """Makes pickling between processes keep line and cause."""
        return FaultIn, (self.line, self.cause)


@lru_cache(maxsize=4)
def bound(path: str) -> ctypes.CDLL:
    """Returns the library at a path, with the types of its functions declared."""
    text: list[Any] = [ctypes.c_char_p, ctypes.c_size_t]
    room: list[Any] = [ctypes.c_void_p, ctypes.c_size_t, ctypes.POINTER(Answer)]
    place: Any = ctypes.POINTER(Place)
    calls = {"alone": [*text, *room], "alone_within": [*text, ctypes.c_uint64, *room],
             "check": [*text, *room], "records": [*text, *room], "explain": [*text, ctypes.c_bool, *room],
             "version": room, "open": [place, room[-1]], "take": [place, *text, *room],
             "close": [place, room[-1]]}
    try:
        found = ctypes.CDLL(path)
        for name, words in calls.items():
            call = getattr(found, f"dnlab_{name}")
            call.argtypes, call.restype = words, None
    except (OSError, AttributeError) as fault:
        raise ProgramError(3,
                           f"{path} can't be used: {fault} (tools/library makes it, for "
                           "Linux on x86-64)") from None
    return found


def _called(name: str, *given: Union[bytes, int, bool]) -> bytes:
    """Returns what a call writes into its buffer, which is enlarged if it was too small."""
    call: Callable[..., None] = getattr(bound(library()), name)
    size, answer = FIRST, Answer()
    while True:
        room = bytearray(size)
        held = (ctypes.c_char * size).from_buffer(room)
        call(*given, ctypes.addressof(held), size, ctypes.byref(answer))
        del held
        if answer.status == ROOM:
            size = answer.length
            continue
        if answer.status == FAULT:
            raise FaultIn(answer.line, CAUSES[answer.cause - 1])
        if answer.status == STEPS:
            raise ProgramError(3,
                               f"steps: experiment {answer.line + 1} of the text exceeds max_steps; "
                               f"max_steps={answer.length} lets all run")
        if answer.status != DONE:
            raise ProgramError(3, "memory")
        return bytes(memoryview(room)[:answer.length])


def alone(text: bytes, max_steps: Optional[int] = None) -> bytes:
    """Returns the report of a scenario, the same bytes as `dnlab alone`.

    Raises `FaultIn` if the text is not a valid scenario, and `ProgramError` if memory runs out, or if all
    experiments together may take more than `max_steps` steps. Set `max_steps` for texts that you did not
    write.
    """
    if max_steps is None:
        return _called("dnlab_alone", text, len(text))
    return _called("dnlab_alone_within", text, len(text), max_steps)


def records(text: bytes) -> bytes:
    """Returns the records of a scenario as one NumPy array, the same bytes as `dnlab alone --format npy`.
    Fails like `alone`."""
    return _called("dnlab_records", text, len(text))


def check(text: bytes) -> bytes:
    """Returns the line that `dnlab check` writes for a scenario. Fails like `alone`."""
    return _called("dnlab_check", text, len(text))


def explain(text: bytes, runs: bool = False) -> str:
    """Returns what `--explain` prints after the line of a fault; if `runs` is true, also about the run, which
    is then made."""
    return _called("dnlab_explain", text, len(text), runs).decode()


def version() -> str:
    """Returns the library's version, as `0.2.0 (commit 0123456, not proved)`."""
    return _called("dnlab_version").decode()


def _closed(calls: ctypes.CDLL, place: Place) -> Answer:
    answer = Answer()
    calls.dnlab_close(ctypes.byref(place), ctypes.byref(answer))
    return answer


class Talk:
    """A session in this process: `take` accepts a line, and returns what `dnlab live` would write.

        with library.Talk() as talk:
            talk.take(b"experiment a seed 0 budget 9")
            said = talk.take(b"@0 end")

    Threads may share one; lines are processed one at a time. The memory is freed by `close`, at the end of
    the block, or with the object."""

    def __init__(self) -> None:
        calls = bound(library())
        self._place, self._answer, self._lock = Place(), Answer(), threading.Lock()
        self._take, self._at, self._told = calls.dnlab_take, ctypes.byref(self._place), ctypes.byref(
            self._answer)
        self._room = ctypes.create_string_buffer(FIRST)
        calls.dnlab_open(self._at, self._told)
        if self._answer.status != DONE:
            raise ProgramError(3, "memory")
        self._forget = weakref.finalize(self, _closed, calls, self._place)

    @property
    def has_ended(self) -> bool:
        """Returns whether it is closed."""
        return not self._forget.alive

    def take(self, line: bytes) -> bytes:
        """Returns the reply to a line, given without its line feed. A rejected line is answered by `#< fault
        CAUSE`. Raises `ProgramError` if memory runs out, now or before, or if the session is closed."""
        answer = self._answer
        with self._lock:
            self._take(self._at, line, len(line), self._room, len(self._room), self._told)
            while answer.status == ROOM:
                # The buffer was too small, but the library keeps the reply: an empty line returns it and adds
                # nothing.
                self._room = ctypes.create_string_buffer(answer.length)
                self._take(self._at, b"", 0, self._room, len(self._room), self._told)
            if answer.status == DONE:
                # (a slice of an array of characters is bytes)
                return cast(bytes, self._room[:answer.length])
        if answer.status == CLOSED:
            raise ProgramError(0, "the session is closed")
        raise ProgramError(3, "memory")

    def close(self) -> None:
        """Ends the session. Raises `FaultIn` if an experiment has no `end`, and `ProgramError` if memory ran
        out before; it is closed in both cases. Further calls do nothing."""
        with self._lock:
            answer = self._forget()
        if answer is not None and answer.status == FAULT:
            raise FaultIn(answer.line, CAUSES[answer.cause - 1])
        if answer is not None and answer.status != DONE:
            raise ProgramError(3, "memory")

    def __enter__(self) -> "Talk":
        return self

    def __exit__(self, kind: Optional[type[BaseException]], value: Optional[BaseException],
                 where: Optional[TracebackType]) -> None:
        if kind is None:
            self.close()
        else:
            self._forget()
