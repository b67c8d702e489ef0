"""What tools/gate/check_library tries of libdnlab beneath the package's module: rooms that just fit or are
too small, which nothing may be written past, and allocations that are refused."""
import ctypes
import pathlib
from collections.abc import Sequence

from examples import Example
from tally import Trials

# As library/dnlab.h has them.
DONE, FAULT, CLOSED, MEMORY, _, ROOM = range(6)
NOEND = 7
FILL, GUARD = b"\xa5", 64
LITTLE, LARGE = 5, 1 << 16


class Answer(ctypes.Structure):
    _fields_ = [("status", ctypes.c_uint32), ("cause", ctypes.c_uint32), ("line", ctypes.c_uint64),
                ("length", ctypes.c_uint64)]

    def all(self) -> tuple[int, int, int, int]:
        return self.status, self.cause, self.line, self.length


class Library:
    """The calls of a shared object."""

    def __init__(self, path: pathlib.Path) -> None:
        self.calls = ctypes.CDLL(str(path))

    def call(self, name: str, text: bytes, size: int, *more: object,
             before: Sequence[object] = ()) -> tuple[Answer, bytes]:
        """Returns the answer of a call with a room of this size, and the room. Raises ValueError if it writes
        past it."""
        answer, room = Answer(9, 9, 9, 9), ctypes.create_string_buffer(FILL * (size + GUARD), size + GUARD)
        getattr(self.calls, f"dnlab_{name}")(*before, text, ctypes.c_size_t(len(text)), *more, room,
                                             ctypes.c_size_t(size), ctypes.byref(answer))
        if room.raw[size:] != FILL * GUARD:
            raise ValueError(f"{name} writes past its room")
        return answer, room.raw[:size]

    def place(self, name: str, session: ctypes.c_void_p) -> int:
        """Returns the status of dnlab_open or dnlab_close."""
        answer = Answer(9, 9, 9, 9)
        getattr(self.calls, f"dnlab_{name}")(ctypes.byref(session), ctypes.byref(answer))
        if answer.length or (answer.cause and answer.all()[:2] != (FAULT, NOEND)):
            raise ValueError(f"{name} answers {answer.all()}")
        status: int = answer.status
        return status

    def take(self, session: ctypes.c_void_p, line: bytes, size: int) -> tuple[int, bytes]:
        """Returns the status and the reply of a session to a line, in a room of this size at first."""
        answer, room = self.call("take", line, size, before=[ctypes.byref(session)])
        if answer.status == ROOM:
            if answer.length <= size:
                raise ValueError("a room that is large enough is refused")
            # All of it was kept. An empty line says nothing.
            answer, room = self.call("take", b"", answer.length, before=[ctypes.byref(session)])
        return answer.status, room[:answer.length] if answer.status == DONE else b""

    def talk(self, text: bytes, size: int) -> tuple[int, bytes, bool]:
        """Returns the last status of a session that hears a text, all its replies, and whether it can be
        closed once."""
        session, status, said = ctypes.c_void_p(), DONE, b""
        # What is open is closed before, and the new one has heard nothing.
        for _ in range(2):
            if (opened := self.place("open", session)) != DONE:
                return opened, b"", session.value is None
        for line in text.split(b"\n")[:-1]:
            status, reply = self.take(session, line, size)
            said += reply
            if status != DONE:
                break
        is_lost = status == MEMORY
        is_well = not is_lost or self.take(session, b"", 0)[0] == MEMORY
        is_well = is_well and (self.place("close", session) == MEMORY) == is_lost and session.value is None
        return status, said, is_well and self.place("close", session) == CLOSED


def of_rooms(library: Library, one: Example) -> Trials:
    """A text whose report is known, in rooms around its length."""
    call, size = "check" if one.is_check else "alone", len(one.report)
    answer, room = library.call(call, one.text, size)
    yield f"{one.name} in a room that just fits", (answer.all(), room) == ((DONE, 0, 0, size), one.report)
    answer, _ = library.call(call, one.text, max(size - 1, 0))
    yield f"{one.name} in a room that is a byte too small", not size or answer.all() == (ROOM, 0, 0, size)
    if not one.is_check:
        length = library.call("records", one.text, 0)[0].length
        answers = [library.call("records", one.text, it)[0].all() for it in (length - 1, length)]
        yield f"{one.name}: rooms for records", answers == [(ROOM, 0, 0, length),
                                                            (DONE, 0, 0, length)] and length % 40 == 32


def of_sessions(library: Library, one: Example, said: bytes) -> Trials:
    """A text as a session, in rooms that are large enough and that are too small."""
    for size in LARGE, LITTLE:
        yield f"{one.name} as a session in rooms of {size} bytes", library.talk(one.text,
                                                                                size) == (DONE, said, True)


def refused(path: pathlib.Path, one: Example) -> Trials:
    """Refuses each allocation of a call and of a session in turn: the call must report it and lose no
    memory."""
    library = Library(path)
    refused, asked, held = (ctypes.c_long.in_dll(library.calls, it) for it in ("refused", "asked", "held"))

    def counted(number: int, is_session: bool) -> tuple[int, bytes, bool]:
        refused.value, asked.value, before = number, 0, held.value
        if is_session:
            status, said, is_well = library.talk(one.text, LARGE)
        else:
            answer, room = library.call("alone", one.text, LARGE)
            status, said = answer.status, room[:answer.length]
            is_well = status != MEMORY or answer.all() == (MEMORY, 0, 0, 0)
        refused.value = 0
        return status, said, is_well and held.value == before

    for is_session in False, True:
        whole, many, told = counted(0, is_session), asked.value, 0
        yield f"{one.name}: memory is asked for, and given back", whole[2] and many > 0
        for number in range(1, many + 1):
            status, said, is_well = counted(number, is_session)
            told += status == MEMORY
            is_right = whole[1].startswith(said) if status == MEMORY else (status, said) == whole[:2]
            yield f"{one.name}: allocation {number} refused, status {status}", is_well and is_right
        print(f"{one.name}{' as a session' * is_session}: {many} allocations refused in turn, {told} "
              "times 'memory'")
        yield f"{one.name}: a refusal is reported", told > 0
