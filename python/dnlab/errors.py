"""The exceptions and warnings of the package, and the exit statuses and messages that commands derive from
them."""
from contextlib import contextmanager
from typing import Iterable, Iterator, NamedTuple, Sequence


class ParseError(Exception):
    """A malformed input: the line (counted from 1) and the cause.

    >>> str(ParseError(3, "no line of a report"))
    'line 3: no line of a report'
    """

    def __init__(self, line: int, cause: str) -> None:
        super().__init__(f"line {line}: {cause}")
        self.line = line
        self.cause = cause

    def __reduce__(self) -> tuple[type, tuple[int, str]]:
        """Makes pickling between processes keep line and cause."""
        return ParseError, (self.line, self.cause)


class RowError(ParseError):
    """A malformed file of rows: the row, as NumPy counts it (from 0), and the cause.

    >>> str(RowError(3, "the file ends here"))
    'rows[3]: the file ends here'
    """

    def __init__(self, row: int, cause: str) -> None:
        super().__init__(row, cause)
        self.args = (f"rows[{row}]: {cause}",)

    def __reduce__(self) -> tuple[type, tuple[int, str]]:
        """Makes pickling between processes keep row and cause."""
        return RowError, (self.line, self.cause)


class InputError(Exception):
    """An input that can't be used: the file, the line and the cause."""


@contextmanager
def reading(name: object) -> Iterator[None]:
    """Raises `InputError`, with its name, for a file that can't be read within the block, or is malformed."""
    try:
        yield
    except OSError as fault:
        raise InputError(f"{name}: {fault.strerror}") from None
    except ParseError as refused:
        raise InputError(f"{name}: {refused}") from None


class ResourceError(InputError):
    """Something that is missing on this machine: a package, disk space, a writable folder."""


# Exit statuses of commands: 1 is reserved for bounds that fail and runs that differ.
DIFFERS, INPUT, MACHINE = 1, 2, 3


def status_of(fault: Exception) -> int:
    """Returns the exit status for an exception: 3 if the machine or the program lacks something, else 2.

    >>> status_of(InputError("report.txt: line 3: ..")), status_of(ResourceError("numpy is missing"))
    (2, 3)
    """
    return MACHINE if isinstance(fault, (ResourceError, OSError, MemoryError)) else INPUT


def cause_of(fault: Exception) -> str:
    """Returns the message for an exception; for an `OSError` the file, or standard output, and the reason.

    >>> cause_of(OSError(28, "No space left on device")), cause_of(InputError("a.txt: line 3: .."))
    ('writing to standard output: No space left on device', 'a.txt: line 3: ..')
    """
    if isinstance(fault, OSError) and fault.strerror:
        return f"{fault.filename or 'writing to standard output'}: {fault.strerror}"
    return str(fault)


class ProgramError(Exception):
    """The program failed. Has its `status`, and `said`, its standard error."""

    def __init__(self, status: int, said: str) -> None:
        super().__init__(f"dnlab ended with status {status}: {said}")
        self.status = status
        self.said = said

    def __reduce__(self) -> tuple[type, tuple[object, ...]]:
        """Makes pickling between processes keep status and text."""
        return ProgramError, (self.status, self.said)

    def about(self, what: str) -> "ProgramError":
        """Returns the same error, with what it is about before its text."""
        return ProgramError(self.status, f"{what}: {self.said}")


class Note(NamedTuple):
    """A note about an experiment. Notes of one `kind` are counted over many experiments; `mark` is the
    warning that rows get for it ('' for none), and `of` the sender of these rows, '' for all."""
    kind: str
    text: str
    mark: str = ""
    of: str = ""


# The text for many experiments that have a note of one kind.
KINDS = {
    "refused": "commands were refused and did nothing",
    "spent": "their steps were spent before their end",
    "no way back": "no rule allows a flow's return path",
    "denied": "packets were denied: no rule matched, or a `deny`",
    "nopipe": "packets went to a pipe that does not exist",
    "budget": "packets were dropped because the budget of packets in flight was used up",
    "unsent": "`end` cut off trains or flows",
    "reconfigured": "a later `config` of a pipe reset options to their defaults",
    "outage": "`bw 0` means unlimited, or a rate is so low that a packet takes longer than the rate lasts",
    "half-duplex": "acknowledgements wait in the pipe of their segments",
    "window-limited": "a flow's window, and not the network, held it back",
    "unused": "a rule or a pipe met no packet",
    "units": "a time, a gap or a rate looks like another unit",
    "not traced": "they were made without --trace, so creation times, sizes, one-way delays and "
    "queues are unknown",
    "same header": "two senders have the same header, and the text of a report doesn't tell them apart",
}
NOT_TRACED = Note("not traced",
                  "creation times, sizes, one-way delays and queues are unknown, because the report was made "
                  "without --trace: run `dnlab alone --trace < scenario.txt > report.txt`")
# Warnings of experiments that did not run as written: no table is made of them, unless these are allowed.
STOPPING = ("refused", "spent")


# Failures of a run independent of the bounds, unless allowed: warnings of its rows, and bounds that always
# hold.
FAILING = ("refused", "spent", "budget", "unsent", "vacuous")


class Failing(NamedTuple):
    """A run that fails independently of the bounds: the experiment, the warning and its text."""
    experiment: str
    mark: str
    said: str

    def line(self) -> str:
        return (f"FAILS  {self.mark}: experiment {self.experiment}: {self.said} (--allow "
                f"{self.mark} permits it)")


def failing(notes: Iterable[tuple[str, Note]], allowed: Sequence[str] = ()) -> list[Failing]:
    """Returns the experiments that fail by their notes, except for what is allowed."""
    return [Failing(name, note.mark, note.text) for name, note in notes
            if note.mark in FAILING and note.mark not in allowed]


def allowed_of(text: str) -> list[str]:
    """Returns the words of `--allow`, separated by commas. Raises `ValueError` with the words that exist."""
    found = [word.strip() for word in text.split(",")]
    for word in found:
        if word not in FAILING:
            raise ValueError(f"{word!r} can't be allowed; choose from {', '.join(FAILING)}")
    return found
