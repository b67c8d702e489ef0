"""The records of experiments: rows (docs/reference/rows.md), from a file of rows or from the text of a
report.

`opened` checks the header of a file against the bytes that are there. Columns are read at chosen rows, as
`rows["moment"][places]`, because a whole row of a structured array takes ten times as long.
"""
import ast
import mmap
import os
from dataclasses import dataclass, field
from functools import cached_property, lru_cache
from pathlib import Path
from typing import IO, Any, Iterable, Optional, Union

import numpy as np

from dnlab.errors import ParseError, RowError
from dnlab.io.scenario_parts import DROP_CAUSES as CAUSES

# Arrays, by the types of their values: `numpy.typing`, which has NDArray, takes as long to load as `dnlab`.
Ints = np.ndarray[Any, np.dtype[np.int64]]
Ints32 = np.ndarray[Any, np.dtype[np.int32]]
Ints8 = np.ndarray[Any, np.dtype[np.int8]]
AnyInts = np.ndarray[Any, np.dtype[np.integer[Any]]]
Bytes = np.ndarray[Any, np.dtype[np.uint8]]
Flags = np.ndarray[Any, np.dtype[np.bool_]]
# A structured array of `ROW`; NumPy has no type for its columns.
Rows = np.ndarray[Any, np.dtype[np.void]]

# The kinds of rows.
(OK, REFUSED, MAKE_COMMAND, MAKE_TRAIN, MAKE_DATA, MAKE_ACK, IDENTIFY, ARRIVE, FINISH, PASS, DELIVER,
 DELIVER_DATA, DELIVER_ACK, DROP, DROP_DATA, DROP_ACK, ACK, EXPIRE, SPENT, RULE, PIPE, INSTANCE,
 COUNTERS) = range(23)
# The load of a packet: the index of its name.
KINDS = ("plain", "data", "ack")
PLAIN, DATA, ACKNOWLEDGES = range(len(KINDS))
# The words of a report's lines, and the index of the word of each kind of row.
WORDS = ("ok", "refused", "make", "identify", "arrive", "finish", "pass", "deliver", "drop", "ack", "expire",
         "spent", "rule", "pipe", "instance", "counters")
WORD_OF = np.array([0, 1, 2, 2, 2, 2, 3, 4, 5, 6, 7, 7, 7, 8, 8, 8, 9, 10, 11, 12, 13, 14, 15], dtype=np.int8)
# The load of the packet that a row names, -1 if the row doesn't have it.
LOAD_OF = np.array([-1, -1, 0, 0, 1, 2, -1, -1, -1, -1, 0, 1, 2, 0, 1, 2, -1, -1, -1, -1, -1, -1, -1],
                   dtype=np.int8)
# `source` of a plain packet whose sender a text doesn't have.
UNKNOWN_SOURCE = 2**32 - 1

ROW = np.dtype([("moment", "<i8"), ("packet", "<u4"), ("source", "<u4"), ("number", "<u4"), ("more", "<u4"),
                ("src", "<u4"),
                ("dst", "<u4"), ("size", "<u2"), ("pipe", "<u2"), ("kind", "u1"), ("instance", "u1"),
                ("code", "u1"),
                ("experiment", "u1")])
MAGIC = b"\x93NUMPY"
_VERSION = b"\x01\x00"
# The bytes of a header, as the program writes it.
_HEADER = 512
_AGAIN = "run the scenario again"


def _count_of(begin: bytes, size: int) -> tuple[int, int]:
    """Returns where the rows of a file of `size` bytes begin, and their number, by its first bytes."""
    told = begin[10:10 + int.from_bytes(begin[8:10], "little")]
    if (not begin.startswith(MAGIC + _VERSION) or len(begin) < 10
        or len(told) < int.from_bytes(begin[8:10], "little")):
        raise RowError(0, f"the header is cut or not that of .npy 1.0: {_AGAIN}")
    try:
        header = ast.literal_eval(told.decode("ascii"))
        columns, (count,) = [tuple(one) for one in header["descr"]], header["shape"]
        is_known = columns == ROW.descr or np.dtype(columns) == ROW
    except (ValueError, SyntaxError, KeyError, TypeError, UnicodeDecodeError):
        is_known, count = False, 0
    if not is_known or header["fortran_order"] or not isinstance(count, int) or count < 0:
        raise RowError(0, "the header has other columns than `dnlab alone --format npy` writes")
    first = 10 + len(told)
    there, rest = divmod(size - first, ROW.itemsize)
    if there < count:
        raise RowError(there,
                       f"the file ends here, {'in the row' if rest else 'before the row'}, but its header "
                       f"has {count} rows: it was cut; {_AGAIN}")
    if there > count or rest:
        raise RowError(count, f"the header has {count} rows, but more bytes follow: {_AGAIN}")
    return first, count


def opened(source: Union[str, Path, bytes]) -> Rows:
    """Returns the rows of a file, which is mapped into memory, or of its bytes. Raises `RowError` if the file
    was cut."""
    if isinstance(source, bytes):
        first, count = _count_of(source[:1 << 16], len(source))
        return np.frombuffer(source, dtype=ROW, count=count, offset=first)
    with open(source, "rb") as file:
        first, count = _count_of(file.read(1 << 16), os.fstat(file.fileno()).st_size)
        held = mmap.mmap(file.fileno(), 0, access=mmap.ACCESS_READ)
    return np.frombuffer(held, dtype=ROW, count=count, offset=first)


def header_of(count: int) -> bytes:
    """Returns the header of a file with this many rows, as the program writes it.

    >>> len(header_of(7)), header_of(7).endswith(b"\\n")
    (512, True)
    """
    columns = ",".join(f"('{name}','{ROW[name].str.lstrip('|')}')" for name in ROW.names or ())
    told = f"{{'descr': [{columns}], 'fortran_order': False, 'shape': ({count},), }}"
    return MAGIC + _VERSION + (_HEADER - 10).to_bytes(2, "little") + told.ljust(_HEADER - 11).encode() + b"\n"


def join(files: Iterable[Path], out: IO[bytes]) -> None:
    """Writes the rows of some files as one file, with the experiments counted through (modulo 256). Raises
    `RowError` if one was cut."""
    parts = [opened(file) for file in files]
    out.write(header_of(sum(map(len, parts))))
    before = 0
    for part in parts:
        own = part.copy()
        own["experiment"] += np.uint8(before % 256)
        out.write(own.data)
        before += len(ends_of(kinds_of(own)))
    out.flush()


@lru_cache(maxsize=2)
def mapped(path: str, changed: int, size: int) -> tuple[Rows, Bytes]:
    """Returns the rows of a file and their kinds, once for all of its experiments; `changed` and `size`
    identify its content."""
    rows = opened(path)
    return rows, kinds_of(rows)


def rows_at(path: str) -> tuple[Rows, Bytes]:
    """Returns the rows of a file and their kinds. Raises `RowError` if the file was cut."""
    about = os.stat(path)
    return mapped(path, about.st_mtime_ns, about.st_size)


def kinds_of(rows: Rows) -> Bytes:
    """Returns the kinds of rows, contiguous. Raises `RowError` for one that this version doesn't have."""
    kind: Bytes = np.ascontiguousarray(rows["kind"])
    if len(kind) and int(kind.max()) > COUNTERS:
        raise RowError(int(np.flatnonzero(kind > COUNTERS)[0]),
                       "this kind of row is unknown: a later version wrote it")
    return kind


def ends_of(kind: Bytes) -> Ints:
    """Returns the rows with counters, which end the experiments. Raises `RowError` if the last row isn't
    one."""
    ends = np.flatnonzero(kind == COUNTERS)
    if len(kind) and (not len(ends) or ends[-1] + 1 != len(kind)):
        raise RowError(len(kind) - 1,
                       f"the last row is not that of counters: another version wrote it; {_AGAIN}")
    return ends


def instance_name(number: int) -> str:
    """Returns an instance's name, as in reports.

    >>> instance_name(256)
    '1.0'
    """
    return f"{number // 256}.{number % 256}"


def address_of(number: int) -> str:
    """Returns an IPv4 address as text.

    >>> address_of(167772161)
    '10.0.0.1'
    """
    return ".".join(str(number >> bits & 255) for bits in (24, 16, 8, 0))


def number_of(address: str) -> int:
    """Returns an IPv4 address as a number.

    >>> number_of("10.0.0.1")
    167772161
    """
    first, second, third, fourth = map(int, address.split("."))
    return first << 24 | second << 16 | third << 8 | fourth


def headers_at(rows: Rows, places: Ints) -> Ints:
    """Returns the headers of the packets that some rows create: protocol (6 or 17), source, its port, target,
    its port; shape (n, 5)."""
    ports = rows["more"][places].astype(np.int64)
    return np.stack([rows["code"][places].astype(np.int64), rows["src"][places].astype(np.int64),
                     ports & 65535, rows["dst"][places].astype(np.int64), ports >> 16], axis=1)


def header_text(header: Iterable[Any]) -> str:
    """Returns a header as in reports.

    >>> header_text([17, 167772161, 1000, 1, 80])
    'udp 10.0.0.1 1000 0.0.0.1 80'
    """
    protocol, source, port, target, other = map(int, header)
    return f"{'tcp' if protocol == 6 else 'udp'} {address_of(source)} {port} {address_of(target)} {other}"


@dataclass
class Counters:
    """The counters of an experiment, in packets; `drops` by cause."""
    made: int = 0
    delivered: int = 0
    held: int = 0
    drops: dict[str, int] = field(default_factory=lambda: dict.fromkeys(CAUSES, 0))


# The rows that tables are made of: their kinds, and the columns besides `row`, their place.
_PARTS = {"make": (MAKE_COMMAND, MAKE_ACK, ("moment", "packet", "source", "number", "size")),
          "arrive": (ARRIVE, ARRIVE, ("moment", "packet", "pipe", "instance")),
          "finish": (FINISH, FINISH, ("moment", "packet")), "pass": (PASS, PASS, ("moment", "packet")),
          "deliver": (DELIVER, DELIVER_ACK, ("moment", "packet")),
          "drop": (DROP, DROP_ACK, ("moment", "packet", "code")),
          "window": (ACK, EXPIRE, ("moment", "source", "number", "more"))}
# How many rows to part at once: they stay in the processor's cache, where all columns are read from them.
_TOGETHER = 1 << 14


@dataclass
class Records:
    """The records of an experiment; `dnlab.Experiment` has them joined with the scenario.

    rows      the rows without those of the counters
    kind      their kinds, contiguous; shape (rows,)
    line      for a text the line of the heading; row k is in line `line + 1 + k`
    first     for a file of rows the row of the file that is the first one here; None for a text
    listings  for a text the listing lines, by their rows"""
    name: str
    rows: Rows
    kind: Bytes
    counters: Counters
    line: int = 0
    first: Optional[int] = None
    listings: dict[int, str] = field(default_factory=dict)
    _places: dict[tuple[int, int], Ints] = field(default_factory=dict, repr=False)

    def __len__(self) -> int:
        return len(self.kind)

    def at(self, low: int, high: Optional[int] = None) -> Ints:
        """Returns the places of the rows of a kind, or of the kinds from `low` to `high`. Shape (n,), in
        order."""
        key = low, low if high is None else high
        if key not in self._places:
            # Below `low` the difference wraps to a large number.
            self._places[key] = np.flatnonzero(self.kind == low if high is None
                                               else self.kind - np.uint8(low) <= high - low)
        return self._places[key]

    @cached_property
    def parts(self) -> dict[str, dict[str, Ints]]:
        """Returns the columns of `_PARTS`, as int64 of shape (n,)."""
        found = {name: {"row": self.at(low, high)} for name, (low, high, _) in _PARTS.items()}
        begins = range(0, len(self) + _TOGETHER, _TOGETHER)
        ends = {name: np.searchsorted(part["row"], begins).tolist() for name, part in found.items()}
        # In one piece, which NumPy puts on large pages of memory.
        sizes = [len(part["row"]) for name, part in found.items() for _ in _PARTS[name][2]]
        room = iter(np.split(np.empty(sum(sizes), dtype=np.int64), np.cumsum(sizes)[:-1]))
        for name, part in found.items():
            part.update(zip(_PARTS[name][2], room))
        for place, begin in enumerate(begins[:-1]):
            rows = self.rows[begin:begin + _TOGETHER]
            for name, part in found.items():
                own = slice(*ends[name][place:place + 2])
                places = part["row"][own] - begin
                for column in _PARTS[name][2] if len(places) else ():
                    part[column][own] = rows[column][places]
        return found

    def name_train(self, places: Ints, number: int) -> None:
        """Sets the sender of some plain packets, which a text doesn't have, by the rows that create them."""
        self.rows["kind"][places] = self.kind[places] = MAKE_TRAIN
        self.rows["source"][places] = number
        self._places.clear()

    def take(self, column: str, places: Ints) -> Ints:
        """Returns a column at some places, as int64."""
        found: Ints = self.rows[column][places].astype(np.int64)
        return found

    def instances(self, places: Ints) -> Ints:
        """Returns the instances that some rows name, as pipe * 256 + instance."""
        found: Ints = self.take("pipe", places) * 256 + self.rows["instance"][places]
        return found

    def commands(self) -> Ints:
        """Returns the rows of commands, executed and refused."""
        return self.at(OK, REFUSED)

    def last(self) -> int:
        """Returns the time of the last record, ns; 0 if there is none."""
        place = len(self.kind) - 1
        while place >= 0 and self.kind[place] >= RULE:
            place -= 1
        return int(self.rows["moment"][place]) if place >= 0 else 0

    def is_spent(self) -> bool:
        """Returns whether the experiment used up its steps."""
        return len(self.kind) > 0 and int(self.kind[-1]) == SPENT

    def number_of(self, row: int) -> int:
        """Returns the number of a row: the line of a text, or the row of a file."""
        return self.line + 1 + row if self.first is None else self.first + max(row, 0)

    def where(self, row: int) -> str:
        """Returns where a row is: `line 7` of a text, or `rows[7]` of a file."""
        number = self.number_of(row)
        return f"line {number}" if self.first is None else f"rows[{number}]"

    def refused(self, row: int, cause: str) -> ParseError:
        """Returns an error at a row."""
        return (ParseError if self.first is None else RowError)(self.number_of(row), cause)


def records_of(name: str, rows: Rows, kind: Bytes, first: int, counters: Any) -> Records:
    """Returns an experiment of a file of rows. Raises `RowError` if its rows contradict its counters."""
    found = Records(name, rows, kind, Counters(int(counters["packet"]), int(counters["number"]),
                                               int(counters["source"])), first=first)
    made = found.parts["make"]["packet"]
    bad = np.flatnonzero(made != np.arange(len(made)))
    if len(bad) or len(made) != found.counters.made:
        raise found.refused(len(kind),
                            f"the counters have {found.counters.made} created packets, but the rows create "
                            f"{len(made)}, {'not ' if len(bad) else ''}in order: run the scenario again "
                            "with this version")
    causes = np.bincount(found.parts["drop"]["code"], minlength=len(CAUSES) + 1).tolist()
    found.counters.drops = dict(zip(CAUSES, causes[1:]))
    delivered = len(found.parts["deliver"]["row"])
    if delivered != found.counters.delivered or len(made) != delivered + sum(causes) + found.counters.held:
        raise found.refused(len(kind),
                            f"the counters have {found.counters.delivered} delivered packets, but the rows "
                            f"{delivered} and {sum(causes)} dropped ones: run the scenario again")
    return found
