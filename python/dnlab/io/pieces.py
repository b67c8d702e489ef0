"""Finds the experiments of a report, by the headings of its text or by the counters of its rows, without
parsing the rest."""
import io
import mmap
import os
import re
import tempfile
from pathlib import Path
from typing import (IO, TYPE_CHECKING, Any, BinaryIO, Iterable, Iterator, NamedTuple, Optional, Sequence,
                    Union)

from dnlab.errors import ParseError, RowError
from dnlab.io.files import GZIP, opened_gzip

if TYPE_CHECKING:
    from dnlab.io.rows import Records

_HEADING = re.compile(rb"experiment ([a-z0-9_-]{1,32})")
_MARK = b"\nexperiment "
# Bytes in which to count lines at once, and to read in columns at once.
LOOK = 1 << 22
BLOCK = 1 << 18
# No line of a report is longer.
_LONGEST = 1 << 22
# The first bytes of a file of rows, which no text has, and the bytes of a row.
NPY = b"\x93NUMPY"
_HEADER, _ROW = 512, 40


class Piece(NamedTuple):
    """Where an experiment is in a file: its heading's line, and the bytes after it; or its rows, `begin` to
    `end`, without those of the counters, for which `line` is -1."""
    name: str
    line: int
    path: str
    begin: int
    end: int
    # What must live as long as this: the bytes of a stream.
    keep: Any = None

    def size(self) -> int:
        """Returns its length in bytes."""
        return (self.end - self.begin) * (1 if self.line >= 0 else _ROW)

    def read(self) -> "Records":
        """Parses the experiment. Raises `ParseError` with the line, or `RowError` with the row."""
        if self.line >= 0:
            from dnlab.io.report import read_text

            return read_text(self.name, self.line, self.blocks())
        from dnlab.io.rows import records_of, rows_at

        rows, kind = rows_at(self.path)
        return records_of(self.name, rows[self.begin:self.end], kind[self.begin:self.end], self.begin,
                          rows[self.end])

    def blocks(self) -> Iterator[bytes]:
        """Yields its bytes, in blocks of whole lines; the last may lack its line feed."""
        with open(self.path, "rb") as source:
            source.seek(self.begin)
            rest, left = b"", self.end - self.begin
            while more := source.read(min(BLOCK, left)):
                left -= len(more)
                end = more.rfind(b"\n") + 1
                if end:
                    yield rest + more[:end]
                    rest = b""
                rest += more[end:]
            if rest:
                yield rest


def experiments_in_rows(file: BinaryIO) -> int:
    """Returns the number of experiments of a file of rows that one call of the program wrote, by its last
    row, without NumPy; 0 if it is no such file, or was cut."""
    size = file.seek(0, os.SEEK_END)
    file.seek(max(0, size - _ROW))
    last = file.read(_ROW)
    file.seek(0)
    is_rows = file.read(len(NPY)) == NPY and size > _HEADER and (size - _HEADER) % _ROW == 0
    # The columns `kind`, 22 for counters, and `experiment`, from 0.
    return last[39] + 1 if is_rows and last[36] == 22 else 0


def pieces(source: Union[str, Path, BinaryIO], wanted: Iterable[str] = (),
           names: Optional[Sequence[str]] = None) -> Iterator[Piece]:
    """Yields the experiments of a report, in order, or only the wanted ones.

    A file is only searched; a stream, and gzip data, are copied to a temporary file. Bytes between headings
    are not checked here. `names` are the names of the experiments of rows, which only the scenario has;
    without it they are numbers, from 0."""
    if isinstance(source, (str, Path)):
        with open(source, "rb") as file:
            begin = file.read(len(NPY))
            if not begin.startswith(GZIP):
                found = _in_rows if begin == NPY else _in_text
                yield from found(os.fspath(source), set(wanted), names)
                return
            file.seek(0)
            copied = _Copied(file)
    else:
        copied = _Copied(source if hasattr(source, "peek")
                         else io.BufferedReader(source))  # type: ignore[arg-type]
    for piece in pieces(copied.path, wanted, names):
        yield piece._replace(keep=copied)


def _in_rows(path: str, wanted: set[str], names: Optional[Sequence[str]]) -> Iterator[Piece]:
    """Yields the experiments of rows. Raises `ParseError` if the scenario has another number of them."""
    from dnlab.io.rows import ends_of, rows_at

    ends = ends_of(rows_at(path)[1]).tolist()
    if names is not None and len(names) != len(ends):
        raise RowError(ends[-1] + 1 if ends else 0,
                       f"the rows end after {len(ends)} experiments, but the scenario has {len(names)}: give "
                       "the scenario that was run")
    for name, begin, end in zip(names or map(str, range(len(ends))), [0, *(end + 1 for end in ends)], ends):
        if not wanted or name in wanted:
            yield Piece(name, -1, path, begin, end)


class _Copied:
    """The bytes of a stream, decompressed, in a temporary file without a name, or whose name is removed with
    this object."""

    def __init__(self, source: Any) -> None:
        has_places = os.path.isdir(f"/proc/{os.getpid()}/fd")
        self.file: IO[bytes] = tempfile.TemporaryFile() if has_places else tempfile.NamedTemporaryFile()
        self.path = f"/proc/{os.getpid()}/fd/{self.file.fileno()}" if has_places else str(self.file.name)
        with opened_gzip(source) as stream:
            is_text, line = stream.peek(len(NPY))[:len(NPY)] != NPY, 1
            while block := stream.read(_LONGEST):
                if is_text and len(block) == _LONGEST and b"\n" not in block:
                    raise ParseError(line, f"a line of more than {_LONGEST} bytes, which no report has")
                line += block.count(b"\n")
                self.file.write(block)
        self.file.flush()

    def __reduce__(self) -> tuple[Any, tuple[()]]:
        """Makes pickling pass only the position; this process keeps the file."""
        return type(None), ()


def _in_text(path: str, wanted: set[str], _: Optional[Sequence[str]]) -> Iterator[Piece]:
    """Yields the experiments of a text, by its headings."""
    with open(path, "rb") as file:
        size = os.fstat(file.fileno()).st_size
        text: Any = mmap.mmap(file.fileno(), 0, access=mmap.ACCESS_READ) if size else b""
    names: set[str] = set()
    begin, line = 0, 1
    while begin < size:
        end = (text.find(b"\n", begin) + 1 or size + 1) - 1
        found = _HEADING.fullmatch(text[begin:min(end, begin + 99)])
        if not found:
            raise ParseError(line,
                             "expected `experiment NAME` here: "
                             f"{text[begin:min(end, begin + 60)].decode('ascii', 'replace')!r}")
        name = found[1].decode("ascii")
        if name in names:
            raise ParseError(line, f"a second experiment {name}")
        names.add(name)
        after = text.find(_MARK, end) + 1 or size
        lines = sum(text[place:min(place + LOOK, after)].count(b"\n") for place in range(begin, after, LOOK))
        if text[after - 1:after] != b"\n":
            raise ParseError(line + lines, "the last line has no line feed")
        if not wanted or name in wanted:
            yield Piece(name, line, path, min(end + 1, size), after)
        begin, line = after, line + lines
