"""Runs the program `dnlab`, or the library, on scenarios."""
from contextlib import suppress
from pathlib import Path
from typing import BinaryIO, Iterator, Mapping, NamedTuple, Optional, Union

from dnlab import library
from dnlab.analysis.names import with_names
from dnlab.analysis.reports import Report
from dnlab.errors import ParseError, ProgramError
from dnlab.io.files import origin_of, unpacked, whole_file, write_beside
from dnlab.io.pieces import experiments_in_rows, pieces
from dnlab.io.scenario import read
from dnlab.io.scenario_parts import MOST_BYTES, MOST_EXPERIMENTS
from dnlab.io.scenario_text import experiments_in, most_report, names_of, texts_of, traced, without_trace
from dnlab.processes import subprocesses
from dnlab.processes.subprocesses import TempDir
from dnlab.programs import program


def run(text: Union[str, bytes, Path], workers: int = 1, moves: Optional[int] = None,
        out: Union[str, Path, None] = None, dnlab: Optional[str] = None, engine: str = "process",
        names: Optional[Mapping[str, str]] = None) -> Report:
    """Runs a scenario and returns its report.

    text           the scenario, or the path of its file, plain or gzip (a str of one line is a path). One
                   too large for the program is run in parts
    workers        the number of threads that run its experiments, 1 to 16
    moves          after how many steps a thread offers an experiment to the others
    out            the report's file: rows if its name ends in .npy, else text made with --trace; OUT.json,
                   next to it, records what made it. By default rows in a temporary file
    dnlab, engine  as in `live`; the library takes no workers or moves
    names          as in `read`

    Raises `ProgramError` if the program refuses the scenario: `said` has `line L: CAUSE` and what `--explain`
    prints."""
    if isinstance(text, str) and text and "\n" not in text and not text.startswith("experiment "):
        text = Path(text)
    form = ("--format", "npy") if out is None or Path(out).suffix == ".npy" else ("--trace",)
    runner = _runner(engine, workers, moves, dnlab, form)
    data = _bytes_of(text)
    if names:
        # Checked before anything runs; the program refuses a faulty scenario.
        with suppress(ParseError):
            with_names(read(data), names)
    room = TempDir()
    scenario = room.path / "scenario.txt"
    scenario.write_bytes(data)
    report = Path(out) if out is not None else room.path / "rows.npy"
    with whole_file(report) as file:
        _run_parts(runner, data, file, room.path)
    try:
        plans = read(data)
    except ParseError as refused:
        raise ProgramError(0,
                           f"{runner.path} accepted an invalid scenario (is it dnlab?): {refused}") from None
    origin = origin_of(plans, runner.path, [runner.path, *runner.words], runner.version)
    if out is not None:
        write_beside(report, origin)
    return Report(report, scenario, room, origin, names, plans)


def _bytes_of(text: Union[str, bytes, Path]) -> bytes:
    if isinstance(text, str):
        # The last line feed of a Python string is easily forgotten; in a file, a missing one may mean that it
        # was cut.
        return (text if text.endswith("\n") or not text else text + "\n").encode()
    return unpacked(text.read_bytes()) if isinstance(text, Path) else text


def _run_parts(runner: "_Runner", data: bytes, out: BinaryIO, room: Path) -> None:
    """Writes the report of a scenario, in parts if it is too large for the program."""
    parts = list(_parts(data))
    is_joined = len(parts) > 1 and "npy" in runner.words
    files = []
    for number, (line, part) in enumerate(parts):
        if not is_joined:
            _run_one(runner, part, line, out)
            continue
        files.append(room / f"{number}.npy")
        with open(files[-1], "w+b") as file:
            _run_one(runner, part, line, file)
    if is_joined:
        # Imported here, because a run needs no NumPy.
        from dnlab.io.rows import join

        join(files, out)


class _Program(NamedTuple):
    """A program that is started for each scenario, with these arguments."""
    path: str
    words: tuple[str, ...]
    version: Optional[str] = None

    def write(self, text: bytes, out: BinaryIO) -> tuple[int, str]:
        """Writes the report of a scenario; returns the exit status and the messages."""
        done = subprocesses.run([self.path, *self.words], text, out, most_report(text))
        return done.status, done.said()

    def explained(self, text: bytes) -> str:
        """Returns the explanation of `--explain` for a faulty scenario, with the line of its fault, or ''."""
        done = subprocesses.run([self.path, "check", "--explain"], text)
        return done.said() if done.status == 1 else ""


class _Library(NamedTuple):
    """The library, called in this process."""
    path: str
    words: tuple[str, ...]
    version: Optional[str]

    def write(self, text: bytes, out: BinaryIO) -> tuple[int, str]:
        """Writes the report of a scenario; returns the exit status and the messages."""
        try:
            # The library has no tracing of its own; faults have the lines of the scenario as it was given.
            library.check(text)
            out.write(without_trace(library.alone(traced(text))))
            # Another descriptor reads the bytes.
            out.flush()
        except ProgramError as failed:
            return failed.status, failed.said
        return 0, ""

    def explained(self, text: bytes) -> str:
        """Returns the explanation of `--explain` for a faulty scenario, or ''."""
        try:
            library.check(text)
        except library.FaultIn as fault:
            return f"{fault.said}\n{library.explain(text)}".strip()
        return ""


_Runner = Union[_Program, _Library]


def _runner(engine: str, workers: int, moves: Optional[int], dnlab: Optional[str],
            form: tuple[str, ...]) -> _Runner:
    """Returns the engine that runs the scenarios. Raises `ValueError` if the arguments don't go together."""
    if engine == "library":
        if workers > 1 or moves is not None or dnlab is not None:
            raise ValueError(
                'engine="library" takes no workers, moves or program: leave them out, or use '
                'engine="process"')
        return _Library(library.library(), ("alone",), f"libdnlab {library.version()}")
    if engine != "process":
        raise ValueError(f'the engine is "process" or "library", not {engine!r}')
    words = ("run", "--workers", str(workers)) if workers > 1 else ("alone",)
    more = ("--moves", str(moves)) if workers > 1 and moves is not None else ()
    return _Program(program(dnlab), words + more + form)


def _parts(data: bytes) -> Iterator[tuple[int, bytes]]:
    """Yields the parts that the program accepts one at a time, with the number of lines before each."""
    if len(data) <= MOST_BYTES and data.count(b"\nexperiment ") < MOST_EXPERIMENTS:
        yield 0, data
        return
    for one in texts_of(experiments_in([data])):
        yield one[0].line - 1, b"".join(part.text for part in one)


def _run_one(runner: _Runner, text: bytes, before: int, out: BinaryIO) -> None:
    status, said = runner.write(text, out)
    if status:
        if said.startswith("line ") and before:
            number, _, cause = said[5:].partition(":")
            said = f"line {int(number) + before}:{cause}" if number.isdigit() else said
        elif status == 1:
            said = runner.explained(text) or said
        raise ProgramError(status, said)
    out.flush()
    with open(f"/proc/self/fd/{out.fileno()}", "rb") as written:
        _check(runner, names_of(text), written, before)


def _check(runner: _Runner, names: list[str], written: BinaryIO, before: int) -> None:
    """Raises `ProgramError` if a part's report doesn't have its experiments: then the program isn't dnlab, or
    was stopped."""
    if "npy" in runner.words:
        found = names[:experiments_in_rows(written)]
    else:
        try:
            found = [piece.name for piece in pieces(written)]
        except ParseError as refused:
            raise ProgramError(0, f"{runner.path} wrote no report (is it dnlab?): {refused}") from None
    lost = [name for name in names if name not in found]
    if lost:
        raise ProgramError(0,
                           f"{runner.path} wrote no report of experiment {lost[0]}, and {len(lost)} of "
                           f"{len(names)} are missing: is it dnlab?")
