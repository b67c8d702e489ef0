"""Runs scenarios in parts: here, on other machines by ssh, or as a Slurm array."""
import argparse
import os
import shutil
import sys
import tempfile
from pathlib import Path
from typing import IO, Iterator, Mapping, Optional, Sequence

from dnlab.cli.arguments import parser_of
from dnlab.errors import ParseError, ProgramError, cause_of
from dnlab.io.files import origin_of, unpacked, whole_file, with_name, write_beside
from dnlab.io.scenario import Judged, read
from dnlab.io.scenario_parts import MOST_BYTES, MOST_EXPERIMENTS, Plan
from dnlab.io.scenario_text import (Fault, Part, experiments_in, heading_fault, lines_in, repeated, shares,
                                    texts_of)
from dnlab.processes import subprocesses
from dnlab.processes.process_pool import ProcessPool
from dnlab.processes.progress import Progress
from dnlab.processes.subprocesses import TempDir
from dnlab.programs import program as program_of
from dnlab.sweeps.engines import Job, RunFailedError, RunOptions, failure, run_parts

def parser_of_words() -> argparse.ArgumentParser:
    parser = parser_of("spread")
    parser.allow_abbrev = False
    parser.add_argument("scenarios", metavar="SCENARIO", nargs="+",
                        help="a scenario, or - for standard input")
    parser.add_argument("--parts", type=int, default=16, metavar="N",
                        help="number of parts [16], at most the number of experiments")
    parser.add_argument("--jobs", type=int, metavar="J",
                        help="parts to run at once: on each machine [its cores], or in the array "
                             "[as Slurm grants]")
    engine = parser.add_mutually_exclusive_group()
    engine.add_argument("--ssh", metavar="HOSTS",
                        help="machines, in the form of parallel's --sshlogin: 4/alpha,beta")
    engine.add_argument("--slurm", action="store_true", help="run as a Slurm array; needs --out or --work")
    parser.add_argument("--program", metavar="PATH", help="path of dnlab on the other machines [as here]")
    parser.add_argument("--out", metavar="REPORT", help="the report's file [standard output]")
    parser.add_argument("--work", metavar="FOLDER",
                        help="folder for the parts [REPORT.parts, or a temporary one]")
    parser.add_argument("--trace", action="store_true",
                        help="trace all packets, which delays and queues need")
    parser.add_argument("--format", choices=("text", "npy"), default="text",
                        help="write lines (text), or rows for NumPy (npy, traced) [text]")
    parser.add_argument("--resume", action="store_true", help="reuse the finished parts in the folder")
    return parser


def words(given: Sequence[str]) -> argparse.Namespace:
    parser = parser_of_words()
    args = parser.parse_intermixed_args(list(given))
    args.given = list(given)
    for name, number in ("--parts", args.parts), ("--jobs", args.jobs):
        if number is not None and number < 1:
            parser.error(f"{name} {number}: must be at least 1")
    if args.scenarios.count("-") > 1:
        parser.error("only one scenario can be - (standard input)")
    if args.work is None and args.out is not None:
        args.work = args.out + ".parts"
    if args.work is None and (args.slurm or args.resume):
        parser.error("--slurm and --resume need --out or --work")
    if args.program is not None and not (args.slurm or args.ssh):
        parser.error("--program goes with --ssh or --slurm (on this machine, DNLAB names the program)")
    if args.out is not None and os.path.exists(args.out) and not os.path.isfile(args.out):
        parser.error(f"--out {args.out}: not a regular file")
    if args.out is not None and not os.path.isdir(os.path.dirname(args.out) or "."):
        parser.error(f"--out {args.out}: its folder does not exist")
    fault = options_of(args).fault()
    if fault is not None:
        parser.error(fault)
    return args


def options_of(args: argparse.Namespace) -> RunOptions:
    """Returns the options of the run."""
    form = ("--format", "npy") if args.format == "npy" else ("--trace",) if args.trace else ()
    return RunOptions(args.parts, args.jobs, args.ssh, args.slurm, args.program, args.work, args.resume, form)


def text_of(name: str) -> bytes:
    try:
        # Opens descriptor 0 itself, because Python has no standard input if it is closed.
        with open(0 if name == "-" else name, "rb") as file:
            return unpacked(file.read())
    except OSError as error:
        raise RunFailedError(3, f"spread: {name}: {error.strerror}\n") from error
    except ParseError as refused:
        raise RunFailedError(2, f"spread: {name}: {refused}\n") from None


def fault_of(program: str, text: bytes) -> Optional[Fault]:
    """Returns the fault that `dnlab check` finds. Raises `RunFailedError` for any other answer."""
    done = subprocesses.run([program, "check"], text)
    said = done.said()
    number, _, cause = said[5:].partition(": ")
    if done.status == 1 and said.startswith("line ") and number.isdigit():
        return Fault(int(number), cause)
    if done.status != 0:
        raise RunFailedError(done.status if done.status in (1, 3) else 3, said + "\n")
    return None


def check_text(program: str, text: bytes, parts: Sequence[Part], names: set[str]) -> Optional[Fault]:
    """Returns the first fault of a scenario of any length, which is checked in as many pieces as the
    program's limits require. An experiment name that another file has is also a fault."""
    if len(text) <= MOST_BYTES and len(parts) <= MOST_EXPERIMENTS:
        return first_fault(fault_of(program, text), repeated(parts, names))
    head = Judged(text[:next(lines_in(text), (len(text), b"", 0))[0]], limited=False).fault
    if head:
        return Fault(*head)
    pieces = texts_of(parts)
    for place, piece in enumerate(pieces):
        own = b"".join(part.text for part in piece)
        if len(own) > MOST_BYTES:
            return Fault(piece[0].line, "toobig")
        found = fault_of(program, own)
        if found is not None:
            found = Fault(found.line + piece[0].line - 1, found.cause)
            if found.cause == "noend" and place + 1 < len(pieces):
                # The next heading: its own options are checked before a missing `end`.
                found = Fault(found.line, heading_fault(pieces[place + 1][0].text) or "noend")
        found = first_fault(found, repeated(piece, names))
        if found is not None:
            return found
    return None


def first_fault(found: Optional[Fault], again: Optional[Part]) -> Optional[Fault]:
    """Returns the first of a fault and a repeated name."""
    if again is None or (found is not None and found.line <= again.line):
        return found
    return Fault(again.line, "samename")


def experiments_of(args: argparse.Namespace, program: str) -> list[Part]:
    """Returns the experiments of all files. Raises `RunFailedError` with the line of a fault, after the
    file's name if there are several."""
    everything: list[Part] = []
    names: set[str] = set()
    for name in args.scenarios:
        text = text_of(name)
        parts = experiments_in([text])
        found = check_text(program, text, parts, names)
        if found is not None:
            said = f"line {found.line}: {found.cause}\n"
            raise RunFailedError(1, said if len(args.scenarios) == 1 else f"{name}: {said}")
        everything += parts
    return everything


def report_fault(whole: str, text: str) -> Optional[str]:
    """What isn't right in the report of a part, for another process; it is read and joined with its text."""
    from dnlab.io.pieces import pieces
    from dnlab.analysis.view import View

    name = "its first experiment"
    try:
        plans = read(Path(text).read_bytes())
        for piece in pieces(whole, names=list(plans)):
            name = f"experiment {piece.name}"
            try:
                # pieces() counts lines of the whole report, but the message has the line in one experiment;
                # that of rows has the row.
                View(piece.read(), plans[piece.name])
            except ParseError as refused:
                if piece.line < 0:
                    raise
                return f"{name}: line {refused.line - piece.line + 1} of its report: {refused.cause}"
    except ParseError as refused:
        return f"{name}: {refused}"
    return None


def check_reports(how: RunOptions, jobs: Sequence[Job], folder: Path) -> None:
    """Reads the reports of all parts as the other tools do. A report that cannot belong to its scenario is a
    failed part."""
    from dnlab.analysis.reports import cores

    wrong: dict[int, str] = {}
    with ProcessPool[int](min(how.jobs or cores(), len(jobs) or 1)) as pool:
        for job in jobs:
            pool.submit(job.number, report_fault, str(job.file("whole")), str(job.file("txt")))
        while len(pool):
            outcome = pool.next_result()
            if outcome.get():
                wrong[outcome.token] = outcome.value
    for job in jobs:
        if job.number in wrong:
            job.file("whole").unlink()
            job.wrong = f"its report does not match its scenario: {wrong[job.number]}"
    if wrong:
        raise failure(how, jobs, [job for job in jobs if job.number in wrong], folder)


class Plans(Mapping[str, Plan]):
    """The experiments of all files by name. Each is read on demand, because all of them together can take
    much memory."""

    def __init__(self, parts: Sequence[Part]) -> None:
        self.texts = {part.name: part.text for part in parts}

    def __getitem__(self, name: str) -> Plan:
        return read(self.texts[name])[name]

    def __iter__(self) -> Iterator[str]:
        return iter(self.texts)

    def __len__(self) -> int:
        return len(self.texts)


def run_unfinished(how: RunOptions, program: str, jobs: Sequence[Job], folder: Path) -> None:
    """Runs the unfinished parts, and shows the progress."""
    progress: Optional[Progress] = None
    if how.work is not None:
        subprocesses.set_message(
            lambda: f"{progress.done if progress else 0} of {len(jobs)} parts are kept in {folder}; the same "
            "command with --resume runs the others")
    groups = run_parts(how, program, jobs, folder)
    # The first group was finished before, so it does not count for the estimated time.
    with Progress("spread", len(jobs), len(next(groups)), "parts") as progress:
        for finished in groups:
            progress.step(len(finished))


def spread(args: argparse.Namespace, named: Optional[str] = None) -> None:
    """Runs the scenarios in parts, with the named program or that of `dnlab.programs.program`. Raises
    `RunFailedError` if it fails."""
    try:
        program = named or program_of()
    except ProgramError as failed:
        raise RunFailedError(failed.status, f"spread: {failed.said}\n") from failed
    with with_name(tempfile.gettempdir()):
        how, everything = options_of(args), experiments_of(args, program)
    with TempDir() as passing:
        folder = Path(args.work or passing.path).absolute()
        jobs = [Job(folder, number, [part.name for part in share], b"".join(part.text for part in share),
                    args.format == "npy")
                for number, share in enumerate(shares(everything, args.parts), 1)]
        with with_name(folder):
            run_unfinished(how, program, jobs, folder)
            check_reports(how, jobs, folder)
        made = (origin_of(Plans(everything), program, ["dnlab-spread", *args.given])
                if args.out is not None else None)
        if made is not None and (args.ssh or args.slurm):
            # Of a program on other machines only the command line is known.
            made = made._replace(program="", version="")
        with subprocesses.signals_delayed():
            join_reports(args.out, jobs)
            if made is not None:
                write_beside(args.out, made)
            subprocesses.set_message(lambda: "the report is written")
            if args.work is not None:
                shutil.rmtree(folder)


def _join(parts: Sequence[Job], report: IO[bytes]) -> None:
    if any(part.is_rows for part in parts):
        from dnlab.io.rows import join

        return join([part.file("whole") for part in parts], report)
    for part in parts:
        with open(part.file("whole"), "rb") as piece:
            shutil.copyfileobj(piece, report)
    report.flush()


def join_reports(out: Optional[str], parts: Sequence[Job]) -> None:
    """Writes the report: to its file, completely or not at all, or to standard output."""
    try:
        if out is None:
            with open(1, "wb", closefd=False) as report:
                _join(parts, report)
        else:
            with whole_file(out) as file:
                _join(parts, file)
    except OSError as error:
        raise RunFailedError(3, f"spread: {cause_of(error)}\n") from error


def main(words_given: Sequence[str]) -> int:
    try:
        spread(words(words_given))
    except RunFailedError as stop:
        sys.stderr.write(str(stop))
        return stop.status
    return 0
