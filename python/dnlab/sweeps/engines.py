"""Runs in parts: the parts and their files, processes on this machine, GNU parallel with ssh, and Slurm."""
import getpass
import os
import re
import secrets
import shlex
import shutil
import signal
import subprocess
from dataclasses import dataclass
from functools import partial
from pathlib import Path
from typing import Iterator, Optional, Sequence

from dnlab.errors import ParseError, ProgramError
from dnlab.io.pieces import pieces
from dnlab.io.scenario_text import groups, most_report
from dnlab.processes import subprocesses
from dnlab.processes.process_pool import ProcessPool
from dnlab.processes.subprocesses import CANCEL, Killed, cancel



class RunFailedError(Exception):
    """Ends the run with an exit status and a message for standard error."""

    def __init__(self, status: int, said: str) -> None:
        super().__init__(said)
        self.status = status


@dataclass(frozen=True)
class RunOptions:
    """The options of a run: at most `parts` parts, `jobs` of them at once.

    It runs on this machine, with `ssh` on machines in the form of parallel's --sshlogin, or as a `slurm`
    array; `program` is the path of dnlab there. `work` is the folder of the parts if the run can be
    continued, and `resume` whether it is. `form` has the options of `dnlab alone`: `--trace`, and `--format
    npy` for rows."""
    parts: int = 16
    jobs: Optional[int] = None
    ssh: Optional[str] = None
    slurm: bool = False
    program: Optional[str] = None
    work: Optional[str] = None
    resume: bool = False
    form: tuple[str, ...] = ()

    def fault(self) -> Optional[str]:
        """Returns why it can't run so on this machine, or None."""
        if self.ssh and set(self.program or "") & set("{}"):
            return f"--program {self.program}: parallel would fill in its braces"
        engine, package = ("sbatch", "slurm-client") if self.slurm else ("parallel", "parallel")
        if (self.slurm or self.ssh) and shutil.which(engine) is None:
            return f"{engine} is missing (Debian: {package})"
        return None


class Job:
    """A part in the work folder: its scenario N.txt, and its report N.whole once it is done."""

    def __init__(self, folder: Path, number: int, names: list[str], text: bytes,
                 is_rows: bool = False) -> None:
        self.folder = folder
        self.is_rows = is_rows
        self.number = number
        self.names = names
        self.text = text
        # What is wrong with its report, if it was checked.
        self.wrong: Optional[str] = None

    def file(self, kind: str) -> Path:
        return self.folder / f"{self.number}.{kind}"

    def is_done(self) -> bool:
        """Returns whether it is done: its report has the part's experiments in order and ends with
        counters."""
        if not self.file("whole").is_file():
            return False
        if self.is_rows:
            try:
                return [piece.name for piece in pieces(self.file("whole"), names=self.names)] == self.names
            except ParseError:
                return False
        names: list[str] = []
        last = b"counters 0\n"
        with open(self.file("whole"), "rb") as report:
            for line in report:
                last = line
                if line.startswith(b"experiment "):
                    names.append(line.split()[1].decode(errors="replace"))
        return names == self.names and last.startswith(b"counters ") and last.endswith(b"\n")

    def why(self) -> str:
        """Returns what is known about a part that isn't done."""
        if self.wrong is not None:
            return self.wrong
        status = self.file("status")
        if not status.is_file():
            return "it did not run to its end"
        errors = self.file("err")
        said = errors.read_bytes().decode(errors="replace").strip().splitlines() if errors.is_file() else []
        number = status.read_text().strip()
        if number == "0":
            return "status 0, but its report is incomplete or belongs to another scenario"
        ended_by = subprocesses.signal_of(int(number)) if re.fullmatch("-?[0-9]+", number) else None
        if ended_by:
            return f"status {number}, {subprocesses.describe_exit(ended_by)}"
        return f"status {number}" + (f", {said[-1]}" if said else "")


# A task of the Slurm array runs the parts in its line of `tasks`, one after another. It writes each report
# under a name of its own and renames it, so that a part has a complete report or none, even if an earlier,
# abandoned array still runs.
TASK = """#!/bin/sh
ulimit -f {blocks}
worst=0
for part in $(sed -n "${{SLURM_ARRAY_TASK_ID}}p" tasks); do
  {program} alone{form} <$part.txt >$part.out.$SLURM_JOB_ID 2>$part.err
  status=$?
  [ $status -ne 0 ] || mv $part.out.$SLURM_JOB_ID $part.whole
  rm -f $part.out.$SLURM_JOB_ID
  echo $status >$part.status
  [ $status -eq 0 ] || worst=$status
done
exit $worst
"""
# Slurm's default for the largest number in an array, exclusive.
_MAX_ARRAY_SIZE = 1001
# Seconds between checks for finished parts.
_LOOK = 0.5


def version_of(program: str) -> bytes:
    """Returns the output of a program's --version, or nothing if it fails."""
    try:
        return subprocesses.run([program, "--version"]).out
    except Killed:
        return b""


def _words(form: Sequence[str]) -> str:
    return "".join(f" {word}" for word in form)


def _most(parts: Sequence[Job]) -> int:
    """Returns the maximum length of a report of the parts, in bytes."""
    return max((most_report(part.text) for part in parts), default=0)


def prepare_parts(how: RunOptions, program: str, parts: Sequence[Job], folder: Path) -> None:
    """Writes the texts of the parts, or checks the previous run's. Raises `RunFailedError` if they differ."""
    mark = version_of(program) + f"{len(parts)} parts{_words(how.form)}\n".encode()
    if how.resume:
        try:
            same = (folder / "mark").read_bytes() == mark and all(
                part.file("txt").read_bytes() == part.text for part in parts)
        except OSError as error:
            raise RunFailedError(2, f"spread: --resume: {error.filename}: {error.strerror}\n") from error
        if not same:
            raise RunFailedError(2,
                                 f"spread: --resume: {folder} belongs to another scenario, number of "
                                 "parts or program\n")
        cancel(folder)
        _leave(folder)
        return
    if how.work is not None:
        try:
            folder.mkdir()
        except FileExistsError as error:
            raise RunFailedError(2,
                                 f"spread: {folder} exists: continue it with --resume, "
                                 "or remove it\n") from error
    for part in parts:
        part.file("txt").write_bytes(part.text)
    # Written last, so that a folder with a mark has all texts.
    (folder / "mark").write_bytes(mark)


def _leave(folder: Path) -> None:
    """Removes incomplete files of a run that was interrupted."""
    for path in [*folder.glob("*.half"), *folder.glob("*.out.*"), *folder.glob("out.*")]:
        path.unlink(missing_ok=True)


def _alone(program: str, job: Job, form: tuple[str, ...]) -> None:
    """Runs a part. Runs in another process."""
    with open(job.file("half"), "wb") as out:
        try:
            text = job.file("txt").read_bytes()
            done = subprocesses.run([program, "alone", *form], text, out, most_report(text))
            status, errors = done.status, done.errors
        except Killed as killed:
            status, errors = -killed.ended_by, b""
    job.file("err").write_bytes(errors)
    if status == 0:
        os.replace(job.file("half"), job.file("whole"))
    job.file("half").unlink(missing_ok=True)
    job.file("status").write_text(f"{status}\n")


def run_locally(how: RunOptions, program: str, waiting: Sequence[Job], folder: Path) -> Iterator[None]:
    """Runs parts in processes of this machine, `jobs` at a time."""
    from dnlab.analysis.reports import cores

    with ProcessPool[int](how.jobs or cores()) as pool:
        for part in waiting:
            # The other process needs neither the text nor the names.
            pool.submit(part.number, _alone, program, Job(folder, part.number, [], b""), how.form)
        while len(pool):
            pool.next_result().get()
            yield


def _waited(engine: "subprocess.Popen[bytes]") -> Iterator[None]:
    """Yields repeatedly until an engine has ended."""
    while True:
        try:
            engine.wait(_LOOK)
            yield
            return
        except subprocess.TimeoutExpired:
            yield


def _end_parallel(engine: "subprocess.Popen[bytes]") -> None:
    """Ends parallel: at the first signal it waits for its jobs, at the second it ends them."""
    for _ in range(2):
        if engine.returncode is None:
            engine.send_signal(signal.SIGTERM)
            try:
                engine.wait(0.5)
            except subprocess.TimeoutExpired:
                continue
    subprocesses.kill(engine)


def by_parallel(how: RunOptions, program: str, waiting: Sequence[Job], folder: Path) -> Iterator[None]:
    assert how.ssh is not None
    command = ["parallel", "--plain", "--will-cite", "--joblog", "joblog", "--results", "out.{}"]
    if how.jobs:
        command += ["--jobs", str(how.jobs)]
    command += ["--sshlogin", how.ssh, "--workdir", "...", "--transferfile", "{}.txt", "--cleanup"]
    command += [f"{shlex.quote(how.program or program)} alone{_words(how.form)} <{{}}.txt", ":::"]
    (folder / "order").write_text("".join(f"{part.number}\n" for part in waiting))
    (folder / "joblog").unlink(missing_ok=True)
    with open(folder / "engine.err", "wb") as errors:
        with subprocesses.child([*command, *(str(part.number) for part in waiting)], _end_parallel,
                                death=signal.SIGTERM,
                            most=_most(waiting), cwd=folder, stdin=subprocess.DEVNULL,
                                stdout=subprocess.DEVNULL, stderr=errors,
                            env={**os.environ, "PARALLEL_SHELL": "/bin/sh"}) as engine:
            yield from _waited(engine)


def read_job_log(folder: Path) -> None:
    """Reads parallel's log: a part is done only if its job ended with status 0 and without a signal."""
    log, order = folder / "joblog", folder / "order"
    if not log.is_file() or not order.is_file():
        return
    numbers = order.read_text().split()
    for line in log.read_text().splitlines()[1:]:
        fields = line.split("\t")
        if len(fields) < 9:
            continue
        number, status, ended_by = numbers[int(fields[0]) - 1], fields[6], fields[7]
        (folder / f"{number}.status").write_text(status if ended_by == "0" else f"-{ended_by}")
        for kind, name in ("whole", f"out.{number}"), ("err", f"out.{number}.err"):
            if (folder / name).is_file() and (kind == "err" or (status, ended_by) == ("0", "0")):
                os.replace(folder / name, folder / f"{number}.{kind}")


def most_tasks() -> int:
    """Returns the maximum number of tasks in a Slurm array on this machine."""
    try:
        said = subprocesses.run(["scontrol", "show", "config"]).out.decode(errors="replace")
    except ProgramError:
        said = ""
    found = re.search(r"^MaxArraySize\s*=\s*([0-9]+)", said, re.MULTILINE)
    return max(int(found[1]) if found else _MAX_ARRAY_SIZE, 2) - 1


def by_slurm(how: RunOptions, program: str, waiting: Sequence[Job], folder: Path) -> Iterator[None]:
    """Runs parts as one array with as many tasks as Slurm allows, which an interrupt cancels."""
    ends = groups([max(len(part.text), 1) for part in waiting], min(how.parts, most_tasks()))
    tasks = [waiting[begin:end] for begin, end in zip([0, *ends], ends)]
    (folder / "task").write_text(TASK.format(program=shlex.quote(how.program or program),
                                             form=_words(how.form), blocks=_most(waiting) // 512 + 1))
    (folder / "tasks").write_text("".join(" ".join(str(part.number) for part in task) + "\n"
                                          for task in tasks))
    array = f"1-{len(tasks)}" + (f"%{how.jobs}" if how.jobs else "")
    name = f"dnlab-{secrets.token_hex(8)}"
    (folder / CANCEL).write_text(f"scancel\n--user={getpass.getuser()}\n--name={name}")
    chore = partial(cancel, folder)
    subprocesses.add_chore(chore)
    try:
        with open(folder / "engine.err", "wb") as errors:
            with subprocesses.child(["sbatch", "--wait", f"--job-name={name}", "--output=/dev/null",
                                     f"--chdir={folder}",
                                 f"--array={array}", "task"], cwd=folder, stdin=subprocess.DEVNULL,
                                stdout=subprocess.DEVNULL, stderr=errors) as engine:
                yield from _waited(engine)
                (folder / CANCEL).unlink()
    finally:
        cancel(folder)
        subprocesses.remove_chore(chore)


def run_parts(how: RunOptions, program: str, parts: Sequence[Job], folder: Path) -> Iterator[list[Job]]:
    """Runs the parts that aren't done, and yields those that are done now, repeatedly. Raises
    `RunFailedError` at the end with the parts that failed."""
    prepare_parts(how, program, parts, folder)
    read_job_log(folder)
    waiting = {part.number: part for part in parts if not part.is_done()}
    yield [part for part in parts if part.number not in waiting]
    for part in waiting.values():
        for kind in "whole", "status", "err":
            part.file(kind).unlink(missing_ok=True)
    chore = partial(_leave, folder)
    subprocesses.add_chore(chore)
    try:
        if waiting:
            engine = by_slurm if how.slurm else by_parallel if how.ssh else run_locally
            for _ in engine(how, program, list(waiting.values()), folder):
                read_job_log(folder)
                done = [part for part in waiting.values() if part.is_done()]
                for part in done:
                    del waiting[part.number]
                yield done
    finally:
        read_job_log(folder)
        _leave(folder)
        subprocesses.remove_chore(chore)
    if waiting:
        raise failure(how, parts, list(waiting.values()), folder)


def failure(how: RunOptions, parts: Sequence[Job], failed: Sequence[Job], folder: Path) -> RunFailedError:
    """Returns the error for failed parts."""
    said = [f"spread: part {part.number} of {len(parts)} failed (experiments {part.names[0]} to "
            f"{part.names[-1]}): {part.why()}" for part in failed]
    log = folder / "engine.err"
    said += (["spread: " + line for line in log.read_text(errors="replace").splitlines()[-3:]]
             if log.is_file() else [])
    if how.work is not None:
        said.append(f"spread: {len(parts) - len(failed)} parts are kept in {folder}; "
                    "the same command with --resume runs the others")
    return RunFailedError(3, "\n".join(said) + "\n")
