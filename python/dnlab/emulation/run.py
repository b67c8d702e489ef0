"""Runs hosts files: the guest, what its processes left, the comparison with `dnlab alone`, and the verdict;
and a shell behind a link."""
import itertools
import json
import os
import tempfile
from dataclasses import dataclass
from pathlib import Path
from typing import Any, Iterator, NamedTuple, Optional

from dnlab.emulation import guest
from dnlab.emulation.experiment import (Ending, Experiment, Host, NetworkLine, Process, NetworkError,
                                        check_network)
from dnlab.emulation.guest import Ran, Terminal, seconds_done
from dnlab.emulation.kernel_cache import Kernel
from dnlab.errors import DIFFERS, INPUT, MACHINE, InputError, ProgramError
from dnlab.io.files import whole_file
from dnlab.io.scenario import MOST_BYTES
from dnlab.processes import subprocesses
from dnlab.programs import program, say

# The version of summary.json: a change that readers notice raises it.
VERSION = 1
SUMMARY = "summary.json"
# How many of a process' last lines are shown.
LAST_LINES = 5


class End(NamedTuple):
    """How a process ended, and when (ns after time 0); `unstarted` is an end too."""
    ending: Ending
    moment: int


@dataclass(frozen=True)
class Outcome:
    """A process with its end; None if the guest left no line about it."""
    host: Host
    index: int
    end: Optional[End]

    @property
    def process(self) -> Process:
        """The process as the file has it."""
        return self.host.processes[self.index]

    @property
    def is_expected(self) -> bool:
        """Returns whether it ended as expected_final_state requires."""
        return self.end is not None and self.end.ending == self.process.expected


def outcomes(experiment: Experiment, out: Path) -> list[Outcome]:
    """Returns each process of the file with its end."""
    ends: dict[tuple[str, int], End] = {}
    for line in lines_in(out / guest.EXITS):
        host, index, kind, *numbers = line.split()
        number = int(numbers[0]) if len(numbers) > 1 else None
        ends[host, int(index)] = End(Ending(kind, number), int(numbers[-1]))
    return [Outcome(host, index, ends.get((host.name, index)))
            for host in experiment.hosts for index in range(len(host.processes))]


def counts(out: Path) -> dict[str, int]:
    """Returns what the guest counted; nothing if it ended before."""
    rows = [line.split() for line in lines_in(out / guest.COUNTS)]
    return {row[0]: int(row[1]) for row in rows if len(row) == 2 and row[1].isdigit()}


def describe_outcome(outcome: Outcome, out: Path) -> str:
    """Returns how a process ended that was expected to end otherwise, with its last lines, as text."""
    process = outcome.process
    got = str(outcome.end.ending) if outcome.end else "did not end"
    if outcome.end and outcome.end.ending == Ending("exited", 127):
        got += " (not found or not executable)"
    lines = last_lines(out, outcome)
    shown = "".join(f"\n    {line}" for line in lines)
    return (f"{outcome.host.name}: {process.path} (process {outcome.index}): {got}; expected"
            f" {process.expected}" + (f"; its last lines:{shown}" if lines else "; it wrote nothing"))


def last_lines(out: Path, outcome: Outcome) -> list[str]:
    """Returns the last lines of a process' standard error, or of its standard output if that is empty."""
    for name in "stderr", "stdout":
        path = out / f"{outcome.host.stem(outcome.index)}.{name}"
        if path.is_file() and path.stat().st_size:
            with open(path, "rb") as file:
                file.seek(max(0, path.stat().st_size - 4096))
                return file.read().decode(errors="replace").splitlines()[-LAST_LINES:]
    return []


def _state(ending: Ending) -> Any:
    return ending.kind if ending.number is None else {ending.kind: ending.number}


def _rows(found: list[Outcome], host: Host) -> Iterator[dict[str, Any]]:
    for one in found:
        if one.host is host:
            yield {"index": one.index, "path": one.process.path, "arguments": list(one.process.arguments),
                   "expected": _state(one.process.expected),
                   "got": _state(one.end.ending) if one.end else None, "is_expected": one.is_expected,
                   "ended_ns": one.end.moment if one.end else None,
                   "stdout": f"{host.stem(one.index)}.stdout", "stderr": f"{host.stem(one.index)}.stderr"}


def summary(experiment: Experiment, kernel: Kernel, ran: Ran, out: Path, clock: str,
            is_repeated: Optional[bool]) -> dict[str, Any]:
    """Returns the content of summary.json. Times are ns (`_ns`) or seconds (`_s`), memory MiB."""
    settings, found = experiment.settings, outcomes(experiment, out)
    return {
        "version": VERSION, "file": Path(experiment.file).name, "clock": clock, "seed": experiment.seed,
        "steps": experiment.steps, "stop_ns": experiment.stop_ns,
        "costs": {"syscall_ns": settings.syscall_ns, "clock_read_ns": settings.clock_read_ns,
                  "reads": settings.reads, "polls": settings.polls},
        "start_date_ns": settings.start_date_ns, "memory_mib": settings.memory_mib,
        "jitter_ns": settings.jitter_ns,
        "rootfs": str(settings.rootfs) if settings.rootfs else None,
        "kernel": kernel.checksum, "is_proved": kernel.is_proved,
        "hosts": {host.name: {"address": host.address, "capture": guest.capture_of(host),
                              "processes": list(_rows(found, host))} for host in experiment.hosts},
        "counts": counts(out), "is_repeated_by_alone": is_repeated,
        "wall_s": round(ran.wall_s, 3), "cpu_s": round(ran.cpu_s, 3)}


_LATE = ("p50", "p99", "max")


class Options(NamedTuple):
    """How a run is made: the folder's name for messages, the clock, the longest real time (s), the greatest
    lateness (ns) of the wall clock, and whether `dnlab alone` repeats the transcript."""
    name: str
    clock: str = "simulated"
    limit_s: int = 600
    late_ns: int = 10**6
    is_verified: bool = True


def run_fault(experiment: Experiment, ran: Ran, out: Path, options: Options) -> Optional[str]:
    """Returns why a run has no result (the limit, a dead guest, spent steps), or None if it has one."""
    if ran.is_over_limit:
        return _over_limit(experiment, out, options)
    known = counts(out)
    if not known or not (out / guest.EXITS).is_file():
        lines = "".join(f"\n    {line}" for line in lines_in(out / guest.CONSOLE)[-LAST_LINES:])
        return (f"the guest ended early ({options.name}/{guest.CONSOLE} has all); its last lines:"
                f"{lines or ' none'}")
    if known.get("spent"):
        return (f"the link ended at {known.get('spent_at', 0) / 1e9:.6f} s of simulated time: its"
                f" {experiment.steps} steps were spent. A run has at most 10000000 steps, some 3.3 million"
                " packets: shorten stop_time, or lower the rates")
    return None


def _over_limit(experiment: Experiment, out: Path, options: Options) -> str:
    left = [f"{it.process.program} of {it.host.name}" for it in outcomes(experiment, out)
            if it.end is None and it.process.expected.kind != "running"]
    return (f"the run was not over after {options.limit_s} s of real time, at some {seconds_done(out)} s of"
            f" {experiment.stop_ns // 10**9} s; not ended: {', '.join(left) or 'none'}. A longer limit is"
            " --limit SECONDS; a program that computes takes real time, and no simulated time")


def lines_in(path: Path) -> list[str]:
    """Returns the lines of a file that the guest wrote; none without it."""
    return path.read_text(errors="replace").splitlines() if path.is_file() else []


def print_verdict(experiment: Experiment, ran: Ran, out: Path, options: Options) -> int:
    """Prints how a run ended. Returns 1 if a process did not end as expected, or the link was late."""
    known, found = counts(out), outcomes(experiment, out)
    wrong = [one for one in found if not one.is_expected]
    for one in wrong:
        say("hosts", f"{describe_outcome(one, out)}")
    unsettled = known.get("spins_unsettled", 0)
    if unsettled:
        say("hosts",
            f"programs that ran without a system call were interrupted {unsettled} times by real time: "
            "another run may differ")
    is_late = options.clock == "wall" and _is_late(known, options)
    moment = max((one.end.moment for one in found if one.end), default=0)
    print(f"{options.name}: {moment / 1e9:.3f} s in {ran.wall_s:.2f} s; packets: {known.get('injected', 0)},"
          f" dropped: {known.get('dropped', 0)}; processes: {len(found)}, as expected:"
          f" {len(found) - len(wrong)}")
    return DIFFERS if wrong or is_late else 0


def _is_late(counts: dict[str, int], options: Options) -> bool:
    """Prints how late packets left; returns true if the 99th percentile is above the bound."""
    late = {name: counts.get(f"late_{name}_ns", 0) for name in _LATE}
    print("lateness of packets: " + ", ".join(f"{name} {ns / 1e6:.3f} ms" for name, ns in late.items()))
    if late["p99"] <= options.late_ns:
        return False
    say("hosts", f"p99 of the lateness is {late['p99'] / 1e6:.3f} ms, above --late-bound"
          f" {options.late_ns / 1e6:.3f} ms: use a machine with idle cores, lower rates, or --clock"
          " simulated")
    return True


def is_repeated(out: Path) -> bool:
    """Returns whether `dnlab alone` (`live` above 16 MiB) repeats report.txt from transcript.txt."""
    transcript = out / guest.TRANSCRIPT
    command = "alone" if transcript.stat().st_size <= MOST_BYTES else "live"
    with (open(transcript, "rb") as given, tempfile.TemporaryFile() as made,
          tempfile.TemporaryFile() as errors):
        with subprocesses.child([program(), command], stdin=given, stdout=made, stderr=errors) as process:
            status = subprocesses.wait(process)
        if status:
            errors.seek(0)
            said = errors.read().decode(errors="replace").strip()
            raise ProgramError(3, f"dnlab {command} ended with status {status}: {said}")
        made.seek(0)
        with open(out / guest.REPORT, "rb") as report:
            # What `live` wrote also has an answer (#<) to each command.
            parts = (line for line in made if command == "alone" or not line.startswith(b"#<"))
            return all(one == other for one, other in itertools.zip_longest(parts, report))


_LIMIT_S = 10**6


def experiment_of(link: str, shell: str, terminal: str) -> Experiment:
    """Returns an experiment for a shell on the host `client`, behind a link to the host `server`.

    The link has these options of `pipe config` in each direction; raises `InputError` if they are invalid.
    The shell opens a terminal by its name, which becomes its controlling terminal."""
    lines = (f"pipe 1 config {link}", f"pipe 2 config {link}", "add 100 pipe 1 ip from 10.0.0.1 to any",
             "add 200 pipe 2 ip from any to 10.0.0.1")
    words = ("-c", 'exec "$0" < "$1" > "$1" 2>&1', shell, terminal)
    process = Process(1, "/bin/sh", words, (("TERM", os.environ.get("TERM", "dumb")),))
    # The server is first, so that the shell on the client finds its namespace.
    hosts = (Host(1, "server", "10.0.1.1"), Host(1, "client", "10.0.0.1", processes=(process,)))
    made = Experiment("--shell", 10**15, 1, tuple(NetworkLine(0, line, 1) for line in lines), hosts)
    try:
        check_network(made)
    except NetworkError as fault:
        raise InputError(f"--shell {link!r}: {fault.cause}") from None
    return made


def run_shell(experiment: Experiment, kernel: Kernel, out: Path, terminal: Terminal) -> int:
    """Runs the shell until it ends; returns its status, or 3 if it could not be started."""
    guest.write(experiment, out)
    say("hosts", "you are on the host client (10.0.0.1); `ip netns exec server COMMAND` runs a command on"
          " 10.0.1.1")
    guest.run_by_wall_clock(kernel, out, _LIMIT_S, terminal)
    end = outcomes(experiment, out)[0].end
    if end is None or end.ending.number is None:
        say("hosts", "the shell did not start: " + " ".join(lines_in(out / guest.CONSOLE)[-2:]))
        return MACHINE
    return end.ending.number if end.ending.kind == "exited" else 128 + end.ending.number


CLOCKS = ("simulated", "wall")


def run(experiment: Experiment, kernel: Kernel, out: Path, options: Options) -> int:
    """Runs an experiment in an empty folder; returns the status, after it printed what went wrong."""
    guest.write(experiment, out)
    if options.clock == "simulated":
        ran = guest.run_simulated(experiment, kernel, out, options.limit_s)
    else:
        ran = guest.run_by_wall_clock(kernel, out, options.limit_s)
    # Why a host could not be set up as the file has it: a sysctl, a setup line, a user.
    refused = lines_in(out / guest.FAILED)
    if refused:
        return _end(f"{experiment.file}: {refused[0]} (before time 0; see {options.name}/{guest.CONSOLE})",
                    INPUT)
    broken = run_fault(experiment, ran, out, options)
    if broken:
        return _end(broken, MACHINE)
    repeated: Optional[bool] = is_repeated(out) if options.is_verified else None
    found = summary(experiment, kernel, ran, out, options.clock, repeated)
    with whole_file(out / SUMMARY) as file:
        file.write((json.dumps(found, indent=2) + "\n").encode())
    if repeated is False:
        return _end(f"{options.name}/{guest.TRANSCRIPT} does not repeat {guest.REPORT}: this is a"
                    " fault of dnlab, please report it", MACHINE)
    return print_verdict(experiment, ran, out, options)


def _end(said: str, status: int) -> int:
    say("hosts", said)
    return status
