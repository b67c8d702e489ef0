"""An experiment of a report, or of a run of programs, joined with its scenario if there is one, and its
warnings."""
from dataclasses import dataclass, field
from functools import cached_property
from pathlib import Path
from typing import Mapping, NamedTuple, Optional

import numpy as np

from dnlab.analysis.commands import done_of, epochs_of, find_senders, headers_of
from dnlab.analysis.consistency import check_consistency
from dnlab.analysis.diagnostics import marks_of, refused_of
from dnlab.analysis.packets import Packets, Visits, packets_of, visits_of
from dnlab.errors import KINDS, NOT_TRACED, InputError, Note, ParseError, ProgramError, reading
from dnlab.io import scenario
from dnlab.io.pieces import Piece, pieces
from dnlab.io.rows import ACKNOWLEDGES, DATA, OK, PLAIN, RULE, Counters, Flags, Ints, Records
from dnlab.io.scenario_parts import MOST_BYTES, Change, Command, Plan, Sends, changes_of
from dnlab.io.scenario_text import most_report, traced, without_trace
from dnlab.processes import subprocesses
from dnlab.processes.subprocesses import TempDir

__all__ = ["KINDS", "NOT_TRACED", "Ended", "Note", "View", "flows_of", "view_of"]


class Ended(NamedTuple):
    """How an experiment ended: `end` or `spent`, at which time, and the time of the scenario's `end` (ns,
    None if the scenario isn't known)."""
    how: str
    moment: int
    end: Optional[int]

    def is_short(self) -> bool:
        """Returns whether it was cut short: its steps were spent before its end."""
        return self.how == "spent"


@dataclass
class View:
    """An experiment of a report, joined with its plan if known."""
    records: Records
    plan: Optional[Plan] = None
    more_notes: list[Note] = field(default_factory=list)
    # Where the programs that sent its packets left their files, for a run of programs.
    folder: Optional[Path] = None

    def __post_init__(self) -> None:
        self.shared: list[Note] = []
        self.done: list[tuple[int, Command]] = done_of(self.records, self.plan)
        # Trains that share a header, which only rows tell apart.
        self.alike = (find_senders(self.records, self.plan, self.shared) if self.plan is not None
                      else frozenset[str]())
        self.packets: Packets = packets_of(self.records, self.plan.names if self.plan is not None else {})
        # Whether creation time, size and sender of every packet are known, which tracing has.
        self.is_told = bool((self.packets.row >= 0).all())
        if self.plan is not None:
            check_consistency(self)

    @property
    def name(self) -> str:
        return self.records.name

    @property
    def counters(self) -> Counters:
        return self.records.counters

    @cached_property
    def visits(self) -> Visits:
        """Returns the visits of all packets to pipes."""
        return visits_of(self.records, self.packets)

    @cached_property
    def ended(self) -> Ended:
        return Ended("spent" if self.records.is_spent() else "end", self.records.last(),
                     self.plan.end() if self.plan else None)

    @cached_property
    def last(self) -> int:
        """Returns the time of the last record before `end`, which may be much later; ns."""
        rows = np.flatnonzero((self.records.kind != OK) & (self.records.kind < RULE))
        return int(self.records.rows["moment"][rows[-1]]) if len(rows) else 0

    @cached_property
    def senders(self) -> list[tuple[str, Ints]]:
        """Returns the senders, in the order of the first packet, with the packets of each."""
        return self.packets.senders()

    @cached_property
    def sends(self) -> dict[str, tuple[int, Sends]]:
        """Returns the flows and trains of the scenario that were started, by name, with their times."""
        return {command.sends.name(): (command.moment, command.sends) for _, command in self.done
                if command.sends is not None}

    @cached_property
    def changes(self) -> dict[int, list[Change]]:
        """Returns the executed configurations and deletions of each pipe of the scenario, in order."""
        return changes_of(command for _, command in self.done)

    @cached_property
    def is_injected(self) -> Flags:
        """Returns for each packet whether a program injected it, so that only the program knows its content.
        Shape (packets,)."""
        names = np.array([not name.startswith("train ") for name in self.packets.names] + [True])
        found: Flags = (self.packets.kind == PLAIN) & names[self.packets.who]
        return found

    @cached_property
    def has_injected(self) -> bool:
        return bool(self.is_injected.any())

    headers = cached_property(headers_of)
    epochs = cached_property(epochs_of)

    @cached_property
    def is_back(self) -> Flags:
        """Returns for each packet whether it goes back: acknowledgements, and packets from flows' receivers
        to their senders. Shape (packets,)."""
        back: Flags = self.packets.kind == ACKNOWLEDGES
        flows = [sends for _, sends in self.sends.values() if sends.word == "flow"]
        sources, targets = {one.source for one in flows}, {one.target for one in flows}
        for name, packets in self.senders:
            _, sends = self.sends.get(name, (0, None))
            if (sends and sends.word == "train" and sends.source in targets - sources
                and sends.target in sources):
                back[packets] = True
        return back

    @cached_property
    def backs(self) -> dict[int, Flags]:
        """Returns for each instance which of its visits are of packets that go back."""
        return {pipe: self.is_back[self.visits.packet[own]] for pipe, own in self.visits.instances}

    refused = cached_property(refused_of)

    @cached_property
    def notes(self) -> list[Note]:
        """Returns notes about unknown values and possible mistakes, the most serious first."""
        found = marks_of(self) + self.shared
        if not self.is_told:
            found.append(NOT_TRACED)
        return found

    def marks(self, of: str = "") -> str:
        """Returns the warnings of a row, separated by spaces: those of the experiment, and those of a
        sender."""
        words = [note.mark for note in self.notes if note.mark and (not note.of or not of or of == note.of)]
        return " ".join(dict.fromkeys(words))

    def must_be_traced(self, what: str) -> None:
        """Raises `InputError`, with the command that makes a traced report, if this one isn't traced; `what`
        is what it lacks."""
        if not self.is_told:
            raise InputError(f"experiment {self.name}: {what}: {NOT_TRACED.text}")


def view_of(piece: Piece, plans: Optional[dict[str, Plan]], report: str, scenario: str) -> View:
    """Reads and joins an experiment. Errors have the file's name."""
    if plans is not None and piece.name not in plans:
        raise InputError(f"{scenario}: it has no experiment {piece.name}")
    with reading(report):
        return View(piece.read(), plans[piece.name] if plans is not None else None)


def flows_of(view: View) -> list[tuple[int, Ints]]:
    """Returns the flows whose segments the experiment created, by number, with these packets."""
    found = [(int(view.packets.flow[packets[0]]), packets) for _, packets in view.senders
             if view.packets.kind[packets[0]] == DATA]
    return sorted(found, key=lambda one: one[0])


TRANSCRIPT, REPORT = "transcript.txt", "report.txt"


class UnfitError(Exception):
    """A file of a run can't be used: the name of the file and the cause."""


def plan_of_run(folder: Path) -> Plan:
    """Returns the experiment of a run's transcript. Raises `UnfitError`."""
    try:
        plans = scenario.read((folder / TRANSCRIPT).read_bytes())
    except (OSError, ParseError) as fault:
        raise UnfitError(TRANSCRIPT, getattr(fault, "strerror", None) or str(fault)) from None
    if len(plans) != 1:
        raise UnfitError(TRANSCRIPT, f"it has {len(plans)} experiments where one is expected")
    return next(iter(plans.values()))


def view_of_run(folder: Path, program: str, names: Optional[Mapping[str, str]] = None) -> View:
    """Returns the experiment of a run. If its report isn't traced, the program runs the transcript again.
    Raises `UnfitError`, and `ProgramError` if the program fails."""
    plan = plan_of_run(folder)
    plan = plan._replace(names=names) if names else plan
    try:
        told = next(pieces(folder / REPORT)).read()
        view = View(told, plan)
        if not view.is_told:
            view = View(run_again(folder, program, plan), plan)
    except OSError as fault:
        raise UnfitError(REPORT, fault.strerror) from None
    except StopIteration:
        raise UnfitError(REPORT, "it is empty") from None
    except ParseError as fault:
        raise UnfitError(REPORT, str(fault)) from None
    if view.counters != told.counters:
        raise UnfitError(REPORT,
                         f"its counters are not those of {TRANSCRIPT}, which has other commands or was run "
                         "by another program")
    view.folder = folder
    return view


def run_again(folder: Path, program: str, plan: Plan) -> Records:
    """Returns the records of a run by running its transcript: as rows, or by a session if it is too long for
    that."""
    text = (folder / TRANSCRIPT).read_bytes()
    is_short = len(text) <= MOST_BYTES
    words = ["alone", "--format", "npy"] if is_short else ["live"]
    with TempDir() as room:
        made = room.path / "made"
        with open(made, "wb") as out:
            done = subprocesses.run([program, *words], text if is_short else traced(text), out,
                                    most_report(text))
        if done.status:
            raise ProgramError(done.status, f"dnlab {' '.join(words)} < {folder / TRANSCRIPT}: {done.said()}")
        if not is_short:
            lines = made.read_bytes().split(b"\n")
            made.write_bytes(without_trace(b"\n".join(line for line in lines if not line.startswith(b"#<"))))
        return next(pieces(made, names=[plan.name])).read()
