"""The commands for captures: the packets of a report as a capture, and those of a capture through a link."""
import argparse
import itertools
import sys
from collections import Counter
from contextlib import ExitStack
from fnmatch import fnmatchcase
from typing import TYPE_CHECKING, BinaryIO, Callable, Iterable, Iterator, Sequence

from dnlab.analysis.reports import Inputs, pieces_of, plans_of
from dnlab.cli.arguments import (add_of, add_texts, matching, moment_of, parse_files, parser_of, time_of,
                                 writing)
from dnlab.cli.ipfw import traffic_of
from dnlab.errors import InputError, ProgramError, ResourceError
from dnlab.io.files import whole_file
from dnlab.io.pieces import Piece
from dnlab.io.scenario import Judged
from dnlab.programs import say

if TYPE_CHECKING:
    from dnlab.analysis.view import View
    from dnlab.io.arrivals import Arrival, Omissions
    from dnlab.io.rows import Flags
    from dnlab.session.replay import Fate

def pcap_words(given: Sequence[str]) -> argparse.Namespace:
    parser = parser_of("pcap")
    add_texts(parser)
    add_of(parser, "only packets of these senders, as 'flow 1', 'flow 1 acks', 'train *' (repeatable) [all]")
    parser.add_argument("--at", choices=("sender", "receiver"), default="sender",
                        help="where to capture [sender]")
    parser.add_argument("--out", metavar="FILE",
                        help="the output file, - for standard output [NAME.pcap for each experiment]")
    return parse_files(parser, list(given))


def selected_packets(view: "View", patterns: Sequence[str]) -> "Flags":
    """Returns which packets belong to the senders that match. Shape (packets,), bool."""
    import numpy as np

    found = np.full(len(view.packets), not patterns, dtype=np.bool_)
    known = []
    for name, packets in view.senders:
        known.append(name)
        found[packets] |= any(fnmatchcase(name, pattern) for pattern in patterns)
    if patterns and not found.any():
        raise InputError(
            f"experiment {view.name}: no sender matches {' or '.join(patterns)}; the senders are "
            f"{', '.join(known)}")
    return found


def write_one(given: argparse.Namespace, view: "View") -> None:
    from dnlab.analysis import capture

    capture.judge(view)
    packets = selected_packets(view, given.of)
    if given.out == "-":
        capture.write(view, given.at, packets, sys.stdout.buffer)
        return
    name = given.out or f"{view.name}.pcap"
    with writing(name), whole_file(name) as file:
        count = capture.write(view, given.at, packets, file)
    print(f"{name}: packets: {count}, at the {given.at}")


def pcap(words_given: Sequence[str]) -> int:
    given = pcap_words(words_given)
    # Imported here, so that --help works without numpy.
    from dnlab.analysis.summary import tell, whole
    from dnlab.analysis.view import view_of

    notes = []
    total = 0
    plans = plans_of(given.scenarios)
    pieces: Iterable[Piece] = pieces_of(given.report, given.experiment, plans)
    if given.out:
        pieces = list(pieces)
        if len(pieces) > 1:
            raise InputError(
                f"{given.report}: it has several experiments, but {given.out} holds one: choose it "
                "with --experiment")
    texts = Inputs(given.report, tuple(given.scenarios))
    for piece in whole(texts, plans, given.experiment, pieces, lambda one: one.name):
        total += 1
        view = view_of(piece, plans, given.report, ", ".join(given.scenarios))
        write_one(given, view)
        # A conversion judges nothing: the notes say what the capture lacks.
        notes += [(view.name, note) for note in view.notes if note.kind == "spent"]
    if not total:
        raise InputError(f"{given.report}: it has no experiment, so there is nothing to write")
    tell("pcap", notes, total)
    return 0


def replay_words(given: Sequence[str]) -> argparse.Namespace:
    parser = parser_of("replay")
    parser.add_argument("files", nargs="+", metavar="FILE", help="a capture, or a table of arrivals")
    link = parser.add_mutually_exclusive_group(required=True)
    link.add_argument("--link", metavar="WORDS",
                      help="the pipe for all packets, as 'bw 10Mbit/s delay 20 queue 100 codel'")
    link.add_argument("--scenario", metavar="FILE",
                      help="pipes and rules, each with its time, or a scenario that has them")
    out = parser.add_mutually_exclusive_group(required=True)
    out.add_argument("--out", metavar="FILE", action="append",
                     type=matching(r"-|(?s:.*)\.(pcap|csv)",
                                   " must end in .pcap (a capture) or .csv (a table)"),
                     help="the output of the link: FILE.pcap or FILE.csv, or - for a capture on standard "
                          "output (repeatable)")
    out.add_argument("--inject", metavar="FILE",
                     help="write a scenario with the packets as `inject` lines; run nothing")
    parser.add_argument("--large", choices=("refuse", "cut", "split"), default="refuse",
                        help="what to do with packets above 1500 bytes [refuse]")
    parser.add_argument("--align", action="store_true",
                        help="start all files at the same time, whatever their clocks say")
    parser.add_argument("--tail", type=time_of, default=10 * 10**9, metavar="TIME",
                        help="how long to wait for the last packets [10s]")
    parser.add_argument("--begin", type=moment_of, default=0, metavar="TIME",
                        help="the time of the first packet on the link [0]")
    parser.add_argument("--seed", type=int, default=1, help="of losses [1]")
    parser.add_argument("--budget", type=int, default=65535,
                        help="maximum number of packets in flight [65535]")
    found = parser.parse_args(list(given))
    if len(set(found.out or ())) < len(found.out or ()):
        parser.error("--out: at most one capture and one table, with different names")
    return found


def link_of(given: argparse.Namespace, head: str) -> list[tuple[int, str]]:
    """Returns the commands of the link, each with its time, after checking them as the program would."""
    if given.scenario is not None:
        return traffic_of(given.scenario)
    commands = [(0, f"pipe 1 config {given.link}"), (0, "add 100 pipe 1 ip from any to any")]
    text = "".join([head + "\n", *(f"@{moment} {command}\n" for moment, command in commands), "@0 end\n"])
    fault = Judged(text.encode("ascii", "replace")).fault if given.link.isprintable() else (2, "badcharacter")
    if fault:
        raise InputError("--link: " + ("an option is wrong" if fault[0] == 2
                                       else "the experiment's seed or budget is wrong")
                     + f" ({fault[1]}): expected options of `pipe config`, as 'bw 10Mbit/s "
                       "delay 20 queue 100'")
    return commands


def arrivals_of(given: argparse.Namespace, left: "Omissions") -> "tuple[int, Iterator[Arrival]]":
    """Returns the time of the first packet (ns), and all packets in order of time."""
    from dnlab.io import arrivals

    files = [arrivals.of_file(name, left) for name in given.files]
    found = arrivals.fitting(arrivals.merged(files, given.align), given.large, left)
    first = next(found, None)
    if first is None:
        raise InputError(f"{', '.join(given.files)}: no TCP or UDP packet over IPv4"
                         + (f" ({left.told()})" if left else ""))
    return first.moment, itertools.chain([first], found)


def run(given: argparse.Namespace, head: str, left: "Omissions") -> str:
    """Sends the packets through the link and returns a summary."""
    from dnlab.session import replay as sessions
    from dnlab.session.sessions import live

    link = link_of(given, head)
    begin, packets = arrivals_of(given, left)
    counts: Counter[str] = Counter()
    with ExitStack() as stack:
        takes = [_writer(given, name, begin, stack) for name in given.out]

        def tell(fate: "Fate") -> None:
            counts[fate.cause] += 1
            seen = fate._replace(moment=fate.moment - given.begin)
            for take in takes:
                take(seen)

        try:
            with live() as session:
                held = sessions.replay(session, given.seed, given.budget, link, packets, begin - given.begin,
                                       given.tail, tell)
        except ProgramError as failed:
            raise ResourceError(str(failed)) from None
    return sessions.tally_of(counts, held)


def _writer(given: argparse.Namespace, name: str, begin: int, stack: ExitStack) -> "Callable[[Fate], None]":
    from dnlab.io import arrivals
    from dnlab.session import replay as sessions

    file: BinaryIO = sys.stdout.buffer if name == "-" else stack.enter_context(whole_file(name))
    if name.endswith(".csv"):
        table = sessions.Table(file, begin)
        stack.callback(table.close)
        return table.take
    # Raw IP, unless all inputs are of Ethernet.
    is_ethernet = {arrivals.link_of(name) for name in given.files} == {arrivals.ETHERNET}
    link = arrivals.ETHERNET if is_ethernet else arrivals.RAW
    return sessions.Capture(file, link, 0 if given.align else begin).take


def replay(words_given: Sequence[str]) -> int:
    given = replay_words(words_given)
    # Imported here, so that --help works without dpkt.
    from dnlab.io.arrivals import Omissions
    from dnlab.session import replay as sessions

    left = Omissions()
    head = f"experiment replay seed {given.seed} budget {given.budget} steps 10000000"
    if given.inject is None:
        said = run(given, head, left)
        sys.stdout.flush()
    else:
        begin, packets = arrivals_of(given, left)
        text = sessions.text_of(head, link_of(given, head), packets, begin - given.begin, given.tail)
        with whole_file(given.inject) as file:
            file.write(text.encode("ascii"))
        said = f"{text.count(' inject ')} packets"
    say("replay", f"{said}" + (f"; {left.told()}" if left else ""))
    return 0
