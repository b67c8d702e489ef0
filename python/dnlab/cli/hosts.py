"""Runs unmodified programs over Linux's TCP and a link, in simulated time."""
import argparse
import importlib.util
import os
import re
import sys
from pathlib import Path
from typing import Sequence

from dnlab.cli.arguments import count_of, parser_of, time_of
from dnlab.emulation import guest, kernel_cache, run
from dnlab.emulation.experiment import Experiment, check_network
from dnlab.emulation.run import Options
from dnlab.errors import InputError, ResourceError, reading
from dnlab.processes import subprocesses
from dnlab.processes.subprocesses import TempDir
from dnlab.programs import say

def parser_of_words() -> argparse.ArgumentParser:
    parser = parser_of("hosts")
    parser.add_argument("file", nargs="?", metavar="FILE",
                        help="the hosts, their programs and the network (YAML), or - for standard input")
    parser.add_argument("--out", metavar="RUN", type=Path,
                        help="the folder for everything that the run writes; it must be empty")
    parser.add_argument("--force", action="store_true", help="overwrite the run that RUN has")
    parser.add_argument("--clock", choices=run.CLOCKS, default="simulated",
                        help="simulated time, or the wall clock of this machine [simulated]")
    parser.add_argument("--limit", type=count_of, metavar="SECONDS",
                        help="end the run after this much real time [600, or the file's]")
    parser.add_argument("--late-bound", type=time_of, default=10**6, metavar="TIME",
                        help="with --clock wall: the largest allowed 99th percentile of lateness [1ms]")
    parser.add_argument("--verify", action=argparse.BooleanOptionalAction, default=True,
                        help="run the transcript with `dnlab alone` and compare the reports")
    other = parser.add_mutually_exclusive_group()
    other.add_argument("--check", action="store_true", help="check FILE and run nothing")
    other.add_argument("--table", metavar="RUN", type=Path,
                       help="print a table of a run's traffic, by host and port")
    other.add_argument("--shell", metavar="WORDS",
                       help="open a shell behind a link with these options of `pipe config`, in real time")
    other.add_argument("--kernel", action="store_true",
                       help="build the guest's kernel if need be, and print its folder")
    return parser


def words(given: Sequence[str]) -> argparse.Namespace:
    parser = parser_of_words()
    found = parser.parse_args(list(given))
    needs_file = found.table is None and found.shell is None and not found.kernel
    if needs_file and found.file is None:
        parser.error("the following arguments are required: FILE")
    if not needs_file and found.file is not None:
        parser.error("--table, --shell and --kernel don't go with FILE")
    if needs_file and not found.check and found.out is None:
        parser.error("the following arguments are required: --out RUN")
    return found


def read_file(name: str) -> Experiment:
    """Returns the experiment of a file with its network checked, and prints its warnings."""
    # Imported here, so that --help works without yaml.
    from dnlab.emulation import hosts_file

    with reading(name):
        experiment = (hosts_file.experiment_of(sys.stdin.buffer.read(), "standard input", Path("."))
                      if name == "-" else hosts_file.read(Path(name)))
    for warning in check_network(experiment):
        say("hosts", warning)
    return experiment


def run_file(given: argparse.Namespace) -> int:
    """Checks a file and runs it."""
    experiment = read_file(given.file)
    if given.check:
        count = sum(len(it.processes) for it in experiment.hosts)
        print(f"{given.file}: hosts: {len(experiment.hosts)}, processes: {count}")
        return 0
    subprocesses.set_message(lambda: "nothing was run")
    kernel = kernel_cache.kernel()
    out = Path(os.path.abspath(given.out))
    guest.empty_folder(out, given.force)
    subprocesses.set_message(lambda: f"what {given.out} has is incomplete")
    limit = given.limit or experiment.settings.limit_s
    options = Options(str(given.out), given.clock, limit, given.late_bound, given.verify)
    return run.run(experiment, kernel, out, options)


def open_shell(link: str) -> int:
    """Opens a shell behind a link, in real time."""
    if not re.fullmatch(r"[ -~]+", link):
        raise InputError(f"--shell {link!r}: expected options of `pipe config`, as 'bw 10Mbit/s delay 20'")
    subprocesses.set_message(lambda: "the shell was ended")
    with TempDir() as room, guest.Terminal() as terminal:
        experiment = run.experiment_of(link, os.environ.get("SHELL") or "/bin/sh", terminal.path)
        return run.run_shell(experiment, kernel_cache.kernel(), room.path, terminal)


def print_table(folder: Path) -> int:
    """Prints the table of a run's traffic."""
    for module in "numpy", "dpkt":
        if importlib.util.find_spec(module) is None:
            raise ResourceError(f"{module} is missing (Debian: apt-get install python3-{module})")
    from dnlab.cli.summary import lines_of, milliseconds
    from dnlab.emulation.traffic import PERCENTILES, rows

    found = rows(folder)
    if not found:
        raise InputError(f"{folder}: no host sent a packet")
    cells = [["traffic", "protocol", "packets", "lost", *(f"delay p{it} ms" for it in PERCENTILES),
              "throughput Mbit/s", "goodput Mbit/s"]]
    for row in found:
        rates = ("-" if rate is None else f"{rate / 10**6:.3f}" for rate in (row.throughput, row.goodput))
        cells.append([str(row.pair), row.pair.protocol, str(row.packets), str(row.lost),
                      *(milliseconds(it, exact=False) for it in row.delays), *rates])
    sys.stdout.write(lines_of(cells, [0, 1]))
    return 0


def main(words_given: Sequence[str]) -> int:
    given = words(words_given)
    if given.table is not None:
        return print_table(given.table)
    if given.shell is not None:
        return open_shell(given.shell)
    if given.kernel:
        print(kernel_cache.kernel().folder)
        return 0
    return run_file(given)
