"""Describes a run to the kernel and to the first program, runs it, and reads what it leaves."""
import contextlib
import dataclasses
import os
import pathlib
import shutil
import struct
import subprocess
import time

ORIGIN = 10 * 10**9  # CLOCK_MONOTONIC at time 0
START_DATE = 1_700_000_000 * 10**9
LINKS = [
    "pipe 1 config bw 10Mbit/s delay 20 queue 50",
    "pipe 2 config bw 10Mbit/s delay 20 queue 50",
    "add 100 pipe 1 ip from 10.0.0.1 to any",
    "add 200 pipe 2 ip from any to 10.0.0.1",
]


@dataclasses.dataclass
class Process:
    """A process of a host: its command line, start in ns after time 0, and how it is to end."""

    command: list[str]
    start: int = 0
    expects: str = "exited 0"
    user: str = ""
    stop: str = ""


@dataclasses.dataclass
class Host:
    """A host: address, set-up lines (`setup ..`, `sysctl ..`) and processes."""

    address: str
    processes: list[Process] = dataclasses.field(default_factory=list)
    lines: list[str] = dataclasses.field(default_factory=list)


@dataclasses.dataclass
class Run:
    """The results of a run. Times are ns after time 0, or wall and CPU seconds."""

    folder: pathlib.Path
    exits: dict[str, str]
    counts: dict[str, str]
    console: str
    wall: float
    cpu: float

    def text(self, path: str) -> str:
        """Returns the text of a file of the run."""
        return (self.folder / path).read_text(encoding="utf-8", errors="replace")

    def out(self, host: str = "client", index: int = 0) -> str:
        """Returns the standard output of a process."""
        return self.text(f"hosts/{host}/{index}.out")


def escape(text: str) -> str:
    """Writes a text as one line of the plan."""
    return text.replace("\\", "\\\\").replace("\n", "\\n")


def plan_of(hosts: dict[str, Host], end: int) -> str:
    """Returns guest/plan."""
    lines = [f"end {end}"]
    for name, host in hosts.items():
        lines += [f"host {name} {host.address}", *host.lines]
        for index, process in enumerate(host.processes):
            lines += [
                f"process {index} {process.start} hosts/{name}/{index}.out hosts/{name}/{index}.err",
                f"path {process.command[0]}",
                *(f"argument {escape(word)}" for word in process.command[1:]),
            ]
            lines += [f"user {process.user}"] if process.user else []
            lines += [f"stop {process.stop}"] if process.stop else []
            lines.append(f"expects {process.expects}")
    return "\n".join(lines) + "\n"


def write(folder: pathlib.Path, hosts: dict[str, Host], network: list[str], steps: int, end: int) -> None:
    """Writes the input of a run into a new folder."""
    shutil.rmtree(folder, ignore_errors=True)
    for name in ["guest", *(f"hosts/{name}" for name in hosts)]:
        (folder / name).mkdir(parents=True)
    conf = ["seed 1", f"steps {steps}", "transcript transcript.txt", "report report.txt"]
    conf += [f"host {name} {host.address} hosts/{name}/eth0.pcap" for name, host in hosts.items()]
    conf += ["do " + (line if line.startswith("@") else "@0 " + line) for line in network]
    (folder / "guest/link.conf").write_text("\n".join(conf) + "\n", encoding="utf-8")
    (folder / "guest/plan").write_text(plan_of(hosts, end), encoding="utf-8")


def words_of(path: pathlib.Path, keys: int) -> dict[str, str]:
    """Reads lines that begin with a key of one or more words."""
    lines = path.read_text(encoding="utf-8").splitlines() if path.exists() else []
    return {" ".join(line.split()[:keys]): " ".join(line.split()[keys:]) for line in lines}


def kernel_command(kernel: pathlib.Path, mem: str, root: str) -> list[str]:
    """Returns the command that starts a guest in simulated time, with as much memory, on one processor."""
    start = ["taskset", "-c", str(min(os.sched_getaffinity(0))), "setarch", "-R", str(kernel / "linux")]
    clock = [
        "time-travel=inf-cpu",
        f"time-travel-start={START_DATE}",
        "time-travel-cost=0,1000",
        "time-travel-reads=8",
        "time-travel-polls=6",
    ]
    console = ["quiet", "con=null", "con0=null,fd:1"]
    return [*start, f"mem={mem}", *clock, "rng-seed=1", *console, "dnlab=guest/link.conf",
            f"rootflags={root}"]


def run(
    kernel: pathlib.Path,
    folder: pathlib.Path,
    hosts: dict[str, Host],
    network: list[str] | None = None,
    steps: int = 10_000_000,
    end: int = 60 * 10**9,
    mem: str = "512M",
    root: str = "/",
    wall: bool = False,
    limit: float = 900,
) -> Run:
    """Runs hosts over a link, in simulated time or by the wall clock."""
    write(folder, hosts, LINKS if network is None else network, steps, end)
    if wall:
        command = [str(kernel / "link"), "guest/link.conf", "guest/plan"]
    else:
        command = kernel_command(kernel, mem, root)
    before, begin = os.times(), time.monotonic()
    with (folder / "guest/console").open("w") as console:
        subprocess.run(
            command,
            cwd=folder,
            stdin=subprocess.DEVNULL,
            stdout=console,
            stderr=console,
            env={"PATH": os.environ["PATH"], "HOME": "/nonexistent"},
            timeout=limit,
            check=False,
        )
    after = os.times()
    cpu_time = after.children_user + after.children_system - before.children_user - before.children_system
    return Run(
        folder,
        words_of(folder / "guest/exits", 2),
        words_of(folder / "guest/counts", 1),
        (folder / "guest/console").read_text(encoding="utf-8", errors="replace"),
        time.monotonic() - begin,
        cpu_time,
    )


def left_in(folder: pathlib.Path, patience: float = 10) -> list[int]:
    """Returns the processes that still work in a folder or below it, after waiting for them to end (s)."""
    until = time.monotonic() + patience
    while True:
        left = []
        for process in pathlib.Path("/proc").glob("[0-9]*"):
            # A process that has just ended, or is not ours, has no such link.
            with contextlib.suppress(OSError):
                if (process / "cwd").readlink().is_relative_to(folder.resolve()):
                    left.append(int(process.name))
        if not left or time.monotonic() > until:
            return left
        time.sleep(0.1)


def capture(path: pathlib.Path) -> list[tuple[int, bytes]]:
    """Reads a capture: times in ns, and packets. Raises ValueError if it is not a capture."""
    data = path.read_bytes()
    if len(data) < 24 or struct.unpack_from("<IHHiIII", data) != (0xA1B23C4D, 2, 4, 0, 0, 65535, 101):
        raise ValueError(f"{path}: not a nanosecond capture of raw IP")
    packets, at = [], 24
    while at < len(data):
        seconds, ns, bytes_kept, length = struct.unpack_from("<IIII", data, at)
        if bytes_kept != length or at + 16 + length > len(data):
            raise ValueError(f"{path}: a packet is cut")
        packets.append((seconds * 10**9 + ns, data[at + 16 : at + 16 + length]))
        at += 16 + length
    return packets
