"""What tools/beside/exact and tools/beside/ns3 share: a train through one pipe, what leaves it, and how
late."""
import re
import subprocess
from collections.abc import Sequence
from fractions import Fraction

import second_words

END = 10**15

# A time (ns), and the serial number of the packet that leaves then.
Leaving = tuple[int, int]


def scenario(bw: int, discipline: str, size: int, count: int, gap: int) -> bytes:
    return (f"experiment a seed 1 budget 65535 steps 10000000\n@0 pipe 1 config bw {bw} queue 1000 "
            f"{discipline}\n@0 add 1 pipe 1 ip from any to any\n@0 train 1 udp 10.0.0.1 1 10.0.0.2 2 {size} "
            f"count {count} gap {gap}\n@{END} end\n").encode()


def leaving(report: str) -> tuple[list[Leaving], list[Leaving]]:
    """Returns the finishes and CoDel's drops in a report."""
    finishes, drops = (re.findall(rf"(?m)^(\d+) {line}", report)
                       for line in (r"finish (\d+) ", r"drop (\d+) plain codel$"))
    return [(int(a), int(b)) for a, b in finishes], [(int(a), int(b)) for a, b in drops]


def report_of(program: str, text: bytes) -> tuple[str, bool]:
    """Returns dnlab's report, and true if tools/second/second writes the same."""
    report = subprocess.run([program, "alone"], input=text, capture_output=True, check=True).stdout.decode()
    return report, report == "".join(second_words.report(text))


def alike(one: Sequence[Leaving], other: Sequence[Leaving]) -> str:
    """Returns how many pairs at the start are equal, in words."""
    same = next((at for at, (a, b) in enumerate(zip(one, other)) if a != b), min(len(one), len(other)))
    return "all" if same == len(one) == len(other) else f"the first {same}"


def behind(finishes: Sequence[Leaving], bw: int, size: int, gap: int) -> list[Fraction]:
    """Returns by how much (ns) each finish is later than the exact one. A packet's serial number gives its
    arrival. A busy period starts with a packet that arrives no earlier than the previous finish."""
    found, begun, served, before = [], 0, 0, -1
    for moment, number in finishes:
        if number * gap >= before:
            begun, served = number * gap, 0
        served += size
        found.append(moment - (begun + Fraction(8 * 10**9 * served, bw)))
        before = moment
    return found
