"""A small template for sweeps, and what reads their tables."""
import csv
import io
import re
from pathlib import Path

from conftest import ROOT

BOTTLENECK = ROOT / "python" / "examples" / "bottleneck.tmpl"
# One packet of a random size that depends on the seed, over a link of 1 Mbit/s: 8000 ns per byte, and the
# delay.
ONE = """experiment {{ name }} seed {{ seed }} budget 10
@0 pipe 1 config bw 1Mbit/s delay {{ delay }}
@0 add 100 pipe 1 ip from any to any
@0 train 1 udp 10.0.0.1 1 10.0.0.2 2 {{ rng.whole(100, 1500) }} count 1 gap 0
@1000000000 end
"""
# The same with more settings; with `count` the train is longer than the run.
WIDE = ONE.replace("1Mbit/s", '{{ bw | default("1Mbit/s") }}').replace(
    "count 1 gap 0", "count {{ count | default(1) }} gap 300000000")


def template(folder: Path, text: str = ONE, name: str = "one.tmpl") -> Path:
    (folder / name).write_text(text)
    return folder / name


def rows_of(text: str) -> list[dict[str, str]]:
    return list(csv.DictReader(io.StringIO(text)))


def size_of(text: str) -> int:
    """Returns the size of the packet that a text of ONE sends."""
    return int(re.search(r"2 (\d+) count", text)[1])
