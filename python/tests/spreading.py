"""Small scenarios, and calls of tools/spread."""
import os
import subprocess
from pathlib import Path

from conftest import ROOT

SPREAD = str(ROOT / "tools" / "spread")
MOST = 256
# Each has 3 commands, so that 3 parts have 1 experiment each and 2 parts have 2 and 1, or 1 and 2.
SMALL = "".join(f"# {name}\nexperiment {name} seed 0 budget 10\n@0 add 100 allow ip from any to any\n"
                f"@5 inject udp 10.0.0.1 1 10.0.0.2 2 100\n@9 end\n\n"
                for name in ("one", "bad", "two")).encode()
# By hand from docs/explanation/rules.md and report.md: the rule, then the packet, 1 ns over the link of
# `allow`, then `end`.
SMALL_REPORT = "".join(f"experiment {name}\n0 ok 0\n5 ok 1\n6 deliver 0 plain\n9 ok 2\n"
                       "counters 1 1 0 0 0 0 0 0 0 0 0\n" for name in ("one", "bad", "two")).encode()


def ended(words, text, **how):
    done = subprocess.run(words, input=text, capture_output=True, timeout=120, check=False, **how)
    return done.stdout, done.stderr, done.returncode


def spread(*words, text=SMALL, program, **more):
    # One job at a time, because the machine's cores may be in use.
    return ended([SPREAD, "-", "--jobs", "1", *map(str, words)], text,
                 env={**os.environ, "DNLAB": str(program), **more})


def begins(text: bytes) -> list[int]:
    """Returns the numbers of the lines that start an experiment."""
    return [number for number, line in enumerate(text.split(b"\n")) if line.split()[:1] == [b"experiment"]]


def executable(file: Path, text: str) -> Path:
    file.write_text(text)
    file.chmod(0o755)
    return file
