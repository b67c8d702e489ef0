"""tools/spread where a part fails: a status, a signal, a cut report, a run that is ended and continued, a
stand-in for Slurm's sbatch, and wrong usage. Other machines by ssh aren't tried."""
import os
import signal
import subprocess
import sys
import time
from pathlib import Path

import pytest
from conftest import SBATCH, tool
from spreading import SMALL, SMALL_REPORT, SPREAD, ended, executable, spread

import dnlab

# Works like the program. But if the folder has a file `broken` and the text an experiment `bad`, it does what
# the file says. Each call of `alone` appends the first experiment's name to the file `calls`.
FAKE = """#!/bin/sh
[ "$1" = alone ] || exec {program} "$@"
text=$(cat; echo .)
text=${{text%.}}
echo "$text" | sed -n 's/^experiment \\([^ ]*\\).*/\\1/p' | head -n 1 >>{folder}/calls
case $text in *"experiment bad "*) [ ! -f {folder}/broken ] || . {folder}/broken ;; esac
printf '%s' "$text" | {program} alone
"""
# Wrong arguments, and the text that standard error must contain.
WRONG = [
    ([], "SCENARIO"), (["-", "--parts", "0"], "--parts 0"), (["-", "--parts", "two"], "two"),
    (["-", "--jobs", "0"], "--jobs 0"), (["-", "--part", "2"], "--part"), (["-", "--resume"], "--resume"),
    (["-", "--slurm", "--ssh", "x"], "--ssh"), (["-", "--program", "x"], "--program"),
    (["-", "--out", "/dev/null"], "/dev/null"), (["-", "--out", "/nowhere/report"], "/nowhere/report"),
    (["-", "-"], "standard input"), (["-", "--resume", "--out", "/tmp/no-such-report"], "no-such-report"),
]


@pytest.fixture
def fake(tmp_path: Path, program: str) -> Path:
    """Returns a program that fails for the experiment `bad`, in the way that the file `broken` says, if it
    exists."""
    return executable(tmp_path / "fake", FAKE.format(program=program, folder=tmp_path))


FAILURES = [("a status", "echo memory >&2; exit 3\n", b"status 3, memory"),
            ("a signal", "kill -9 $$\n", b"ended by SIGKILL"),
            ("a lost machine", "exit 255\n", b"status 255"),
            ("a cut report", "echo experiment bad; echo '0 ok 0'; exit 0\n", b"cut"),
            ("another report", "echo experiment other; echo counters 0 0; exit 0\n", b"another scenario")]


@pytest.mark.parametrize("name,broken,why", FAILURES, ids=[failure[0] for failure in FAILURES])
def test_a_part_fails(name: str, broken: str, why: bytes, tmp_path: Path, fake: Path) -> None:
    """The part is named, nothing is written, and existing files stay. Resuming only runs that part."""
    report, work = tmp_path / "report", tmp_path / "report.parts"
    (tmp_path / "broken").write_text(broken)
    report.write_text("before\n")
    out, err, status = spread("--parts", 3, "--out", report, program=fake)
    assert status == 3 and not out and why in err
    assert err.startswith(b"spread: part 2 of 3 failed (experiments bad to bad)")
    assert report.read_text() == "before\n"
    assert b"".join((work / f"{part}.txt").read_bytes() for part in (1, 2, 3)) == SMALL[len("# one\n"):]
    again = spread("--parts", 3, "--out", report, program=fake)
    assert again[2] == 2 and b"--resume" in again[1]
    if name == "a status":
        still = spread("--parts", 3, "--out", report, "--resume", program=fake)
        assert still[2] == 3 and b"part 2 of 3" in still[1]
    (tmp_path / "broken").unlink()
    (tmp_path / "calls").unlink()
    for text, parts in (SMALL.replace(b"@5", b"@6"), 3), (SMALL, 2):
        other = spread("--parts", parts, "--out", report, "--resume", text=text, program=fake)
        assert other[2] == 2 and b"another" in other[1]
    assert spread("--parts", 3, "--out", report, "--resume", program=fake) == (b"", b"", 0)
    assert report.read_bytes() == SMALL_REPORT
    assert (tmp_path / "calls").read_text() == "bad\n"
    assert not work.exists() and [found.name for found in tmp_path.glob("report.*")] == ["report.json"]


def test_a_changed_moment_is_seen(tmp_path: Path, program: str, fake: Path) -> None:
    """The packet of `bad` arrives at 7, although its link delivers it at 6: like every reader of reports,
    spread detects that."""
    (tmp_path / "broken").write_text(
        f"printf '%s' \"$text\" | {program} alone | sed 's/^6 deliver 0 plain/4 deliver 0 plain/'; exit 0\n")
    out, err, status = spread("--parts", 3, program=fake)
    assert status == 3 and not out
    assert err.startswith(
        b"spread: part 2 of 3 failed (experiments bad to bad): its report does not match its scenario: "
        b"experiment bad:"
        b" line 4 of its report: ")


def test_ended_from_outside(tmp_path: Path, fake: Path) -> None:
    """The run is ended during the second part. The first part is kept, and no part is left running."""
    report = tmp_path / "report"
    (tmp_path / "broken").write_text(f"echo $$ >{tmp_path}/going; exec sleep 100\n")
    with subprocess.Popen([SPREAD, "-", "--jobs", "1", "--parts", "3", "--out", report],
                          stdin=subprocess.PIPE,
                          stderr=subprocess.DEVNULL, env={**os.environ, "DNLAB": str(fake)}) as going:
        going.stdin.write(SMALL)
        going.stdin.close()
        until = time.time() + 60
        while not (tmp_path / "going").exists() and time.time() < until:
            time.sleep(0.05)
        time.sleep(0.1)
        going.send_signal(signal.SIGTERM)
        assert going.wait(timeout=20) == -signal.SIGTERM and not report.exists()
    one = int((tmp_path / "going").read_text())
    time.sleep(0.5)
    state = Path(f"/proc/{one}/stat")
    assert not state.exists() or state.read_text().split()[2] == "Z"
    (tmp_path / "broken").unlink()
    assert spread("--parts", 3, "--out", report, "--resume", program=fake) == (b"", b"", 0)
    assert report.read_bytes() == SMALL_REPORT
    assert (tmp_path / "calls").read_text().split() == ["one", "bad", "bad", "two"]


def test_slurm(tmp_path: Path, fake: Path) -> None:
    """Checks the arguments of sbatch with a stand-in for it, and not that Slurm accepts them."""
    report = tmp_path / "report"
    (tmp_path / "bin").mkdir()
    executable(tmp_path / "bin" / "sbatch", SBATCH)
    words = {"program": fake, "PATH": f"{tmp_path}/bin:{os.environ['PATH']}"}
    (tmp_path / "broken").write_text("exit 3\n")
    out = spread("--parts", 3, "--slurm", "--out", report, **words)
    assert out[2] == 3 and b"part 2 of 3" in out[1] and not report.exists()
    (tmp_path / "broken").unlink()
    (tmp_path / "calls").unlink()
    assert spread("--parts", 3, "--slurm", "--out", report, "--resume", **words) == (b"", b"", 0)
    assert report.read_bytes() == SMALL_REPORT and (tmp_path / "calls").read_text() == "bad\n"


@pytest.mark.parametrize("words,named", WRONG, ids=[" ".join(words) or "none" for words, _ in WRONG])
def test_wrong_usage(words: list[str], named: str, program: str) -> None:
    out, err, status = ended([SPREAD, *words], SMALL, env={**os.environ, "DNLAB": program})
    assert status == 2 and not out and named.encode() in err


def test_what_is_missing(tmp_path: Path, program: str) -> None:
    few = tmp_path / "few"
    few.mkdir()
    (few / "python3").symlink_to(sys.executable)
    for way, said in (({"program": tmp_path / "none"}, b"none is no program"),
                      ({"program": program, "PATH": str(few)}, b"parallel is missing")):
        out, err, status = spread("--ssh", "alpha", **way)
        assert status == 2 and not out and said in err
    out, err, status = ended([SPREAD, str(tmp_path / "none")], b"", env={**os.environ, "DNLAB": program})
    assert status == 3 and b"none" in err
    out, err, status = ended([SPREAD, "--help"], b"")
    assert status == 0 and b"Example:" in out and not err
    with open("/dev/full", "wb") as full:
        done = subprocess.run([SPREAD, "-"], input=SMALL, stdout=full, stderr=subprocess.PIPE, check=False,
                              env={**os.environ, "DNLAB": program})
    assert done.returncode == 3 and b"standard output: No space left" in done.stderr


def test_a_worker_without_end(tmp_path: Path) -> None:
    """A program with endless output is ended by a limit that depends on the scenario's steps and commands."""
    worker = tmp_path / "worker"
    worker.write_text(
        "#!/bin/sh\ncase $1 in check) printf 'ok 1 1' ;; --version) echo dnlab 9 ;; *) exec yes '0 "
        "ok 0' ;; esac\n")
    worker.chmod(0o755)
    scenario = tmp_path / "s.txt"
    scenario.write_text("experiment a seed 1 budget 1 steps 1000\n@0 end\n")
    status, out, told = tool("spread", scenario, "--parts", "1", "--out", tmp_path / "r.txt", "--work",
                             tmp_path / "w", DNLAB=str(worker))
    assert (status, out) == (3, "") and "SIGXFSZ" in told and not (tmp_path / "r.txt").exists(), told
    with pytest.raises(dnlab.ProgramError, match="SIGXFSZ .it wrote more than its scenario can produce."):
        dnlab.run(scenario.read_text(), dnlab=str(worker))
