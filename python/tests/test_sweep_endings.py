"""How long runs end: at random times a signal is sent to the tool or its group, or kills it, a worker or a
program.

Each time all has ended within two seconds (longer on a machine that is busy besides), nothing is left (of a
tool that was killed: after the next call), one line says why and how much is kept, and the next call goes on
to the same bytes. The times begin when the tool handles signals. DNLAB_MOMENTS says how many moments are
tried (24); 200 take some ten minutes: DNLAB_MOMENTS=200 tools/gate/check_python -k endings
"""
import os
import random
import re
import signal
import sqlite3
import subprocess
import sys
import time
from pathlib import Path
from typing import Iterator, Optional

from conftest import QUICK, ROOT, wait_for_handlers

MOMENTS = int(os.environ.get("DNLAB_MOMENTS", "9" if QUICK else "24"))
# Texts of about 30 KB, so that the texts of a few experiments are larger than a pipe's buffer.
LINK = """experiment {{ name }} seed {{ seed }} budget 1000
@0 pipe 1 config bw 10Mbit/s delay 20 queue {{ queue }}
@0 add 100 pipe 1 ip from any to any
{% for moment in rng.arrivals(2000000, 1000000000) %}
@{{ moment }} inject udp 10.0.0.1 1000 10.0.1.1 2000 {{ rng.choice([100, 1500], [1, 3]) }}
{% endfor %}
@{{ 2 | s }} end
"""
EXPERIMENTS = 60
WORDS = ["link.tmpl", "--set", "queue=10,50", "--seeds", "1-30", "--of", "injected", "--stat",
         "delay.p50,lost", "--csv", "table.csv", "--workers", "2"]
# The signals and their targets, which are used in turn.
WAYS = [(signal.SIGINT, "tool"), (signal.SIGTERM, "tool"), (signal.SIGHUP, "tool"), (signal.SIGINT, "group"),
        (signal.SIGKILL, "tool"), (signal.SIGTERM, "group"), (signal.SIGKILL, "worker"),
        (signal.SIGHUP, "group"), (signal.SIGKILL, "program")]


def heed_signals() -> None:
    """Handles signals like a program in a terminal, even if pytest was started by nohup or in the background
    of a script."""
    for number in signal.SIGINT, signal.SIGTERM, signal.SIGHUP:
        signal.signal(number, signal.SIG_DFL)


class Place:
    """A folder with a template, in which sweeps run. Temporary files have their own folder."""

    def __init__(self, folder: Path, program: str) -> None:
        self.folder = folder
        self.room = folder / "tmp"
        self.room.mkdir()
        (folder / "link.tmpl").write_text(LINK)
        self.program = program
        self.env = {**os.environ, "DNLAB": program, "TMPDIR": str(self.room), "PYTHONFAULTHANDLER": "1"}

    def begin(self, *words: str) -> "subprocess.Popen[str]":
        return subprocess.Popen([sys.executable, ROOT / "tools" / "sweep", *WORDS, *words], cwd=self.folder,
                                env=self.env,
                                stdout=subprocess.PIPE, stderr=subprocess.PIPE, text=True,
                                start_new_session=True,
                                preexec_fn=heed_signals)

    def kept(self) -> int:
        try:
            with sqlite3.connect(f"file:{self.folder}/link.tmpl.kept?mode=ro", uri=True) as base:
                return int(base.execute("SELECT count(*) FROM answers").fetchone()[0])
        except sqlite3.OperationalError:
            return 0

    def left(self) -> list[str]:
        """Returns temporary files, and incomplete files next to the template."""
        return [*os.listdir(self.room), *(name for name in os.listdir(self.folder)
                                          if name not in ("tmp", "link.tmpl", "link.tmpl.kept", "table.csv"))]


def session(number: int) -> Iterator[tuple[int, str]]:
    """Yields the processes of a session that still run, with their command lines."""
    for entry in os.listdir("/proc"):
        try:
            if entry.isdigit():
                state, _, _, own = Path(f"/proc/{entry}/stat").read_text().rpartition(")")[2].split()[:4]
                if int(own) == number and state != "Z":
                    yield int(entry), Path(f"/proc/{entry}/cmdline").read_text().replace("\0", " ")
        except (FileNotFoundError, ProcessLookupError):
            continue


def send(going: "subprocess.Popen[str]", number: signal.Signals, whom: str, program: str) -> bool:
    """Sends a signal as soon as its target exists. Returns true if it was sent."""
    pattern = {"worker": "multiprocessing.spawn", "program": f"^{re.escape(program)} alone"}.get(whom)
    while going.poll() is None:
        if whom == "tool":
            going.send_signal(number)
            return True
        if whom == "group":
            os.killpg(going.pid, number)
            return True
        for one, words in session(going.pid):
            if pattern and re.search(pattern, words):
                os.kill(one, number)
                return True
    return False


def judge_line(place: Place, way: tuple[signal.Signals, str], status: int, err: str) -> None:
    """Checks the status and the one line of a call that was told to end, unless it had ended by itself."""
    number, whom = way
    if whom in ("worker", "program"):
        assert status == 3 and "SIGKILL" in err
    else:
        assert status == -number, err
    if number == signal.SIGKILL and whom == "tool":
        # Nothing, or the closing line if it was killed between that line and its end.
        done = rf"sweep: {EXPERIMENTS} experiments: \d+ were run, \d+ were kept in link.tmpl.kept\n"
        assert not err or re.fullmatch(done, err) and place.kept() == EXPERIMENTS, err
        return
    assert err.count("\n") == 1 and err.startswith("sweep: "), err
    found = re.search(
        rf"(\d+) of {EXPERIMENTS} experiments are kept in link.tmpl.kept; the same command continues\n$", err)
    if found:
        assert int(found[1]) <= place.kept() <= EXPERIMENTS
    else:
        assert err.endswith(("nothing was written\n",
                             "no experiment was run\n")) or place.kept() == EXPERIMENTS, err


def finished(going: "subprocess.Popen[str]", seconds: float = 60) -> str:
    """Returns the output of a call at its end. A call that hangs is ended, and prints where its Python is."""
    try:
        return going.communicate(timeout=seconds)[1]
    except subprocess.TimeoutExpired:
        found = list(session(going.pid))
        going.send_signal(signal.SIGABRT)
        time.sleep(0.5)
        for one, _ in session(going.pid):
            os.kill(one, signal.SIGKILL)
        raise AssertionError(f"it hangs: {found}\n{going.communicate()[1]}") from None


def patience() -> float:
    """Returns two seconds, or more if there are more running processes than cores, because each gets only its
    share."""
    return 2 * max(1.0, os.getloadavg()[0] / (os.cpu_count() or 1))


def one_moment(place: Place, way: tuple[signal.Signals, str], moment: float) -> Optional[str]:
    """Starts a sweep, and ends it after a time, counted from when it handles signals. Returns its output if
    it was ended, or None if it was done before."""
    number, whom = way
    going = place.begin()
    wait_for_handlers(going.pid)
    try:
        going.wait(moment)
    except subprocess.TimeoutExpired:
        pass
    was_sent = send(going, number, whom, place.program)
    sent = time.monotonic()
    try:
        err = finished(going, 10)
        took = time.monotonic() - sent
        while list(session(going.pid)) and time.monotonic() - sent < 10:
            time.sleep(0.01)
        left = list(session(going.pid))
        assert time.monotonic() - sent < patience(), f"{way} at {moment:.3f} s: {took:.1f} s, {left}"
    finally:
        for one, _ in session(going.pid):
            os.kill(one, signal.SIGKILL)
    if not was_sent or going.returncode == 0:
        return None
    judge_line(place, way, going.returncode, err)
    if way != (signal.SIGKILL, "tool"):
        assert not place.left(), f"{way} at {moment:.3f} s: {place.left()}"
    return err


def test_a_sweep_is_ended_at_any_moment(tmp_path: Path, program: str) -> None:
    place = Place(tmp_path, program)
    done = place.begin()
    wait_for_handlers(done.pid)
    begun = time.monotonic()
    assert finished(done) and done.returncode == 0
    whole = time.monotonic() - begun
    table = (tmp_path / "table.csv").read_bytes()
    chance = random.Random(MOMENTS)
    (tmp_path / "link.tmpl.kept").unlink()
    ended = 0
    for turn in range(MOMENTS):
        (tmp_path / "table.csv").unlink(missing_ok=True)
        said = one_moment(place, WAYS[turn % len(WAYS)], chance.uniform(0, whole))
        print(turn, WAYS[turn % len(WAYS)], round(time.monotonic() - begun, 1), repr(said))
        ended += said is not None
        if said is None or turn % 9 == 4:
            # The next call continues. After a call that was killed, it removes the remains.
            done = place.begin()
            err = finished(done)
            assert done.returncode == 0 and (tmp_path / "table.csv").read_bytes() == table, err
            assert place.kept() == EXPERIMENTS and not place.left()
            (tmp_path / "link.tmpl.kept").unlink()
    # Many of the times are within the run, though a program may end before it is found.
    assert ended > MOMENTS / 4
