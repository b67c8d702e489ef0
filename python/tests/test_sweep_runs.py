"""How a sweep runs: cached results, other machines, signals, and progress."""
import importlib.util
import os
import re
import sqlite3
import subprocess
from pathlib import Path

import pytest
from conftest import ROOT, SBATCH, tool
from sweeps import ONE, rows_of, template

import dnlab
from dnlab.processes.progress import Progress
from dnlab.sweeps.engines import RunOptions

# Works like the program, but appends each text's experiments to the file `calls`, and fails if the folder has
# a file `broken` and the text has an experiment that is named in it.
FAKE = """#!/bin/sh
[ "$1" = alone ] || exec {program} "$@"
cat >{folder}/text.$$
sed -n 's/^experiment \\([^ ]*\\).*/\\1/p' {folder}/text.$$ >>{folder}/calls
if [ -f {folder}/broken ] && grep -q -f {folder}/broken {folder}/text.$$; then echo memory >&2; exit 3; fi
{program} "$@" <{folder}/text.$$
rm {folder}/text.$$
"""


@pytest.fixture
def counting(tmp_path: Path, program: str) -> Path:
    """Returns a program that records the experiments that it runs."""
    fake = tmp_path / "fake"
    fake.write_text(FAKE.format(program=program, folder=tmp_path))
    fake.chmod(0o755)
    return fake


def calls(folder: Path) -> list[str]:
    """Returns the experiments that were run since the last call, in order."""
    found = (folder / "calls").read_text().split() if (folder / "calls").exists() else []
    (folder / "calls").unlink(missing_ok=True)
    return sorted(found)


def test_what_is_known_is_not_run(tmp_path: Path, counting: Path) -> None:
    file = template(tmp_path)

    def swept(*words: str) -> str:
        status, out, err = tool("sweep", file, *words, "--of", "train 1", "--stat", "lost",
                                DNLAB=str(counting))
        assert status == 0, err
        return out

    first = swept("--set", "delay=5,7", "--seeds", "1-2")
    assert calls(tmp_path) == ["delay5-s1", "delay5-s2", "delay7-s1", "delay7-s2"]
    assert swept("--set", "delay=5,7", "--seeds", "1-2") == first and calls(tmp_path) == []
    swept("--set", "delay=7,9", "--seeds", "1-3")
    assert calls(tmp_path) == ["delay7-s3", "delay9-s1", "delay9-s2", "delay9-s3"]
    # Another statistic runs them again, and both results are cached.
    swept("--set", "delay=5", "--of", "all", "--stat", "delivered")
    assert calls(tmp_path) == ["delay5-s1"]
    swept("--set", "delay=5,7", "--seeds", "1-2")
    assert calls(tmp_path) == []
    swept("--set", "delay=5", "--anew")
    assert calls(tmp_path) == ["delay5-s1"]
    # Another text and another program also run them again.
    template(tmp_path, ONE.replace("budget 10", "budget {% if delay == 7 %}20{% else %}10{% endif %}"))
    swept("--set", "delay=5,7")
    assert calls(tmp_path) == ["delay7-s1"]
    counting.write_text(counting.read_text() + "# another build\n")
    swept("--set", "delay=5,7")
    assert calls(tmp_path) == ["delay5-s1", "delay7-s1"]


def test_a_run_that_failed_goes_on(tmp_path: Path, counting: Path) -> None:
    """One experiment fails and is named. The others are run and cached, and the same command then only runs
    the failed one."""
    file = template(tmp_path)
    (tmp_path / "broken").write_text("delay5-s20 \n")
    words = [file, "--set", "delay=5", "--seeds", "1-24", "--workers", "1", "--csv", tmp_path / "x.csv"]
    status, out, err = tool("sweep", *words, DNLAB=str(counting))
    assert (status, out, err) == (3, "",
                                  "sweep: experiment delay5-s20 (delay=5, seed 20): memory; 23 of 24 "
                                  f"experiments are kept in {file}.kept; the same command continues\n")
    assert len(set(calls(tmp_path))) == 24 and not (tmp_path / "x.csv").exists()
    (tmp_path / "broken").unlink()
    status, out, err = tool("sweep", *words, DNLAB=str(counting))
    assert status == 0 and calls(tmp_path) == ["delay5-s20"] and "1 were run, 23 were kept" in err
    assert {row["n"] for row in rows_of((tmp_path / "x.csv").read_text())} == {"24"}


def test_other_machines_by_a_stand_in(tmp_path: Path, counting: Path) -> None:
    """A Slurm array, with a stand-in for sbatch, makes the same table. If a part fails, the others are
    cached."""
    file, fake = template(tmp_path), tmp_path / "bin" / "sbatch"
    fake.parent.mkdir()
    fake.write_text(SBATCH)
    fake.chmod(0o755)
    path = f"{fake.parent}:{os.environ['PATH']}"
    words = [file, "--set", "delay=5,7", "--seeds", "1-4", "--of", "train 1", "--stat", "delay.p95"]
    here = tool("sweep", *words, "--kept", tmp_path / "here", "--csv", "-", DNLAB=str(counting))
    calls(tmp_path)
    (tmp_path / "broken").write_text("delay7-s2 \n")
    done = subprocess.run([ROOT / "tools" / "sweep", *map(str, words), "--on", "slurm"], cwd=tmp_path,
                          capture_output=True,
                          text=True, check=False, env={**os.environ, "PATH": path, "DNLAB": str(counting)})
    assert done.returncode == 3 and "delay7-s2" in done.stderr and "--resume" not in done.stderr
    assert len(calls(tmp_path)) == 8 and not list(tmp_path.glob("dnlab-room.*"))
    (tmp_path / "broken").unlink()
    done = subprocess.run([ROOT / "tools" / "sweep", *map(str, words), "--on", "slurm", "--csv", "-"],
                          cwd=tmp_path,
                          capture_output=True, text=True, check=False,
                          env={**os.environ, "PATH": path, "DNLAB": str(counting)})
    assert done.returncode == 0 and done.stdout == here[1] and calls(tmp_path) == ["delay7-s2"]


def test_an_engine_that_is_not_there(tmp_path: Path, program: str, monkeypatch: pytest.MonkeyPatch) -> None:
    """In Python the reason is an `InputError`, as for any other unusable input."""
    text = template(tmp_path).read_text()
    monkeypatch.setenv("PATH", str(tmp_path))
    for on, said in ("4/alpha", "parallel is missing (Debian: parallel)"), ("slurm",
                                                                            "sbatch is missing "
                                                                            "(Debian: slurm-client)"):
        with pytest.raises(dnlab.InputError, match=re.escape(f"--on {on}: {said}")):
            dnlab.sweep(text, delay=5, of="train 1", stat="delay.p95", on=on, dnlab=program).run()
    assert (RunOptions(ssh="4/alpha",
                       program="/opt/{a}").fault() == "--program /opt/{a}: parallel would fill in its braces")
    assert RunOptions().fault() is None


def test_what_is_kept_is_judged(tmp_path: Path, program: str) -> None:
    """A changed digit in the file, a row of another experiment, or bytes that aren't text: it is run again,
    with a note, and no such number is used."""
    file = template(tmp_path)
    words = [file, "--set", "delay=5,7", "--seeds", "1-3", "--of", "train 1", "--stat", "delay.p50",
             "--csv", "-"]
    status, table, err = tool("sweep", *words, DNLAB=program)
    assert status == 0 and "6 were run" in err
    for change in ("UPDATE answers SET found = replace(found, '000', '001')",
                   "UPDATE answers SET (found, checksum) = (SELECT found, checksum FROM answers LIMIT 1)",
                   "UPDATE answers SET found = x'ff00'", "UPDATE answers SET found = 7, checksum = 9",
                   "UPDATE answers SET found = '{}', checksum = ''"):
        with sqlite3.connect(f"{file}.kept") as base:
            base.execute(change)
        base.close()
        status, out, err = tool("sweep", *words, DNLAB=program)
        run = 5 if "LIMIT" in change else 6
        assert (status, out) == (0, table) and f"{run} were run" in err
        assert f"{run} results in {file}.kept were damaged; these experiments were run again" in err
    whole = Path(f"{file}.kept").read_bytes()
    for damaged in (whole[:100], bytes(len(whole)), whole[:5000] + bytes(3000) + whole[8000:], b"x" * 9000):
        Path(f"{file}.kept").write_bytes(damaged)
        status, out, err = tool("sweep", *words, DNLAB=program)
        assert ("Traceback" not in err
                and ((status, out) == (0, table) or (status == 2 and not out and "--kept" in err)))


def test_the_program_behind_a_script(tmp_path: Path, program: str) -> None:
    """If the program that a script calls changes, or its --version, no cached result is used."""
    file, inner, outer = template(tmp_path), tmp_path / "inner", tmp_path / "outer"
    inner.write_text(f'#!/bin/sh\nexec {program} "$@"\n')
    outer.write_text('#!/bin/sh\nhere=$(dirname "$0")\nexec "$here/inner" "$@"\n')
    for one in inner, outer:
        one.chmod(0o755)
    words = [file, "--set", "delay=5", "--of", "train 1", "--stat", "lost"]
    for text, run in ((None, 1), (None, 0), (inner.read_text() + "# another build\n", 1), (None, 0)):
        if text:
            inner.write_text(text)
        assert f"{run} were run" in tool("sweep", *words, DNLAB=str(outer))[2]


def test_the_order_of_settings_is_the_same_question(tmp_path: Path, counting: Path) -> None:
    file = template(tmp_path, ONE.replace("budget 10", "budget {{ room }}"))
    for words in (["--set", "delay=5,6", "--set", "room=10,11"],
                  ["--set", "room=11,10", "--set", "delay=6,5"]):
        assert tool("sweep", file, *words, "--of", "all", "--stat", "lost", DNLAB=str(counting))[0] == 0
    assert len(calls(tmp_path)) == 4


def test_a_refused_command_ends_a_sweep(tmp_path: Path, program: str) -> None:
    """Of 8 experiments, those with delay 7 have a command for a missing pipe: there is no table, unless that
    is allowed."""
    file = template(tmp_path, ONE.replace("@1000000000 end",
                                          "{% if delay == 7 %}@5 pipe delete 9\n{% endif %}@1000000000 end"))
    words = [file, "--set", "delay=5,7", "--seeds", "1-4", "--of", "train 1", "--stat", "lost", "--csv", "-"]
    for _ in range(2):
        status, out, err = tool("sweep", *words, DNLAB=program)
        assert status == 2 and not out and "experiment delay7-s" in err and "(delay=7, seed " in err
        assert ("line 5: `pipe delete 9` (20: there is no pipe of this number)" in err
                and "--allow refused" in err)
    status, out, err = tool("sweep", *words, "--allow", "refused", DNLAB=program)
    assert (status == 0
            and {row["delay"]: row["warnings"] for row in rows_of(out)} == {"5": "", "7": "refused"})
    with pytest.raises(dnlab.InputError, match="refused"):
        dnlab.sweep(file, delay=7, of="all", stat="lost", dnlab=program).table()
    assert dnlab.sweep(file, delay=7, of="all", stat="lost", dnlab=program,
                       allow=["refused"]).table()["n"].tolist() == [1]


def test_by_dask(tmp_path: Path, program: str, monkeypatch: pytest.MonkeyPatch) -> None:
    """A scheduler and two workers on this machine make the same table, with a statistic of the user's own. A
    missing scheduler is reported."""
    distributed = pytest.importorskip("distributed",
                                      reason="distributed is missing (Debian: python3-distributed)")
    monkeypatch.setenv("PYTHONPATH", str(ROOT / "python"))
    (tmp_path / "mine.py").write_text("def made(run):\n    return run.counters.made\n")
    words = [template(tmp_path), "--set", "delay=5,7", "--seeds", "1-4", "--of", "train 1", "--stat",
             f"delay.p95,{tmp_path}/mine.py:made", "--csv", "-"]
    here = tool("sweep", *words, "--kept", tmp_path / "here", DNLAB=program)
    with distributed.LocalCluster(n_workers=2, threads_per_worker=1, dashboard_address=None) as cluster:
        there = tool("sweep", *words, "--on", "dask", cluster.scheduler_address, DNLAB=program)
    assert there[:2] == here[:2] and "8 were run" in there[2]
    status, out, err = tool("sweep", *words, "--anew", "--on", "dask", "tcp://127.0.0.1:1", DNLAB=program)
    assert status == 2 and not out and "there is no scheduler" in err


@pytest.mark.skipif(importlib.util.find_spec("tqdm") is None, reason="tqdm is missing (Debian: python3-tqdm)")
def test_how_far_it_is(capsys: pytest.CaptureFixture[str]) -> None:
    """After 100 s, 30 of 120 are done and 20 were cached, so the other 70 take 233 s."""
    progress = Progress("sweep", 120, 20)
    progress.step(30)
    assert progress.told(progress.begin + 100) == "sweep: 50 of 120 experiments, ETA 03:53"
    progress = Progress("sweep", 9)
    progress.step()
    assert not capsys.readouterr().err
    progress.last -= 31
    progress.step()
    progress.close()
    assert re.fullmatch("sweep: 2 of 9 experiments, ETA [0-9:]+\n", capsys.readouterr().err)
