"""The guest's kernel is built once, completely or not at all, and missing packages are named. A script
replaces the build."""
import os
import signal
import subprocess
import sys
import time
from pathlib import Path
from typing import Any

import pytest

pytest.importorskip("yaml", reason="yaml is missing (Debian: python3-yaml)")

from conftest import ROOT  # noqa: E402  (yaml is looked for first)

# It writes a line each time it builds, and takes SLEEP seconds.
BUILD = """#!/bin/sh
if [ "$1" = --checksum ]; then echo c0ffee; exit; fi
echo $$ >> "$LOG"
case $HOW in
missing) echo some words >&2; echo 'missing: flex bison' >&2; exit 3 ;;
failing) echo first >&2; echo 'compiling: no space left' >&2; exit 1 ;;
half) touch "$1/linux"; chmod +x "$1/linux"; exit 0 ;;
esac
echo progress 10 compiling
sleep "${SLEEP:-0}"
for name in linux start link; do echo "$name" > "$1/$name"; chmod +x "$1/$name"; done
echo "linux-source-6.1: 6.1" > "$1/SOURCE.txt"
echo progress 100 done
"""
CALL = """import pathlib, sys
from dnlab.emulation import kernel_cache
from dnlab.errors import ResourceError
from dnlab.processes.subprocesses import handle_signals
kernel_cache.BUILD = pathlib.Path(sys.argv[1])
kernel_cache.library_in = lambda prefix: (prefix, sys.argv[2] == "proved")
handle_signals("hosts")
try:
    print(kernel_cache.kernel().folder)
except ResourceError as lacking:
    print(f"hosts: {lacking}", file=sys.stderr)
    sys.exit(3)
"""


class Caller:
    """Calls the cache in its own process, with a script as the build."""

    def __init__(self, folder: Path) -> None:
        self.folder = folder
        self.build = folder / "build"
        self.build.write_text(BUILD)
        self.build.chmod(0o755)
        self.env = {**os.environ, "XDG_CACHE_HOME": str(folder / "cache"), "LOG": str(folder / "log"),
                    "TMPDIR": str(folder), "PYTHONPATH": str(ROOT / "python"), "PYTHONDONTWRITEBYTECODE": "1"}
        self.env.pop("DNLAB_KERNEL", None)

    def begin(self, kind: str = "proved", **names: str) -> "subprocess.Popen[str]":
        return subprocess.Popen([sys.executable, "-c", CALL, self.build, kind], stdout=subprocess.PIPE,
                                stderr=subprocess.PIPE, text=True, env={**self.env, **names})

    def call(self, kind: str = "proved", **names: str) -> tuple[int, str, str]:
        """Returns status, output and errors."""
        with self.begin(kind, **names) as process:
            out, err = process.communicate(timeout=60)
        return process.returncode, out.strip(), err

    def builds(self) -> list[int]:
        """Returns the process of each build."""
        log = self.folder / "log"
        return [int(line) for line in log.read_text().splitlines()] if log.is_file() else []


@pytest.fixture
def caller(tmp_path: Path) -> Caller:
    return Caller(tmp_path)


def test_it_is_built_once(caller: Caller) -> None:
    folder = str(caller.folder / "cache/dnlab/hosts/c0ffee")
    status, out, err = caller.call()
    assert (status, out) == (0, folder) and "building the guest's kernel, once for these sources" in err
    assert sorted(os.listdir(folder)) == ["SOURCE.txt", "link", "linux", "start"]
    assert caller.call() == (0, folder, "")
    # Without the note about the sources, the checksum is computed, and the kernel is found.
    next((caller.folder / "cache/dnlab/hosts").glob("at-*.json")).write_text("{}")
    assert caller.call() == (0, folder, "")
    assert len(caller.builds()) == 1


def test_old_kernels_are_removed(caller: Caller) -> None:
    cache = caller.folder / "cache/dnlab/hosts"
    for age in range(5):
        (cache / f"old{age}").mkdir(parents=True)
        for name in "linux", "start", "link":
            (cache / f"old{age}" / name).touch(0o755)
        os.utime(cache / f"old{age}", (10**9 - age, 10**9 - age))
    assert caller.call()[0] == 0
    assert sorted(path.name
                  for path in cache.iterdir() if path.is_dir()) == ["c0ffee", "old0", "old1", "old2"]


def test_two_calls_build_once(caller: Caller) -> None:
    with caller.begin(SLEEP="1") as first, caller.begin(SLEEP="1") as second:
        said = [process.communicate(timeout=60) for process in (first, second)]
    assert (first.returncode, second.returncode) == (0, 0) and said[0][0] == said[1][0]
    assert len(caller.builds()) == 1
    assert sum("another call builds the kernel; waiting for it" in err for _, err in said) == 1


@pytest.mark.parametrize("how, said", [
    ("missing", "hosts: the guest's kernel needs Debian packages; type: apt-get install flex bison\n"),
    ("failing", "hosts: the guest's kernel cannot be built: compiling: no space left\n"),
    ("half", " left no start, link\n")])
def test_a_build_that_fails(how: str, said: str, caller: Caller) -> None:
    status, out, err = caller.call(HOW=how)
    assert (status, out) == (3, "") and err.endswith(said), err
    assert left(caller) == ["c0ffee.lock"]
    assert caller.call()[0] == 0


def left(caller: Caller) -> list[str]:
    return sorted(path.name for path in (caller.folder / "cache/dnlab/hosts").iterdir())


@pytest.mark.parametrize("number", [signal.SIGINT, signal.SIGTERM])
def test_a_build_that_is_ended(number: signal.Signals, caller: Caller) -> None:
    with caller.begin(SLEEP="60") as process:
        while not caller.builds():
            time.sleep(0.05)
        process.send_signal(number)
        process.communicate(timeout=10)
    assert process.returncode == -number and left(caller) == ["c0ffee.lock"]
    assert not [it for it in caller.builds() if Path(f"/proc/{it}").exists()]
    assert caller.call()[0] == 0


def test_a_cache_that_cannot_be_written(caller: Caller) -> None:
    names: dict[str, Any] = {"XDG_CACHE_HOME": "/proc/none"}
    status, out, err = caller.call(**names)
    assert status == 0 and out == str(caller.folder / f"dnlab-hosts-{os.getuid()}" / "c0ffee")
    assert err.startswith(
        f"hosts: /proc/none cannot be written, so the kernel is kept in {caller.folder}/dnlab-hosts-")


def test_a_kernel_that_is_named(caller: Caller, tmp_path: Path) -> None:
    assert caller.call(DNLAB_KERNEL=str(tmp_path))[0] == 3
    for name in "linux", "start", "link":
        (tmp_path / name).write_text("")
        (tmp_path / name).chmod(0o755)
    assert caller.call(DNLAB_KERNEL=str(tmp_path)) == (0, str(tmp_path), "") and not caller.builds()
