"""Runs of tools/hosts that are ended by signals, by a limit or by a fault, and runs with the wall clock."""
import os
import pty
import random
import re
import select
import signal
import subprocess
import time
from pathlib import Path

import pytest

pytest.importorskip("yaml", reason="yaml is missing (Debian: python3-yaml)")

import guests  # noqa: E402  (yaml is looked for first)
from conftest import QUICK, ROOT, wait_for_handlers  # noqa: E402
from guests import Run, one_host, processes_in  # noqa: E402

run = guests.run
# A shell that starts the tests in the background makes them ignore it, and their children inherit this.
signal.signal(signal.SIGINT, signal.default_int_handler)


@pytest.mark.parametrize("seed", range(10 if QUICK else 30))
def test_a_run_is_ended_at_any_time(seed: int, kernel: Path, program: str, tmp_path: Path) -> None:
    """No process is left two seconds after SIGINT or SIGTERM, nor after SIGKILL of only the command."""
    drawn = random.Random(seed)
    (tmp_path / "test.yaml").write_text(
        one_host("{path: sh, args: \"-c 'while sleep 0.001; do ping -c 1 10.0.0.2; done'\"}", stop="24h")
        + "  two: {ip_addr: 10.0.0.2}\n")
    number = (signal.SIGINT, signal.SIGTERM, signal.SIGKILL)[seed % 3]
    with subprocess.Popen([ROOT / "tools/hosts", "test.yaml", "--out", "run"], cwd=tmp_path,
                          stdout=subprocess.PIPE, stderr=subprocess.PIPE,
                          env={**os.environ, "DNLAB": program}) as process:
        wait_for_handlers(process.pid)
        time.sleep(drawn.uniform(0, 2.5))
        process.send_signal(number)
        began = time.monotonic()
        _, err = process.communicate(timeout=10)
    while time.monotonic() - began < 2 and list(processes_in(tmp_path)):
        time.sleep(0.05)
    assert not list(processes_in(tmp_path))
    assert process.returncode == -number
    if number != signal.SIGKILL:
        assert err.decode().splitlines()[-1].startswith(f"hosts: ended by {number.name}: ")


def test_a_guest_that_dies(kernel: Path, program: str, tmp_path: Path) -> None:
    """The status is 3, and there is no summary.json, which would suggest a complete run."""
    (tmp_path / "test.yaml").write_text(one_host("{path: sh, args: \"-c 'while sleep 0.001; do :; done'\"}",
                                                 stop="24h"))
    with subprocess.Popen([ROOT / "tools/hosts", "test.yaml", "--out", "run"], cwd=tmp_path,
                          stderr=subprocess.PIPE,
                          env={**os.environ, "DNLAB": program}) as process:
        guest = []
        while not guest:
            time.sleep(0.1)
            guest = [it for it in processes_in(tmp_path / "run")
                     if Path(f"/proc/{it}/exe").resolve().name == "linux"]
        time.sleep(0.3)
        os.kill(min(guest), signal.SIGKILL)
        _, err = process.communicate(timeout=10)
    assert process.returncode == 3 and b"the guest ended early (run/guest/console has all)" in err
    assert not (tmp_path / "run/summary.json").exists() and not list(processes_in(tmp_path / "run"))


def test_the_limit_of_real_time(run: Run) -> None:
    status, _, err = run(one_host("{path: sh, args: \"-c 'while sleep 0.0001; do :; done'\"}", stop="24h"),
                         "--limit", 3)
    assert status == 3 and "not over after 3 s of real time" in err and "sh of one" in err


def typed(words: list[str], lines: bytes, program: str) -> tuple[int, str]:
    """Runs a command in its own terminal and types lines. Returns the status and the output of the
    terminal."""
    child, terminal = pty.fork()
    if child == 0:
        os.environ.update(DNLAB=program, SHELL="/bin/sh", PS1="ready> ")
        os.execv(words[0], words)
    shown, is_typed, last = b"", False, time.monotonic() + 60
    while time.monotonic() < last:
        if select.select([terminal], [], [], 0.2)[0]:
            try:
                shown += os.read(terminal, 4096)
            except OSError:
                break
        if not is_typed and (b"> " in shown or b"# " in shown):
            os.write(terminal, lines)
            is_typed = True
    os.close(terminal)
    return os.waitstatus_to_exitcode(os.waitpid(child, 0)[1]), shown.decode(errors="replace")


def test_a_shell_behind_a_link(kernel: Path, program: str) -> None:
    if not os.access("/dev/net/tun", os.R_OK | os.W_OK):
        pytest.skip("/dev/net/tun cannot be opened")
    words = [str(ROOT / "tools/hosts"), "--shell", "bw 10Mbit/s delay 20"]
    status, shown = typed(words,
                          b"ping -c 2 10.0.1.1; tty; ip netns exec server ip -4 -o addr show eth0; exit 5\n",
                          program)
    times = [float(it) for it in re.findall(r"time=([0-9.]+) ms", shown)]
    assert status == 5 and len(times) == 2 and all(40 <= it < 200 for it in times), shown
    assert "/dev/pts/" in shown and "inet 10.0.1.1" in shown
    status, shown = typed([*words[:2], "bw 10Mbps"], b"exit\n", program)
    assert status == 2 and "10Mbps is 10Mbit/s" in shown


def test_by_the_wall_clock(run: Run, tmp_path: Path) -> None:
    if not os.access("/dev/net/tun", os.R_OK | os.W_OK):
        pytest.skip("/dev/net/tun cannot be opened")
    text = one_host("{path: ping, args: -c 5 -i 0.2 10.0.0.2}") + "  two: {ip_addr: 10.0.0.2}\n"
    status, out, err = run(text, "--clock", "wall", "--late-bound", "1s")
    assert status == 0, err
    assert re.search(r"lateness of packets: p50 \d+\.\d{3} ms, p99 \d+\.\d{3} ms, max \d+\.\d{3} ms", out)
    times = [float(it) for it in re.findall(r"time=([0-9.]+) ms",
                                            (tmp_path / "run/hosts/one/ping.0.stdout").read_text())]
    assert len(times) == 5 and all(40 <= it < 300 for it in times)
    status, _, err = run(text, "--clock", "wall", "--late-bound", "1ns", "--force")
    assert status == 1 and "above --late-bound" in err
