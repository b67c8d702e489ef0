"""Programs run in the guest's kernel: each run has the same bytes, and captures and tables agree with the
report."""
import json
import os
import re
import shutil
import time
from pathlib import Path
from typing import Callable

import pytest

for needed in ("yaml", "dpkt", "numpy"):
    pytest.importorskip(needed, reason=f"{needed} is missing (Debian: python3-{needed})")

import guests  # noqa: E402  (packages are looked for first)
from conftest import QUICK, ROOT, tool  # noqa: E402
from guests import Run, one_host  # noqa: E402

from dnlab.emulation import run as hosts_run  # noqa: E402
from dnlab.emulation.traffic import Covered, ends_of  # noqa: E402
from dnlab.emulation.traffic import rows  # noqa: E402
from dnlab.io import arrivals  # noqa: E402

run = guests.run
EXAMPLES = ROOT / "hosts" / "examples"
# The programs that each example runs, except for Python and a shell.
PROGRAMS = {
    "iperf3": ("iperf3",), "bbr_beside_cubic": ("iperf3", "tc"), "near_and_far": ("iperf3",),
    "nginx_tls": ("nginx", "curl", "openssl"),
    "dns_loss": ("dnsmasq", "dig"), "python_service": (), "git_clone": ("git",),
    "redis": ("redis-server", "redis-benchmark"),
    "page_load": ("chromium-headless-shell", "nginx", "openssl"), "postgresql": ("pg_lsclusters",),
}
PATH = os.pathsep.join((os.environ["PATH"], "/usr/sbin", "/sbin"))


def files_in(folder: Path) -> dict[str, bytes]:
    """Returns the files of a run that must be the same each time, which excludes the console and the real
    times."""
    kept = {path.relative_to(folder): path for path in folder.rglob("*") if path.is_file()}
    return {str(name): path.read_bytes() for name, path in kept.items()
            if name.parts[0] != "guest" and str(name) != "summary.json"}


@pytest.mark.parametrize("name", ["nginx_tls", "dns_loss", "python_service"] if QUICK else sorted(PROGRAMS))
def test_an_example_twice(name: str, kernel: Path, program: str, alone: Callable[[bytes], bytes],
                          tmp_path: Path) -> None:
    """Two runs, in folders with names of different lengths and at different times, have the same bytes and
    alone's report."""
    missing = [it for it in PROGRAMS[name] if shutil.which(it, path=PATH) is None]
    if missing:
        pytest.skip(f"missing programs: {' '.join(missing)}")
    folders = [tmp_path / "one", tmp_path / "deeper" / "folder-with-a-longer-name"]
    for folder in folders:
        status, _, err = tool("hosts", EXAMPLES / f"{name}.yaml", "--out", folder, "--no-verify",
                              DNLAB=program)
        assert status == 0, err
        time.sleep(1.1)
    first, second = map(files_in, folders)
    assert first.keys() == second.keys()
    assert not [it for it in first if first[it] != second[it]]
    assert len(first["transcript.txt"].splitlines()) > 50
    assert alone(first["transcript.txt"]) == first["report.txt"]


def test_all_examples_are_tried() -> None:
    assert {path.stem for path in EXAMPLES.glob("*.yaml")} == set(PROGRAMS)


def fates_in(folder: Path) -> tuple[list[tuple[int, tuple[str, ...]]], dict[int, int]]:
    """Returns the packets of a transcript (time, arguments of `inject`), and the times of their deliveries in
    the report."""
    lines = [line.split() for line in (folder / "transcript.txt").read_text().splitlines()]
    sent = [(int(line[0][1:]), tuple(line[2:])) for line in lines if line[1:2] == ["inject"]]
    found = re.findall(r"(?m)^(\d+) deliver (\d+) ", (folder / "report.txt").read_text())
    return sent, {int(number): int(moment) for moment, number in found}


@pytest.mark.parametrize("name", ["nginx_tls", "dns_loss"])
def test_each_capture_is_the_report(name: str, kernel: Path, program: str, tmp_path: Path) -> None:
    """Each packet sent and each delivery is in the capture of its host, with its exact time, ports and
    size."""
    status, _, err = tool("hosts", EXAMPLES / f"{name}.yaml", "--out", tmp_path / "run", DNLAB=program)
    assert status == 0, err
    sent, delivered = fates_in(tmp_path / "run")
    summary = json.loads((tmp_path / "run" / "summary.json").read_text())
    tried = 0
    for host in summary["hosts"].values():
        packets = list(arrivals.of_file(str(tmp_path / "run" / host["capture"]), arrivals.Omissions()))
        seen = [(it.moment, *map(str, ends_of(it)), str(max(it.size, 40))) for it in packets]
        left = sorted((moment, *words) for moment, words in sent if words[1] == host["address"])
        came = sorted((delivered[number], *words) for number, (_, words) in enumerate(sent)
                      if number in delivered and words[3] == host["address"])
        assert sorted(it for it in seen if it[2] == host["address"]) == left
        assert sorted(it for it in seen if it[4] == host["address"]) == came
        tried += len(came)
    assert tried == len(delivered) > 100


def test_a_process_that_fails(run: Run) -> None:
    status, _, err = run(one_host("{path: sh, args: \"-c 'echo first; echo no luck >&2; exit 7'\"}"))
    assert status == 1
    assert err.splitlines()[-2:] == [
        "hosts: one: sh (process 0): exited 7; expected exited 0; its last lines:", "    no luck"]


@pytest.mark.parametrize("process, status, said", [
    ("{path: not-there}", 1,
     "one: not-there (process 0): exited 127 (not found or not executable); expected exited 0"),
    ("{path: sleep, args: '60'}", 1, "one: sleep (process 0): running; expected exited 0"),
    ("{path: sh, args: \"-c 'kill -9 $$'\"}", 1, "one: sh (process 0): signaled SIGKILL; expected exited 0"),
    ("{path: sh, args: \"-c 'kill -9 $$'\", expected_final_state: {signaled: SIGKILL}}", 0, ""),
    ("{path: sh, args: \"-c 'exit 3'\", expected_final_state: {exited: 3}}", 0, ""),
    ("{path: sleep, args: '1', expected_final_state: running}", 1,
     "one: sleep (process 0): exited 0; expected running"),
    ("{path: sleep, args: '60', shutdown_time: 2s, expected_final_state: {signaled: SIGTERM}}", 0, ""),
    ("{path: sleep, args: '60', shutdown_time: 2s, shutdown_signal: SIGINT, expected_final_state: "
     "{signaled: SIGINT}}", 0, ""),
])
def test_final_states(process: str, status: int, said: str, run: Run) -> None:
    got, _, err = run(one_host(process))
    assert got == status and said in err, err


@pytest.mark.parametrize("more, said", [
    ("    sysctl: {net.ipv4.no_such_thing: 1}\n", "no_such_thing"),
    ("    sysctl: {net.ipv4.tcp_congestion_control: none}\n", "tcp_congestion_control"),
    ("    setup: [ip route add nonsense]\n", "ip route add nonsense"),
])
def test_a_host_that_cannot_be_set_up(more: str, said: str, run: Run) -> None:
    status, _, err = run(one_host("{path: 'true'}", more))
    assert status == 2 and "test.yaml: " in err and said in err, err


def test_spent_steps_end_the_run(run: Run) -> None:
    text = one_host("{path: ping, args: -c 50 -i 0.01 10.0.0.2}").replace(
        "stop_time: 5s", "stop_time: 5s, steps: 20")
    text += "  two:\n    ip_addr: 10.0.0.2\n"
    status, _, err = run(text)
    assert status == 3 and re.search(r"the link ended at 0\.\d+ s of simulated time: its 20 steps were spent",
                                     err), err


def test_times_and_names_in_the_guest(run: Run, tmp_path: Path) -> None:
    """The clock starts at start_date (plus 10 s of boot), and a sleep of an hour takes an hour, but no real
    time."""
    began = time.monotonic()
    status, _, err = run(one_host(
        "{path: sh, args: \"-c 'date +%s; hostname; cat /etc/hostname; sleep 3600; date +%s'\"}", stop="2h"))
    assert status == 0, err
    first, name, own, last = (tmp_path / "run/hosts/one/sh.0.stdout").read_text().split()
    assert (int(first), name, own, int(last)) == (1798761610, "one", "one", 1798765210)
    assert time.monotonic() - began < 60


def test_the_guest_writes_nothing_outside(run: Run, tmp_path: Path) -> None:
    outside = tmp_path / "outside"
    outside.write_text("as it was")
    places = [str(outside), "/tmp/dnlab-guest-test", "/etc/dnlab-guest-test", "/dev/shm/dnlab-guest-test",
              "/root/dnlab-guest-test"]
    lines = "".join(f"    echo changed > {place}; cat {place}\n" for place in places)
    text = (one_host("{path: sh, args: write.sh}")
            + f"files:\n  write.sh: |\n{lines}    rm -rf {tmp_path}/test.yaml; echo inside > inside\n")
    status, _, err = run(text)
    assert status == 0, err
    assert (tmp_path / "run/hosts/one/sh.0.stdout").read_text() == "changed\n" * len(places)
    assert outside.read_text() == "as it was" and (tmp_path / "test.yaml").is_file()
    assert not [place for place in places[1:] if Path(place).exists()]
    assert (tmp_path / "run/inside").read_text() == "inside\n"


def test_a_root_of_its_own(run: Run, tmp_path: Path) -> None:
    """In a root file system with only busybox, programs find no file of this machine."""
    if shutil.which("busybox") is None:
        pytest.skip("missing programs: busybox")
    (tmp_path / "root/bin").mkdir(parents=True)
    shutil.copy(str(shutil.which("busybox")), tmp_path / "root/bin/busybox")
    for name in "sh", "ls", "ping":
        (tmp_path / "root/bin" / name).symlink_to("busybox")
    text = (one_host("{path: sh, args: \"-c 'ls /bin; ping -c 1 two'\"}")
            + "  two: {ip_addr: 10.0.0.2}\nemulation: {rootfs: root}\n")
    status, _, err = run(text)
    assert status == 0, err
    out = (tmp_path / "run/hosts/one/sh.0.stdout").read_text()
    assert out.startswith("busybox\nls\nping\nsh\n") and "1 packets received" in out


def test_a_change_from_within(run: Run, tmp_path: Path) -> None:
    """A write to /proc/dnlab is a command now: the second fetch of the same ping takes 60 ms longer."""
    text = one_host("{path: sh, args: change.sh}") + """  two: {ip_addr: 10.0.0.2}
files:
  change.sh: |
    ping -c 1 10.0.0.2
    echo pipe 1 config bw 10Mbit/s delay 50 > /proc/dnlab
    ping -c 1 10.0.0.2
"""
    assert run(text)[0] == 0
    times = re.findall(r"time=([0-9.]+) ms", (tmp_path / "run/hosts/one/sh.0.stdout").read_text())
    assert [round(float(it)) for it in times] == [40, 100]
    assert re.search(r"(?m)^@\d+ pipe 1 config bw 10Mbit/s delay 50$",
                     (tmp_path / "run/transcript.txt").read_text())


COUNTED = """  two:
    ip_addr: 10.0.0.2
    processes: [{path: /usr/bin/python3, args: server.py}]
files:
  server.py: |
    import socket
    server = socket.create_server(("", 7000))
    taken, total = server.accept()[0], 0
    while data := taken.recv(65536):
        total += len(data)
    print(total)
  client.py: |
    import socket
    with socket.create_connection(("two", 7000)) as client:
        client.sendall(bytes(300000))
"""


def test_each_byte_counts_once(run: Run, tmp_path: Path) -> None:
    """A program and the table count 300000 bytes that arrive, although 5 % of the packets are lost and sent
    again."""
    text = one_host("{path: /usr/bin/python3, args: client.py, start_time: 1s}",
                    stop="60s").replace("delay 20", "delay 20 plr 0.05")
    status, _, err = run(text + COUNTED)
    assert status == 0, err
    assert (tmp_path / "run/hosts/two/python3.0.stdout").read_text() == "300000\n"
    there, back = rows(tmp_path / "run")
    assert (str(there.pair), there.useful, back.useful) == ("one:* > two:7000", 300000, 0)
    assert there.lost > 0 and there.throughput is not None and there.goodput is not None
    assert there.throughput * 300000 > there.goodput * 310000


def test_what_covers_what() -> None:
    """Segments can be out of order, duplicated, partial, and beyond the wrap of sequence numbers."""
    seen = Covered(2**32 - 10)
    assert [seen.add(2**32 - 10, 10), seen.add(10, 5), seen.add(0, 10), seen.add(2**32 - 5, 25),
            seen.add(100, 0)] == [10, 5, 10, 5, 0]


@pytest.mark.parametrize("most", [hosts_run.MOST_BYTES, 0], ids=["alone", "live"])
def test_a_report_that_is_not_repeated(most: int, run: Run, tmp_path: Path, monkeypatch: pytest.MonkeyPatch,
                                       program: str) -> None:
    """A report with a different digit, or a missing line, is not the transcript's, according to `alone` and
    `live`."""
    monkeypatch.setenv("DNLAB", program)
    monkeypatch.setattr(hosts_run, "MOST_BYTES", most)
    assert run(one_host("{path: ping, args: -c 2 10.0.0.2}") + "  two: {ip_addr: 10.0.0.2}\n")[0] == 0
    report = tmp_path / "run/report.txt"
    text = report.read_text()
    assert hosts_run.is_repeated(tmp_path / "run") and text.count(" deliver ") == 4
    for other in text.replace("0 deliver ", "1 deliver ", 1), text.replace("\n", "", 1), text[:-1], "":
        report.write_text(other)
        assert other != text and not hosts_run.is_repeated(tmp_path / "run")


def test_an_output_folder_with_files(run: Run, tmp_path: Path) -> None:
    assert run(one_host("{path: 'true'}"))[0] == 0
    status, _, err = run(one_host("{path: 'true'}"))
    assert status == 2 and "is not empty" in err and "--force" in err
    (tmp_path / "run/old").write_text("old")
    assert run(one_host("{path: 'true'}"), "--force")[0] == 0 and not (tmp_path / "run/old").exists()
    shutil.rmtree(tmp_path / "run")
    (tmp_path / "run").mkdir()
    (tmp_path / "run/mine").write_text("not a run's")
    status, _, err = run(one_host("{path: 'true'}"), "--force")
    assert status == 2 and (tmp_path / "run/mine").is_file()
