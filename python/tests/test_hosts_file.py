"""A hosts file is read as intended, and each wrong one is refused with its line and its cause."""
from pathlib import Path

import pytest

pytest.importorskip("yaml", reason="yaml is missing (Debian: python3-yaml)")

from conftest import tool  # noqa: E402  (yaml is looked for first)

from dnlab.emulation.experiment import Ending, Experiment  # noqa: E402
from dnlab.emulation.hosts_file import experiment_of  # noqa: E402
from dnlab.emulation.experiment import check_network  # noqa: E402
from dnlab.errors import InputError  # noqa: E402
from wrong_hosts_files import BASE, LINES, PROCESSES, WHOLE, WRONG  # noqa: E402


def changed(number: int, replacement: str) -> str:
    """Returns BASE with one line replaced."""
    return "\n".join([*LINES[:number - 1], replacement, *LINES[number:]])


def judged(text: bytes) -> Experiment:
    """Returns the experiment of a text, and checks its network too."""
    made = experiment_of(text, "hosts.yaml", Path("."))
    check_network(made)
    return made


def refusal_of(text: bytes) -> str:
    with pytest.raises(InputError) as fault:
        judged(text)
    return str(fault.value)


@pytest.mark.parametrize("number, replacement, line, cause", WRONG,
                         ids=[f"{it[0]}:{it[1].strip()[:60]!a}" for it in WRONG])
def test_a_wrong_line_is_refused(number: int, replacement: str, line: int, cause: str) -> None:
    said = refusal_of(changed(number, replacement).encode())
    assert said.startswith(f"hosts.yaml:{line}: ") and cause in said, said


@pytest.mark.parametrize("text, line, cause", WHOLE, ids=[ascii(text[:20]) for text, _, _ in WHOLE])
def test_a_wrong_file_is_refused(text: bytes, line: int, cause: str) -> None:
    said = refusal_of(text)
    assert said.startswith(f"hosts.yaml:{line}: ") and cause in said, said


def test_what_the_file_means() -> None:
    made = judged(BASE.encode())
    assert (made.stop_ns, made.seed, made.steps) == (15_000_000_000, 7, 10_000_000)
    assert [(it.moment, it.command, it.line) for it in made.network] == [
        (0, "pipe 1 config bw 10Mbit/s delay 20", 3), (5, "add 100 pipe 1 ip from any to any", 4)]
    server, client = made.hosts
    assert (server.name, server.address,
            server.processes[0].arguments) == ("server", "10.0.1.1", ("-s", "-1"))
    assert server.processes[0].expected == Ending("exited", 0) and server.processes[0].stop_ns is None
    assert client.sysctl == (("net.ipv4.tcp_congestion_control", "bbr"),)
    assert client.setup == ("tc qdisc replace dev eth0 root fq",)
    curl = client.processes[0]
    assert (curl.path, curl.program, curl.arguments) == ("/usr/bin/curl", "curl",
                                                         ("-H", "a b", "http://10.0.1.1/"))
    assert (curl.start_ns, curl.stop_ns, curl.stop_signal) == (1_000_000_000, 10_000_000_000, 2)
    assert (curl.environment, curl.expected, curl.user) == ((("LANG", "C"),), Ending("exited", 3), "nobody")
    settings = made.settings
    assert (settings.syscall_ns, settings.clock_read_ns, settings.reads, settings.polls) == (2000, 1, 4, 2)
    # 2027-03-01 is day 20878 after 1970-01-01, by `date -d 2027-03-01 +%s` / 86400.
    assert settings.start_date_ns == 20878 * 86400 * 10**9
    assert (settings.memory_mib, settings.limit_s, settings.jitter_ns) == (1024, 120, 10_000_000)
    assert made.files == (("site/a.conf", "listen 80\n"),)
    assert client.stem(0) == "hosts/client/curl.0"


@pytest.mark.parametrize("text, ns", [
    ("15", 15 * 10**9), ("15 sec", 15 * 10**9), ("2 mins", 120 * 10**9), ("1 h", 3600 * 10**9),
    ("100ms", 10**8), ("7us", 7000), ("9 nanoseconds", 9), ("0.25 s", 250_000_000)])
def test_times_are_those_of_shadow(text: str, ns: int) -> None:
    assert judged(changed(19, f"      start_time: {text}").replace("stop_time: 15s", "stop_time: 2h")
                  .replace("shutdown_time: 10s",
                           "shutdown_time: 119 min").encode()).hosts[1].processes[0].start_ns == ns


def test_anchors_and_keys_of_ones_own() -> None:
    text = BASE.replace("general:", "x-server: &server {path: iperf3, args: [-s]}\ngeneral:").replace(
        "    - path: iperf3\n      args: -s -1\n",
        "    - *server\n    - <<: *server\n      args: [-s, -p, '5202']\n      "
        "expected_final_state: running\n")
    first, second = judged(text.encode()).hosts[0].processes
    assert first.arguments == ("-s",) and second.arguments == ("-s", "-p", "5202")
    assert second.path == "iperf3" and second.expected == Ending("running")


def test_jitter_is_drawn_from_the_seed() -> None:
    made, again, other = (judged(BASE.replace("seed: 7", f"seed: {seed}").encode()) for seed in (7, 7, 8))
    starts = [[it.start_of(host, 0) for host in it.hosts] for it in (made, again, other)]
    assert starts[0] == starts[1] != starts[2]
    assert all(0 <= starts[0][0] < 10**7 and 10**9 <= starts[0][1] < 10**9 + 10**7 for _ in starts)
    assert judged(BASE.replace("jitter: 10ms", "jitter: 0s").encode()).start_of(made.hosts[1], 0) == 10**9


def test_what_is_likely_wrong_has_its_line() -> None:
    said = check_network(experiment_of(changed(4, "  @5 add 100 pipe 2 ip from any to any").encode(),
                                       "hosts.yaml", Path(".")))
    assert (len(said) == 1 and said[0].startswith("hosts.yaml:4: network: nopipe: ")
            and not check_network(judged(BASE.encode())))


def test_the_command_refuses_it(tmp_path: Path, program: str) -> None:
    number, replacement, line, cause = PROCESSES[3]
    (tmp_path / "run.yaml").write_text(changed(number, replacement))
    status, out, err = tool("hosts", tmp_path / "run.yaml", "--out", tmp_path / "run", DNLAB=program)
    assert ((status, out) == (2, "") and err.startswith(f"hosts: {tmp_path}/run.yaml:{line}: ")
            and cause in err)
    assert err.count("\n") == 1 and not (tmp_path / "run").exists()
