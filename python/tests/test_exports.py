"""tools/to-ipfw and tools/to-tc: other programs read the exported commands: sh with a stand-in for ipfw, and
tc itself."""
import shutil
import subprocess
from pathlib import Path

import pytest
from conftest import ROOT, tool

from dnlab.io.ipfw_import import Import
from dnlab.io.ipfw_words import lines_of

HEAD = "experiment a seed 1 budget 100\n"
SCENARIO = HEAD + """@0 pipe 1 config bw 10Mbit/s delay 20 queue 200 plr 0.01
@0 pipe 2 config bw 2Mbit/s queue 30KBytes mask src-ip 0xffffffff codel target 10 interval 50ms
@0 add 100 pipe 1 udp from 10.0.1.0/24 to any 5000-5010
@0 add 200 pipe 2 ip from any to 10.0.1.0/24
@0 add 300 allow tcp from any to any
@0 train 9 udp 10.0.1.2 5004 10.0.0.2 5005 228 count 10 gap 2000000
@1000000000 end
"""
# The kernel's messages about a qdisc or a filter that it lacks. Every other message would be tc's complaint
# about an argument.
KERNEL = ("TC classifier not found", "Specified qdisc kind is unknown",
          "We have an error talking to the kernel", "Unknown device type", "RTNETLINK answers",
          "Failed to load TC action module", "Specified class not found", "Operation not supported")


def text_file(folder: Path, text: str) -> Path:
    path = folder / "scenario.txt"
    path.write_text(text)
    return path


def test_ipfw_takes_it_back(tmp_path: Path) -> None:
    """By hand: rule 100's source is behind em1, so it acts on incoming packets; rule 200's destination is, so
    on outgoing ones. The stand-in's arguments, read as a configuration again, are the scenario's commands and
    the default."""
    status, script, told = tool("to-ipfw", text_file(tmp_path, SCENARIO), "--if", "em1=10.0.1.0/24")
    assert (status, told) == (0, "")
    assert "\nipfw -q add 100 pipe 1 udp from 10.0.1.0/24 to any 5000-5010 in recv em1\n" in script
    assert "\nipfw -q add 200 pipe 2 ip from any to 10.0.1.0/24 out xmit em1\n" in script
    assert "codel target 10 interval 50ms noecn\n" in script
    assert ("\nsysctl net.inet.ip.dummynet.pipe_slot_limit=200\n" in script and "kern.hz" in script
            and "one_pass" in script)
    one = Import({"em1": "10.0.1.0/24"})
    one.take_all(lines_of(script, "script"))
    commands = [command for each in one.became for command in each.commands]
    wanted = [line.split(" ", 1)[1] for line in SCENARIO.splitlines()[1:6]]
    assert commands == ["one_pass 1", *wanted, "add 65534 deny ip from any to any"]


def test_ipfw_rules_of_any(tmp_path: Path) -> None:
    """A rule between any addresses matches every incoming and outgoing packet, whatever addresses are behind
    an interface."""
    file = text_file(tmp_path,
                     HEAD + "@0 pipe 1 config delay 5\n@0 add 5 pipe 1 ip from any to any\n@9 end\n")
    for words in ([], ["--if", "em0=any"], ["--if", "em1=10.0.1.0/24"]):
        status, said, told = tool("to-ipfw", file, *words)
        assert (status, said) == (2, "") and "line 3" in told and "no --if" in told and "--host" in told
    assert tool("to-ipfw", file, "--host")[0] == 0


@pytest.mark.parametrize("ends, behind, wanted", [
    ("from 10.0.1.0/24 to any", ["em0=any", "em1=10.0.1.0/24"], "in recv em1"),
    ("from any to 10.0.1.7", ["em0=any", "em1=10.0.1.0/24"], "out xmit em1"),
    ("from 10.0.1.0/24 to 10.0.2.0/24", ["em0=10.0.0.0/8", "em1=10.0.1.0/24"], "in recv em1"),
    ("from 10.0.2.0/24 to 10.0.1.0/24", ["em1=10.0.1.0/24"], "out xmit em1"),
    ("from 10.0.1.0/24 to 10.0.2.0/24", ["em0=10.0.0.0/8"], ""),
    ("from 10.0.1.0/24 to any", ["em0=any"], ""),
    ("from any to 10.0.1.0/24", ["em0=any"], "")])
def test_ipfw_directions(ends: str, behind: list[str], wanted: str, tmp_path: Path) -> None:
    """By hand: an address is behind the interface with the longest prefix that contains it, as in a routing
    table. A packet with both ends behind the same interface has no direction there."""
    file = text_file(tmp_path, HEAD + f"@0 pipe 1 config delay 5\n@0 add 5 pipe 1 ip {ends}\n@9 end\n")
    status, script, told = tool("to-ipfw", file, *(word for one in behind for word in ("--if", one)))
    if wanted:
        assert status == 0 and f"\nipfw -q add 5 pipe 1 ip {ends} {wanted}\n" in script
    else:
        assert (status, script) == (2, "") and "line 3" in told and "both its ends are behind em0" in told


def test_ipfw_moments(tmp_path: Path) -> None:
    file = ROOT / "cookbook" / "new_rate" / "scenario.txt"
    status, _, told = tool("to-ipfw", file, "--host")
    assert status == 2 and "--timed" in told
    status, script, _ = tool("to-ipfw", file, "--host", "--timed")
    # The rate falls at 120 ms and rises at 320 ms.
    assert (status == 0
            and [line
                 for line in script.splitlines() if line.startswith("sleep")] == ["sleep 0.12", "sleep 0.2"])
    assert script.index("ipfw -q add 65534") < script.index("sleep")


def test_ipfw_limits_and_senders(tmp_path: Path) -> None:
    status, _, told = tool("to-ipfw", text_file(tmp_path, HEAD + "@0 pipe 1 config delay 10001\n@9 end\n"),
                           "--host")
    assert status == 2 and "10000 ms" in told
    # By hand: 228 bytes have a payload of 200, every 2 ms: 800000 bit/s; 10 packets are 2000 bytes.
    status, script, _ = tool("to-ipfw", text_file(tmp_path, SCENARIO), "--host", "--iperf")
    assert "iperf3 -c 10.0.0.2 -p 5005 -u -l 200 -b 800000 -n 2000" in script


def test_tc_words(tmp_path: Path) -> None:
    """By hand: a class, its queue, and the smallest packets in flight for 20 ms at 10 Mbit/s (390), and 1000
    more."""
    text = SCENARIO.replace(" mask src-ip 0xffffffff", "")
    status, script, told = tool("to-tc", text_file(tmp_path, text), "--dev", "eth1", "--in", "eth0")
    assert (status, told) == (0, "")
    for line in (
        "tc class add dev eth1 parent 1: classid 1:10 htb rate 10000000bit burst 1514b cburst "
        "1514b quantum 1514",
        "tc qdisc add dev eth1 parent 1:10 handle 10: pfifo limit 200",
        "tc qdisc add dev eth1 parent 1:11 handle 11: codel limit 20 target 10000us "
        "interval 50000us noecn",
        "tc filter add dev eth1 parent 1: protocol ip prio 1 flower ip_proto udp src_ip 10.0.1.0/24 "
        "dst_port 5000-5010 classid 1:10",
        "tc filter add dev eth1 parent 1: protocol ip prio 2 flower dst_ip 10.0.1.0/24 classid 1:11",
        "tc filter add dev eth1 parent 1: protocol ip prio 3 flower ip_proto tcp classid 1:1",
        "tc filter add dev eth1 parent 1: protocol ip prio 4 flower action drop",
        "tc qdisc add dev ifb0 parent 1:10 handle 10: netem delay 20000us loss 1% limit 1390"):
        assert f"\n{line}\n" in script, line


def test_tc_masks(tmp_path: Path) -> None:
    text = (HEAD
            + "@0 pipe 1 config bw 1Mbit/s mask dst-ip 0xffffffff\n@0 add 5 pipe 1 ip from any to "
              "10.0.0.0/30\n@9 end\n")
    status, _, told = tool("to-tc", text_file(tmp_path, text), "--dev", "eth1")
    assert status == 2 and "--hosts" in told
    status, script, _ = tool("to-tc", text_file(tmp_path, text), "--dev", "eth1", "--hosts",
                             "10.0.0.1-10.0.0.2")
    assert (status == 0 and script.count("htb rate 1000000bit") == 2
            and "dst_ip 10.0.0.2 classid 1:11" in script)


@pytest.mark.parametrize("lines, wanted", [
    ("@0 one_pass 0\n", "one_pass 0"), ("@0 add 5 count ip from any to any\n", "`count`"),
    ("@0 add 5 skipto 9 ip from any to any\n", "`skipto`"), ("@0 pipe 1 config delay 5\n", "--in"),
    ("@0 add 5 pipe 7 ip from any to any\n", "pipe 7"), ("@5 add 5 allow ip from any to any\n", "@5 add 5")])
def test_tc_refuses(lines: str, wanted: str, tmp_path: Path) -> None:
    status, said, told = tool("to-tc", text_file(tmp_path, f"{HEAD}{lines}@9 end\n"), "--dev", "eth1",
                              "--out", tmp_path / "out")
    assert (status, said) == (2, "") and wanted in told and not (tmp_path / "out").exists()


def test_tc_itself(tmp_path: Path) -> None:
    """tc, in its own network namespace, accepts every argument: its errors come from the kernel."""
    apart = ["unshare", "--map-root-user", "--net", "--mount"]
    if (not shutil.which("tc")
        or subprocess.run([*apart, "true"], capture_output=True, check=False).returncode):
        pytest.skip("tc or namespaces are missing (Debian: iproute2, util-linux)")
    text = SCENARIO.replace("src-ip", "dst-ip").replace("queue 30KBytes mask", "queue 30KBytes mask")
    _, script, _ = tool("to-tc", text_file(tmp_path, text), "--dev", "v0", "--in", "v1", "--hosts",
                        "10.0.1.1-10.0.1.3")
    _, plain, _ = tool("to-tc", text_file(tmp_path, HEAD + "@0 pipe 1 config queue 9KB\n@9 end\n"), "--dev",
                       "v0")
    for one in (script, plain):
        begin = "ip link add v0 type veth peer name v1 && ip link set v0 up && ip link set v1 up\n"
        done = subprocess.run([*apart, "sh", "-s"], input=begin + one, capture_output=True, text=True,
                              check=False)
        said = [line for line in done.stderr.splitlines() if line.strip()
                and not any(known in line for known in KERNEL)]
        assert said == [], done.stderr


def test_experiments(tmp_path: Path) -> None:
    file = text_file(tmp_path, SCENARIO + SCENARIO.replace("experiment a", "experiment b"))
    for name in ("to-ipfw", "to-tc"):
        more = ["--host"] if name == "to-ipfw" else ["--dev", "eth1", "--in", "eth0", "--hosts", "10.0.1.1"]
        status, _, told = tool(name, file, *more)
        assert status == 2 and "--experiment" in told
        assert tool(name, file, "--experiment", "b", *more)[0] == 0
        status, _, told = tool(name, "-", *more, text=b"@0 nothing\n")
        assert status == 2 and "line 1" in told and "Traceback" not in told


@pytest.mark.parametrize("name", ["em0;touch X", "$(x)", "em0\nx", "-x", "a" * 40])
def test_names_of_interfaces(name: str) -> None:
    """Names are written to a script, so only the characters of FreeBSD's names are allowed."""
    for words in (["to-ipfw", "none.txt"], ["from-ipfw", "none.sh"]):
        status, out, told = tool(*words, f"--if={name}=10.0.0.0/24")
        assert (status, out) == (2, "") and "an interface and the addresses behind it" in told
