"""tools/from-ipfw: five configurations of an administrator, and what becomes of their lines.

The expected commands beside the scripts (tests/ipfw/NAME.txt) were worked out by hand from ipfw(8) and
docs/reference/scenario.md.
"""
from pathlib import Path
from typing import Callable

import pytest
from conftest import tool
from ipfw_lines import imported

from dnlab.io.ipfw_import import Import
from dnlab.io.ipfw_words import lines_of

FOLDER = Path(__file__).parent / "ipfw"
INTERFACES = ("--if", "em1=10.0.1.0/24", "--if", "dc0=any", "--if", "igb0=any", "--if", "igb1=any", "--me",
              "203.0.113.10")
# Counted by hand in the scripts: lines of ipfw and sysctl, those without an effect (`flush` at the start, the
# loopback interface, `check-state`), and those that need missing features (icmp, frag, established; sched,
# queue, and rules to queues).
LINES = {"wanem": (9, 3, 0), "handbook-stateful": (23, 3, 4), "hotel-per-host": (20, 2, 0),
         "bufferbloat-fq-codel": (12, 1, 6),
         "satellite-voip": (22, 3, 4)}


@pytest.mark.parametrize("name", LINES)
def test_configurations(name: str, tmp_path: Path, alone: Callable[[bytes], bytes]) -> None:
    lines, dropped, refused = LINES[name]
    out = tmp_path / "scenario.txt"
    status, said, told = tool("from-ipfw", FOLDER / f"{name}.sh", *INTERFACES, "--lenient", "--out", out)
    assert (status, said) == (0, "")
    assert f" {lines} lines: " in told and f" {dropped} dropped, {refused} refused" in told
    assert told.count("\nrefused: ") + told.startswith("refused: ") == refused
    text = out.read_text()
    assert text.count("# refused: ") == refused
    commands = [line for line in text.splitlines() if line.startswith("@")]
    assert commands[:-1] == (FOLDER / f"{name}.txt").read_text().splitlines()
    assert alone(text.encode()).count(b" refused ") == 0


def test_refused_lines_leave_no_file(tmp_path: Path) -> None:
    out = tmp_path / "scenario.txt"
    status, said, told = tool("from-ipfw", FOLDER / "satellite-voip.sh", "--out", out)
    assert (status, said) == (2, "") and not out.exists()
    assert "`queue 1`" in told and "--flatten" in told and "--lenient" in told


def test_flattened() -> None:
    """Rules to queues become rules to their pipes. By hand: rules 1000 and 1010 go to pipe 1, and nothing is
    refused."""
    status, said, told = tool("from-ipfw", FOLDER / "satellite-voip.sh", "--flatten")
    assert status == 0 and " 0 refused" in told and "weight, queue, mask and red are lost" in told
    assert "@0 add 1000 pipe 1 udp from any 5060 to 192.0.2.0/24\n" in said
    assert "@0 add 1010 pipe 1 ip from any to 192.0.2.0/24\n" in said


def test_dummynets_own_examples() -> None:
    """Four of the 29 lines of ipfw(8)'s and dummynet's examples are refused: two that route at random, a rate
    of an interface, and `call`."""
    status, said, told = tool("from-ipfw", FOLDER / "dummynet-examples.sh", "--flatten", "--me", "10.9.9.9",
                              "--lenient")
    assert status == 0 and "29 lines: " in told and " 4 refused" in told
    assert [line.split(": add ")[-1].split(": pipe ")[-1]
            for line in told.splitlines() if line.startswith("refused: ")] == [
        "prob 0.333 pipe 5 ip from any to 10.1.0.0/16", "prob 0.5 pipe 6 ip from any to 10.1.0.0/16",
        "13 config bw tun0",
        "60000 call 100 ip from any to any"]


# Lines, all commands that they become, and the kind of each line.
SEQUENCES = {
    # A pipe with FQ-CoDel becomes a pipe with CoDel and the same times.
    "schedulers": (["pipe 1 config bw 9Mbit/s delay 5",
                    "sched 1 config pipe 1 type fq_codel target 4ms interval 80ms flows 1024",
                    "queue 1 config sched 1 weight 9", "add 10 queue 1 ip from any to any"],
                   ["pipe 1 config bw 9Mbit/s delay 5",
                    "pipe 1 config bw 9Mbit/s delay 5 codel target 4ms interval 80ms",
                    "add 10 pipe 1 ip from any to any"], "same approximated approximated approximated"),
    # ipfw(8): the default number of a rule is the maximum so far plus 100.
    "numbers": (["add allow ip from any to any", "add 250 allow ip from any to any", "add count",
                 "add 60 count", "add count", "add fwd 1.2.3.4 ip from any to any", "add count"],
                ["add 100 allow ip from any to any", "add 250 allow ip from any to any",
                 "add 350 count ip from any to any", "add 60 count ip from any to any",
                 "add 450 count ip from any to any", "add 650 count ip from any to any"],
                "rewritten same rewritten rewritten rewritten refused rewritten"),
    # The longest prefix comes first, because it determines a table's value.
    "tables": (["table 1 add 10.0.0.0/8 1", "table 1 add 10.1.0.0/16 2",
                "add 5 pipe tablearg ip from table(1) to any", "add 6 allow ip from any to table(9)"],
               ["add 5 pipe 2 ip from 10.1.0.0/16 to any", "add 5 pipe 1 ip from 10.0.0.0/8 to any"],
               "rewritten rewritten approximated refused"),
    "flush": (["flush", "add 1 allow ip from any to any", "flush"], ["add 1 allow ip from any to any"],
              "dropped same refused"),
    # `not` skips a rule of its own number, so no other rule may have that.
    "not": (["add 5 deny ip from any to not 10.0.0.1", "add 5 allow ip from any to any"],
            ["add 5 skipto 6 ip from any to 10.0.0.1", "add 5 deny ip from any to any"],
            "rewritten refused"),
    "sets": (["set disable 3", "add 5 set 3 allow ip from any to any",
              "add 5 set 4 allow ip from any to any"],
             ["add 5 allow ip from any to any"], "dropped dropped rewritten"),
}


@pytest.mark.parametrize("name", SEQUENCES)
def test_sequences(name: str) -> None:
    lines, commands, kinds = SEQUENCES[name]
    found = imported(*lines, flatten=True)
    assert [command for one in found for command in one.commands] == commands
    assert [one.kind for one in found] == kinds.split()


@pytest.mark.parametrize("line, context, command, said", [
    # With --me and no --if, outgoing packets have the host's address as source, and incoming ones as
    # destination.
    ("add 1 pipe 1 out", {"behind": {}, "me": "10.0.0.9"}, "pipe 1 ip from 10.0.0.9 to any", "--me"),
    ("add 1 pipe 2 in", {"behind": {}, "me": "10.0.0.9"}, "pipe 2 ip from any to 10.0.0.9", "--me"),
    ("add 1 allow ip from 10.0.0.1 to any out", {"behind": {}, "me": "10.0.0.9"},
     "allow ip from 10.0.0.1 to any", "`out` left out"),
    # Nothing narrows the rule, so the direction is lost.
    ("add 1 deny tcp from any to any 113 in via em0", {"behind": {"em0": "any"}},
     "deny tcp from any to any 113", "packets the other way now match too"),
    ("add 1 deny udp from any to any via em0", {"behind": {"em0": "any"}}, "deny udp from any to any",
     "left out"),
    ("add 1 pipe 1 ip from any to any out", {}, "pipe 1 ip from any to any",
     "packets the other way now go through this pipe too: narrow")])
def test_directions(line: str, context: dict[str, object], command: str, said: str) -> None:
    one, = imported(line, **context)
    assert one.commands == (f"add 1 {command}",) and len(one.said) == 1 and said in one.said[0]
    assert ("the other way" in one.said[0]) == ("the other way" in said)


@pytest.mark.parametrize("line, words", [
    ("add 1 allow ip from any to any in via em7", ("em7", "--if em7=")),
    ("add 1 allow ip from me to any", ("me", "--me")), ("pipe 1 config plr 1%", ("1%", "0.01")),
    ("pipe 1 config bw em0", ("em0", "10Mbit/s")),
    ("add 1 prob 0.5 allow ip from any to any", ("prob", "addresses and ports"))])
def test_refusals_have_a_way_out(line: str, words: tuple[str, str]) -> None:
    """Each refusal names the word, and what to do instead."""
    said = imported(line)[-1].said[0]
    assert all(word in said for word in words)


def test_listings() -> None:
    """Reads the output of `ipfw pipe show` and `ipfw show` (FreeBSD's ipfw(8))."""
    text = """00001:  10.000 Mbit/s   20 ms burst 0
q131073  50 sl.plr 0.010000 0 flows (1 buckets) sched 65537 weight 0 lmax 0 pri 0 droptail
 sched 65537 type FIFO flags 0x0 0 buckets 0 active
00002: unlimited         5 ms burst 0
q131074  30 KB 0 flows (64 buckets) sched 65538 weight 0 lmax 0 pri 0
     AQM CoDel target 5ms interval 100ms NoECN
    mask:  0x00 0x00000000/0x0000 -> 0xffffffff/0x0000
00100   12    1200 pipe 1 ip from any to any
65000 0 0 allow ip from any to any
65535    0       0 deny ip from any to any
"""
    one = Import({})
    one.take_all(lines_of(text, "listing"))
    assert [command for each in one.became for command in each.commands] == [
        "pipe 1 config delay 20 bw 10Mbit/s queue 50 plr 0.010000",
        "pipe 2 config delay 5 queue 30KBytes codel target 5ms interval 100ms mask dst-ip 0xffffffff",
        "add 100 pipe 1 ip from any to any", "add 65000 allow ip from any to any"]


def test_time_passes_in_a_script() -> None:
    one = Import({})
    one.take_all(
        lines_of("#!/bin/sh\nfor rate in 1 2; do /sbin/ipfw pipe 1 config bw ${rate}Mbit/s; sleep 5; done\n",
                 "script"))
    assert [(each.moment, each.commands) for each in one.became] == [
        (0, ("pipe 1 config bw 1Mbit/s",)), (5 * 10**9, ("pipe 1 config bw 2Mbit/s",))]


def test_wrong_input(tmp_path: Path) -> None:
    for words, text, wanted in ((["-"], b"", "no line of ipfw"), (["gone.sh"], b"", "gone.sh"),
                                (["-", "--if", "em1"], b"", "--if"),
                                (["-", "--name", "A"], b"add 1 allow ip from any to any\n",
                                 "not be a valid scenario")):
        status, said, told = tool("from-ipfw", *words, text=text)
        assert (status, said) == (2, "") and wanted in told, told
