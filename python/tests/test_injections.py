"""Lines `inject` that are read in blocks: the result agrees with the grammar of docs/reference/scenario.md
and with the program."""
import subprocess
from typing import Iterator, Optional

import pytest

from dnlab.io import scenario
from dnlab.io.files import scenario_checksum
from dnlab.io.scenario import Judged
from dnlab.io.scenario_parts import Run

GOOD = b"@5 inject udp 10.0.0.1 1000 10.0.1.1 2000 1000"
# Each line with the cause of its fault by the grammar, or None if it has none.
LINES: list[tuple[bytes, Optional[str]]] = [
    (GOOD, None), (b"  @5   inject udp  10.0.0.1 1000 10.0.1.1 2000 1000  ", None),
    (b"# @5 inject udp", None), (b"", None), (b"   ", None),
    (b"@5 inject tcp 0.0.0.0 0 255.255.255.255 65535 40", None),
    (b"@1000000000000000 inject udp 1.2.3.4 5 6.7.8.9 10 1500", None),
    (b"@1000000000000001 inject udp 1.2.3.4 5 6.7.8.9 10 1500", "outofrange"),
    (b"@10000000000000000000 inject udp 1.2.3.4 5 6.7.8.9 10 1500", "outofrange"),
    (b"@100000000000000000000 inject udp 1.2.3.4 5 6.7.8.9 10 1500", "badword"),
    (GOOD.replace(b"@5", b"@05"), "badword"), (GOOD.replace(b"@5", b"@00"), "badword"),
    (GOOD.replace(b"@5", b"@"), "badword"),
    (GOOD.replace(b"@5", b"5"), "badword"), (GOOD.replace(b"@5", b"@-5"), "badword"),
    (GOOD.replace(b"@5", b"@5ms"), "badword"),
    (GOOD.replace(b"@5", b"@ 5"), "badword"), (GOOD.replace(b"@5", b"@@5"), "badword"),
    (GOOD.replace(b"10.0.0.1", b"10.0.0.01"), "badword"),
    (GOOD.replace(b"10.0.0.1", b"10.0.0.256"), "outofrange"),
    (GOOD.replace(b"10.0.0.1", b"10.0.0"), "badword"), (GOOD.replace(b"10.0.0.1", b"10.0.0.1.1"), "badword"),
    (GOOD.replace(b"10.0.0.1", b"10..0.1"), "badword"),
    (GOOD.replace(b"10.0.0.1 1000", b"10 0.0.1.1000"), "badword"),
    (GOOD.replace(b"10.0.0.1", b"any"), "badword"), (GOOD.replace(b"10.0.0.1", b"1:.0.0.1"), "badword"),
    (GOOD.replace(b" 1000 10", b" 65536 10"), "outofrange"),
    (GOOD.replace(b" 1000 10", b" 01000 10"), "badword"),
    (GOOD.replace(b" 1000 10", b" 1-2 10"), "badword"), (GOOD[:-4] + b"39", "outofrange"),
    (GOOD[:-4] + b"1501", "outofrange"),
    (GOOD[:-4] + b"040", "badword"), (GOOD[:-4] + b"4294968296", "outofrange"),
    (GOOD[:-4] + b"18446744073709552616", "outofrange"),
    (GOOD[:-5], "badword"), (GOOD + b" 1", "badword"), (GOOD + b" # so", "badword"), (GOOD + b".", "badword"),
    (GOOD.replace(b"udp", b"ip"), "badword"), (GOOD.replace(b"udp", b"UDP"), "badword"),
    (GOOD.replace(b"udp", b"udpx"), "badword"),
    (GOOD.replace(b"inject", b"injects"), "badword"), (GOOD.replace(b"inject", b"Inject"), "badword"),
    (GOOD + b"\r", "badbyte"), (GOOD.replace(b" udp", b"\tudp"), "badbyte"),
    (GOOD.replace(b"udp", b"ud\xf0"), "badbyte"),
    (GOOD.replace(b"1000", b"100\xfa"), "badbyte"), (GOOD.replace(b"1000", b"1\x00000"), "badbyte"),
    (GOOD + b" " * (512 - len(GOOD)), None), (GOOD + b" " * (513 - len(GOOD)), "toolong"),
    (b"@4 inject udp 10.0.0.1 1000 10.0.1.1 2000 1000", "backwards"), (b"@5 end", "afterend"),
    (b"experiment b seed 1 budget 1", "noend")]


@pytest.fixture(params=[1, 10**9], ids=["many", "single"])
def many(request: pytest.FixtureRequest, monkeypatch: pytest.MonkeyPatch) -> Iterator[int]:
    """Reads lines `inject` together, in blocks of few lines, or one by one."""
    monkeypatch.setattr(scenario, "MANY", request.param)
    monkeypatch.setattr(scenario, "BLOCK", 200)
    yield request.param


@pytest.mark.parametrize("line,cause", LINES, ids=[f"{place}" for place in range(len(LINES))])
def test_a_line_among_others(line: bytes, cause: Optional[str], many: int, program: str) -> None:
    later = GOOD if not line.startswith(b"@1000000000000000 ") else line
    text = b"\n".join([b"experiment a seed 1 budget 9", GOOD, GOOD, line, later, later,
                       later.split(b" ", 1)[0] + b" end", b""])
    expected = (5 if cause == "afterend" else 4, cause) if cause else None
    assert Judged(text).fault == expected
    done = subprocess.run([program, "check"], input=text, capture_output=True, timeout=60, check=False)
    assert (done.returncode, done.stderr.decode()) == ((1, "line %d: %s\n" % expected) if expected
                                                       else (0, ""))


@pytest.mark.parametrize("before,line,cause", [(b"", 1, "noexperiment"),
                                               (b"experiment a seed 1 budget 9\n@9 end\n", 3, "afterend"),
                                               (b"experiment a seed 1 budget 9\n@6 show\n", 3, "backwards")])
def test_lines_where_none_may_be(before: bytes, line: int, cause: str, many: int) -> None:
    assert Judged(before + GOOD + b"\n" + GOOD + b"\n").fault == (line, cause)


def test_a_moment_that_falls_among_many(many: int) -> None:
    lines = [GOOD.replace(b"@5", b"@%d" % moment) for moment in (0, 1, 7, 6, 8)]
    assert Judged(b"experiment a seed 1 budget 9\n" + b"\n".join(lines) + b"\n").fault == (5, "backwards")
    assert Judged(b"experiment a seed 1 budget 9\n" + GOOD * 1 + b"\n" + GOOD).fault == (3, "cut")


# The time, protocol, source and its port, target and its port, and size, with the texts of the addresses.
PACKETS = [(place * 10**13, 6 if place % 3 else 17, (10 << 24) + place, place * 600,
            (255 << 24) + place * 65536, 65535 - place, 40 + place * 14)
           for place in range(101)]


def text_of_packets() -> bytes:
    lines = [
        f"@{moment} inject {'tcp' if protocol == 6 else 'udp'} 10.0.0.{source & 255} {port} "
        f"255.{target >> 16 & 255}.0.0 {other} {size}"
        for moment, protocol, source, port, target, other, size in PACKETS]
    lines.insert(50, "# what is said between")
    lines.insert(60, "\n")
    lines.insert(20, f"@{PACKETS[19][0]} stop 3")
    lines[80] = "  " + lines[80].replace(" ", "  ")
    return "\n".join(["experiment a seed 1 budget 9", *lines, f"@{10**15} end", ""]).encode()


def test_commands_are_what_lines_say(many: int) -> None:
    plan = scenario.read(text_of_packets())["a"]
    assert bool(plan.commands.runs) == (many == 1) and len(plan.commands) == len(PACKETS) + 2
    if many == 1:
        moments = [moment for _, run in plan.commands.runs for moment in run.moments.tolist()]
        # A line with more spaces is read by itself, as are those of its block.
        assert moments == [packet[0] for packet in PACKETS if packet[0] in moments] and len(moments) > 90
    # The heading is line 1, the stopped flow is command 20 in line 22, the comment is line 53, two empty
    # lines follow packet 58.
    found = [(place, one.line) for place, one in enumerate(plan.commands) if one.word == "inject"]
    assert [place for place, _ in found] == [place + (place >= 20) for place in range(101)]
    assert [line for _, line in found] == [2 + place + (place >= 20) + (place >= 50) + 2 * (place >= 59)
                                           for place in range(101)]


def test_a_checksum_is_of_the_commands(monkeypatch: pytest.MonkeyPatch) -> None:
    found = []
    for number in (1, 10**9):
        monkeypatch.setattr(scenario, "MANY", number)
        found.append(scenario_checksum(scenario.read(b"experiment a seed 1 budget 9\n" + GOOD + b"\n" + GOOD
                                                     + b"\n@9 end\n")))
    # printf 'a 1 9 1000000\n@5 inject udp 10.0.0.1 1000 10.0.1.1 2000 1000\n@5 inject .. 1000\n@9 end\n' |
    # sha256sum
    assert found == ["6a51660581b73791e79962fc27538c2c8b983b84d6a3ef07511e91812bcaf963"] * 2


@pytest.mark.parametrize("line,cause", LINES, ids=[f"{place}" for place in range(len(LINES))])
def test_runs_have_no_line_that_has_a_fault(line: bytes, cause: Optional[str]) -> None:
    """Only lines that the grammar certainly accepts are read in blocks."""
    parts = list(scenario.runs_in(b"\n%s\n" % line))
    is_sure = line.startswith(b"@") and b" inject " in line and cause in (None, "backwards")
    moment = [int(line[1:].split(b" ")[0])] if is_sure and not line.endswith(b" ") else []
    assert [it for _, part in parts if isinstance(part, Run) for it in part.moments.tolist()] == moment
    assert [part for _, part in parts if not isinstance(part, Run)][:2] == [b"", line][:1 if moment else 2]


def test_lines_in_one_another() -> None:
    """Words that are times and packets by turns, but of no such lines, are read by themselves."""
    packet = GOOD.split(b" ", 2)[2]
    for text in (b"@5 inject %s inject @6\n%s\n" % (packet, packet), b"@5 inject %s inject 6\n" % packet,
                 b"@5\n%s inject @6\n%s\n" % (packet, packet), b"@5 inject\n%s\n" % packet,
                 b"@5 inject @6 inject %s\n%s\n" % (packet, packet)):
        parts = [part for _, part in scenario.runs_in(b"\n%s\n%s" % (GOOD, text))]
        lines = b"".join(part.text if isinstance(part, Run) else part + b"\n" for part in parts)
        assert lines == b"\n%s\n%s" % (GOOD, text)
        assert all(part.text == GOOD + b"\n" for part in parts if isinstance(part, Run)), parts
