"""Sessions in Python: replies about packets, calculated by hand; errors; and the end of a session."""
import io
import os
import signal
import subprocess
import sys
import time
from pathlib import Path
from typing import Callable, Iterator

import pytest
from conftest import ROOT

import dnlab
from dnlab.hosts import Loop, Waiting, play

MS = 10**6
CLIENT, SERVER = ("10.0.0.1", 1000), ("10.0.1.1", 80)
Alone = Callable[[bytes], bytes]


@pytest.fixture
def session(program: str) -> Iterator[dnlab.Session]:
    with dnlab.live(program) as opened:
        yield opened


@pytest.fixture
def link(session: dnlab.Session) -> dnlab.Link:
    """Returns a link of 1 Mbit/s and 10 ms for all packets: 1000 bytes take 8 ms and 10 ms."""
    opened = session.experiment("by-hand", seed=1, budget=10)
    opened.command("pipe 1 config bw 1Mbit/s delay 10 queue 2")
    opened.command("add 100 pipe 1 ip from any to any")
    return opened


def test_a_packet_comes_when_it_should(link: dnlab.Link, alone: Alone) -> None:
    sent = link.send(CLIENT, SERVER, 1000, payload="hello")
    (event,) = link.until_mine()
    assert (event.moment, event.packet, event.cause, sent.number) == (18 * MS, sent, "", 0)
    assert link.now == 18 * MS + 1
    # 40 bytes take 320 us.
    link.send(SERVER, CLIENT, 40)
    assert link.next_due() == 18 * MS + 1 + 320_000
    assert [it.moment for it in link.until(100 * MS)] == [18 * MS + 1 + 10_320_000]
    assert link.end(200 * MS) == []
    assert link.counters == (2, 2, 0, 0, 0, 0, 0, 0, 0, 0, 0)
    assert link.transcript().splitlines()[-3:] == [
        "@0 inject udp 10.0.0.1 1000 10.0.1.1 80 1000",
        f"@{18 * MS + 1} inject udp 10.0.1.1 80 10.0.0.1 1000 40",
        f"@{200 * MS} end"]
    assert alone(link.transcript().encode()) == link.report()


def test_only_the_first_next_due_costs_a_round_trip(session: dnlab.Session, link: dnlab.Link) -> None:
    link.send(CLIENT, SERVER, 1000)
    assert link.next_due() == 8 * MS
    before = session.round_trips
    link.until(8 * MS + 1)
    assert (link.next_due(), session.round_trips) == (18 * MS, before + 1)
    # Another experiment has its own events, and only reports them on request.
    other = session.experiment("other", seed=1)
    other.until(5)
    before = session.round_trips
    assert (link.next_due(), session.round_trips) == (18 * MS, before)
    assert (other.next_due(), session.round_trips) == (None, before + 1)
    link.until_mine()
    assert (link.next_due(), session.round_trips) == (None, before + 2)


def test_drops_at_once_are_told_with_their_packets(link: dnlab.Link) -> None:
    packets = [link.send(CLIENT, SERVER, 1000, payload=number) for number in range(4)]
    events = link.until(100 * MS)
    # One packet is in service and two wait; the fourth finds no room.
    assert [(it.packet, it.cause) for it in events] == [(packets[3], "full"), (packets[0], ""),
                                                        (packets[1], ""), (packets[2], "")]
    assert [it.moment for it in events] == [0, 18 * MS, 26 * MS, 34 * MS]


def test_hold_gathers_what_comes_behind_the_first(link: dnlab.Link) -> None:
    for _ in range(3):
        link.send(CLIENT, SERVER, 1000)
    assert len(link.until_mine(hold=8 * MS)) == 1
    assert link.now == 26 * MS
    assert [it.moment for it in link.until_mine(hold=8 * MS + 1)] == [26 * MS, 34 * MS]


def test_what_happened_is_told_before_time_goes_on(link: dnlab.Link) -> None:
    for wait in (link.until_mine, link.until_any):
        begun = link.now
        link.send(CLIENT, SERVER, 1000)
        link.command("show", at=begun + 20 * MS)
        assert ([it.moment for it in wait()], link.now) == ([begun + 18 * MS], begun + 20 * MS)


def test_until_any_is_told_of_trains(link: dnlab.Link) -> None:
    link.command("train 9 udp 10.0.0.2 1 10.0.1.2 2 1000 count 2 gap 1000000000")
    mine = link.send(CLIENT, SERVER, 1000)
    first, second = link.until_any(), link.until_any()
    told = [(it.moment, it.packet, it.load) for it in first + second]
    # The command `inject` precedes the train's first packet at the same time.
    assert told == [(18 * MS, mine, "plain"), (26 * MS, None, "plain")]
    link.command("flow 1 10.0.0.3 1 10.0.1.3 2 smss 960 segments 1")
    (segment,) = link.until_any()
    assert (segment.packet, segment.load) == (None, "data 1 0")


def test_only_mine(session: dnlab.Session) -> None:
    link = session.experiment("mine", show="mine")
    link.command("train 9 udp 10.0.0.2 1 10.0.1.2 2 1000 count 20 gap 1")
    link.command("add 100 allow ip from any to any")
    link.send(CLIENT, SERVER, 1000)
    assert [it.moment for it in link.until_mine()] == [1]
    link.command("show")
    # The time is 2: there are the packet that was sent, and the train's packets at 0 and 1.
    assert link.now == 2 and link.listings[0] == "rule 00100 3 3000 allow ip from any to any"
    with pytest.raises(ValueError, match="alone"):
        link.report()


def test_faults_have_their_cause_and_line(session: dnlab.Session, link: dnlab.Link) -> None:
    with pytest.raises(dnlab.LineRejectedError, match="10Mbit/s") as not_taken:
        link.command("pipe 2 config bw 10Mbps")
    assert (not_taken.value.cause, not_taken.value.line) == ("badword", "@0 pipe 2 config bw 10Mbps")
    with pytest.raises(dnlab.CommandRefusedError) as refused:
        link.command("delete 7")
    assert (refused.value.code, refused.value.line) == (13, "@0 delete 7")
    with pytest.raises(dnlab.LineRejectedError, match="samename"):
        session.experiment("by-hand")
    with pytest.raises(dnlab.LineRejectedError, match="badword"):
        session.experiment("By hand")
    link.until(5)
    for call in (lambda: link.until(4), lambda: link.send(CLIENT, SERVER, 40, at=4),
                 lambda: link.until(10**15 + 1),
                 lambda: link.send(CLIENT, SERVER, 39), lambda: link.send(CLIENT, SERVER, 1501),
                 lambda: link.send(("10.0.0.256", 1), SERVER, 40),
                 lambda: link.send(CLIENT, ("10.0.0.1", 65536), 40),
                 lambda: link.send(CLIENT, SERVER, 40, protocol="icmp")):
        with pytest.raises(ValueError):
            call()
    link.end()
    with pytest.raises(dnlab.ExperimentEndedError):
        link.until(10)
    # A refused command is in the transcript, a rejected line is not.
    assert "@0 delete 7\n" in link.transcript() and "Mbps" not in link.transcript()


def test_spent_steps(session: dnlab.Session, alone: Alone) -> None:
    link = session.experiment("few", steps=3)
    link.command("add 100 allow ip from any to any")
    link.send(CLIENT, SERVER, 40)
    # The third step is the delivery at 1 ns.
    assert [it.moment for it in link.until_mine()] == [1]
    assert link.is_over and link.now == 2
    with pytest.raises(dnlab.ExperimentEndedError):
        link.send(CLIENT, SERVER, 40)
    link.end()
    assert alone(link.transcript().encode()) == link.report()


def test_a_traced_session_leaves_all_tables(program: str, traced: Alone, tmp_path: Path) -> None:
    with dnlab.live(program, trace=True) as session:
        link = session.experiment("by-hand", seed=1, budget=10)
        link.command("pipe 1 config bw 1Mbit/s delay 10 queue 2")
        link.command("add 100 pipe 1 ip from any to any")
        # Tracing stays on, as with `dnlab alone --trace`.
        link.command("trace 0")
        for _ in range(4):
            link.send(CLIENT, SERVER, 1000)
        link.command("train 9 udp 10.0.0.2 1 10.0.1.2 2 500 count 2 gap 1", at=50 * MS)
        link.end(100 * MS)
        other = session.experiment("other")
        other.send(CLIENT, SERVER, 40)
        other.end(5)
        assert traced(session.transcript().encode()) == session.report()
        link.save(tmp_path / "scenario.txt", tmp_path / "report.txt")
    packets = dnlab.read(tmp_path / "report.txt", tmp_path / "scenario.txt")["by-hand"].packets()
    # 500 bytes take 4 ms; the fourth packet finds no room.
    assert list(packets.bytes) == [1000] * 4 + [500] * 2
    assert list(packets.delay.dropna()) == [18 * MS, 26 * MS, 34 * MS, 14 * MS, 18 * MS - 1]


def test_files_in_place_of_memory(session: dnlab.Session, tmp_path: Path, link: dnlab.Link) -> None:
    transcript, report = io.BytesIO(), open(tmp_path / "kept.txt", "wb")
    with report:
        other = session.experiment("other", transcript=transcript, report=report)
        other.end(5)
        with pytest.raises(ValueError, match="file"):
            other.report()
    assert (tmp_path / "kept.txt").read_bytes() == b"experiment other\n5 ok 0\ncounters" + 11 * b" 0" + b"\n"
    assert transcript.getvalue().endswith(b"@5 end\n")
    link.end(7)
    link.save(tmp_path / "scenario.txt", tmp_path / "report.txt")
    assert (tmp_path / "report.txt").read_bytes() == link.report()


def test_more_than_pipes_hold(session: dnlab.Session) -> None:
    """5 MB are sent and 20 MB are received, and neither side blocks the other."""
    link = session.experiment("many", budget=65535)
    link.command("add 100 allow ip from any to any")
    link.command("trace 1")
    session.exchange()
    for number in range(100_000):
        link.send(CLIENT, SERVER, 40, at=number * 2)
    assert len(link.until(10**6)) == 100_000


def test_callbacks(link: dnlab.Link) -> None:
    """Hosts hear of deliveries only: the fourth packet finds no room."""
    loop, came = Loop(link), []
    loop.host(SERVER, lambda event: (came.append(event.moment), link.send(SERVER, CLIENT, 40))[0])
    loop.host(CLIENT, lambda event: came.append(event.moment))
    loop.at(5 * MS, lambda: came.append(-loop.now))
    for _ in range(4):
        link.send(CLIENT, SERVER, 1000)
    loop.run()
    assert came[:2] == [-5 * MS, 18 * MS] and len(came) == 7


def test_generators(link: dnlab.Link) -> None:
    """A client sends three requests, and a server takes 3 ms for each reply."""
    asked: list[float] = []

    def client() -> Waiting:
        for number in range(3):
            start = link.now
            link.send(CLIENT, SERVER, 125, payload=number)
            while not any(it.packet and it.packet.target == CLIENT for it in (yield start + 1000 * MS)):
                pass
            asked.append(link.now - start)

    def server() -> Waiting:
        while True:
            events = yield 10**15
            if any(it.packet and it.packet.target == SERVER for it in events):
                due = link.now + 3 * MS
                while link.now < due:
                    yield due
                link.send(SERVER, CLIENT, 1250)

    play(link, [client(), server()], 10**9)
    # 125 bytes take 1 ms and 10 ms; 3 ms of work; 1250 bytes take 10 ms and 10 ms; and 1 ns to react, twice.
    assert asked == [34 * MS + 2] * 3


def test_no_program_and_one_that_dies(program: str, tmp_path: Path) -> None:
    with pytest.raises(dnlab.ProgramError, match="is no program"):
        dnlab.live(str(tmp_path / "none"))
    with pytest.raises(dnlab.ProgramError, match="ended") as failed, dnlab.live("/bin/false") as session:
        session.experiment("a")
    assert failed.value.status == 1
    old = tmp_path / "old"
    old.write_text("#!/bin/sh\necho 'dnlab: no such command' >&2\nexit 2\n")
    old.chmod(0o755)
    with pytest.raises(dnlab.ProgramError,
                       match="no such command") as failed, dnlab.live(str(old)) as session:
        session.experiment("a")
    assert failed.value.status == 2


def test_a_killed_program_is_said(program: str) -> None:
    with dnlab.live(program) as session:
        link = session.experiment("a")
        os.kill(session.transport.process.pid, signal.SIGKILL)
        with pytest.raises(dnlab.ProgramError, match="SIGKILL"):
            link.until(5)
        with pytest.raises(dnlab.ProgramError, match="SIGKILL"):
            link.until(6)


def test_a_session_ends_with_its_block(program: str) -> None:
    with pytest.raises(ZeroDivisionError), dnlab.live(program) as session:
        session.experiment("a")
        print(1 // 0)
    assert session.transport.process.returncode is not None
    with dnlab.live(program) as session:
        link = session.experiment("a")
    with pytest.raises(dnlab.ProgramError, match="closed"):
        link.until(5)


# SIGINT has an effect even if nohup, or a script in the background, started the tests.
LONG = """
import signal
import dnlab
signal.signal(signal.SIGINT, signal.default_int_handler)
with dnlab.live() as session:
    link = session.experiment("a", budget=10, steps=10**7)
    link.command("add 100 allow ip from any to any")
    print(session.transport.process.pid, flush=True)
    while True:
        link.send(("10.0.0.1", 1), ("10.0.0.2", 2), 40)
        link.until_mine()
"""


@pytest.mark.parametrize("number", [signal.SIGINT, signal.SIGTERM, signal.SIGKILL])
def test_a_session_ends_with_its_caller(program: str, number: signal.Signals) -> None:
    going = subprocess.Popen([sys.executable, "-c", LONG], stdout=subprocess.PIPE, stderr=subprocess.PIPE,
                             text=True,
                             env={**os.environ, "PYTHONPATH": str(ROOT / "python"), "DNLAB": program})
    assert going.stdout is not None
    pid = int(going.stdout.readline())
    time.sleep(0.2)
    going.send_signal(number)
    _, said = going.communicate(timeout=20)
    assert going.returncode == -number
    assert (said.rstrip().endswith("KeyboardInterrupt")) == (number == signal.SIGINT)
    for _ in range(100):
        if not Path(f"/proc/{pid}").exists():
            return
        time.sleep(0.02)
    pytest.fail("the session's program goes on")
