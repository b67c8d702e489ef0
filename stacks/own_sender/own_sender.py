#!/usr/bin/env python3
"""Sends data over a link of dnlab, with a sender of your own that has CUBIC's
window (RFC 9438).

    own_sender.py SCENARIO REPORT [--mbytes 10] [--bw 10Mbit/s] [--delay 20]
                  [--queue '100 codel'] [--plr 0] [--seed 1] [--reno] [--trace]

It writes the transcript to SCENARIO and the report to REPORT; `dnlab alone`
writes the same report for SCENARIO. Each packet has a number and gets its own
acknowledgement. A packet is declared lost once a packet that was sent three
later is acknowledged, or at a timeout (RFC 6298). The program is the one that
DNLAB names, or by default the one that ./dnlab starts.

Example:
  stacks/own_sender/own_sender.py scenario.txt report.txt
  stacks/own_sender/own_sender.py scenario.txt report.txt --plr 0.01 --reno
"""
import argparse
import pathlib
import sys

sys.dont_write_bytecode = True
HERE = pathlib.Path(__file__).resolve().parent
sys.path.insert(0, str(HERE.parents[1] / "python"))

import dnlab  # noqa: E402  (the path is set first)
from dnlab.processes import subprocesses  # noqa: E402
from dnlab.errors import status_of  # noqa: E402
from dnlab.hosts import Loop  # noqa: E402
from dnlab.senders import Timeout  # noqa: E402
from dnlab.senders.windows import CubicCurve  # noqa: E402
from dnlab.session.transport import Address, Event  # noqa: E402

MS, S = 10**6, 10**9
SENDER, RECEIVER = ("10.0.0.9", 1000), ("10.0.1.9", 80)
SIZE, HEADER = 1500, 40
LAST = 600 * S


class Receiver:
    """Acknowledges each packet separately, with a packet of 40 bytes."""

    def __init__(self, loop: Loop, here: Address, there: Address) -> None:
        self.loop, self.here, self.there = loop, here, there
        self.numbers: set[int] = set()
        loop.host(here, self.receive)

    def receive(self, event: Event) -> None:
        assert event.packet is not None
        self.numbers.add(event.packet.payload)
        self.loop.link.send(self.here, self.there, HEADER, event.packet.payload, "tcp")


class Sender:
    """Sends a number of packets, each until it is acknowledged."""

    def __init__(self, loop: Loop, here: Address, there: Address, packets: int) -> None:
        self.loop, self.here, self.there = loop, here, there
        self.window, self.timeout = CubicCurve(), Timeout()
        # The packets that are still to be sent, the last one first; and those in flight: when each was sent
        # (ns), and its place in the order of sending.
        self.waiting = list(range(packets))[::-1]
        self.flying: dict[int, tuple[int, int]] = {}
        self.sent = self.lost = self.timeouts = self.recovered = 0
        self.left = packets
        self.done_at: int | None = None
        loop.host(here, self.receive)
        self.fill()
        self.watch()

    def fill(self) -> None:
        while self.waiting and len(self.flying) < int(self.window.cwnd):
            number = self.waiting.pop()
            self.flying[number] = (self.loop.now, self.sent)
            self.loop.link.send(self.here, self.there, SIZE, number, "tcp")
            self.sent += 1

    def receive(self, event: Event) -> None:
        assert event.packet is not None
        found = self.flying.pop(event.packet.payload, None)
        if found is None:
            # It was declared lost, but has arrived.
            self.arrived_late(event.packet.payload)
            return
        moment, order = found
        self.timeout.measured(self.loop.now - moment)
        self.left -= 1
        late = [number for number, (_, sent) in self.flying.items() if sent + 3 <= order]
        if late:
            self.resend(late, order)
        else:
            self.window.acknowledged(self.loop.now / S, self.timeout.smoothed / S)
        self.finish()

    def arrived_late(self, number: int) -> None:
        if number in self.waiting:
            self.waiting.remove(number)
            self.left -= 1
            self.finish()

    def finish(self) -> None:
        if not self.left and self.done_at is None:
            self.done_at = self.loop.now
        self.fill()

    def resend(self, late: list[int], order: int) -> None:
        """Declares packets lost. The window shrinks once for all packets that were in flight at that time."""
        flying = len(self.flying) + 1
        for number in late:
            _, sent = self.flying.pop(number)
            if sent >= self.recovered:
                self.window.lost(flying)
                self.recovered = self.sent
        self.lost += len(late)
        self.waiting += late[::-1]

    def watch(self) -> None:
        """Checks the timeout of the oldest packet in flight, until all packets are acknowledged."""
        if not self.left:
            return
        oldest = min((moment for moment, _ in self.flying.values()), default=self.loop.now)
        due = oldest + int(self.timeout.value)
        if due <= self.loop.now:
            self.window.timed_out(len(self.flying))
            self.timeout.passed()
            self.timeouts += 1
            self.waiting += sorted(self.flying, reverse=True)
            self.lost += len(self.flying)
            self.flying.clear()
            self.recovered = self.sent
            self.fill()
            due = self.loop.now + int(self.timeout.value)
        self.loop.at(due, self.watch)


def transfer(link: dnlab.Link, packets: int) -> Sender:
    loop = Loop(link)
    receiver = Receiver(loop, RECEIVER, SENDER)
    sender = Sender(loop, SENDER, RECEIVER, packets)
    while sender.done_at is None and not link.is_over and loop.now < LAST:
        loop.run(min(loop.now + S // 10, LAST))
    if sender.done_at is None:
        raise dnlab.InputError(
            "the transfer didn't end: the experiment's steps ran out, or 600 s of simulated time are over")
    assert len(receiver.numbers) == packets
    return sender


def run(words: argparse.Namespace) -> None:
    with dnlab.live() as session:
        link = session.experiment("own-sender", seed=words.seed, budget=5000, steps=10**7)
        if words.trace:
            link.command("trace 1")
        link.command(f"pipe 1 config bw {words.bw} delay {words.delay} queue {words.queue} plr {words.plr}")
        link.command(f"pipe 2 config delay {words.delay}")
        link.command("add 100 pipe 1 ip from 10.0.0.0/24 to 10.0.1.0/24")
        link.command("add 200 pipe 2 ip from 10.0.1.0/24 to 10.0.0.0/24")
        if words.reno:
            link.command("flow 1 10.0.0.1 1000 10.0.1.1 80 smss 1460 segments 1000000 rto adaptive")
        packets = -(-int(words.mbytes * 10**6) // (SIZE - HEADER))
        sender = transfer(link, packets)
        link.end()
        link.save(words.scenario, words.report)
    assert sender.done_at is not None
    rate = packets * (SIZE - HEADER) * 8 * S / sender.done_at / 10**6
    print(f"own sender: {packets} packets in {sender.done_at / S:.3f} s: {rate:.2f} Mbit/s")
    print(f"{sender.sent} sent, {sender.lost} declared lost, {sender.timeouts} timeouts; srtt "
          f"{sender.timeout.smoothed / MS:.2f} ms, window {sender.window.cwnd:.1f} segments")
    print("link: counters", *(link.counters or ()))
    print(f"{session.round_trips} round trips", file=sys.stderr)


def main() -> int:
    parser = argparse.ArgumentParser(description=__doc__,
                                     formatter_class=argparse.RawDescriptionHelpFormatter)
    parser.add_argument("scenario", metavar="SCENARIO")
    parser.add_argument("report", metavar="REPORT")
    parser.add_argument("--mbytes", type=float, default=10.0)
    for name, value in (("bw", "10Mbit/s"), ("delay", "20"), ("queue", "100 codel"), ("plr", "0")):
        parser.add_argument(f"--{name}", default=value)
    parser.add_argument("--seed", type=int, default=1)
    parser.add_argument("--trace", action="store_true",
                        help="report when each packet is created, as tools/pcap needs")
    parser.add_argument("--reno", action="store_true", help="add a built-in Reno flow in the same direction")
    words = parser.parse_args()
    subprocesses.handle_signals("own_sender")
    try:
        run(words)
    except (dnlab.InputError, dnlab.ProgramError, dnlab.ExperimentEndedError, OSError) as fault:
        print(f"own_sender: {fault}", file=sys.stderr)
        return status_of(fault)
    return 0


if __name__ == "__main__":
    sys.exit(main())
