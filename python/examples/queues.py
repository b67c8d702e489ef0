#!/usr/bin/env python3
"""Writes a scenario to compare queues: which is best for four flows that share a link with small, urgent
packets?

    python3 python/examples/queues.py [SEEDS] > queues.txt

It has a bottleneck of 10 Mbit/s with 20 ms in each direction, eight queues, and 30 seeds for each queue: 240
experiments of five seconds. Four Reno flows start at random times that depend on the seed, and one packet in
a thousand is lost; a train sends 100 bytes every 20 ms, like a call.

Example: python3 python/examples/queues.py 2 | ./dnlab run --workers 4 > report.txt
"""
import random
import sys

QUEUES = ("queue 10", "queue 25", "queue 50", "queue 100", "queue 200",
          "queue 200 codel target 5 interval 100", "queue 200 codel target 15 interval 100",
          "queue 200 codel target 5 interval 50")


def experiment(number: int, queue: str, seed: int) -> str:
    """Returns the text of one experiment."""
    begins = sorted(random.Random(seed).sample(range(0, 200_000_000, 1000), 4))
    lines = [f"experiment q{number}-s{seed} seed {seed} budget 1000",
             f"@0 pipe 1 config bw 10Mbit/s delay 20 plr 0.001 {queue}",
             "@0 pipe 2 config delay 20",
             "@0 add 100 pipe 1 ip from 10.0.0.0/24 to 10.0.1.0/24",
             "@0 add 200 pipe 2 ip from 10.0.1.0/24 to 10.0.0.0/24",
             "@0 train 9 udp 10.0.0.9 1000 10.0.1.9 2000 100 count 240 gap 20000000"]
    lines += [f"@{begin} flow {flow} 10.0.0.{flow} 1000 10.0.1.{flow} 80 smss 1460 segments 1000000"
              for flow, begin in enumerate(begins, 1)]
    return "\n".join([*lines, "@5000000000 end"]) + "\n"


def main() -> None:
    seeds = int(sys.argv[1]) if len(sys.argv) > 1 else 30
    for number, queue in enumerate(QUEUES):
        for seed in range(1, seeds + 1):
            sys.stdout.write(experiment(number, queue, seed))


if __name__ == "__main__":
    if "--help" in sys.argv:
        print(__doc__)
    else:
        main()
