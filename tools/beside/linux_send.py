"""Sends 3000 UDP packets to port 9 of an address, at random times and with random sizes that are the same on
each call.

A packet starts with its number and the time at which it was sent (ns of the wall clock)."""
import random
import socket
import sys
import time

COUNT = 3000
SIZES = (100, 1000, 1500)
# The size of the IP and UDP headers (bytes).
HEADERS = 28
SO_SNDBUFFORCE = 32

rng = random.Random(1)
out = socket.socket(socket.AF_INET, socket.SOCK_DGRAM)
# Linux counts a queued packet against the sender's buffer, which must be so large that the sender never
# waits.
out.setsockopt(socket.SOL_SOCKET, SO_SNDBUFFORCE, 1 << 26)
at = time.monotonic_ns() // 10**9 * 10**9 + 2 * 10**9
for number in range(COUNT):
    at += int(rng.expovariate(1 / float(sys.argv[2])))
    size = rng.choice(SIZES)
    time.sleep(max(0, at - time.monotonic_ns()) / 10**9)
    head = f"{number} {time.time_ns()} ".encode()
    out.sendto(head.ljust(size - HEADERS, b"-"), (sys.argv[1], 9))
# Wait until the last packets have arrived, because the run ends after this.
time.sleep(2)
