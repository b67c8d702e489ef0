#!/usr/bin/python3
"""Sends 1000 UDP packets of random sizes at random times, or stamps those that arrive (in a guest).

    stamps.py send SEED    to 10.0.1.1 port 9000
    stamps.py receive      prints the kernel's receive time stamp (SO_TIMESTAMPNS) of each, in ns
"""
import random
import socket
import sys
import time

COUNT = 1000


def receive() -> None:
    """Prints a stamp for each packet, until none arrives for 5 s."""
    with socket.socket(socket.AF_INET, socket.SOCK_DGRAM) as receiver:
        receiver.setsockopt(socket.SOL_SOCKET, 35, 1)
        receiver.setsockopt(socket.SOL_SOCKET, socket.SO_RCVBUF, 1 << 22)
        receiver.bind(("10.0.1.1", 9000))
        receiver.settimeout(5)
        try:
            while True:
                stamp = receiver.recvmsg(2000, 100)[1][0][2]
                print(int.from_bytes(stamp[:8], "little") * 10**9 + int.from_bytes(stamp[8:16], "little"))
        except TimeoutError:
            pass


def send(seed: int) -> None:
    """Sends the packets."""
    chance = random.Random(seed)
    with socket.socket(socket.AF_INET, socket.SOCK_DGRAM) as sender:
        for _ in range(COUNT):
            sender.sendto(bytes(chance.randrange(12, 1472)), ("10.0.1.1", 9000))
            if chance.random() < 0.5:
                time.sleep(chance.random() / 500)


if __name__ == "__main__":
    if sys.argv[1] == "receive":
        receive()
    else:
        send(int(sys.argv[2]))
