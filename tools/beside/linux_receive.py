"""Prints the sender, the number, and the send and receive times (ns) of each UDP packet to port 9."""
import socket
import struct

SO_TIMESTAMPNS = 64  # of Linux on x86-64 with 64-bit times

into = socket.socket(socket.AF_INET, socket.SOCK_DGRAM)
into.setsockopt(socket.SOL_SOCKET, SO_TIMESTAMPNS, 1)
into.bind(("", 9))
while True:
    data, notes, _, sender = into.recvmsg(2000, 100)
    seconds, nanoseconds = struct.unpack("qq", notes[0][2])
    number, sent = data.split()[:2]
    print(sender[0], int(number), int(sent), seconds * 10**9 + nanoseconds, flush=True)
