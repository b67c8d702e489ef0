"""Compares captures with transcript and report, packet by packet."""
import collections
import struct

Packets = list[tuple[int, bytes]]


def checksum(data: bytes) -> int:
    """Returns the Internet checksum (RFC 1071), which is 0 over data that contains a correct checksum."""
    padded = data + b"\0" * (len(data) % 2)
    total: int = sum(struct.unpack(f">{len(padded) // 2}H", padded))
    while total >> 16:
        total = (total & 0xFFFF) + (total >> 16)
    return total ^ 0xFFFF


def has_right_checksums(packet: bytes) -> bool:
    """Returns true if the checksums of IPv4, and of TCP, UDP or ICMP, are correct."""
    head = (packet[0] & 15) * 4
    if checksum(packet[:head]) or struct.unpack_from(">H", packet, 6)[0] & 0x3FFF:
        return checksum(packet[:head]) == 0
    body, protocol = packet[head:], packet[9]
    if protocol == 17 and body[6:8] == b"\0\0":
        return True
    pseudo = packet[12:20] + struct.pack(">BBH", 0, protocol, len(body)) if protocol in (6, 17) else b""
    return checksum(pseudo + body) == 0


def header_of(packet: bytes) -> tuple[str, str, int, str, int, int]:
    """Returns the arguments of `inject`: protocol, address, port, address, port, size."""
    head, protocol = (packet[0] & 15) * 4, packet[9]
    ports = struct.unpack_from(">HH", packet, head) if protocol in (6, 17) else (0, 0)
    source, target = (".".join(map(str, packet[at : at + 4])) for at in (12, 16))
    return "tcp" if protocol == 6 else "udp", source, ports[0], target, ports[1], max(40, len(packet))


def injects(transcript: str) -> list[tuple[int, tuple[str, str, int, str, int, int]]]:
    """Returns the packets of a transcript: time and header, by number."""
    packets = []
    for line in transcript.splitlines():
        words = line.split()
        if len(words) > 7 and words[1] == "inject":
            header = (words[2], words[3], int(words[4]), words[5], int(words[6]), int(words[7]))
            packets.append((int(words[0][1:]), header))
    return packets


def deliveries(report: str) -> list[tuple[int, int]]:
    """Returns the deliveries of a report: time and number."""
    words = (line.split() for line in report.splitlines())
    return [(int(line[0]), int(line[2])) for line in words if len(line) == 4 and line[1] == "deliver"]


def differences(transcript: str, report: str, captures: dict[str, Packets]) -> list[str]:
    """Returns the differences between captures, by address, and the transcript and report.

    Each packet that a host sends is an inject at the same time, in the same order, with the same header.
    Each that it receives is a delivery to it at the same time, with the bytes that were sent. Checksums are
    right, and nothing is missing.
    """
    sent = injects(transcript)
    wrong, bodies = [], {}
    queues = {address: collections.deque(packets) for address, packets in captures.items()}
    events = [(time, 1, number) for number, (time, _) in enumerate(sent)]
    events += [(time, 0, number) for time, number in deliveries(report)]
    # A host that has a delivery and a send at one time received first.
    for time, is_send, number in sorted(events, key=lambda event: (event[0], event[1])):
        header = sent[number][1]
        address = header[1] if is_send else header[3]
        if not queues.get(address):
            wrong.append(f"{time}: packet {number} is not in the capture of {address}")
            continue
        at, packet = queues[address].popleft()
        if is_send:
            bodies[number] = packet
        if at != time or header_of(packet) != header:
            wrong.append(
                f"{time}: packet {number}, {header}: the capture of {address} has {header_of(packet)} at {at}"
            )
        elif packet != bodies.get(number):
            wrong.append(f"{time}: packet {number} differs from what was sent")
        elif not has_right_checksums(packet):
            wrong.append(f"{time}: packet {number} has a wrong checksum")
    wrong += [f"the capture of {address} has {len(queue)} more" for address, queue in queues.items() if queue]
    return wrong
