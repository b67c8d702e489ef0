"""Packets of a traced experiment as a capture file for Wireshark, tshark and tcptrace (Debian: python3-dpkt).

A capture is taken at one side: `sender`, where packets are created and acknowledgements arrive, or
`receiver`. What no report has is made up: Ethernet, TTLs, the receiver's window (the flow's `window`), and
payloads, of which only the length is kept. The first byte of a flow has the sequence number 1, as after a
SYN, which is missing. A packet's serial number modulo 65536 is its IP identification; time 0 is 1970.
"""
import socket
from typing import BinaryIO, Iterator, NamedTuple

import dpkt
import numpy as np

from dnlab.analysis.packets import headers_in
from dnlab.analysis.view import View
from dnlab.errors import InputError
from dnlab.io.rows import (ACKNOWLEDGES, DATA, DELIVER, DELIVER_ACK, LOAD_OF, MAKE_ACK, MAKE_COMMAND, Flags,
                           Ints, header_text)
from dnlab.io.scenario_parts import HEADER, WINDOW

_ETHERNET = 14
_MOST = 2**32


class Header(NamedTuple):
    """The source and target of a packet: `tcp` or `udp`, two addresses of four bytes, and their ports."""
    protocol: str
    source: bytes
    source_port: int
    target: bytes
    target_port: int

    def ethernet(self) -> bytes:
        """Returns a made-up Ethernet header, with one MAC address per IP address."""
        return bytes(dpkt.ethernet.Ethernet(src=b"\2\0" + self.source, dst=b"\2\0" + self.target,
                                            type=dpkt.ethernet.ETH_TYPE_IP))


def header_of(text: str) -> Header:
    """Returns the header of a `make` line, as `tcp 10.0.0.1 1000 10.0.1.1 80`."""
    protocol, source, source_port, target, target_port = text.split()
    return Header(protocol, socket.inet_aton(source), int(source_port), socket.inet_aton(target),
                  int(target_port))


def judge(view: View) -> None:
    """Raises `InputError`, with what to do, unless the report has the addresses of all packets."""
    if not view.counters.made:
        raise InputError(f"experiment {view.name}: it made no packet")
    view.must_be_traced("it has no addresses")


def rows_of(view: View, side: str, wanted: Flags) -> Ints:
    """Returns the rows of the report at which packets pass a side, in order.

    Segments and plain packets are created at the sender and delivered at the receiver, acknowledgements vice
    versa. `wanted` selects packets, shape (packets,)."""
    own = view.records
    made, came = own.at(MAKE_COMMAND, MAKE_ACK), own.at(DELIVER, DELIVER_ACK)
    of_acks, others = (came, made) if side == "sender" else (made, came)
    rows: Ints = np.sort(np.concatenate((of_acks[LOAD_OF[own.kind[of_acks]] == ACKNOWLEDGES],
                                         others[LOAD_OF[own.kind[others]] != ACKNOWLEDGES])))
    kept: Ints = rows[wanted[own.rows["packet"][rows]]]
    return kept


def sequences(view: View) -> Ints:
    """Returns the sequence number of each packet. Shape (packets,), int64, below 2^32.

    A segment's is its first byte + 1; plain packets of one sender and header follow one another, as if each
    had new data."""
    table = view.packets
    found = np.where(table.kind == DATA, table.number + 1, 1)
    for _, packets in view.senders:
        if int(table.kind[packets[0]]) not in (DATA, ACKNOWLEDGES):
            sizes = table.size[packets] - HEADER
            found[packets] = 1 + np.cumsum(sizes) - sizes
    return found % _MOST


def frames_of(view: View, side: str, wanted: Flags) -> Iterator[tuple[int, bytes, int]]:
    """Yields the packets that pass a side, in the order of the report: time (ns), captured bytes, and length
    on the wire."""
    own, table = view.records, view.packets
    found, place = headers_in(own.rows, table.row)
    headers = [header_of(header_text(one)) for one in found]
    ethernets = [header.ethernet() for header in headers]
    windows = {sends.number: sends.window for _, sends in view.sends.values()}
    sequence = sequences(view)
    rows = rows_of(view, side, wanted)
    for moment, packet in zip(own.take("moment", rows).tolist(), own.take("packet", rows).tolist()):
        header, size = headers[place[packet]], int(table.size[packet])
        if header.protocol == "udp":
            inner = dpkt.udp.UDP(sport=header.source_port, dport=header.target_port, ulen=size - 20)
        else:
            upto = int(table.number[packet]) + 1 if table.kind[packet] == ACKNOWLEDGES else 1
            inner = dpkt.tcp.TCP(sport=header.source_port, dport=header.target_port,
                                 seq=int(sequence[packet]), ack=upto % _MOST, flags=dpkt.tcp.TH_ACK,
                                 win=windows.get(int(table.flow[packet]), WINDOW))
        yield moment, ethernets[place[packet]] + packed(header, inner, packet, size), _ETHERNET + size


def packed(header: Header, inner: "dpkt.Packet", packet: int, size: int) -> bytes:
    """Returns the IP header and the inner one, with checksums over a payload of zeros, which add nothing."""
    number = dpkt.ip.IP_PROTO_TCP if header.protocol == "tcp" else dpkt.ip.IP_PROTO_UDP
    outer = dpkt.ip.IP(src=header.source, dst=header.target, p=number, id=packet % 65536, len=size, ttl=64)
    outer.sum = dpkt.in_cksum(outer.pack_hdr())
    pseudo = header.source + header.target + bytes((0, number)) + (size - 20).to_bytes(2, "big")
    # In UDP a checksum of 0 means none, and 65535 stands for 0.
    inner.sum = dpkt.in_cksum(pseudo + inner.pack_hdr()) or 65535
    return bytes(outer.pack_hdr()) + bytes(inner.pack_hdr())


def write(view: View, side: str, wanted: Flags, out: BinaryIO) -> int:
    """Writes a nanosecond capture, and returns its number of packets."""
    judge(view)
    own = view.packets.row[np.flatnonzero(wanted & view.is_injected)]
    invented = int(np.count_nonzero(view.records.rows["code"][own] == dpkt.ip.IP_PROTO_TCP))
    if invented:
        raise InputError(
            f"experiment {view.name}: {invented} of the packets were injected as TCP, whose flags and "
            "sequence numbers no report has: capture them in the program that sends them, or choose other "
            "senders with --of")
    out.write(bytes(dpkt.pcap.LEFileHdr(magic=dpkt.pcap.TCPDUMP_MAGIC_NANO, linktype=dpkt.pcap.DLT_EN10MB)))
    count = 0
    for count, (moment, kept, length) in enumerate(frames_of(view, side, wanted), 1):
        second, rest = divmod(moment, 10**9)
        out.write(bytes(dpkt.pcap.LEPktHdr(tv_sec=second, tv_usec=rest, caplen=len(kept), len=length)) + kept)
    return count
