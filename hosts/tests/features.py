#!/usr/bin/python3
"""Tests, in a guest, the features of the kernel that services and their tests expect. Prints NAME: ok, or the
error."""
import ctypes
import errno
import os
import socket
import struct
import subprocess

libc = ctypes.CDLL(None, use_errno=True)
buffer = ctypes.create_string_buffer(4096)

CALLS: dict[str, tuple[object, ...]] = {
    "io_uring": (425, 4, buffer),
    "memfd_create": (319, b"x", 0),
    "pidfd_open": (434, os.getpid(), 0),
    "openat2": (437, -100, b"/tmp", ctypes.create_string_buffer(24), 24),
    "keyctl": (250, 0, -3, 1),
    "inotify": (294, 0),
    "fanotify": (300, 0, 0),
    "process_vm_readv": (310, os.getpid(), 0, 0, 0, 0, 0),
    "kcmp": (312, os.getpid(), os.getpid(), 0, 0, 1),
    "seccomp": (317, 2, 0, struct.pack("I", 0x7FFF0000)),
}
SOCKETS = {
    "IPv6": (socket.AF_INET6, socket.SOCK_STREAM, 0),
    "SCTP": (socket.AF_INET, socket.SOCK_STREAM, 132),
    "MPTCP": (socket.AF_INET, socket.SOCK_STREAM, 262),
    "raw ICMP": (socket.AF_INET, socket.SOCK_RAW, 1),
    "packet": (socket.AF_PACKET, socket.SOCK_RAW, 0),
    "AF_ALG": (38, socket.SOCK_SEQPACKET, 0),
    "vsock": (40, socket.SOCK_STREAM, 0),
    "AF_XDP": (44, socket.SOCK_RAW, 0),
    "netlink netfilter": (socket.AF_NETLINK, socket.SOCK_RAW, 12),
}
CONTROLS = [
    "reno",
    "cubic",
    "bbr",
    "dctcp",
    "htcp",
    "illinois",
    "yeah",
    "cdg",
    "vegas",
    "westwood",
    "hybla",
    "bic",
]
NAMESPACES = {"user": 0x10000000, "cgroup": 0x2000000, "ipc": 0x8000000, "pid": 0x20000000}
DISCIPLINES = [
    "fq",
    "fq_codel",
    "cake",
    "htb",
    "netem delay 1ms",
    "tbf rate 1mbit burst 2k latency 5ms",
    "codel",
    "pie",
    "sfq",
    "prio",
    "red limit 1000000 avpkt 1000",
]
COMMANDS = {
    "nftables": "nft add table ip t && nft add chain ip t c '{ type filter hook input priority 0; }' && "
    "nft add rule ip t c ct state established accept",
    "iptables": "iptables -A OUTPUT -p tcp --dport 1 -j REJECT",
    "nat": "iptables -t nat -A POSTROUTING -o eth0 -j MASQUERADE",
    "bridge": "ip link add b0 type bridge",
    "veth": "ip link add v0 type veth peer name v1",
    "vlan": "ip link add link v0 name v0.5 type vlan id 5",
    "vxlan": "ip link add x0 type vxlan id 1 dstport 4789 remote 10.0.1.1",
    "wireguard": "ip link add w0 type wireguard",
    "ifb": "ip link add i0 type ifb",
    "ip rule": "ip rule add from 10.9.0.0/16 table 9",
    "cgroup2": "mkdir /sys/fs/cgroup/x && echo $$ > /sys/fs/cgroup/x/cgroup.procs",
    "IPv6 loopback": "sysctl -qw net.ipv6.conf.lo.disable_ipv6=0 && ping -6 -c 1 ::1",
}


def error() -> str:
    """Returns the name of the last error of libc."""
    number = ctypes.get_errno()
    return errno.errorcode.get(number, str(number))


def call(*arguments: object) -> str:
    """Makes a system call, whose number comes first. Returns ok or the error."""
    return "ok" if libc.syscall(*arguments) >= 0 else error()


def bpf_map() -> str:
    """Makes an array map of BPF. Returns ok or the error."""
    attributes = ctypes.create_string_buffer(struct.pack("IIII", 2, 4, 8, 1).ljust(72, b"\0"), 72)
    return call(321, 0, attributes, 72)


def open_socket(family: int, kind: int, protocol: int) -> str:
    """Opens a socket. Returns ok or the error."""
    try:
        socket.socket(family, kind, protocol).close()
    except OSError as failure:
        return errno.errorcode.get(failure.errno or 0, str(failure))
    return "ok"


def option(level: int, name: int, value: bytes) -> str:
    """Sets an option of a connected TCP socket. Returns ok or the error."""
    with socket.create_server(("127.0.0.1", 0)) as server, socket.create_connection(
        server.getsockname()
    ) as client:
        try:
            client.setsockopt(level, name, value)
        except OSError as failure:
            return errno.errorcode.get(failure.errno or 0, str(failure))
    return "ok"


def unshare(flag: int) -> str:
    """Makes a namespace, in a process of its own. Returns ok or the error."""
    pid = os.fork()
    if pid == 0:
        os._exit(0 if libc.unshare(flag) == 0 else ctypes.get_errno())
    status = os.waitstatus_to_exitcode(os.waitpid(pid, 0)[1])
    return "ok" if status == 0 else errno.errorcode.get(status, str(status))


def command(line: str) -> str:
    """Runs a shell command. Returns ok or what it printed."""
    done = subprocess.run(line, shell=True, capture_output=True, text=True, check=False)
    return "ok" if done.returncode == 0 else (done.stderr or done.stdout).strip().splitlines()[-1]


def udp_segments() -> str:
    """Sends one datagram of two segments (UDP GSO) over eth0. Returns ok or the error."""
    with socket.socket(socket.AF_INET, socket.SOCK_DGRAM) as sender:
        sender.setsockopt(17, 103, 1000)
        try:
            sender.sendto(bytes(2000), ("10.0.1.1", 9))
        except OSError as failure:
            return errno.errorcode.get(failure.errno or 0, str(failure))
    return "ok"


def main() -> None:
    """Tests all features."""
    for name, arguments in CALLS.items():
        print(f"{name}: {call(*arguments)}")
    print(f"bpf: {bpf_map()}")
    for name, kind in SOCKETS.items():
        print(f"{name}: {open_socket(*kind)}")
    for name in CONTROLS:
        print(f"congestion control {name}: {option(socket.IPPROTO_TCP, 13, name.encode())}")
    print(f"kTLS: {option(socket.IPPROTO_TCP, 31, b'tls')}")
    for name, flag in NAMESPACES.items():
        print(f"namespace {name}: {unshare(flag)}")
    for name in DISCIPLINES:
        print(f"qdisc {name.split()[0]}: {command('tc qdisc replace dev eth0 root ' + name)}")
    command("tc qdisc del dev eth0 root")
    for name, line in COMMANDS.items():
        print(f"{name}: {command(line)}")
    print(f"UDP GSO: {udp_segments()}")


if __name__ == "__main__":
    main()
