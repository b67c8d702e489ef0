"""The result of each word of ipfw(8), worked out by hand from its page and docs/reference/scenario.md."""
import pytest
from ipfw_lines import became, imported

from dnlab.io.ipfw_words import APPROXIMATED, DROPPED, REFUSED, REWRITTEN, SAME, UnsupportedError, rate


# According to ipfw(8): units, numbers in front of a rule, and the packets that match.
@pytest.mark.parametrize("line, kind, commands", [
    ("pipe 1 config bw 10Mbit/s delay 20 queue 50 plr 0.01", SAME,
     ["pipe 1 config bw 10Mbit/s delay 20 queue 50 plr 0.01"]),
    ("pipe 1 config bw 10Mb/s", REWRITTEN, ["pipe 1 config bw 10Mbit/s"]),
    ("pipe 1 config bw 64k", REWRITTEN, ["pipe 1 config bw 64Kbit/s"]),
    ("pipe 1 config bw 10MBytes/s", REWRITTEN, ["pipe 1 config bw 80Mbit/s"]),
    ("pipe 1 config bw 1.5Mbit/s", REWRITTEN, ["pipe 1 config bw 1500Kbit/s"]),
    ("pipe 1 config bw em0", REFUSED, []),
    ("pipe 1 config plr .005", REWRITTEN, ["pipe 1 config plr 0.005"]),
    ("pipe 1 config plr 5e-3", REWRITTEN, ["pipe 1 config plr 0.005"]),
    ("pipe 1 config plr 0.00000149", APPROXIMATED, ["pipe 1 config plr 0.000001"]),
    ("pipe 1 config plr 1%", REFUSED, []),
    ("pipe 1 config queue 30000bytes", APPROXIMATED, ["pipe 1 config queue 29KBytes"]),
    ("pipe 1 config queue 1001", REFUSED, []),
    ("pipe 1 config delay 60001", REFUSED, []),
    ("pipe 1 config mask src-ip /24 queue 5", REWRITTEN, ["pipe 1 config mask src-ip 0xffffff00 queue 5"]),
    ("pipe 1 config mask proto 255", REWRITTEN, ["pipe 1 config mask proto 0xff"]),
    ("pipe 1 config mask src-ip6 /64", REFUSED, []),
    ("pipe 1 config mask src-ip 0x1ffffffff", REFUSED, []),
    ("pipe 1 config codel target 5ms ecn", APPROXIMATED, ["pipe 1 config codel target 5ms"]),
    ("pipe 1 config codel noecn droptail buckets 9", REWRITTEN, ["pipe 1 config codel droptail"]),
    ("pipe 1 config burst 10000", REFUSED, []),
    ("pipe 1 config red 0.002/5/15/0.1", REFUSED, []),
    ("add 00100 pass all from any to any", REWRITTEN, ["add 100 allow ip from any to any"]),
    ("add 100 reset tcp from any to any", APPROXIMATED, ["add 100 deny tcp from any to any"]),
    ("add 100 unreach port udp from any to any", APPROXIMATED, ["add 100 deny udp from any to any"]),
    ("add 100 allow tcp from 10.0.0.0:255.255.0.0 to any dst-port 22", REWRITTEN,
     ["add 100 allow tcp from 10.0.0.0/16 to any 22"]),
    ("add 100 allow tcp from any to { 10.0.0.1 or 10.0.0.2 } 80,443", REWRITTEN,
     [f"add 100 allow tcp from any to 10.0.0.{host} {port}" for host in (1, 2) for port in (80, 443)]),
    ("add 100 allow ip from 10.0.0.0/8,10.1.0.0/16 to any", REWRITTEN,
     ["add 100 allow ip from 10.0.0.0/8 to any"]),
    ("add 100 deny tcp from not 10.0.0.0/8 to any", REWRITTEN,
     ["add 100 skipto 101 tcp from 10.0.0.0/8 to any", "add 100 deny tcp from any to any"]),
    ("add 100 allow ip from any to any in recv em1", APPROXIMATED,
     ["add 100 allow ip from 10.0.1.0/24 to any"]),
    ("add 100 allow ip from any to 10.0.1.7 out xmit em1", APPROXIMATED,
     ["add 100 allow ip from any to 10.0.1.7"]),
    ("add 100 allow ip from any to any via em1", APPROXIMATED,
     ["add 100 allow ip from 10.0.1.0/24 to any", "add 100 allow ip from any to 10.0.1.0/24"]),
    ("add 100 allow ip from any to any in recv em7", REFUSED, []),
    ("add 100 allow ip from any to any via lo0", DROPPED, []),
    ("add 100 allow udp from any 53 to any keep-state", APPROXIMATED,
     ["add 100 allow udp from any 53 to any", "add 100 allow udp from any to any 53"]),
    ("add 100 deny tcp from any to any setup", REFUSED, []),
    ("add 100 allow ip from me to any", REFUSED, []),
    ("add 100 allow ip from any to 10.0.0.0/24{1,7}", REFUSED, []),
    ("add 100 skipto 50 ip from any to any", REFUSED, []),
    ("add 65535 allow ip from any to any", REFUSED, []),
    ("add 100 prob 0.5 allow ip from any to any", REFUSED, []),
    ("add 100 prob 0.5 deny ip from any to any", APPROXIMATED,
     ["one_pass 0", "pipe 65535 config plr 0.5 queue 1000", "add 100 pipe 65535 ip from any to any"]),
    ("add 100 divert 8668 ip from any to any", REFUSED, []),
    ("add 100 allow icmp from any to any", REFUSED, []),
    ("net.inet.ip.fw.one_pass=0", REWRITTEN, ["one_pass 0"]),
    ("net.inet.ip.dummynet.hash_size=64", APPROXIMATED, []),
    ("enable one_pass", REWRITTEN, ["one_pass 1"]),
    ("nat 1 config if em0", REFUSED, []),
])
def test_lines(line: str, kind: str, commands: list[str]) -> None:
    assert became(line) == (kind, tuple(commands))


# Rules that match packets of TCP or UDP. According to ipfw(8) an omitted body is any, `not` negates a
# protocol, and options can appear alone.
@pytest.mark.parametrize("line, command", [
    ("add 100 deny not icmp from any to any", "deny ip from any to any"),
    ("add 100 deny not tcp from any to any", "deny udp from any to any"),
    ("add 100 pipe 1 out", "pipe 1 ip from any to any"), ("add 100 pipe 1 in", "pipe 1 ip from any to any"),
    ("add 100 count", "count ip from any to any"),
    ("add 100 allow proto tcp from any to any", "allow tcp from any to any"),
    ("add 100 allow proto udp", "allow udp from any to any"),
    ("add 100 allow src-ip 10.0.0.0/8 dst-port 80", "allow ip from 10.0.0.0/8 to any 80"),
    ("add 100 allow { tcp or icmp } from any to any", "allow tcp from any to any"),
    ("add 100 allow not { tcp or icmp } from any to any", "allow udp from any to any"),
    ("add 100 allow { not icmp } from any to any", "allow ip from any to any"),
    ("add 100 allow ip from any to any dst-ip 10.0.0.1 proto 17", "allow udp from any to 10.0.0.1"),
    ("add 100 pipe 1 ip from any to any not layer2", "pipe 1 ip from any to any"),
    ("add 100 tee 4000 ip from any to any", "count ip from any to any"),
])
def test_rules_that_match_stay(line: str, command: str) -> None:
    assert became(line, drop_unmatchable=True)[1] == (f"add 100 {command}",)


@pytest.mark.parametrize("body", ["icmp from any to any", "not ip from any to any",
                                  "{ icmp or 47 } from any to any", "proto ospf from any to any",
                                  "tcp from any to any proto udp", "ip from any to any icmptypes 8",
                                  "ip6 from any to any"])
def test_rules_that_match_nothing(body: str) -> None:
    assert became(f"add 100 allow {body}", drop_unmatchable=True) == (DROPPED, ())
    assert imported(f"add 100 allow {body}")[0].said[0].endswith("--drop-unmatchable leaves it out")


@pytest.mark.parametrize("body", ["tpc from any to any", "ip from any to any established",
                                  "ip from any to any bogus", "ip from any 0.0.0.0"])
def test_what_isnt_read_is_never_dropped(body: str) -> None:
    assert became(f"add 100 deny {body}", drop_unmatchable=True) == (REFUSED, ())


@pytest.mark.parametrize("word, kind, said", [("0.5s", APPROXIMATED, "500ms"), ("2s", APPROXIMATED, "2000ms"),
                                              ("1.5ms", REFUSED, "1ms or 2ms"),
                                              ("1.5", REFUSED, "1ms or 2ms"), ("70s", REFUSED, "60000 ms"),
                                              ("soon", REFUSED, "as 20ms")])
def test_times(word: str, kind: str, said: str) -> None:
    one = imported(f"pipe 1 config delay {word}")[0]
    assert one.kind == kind and said in one.said[0]


@pytest.mark.parametrize("word", ["1,5Mbit/s", "1e6", "0x100"])
def test_rates_that_arent_read(word: str) -> None:
    assert "interface" not in imported(f"pipe 1 config bw {word}")[0].said[0]


def test_words_alone() -> None:
    with pytest.raises(UnsupportedError):
        rate("11Gbit/s")
