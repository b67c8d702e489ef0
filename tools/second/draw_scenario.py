"""Generates random scenarios for tools/second/differ: small queues, short flows, losses, masks, CoDel,
changes of configuration, deletions, equal times, rules at which the search continues, several experiments.
Some are damaged afterwards.

There are only a few different times, and service times are often whole milliseconds, so that commands, exits
and finishes coincide. draw_text(random.Random(..)) returns the bytes of a text.
"""
from random import Random

MS = 10**6
ADDRESSES = ("10.0.0.1", "10.0.0.2", "10.0.1.1", "10.0.1.2", "192.168.7.9", "0.0.0.0", "255.255.255.255")
PREFIXES = ("any", "10.0.0.0/24", "10.0.1.0/24", "10.0.0.0/8", "10.0.0.1", "10.0.0.2/31", "10.0.1.77/25",
            "0.0.0.0/0", "192.168.0.0/16", "255.255.255.255/32")
PORTS = (0, 1, 7, 80, 1000, 2000, 65535)
PIPES = (1, 2, 3, 4, 256, 65535)
SIZES = (40, 41, 125, 500, 999, 1000, 1040, 1460, 1499, 1500)
GAPS = (0, 1, 999, 1000, 125000, MS, 2 * MS, 3333333, 10 * MS)
SERVICE = ("bw 8Mbit/s", "bw 1Mbit/s", "bw 1MByte/s", "bw 125KByte/s", "bw 3Mbit/s", "bw 7777777",
           "bw 10Mbit/s", "bw 1Gbit/s", "bw 10Gbit/s", "bw 56Kbit/s", "bw 0", "bw 997bit/s")
NUMBERS = (1, 2, 50, 100, 100, 100, 150, 200, 200, 300, 400, 65534)

# The mask of each pipe, as in its configuration.
Masks = dict[int, str]
# The time of a command (ns), and the command.
Timed = tuple[int, str]


def ports(draw: Random) -> str:
    if draw.random() < 0.75:
        return ""
    first = draw.choice(PORTS)
    return f" {first}" if draw.random() < 0.5 else f" {first}-{draw.choice([p for p in PORTS if p >= first])}"


def action(draw: Random, number: int) -> str:
    roll = draw.random()
    if roll < 0.5:
        return f"pipe {draw.choice(PIPES[:3]) if roll < 0.48 else draw.choice(PIPES)}"
    if roll < 0.72:
        return "count"
    if roll < 0.9:
        later = [n for n in (*NUMBERS, 65535) if n > number] or [65535]
        return f"skipto {draw.choice(later if roll < 0.88 else NUMBERS)}"
    return "allow" if roll < 0.96 else "deny"


def rule(draw: Random) -> str:
    number = draw.choice(NUMBERS) if draw.random() < 0.97 else draw.choice((0, 65535, 65536, 99999))
    source, target = (draw.choice(PREFIXES) if draw.random() < 0.5 else "any" for _ in range(2))
    return (f"add {number} {action(draw, number)} {draw.choice(('ip', 'ip', 'tcp', 'udp'))} "
            f"from {source}{ports(draw)} to {target}{ports(draw)}")


def mask(draw: Random) -> str:
    """Returns a mask, which is usually empty, because a pipe with instances refuses another mask."""
    roll = draw.random()
    if roll < 0.1:
        return "mask all"
    if roll > 0.35:
        return ""
    fields = {"src-ip": ("0xff", "0x00000001", "0xFFFFFFFF", "0x0"), "dst-ip": ("0xff", "0x3", "0xffff0000"),
              "src-port": ("0x1", "0xffff"), "dst-port": ("0xF", "0x00ff"), "proto": ("0xff", "0x1", "0x0")}
    names = draw.sample(sorted(fields), draw.randint(1, 3))
    return "mask " + " ".join(f"{name} {draw.choice(fields[name])}" for name in names)


def discipline(draw: Random) -> str:
    roll = draw.random()
    if roll < 0.5:
        return "droptail" if roll < 0.1 else ""
    words = ["target " + draw.choice(("1us", "5", "1ms", "100us", "3ms", "20")),
             "interval " + draw.choice(("1us", "10ms", "5", "100", "1s", "7ms", "2", "20"))]
    draw.shuffle(words)
    return " ".join(["codel", *words[:draw.choice((0, 1, 2, 2, 2))]])


def config(draw: Random, masks: Masks, pipe: int) -> str:
    """Returns a configuration. Most configurations of a pipe have the same mask."""
    if pipe not in masks or draw.random() < 0.05:
        masks[pipe] = mask(draw)
    queue = draw.choice(("", "", "", "", "queue 1", "queue 2", "queue 3", "queue 5", "queue 10", "queue 1000",
                         "queue 1K", "queue 2KBytes", "queue 3Kbytes", "queue 10KB"))
    words = [draw.choice(SERVICE) if draw.random() < 0.9 else "",
             f"delay {draw.choice((0, 1, 2, 5, 10, 10, 50, 400, 1200))}{draw.choice(('', 'ms'))}"
             if draw.random() < 0.8 else "",
             queue,
             draw.choice(("",) * 9 + ("plr 0.02", "plr 0.05", "plr 0.2", "plr 0.000001", "plr 1", "plr 0.5")),
             masks[pipe], discipline(draw)]
    draw.shuffle(words)
    return f"pipe {pipe} config " + " ".join(word for word in words if word)


def ends(draw: Random) -> str:
    """Returns the addresses and ports of a sender and a receiver, usually in the two networks that the rules
    are for."""
    if draw.random() < 0.85:
        both = [draw.choice(ADDRESSES[:2]), draw.choice(ADDRESSES[2:4])]
    else:
        both = [draw.choice(ADDRESSES) for _ in range(2)]
    return " ".join(f"{address} {draw.choice(PORTS)}" for address in both)


def flow(draw: Random, number: int) -> str:
    words = [draw.choice(("", f"ssthresh {draw.choice((1, 1000, 2000, 4000, 8000, 10**9))}")),
             draw.choice(("", "", f"window {draw.choice((1, 1460, 3000, 10000, 65535))}")),
             draw.choice(("", "rto adaptive", "rto adaptive",
                          f"rto {draw.choice((1, 25, 200, 1000, 60000))}"))]
    draw.shuffle(words)
    return (f"flow {number} {ends(draw)} smss {draw.choice((64, 460, 536, 960, 1000, 1095, 1096, 1460))} "
            f"segments {draw.choice((1, 2, 5, 10, 20, 40, 60))} " + " ".join(words))


def source(draw: Random) -> str:
    number = draw.choice((1, 2, 3, 4, 5, 300, 65535))
    roll = draw.random()
    if roll < 0.45:
        return flow(draw, number)
    if roll < 0.7:
        return (f"train {number} {draw.choice(('tcp', 'udp'))} {ends(draw)} {draw.choice(SIZES)} "
                f"count {draw.choice((1, 5, 10, 30, 60, 150))} gap {draw.choice(GAPS)}")
    return f"inject {draw.choice(('tcp', 'udp'))} {ends(draw)} {draw.choice(SIZES)}"


def later(draw: Random, masks: Masks) -> str:
    """Returns a later command, which usually changes existing things."""
    roll = draw.random()
    if roll < 0.3:
        return config(draw, masks, draw.choice(PIPES[:4]))
    if roll < 0.55:
        return source(draw)
    return draw.choice((rule(draw), rule(draw), f"delete {draw.choice((*NUMBERS, 7, 65535))}",
                        f"pipe delete {draw.choice(PIPES[:4])}", "show", "pipe show",
                        f"stop {draw.choice((1, 2, 3, 4, 5, 300))}", f"one_pass {draw.choice((0, 0, 1))}",
                        f"trace {draw.choice((0, 1))}"))


def moments(draw: Random) -> list[int]:
    """Returns a few times (ns), some of them close together, that commands share."""
    base = draw.choice((MS, 10 * MS, 100 * MS, 10**9))
    few = [draw.randint(0, 20) * base for _ in range(draw.randint(1, 6))]
    near = [moment + draw.choice((0, 1, 500, 80000, 8 * MS)) for moment in few]
    return few + near + [draw.randint(0, 20 * base)]


def crowd(draw: Random, moment: int) -> list[Timed]:
    """Returns commands with more senders than a pipe can have instances, in random order."""
    pairs = [(host // 256, host % 256) for host in range(270)]
    draw.shuffle(pairs)
    return [(0, "pipe 2 config bw 1Mbit/s mask src-ip 0xffff"),
            (0, "add 1 pipe 2 ip from 10.7.0.0/16 to any")] + [
        (moment, f"inject udp 10.7.{net}.{host} 1 10.0.1.1 2 40") for net, host in pairs]


def both_ways(draw: Random) -> list[str]:
    """Returns rules that let flows between the first four addresses through in both directions."""
    there, back = draw.choice(PIPES[:3]), draw.choice(PIPES[:3])
    return [f"add 100 pipe {there} ip from 10.0.0.0/24 to any", f"add 200 pipe {back} ip from any to any"]


def experiment(draw: Random, name: str) -> list[str]:
    masks: Masks = {}
    first = [config(draw, masks, pipe) for pipe in PIPES[:4] if draw.random() < 0.9]
    first += both_ways(draw) if draw.random() < 0.85 else []
    first += [rule(draw) for _ in range(draw.choice((0, 0, 1, 2, 6)))]
    first += ["one_pass 0"] if draw.random() < 0.35 else []
    draw.shuffle(first)
    timed = [(0, words) for words in first]
    times = moments(draw)
    timed += [(0 if draw.random() < 0.4 else draw.choice(times), source(draw))
              for _ in range(draw.randint(1, 5))]
    timed += [(draw.choice(times), later(draw, masks)) for _ in range(draw.choice((0, 2, 5, 12, 25)))]
    if draw.random() < 0.01:
        timed += crowd(draw, draw.choice(times))
    timed.sort(key=lambda pair: pair[0])
    end = max(timed[-1][0], draw.choice((0, 10 * MS, 200 * MS, 5 * 10**9, 30 * 10**9, 10**11)))
    steps = "" if draw.random() < 0.85 else f" steps {draw.choice((1, 3, 20, 100, 1000, 3000))}"
    budget = draw.choice((1, 2, 5, 10, 30, 100, 300, 1000, 1000, 65535))
    head = f"experiment {name} seed {draw.choice((0, 1, draw.getrandbits(64)))} budget {budget}{steps}"
    tail = ["pipe show", "show", "end"] if draw.random() < 0.7 else ["end"]
    return [head] + [f"@{moment} {words}" for moment, words in timed] + [f"@{end} {words}" for words in tail]


DAMAGE = ("", " ", "  ", "0", "00", "-1", "65536", "1000000000000000", "1000000000000001",
          "18446744073709551616", "99999999999999999999", "100000000000000000000", "any", "ip", "end", "@0",
          "#", "plr", "mask", "all", "codel", "experiment", "10.0.0.256", "10.0.0.0/33", "9-8", "0x",
          "0xfffffffff", "1.0000001", "adaptive", "61s", "0us")


def damaged(draw: Random, lines: list[str]) -> bytes:
    """Returns the lines with one random damage, as bytes. Sometimes the damage is harmless."""
    lines = list(lines)
    place = draw.randrange(len(lines))
    roll = draw.random()
    if roll < 0.5:
        words = lines[place].split(" ")
        numbers = [at for at, word in enumerate(words) if word.isdigit()]
        at = draw.choice(numbers) if numbers and draw.random() < 0.5 else draw.randrange(len(words))
        words[at] = draw.choice(DAMAGE)
        lines[place] = " ".join(words)
    elif roll < 0.6:
        del lines[place]
    elif roll < 0.7:
        lines.insert(draw.randrange(len(lines)), lines[place])
    elif roll < 0.8:
        other = draw.randrange(len(lines))
        lines[place], lines[other] = lines[other], lines[place]
    text = "".join(line + "\n" for line in lines).encode()
    if roll < 0.8:
        return text
    place = draw.randrange(len(text)) if text else 0
    if roll < 0.85:
        return text[:place]
    if roll < 0.88:
        return text.replace(b" ", b" " * draw.choice((2, 60, 200)))
    return text[:place] + draw.choice((b"", b"\n", b" ", b"\t", b"\r", b"\xff", b"0",
                                       b"#")) + text[place + 1:]


def draw_text(draw: Random) -> bytes:
    """Returns a random text. One in six is damaged."""
    lines = []
    for number in range(draw.choice((1, 1, 1, 2, 3))):
        lines += experiment(draw, f"e{number}")
    if draw.random() < 1 / 6:
        return damaged(draw, lines)
    return "".join(line + "\n" for line in lines).encode()
