"""The loads b1 to b7 for speed measurements. Each is generated with its own seed, so it has the same bytes on
every machine."""
import random

STEPS = "budget 65535 steps 10000000"
# The maximum length of a scenario, and the part of it that is reserved for the last line (bytes).
LONGEST, LAST = 16_777_216, 30

# The time of a command (ns), and its words.
Timed = tuple[int, str]


def long_flow(_draw: random.Random) -> list[str]:
    """Returns b1: one flow of 10^6 segments through a pipe of 1 Gbit/s with CoDel and loss."""
    return [f"experiment long seed 1 {STEPS}",
            "@0 pipe 1 config bw 1Gbit/s delay 1 queue 1000 plr 0.0005 codel target 100us interval 2ms",
            "@0 pipe 2 config bw 1Gbit/s delay 1 queue 1000",
            "@0 add 100 pipe 1 tcp from 10.0.0.1 to 10.0.0.2",
            "@0 add 200 pipe 2 tcp from 10.0.0.2 to 10.0.0.1",
            "@0 flow 1 10.0.0.1 1000 10.0.0.2 80 smss 1460 segments 1000000 rto adaptive",
            "@1000000000000000 end"]


def config(draw: random.Random, pipe: int, mask: str | None) -> str:
    """Returns a random configuration of a pipe."""
    words = [f"pipe {pipe} config"]
    words += [f"bw {draw.choice([1, 5, 10, 50, 100])}Mbit/s"] if draw.random() < 0.9 else []
    words += [f"delay {draw.randint(0, 40)}"] if draw.random() < 0.8 else []
    words.append(draw.choice(["queue 20", "queue 100", "queue 64KBytes", "queue 16K", "queue 1000"]))
    words += [f"plr 0.0{draw.randint(0, 30):02d}"] if draw.random() < 0.5 else []
    words += [f"mask {mask}"] if mask else []
    words.append(draw.choice(["droptail", "codel", "codel target 2ms interval 50", "codel target 500us"]))
    return " ".join(words)


def pipes_and_rules(draw: random.Random) -> tuple[list[str], dict[int, str | None]]:
    """Returns the first commands of an experiment of b2, and the mask of each of its pipes."""
    masks: dict[int, str | None] = {}
    commands, number = [], 100
    for pipe in range(1, 5):
        masks[pipe] = draw.choice([None, None, "dst-ip 0x000000ff", "all", "src-port 0xf proto 0xff"])
        commands.append(config(draw, pipe, masks[pipe]))
    for pipe in range(1, 5):
        for _ in range(draw.randint(1, 6)):
            source = f"10.{pipe}.{draw.randint(0, 255)}.0/24"
            action, protocol = draw.choice(["count", "count", "deny"]), draw.choice(["ip", "tcp", "udp"])
            commands.append(f"add {number} {action} {protocol} from {source} {draw.randint(0, 65535)} to any")
            number += 10
        commands.append(f"add {number} pipe {pipe} ip from 10.{pipe}.0.0/16 to any")
        number += 10
    return [*commands, f"add {number} pipe 4 ip from any to 10.0.0.0/8"], masks


def sender(draw: random.Random, number: int, is_flow: bool) -> Timed:
    """Returns a flow or a train of an experiment of b2."""
    pipe, moment = draw.randint(1, 4), draw.randint(0, 10**8)
    ends = f"10.{pipe}.0.{number} {1000 + number} 10.9.0.{number} 80"
    if is_flow:
        words = (
            f"flow {number} {ends} smss {draw.choice([536, 1000, 1460])} segments {draw.randint(500, 5000)}")
        return moment, words + draw.choice(["", " rto adaptive", " rto 200", " ssthresh 8000 window 30000"])
    return moment, (f"train {number} udp {ends} {draw.randint(40, 1500)} count {draw.randint(500, 5000)}"
                    f" gap {draw.randint(1, 2000) * 1000}")


def change(draw: random.Random, masks: dict[int, str | None]) -> Timed:
    """Returns a later command of an experiment of b2."""
    moment, kind, pipe = draw.randint(0, 5 * 10**9), draw.random(), draw.randint(1, 4)
    if kind < 0.5:
        return moment, config(draw, pipe, masks[pipe])
    if kind < 0.8:
        return moment, f"pipe delete {pipe}" if kind < 0.6 else "show" if kind < 0.7 else "pipe show"
    if kind < 0.9:
        return moment, f"add {draw.randint(1, 300)} count ip from any to any"
    return moment, f"inject udp 10.{pipe}.7.7 7 10.9.9.9 9 {draw.randint(40, 1500)}"


def mixed(draw: random.Random) -> list[str]:
    """Returns b2: 256 experiments with trains, flows, masks and reconfigurations."""
    lines = []
    for at in range(256):
        seed, budget = draw.getrandbits(64), draw.choice([500, 5000, 65535])
        lines.append(f"experiment e{at} seed {seed} budget {budget} steps {draw.randint(20000, 60000)}")
        first, masks = pipes_and_rules(draw)
        commands, number = [(0, words) for words in first], 1
        for is_flow in True, False:
            for _ in range(draw.randint(1, 6)):
                commands.append(sender(draw, number, is_flow))
                number += 1
        commands += [change(draw, masks) for _ in range(draw.randint(10, 60))]
        commands.append((20 * 10**9, "end"))
        lines += [f"@{moment} {words}" for moment, words in sorted(commands, key=lambda it: it[0])]
    return lines


def shared(_draw: random.Random) -> list[str]:
    """Returns b3: 256 flows that share one bottleneck."""
    lines = [f"experiment shared seed 3 {STEPS}",
             "@0 pipe 1 config bw 1Gbit/s delay 5 queue 1000 plr 0.0001 codel",
             "@0 pipe 2 config bw 1Gbit/s delay 5 queue 1000",
             "@0 add 100 pipe 1 tcp from 10.0.0.0/16 to any", "@0 add 200 pipe 2 tcp from any to 10.0.0.0/16"]
    lines += [f"@{flow * 1000} flow {flow} 10.0.0.{flow % 256} {flow} 10.1.0.1 80 smss 1000 segments 1000000"
              for flow in range(1, 257)]
    return [*lines, "@1000000000000000 end"]


def rules(draw: random.Random) -> list[str]:
    """Returns 256 rules, of which the last sends all packets into pipe 1."""
    lines = []
    for at in range(1, 256):
        action = draw.choice(["deny", "count", f"skipto {at * 10 + 5}", "pipe 2"])
        protocol = draw.choice(["ip", "udp"])
        source = f"10.{draw.randint(1, 255)}.{draw.randint(0, 255)}.0/24"
        lines.append(f"@0 add {at * 10} {action} {protocol} from {source} to any {draw.randint(0, 999)}")
    return [*lines, "@0 add 60000 pipe 1 ip from any to any"]


def train_behind_rules(draw: random.Random) -> list[str]:
    """Returns b4: 256 rules and a train of 10^6 packets."""
    return [f"experiment rules seed 4 {STEPS}", "@0 pipe 1 config bw 1Gbit/s delay 1", *rules(draw),
            "@0 train 1 udp 10.0.0.1 1000 10.0.0.2 2000 1500 count 1000000 gap 12000", "@100000000000 show",
            "@100000000000 end"]


def line_of_big(draw: random.Random, moment: int) -> str:
    """Returns a line of b5, which is usually a single packet."""
    kind, number = draw.random(), draw.randint
    if kind < 0.93:
        protocol, source = draw.choice(["udp",
                                        "tcp"]), f"10.{number(0, 255)}.{number(0, 255)}.1 {number(0, 65535)}"
        return (f"@{moment} inject {protocol} {source} 10.0.0.{number(0, 255)} {number(0, 65535)} "
                f"{number(40, 1500)}")
    if kind < 0.95:
        return (f"@{moment} pipe 1 config bw {number(1, 1000)}Mbit/s delay {number(0, 5)}ms queue 1000 codel "
                "target 5ms interval 100ms")
    if kind < 0.97:
        return f"# a comment that takes some room in the text, number {moment}"
    if kind < 0.985:
        return (f"@{moment} add {number(300, 999)} count tcp from 10.0.0.0/{number(8, 32)} {number(0, 100)}-"
                f"{number(101, 65535)} to any")
    return f"@{moment} delete {number(300, 999)}"


def big(draw: random.Random) -> list[str]:
    """Returns b5: a text of 16 MB, mostly single packets."""
    lines = [f"experiment big seed 5 {STEPS}", "@0 pipe 1 config bw 1Gbit/s delay 1 queue 1000",
             "@0 add 100 pipe 1 ip from 10.0.0.0/8 to any", "@0 add 200 deny udp from any 1-1023 to any"]
    size, moment = sum(map(len, lines)) + len(lines), 0
    while True:
        moment += draw.randint(1, 20000)
        line = line_of_big(draw, moment)
        if size + len(line) + 1 + LAST > LONGEST:
            return [*lines, f"@{moment + 10**9} end"]
        lines.append(line)
        size += len(line) + 1


def single_packets(draw: random.Random) -> list[str]:
    """Returns b6: 256 rules and 10^5 single packets with random addresses."""
    lines = [f"experiment single seed 6 {STEPS}", "@0 pipe 1 config bw 10Gbit/s delay 1 queue 1000",
             *rules(draw)]
    for at in range(100_000):
        source = f"10.{draw.randint(0, 255)}.{draw.randint(0, 255)}.1 {draw.randint(0, 65535)}"
        lines.append(
            f"@{at * 1000} inject udp {source} 10.0.0.{draw.randint(0, 255)} {draw.randint(0, 999)} 500")
    return [*lines, "@1000000000 show", "@1000000000 end"]


def chain(draw: random.Random) -> list[str]:
    """Returns b7: trains through a chain of 64 pipes with 16,384 instances."""
    lines = [f"experiment chain seed 7 {STEPS}", "@0 one_pass 0"]
    for pipe in range(1, 65):
        lines += [f"@0 pipe {pipe} config bw 1Gbit/s delay 1 queue 200 plr 0.0001 mask src-ip 0xff",
                  f"@0 add {pipe * 100} pipe {pipe} ip from any to any"]
    lines.append("@0 add 60000 allow ip from any to any")
    for train in range(1, 257):
        size = draw.randint(40, 1500)
        lines.append(f"@{train * 77} train {train} udp 10.0.0.{train % 256} {train} 10.1.0.1 80 {size}"
                     f" count 1000000 gap {draw.randint(10**6, 2 * 10**6)}")
    return [*lines, "@1000000000000000 end"]


LOADS = {"b1": long_flow, "b2": mixed, "b3": shared, "b4": train_behind_rules, "b5": big,
         "b6": single_packets, "b7": chain}


def drawn(name: str) -> str:
    """Returns the text of a load, by its name b1 to b7."""
    return "\n".join(LOADS[name](random.Random(name))) + "\n"
