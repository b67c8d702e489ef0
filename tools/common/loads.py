"""The loads p1 to p4 for measurements of speed and memory. Each is a scenario of up to a million segments or
packets."""
FLOW = "@0 flow {} 10.0.0.1 {} 10.0.0.2 80 smss 1460 segments {} ssthresh 65535 window 65535 rto 1000"


def flows(name: str, rate: str, count: int, segments: int, end: int) -> str:
    """Returns an experiment with `count` flows of `segments` segments, and a pipe in each direction. Times
    are in ns."""
    lines = [f"experiment {name} seed 1 budget 65535 steps 10000000",
             f"@0 pipe 1 config bw {rate} delay 10 queue 1000 codel target 5ms interval 100ms",
             "@0 pipe 2 config delay 10 queue 1000", "@0 add 100 pipe 1 tcp from 10.0.0.1 to 10.0.0.2",
             "@0 add 200 pipe 2 tcp from 10.0.0.2 to 10.0.0.1"]
    lines += [FLOW.format(number, 1000 + number, segments) for number in range(1, count + 1)]
    return "\n".join([*lines, f"@{end} end", ""])


def many(name: str, count: int, segments: int) -> str:
    return "".join(flows(f"{name}-{at}", "10Mbit/s", 1, segments, 3_000_000 * segments + 10**10)
                   for at in range(count))


def train(packets: int) -> str:
    return "\n".join(["experiment p3 seed 1 budget 65535 steps 10000000",
                      "@0 pipe 1 config bw 1Gbit/s delay 10 queue 50",
                      "@0 add 100 pipe 1 udp from any to any",
                      f"@0 train 1 udp 10.0.0.1 1000 10.0.0.2 2000 1000 count {packets} gap 7000",
                      f"@{7000 * packets + 10**9} end", ""])


def loads_of(small: bool) -> dict[str, str]:
    """Returns the loads by name. If `small`, each has about a thousandth of its size."""
    part = 1000 if small else 1
    made = {"p1": flows("p1", "10Mbit/s", 1, 10**6 // part, 3 * 10**12 // part + 10**10),
            "p2": flows("p2", "1Gbit/s", 256, max(1000 // part, 1),
                        256 * 48_000 * 1000 // part + 12 * 10**10),
            "p3": train(10**6 // part), "p4": many("p4", max(256 // part, 2), 400)}
    return made
