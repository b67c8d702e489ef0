"""Closed-loop senders in a session, compared with the link's own Reno flow, which is proved, and with values
calculated by hand from the RFCs. A session reacts to a packet 1 ns after its arrival, so a round trip takes 2
ns more than for the link's own flow."""
from typing import Any, Callable

import pytest

import dnlab
from dnlab.rng import Chance
from dnlab.senders import Arrivals, Chain, Cubic, Network, Reno, Requests, Web
from dnlab.senders.flows import Flow, Segment

MS, S = 10**6, 10**9
COMMANDS = ("pipe 1 config bw {bw} delay 20 queue {queue} plr {plr}", "pipe 2 config delay 20",
            "add 100 pipe 1 ip from 10.0.0.0/24 to 10.0.1.0/24",
            "add 200 pipe 2 ip from 10.0.1.0/24 to 10.0.0.0/24")


def on_link(program: str, play: Callable[[Network], Any], seed: int = 1, steps: int = 10**6,
            **settings: Any) -> tuple[Network, Any]:
    """Plays senders on their own link, until they end."""
    with dnlab.live(program) as session:
        link = session.experiment("x", seed=seed, budget=5000, steps=steps)
        for command in COMMANDS:
            link.command(command.format(**{"bw": "10Mbit/s", "queue": 50, "plr": 0, **settings}))
        network = Network(link)
        made = play(network)
        network.run()
        link.end()
    return network, made


@pytest.mark.parametrize("seed, queue, plr",
                         [(1, 50, "0.01"), (2, 20, "0.05"), (3, 20, "0.05"), (1, 30, "0.2"), (6, 50, "0")])
def test_reno_is_the_link_s_own_flow(program: str, seed: int, queue: int, plr: str) -> None:
    """The losses are the same, because they depend on the seed, and so are all windows, retransmissions,
    timeouts and the completion. After 85 timeouts and 500 s the two differ by 300 ns, 2 ns for each round
    trip."""
    _, flow = on_link(program, lambda network: network.flow(300 * 1460, Reno, ("10.0.0.1", 1000), limit=65535,
                                                            record=True),
                      seed, queue=queue, plr=plr)
    commands = "".join(f"@0 {command.format(bw='10Mbit/s', queue=queue, plr=plr)}\n" for command in COMMANDS)
    own = dnlab.run(
        f"experiment x seed {seed} budget 5000\n{commands}@0 flow 1 10.0.0.1 1000 10.0.1.1 80 smss 1460 "
        f"segments 300 rto adaptive ssthresh 1000000000\n@{1000 * S} end\n", dnlab=program)["x"]
    rows, windows = own.summary(), own.windows()
    row = rows[rows.sender == "flow 1"].iloc[0]
    assert 0 <= flow.arrived - row.fct < 400
    assert (flow.retransmissions, flow.timeouts) == (row.retransmissions, (windows.event == "expire").sum())
    theirs = [pair for pair in zip(windows.cwnd.tolist(), windows.ssthresh.tolist())]
    theirs = [one for one, before in zip(theirs, [None, *theirs]) if one != before]
    ours = [(cwnd, min(ssthresh, S)) for _, cwnd, ssthresh in flow.history]
    # The ends differ: the link's own flow has no line once everything is acknowledged.
    assert ours[:len(theirs) - 1] == theirs[:-1] and len(theirs) > 40


def test_a_chain(program: str) -> None:
    """The next transfer starts when the sender knows that the last one is done: 1000 bytes at 10 Mbit/s take
    0.832 ms with headers, 20 ms there and 20 back, each with a reaction 1 ns later; then 7 ms pass."""
    network, chain = on_link(program, lambda network: Chain(network, [1000, 1000, 3000], gap=7 * MS))
    one, two, three = chain.flows
    assert (one.begun, one.arrived, one.done) == (0, 20_832_001, 40_832_002)
    assert two.begun == one.done + 7 * MS and three.begun == two.done + 7 * MS and three.done is not None
    assert [row["fct"] for row in network.rows()][:2] == [20_832_001, 20_832_001]


def test_requests(program: str) -> None:
    """300 bytes there: 340 bytes at 10 Mbit/s take 0.272 ms, and 20 ms; 5 ms of work; 1000 bytes back through
    a pipe without a rate, 20 ms. Each step takes 1 ns more. Then 2 ms of think time."""
    network, asked = on_link(program,
                             lambda network: Requests(network, 3, 300, 1000, work=5 * MS, think=2 * MS,
                                                      begin=MS))
    assert asked.times == [45_272_002] * 3 and len(network.flows) == 6
    assert network.flows[2].begun == MS + 45_272_002 + 2 * MS


def test_users_of_a_web(program: str) -> None:
    """Each user has an independent random stream: another window changes the times of the pages, and not the
    requests."""
    def play(window: Any) -> Callable[[Network], Web]:
        return lambda network: Web(network, 5, lambda chance: chance.pareto(1.3, 3000), 200 * MS, 2 * S,
                                   seed=7, window=window)

    one, web = on_link(program, play(Reno), queue=10)
    other, _ = on_link(program, play(Cubic), queue=10)

    def pages(network: Network) -> list[list[int]]:
        found: dict[str, list[int]] = {}
        for flow in network.flows:
            if flow.source[0] == "10.0.1.1":
                found.setdefault(flow.target[0], []).append(flow.size)
        return [sizes[:3] for _, sizes in sorted(found.items())]

    assert pages(one) == pages(other) and len(pages(one)) == 5
    assert len(web.times()) == len(one.flows) // 2 and min(web.times()) > 40 * MS
    # A user's start time is exponential, from the user's own random stream.
    begins = sorted(Chance(f"7 begin {user}").exponential(200 * MS) for user in range(1, 6))
    assert one.flows[0].begun == begins[0]


def test_arrivals_are_a_poisson_process(program: str) -> None:
    """Times and sizes alternate in one random stream, and the windows alternate too. A table has a row for
    each."""
    network, made = on_link(program, lambda network: Arrivals(network, 300, 5 * MS,
                                                              lambda chance: chance.whole(100, 9000),
                                                              seed=3, window=[Reno, Cubic]), bw="100Mbit/s")
    chance, moment, wanted = Chance(3), 0, []
    gap = chance.exponential(5 * MS)
    for number in range(300):
        moment += gap
        gap = chance.exponential(5 * MS) if number < 299 else 0
        wanted.append(chance.whole(100, 9000))
    table = network.table()
    assert (table["bytes"].tolist() == wanted
            and table["window"].value_counts().to_dict() == {"Reno": 150, "Cubic": 150})
    # The last one starts at the sum of the gaps, plus 1 ns for each time at which there is another packet.
    assert (abs(made.flows[-1].begun - moment) < 1000 and (table.fct > 20 * MS).all()
            and table.retransmissions.sum() == 0)
    goodput = table["bytes"].astype(float) * 8e9 / table.fct.astype(float)
    assert (abs(goodput - table.goodput.astype(float)) <= 1).all()


def test_a_window_of_one_s_own(program: str) -> None:
    class Fixed(Reno):
        def acknowledged(self, count: int, now: int, rtt: int) -> None:
            """A window that stays at 3 segments."""

    network, flow = on_link(program, lambda network: network.flow(30 * 1460, Fixed))
    # Ten round trips of three segments each: 1.2 ms per segment, 20 ms there and back.
    assert (network.rows()[0]["window"] == "Fixed"
            and 10 * 41_200_000 - 21 * MS < flow.arrived < 10 * 41_200_000 + 4 * MS)


def lost_twice(program: str, window: Any, **more: Any) -> tuple[Flow, int]:
    """Runs a flow that loses a segment and its first retransmission. Returns the flow and the maximum number
    of bytes in flight."""
    flights: list[int] = []
    lost = [0]

    def play(network: Network) -> Flow:
        carry = network.carry

        def losing(source: Any, target: Any, size: int, payload: Any) -> None:
            if isinstance(payload, Segment):
                flights.append(payload.after - payload.flow.una)
                if payload.first == 146_000 and lost[0] < 2:
                    lost[0] += 1
                    return
            carry(source, target, size, payload)

        network.carry = losing  # type: ignore[method-assign]
        return network.flow(3_000_000, window, **more)

    _, flow = on_link(program, play, steps=10**7)
    assert lost == [2] and flow.received_bytes == 3_000_000
    return flow, max(flights)


def test_a_lost_retransmission(program: str) -> None:
    """By the letter of RFC 5681, each duplicate sends another segment until the timer expires after a second
    or more, in which 10 Mbit/s carry 1.2 MB. The default limit prevents that."""
    _, without = lost_twice(program, Reno, limit=None)
    _, usual = lost_twice(program, Reno)
    assert usual <= 262144 < 10**6 < without
