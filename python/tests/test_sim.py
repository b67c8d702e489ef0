"""asyncio in simulated time: times calculated by hand, operations that an operating system refuses, and
third-party programs with loss, which have the same transcript twice."""
import asyncio
import errno
import random
import time
from typing import Any, Awaitable, Callable, Iterator

import pytest

import dnlab
from dnlab import sim

CLIENT, SERVER = "10.0.0.1", "10.0.1.1"
Alone = Callable[[bytes], bytes]


@pytest.fixture
def link(program: str) -> Iterator[dnlab.Link]:
    """Returns a link of 1 Mbit/s and 10 ms for all packets: 97 bytes with headers of 28 bytes take 1 ms and
    10 ms."""
    with dnlab.live(program) as session:
        opened = session.experiment("loop", seed=1)
        opened.command("pipe 1 config bw 1Mbit/s delay 10")
        opened.command("add 100 pipe 1 ip from any to any")
        yield opened


class Told(asyncio.DatagramProtocol):
    """Keeps the messages that it receives, with the link's time (ns)."""

    def __init__(self, link: dnlab.Link, answers: bool = False) -> None:
        self.link, self.answers = link, answers
        self.told: list[tuple[Any, ...]] = []

    def connection_made(self, transport: Any) -> None:
        self.transport = transport

    def datagram_received(self, data: bytes, addr: Any) -> None:
        self.told.append((self.link.now, data, addr))
        if self.answers:
            self.transport.sendto(data, addr)

    def error_received(self, exc: Exception) -> None:
        self.told.append((self.link.now, exc))

    def connection_lost(self, exc: Exception | None) -> None:
        self.told.append((self.link.now, "closed"))


async def endpoint(link: dnlab.Link, local: Any = None, remote: Any = None, answers: bool = False) -> Told:
    loop = asyncio.get_running_loop()
    _, protocol = await loop.create_datagram_endpoint(lambda: Told(link, answers), local_addr=local,
                                                      remote_addr=remote)
    return protocol


def test_an_answer_comes_when_it_should(link: dnlab.Link, alone: Alone) -> None:
    async def main() -> tuple[Told, Told]:
        with sim.host(SERVER):
            server = await endpoint(link, ("0.0.0.0", 53), answers=True)
        with sim.host(CLIENT):
            client = await endpoint(link)
        client.transport.sendto(b"x" * 97, (SERVER, 53))
        await asyncio.sleep(1)
        return server, client

    server, client = sim.run(main(), link=link)
    assert server.told[0] == (11_000_001, b"x" * 97, (CLIENT, 49152))
    assert client.told[0] == (22_000_002, b"x" * 97, (SERVER, 53))
    assert link.now == 1_000_000_000
    link.end()
    assert alone(link.transcript().encode()) == link.report()


def test_time_is_the_links_and_costs_nothing(link: dnlab.Link) -> None:
    moments = []

    async def main() -> str:
        loop = asyncio.get_running_loop()
        loop.call_at(0.000000003, lambda: moments.append(link.now))
        loop.call_later(86400 * 3, lambda: moments.append(link.now))
        # Times 10^9 this is 1000999999.9999999 in floating point.
        loop.call_later(1.001, lambda: moments.append(link.now))
        await asyncio.sleep(0.1)
        moments.append(link.now)
        with pytest.raises(asyncio.TimeoutError):
            await asyncio.wait_for(asyncio.Event().wait(), 0.2)
        moments.append(link.now)
        assert (loop.time(), time.monotonic(), time.time_ns()) == (0.3, 0.3, 1_767_225_600_300_000_000)
        await asyncio.sleep(86400 * 4)
        return "done"

    begun = time.monotonic()
    assert sim.run(main(), link=link) == "done"
    assert moments == [3, 100_000_000, 300_000_000, 1_001_000_000, 259_200_000_000_000]
    assert link.now == 345_600_300_000_000
    assert time.monotonic() - begun < 20


def test_what_an_operating_system_refuses(link: dnlab.Link) -> None:
    async def main() -> None:
        with sim.host(CLIENT):
            client = await endpoint(link, remote=(SERVER, 9))
            client.transport.sendto(b"x" * 1473)
            client.transport.sendto(b"x" * 1472)
            await asyncio.sleep(0)
            ((_, fault),) = client.told
            assert fault.errno == errno.EMSGSIZE
            with pytest.raises(OSError) as taken:
                await endpoint(link, (CLIENT, 49152))
            assert taken.value.errno == errno.EADDRINUSE
            client.transport.close()
            await asyncio.sleep(0)
            assert client.told[-1][1] == "closed" and client.transport.is_closing()
            await endpoint(link, (CLIENT, 49152))
            with pytest.raises(NotImplementedError, match="only datagrams"):
                await asyncio.open_connection(SERVER, 80)
            with pytest.raises(OSError, match="neither an address nor one of the given names"):
                await endpoint(link, remote=("example.org", 53))
            told = await endpoint(link)
            told.transport.sendto(b"", ("example.org", 53))
            await asyncio.sleep(0)
            assert told.told[0][1].errno == errno.EAFNOSUPPORT
        with pytest.raises(OSError, match="sim.host"):
            await endpoint(link)

    sim.run(main(), link=link)
    assert link.transcript().count("inject") == 1 and "9 1500\n" in link.transcript()


def test_only_ones_own_datagrams(link: dnlab.Link) -> None:
    """A connected endpoint only receives from its peer. A datagram without an endpoint is silently lost."""
    async def main() -> tuple[list[Any], list[Any]]:
        with sim.host(SERVER):
            server = await endpoint(link, (SERVER, 53))
            other = await endpoint(link, (SERVER, 54))
        with sim.host(CLIENT):
            client = await endpoint(link, (CLIENT, 5), remote=("dns", 53))
        for sender in server, other:
            sender.transport.sendto(b"to you", (CLIENT, 5))
            sender.transport.sendto(b"to nobody", (CLIENT, 6))
        await asyncio.sleep(1)
        return client.told, server.told

    client, server = sim.run(main(), link=link, names={"dns": SERVER})
    assert [it[1:] for it in client] == [(b"to you", (SERVER, 53))] and server == []


def test_deadlocks_are_said(link: dnlab.Link) -> None:
    async def waits() -> None:
        await asyncio.get_running_loop().create_future()

    with pytest.raises(sim.DeadlockError,
                       match=r"nothing is due at 0 ns.*waits in test_deadlocks_are_said.<locals>.waits "
                             r"\(.*test_sim.py:\d+\)"):
        sim.run(waits(), link=link)

    async def spins() -> None:
        while True:
            await asyncio.sleep(0)

    with pytest.raises(sim.DeadlockError, match="no time passes"):
        sim.run(spins(), link=link)
    assert asyncio.run(asyncio.sleep(0, "asyncio itself goes on")) and time.time() < 1e10


def test_spent_steps_are_said(program: str) -> None:
    with dnlab.live(program) as session:
        link = session.experiment("few", steps=2)
        link.command("add 100 allow ip from any to any")
        link.send((CLIENT, 1), (SERVER, 2), 40)
        with pytest.raises(dnlab.ExperimentEndedError):
            sim.run(asyncio.sleep(5), link=link)
        link.end()


def twice(program: str, alone: Alone, main: Callable[[dnlab.Link], Awaitable[Any]],
          plr: str) -> tuple[str, Any]:
    """Runs a program twice over a link with loss. Returns the transcript and the result."""
    runs = []
    for _ in range(2):
        random.seed(1)
        with dnlab.live(program) as session:
            link = session.experiment("twice", seed=3)
            link.command(f"pipe 1 config bw 1Mbit/s delay 10 plr {plr}")
            link.command("add 100 pipe 1 ip from any to any")
            result = sim.run(main(link), link=link)  # type: ignore[arg-type]
            link.end()
            assert alone(link.transcript().encode()) == link.report()
            assert link.counters is not None and link.counters[6] > 0, "nothing was lost"
            runs.append((link.transcript(), result))
    assert runs[0] == runs[1]
    return runs[0]


def test_queries_of_dnspython(program: str, alone: Alone) -> None:
    """Thirty queries, each repeated after 2 s, as dns.asyncresolver does, to a server that gives every query
    the same answer."""
    pytest.importorskip("dns.asyncresolver", reason="dnspython is missing (Debian: python3-dnspython)")
    import dns.asyncresolver
    import dns.message
    import dns.rrset

    class Server(asyncio.DatagramProtocol):
        def connection_made(self, transport: Any) -> None:
            self.transport = transport

        def datagram_received(self, data: bytes, addr: Any) -> None:
            asked = dns.message.from_wire(data)
            answer = dns.message.make_response(asked)
            answer.answer.append(dns.rrset.from_text(asked.question[0].name, 60, "IN", "A", "192.0.2.7"))
            self.transport.sendto(answer.to_wire(), addr)

    async def main(link: dnlab.Link) -> list[tuple[str, int]]:
        loop = asyncio.get_running_loop()
        with sim.host(SERVER):
            await loop.create_datagram_endpoint(Server, local_addr=("0.0.0.0", 53))
        resolver = dns.asyncresolver.Resolver(configure=False)
        resolver.nameservers, resolver.lifetime = [SERVER], 60.0
        answers = []
        with sim.host(CLIENT):
            for number in range(30):
                begun = link.now
                answer = await resolver.resolve(f"n{number}.example.", "A")
                answers.append((str(answer[0]), link.now - begun))
        return answers

    transcript, answers = twice(program, alone, main, "0.2")
    assert {address for address, _ in answers} == {"192.0.2.7"}
    # n0.example. is a query of 28 bytes and an answer of 44: with 28 each 0.448 and 0.576 ms, and 10 ms each
    # way.
    shortest = 448_000 + 576_000 + 20_000_000 + 2
    assert min(took for _, took in answers) == shortest
    # A query that was lost waited for 2 s.
    late = [took for _, took in answers if took > 2 * 10**9]
    assert late and all(took > 2 * 10**9 for _, took in answers if took > shortest + 10**6)
    assert transcript.count("inject") > 60


def test_connections_of_aioice(program: str, alone: Alone, monkeypatch: pytest.MonkeyPatch) -> None:
    """Two ICE agents (RFC 8445) find a pair of candidates in spite of losses, and exchange 50 datagrams."""
    aioice = pytest.importorskip("aioice", reason="aioice is missing (Debian: python3-aioice)")
    from dnlab.sim import here

    # Otherwise the addresses of a host would be those of the machine.
    monkeypatch.setattr("aioice.ice.get_host_addresses", lambda use_ipv4, use_ipv6: [here()])

    async def agent(address: str, is_controlling: bool) -> Any:
        with sim.host(address):
            connection = aioice.Connection(ice_controlling=is_controlling, stun_server=None, use_ipv6=False)
            await connection.gather_candidates()
        return connection

    async def main(link: dnlab.Link) -> list[int]:
        one, two = await agent(CLIENT, True), await agent(SERVER, False)
        for here_, there in ((one, two), (two, one)):
            here_.remote_username, here_.remote_password = there.local_username, there.local_password
            for candidate in there.local_candidates:
                await here_.add_remote_candidate(candidate)
            await here_.add_remote_candidate(None)
        await asyncio.gather(one.connect(), two.connect())
        connected = link.now
        for number in range(50):
            await one.send(b"%d" % number)
        came = [int(await asyncio.wait_for(two.recv(), 5)) for _ in range(20)]
        await asyncio.gather(one.close(), two.close())
        return [connected, *came]

    transcript, (connected, *came) = twice(program, alone, main, "0.2")
    assert came == sorted(came) and came[-1] > 19, "nothing was lost, or the order is another"
    assert connected > 40_000_000 and f" inject udp {CLIENT} 49152 {SERVER} 49152 " in transcript
