"""Random numbers and sources of traffic in templates: the same in every Python, fair, and with the means of
their distributions."""
import hashlib
import math
import random
import statistics
from decimal import Context, Decimal
from itertools import pairwise
from typing import Callable

import pytest

from dnlab.errors import InputError
from dnlab.io.scenario import read
from dnlab.rng import Chance, Traffic
from dnlab.sweeps.templates import Template

SECOND = 10**9
TEMPLATE = """experiment {{ name }} seed {{ seed }} budget 1000
@0 pipe 1 config bw 1Mbit/s
@0 add 100 pipe 1 ip from any to any
{{ traffic.every(30 | ms, 100 | ms, "inject udp 10.0.0.1 1 10.0.1.1 2 100", begin=20 | ms) }}
{{ traffic.at(50 | ms, "pipe 1 config bw 2Mbit/s", "inject udp 10.0.0.2 1 10.0.1.1 2 200") }}
{{ traffic.at(1 | ms, "inject udp 10.0.0.3 1 10.0.1.1 2 300") }}
{{ traffic }}
@{{ 1 | s }} end
"""


def test_chance_is_that_of_every_python() -> None:
    """A seed is a number from SHA-512, as `random` guarantees for strings, and all random values come from
    `random()`."""
    number = int.from_bytes(b"7" + hashlib.sha512(b"7").digest(), "big")
    plain, chance = random.Random(number), Chance(7)
    assert [chance.random() for _ in range(5)] == [plain.random() for _ in range(5)]
    assert [chance.whole(10, 19) for _ in range(50)] == [10 + int(plain.random() * 10) for _ in range(50)]
    assert [chance.exponential(10**6) for _ in range(50)] == [
        round(-math.log(1 - plain.random()) * 10**6) for _ in range(50)]
    assert [chance.pareto(2, 1000) for _ in range(50)] == [
        round(1000 / math.sqrt(1 - plain.random())) for _ in range(50)]
    assert chance.uniform(2, 4) == 2 + 2 * plain.random()


def test_gaps_are_those_of_exact_logarithms() -> None:
    """This is also true near the middle between two whole numbers: with this mean, each gap has different
    decimal digits."""
    chance, plain = Chance(3), Chance(3)
    for mean in [7] * 3000 + [10**14] * 50:
        exact = -Context(prec=40).ln(1 - Decimal(plain.random())) * mean
        assert chance.exponential(mean) == int(exact.to_integral_value())
    moments, moment = chance.arrivals(7, 20000, 100), 100
    for found in [*moments, None]:
        moment += int((-Context(prec=40).ln(1 - Decimal(plain.random())) * 7).to_integral_value())
        assert (moment if moment < 20000 else None) == found
    assert len(moments) > 2500 and chance.random() == plain.random()


def test_chance_draws_fairly() -> None:
    chance = Chance(1)
    assert {chance.whole(1, 3) for _ in range(100)} == {1, 2, 3}
    moments = chance.arrivals(1000, 10**6, 500)
    # A Poisson process has about 1000 events in this time, plus or minus 32 in two of three cases.
    assert (850 < len(moments) < 1150 and moments == sorted(moments) and 500 <= moments[0]
            and moments[-1] < 10**6)
    drawn = chance.sample(range(0, 10**9, 1000), 200)
    assert len(set(drawn)) == 200 and all(one in range(0, 10**9, 1000) for one in drawn)
    assert (sorted(chance.shuffled([1, 2, 3, 4])) == [1, 2, 3, 4]
            and sorted(chance.sample([1, 2, 3], 3)) == [1, 2, 3])
    counts = [sum(chance.choice("ab", [1, 3]) == "b" for _ in range(1000)) for _ in range(3)]
    assert all(690 < count < 810 for count in counts)
    assert ({chance.choice("ab", [0, 1]) for _ in range(50)} == {"b"}
            and {chance.choice("xy") for _ in range(50)} == {"x", "y"})
    for wrong in (lambda: chance.whole(2, 1), lambda: chance.choice([]), lambda: chance.choice("ab", [0, 0]),
                  lambda: chance.sample([1], 2), lambda: chance.arrivals(0, 5),
                  lambda: chance.arrivals(1, 10**6 + 1)):
        with pytest.raises(ValueError, match="rng"):
            wrong()


# ---- traffic

def moments(one: Traffic) -> list[int]:
    return [int(line.split()[0][1:]) for line in one.lines()]


def test_sources_are_merged(alone: Callable[[bytes], bytes]) -> None:
    """By hand: packets at 20, 50 and 80 ms; two commands after the one at 50 ms, in their order; and one
    before all."""
    text = Template(TEMPLATE).render("a", 1, {})
    commands = read(text.encode())["a"].commands
    assert [(one.moment // 10**6, one.text.split()[-1]) for one in commands[2:-1]] == [
        (1, "300"), (20, "100"), (50, "100"), (50, "2Mbit/s"), (50, "200"), (80, "100")]
    # 300 bytes take 2.4 ms at 1 Mbit/s.
    assert b"3400001 deliver 0 plain" in alone(text.encode())


def test_poisson() -> None:
    """The mean of n gaps is within five standard errors, which are mean / sqrt(n)."""
    one = Traffic(Chance(1))
    one.poisson(10**6, 10 * SECOND, "show")
    gaps = [after - before for before, after in pairwise(moments(one))]
    assert abs(statistics.mean(gaps) - 10**6) < 5 * 10**6 / math.sqrt(len(gaps)) and len(gaps) > 9000


@pytest.mark.parametrize("shape", [None, 3])
def test_on_off(shape: "int | None") -> None:
    """On for 1 s and off for 3 s on average: a quarter of the packets of a source that is always on, with 100
    packets per second."""
    one = Traffic(Chance(2))
    one.on_off(SECOND, 3 * SECOND, 10**7, 4000 * SECOND, "show", shape=shape)
    assert abs(len(moments(one)) / 400000 - 0.25) < 0.03
    gaps = [after - before for before, after in pairwise(moments(one))]
    assert gaps.count(10**7) > 0.97 * len(gaps)


def test_flows() -> None:
    """A Pareto distribution with shape 2 and minimum 10 has the median 10 * sqrt(2), 14.1."""
    one = Traffic(Chance(3))
    one.flows(10**7, 20 * SECOND, "flow {flow} 10.0.0.1 {flow} 10.0.1.1 80 smss 1460 segments {segments}",
              first=5, shape=2, least=10, most=900)
    rows = [line.split() for line in one.lines()]
    assert [int(row[2]) for row in rows] == list(range(5, 5 + len(rows))) and len(rows) > 1800
    sizes = [int(row[-1]) for row in rows]
    assert 13 < statistics.median(sizes) < 15.5 and min(sizes) == 10 and max(sizes) <= 900


def test_web() -> None:
    """20 users who look at each page for 5 s make about 20 * 100 / 5 requests in 100 s."""
    one = Traffic(Chance(4))
    one.web(20, 5 * SECOND, 100 * SECOND,
            "flow {flow} 10.0.1.1 80 10.0.0.{user} {flow} smss 1460 segments {segments}")
    rows = [line.split() for line in one.lines()]
    assert abs(len(rows) - 400) < 5 * math.sqrt(400)
    assert [int(row[2]) for row in rows] == list(range(1, len(rows) + 1))
    assert {row[5] for row in rows} == {f"10.0.0.{user}" for user in range(1, 21)}
    few = Traffic(Chance(4))
    few.web(20, 5 * SECOND, 100 * SECOND, "flow {flow}", pages=2)
    assert len(few.lines()) == 40


@pytest.mark.parametrize("source, wanted", [
    ('traffic.every(0, 9, "show")', "gap"), ('traffic.at(1.5, "show")', "whole number"),
    ('traffic.at(1, "a\\nb")', "one command"),
    ('traffic.on_off(0, 1, 1, 9, "show")', "above 0"),
    ('traffic.on_off(1, 1, 1, 9, "show", shape=1)', "above 1"),
    ('traffic.every(1, 10000000, "show")', "more than")])
def test_wrong_sources(source: str, wanted: str) -> None:
    """The message has the template's line."""
    with pytest.raises(InputError, match=f"line 2.*{wanted}"):
        Template("experiment a seed 0 budget 1\n{{ " + source + " }}\n@0 end\n").render("a", 0, {})
