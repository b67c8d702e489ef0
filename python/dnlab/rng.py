"""Random numbers of templates: the same for a seed on every machine and under every version of Python.

Python guarantees that a seed gives the same `random.Random.random()` forever, but not the other methods.
Everything here is therefore computed from `random()`, integers, and the logarithm and exponential of
`decimal`, which are correctly rounded everywhere. Those of `math` depend on the machine, and are used only
where their last digits don't matter.
"""
import itertools
import math
import random
from decimal import Context, Decimal
from typing import Any, Callable, Iterator, Optional, Sequence, Union

Number = Union[int, float]
# More times would make a scenario that no program accepts.
_MOST = 10**6
_EXACT = Context(prec=28)
_BITS = 53


class Chance:
    """The `rng` of a template. It depends only on the seed, so settings are compared under the same random
    numbers."""

    def __init__(self, seed: object) -> None:
        self._source = random.Random(f"{seed}")

    def random(self) -> float:
        """Returns a number in [0, 1)."""
        return self._source.random()

    def whole(self, least: int, most: int) -> int:
        """Returns an integer from `least` to `most`, both included."""
        if most < least:
            raise ValueError(f"rng.whole({least}, {most}): the lower bound must come first")
        return int(least) + (int(self.random() * 2**_BITS) * (int(most) - int(least) + 1) >> _BITS)

    def uniform(self, least: Number, most: Number) -> float:
        """Returns a number between two numbers."""
        return least + (most - least) * self.random()

    def exponential(self, mean: Number) -> int:
        """Returns a gap of a Poisson process with this mean, rounded to an integer."""
        return next(_gaps(self._source.random, mean))

    def arrivals(self, mean: Number, end: int, begin: int = 0) -> list[int]:
        """Returns the times of a Poisson process in order, from `begin` and before `end`, with `mean` between
        them on average."""
        if not mean > 0:
            raise ValueError(f"rng.arrivals({mean}, ..): the mean gap must be above 0")
        if end - begin > _MOST * mean:
            raise ValueError(
                f"rng.arrivals({mean}, {end}): more than {_MOST} times; raise the mean or lower the end")
        moments = itertools.accumulate(_gaps(self._source.random, mean), initial=int(begin))
        return list(itertools.takewhile(lambda moment: moment < end, itertools.islice(moments, 1, None)))

    def pareto(self, shape: Number, least: Number) -> int:
        """Returns a heavy-tailed size as an integer: at least `least`, and above x with probability (least /
        x)^shape."""
        grown = _EXACT.exp(_EXACT.divide(_lifetime(1 - self.random()), Decimal(shape)))
        return int(_EXACT.multiply(grown, Decimal(least)).to_integral_value())

    def choice(self, items: Sequence[Any], weights: Optional[Sequence[Number]] = None) -> Any:
        """Returns one of the items, with equal probability or by weights."""
        if not items or (weights is not None and (len(weights) != len(items) or not sum(weights) > 0)):
            raise ValueError("rng.choice: expected one item or more, and one weight for each, not all 0")
        if weights is None:
            return items[self.whole(0, len(items) - 1)]
        left = self.random() * sum(weights)
        for item, weight in zip(items, weights):
            left -= weight
            if left < 0:
                return item
        return [item for item, weight in zip(items, weights) if weight][-1]

    def sample(self, items: Sequence[Any], count: int) -> list[Any]:
        """Returns `count` different items (of a list or a range), in the order in which they are drawn."""
        if not 0 <= count <= len(items):
            raise ValueError(f"rng.sample: {count} of {len(items)} items")
        # Replaces each drawn item by the last remaining one, and stores only the replaced ones, so a long
        # range takes little memory.
        moved: dict[int, int] = {}
        found = []
        for last in range(len(items) - 1, len(items) - 1 - count, -1):
            place = self.whole(0, last)
            found.append(items[moved.get(place, place)])
            moved[place] = moved.get(last, last)
        return found

    def shuffled(self, items: Sequence[Any]) -> list[Any]:
        """Returns all items in random order."""
        return self.sample(items, len(items))


def _gaps(draw: Callable[[], float], mean: Number) -> Iterator[int]:
    """Yields gaps of a Poisson process, each rounded to an integer."""
    log = math.log
    while True:
        rest = 1 - draw()
        near = -log(rest) * mean
        # No machine's logarithm has a relative error of 10^-14, so values that are not close to the middle
        # round the same everywhere.
        if near < 10**11 and abs(near % 1 - 0.5) > 0.001:
            yield round(near)
        else:
            yield int(_EXACT.multiply(_lifetime(rest), Decimal(mean)).to_integral_value())


def _lifetime(rest: float) -> Decimal:
    """Returns a lifetime with mean 1 that all but this fraction exceed."""
    return -_EXACT.ln(Decimal(rest))


# {{ traffic.poisson(2 | ms, 10 | s, "inject udp 10.0.0.1 1000 10.0.1.1 2000 200") }}
#     {{ traffic.on_off(1 | s, 1 | s, 20 | ms, 10 | s, "inject udp 10.0.0.2 1000 10.0.1.2 2000 200") }}
#     {{ traffic }}
#
# Each source collects commands and prints nothing; the last line prints all of them by time. All random
# numbers come from the template's `rng`, so they depend only on the seed.

# More commands would make a text that no program accepts.
_MOST_COMMANDS = 10**6


class Traffic:
    """The `traffic` of a template. Times, gaps and durations are ns, sizes bytes."""

    def __init__(self, rng: Chance) -> None:
        self._rng = rng
        self._lines: list[tuple[int, str]] = []

    def at(self, moment: Number, *commands: str) -> str:
        """Adds commands at a time. Commands of the same time keep their order."""
        if int(moment) != moment or moment < 0:
            raise ValueError(f"traffic.at({moment}, ..): the time must be a whole number of ns")
        for command in commands:
            if len(self._lines) == _MOST_COMMANDS:
                raise ValueError(f"traffic: more than {_MOST_COMMANDS} commands")
            if not command.strip() or "\n" in command:
                raise ValueError(
                    f"traffic.at({moment}, {command[:40]!r}): give one command each, without its time")
            self._lines.append((int(moment), command))
        return ""

    def every(self, gap: int, end: int, command: str, begin: int = 0) -> str:
        """Adds a command every `gap` from `begin` on and before `end`."""
        _positive("every", gap)
        for moment in range(int(begin), int(end), int(gap)):
            self.at(moment, command)
        return ""

    def poisson(self, mean: Number, end: int, command: str, begin: int = 0) -> str:
        """Adds a command at each time of a Poisson process, `mean` apart on average."""
        for moment in self._rng.arrivals(mean, end, begin):
            self.at(moment, command)
        return ""

    def on_off(self, on: Number, off: Number, gap: int, end: int, command: str, begin: int = 0,
               shape: Optional[Number] = None) -> str:
        """Adds a command every `gap` while the source is on: `on` on average, then it is off for `off`. Both
        durations are exponential, or, with a `shape` above 1, Pareto distributed with the same mean (many
        such sources together are self-similar)."""
        _positive("on_off", gap)
        moment = int(begin)
        while moment < end:
            until = min(end, moment + self._lasting(on, shape))
            self.every(gap, until, command, moment)
            moment = until + self._lasting(off, shape)
        return ""

    def _lasting(self, mean: Number, shape: Optional[Number]) -> int:
        if not mean > 0 or (shape is not None and not shape > 1):
            raise ValueError("traffic.on_off: mean durations must be above 0, and the shape above 1")
        # A Pareto distribution of this shape has a mean of `shape / (shape - 1)` times its minimum.
        drawn = (self._rng.exponential(mean) if shape is None
                 else self._rng.pareto(shape, mean * (shape - 1) / shape))
        return max(1, drawn)

    def flows(self, mean: Number, end: int, command: str, first: int = 1, shape: Number = 1.2, least: int = 4,
              most: int = 10**6, begin: int = 0) -> str:
        """Adds flows that arrive as a Poisson process, `mean` apart, with Pareto-distributed sizes in
        segments, `least` to `most`. In the command `{flow}` is replaced by the number, from `first` on, and
        `{segments}` by the size."""
        for number, moment in enumerate(self._rng.arrivals(mean, end, begin), first):
            segments = min(self._rng.pareto(shape, least), most)
            self.at(moment, command.replace("{flow}", str(number)).replace("{segments}", str(segments)))
        return ""

    def web(self, users: int, think: Number, end: int, command: str, first: int = 1, pages: int = 10**6,
            shape: Number = 1.2, least: int = 4, most: int = 10**6, begin: int = 0) -> str:
        """Adds users who request a page, read it for `think` on average, and request the next, at most
        `pages` of them.

        A page is a flow, as in `flows`; `{user}` is replaced by the user's number, from 1 on. Users don't
        wait for a page to arrive; for that, write a session (`dnlab live`)."""
        asked: list[tuple[int, int]] = []
        for user in range(1, users + 1):
            moment = int(begin) + self._rng.exponential(think)
            for _ in range(pages):
                if moment >= end or len(asked) > _MOST_COMMANDS:
                    break
                asked.append((moment, user))
                moment += max(1, self._rng.exponential(think))
        for number, (moment, user) in enumerate(sorted(asked), first):
            segments = min(self._rng.pareto(shape, least), most)
            self.at(moment,
                    command.replace("{flow}",
                                    str(number)).replace("{segments}",
                                                         str(segments)).replace("{user}", str(user)))
        return ""

    def lines(self) -> list[str]:
        """Returns all collected commands, by time, as lines of a scenario."""
        return [f"@{moment} {command}" for moment, command in sorted(self._lines, key=lambda one: one[0])]

    def __str__(self) -> str:
        return "\n".join(self.lines())


def _positive(name: str, gap: Number) -> None:
    if not gap >= 1:
        raise ValueError(f"traffic.{name}: the gap must be 1 ns or more")
