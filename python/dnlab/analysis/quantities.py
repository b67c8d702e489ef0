"""Quantities: units and how values are written, ranks, fairness, and means with intervals, which need scipy
(Debian: python3-scipy)."""
import importlib
import math
import re
import warnings
from decimal import Decimal
from fractions import Fraction
from typing import Iterable, Literal, NamedTuple, Optional, Sequence, Union

from dnlab.errors import ResourceError

# The base units are nanoseconds, bytes, bits per second and packets; a share is a fraction of 1.

TIMES = {"ns": 1, "us": 10**3, "ms": 10**6, "s": 10**9}
# The units of each kind of amount; '' means no unit. An index is Jain's, from 0 to 1; an ending is one of
# `ENDINGS`.
UNITS: dict[str, dict[str, Fraction]] = {
    "time": {unit: Fraction(size) for unit, size in TIMES.items()},
    "size": {"bytes": Fraction(1)},
    "rate": {unit: Fraction(size) for unit, size in
             (("bit/s", 1), ("kbit/s", 10**3), ("Mbit/s", 10**6), ("Gbit/s", 10**9))},
    "share": {"%": Fraction(1, 100)},
    "count": {"": Fraction(1), "packets": Fraction(1)},
    "index": {"": Fraction(1)},
    "ending": {"": Fraction(1)},
}
# How units of a table are shown to people: the name, and how many base units it has.
FOR_PEOPLE = {"ns": ("ms", 10**6), "bit/s": ("Mbit/s", 10**6)}
# How an experiment may end; the amount is the index in this list.
ENDINGS = ("end", "spent")
_AMOUNT = re.compile(r"([0-9]+(?:\.[0-9]+)?) ?([^0-9 .]*)")


def amount_of(text: str, kind: str) -> tuple[Fraction, str]:
    """Returns an amount in the base unit of its kind, and the unit in which it was written. Raises
    `ValueError` with the cause.

    >>> amount_of("1.5ms", "time"), amount_of("5%", "share")
    ((Fraction(1500000, 1), 'ms'), (Fraction(1, 20), '%'))
    """
    if kind == "ending":
        if text not in ENDINGS:
            raise ValueError(f"{text!r} is not an ending; expected one of {', '.join(ENDINGS)}")
        return Fraction(ENDINGS.index(text)), ""
    found = _AMOUNT.fullmatch(text)
    if not found:
        raise ValueError(f"{text!r} is not an amount such as {example(kind)}")
    units = UNITS[kind]
    if found[2] not in units:
        said = f"{found[2]!r} is not a unit here" if found[2] else "its unit is missing"
        raise ValueError(f"{text!r}: {said}: {named(kind)}")
    return Fraction(found[1]) * units[found[2]], found[2]


def named(kind: str) -> str:
    """Returns the units of a kind, for a message.

    >>> named("time")
    'ns, us, ms, s'
    """
    return ", ".join(unit or "none" for unit in UNITS[kind])


def example(kind: str) -> str:
    """Returns an example of an amount, for a message."""
    return {"time": "50ms", "size": "1500bytes", "rate": "9.5Mbit/s", "share": "5%", "count": "3",
            "index": "0.9",
            "ending": "end"}[kind]


def shown(amount: Fraction, kind: str, unit: str = "", digits: int = 9) -> str:
    """Returns an amount in a unit as text with at most `digits` decimals. With nine, times in whole
    nanoseconds are exact.

    >>> shown(Fraction(1234567), "time", "ms"), shown(Fraction(1234567), "time", "ms", 3)
    ('1.234567ms', '1.235ms')
    >>> shown(Fraction(1, 3), "share", "%")
    '33.333333333%'
    """
    if kind == "ending":
        return ENDINGS[int(amount)]
    value = amount / UNITS[kind][unit]
    text = f"{Decimal(value.numerator) / value.denominator:.{digits}f}".rstrip("0").rstrip(".")
    return text + (f" {unit}" if unit in ("bytes", "packets") else unit)


def fitting(amount: Fraction, kind: str) -> str:
    """Returns the largest unit in which an amount is at least 1, or the smallest unit if there is none.

    >>> fitting(Fraction(1500000), "time"), fitting(Fraction(0), "rate")
    ('ms', 'bit/s')
    """
    units = [unit for unit, size in UNITS[kind].items() if abs(amount) >= size]
    return list(UNITS[kind])[0] if not units or kind == "count" else units[-1]


Percentile = Union[int, float, str]
# The kinds of intervals.
Kind = Literal["t", "bootstrap"]
KINDS: tuple[Kind, ...] = ("t", "bootstrap")


def place(count: int, percentile: Percentile) -> int:
    """Returns the index (from 0) of a percentile among `count` sorted values, by nearest rank: the smallest
    value that at least `percentile` percent of the values do not exceed.

    >>> place(2, 50), place(3, 50), place(200, 99), place(1000, "99.9")
    (0, 1, 197, 998)
    """
    share = Fraction(str(percentile))
    return max(1, math.ceil(count * share / 100)) - 1


def percentile_name(percentile: Percentile) -> str:
    """Returns the name of a percentile's column.

    >>> percentile_name(50), percentile_name("99.9")
    ('p50', 'p99.9')
    """
    return "p50" if Fraction(str(percentile)) == 50 else f"p{percentile}"


def jain(values: Sequence[float]) -> Optional[float]:
    """Returns Jain's index of fairness: 1 if all values are equal, 1/n if only one is above 0, None if none
    is.

    >>> jain([1, 1, 1, 1]), jain([1, 0, 0, 0])
    (1.0, 0.25)
    """
    squares = sum(value * value for value in values)
    return float(Fraction(sum(values)) ** 2 / (len(values) * Fraction(squares))) if squares else None


class Interval(NamedTuple):
    """A mean of `count` values, the half-width of its confidence interval, and the interval's ends; None if
    there are too few values."""
    count: int  # type: ignore[assignment]  # tuples have a method of this name
    mean: Optional[float]
    half: Optional[float] = None
    low: Optional[float] = None
    high: Optional[float] = None


def interval(values: Iterable[float], level: float = 95, kind: Kind = "t") -> Interval:
    """Returns the mean of independent values, with its confidence interval at `level` percent.

    kind  `t` is Student's, for means that are close to normal; `bootstrap` resamples 9999 times
          (bias-corrected and accelerated), with fixed random numbers

    >>> mean = interval([1.0, 2.0, 3.0])
    >>> mean.count, mean.mean, round(mean.half, 6), round(mean.low, 6), round(mean.high, 6)
    (3, 2.0, 2.484138, -0.484138, 4.484138)
    """
    known = [float(value) for value in values]
    if len(known) < 2:
        return Interval(len(known), known[0] if known else None)
    try:
        # Imported here, because only intervals need scipy.
        importlib.import_module("scipy.special")
    except ModuleNotFoundError:
        raise ResourceError(
            "scipy is missing, which intervals need (Debian: apt-get install python3-scipy)") from None
    mean = math.fsum(known) / len(known)
    if min(known) == max(known):
        return Interval(len(known), mean, 0.0, mean, mean)
    if kind == "t":
        half = half_of(known, level)
        return Interval(len(known), mean, half, mean - half, mean + half)
    low, high = drawn(known, level / 100)
    return Interval(len(known), mean, (high - low) / 2, low, high)


def student(level: float, freedom: int) -> float:
    """Returns the half-width around 0 that contains `level` (below 100) percent of Student's distribution
    with `freedom` degrees of freedom. Equals `scipy.stats.t.ppf`, whose package takes half a second to load.

    >>> round(student(95, 2), 6)
    4.302653
    """
    from scipy import special

    return float(special.stdtrit(freedom, 0.5 + level / 200))


def half_of(values: Sequence[float], level: float = 95) -> float:
    """Returns the half-width of Student's confidence interval of the mean of two or more values, at `level`
    percent.

    >>> round(half_of([1.0, 2.0, 3.0]), 6)
    2.484138
    """
    import numpy as np

    return student(level, len(values) - 1) * float(np.std(values, ddof=1) / math.sqrt(len(values)))


def drawn(values: Sequence[float], level: float) -> tuple[float, float]:
    """Returns the ends of the bootstrap's confidence interval of the mean of two or more values; `level` is a
    fraction.

    >>> low, high = drawn([1.0, 2.0, 3.0, 4.0], 0.95)
    >>> 1 <= low < 2.5 < high <= 4
    True
    """
    # Imported here, because it takes long to load and is rarely used.
    import numpy as np
    from scipy import stats

    # RandomState's numbers never change; those of numpy's newer generators may.
    chance = np.random.RandomState(1)
    with warnings.catch_warnings():
        warnings.simplefilter("ignore")
        found = stats.bootstrap((np.asarray(values, dtype=np.float64),), np.mean, confidence_level=level,
                                random_state=chance, vectorized=True).confidence_interval
        if not (math.isfinite(found.low) and math.isfinite(found.high)):
            # Too few values for the correction: plain percentiles of the resampled means.
            found = stats.bootstrap((np.asarray(values, dtype=np.float64),), np.mean, confidence_level=level,
                                    random_state=np.random.RandomState(1), vectorized=True,
                                    method="percentile").confidence_interval
    return float(found.low), float(found.high)
