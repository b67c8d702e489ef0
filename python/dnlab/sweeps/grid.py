"""Grids of settings: their values, the cases that they make with the seeds, and hints from neighbouring
cells."""
import hashlib
import itertools
import math
import re
from collections import Counter
from decimal import Decimal
from typing import Any, Iterable, Iterator, Mapping, NamedTuple, Optional, Sequence, Union

from dnlab.errors import InputError

Value = Union[int, float, str]
# The prefix of a Dask scheduler's address.
DASK = "dask:"
# Names that every template has besides the settings.
GIVEN = ("name", "seed", "rng", "traffic")
# The columns of the tables besides those of the settings.
COLUMNS = ("experiment", "sender", "stat", "unit", "n", "mean", "low", "high", "min", "max", "level",
           "method", "warnings", "needed", "base", "value", "differs")


def why_reserved(name: str) -> Optional[str]:
    """Returns why a setting can't have this name, and what to call it; None if it can.

    >>> why_reserved("n")
    'no setting can be called n: the tables have a column of this name: call it n_ here and in the template'
    >>> why_reserved("queue") is None
    True
    """
    if name == "seed":
        why = "--seeds sets them"
    elif name in GIVEN:
        why = f"every template is given one: call it {name}_ here and in the template"
    elif name in COLUMNS:
        why = f"the tables have a column of this name: call it {name}_ here and in the template"
    else:
        return None
    return f"no setting can be called {name}: {why}"


class Written(float):
    """A fraction that is printed as it was written, where Python might print 1e-06.

    >>> f"{Written('0.000001')}", Written("0.5") * 2
    ('0.000001', 1.0)
    """
    text: str

    def __new__(cls, text: str) -> "Written":
        made = super().__new__(cls, text)
        made.text = text
        return made

    def __str__(self) -> str:
        return self.text

    def __format__(self, form: str) -> str:
        return format(float(self), form) if form else self.text

    def __reduce__(self) -> tuple[type, tuple[str]]:
        return Written, (self.text,)


def value_of(text: str) -> Value:
    """Returns a value as a number if it is one, so that a template can calculate with it.

    >>> value_of("10"), value_of("010"), value_of("10Mbit/s")
    (10, '010', '10Mbit/s')
    """
    if re.fullmatch(r"0|-?[1-9][0-9]*", text):
        return int(text)
    return Written(text) if re.fullmatch(r"-?[0-9]+\.[0-9]+", text) else text


def as_written(value: Any) -> Any:
    """Returns a value as written in a scenario: floats without an exponent, and without the point if they are
    whole.

    >>> as_written(2.0), as_written(1e-06), as_written("x")
    (2, '0.000001', 'x')
    """
    if not isinstance(value, float) or isinstance(value, Written):
        return value
    return int(value) if value.is_integer() else format(Decimal(repr(value)), "f")


_MOST_NAME = 32
_MOST_SEED = 2**64 - 1
# All experiments of a sweep are listed before the first one runs.
_MOST = 10**6


class Case(NamedTuple):
    """An experiment to run: its name, its seed and its settings, in the given order."""
    name: str
    seed: int
    settings: dict[str, Any]

    def told(self) -> str:
        """Returns its name and settings, for messages.

        >>> Case("queue10-s1", 1, {"queue": 10}).told()
        'experiment queue10-s1 (queue=10, seed 1)'
        """
        words = [f"{name}={as_written(value)}" for name, value in self.settings.items()]
        return f"experiment {self.name} ({', '.join([*words, f'seed {self.seed}'])})"


def name_of(settings: Mapping[str, Any], seed: int) -> str:
    """Returns an experiment's name: its settings and its seed.

    A name with forbidden characters, or a long one, is shortened and gets eight digits of its checksum. It
    depends on nothing else in the sweep.

    >>> name_of({"queue": 10, "plr": value_of("0.001")}, 3)
    'queue10-plr0_001-s3'
    """
    words, is_plain = [], True
    for name, value in settings.items():
        text = str(as_written(value))
        if re.fullmatch(r"[0-9]+\.[0-9]+", text):
            text = text.replace(".", "_")
        is_plain = is_plain and re.fullmatch("[a-z0-9_]*", text) is not None
        words.append(name.lower() + re.sub("[^a-z0-9_]+", "-", text.lower()))
    whole = "-".join([*words, f"s{seed}"])
    if is_plain and len(whole) <= _MOST_NAME:
        return whole
    spelled = "\n".join(f"{name}={as_written(value)}" for name, value in settings.items())
    tail = f"-{hashlib.sha256(spelled.encode()).hexdigest()[:8]}-s{seed}"
    return "-".join(words)[:_MOST_NAME - len(tail)].rstrip("-") + tail


def cases_of(grid: Mapping[str, Sequence[Any]], seeds: Iterable[int]) -> list[Case]:
    """Returns the experiments in order: the seed changes first, then the last setting."""
    own = list(seeds)
    total = len(own) * math.prod(map(len, grid.values()))
    if total > _MOST:
        raise InputError(f"{total} experiments are more than {_MOST}: sweep a part of them at a time")
    found = [Case(name_of(dict(zip(grid, values)), seed), seed, dict(zip(grid, values)))
             for values in itertools.product(*grid.values()) for seed in own]
    if not found:
        raise InputError("a setting has no value, or there is no seed, so there is nothing to run")
    name, count = Counter(case.name for case in found).most_common(1)[0]
    if count > 1:
        first, second = [case for case in found if case.name == name][:2]
        raise InputError(f"two experiments have one name: {first.told()} and {second.told()}")
    for setting, values in grid.items():
        bad = next((value for value in values if isinstance(value, str) and not value.isprintable()), None)
        if bad is not None:
            raise InputError(f"{setting}={bad!r}: a setting must be one line without control characters")
    for case in found:
        if not 0 <= case.seed <= _MOST_SEED:
            raise InputError(f"seed {case.seed}: it must be from 0 to {_MOST_SEED}")
    return found


def setting_of(text: str) -> tuple[str, list[Value]]:
    """Returns the parts of `--set`: a name and its values.

    >>> setting_of("queue=10,25")
    ('queue', [10, 25])
    """
    name, equals, rest = text.partition("=")
    values = [word.strip() for word in rest.split(",")]
    if not equals or not re.fullmatch("[A-Za-z_][A-Za-z0-9_]*", name):
        raise ValueError(f"{text!r}: expected NAME=VALUE[,VALUE..], as queue=10,25")
    taken = why_reserved(name)
    if taken is not None:
        raise ValueError(f"{text!r}: {taken}")
    if "" in values:
        raise ValueError(f"{text!r}: a value is empty")
    if len(set(values)) < len(values):
        raise ValueError(f"{text!r}: a value is given twice")
    return name, [value_of(value) for value in values]


def seeds_of(text: str) -> list[int]:
    """Returns the seeds of `--seeds`.

    >>> seeds_of("1-3,7")
    [1, 2, 3, 7]
    """
    found: list[int] = []
    for word in text.split(","):
        parts = re.fullmatch(r"([0-9]{1,20})(?:-([0-9]{1,20}))?", word)
        if not parts or int(parts[2] or parts[1]) < int(parts[1]) or int(parts[2] or parts[1]) > _MOST_SEED:
            raise ValueError(
                f"{word!r}: expected a seed from 0 to {_MOST_SEED}, or a range with the lower one first")
        if int(parts[2] or parts[1]) - int(parts[1]) >= _MOST:
            raise ValueError(f"{word!r}: more than {_MOST} seeds")
        found += range(int(parts[1]), int(parts[2] or parts[1]) + 1)
    if len(set(found)) < len(found):
        raise ValueError(f"{text!r}: a seed is given twice")
    return found


Row = Mapping[str, Any]
# A value is a jump if both neighbours differ by this factor; a plateau has at least this many identical
# cells.
_JUMP, _ALIKE = 1.4, 3


def hints_of(rows: Sequence[Row], settings: Sequence[str]) -> list[str]:
    """Returns the hints for a table's rows, at most one of each kind; `mean` is None if unknown.

    >>> of = {"sender": "flow 1", "stat": "goodput"}
    >>> rows = [{"queue": queue, **of, "mean": 4.73, "half": 0.1} for queue in (25, 50, 100)]
    >>> hints_of(rows, ["queue"])
    ['goodput of flow 1 is identical for queue 25 to 100: something else is the limit']
    >>> rows = [{"queue": queue, **of, "mean": mean} for queue, mean in ((3, 0.8), (5, 0.3), (7, 0.9))]
    >>> hints_of(rows, ["queue"])[0][:60]
    'goodput of flow 1 jumps at queue 5 (0.8, 0.3, 0.9): determin'
    """
    lines = [line for name in settings for line in _lines_along(rows, settings, name)]
    found = [next(filter(None, map(kind, lines)), "") for kind in (_plateau_hint, _jump_hint)]
    return [one for one in found if one]


class Line:
    """The cells along one setting, with all others equal, by its values in order."""

    def __init__(self, name: str, rows: Sequence[Row]) -> None:
        self.name, self.rows = name, rows
        self.means = [row["mean"] for row in rows]

    def what(self) -> str:
        return f"{self.rows[0]['stat']} of {self.rows[0]['sender']}"


def _lines_along(rows: Sequence[Row], settings: Sequence[str], name: str) -> Iterator[Line]:
    others = [one for one in settings if one != name]
    groups: dict[tuple[str, ...], list[Row]] = {}
    for row in rows:
        if isinstance(row[name], (int, float)) and row["mean"] is not None:
            groups.setdefault((*(str(row[one]) for one in others), row["sender"], row["stat"]),
                              []).append(row)
    for found in groups.values():
        if len(found) >= _ALIKE:
            yield Line(name, sorted(found, key=lambda row: float(row[name])))


def _plateau_hint(line: Line) -> Optional[str]:
    for mean, alike in itertools.groupby(line.rows, lambda row: float(row["mean"])):
        same = list(alike)
        # A mean of 0 or 1 in many cells is not a limit that was reached.
        if len(same) >= _ALIKE and mean not in (0, 1):
            first, last = same[0][line.name], same[-1][line.name]
            return (f"{line.what()} is identical for {line.name} {first:g} to {last:g}: something "
                    "else is the limit")
    return None


def _jump_hint(line: Line) -> Optional[str]:
    for place, (before, here, after) in enumerate(zip(line.means, line.means[1:], line.means[2:]), 1):
        if min(before, here, after) <= 0:
            continue
        if here > _JUMP * max(before, after) or _JUMP * here < min(before, after):
            shown = ", ".join(f"{mean:.3g}" for mean in (before, here, after))
            return (f"{line.what()} jumps at {line.name} {line.rows[place][line.name]:g} ({shown}): "
                    "deterministic flows may lock (docs/explanation/phase_effects.md)")
    return None
