"""The tables and the picture of a sweep."""
import math
import re
from functools import cached_property
from typing import Any, Optional, Sequence

import pandas as pd

from dnlab.analysis import results
from dnlab.analysis.metrics import is_named
from dnlab.analysis.quantities import Interval, Kind, interval as interval_of, student
from dnlab.analysis.statistics import StatRequest, unit_of
from dnlab.errors import InputError
from dnlab.sweeps.grid import Case, as_written
from dnlab.sweeps.measuring import StatResults

# A search, which first doubles the number of seeds, ends when that exceeds this.
_MOST = 10**6
# Decimals in tables: further digits of a float differ between versions of scipy.
_DIGITS = 6


def columns_of(made: Interval) -> dict[str, Optional[float]]:
    """Returns a mean with its interval, as columns of tables.

    >>> columns_of(interval_of([1.0, 2.0, 3.0]))
    {'n': 3, 'mean': 2.0, 'low': -0.484138, 'high': 4.484138}
    """
    ends = {name: value if value is None else round(value, _DIGITS)
            for name, value in (("mean", made.mean), ("low", made.low), ("high", made.high))}
    return {"n": made.count, **ends}


def base_value(along: str, values: Sequence[Any], base: Any) -> Any:
    """Returns the value to compare the others with: the first if none is given. Raises `InputError` if there
    is nothing to compare.

    >>> base_value("queue", [10, 25], None)
    10
    """
    told = ", ".join(map(str, values))
    if base is not None and base not in values:
        raise InputError(f"--pairs {along}={base}: no such value; the values are {told}")
    if len(values) < 2:
        raise InputError(f"--pairs {along}: it has only one value, {told}, so there is nothing to compare")
    return values[0] if base is None else base


def compared(rows: pd.DataFrame, settings: Sequence[str], stats: Sequence[str], along: str, base: Any = None,
             level: float = 95, interval: Kind = "t") -> pd.DataFrame:
    """Compares each value of a setting with `base` (by default the first), with the other settings equal,
    seed by seed.

    Returns a row for each other value, sender and statistic: how many seeds have both (`n`), the mean of the
    differences (value minus base), the ends of its interval, and whether the interval excludes 0 (`differs`;
    <NA> for fewer than two seeds). Both have the same random numbers, so the interval is usually narrower
    than those of the two means. Raises `InputError` for a setting that does not exist or has only one
    value."""
    if along not in settings:
        raise InputError(
            f"--pairs {along}: no such setting; the settings are {', '.join(settings) or 'none'}")
    values = list(dict.fromkeys(rows[along]))
    base = base_value(along, values, base)
    others = [name for name in settings if name != along]
    found = []
    for keys, group in rows.groupby([*others, "sender"] if others else "sender", sort=False, dropna=False):
        own = dict(zip([*others, "sender"], keys if isinstance(keys, tuple) else (keys,)))
        by_value = {value: part.set_index("seed") for value, part in group.groupby(along, sort=False)}
        for stat in stats:
            for value in values:
                if value == base or value not in by_value or base not in by_value:
                    continue
                both = (by_value[value][stat].astype("Float64")
                        - by_value[base][stat].astype("Float64")).dropna()
                marks = " ".join(dict.fromkeys(" ".join([*by_value[base].warnings,
                                                         *by_value[value].warnings]).split()))
                made = interval_of([float(one) for one in both], level, interval)
                differs = None if made.low is None or made.high is None else not made.low <= 0 <= made.high
                found.append({**own, "stat": str(stat), "unit": unit_of(stat), along: value, "base": base,
                              **columns_of(made), "differs": differs, "level": level, "method": interval,
                              "warnings": marks})
    return results.of_rows(found, [*others, "sender", "stat", "unit", along, "base", "n", "mean", "low",
                                   "high", "differs", "level",
                                  "method", "warnings"])


def seeds_needed(values: Sequence[float], share: float, level: float = 95) -> Optional[int]:
    """Returns the minimum number of seeds for which the interval (Student's t) is within `share` of the mean,
    if further seeds vary like these. None for fewer than two values, if different values have a mean of 0,
    and above 524,288 seeds.

    >>> seeds_needed([90.0, 110.0], 0.5), seeds_needed([7.0, 7.0], 0.01)
    (3, 2)
    """
    if len(values) < 2:
        return None
    mean = math.fsum(values) / len(values)
    spread = math.sqrt(math.fsum((value - mean) ** 2 for value in values) / (len(values) - 1))
    if not spread:
        return 2
    if not mean:
        return None
    wanted = abs(mean) * share

    def is_enough(count: int) -> bool:
        return student(level, count - 1) * spread / math.sqrt(count) <= wanted

    low, high = 2, 4
    while not is_enough(high):
        low, high = high, 2 * high
        if high > _MOST:
            return None
    while low < high:
        middle = (low + high) // 2
        low, high = (low, middle) if is_enough(middle) else (middle + 1, high)
    return low


class SweepResults:
    """The tables of a sweep, which runs when the first one is requested."""
    cases: list[Case]
    asks: Sequence[StatRequest]
    settings: list[str]
    found: dict[str, StatResults]

    @cached_property
    def unseeded(self) -> frozenset[str]:
        """Returns the experiments whose seeds change nothing: several with one setting count as one."""
        return frozenset()

    def run(self) -> None:
        """Runs all experiments."""
        raise NotImplementedError

    def rows(self) -> pd.DataFrame:
        """Returns a row for each experiment and sender: its settings, seed, experiment, sender, a column for
        each statistic (times in ns, rates in bit/s, sizes in bytes; <NA> if unknown or not requested),
        warnings."""
        self.run()
        stats = self.stats()
        is_text = {name: not all(isinstance(case.settings[name], (int, float)) for case in self.cases)
                   for name in self.settings}
        rows = []
        for case in self.cases:
            settings = {name: str(as_written(value)) if is_text[name] else float(value)
                        if isinstance(value, float) else value
                        for name, value in case.settings.items()}
            found = self.found[case.name]
            own: dict[str, dict[str, Any]] = {}
            for ask in self.asks:
                # A sender without packets in this experiment has a row without values, so that no setting is
                # left out.
                nobody = {} if re.search(r"[*?[]", ask.of) else {ask.of: None}
                for stat in ask.stats:
                    for of, value in {**nobody, **found.values[ask.of][stat]}.items():
                        own.setdefault(of, {})[stat] = value
            marks = " ".join(dict.fromkeys(note.mark for note in found.notes))
            rows += [{**settings, "seed": case.seed, "experiment": case.name, "sender": of, **values,
                      "warnings": marks}
                     for of, values in own.items()]
        return results.of_rows(rows, [*self.settings, "seed", "experiment", "sender", *stats, "warnings"])

    def stats(self) -> list[str]:
        """Returns all requested statistics, each once."""
        return list(dict.fromkeys(stat for ask in self.asks for stat in ask.stats))

    def long(self) -> pd.DataFrame:
        """Returns `rows` in long form: a row for each experiment, sender and statistic, with its `unit` and
        `value`."""
        names, rows = (*self.settings, "seed", "experiment", "sender"), self.rows()
        found = [{**{name: row[name] for name in names}, "stat": str(stat), "unit": unit_of(stat),
                  "value": None if pd.isna(row[stat]) else float(row[stat]), "warnings": row["warnings"]}
                 for row in rows.to_dict("records") for stat in self.stats()]
        return results.of_rows(found, [*names, "stat", "unit", "value", "warnings"])

    def compare(self, along: str, base: Any = None, level: float = 95, interval: Kind = "t") -> pd.DataFrame:
        """Compares the values of a setting with one of them, seed by seed (see `compared`)."""
        rows = self.rows()
        return compared(rows, self.settings, self.stats(), along, base, level, interval)

    def table(self, level: float = 95, interval: Kind = "t", within: Optional[float] = None) -> pd.DataFrame:
        """Returns a row for each setting, sender and statistic.

        Over the seeds it has n (how many have a value), mean, low and high (the ends of its confidence
        interval, Student's t or the bootstrap), min and max, in `unit`; the interval's level and method; and
        the warnings of its experiments. With `within`, a share of the mean such as 0.05, `needed` is the
        number of seeds for an interval of at most that share to both sides (see `seeds_needed`)."""
        rows = self.rows()
        found: list[dict[str, Any]] = []
        by = [*self.settings, "sender"]
        for keys, group in rows.groupby(by if len(by) > 1 else by[0], sort=False, dropna=False):
            own = dict(zip(by, keys if isinstance(keys, tuple) else (keys,)))
            marks = " ".join(dict.fromkeys(word for words in group.warnings for word in words.split()))
            for stat in dict.fromkeys(stat for ask in self.asks if is_named(own["sender"], ask.of)
                                      for stat in ask.stats):
                values = [float(value) for value in group[stat].dropna()]
                values = values[:1] if set(group.experiment) <= self.unseeded else values
                made = interval_of(values, level, interval)
                found.append({**own, "stat": stat, "unit": unit_of(stat), **columns_of(made),
                              "min": min(values, default=None), "max": max(values, default=None),
                              "level": level, "method": interval, "warnings": marks,
                              "needed": None if within is None else seeds_needed(values, within, level)})
        return results.of_rows(found,
                               [*self.settings, "sender", "stat", "unit", "n", "mean", "low", "high", "min",
                                      "max", "level", "method", "warnings",
                                *(["needed"] if within is not None else [])])

    def setting_labels(self) -> dict[str, str]:
        """Returns labels of the settings with their units, as far as known."""
        return {}

    def plot(self, level: float = 95, interval: Kind = "t", **look: Any) -> Any:
        """Returns a matplotlib figure: a panel for each sender and statistic, over the first setting that has
        several values. `along`, `rows`, `columns`, `log`, `kind` and `labels`, and the design of the picture,
        are those of `dnlab.plot.style.Look`."""
        from dnlab.plot import curves, style

        look["labels"] = {**self.setting_labels(), **look.get("labels", {})}
        found = style.Look(**look)
        each = self.long() if found.kind in ("ecdf", "box") else None
        return curves.figure_of(self.table(level, interval), self.settings, found, each)
