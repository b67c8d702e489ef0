"""The statistics that a sweep collects: those that the package has, and your own functions, which take a
run."""
import importlib.util
import math
import re
import sys
from fractions import Fraction
from pathlib import Path
from typing import TYPE_CHECKING, Any, Callable, Iterable, NamedTuple, Optional

from dnlab.analysis.metrics import refuse_share
from dnlab.errors import InputError
from dnlab.io.scenario_parts import DROP_CAUSES

if TYPE_CHECKING:
    from dnlab.analysis.view import View

_WORD = re.compile(r"(.+\.py):([A-Za-z_][A-Za-z0-9_]*)")


class CustomStat(str):
    """A statistic with the name of its function.

    `call(run)` or `call(run, of)` takes the `dnlab.Experiment` and the name of a row, and returns a number,
    or None if unknown; `unit` is `ns`, `bit/s` or any other.

    >>> CustomStat("late", lambda run: 0.5), CustomStat("late", lambda run: 0.5).unit
    ('late', '')
    """
    call: Callable[..., Any]
    unit: str

    def __new__(cls, name: str, call: Callable[..., Any], unit: str = "") -> "CustomStat":
        made = super().__new__(cls, name)
        made.call, made.unit = call, unit
        return made

    def __reduce__(self) -> tuple[Any, tuple[Any, ...]]:
        return _made_anew, (str(self), _spelled(self.call), self.unit)

    def of(self, view: "View", of: str) -> Optional[float]:
        """Returns the value for a row's name. Raises `InputError` if the function raises, or returns no
        number."""
        import inspect

        from dnlab.analysis.results import Experiment

        # A function of one argument applies to the whole run.
        takes = [one for one in inspect.signature(self.call).parameters.values() if one.default is one.empty
                 and one.kind in (one.POSITIONAL_ONLY, one.POSITIONAL_OR_KEYWORD)]
        try:
            found = self.call(*(Experiment(view), of)[:max(1, len(takes))])
        except Exception as fault:  # Any exception is reported with the experiment.
            raise InputError(
                f"the statistic {self}: experiment {view.name}, {of}: "
                f"{type(fault).__name__}: {fault}") from fault
        return number_of(found, f"the statistic {self}: experiment {view.name}, {of}")


def number_of(found: Any, told: str) -> Optional[float]:
    """Returns a number, or None if unknown. Raises `InputError` for anything else.

    >>> number_of(3, "x"), number_of(float("nan"), "x")
    (3.0, None)
    """
    import pandas as pd

    try:
        if found is None or found is pd.NA or math.isnan(found):
            return None
        return float(found)
    except (TypeError, ValueError):
        raise InputError(f"{told}: {found!r} is not a number") from None


def own_of(call: Callable[..., Any]) -> CustomStat:
    """Returns a function as a statistic, with its name, and its attribute `unit` if it has one."""
    name = getattr(call, "__name__", type(call).__name__)
    if not re.fullmatch("[A-Za-z_][A-Za-z0-9_]*", name):
        raise InputError(f"stat: {name} can't be the name of a column: use a function that `def` defines")
    return CustomStat(name, call, getattr(call, "unit", ""))


def own_in(word: str) -> Optional[CustomStat]:
    """Returns the statistic of FILE.py:FUNCTION, or None for a word of another form. Raises `ValueError` if
    there is none."""
    found = _WORD.fullmatch(word)
    if found is None:
        return None
    path = Path(found[1]).resolve()
    spec = importlib.util.spec_from_file_location(path.stem, path)
    assert spec is not None and spec.loader is not None
    module = importlib.util.module_from_spec(spec)
    try:
        spec.loader.exec_module(module)
        call = getattr(module, found[2])
    except Exception as fault:  # The file is the user's own program.
        raise ValueError(f"{word}: {type(fault).__name__}: {fault}") from None
    if not callable(call):
        raise ValueError(f"{word}: {found[2]} is not a function")
    return own_of(call)


def _spelled(call: Callable[..., Any]) -> bytes:
    """Returns a function serialised by value, because another process may not find it by name."""
    try:
        import cloudpickle
    except ModuleNotFoundError:
        raise InputError(
            "your own statistics need cloudpickle (Debian: apt-get install python3-cloudpickle)") from None
    module = sys.modules.get(getattr(call, "__module__", ""))
    is_ours = module is None or module.__name__.startswith("dnlab.")
    if module is not None and not is_ours and module.__name__ != "__main__":
        cloudpickle.register_pickle_by_value(module)
        try:
            return bytes(cloudpickle.dumps(call))
        finally:
            cloudpickle.unregister_pickle_by_value(module)
    return bytes(cloudpickle.dumps(call))


def _made_anew(name: str, call: bytes, unit: str) -> CustomStat:
    import pickle

    return CustomStat(name, pickle.loads(call), unit)


USUAL = ("goodput", "delay.p50", "delay.p95", "lost")
_UNITS = {"packets": "packets", "delivered": "packets", "in_flight": "packets", "retransmissions": "packets",
          "lost": "packets", "bytes": "bytes", "useful": "bytes", "rate": "bit/s", "goodput": "bit/s",
          "time": "ns", "first": "ns", "last": "ns", "fct": "ns", "jain": "", "utilisation": "",
          "jitter": "ns", **{f"drops.{cause}": "packets" for cause in DROP_CAUSES}}
_DELAYS = ("min", "mean", "p50", "max")
_KNOWN = (*_UNITS, *(f"delay.{name}" for name in _DELAYS))
# As in the help.
STATS = (*_KNOWN, "delay.pN")


class StatRequest(NamedTuple):
    """A sender (a row's name, or a pattern such as `train *`) and its statistics."""
    of: str
    stats: tuple[str, ...]


def percentile_of(stat: str) -> Optional[str]:
    """Returns the percentile that a statistic names, or None.

    >>> percentile_of("delay.p99.9"), percentile_of("delay.mean")
    ('99.9', None)
    """
    found = re.fullmatch(r"delay\.p([0-9]{1,3}(?:\.[0-9]{1,6})?)", stat)
    return found[1] if found and 0 < Fraction(found[1]) <= 100 else None


def stats_of(text: str) -> tuple[str, ...]:
    """Returns the statistics of `--stat`. Raises `ValueError` for an unknown one, with the names that
    exist."""
    found = tuple(own_in(word.strip()) or word.strip() for word in text.split(","))
    for word in found:
        if not isinstance(word, CustomStat):
            _known(word)
    return found


def _known(word: str) -> None:
    found = re.fullmatch(r"delay\.p(0(?:\.[0-9]{1,6})?)", word)
    if found:
        refuse_share(found[1])
    if word not in _KNOWN and percentile_of(word) is None:
        raise ValueError(
            f"there is no statistic {word!r}; use one of {', '.join(STATS)} (N from 1 to 100, as delay.p95), "
            "or your own function, FILE.py:NAME")


def stats_given(stats: Any) -> tuple[str, ...]:
    """Returns the statistics of a call in Python: names separated by commas, your own functions, or a list of
    both."""
    several = stats if isinstance(stats, (list, tuple)) else [stats]
    found: list[str] = []
    for one in several:
        found += [own_of(one)] if callable(one) else stats_of(one)
    return tuple(found)


def unit_of(stat: str) -> str:
    """Returns the unit of a statistic.

    >>> unit_of("delay.p95"), unit_of("goodput")
    ('ns', 'bit/s')
    """
    return stat.unit if isinstance(stat, CustomStat) else _UNITS.get(stat, "ns")


def merged(asks: Iterable[StatRequest]) -> list[StatRequest]:
    """Returns each `of` once, with all its statistics, each once."""
    found: dict[str, dict[str, None]] = {}
    for ask in asks:
        found.setdefault(ask.of, {}).update(dict.fromkeys(ask.stats))
    return [StatRequest(of, tuple(stats)) for of, stats in found.items()]
