"""Reads, runs and analyses reports of dnlab from Python.

    import dnlab
    r = dnlab.run(text, workers=4)            # or dnlab.read("report.txt", "scenario.txt")
    p = r["q50-s1"].packets()                 # made, delivered, delay, bytes, sender, queue, outcome
    p[p.sender == "train 9"].delay.quantile(.95)
    r["q50-s1"].windows(), .queues(), .drops(), .commands(), .counters, .ended
    # a row for each sender, pipe and experiment, with seed and settings
    r.summary(percentiles=(50, 95, 99))
    # a template's means, with their intervals
    dnlab.sweep("link.tmpl", queue=[10, 50], seed=range(30)).table()
    # your own program on a link (dnlab.session.sessions, dnlab.sim, dnlab.senders)
    with dnlab.live() as session:
        link = session.experiment("mine", seed=1)

Times are whole nanoseconds (int64), sizes are bytes, rates are bits per second; nothing is rounded on the
way. `read` and `run` need numpy and pandas, `sweep` also scipy and jinja2, pictures matplotlib (Debian:
apt-get install python3-numpy python3-pandas python3-scipy python3-jinja2 python3-matplotlib). `live`,
`dnlab.io.scenario` and `dnlab.io.scenario_text` need only Python.
"""
import importlib.util
from typing import TYPE_CHECKING, Any

from dnlab.errors import InputError, ParseError, ProgramError

if TYPE_CHECKING:
    from dnlab.analysis.quantities import interval, jain
    from dnlab.analysis.reports import Report, read
    from dnlab.analysis.results import Experiment, intervals
    from dnlab.sweeps.runs import run
    from dnlab.session.transport import (CommandRefusedError, Event, ExperimentEndedError, LineRejectedError,
                                         Packet)
    from dnlab.session.sessions import Link, Session, live
    from dnlab.sweeps.sweeping import Sweep, sweep

__version__ = "0.2.0"
__all__ = ["CommandRefusedError", "Event", "Experiment", "ExperimentEndedError", "InputError",
           "LineRejectedError", "Link", "Packet", "ParseError", "ProgramError", "Report", "Session", "Sweep",
           "interval", "intervals", "jain", "live", "read", "run", "sweep"]
_PLACES = {"Experiment": "analysis.results", "Report": "analysis.reports", "intervals": "analysis.results",
           "read": "analysis.reports", "run": "sweeps.runs", "interval": "analysis.quantities",
           "jain": "analysis.quantities", "Sweep": "sweeps.sweeping", "sweep": "sweeps.sweeping",
           "CommandRefusedError": "session.transport", "Event": "session.transport",
           "LineRejectedError": "session.transport", "ExperimentEndedError": "session.transport",
           "Packet": "session.transport", "Link": "session.sessions", "Session": "session.sessions",
           "live": "session.sessions"}
_MODULES = ("hosts", "sim")
_NEEDS: dict[str, tuple[str, ...]] = {"analysis.results": ("numpy", "pandas"),
                                      "analysis.reports": ("numpy", "pandas"),
                                      "sweeps.runs": ("numpy", "pandas"),
                                      "sweeps.sweeping": ("numpy", "pandas", "scipy", "jinja2")}


def __getattr__(name: str) -> Any:
    """Imports a name on first use, so that parts that don't need numpy work without it."""
    if name in _MODULES:
        return importlib.import_module(f"dnlab.{name}")
    if name not in _PLACES:
        raise AttributeError(f"module 'dnlab' has no attribute {name!r}")
    place = _PLACES[name]
    for needed in _NEEDS.get(place, ()):
        if importlib.util.find_spec(needed) is None:
            raise ModuleNotFoundError(f"{needed} is missing (Debian: apt-get install python3-{needed})",
                                      name=needed)
    return getattr(importlib.import_module(f"dnlab.{place}"), name)
