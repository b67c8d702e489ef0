"""Runs of the program: one scenario, parts of one, or a template with settings and seeds."""
from typing import TYPE_CHECKING, Any

if TYPE_CHECKING:
    from dnlab.sweeps.sweeping import Sweep, sweep

__all__ = ["Sweep", "sweep"]


def __getattr__(name: str) -> Any:
    """Imports a name on first use, because `dnlab.sweeps.runs` works without Jinja2."""
    if name not in __all__:
        raise AttributeError(f"module 'dnlab.sweeps' has no attribute {name!r}")
    from dnlab.sweeps import sweeping

    return getattr(sweeping, name)
