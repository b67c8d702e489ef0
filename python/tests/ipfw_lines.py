"""Lines of ipfw as tools/from-ipfw imports them."""
from dnlab.io.ipfw_import import Import, Translation
from dnlab.io.ipfw_words import Line


def imported(*lines: str, **more: object) -> list[Translation]:
    """Imports lines of ipfw."""
    one = Import(**{"behind": {"em1": "10.0.1.0/24"}, **more})  # type: ignore[arg-type]
    one.take_all([Line((("sysctl",) if line.startswith("net.") else ("ipfw",)) + tuple(line.split()))
                  for line in lines])
    return one.became


def became(line: str, *before: str, **more: object) -> tuple[str, tuple[str, ...]]:
    last = imported(*before, line, **more)[-1]
    return last.kind, last.commands
