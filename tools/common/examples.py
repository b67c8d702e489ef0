"""Finds the worked examples: folders of examples/, each in the folder of its topic."""
import pathlib
from collections.abc import Iterator
from typing import NamedTuple

FOLDER = pathlib.Path(__file__).resolve().parents[2] / "examples"


def scenarios() -> list[pathlib.Path]:
    """Returns the paths of all scenarios."""
    return sorted(FOLDER.glob("*/*/scenario.txt"))


class Example(NamedTuple):
    """A scenario, whether it is only checked, and what is expected on standard output and standard error."""
    name: str
    text: bytes
    is_check: bool
    report: bytes
    error: str


def worked() -> Iterator[Example]:
    """Yields all worked examples."""
    for scenario in scenarios():
        args, report, error = (path.read_bytes() if path.exists() else b"" for path in
                               map(scenario.with_name, ("args.txt", "expected.txt", "stderr.txt")))
        yield Example(scenario.parent.name, scenario.read_bytes(), args.startswith(b"check"), report,
                      error.decode())


def named(name: str) -> pathlib.Path:
    """Returns the folder of this name, in any topic. Raises ValueError unless there is exactly one."""
    found = [path.parent for path in FOLDER.glob(f"*/{name}/scenario.txt")]
    if len(found) != 1:
        raise ValueError(f"examples/ has {len(found)} folders of the name {name}")
    return found[0]
