"""The package's layers: the imports that are allowed, and the length of modules."""
import ast
from pathlib import Path
from typing import Iterator

import pytest

from conftest import ROOT

PACKAGE = ROOT / "python" / "dnlab"
# The layers that a layer may import, in addition to itself and the modules of the package's own folder
# (docs/explanation/architecture.md).
BELOW = {"processes": "", "io": "processes", "analysis": "processes io", "plot": "processes io analysis",
         "sweeps": "processes io analysis plot", "session": "processes io", "senders": "session analysis",
         "emulation": "processes io analysis", "cli": "processes io analysis plot sweeps session emulation"}
# An experiment has a method for its figure, like a frame of pandas.
ASIDE = {("analysis/results.py", "plot")}
FILES = sorted(PACKAGE.rglob("*.py"))


def layer_of(name: str) -> str:
    """Returns the layer of a module by its name, or '' for the modules of the package's own folder."""
    parts = name.split(".")
    return parts[1] if len(parts) > 1 and parts[1] in BELOW else ""


def imported(file: Path) -> Iterator[str]:
    """Returns the modules of the package that a file imports, anywhere in the file."""
    for node in ast.walk(ast.parse(file.read_text(encoding="utf-8"))):
        if isinstance(node, ast.Import):
            yield from (alias.name for alias in node.names if alias.name.startswith("dnlab"))
        elif isinstance(node, ast.ImportFrom) and (node.module or "").startswith("dnlab"):
            yield from (f"{node.module}.{alias.name}" for alias in node.names)


def test_all_layers_are_known() -> None:
    assert {folder.name for folder in PACKAGE.iterdir() if (folder / "__init__.py").is_file()} == set(BELOW)


@pytest.mark.parametrize("file", FILES, ids=lambda file: str(file.relative_to(PACKAGE)))
def test_a_module_keeps_to_its_layer(file: Path) -> None:
    place = file.relative_to(PACKAGE)
    own = place.parts[0] if len(place.parts) > 1 else ""
    if own:
        found = {layer_of(name) for name in imported(file)} - {"", own, *BELOW[own].split()}
        assert not {layer for layer in found if (str(place), layer) not in ASIDE}
    assert len(file.read_text(encoding="utf-8").splitlines()) <= 350


def test_what_stands_below_needs_no_session() -> None:
    """Imports through the modules of the package's own folder count too, because these modules belong to no
    layer."""
    for name in "errors", "programs", "rng":
        assert {layer_of(one) for one in imported(PACKAGE / f"{name}.py")} <= {""}, name
