"""Finds the modules of the crate emu_laws that state theorems proved by computation. The other modules have
lemmas of its laws."""
import pathlib
import re

PROOFS = pathlib.Path(__file__).resolve().parents[2] / "crates/emu_laws/proofs"
# Modules that are written by hand.
BY_HAND = re.compile(r"Bounds|AdaptiveSamples|TraceWords|\w+Steps")
# The line with which a module imports names from Words, which re-exports those of the definitions.
BY_WORDS = re.compile(r"^use Rattle\.emu_laws\.proofs\.Words\.\{(.*)\}$", re.M)
# The modules without theorems that these modules import.
BENEATH = ("Makings", "Words")


def texts() -> dict[str, str]:
    """Returns the text of each module by its name."""
    found = {path.stem: path.read_text() for path in sorted(PROOFS.glob("*.antt"))}
    return {name: text for name, text in found.items() if BY_HAND.fullmatch(name) or BY_WORDS.search(text)}
