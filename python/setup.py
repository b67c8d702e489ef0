"""Builds the wheel: one that carries the program is for one platform and any Python 3. pyproject.toml has all
else."""
import os
import shutil
from pathlib import Path

from setuptools import Distribution, setup
from wheel.bdist_wheel import bdist_wheel

# tools/release puts the program there. A wheel without it is pure Python.
CARRIED = Path(__file__).resolve().parent / "dnlab" / "bin" / "dnlab"
# The oldest C library that the program runs with, as auditwheel names it. tools/release compares it with the
# program.
PLATFORM = "manylinux_2_34_x86_64"


MISSING = """
error: these sources have no program `dnlab`, and there is none on the PATH. Nothing was installed.
Do one of these:
    pip install dnlab-*-manylinux_2_34_x86_64.whl    the wheel of a release has the program
    apt-get install ./dnlab_*.deb                    so has Debian's package, with all tools
    DNLAB=/path/to/dnlab pip install ..              you have the program elsewhere; name it by DNLAB
                                                     at each call too
"""


def has_program() -> bool:
    """Returns true if a program is carried, or if one is there that an installed package finds."""
    if CARRIED.is_file():
        return True
    found = shutil.which(os.environ.get("DNLAB") or "dnlab")
    # The script that pip makes for this package is no program.
    return found is not None and b"dnlab.cli.program" not in Path(found).read_bytes()[:4096]


class Carrying(Distribution):  # type: ignore[misc]  # setuptools has no types here
    """A package that may carry a program: then it is for one platform, as if it had extension modules."""

    def has_ext_modules(self) -> bool:
        return CARRIED.is_file()


class Wheel(bdist_wheel):  # type: ignore[misc]  # wheel has no types here
    """A wheel that may carry a program, and no extension module."""

    def run(self) -> None:
        if not has_program():
            raise SystemExit(MISSING)
        super().run()

    def get_tag(self) -> tuple[str, str, str]:
        return ("py3", "none", PLATFORM) if CARRIED.is_file() else ("py3", "none", "any")


setup(cmdclass={"bdist_wheel": Wheel}, distclass=Carrying)
