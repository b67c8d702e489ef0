"""Code that the command lines of the tools share."""
import argparse
import os
import shutil

import program as programs


def parser_of(about: str | None, usage: str | None = None) -> argparse.ArgumentParser:
    """Returns a parser whose help is a tool's module docstring."""
    return argparse.ArgumentParser(description=about, formatter_class=argparse.RawDescriptionHelpFormatter,
                                   usage=usage)


def program_of(parser: argparse.ArgumentParser, named: str | os.PathLike[str] | None = None) -> str:
    """Returns the absolute path of the named program, of $DNLAB, or of the one that ./dnlab starts. Exits if
    there is none."""
    return path_of(parser, programs.program(named))


def path_of(parser: argparse.ArgumentParser, named: str, hint: str = "") -> str:
    """Returns the absolute path of a program. Exits with 2 if there is none of this name."""
    found = shutil.which(named)
    if found is None:
        parser.error(f"{named} is no program{hint}")
    return os.path.abspath(found)
