"""`python3 -m dnlab COMMAND ..`: the commands of the package."""
import importlib
import os
import re
import sys
from contextlib import nullcontext, suppress
from pathlib import Path
from typing import Callable, Optional, Sequence

if not __package__:
    # Called by file name: the package is in the parent folder.
    sys.path[0] = os.path.dirname(os.path.dirname(os.path.realpath(__file__)))

from dnlab import __version__  # noqa: E402  (the path is set first)
from dnlab.errors import MACHINE, InputError, ProgramError, cause_of, status_of  # noqa: E402
from dnlab.programs import called, say  # noqa: E402

# The commands, with the modules that each needs.
NEEDS = {"summary": ("numpy",), "plot": ("numpy", "matplotlib"), "spread": ("numpy",),
         "sweep": ("numpy", "pandas", "scipy", "jinja2"), "compare": ("numpy",), "expect": ("numpy",),
         "view": ("numpy", "plotly"), "pcap": ("numpy", "dpkt"), "from-ipfw": (), "to-ipfw": (), "to-tc": (),
         "replay": ("dpkt",), "rate-trace": (), "hosts": ("yaml",)}
COMMANDS = tuple(NEEDS)
# pip's names of packages that differ from the module's name.
PIP = {"yaml": "pyyaml"}


def missing(modules: Sequence[str]) -> Optional[str]:
    """Returns the first of the modules that is missing, or None."""
    for module in modules:
        try:
            importlib.import_module(module)
        except ModuleNotFoundError as fault:
            return fault.name or module
    return None


def said_of(command: str, module: str) -> str:
    """Returns the message for a missing module: which Python lacks it, and how to install it."""
    said = (f"{called(command)}: {module} is missing in {sys.executable} (pip install "
            f"{PIP.get(module, module)}; Debian, for /usr/bin/python3: apt-get install python3-{module}")
    if os.path.dirname(sys.executable) == "/usr/bin":
        return f"{said})"
    # Imported here, because --help and --version don't need it.
    from dnlab.cli.arguments import as_installed

    return f"{said}, then {as_installed(f'PATH=/usr/bin:$PATH tools/{command}')} ..)"


def function_of(command: str) -> Callable[[Sequence[str]], int]:
    """Returns the function that runs a command: `main` of its module, or its own function in a shared one."""
    name = command.replace("-", "_")
    module = {"from_ipfw": "ipfw", "to_ipfw": "ipfw", "to_tc": "ipfw", "pcap": "captures",
              "replay": "captures",
              "view": "plot"}.get(name)
    commands = importlib.import_module(f"dnlab.cli.{module or name}")
    found: Callable[[Sequence[str]], int] = getattr(commands, name if module else "main")
    return found


def main(words: Optional[Sequence[str]] = None) -> int:
    """Runs a command and returns its exit status. The first of `words` is the command's name."""
    from dnlab.cli.arguments import guarded

    with guarded():
        try:
            status = begun(sys.argv[1:] if words is None else words)
            with suppress(OSError) if status == MACHINE else nullcontext():
                sys.stdout.flush()
            if status == MACHINE:
                # The command has reported what is missing, so Python's own flush must not.
                write_no_more()
            return status
        except BrokenPipeError:
            # The reader of standard output has gone.
            said = ""
        except OSError as fault:
            said = cause_of(fault)
        except MemoryError:
            said = "out of memory"
        write_no_more()
        if said:
            say((words or ["dnlab"])[0], said)
        return MACHINE


def begun(words: Sequence[str]) -> int:
    """Runs a command and reports what it raises, except errors of the output; returns its exit status."""
    is_help = list(words[:1]) in (["--help"], ["-h"])
    if is_help or not words or words[0] not in COMMANDS:
        text = Path(__file__).with_name("cli") / "help" / "dnlab.txt"
        print(text.read_text(), end="", file=sys.stdout if is_help else sys.stderr)
        return 0 if is_help else 2
    if list(words[1:]) == ["--version"]:
        print(f"dnlab-{words[0]} {__version__}")
        return 0
    from dnlab.processes import memory, subprocesses

    subprocesses.handle_signals(words[0])
    memory.keep_freed()
    # --help and --_complete need none of these modules, and exit by themselves.
    lacking = (missing(NEEDS[words[0]]) if not words[1:]
               or not re.match("-h$|--help$|--_complete=", words[1]) else None)
    if lacking is not None:
        print(said_of(words[0], lacking), file=sys.stderr)
        return MACHINE
    try:
        return function_of(words[0])(words[1:])
    except InputError as fault:
        say(words[0], fault)
        return status_of(fault)
    except ProgramError as failed:
        say(words[0], failed.said)
        return failed.status or MACHINE


def write_no_more() -> None:
    """Discards all further output to standard output, also that of Python's own flush."""
    os.dup2(os.open(os.devnull, os.O_WRONLY), sys.stdout.fileno())


def start() -> int:
    """Runs the command that an installed script, such as dnlab-plot, is named after. A link to the script may
    have any name."""
    script = sys.argv[0]
    while os.path.islink(script) and _command_of(script) not in COMMANDS:
        script = os.path.join(os.path.dirname(script), os.readlink(script))
    return main([_command_of(script), *sys.argv[1:]])


def _command_of(script: str) -> str:
    return os.path.basename(script).removeprefix("dnlab-")


if __name__ == "__main__":
    sys.exit(main())
