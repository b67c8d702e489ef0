"""The choice of the program, and the commands' help and versions."""
import os
import re
import shutil
import signal
import stat
import subprocess
import sys
import tomllib
from importlib.util import find_spec
from pathlib import Path

import pytest

import dnlab
from conftest import ROOT
from dnlab import programs
from dnlab.__main__ import COMMANDS, NEEDS, said_of
from dnlab.cli.arguments import renamed

# A package without its repository, as pip installs it.
ALONE = "import sys; sys.path.insert(0, {place!r}); from dnlab.{module} import {name}; print({name}())"


def script(place: Path, text: str) -> Path:
    place.parent.mkdir(parents=True, exist_ok=True)
    place.write_text(f"#!/bin/sh\n{text}\n")
    place.chmod(place.stat().st_mode | stat.S_IXUSR)
    return place


def copied(to: Path) -> Path:
    """Returns a folder that contains only the package."""
    shutil.copytree(ROOT / "python" / "dnlab", to / "dnlab", ignore=shutil.ignore_patterns("__pycache__"))
    return to


def asked(place: Path, module: str, name: str, *words: str,
          **names: str) -> "subprocess.CompletedProcess[str]":
    code = ALONE.format(place=str(place), module=module, name=name)
    environment = {**{one: word for one, word in os.environ.items() if one != "DNLAB"}, **names}
    return subprocess.run([sys.executable, "-B", "-c", code, *words], capture_output=True, text=True,
                          env=environment, check=False)


@pytest.mark.parametrize("name", COMMANDS)
def test_help_needs_no_package(name: str) -> None:
    """With -S Python has none of Debian's packages. Everything else that a tool does reports the missing
    package."""
    bare = [sys.executable, "-S", ROOT / "tools" / name]
    help_there, help_bare, version, other = (
        subprocess.run(words, capture_output=True, text=True, check=False)
        for words in ([sys.executable, *bare[2:], "--help"], [*bare, "--help"], [*bare, "--version"],
                      [*bare, "none.txt"]))
    assert help_there.returncode == 0 and help_there.stdout.startswith(f"usage: tools/{name} ")
    assert (help_bare.returncode, help_bare.stdout, help_bare.stderr) == (0, help_there.stdout, "")
    assert (version.returncode, version.stdout) == (0, f"dnlab-{name} {dnlab.__version__}\n")
    if NEEDS[name]:
        needed = NEEDS[name][0]
        assert (other.returncode, other.stdout, other.stderr.count("\n")) == (3, "", 1)
        assert other.stderr.startswith(f"{name}: {needed} is missing in {sys.executable} (pip install ")


def test_a_named_program_comes_first(tmp_path: Path, monkeypatch: pytest.MonkeyPatch) -> None:
    named, other = script(tmp_path / "a", "exit 0"), script(tmp_path / "b", "exit 0")
    monkeypatch.setenv("DNLAB", str(other))
    assert programs.program(str(named)) == str(named)
    assert programs.program() == str(other)
    monkeypatch.setenv("DNLAB", str(tmp_path / "none"))
    with pytest.raises(dnlab.ProgramError, match="none is no program") as failed:
        programs.program()
    assert failed.value.status == 2


def test_the_repository_asks_its_script(tmp_path: Path, monkeypatch: pytest.MonkeyPatch) -> None:
    monkeypatch.delenv("DNLAB", raising=False)
    monkeypatch.setattr(programs, "SCRIPT",
                        script(tmp_path / "dnlab", 'echo "$* ${DNLAB-unset}" >&2; echo /some/program'))
    monkeypatch.setattr(programs, "ROOT", tmp_path)
    (tmp_path / "crates").mkdir()
    assert programs.program() == "/some/program"
    monkeypatch.setenv("DNLAB", str(tmp_path / "dnlab"))
    assert programs.program() == "/some/program"
    script(tmp_path / "dnlab", "exit 3")
    with pytest.raises(dnlab.ProgramError, match="could not build one") as failed:
        programs.program()
    assert failed.value.status == 3


def test_an_installed_package_has_its_own(tmp_path: Path) -> None:
    place = copied(tmp_path / "lib")
    lacking = asked(place, "programs", "program", PATH="/nowhere")
    assert lacking.returncode == 1 and "there is no program dnlab" in lacking.stderr
    on_path = script(tmp_path / "path" / "dnlab", "echo path")
    assert asked(place, "programs", "program",
                 PATH=f"{on_path.parent}:{os.environ['PATH']}").stdout == f"{on_path}\n"
    carried = script(place / "dnlab" / "bin" / "dnlab", 'echo "carried $0: $*"; cat; exit 4')
    assert asked(place, "programs", "program", PATH=str(on_path.parent)).stdout == f"{carried}\n"
    started = asked(place, "cli.program", "start", "run", "--x")
    assert (started.stdout, started.returncode) == (f"carried {carried}: run --x\n", 4)


def test_a_package_by_tools_install_has_the_program_of_its_prefix(tmp_path: Path) -> None:
    place = copied(tmp_path / "prefix" / "share" / "dnlab" / "python")
    beside = script(tmp_path / "prefix" / "libexec" / "dnlab" / "dnlab", "echo beside")
    on_path = script(tmp_path / "path" / "dnlab", "echo path")
    assert asked(place, "programs", "program",
                 PATH=f"{on_path.parent}:{os.environ['PATH']}").stdout == f"{beside}\n"


def copied_version(path: Path, pattern: str) -> str:
    found = re.search(pattern, path.read_text(encoding="utf-8"))
    assert found, path
    return found[1]


def test_all_say_the_same_version() -> None:
    number = dnlab.__version__
    assert tomllib.loads((ROOT / "python" / "pyproject.toml").read_text(encoding="utf-8"))["project"][
        "version"] == number
    assert copied_version(ROOT / "crates" / "dnlab" / "src" / "version.rt",
                          r'VERSION: &str = "(\S+) \(commit ') == number
    assert copied_version(ROOT / "CHANGELOG.md", r"(?m)^## (\S+)$") == number
    for page in sorted((ROOT / "docs" / "man").glob("*.1")):
        assert copied_version(page, r'"dnlab ([0-9.]+)') == number, page
    for command in COMMANDS:
        done = subprocess.run([ROOT / "tools" / command, "--version"], capture_output=True, text=True,
                              check=False)
        assert (done.stdout, done.stderr, done.returncode) == (f"dnlab-{command} {number}\n", "", 0)


def test_another_python_is_told_how_to_take_debians(monkeypatch: pytest.MonkeyPatch) -> None:
    monkeypatch.setattr(sys, "executable", "/opt/python/bin/python3")
    assert said_of("summary",
                   "numpy").endswith(
                       "apt-get install python3-numpy, then PATH=/usr/bin:$PATH tools/summary ..)")
    monkeypatch.setattr(sys, "executable", "/usr/bin/python3")
    assert said_of("summary", "numpy").endswith("apt-get install python3-numpy)")


def test_help_names_the_installed_commands(tmp_path: Path) -> None:
    text = "usage: tools/plot [-h] REPORT\n\nExample: ./dnlab alone < s.txt | tools/plot - s.txt"
    assert (renamed(
        text) == "usage: dnlab-plot [-h] REPORT\n\nExample: dnlab alone < s.txt | dnlab-plot - s.txt")
    code = (f"import sys; sys.path.insert(0, {str(copied(tmp_path))!r}); from dnlab.__main__ import main; "
            "main()")
    said = subprocess.run([sys.executable, "-B", "-c", code, "summary", "--help"], capture_output=True,
                          text=True, check=False).stdout
    assert "dnlab-summary" in said and "tools/" not in said and "./dnlab" not in said


def test_ctrl_c_ends_a_start_by_the_signal(tmp_path: Path) -> None:
    """The signal arrives when a script's first module of the package is loaded, before the command handles
    signals."""
    (tmp_path / "tools").mkdir()
    (tmp_path / "tools/command").write_bytes((ROOT / "tools/command").read_bytes())
    (tmp_path / "share/dnlab/python/dnlab").mkdir(parents=True)
    (tmp_path / "share/dnlab/python/dnlab/__init__.py").write_text("import os\nos.kill(os.getpid(), 2)\n")
    done = subprocess.run([sys.executable, tmp_path / "tools/command"], capture_output=True, text=True,
                          timeout=60, check=False,
                          preexec_fn=lambda: signal.signal(signal.SIGINT, signal.SIG_DFL))
    assert (done.returncode, done.stderr) == (-signal.SIGINT, "")


@pytest.mark.parametrize("name", ["dnlab-from-ipfw", "link"])
def test_a_script_is_named_after_its_command(name: str, tmp_path: Path) -> None:
    """A link to it may have any name."""
    (tmp_path / name).symlink_to(ROOT / "tools/from-ipfw")
    done = subprocess.run([tmp_path / name, "--version"], capture_output=True, text=True, timeout=60,
                          check=False)
    assert done.stdout.startswith("dnlab-from-ipfw ")


RUN = """import dnlab
report = dnlab.run("experiment a seed 1 budget 9\\n@9 end\\n")
assert list(report) == ["a"] and "Report" in repr(report) and report.origin is not None
"""


@pytest.mark.parametrize("more,wanted", [("", set()), ("report['a'].packets()", {"numpy", "pandas"})],
                         ids=["run", "table"])
def test_a_run_loads_them_for_a_table(more: str, wanted: set[str], program: str) -> None:
    """Running a scenario needs no package for tables; only these take them."""
    done = subprocess.run([sys.executable, "-X", "importtime", "-c", RUN + more], capture_output=True,
                          text=True, timeout=120, check=False,
                          env={**os.environ, "PYTHONPATH": str(ROOT / "python"), "DNLAB": program})
    assert done.returncode == 0, done.stderr
    found = {line.rpartition("|")[2].strip() for line in done.stderr.splitlines()}
    assert found & {"numpy", "pandas"} == wanted


def test_pip_install_of_the_sources(tmp_path: Path) -> None:
    """The sources have no program. They are only installed if there is one, and use the one on the PATH,
    never the script itself."""
    shutil.copytree(ROOT / "python", tmp_path / "python",
                    ignore=shutil.ignore_patterns("__pycache__", "tests", "bin"))
    subprocess.run([sys.executable, "-m", "venv", "--without-pip", "--system-site-packages", tmp_path / "v"],
                   check=True, timeout=60)
    pip = [sys.executable, "-m", "pip", "--python", tmp_path / "v/bin/python3", "install", "-q", "--no-index",
           "--no-deps", "--no-build-isolation"]
    if not all(map(find_spec, ("pip", "setuptools", "wheel"))):
        pytest.skip("python3-pip and python3-wheel aren't there")
    there = script(tmp_path / "there" / "dnlab", "echo the program: $*")
    bare_path = {"PATH": "/usr/bin:/bin", "HOME": str(tmp_path)}
    refused = subprocess.run([*pip, tmp_path / "python"], timeout=120, capture_output=True, text=True,
                             check=False, env=bare_path)
    assert (refused.returncode == 1 and "have no program `dnlab`" in refused.stderr
            and "pip install dnlab-*" in refused.stderr)
    assert not list((tmp_path / "v/bin").glob("dnlab*"))
    subprocess.run([*pip, tmp_path / "python"], check=True, timeout=120, capture_output=True,
                   env={**bare_path, "DNLAB": str(there)})
    own = tmp_path / "v/bin/dnlab"
    bare = {"PATH": f"{own.parent}:/usr/bin:/bin", "HOME": str(tmp_path)}

    def called(**names: str) -> "subprocess.CompletedProcess[str]":
        return subprocess.run([own, "--version"], capture_output=True, text=True, env={**bare, **names},
                              timeout=20, check=False)

    lacking = called()
    assert ((lacking.returncode, lacking.stdout) == (3, "") and "tools/install" in lacking.stderr
            and lacking.stderr.count("\n") == 1)
    assert called(DNLAB=str(own)).returncode == 2
    assert called(PATH=f"{own.parent}:{there.parent}:/usr/bin:/bin").stdout == "the program: --version\n"
    assert called(DNLAB=str(there)).stdout == "the program: --version\n"
