"""The pages show what happens: each of their commands runs, and what a page shows as output is what is
printed.

A page is read from its top. A block ``text title="NAME"`` is written to a file. Of a block `console` each
line behind `$` is a command, and what follows is what it prints (a line `...` stands for any lines). A block
`python` before an indented block is a program, and that is its output. Each command of another indented block
ends with status 0, or is in a list with the reason why it isn't run here; they run in a folder of their own,
with the files that pages name and don't show (`scenario.txt`, `call.pcap`). In both folders `./dnlab`,
`tools` and the like lead to the repository.
"""
import os
import re
import shutil
import subprocess
import sys
from collections.abc import Iterator
from pathlib import Path
from typing import Callable

import pytest
from conftest import ROOT

for needed in ("jinja2", "scipy", "cloudpickle", "matplotlib", "plotly", "dpkt"):
    pytest.importorskip(needed, reason=f"{needed} is missing (Debian: python3-{needed})")

LINKED = ("tools", "cookbook", "examples", "hosts", "python", "stacks")
# Pages whose commands run programs in the guest's kernel.
WITH_KERNEL = {"docs/howto/run_your_programs.md"}
# A block with its language and title, with an indented block directly after it; or a line, with those that
# continue it.
PART = re.compile(
    r"^```(\w*)(?: title=\"([\w.]+)\")?\n(.*?)^```\n(?:\n((?:    [^\n]*\n)+))?|^((?:[^\n]*\\\n)*[^\n]*)\n",
    re.DOTALL | re.MULTILINE)
PAGES = [page
         for page in [ROOT / "README.md", ROOT / "python/README.md", *sorted((ROOT / "docs").rglob("*.md")),
                           *sorted(ROOT.glob("cookbook/*/README.md")),
                      *sorted(ROOT.glob("stacks/*/README.md"))]
         if "docs/reports" not in str(page)]
COMMAND = re.compile(r"(?:\$ )?(?:[A-Z_]+=\S+ )*(?:\./|(?:tools|cookbook|stacks|examples)/|dnlab(?:-\w+)? |"
                     r"(?:python3|pip|apt-get|git|cc|rt|tc|sed|export) |\(cd )")
# The commands that aren't run here, by page and by the start of the command, with the reason.
ELSEWHERE = {
    ("README.md", "git clone"): "a network",
    ("README.md", "apt-get install"): "root",
    ("README.md", "pip install"): "by tools/gate/check_release",
    ("docs/tutorial.md", "apt-get install"): "root",
    ("docs/explanation/definitions.md", "(cd crates"): "a proof",
    ("docs/explanation/definitions.md", "tools/definitions/changes"): "proofs of hours",
    ("docs/explanation/definitions.md", "tools/definitions/spell"): "by ./test, with --check",
    ("docs/howto/cookbook.md", "cookbook/chain/sweep"): "by cookbook/check",
    ("docs/howto/from_netem.md", "tc qdisc"): "root, and an interface",
    ("docs/howto/many_machines.md",
     "tools/spread scenario.txt --parts 16 --ssh"): "a cluster; with stand-ins by test_spread.py",
    ("docs/howto/many_machines.md",
     "tools/sweep link.tmpl"): "a cluster; with workers of this machine by test_sweep_runs.py",
    ("docs/howto/many_machines.md", "python3 python/examples/queues.py 1000"): "8000 experiments",
    ("docs/howto/own_protocol.md", "$ ./dnlab live"): "by test_a_session_by_hand",
    ("docs/howto/page_loads.md", "apt-get install"): "root",
    ("docs/howto/page_loads.md",
     "tools/sweep loads.yaml --set http=1,2 --set loss=0,0.01,0.02"): "72 loads of a page, five minutes",
    ("docs/howto/playground.md", "apt-get install"): "root",
    ("docs/howto/playground.md", "tools/playground"): "by tools/gate/check_playground",
    ("docs/howto/release.md", "apt-get install"): "root",
    ("docs/howto/release.md", "./dnlab prove"): "a proof",
    ("docs/howto/release.md", "tools/release"): "by tools/gate/check_release",
    ("docs/howto/run_your_programs.md", "apt-get install"): "root",
    ("docs/howto/run_your_programs.md", "tools/hosts --shell"): "a terminal",
    ("docs/howto/run_your_programs.md",
     "tools/hosts first.yaml --clock wall"): "by test_hosts_endings.py, which allows for other work",
    ("docs/reference/library.md", "tools/library"): "by tools/gate/check_library",
    ("docs/reference/library.md", "export"): "by tools/gate/check_library",
    ("docs/reference/library.md", "cc examples/c"): "by tools/gate/check_library",
    ("docs/work/PROOFS.md", "$ rt lemma"): "the Rattle kit",
    ("stacks/", ""): "by stacks/check",
    ("cookbook/", "cookbook/"): "by cookbook/check",
}
# Programs that a page's commands need; without them it is skipped.
PROGRAMS = {"docs/howto/page_loads.md": ("chromium-headless-shell", "nginx", "openssl")}
LINK = """experiment {name} seed 1 budget 1000
@0 trace 1
@0 pipe 1 config bw 10Mbit/s delay 10 queue 50
@0 add 100 pipe 1 ip from 10.0.1.0/24 to 10.0.0.0/24
@0 add 200 allow ip from 10.0.0.0/24 to 10.0.1.0/24
@0 flow 1 10.0.1.1 80 10.0.0.1 40000 smss 1460 segments 20
@0 train 9 udp 10.0.1.2 5004 10.0.0.2 5004 200 count 20 gap 20000000
@2000000000 end
"""
RULES = """ipfw -q flush
ipfw pipe 1 config bw 10Mbit/s delay 20
ipfw add 1000 pipe 1 ip from 10.0.1.0/24 to any
ipfw add 2000 allow ip from any to any
"""
SENDERS = """@0 flow 1 10.0.1.1 80 10.0.0.1 40000 smss 1460 segments 20
@0 train 9 udp 10.0.1.2 5004 10.0.0.2 5004 200 count 20 gap 20000000
"""


def shown_in(block: str) -> Iterator[tuple[str, str]]:
    """Yields each command of a block with its expected output."""
    for part in re.split(r"^\$ ", block.replace("\\\n", ""), flags=re.MULTILINE)[1:]:
        command, _, shown = part.partition("\n")
        yield command, shown


Step = tuple[str, str, str]


def steps_of(text: str) -> Iterator[Step]:
    """Yields what a page has to try, in order: a `file` with its name and text, a command of a block
    `console` or a program (`python`) with its output, and a `command` of an indented block."""
    for language, title, block, output, line in PART.findall(text):
        if title:
            yield "file", title, block
        elif language == "console":
            yield from (("console", command, shown) for command, shown in shown_in(block))
        elif language == "python" and output:
            yield "python", block, "".join(f"{one[4:]}\n" for one in output.splitlines())
        for one in ("" if language == "python" else output or line).replace("\\\n", "").splitlines():
            if one.startswith("    ") and COMMAND.match(one[4:]):
                yield "command", one[4:], ""


STEPS = {page: [*steps_of(page.read_text())] for page in PAGES}


def why_not(page: Path, command: str) -> str:
    """Returns why a command isn't run here, or nothing."""
    name = str(page.relative_to(ROOT))
    return next((why for (of, begun), why in ELSEWHERE.items() if name.startswith(of)
                 and command.startswith(begun)), "")


def is_tried(page: Path, step: Step) -> bool:
    return step[0] != "file" and not (step[0] == "command" and why_not(page, step[1]))


def stripped(text: str) -> str:
    """Returns a text without spaces at the ends of its lines."""
    return "\n".join(line.rstrip() for line in text.rstrip().split("\n"))


def same(said: str, shown: str) -> bool:
    """Returns true if the output is the one that the page shows. A line `...` matches any lines."""
    pattern = "".join(re.escape(part) if part != "...\n" else r"(?:.*\n)*?"
                      for part in re.split(r"^(\.\.\.\n)", f"{stripped(shown)}\n", flags=re.MULTILINE))
    return re.fullmatch(pattern, f"{stripped(said)}\n") is not None


def run(words: list[str], folder: Path, program: str) -> str:
    """Returns the output of a command on both streams."""
    done = subprocess.run(words, cwd=folder, stdout=subprocess.PIPE, stderr=subprocess.STDOUT, text=True,
                          timeout=300,
                          stdin=subprocess.DEVNULL, check=False,
                          env={**os.environ, "DNLAB": program, "PYTHONPATH": str(ROOT / "python"),
                               "PYTHONDONTWRITEBYTECODE": "1"})
    return done.stdout


def linked(folder: Path) -> Path:
    """Returns a folder in which the commands of the pages find the program and the tools."""
    folder.mkdir(exist_ok=True)
    # It starts the program, which DNLAB names.
    (folder / "dnlab").symlink_to(ROOT / "dnlab")
    for name in LINKED:
        (folder / name).symlink_to(ROOT / name)
    return folder


@pytest.fixture
def folder(tmp_path: Path) -> Path:
    return linked(tmp_path)


@pytest.fixture
def given(tmp_path: Path, program: str, traced: Callable[[bytes], bytes]) -> Path:
    """Returns a folder with the files that pages name and don't show."""
    folder = linked(tmp_path / "given")
    scenario = LINK.format(name="plain").encode()
    for name, text in {"scenario.txt": scenario, "link.txt": scenario.replace(b"@0 trace 1\n", b""),
                       "rules.sh": RULES.encode(),
                       "first.txt": LINK.format(name="first").encode(),
                       "second.txt": LINK.format(name="second").encode(),
                       "senders.txt": SENDERS.encode(),
                       # a packet every millisecond: about 12 Mbit/s
                       "verizon.trace": "".join(f"{moment}\n" for moment in range(1, 1001)).encode(),
                       **{name: traced(scenario)
                          for name in ("report.txt", "before.txt", "after.txt")}}.items():
        (folder / name).write_bytes(text)
    run(["tools/pcap", "report.txt", "scenario.txt", "--out", "call.pcap"], folder, program)
    assert (folder / "call.pcap").stat().st_size > 1000
    return folder


@pytest.mark.parametrize("page",
                         [page for page in PAGES if any(is_tried(page, step) for step in STEPS[page])],
                         ids=lambda page: str(page.relative_to(ROOT)))
def test_a_page(page: Path, folder: Path, given: Path, program: str, request: pytest.FixtureRequest) -> None:
    name = str(page.relative_to(ROOT))
    missing = [it for it in PROGRAMS.get(name, ())
               if shutil.which(it, path=f"{os.environ['PATH']}:/usr/sbin") is None]
    if missing:
        pytest.skip(f"missing programs: {' '.join(missing)}")
    for kind, text, shown in STEPS[page]:
        if kind == "file":
            for place in folder, given:
                (place / text).write_text(shown)
        elif is_tried(page, (kind, text, shown)):
            if name in WITH_KERNEL or text.startswith("tools/hosts") or "loads.yaml" in text:
                request.getfixturevalue("kernel")
            command = (text if kind == "console"
                       else f"set -o pipefail; {text.removeprefix('$ ')}\necho status $?")
            said = run([sys.executable, "-c", text] if kind == "python" else ["bash", "-c", command],
                       given if kind == "command" else folder, program)
            assert said.endswith("status 0\n") if kind == "command" else same(
                said, shown), f"$ {text}\n{said}"


def test_a_session_by_hand(program: str) -> None:
    """Typed lines and their answers alternate in the block."""
    page = (ROOT / "docs/howto/own_protocol.md").read_text()
    shown = re.search(r"    \$ \./dnlab live\n((?:    .*\n)+)", page)
    assert shown
    lines = [line[4:] for line in shown[1].splitlines()]
    typed = [line for line in lines if re.match(r"experiment \S+ seed|@|#>", line)]
    done = subprocess.run([program, "live"], input="\n".join([*typed, ""]), capture_output=True, text=True,
                          check=True)
    assert done.stdout.splitlines() == [line for line in lines if line not in typed]


def test_what_is_not_run_is_there() -> None:
    shown = [(str(page.relative_to(ROOT)), text) for page in PAGES
             for kind, text, _ in STEPS[page] if kind == "command"]
    for of, begun in ELSEWHERE:
        assert any(name.startswith(of) and command.startswith(begun) for name, command in shown), (of, begun)


def text_of(name: str) -> str:
    """Returns a scenario of the tutorial, which makes two of them from others with sed."""
    if name == "rate.txt":
        return text_of("packet.txt").replace("delay", "bw 1Mbit/s delay")
    if name == "codel.txt":
        deep = text_of("flow.txt")
        return deep + deep.replace("deep", "codel").replace("queue 50", "queue 50 codel")
    found = re.search(rf"^```text title=\"{name}\"\n(.*?)^```", (ROOT / "docs/tutorial.md").read_text(),
                      re.DOTALL | re.MULTILINE)
    assert found
    return found[1]


@pytest.mark.parametrize("name, change, wanted", [
    ("packet.txt", ("@1000000000", "@5000000 inject udp 10.0.0.1 1000 10.0.1.1 2000 1000\n@1000000000"),
     "15000000 deliver 1"),
    ("rate.txt", ("2000 1000", "2000 500"), "14000000 deliver 0"),
    ("queue.txt", ("queue 3", "queue 2"), "6000000 drop 3 plain full\n"),
    ("queue.txt", ("queue 3", "queue 2"), "10000000 drop 5 plain full\n"),
])
def test_answers_of_the_tutorial(name: str, change: tuple[str, str], wanted: str, folder: Path,
                                 program: str) -> None:
    (folder / name).write_text(text_of(name).replace(*change))
    assert f"\n{wanted}" in run(["bash", "-c", f"./dnlab alone < {name}"], folder, program)


def test_the_answer_without_a_way_back(folder: Path, program: str) -> None:
    (folder / "flow.txt").write_text(re.sub(r"@0 add 200 .*\n", "", text_of("flow.txt")))
    assert "deny its acknowledgements" in run(["bash", "-c", "./dnlab check --explain < flow.txt"], folder,
                                              program)


def test_the_answer_of_another_target(folder: Path, program: str) -> None:
    (folder / "codel.txt").write_text(
        text_of("codel.txt").replace("queue 50 codel", "queue 50 codel target 20"))
    said = run(["bash", "-c",
                "./dnlab alone --trace < codel.txt | tools/summary - codel.txt --of 'train 9' --by "
                "experiment --columns p50"],
               folder, program)
    assert [line.split()[4:6] for line in said.splitlines()[1:]] == [["1", "104.800"], ["1", "28.800"]]


SCENARIOS = {path.parent.name: path.read_text()
             for path in sorted((ROOT / "cookbook").glob("*/scenario.txt"))}


def test_the_cookbook_is_as_it_is_meant(program: str) -> None:
    """`--explain` prints nothing about the worked scenarios."""
    said = [subprocess.run([program, "check", "--explain"], input=text, capture_output=True, text=True,
                           check=False).stderr
            for text in SCENARIOS.values()]
    assert len(said) >= 9 and not any(said)
