"""The reader of scenarios: the result of each command, and faults as in docs/reference/scenario.md."""
import doctest
import importlib
import pkgutil

import pytest
from conftest import EXAMPLES

import dnlab
from dnlab.errors import ParseError
from dnlab.io import scenario
from dnlab.io.scenario import Judged
from dnlab.io.scenario_parts import Sends

TEXT = b"""experiment a seed 18446744073709551615 budget 7
# a comment
@0  pipe 1 config bw 1Mbit/s queue 5
@0 add 100 pipe 1 ip from any to 10.0.0.0/8 80-90
@1 flow 3 10.0.0.1 1 10.0.0.2 2 smss 536 segments 9 rto adaptive window 4000
@2 train 4 udp 10.0.0.1 1 10.0.0.3 2 100 count 5 gap 6
@3 inject tcp 1.2.3.4 5 6.7.8.9 10 1500
@4 stop 3
@9 end
"""


def test_what_commands_tell() -> None:
    plan = scenario.read(TEXT)["a"]
    assert (plan.seed, plan.budget, plan.steps, plan.end()) == (2**64 - 1, 7, 10**6, 9)
    assert plan.settings() == "pipe 1 bw 1Mbit/s queue 5"
    assert [(one.line, one.moment, one.word) for one in plan.commands] == [
        (3, 0, "pipe"), (4, 0, "add"), (5, 1, "flow"), (6, 2, "train"), (7, 3, "inject"), (8, 4, "stop"),
        (9, 9, "end")]
    flow, train, injected = (one.sends for one in plan.commands[2:5])
    assert flow == Sends("flow", 3, 576, 9, 0, 536, 4000, 65535, "10.0.0.1", "10.0.0.2")
    assert train == Sends("train", 4, 100, 5, 6, source="10.0.0.1", target="10.0.0.3")
    assert injected == Sends("inject", None, 1500, source="1.2.3.4", target="6.7.8.9")
    assert plan.commands[5].stops == 3 and plan.commands[0].text == "pipe 1 config bw 1Mbit/s queue 5"


FAULTS = [(b"@9 end\n", b"", 9, "noend"), (b"budget 7", b"budget 0", 1, "outofrange"),
          (b"@3", b"@1", 7, "backwards"), (b"queue 5", b"queue 5 queue 6", 3, "badword"),
          (b"@9 end\n", b"@9 end", 9, "cut"), (b"80-90", b"90-80", 4, "outofrange"),
          (b"udp", b"ip", 6, "badword"), (b"a comment", b"a\tcomment", 2, "badbyte")]


@pytest.mark.parametrize("old,new,line,cause", FAULTS, ids=[fault[3] + str(fault[2]) for fault in FAULTS])
def test_faults(old: bytes, new: bytes, line: int, cause: str) -> None:
    text = TEXT.replace(old, new)
    assert text != TEXT and Judged(text).fault == (line, cause)
    with pytest.raises(ParseError) as refused:
        scenario.read(text)
    assert refused.value.line == line and refused.value.cause.startswith(cause)


def test_limits() -> None:
    many = b"".join(b"experiment e%d seed 0 budget 1\n@0 end\n" % number for number in range(300))
    assert Judged(many).fault == (513, "toomany") and len(scenario.read(many)) == 300


def test_all_examples(program: str) -> None:
    """Each text of examples/ is a scenario, or has the fault in its stderr.txt."""
    for path in sorted(EXAMPLES.glob("*/scenario.txt")):
        fault = Judged(path.read_bytes()).fault
        stderr = path.parent / "stderr.txt"
        assert (fault and f"line {fault[0]}: {fault[1]}\n") == (stderr.read_text() if stderr.exists()
                                                                else None), path


@pytest.mark.parametrize("name", [name for _, name, _ in pkgutil.walk_packages(dnlab.__path__, "dnlab.")
                                  if not name.endswith("__main__")])
def test_examples_in_the_documentation(name: str) -> None:
    assert doctest.testmod(importlib.import_module(name)).failed == 0
