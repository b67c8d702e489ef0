"""Templates: their faults, their limits, and what is refused with the line."""
import os
from pathlib import Path

import pytest
from conftest import tool
from sweeps import ONE, template

import dnlab
from dnlab.sweeps.grid import value_of
from dnlab.sweeps.templates import Template

FAULTS = [
    ("{% for x in y %}\n", "line 1", "endfor"), ("a\n{{ b c }}\n", "line 2", "expected token"),
    ("a\n\n{{ nobody }}\n", "line 3", "'nobody' is undefined"),
    ("a\n{{ 1 / 0 }}\n", "line 2", "division by zero"),
    ("a\n{{ [1] | random }}\n", "line 2", "rng.choice"), ("a\n{{ lipsum() }}\n", "line 2", "undefined"),
    ("a\n\n\n{% include 'none' %}\n", "line 4", "no template none"),
    ("a\n{{ ''.__class__ }}\n", "line 2", "unsafe"),
    ("a\n{{ 'x' | ms }}\n", "line 2", "'x'"),
    ("a\n{{ '0.5' | us | us }}\n{{ 0.0001 | us }}\n", "line 3", "nanoseconds"),
    ("a\n{{ rng.sample([1], 2) }}\n", "line 2", "2 of 1"),
    ("@0 end\n", "experiment s1 (seed 1)", "it has none"),
    ("experiment x seed 1 budget 5\n@0 end\n", "experiment s1 (seed 1)", "it has x"),
    ("experiment {{ name }} seed 1 budget 5\n@0 end\nexperiment b seed 1 budget 5\n@0 end\n",
     "experiment s1", "s1, b"),
]


@pytest.mark.parametrize("text, where, cause", FAULTS, ids=range(len(FAULTS)))
def test_faults_of_a_template(text: str, where: str, cause: str, tmp_path: Path, program: str) -> None:
    file = template(tmp_path, text)
    status, out, err = tool("sweep", file, DNLAB=program)
    assert status == 2 and not out and err.startswith(f"sweep: {file}: {where}") and cause in err
    assert "Traceback" not in err and os.listdir(tmp_path) == ["one.tmpl"]


def test_a_fault_in_what_is_included(tmp_path: Path, program: str) -> None:
    inner = template(tmp_path, "\n{{ 1 / 0 }}", "inner.tmpl")
    err = tool("sweep", template(tmp_path, "a\n{% include 'inner.tmpl' %}\n"), DNLAB=program)[2]
    assert err == f"sweep: {inner}: line 2: ZeroDivisionError: division by zero\n"


def test_faults_of_the_text_that_is_made(tmp_path: Path, program: str) -> None:
    """The fourth experiment is the first faulty one. Nothing is run, and --explain explains the fault."""
    file = template(tmp_path)
    status, out, err = tool("sweep", file, "--set", "delay=5,5s", "--seeds", "1-3", DNLAB=program)
    assert status == 2 and not out and "(delay=5s, seed 1)" in err and "line 2: badword" in err
    assert "(--set delay=5s --seeds 1 --dry-run shows it)" in err
    assert ("@0 pipe 1 config bw 1Mbit/s delay 5s" in err and "^^" in err
            and not (tmp_path / "one.tmpl.kept").exists())
    deep = template(tmp_path,
                    ONE.replace("1Mbit/s delay {{ delay }}", "{% if seed == 3 %}fast{% else %}0{% endif %}"),
                    "b")
    status, out, err = tool("sweep", deep, "--seeds", "1-4", DNLAB=program)
    assert status == 2 and "experiment s3 (seed 3)" in err and "line 2: badword" in err
    noend = template(tmp_path, ONE.replace("@1000000000 end\n", ""), "c")
    status, out, err = tool("sweep", noend, "--set", "delay=5", "--seeds", "1-4", DNLAB=program)
    assert status == 2 and "seed 1" in err and "line 5: noend" in err


BOMBS = [
    ("{{ 'a' * 10**9 * 4 }}", "line 2: OverflowError"),
    ("{{ 'a' | center(4000000000) }}", "line 2: a text may use at most 536870912 bytes of memory"),
    ("{{ (10**(10**8)) % 7 }}", "line 2: OverflowError"),
    ("{{ rng.arrivals(1, 10**15) }}", "line 2: ValueError"),
    ("{{ '%999999999d' % 1 }}", "line 2: OverflowError"),
    ("{{ '%*d' % (999999999, 1) }}", "line 2: OverflowError"),
    ("{% set x = [0] * 10**9 %}", "line 2: OverflowError"),
    ("{% set x = 7 ** 9000 %}", "line 2: OverflowError"),
    ("{% for i in range(10**10) %}{% endfor %}", "at most 1000000"),
    ("{{ '1e99999999' | ms }}", "not a time"), ("{{ '9' * 20000000 }}", "20000000 bytes"),
    ("{% for i in range(10**6) %}{{ '#' * 60 }}\n{% endfor %}", "16777216 bytes"),
    ("{% include '.hidden' %}", "hidden"),
    ("{% include 'outside' %}", "outside"), ("{% include '../secret' %}", "outside"),
]


@pytest.mark.parametrize("text, cause", BOMBS, ids=range(len(BOMBS)))
def test_limits_of_a_template(text: str, cause: str, tmp_path: Path, program: str) -> None:
    """A template that would use up memory, or read other files, is a fault with its line or the limit."""
    (tmp_path / "secret").write_text("secret\n")
    folder = tmp_path / "own"
    folder.mkdir()
    (folder / ".hidden").write_text("secret\n")
    (folder / "outside").symlink_to(tmp_path / "secret")
    status, out, err = tool("sweep", template(folder, f"# a\n{text}\n" + ONE), "--set", "delay=5",
                            "--dry-run", DNLAB=program)
    assert status == 2 and not out and cause in err and err.count("\n") == 1 and "secret\n" not in out


def test_a_template_without_end(monkeypatch: pytest.MonkeyPatch) -> None:
    """Its process is ended after some time, and the sweep reports that."""
    monkeypatch.setattr("dnlab.sweeps.rendering.MOST_SECONDS", 1.0)
    text = "{% for i in range(10**6) %}{% for j in range(10**6) %}{% endfor %}{% endfor %}\n" + ONE
    made = dnlab.sweep(text, delay=5)
    with pytest.raises(dnlab.InputError, match=r"^template: line 1: rendering it takes more than 1 s$"):
        made.text(made.cases[0])


@pytest.mark.parametrize("value", ["10\n@0 add 1 deny ip from any to any", "5\x1b[2J"])
def test_a_setting_is_of_one_line(value: str, tmp_path: Path, program: str) -> None:
    """A value can't insert a command into the text."""
    status, out, err = tool("sweep", template(tmp_path), "--set", f"delay={value}", "--dry-run",
                            DNLAB=program)
    assert status == 2 and not out and "one line" in err
    with pytest.raises(dnlab.InputError, match="one line"):
        dnlab.sweep(ONE, delay=[value, 5])


def test_texts_within_the_limits() -> None:
    """Texts can have 10^6 commands, and the usual powers and products."""
    text = ("experiment {{ name }} seed {{ seed }} budget 9\n{{ traffic.every(1, 10**5, 'show') }}{{ traffic "
            "}}\n@{{ 2**40 * 3 + 10**6 }} end\n")
    made = Template(text).render("x", 1, {})
    assert (made.count("show") == 10**5
            and made.endswith("@3298535883328 end\n".replace("3298535883328", str(2**40 * 3 + 10**6))))


def test_numbers_that_are_only_taken_from() -> None:
    """Random values can come from a range of any length: the last number of 10^15 is below it."""
    template = Template("\n{{ range(10**15) | length }} {{ range(10**15)[7] }} {{ 5 in range(9) }}\n")
    assert template.render("x", 1, {}) == "\n1000000000000000 7 True\n"


def test_values_are_printed_as_they_were_written() -> None:
    made = Template(
        "\n{{ plr }} {{ plr * 2 }} {{ n * 1.5 }} {{ n / 3 }} {{ 20 | ms }} {{ plr | us }} {{ '1.5' | s }}\n")
    assert (made.render("x", 1, {"plr": value_of("0.001"),
                                 "n": 2}) == "\n0.001 0.002 3 0.6666666666666666 20000000 1 1500000000\n")
    assert Template("\n{{ v }}").render("x", 1, {"v": 1e-6}) == "\n0.000001\n"


def test_a_text_goes_on_behind_empty_pieces() -> None:
    text = ("{% for place in range(5000) %}{{ '' }}{% endfor %}# {{ name }}\n{% for place in range(3) %}{{ "
            "place }}{% endfor %}")
    assert Template(text).render("a", 1, {}) == "# a\n012\n"
