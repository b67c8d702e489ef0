"""The arguments that the package adds to those of the program `dnlab`: a file's name, `check --json`, and
their help."""
import json
import os
import re
import subprocess
import sys
from pathlib import Path
from typing import Any

import pytest
from conftest import EXAMPLES, ROOT

from dnlab.cli.program import Wrong, call_of

sys.path.append(str(ROOT / "tools" / "gate"))
import explained_cases  # noqa: E402  (the path is set first)

PACKET = EXAMPLES / "one_packet" / "scenario.txt"
REPORT = (EXAMPLES / "one_packet" / "expected.txt").read_bytes()
FAULTY = "experiment a seed 0 budget 10\n@0 pipe 1 config bw 10Mbps\n@5 shw\n@9 end\n"


def dnlab(program: str, *words: object, text: bytes = b"") -> tuple[int, bytes, str]:
    """Runs the script ./dnlab, which starts a program. Returns status, standard output and standard error."""
    done = subprocess.run([ROOT / "dnlab", *map(str, words)], input=text, capture_output=True, timeout=60,
                          check=False, env={**os.environ, "DNLAB": program})
    return done.returncode, done.stdout, done.stderr.decode()


@pytest.mark.parametrize("words", [["alone"], ["run", "--workers", "2"],
                                   ["alone", "--max-steps", "1000000", "--strict"]])
def test_a_file_is_read(words: list[str], program: str) -> None:
    assert dnlab(program, *words, PACKET) == (0, REPORT, "")
    assert dnlab(program, words[0], PACKET, *words[1:]) == (0, REPORT, "")
    # None of these is a file.
    for more in [], ["-"]:
        assert dnlab(program, *words, *more, text=PACKET.read_bytes()) == (0, REPORT, "")
    assert dnlab(program, "check", PACKET)[:2] == (0, b"ok 1 4\n")


def test_files_that_can_not_be_read(tmp_path: Path, program: str) -> None:
    none = tmp_path / "no such file.txt"
    assert dnlab(program, "alone", none) == (3, b"", f"dnlab: {none}: No such file or directory\n")
    assert dnlab(program, "check", tmp_path) == (3, b"", f"dnlab: {tmp_path}: Is a directory\n")
    status, out, said = dnlab(program, "run", PACKET, none)
    assert (status, out) == (2, b"") and str(none) in said and said.count("\n") == 1
    # The program itself refuses an argument that it doesn't know.
    assert dnlab(program, "alone", "--nothing")[0] == 2
    assert dnlab(program, "alone", "--json", PACKET)[0] == 2


def test_which_words_are_files() -> None:
    assert call_of(["run", "--workers", "4", "a.txt", "--moves",
                    "0"]) == (["run", "--workers", "4", "--moves", "0"], "a.txt", False)
    assert call_of(["check", "--json", "--strict", "4"]) == (["check", "--strict"], "4", True)
    assert call_of(["live", "a.txt"]) == (["live", "a.txt"], None, False)
    assert call_of([]) == ([], None, False)
    with pytest.raises(Wrong, match="b.txt"):
        call_of(["alone", "a.txt", "b.txt"])
    with pytest.raises(Wrong, match="-"):
        call_of(["alone", "a.txt", "-"])


def found(program: str, text: bytes, *words: str) -> tuple[int, list[dict[str, Any]]]:
    """Returns the status and the objects of `check --json`, which prints nothing else."""
    status, out, said = dnlab(program, "check", "--json", *words, text=text)
    assert not said
    return status, json.loads(out)


def test_what_json_has(program: str, tmp_path: Path) -> None:
    status, (first, second) = found(program, FAULTY.encode())
    assert status == 1
    assert (first["line"], first["column"], first["width"], first["kind"],
            first["cause"]) == (2, 21, 6, "fault", "badword")
    assert (first["text"] == "@0 pipe 1 config bw 10Mbps" and first["expected"].startswith("a rate")
            and first["example"].endswith(" bw 10Mbit/s"))
    assert "10Mbps is 10Mbit/s" in first["hint"] and first["means"] is None and first["experiment"] is None
    assert (second["line"], second["column"], second["width"],
            second["hint"]) == (3, 4, 3, "did you mean `show`?")
    assert found(program, PACKET.read_bytes(), "--strict") == (0, [])
    refused = b"experiment a seed 0 budget 1\n@0 delete 7\n@9 end\n"
    assert [(one["line"], one["kind"], one["cause"], one["experiment"])
            for one in found(program, refused)[1]] == [(2, "refused", "refused 13", "a")]
    assert found(program, refused)[0] == 0 and found(program, refused, "--strict")[0] == 5
    doubtful = b"experiment a seed 0 budget 1\n@0 pipe 1 config plr 1\n@9 end\n"
    assert [(one["line"], one["kind"], one["cause"], one["column"])
            for one in found(program, doubtful)[1]] == [(2, "warning", "plr", None)]
    file = tmp_path / "faulty.txt"
    file.write_text(FAULTY)
    assert json.loads(dnlab(program, "check", file, "--json")[1]) == [first, second]
    assert dnlab(program, "check", "--json", tmp_path)[:2] == (3, b"")


CASES = [case for case in explained_cases.cases() if case.words == ["check", "--explain"]]


def test_each_worked_case_has_its_objects(program: str) -> None:
    """There are as many objects as the cases of tools/gate/explained have, with the column of their marks,
    and each row is in one."""
    assert len(CASES) > 100
    for case in CASES[::20]:
        status, objects = found(program, case.text)
        lines = re.findall(r"(?m)^line (\d+): (.*)", case.said)
        assert (status,
                [(str(one["line"]), one["cause"]) for one in objects]) == (case.status, lines), case.name
        marks = [(len(row) - len(row.lstrip()) - 1, row.count("^"))
                 for row in case.said.splitlines() if re.fullmatch(r" +\^+", row)]
        assert [(one["column"], one["width"]) for one in objects if one["column"]] == marks, case.name
        values = {value for one in objects
                  for value in (*one.values(), *one["also"]) if isinstance(value, str)}
        for row in re.findall(r"(?m)^  (?:experiment|means|expected|example|hint|before|also): (.*)",
                              case.said):
            assert row in values or f"experiment: {row}" in values, case.name


def test_help_has_what_the_package_adds(program: str) -> None:
    for words in ["--help"], ["-h"], ["help"], ["help", "check"], ["check", "--help"], ["alone", "--help"]:
        status, out, said = dnlab(program, *words)
        assert (status, said) == (0, "") and b" FILE" in out, words
        assert (b"--json" in out) == ("check" in words), words
        assert (b"\n  prove " in out and b"\n  program " in out) == (len(words) == 1), words
    assert b" FILE" not in dnlab(program, "live", "--help")[1]
    status, out, _ = dnlab(program, "prove", "--help")
    assert status == 0 and b"tools/gate/prove" in out


@pytest.mark.parametrize("words", ["--help", "alone --help", "check --json"])
@pytest.mark.parametrize("output", [">/dev/full", ">&-"])
def test_what_can_not_be_written(words: str, output: str, program: str) -> None:
    shell = ["sh", "-c", f'exec "$0" {words} {output}', ROOT / "dnlab"]
    done = subprocess.run(shell, input=PACKET.read_bytes(), capture_output=True, timeout=60, check=False,
                          env={**os.environ, "DNLAB": program})
    assert (done.returncode, done.stdout, done.stderr) == (3, b"", b"write\n")
