"""The cases of explained/: scenarios, and what `--explain` has to say of each on standard error.

A case of explained/*.txt is

    == NAME | WORDS            the words; without any `check --explain`
    the scenario
    -- STATUS                  the exit status
    the standard error

In a scenario \\t, \\r and \\xNN stand for a byte, \\c at a line's end for no line feed, \\*N:x for N times x;
a line %N for N experiments of one command, e1 to eN; %rules N, %pipes N and %trains N for N commands that
make one each. In the standard error two kinds of lines stand for several:

    4: badword rate            line 4 is refused: its number and the cause, the line, marks below the word
                               that stands between « and » in the scenario, what is expected and an example,
                               by the name that sentences.tsv has for both
    4: units                   a warning of line 4: its number and the cause, the line, and the name of its
                               experiment; for a refused command also what refusals.tsv has of its code
    %10 .. %                   the lines between, for each {number} from 1 to 10, and the number {after} it

A row of explained/*.tsv is such a case with one faulty line and status 1: NAME | WORDS, the scenario, the
cause, the name of what is expected, and the lines that follow. The scenario has its lines between ' | ', or
is one line of an experiment with nothing else in it.
"""
import pathlib
import re
from collections.abc import Iterator
from typing import NamedTuple

FOLDER = pathlib.Path(__file__).resolve().parent / "explained"
MADE = {
    "rules": "@0 add {} allow ip from any to any",
    "pipes": "@0 pipe {} config bw 1Mbit/s",
    "trains": "@0 train {} udp 10.0.0.1 1 10.0.0.2 2 100 count 1 gap 0",
}
FIRST, LAST = "experiment a seed 0 budget 1", "@0 end"


class Case(NamedTuple):
    name: str
    words: list[str]
    text: bytes
    status: int
    said: str


def line_of(line: str) -> bytes:
    """The bytes of one written line, its line feed included."""
    made = re.fullmatch(r"%(\w*) ?(\d*)", line)
    if made and made[1] in MADE:
        return "".join(MADE[made[1]].format(k) + "\n" for k in range(1, int(made[2]) + 1)).encode()
    if made and made[1].isdigit():
        return "".join(f"experiment e{k} seed 0 budget 1\n@0 end\n"
                       for k in range(1, int(made[1]) + 1)).encode()
    line, end = (line[:-2], b"") if line.endswith("\\c") else (line, b"\n")
    line = re.sub(r"\\\*(\d+):(.)", lambda m: m[2] * int(m[1]), line)
    line = line.replace("\\t", "\t").replace("\\r", "\r")
    return re.sub(r"\\x(..)", lambda m: chr(int(m[1], 16)), line).encode("latin-1") + end


def shown(line: str) -> str:
    """A written line as it is repeated: a question mark for each byte that isn't printable ASCII."""
    return "".join(chr(it) if 32 <= it < 127 else "?" for it in line_of(line).removesuffix(b"\n"))


def refused(line: str) -> list[str]:
    """A faulty line as it is repeated, and marks below the word that is to blame, or behind the line's last
    byte."""
    before, word, after = re.split("[«»]", line)
    marks = " " * len(shown(f"{before}\\c")) + "^" * max(len(shown(f"{word}\\c")), 1)
    return [f"  {shown(before + word + after)}", f"  {marks}"]


def repeated(text: str) -> str:
    """A text in which what stands between two lines with a percent sign is repeated."""
    def times(found: re.Match[str]) -> str:
        return "".join(found[2].format(number=k, after=k + 1) for k in range(1, int(found[1]) + 1))
    return re.sub(r"(?ms)^%(\d+)\n(.*?)^%\n", times, text)


def whole(lines: list[str], scenario: list[str], expected: dict[str, list[str]]) -> str:
    """The standard error, of lines some of which stand for several."""
    made: list[str] = []
    for line in lines:
        found = re.fullmatch(r"(\d+): (\w+(?:-\w+)?(?: \d+)?)(?: ([a-z][\w-]*))?", line)
        if not found:
            made.append(line)
            continue
        at = int(found[1]) - 1
        made.append(f"line {found[1]}: {found[2]}")
        if found[3]:
            made += [*refused(scenario[at]), *expected[found[3]]]
        else:
            name = next(it.split()[1] for it in scenario[at::-1] if it.startswith("experiment "))
            made += [f"  {shown(scenario[at])}", f"  experiment: {name}",
                     *(expected[found[2]] if " " in found[2] else [])]
    return repeated("".join(f"{it}\n" for it in made))


def case_of(head: str, scenario: list[str], status: int, said: list[str],
            expected: dict[str, list[str]]) -> Case:
    name, _, words = head.partition(" | ")
    text = b"".join(line_of(re.sub("[«»]", "", line)) for line in scenario)
    return Case(name.strip(), (words or "check --explain").split(), text, status,
                whole(said, scenario, expected))


def rows(path: pathlib.Path) -> Iterator[list[str]]:
    for line in path.read_text().splitlines():
        if line and not line.startswith("#"):
            yield line.split("\t")


def cases() -> Iterator[Case]:
    expected = {name: [f"  expected: {it}", *(f"  example: {one}" for one in example)]
                for name, it, *example in rows(FOLDER / "sentences.tsv")}
    expected |= {f"refused {code}": [f"  means: {means}", f"  hint: {hint}"]
                 for code, means, hint in rows(FOLDER / "refusals.tsv")}
    for path in sorted({*FOLDER.glob("*.tsv")} - {FOLDER / "sentences.tsv", FOLDER / "refusals.tsv"}):
        for head, text, cause, name, *more in rows(path):
            scenario = (text.split(" | ") if " | " in text else [text, LAST]
                        if text.lstrip("«").startswith("experiment") else [FIRST, text, LAST])
            at = next(k for k, line in enumerate(scenario, 1) if "«" in line)
            said = [f"{at}: {cause} {name}", *(f"  {it}" for it in more)]
            yield case_of(head, scenario, 1, said, expected)
    for path in sorted(FOLDER.glob("*.txt")):
        for part in re.split(r"(?m)^== ", path.read_text())[1:]:
            head, *lines = part.rstrip("\n").split("\n")
            at = next(k for k, line in enumerate(lines) if re.fullmatch(r"-- \d", line))
            yield case_of(head, lines[:at], int(lines[at][3:]), lines[at + 1:], expected)
