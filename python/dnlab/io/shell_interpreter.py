"""Interprets commands of a shell script: expands their words, and notes the calls of ipfw(8), sysctl(8) and
sleep(1). Runs nothing."""
import ast
import operator
import re
from fractions import Fraction
from typing import Callable, Mapping, NamedTuple, Optional, Sequence

from dnlab.errors import ParseError
from dnlab.io.shell_lexer import Lexer, Part, Word, parts_of

KEPT = ("ipfw", "sysctl", "sleep")
# Commands without an effect on a scenario.
_SILENT = {"kldload", "kldstat", "kldunload", "ifconfig", "route", "service", "sysrc", "logger", "echo",
           "printf", ":", "true", "export", "readonly", "local", "umask", "ulimit"}
_PLACE = re.compile(r"/(?:usr/)?(?:local/)?s?bin/")
# The maximum number of characters of all words together, and of an expression.
_MOST, _LONGEST = 2**20, 200
# In an expanded word: between two fields, and before a quoted part, so that an empty one is a field too. No
# script has them.
MARKS = _BETWEEN, _QUOTED = "\0", "\1"


class Ends(Exception):
    """A word that leaves the current construct: `exit`, `return`, `break` or `continue`, and its status."""

    def __init__(self, word: str, status: int = 0) -> None:
        super().__init__(word)
        self.word, self.status = word, status


class Step(NamedTuple):
    """A command: its line, the function that interprets it, and whether it is a simple command (`set -e`
    judges no other)."""
    line: int
    run: Callable[[], int]
    is_simple: bool = False


Steps = list[Step]


class Interpreter:
    """The variables of a script and how they are expanded; `found` are the calls of the programs of
    interest."""

    def __init__(self) -> None:
        self.found: list[tuple[str, ...]] = []
        self.values: dict[str, str] = {"IFS": " \t\n"}
        self.given: list[str] = []
        self.functions: dict[str, Steps] = {}
        self.input: list[str] = []
        self.status, self.strict, self.asked = 0, False, 0
        self.left, self.line = _MOST, 1

    def no(self, cause: str) -> ParseError:
        return ParseError(self.line, cause)

    def spend(self, amount: int) -> None:
        self.left -= amount
        if self.left < 0:
            raise self.no(
                f"at this point the script has more than {_MOST} characters of commands: is there "
                "an endless loop?")

    def run(self, steps: Steps) -> int:
        status = 0
        for step in steps:
            self.spend(1)
            self.line = step.line
            self.status = status = step.run()
            if self.strict and status and not self.asked and step.is_simple:
                raise self.no("a command fails, which ends the script because of `set -e`")
        return status

    def is_true(self, steps: Steps) -> bool:
        self.asked += 1
        try:
            return self.run(steps) == 0
        finally:
            self.asked -= 1

    def goes_on(self, body: Steps) -> bool:
        """Runs the body of a loop once; returns whether the loop continues."""
        try:
            self.run(body)
        except Ends as ends:
            if ends.word not in ("break", "continue"):
                raise
            return ends.word == "continue"
        return True

    def with_input(self, text: Word, run: Callable[[], int]) -> int:
        """Runs a loop that reads the lines of a here-document."""
        outer, self.input = self.input, self.text(text).splitlines()
        try:
            return run()
        finally:
            self.input = outer

    def command(self, assigned: Sequence[tuple[str, Word]], words_given: Sequence[Word],
                body: Optional[Word]) -> int:
        for name, word in assigned:
            self.values[name] = self.text(word)
        words = self.fields(words_given)
        if not words:
            return 0
        name = _PLACE.sub("", words[0]) if _PLACE.match(words[0]) else words[0]
        if name in self.functions:
            return self.call(name, words[1:])
        if name in KEPT:
            self.keep(name, words[1:], body)
            return 0
        if name in _SILENT:
            for one in words[1:] if name in ("export", "readonly", "local") else []:
                variable, is_set, value = one.partition("=")
                self.values[variable] = value if is_set else self.values.get(variable, "")
            return 0
        return self.builtin(name, words[1:])

    def keep(self, name: str, words: Sequence[str], body: Optional[Word]) -> None:
        if name == "ipfw" and words and words[-1] in ("/dev/stdin", "-") and body is not None:
            self.found += [("ipfw", *one.split())
                           for one in self.text(body).splitlines() if one.strip() and one.lstrip()[0] != "#"]
            return
        # ipfw(8) also splits arguments that contain spaces.
        self.found.append((name, *(one for word in words for one in word.split())))

    def call(self, name: str, words: list[str]) -> int:
        outer, self.given = self.given, words
        try:
            return self.run(self.functions[name])
        except Ends as ends:
            if ends.word != "return":
                raise
            return ends.status
        finally:
            self.given = outer

    def builtin(self, name: str, words: list[str]) -> int:
        if name in ("exit", "return", "break", "continue"):
            raise Ends(name, int(words[0]) if words and words[0].isdigit() and len(words[0]) < 4 else 0)
        if name == "false":
            return 1
        if name in ("[", "test"):
            return self.test(words[:-1] if name == "[" else words)
        if name == "set" and all(re.fullmatch(r"[-+][eux]+", word) for word in words):
            self.strict = self.strict or any(word[0] == "-" and "e" in word for word in words)
            return 0
        if name == "shift":
            del self.given[:1]
            return 0
        if name == "unset":
            self.values = {one: value for one, value in self.values.items() if one not in words}
            return 0
        if name == "read":
            return self.read([word for word in words if word != "-r"])
        raise self.no(
            f"`{name}` isn't executed: write the ipfw commands that it runs, or use the output of `ipfw "
            "list` and `ipfw pipe show`")

    def read(self, names: list[str]) -> int:
        line = self.input.pop(0) if self.input else None
        values = (line or "").split(None, max(len(names) - 1, 0))
        for place, one in enumerate(names):
            self.values[one] = values[place].rstrip() if place < len(values) else ""
        return int(line is None)

    def test(self, words: list[str]) -> int:
        try:
            return int(not is_so(words))
        except ValueError:
            raise self.no(f"`[ {' '.join(words)[:60]} ]` isn't understood") from None

    def text(self, word: Word) -> str:
        """Returns the value of a word that isn't split."""
        found = "".join(self.value(part) for part in word)
        self.spend(len(found))
        return found

    def fields(self, words: Sequence[Word]) -> list[str]:
        """Returns the fields that words expand to; unquoted expansions are split at blanks."""
        found = [field.replace(_QUOTED, "") for word in words
                 for field in "".join(map(self.expanded, word)).split(_BETWEEN) if field]
        self.spend(sum(map(len, found)) + len(found))
        return found

    def expanded(self, part: Part) -> str:
        """Returns the value of a part, with marks between fields and before what is quoted."""
        if part.kind == "name" and part.text in ("@", "*") and (part.quoted or not self.given):
            return _BETWEEN.join(_QUOTED + one for one in self.given)
        value = self.value(part)
        if part.quoted:
            return _QUOTED + value
        return value if part.kind == "text" else re.sub(r"\s+", _BETWEEN, value)

    def value(self, part: Part) -> str:
        if part.kind == "text":
            return part.text
        if part.kind == "sum":
            return str(self.sum(part.text))
        found = self.parameter(part.text) if part.kind == "name" else self.output(part.text)
        self.spend(len(found))
        return found

    def parameter(self, text: str) -> str:
        found = re.fullmatch(r"([A-Za-z_]\w*|[0-9@*#?])(?:(:?[-=+])(.*))?", text, re.S)
        if not found:
            raise self.no(f"`${{{text[:60]}}}` isn't understood")
        name, how, other = found[1], found[2] or "", found[3] or ""
        value = self.known(name)
        is_there = value is not None and (value != "" or how[:1] != ":")
        if how.endswith("+"):
            return self.nested(other) if is_there else ""
        if not is_there and how:
            value = self.nested(other)
            if how.endswith("="):
                self.values[name] = value
        if value is None:
            raise self.no(f"`${name}` has no value: set it in the script")
        return value

    def known(self, name: str) -> Optional[str]:
        special = {"@": " ".join(self.given), "*": " ".join(self.given), "#": str(len(self.given)),
                   "?": str(self.status), "0": "script"}
        if name in special:
            return special[name]
        if name.isdigit():
            return self.given[int(name) - 1] if int(name) <= len(self.given) else None
        return self.values.get(name)

    def nested(self, text: str) -> str:
        return self.text(parts_of(text, self.line))

    def sum(self, text: str) -> int:
        """Returns the value of an integer expression, which wraps to 64 bits as in C."""
        filled = self.nested(re.sub(r"(?<![\w$])([A-Za-z_]\w*)", r"$\1", text)).strip()
        try:
            return sum_of(filled)
        except ValueError:
            raise self.no(f"`$(({text[:60]}))` isn't understood") from None

    def output(self, text: str) -> str:
        """Returns the output of a command: `echo` and `seq` are known."""
        tokens = Lexer(text.strip(), self.line).tokens()
        words = self.fields([token.word for token in tokens]) if all(token.word for token in tokens) else []
        try:
            if words[:1] == ["echo"] and words[1:2] != ["-n"]:
                return " ".join(words[1:])
            numbers = sequence_of(words[1:] if words[:1] == ["seq"] else [])
            self.spend(2 * len(numbers))
            return "\n".join(map(str, numbers))
        except ValueError:
            raise self.no(f"`$({text[:60]})` isn't executed: write its output") from None


# As in C, a quotient is rounded towards 0.
_SUMS: Mapping[type, Callable[[int, int], int]] = {
    ast.Add: operator.add, ast.Sub: operator.sub, ast.Mult: operator.mul, ast.BitAnd: operator.and_,
    ast.BitOr: operator.or_, ast.BitXor: operator.xor, ast.LShift: lambda a, b: a << (b & 63),
    ast.RShift: lambda a, b: a >> (b & 63), ast.Div: lambda a, b: int(Fraction(a, b)),
    ast.Mod: lambda a, b: a - b * int(Fraction(a, b))}
_COMPARED: Mapping[str, Callable[[int, int], bool]] = {
    "-eq": operator.eq, "-ne": operator.ne, "-lt": operator.lt, "-le": operator.le, "-gt": operator.gt,
    "-ge": operator.ge}


def number_of(text: str) -> int:
    """Returns an integer of at most 18 digits. Raises `ValueError`."""
    if not re.fullmatch(r"-?[0-9]{1,18}", text):
        raise ValueError(text)
    return int(text)


def sequence_of(words: Sequence[str]) -> range:
    """Returns the numbers that seq(1) prints for `[FIRST [STEP]] LAST`. Raises `ValueError`.

    >>> list(sequence_of(["3"])), list(sequence_of(["5", "-2", "1"]))
    ([1, 2, 3], [5, 3, 1])
    """
    numbers = [number_of(word) for word in words]
    if len(numbers) not in (1, 2, 3):
        raise ValueError(words)
    step = numbers[1] if len(numbers) == 3 else 1
    return range(numbers[0] if len(numbers) > 1 else 1, numbers[-1] + (1 if step > 0 else -1), step)


def is_so(words: Sequence[str]) -> bool:
    """Returns the result of `[`. Raises `ValueError` for tests of files and other unknown tests.

    >>> is_so(["-n", "a"]), is_so(["!", "3", "-lt", "5"]), is_so(["a", "=", "b"])
    (True, False, False)
    """
    if words[:1] == ["!"]:
        return not is_so(words[1:])
    if len(words) < 2:
        return bool(words and words[0])
    if len(words) == 2 and words[0] in ("-n", "-z"):
        return bool(words[1]) == (words[0] == "-n")
    if len(words) == 3 and words[1] in ("=", "==", "!="):
        return (words[0] == words[2]) == (words[1] != "!=")
    if len(words) == 3 and words[1] in _COMPARED:
        return _COMPARED[words[1]](number_of(words[0]), number_of(words[2]))
    raise ValueError(words)


def sum_of(text: str) -> int:
    """Returns the value of an expression, wrapped to 64 bits as in C. Raises `ValueError`.

    >>> sum_of("(1 + 2) * -7 / 2"), sum_of("-7 % 4")
    (-10, -3)
    """
    if len(text) > _LONGEST:
        raise ValueError(text)
    try:
        return _calculated(ast.parse(text, mode="eval").body)
    except (SyntaxError, ZeroDivisionError, MemoryError):
        raise ValueError(text) from None


def _cut(value: int) -> int:
    return (value + 2**63) % 2**64 - 2**63


def _calculated(tree: ast.AST) -> int:
    if isinstance(tree, ast.Constant) and type(tree.value) is int and abs(tree.value) < 2**63:
        return tree.value
    if isinstance(tree, ast.UnaryOp) and isinstance(tree.op, (ast.USub, ast.UAdd)):
        return _cut(_calculated(tree.operand) * (-1 if isinstance(tree.op, ast.USub) else 1))
    if isinstance(tree, ast.BinOp) and type(tree.op) in _SUMS:
        return _cut(_SUMS[type(tree.op)](_calculated(tree.left), _calculated(tree.right)))
    raise ValueError(tree)
