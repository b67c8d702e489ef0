"""Reads YAML with the line of each value, so that every fault has one.

An `InputError` begins with `FILE:LINE: `, the line counted from 1. The text of a value is taken as it is
written: `no` is a word and `1:30` is not a number of seconds.
"""
import difflib
from dataclasses import dataclass
from typing import Any, Callable, Iterable, Iterator, Mapping, NoReturn, Optional, TypeVar

import yaml

from dnlab.errors import InputError

T = TypeVar("T")
_NULL = "tag:yaml.org,2002:null"


@dataclass(frozen=True)
class Value:
    """A value of a file: its node, and where it is in words ('hosts.client')."""
    file: str
    node: yaml.Node
    where: str

    @property
    def line(self) -> int:
        """The line on which it begins, from 1."""
        return int(self.node.start_mark.line) + 1

    def refuse(self, cause: str, line: Optional[int] = None) -> NoReturn:
        """Raises `InputError` with the file, the line and the cause."""
        raise InputError(f"{self.file}:{line or self.line}: {self.where + ': ' if self.where else ''}{cause}")

    def is_empty(self) -> bool:
        """Returns true if nothing is written, or null."""
        return isinstance(self.node, yaml.ScalarNode) and self.node.tag == _NULL

    def is_text(self) -> bool:
        """Returns true if it is a scalar that has a value."""
        return isinstance(self.node, yaml.ScalarNode) and not self.is_empty()

    def is_list(self) -> bool:
        """Returns true if it is a list."""
        return isinstance(self.node, yaml.SequenceNode)

    def is_mapping(self) -> bool:
        """Returns true if it has keys."""
        return isinstance(self.node, yaml.MappingNode)

    def is_block(self) -> bool:
        """Returns true if it is a literal block (`|`), whose lines are lines of the file."""
        return isinstance(self.node, yaml.ScalarNode) and self.node.style == "|"

    def kind(self) -> str:
        """Returns what it is, for a message."""
        if self.is_empty():
            return "nothing is written"
        return "it is a list" if self.is_list() else "it has keys" if self.is_mapping() else "it is a text"

    def text(self, example: str) -> str:
        """Returns the text of a scalar; `example` is what a message shows."""
        if not self.is_text():
            self.refuse(f"{self.kind()}; expected a value, as {example}")
        assert isinstance(self.node, yaml.ScalarNode)
        value = str(self.node.value)
        if "\0" in value:
            self.refuse("it has a byte 0, which no argument or file name can have; expected a text without")
        return value

    def read(self, function: Callable[[str], T], example: str) -> T:
        """Returns what a function makes of the text; its `ValueError` is refused with the line."""
        text = self.text(example)
        try:
            return function(text)
        except ValueError as fault:
            self.refuse(str(fault))

    def items(self, example: str) -> list["Value"]:
        """Returns the values of a list."""
        if not self.is_list():
            self.refuse(f"{self.kind()}; expected a list, as {example}")
        return [Value(self.file, node, f"{self.where}[{number}]")
                for number, node in enumerate(self.node.value)]

    def block_lines(self, example: str) -> Iterator[tuple[int, str]]:
        """Returns the lines of a literal block, each with its line of the file."""
        if not self.is_block():
            self.refuse(f"{self.kind()}; expected a block of lines, as {example}")
        assert isinstance(self.node, yaml.ScalarNode)
        for number, line in enumerate(str(self.node.value).split("\n")):
            yield self.line + 1 + number, line

    def pairs(self, example: str) -> list[tuple["Value", "Value"]]:
        """Returns keys and values of a mapping, with merge keys (`<<`) merged; a key twice is refused."""
        if not self.is_mapping():
            self.refuse(f"{self.kind()}; expected keys, as {example}")
        assert isinstance(self.node, yaml.MappingNode)
        self._refuse_twins(self.node)
        self._merge(self.node)
        merged: dict[str, tuple[Value, Value]] = {}
        for key, value in self.node.value:
            name = str(key.value)
            where = f"{self.where}.{name}".lstrip(".")
            merged[name] = Value(self.file, key, self.where), Value(self.file, value, where)
        return list(merged.values())

    def _refuse_twins(self, node: yaml.MappingNode) -> None:
        first: dict[str, int] = {}
        for key, _ in node.value:
            found = Value(self.file, key, self.where)
            if not found.is_text():
                found.refuse(f"a key: {found.kind()}; expected a word as a key")
            if key.value in first and key.value != "<<":
                found.refuse(f"the key {key.value!r} is there twice, first on line {first[key.value]};"
                             " expected it once")
            first[key.value] = found.line

    def _merge(self, node: yaml.MappingNode) -> None:
        try:
            yaml.constructor.SafeConstructor().flatten_mapping(node)
        except (yaml.constructor.ConstructorError, RecursionError) as fault:
            mark = getattr(fault, "problem_mark", None)
            self.refuse("`<<` merges the keys of another mapping; expected <<: *NAME",
                        mark.line + 1 if mark else self.line)

    def keys(self, known: Mapping[str, str], foreign: Mapping[str, str] = {}) -> dict[str, "Value"]:
        """Returns the values of a mapping by key; `known` has each key with an example, `foreign` keys of
        Shadow that are refused, with the way out."""
        example = ", ".join(f"{key}: {shown}" for key, shown in list(known.items())[:2])
        found: dict[str, Value] = {}
        for key, value in self.pairs(f"{{{example}}}"):
            name = str(key.node.value)
            if name in foreign:
                key.refuse(f"{name!r} is a key of Shadow's files without a meaning here: {foreign[name]}")
            if name not in known:
                key.refuse(f"no key {name!r}{suggestion(name, known)}; expected {', '.join(known)}")
            found[name] = value
        return found


def suggestion(word: str, known: Iterable[str]) -> str:
    """Returns a question about the nearest known word, or nothing.

    >>> suggestion("stop_tme", ["seed", "stop_time"])
    ' (did you mean stop_time?)'
    """
    near = difflib.get_close_matches(word, list(known), 1, 0.6)
    return f" (did you mean {near[0]}?)" if near else ""


def root_of(file: str, text: bytes) -> Value:
    """Returns the root of a file; what is not YAML, or is empty, is refused."""
    try:
        documents: Any = list(yaml.compose_all(text.decode(), Loader=yaml.SafeLoader))
    except UnicodeDecodeError as fault:
        line = text[:fault.start].count(b"\n") + 1
        raise InputError(f"{file}:{line}: the byte 0x{text[fault.start]:02x} is not UTF-8; expected a text in"
                     " UTF-8") from None
    except yaml.reader.ReaderError as fault:
        line = text.decode()[:fault.position].count("\n") + 1
        raise InputError(
            f"{file}:{line}: the character #x{fault.character:04x} is not allowed in YAML; "
            "expected a text") from None
    except yaml.MarkedYAMLError as fault:
        mark = fault.problem_mark or fault.context_mark
        cause = " ".join(word for word in (fault.context, fault.problem) if word)
        context = fault.context_mark
        begun = context.line + 1 if context and mark and context.line != mark.line else 0
        hint = ("; expected spaces, not tabs, before a key" if "'\\t'" in cause
                else f" (begun on line {begun}); expected its end" if begun else "; expected YAML")
        raise InputError(f"{file}:{mark.line + 1 if mark else 1}: {cause}{hint}") from None
    except RecursionError:
        raise InputError(
            f"{file}:1: values are nested too deeply; expected general, network and hosts") from None
    if len(documents) != 1:
        line = documents[1].start_mark.line + 1 if documents else 1
        cause = "a second document begins" if documents else "the file is empty"
        raise InputError(f"{file}:{line}: {cause}; expected one with general, network and hosts")
    return Value(file, documents[0], "")
