"""Splits a shell script into words and operators, with the parts of each word."""
import re
from dataclasses import dataclass
from typing import NamedTuple

from dnlab.errors import ParseError

# Spaces, comments, and line ends after a backslash.
_BLANK = re.compile(r"(?:[ \t\r]|\\\n)*(?:#[^\n]*)?")
_OPERATORS = re.compile(r"<<-|;;|&&|\|\||<<|>>|>&|<&|>\||[;&|()<>\n]")
# A part of a word, and of the content of double quotes or of a here-document, that isn't expanded.
_PART = re.compile(
    r"""\\(?P<escaped>.?)|'([^']*)'|"(?P<double>(?:[^"\\]|\\.)*)"|(?P<bare>[^\s\\'"$`;&|()<>]+|[^\\'"])""",
    re.S)
_QUOTED = re.compile(r'\\(?P<escaped>[$`"\\\n])|(\\?[^\\$`]*)')
_NAME = re.compile(r"[A-Za-z_][A-Za-z_0-9]*|[0-9@*#?$!-]")


class Part(NamedTuple):
    """A part of a word: literal `text`, a parameter (`name`), an expression (`sum`) or a command substitution
    (`call`)."""
    kind: str
    text: str
    quoted: bool = False


Word = tuple[Part, ...]


@dataclass
class Token:
    """A word, or an operator with its here-document."""
    line: int
    word: Word = ()
    operator: str = ""
    body: Word = ()

    def plain(self) -> str:
        """Returns the word or operator, if no part of it is quoted or expanded."""
        is_plain = all(part.kind == "text" and not part.quoted for part in self.word)
        return self.operator or ("".join(part.text for part in self.word) if is_plain else "")

    def shown(self) -> str:
        """Returns it for a message."""
        said = self.operator or "".join(part.text for part in self.word)
        return {"\n": "the end of the line", "end": "the end"}.get(said, said[:60])


class Lexer:
    """Splits a text, which begins in this line, into words and operators."""

    def __init__(self, text: str, line: int = 1) -> None:
        self.text, self.first = text, line

    def _line(self, at: int) -> int:
        return self.first + self.text.count("\n", 0, at)

    def _skipped(self, at: int) -> int:
        blank = _BLANK.match(self.text, at)
        return blank.end() if blank else at

    def tokens(self) -> list[Token]:
        found: list[Token] = []
        # Here-documents that start after the next line feed, with the words that end them.
        due: list[tuple[Token, Word]] = []
        at = 0
        while (at := self._skipped(at)) < len(self.text):
            line, operator = self._line(at), _OPERATORS.match(self.text, at)
            if operator is None:
                word, at = self._word(at)
                # The number of a file descriptor that is redirected is no word.
                is_redirected = (self.text[at:at + 1] in ("<", ">") and len(word) == 1
                                 and word[0].text in ("0", "1", "2"))
                found += [] if is_redirected else [Token(line, word)]
                continue
            found.append(Token(line, (), operator[0]))
            at = operator.end()
            if operator[0] in ("<<", "<<-"):
                word, at = self._word(self._skipped(at))
                due.append((found[-1], word))
            elif operator[0] == "\n":
                for token, word in due:
                    at = self._here(token, word, at)
                due = []
        for token, word in due:
            self._here(token, word, len(self.text))
        return found

    def _here(self, token: Token, last: Word, at: int) -> int:
        """Reads a here-document. Returns where it ends."""
        end, tabs = "".join(part.text for part in last), "\t*" * (token.operator == "<<-")
        found = re.compile(rf"(.*?)^{tabs}{re.escape(end)}(\n|\Z)", re.S | re.M).match(self.text, at)
        if found is None:
            raise ParseError(token.line, f"the here-document `{end}` doesn't end")
        text = re.sub("^\t+", "", found[1], flags=re.M) if tabs else found[1]
        is_quoted = any(part.quoted for part in last)
        token.body = (Part("text", text, True),) if is_quoted else parts_of(text, token.line)
        return found.end()

    def _word(self, at: int) -> tuple[Word, int]:
        """Returns a word, and where it ends."""
        parts: list[Part] = []
        while at < len(self.text) and self.text[at] not in " \t\r" and not _OPERATORS.match(self.text, at):
            if self.text[at] in "$`":
                part, at = _dollar(self.text, at, self._line(at), False)
                parts.append(part)
                continue
            found = _PART.match(self.text, at)
            if found is None:
                raise ParseError(self._line(at), f"`{self.text[at]}` has no closing one")
            if found["double"] is not None:
                parts += parts_of(found["double"], self._line(at)) or (Part("text", "", True),)
            elif found["escaped"] != "\n":
                parts.append(Part("text", found[found.lastindex or 0], found["bare"] is None))
            at = found.end()
        return tuple(parts), at


def parts_of(text: str, line: int) -> Word:
    """Returns the parts of the content of double quotes or of a here-document. Raises `ParseError`."""
    found: list[Part] = []
    at = 0
    while at < len(text):
        plain = _QUOTED.match(text, at)
        if text[at] in "$`" or plain is None:
            part, at = _dollar(text, at, line, True)
            found.append(part)
            continue
        if plain["escaped"] != "\n":
            found.append(Part("text", plain[plain.lastindex or 0], True))
        at = plain.end()
    return tuple(found)


def _dollar(text: str, at: int, line: int, quoted: bool) -> tuple[Part, int]:
    """Returns what `$` or a backquote starts, and where it ends."""
    if text[at] == "`":
        end = text.find("`", at + 1)
        if end < 0:
            raise ParseError(line, "a backquote has no closing one")
        return Part("call", text[at + 1:end], quoted), end + 1
    for begin, closing, kind in (("$((", "))", "sum"), ("$(", ")", "call"), ("${", "}", "name")):
        if text.startswith(begin, at):
            end = _matching(text, at + len(begin), closing, line)
            return Part(kind, text[at + len(begin):end], quoted), end + len(closing)
    name = _NAME.match(text, at + 1)
    return (Part("name", name[0], quoted), name.end()) if name else (Part("text", "$", quoted), at + 1)


def _matching(text: str, begin: int, closing: str, line: int) -> int:
    """Returns the position of the closing bracket."""
    opening, depth = {")": "(", "}": "{"}[closing[0]], 0
    for at in range(begin, len(text)):
        if depth == 0 and text.startswith(closing, at):
            return at
        depth += (text[at] == opening) - (text[at] == closing[0])
    raise ParseError(line, f"`{opening}` has no closing `{closing}`")
