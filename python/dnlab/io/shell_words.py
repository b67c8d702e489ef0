"""Finds the arguments that a shell script passes to ipfw(8), sysctl(8) and sleep(1), without running it.
Refuses other syntax.

Each construct of the part of sh(1) that configurations of ipfw(8) use is parsed into a function that
interprets it.

>>> words_of("for rate in 1 2; do ipfw pipe 1 config bw ${rate}Mbit/s; done")
[('ipfw', 'pipe', '1', 'config', 'bw', '1Mbit/s'), ('ipfw', 'pipe', '1', 'config', 'bw', '2Mbit/s')]
"""
import fnmatch
import re
from functools import partial
from typing import Callable, Optional

from dnlab.errors import ParseError
from dnlab.io.shell_interpreter import MARKS, Ends, Interpreter, Step, Steps
from dnlab.io.shell_lexer import Lexer, Part, Token, Word

_ASSIGNED = re.compile(r"([A-Za-z_][A-Za-z_0-9]*)=")
# Words that end a list of commands, where a command would start.
_CLOSING = {"then", "else", "elif", "fi", "do", "done", "esac", "}", ";;", ")"}
_UNKNOWN = {"select", "function", "[[", "time", "coproc"}
# The maximum number of characters of a script.
_LONGEST = 2**18


class _Parser:
    """Parses a script into functions of an interpreter."""

    def __init__(self, text: str, script: Interpreter) -> None:
        self.tokens, self.at, self.script = Lexer(text).tokens(), 0, script

    def _now(self) -> Token:
        return (self.tokens[self.at] if self.at < len(self.tokens)
                else Token(self.tokens[-1].line if self.tokens else 1, (), "end"))

    def _take(self, wanted: str = "") -> Token:
        token = self._now()
        if wanted and token.plain() != wanted:
            raise ParseError(token.line, f"`{wanted}` is missing before `{token.shown()}`")
        self.at += 1
        return token

    def _is(self, *wanted: str) -> bool:
        return self._now().plain() in wanted

    def _skip(self, *words: str) -> bool:
        """Skips a word if it is one of these; returns whether it was."""
        is_there = self._is(*words)
        self.at += is_there
        return is_there

    def _feeds(self) -> None:
        while self._skip("\n"):
            pass

    def steps(self, *closing: str) -> tuple[Steps, str]:
        """Parses commands and a word that closes them. Returns the commands and the word."""
        found: Steps = []
        self._feeds()
        while not self._is("end", *_CLOSING):
            found.append(self._chain())
            if not self._is(";", "\n", "end", *_CLOSING):
                raise ParseError(self._now().line, f"`{self._now().shown()}` isn't understood")
            self._skip(";")
            self._feeds()
        if not self._is(*(closing or ("end",))):
            raise ParseError(self._now().line,
                             f"`{self._now().shown()}` where "
                             f"{' or '.join(f'`{one}`' for one in closing) or 'a command'} should be")
        return found, self._take().plain()

    def _chain(self) -> Step:
        first, rest = self._command(), list[tuple[str, Step]]()
        while self._is("&&", "||"):
            operator = self._take().operator
            self._feeds()
            rest.append((operator, self._command()))

        def run() -> int:
            status = int(not self.script.is_true([first]))
            for operator, step in rest:
                if (operator == "&&") == (status == 0):
                    self.script.line = step.line
                    status = step.run()
            return status

        return Step(first.line, run) if rest else first

    def _command(self) -> Step:
        token = self._now()
        word = token.plain()
        if self._skip("!"):
            turned = self._command()
            return Step(token.line, lambda: int(self.script.is_true([turned])))
        if word in _UNKNOWN:
            raise ParseError(token.line, f"`{word}` isn't understood")
        parse = {"if": self._if, "while": self._while, "until": self._while, "for": self._for,
                 "case": self._case, "{": self._group}.get(word)
        if parse is None:
            return self._simple()
        self.at += 1
        run, body = parse(word), self._redirected()
        if body is not None and parse == self._while:
            run = partial(self.script.with_input, body, run)
        return Step(token.line, run)

    def _if(self, word: str) -> Callable[[], int]:
        branches, otherwise = list[tuple[Steps, Steps]](), Steps()
        while word in ("if", "elif"):
            condition, _ = self.steps("then")
            body, word = self.steps("elif", "else", "fi")
            branches.append((condition, body))
        if word == "else":
            otherwise, _ = self.steps("fi")
        script = self.script
        return lambda: script.run(next((body for condition, body in branches if script.is_true(condition)),
                                       otherwise))

    def _while(self, word: str) -> Callable[[], int]:
        condition, _ = self.steps("do")
        body, _ = self.steps("done")

        def run() -> int:
            while self.script.is_true(condition) == (word == "while") and self.script.goes_on(body):
                pass
            return 0

        return run

    def _for(self, _: str) -> Callable[[], int]:
        name, words = self._take().plain(), list[Word]()
        self._feeds()
        has_words = self._skip("in")
        while has_words and self._now().word:
            words.append(self._take().word)
        self._skip(";")
        self._feeds()
        self._take("do")
        body, _ = self.steps("done")

        def run() -> int:
            for value in self.script.fields(words) if has_words else list(self.script.given):
                self.script.values[name] = value
                if not self.script.goes_on(body):
                    break
            return 0

        return run

    def _case(self, _: str) -> Callable[[], int]:
        word = self._take().word
        self._feeds()
        self._take("in")
        self._feeds()
        branches: list[tuple[list[Word], Steps]] = []
        while not self._skip("esac"):
            if self._is("end"):
                self._take("esac")
            self._skip("(")
            patterns = [self._take().word]
            while self._skip("|"):
                patterns.append(self._take().word)
            self._take(")")
            body, closing = self.steps(";;", "esac")
            branches.append((patterns, body))
            if closing == "esac":
                break
            self._feeds()
        script = self.script

        def run() -> int:
            value = script.text(word)
            return script.run(next((body for patterns, body in branches
                                    if any(fnmatch.fnmatchcase(value, script.text(one)) for one in patterns)),
                                   []))

        return run

    def _group(self, _: str) -> Callable[[], int]:
        body, _ = self.steps("}")
        return lambda: self.script.run(body)

    def _simple(self) -> Step:
        begin = self._now()
        words, assigned, body = list[Word](), list[tuple[str, Word]](), self._redirected()
        while self._now().word:
            token = self._take()
            first = token.word[0]
            name = (_ASSIGNED.match(first.text) if not words and first.kind == "text"
                    and not first.quoted else None)
            if name:
                assigned.append((name[1], (Part("text", first.text[name.end():]), *token.word[1:])))
            else:
                words.append(token.word)
            if len(words) == 1 and not assigned and self._is("("):
                return self._function(token)
            here = self._redirected()
            body = body if here is None else here
        if not words and not assigned:
            raise ParseError(begin.line, f"`{begin.shown()}` isn't understood")
        return Step(begin.line, lambda: self.script.command(assigned, words, body), is_simple=True)

    def _function(self, name: Token) -> Step:
        self._take("(")
        self._take(")")
        self._feeds()
        self._take("{")
        body, _ = self.steps("}")
        return Step(name.line, lambda: self.script.functions.update({name.plain(): body}) or 0)

    def _redirected(self) -> Optional[Word]:
        """Skips redirections; returns the here-document, if there is one. No file is read or written."""
        body: Optional[Word] = None
        while self._is("<<", "<<-"):
            body = self._take().body
        while self._is("<", ">", ">>", ">&", "<&", ">|"):
            operator = self._take()
            target = self._take().plain()
            if (target != "/dev/null"
                and not (operator.operator in (">&", "<&") and re.fullmatch(r"[0-9-]", target))):
                raise ParseError(operator.line,
                                 f"`{operator.operator} {target}`: redirections to and from files "
                                 "are not supported")
        return body


def words_of(text: str) -> list[tuple[str, ...]]:
    """Returns the arguments of each call of `ipfw`, `sysctl` and `sleep` in a script, in order. Raises
    `ParseError` with the line that isn't understood, or whose loops don't end."""
    if len(text) > _LONGEST:
        raise ParseError(1, f"the script has {len(text)} characters; the maximum is {_LONGEST}")
    for mark in MARKS:
        if mark in text:
            raise ParseError(text[:text.index(mark)].count("\n") + 1,
                             f"the character {mark!r} isn't understood")
    script = Interpreter()
    try:
        script.run(_Parser(text, script).steps()[0])
    except Ends as ends:
        if ends.word == "exit" and ends.status:
            raise script.no(f"the script ends with status {ends.status}") from None
        if ends.word != "exit":
            raise script.no(f"`{ends.word}` is outside of a loop or function") from None
    except RecursionError:
        raise script.no("commands are nested too deeply") from None
    return script.found
