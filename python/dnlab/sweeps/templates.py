"""Templates of scenarios in Jinja2 (Debian: python3-jinja2), with placeholders for settings, the seed and
random numbers."""
import itertools
import math
import os
import re
from fractions import Fraction
from pathlib import Path
from types import TracebackType
from typing import Any, Callable, Iterator, Mapping, NoReturn, Optional, Union

import jinja2
import jinja2.meta
import jinja2.sandbox

from dnlab.errors import InputError
from dnlab.io.scenario_parts import MOST_BYTES
from dnlab.rng import Chance, Traffic
from dnlab.sweeps.grid import GIVEN, as_written, why_reserved

_TEXT = "<template>"
# A loop over more numbers would make a text that no program accepts.
_MOST_NUMBERS = 10**6
# The length is checked each time this many pieces of a text are joined.
_TOGETHER = 1000
# The maximum of memory that a text may take, in bytes.
MOST_MEMORY = 2**29
# The maximum size of an integer, in bytes.
_MOST_DIGITS = 1 << 10


def nanoseconds(unit: int) -> Callable[[Any], int]:
    """Returns the filter of a unit, which converts to whole nanoseconds.

    >>> nanoseconds(10**6)("0.5")
    500000
    """
    def filtered(value: Any) -> int:
        text = str(as_written(value))
        # A number with a huge exponent would take forever to compute.
        if len(text) > 64 or re.search(r"[eE][-+]?[0-9]{3}", text):
            raise ValueError(f"{text[:64]!r} is not a time")
        time = Fraction(text) * unit
        if time.denominator != 1:
            raise ValueError(f"{value} is not a whole number of nanoseconds")
        return int(time)

    return filtered


def _no_chance(*_: Any) -> NoReturn:
    raise jinja2.TemplateRuntimeError(
        "the filter `random` gives another value each time: use rng.choice(..), which depends on the seed")


class _Numbers:
    """A range like Python's, of any length for access to single numbers, but limited in length for loops."""

    def __init__(self, *ends: int) -> None:
        self._range = range(*ends)

    def __len__(self) -> int:
        return len(self._range)

    def __contains__(self, value: object) -> bool:
        return value in self._range

    def __getitem__(self, place: int) -> int:
        return self._range[place]

    def __iter__(self) -> Iterator[int]:
        if len(self._range) > _MOST_NUMBERS:
            raise OverflowError(
                f"{self._range}: it has {len(self._range)} numbers, but a template may loop over at most "
                f"{_MOST_NUMBERS}")
        return iter(self._range)


class _Sandbox(jinja2.sandbox.SandboxedEnvironment):
    """Restricts a template to what it is given, and to results that fit into a scenario."""

    intercepted_binops = frozenset(("*", "**", "+", "%"))

    def call_binop(self, context: jinja2.runtime.Context, operator: str, left: Any, right: Any) -> Any:
        """Computes an operation unless its result, judged by the operands, would have more bytes than a
        scenario."""
        size = most = MOST_BYTES
        if isinstance(left, int) and isinstance(right, int):
            bits = (left.bit_length() * abs(right) if operator == "**"
                    else left.bit_length() + right.bit_length())
            size, most = bits // 8, _MOST_DIGITS
        elif operator == "%" and isinstance(left, str):
            size = (MOST_BYTES + 1 if "*" in left
                    else max(map(int, re.findall(r"[0-9]{1,18}", left)), default=0))
        elif operator == "*":
            size = math.prod(value if isinstance(value, int) else len(value) if hasattr(value, "__len__")
                             else 1 for value in (left, right))
        elif operator == "+":
            size = sum(len(value) for value in (left, right) if hasattr(value, "__len__"))
        if size > most:
            raise OverflowError(f"the result of `{operator}` would have {size} bytes")
        return super().call_binop(context, operator, left, right)


class _Loader(jinja2.FileSystemLoader):
    """Loads templates from a folder, but no hidden files and no links out of it; remembers which files were
    read, to find their lines in tracebacks."""

    def __init__(self, folder: Path, own: str) -> None:
        super().__init__(folder)
        self.folder = os.path.realpath(folder)
        # The template itself is read by whatever name it has.
        self.own = own
        self.files: set[str] = {_TEXT}

    def get_source(self, environment: jinja2.Environment,
                   template: str) -> tuple[str, str, Callable[[], bool]]:
        if template != self.own:
            if any(part.startswith(".") and part not in (".", "..") for part in template.split("/")):
                raise jinja2.TemplateRuntimeError(f"{template}: a hidden file can't be included")
            real = os.path.realpath(os.path.join(self.folder, template))
            if not real.startswith(self.folder + os.sep):
                raise jinja2.TemplateRuntimeError(f"{template}: it is outside the template's folder")
        found = super().get_source(environment, template)
        self.files.add(found[1])
        return found


class Template:
    """A template: the path of its file, or its text (a str of more than one line).

    Undefined names are errors. It may include and import other templates of its folder. Raises `InputError`
    with the file, the line and the cause."""

    def __init__(self, source: Union[str, Path]) -> None:
        is_text = isinstance(source, str) and "\n" in source
        self.path = None if is_text else Path(source)
        self.name = "template" if self.path is None else str(self.path)
        self._source = source
        folder = Path(".") if self.path is None else self.path.parent
        self._loader = _Loader(folder, "" if self.path is None else self.path.name)
        self._environment = _Sandbox(
            loader=self._loader, undefined=jinja2.StrictUndefined, keep_trailing_newline=True,
            # Rendering has limits (`making`), compiling has none: so the compiler must not evaluate
            # constants. It evaluates none without its optimizer, and with a `finalize` that takes the
            # context.
            optimized=False, finalize=jinja2.pass_context(lambda _, value: as_written(value)))
        self._environment.filters.update(s=nanoseconds(10**9), ms=nanoseconds(10**6), us=nanoseconds(10**3),
                                         random=_no_chance)
        self._environment.globals.pop("lipsum")
        self._environment.globals["range"] = _Numbers
        try:
            self.text = str(source) if self.path is None else self.path.read_text(encoding="utf-8")
            self._compiled = (self._environment.from_string(self.text) if self.path is None
                              else self._environment.get_template(self.path.name))
            self.names = self._names(self.text, set())
        except jinja2.TemplateError as fault:
            raise InputError(self._told(fault)) from None
        except OSError as fault:
            raise InputError(f"{self.name}: {fault.strerror}") from None
        except UnicodeDecodeError as fault:
            raise InputError(f"{self.name}: it is not UTF-8 text: byte {fault.start} is invalid") from None

    def __reduce__(self) -> "tuple[type[Template], tuple[Union[str, Path]]]":
        """Makes pickling recompile the template in the other process."""
        return Template, (self._source,)

    def _names(self, text: str, seen: set[str]) -> set[str]:
        """Returns the names that a template uses from outside, including those of what it includes."""
        parsed = self._environment.parse(text)
        # Like jinja2.meta.find_undeclared_variables, which would evaluate constants.
        finder: Any = jinja2.meta.TrackingCodeGenerator(self._environment)
        finder.optimizer = None
        finder.visit(parsed)
        found: set[str] = set(finder.undeclared_identifiers)
        for name in jinja2.meta.find_referenced_templates(parsed):
            if name is not None and name not in seen:
                seen.add(name)
                try:
                    found |= self._names(self._loader.get_source(self._environment, name)[0], seen)
                except jinja2.TemplateNotFound:
                    continue  # Rendering reports a missing file with its line.
                except jinja2.TemplateRuntimeError:
                    continue
        return found

    def render(self, name: str, seed: int, settings: Mapping[str, Any]) -> str:
        """Returns the text of an experiment, which ends with a line feed. Raises `InputError` if it is longer
        than a scenario may be."""
        parts, size = [], 0
        try:
            rng = Chance(seed)
            given = {**settings, "name": name, "seed": seed, "rng": rng, "traffic": Traffic(rng)}
            pieces = self._compiled.generate(given)
            while batch := list(itertools.islice(pieces, _TOGETHER)):
                parts.append("".join(batch))
                size += len(parts[-1])
                if size > MOST_BYTES:
                    raise InputError(
                        f"{self.name}: the text of {name} has more than {MOST_BYTES} bytes, the "
                        "maximum of a scenario")
        except InputError:
            raise
        except Exception as fault:  # A template computes, so any exception may occur in it.
            raise InputError(self._told(fault)) from None
        text = "".join(parts)
        return text if text.endswith("\n") else text + "\n"

    def _told(self, fault: Exception) -> str:
        """Returns a fault with its file and line."""
        if isinstance(fault, jinja2.TemplateSyntaxError):
            return f"{fault.filename or self.name}: line {fault.lineno}: {fault.message}"
        file, line = self._place(fault.__traceback__)
        cause = str(fault) or type(fault).__name__
        if isinstance(fault, jinja2.TemplateNotFound):
            cause = f"there is no template {fault.name}"
        elif isinstance(fault, jinja2.UndefinedError):
            undefined = re.match(r"'(\w+)' is undefined", cause)
            taken = why_reserved(undefined[1]) if undefined else None
            cause += (f" ({taken})" if taken
                      else f" (--set defines settings, and every template has {', '.join(GIVEN)})")
        elif isinstance(fault, MemoryError) and not str(fault):
            cause = f"a text may use at most {MOST_MEMORY} bytes of memory"
        elif not isinstance(fault, jinja2.TemplateError):
            cause = f"{type(fault).__name__}: {cause}"
        return f"{file}: line {line}: {cause}" if line else f"{file}: {cause}"

    def _place(self, trace: Optional[TracebackType]) -> tuple[str, Optional[int]]:
        """Returns the last line of a template in a traceback; Jinja2 puts its lines there."""
        place: tuple[str, Optional[int]] = self.name, None
        while trace is not None:
            file = trace.tb_frame.f_code.co_filename
            if file in self._loader.files:
                place = self.name if file == _TEXT else file, trace.tb_lineno
            trace = trace.tb_next
        return place
