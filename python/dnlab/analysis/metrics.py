"""Metrics and rows of summaries: their names, units and values, and the time range that they are about."""
import json
import re
from fnmatch import fnmatchcase
from fractions import Fraction
from typing import TYPE_CHECKING, Any, Iterable, NamedTuple, Optional, Sequence

from dnlab.analysis.quantities import ENDINGS, Percentile, percentile_name, shown
from dnlab.errors import InputError, reading
from dnlab.io.scenario_parts import DROP_CAUSES

if TYPE_CHECKING:
    from dnlab.analysis.view import View
    from dnlab.io.rows import Flags, Ints


class Span(NamedTuple):
    """A time range from `begin` to before `end`, ns; without an end, to the experiment's end."""
    begin: int = 0
    end: Optional[int] = None

    def is_whole(self) -> bool:
        """Returns whether nothing is left out.

        >>> Span().is_whole(), Span(0, 5).is_whole()
        (True, False)
        """
        return self.begin == 0 and self.end is None

    def has(self, moments: "Ints") -> "Flags":
        """Returns which times (ns, shape (n,)) are in it: `begin` is and `end` isn't. If it is whole, all
        are, even unknown ones.

        >>> import numpy as np
        >>> Span(2, 5).has(np.array([-1, 1, 2, 4, 5])).tolist()
        [False, False, True, True, False]
        """
        import numpy as np

        if self.is_whole():
            return np.ones(len(moments), dtype=np.bool_)
        found: Flags = moments >= self.begin
        return found if self.end is None else found & (moments < self.end)

    def is_over(self, moments: "Ints") -> "Flags":
        """Returns which times (ns, shape (n,)) are after it."""
        import numpy as np

        found: Flags = np.zeros(len(moments), dtype=np.bool_) if self.end is None else moments >= self.end
        return found

    def words(self) -> str:
        """Returns the range as text, '' if it is whole.

        >>> Span(10).words(), Span(0, 5).words()
        ('10..', '0..5')
        """
        return "" if self.is_whole() else f"{self.begin}..{'' if self.end is None else self.end}"

    def check(self, view: "View") -> None:
        """Raises `InputError` if the experiment has nothing in the range, or if the creation times of packets
        are unknown."""
        if self.is_whole():
            return
        if not view.is_told:
            view.must_be_traced("--from and --to need creation times")
        last = view.ended.moment
        if self.begin >= last:
            raise InputError(
                f"experiment {view.name}: it ended at {last} ns, but --from is {self.begin} ns: choose "
                "an earlier time")


def span_of(begin: int = 0, end: Optional[int] = None) -> Span:
    """Returns a range of whole nanoseconds. Raises `InputError` if it ends before it starts.

    >>> span_of(5, 7)
    Span(begin=5, end=7)
    """
    if begin < 0 or (end is not None and end <= begin):
        raise InputError(
            f"--from {begin} ns, --to {end} ns: the second time must be later than the first, and neither "
            "may be negative")
    return Span(begin, end)


Row = dict[str, Any]
# Rows of all senders, or of those of one direction; they have all warnings.
WHOLE = ("there", "back", "all")
PERCENTILES: tuple[Percentile, ...] = (50, 99)
_COUNTS = ("packets", "delivered", "in_flight", "bytes", "first", "last", "time", "rate")
_MORE = ("mean", "jitter", "useful", "goodput", "utilisation", "retransmissions", "fct", "jain", "seed",
         "budget_packets", "budget_steps", "params", "varied", "refused", "codes", "ended", "ended_at", "end",
         "warnings")


def times_of(percentiles: Sequence[Percentile]) -> tuple[str, ...]:
    """Returns the columns of one-way delays."""
    return "min", *(percentile_name(one) for one in percentiles), "max"


def columns_of(percentiles: Sequence[Percentile] = PERCENTILES, span: Span = Span()) -> tuple[str, ...]:
    """Returns all columns of a summary, in order; for a time range with `from` and `to` at the end."""
    return ("experiment", "sender", *_COUNTS, *DROP_CAUSES, *times_of(percentiles), *_MORE,
            *(() if span.is_whole() else ("from", "to")))


WHAT = ("window", "queue", "sojourn", "delivered", "drops")
# Panels that are drawn only on request; `dnlab.analysis.distributions` makes all except `flight`.
MORE = ("flight", "throughput", "cdf:sojourn", "cdf:throughput", "box:sojourn", "box:throughput")
# Former names of panels.
ALIASES = {"rate": "delivered"}


_PERCENTILE = re.compile(r"delay\.p([0-9]{1,3}(?:\.[0-9]{1,6})?)")
# Columns of a summary by their unit.
_PLAIN = {"packets": "count", "delivered": "count", "in_flight": "count", "bytes": "size", "useful": "size",
          "first": "time", "last": "time", "time": "time", "rate": "rate", "goodput": "rate",
          "utilisation": "share", "retransmissions": "count", "fct": "time", "jitter": "time",
          "jain": "index", "refused": "count", "ended": "ending"}
_DELAYS = ("min", "p50", "mean", "max")
# Metrics that only one kind of row has, with the reason for other rows.
_OF_KIND = {"fct": (("flow",), "only a flow has a completion time"),
            "retransmissions": (("flow",), "only a flow retransmits"),
            "jain": (("whole",), "only all flows together have an index of fairness"),
            "utilisation": (("pipe",), "only a pipe has a utilisation")}
_NOT_OF = {"useful": ("acks", "pipe"), "goodput": ("acks", "pipe")}


class Metric(NamedTuple):
    """A metric: its name, the kind of its amounts (a key of `dnlab.analysis.quantities.UNITS`), and its
    column in a summary.

    `loss` (drops divided by created packets) and `drops` (their sum) are computed from several columns, and
    have none of their own."""
    word: str
    kind: str
    column: str

    def of(self, row: Row) -> Optional[Fraction]:
        """Returns its value in a row, in base units (ns, bytes, bit/s, fractions, counts), or None if
        unknown."""
        if self.column:
            value = row.get(self.column)
            if self.kind == "ending" and value is not None:
                value = ENDINGS.index(value)
            return None if value is None else Fraction(value)
        counts = [row.get(cause) for cause in DROP_CAUSES]
        if any(count is None for count in counts):
            return None
        dropped = sum(count for count in counts if count is not None)
        if self.word == "drops":
            return Fraction(dropped)
        return Fraction(dropped, row["packets"]) if row["packets"] else None

    def applies(self, row: Row) -> bool:
        """Returns whether rows of this kind can have it at all."""
        kind = kind_of(row["sender"])
        only, _ = _OF_KIND.get(self.word, ((kind,), ""))
        # With packets in both directions, `all` has only counts, and new data is in `there`.
        both = (row["sender"] == "all" and row.get("bytes") is None and row.get("seed") is not None
                and row["packets"] > 0)
        return (kind in only and kind not in _NOT_OF.get(self.word, ())
                and not (both and self.kind in ("time", "rate", "size"))
                and not (row["sender"] == "back" and self.word in (*_NOT_OF, "jain")))

    def is_delay(self) -> bool:
        """Returns whether it concerns only packets that were delivered."""
        return self.word.startswith("delay.") or self.word == "jitter"

    def only(self) -> str:
        """Returns which rows have it, as text."""
        return _OF_KIND[self.word][1] if self.word in _OF_KIND else f"no row here has {self.word}"

    def why(self, row: Row) -> str:
        """Returns why a row has no value, as far as known."""
        if row["sender"] == "all" and not self.applies(row) and self.word not in _OF_KIND:
            return "`all` has both directions: use `there` or `back`"
        if not self.applies(row):
            return self.only() if self.word in _OF_KIND else f"rows of this kind have no {self.word}"
        if row.get("bytes") is None and row.get("packets"):
            return "make the report with --trace: `dnlab alone --trace < scenario.txt > report.txt`"
        if row.get("seed") is None:
            return "give the scenario"
        if self.word == "fct":
            return ("it had not finished when the experiment ended, at "
                    f"{shown(Fraction(row['ended_at']), 'time', 's')}")
        if self.word == "utilisation":
            return "the pipe has no rate (`bw 0`, or none), or it served nothing"
        if row.get("delivered") == 0 and (self.kind in ("time", "rate")):
            return "nothing was delivered"
        if self.word == "jitter" and row.get("delivered") == 1:
            return "a single packet has no jitter"
        if self.word.startswith("drops") or self.word == "loss":
            return "without --trace no line says which pipe dropped a packet; use `all`, or a sender"
        return "no line has it"


def kind_of(of: str) -> str:
    """Returns the kind of a summary's row.

    >>> kind_of("flow 1"), kind_of("flow 1 acks"), kind_of("pipe 1.0 back"), kind_of("all")
    ('flow', 'acks', 'pipe', 'whole')
    """
    if of in WHOLE:
        return "whole"
    return "acks" if of.endswith(" acks") else of.partition(" ")[0]


def is_named(of: str, pattern: str) -> bool:
    """Returns whether a pattern matches a row: `flow *` matches flows, and not their acknowledgements, which
    `flow * acks` matches.

    >>> is_named("flow 1", "flow *"), is_named("flow 1 acks", "flow *")
    (True, False)
    >>> is_named("flow 1 acks", "flow * acks")
    True
    """
    return (fnmatchcase(of, pattern)
            and not (kind_of(of) == "acks" and pattern.startswith("flow") and "ack" not in pattern))


# As in messages and help.
WORDS = (*_PLAIN, "loss", "drops", *(f"drops.{cause}" for cause in DROP_CAUSES),
         *map("delay.{}".format, _DELAYS), "delay.pN")


def refuse_share(percentile: str) -> None:
    """Raises `ValueError` for a percentile below 1, which is meant as a fraction.

    >>> refuse_share("0.95")
    Traceback (most recent call last):
    ValueError: p0.95 is below the first percentile: write p95
    """
    if 0 < Fraction(percentile) < 1:
        meant = f"{float(Fraction(percentile) * 100):g}"
        raise ValueError(f"p{percentile} is below the first percentile: write p{meant}")


def metric_of(word: str) -> Metric:
    """Returns the metric of a name. Raises `ValueError` with the names that exist.

    >>> metric_of("delay.p95")
    Metric(word='delay.p95', kind='time', column='p95')
    """
    if word in _PLAIN:
        return Metric(word, _PLAIN[word], word)
    if word == "loss":
        return Metric(word, "share", "")
    if word == "drops":
        return Metric(word, "count", "")
    if word.startswith("drops.") and word[6:] in DROP_CAUSES:
        return Metric(word, "count", word[6:])
    if word.startswith("delay.") and word[6:] in _DELAYS:
        return Metric(word, "time", word[6:])
    found = _PERCENTILE.fullmatch(word)
    if found:
        refuse_share(found[1])
    if found and 0 < Fraction(found[1]) <= 100:
        return Metric(word, "time", percentile_name(found[1]))
    raise ValueError(f"there is no metric {word!r}; the metrics are {', '.join(WORDS)}")


def metrics(percentiles: Iterable[str] = tuple(map(str, PERCENTILES))) -> list[Metric]:
    """Returns all metrics, with these percentiles of the delay."""
    words = [word for word in WORDS if not word.startswith("delay.")]
    return [metric_of(word) for word in words] + [Metric(f"delay.{name}", "time", name)
                                                  for name in (*times_of(list(percentiles)), "mean")]


def percentiles_in(found: Iterable[Metric]) -> list[str]:
    """Returns the percentiles that a summary must have for some metrics."""
    names = dict.fromkeys(one.column[1:] for one in found if one.word.startswith("delay.")
                          and one.column not in ("min", "mean", "max"))
    return list(names)


def stored_rows(name: str) -> Optional[dict[str, list[Row]]]:
    """Returns the rows of a file of `dnlab-summary --json`, by experiment, or None for a report. Standard
    input is a report."""
    # Imported here, because nothing else of this module opens files.
    from dnlab.io.files import opened_gzip

    if name == "-":
        return None
    with reading(name), open(name, "rb") as packed, opened_gzip(packed) as file:
        if file.peek(1)[:1] != b"[":
            return None
        text = file.read()
    try:
        rows = json.loads(text)
        found: dict[str, list[Row]] = {}
        for row in (dict(one) for one in rows):
            # Columns that every row of a summary has, and no row of --every, --losses or --by.
            if not {"experiment", "sender", "packets", "delivered", "in_flight", "warnings"} <= set(row):
                raise ValueError
            found.setdefault(row["experiment"], []).append(row)
    except (ValueError, TypeError):
        raise InputError(
            f"{name}: it is not a complete summary: `dnlab-summary REPORT SCENARIO "
            "--json` makes one") from None
    return found
