"""The only reader of the text of reports (docs/reference/report.md), one experiment at a time.

`read_text` parses an experiment into rows, or raises `ParseError` with the line and the cause. In each
block of lines a pattern finds the first one that no report has. In those before it, numbers replace words,
so that NumPy reads them at once. Redundant data is compared: the commands' numbers increase by one, times
don't decrease, a packet ends once, and the counters are the sums of the lines.
"""
import re
from typing import Iterable, Iterator, NamedTuple, Optional

import numpy as np

from dnlab.io.rows import (ACK, ARRIVE, DELIVER, DELIVER_ACK, DELIVER_DATA, DROP, DROP_ACK, DROP_DATA, EXPIRE,
                           FINISH, IDENTIFY, INSTANCE, MAKE_ACK, MAKE_COMMAND, MAKE_DATA, OK, PASS, PIPE,
                           REFUSED, ROW, RULE, SPENT, UNKNOWN_SOURCE, Counters, Ints, Records, Rows, kinds_of)
from dnlab.io.scenario_parts import DROP_CAUSES as CAUSES

Fault = tuple[int, str]
# No experiment has more packets: it has at most 10^7 steps, and each creates at most one.
_MOST_PACKETS = 10**7
CODES = (10, 11, 12, 13, 20, 21, 22, 23, 24, 25)
_N = r"(?:0|[1-9][0-9]{0,15})"
_LOAD = rf"{_N} (?:plain|(?:data|ack) {_N} {_N})"
_HEADER = rf"(?:tcp|udp) {_N}\.{_N}\.{_N}\.{_N} {_N} {_N}\.{_N}\.{_N}\.{_N} {_N}"
_TIMED = re.compile(rf"(?:{_N} (?:(?:arrive|finish|pass) {_N} {_N}\.{_N}|deliver {_LOAD}"
                    rf"|make {_LOAD} {_HEADER} {_N}"
                    rf"|drop {_LOAD} (?:{'|'.join(CAUSES)})|(?:ack|expire) {_N} {_N} {_N}|ok {_N}|spent"
                    rf"|refused {_N} (?:{'|'.join(map(str, CODES))}))\n)*".encode())
_COUNTERS = re.compile(rf"counters(?: {_N}){{11}}".encode())
_ANY = r"(?:0|[1-9][0-9]*)"
_IDENTIFIER = r"[0-9a-f]{2}/[0-9a-f]{8}/[0-9a-f]{8}/[0-9a-f]{4}/[0-9a-f]{4}"
_END = rf"(?:any|{_ANY}\.{_ANY}\.{_ANY}\.{_ANY}(?:/{_ANY})?)(?: {_ANY}(?:-{_ANY})?)?"
# The lines of listings, by their words, with the columns of their numbers.
LISTINGS = {
    "rule": (RULE, re.compile(
        rf"rule (?P<source>[0-9]{{5}}) (?P<number>{_ANY}) (?P<more>{_ANY})"
        rf" (?:allow|deny|count|skipto {_ANY}|pipe {_ANY}) (?:ip|tcp|udp) from {_END} to {_END}")),
    "pipe": (PIPE, re.compile(
        rf"pipe (?P<pipe>{_ANY}) bw {_ANY} delay {_ANY} queue {_ANY}(?:KBytes)? plr {_ANY} mask {_IDENTIFIER}"
        rf" (?:droptail|codel target {_ANY} interval {_ANY})")),
    "instance": (INSTANCE, re.compile(
        rf"instance (?P<pipe>{_ANY})\.(?P<instance>{_ANY}) waiting (?P<number>{_ANY}) bytes (?P<more>{_ANY})"
        rf" busy (?P<code>[01]) flight (?P<packet>{_ANY}) drawn (?P<source>{_ANY})")),
}
_IDENTIFY = re.compile(rf"(?P<moment>{_N}) identify (?P<pipe>{_N})\.(?P<instance>{_N})"
                       rf" (?P<flow>{_IDENTIFIER})")
# The numbers that replace words, so that all lines of a kind have equally many; and the last of each line.
_LAST = -1
_NUMBERS = [(word.encode(), f"{number}".encode()) for word, number in {
    "ok": OK, "refused": REFUSED, "make": MAKE_COMMAND, "arrive": ARRIVE, "finish": FINISH, "pass": PASS,
    "deliver": DELIVER, "drop": DROP, "ack": ACK, "expire": EXPIRE, "spent": SPENT, "plain": "0 0 0",
    "data": 1, "tcp": 6, "udp": 17, **{cause: code for code, cause in enumerate(CAUSES, 1)}, ".": " ",
    "\n": f" {_LAST} "}.items()]
# The kinds of rows with a load, by the number of its word.
_LOADED = {MAKE_COMMAND: (MAKE_COMMAND, MAKE_DATA, MAKE_ACK), DELIVER: (DELIVER, DELIVER_DATA, DELIVER_ACK),
           DROP: (DROP, DROP_DATA, DROP_ACK)}


class Parsed(NamedTuple):
    """The lines of an experiment up to the first fault: their rows, the texts of listing lines by row, the
    counters if they were reached, and the fault: its row and the cause."""
    rows: Rows
    listings: dict[int, str]
    counters: Optional[list[int]]
    fault: Optional[Fault]


class _Field(NamedTuple):
    """A number of a line: the column it is added to, times `scale`. Above `most` it is a fault; without
    `most`, the largest number that fits replaces a larger one."""
    column: str
    most: Optional[int] = None
    scale: int = 1


_WHICH, _FLOW, _SOURCE, _NUMBER = (
    _Field("packet", 2**31 - 1), _Field("source", 65535), _Field("source"), _Field("number"))
_INSTANCE = [_WHICH, _Field("pipe", 65535), _Field("instance", 255)]
_LOADS = [_WHICH, _Field("kind"), _FLOW, _NUMBER]
_WINDOW = [_FLOW, _NUMBER, _Field("more")]
# The numbers of the lines of each kind, after the time and the kind.
_FIELDS = {
    OK: [_SOURCE], REFUSED: [_SOURCE, _Field("code")], ARRIVE: _INSTANCE, FINISH: _INSTANCE, PASS: _INSTANCE,
    ACK: _WINDOW, EXPIRE: _WINDOW, DELIVER: _LOADS, DROP: [*_LOADS, _Field("code")],
    MAKE_COMMAND: [*_LOADS, _Field("code"),
                   *(_Field("src", 255, 1 << bits) for bits in (24, 16, 8, 0)), _Field("more", 65535),
                   *(_Field("dst", 255, 1 << bits) for bits in (24, 16, 8, 0)), _Field("more", 65535, 65536),
                   _Field("size", 65535)]}


class _Other(NamedTuple):
    """A line of a listing, or of `identify`: its columns, its text, and the position after it."""
    columns: dict[str, int]
    text: str
    end: int


def _other_at(block: bytes, begin: int) -> Optional[_Other]:
    """Returns the line at a position, or None if it isn't one of a listing or of `identify`."""
    end = block.find(b"\n", begin)
    line = block[begin:end].decode("ascii", "replace")
    kind, pattern = LISTINGS.get(line.split(" ", 1)[0], (IDENTIFY, _IDENTIFY))
    found = pattern.fullmatch(line)
    if not found:
        return None
    columns = found.groupdict()
    flow = columns.pop("flow", None)
    row = {"kind": kind,
           **{name: min(int(value), int(np.iinfo(ROW[name]).max)) for name, value in columns.items()}}
    if flow is not None:
        if int(columns["pipe"]) > 65535 or int(columns["instance"]) > 255:
            return None
        row["code"], row["src"], row["dst"], port, other = (int(part, 16) for part in flow.split("/"))
        row["more"] = port | other << 16
    return _Other(row, line, end + 1)


def _rows_of(block: bytes) -> tuple[Rows, dict[int, str], bytes]:
    """Returns the rows of a block of whole lines, the texts of listing lines by row, and the rest from the
    first line on that no report has."""
    others: list[_Other] = []
    lines: list[bytes] = []
    begin, end = 0, _end_of_timed(block, 0)
    while other := _other_at(block, end):
        lines += [block[begin:end], b"0 %d\n" % RULE]
        others.append(other)
        begin, end = other.end, _end_of_timed(block, other.end)
    text = b"".join([*lines, block[begin:end]])
    for word, number in _NUMBERS:
        text = text.replace(word, number)
    rows, bad = _table(np.fromstring(text, dtype=np.int64, sep=" ") if text else np.zeros(0, dtype=np.int64))
    places = np.flatnonzero(rows["kind"] == RULE).tolist()
    for place, other in zip(places, others):
        for column, value in other.columns.items():
            rows[column][place] = value
    texts = {place: other.text for place, other in zip(places, others)
             if place < bad and rows["kind"][place] != IDENTIFY}
    return rows[:bad], texts, b"\n".join(block.split(b"\n")[bad:]) if bad < len(rows) else block[end:]


def _end_of_timed(block: bytes, begin: int) -> int:
    """Returns where the lines that begin with a time, without those of `identify`, end."""
    found = _TIMED.match(block, begin)
    assert found is not None
    return found.end()


def _table(numbers: Ints) -> tuple[Rows, int]:
    """Returns rows by the numbers of their lines, and the first row with a number that is too large."""
    last = np.flatnonzero(numbers == _LAST)
    first = np.concatenate((np.zeros(1, dtype=np.int64), last[:-1] + 1))[:len(last)]
    rows, bad = np.zeros(len(last), dtype=ROW), len(last)
    kind = numbers[first + 1]
    rows["moment"], rows["kind"] = numbers[first], kind
    for word, fields in _FIELDS.items():
        places = np.flatnonzero(kind == word)
        if not len(places):
            continue
        at = first[places] + 1
        for column, most, scale in fields:
            at += 1
            values = numbers[at]
            if column == "kind":
                rows["kind"][places] = np.array(_LOADED[word], dtype=np.uint8)[np.minimum(values, 2)]
                continue
            if most is not None and int(values.max()) > most:
                bad = min(bad, int(places[np.flatnonzero(values > most)[0]]))
            rows[column][places] += (np.minimum(values, most or 2**32 - 1) * scale).astype(ROW[column])
    rows["source"][rows["kind"] == MAKE_COMMAND] = UNKNOWN_SOURCE
    return rows, bad


def cause_of(line: bytes) -> str:
    """Returns why a line is refused."""
    if not line.isascii():
        return "a byte that no report has"
    text = line.decode("ascii")
    word = text.split(" ", 1)[0]
    if word in LISTINGS:
        return f"not a valid `{word}` line of a listing"
    return f"not a line of a report: {text[:60]!r}"


def parse(blocks: Iterable[bytes]) -> Parsed:
    """Parses the lines of an experiment, in blocks of whole lines."""
    parts = [np.zeros(0, dtype=ROW)]
    listings: dict[int, str] = {}
    counters: Optional[list[int]] = None
    fault: Optional[Fault] = None
    count = 0
    for block in blocks:
        rest = block
        if counters is None:
            rows, texts, rest = _rows_of(block)
            parts.append(rows)
            listings |= {count + row: text for row, text in texts.items()}
            count += len(rows)
            line, _, after = rest.partition(b"\n")
            if _COUNTERS.fullmatch(line):
                counters, rest = [int(number) for number in line.split(b" ")[1:]], after
            elif rest:
                fault = count, cause_of(line)
                break
        if rest:
            shown = rest.split(b"\n", 1)[0][:60].decode("ascii", "replace")
            fault = count + 1, f"expected `experiment NAME` here: {shown!r}"
            break
    return Parsed(np.concatenate(parts), listings, counters, fault)


def read_text(name: str, line: int, blocks: Iterable[bytes]) -> Records:
    """Parses an experiment whose heading is in `line`. Raises `ParseError` with the line."""
    rows, listings, counters, fault = parse(blocks)
    found = Records(name, rows, kinds_of(rows), Counters(), line, None, listings)
    if fault is None and counters is None:
        fault = len(rows), "the report ends without the counters"
    faults = [*_faults(found), *([fault] if fault else [])]
    if counters is not None and not faults:
        faults = list(_wrong_sums(found, *counters))
    if faults or counters is None:
        raise found.refused(*min(faults, key=lambda one: one[0]))
    made, delivered, held, *drops = counters
    found.counters = Counters(made, delivered, held, dict(zip(CAUSES, drops)))
    return found


def _faults(records: Records) -> Iterator[Fault]:
    """Yields the first fault of each kind: lines that contradict other lines."""
    kind, spent = records.kind, records.at(SPENT)
    if len(spent) and spent[0] + 1 < len(records):
        yield int(spent[0]) + 1, "a record after `spent`"
    timed = np.flatnonzero(kind < RULE)
    moments = records.take("moment", timed)
    falls = np.flatnonzero(moments[1:] < moments[:-1])
    if len(falls):
        yield int(timed[falls[0] + 1]), f"time {moments[falls[0] + 1]} after {moments[falls[0]]}"
    rows = records.commands()
    numbers = records.take("source", rows)
    bad = np.flatnonzero(numbers != np.arange(len(rows)))
    if len(bad):
        yield int(rows[bad[0]]), f"command {numbers[bad[0]]}, but {bad[0]} is next"
    before = np.concatenate((np.full(1, REFUSED, dtype=np.uint8), kind[:-1]))[:len(kind)]
    alone = np.flatnonzero((kind >= RULE) & (before != OK) & (before < RULE))
    if len(alone):
        yield int(alone[0]), "a listing line that doesn't follow the `ok` of its command"
    yield from _disorder(records)


def _named(records: Records) -> tuple[Ints, Ints]:
    """Returns the rows that name a packet, and these packets."""
    kind = records.kind
    rows = np.flatnonzero(((kind >= MAKE_COMMAND) & (kind <= DROP_ACK)) & (kind != IDENTIFY))
    return rows, records.take("packet", rows)


def _disorder(records: Records) -> Iterator[Fault]:
    """Yields rows that name a packet before its creation or after its end."""
    rows, packets = _named(records)
    if not len(packets):
        return
    if int(packets.max()) >= _MOST_PACKETS:
        at = int(np.flatnonzero(packets >= _MOST_PACKETS)[0])
        yield int(rows[at]), f"packet {packets[at]}, but an experiment has at most {_MOST_PACKETS}"
        return
    kind = records.kind[rows]
    ends, first = (np.full(int(packets.max()) + 1, value, dtype=np.int64) for value in (len(records), 0))
    is_end = np.flatnonzero(kind >= DELIVER)
    ends[packets[is_end[::-1]]] = rows[is_end[::-1]]
    late = np.flatnonzero(rows > ends[packets])
    if len(late):
        yield int(rows[late[0]]), f"packet {packets[late[0]]} was delivered or dropped before"
    first[packets[::-1]] = rows[::-1]
    behind = np.flatnonzero((kind <= MAKE_ACK) & (rows > first[packets]))
    if len(behind):
        yield int(rows[behind[0]]), f"packet {packets[behind[0]]} is created after another line that names it"


def _wrong_sums(records: Records, made: int, delivered: int, held: int, *drops: int) -> Iterator[Fault]:
    """Yields the counters, which are last, that are not the sums of the lines; without any, a packet that
    wasn't created."""
    last = len(records)
    found = len(records.at(DELIVER, DELIVER_ACK))
    causes = np.bincount(records.take("code", records.at(DROP, DROP_ACK)) - 1, minlength=len(CAUSES)).tolist()
    wrong = [*(["the counters don't add up"] if made != delivered + held + sum(drops) else []),
             *([f"{delivered} delivered, but the lines have {found}"] if delivered != found else []),
             *(f"{count} drops `{cause}`, but the lines have {counted}"
               for cause, count, counted in zip(CAUSES, drops, causes) if count != counted),
             *([f"{made} packets were created, but an experiment has at most {_MOST_PACKETS}"]
               if made > _MOST_PACKETS else [])]
    yield from ((last, cause) for cause in wrong)
    rows, packets = _named(records)
    late = np.flatnonzero(packets >= made)
    if len(late) and not wrong:
        yield int(rows[late[0]]), f"packet {packets[late[0]]}, but {made} were created"
