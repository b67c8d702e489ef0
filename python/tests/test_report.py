"""The reader of reports: lines counted by hand, faulty reports with the line that the message must name, and
changed bytes."""
import io
import re

import pytest
from conftest import EXAMPLES, ROOT, records_in, text_of
from hypothesis import given, settings
from hypothesis import strategies as some

from dnlab.analysis.view import View
from dnlab.errors import ParseError
from dnlab.io import pieces, scenario
from dnlab.io.report import CODES, LISTINGS, parse
from dnlab.io.rows import ARRIVE, DROP_ACK, KINDS, LOAD_OF, MAKE_ACK, MAKE_COMMAND, RULE, WORD_OF, WORDS
from dnlab.io.scenario_parts import DROP_CAUSES

# Counted by hand in the reports: lines by word, then the expected counters.
COUNTED = {
    "reno_four_segments": ({"ok": 6, "finish": 8, "deliver": 8, "ack": 4}, (8, 8, 0, {})),
    "reno_timeouts": ({"ok": 4, "drop": 5, "expire": 2}, (5, 0, 0, {"lost": 5})),
    "pipe_deleted": ({"ok": 6, "finish": 1, "drop": 2}, (2, 0, 0, {"nopipe": 1, "deleted": 1})),
    "listings": ({"ok": 9, "rule": 5, "pipe": 1, "instance": 1, "finish": 1, "deliver": 1}, (1, 1, 0, {})),
}
GOOD = """experiment a
0 ok 0
0 ok 1
pipe 1 bw 0 delay 0 queue 50 plr 0 mask 00/00000000/00000000/0000/0000 droptail
8 finish 0 1.0
9 deliver 0 plain
10 spent
counters 1 1 0 0 0 0 0 0 0 0 0
"""
# Changes of the text above, with the line and a word of the cause that the message must have.
FAULTS = [
    ("experiment a", "experiment A", 1, "experiment NAME"),
    ("0 ok 1", "0 okay 1", 3, "not a line of a report"),
    ("0 ok 1", "00 ok 1", 3, "not a line of a report"),
    ("0 ok 1", "0  ok 1", 3, "not a line of a report"),
    ("0 ok 1", "0 ok 2", 3, "command 2"),
    ("0 ok 1", "0 refused 1 14", 3, "not a line of a report"),
    ("bw 0 delay", "bw 0 delays", 4, "listing"),
    ("0 ok 1\n", "0 ok 1\n0 finish 0 1.0\n", 5, "listing"),
    ("9 deliver", "7 deliver", 6, "time 7 after 8"),
    ("9 deliver 0 plain", "9 drop 0 plain gone", 6, "not a line of a report"),
    ("9 deliver 0 plain\n", "9 deliver 0 plain\n9 deliver 0 plain\n", 7, "before"),
    ("9 deliver 0 plain", "9 drop 0 plain full", 8, "1 delivered"),
    ("10 spent\n", "10 spent\n10 ok 2\n", 8, "after `spent`"),
    ("8 finish 0", "8 finish 1", 5, "packet 1"),
    ("counters 1 1", "counters 2 1", 8, "add up"),
    ("counters 1 1 0 0", "counters 2 1 0 1", 8, "drops `denied`"),
    ("0 0 0\n", "0 0 0", 8, "line feed"),
    ("counters 1 1 0 0 0 0 0 0 0 0 0\n", "", 8, "without the counters"),
    ("0 0 0\n", "0 0 0\nexperiment a\n", 9, "second experiment"),
    ("finish", "fin\u00ecsh", 5, "byte"),
    # Faults of numbers, which the reader in columns could overlook.
    ("counters 1", "counters " + "1" * 5000, 8, "not a line of a report"),
    ("8 finish 0 1.0", "8 finish 0 1.256", 5, "not a line of a report"),
    ("9 deliver 0 plain", "9 deliver 4294967296 plain", 6, "not a line of a report"),
    ("9 deliver 0 plain", "9 deliver 99999999 plain", 6, "has at most 10000000"),
    ("9 deliver 0 plain", "99999999999999999 deliver 0 plain", 6, "not a line of a report"),
    ("0 0 0\n", "0 0 0\nmore\n", 9, "experiment NAME"),
    ("9 deliver 0 plain\n", "9 deliver 0 plain\n9 make 0 plain udp 1.2.3.4 5 6.7.8.9 10 40\n", 7, "before"),
    ("8 finish 0 1.0\n", "8 finish 0 1.0\n8 make 0 plain udp 1.2.3.4 5 6.7.8.9 10 40\n", 6,
     "is created after another line that names it"),
]


def refused(text: bytes) -> tuple[object, str]:
    """Returns the line and the cause of a refusal."""
    try:
        records_in(text)
    except ParseError as fault:
        return fault.line, fault.cause
    return None, "nothing was refused"


@pytest.mark.parametrize("name", COUNTED)
def test_counted_by_hand(name: str) -> None:
    lines, (made, delivered, held, drops) = COUNTED[name]
    experiment, = records_in(text_of(name, "expected.txt"))
    words = [WORDS[WORD_OF[kind]] for kind in experiment.kind]
    assert {word: words.count(word) for word in set(words)} == lines
    counters = experiment.counters
    assert (counters.made, counters.delivered, counters.held) == (made, delivered, held)
    assert {cause: number for cause, number in counters.drops.items() if number} == drops


def test_the_text_that_is_changed() -> None:
    assert refused(GOOD.encode())[0] is None


@pytest.mark.parametrize("old,new,line,word", FAULTS)
def test_faulty_reports(old: str, new: str, line: int, word: str) -> None:
    assert old in GOOD
    text = GOOD.replace(old, new, 1) if old != "0 0 0\n" else GOOD[:-len(old)] + new
    got, cause = refused(text.encode())
    assert got == line and word in cause


ALL = sorted([*EXAMPLES.glob("*/expected.txt"), *(ROOT / "cookbook").glob("*/report.txt")])


@pytest.mark.parametrize("path", ALL, ids=lambda path: path.parent.name)
def test_all_examples(path) -> None:
    """Each report is read and joined. Outputs that are not reports (of faults and `check`) are read as empty
    or refused."""
    folder, data = path.parent, path.read_bytes()
    if (folder / "args.txt").exists() and (folder / "args.txt").read_text().split() == ["check"]:
        assert refused(data)[0] == 1
        return
    found = records_in(data)
    assert [b"experiment " + one.name.encode() for one in found] == [
        line for line in data.split(b"\n") if line.startswith(b"experiment ")]
    plans = scenario.read((folder / "scenario.txt").read_bytes()) if found else {}
    for experiment in found:
        assert len(View(experiment, plans[experiment.name]).packets) == experiment.counters.made


N = r"(?:0|[1-9][0-9]{0,15})"
LOAD = rf"(?:plain|(?:data|ack) {N} {N})"
LINE = re.compile("|".join([
    rf"{N} ok {N}", rf"{N} refused {N} (?:{'|'.join(map(str, CODES))})",
    rf"{N} (?:arrive|finish|pass) {N} {N}\.{N}",
    rf"{N} deliver {N} {LOAD}", rf"{N} drop {N} {LOAD} (?:{'|'.join(DROP_CAUSES)})",
    rf"{N} (?:ack|expire) {N} {N} {N}",
    rf"{N} spent", rf"{N} make {N} {LOAD} (?:tcp|udp) {N}\.{N}\.{N}\.{N} {N} {N}\.{N}\.{N}\.{N} {N} {N}",
    rf"{N} identify {N}\.{N} [0-9a-f]{{2}}/[0-9a-f]{{8}}/[0-9a-f]{{8}}/[0-9a-f]{{4}}/[0-9a-f]{{4}}",
    *(re.sub(r"\?P<\w+>", "", pattern.pattern) for _, pattern in LISTINGS.values())]))


def is_line(text: bytes) -> bool:
    """Returns true if a line is a line of a report, by a simple pattern, and its numbers are in their
    ranges."""
    if not text.isascii() or not LINE.fullmatch(text.decode()):
        return False
    words = text.decode().split(" ")
    if words[0] in ("rule", "pipe", "instance"):
        return True
    if words[1] == "make":
        address = [int(part) for word in (words[-5], words[-3]) for part in word.split(".")]
        if max(address) > 255 or max(int(words[-4]), int(words[-2]), int(words[-1])) > 65535:
            return False
    pipe = (words[3] if words[1] in ("arrive", "finish", "pass") else words[2]
            if words[1] == "identify" else "1.0")
    if [int(part) > most for part, most in zip(pipe.split("."), (65535, 255))] != [False, False]:
        return False
    has_packet = words[1] in ("make", "arrive", "finish", "pass", "deliver", "drop")
    if has_packet and int(words[2]) >= 2**31:
        return False
    flow = words[4] if has_packet and len(words) > 4 and words[3] in ("data", "ack") else \
        words[2] if words[1] in ("ack", "expire") else "0"
    return int(flow) <= 65535


LINES = sorted({line for path in ALL for line in path.read_bytes().split(b"\n")
                if line and not line.startswith((b"experiment", b"counters", b"ok "))})


@given(some.lists(some.sampled_from(LINES), min_size=1, max_size=30), some.data())
@settings(max_examples=400, deadline=None)
def test_changed_lines(lines: list[bytes], data) -> None:
    """The reader in columns finds the first line that a simple pattern refuses, wherever a byte is
    changed."""
    lines = list(lines)
    for _ in range(data.draw(some.integers(0, 3))):
        place = data.draw(some.integers(0, len(lines) - 1))
        at = data.draw(some.integers(0, len(lines[place])))
        to = data.draw(some.integers(at, min(at + 2, len(lines[place]))))
        new = data.draw(some.text(" 0123456789.abcdefghijklmnoprstuxy/-\t\u00e9", max_size=3)).encode()
        lines[place] = lines[place][:at] + new + lines[place][to:]
    wanted = next((number for number, line in enumerate(lines) if not is_line(line)), None)
    found = parse([b"\n".join(lines) + b"\n"])
    assert (found.fault[0] if found.fault else None) == wanted
    rows = found.rows
    assert len(rows) == (len(lines) if wanted is None else wanted)
    for row, line in zip(rows, lines):
        words, kind = line.decode().split(" "), int(row["kind"])
        assert WORDS[WORD_OF[kind]] == (words[0] if words[0] in ("rule", "pipe", "instance") else words[1])
        if kind < RULE:
            assert row["moment"] == int(words[0])
        if MAKE_COMMAND <= kind <= MAKE_ACK or ARRIVE <= kind <= DROP_ACK:
            assert row["packet"] == int(words[2])
        if LOAD_OF[kind] >= 0:
            assert KINDS[LOAD_OF[kind]] == words[3]
        if words[1] in ("ack", "expire"):
            assert [row["source"], row["number"],
                    row["more"]] == [min(int(word), 2**32 - 1) for word in words[2:]]
        if words[1] in ("arrive", "finish", "pass"):
            assert f"{row['pipe']}.{row['instance']}" == words[3]


@pytest.mark.parametrize("size", [1, 7, 64, 1000, 1 << 22])
def test_blocks_of_any_size(size: int, monkeypatch: pytest.MonkeyPatch) -> None:
    """A report is the same for every block size, from a file and from a stream."""
    path = EXAMPLES / "four_experiments" / "expected.txt"
    whole = [(one.name, one.line, one.rows.tolist()) for one in records_in(path.read_bytes())]
    monkeypatch.setattr(pieces, "LOOK", size)
    monkeypatch.setattr(pieces, "BLOCK", size)
    assert whole == [(one.name, one.line, one.read().rows.tolist()) for one in pieces.pieces(path)]
    assert whole == [(one.name, one.line, one.rows.tolist()) for one in records_in(path.read_bytes())]


def test_what_is_not_asked_for_stays_unread() -> None:
    text = GOOD + GOOD.replace("experiment a", "experiment b").replace("9 deliver", "7 deliver")
    assert [one.read().name for one in pieces.pieces(io.BytesIO(text.encode()), ["a"])] == ["a"]
    assert refused(text.encode()) == (14, "time 7 after 8")
