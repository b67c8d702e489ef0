"""Warnings about silent mistakes: each has a realistic scenario with the mistake, and a similar one without
it."""
import pytest
from conftest import views_of

from dnlab.analysis.diagnostics import MEANS, codes_of
from dnlab.analysis.view import View

LINK = "@0 pipe 1 config bw 10Mbit/s delay 20 queue 50\n"
BACK = "@0 pipe 2 config delay 20\n"
THERE = "@0 add 100 pipe 1 ip from 10.0.0.0/24 to any\n@0 add 200 pipe 2 ip from 10.0.1.0/24 to any\n"
BOTH = LINK + BACK + THERE
ANY = LINK + "@0 add 100 pipe 1 ip from any to any\n"
TRAIN = "@0 train 9 udp 10.0.0.9 1 10.0.1.9 2 100 count 10 gap 20000000\n"
FLOW = "@0 flow 1 10.0.0.1 1 10.0.1.1 80 smss 1460 segments 30\n"


def view(commands: str, end: int = 5 * 10**9, heading: str = "seed 0 budget 1000") -> View:
    return views_of(f"experiment a {heading}\n{commands}@{end} end\n".encode())[0]


# The commands, the time of the end, and the warnings.
MARKS = [
    ("a flow and a train, each way a pipe", BOTH + TRAIN + FLOW, 5 * 10**9, ""),
    ("a rule's number past the last", BOTH + TRAIN + "@0 add 70000 allow ip from any to any\n", 5 * 10**9,
     "refused"),
    ("a train's number twice", BOTH + TRAIN + TRAIN, 5 * 10**9, "refused"),
    ("a flow with a train's number", BOTH + TRAIN + FLOW.replace("flow 1", "flow 9"), 5 * 10**9, "refused"),
    ("a rule that goes back", BOTH + TRAIN + "@0 add 300 skipto 100 ip from any to any\n", 5 * 10**9,
     "refused"),
    ("a rule that isn't there", BOTH + TRAIN + "@9 delete 50\n", 5 * 10**9, "refused"),
    ("a pipe that isn't there", BOTH + TRAIN + "@1000 pipe delete 7\n", 5 * 10**9, "refused"),
    ("a flow that isn't there", BOTH + TRAIN + "@1000 stop 9\n", 5 * 10**9, "refused"),
    ("the last rule", BOTH + TRAIN + "@0 add 65535 allow ip from any to any\n", 5 * 10**9, "refused"),
    # Ten packets, 20 ms apart: the last is due at 180 ms.
    ("an end before the train's last packet", BOTH + TRAIN, 10**6, "unsent"),
    ("an end just behind it", BOTH + TRAIN, 180 * 10**6 + 1, ""),
    ("an end at its moment, which comes first", BOTH + TRAIN, 180 * 10**6, "unsent"),
    ("a flow that is cut off", BOTH + FLOW, 30 * 10**6, "unsent"),
    ("a flow that was stopped", BOTH + FLOW + "@25000000 stop 1\n", 30 * 10**6, ""),
    ("a flow without end", BOTH + FLOW.replace("segments 30", "segments 1000000"), 30 * 10**6, ""),
    ("a train that begins with the end", BOTH + TRAIN.replace("@0", "@5000000000"), 5 * 10**9, "unsent"),
    ("a queue in a second config", BOTH + TRAIN + "@50000000 pipe 1 config queue 10\n", 5 * 10**9,
     "reconfigured"),
    ("a second config that names all",
     BOTH + TRAIN + "@50000000 pipe 1 config bw 5Mbit/s delay 20 queue 50\n", 5 * 10**9, ""),
    ("a delay alone", BOTH + TRAIN + "@50000000 pipe 1 config delay 40\n", 5 * 10**9, "reconfigured"),
    ("a delay that was none before", BOTH + TRAIN + "@50000000 pipe 1 config bw 10Mbit/s delay 0 queue 50\n"
     "@60000000 pipe 1 config bw 10Mbit/s queue 50\n", 5 * 10**9, ""),
    ("at one moment, one behind the other", LINK + "@0 pipe 1 config queue 10\n" + BACK + THERE + TRAIN,
     5 * 10**9, "reconfigured"),
    ("an outage by plr, and its end", BOTH + TRAIN + "@50000000 pipe 1 config bw 10Mbit/s delay 20 plr 1\n"
     "@60000000 pipe 1 config bw 10Mbit/s delay 20\n", 5 * 10**9, ""),
    ("a pipe that is deleted between",
     BOTH + TRAIN + "@300000000 pipe delete 1\n@300000000 pipe 1 config queue 10\n", 5 * 10**9, ""),
    ("bw 0 for an outage",
     BOTH + TRAIN + "@50000000 pipe 1 config bw 0 delay 20\n@60000000 pipe 1 config bw 10Mbit/s delay 20\n",
     5 * 10**9, "outage"),
    # 100 bytes take 0.8 s at 1 kbit/s, which holds for 0.1 s.
    ("a rate of nearly nothing for an outage", BOTH + TRAIN + "@50000000 pipe 1 config bw 1Kbit/s delay 20\n"
     "@150000000 pipe 1 config bw 10Mbit/s delay 20\n", 5 * 10**9, "outage"),
    ("a low rate that holds long enough", BOTH + TRAIN + "@50000000 pipe 1 config bw 100Kbit/s delay 20\n"
     "@150000000 pipe 1 config bw 10Mbit/s delay 20\n", 5 * 10**9, ""),
    ("a pipe that never had a rate", BOTH.replace("bw 10Mbit/s", "bw 0") + TRAIN, 5 * 10**9, ""),
    ("any to any", ANY + FLOW, 5 * 10**9, "half-duplex"),
    ("any to any, without a rate", ANY.replace("bw 10Mbit/s ", "") + FLOW, 5 * 10**9, ""),
    ("any to any, an instance for each sender",
     ANY.replace("queue 50", "queue 50 mask src-ip 0xffffffff") + FLOW, 5 * 10**9, ""),
    ("any to any, trains alone", ANY + TRAIN, 5 * 10**9, ""),
    # A round trip of 40 ms at 100 Mbit/s has 500000 bytes in flight, and the window allows 65535.
    ("a long fat link", BOTH.replace("10Mbit/s", "100Mbit/s").replace("queue 50", "queue 1000")
     + FLOW.replace("segments 30", "segments 1000000"), 5 * 10**9, "window-limited"),
    ("a window of two segments", BOTH + FLOW.replace("segments 30", "segments 30 window 2920"), 5 * 10**9,
     "window-limited"),
    # In recovery each duplicate adds a segment to cwnd, which is then above the window of 44.
    ("a short queue", BOTH.replace("queue 50", "queue 10") + FLOW.replace("segments 30", "segments 1000000"),
     5 * 10**9, "window-limited"),
    ("a window that never holds back", BOTH + FLOW, 5 * 10**9, ""),
    ("an earlier rule takes all", "@0 add 10 allow ip from any to any\n" + BOTH + TRAIN, 5 * 10**9, "unused"),
    ("addresses of nobody", BOTH + "@0 add 300 deny ip from 10.7.0.0/16 to any\n" + TRAIN, 5 * 10**9,
     "unused"),
    ("a pipe without a rule", BOTH + "@0 pipe 9 config delay 5\n" + TRAIN, 5 * 10**9, "unused"),
    ("a pipe behind another",
     "@0 one_pass 0\n" + BOTH
     + "@0 pipe 9 config delay 5\n@0 add 300 pipe 9 ip from any to any\n@0 add 400 allow ip from any to any\n"
     + TRAIN, 5 * 10**9, ""),
    ("a rule of later", BOTH + TRAIN + "@50000000 delete 100\n@50000000 add 50 pipe 1 ip from any to any\n",
     5 * 10**9, ""),
    ("a gap in milliseconds", BOTH + TRAIN.replace("gap 20000000", "gap 20"), 5 * 10**9, "units"),
    ("all at once", BOTH + TRAIN.replace("gap 20000000", "gap 0"), 5 * 10**9, ""),
    ("a moment in milliseconds", BOTH + TRAIN.replace("@0", "@100"), 5 * 10**9, "units"),
    ("a nanosecond behind the others", BOTH + TRAIN.replace("@0", "@1"), 5 * 10**9, ""),
    ("an end in milliseconds", BOTH + TRAIN, 100, "unsent units"),
    ("a rate without its unit", BOTH.replace("10Mbit/s", "10") + TRAIN, 5 * 10**9, "units"),
    ("no way back", LINK + "@0 add 100 pipe 1 ip from 10.0.0.0/24 to any\n" + FLOW, 10**9,
     "no-way-back unsent"),
    ("a rule to a pipe that nobody configures", LINK + "@0 add 100 pipe 7 ip from any to any\n" + TRAIN,
     5 * 10**9, "nopipe unused"),
    ("denied", LINK + "@0 add 100 pipe 1 ip from 10.0.7.0/24 to any\n" + TRAIN, 5 * 10**9, "denied unused"),
]


@pytest.mark.parametrize("what,commands,end,marks", MARKS, ids=[one[0] for one in MARKS])
def test_marks(what: str, commands: str, end: int, marks: str) -> None:
    assert view(commands, end).marks() == marks


def test_spent_and_budget() -> None:
    assert view(BOTH + TRAIN, heading="seed 0 budget 1000 steps 20").marks() == "spent"
    assert view(BOTH + TRAIN.replace("gap 20000000", "gap 0"), heading="seed 0 budget 3").marks() == "budget"


def test_a_pipe_that_is_deleted() -> None:
    """By hand: the train's packets arrive at 0, 20, .. 180 ms. The pipe is deleted at 90 ms, so the last five
    find no pipe."""
    made = view(BOTH + TRAIN + "@90000000 pipe delete 1\n")
    notes = [note for note in made.notes if note.mark == "nopipe"]
    assert [note.of for note in notes] == ["train 9"] and "train 9: 5 of 10 packets" in notes[0].text


def test_whose_rows() -> None:
    """A sender's warning is in its own rows and in those of all senders."""
    made = view(BOTH + TRAIN + FLOW.replace("segments 30", "segments 1000000 window 2920"))
    assert [made.marks(of) for of in ("flow 1", "train 9", "")] == ["window-limited", "", "window-limited"]


def test_what_refusals_say() -> None:
    made = view(BOTH + TRAIN + TRAIN + "@0 add 70000 allow ip from any to any\n@5 delete 50\n@6 delete 51\n")
    assert [(one.line, one.code, one.moment)
            for one in made.refused] == [(7, 22, 0), (8, 10, 0), (9, 13, 5), (10, 13, 6)]
    assert made.refused[0].told() == (
        f"line 7: `{TRAIN.strip()[3:]}` (22: a flow or a train has this number already)")
    assert codes_of(made.refused) == "10:1 13:2 22:1"
    note = made.notes[0]
    assert (note.mark == "refused" and note.text.startswith("4 of 10 commands were refused")
            and "; and 1 more" in note.text)
    # Without the scenario, the warning has the time and the command's number.
    alone_told = View(made.records).refused[0].told()
    assert alone_told == "command 5 at 0 ns (22: a flow or a train has this number already)"
    assert sorted(MEANS) == [10, 11, 12, 13, 20, 21, 22, 23, 24, 25]


def test_notes_name_what_is_unused() -> None:
    made = view("@0 add 10 allow ip from any to any\n" + BOTH + TRAIN)
    note = next(note for note in made.notes if note.mark == "unused")
    assert "pipe 1" in note.text and "`add 100 pipe 1 ip" in note.text and note.of == ""
