"""Report and scenario joined: times calculated by hand, pairs that don't belong together, random
scenarios."""
import os
import random
import sys

import pytest
from conftest import QUICK, ROOT, report_of, text_of, text_view, view_of, views_of

from dnlab.analysis.view import View
from dnlab.errors import ParseError
from dnlab.io.rows import DATA, INSTANCE, RULE, instance_name

sys.path.append(str(ROOT / "tools" / "second"))
import draw_scenario  # noqa: E402  (the path is set first)

# Changes of the scenario or the report of reno_four_segments: which of them, old and new text, and the cause.
JOINS = [
    ("report", "100000000 ok 5", "100000001 ok 5",
     "command 5 at 100000001, where line 7 of the scenario has 100000000"),
    ("scenario", "smss 1460", "smss 1000", "with 1500 bytes and the header tcp 10.0.0.1"),
    ("scenario", "flow 1 10.0.0.1", "flow 1 10.0.0.3", "the header tcp 10.0.0.1"),
    ("scenario", "segments 4", "segment 4", "line 6: badword: not a line of a scenario"),
    ("scenario", "@0 add 100", "@0 ad 100", "line 4: badword: not a line of a scenario"),
    # A packet that the report doesn't have.
    ("scenario", "@100000000 end", "@99999999 inject udp 10.0.0.1 1 10.0.1.1 2 100\n@100000000 end",
     "command 5"),
    ("scenario", "@100000000 end", "@100000000 show\n@100000000 end", "ends before command 6"),
]


@pytest.mark.parametrize("which,old,new,said", JOINS)
def test_pairs_that_dont_belong_together(which: str, old: str, new: str, said: str) -> None:
    text = text_of("reno_four_segments", "scenario.txt")
    texts = {"report": report_of(text, "--trace").decode(), "scenario": text.decode()}
    assert old in texts[which]
    texts[which] = texts[which].replace(old, new, 1)
    with pytest.raises(ParseError) as refused:
        text_view(texts["report"].encode(), texts["scenario"].encode())
    assert said in str(refused.value)


def visits(view: View, packet: int) -> list[tuple[str, int, int, int]]:
    table = view.visits
    return [(instance_name(int(table.pipe[k])), int(table.arrival[k]), int(table.finish[k]),
             int(table.exit[k]))
            for k in range(len(table)) if table.packet[k] == packet]


def test_visits_by_hand() -> None:
    wanted = [("1.0", 0, 0, 10**7), ("2.0", 10**7, 10**7, 15 * 10**6)]
    assert visits(view_of("two_pipes_in_turn"), 0) == wanted
    # A traced report gives the same tables without its scenario.
    traced = view_of("traced_two_pipes", joined=False)
    assert visits(traced, 0) == wanted
    assert traced.packets.delay.tolist() == [15 * 10**6 + 1]
    assert traced.is_told


def random_scenario(seed: int) -> str:
    """Returns a random scenario with four listings of its pipes at the end."""
    head, *lines = draw_scenario.experiment(random.Random(seed), "x")
    lines = [line for line in lines if not line.endswith((" end", " show"))]
    moment = int(lines[-1].split(" ")[0][1:])
    for later in 1_000_003, 10_000_019, 100_000_007, 1_000_000_007:
        # There is no other command at these times, so a listing has the state before it.
        moment += later
        lines.append(f"@{moment} pipe show")
    return "\n".join([head, *lines, f"@{moment + 10**9} end", ""])


def listed(view: View, moment: int, pipe: int) -> tuple[int, int]:
    """Returns the number of packets that wait or are in service, and the number in the delay line, just
    before a time."""
    table = view.visits
    own = table.pipe == pipe
    arrival, finish, left, packet = table.arrival[own], table.finish[own], table.exit[own], table.packet[own]
    ended = view.packets.ended[packet]
    waiting = flying = 0
    for k in range(len(arrival)):
        served = finish[k] if finish[k] >= 0 else left[k]
        gone = left[k] if left[k] >= 0 else ended[k]
        waiting += bool(arrival[k] < moment and (served < 0 or served >= moment))
        flying += bool(0 <= finish[k] < moment and (gone < 0 or gone >= moment))
    return waiting, flying


def compare_listings(view: View) -> int:
    """Compares each `instance` row of a listing with the join. Returns the number of rows compared."""
    commands = view.plan.commands
    shown = [one.moment for one in commands if one.word == "pipe"][-4:]
    rows, moment, compared = view.records.rows, 0, 0
    for row in rows:
        moment = int(row["moment"]) if row["kind"] < RULE else moment
        if row["kind"] != INSTANCE or moment not in shown or moment == commands[-6].moment:
            continue
        wanted = int(row["number"]) + int(row["code"]), int(row["packet"])
        assert listed(view, moment, int(row["pipe"]) * 256 + int(row["instance"])) == wanted, moment
        compared += 1
    return compared


TABLES = ("made", "ended", "outcome", "size", "kind", "flow", "number")


@pytest.mark.parametrize("tens", range(int(os.environ.get("DNLAB_JOINS", "20" if QUICK else "100")) // 10))
def test_random_scenarios(tens: int) -> None:
    """The queues of the tables are those of the listings, and a traced text has the same tables as the
    rows."""
    compared = segments = 0
    for seed in range(10 * tens, 10 * tens + 10):
        text = random_scenario(seed).encode()
        view, = views_of(text)
        compared += compare_listings(view)
        segments += int((view.packets.kind == DATA).sum())
        told = text_view(report_of(text, "--trace"), text)
        for name in TABLES:
            assert (getattr(told.packets, name) == getattr(view.packets, name)).all(), f"seed {seed}: {name}"
        assert visits_all(told) == visits_all(view)
        if not told.alike:
            assert [told.packets.names[who]
                    for who in told.packets.who] == [view.packets.names[who] for who in view.packets.who]
    assert segments and compared


def visits_all(view: View) -> list[tuple[int, ...]]:
    table = view.visits
    return list(zip(*(getattr(table, name).tolist()
                      for name in ("packet", "pipe", "arrival", "finish", "exit"))))
