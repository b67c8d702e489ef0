"""Two experiments calculated by hand: scenarios, reports, and their rows.

TRAIN  four packets of 1000 bytes at once: at 8 Mbit/s each takes 1 ms, and the delay is 10 ms. One is
       served, two wait, and the fourth is dropped (`full`). The first two are delivered at 11 and 12 ms; at
       the end, at 12.5 ms, the third is in flight. A single packet at 5 ms is served until 6 ms.
FLOWS  flow 1 has two segments of 960 bytes, 1000 with headers, over a link like that of TRAIN. They are
       delivered at 11 and 12 ms, and each is acknowledged 1 ns later. The only segment of flow 2 is denied at
       0; at 1 s it is sent again, and a rule delivers it 1 ns later. A command is refused, because there is
       no rule 7."""
import io
from typing import NamedTuple

from dnlab.analysis.metrics import Row
from dnlab.analysis.tables import Tables
from dnlab.analysis.view import View
from dnlab.io import scenario
from dnlab.io.pieces import pieces


class Run(NamedTuple):
    """An experiment's scenario and its report."""
    scenario: bytes
    report: bytes


TRAIN = Run(b"""experiment train seed 0 budget 9
@0 pipe 1 config bw 8Mbit/s delay 10 queue 2
@0 add 100 pipe 1 ip from any to any
@0 train 1 udp 10.0.0.1 1 10.0.0.2 2 1000 count 4 gap 0
@5000000 inject udp 10.0.0.3 1 10.0.0.2 2 1000
@12500000 end
""", b"""experiment train
0 ok 0
0 ok 1
0 ok 2
0 make 0 plain udp 10.0.0.1 1 10.0.0.2 2 1000
0 identify 1.0 00/00000000/00000000/0000/0000
0 arrive 0 1.0
0 make 1 plain udp 10.0.0.1 1 10.0.0.2 2 1000
0 arrive 1 1.0
0 make 2 plain udp 10.0.0.1 1 10.0.0.2 2 1000
0 arrive 2 1.0
0 make 3 plain udp 10.0.0.1 1 10.0.0.2 2 1000
0 arrive 3 1.0
0 drop 3 plain full
1000000 finish 0 1.0
2000000 finish 1 1.0
3000000 finish 2 1.0
5000000 ok 3
5000000 make 4 plain udp 10.0.0.3 1 10.0.0.2 2 1000
5000000 arrive 4 1.0
6000000 finish 4 1.0
11000000 deliver 0 plain
12000000 deliver 1 plain
12500000 ok 4
counters 5 2 2 0 0 0 0 1 0 0 0
""")
FLOWS = Run(b"""experiment flows seed 0 budget 9
@0 pipe 1 config bw 8Mbit/s delay 10
@0 add 100 pipe 1 tcp from 10.0.0.1 to 10.0.0.2
@0 add 200 allow tcp from 10.0.0.2 to 10.0.0.1
@0 flow 1 10.0.0.1 1000 10.0.0.2 80 smss 960 segments 2
@0 flow 2 10.0.0.3 1000 10.0.0.2 80 smss 960 segments 1
@0 delete 7
@500000000 add 300 allow tcp from any to any
@2000000000 end
""", b"""experiment flows
0 ok 0
0 ok 1
0 ok 2
0 ok 3
0 ok 4
0 refused 5 13
0 make 0 data 1 0 tcp 10.0.0.1 1000 10.0.0.2 80 1000
0 identify 1.0 00/00000000/00000000/0000/0000
0 arrive 0 1.0
0 make 1 data 1 960 tcp 10.0.0.1 1000 10.0.0.2 80 1000
0 arrive 1 1.0
0 make 2 data 2 0 tcp 10.0.0.3 1000 10.0.0.2 80 1000
0 drop 2 data 2 0 denied
1000000 finish 0 1.0
2000000 finish 1 1.0
11000000 deliver 0 data 1 0
11000000 make 3 ack 1 960 tcp 10.0.0.2 80 10.0.0.1 1000 40
11000001 deliver 3 ack 1 960
11000001 ack 1 4800 65535
12000000 deliver 1 data 1 960
12000000 make 4 ack 1 1920 tcp 10.0.0.2 80 10.0.0.1 1000 40
12000001 deliver 4 ack 1 1920
12000001 ack 1 5760 65535
500000000 ok 6
1000000000 expire 2 960 1920
1000000000 make 5 data 2 0 tcp 10.0.0.3 1000 10.0.0.2 80 1000
1000000001 deliver 5 data 2 0
1000000001 make 6 ack 2 960 tcp 10.0.0.2 80 10.0.0.3 1000 40
1000000002 deliver 6 ack 2 960
1000000002 ack 2 1920 1920
2000000000 ok 7
counters 7 6 0 1 0 0 0 0 0 0 0
""")


def rows_of(run: Run) -> dict[str, Row]:
    """Returns the rows of a summary by sender, with the median and the 95th percentile of the one-way
    delays."""
    piece = next(pieces(io.BytesIO(run.report)))
    view = View(piece.read(), scenario.read(run.scenario)[piece.name])
    return {row["sender"]: row for row in Tables(view, (50, 95)).rows()}
