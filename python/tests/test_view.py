"""The page of `view` in headless Chromium: the dots and lines of its SVG are read back, and compared with
values calculated by hand, with lines of the report and with `summary`."""
import csv
import html
import io
import json
import re
import shutil
import subprocess
from pathlib import Path
from typing import Any

import numpy as np
import pytest
from conftest import EXAMPLES, ROOT, report_of, rows_file, tool, view_of, views_of

from dnlab.plot.page import Blocks, drawn

COOKBOOK = ROOT / "cookbook"
BROWSER = shutil.which("chromium") or ""
browsing = pytest.mark.skipif(not BROWSER, reason="Chromium is missing (Debian: chromium)")
RENO = EXAMPLES / "reno_four_segments"

# Waits until a page is drawn, does `ACTS`, and writes the contents of the panels into the page: the dots and
# the corners of the line of each trace in the units of the axes, and the text at the pointer.
READ = """<pre id="readback"></pre><script>
const value = (axes, x, y) => [axes.xaxis.p2l(x), axes.yaxis.p2l(y)];
function cornersOf(axes, path) {
  const found = []; let x = 0, y = 0;
  for (const [, word, rest] of path.matchAll(/([MLHV])([-0-9.,]+)/g)) {
    const numbers = rest.split(",").map(Number);
    if (word === "H") x = numbers[0]; else if (word === "V") y = numbers[0]; else [x, y] = numbers;
    found.push(value(axes, x, y));
  }
  return found;
}
function panelsOf() {
  const found = {};
  for (const panel of document.querySelectorAll(".panel")) {
    found[panel.id.slice(6)] = [...panel.querySelectorAll(".scatterlayer .trace")].map((trace) => {
      const own = trace.__data__[0].trace, line = trace.querySelector(".lines path");
      return {name: own.name, text: own.text, form: own.mode === "lines" ? own.line.dash : own.marker.symbol,
        points: [...trace.querySelectorAll(".points path")].map((dot) =>
          value(panel._fullLayout, ...dot.getAttribute("transform").match(/-?[0-9.]+/g).map(Number))),
        line: line ? cornersOf(panel._fullLayout, line.getAttribute("d")) : []};
    });
  }
  return found;
}
async function read() {
  while (!document.body.dataset.drawn) await new Promise((next) => setTimeout(next, 50));
  const told = {};
  ACTS
  await new Promise((next) => setTimeout(next, 200));
  const words = Object.fromEntries(["about", "range", "journey", "notes"].map(
    (name) => [name, document.getElementById(name).innerText]));
  document.getElementById("readback").textContent = JSON.stringify({...words, ...told, panels: panelsOf(),
    name: document.body.dataset.drawn,
    titles: [...document.querySelectorAll("h2")].map((title) => title.textContent),
    wide: [innerWidth, document.documentElement.scrollWidth]});
}
read();
</script></body>"""

# Draws acknowledgements too.
ACKS = ("const acks = document.getElementById('acks'); acks.click(); await new Promise((next) => "
        "setTimeout(next, 1000));")


def browse(page: Path, *more: str, address: str = "") -> str:
    """Returns the content of a page in Chromium after it is loaded."""
    done = subprocess.run([BROWSER, "--headless", "--no-sandbox", "--disable-gpu", "--hide-scrollbars",
                           "--window-size=1000,1800", f"--user-data-dir={page.parent / 'profile'}",
                           "--virtual-time-budget=20000", *more,
                           f"file://{page}{address}"], capture_output=True, text=True,
                          timeout=120, check=True)
    return done.stdout


def read_back(page: Path, acts: str = "", address: str = "") -> dict[str, Any]:
    """Returns the content of a page after some actions."""
    beside = page.with_name("read.html")
    beside.write_text(page.read_text().replace("</body>", READ.replace("ACTS", acts)))
    found = re.search(r'<pre id="readback">(.+?)</pre>', browse(beside, "--dump-dom", address=address),
                      re.DOTALL)
    assert found, "nothing was drawn"
    made: dict[str, Any] = json.loads(html.unescape(found[1]))
    made["panels"] = {panel: {one["name"]: one for one in traces} for panel, traces in made["panels"].items()}
    return made


def page_of(folder: Path, report: Path, scenario: Path, *words: str) -> Path:
    status, out, err = tool("view", report, scenario, "--out", folder / "page.html", *words)
    assert status == 0 and "page.html" in out, err
    return folder / "page.html"


def near(found: Any, wanted: Any, scale: tuple[float, ...]) -> bool:
    """Returns true if points (or values) are where they must be, to a thousandth of their axes."""
    return (np.shape(found) == np.shape(wanted)
            and bool((np.abs(np.subtract(found, wanted)) < np.array(scale) / 1000).all()))


@browsing
def test_what_is_drawn_by_hand(tmp_path: Path) -> None:
    """Three segments at once, served in 1.2 ms each, 10 ms of delay in each direction; the first
    acknowledgement sends the fourth."""
    page = page_of(tmp_path, rows_file(RENO / "scenario.txt", tmp_path), RENO / "scenario.txt")
    found = read_back(page, 'Plotly.Fx.hover("panel-sequence", [{curveNumber: 0, pointNumber: 3}]);'
                            'told.hover = document.querySelector("#panel-sequence .hoverlayer").textContent;'
                            'const field = document.getElementById("packet"); field.value = 1; '
                            'field.dispatchEvent(new Event("input"));')
    scale = (42.4, 6000)
    sequence = found["panels"]["sequence"]
    assert near(sequence["flow 1: sent"]["points"], [(0, 0), (0, 1460), (0, 2920), (21.2, 4380)], scale)
    line = sequence["flow 1: acknowledged"]["line"]
    assert near(line[:5], [(21.2, 1460), (22.4, 1460), (22.4, 2920), (23.6, 2920), (23.6, 4380)], scale)
    assert near(found["panels"]["delay"]["flow 1"]["points"],
                [(11.2, 11.2), (12.4, 12.4), (13.6, 13.6), (32.4, 11.2)], (42.4, 14))
    # One of the three packets is in service, and two wait.
    queue = found["panels"]["queue"]["pipe 1"]["line"]
    assert near(queue[:5], [(0, 2), (1.2, 2), (1.2, 1), (2.4, 1), (2.4, 0)], (42.4, 4))
    flight = found["panels"]["queue"]["in flight"]["line"]
    assert near(flight[-3:], [(32.4, 1), (42.4, 1), (42.4, 0)], (42.4, 4))
    # Windows, from the lines of the report: TIME ack F CWND SSTHRESH, and 4380 bytes at the start.
    lines = [words.split() for words in (RENO / "expected.txt").read_text().split("\n") if " ack 1 " in words
             and "deliver" not in words]
    steps = [(0, 4380)] + [(int(words[0]) / 1e6, int(words[3])) for words in lines]
    corners = found["panels"]["window"]["cwnd 1"]["line"]
    assert len(steps) == 5 and near([corners[0], *corners[2::2]], steps, (42.4, 12000))
    assert found["hover"].startswith(
        "flow 1: sent: 4380packet 6: flow 1, byte 4380, 1500 bytesmade 21.2 msat 1.0: came 21.2 ms")
    assert found["journey"].split("\n") == ["packet 1: flow 1, byte 1460, 1500 bytes", "made 0 ms",
                                            "at 1.0: came 0 ms, served 2.4 ms, left 12.4 ms",
                                            "delivered 12.4 ms, 12.4 ms after it was made"]
    assert found["about"].startswith("8 packets made, 8 delivered, 0 under way")


def drops_of(report: str) -> list[tuple[float, int]]:
    """Returns the times and bytes of dropped segments of flow 1, from the report's lines."""
    return [(int(words[0]) / 1e6, int(words[5])) for words in map(str.split, report.split("\n"))
            if words[1:2] == ["drop"] and words[3:5] == ["data", "1"]]


@browsing
def test_losses_and_rates(tmp_path: Path) -> None:
    """Compares the page with the report's lines and with `summary --every`."""
    folder = COOKBOOK / "two_flows"
    page = page_of(tmp_path, rows_file(folder / "scenario.txt", tmp_path), folder / "scenario.txt")
    found = read_back(page, ACKS)
    text = (folder / "report.txt").read_text()
    sequence = found["panels"]["sequence"]
    dropped = drops_of(text)
    assert dropped and near(sequence["flow 1: dropped"]["points"], dropped, (508, 40000))
    # The third duplicate acknowledgement, the fourth with its number, sends the lost segment again.
    same = [int(words[0]) / 1e6 for words in map(str.split, text.split("\n")) if words[1:2] == ["deliver"]
            and words[3:] == ["ack", "1", str(dropped[0][1])]]
    assert near(sequence["flow 1: sent again"]["points"], [(same[3], dropped[0][1])], (508, 40000))
    every = re.search(r"in each ([0-9]+) ms", found["titles"][-1])
    assert every
    rows = list(csv.DictReader(io.StringIO(tool("summary", rows_file(folder / "scenario.txt", tmp_path),
                                                folder / "scenario.txt", "--every", f"{every[1]}ms",
                                                "--csv")[1])))
    for name in ("flow 1", "flow 2", "flow 1 acks"):
        wanted = [int(row["rate"]) / 1e6 for row in rows if row["sender"] == name]
        line = found["panels"]["rate"][name]["line"]
        for k, rate in enumerate(wanted):
            middle = (k + 0.5) * int(every[1])
            over = [y for (x, y), (after, _) in zip(line, line[1:]) if x < middle < after]
            assert middle > line[-1][0] or np.allclose(over, [rate], atol=0.004), (name, k)
        assert sum(wanted) > 0
    # Acknowledgements are only drawn on request.
    plain = read_back(page)["panels"]
    for panel in "delay", "rate":
        assert [one for one in found["panels"][panel] if not one.endswith(" acks")] == [*plain[panel]]
        assert {"flow 1 acks", "flow 2 acks"} <= {*found["panels"][panel]}


@browsing
@pytest.mark.parametrize("folder", sorted(path.parent for path in COOKBOOK.glob("*/scenario.txt")),
                         ids=lambda path: str(path.name))
def test_a_picture_of_each_of_the_cookbook(folder: Path, tmp_path: Path) -> None:
    """Each has a picture, the curves of a panel can be distinguished without colour, and the number of
    packets is that of the counters."""
    page = page_of(tmp_path, rows_file(folder / "scenario.txt", tmp_path), folder / "scenario.txt")
    browse(page, f"--screenshot={tmp_path / 'page.png'}")
    picture = (tmp_path / "page.png").read_bytes()
    assert picture.startswith(b"\x89PNG") and len(picture) > 20000
    found = read_back(page, ACKS)
    first = (folder / "report.txt").read_text().split("\nexperiment ")[0]
    assert found["name"] == first.split()[1]
    made, delivered = first.rstrip().split("\n")[-1].split()[1:3]
    assert found["about"].startswith(f"{made} packets made, {delivered} delivered")
    assert sum(len(one["points"]) for one in found["panels"]["delay"].values()) == int(delivered)
    for traces in found["panels"].values():
        assert len({one["form"] for one in traces.values()}) == len(traces) > 0


# A train of 20000 packets every 10 us, at a rate that serves one every 8 us; and 30 packets of 1500 bytes,
# 120 us each, every 200 us from 99.505 ms on, so that for 6 ms more packets arrive than are served.
LONG = """experiment long seed 0 budget 1000
@0 pipe 1 config bw 100Mbit/s delay 1 queue 1000
@0 add 100 pipe 1 ip from any to any
@0 train 1 udp 10.0.0.1 1 10.0.0.2 2 100 count 20000 gap 10000
@99505000 train 2 udp 10.0.0.1 1 10.0.0.2 2 1500 count 30 gap 200000
@1000000000 end
"""


@browsing
def test_what_is_thinned(tmp_path: Path) -> None:
    """The maximum delay is drawn in the whole picture, and each packet in a short span."""
    (tmp_path / "s").write_text(LONG)
    (tmp_path / "r.npy").write_bytes(report_of(LONG.encode(), "--format", "npy"))
    table = views_of(LONG.encode())[0].packets
    own = np.char.equal(np.array(table.names)[table.who], "train 1")
    page = page_of(tmp_path, tmp_path / "r.npy", tmp_path / "s")
    points = read_back(page)["panels"]["delay"]["train 1"]["points"]
    longest = int(table.delay[own].max()) / 1e6
    assert 100 < len(points) <= 800 and abs(max(y for _, y in points) - longest) < 0.002
    near_by = read_back(page, address="#long,50000000,51000000")
    wanted = [moment / 1e6 for moment in table.ended[own].tolist() if 50000000 <= moment <= 51000000]
    got = [x for x, _ in near_by["panels"]["delay"]["train 1"]["points"]]
    assert len(got) == len(wanted) == 100 and np.abs(np.subtract(got, wanted)).max() < 0.001


def test_columns_are_packed() -> None:
    """A column has the narrowest type for all values, or for their differences if that is narrower, and
    starts at a multiple of eight."""
    blocks = Blocks()
    for values in ([5, -1, 127], [128], [10**15, 10**15 + 100, 10**15 + 227], [-2**31, 2**31 - 1], [0.5, 1.0],
                   []):
        blocks.add(np.array(values))
    assert ([head[0] for head in blocks.heads] == ["i1", "i2", "f8", "i4", "f8", "f8"]
            and [head[1] % 8 for head in blocks.heads] == [0] * 6)
    blocks.add(np.arange(1000) * 100)
    kind, at, length, is_delta = blocks.heads[-1]
    assert (kind, length, is_delta) == ("i1", 1000, 1)
    assert np.cumsum(np.frombuffer(b"".join(blocks.parts)[at:at + length],
                                   dtype=kind)).tolist() == list(range(0, 100000, 100))


def test_files_and_no_network(tmp_path: Path) -> None:
    page = page_of(tmp_path, rows_file(RENO / "scenario.txt", tmp_path), RENO / "scenario.txt")
    beside = (tmp_path / "dnlab-plotly.js")
    text = page.read_text()
    assert beside.stat().st_size > 10**6 and len(text) < 50000
    assert re.findall(r'(?:src|href)="([^"]*)"', text) == ["dnlab-plotly.js"] and "http" not in text
    assert (tool("view", RENO / "expected.txt", RENO / "scenario.txt", "--out",
                 tmp_path / "other.html")[1] == f"{tmp_path}/other.html: experiments: 1\n")
    beside.unlink()
    single = page_of(tmp_path, rows_file(RENO / "scenario.txt", tmp_path), RENO / "scenario.txt",
                     "--single").read_text()
    assert len(single) > 10**6 and not beside.exists() and 'src="dnlab' not in single
    status, _, err = tool("view", RENO / "expected.txt", "--out", tmp_path / "none" / "a.html")
    assert status == 3 and "a.html" in err


@browsing
def test_single_and_untraced(tmp_path: Path) -> None:
    status, _, err = tool("view", RENO / "expected.txt", "--out", tmp_path / "page.html", "--single")
    assert status == 0 and "made without --trace" in err
    found = read_back(tmp_path / "page.html")
    assert near(found["panels"]["sequence"]["flow 1: delivered"]["points"],
                [(11.2, 0), (12.4, 1460), (13.6, 2920), (32.4, 4380)], (42.4, 6000))
    assert "--trace" in found["notes"] and "delay" not in found["panels"]


def test_journeys_without_pipes() -> None:
    """An experiment whose packets reached no pipe has no visits."""
    view = view_of("one_packet")
    head = drawn(view).head
    assert head["table"]["starts"] >= 0 and head["until"] >= 1 and len(head["panels"]) == 5
