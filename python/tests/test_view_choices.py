"""What a reader of the page of `view` can choose: the span of time, an experiment, another beside it, a flow,
and the unit of windows."""
from pathlib import Path
from typing import Callable

from conftest import rows_file
from test_panels import NARROW
from test_view import COOKBOOK, browse, browsing, drops_of, near, page_of, read_back

SELECT = (
    "const one = document.getElementById('%s'); one.value = '%s'; one.dispatchEvent(new "
    "Event('change'));await new Promise((next) => setTimeout(next, 1000));")


@browsing
def test_two_side_by_side(tmp_path: Path) -> None:
    """Both have the same span of time and the same frame, and the address names both."""
    folder = COOKBOOK / "bufferbloat"
    page = page_of(tmp_path, rows_file(folder / "scenario.txt", tmp_path), folder / "scenario.txt")
    tops = ("told.tops = ['panel-queue', 'panel-beside-queue'].map((name) => "
            "document.getElementById(name)._fullLayout.yaxis.range[1]);")
    found = read_back(page, tops, address="#deep,0,1000000000,codel")
    assert (found["name"] == "deep,codel" and found["tops"][0] == found["tops"][1]
            and found["range"] == "in sight: 0 ms to 1000 ms")
    assert {"window", "beside-window", "queue", "beside-queue", "delay",
            "beside-delay"} <= set(found["panels"])
    assert found["about"].startswith("deep: ") and "\ncodel: " in found["about"]
    alone_there = read_back(page, address="#codel,0,1000000000")
    assert near(found["panels"]["beside-delay"]["flow 1"]["points"],
                alone_there["panels"]["delay"]["flow 1"]["points"], (2000, 900))
    chosen = read_back(page, SELECT % ("beside", "1"))
    assert chosen["name"] == "deep,codel" and "beside-rate" in chosen["panels"]
    assert "beside-rate" not in read_back(page,
                                          SELECT % ("beside",
                                                    "1")
                                          + SELECT.replace("one", "two") % ("beside", ""))["panels"]


@browsing
def test_a_flow_changes_every_panel(tmp_path: Path) -> None:
    folder = COOKBOOK / "two_flows"
    page = page_of(tmp_path, rows_file(folder / "scenario.txt", tmp_path), folder / "scenario.txt")
    whole = read_back(page)["panels"]
    assert {"cwnd 1", "cwnd 2"} <= set(whole["window"]) and {"flow 1", "flow 2"} <= set(whole["delay"])
    found = read_back(page, SELECT % ("flow", "flow 2"))["panels"]
    assert all(name.startswith("flow 2: ") for name in found["sequence"])
    assert all(name.endswith(" 2") for name in found["window"]) and "cwnd 2" in found["window"]
    assert set(found["delay"]) == {"flow 2"}
    assert ({"flow 2", "rate of pipe 1"} <= set(found["rate"])
            and not {"flow 1", "flow 1 acks", "flow 2 acks"} & set(found["rate"]))


@browsing
def test_windows_in_segments(traced: Callable[[bytes], bytes], tmp_path: Path) -> None:
    """4 segments at first, 10 at the end; 3 are effective."""
    (tmp_path / "s").write_bytes(NARROW)
    (tmp_path / "r").write_bytes(traced(NARROW))
    lines = read_back(page_of(tmp_path, tmp_path / "r", tmp_path / "s"),
                      SELECT % ("unit", "segments"))["panels"]["window"]
    assert (near(lines["cwnd 1"]["line"][0], (0, 4), (90, 12))
            and near(lines["cwnd 1"]["line"][-1][1], 10, (12,)))
    assert near([y for _, y in lines["effective 1"]["line"]], [3] * len(lines["effective 1"]["line"]), (12,))


@browsing
def test_keys_chooser_and_a_phone(tmp_path: Path) -> None:
    folder = COOKBOOK / "bufferbloat"
    page = page_of(tmp_path, rows_file(folder / "scenario.txt", tmp_path), folder / "scenario.txt")
    key = "document.body.dispatchEvent(new KeyboardEvent('keydown', {key: '%s', bubbles: true}));"
    range_of = (
        "await new Promise((next) => setTimeout(next, 500)); told.%s = "
        "document.getElementById('range').textContent;")
    found = read_back(page, "".join(key % one + range_of % name for one, name in
                                    (("+", "near"), ("ArrowLeft", "left"), ("ArrowRight", "right"),
                                     ("-", "far"), ("0", "all"))))
    # 0 to 1238 ms, then the middle half of it, then half of that to the left and back.
    assert [found[name].removeprefix("in sight: ") for name in ("near", "left", "right", "far", "all")] == [
        "309.5 ms to 928.5 ms", "0 ms to 619 ms", "309.5 ms to 928.5 ms", "0 ms to 1238 ms",
        "0 ms to 1238 ms"]
    found = read_back(page, SELECT % ("experiment", "1") + "told.tabs = "
                      "[...document.querySelectorAll('select, button, input')].map((one) => one.tabIndex);")
    assert found["name"] == "codel" and "codel target" in found["about"] and found["tabs"] == [0] * 11
    assert near(found["panels"]["sequence"]["flow 1: dropped"]["points"],
                drops_of((folder / "report.txt").read_text()), (1250, 30000))
    # In a frame with the width of a phone nothing is wider than the frame.
    inner = page.read_text().replace("</body>", "<script>setTimeout(() => parent.postMessage(`${innerWidth} "
                                     "${document.documentElement.scrollWidth} "
                                     "${document.body.dataset.drawn}`, '*'), 3000)</script></body>")
    (tmp_path / "inner.html").write_text(inner)
    (tmp_path / "phone.html").write_text(
        '<!DOCTYPE html><body><iframe src="inner.html" width="360" height="700" style="border:0"></iframe>'
        "<script>addEventListener('message', (event) => document.title = "
        "event.data)</script>")
    assert "<title>360 360 deep</title>" in browse(tmp_path / "phone.html", "--dump-dom")
