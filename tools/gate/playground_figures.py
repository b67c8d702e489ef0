"""What the page draws, beside what was worked out by hand, and the contrast of its colours."""
import pathlib
import re
from collections.abc import Iterator
from typing import Any

ROOT = pathlib.Path(__file__).resolve().parents[2]
Trials = Iterator[tuple[str, object]]


def by_hand(found: dict[str, Any]) -> Trials:
    """Sliders; and four segments of 1500 bytes at 10 Mbit/s, 1.2 ms each, with 10 ms of delay each way."""
    good, bad = found["sliders"]
    yield "two sliders", [(it["name"], it["least"], it["most"], it["step"], it["value"])
                          for it in good["sliders"]] == [("queue", 2, 100, 1, 50),
                                                         ("rate", 50, 2000, 50, 200)]
    yield "they take their places", good["filled"].splitlines()[
        2] == "@0 pipe 1 config bw 200Kbit/s queue 50" and not good["wrong"]
    yield "wrong ones are told", [it.split(":")[0] for it in bad["wrong"]] == ["line 1", "line 2",
                                                                               "line 4", "line 3"]
    yield "a slider that moves is written", found["moved"].splitlines()[0] == "#? queue 2..100 = 7"
    one, = found["panels"][0]
    series = {(panel["title"], it["label"]): list(zip(it["x"], it["y"])) for panel in one["panels"]
              for it in panel["series"]}
    delays = [(11200000, 11.2), (12400000, 12.4), (13600000, 13.6), (32400000, 11.2)]
    yield "delays", series["One-way delay", "flow 1"] == delays
    # A window of three segments at first (RFC 5681, section 3.1), and one more for each that is acknowledged.
    yield "windows", series["Congestion window", "cwnd 1"] == [(0, 4380), (21200000, 5840), (22400000, 7300),
                                                               (23600000, 8760), (42400000, 10220)]
    # Three segments at once: one is in service, and two wait.
    queue = [(0, 2), (1200000, 1), (2400000, 0), (3600000, 0), (21200000, 0), (22400000, 0)]
    yield "queues", series["Queue length", "pipe 1"] == queue
    # The last acknowledgement comes at 42.4 ms, so that an interval has 1 ms. The segments pass from 10 to
    # 13.6 ms, and the fourth from 31.2 to 32.4.
    rates = {10: 10.0, 11: 10.0, 12: 10.0, 13: 6.0, 31: 8.0, 32: 4.0}
    wanted = [(k * 10**6, rates.get(k, 0.0)) for k in range(43)]
    yield "throughput", near(series["Throughput", "flow 1"][:-1],
                             wanted) and series["Throughput", "flow 1"][-1][0] == one["last"] == 42400000
    # Of the span from 12 to 14 ms: intervals of 50 us, in the last of which, up to 13.6 ms, all of the rate
    # is used.
    part, = found["panels"][1]
    narrow = next(list(zip(it["x"], it["y"])) for panel in part["panels"] if panel["title"] == "Throughput"
                  for it in panel["series"])
    wanted = [(12 * 10**6 + k * 50000, 10.0 if k < 32 else 0.0) for k in range(40)]
    yield f"throughput of a part: {narrow[:2]}", near(narrow[:-1], wanted)
    yield "levels", (series["Throughput", "rate of pipe 1"] == [(0, 10), (42400000, 10)]
                     and ("Queue length", "limit of pipe 1") not in series)
    labels = {label for _, label in series}
    yield "no acknowledgements unless asked for", labels == {"flow 1", "cwnd 1", "pipe 1", "rate of pipe 1"}
    yield "counters", one["counters"] == [8, 8, 0] + [0] * 8


def near(found: list[tuple[int, float]], wanted: list[tuple[int, float]]) -> bool:
    """Whether points are those that are wanted, but for what sums of floats lose."""
    return (len(found) == len(wanted)
            and all(a == c and abs(b - d) < 1e-9 for (a, b), (c, d) in zip(found, wanted)))


def by_words(experiments: list[dict[str, Any]]) -> Trials:
    """With acknowledgements; senders and pipes have the names that the tools give them."""
    one = experiments[0]
    series = {panel["title"]: [it["label"] for it in panel["series"]] for panel in one["panels"]}
    yield "senders", series["One-way delay"] == ["flow 1", "flow 1 acks", "train 9", "injected"]
    yield "windows and losses", series["Congestion window"] == ["cwnd 1", "loss 1", "timeout 1"]
    yield "pipes", series["Queue length"][:3] == ["pipe 1.0", "pipe 1.1", "pipe 2"]
    yield "causes", series["Drops by cause, cumulative"] == ["full"]


def luminance(colour: str) -> float:
    """The relative luminance of a colour `#rgb` or `#rrggbb`, by WCAG 2.2."""
    digits = colour[1:] if len(colour) == 7 else "".join(2 * it for it in colour[1:])
    parts = [int(digits[k:k + 2], 16) / 255 for k in (0, 2, 4)]
    linear: list[float] = [it / 12.92 if it <= 0.04045 else ((it + 0.055) / 1.055) ** 2.4 for it in parts]
    return 0.2126 * linear[0] + 0.7152 * linear[1] + 0.0722 * linear[2]


def contrasts() -> Trials:
    """Letters contrast by 4.5 with what is behind them, and lines by 3, light and dark (WCAG 2.2, 1.4.3 and
    1.4.11)."""
    page = (ROOT / "playground" / "page.css").read_text()
    palettes = [dict(re.findall(r"--(\w+): (#\w+);", it))
                for it in re.findall(r":root \{(.*?)\}", page, re.DOTALL)]
    yield "a light palette and a dark one", len(palettes) == 2 and palettes[0].keys() == palettes[
        1].keys() and "prefers-color-scheme: dark" in page
    for palette, name in zip(palettes, ("light", "dark")):
        for kind, colour in palette.items():
            least = {"ink": 4.5, "link": 4.5, "paper": 0, "soft": 0, "grid": 0}.get(kind, 3)
            for behind in ("paper", "soft") if least > 3 else ("paper",):
                high, low = sorted((luminance(colour), luminance(palette[behind])), reverse=True)
                yield f"{name}: {kind} {colour} on {behind}", (high + 0.05) / (low + 0.05) >= least
