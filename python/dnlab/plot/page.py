"""The HTML page of `dnlab-view`, to look at runs in a browser.

Each experiment has its panels (`dnlab.analysis.series`, complete) and its packets' journeys, as columns
packed into one text; `page.js`, after `page.shared.js`, unpacks and draws them, thinned to what is visible.
plotly draws (Debian: python3-plotly).
"""
import base64
import html
import json
import zlib
from pathlib import Path
from typing import Any, Iterable, NamedTuple, Optional, Sequence

import numpy as np

from dnlab.analysis.packets import DELIVERED, DROPPED, OUTCOMES, UNKNOWN
from dnlab.analysis.distributions import flights, labelled, link_rates, queues
from dnlab.analysis.series import Panel, Series, Values, rates, sojourns, windows, without_acks
from dnlab.analysis.view import View, flows_of
from dnlab.io.rows import ACKNOWLEDGES, Ints, instance_name
from dnlab.io.files import whole_file

SCRIPT = "dnlab-plotly.js"
_HERE = Path(__file__).resolve().parent
# Types of columns by the bytes of a value; a Float64 has every integer up to 2^53.
_TYPES = {1: "i1", 2: "i2", 4: "i4", 8: "f8"}
_UNITS = ((10**9, "s"), (10**6, "ms"), (10**3, "us"), (1, "ns"))


class Drawn(NamedTuple):
    """An experiment of a page: what the script reads first, and its packed columns as base64."""
    head: dict[str, Any]
    data: str


class Blocks:
    """Concatenated columns, each at a multiple of eight bytes, in the narrowest type that has all its values;
    integers as differences if these are narrower."""

    def __init__(self) -> None:
        self.heads: list[tuple[str, int, int, int]] = []
        self.parts: list[bytes] = []
        self.size = 0

    def add(self, values: "Ints | Values") -> int:
        """Adds a column, shape (n,), and returns its number."""
        if values.dtype.kind == "f":
            kind, is_delta, part = "f8", 0, values.astype("<f8").tobytes()
        else:
            whole = values.astype(np.int64)
            steps = np.diff(whole, prepend=0)
            is_delta = int(_bytes(steps) < _bytes(whole))
            narrow = steps if is_delta else whole
            kind = _TYPES[_bytes(narrow)]
            part = narrow.astype(f"<{kind}").tobytes()
        self.heads.append((kind, self.size, len(values), is_delta))
        part += bytes(-len(part) % 8)
        self.parts.append(part)
        self.size += len(part)
        return len(self.heads) - 1

    def text(self) -> str:
        """Returns all columns, compressed by zlib, as base64."""
        return base64.b64encode(zlib.compress(b"".join(self.parts), 2)).decode("ascii")


def _bytes(values: Ints) -> int:
    """Returns how many bytes a value of a column needs, a key of `_TYPES`."""
    most = max(int(values.max()) + 1, -int(values.min())) if len(values) else 0
    return next(size for size in _TYPES if most <= 2**(8 * size - 1))


class Shown(NamedTuple):
    """A series, and the packet of each of its points, shape (n,); None if points belong to no packet."""
    series: Series
    packets: Optional[Ints] = None


class Pane(NamedTuple):
    """A panel's title, the quantity and unit of its vertical axis, and its series, or `words` instead of
    them."""
    title: str
    quantity: str
    unit: str
    shown: list[Shown]
    words: str
    # The bytes of a segment, 0 if the flows differ or it isn't known.
    segment: int = 0


def pane_of(panel: Panel) -> Pane:
    """Returns a panel of pictures, without thinning."""
    shown = [Shown(one) for one in panel.series if len(one.moments)]
    return Pane(panel.title, panel.quantity or panel.title, panel.unit, shown, panel.words.replace("\n", " "),
                panel.segment)


def sequences(view: View) -> Pane:
    """Returns for each flow the bytes over time: sent, sent again, acknowledged, and dropped; labels are as
    `flow 1: sent`. Without creation times, deliveries replace what was sent."""
    table = view.packets
    series: list[Shown] = []
    for flow, packets in flows_of(view):
        acks = np.flatnonzero((table.kind == ACKNOWLEDGES) & (table.flow == flow))
        if view.is_told:
            series += [_of(view, flow, "sent", "points", packets[~table.retransmission[packets]], table.made),
                       _of(view, flow, "sent again", "marks", packets[table.retransmission[packets]],
                           table.made)]
        else:
            series.append(_of(view, flow, "delivered", "points", packets[table.outcome[packets] == DELIVERED],
                              table.ended))
        series += [_of(view, flow, "acknowledged", "steps", acks[table.outcome[acks] == DELIVERED],
                       table.ended),
                   _of(view, flow, "dropped", "marks", packets[table.outcome[packets] >= DROPPED],
                       table.ended),
                   _of(view, flow, "acknowledgement dropped", "marks", acks[table.outcome[acks] >= DROPPED],
                       table.ended)]
    title = "Sequence numbers" + ("" if view.is_told else " (when they were sent needs --trace)")
    shown = [one for one in series if len(one.series.moments)]
    return Pane(title, "Sequence number", "bytes", shown, "" if shown else "no flow sent a segment")


def _of(view: View, flow: int, what: str, form: str, packets: Ints, moments: Ints) -> Shown:
    packets = packets[np.argsort(moments[packets], kind="stable")]
    return Shown(Series(f"flow {flow}: {what}", form, moments[packets], view.packets.number[packets]),
                 packets)


def delays(view: View) -> Pane:
    """Returns the one-way delays, with the packets, for each sender in the order of delivery."""
    pane, table, senders = pane_of(sojourns(view, None)), view.packets, dict(view.senders)

    def own(one: Series) -> Ints:
        delivered = senders[one.label][table.outcome[senders[one.label]] == DELIVERED]
        ordered: Ints = delivered[np.argsort(table.ended[delivered], kind="stable")]
        return ordered

    return pane._replace(shown=[Shown(one, own(one)) for one, _ in pane.shown])


def speeds(view: View) -> Pane:
    """Returns the cumulative deliveries, from which the script computes rates over the visible time, and the
    rates of the pipes."""
    pane = pane_of(rates(view, None))
    links = [Shown(one) for one in link_rates(view)] if pane.unit == "bytes" else []
    title = "Throughput" if pane.unit == "bytes" else "Delivered packets (throughput needs --trace)"
    return pane._replace(shown=pane.shown + links, title=title, quantity="Throughput",
                         unit="Mbit/s" if pane.unit == "bytes" else "packets/s")


def occupancy(view: View) -> Pane:
    """Returns the queues and their limits, and the packets in flight."""
    pane = pane_of(queues(view))
    return pane._replace(shown=pane.shown + pane_of(flights(view)).shown,
                         title=f"{pane.title}, and packets in flight", quantity="Packets",
                         unit="") if view.is_told else pane


def journeys(view: View, blocks: Blocks) -> dict[str, int]:
    """Returns the columns of packets, and of their visits, sorted by packet; `starts` has the first visit of
    each.

    Times are relative to an earlier one (an end and an arrival to the creation, a finish and an exit to the
    arrival), which keeps columns narrow; -1 means unknown."""
    table, visits = view.packets, view.visits
    pipes = np.unique(visits.pipe)
    columns: dict[str, Any] = {
        "made": table.made, "ended": _since(table.made, table.ended), "fate": table.outcome,
        "size": table.size,
        "who": np.where(table.who < 0, len(table.names), table.who), "kind": table.kind,
        "number": table.number,
        "again": table.retransmission.astype(np.int64),
        "starts": np.searchsorted(visits.packet, np.arange(len(table) + 1)),
        "pipe": np.searchsorted(pipes, visits.pipe),
        "arrival": _since(table.made[visits.packet], visits.arrival),
        "finish": _since(visits.arrival, visits.finish), "exit": _since(visits.arrival, visits.exit)}
    return {name: blocks.add(column) for name, column in columns.items()}


def _since(before: Ints, moments: Ints) -> Ints:
    return np.where(moments < 0, -1, moments - before)


def drawn(view: View) -> Drawn:
    """Returns an experiment for a page."""
    blocks = Blocks()
    # Series of acknowledgements, which the page draws on request: of their sender, or of a pipe that carries
    # nothing else.
    pipes = {label for label, _ in labelled(view)} - {label for label, _ in labelled(without_acks(view))}
    ends = (" acks", "acknowledgement dropped", *pipes)
    panels = [{"what": what, "title": pane.title, "quantity": pane.quantity, "unit": pane.unit,
               "words": "" if pane.shown else pane.words,
               "segment": pane.segment,
               "series": [{"label": one.label, "form": one.form, "under": one.under,
                           "ack": one.label.endswith(ends),
                           "x": blocks.add(one.moments), "y": blocks.add(one.values),
                           "packets": -1 if packets is None else blocks.add(packets)}
                          for one, packets in pane.shown]}
              for what, pane in (("sequence", sequences(view)), ("window", pane_of(windows(view, None))),
                                 ("queue", occupancy(view)), ("delay", delays(view)), ("rate", speeds(view)))]
    until = max(view.ended.moment if view.ended.is_short() else view.last, 1)
    unit = next(unit for unit in _UNITS if until >= 2 * unit[0] or unit[0] == 1)
    head = {"name": view.name, "about": about(view),
            "notes": [note.text for note in [*view.notes, *view.more_notes]], "until": until,
            "ended": max(view.ended.moment, 1), "unit": unit, "panels": panels,
            "names": [*view.packets.names, UNKNOWN], "fates": OUTCOMES,
            "pipes": [instance_name(int(pipe)) for pipe in np.unique(view.visits.pipe)],
            "table": journeys(view, blocks), "blocks": blocks.heads}
    return Drawn(head, blocks.text())


def about(view: View) -> str:
    """Returns a line about an experiment: its counters, how it ended, seed and settings."""
    counters = view.counters
    said = [f"{counters.made} packets made", f"{counters.delivered} delivered",
            *(f"{count} dropped ({cause})" for cause, count in counters.drops.items() if count),
            f"{counters.held} under way at the end"]
    plan = view.plan
    return ", ".join(said) + ("" if plan is None else f"; seed {plan.seed}; {plan.settings() or 'no pipe'}")


def page(title: str, experiments: Iterable[Drawn], plotly: Optional[str]) -> Iterable[str]:
    """Yields the page in parts; plotly's script is included if given, else next to the page."""
    style, shared, own = ((_HERE / f"page.{kind}").read_text(encoding="utf-8")
                          for kind in ("css", "shared.js", "js"))
    script = shared + own
    yield (f'<!DOCTYPE html>\n<html lang="en">\n<meta charset="utf-8">\n<title>{html.escape(title)}</title>\n'
           '<meta name="viewport" content="width=device-width, '
           f'initial-scale=1">\n<style>\n{style}</style>\n')
    yield f'<script src="{SCRIPT}"></script>\n' if plotly is None else f"<script>{_within(plotly)}</script>\n"
    yield f"<body>\n<h1>{html.escape(title)}</h1>\n{_BODY}"
    heads = []
    for place, one in enumerate(experiments):
        heads.append(one.head)
        yield f'<script type="text/plain" id="data-{place}">{one.data}</script>\n'
    yield f'<script type="application/json" id="heads">{_within(json.dumps(heads))}</script>\n'
    yield f"<script>\n{script}</script>\n</body>\n</html>\n"


def _within(text: str) -> str:
    """Returns a text that cannot end an element: `</` becomes `<\\/`, which is the same in a string of a
    script."""
    return text.replace("</", "<\\/")


def write(path: str, title: str, experiments: Iterable[Drawn], plotly: str, single: bool) -> Sequence[str]:
    """Writes a page, and plotly's script next to it unless it is single; returns the files written. Raises
    `OSError`."""
    written = [path]
    with whole_file(path) as file:
        for part in page(title, experiments, plotly if single else None):
            file.write(part.encode())
    beside = Path(path).with_name(SCRIPT)
    if not single and not (beside.exists() and beside.stat().st_size == len(plotly.encode())):
        with whole_file(str(beside)) as file:
            file.write(plotly.encode())
        written.append(str(beside))
    return written


_BODY = """<form id="tools" aria-label="what is drawn">
<label>experiment <select id="experiment"></select></label>
<label>beside <select id="beside"></select></label>
<label>flow <select id="flow"></select></label>
<label>windows in <select id="unit"><option>bytes</option><option>segments</option></select></label>
<label><input id="acks" type="checkbox"> acknowledgements</label>
<span role="group" aria-label="time in sight">
<button type="button" id="in" title="key +">zoom in</button>
<button type="button" id="out" title="key -">zoom out</button>
<button type="button" id="earlier" title="key left">earlier</button>
<button type="button" id="later" title="key right">later</button>
<button type="button" id="whole" title="key 0">all</button></span>
<label>packet <input id="packet" type="number" min="0" inputmode="numeric"></label>
</form>
<p id="about"></p>
<ul id="notes"></ul>
<p id="range" aria-live="polite"></p>
<output id="journey" aria-live="polite"></output>
<div id="panels"><p>Reading ..</p></div>
<noscript>This page draws by JavaScript, which is switched off.</noscript>
"""
