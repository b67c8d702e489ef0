"""Experiments for scripts, with their tables as DataFrames."""
from dataclasses import dataclass
from pathlib import Path
from typing import Any, Optional, Sequence, Union

import numpy as np
import pandas as pd

from dnlab.analysis.diagnostics import Refusal
from dnlab.analysis.intervals import dropping_pipes, losses, windows_of
from dnlab.analysis.metrics import PERCENTILES, columns_of, span_of
from dnlab.analysis.packets import DROPPED, OUTCOMES, UNKNOWN, Packets
from dnlab.analysis.quantities import Percentile, interval as interval_of
from dnlab.analysis.tables import Tables
from dnlab.analysis.view import Ended, Note, View
from dnlab.io.rows import (ACK, ARRIVE, DROP, DROP_ACK, EXPIRE, IDENTIFY, KINDS, LOAD_OF, MAKE_ACK,
                           MAKE_COMMAND, PASS, PLAIN, REFUSED, RULE, WORD_OF, WORDS, Counters, instance_name)
from dnlab.io.scenario_parts import DROP_CAUSES, first_window


def whole(values: Any) -> Any:
    """Returns integers as Int64; negative ones become <NA>."""
    values = np.asarray(values, dtype=np.int64)
    return pd.arrays.IntegerArray(np.maximum(values, 0), values < 0)


def named(codes: Any, names: Sequence[str]) -> Any:
    """Returns names for their indices as categories; -1 becomes <NA>."""
    used = list(dict.fromkeys(names))
    places = np.array([used.index(name) for name in names] + [-1], dtype=np.int64)
    return pd.Categorical.from_codes(places[np.asarray(codes)], categories=used)


def pipes_named(codes: Any) -> Any:
    """Returns the names of instances as in reports; -1 becomes <NA>."""
    values = np.asarray(codes, dtype=np.int64)
    if int(values.max(initial=0)) < 65536:
        # Counted, which takes less than to sort them.
        every = values + 1
        values = np.flatnonzero(np.bincount(every)) - 1
        index = np.zeros(65537, dtype=np.int64)
        index[values + 1] = np.arange(len(values))
        places = index[every]
    else:
        values, places = np.unique(values, return_inverse=True)
    names = [instance_name(int(value)) for value in values if value >= 0]
    return pd.Categorical.from_codes(places - int(len(names) < len(values)), categories=names)


def senders(table: Packets, packets: Any = slice(None)) -> Any:
    """Returns the names of the senders of some packets."""
    return named(table.who[packets] % (len(table.names) + 1), [*table.names, UNKNOWN])


def of_rows(rows: Sequence[dict[str, Any]], names: Sequence[str]) -> pd.DataFrame:
    """Returns the rows of a summary as a DataFrame; columns of integers stay integers."""
    frame = pd.DataFrame.from_records(rows, columns=list(names))
    for name in names:
        values = [row.get(name) for row in rows]
        known = [value for value in values if value is not None]
        if known and all(isinstance(value, int) for value in known):
            kind = "UInt64" if max(known) >= 2**63 else "Int64"
            frame[name] = pd.array([None if value is None else int(value) for value in values], dtype=kind)
        elif known and all(isinstance(value, str) for value in known):
            frame[name] = pd.array(values, dtype="string")
    return frame


@dataclass(repr=False)
class Experiment:
    """An experiment of a report. It also has `name` and `seed`."""
    view: View
    varied: Optional[str] = None

    def __repr__(self) -> str:
        counts, senders = self.counters, [name for name, _ in self.view.senders]
        dropped = ", ".join(f"{count} {cause}" for cause, count in counts.drops.items() if count) or "none"
        more = f" and {len(senders) - 8} more" if len(senders) > 8 else ""
        return (f"Experiment {self.name}: `{self.ended.how}` at {self.ended.moment} ns, seed {self.seed}\n  "
                f"packets: {counts.made} made, {counts.delivered} delivered, {counts.held} held; dropped: "
                f"{dropped}\n  senders: {', '.join(senders[:8]) or 'none'}{more}\n  warnings: "
                f"{self.view.marks() or 'none'}")

    @property
    def name(self) -> str:
        return self.view.name

    @property
    def counters(self) -> Counters:
        """Returns the packets `made`, `delivered` and `held`, and `drops` by cause."""
        return self.view.counters

    @property
    def ended(self) -> Ended:
        """Returns `how` it ended (`end` or `spent`), the `moment`, and the scenario's `end` (ns)."""
        return self.view.ended

    @property
    def seed(self) -> Optional[int]:
        return self.view.plan.seed if self.view.plan else None

    @property
    def folder(self) -> Optional[Path]:
        """Returns the output folder of a run of programs, otherwise None."""
        return self.view.folder

    @property
    def params(self) -> Optional[str]:
        """Returns the configurations of its pipes, in scenario syntax."""
        return self.view.plan.settings() if self.view.plan else None

    @property
    def refused(self) -> list[Refusal]:
        """Returns the refused commands, each with its `line`, `text`, `code` and reason, `told()`."""
        return self.view.refused

    @property
    def warnings(self) -> str:
        """Returns the warnings of all summary rows (docs/reference/tools.md), separated by spaces."""
        return self.view.marks()

    @property
    def notes(self) -> list[Note]:
        """Returns notes about unknown values and possible mistakes."""
        return self.view.notes

    def packets(self) -> pd.DataFrame:
        """Returns a row per packet: made, delivered, delay (ns), bytes, sender, queue (the last one known),
        outcome (`held`, `delivered`, or the cause of its drop), ended (ns, also for drops), kind, flow and
        number of its load, retransmission (sent before).

        A report that isn't traced has no made, delay and bytes (<NA>)."""
        table, visits = self.view.packets, self.view.visits
        last = np.full(len(table), -1, dtype=np.int64)
        last[visits.packet] = visits.pipe
        return pd.DataFrame({
            "made": whole(table.made), "delivered": whole(np.where(table.outcome == 1, table.ended, -1)),
            "delay": whole(table.delay), "bytes": whole(table.size), "sender": senders(table),
            "queue": pipes_named(last), "outcome": named(table.outcome, OUTCOMES),
            "ended": whole(table.ended),
            "kind": named(table.kind, KINDS), "flow": whole(table.flow), "number": whole(table.number),
            "retransmission": table.retransmission.copy()}, copy=False,
                            index=pd.RangeIndex(len(table), name="packet"))

    def visits(self) -> pd.DataFrame:
        """Returns a row per visit of a packet to an instance: packet, queue, arrival, finish and exit (ns).
        Raises `InputError` for a report that isn't traced."""
        self.view.must_be_traced("it has no visits")
        table = self.view.visits
        return pd.DataFrame({"packet": table.packet, "queue": pipes_named(table.pipe),
                             "arrival": whole(table.arrival), "finish": whole(table.finish),
                             "exit": whole(table.exit)})

    def windows(self) -> pd.DataFrame:
        """Returns a row per `ack` and `expire` line and start of a flow: moment (ns), flow, event, cwnd and
        ssthresh (bytes)."""
        records = self.view.records
        rows = records.at(ACK, EXPIRE)
        begun = pd.DataFrame([(moment, sends.number, 0, first_window(sends.smss), sends.ssthresh)
                              for moment, sends
                              in self.view.sends.values() if sends.word == "flow"],
                             columns=["moment", "flow", "event", "cwnd", "ssthresh"], dtype="int64")
        columns = {name: records.take(column, rows) for name, column in
                   (("moment", "moment"), ("flow", "source"), ("cwnd", "number"), ("ssthresh", "more"))}
        frame = pd.concat([begun,
                           pd.DataFrame({**columns, "event": np.where(records.kind[rows] == ACK, 1, 2)})])
        frame["event"] = named(frame["event"], ("begin", "ack", "expire"))
        return frame.sort_values("moment", kind="stable", ignore_index=True)

    def queues(self) -> pd.DataFrame:
        """Returns a row per change of an instance: moment (ns), queue, waiting (or in service), in_flight (in
        the delay line). Raises `InputError` for a report that isn't traced."""
        self.view.must_be_traced("it has no queues")
        table = self.view.visits
        flies = table.finish >= 0
        served = np.where(flies, table.finish, table.exit)
        left = np.where(table.exit >= 0, table.exit, self.view.packets.ended[table.packet])
        changes = pd.concat([pd.DataFrame({"pipe": table.pipe[of], "moment": moments[of], "waiting": waits,
                                           "in_flight": flying})
                             for of, moments, waits, flying in (
                                 (table.arrival >= 0, table.arrival, 1, 0), (served >= 0, served, -1, 0),
                                 (flies, table.finish, 0, 1), (flies & (left >= 0), left, 0, -1))])
        frame = changes.groupby(["pipe", "moment"]).sum().groupby("pipe").cumsum().reset_index()
        queue = pipes_named(frame.pop("pipe"))
        frame.insert(1, "queue", queue.reorder_categories(sorted(queue.categories)))
        frame["waiting"] = whole(frame["waiting"])
        return frame.sort_values(["moment", "queue"], kind="stable", ignore_index=True)

    def drops(self) -> pd.DataFrame:
        """Returns a row per drop: moment (ns), packet, sender, cause, queue if known, bytes."""
        records = self.view.records
        rows = records.at(DROP, DROP_ACK)
        serial = records.take("packet", rows)
        table = self.view.packets
        return pd.DataFrame({
            "moment": records.take("moment", rows), "packet": serial, "sender": senders(table, serial),
            "cause": named(table.outcome[serial].astype(np.int64) - DROPPED, DROP_CAUSES),
            "queue": pipes_named(dropping_pipes(self.view, serial)), "bytes": whole(table.size[serial])})

    def commands(self) -> pd.DataFrame:
        """Returns a row per command: moment (ns), text, line, answer (`ok`, `refused`), code."""
        records = self.view.records
        rows = records.commands()
        refused = records.kind[rows] == REFUSED
        plan = self.view.plan.commands[:len(rows)] if self.view.plan else None
        return pd.DataFrame({
            "moment": records.take("moment", rows),
            "text": [command.text for command in plan] if plan is not None
            else pd.array([None] * len(rows), "string"),
            "line": whole([command.line for command in plan] if plan is not None else np.full(len(rows), -1)),
            "answer": named(refused.astype(np.int64), ("ok", "refused")),
            "code": whole(np.where(refused, records.take("code", rows), -1))},
                            index=pd.RangeIndex(len(rows), name="command"))

    def records(self) -> pd.DataFrame:
        """Returns the report's records, by its lines or rows: word, moment, packet, queue, kind, flow,
        number, more."""
        own, kind = self.view.records, self.view.records.kind
        every = np.arange(len(own))
        is_loaded, has_window = LOAD_OF[kind] > PLAIN, (kind == ACK) | (kind == EXPIRE)
        is_make, is_command = (kind >= MAKE_COMMAND) & (kind <= MAKE_ACK), kind <= REFUSED
        is_drop, has_place = (kind >= DROP) & (kind <= DROP_ACK), ((kind >= ARRIVE) & (kind <= PASS)) | (
            kind == IDENTIFY)
        has_packet = is_make | (LOAD_OF[kind] >= 0) | ((kind >= ARRIVE) & (kind <= PASS))
        source, number, code = (own.take(column, every) for column in ("source", "number", "code"))
        more = np.select([is_drop, kind == REFUSED, has_window, is_make],
                         [code - 1, code, own.take("more", every), own.take("size", every)], -1)
        return pd.DataFrame({
            "word": named(WORD_OF[kind], WORDS[:-1]),
            "moment": whole(np.where(kind < RULE, own.take("moment", every), -1)),
            "packet": whole(np.where(has_packet, own.take("packet", every), -1)),
            "queue": pipes_named(np.where(has_place, own.instances(every), -1)),
            "kind": named(LOAD_OF[kind], KINDS),
            "flow": whole(np.where(is_loaded | has_window, source, -1)),
            "number": whole(np.select([is_command, is_loaded | has_window], [source, number], -1)),
            "more": whole(more)},
            index=pd.RangeIndex(own.number_of(0), own.number_of(0) + len(own),
                                name="row" if own.first is not None else "line"))

    def summary(self, percentiles: Sequence[Percentile] = PERCENTILES, begin: int = 0,
                end: Optional[int] = None) -> pd.DataFrame:
        """Returns the rows of a summary (docs/reference/tools.md), from `begin` until before `end` (ns)."""
        span = span_of(begin, end)
        return of_rows(Tables(self.view, percentiles, self.varied, span=span).rows(),
                       columns_of(percentiles, span))

    def throughput(self, every: int) -> pd.DataFrame:
        """Returns a row per sender and interval of `every` ns: sender, begin, end (ns), packets, bytes, rate
        (bit/s), useful (bytes, each once), goodput (bit/s)."""
        rows = windows_of(self.view, every)
        return of_rows(rows, list(rows[0]) if rows else ["experiment", "sender", "begin", "end"])

    def losses(self) -> pd.DataFrame:
        """Returns a row per kind of drop: sender, cause, queue (<NA> if unknown), packets."""
        return of_rows(losses(self.view), ["experiment", "sender", "cause", "queue", "packets"])

    def plot(self, what: Sequence[str] = ("window", "queue", "sojourn", "delivered", "drops"),
             acks: bool = False, effective: bool = False, **design: Any) -> Any:
        """Returns a matplotlib figure with a panel for each of `what`. Others are options of `tools/plot`,
        such as `title`, `labels`, `size` (inches), `font`, `style` and `legend`."""
        from dnlab.plot import pictures
        from dnlab.plot.style import Design

        return pictures.figure_of([self.view], what, effective, acks, Design(**design))


def intervals(rows: pd.DataFrame, by: Union[str, Sequence[str]],
              columns: Union[str, Sequence[str]]) -> pd.DataFrame:
    """Returns, for each group of rows that agree in `by`, in the order of their first rows, the number of
    values (`n`) of each of `columns`, their `mean`, and the half-width of its 95 % confidence interval
    (`ci95`, Student's t)."""
    keys = [by] if isinstance(by, str) else list(by)
    wanted = [columns] if isinstance(columns, str) else list(columns)
    found: dict[Any, dict[tuple[str, str], Any]] = {}
    for key, group in rows.groupby(keys if len(keys) > 1 else keys[0], sort=False, observed=True):
        found[key] = {}
        for name in wanted:
            made = interval_of(float(value) for value in group[name].dropna())
            found[key].update({(name, part): getattr(made, field) for part, field in
                               (("n", "count"), ("mean", "mean"), ("ci95", "half"))})
    frame = pd.DataFrame.from_dict(found, orient="index")
    frame.columns = (pd.MultiIndex.from_tuples(frame.columns, names=(None, None)) if len(frame)
                     else frame.columns)
    frame.index.names = keys if len(keys) > 1 else [keys[0]]
    return frame if len(wanted) > 1 or not len(frame) else frame[wanted[0]]
