"""Deliveries in intervals of time, and drops by cause, of the senders of an experiment.

Unknown values are None. Times are nanoseconds, rates bits per second, rounded down.
"""
import numpy as np

from dnlab.analysis.metrics import Row
from dnlab.analysis.packets import DELIVERED, DROPPED
from dnlab.analysis.view import View
from dnlab.errors import InputError
from dnlab.io.rows import PLAIN, Ints, instance_name
from dnlab.io.scenario_parts import DROP_CAUSES, HEADER

# The maximum number of rows per experiment in a table of intervals.
_MOST_WINDOWS = 10**6


def windows_of(view: View, every: int) -> list[Row]:
    """Returns each sender's deliveries in intervals of `every` ns, from 0 on; the last one ends with the
    experiment.

    Columns: experiment, sender, begin, end (ns), packets and bytes delivered, rate (bit/s), useful bytes
    (each once) and goodput (bit/s). Raises `InputError` for too many rows."""
    table = view.packets
    until = max(view.ended.moment, 1)
    count = -(-until // every)
    if count * len(view.senders) > _MOST_WINDOWS:
        raise InputError(
            f"experiment {view.name}: {count} intervals of {every} ns for each of {len(view.senders)} "
            f"senders are more than {_MOST_WINDOWS} rows: choose a longer interval")
    begins = np.arange(count, dtype=np.int64) * every
    ends = np.minimum(begins + every, until)
    rows: list[Row] = []
    for name, packets in view.senders:
        delivered = packets[table.outcome[packets] == DELIVERED]
        at = np.minimum(table.ended[delivered] // every, count - 1)
        packets_in = np.bincount(at, minlength=count)
        told = not len(delivered) or int(table.size[delivered].min()) >= 0
        bytes_in = _sums(at, table.size[delivered], count)
        useful_in, is_known = bytes_in, told and not view.is_injected[packets].any()
        if told and int(table.kind[packets[0]]) != PLAIN:
            once = delivered[table.is_new[delivered]]
            useful_in = _sums(np.minimum(table.ended[once] // every, count - 1), table.size[once] - HEADER,
                              count)
        for k in range(count):
            time = int(ends[k] - begins[k])
            rows.append({"experiment": view.name, "sender": name, "begin": int(begins[k]),
                         "end": int(ends[k]),
                         "packets": int(packets_in[k]), "bytes": int(bytes_in[k]) if told else None,
                         "rate": int(bytes_in[k]) * 8 * 10**9 // time if told else None,
                         "useful": int(useful_in[k]) if is_known else None,
                         "goodput": int(useful_in[k]) * 8 * 10**9 // time if is_known else None})
    return rows


def _sums(at: Ints, values: Ints, count: int) -> Ints:
    """Returns sums of values by index. They stay below 2^53, so sums of floats are exact."""
    return np.bincount(at, weights=values, minlength=count).astype(np.int64)


def losses(view: View) -> list[Row]:
    """Returns drops by sender, cause and pipe (None if no line has it): experiment, sender, cause, pipe,
    packets."""
    table = view.packets
    rows: list[Row] = []
    for name, packets in view.senders:
        dropped = packets[table.outcome[packets] >= DROPPED]
        pipe = dropping_pipes(view, dropped)
        for cause, code in enumerate(range(DROPPED, DROPPED + len(DROP_CAUSES))):
            own = pipe[table.outcome[dropped] == code]
            for value, count in zip(*np.unique(own, return_counts=True)):
                rows.append({"experiment": view.name, "sender": name, "cause": DROP_CAUSES[cause],
                             "queue": instance_name(int(value)) if value >= 0 else None,
                             "packets": int(count)})
    return rows


def dropping_pipes(view: View, packets: Ints) -> Ints:
    """Returns the pipes that dropped packets, which are those where they waited, by their last visits; -1 if
    no line has it."""
    visits = view.visits
    found = np.full(len(view.packets), -1, dtype=np.int64)
    found[visits.packet] = np.where((visits.finish < 0) & (visits.exit == view.packets.ended[visits.packet]),
                                    visits.pipe, -1)
    return found[packets]
