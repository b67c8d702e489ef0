"""Makes a pipe's rate follow a trace: Mahimahi's, or a table of times and rates."""
import argparse
import csv
import re
from decimal import Decimal
from pathlib import Path
from typing import Iterable, Iterator, NamedTuple, Optional, Sequence

from dnlab.cli.arguments import count_of, moment_of, parser_of, time_of
from dnlab.cli.ipfw import plan_of, write
from dnlab.errors import InputError, reading
from dnlab.io.scenario import Judged
from dnlab.io.scenario_parts import BIT_UNITS, MOST_BYTES, SCALES, Plan, rate_of, rate_text
from dnlab.programs import say

# A pipe has no outages: `bw 0` is unlimited, and the packet in service keeps its finish time whatever rate
# follows. An outage that holds packets is therefore imitated with rates at which a packet of a known size
# finishes when the outage ends (`rates_of_outage`). This many bytes can leave at each time of a Mahimahi
# trace.
OPPORTUNITY = 1504
_MS, _SECOND = 10**6, 10**9
_MOST_RATE = 10**10
_UNIT = re.compile(
    rf"(?:0|[1-9][0-9]*)(?:[{''.join(SCALES)}]?(?:{'|'.join(unit for unit in BIT_UNITS if unit)}))?")


class Rate(NamedTuple):
    """A rate in bit/s from a time on, ns; 0 is an outage."""
    moment: int
    rate: int


class Trace(NamedTuple):
    """Rates by time, and the end of the last one, ns."""
    rates: list[Rate]
    end: int

    def repeated(self, end: int) -> "Trace":
        """Returns the trace repeated until a time, as Mahimahi does."""
        found: list[Rate] = []
        begin = 0
        while begin < end and self.end:
            found += [Rate(begin + one.moment, one.rate) for one in self.rates if begin + one.moment < end]
            begin += self.end
        return Trace(found, end)


def of_file(path: str, every: int) -> Trace:
    """Returns a trace: integers are Mahimahi's, over `every` ns, else a table. Raises `InputError`."""
    try:
        with reading(path):
            text = Path(path).read_bytes().decode("ascii")
    except UnicodeDecodeError:
        raise InputError(f"{path}: it is not a trace: expected Mahimahi's numbers, or a table of times "
                         "and rates") from None
    lines = text.splitlines()
    if not any(line.strip() for line in lines):
        raise InputError(f"{path}: it is empty")
    first = next(line for line in lines if line.strip())
    return _opportunities(lines, path, every) if re.fullmatch(r"\s*[0-9]+\s*", first) else _table(lines, path)


def _opportunities(lines: Sequence[str], path: str, every: int) -> Trace:
    """Returns Mahimahi's trace: at each line's millisecond 1504 bytes may leave; the last is its end."""
    counts: dict[int, int] = {}
    last = 0
    for number, line in enumerate(lines, 1):
        if not line.strip():
            continue
        if not re.fullmatch(r"\s*[0-9]{1,9}\s*", line):
            raise InputError(f"{path}: line {number}: {line[:40]!r} is not a millisecond of a Mahimahi trace")
        moment = int(line)
        if moment < last:
            raise InputError(f"{path}: line {number}: {moment} ms comes before {last} ms")
        last = moment
        # Packets that may leave at the end of an interval belong to it.
        counts[max(0, moment * _MS - 1) // every] = counts.get(max(0, moment * _MS - 1) // every, 0) + 1
    if not last:
        raise InputError(f"{path}: the trace has no length: its last time is 0 ms")
    end = last * _MS
    rates = []
    for place in range(-(-end // every)):
        length = min(every, end - place * every)
        rates.append(Rate(place * every,
                          min(_MOST_RATE, counts.get(place, 0) * OPPORTUNITY * 8 * _SECOND // length)))
    return Trace(rates, end)


def _table(lines: Sequence[str], path: str) -> Trace:
    """Returns a trace from CSV: `moment` (ns) or `seconds`, and `rate`; the last row is the end."""
    rows = csv.DictReader(lines)
    names = [name.strip() for name in rows.fieldnames or ()]
    rows.fieldnames = names
    if "rate" not in names or ("moment" in names) == ("seconds" in names):
        raise InputError(
            f"{path}: line 1: the first line must name the columns: moment (ns) or seconds, and rate (bit/s, "
            "or as 5Mbit/s)")
    found: list[Rate] = []
    for row in rows:
        try:
            moment = (Decimal(row["moment"].strip()) if "moment" in row
                      else Decimal(row["seconds"].strip()) * _SECOND)
            rate = _rate(row["rate"].strip())
            if moment != int(moment) or moment < 0:
                raise ValueError
        except (ArithmeticError, ValueError, AttributeError):
            said = ",".join(str(value) for value in row.values())[:80]
            raise InputError(
                f"{path}: line {rows.line_num}: {said!r} is not a time and a rate (up to 10Gbit/s)") from None
        if found and moment <= found[-1].moment:
            raise InputError(f"{path}: line {rows.line_num}: its time is not later than the previous one")
        found.append(Rate(int(moment), rate))
    if not found:
        raise InputError(f"{path}: it has no row")
    return Trace(found, found[-1].moment)


def _rate(word: str) -> int:
    """Returns a rate in bit/s, from a number with or without a unit."""
    if _UNIT.fullmatch(word):
        rate = rate_of(word)
    else:
        exact = Decimal(word)
        if not exact.is_finite():
            raise ValueError
        rate = int(exact)
    if not 0 <= rate <= _MOST_RATE:
        raise ValueError
    return rate


class Outage(NamedTuple):
    """A time range in ns without service, and the rate after it, bit/s (None if the trace ends with it)."""
    begin: int
    end: int
    rate: Optional[int]


def outages(trace: Trace) -> list[Outage]:
    """Returns the outages of a trace, each complete."""
    found: list[Outage] = []
    for place, one in enumerate(trace.rates):
        if one.rate == 0 and (not place or trace.rates[place - 1].rate):
            after = next((later for later in trace.rates[place:] if later.rate), None)
            found.append(Outage(one.moment, after.moment if after else trace.end,
                                after.rate if after else None))
    return found


def rates_of_outage(outage: Outage, size: int, step: int) -> Iterator[Rate]:
    """Yields rates for an outage. A packet of `size` bytes whose service starts within it finishes as if its
    service had started at the end of the outage, at most `step` ns later. A shorter one finishes earlier, in
    proportion to its size."""
    bits = 8 * size
    finish = outage.end + (-(-bits * _SECOND // outage.rate) if outage.rate else 0)
    for moment in range(outage.begin, outage.end, step):
        # Rounded up, so that the packet isn't late; the next packet is held for the remaining time.
        yield Rate(moment, max(1, -(-bits * _SECOND // (finish - moment))))


def config_changes(trace: Trace, how: str, size: int, step: int) -> Iterator[tuple[int, int, bool]]:
    """Yields the times at which a pipe is configured, each with its rate and whether it loses all packets."""
    gone = {one.begin: one for one in outages(trace)}
    rate, is_lost = -1, False
    for one in trace.rates:
        if one.rate == 0:
            outage = gone.get(one.moment)
            if outage is not None and how == "hold":
                yield from ((each.moment, each.rate, False) for each in rates_of_outage(outage, size, step))
                rate = -1
            elif outage is not None:
                # Queued packets leave at the previous rate; a link that starts with an outage has none.
                yield one.moment, max(rate, 0), True
                is_lost = True
        elif one.rate != rate or is_lost:
            rate, is_lost = one.rate, False
            yield one.moment, rate, False


def options_of(words: str) -> str:
    """Returns the options of a pipe without its rate and losses, which the trace sets; other options keep
    their order.

    >>> options_of("bw 5Mbit/s delay 20 queue 100 codel")
    'delay 20 queue 100 codel'
    """
    return re.sub(r"(?:^|(?<= ))bw \S+ ?", "", " ".join(words.split())).strip()


def lines_of(found: Iterable[tuple[int, int, bool]], pipe: int, options: str,
             begin: int) -> list[tuple[int, str]]:
    """Returns the commands and their times, `begin` ns later. Raises `InputError` if they are too many."""
    lossless = re.sub(r"(?:^|(?<= ))plr \S+ ?", "", options).strip()
    made, size = [], 0
    for moment, rate, is_lost in found:
        rest = f"plr 1 {lossless}" if is_lost else options
        made.append((begin + moment, f"pipe {pipe} config bw {rate_text(rate)} {rest}".rstrip()))
        size += len(made[-1][1]) + 20
        if size > MOST_BYTES:
            raise InputError(
                f"the commands would have more than {MOST_BYTES} bytes: choose a longer --every or --step, "
                "or a part of the trace")
    return made


def rate_word(text: str) -> int:
    try:
        return rate_of(text)
    except ValueError:
        raise argparse.ArgumentTypeError(f"{text!r} is not a rate such as 100Kbit/s") from None


def words(given: Sequence[str]) -> argparse.Namespace:
    parser = parser_of("rate-trace")
    parser.add_argument("file", metavar="FILE", help="the trace")
    which = parser.add_mutually_exclusive_group()
    which.add_argument("--config", default="", metavar="WORDS",
                       help="the pipe's other options, as 'delay 20 queue 100 codel'")
    which.add_argument("--scenario", metavar="FILE", help="the scenario to add the commands to")
    parser.add_argument("--experiment", metavar="NAME", help="which of its experiments, if it has several")
    parser.add_argument("--pipe", type=count_of, default=1, metavar="P", help="the pipe [1]")
    parser.add_argument("--every", type=time_of, default=10**8, metavar="TIME",
                        help="interval over which Mahimahi's packets are counted [100ms]")
    parser.add_argument("--outage", choices=("hold", "drop", "refuse"), default="refuse",
                        help="what to do with packets in an outage [refuse]")
    parser.add_argument("--size", type=count_of, default=1500, metavar="BYTES",
                        help="size of the packets that an outage holds, in bytes [1500]")
    parser.add_argument("--step", type=time_of, default=10**7, metavar="TIME",
                        help="precision of the end of an outage [10ms]")
    parser.add_argument("--lowest", type=rate_word, default=0, metavar="RATE",
                        help="lower rates are outages [0]")
    parser.add_argument("--begin", type=moment_of, default=0, metavar="TIME",
                        help="the time at which the trace starts [0]")
    parser.add_argument("--repeat", type=time_of, metavar="TIME",
                        help="repeat the trace up to this time, as Mahimahi does")
    parser.add_argument("--out", metavar="FILE", help="the output file [standard output]")
    given_words = parser.parse_args(list(given))
    if not 40 <= given_words.size <= 1500:
        parser.error("--size: packets have 40 to 1500 bytes")
    return given_words


def trace_of(given: argparse.Namespace) -> Trace:
    """Returns the trace with the requested options applied."""
    trace = of_file(given.file, given.every)
    if given.repeat is not None:
        trace = trace.repeated(given.repeat)
    trace = trace._replace(rates=[one if one.rate >= given.lowest else one._replace(rate=0)
                                  for one in trace.rates])
    gone = outages(trace)
    if gone and given.outage == "refuse":
        raise InputError(
            f"{given.file}: {len(gone)} outages, the first from {gone[0].begin} to {gone[0].end} ns: choose "
            "--outage hold or drop (`bw 0` would mean unlimited)")
    return trace


def with_commands(plan: Plan, made: Sequence[tuple[int, str]], pipe: int) -> str:
    """Returns the experiment with the new commands added, each after the experiment's own commands of the
    same time. Commands after the experiment's end are left out."""
    own = [(command.moment, command.text) for command in plan.commands if command.word != "end"]
    end = plan.end()
    assert end is not None
    kept = [(moment, text) for moment, text in made if moment < end]
    lines = sorted([*own, *kept], key=lambda one: one[0])
    head = f"experiment {plan.name} seed {plan.seed} budget {plan.budget} steps {plan.steps}"
    return "\n".join([head, *(f"@{moment} {text}" for moment, text in lines), f"@{end} end"]) + "\n"


def own_options(plan: Plan, pipe: int, file: str) -> str:
    """Returns the options of the pipe's only `config`. Raises `InputError` unless there is exactly one."""
    own = [command for command in plan.commands if command.pipe == pipe]
    if len(own) != 1:
        raise InputError(
            f"{file}: {'no command configures' if not own else f'{len(own)} commands configure'} pipe "
            f"{pipe}; exactly one is required, whose options the trace keeps")
    return options_of(own[0].text.split(" config", 1)[1])


def output_text(given: argparse.Namespace) -> str:
    """Returns the text to write."""
    trace = trace_of(given)
    plan = plan_of(given.scenario, given.experiment) if given.scenario else None
    options = own_options(plan, given.pipe, given.scenario) if plan else options_of(given.config)
    made = lines_of(config_changes(trace, given.outage, given.size, given.step), given.pipe, options,
                    given.begin)
    if plan is not None:
        text = with_commands(plan, made, given.pipe)
        judged = text
    else:
        text = "".join(f"@{moment} {words}\n" for moment, words in made)
        judged = f"experiment a seed 0 budget 1\n{text}@{10**15} end\n"
    fault = Judged(judged.encode("ascii", "replace")).fault
    if fault:
        raise InputError(
            f"the output would not be a valid scenario: {fault[1]}: {judged.splitlines()[fault[0] - 1][:80]}")
    print_summary(given, trace, len(made))
    return text


def print_summary(given: argparse.Namespace, trace: Trace, count: int) -> None:
    """Prints a summary of the trace on standard error."""
    gone = outages(trace)
    ends = [*(one.moment for one in trace.rates[1:]), trace.end]
    lasting = [(one, end - one.moment) for one, end in zip(trace.rates, ends)]
    capacity = sum(one.rate * time for one, time in lasting) // _SECOND
    out = sum(one.end - one.begin for one in gone) / 10**9
    lost = f", {len(gone)} outages of {out:g} s in all ({given.outage})" if gone else ""
    carried = f"{capacity / 8 / 10**6:.6g} MB{lost}"
    say("rate-trace", f"{count} commands over {trace.end / 10**9:g} s: the link can carry {carried}")
    bits = 8 * given.size
    low = [one for one, time in lasting if one.rate and time > 0 and bits * _SECOND > one.rate * time]
    if low:
        say("rate-trace",
            f"{len(low)} rates are so low that a packet of {given.size} bytes takes longer than the rate "
            f"lasts, the first {rate_text(low[0].rate)} at {low[0].moment} ns: it keeps its finish time, and "
            "the link is busy until then; --lowest makes such rates outages")


def main(words_given: Sequence[str]) -> int:
    given = words(words_given)
    write(output_text(given), given.out)
    return 0
