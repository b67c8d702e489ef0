"""Names for people: of senders, of the settings of an experiment, and of the axes of pictures."""
import hashlib
import re
from collections import Counter
from typing import Any, Iterable, Mapping, Optional, Sequence

from dnlab.analysis.statistics import percentile_of
from dnlab.errors import InputError
from dnlab.io.scenario_parts import Config, Plan, config_of, rate_text

# A source is an address, or address and port, as `10.0.0.1` and `10.0.0.1:1000`. Only the scenario says which
# packets were injected, so names are put into its plans, and everything made from these has them.

FORM = "SOURCE=NAME, as 10.0.0.1=mine or 10.0.0.1:1000=mine"
_NAME = re.compile(r"[A-Za-z][A-Za-z0-9_.-]*")
# Words of the tools for rows, groups of them, or their kinds.
_TAKEN = ("injected", "all", "there", "back", "flow", "flows", "train", "trains", "pipe", "acks", "whole",
          "plain", "unknown")
# The maximum number of sources in a message.
_MOST = 40


def names_of(words: Iterable[str]) -> dict[str, str]:
    """Parses the values of `--name` into names by source. Raises `InputError` for a malformed value, and for
    two names of one source.

    >>> names_of(["10.0.0.1:1000=mine", "10.0.0.2=theirs"])
    {'10.0.0.1:1000': 'mine', '10.0.0.2': 'theirs'}
    """
    found: dict[str, str] = {}
    for word in words:
        source, sign, name = word.partition("=")
        if not sign or not source:
            raise InputError(f"name {word!r}: it must be {FORM}")
        if found.setdefault(source, name) != name:
            raise InputError(f"name {word!r}: {source} is named {found[source]!r} already")
    return found


def with_names(plans: Optional[dict[str, Plan]], names: Mapping[str, str],
               wanted: Sequence[str] = ()) -> Optional[dict[str, Plan]]:
    """Returns plans in which injected packets have the names of their sources; several sources may share a
    name.

    names   the name of each source, `ADDRESS` or `ADDRESS:PORT`

    Raises `InputError` without a scenario, for a name that the tools use, for a source that no `inject` has
    (in the `wanted` experiments, or all), and if a packet would have two names."""
    if not names:
        return plans
    for source, name in names.items():
        if not _NAME.fullmatch(name) or name in _TAKEN:
            raise InputError(
                f"name {source}={name}: {name!r} can't be a name: it must start with a letter, then have "
                "letters, digits, `_`, `-` and `.`, and must not be a word of the tools: "
                f"{', '.join(_TAKEN)}, `flow 1`, `train 2`")
    if plans is None:
        raise InputError(
            f"name {_said(names)}: only the scenario says which packets were injected: give it "
            "after the report")
    _check([plans[name] for name in (wanted or plans) if name in plans], names)
    return {own: plan._replace(names=names) for own, plan in plans.items()}


_INJECTED = re.compile(r"^@[0-9]+ inject (tcp|udp) ([0-9.]+) ([0-9]+) ([0-9.]+) ([0-9]+) ", re.MULTILINE)


def headers_in(plan: Plan) -> list[tuple[str, ...]]:
    """Returns the headers that a scenario injects (protocol, source, its port, target, its port), each once,
    in the order of the first."""
    return list(dict.fromkeys(_INJECTED.findall(plan.commands.text().decode())))


def sources_of(plan: Plan) -> list[tuple[str, str]]:
    """Returns the addresses, and addresses with ports, that inject, each once, in the order of the first."""
    return list(dict.fromkeys((address, f"{address}:{port}") for _, address, port, _, _ in headers_in(plan)))


def _check(plans: Iterable[Plan], names: Mapping[str, str]) -> None:
    """Raises `InputError` for a source that no `inject` of the plans has, and for one that is named both by
    address and by port."""
    found = dict.fromkeys(source for plan in plans for source in sources_of(plan))
    for address, source in found:
        if address in names and source in names and names[address] != names[source]:
            raise InputError(
                f"name {_said(names)}: {source} would have two names, {names[address]!r} and "
                f"{names[source]!r}")
    for source, name in names.items():
        if not any(source in both for both in found):
            there = [both[1] for both in found]
            more = f" and {len(there) - _MOST} more" if len(there) > _MOST else ""
            raise InputError(f"name {source}={name}: no packet is injected from {source}: "
                         + (f"the sources are {', '.join(there[:_MOST])}{more}" if there
                            else "the scenario injects none"))


def _said(names: Mapping[str, str]) -> str:
    return " ".join(f"{source}={name}" for source, name in names.items())


# Maximum number of successive values of an option to show; with more, the first and a checksum.
_MOST_SHOWN = 4


def configs_of(plan: Plan) -> dict[int, list[Config]]:
    """Returns the configurations of each pipe of an experiment, in order."""
    found: dict[int, list[Config]] = {}
    for _, command in plan.commands.plain:
        if command.pipe is not None:
            found.setdefault(command.pipe, []).append(config_of(command.line, command.text))
    return found


def values_of(config: Config) -> dict[str, Any]:
    """Returns the options of a configuration as numbers: rates in bit/s (0 is unlimited), times in ns, queues
    in slots or bytes.

    >>> values_of(config_of(1, "pipe 1 config bw 8Mbit/s delay 10"))["queue"]
    50
    >>> values_of(config_of(1, "pipe 1 config bw 8Mbit/s codel target 5"))["interval"]
    100000000
    """
    return {"bw": config.bw, "delay": config.delay, "queue": config.slots, "queue_bytes": config.bytes,
            "plr": config.plr / 10**6, "discipline": "codel" if config.codel else "droptail",
            "target": config.target,
            "interval": config.interval, "mask": config.mask}


def columns_in(plan: Plan) -> dict[str, Any]:
    """Returns the settings of an experiment by column, as `pipe1_bw`, `flow1_window` or `train9_gap`;
    `varies` if an option of a pipe changes during the run."""
    found: dict[str, Any] = {"seed": plan.seed, "budget": plan.budget, "steps": plan.steps, "end": plan.end()}
    for pipe, configs in configs_of(plan).items():
        every = [values_of(config) for config in configs]
        for name, value in every[0].items():
            found[f"pipe{pipe}_{name}"] = value if all(one[name] == value for one in every) else "varies"
    for command in plan.commands:
        sends = command.sends
        if sends is None or sends.number is None:
            continue
        own = {"begin": command.moment, "segments" if sends.word == "flow" else "count": sends.count}
        own |= ({"smss": sends.smss, "window": sends.window, "ssthresh": sends.ssthresh}
                if sends.word == "flow" else
                {"size": sends.size, "gap": sends.gap})
        found |= {f"{sends.word}{sends.number}_{name}": value for name, value in own.items()
                  if f"{sends.word}{sends.number}_{name}" not in found}
    return found


def spelled(config: Config) -> dict[str, str]:
    """Returns each option of a configuration in scenario syntax, with one spelling per value.

    >>> list(spelled(config_of(1, "pipe 1 config bw 8000Kbit/s")).values())
    ['bw 8Mbit/s', 'delay 0', 'queue 50', 'plr 0', 'droptail', '']
    """
    times = [f" {name} {value // 10**6 if value % 10**6 == 0 else f'{value // 10**3}us'}"
             for name, value in (("target", config.target), ("interval", config.interval))
             if config.codel and value is not None]
    queue = f"{config.bytes // 1024}KBytes" if config.bytes is not None else f"{config.slots}"
    plr = f"{config.plr / 10**6:.6f}".rstrip("0").rstrip(".")
    return {"bw": f"bw {rate_text(config.bw) if config.bw else 0}", "delay": f"delay {config.delay // 10**6}",
            "queue": f"queue {queue}",
            "plr": f"plr {plr}", "discipline": "codel" + "".join(times) if config.codel else "droptail",
            "mask": f"mask {config.mask}" if config.mask else ""}


def _sequence(values: Iterable[str]) -> str:
    """Returns successive values of an option as one text."""
    found: list[str] = []
    for value in values:
        if not found or found[-1] != value:
            found.append(value)
    if len(found) <= _MOST_SHOWN:
        return " then ".join(filter(None, found))
    return (f"{found[0]} then {len(found) - 1} more "
            f"({hashlib.sha256(chr(10).join(found).encode()).hexdigest()[:8]})")


def varied(plans: dict[str, Plan]) -> dict[str, str]:
    """Returns for each experiment the options of its pipes that differ between experiments, as `pipe 1 queue
    50 droptail`.

    An omitted option counts as its default, and is left out if no other experiment has the pipe with another
    value."""
    options: dict[str, dict[tuple[int, str], str]] = {}
    given: dict[str, set[tuple[int, str]]] = {}
    for name, plan in plans.items():
        own = options.setdefault(name, {})
        for pipe, configs in configs_of(plan).items():
            every = [spelled(config) for config in configs]
            own |= {(pipe, option): _sequence(one[option] for one in every) for option in every[0]}
        given[name] = {key for key, text in own.items() if text not in _DEFAULTS}
    counts = Counter((key, text) for own in options.values() for key, text in own.items())
    has = Counter(key for own in options.values() for key in own)
    return {name: _told([(key, text) for key, text in own.items()
                         if text and (counts[key, text] < has[key]
                                      or (key in given[name] and has[key] < len(plans)))])
            for name, own in options.items()}


_DEFAULTS = frozenset(spelled(Config(0)).values())


def _told(options: Sequence[tuple[tuple[int, str], str]]) -> str:
    pipes: dict[int, list[str]] = {}
    for (pipe, _), text in options:
        pipes.setdefault(pipe, []).append(text)
    return "; ".join(f"pipe {pipe} {' '.join(texts)}" for pipe, texts in pipes.items())


_STATS = {"packets": "Packets made", "delivered": "Packets delivered", "in_flight": "Packets in flight",
          "retransmissions": "Segments retransmitted", "lost": "Packets dropped", "bytes": "Bytes delivered",
          "useful": "New bytes delivered", "rate": "Throughput", "goodput": "Goodput",
          "time": "Time to the last delivery", "first": "First packet created", "last": "Last delivery",
          "fct": "Flow completion time", "jain": "Jain's fairness index", "utilisation": "Utilisation",
          "jitter": "Jitter", "delay.min": "Minimum delay", "delay.mean": "Mean delay",
          "delay.p50": "Median delay", "delay.max": "Maximum delay"}
# The options of a scenario whose values are settings, and the unit of a bare number.
_OPTIONS = {"bw": ("Link rate", ""), "delay": ("Link delay", "ms"), "queue": ("Queue limit", "packets"),
            "plr": ("Packet loss ratio", ""), "target": ("CoDel target", "ms"),
            "interval": ("CoDel interval", "ms"), "segments": ("Flow size", "segments"),
            "smss": ("Segment size", "bytes"), "window": ("Receive window", "bytes"),
            "ssthresh": ("Initial ssthresh", "bytes"), "rto": ("Retransmission timeout", "ms"),
            "gap": ("Packet spacing", "ns")}
_WHOLE = {"flows": "all flows", "trains": "all trains", "injected": "single packets",
          "there": "all on the way there", "back": "all on the way back", "all": "all packets"}
# The user's labels: for a setting, statistic or sender by its name, for a setting's value as `queue:codel`.
Labels = Mapping[str, str]


def of_setting(name: str, labels: Labels = {}) -> str:
    """Returns a setting's label on an axis.

    >>> of_setting("link_rate"), of_setting("rate", {"rate": "Link rate (Mbit/s)"})
    ('Link rate', 'Link rate (Mbit/s)')
    """
    words = name.replace("_", " ")
    return labels.get(name, words[:1].upper() + words[1:])


def of_value(name: str, value: Any, labels: Labels = {}) -> str:
    """Returns the label of a setting's value in a legend.

    >>> of_value("queue", 10), of_value("queue", "codel", {"queue:codel": "CoDel"})
    ('10', 'CoDel')
    """
    return labels.get(f"{name}:{value}", f"{value:g}" if isinstance(value, float) else str(value))


def of_template(text: str, settings: Sequence[str]) -> dict[str, str]:
    """Returns labels of settings, by the options of the scenario that they are values of.

    >>> text = "@0 pipe 1 config bw {{ rate }}Mbit/s queue {{ queue }}\\n@{{ up | s }} pipe 1 delete"
    >>> of_template(text, ["rate", "queue", "up"])
    {'rate': 'Link rate (Mbit/s)', 'queue': 'Queue limit (packets)', 'up': 'Up (s)'}
    """
    labels = {}
    for name in settings:
        found = re.search(
            rf"(?:([a-z]+) )?[^\s{{]*\{{\{{-?\s*{re.escape(name)}\s*(\|[^}}]*)?-?\}}\}}([A-Za-z/]*)", text)
        if found:
            words, unit = _OPTIONS.get(found[1] or "", ("", ""))
            time = re.search(r"\|\s*(s|ms|us)\s*$", found[2] or "")
            labels[name] = quantity(words or of_setting(name), time[1] if time else found[3] or unit)
    return labels


def shown_in(unit: str, greatest: float) -> tuple[str, int]:
    """Returns the unit in which values are shown, and its size in base units: long times are in seconds.

    >>> shown_in("ns", 2e8), shown_in("ns", 2e10), shown_in("packets", 5)
    (('ms', 1000000), ('s', 1000000000), ('packets', 1))
    """
    if unit == "ns":
        return ("s", 10**9) if greatest >= 10**10 else ("ms", 10**6)
    return ("Mbit/s", 10**6) if unit == "bit/s" else (unit, 1)


def of_stat(stat: str, unit: str, labels: Labels = {}) -> str:
    """Returns a statistic's label on an axis, with the unit in which it is drawn.

    >>> of_stat("delay.p95", "ms"), of_stat("jain", ""), of_stat("drops.full", "packets")
    ('95th percentile of delay (ms)', "Jain's fairness index", 'Packets dropped (full)')
    """
    if stat in labels:
        return labels[stat]
    percentile = percentile_of(stat)
    if stat in _STATS:
        words = _STATS[stat]
    elif percentile is not None:
        words = f"{ordinal(percentile)} percentile of delay"
    elif stat.startswith("drops."):
        words = f"Packets dropped ({stat[6:]})"
    else:
        words = of_setting(stat)
    return (words if words.startswith(("Packets", "Segments")) or unit in ("packets", "bytes")
            else quantity(words, unit))


def of_whom(of: str, labels: Labels = {}) -> str:
    """Returns the label of a sender.

    >>> of_whom("flows"), of_whom("train 9", {"train 9": "the call"})
    ('all flows', 'the call')
    """
    return labels.get(of, _WHOLE.get(of, of))


def ordinal(number: str) -> str:
    """Returns a percentile as an ordinal.

    >>> [ordinal(one) for one in ("1", "2", "13", "95", "99.9")]
    ['1st', '2nd', '13th', '95th', '99.9th']
    """
    ends = {"1": "st", "2": "nd", "3": "rd"}
    return number + ("th" if "." in number or number[-2:-1] == "1" else ends.get(number[-1], "th"))


def quantity(words: str, unit: str) -> str:
    """Returns a quantity and its unit, as on an axis.

    >>> quantity("One-way delay", "ms"), quantity("Fraction of packets", "")
    ('One-way delay (ms)', 'Fraction of packets')
    """
    return f"{words} ({unit})" if unit else words
