"""Parses the rules of ipfw(8), after `add`, and writes them as rules of a scenario."""
import itertools
import re
import socket
from dataclasses import dataclass, field
from typing import Mapping, Optional, Sequence

from dnlab.io.ipfw_words import Unmatchable, UnsupportedError, address, narrowed, network, ports

ACTIONS = {"allow": "allow", "accept": "allow", "pass": "allow", "permit": "allow", "deny": "deny",
           "drop": "deny", "count": "count"}
# Actions that become another: it, the number of words that follow, and what is lost.
_BECOMES = {"tee": ("count", 1, "nobody gets the copy"),
            **dict.fromkeys(("reset", "reset6", "reject"), ("deny", 0, "there is no reply")),
            **dict.fromkeys(("unreach", "unreach6"), ("deny", 1, "there is no reply"))}
_NUMBERED = ("skipto", "pipe", "queue")
# The maximum number of rules of an experiment.
_MOST = 256
_BOTH = {"tcp", "udp"}
_PROTOCOLS = {"ip": _BOTH, "all": _BOTH, "ip4": _BOTH, "ipv4": _BOTH, "tcp": {"tcp"}, "6": {"tcp"},
              "udp": {"udp"}, "17": {"udp"}}
_OTHERS = {"icmp", "ip6", "ipv6", "icmp6", "ipv6-icmp", "igmp", "esp", "ah", "gre", "ospf", "pim", "sctp",
           "carp", "vrrp", "ipencap"}
_LACKING = {"established", "frag", "tcpflags", "iptos", "ipttl", "uid", "gid", "mac", "MAC", "layer2",
            "ipoptions", "tcpoptions"}


@dataclass(frozen=True)
class Known:
    """The context of rules: the addresses behind each interface, the machine's own address, tables, and the
    pipes of queues."""
    behind: Mapping[str, str] = field(default_factory=dict)
    me: Optional[str] = None
    tables: Mapping[str, "Mapping[str, str]"] = field(default_factory=dict)
    queues: Mapping[int, int] = field(default_factory=dict)


@dataclass
class Rule:
    """A parsed rule: its action, for each side all addresses and ports ('' is any port), those that are
    excluded, and what the translation costs."""
    action: str = ""
    share: str = ""
    group: Optional[str] = None
    protocols: list[str] = field(default_factory=list)
    sides: list[list[str]] = field(default_factory=lambda: [["any"], ["any"]])
    ports: list[list[str]] = field(default_factory=lambda: [[""], [""]])
    # (place: 0 and 1 the addresses, 2 and 3 the ports of source and destination; what is excluded there)
    excluded: list[tuple[int, list[str]]] = field(default_factory=list)
    both: bool = False
    either: str = ""
    table: str = ""
    is_void: bool = False
    costs: list[str] = field(default_factory=list)


def _take(words: list[str], what: str) -> str:
    if not words:
        raise UnsupportedError(f"the rule ends where {what} should be")
    return words.pop(0)


def read(words: Sequence[str], known: Known) -> Rule:
    """Parses a rule after its number."""
    left = list(words[:words.index("//")] if "//" in words else words)
    rule = Rule()
    while left and left[0] in ("set", "prob"):
        name = {"set": "group", "prob": "share"}[left.pop(0)]
        setattr(rule, name, _take(left, "a number"))
    _action(rule, left, known)
    if rule.is_void:
        return rule
    # A rule may consist of options only: its addresses are then any.
    rule.protocols = ["ip"]
    if "from" in left:
        _protocol(rule, left)
        for side, word in enumerate(("from", "to")):
            if _take(left, f"`{word}`") != word:
                raise UnsupportedError(f"`{word}` is missing: write `from any to any`")
            _side(rule, left, side, known)
    while left:
        _option(rule, left, known)
    return rule


def _action(rule: Rule, words: list[str], known: Known) -> None:
    action = _take(words, "an action")
    if action == "check-state":
        rule.is_void = True
    elif action in ACTIONS:
        rule.action = ACTIONS[action]
    elif action in _BECOMES:
        rule.action, count, lost = _BECOMES[action]
        del words[:count]
        rule.costs.append(f"`{action}` becomes {rule.action}: {lost}")
    elif action in _NUMBERED:
        number = _take(words, "a number")
        if action == "queue":
            if number not in map(str, known.queues):
                raise UnsupportedError(f"`queue {number}`: weighted queues (WF2Q+) are not supported: "
                                       "--flatten uses the pipe instead")
            rule.costs.append(f"`queue {number}` is replaced by its pipe: the weights are lost")
            action, number = "pipe", str(known.queues[int(number)])
        if not number.isdigit() and not (action == "pipe" and number == "tablearg"):
            raise UnsupportedError(f"`{action} {number}`: a number is expected here")
        rule.action = f"{action} {int(number) if number.isdigit() else number}"
    else:
        raise UnsupportedError(
            f"`{action}`: this action is not supported: allow, deny, count, skipto and pipe are")
    while words and words[0] in ("log", "logamount"):
        if words.pop(0) == "logamount":
            _take(words, "a number")


def _protocol(rule: Rule, words: list[str]) -> None:
    """Parses a protocol, its opposite, or a group, and keeps the part that TCP and UDP can match."""
    del words[:words[:1] == ["proto"]]
    is_not = words[:1] == ["not"]
    del words[:is_not]
    first = _take(words, "a protocol")
    names = _group(words) if first in ("{", "(") else first.split(",")
    matched = {one for name in names for one in _matched(name)}
    matched = _BOTH - matched if is_not else matched
    left = matched & (_BOTH if rule.protocols == ["ip"] else {*rule.protocols})
    if not left:
        raise Unmatchable(f"{'not ' * is_not}{' or '.join(names)}")
    rule.protocols = ["ip"] if left == _BOTH else sorted(left)


def _matched(name: str) -> set[str]:
    """Returns which of tcp and udp a protocol of a group matches."""
    if name.startswith("not "):
        return _BOTH - _matched(name[4:])
    if name in _PROTOCOLS:
        return _PROTOCOLS[name]
    if name not in _OTHERS and not re.fullmatch(r"1?[0-9]{1,2}|2[0-4][0-9]|25[0-5]", name):
        try:
            socket.getprotobyname(name)
        except OSError:
            raise UnsupportedError(f"`{name}` isn't a protocol") from None
    return set()


def _group(words: list[str]) -> list[str]:
    """Returns the words up to a closing bracket, split at `or` and commas; `not` stays before its word."""
    found: list[str] = []
    while words and words[0] not in ("}", ")"):
        word = words.pop(0)
        if word == "not" and words:
            word = f"not {words.pop(0)}"
        found += [] if word == "or" else word.split(",")
    _take(words, "`}`")
    return found


def _addresses(rule: Rule, words: list[str], known: Known) -> list[str]:
    first = _take(words, "an address")
    names = _group(words) if first in ("{", "(") else first.split(",")
    found: list[str] = []
    for name in names:
        table = re.fullmatch(r"table\(([^),]+)\)", name)
        if table:
            if table[1] not in known.tables:
                raise UnsupportedError(f"`{name}`: this table is empty")
            rule.table = table[1]
            # The longest prefix comes first, because it determines a table's value.
            found += sorted(known.tables[table[1]], key=lambda one: -network(one).prefixlen)
        elif name == "me":
            if known.me is None:
                raise UnsupportedError("`me`: give this machine's address: --me 203.0.113.10")
            found.append(known.me)
        elif name in ("me6", "any6"):
            raise UnsupportedError(f"`{name}`: IPv6 addresses are not supported")
        else:
            found.append(address(name))
    if rule.table:
        return found
    # An address within another would be matched twice.
    return [one for one in dict.fromkeys(found)
            if not any(network(one) != network(other) and network(one).subnet_of(network(other))
                       for other in found)]


def _side(rule: Rule, words: list[str], side: int, known: Known) -> None:
    is_not = words[:1] == ["not"]
    del words[:is_not]
    _restrict(rule, side, _addresses(rule, words, known), is_not)
    rule.table = "" if is_not else rule.table
    is_not = len(words) > 1 and words[0] == "not" and words[1][0].isdigit()
    del words[:is_not]
    if words and (words[0][0].isdigit() or side == 0 and words[0] != "to"):
        _restrict(rule, 2 + side, ports(words.pop(0)), is_not)


def _option(rule: Rule, words: list[str], known: Known) -> None:
    """Parses an option, or the opposite of one."""
    is_not = words[0] == "not"
    del words[:is_not]
    name = _take(words, "an option")
    side = int(name.startswith("dst"))
    if name in ("dst-port", "src-port"):
        _restrict(rule, 2 + side, ports(_take(words, "a port")), is_not)
    elif name in ("dst-ip", "src-ip"):
        if not is_not and rule.sides[side] != ["any"]:
            raise UnsupportedError(
                f"`{name}` with another address of the same side is not supported: write one")
        _restrict(rule, side, _addresses(rule, words, known), is_not)
    elif name == "proto":
        words[:0] = ["not"] * is_not
        _protocol(rule, words)
    elif name in ("in", "out"):
        turned = {"in": "out", "out": "in"}[name]
        _direction(rule, [] if is_not else words, turned if is_not else name, known)
    elif is_not:
        if name not in ("layer2", "frag"):  # No packet has these here, so their opposite always matches.
            raise UnsupportedError(f"`not {name}` is not supported here")
    elif name in ("via", "recv", "xmit"):
        _interface(rule, {"via": "", "recv": "in", "xmit": "out"}[name], _take(words, "an interface"), known)
    elif name in ("keep-state", "limit"):
        if name == "limit":
            _take(words, "whose number is limited")
            _take(words, "a number")
            rule.costs.append("`limit` left out: any number of connections")
        del words[:bool(words) and words[0].startswith(":")]
        rule.both = True
        rule.costs.append("a second rule for the return path: it also accepts unsolicited packets")
    else:
        _other(rule, name)


def _restrict(rule: Rule, place: int, found: list[str], is_not: bool) -> None:
    """Sets the addresses (0, 1) or ports (2, 3) of source and destination, or excludes them."""
    if is_not:
        rule.excluded.append((place, found))
    else:
        (rule.sides if place < 2 else rule.ports)[place % 2] = found


def _other(rule: Rule, name: str) -> None:
    """Judges an option that no packet of a scenario has."""
    if name == "setup" and rule.action != "deny":
        rule.costs.append("`setup` left out: the rule matches all packets of the connection")
    elif name == "setup":
        raise UnsupportedError("`deny .. setup`: without flags the whole connection would be denied: deny "
                               "its addresses and ports instead")
    elif name in ("icmptypes", "icmp6types"):
        raise Unmatchable(name)
    elif name in _LACKING:
        raise UnsupportedError(f"`{name}`: packets here have no flags, no fragments and no owners: leave the "
                               "rule out, or write its purpose as addresses and ports")
    else:
        raise UnsupportedError(f"`{name}` is not supported here")


def _direction(rule: Rule, words: list[str], name: str, known: Known) -> None:
    if words and words[0] in ("via", "recv", "xmit"):
        words.pop(0)
        _interface(rule, name, _take(words, "an interface"), known)
        return
    side = 0 if name == "out" else 1
    if known.me and not known.behind and rule.sides[side] == ["any"]:
        # Without interfaces it is a host, whose packets leave with its address and arrive for it.
        rule.sides[side] = [known.me]
        rule.costs.append(f"`{name}` replaced by the address of --me: a packet passes the rules once here")
    else:
        rule.costs.append(f"`{name}` left out: a packet passes the rules once here, on a router twice"
                          + _other_way(rule))


def _other_way(rule: Rule) -> str:
    """Returns what it costs to leave out a direction."""
    does = "go through this pipe" if rule.action.startswith("pipe") else "match"
    return (f"; packets the other way now {does} too: narrow the source or destination"
            if all("any" in side for side in rule.sides) else "")


def _interface(rule: Rule, direction: str, name: str, known: Known) -> None:
    if re.fullmatch(r"lo[0-9]*", name):
        rule.is_void = True
        return
    if name not in known.behind:
        raise UnsupportedError(
            f"`{name}`: name the addresses behind this interface: --if {name}=10.0.1.0/24, or "
            f"--if {name}=any")
    behind = known.behind[name]
    if behind == "any":
        shown, more = (f"{direction} ..", _other_way(rule)) if direction else ("via", "")
        rule.costs.append(f"`{shown} {name}` left out, because any address is behind {name}{more}")
        return
    if not direction:
        rule.either = behind
        rule.costs.append(f"`via {name}` replaced by addresses, a rule for each direction")
        return
    side = int(direction == "out")
    parts = [narrowed(one, behind) for one in rule.sides[side]]
    rule.sides[side] = [one for one, _ in parts]
    what = ("source", "destination")[side]
    more = "" if all(inside for _, inside in parts) else f"; no {what} of it is behind {name}"
    rule.costs.append(f"`{direction} .. {name}` replaced by its {what} address: a packet passes the rules "
                      f"once here, on a router twice{more}")


def _spread(rule: Rule, number: int, action: str, places: Sequence[Sequence[str]]) -> list[str]:
    """Returns a rule for each protocol, address and port, and with `both` one for the way back."""
    made = []
    for protocol, *ends in itertools.product(rule.protocols, *places):
        for source, target, out, into in (ends, [ends[1], ends[0], ends[3], ends[2]])[:1 + rule.both]:
            made.append(f"add {number} {action} {protocol} from {f'{source} {out}'.strip()} to "
                        f"{f'{target} {into}'.strip()}")
    return made


def commands_of(rule: Rule, number: int, known: Known) -> list[str]:
    """Returns the `add` commands of a rule, all with its number."""
    wanted = [[*rule.sides, *rule.ports]]
    if rule.either:
        behind = [[narrowed(one, rule.either)[0] for one in side] for side in rule.sides]
        wanted = [[behind[0], rule.sides[1], *rule.ports], [rule.sides[0], behind[1], *rule.ports]]
    if rule.excluded and (rule.both or rule.table):
        raise UnsupportedError(
            "`not` with `keep-state` or a table is not supported: write the intended rules")
    made: list[str] = []
    for places in wanted:
        for place, excluded in rule.excluded:
            made += _spread(rule, number, f"skipto {number + 1}",
                            [excluded if one == place else places[one] for one in range(4)])
        made += _valued(rule, number, places, known)
    if len(made) > _MOST:
        raise UnsupportedError(
            f"it needs {len(made)} rules, but an experiment has {_MOST}: write prefixes and ranges")
    return made


def _valued(rule: Rule, number: int, places: Sequence[Sequence[str]], known: Known) -> list[str]:
    """Returns the rules themselves; with `tablearg` each entry goes to the pipe of its value."""
    if rule.action != "pipe tablearg":
        return _spread(rule, number, rule.action, places)
    if not rule.table:
        raise UnsupportedError("`pipe tablearg`: the rule has no table")
    entries = known.tables[rule.table]
    side = next(side for side in (0, 1) if set(places[side]) >= set(entries))
    made: list[str] = []
    for entry in places[side]:
        value = entries.get(entry, "")
        if not value.isdigit() or not int(value):
            raise UnsupportedError(
                f"`pipe tablearg`: the entry {entry} of table {rule.table} has no pipe's number")
        made += _spread(rule, number, f"pipe {int(value)}",
                        [[entry] if one == side else places[one] for one in range(4)])
    return made
