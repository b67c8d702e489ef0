"""The lines of a configuration of ipfw(8), and its amounts in a scenario: rates, queues, losses, masks,
addresses, ports.

Each function of an amount returns the scenario's words and their cost (`How`). Raises `UnsupportedError`,
with what to do, if there are none.
"""
import ipaddress
import itertools
import re
import socket
from decimal import Decimal, InvalidOperation
from typing import NamedTuple

from dnlab.errors import InputError, ParseError
from dnlab.io import shell_words
from dnlab.io.scenario_parts import MASKS, SCALES, rate_text

SAME, REWRITTEN, APPROXIMATED, DROPPED, REFUSED = "same", "rewritten", "approximated", "dropped", "refused"
KINDS = (SAME, REWRITTEN, APPROXIMATED, DROPPED, REFUSED)
_MOST_BITS = 10**10


class UnsupportedError(Exception):
    """An ipfw word that no scenario can express; the text says which, and what to do."""


class Unmatchable(UnsupportedError):
    """A rule that matches no TCP or UDP packet, because of a word."""

    def __init__(self, word: str) -> None:
        super().__init__(f"`{word}`: packets here are TCP or UDP, so the rule matches nothing: "
                         "--drop-unmatchable leaves it out")


class How(NamedTuple):
    """A translation, and the part of the meaning that it loses ('' for nothing)."""
    words: str
    cost: str = ""


def rate(word: str) -> How:
    """Translates a `bw`. After K, M or G, a B that isn't Bit, or `by`, means bytes; anything else means bits.

    >>> rate("10M").words, rate("1.5Mbits/s").words, rate("64Kb/s").words, rate("1500KByte/s").words
    ('10Mbit/s', '1500Kbit/s', '64Kbit/s', '1500KByte/s')
    """
    found = re.fullmatch(r"([0-9]+(?:\.[0-9]+)?|\.[0-9]+)([KkMmGg]?)([A-Za-z/]*)", word)
    if not found:
        is_number = re.match(r"[0-9.]", word)
        raise UnsupportedError(f"`bw {word}`: "
                               + ("it isn't a rate: expected digits with a point, then the unit, as 1.5Mbit/s"
                                  if is_number else
                                         "the rate of an interface or a clock is not supported: write "
                                         "it as 10Mbit/s"))
    is_bytes = found[3].startswith("by") or (found[3].startswith("B") and not found[3].startswith("Bi"))
    bits = Decimal(found[1]) * SCALES[found[2].upper()] * (8 if is_bytes else 1)
    if bits > _MOST_BITS:
        raise UnsupportedError(f"`bw {word}`: 10Gbit/s is the maximum")
    if re.fullmatch(r"(0|[1-9][0-9]*)([KMG]?(bit/s|Byte/s))?", word):
        return How(word)
    whole = int(bits)
    return How(rate_text(whole), "" if whole == bits else f"`bw {word}` is {whole} bit/s, rounded down")


def delay(word: str) -> How:
    """Translates a `delay` in ms. ipfw reads only the leading digits, so a time in seconds means another one
    there.

    >>> delay("20ms").words, delay("0.5s").words, delay("2s").cost
    ('20ms', '500ms', '`delay 2s` is taken as 2000ms: ipfw itself reads 2 ms')
    """
    found = re.fullmatch(r"([0-9]{1,9})?(\.[0-9]{1,9})?(s|ms|us)?", word)
    if not found or not (found[1] or found[2]):
        raise UnsupportedError(f"`delay {word}` isn't a time in milliseconds, as 20ms")
    time = Decimal((found[1] or "0") + (found[2] or "")) * {"s": Decimal(1000),
                                                            "us": Decimal("0.001")}.get(found[3], Decimal(1))
    whole = int(time)
    if time != whole:
        raise UnsupportedError(
            f"`delay {word}`: delays are whole milliseconds: write {whole}ms or {whole + 1}ms")
    if whole > 60000:
        raise UnsupportedError(f"`delay {word}`: 60000 ms is the maximum")
    if re.fullmatch(r"(0|[1-9][0-9]*)(ms)?", word):
        return How(word)
    digits = int(found[1] or "0")
    return How(f"{whole}ms" if found[3] else str(whole),
               "" if whole == digits
               else f"`delay {word}` is taken as {whole}ms: ipfw itself reads {digits} ms")


def loss(word: str) -> How:
    """Translates a `plr`, rounded to six digits.

    >>> loss(".01").words, loss("5e-3").words, loss("0.0000015").words
    ('0.01', '0.005', '0.000002')
    """
    if word.endswith("%"):
        raise UnsupportedError(f"`plr {word}`: ipfw reads {word[:-1]} here, as a fraction: write 1% as 0.01")
    try:
        share = Decimal(word)
        exact = min(max(share, Decimal(0)), Decimal(1))
    except InvalidOperation:
        raise UnsupportedError(f"`plr {word}` is not a fraction such as 0.01") from None
    short = exact.quantize(Decimal("0.000001"))
    text = f"{short:f}".rstrip("0").rstrip(".")
    if re.fullmatch(r"[01](\.[0-9]{1,6})?", word) and share == exact:
        return How(word)
    return How(text, "" if short == exact else f"`plr {word}` is {text}: losses have six digits")


def queue(word: str) -> How:
    """Translates the limit of a queue: slots, or bytes, rounded down to 1024.

    >>> queue("50").words, queue("30KBytes").words, queue("30000bytes").words
    ('50', '30KBytes', '29KBytes')
    """
    found = re.fullmatch(r"0*([0-9]+)([A-Za-z]*)", word)
    if not found:
        raise UnsupportedError(f"`queue {word}` is not a limit such as 50 or 30KBytes")
    number, unit = int(found[1]), found[2]
    if unit[:1] in ("K", "k"):
        kbytes, cost = number, ""
        said = f"{number}KBytes" if unit not in ("KBytes", "Kbytes", "KB", "K") else word.lstrip("0")
    elif unit[:1] == "B" or unit.startswith("by"):
        kbytes = number // 1024
        said = f"{kbytes}KBytes"
        cost = "" if number % 1024 == 0 else f"`queue {word}` is {kbytes * 1024} bytes, rounded down"
    elif unit:
        raise UnsupportedError(f"`queue {word}`: the unit must be KBytes, bytes or none")
    elif not 1 <= number <= 1000:
        raise UnsupportedError(f"`queue {word}`: 1 to 1000 slots, or up to 1024KBytes")
    else:
        return How(str(number))
    if not 1 <= kbytes <= 1024:
        raise UnsupportedError(f"`queue {word}`: 1 to 1024 KBytes")
    return How(said, cost)


def mask(words: list[str]) -> How:
    """Translates the list after `mask`, removing it from the words."""
    found: list[str] = []
    costs = []
    while words and words[0] in {*MASKS, "all", "src-ip6", "dst-ip6", "flow-id", "queue"}:
        if words[0] == "queue" and len(words) > 1 and words[1][:1].isdigit():
            break  # The pipe's own `queue`.
        name = words.pop(0)
        if name == "all":
            found = ["all"]
        elif name == "queue":
            costs.append("`mask queue` left out")
        elif not words:
            raise UnsupportedError(f"`mask {name}`: the bits are missing, as 0xffffffff")
        else:
            bits = words.pop(0)
            if name in MASKS:
                found.append(f"{name} {_bits(name, bits)}")
            else:
                costs.append(f"`mask {name}` left out: packets here have none")
    if not found:
        raise UnsupportedError(
            "`mask`: packets here have none of these fields: use src-ip, dst-ip, src-port, dst-port or proto")
    return How("mask " + " ".join(found), "; ".join(costs))


def _bits(name: str, word: str) -> str:
    """Returns a mask in base 16; `/24` means the first 24 bits."""
    width = MASKS[name] * 4
    if re.fullmatch(rf"0x[0-9a-fA-F]{{1,{MASKS[name]}}}", word):
        return word
    found = re.fullmatch(r"/([0-9]{1,2})|(0x[0-9a-fA-F]+|[0-9]+)", word)
    value = -1
    if found:
        value = (2**width - 2 ** (width - int(found[1]))) if found[1] and int(found[1]) <= width else \
            int(found[2],
                0) if found[2] and (found[2] == "0" or found[2][:2] == "0x" or found[2][0] != "0") else -1
    if not 0 <= value < 2**width:
        raise UnsupportedError(
            f"`mask {name} {word}` isn't {width} bits: write them as 0x{'f' * MASKS[name]}")
    return hex(int(value))


def codel(words: list[str]) -> How:
    """Translates what follows `codel`, removing it from the words."""
    found, cost = ["codel"], ""
    while words and words[0] in ("target", "interval", "ecn", "noecn"):
        name = words.pop(0)
        if name == "ecn":
            cost = "`ecn` left out: packets are dropped instead of marked"
        elif name != "noecn":
            if not words or not re.fullmatch(r"(0|[1-9][0-9]*)(s|ms|us)?", words[0]):
                raise UnsupportedError(f"`codel {name}`: a time must follow, as 5ms")
            found.append(f"{name} {words.pop(0)}")
    return How(" ".join(found), cost)


def address(word: str) -> str:
    """Translates an address or prefix: `A:M` becomes `A/len`.

    >>> address("10.0.0.0:255.0.0.0"), address("10.1.2.3/32"), address("any")
    ('10.0.0.0/8', '10.1.2.3/32', 'any')
    """
    if word == "any":
        return word
    if ":" in word and word.count(":") > 1:
        raise UnsupportedError(f"`{word}`: IPv6 addresses are not supported")
    try:
        if ":" in word:
            return str(ipaddress.IPv4Network(word.replace(":", "/"), strict=False))
        ipaddress.IPv4Interface(word)
    except ValueError:
        raise UnsupportedError(
            f"`{word}` is not an address (names and sets are not supported): write numbers, as 10.0.0.1 "
            "or 10.0.0.0/24") from None
    return word


def network(word: str) -> ipaddress.IPv4Network:
    """Returns the prefix of a scenario's address."""
    return ipaddress.IPv4Network("0.0.0.0/0" if word == "any" else word, strict=False)


def narrowed(own: str, behind: str) -> tuple[str, bool]:
    """Returns the part of a rule's own addresses that is behind an interface; if there is none, the addresses
    and False."""
    if network(own).subnet_of(network(behind)):
        return own, True
    return (behind, True) if network(behind).subnet_of(network(own)) else (own, False)


def ports(word: str) -> list[str]:
    """Returns a list of ports, ranges and service names as separate ports for rules.

    >>> ports("5060,5004-5010")
    ['5060', '5004-5010']
    """
    found = []
    for one in word.split(","):
        numbers = re.fullmatch(r"0*([0-9]+)(?:-0*([0-9]+))?", one)
        if numbers:
            found.append(numbers[1] if numbers[2] is None else f"{numbers[1]}-{numbers[2]}")
            continue
        try:
            found.append(str(socket.getservbyname(one)))
        except OSError:
            raise UnsupportedError(f"`{one}` is not a port, a range of ports or a known service") from None
    return found


_COMMANDS = {"add", "delete", "pipe", "queue", "sched", "table", "set", "flush", "zero", "resetlog", "list",
             "show", "enable", "disable", "nat"}


class Line(NamedTuple):
    """A line that a program receives: its words, the program's name first (`ipfw`, `sysctl`, `sleep`)."""
    words: tuple[str, ...]

    def text(self) -> str:
        """Returns it as text, without the program's name if that is ipfw."""
        return " ".join(self.words[1:] if self.words[0] == "ipfw" else self.words)

    def bare(self) -> list[str]:
        """Returns the words after the program's name and its options."""
        return list(itertools.dropwhile(lambda word: word.startswith("-"), self.words[1:]))


def _line(text: str) -> Line:
    return Line(("ipfw", *text.split()))


def is_listing(text: str) -> bool:
    """Returns whether it is the output of `ipfw list` or `ipfw pipe show`: each rule starts with five digits.

    >>> is_listing("00100 allow ip from any to any\\n65535 deny ip from any to any\\n")
    True
    >>> is_listing("ipfw add 100 count ip from any to any")
    False
    """
    first = next((line for line in text.splitlines() if line.strip()), "")
    return re.match(r"[0-9]{5}(:| )", first) is not None


def is_rules_file(text: str) -> bool:
    """Returns whether it is a file for `ipfw FILE`: each line starts with an ipfw command, and none with
    `ipfw`."""
    lines = [line.split()[0]
             for line in text.splitlines() if line.strip() and not line.lstrip().startswith("#")]
    return (bool(lines) and "$" not in text
            and all(word in _COMMANDS or word.startswith("-") for word in lines))


def lines_of(text: str, name: str) -> list[Line]:
    """Returns the lines of a script, of a file for `ipfw FILE`, or of a listing. Raises `InputError` with the
    line of a script that isn't understood."""
    if is_listing(text):
        return _listed(text)
    if is_rules_file(text):
        return [_line(line)
                for line in text.splitlines() if line.strip() and not line.lstrip().startswith("#")]
    try:
        return [Line(words) for words in shell_words.words_of(text)]
    except ParseError as fault:
        raise InputError(f"{name}: {fault} (a script is read, not executed)") from None


def _listed(text: str) -> list[Line]:
    """Returns the commands that create what is listed."""
    found: list[Line] = []
    pipe: list[str] = []
    for line in text.splitlines():
        words = line.split()
        begin = re.match(r"([0-9]{5}): +(unlimited|[0-9.]+ +[KMG]?bit/s) +([0-9]+) ms", line)
        if begin:
            pipe = ["pipe", str(int(begin[1])), "config", "delay", begin[3]]
            pipe += [] if begin[2] == "unlimited" else ["bw", begin[2].replace(" ", "")]
            found.append(Line(("ipfw", *pipe)))
        elif pipe and re.match(r"q[0-9]+ ", line) and found:
            found[-1] = Line((*found[-1].words, *_flow_set(line)))
        elif re.match(r"\s+mask:", line) and found:
            found[-1] = Line((*found[-1].words, *_mask(line)))
        elif re.match(r"\s+AQM CoDel", line) and found:
            found[-1] = Line((*found[-1].words, "codel", *(word.lower() for word in words[2:])))
        elif re.match(r"[0-9]{5} ", line) and words[0] != "65535":
            # `ipfw show` has packets and bytes after the number.
            body = words[3:] if re.match(r"[0-9]{5} +[0-9]+ +[0-9]+ ", line) else words[1:]
            found.append(Line(("ipfw", "add", words[0], *body)))
    return found


def _flow_set(line: str) -> list[str]:
    """Returns the options of a pipe's own queue, as `q131073 50 sl.plr 0.010000 0 flows (1 buckets) ..
    droptail`."""
    size = re.match(r"q[0-9]+ +([0-9]+) (sl\.|KB|B)", line)
    words = []
    if size:
        words = ["queue", size[1] + {"sl.": "", "KB": "KBytes", "B": "bytes"}[size[2]]]
    lost = re.search(r"plr ([0-9.]+)", line)
    return [*words, *(["plr", lost[1]] if lost else [])]


def _mask(line: str) -> list[str]:
    found = re.search(r"(0x[0-9a-f]{2}) (0x[0-9a-f]{8})/(0x[0-9a-f]{4}) -> (0x[0-9a-f]{8})/(0x[0-9a-f]{4})",
                      line)
    if not found:
        return ["mask"]
    named = zip(("proto", "src-ip", "src-port", "dst-ip", "dst-port"), found.groups())
    return ["mask", *(word for name, bits in named if int(bits, 16) for word in (name, bits))]
