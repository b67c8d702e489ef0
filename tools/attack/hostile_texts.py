"""Texts that are long, large or changed byte by byte."""
import random
from collections.abc import Collection, Iterable, Iterator

import examples
import scenario_text

LONG = b"""experiment long seed 0 budget 1000 steps 200000
@0 pipe 1 config bw 10Mbit/s delay 10
@0 add 100 pipe 1 tcp from 10.0.0.1 to 10.0.0.2
@0 add 200 allow tcp from 10.0.0.2 to 10.0.0.1
@0 flow 1 10.0.0.1 1000 10.0.0.2 80 smss 1000 segments 1000000
@1000000000000000 end
"""
CROWD = b"".join(
    b"experiment s%d seed 1 budget 65535\n@0 pipe 1 config bw 1Mbit/s delay 10\n@0 add 100 pipe 1 udp "
    b"from any to any\n"
    b"@0 inject udp 10.0.0.1 1 10.0.0.2 2 1000\n@1000000000 end\n" % number for number in range(256))


def big_texts(draw: random.Random, is_quick: bool) -> Iterator[tuple[str, bytes]]:
    """Yields texts of 16 MB by name. If `is_quick`, it omits those that Python takes long to judge."""
    most = scenario_text.MOST_BYTES
    yield "random bytes", draw.randbytes(most)
    yield "random printable bytes and LF", draw.randbytes(most).translate(bytes(
        10 if value % 97 == 96 else 32 + value % 95 for value in range(256)))
    yield "one LF more than there may be", b"\n" * (most + 1)
    yield "spaces without LF", b" " * most
    yield "comments", (b"#" * 511 + b"\n") * (most // 512)
    words = [word for path in examples.scenarios() for word in path.read_bytes().split()]
    yield "words of scenarios in any order", b"".join(
        b" ".join(draw.choices(words, k=9)) + b"\n" for _ in range(200000))[:most]
    if is_quick:
        return
    yield "lines without words", b"\n" * most
    head, end = b"experiment a seed 0 budget 1 steps 10000000\n", b"@0 end\n"
    line = b"@0 stop 1\n"
    yield "commands that are refused", head + line * ((most - len(head) - len(end)) // len(line)) + end


def changes(text: bytes, places: Iterable[int], values: Collection[int]) -> Iterator[bytes]:
    """Yields the text with the byte at each place changed to each value, removed and doubled, and the text
    cut off there."""
    for place in places:
        before, byte, behind = text[:place], text[place:place + 1], text[place + 1:]
        for value in values:
            if value != byte[0]:
                yield before + bytes([value]) + behind
        yield before + behind
        yield before + byte + byte + behind
        yield before
