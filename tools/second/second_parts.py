"""Parts of tools/second/second: loss words, an instance of a pipe, and a sender. They are written only from
docs/explanation/rules.md, docs/explanation/codel.md and docs/explanation/reno.md, to be read and not to be
fast."""
from collections import deque
from math import isqrt

from second_text import Config, Packet

MOST_INSTANCES = 256
MAXPACKET = 1500
WORD = 2**32 - 1
SECOND = 10**9


def quarter(x: list[int], a: int, b: int, c: int, d: int) -> None:
    """Applies the quarter round of RFC 8439, section 2.1, to four words of a state."""
    for at, one, other, turn in ((a, b, d, 16), (c, d, b, 12), (a, b, d, 8), (c, d, b, 7)):
        x[at] = (x[at] + x[one]) & WORD
        x[other] ^= x[at]
        x[other] = ((x[other] << turn) | (x[other] >> (32 - turn))) & WORD


def loss_word(seed: int, stream: int, place: int) -> int:
    """Returns the word at an index of the ChaCha20 stream, with a 64-bit counter and a 64-bit nonce."""
    block = place // 16
    start = [0x61707865, 0x3320646E, 0x79622D32, 0x6B206574, seed & WORD, seed >> 32, 0, 0, 0, 0, 0, 0,
             block & WORD, block >> 32, stream & WORD, stream >> 32]
    x = list(start)
    for _ in range(10):
        for column in range(4):
            quarter(x, column, column + 4, column + 8, column + 12)
        for row in range(4):
            quarter(x, row, 4 + (row + 1) % 4, 8 + (row + 2) % 4, 12 + (row + 3) % 4)
    return (x[place % 16] + start[place % 16]) & WORD


class Codel:
    """The state of RFC 8289, section 5."""

    def __init__(self) -> None:
        self.first_above = self.drop_next = self.count = self.lastcount = 0
        self.dropping = False


def control_law(moment: int, count: int, interval: int) -> int:
    return moment + isqrt(interval * interval // count)


class Instance:
    """A queue, a server and a delay line."""

    # The packets in the queue, and their arrival times (ns).
    waiting: deque[tuple[Packet, int]]
    # The packet in service and the time of its finish (ns), or None.
    serving: Packet | None
    finish: int | None
    # The packets in the delay line, and their exit times (ns).
    line: deque[tuple[int, Packet]]

    def __init__(self) -> None:
        self.waiting = deque()
        self.bytes = self.drawn = 0
        self.codel = Codel()
        self.serving = self.finish = None
        self.begun = self.served = 0
        self.is_cut = False
        self.line = deque()
        self.last_exit = 0

    def is_lost(self, seed: int, stream: int, plr: int) -> bool:
        self.drawn += 1
        return loss_word(seed, stream, self.drawn - 1) * 10**6 < plr * 2**32

    def has_room(self, size: int, config: Config) -> bool:
        if config.kbytes:
            return self.bytes + size <= 1024 * config.queue
        return len(self.waiting) < config.queue

    def enqueue(self, packet: Packet, now: int) -> None:
        self.waiting.append((packet, now))
        self.bytes += packet.size

    def take_head(self, now: int, config: Config) -> tuple[Packet | None, bool]:
        """Implements `dodequeue` of RFC 8289. Returns the packet, and true if it may be dropped."""
        state = self.codel
        if not self.waiting:
            state.first_above = 0
            return None, False
        packet, stamp = self.waiting.popleft()
        self.bytes -= packet.size
        if now - stamp < config.target or self.bytes <= MAXPACKET:
            state.first_above = 0
            return packet, False
        if state.first_above == 0:
            state.first_above = now + config.interval
            return packet, False
        return packet, now >= state.first_above

    def dequeue(self, now: int, config: Config) -> tuple[list[Packet], Packet | None]:
        """Returns the packets that are dropped, and the packet for the server or None."""
        packet: Packet | None
        if not config.is_codel:
            if not self.waiting:
                return [], None
            packet, _ = self.waiting.popleft()
            self.bytes -= packet.size
            return [], packet
        state, dropped = self.codel, []
        packet, may_drop = self.take_head(now, config)
        if state.dropping:
            state.dropping = may_drop
            while state.dropping and now >= state.drop_next:
                assert packet is not None
                dropped.append(packet)
                state.count = min(state.count + 1, WORD)
                packet, state.dropping = self.take_head(now, config)
                if state.dropping:
                    state.drop_next = control_law(state.drop_next, state.count, config.interval)
        elif may_drop:
            assert packet is not None
            dropped.append(packet)
            packet, _ = self.take_head(now, config)
            state.dropping = True
            delta = state.count - state.lastcount
            is_near = delta > 1 and now < state.drop_next + 16 * config.interval
            state.count = delta if is_near else 1
            state.drop_next = control_law(now, state.count, config.interval)
            state.lastcount = state.count
        return dropped, packet

    def serve(self, now: int, config: Config, goes_on: bool) -> list[Packet]:
        """Dequeues for the server, which continues a busy period if `goes_on`, or starts one. Returns the
        packets that CoDel dropped."""
        dropped, packet = self.dequeue(now, config)
        self.serving = packet
        self.finish = None
        if packet:
            if not goes_on or self.is_cut:
                self.begun, self.served, self.is_cut = now, 0, False
            self.served += packet.size
            taken = -(-8 * 10**9 * self.served // config.bw) if config.bw else 0
            self.finish = self.begun + taken
        return dropped

    def cut_period(self) -> None:
        self.is_cut = self.serving is not None

    def enter_line(self, packet: Packet, now: int, config: Config) -> None:
        self.last_exit = max(self.last_exit, now + max(config.delay * 10**6, 1))
        self.line.append((self.last_exit, packet))


class Sender:
    """A Reno sender, in bytes. That of tools/beside/ns2_sender.py is another one."""

    # The time at which the timer expires (ns), or None if it is off.
    timer: int | None
    # The sequence number at the end of the segment that is timed, and the time at which it was sent (ns), or
    # None.
    sample: tuple[int, int] | None
    # None before the first measurement.
    srtt: int | None
    rttvar: int | None

    def __init__(self, smss: int, segments: int, ssthresh: int, window: int, rto: int | None) -> None:
        self.smss, self.total, self.window = smss, smss * segments, window
        self.una = self.nxt = self.max = self.duplicates = 0
        self.cwnd = (4 if smss <= 1095 else 3) * smss
        self.ssthresh = ssthresh
        self.recovery = self.resend = self.timed = self.is_stopped = False
        self.is_adaptive = rto is None
        self.first_time = self.time = SECOND if rto is None else rto * 10**6
        self.timer = self.sample = self.srtt = self.rttvar = None

    def may_emit(self) -> bool:
        if self.is_stopped:
            return False
        fits = self.nxt < self.total and self.nxt + self.smss - self.una <= min(self.cwnd, self.window)
        return self.resend or fits

    def emit(self, now: int) -> int:
        """Sends a segment. Returns the sequence number of its first byte."""
        if self.resend:
            self.resend, first = False, self.una
        else:
            first = self.nxt
            if self.nxt == self.max and self.is_adaptive and self.sample is None:
                self.sample = (first + self.smss, now)
            self.nxt += self.smss
            self.max = max(self.max, self.nxt)
        if self.timer is None:
            self.timer = now + self.time
        return first

    def half(self) -> int:
        return max((self.max - self.una) // 2, 2 * self.smss)

    def ack(self, number: int, now: int) -> None:
        if self.una < number <= self.max and number % self.smss == 0:
            self.new_data(number, now)
        elif number == self.una < self.max:
            self.duplicate()

    def new_data(self, number: int, now: int) -> None:
        if self.recovery:
            self.cwnd, self.recovery = self.ssthresh, False
        elif self.cwnd < self.ssthresh:
            self.cwnd = min(WORD, self.cwnd + min(number - self.una, self.smss))
        else:
            self.cwnd = min(WORD, self.cwnd + max(1, self.smss * self.smss // self.cwnd))
        self.una, self.nxt = number, max(self.nxt, number)
        self.duplicates, self.resend, self.timed = 0, False, False
        if not self.is_adaptive:
            self.time = self.first_time
        elif self.sample and number >= self.sample[0]:
            self.measure(now - self.sample[1])
        self.timer = now + self.time if self.una < self.max else None

    def measure(self, rtt: int) -> None:
        self.sample = None
        if self.srtt is None:
            self.srtt, self.rttvar = rtt, rtt // 2
        else:
            assert self.rttvar is not None
            self.rttvar = (3 * self.rttvar + abs(self.srtt - rtt)) // 4
            self.srtt = (7 * self.srtt + rtt) // 8
        self.time = min(max(self.srtt + max(1, 4 * self.rttvar), SECOND), 60 * SECOND)

    def duplicate(self) -> None:
        self.duplicates = min(WORD, self.duplicates + 1)
        if self.recovery:
            self.cwnd = min(WORD, self.cwnd + self.smss)
        elif self.duplicates == 3:
            self.ssthresh = self.half()
            self.cwnd = min(WORD, self.ssthresh + 3 * self.smss)
            self.resend, self.recovery, self.sample = True, True, None

    def expire(self, now: int) -> None:
        if not self.timed:
            self.ssthresh = self.half()
        self.cwnd, self.nxt, self.duplicates = self.smss, self.una, 0
        self.recovery, self.resend, self.timed, self.sample = False, False, True, None
        self.time = min(2 * self.time, 60 * SECOND)
        self.timer = now + self.time
