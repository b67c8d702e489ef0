"""A sender for tools/beside/ns2 that deviates from RFC 5681 in the same ways as Agent/TCP/Reno of ns-2.35:
windows are real numbers of segments, ssthresh depends on the window instead of FlightSize, the window grows
on the acknowledgement that ends a recovery, a fast retransmit restarts the timer, every expiry halves
ssthresh, and times are in ticks of 1 ms. Its methods have the meaning of those of Sender in
tools/second/second_parts.py."""
from second_parts import Sender

TICK = 0.001
# The phase of ns-2's ticks (s) is random. With this value the run with a round trip of 0.8 s agrees; others
# would do too.
BOOT = 0.0007
SECOND = 10**9


class Ns2Sender(Sender):
    def __init__(self, smss: int, segments: int, ssthresh: int, window: int, rto: int | None) -> None:
        super().__init__(smss, segments, ssthresh, window, rto)
        self.segments, self.most = segments, window // smss
        # The window and the threshold, in segments.
        self.size, self.threshold = 3.0, ssthresh // smss
        self.next, self.highest, self.max_sent = 0, -1, -1
        self.inflated = 0
        self.out: list[int] = []
        self.backoff, self.rto = 1, 1.0
        self.mean = self.deviation = 0
        # `sample` has the segment that is timed, and the time at which it was sent (ns).
        self.last_timed = -1
        self.send_much()
        self.show()

    def show(self) -> None:
        """Notes the window and the threshold in bytes, as a report has them."""
        self.cwnd, self.ssthresh = round((self.size + self.inflated) * self.smss), self.threshold * self.smss

    def may_emit(self) -> bool:
        return bool(self.out)

    def send_much(self) -> None:
        window = min(int(self.size) + self.inflated, self.most)
        while self.next <= self.highest + window and self.next < self.segments:
            self.out.append(self.next)
            self.next += 1

    def emit(self, now: int) -> int:
        number = self.out.pop(0)
        if number > self.max_sent:
            self.max_sent = number
            if self.sample is None:
                self.sample = (number, now) if number > self.last_timed else None
                self.last_timed = max(self.last_timed, number)
        if self.timer is None:
            self.set_timer(now)
        return number * self.smss

    def set_timer(self, now: int) -> None:
        time = max(self.rto, 1.0) * self.backoff
        self.timer = now + round(min(time, 60.0) * SECOND)

    def ack(self, number: int, now: int) -> None:
        segment = number // self.smss - 1
        if segment > self.highest:
            self.inflated = 0
            self.new_data(segment, now)
        elif segment == self.highest:
            self.duplicates += 1
            if self.duplicates == 3:
                self.halve()
                self.sample, self.inflated = None, 3
                self.set_timer(now)
                self.out.append(self.highest + 1)
            elif self.duplicates > 3:
                self.inflated += 1
        if self.duplicates == 0 or self.duplicates > 2:
            self.send_much()
        self.show()

    def new_data(self, number: int, now: int) -> None:
        self.duplicates = 0
        self.highest = number
        self.next = max(self.next, number + 1)
        if self.sample and number >= self.sample[0]:
            self.backoff = 1
            self.estimate(self.sample[1] / SECOND, now / SECOND)
            self.sample = None
        self.timer = None
        if self.next > number + 1 or number < self.max_sent:
            self.set_timer(now)
        self.size += 1 if self.size < self.threshold else 1 / self.size

    def estimate(self, begun: float, now: float) -> None:
        """Updates the RTT estimate, in ticks with 3 and 2 binary places, as in ns-2."""
        ticks = max(1, int((now - begun + (begun + BOOT) % TICK) / TICK))
        if self.mean:
            delta = ticks - (self.mean >> 3)
            self.mean = max(1, self.mean + delta)
            self.deviation = max(1, self.deviation + abs(delta) - (self.deviation >> 2))
        else:
            self.mean, self.deviation = ticks << 3, ticks << 1
        self.rto = (((self.deviation << 3) + self.mean) >> 3) * TICK

    def halve(self) -> None:
        half = min(self.size + self.inflated, self.most) / 2
        self.threshold, self.size = max(2, int(half)), half

    def expire(self, now: int) -> None:
        self.inflated = self.duplicates = 0
        self.halve()
        self.size = 1.0
        if self.backoff < 64:
            self.backoff *= 2
        if self.backoff > 8:
            self.deviation += self.mean >> 3
            self.mean = 0
        self.set_timer(now)
        self.next, self.sample, self.out = self.highest + 1, None, []
        self.send_much()
        self.show()
