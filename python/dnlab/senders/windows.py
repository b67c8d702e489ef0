"""Congestion windows: Reno and CUBIC, and the retransmission timeout of both."""
from dataclasses import dataclass
from typing import Protocol

SECOND = 10**9
# Sections 2.4 and 2.5: at least 1 s, at most 60 s.
LEAST, MOST = SECOND, 60 * SECOND


@dataclass
class Timeout:
    """The retransmission time `value`, ns; `least` is its minimum, 1 s in the RFC (Linux has 200 ms).

    `smoothed` and `varied` are SRTT and RTTVAR, 0 before the first measurement."""
    least: int = LEAST
    smoothed: int = 0
    varied: int = 0
    value: int = SECOND

    def measured(self, rtt: int) -> None:
        """Updates the retransmission time for a measured round trip, ns (sections 2.2 and 2.3).

        >>> timeout = Timeout(least=0)
        >>> timeout.measured(100); timeout.smoothed, timeout.varied, timeout.value
        (100, 50, 300)
        >>> timeout.measured(180); timeout.smoothed, timeout.varied, timeout.value
        (110, 57, 338)
        """
        if self.smoothed:
            self.varied = (3 * self.varied + abs(self.smoothed - rtt)) // 4
            self.smoothed = (7 * self.smoothed + rtt) // 8
        else:
            self.smoothed, self.varied = rtt, rtt // 2
        self.value = min(max(self.smoothed + max(1, 4 * self.varied), self.least), MOST)

    def passed(self) -> None:
        """Doubles the retransmission time, which passed without an acknowledgement (section 5.5)."""
        self.value = min(2 * self.value, MOST)


# Section numbers in the comments are those of the RFC.

# 4.1.2, 4.6: the steepness of the curve, and the factor of the window after a loss.
C, BETA = 0.4, 0.7
# 4.3: makes the growth match Reno's, with this BETA.
ALPHA = 3 * (1 - BETA) / (1 + BETA)
INITIAL, LEAST_WINDOW = 10.0, 2.0


def plateau_time(top: float, begin: float) -> float:
    """Returns K of 4.2: the time (s) that the curve takes from a window to its plateau.

    >>> round(plateau_time(100, 70), 6)
    4.217163
    """
    return float(((top - begin) / C) ** (1 / 3)) if top > begin else 0.0


def curve(time: float, top: float, plateau: float) -> float:
    """Returns W_cubic of 4.2: the window (segments) at a time (s) after the start of congestion avoidance.

    >>> round(curve(0, 100, plateau_time(100, 70)), 6), curve(1, 100, 1)
    (70.0, 100.0)
    """
    return C * (time - plateau) ** 3 + top


@dataclass
class CubicCurve:
    """The window: `cwnd` and `ssthresh` in segments, times in seconds."""
    cwnd: float = INITIAL
    ssthresh: float = float("inf")
    top: float = 0.0
    plateau: float = 0.0
    # The start of congestion avoidance; None before.
    epoch: float | None = None
    # W_est of 4.3, and the window before the last loss.
    friendly: float = 0.0
    prior: float = 0.0
    is_after_timeout: bool = False

    def acknowledged(self, now: float, rtt: float) -> None:
        """Updates the window for an acknowledged segment."""
        if self.cwnd < self.ssthresh:
            self.cwnd += 1
            return
        if self.epoch is None:
            self._begin(now)
        assert self.epoch is not None
        time = now - self.epoch
        # 4.3: once it reaches the window before the loss, it grows like Reno.
        self.friendly += (1.0 if self.friendly >= self.prior else ALPHA) / self.cwnd
        if curve(time, self.top, self.plateau) < self.friendly:
            self.cwnd = max(self.cwnd, self.friendly)
            return
        # 4.2, 4.4, 4.5: the curve one RTT ahead, at most half more.
        target = min(max(curve(time + rtt, self.top, self.plateau), self.cwnd), 1.5 * self.cwnd)
        self.cwnd += (target - self.cwnd) / self.cwnd

    def _begin(self, now: float) -> None:
        """Starts congestion avoidance."""
        self.epoch = now
        self.friendly = self.cwnd
        # 4.8: after a timeout the curve starts at its plateau.
        if self.is_after_timeout or self.top == 0:
            self.top, self.plateau, self.is_after_timeout = self.cwnd, 0.0, False
        else:
            self.plateau = plateau_time(self.top, self.cwnd)

    def lost(self, flying: float) -> None:
        """Updates the window for a loss, once per round trip; `flying` segments were in flight."""
        # 4.7: fast convergence makes room for new flows.
        self.top = self.cwnd * (1 + BETA) / 2 if self.cwnd < self.top else self.cwnd
        self.prior = self.cwnd
        # 4.6
        self.ssthresh = max(flying * BETA, LEAST_WINDOW)
        self.cwnd = self.ssthresh
        self.epoch = None

    def timed_out(self, flying: float) -> None:
        """Updates the window for a timeout (4.8)."""
        self.lost(flying)
        self.cwnd = 1.0
        self.is_after_timeout = True


# What a flow adds for duplicates during fast recovery belongs to the flow (`dnlab.senders.flows`); a window
# is the value after it.

_SECOND = 10**9
# The initial threshold (RFC 5681, section 3.1: it "SHOULD be set arbitrarily high").
HIGH = 2**62


class Window(Protocol):
    """The interface that a flow requires of a window.

    `cwnd` and `ssthresh` are bytes, times ns. `is_newreno` says whether a flow stays in fast recovery until
    everything sent before the loss is acknowledged (RFC 6582), or leaves it at the first acknowledgement of
    new data (RFC 5681)."""
    cwnd: int
    ssthresh: int
    is_newreno: bool

    def __init__(self, smss: int) -> None:
        """Creates a window for segments of this many bytes."""

    def acknowledged(self, count: int, now: int, rtt: int) -> None:
        """Updates the window: `count` new bytes were acknowledged, outside of recovery. `rtt` is the smoothed
        round trip, ns, 0 if unknown."""

    def lost(self, flight: int, now: int) -> None:
        """Updates the window for three duplicates, with `flight` bytes in flight."""

    def timed_out(self, flight: int, now: int, is_again: bool) -> None:
        """Updates the window for a timeout; `is_again` if the timer has expired before for the same byte."""


class Reno:
    """The window of RFC 5681, as in docs/explanation/reno.md.

    >>> window = Reno(1000)
    >>> window.cwnd                                  # 3.1: 4 segments of up to 1095 bytes
    4000
    >>> window.acknowledged(1000, 0, 0); window.cwnd # 3.1, equation 2
    5000
    >>> window.lost(5000, 0); window.cwnd, window.ssthresh # 3.2, equation 4: half of what is in flight
    (2500, 2500)
    >>> window.acknowledged(1000, 0, 0); window.cwnd # 3.1, equation 3: 1000 * 1000 / 2500
    2900
    """
    is_newreno = False

    def __init__(self, smss: int) -> None:
        self.smss = smss
        self.cwnd = 4 * smss if smss <= 1095 else 3 * smss if smss <= 2190 else 2 * smss
        self.ssthresh = HIGH

    def acknowledged(self, count: int, now: int, rtt: int) -> None:
        """Grows by slow start below the threshold, else by congestion avoidance (section 3.1)."""
        if self.cwnd < self.ssthresh:
            self.cwnd += min(count, self.smss)
        else:
            self.cwnd += max(1, self.smss * self.smss // self.cwnd)

    def lost(self, flight: int, now: int) -> None:
        """Halves the window (section 3.2, steps 2 and 6)."""
        self.ssthresh = max(flight // 2, 2 * self.smss)
        self.cwnd = self.ssthresh

    def timed_out(self, flight: int, now: int, is_again: bool) -> None:
        """Falls back to one segment (section 3.1). The threshold stays if the same segment was sent again
        before."""
        if not is_again:
            self.ssthresh = max(flight // 2, 2 * self.smss)
        self.cwnd = self.smss


class NewReno(Reno):
    """Reno's window with the recovery of RFC 6582, which lasts until everything sent before the loss is
    acknowledged, so that several losses in one window need no timeout. Hosts do this; use it if the network's
    behaviour is what you study.

    >>> NewReno(1000).cwnd, NewReno.is_newreno
    (4000, True)
    """
    is_newreno = True


class Cubic:
    """The window of RFC 9438, by `CubicCurve`, with an initial window of 10 segments (RFC 6928) and NewReno's
    recovery.

    >>> window = Cubic(1000)
    >>> window.acknowledged(1000, 0, 0); window.cwnd
    11000
    >>> window.lost(11000, 0); window.cwnd, window.ssthresh # 4.6: 0.7 of what is in flight
    (7700, 7700)
    """
    is_newreno = True

    def __init__(self, smss: int) -> None:
        self.smss = smss
        self.own = CubicCurve()
        self._take()

    def _take(self) -> None:
        self.cwnd = round(self.own.cwnd * self.smss)
        self.ssthresh = HIGH if self.own.ssthresh == float("inf") else round(self.own.ssthresh * self.smss)

    def acknowledged(self, count: int, now: int, rtt: int) -> None:
        """Counts each acknowledged segment as one; a part of one counts too."""
        for _ in range(max(1, count // self.smss)):
            self.own.acknowledged(now / _SECOND, rtt / _SECOND)
        self._take()

    def lost(self, flight: int, now: int) -> None:
        """Reduces the window (sections 4.6 and 4.7)."""
        self.own.lost(flight / self.smss)
        self._take()

    def timed_out(self, flight: int, now: int, is_again: bool) -> None:
        """Falls back to one segment (section 4.8); a further timeout for the same byte leaves threshold and
        plateau unchanged."""
        if is_again:
            self.own.cwnd = 1.0
        else:
            self.own.timed_out(flight / self.smss)
        self._take()
