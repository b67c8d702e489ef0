"""CUBIC's window (`dnlab.senders.windows`), compared with numbers calculated by hand from the formulas of RFC
9438."""
import pytest

from dnlab.senders.windows import CubicCurve, curve, plateau_time


def test_the_curve() -> None:
    """W_max = 100 and a window of 70: K is the cube root of 30 / 0.4 = 75, which is between 4.217163^3 =
    74.999983 and 4.217164^3 = 75.000036. 0.4 (t - K)^3 + 100 at 0: 0.4 * -75; at 2: 0.4 * -10.899161
    (2.217163^3); at 6: 0.4 * 5.666758 (1.782837^3)."""
    plateau = plateau_time(100, 70)
    assert 4.217163 < plateau < 4.217164
    assert [curve(time, 100, plateau) for time in (0, 2, plateau, 6)] == pytest.approx(
        [70, 95.640336, 100, 102.266703], abs=1e-6)
    # A window at or above W_max starts at the plateau.
    assert plateau_time(70, 70) == plateau_time(60, 70) == 0


def test_slow_start_and_a_loss() -> None:
    window = CubicCurve()
    for _ in range(90):
        window.acknowledged(0.0, 0.1)
    assert window.cwnd == 100
    window.lost(100)
    assert (window.cwnd, window.ssthresh, window.top, window.prior) == (70, 70, 100, 100)
    # The first acknowledgement, at 5 s, starts the epoch. At 0 s the curve is at 70, which is below W_est =
    # 70 + 0.529412 / 70, so the window is W_est (Reno-friendly). 9/17 is 3 (1 - 0.7) / (1 + 0.7).
    window.acknowledged(5.0, 0.1)
    assert window.cwnd == pytest.approx(70 + 9 / 17 / 70)


@pytest.mark.parametrize("cwnd, time, rtt, wanted", [
    # The target is the curve at 2.1 s: 0.4 * (2.1 - 4.217163)^3 + 100 = 0.4 * -9.489932 + 100 = 96.204027;
    # the window 80 grows by 16.204027 / 80 = 0.202550.
    (80.0, 2, 0.1, 80.202550),
    # At 20 s the curve is far above the limit of 1.5 * 80 = 120, so the window grows by 40 / 80.
    (80.0, 20, 0.1, 80.5),
    # At 2 s the curve is at 95.64, below the window, which does not change.
    (97.0, 2, 0.01, 97.0)])
def test_growth(cwnd: float, time: float, rtt: float, wanted: float) -> None:
    window = CubicCurve(cwnd, 70.0, top=100.0, plateau=plateau_time(100, 70), epoch=10.0, friendly=70.0,
                        prior=100.0)
    window.acknowledged(10.0 + time, rtt)
    assert window.cwnd == pytest.approx(wanted, abs=1e-6)


def test_fast_convergence() -> None:
    """A loss at a window of 90, below W_max = 100: W_max becomes 90 * 1.7 / 2 = 76.5, and 60 in flight leave
    a window of 42."""
    window = CubicCurve(90.0, 70.0, top=100.0)
    window.lost(60)
    assert (window.top, window.ssthresh, window.cwnd) == pytest.approx((76.5, 42, 42))
    window.lost(1)
    assert (window.ssthresh, window.cwnd) == (2, 2)


def test_a_timeout() -> None:
    """The window is one segment, then slow start up to 70 % of the segments that were in flight. Then the
    curve starts at its plateau, 28."""
    window = CubicCurve(50.0, 30.0, top=60.0)
    window.timed_out(40)
    assert (window.cwnd, window.ssthresh) == (1, pytest.approx(28))
    for _ in range(28):
        window.acknowledged(1.0, 0.1)
    assert (window.top, window.plateau) == (28, 0)
    # 3 s later the target is 0.4 * 3.1^3 + 28 = 39.9164, below the limit of half more, 42.
    before = window.cwnd
    window.acknowledged(4.0, 0.1)
    assert window.cwnd == pytest.approx(before + (39.9164 - before) / before)


def test_as_reno_once_it_has_come_back() -> None:
    """W_est grows by 9/17 per window up to the window before the loss, and by 1 afterwards."""
    window = CubicCurve(100.0, 70.0, top=1000.0, plateau=100.0, epoch=0.0, friendly=99.999, prior=100.0)
    window.acknowledged(100.0, 0.1)
    slow, was = window.friendly, window.cwnd
    assert slow == pytest.approx(99.999 + 9 / 17 / 100)
    window.acknowledged(100.0, 0.1)
    assert window.friendly == pytest.approx(slow + 1 / was)
