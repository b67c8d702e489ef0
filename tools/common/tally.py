"""Counts passed and failed trials, for every tool that tests something."""
from collections.abc import Iterable, Iterator

# The name of each trial, and whether it went as expected.
Trials = Iterator[tuple[str, object]]


class Tally:
    """Counts trials, and prints each failure at once, after the text `before`."""

    def __init__(self, before: str = "") -> None:
        self.before = before
        self.passed = 0
        self.failed = 0
        self.skipped = 0

    def count(self, is_well: object, what: str = "") -> None:
        if is_well:
            self.passed += 1
            return
        self.failed += 1
        if what:
            print(self.before + what, flush=True)

    def count_all(self, trials: Iterable[tuple[str, object]], before: str = "") -> None:
        """Counts trials, given as pairs of a name and a result."""
        for name, is_well in trials:
            self.count(is_well, f"{before}{name}: not so")

    def close(self) -> int:
        """Prints the closing line. Returns the tool's status: 1 if a trial failed or none ran, otherwise
        0."""
        skipped = f", {self.skipped} skipped" if self.skipped else ""
        print(f"{self.passed} passed, {self.failed} failed{skipped}", flush=True)
        return 1 if self.failed or not self.passed else 0
