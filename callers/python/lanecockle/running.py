"""The running total of wage files, for a screen."""

from typing import Optional, Union

from .calls import Bytes, Counts, Day, Judge
from .library import REFUSED, Record, Tally
from .refusal import Refusal


class RunningTotal:
    """The running total of a wage file, for a screen that is redrawn while the file is read: a judge for the day of
    submission, and beside it a tally that each line brings up to date. No line is kept, and none is added up twice.

    Begun with zeros, `groups`, `orders` and `total` are those of the lines that were taken so far; a refused line leaves
    them as they stood. Begun with the tally of the file before, or a stored one, they are the sum over both.

        >>> running = RunningTotal(20240228)
        >>> running.groups, running.orders, running.total
        (0, 0, 0)
        >>> running.step(b"300")
        Traceback (most recent call last):
        lanecockle.refusal.Refusal: Line 1: the line is not 1,002 bytes long.
        >>> print(running.refusal.croatian())
        Slog 1: slog nema točno 1002 znaka.
        >>> RunningTotal(20240228, Tally(groups=1, orders=7)).orders
        7
    """

    def __init__(self, day: Day, tally: Optional[Union[Tally, Bytes]] = None) -> None:
        self._judge = Judge(day)
        self._tally = Tally() if tally is None else Tally.from_buffer_copy(tally)

    def step(self, line: Bytes) -> None:
        """Judges one line of whatever size, and adds what it adds; raises the refusal, as each further step does.

        Refusals: those of Judge.step; then 29, where the tally would come to more than 1,000,000 groups or orders, or to
        10^21 cents or more.
        """
        self._judge.step_tally(line, self._tally)

    @property
    def groups(self) -> int:
        """The groups read so far."""
        return self._tally.groups

    @property
    def orders(self) -> int:
        """The orders read so far."""
        return self._tally.orders

    @property
    def total(self) -> int:
        """What these orders come to, in cents, exactly."""
        return self._tally.total.total()

    @property
    def refusal(self) -> Optional[Refusal]:
        """The refusal, if the file is refused."""
        record = self._judge.record()
        return Refusal.of(record.told) if record.condition == REFUSED else None

    def tally(self) -> Tally:
        """A copy of the tally as it stands: what the running total of the next file is begun with."""
        return Tally.from_buffer_copy(self._tally)

    def record(self) -> Record:
        """A copy of the judge's Record, which knows the file's lines and its own total apart from the files before."""
        return self._judge.record()

    def end(self) -> Counts:
        """The Counts of the file, its own total among them; raises its refusal as Judge.end does."""
        return self._judge.end()
