"""A wage file judged in parts, in constant memory, and its refusal explained."""

from typing import Dict, NamedTuple, Optional, Tuple, Union

from . import explain
from .calls import LINE, Bytes, Day, Judge
from .explain import Shown
from .refusal import Refusal

#: The bytes that are judged by one call of the library, whole lines, and the first bytes that are kept for hints.
_CHUNK = 1024 * LINE
_START = 2 * LINE


class Accepted(NamedTuple):
    """What an accepted wage file comes to: its counts, and the sum of its orders in cents."""

    lines: int
    groups: int
    orders: int
    cents: int


class Judging:
    """The judging of a wage file for a day of submission, in parts of any size as they come.

        >>> judging = Judging(20240228)
        >>> judging.feed(b"300")
        >>> print(judging.end().sentence)
        Line 1: the line is not 1,002 bytes long.
    """

    def __init__(self, day: Day, language: str = "en") -> None:
        self._judge = Judge(day)
        self._language = language
        self._start = b""
        self._rest = b""
        self._refused: Optional[Tuple[Refusal, bytes]] = None

    @property
    def lines(self) -> int:
        """The lines read so far."""
        return self._judge.record().lines

    @property
    def groups(self) -> int:
        """The groups read so far."""
        return self._judge.record().groups

    @property
    def orders(self) -> int:
        """The orders read so far."""
        return self._judge.record().orders

    @property
    def cents(self) -> int:
        """What the orders read so far come to, as the record has it."""
        return self._judge.record().file_total.total()

    @property
    def refused(self) -> bool:
        """Whether the file is refused already."""
        return self._refused is not None

    def so_far(self) -> Dict[str, int]:
        """Lines, groups, orders and cents read so far, by name, all of one record: what a screen is redrawn from. Of a
        refused file they are those of the lines before the refused one."""
        record = self._judge.record()
        cents = record.file_total.total()
        return {"lines": record.lines, "groups": record.groups, "orders": record.orders, "cents": cents}

    def feed(self, part: Bytes) -> None:
        """Judges the next part of the file, which may end anywhere; after a refusal it is passed over."""
        view = memoryview(part).cast("B")
        # The first bytes are kept behind a refusal too, so that its hints do not depend on the parts.
        self._start += bytes(view[:_START - len(self._start)])
        for at in range(0, len(view), _CHUNK):
            if self._refused is None:
                self._take(bytes(view[at:at + _CHUNK]))

    def end(self) -> Union[Accepted, Shown]:
        """What the file comes to, or its refusal explained."""
        if self._refused is None and self._rest:
            self._read(self._rest)
        if self._refused is None:
            try:
                return Accepted(*self._judge.end())
            except Refusal as refusal:
                self._refused = refusal, b""
        record = self._judge.record()
        return explain.of_wage(self._refused[0], self._start, self._refused[1], record, record.day, self._language)

    def _take(self, part: bytes) -> None:
        """Judges what has become whole lines, and keeps the rest."""
        part = self._rest + part
        whole = len(part) - len(part) % LINE
        self._rest = part[whole:]
        if whole:
            self._read(part[:whole])

    def _read(self, chunk: bytes) -> None:
        """Judges lines by one call; where they are refused, once more those before the refused one."""
        before = self._judge.record()
        try:
            self._judge.lines(chunk)
        except Refusal as refusal:
            if refusal.line == 0:
                self._refused = refusal, b""
                return
            at = (refusal.line - 1 - before.lines) * LINE
            self._refused = refusal, chunk[at:at + LINE]
            # In place of the refused record only then: it has the same figures, so none that are shown go back meanwhile.
            judge = Judge.from_record(before)
            judge.lines(chunk[:at])
            self._judge = judge
