"""Refusals: what is wrong, where, and one sentence about it in English or Croatian."""

from enum import IntEnum
from typing import Optional, Tuple

from .library import Told
from .tables import KINDS, SENTENCES, WORDS

#: The languages, in the order in which the tables have them.
LANGUAGES = ("en", "hr")

#: A wrong type of line is 5 with field 0 and this byte.
TYPE_BYTE = 997

#: The refusal whose line is one of a sheet.
SHEET = 20

#: The refusal of a line that is right, where the running total has no room for it.
OVERFULL = 29


class Sheet(IntEnum):
    """Whose sheet of standing text."""

    FARM = 1
    ASSOCIATION = 2


class Refusal(Exception):
    """What is wrong and where: `number`, `line`, `field`, `byte`, and for 15 `needed`; 0 stands for none. `sheet` tells for
    20 whose sheet the line is of, and is None otherwise.

    str() is one sentence about it in English, croatian() the same in Croatian. Sentences tell a byte as a position, which
    counts from 1; `byte` counts from 0.

        >>> refusal = Refusal(6, line=2, field=1)
        >>> print(refusal)
        Line 2, field 1, position 1: the check of the IBAN or OIB fails.
        >>> print(refusal.croatian())
        Slog 2, polje 1, pozicija 1: IBAN ili OIB ne prolazi kontrolu.
        >>> Refusal(20, line=3, sheet=Sheet.FARM).place("en")
        "line 3 of the farm's sheet"
    """

    def __init__(
        self, number: int, line: int = 0, field: int = 0, byte: int = 0, needed: int = 0, sheet: Optional[Sheet] = None,
    ) -> None:
        super().__init__(number, line, field, byte, needed, sheet)
        self.number = number
        self.line = line
        self.field = field
        self.byte = byte
        self.needed = needed
        self.sheet = sheet

    @classmethod
    def of(cls, told: Told, sheet: int = 0) -> "Refusal":
        """The refusal of an answer that is one, with the library's number of its sheet."""
        whose = Sheet(sheet) if sheet else None
        return cls(told.number, told.line, told.field, told.byte, told.needed, whose)

    @property
    def name(self) -> str:
        """The refusal's name, as in include/lanecockle.h: `size`, `ends`, `byte` and so on."""
        return KINDS[self.number][0]

    def __str__(self) -> str:
        return self.sentence("en")

    def croatian(self) -> str:
        """The sentence in Croatian."""
        return self.sentence("hr")

    def sentence(self, language: str) -> str:
        """The place and what is wrong, as one sentence, in `en` or `hr`."""
        place, what = self.place(language), self.what(language)
        sentence = f"{place}: {what}" if place else what
        return sentence[0].upper() + sentence[1:]

    def what(self, language: str) -> str:
        """What is wrong, without its place and without a capital letter."""
        at = LANGUAGES.index(language)
        for number, when, *told in SENTENCES:
            if number == self.number and self._fits(when):
                return told[at].format(needed=self.needed)
        raise ValueError(f"there is no refusal {self.number}")

    def place(self, language: str) -> str:
        """The place in words, `line 2, field 1, position 1`, as much of it as is told, and whose sheet it is."""
        at = LANGUAGES.index(language)
        told: Tuple[Tuple[str, int, bool], ...] = (
            ("sheet line" if self.number == SHEET else "line", self.line, self.line != 0),
            ("field", self.field, self.field != 0),
            ("position", self.byte + 1, self.tells_byte()),
        )
        place = ", ".join(f"{WORDS[word][at]} {number}" for word, number, is_told in told if is_told)
        return place if self.sheet is None else f"{place} {WORDS[self.sheet.name.lower()][at]}"

    def tells_byte(self) -> bool:
        """Whether a byte is told: always with a field, and without one where it is not 0."""
        return self.field != 0 or self.byte != 0

    def _fits(self, when: str) -> bool:
        if when == "line":
            return self.line != 0
        if when == "byte":
            return self.tells_byte()
        if when == "type":
            return self.field == 0 and self.byte == TYPE_BYTE
        return True


def accept(told: Told, sheet: int = 0) -> None:
    """Raises the refusal of an answer, if it is one, with the library's number of its sheet."""
    if told.number != 0:
        raise Refusal.of(told, sheet)
