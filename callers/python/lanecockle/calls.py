"""The calls of the library: check digits, accounts, references, wet slips, slips and their standing text, slips for the
ledgers and wage files."""

import ctypes
import datetime
from ctypes import c_size_t, c_uint16
from dataclasses import dataclass
from enum import IntEnum
from typing import Any, Dict, Iterable, List, Literal, NamedTuple, Optional, Sequence, Tuple, Union, overload

from .library import REFUSED, Ended, Ledger, Part, Record, Standing, StandingWritten, Tally, Valued, load
from .refusal import Refusal, Sheet, accept
from .scan import warn_of_barcode

#: What a text may be: a slip is UTF-8, a wage file WIN-1250 (cp1250 in Python).
Bytes = Union[bytes, bytearray, memoryview]

#: A day: a date, or a number, YYYYMMDD.
Day = Union[int, datetime.date]

#: The bytes of a line of a wage file, CR LF the last two.
LINE = 1002

_SLIP = 483
_FILLINGS = 10_000
_EURO = 1
_KUNA = 2

_CALLS = load()


def _value(valued: Valued) -> int:
    """The value of an answer; raises its refusal."""
    accept(valued.told)
    return valued.value


# ----------------------------------------------------------------------------------------------------------------------
# What is lent: the library's numbers and bytes


def _bytes(value: Bytes) -> bytes:
    """The bytes of a bytes-like value."""
    if isinstance(value, bytes):
        return value
    if isinstance(value, (bytearray, memoryview)):
        return bytes(value)
    if isinstance(value, str):
        raise TypeError("text is bytes here: encode it, a slip as utf-8, a line of a wage file as cp1250")
    raise TypeError(f"bytes are needed, not {type(value).__name__}")


def _lent(value: Bytes) -> Tuple[bytes, int]:
    """Bytes as the two arguments of a call."""
    value = _bytes(value)
    return value, len(value)


def _number(value: int, bits: int = 64) -> int:
    """A whole number that fits: ctypes would cut another one without a word."""
    if not isinstance(value, int):
        raise TypeError(f"a whole number is needed, not {type(value).__name__}")
    if not 0 <= value < 1 << bits:
        raise ValueError(f"the number {value} is not in 0 to 2^{bits} - 1")
    return value


def _day(value: Day) -> int:
    """A day as a number, YYYYMMDD."""
    if isinstance(value, datetime.date):
        return value.year * 10_000 + value.month * 100 + value.day
    return _number(value)


def _fields(fields: Sequence[Bytes], count: int) -> Tuple[Any, ...]:
    """Fields one behind the other, with their sizes, as the four arguments of a writer."""
    fields = [_bytes(field) for field in fields]
    if len(fields) != count:
        raise ValueError(f"{count} fields are needed, not {len(fields)}")
    sizes = (c_size_t * count)(*map(len, fields))
    return _lent(b"".join(fields)) + (sizes, count)


def _room(size: int) -> Any:
    return ctypes.create_string_buffer(size)


def _front(room: Any, length: int) -> bytes:
    """What was written at the front of lent room."""
    return bytes(room.raw[:length])


def _part(value: bytes, part: Union[Part, Standing]) -> bytes:
    return value[part.start:part.start + part.length]


# ----------------------------------------------------------------------------------------------------------------------
# Check digits, accounts, references


class Rule(IntEnum):
    """A rule of check digits."""

    INI = 0
    MOD_11_10 = 1


def version() -> str:
    """The version of the library, as `1.0.0`."""
    number: int = _CALLS["version"]()
    return f"{number // 10_000}.{number // 100 % 100}.{number % 100}"


def check_digits(rule: int, digits: Bytes) -> None:
    """Whether one to 22 digits end in their check digit. Refusals: 5 (no such rule), 1, 3, 9, none with a place.

        >>> check_digits(Rule.INI, b"102305789016")
    """
    accept(_CALLS["check_digits"](_number(rule, 32), *_lent(digits)))


def make_digit(rule: int, digits: Bytes) -> int:
    """The check digit of one to nineteen digits, 0 to 9. Refusals: 5 (no such rule), 1, 3, none with a place.

        >>> make_digit(Rule.MOD_11_10, b"1234567890")
        3
    """
    return _value(_CALLS["make_digit"](_number(rule, 32), *_lent(digits)))


def iban(text: Bytes) -> None:
    """An IBAN: `HR` and nineteen digits. Refusals: 3 with its byte, 4, 5, 6."""
    accept(_CALLS["iban"](*_lent(text)))


def oib(text: Bytes) -> None:
    """An OIB: eleven digits. Refusals: 3 with its byte, 4, 6."""
    accept(_CALLS["oib"](*_lent(text)))


def reference(model: Bytes, text: Bytes) -> None:
    """A reference under its model, `HR` and two digits. Refusals, in this order: 5 (not `HR` and two digits) and 7 of the
    model; 3 with its byte, 4, 8, 5, 9 of the reference.

    That last 5 is of HR69 alone, with three parts: the first is not `40002`, or the third no code of a kind of personal
    income. Like the model's it tells no place: where the model is `HR` and two digits, 5 is of the reference.

        >>> reference(b"HR69", b"40002-12345678903-100")
        >>> reference(b"HR69", b"40002-12345678903-101")
        Traceback (most recent call last):
        lanecockle.refusal.Refusal: The content is not the required word, form or code.
    """
    accept(_CALLS["reference"](*_lent(model), *_lent(text)))


# ----------------------------------------------------------------------------------------------------------------------
# Wet slips


@overload
def list_iban(text: Bytes, texts: Literal[False] = False) -> List[int]: ...
@overload
def list_iban(text: Bytes, texts: Literal[True]) -> List[bytes]: ...
def list_iban(text: Bytes, texts: bool = False) -> Union[List[int], List[bytes]]:
    """The fillings of an IBAN with `?` for up to four unreadable digits: their numbers, ascending, or the filled texts.

    Refusals: 1, 3, 16, none with a place.

        >>> list_iban(b"HR??10010051863000160", texts=True)
        [b'HR1210010051863000160']
    """
    return _listed("list_iban", _lent(text), text, texts)


@overload
def list_reference(model: Bytes, text: Bytes, texts: Literal[False] = False) -> List[int]: ...
@overload
def list_reference(model: Bytes, text: Bytes, texts: Literal[True]) -> List[bytes]: ...
def list_reference(model: Bytes, text: Bytes, texts: bool = False) -> Union[List[int], List[bytes]]:
    """The fillings of a reference under its model, as list_iban gives those of an IBAN.

    Refusals: 1, 3, 16, 5 and 7 of the model, none with a place. A filling that `reference` refuses is not listed.

        >>> list_reference(b"HR01", b"??")
        [0, 19, 27, 35, 43, 51, 60, 78, 86, 94]
        >>> list_reference(b"HR69", b"40002-12345678903-10?")
        [0]
    """
    return _listed("list_reference", _lent(model) + _lent(text), text, texts)


def _listed(name: str, lent: Tuple[Any, ...], text: Bytes, texts: bool) -> Union[List[int], List[bytes]]:
    """What a listing gives, its room always enough."""
    out = (c_uint16 * _FILLINGS)()
    count = _value(_CALLS[name](*lent, out, _FILLINGS))
    numbers = out[:count]
    return [filled(text, number) for number in numbers] if texts else numbers


def filled(text: Bytes, number: int) -> bytes:
    """A text with its marks filled by the digits of a number, 0 to 65,535.

        >>> filled(b"?-??", 70)
        b'0-70'
    """
    text = _bytes(text)
    out = _room(len(text))
    accept(_CALLS["filled"](*_lent(text), _number(number, 16), out, len(text)))
    return _front(out, len(text))


# ----------------------------------------------------------------------------------------------------------------------
# Slips


def slip_read(slip: Bytes) -> None:
    """A slip, the bytes of its barcode. Refusals: 1 (above 483 bytes), 2, then the first of its fourteen fields."""
    accept(_CALLS["slip_read"](*_lent(slip)))


def slip_field(slip: Bytes, number: int) -> bytes:
    """Field 4 to 14 of an accepted slip; empty for another number or a refused slip."""
    slip = _bytes(slip)
    return _part(slip, _CALLS["slip_field"](*_lent(slip), _number(number)))


class Slip(NamedTuple):
    """What an accepted slip says: its amount in cents, and its fields 4 to 14 by name, as text."""

    cents: int
    payer: str
    payer_street: str
    payer_town: str
    recipient: str
    recipient_street: str
    recipient_town: str
    iban: str
    model: str
    reference: str
    purpose: str
    description: str


def slip(slip: Bytes) -> Slip:
    """An accepted slip's amount and fields, by one call of the library; raises the slip's refusal.

        >>> slip(slip_write(12355, [b""] * 6 + [b"HR1210010051863000160", b"HR99", b"", b"", b"voda"])).description
        'voda'
    """
    slip = _bytes(slip)
    cents = slip_cents(slip)
    return Slip(cents, *(field.decode() for field in slip.split(b"\n")[3:14]))


def slip_cents(slip: Bytes) -> int:
    """The amount of an accepted slip in cents; raises the slip's refusal."""
    return _value(_CALLS["slip_cents"](*_lent(slip)))


def slip_write(cents: int, fields: Sequence[Bytes]) -> bytes:
    """The slip of an amount in cents and eleven fields, 4 to 14.

    Refusals: those of slip_read for the fields 3 to 14 (10^15 cents or more are 4), the byte of a 3 counted within its
    field and 0 otherwise. Warns (BarcodeWarning) where the slip's barcode would be higher than the form has room for.
    """
    out = _room(_SLIP)
    length = _value(_CALLS["slip_write"](_number(cents), *_fields(fields, 11), out, _SLIP))
    written = _front(out, length)
    warn_of_barcode(written)
    return written


# ----------------------------------------------------------------------------------------------------------------------
# Standing text for slips

#: The fields that have standing text.
STANDING = (4, 5, 6, 7, 8, 9, 13, 14)


class StandingText(NamedTuple):
    """A standing text, and whose sheet supplied it."""

    sheet: Sheet
    text: bytes


def standing_text(field: int, farm: Bytes, association: Bytes) -> Optional[StandingText]:
    """The standing text of a field, by two sheets: the farm's where its sheet has a line of that number, even if its text is
    empty, else the association's, else None.

    A sheet is lines `number=text`, each ended by LF, their numbers ascending. Refusals: 28 (a field other than those of
    STANDING); then 20, with the first malformed line of the farm's sheet or, where that has none, of the association's, and
    in `sheet` whose it is. Both sheets are judged whole.

        >>> standing_text(14, b"4=OPG HORVAT\\n", b"13=WTER\\n14=Voda\\n")
        StandingText(sheet=<Sheet.ASSOCIATION: 2>, text=b'Voda')
    """
    sheets = {Sheet.FARM: _bytes(farm), Sheet.ASSOCIATION: _bytes(association)}
    lent = [argument for sheet in sheets.values() for argument in _lent(sheet)]
    found: Standing = _CALLS["standing_text"](_number(field), *lent)
    accept(found.told, found.sheet)
    if not found.sheet:
        return None
    whose = Sheet(found.sheet)
    return StandingText(whose, _part(sheets[whose], found))


def slip_write_standing(cents: int, fields: Sequence[Bytes], farm: Bytes, association: Bytes) -> bytes:
    """The slip that slip_write gives, but each of the fields 4 to 9, 13 and 14 that is given empty is its standing text, as
    standing_text answers it.

    Refusals: 20, also where nothing is taken from a sheet; then those of slip_write. Warns as it does.

        >>> fields = [b""] * 6 + [b"HR1210010051863000160", b"HR99", b"", b"", b""]
        >>> written = slip(slip_write_standing(12355, fields, b"4=OPG HORVAT\\n", b"14=Voda\\n"))
        >>> written.payer, written.description
        ('OPG HORVAT', 'Voda')
    """
    out = _room(_SLIP)
    lent = (*_fields(fields, 11), *_lent(farm), *_lent(association))
    answer: StandingWritten = _CALLS["slip_write_standing"](_number(cents), *lent, out, _SLIP)
    accept(answer.told, answer.sheet)
    written = _front(out, answer.value)
    warn_of_barcode(written)
    return written


def sheet_text(lines: Iterable[Tuple[int, Bytes]]) -> bytes:
    """A sheet of lines, each a field's number and its text, in the order given.

    It judges nothing and is outside the proofs: what it writes is judged by the calls that it is given to.

        >>> sheet_text([(4, b"OPG HORVAT"), (14, b"Voda")])
        b'4=OPG HORVAT\\n14=Voda\\n'
    """
    return b"".join(b"%d=%s\n" % (_number(field), _bytes(text)) for field, text in lines)


# ----------------------------------------------------------------------------------------------------------------------
# Slips of either currency, for the ledgers


@dataclass(frozen=True)
class EuroCents:
    """An amount in cents, hundredths of a euro. No operator adds it, to lipa least of all."""

    cents: int


@dataclass(frozen=True)
class Lipa:
    """An amount in lipa, hundredths of a kuna. No operator adds it, to cents least of all.

        >>> Lipa(12355) + EuroCents(1640)
        Traceback (most recent call last):
        TypeError: unsupported operand type(s) for +: 'Lipa' and 'EuroCents'
    """

    lipa: int


#: The amount of a slip in its own unit, which tells the slip's currency.
Amount = Union[EuroCents, Lipa]


def ledger_read(slip: Bytes) -> Amount:
    """The amount of an accepted slip of either currency: EuroCents of a euro slip, Lipa of a kuna slip, printed before 2023.

    Refusals: those of slip_read, a kuna slip's field 10 by its own rule; a currency that is neither is 5 at field 2.
    """
    read: Ledger = _CALLS["ledger_read"](*_lent(slip))
    accept(read.told)
    amounts: Dict[int, Amount] = {_EURO: EuroCents(read.cents), _KUNA: Lipa(read.lipa)}
    return amounts[read.currency]


def ledger_field(slip: Bytes, number: int) -> bytes:
    """Field 4 to 14 of an accepted slip of either currency; empty for another number or a refused slip."""
    slip = _bytes(slip)
    return _part(slip, _CALLS["ledger_field"](*_lent(slip), _number(number)))


class LedgerSlip(NamedTuple):
    """What an accepted slip of either currency says: its amount in its own unit, and its fields 4 to 14 by name, as text.

    `account` is an IBAN; in a kuna slip it may be seven digits, a hyphen and ten digits.
    """

    amount: Amount
    payer: str
    payer_street: str
    payer_town: str
    recipient: str
    recipient_street: str
    recipient_town: str
    account: str
    model: str
    reference: str
    purpose: str
    description: str


def ledger(slip: Bytes) -> LedgerSlip:
    """The amount and fields of an accepted slip of either currency, by one call of the library; raises its refusal.

        >>> read = ledger(b"HRVHUB30\\nHRK\\n000000000012355\\n\\n\\n\\n\\n\\n\\n1001005-1863000160\\nHR99\\n\\n\\nvoda\\n")
        >>> read.amount, read.account
        (Lipa(lipa=12355), '1001005-1863000160')
        >>> lipa_in_cents(read.amount)
        EuroCents(cents=1640)
    """
    slip = _bytes(slip)
    amount = ledger_read(slip)
    return LedgerSlip(amount, *(field.decode() for field in slip.split(b"\n")[3:14]))


def lipa_in_cents(lipa: Lipa) -> EuroCents:
    """Lipa in cents at 7.53450 kuna for a euro: the nearest cent, exactly."""
    if not isinstance(lipa, Lipa):
        raise TypeError(f"Lipa are needed, not {type(lipa).__name__}")
    return EuroCents(_CALLS["lipa_in_cents"](_number(lipa.lipa)))


# ----------------------------------------------------------------------------------------------------------------------
# Wage files judged


class Counts(NamedTuple):
    """What an accepted wage file comes to: its counts, and what all its orders come to, in cents."""

    lines: int
    groups: int
    orders: int
    total: int


def _counts(ended: Ended) -> Counts:
    accept(ended.told)
    return Counts(ended.lines, ended.groups, ended.orders, ended.total.total())


class Judge:
    """The judge of a wage file, one line at a step, for the day of submission: a date, or a number, YYYYMMDD.

    Its first refusal stays: each step and the end raise it again. A day that is not a date of 2023 to 9999 is 11, raised by
    the first of them.

        >>> judge = Judge(20240228)
        >>> judge.step(write_closing(20240228))
        Traceback (most recent call last):
        lanecockle.refusal.Refusal: Line 1: a line of this type may not stand here.
    """

    def __init__(self, day: Day) -> None:
        self._record: Record = _CALLS["judge_begin"](_day(day))

    @classmethod
    def from_record(cls, record: Union[Record, Bytes]) -> "Judge":
        """The judge of a Record, which may be one that was stored."""
        judge = cls.__new__(cls)
        judge._record = Record.from_buffer_copy(record)
        return judge

    def record(self) -> Record:
        """A copy of the Record as it stands: the condition, the counts and the sums so far."""
        return Record.from_buffer_copy(self._record)

    def step(self, line: Bytes) -> None:
        """Judges one line of whatever size; raises the record's refusal."""
        self._take(_CALLS["judge_step"](self._record, *_lent(line)))

    def step_tally(self, line: Bytes, tally: Tally) -> None:
        """Judges one line as step does, and brings the tally up to date: a group more for a 301, an order and its amount
        more for a 309. Where the line is refused the tally stays as it was.

        Refusals: those of step; then 29, with the line's number, where the tally would come to more than 1,000,000 groups
        or orders, or to 10^21 cents or more. One tally may go through several files; RunningTotal is a judge and a tally in
        one.

            >>> full = Tally(groups=1_000_000)
            >>> judge = Judge(20240228)
            >>> judge.step_tally(b"300", full)
            Traceback (most recent call last):
            lanecockle.refusal.Refusal: Line 1: the line is not 1,002 bytes long.
            >>> full.groups, full.orders, full.total.total()
            (1000000, 0, 0)
        """
        if not isinstance(tally, Tally):
            raise TypeError(f"a Tally is needed, not {type(tally).__name__}")
        self._take(_CALLS["judge_step_tally"](self._record, *_lent(line), tally))

    def lines(self, part: Bytes) -> None:
        """Judges the lines of a part of a file: pieces of 1,002 bytes, of which the last may be short (1)."""
        self._take(_CALLS["judge_lines"](self._record, *_lent(part)))

    def end(self) -> Counts:
        """The Counts of the file; raises its first refusal, or 14 at the next line where the 399 was not read."""
        return _counts(_CALLS["judge_end"](self._record))

    def _take(self, record: Record) -> None:
        self._record = record
        if record.condition == REFUSED:
            raise Refusal.of(record.told)


def wage_file(day: Day, file: Bytes) -> Counts:
    """The Counts of a whole file; raises its first refusal."""
    return _counts(_CALLS["wage_file"](_day(day), *_lent(file)))


def wage_place(line: Bytes, field: int) -> bytes:
    """A place of a line by its field number: 1 to 8 of a 300, 1 to 7 of a 301, 1, 2, 5 to 12 and 18 to 23 of a 309.

    Empty for another number, or where 1, 2 or 5 (type) refuses the line.
    """
    line = _bytes(line)
    return _part(line, _CALLS["wage_place"](*_lent(line), _number(field)))


# ----------------------------------------------------------------------------------------------------------------------
# Wage lines written


def write_label(day: Day, fields: Sequence[Bytes]) -> bytes:
    """A 300 of eight fields, 1 to 8, each the bytes of its positions.

    Refusals: 11 for the day; the judge's for the fields, 4 (another length) first in each.
    """
    return _written("write_label", _day(day), *_fields(fields, 8))


def write_order(day: Day, kind: int, fields: Sequence[Bytes]) -> bytes:
    """A 309 of sixteen fields, 1, 2, 5 to 12 and 18 to 23; a kind that is not 4 or 5 is 5, after 11 for the day."""
    return _written("write_order", _day(day), _number(kind), *_fields(fields, 16))


def write_group(day: Day, kind: int, fields: Sequence[Bytes], orders: Bytes) -> bytes:
    """A 301 of five fields, 1 to 4 and 7; 5 and 6 are worked out from the group's 309 lines, one behind the other.

    Refusals of these lines: 1 if they are not whole, 10 if there are none, 12 above 99,999, then the first refusal in
    them, with its line in the group.
    """
    return _written("write_group", _day(day), _number(kind), *_fields(fields, 5), *_lent(orders))


def write_closing(day: Day) -> bytes:
    """A 399, which has no fields. Refusal: 11 for the day."""
    return _written("write_closing", _day(day))


def _written(name: str, *lent: Any) -> bytes:
    """The line that a writer writes."""
    out = _room(LINE)
    accept(_CALLS[name](*lent, out, LINE))
    return _front(out, LINE)
