"""Tests of the calls: every function and refusal, the types taken, the sentences, the fields and the round trips."""

import ctypes
import datetime
import doctest
import os
import pickle
import re
import shutil
import subprocess
import sys
import tempfile
import unittest
import warnings
from pathlib import Path
from typing import Any, Callable, Iterator, List, Optional, Sequence, Tuple
from unittest import mock

import lanecockle
from lanecockle import (
    FIELDS, KINDS, LINE, Counts, Field, Judge, Record, Refusal, Rule, Sheet, Slip, calls, check_digits, filled, iban,
    library, list_iban, list_reference, make_digit, oib, reference, slip_cents, slip_field, slip_read, slip_write,
    version, wage_file, wage_place, write_closing, write_group, write_label, write_order,
)

CALLERS = Path(__file__).resolve().parents[2]
PACKAGE = CALLERS / "python" / "lanecockle"

SLIP_START = [b"HRVHUB30", b"EUR", b"000000000012355"]
SLIP_FIELDS = [text.encode() for text in (
    "ŽELJKO SENEKOVIĆ", "IVANEČKA ULICA 125", "42000 VARAŽDIN", "2DBK d.d.", "ALKARSKI PROLAZ 13B", "21230 SINJ",
    "HR1210010051863000160", "HR01", "7269-68499637766-00011", "COST", "Troškovi za 1. mjesec",
)]

DAY = 20240228
LABEL_NUMBERS = [1, 2, 3, 4, 5, 6, 7, 8]
GROUP_NUMBERS = [1, 2, 3, 4, 7]
ORDER_NUMBERS = [1, 2, 5, 6, 7, 8, 9, 10, 11, 12, 18, 19, 20, 21, 22, 23]
LABEL_FIELDS = [b"20240228", b"4", b"000", b"1", b"12345678903", b"00000000042", b"00000000000", b"12345678903"]
GROUP_FIELDS = [b"HR1210010051863000160", b"EUR", b" " * 21, b"   ", b"20240301"]


#: References under HR69 and their refusals, 0 for none: with three parts they are for personal income, 40002, an OIB and a
#: code; 5 comes after 8 and before 9.
PERSONAL_INCOME = [
    (b"40002-12345678903-100", 0), (b"40002-12345678903-699", 0), (b"40010-12345678903", 0),
    (b"40003-12345678903", 9), (b"40002-12345678904-100", 9),
    (b"40010-12345678903-100", 5), (b"40003-12345678903-100", 5), (b"40003-12345678904-999", 5),
    (b"40002-12345678903-101", 5), (b"40002-12345678903-000", 5), (b"40002-12345678903-099", 5),
    (b"40002-12345678904-101", 5),
    (b"40002-12345678903-10", 8), (b"40002-12345678903-10-1", 8), (b"40002", 8),
]


def order_fields(cents: bytes = b"000000000012355") -> List[bytes]:
    """The sixteen fields of an order of whatever amount."""
    return [
        b"HR7023400091510946338".ljust(34), b"IVANA HORVAT".ljust(140), b"191", b"HR69",
        b"40002-12345678903-100".ljust(22), b"SALA", "Plaća 1/2024".encode("cp1250").ljust(140), cents, b"HR01",
        b"7269-68499637766-00011", b"0", b"EUR", b"3", b"0", b"100", b"12345678903",
    ]


def replaced(fields: List[bytes], place: int, field: bytes) -> List[bytes]:
    return fields[:place] + [field] + fields[place + 1:]


def slip_of(fields: Sequence[bytes]) -> bytes:
    """The bytes of a slip of 123.55 euro, of whatever fields."""
    return b"".join(field + b"\n" for field in [*SLIP_START, *fields])


def file_of_two() -> bytes:
    """A file of one group with two orders."""
    orders = write_order(DAY, 4, order_fields()) + write_order(DAY, 4, order_fields(b"999999999999999"))
    return write_label(DAY, LABEL_FIELDS) + write_group(DAY, 4, GROUP_FIELDS, orders) + orders + write_closing(DAY)


#: What that file comes to.
COUNTS = Counts(lines=5, groups=1, orders=2, total=10**15 + 12354)


def lines_of(file: bytes) -> List[bytes]:
    return [file[at:at + LINE] for at in range(0, len(file), LINE)]


def with_bytes(file: bytes, line: int, byte: int, value: bytes) -> bytes:
    """A file with other bytes in a line, which counts from 1."""
    at = (line - 1) * LINE + byte
    return file[:at] + value + file[at + len(value):]


def refused(call: Callable[..., Any], *lent: Any) -> Optional[Refusal]:
    """The refusal that a call raises; None where it accepts."""
    try:
        call(*lent)
    except Refusal as refusal:
        return refusal
    return None


class Case(unittest.TestCase):
    def assert_refused(self, told: Sequence[int], call: Callable[..., Any], *lent: Any) -> None:
        """That a call refuses with (number, line, field, byte, needed); zeros at the end may be left out."""
        with self.assertRaises(Refusal) as caught:
            call(*lent)
        refused = caught.exception
        answer = (refused.number, refused.line, refused.field, refused.byte, refused.needed)
        self.assertEqual(answer, tuple(told) + (0,) * (5 - len(told)))

    def assert_told(self, told: Sequence[int], call: Callable[..., Any], *lent: Any) -> None:
        """That a call refuses so, or accepts where the number is 0."""
        if told[0]:
            self.assert_refused(told, call, *lent)
        else:
            call(*lent)


class Rules(Case):
    def test_check_digits(self) -> None:
        check_digits(Rule.INI, b"102305789016")
        check_digits(Rule.MOD_11_10, b"2340009")
        check_digits(0, b"0" * 22)
        self.assert_refused([9], check_digits, Rule.INI, b"2340009")
        self.assert_refused([1], check_digits, Rule.INI, b"")
        self.assert_refused([1], check_digits, Rule.INI, b"0" * 23)
        self.assert_refused([3], check_digits, Rule.INI, b"1x")
        self.assert_refused([5], check_digits, 2, b"")
        self.assertRaises(ValueError, check_digits, 1 << 32, b"0")

    def test_make_digit(self) -> None:
        self.assertEqual(make_digit(Rule.INI, b"10230578901"), 6)
        self.assertEqual(make_digit(Rule.MOD_11_10, b"234000"), 9)
        self.assert_refused([1], make_digit, Rule.INI, b"0" * 20)
        self.assert_refused([3], make_digit, Rule.INI, b"12-3")
        self.assert_refused([5], make_digit, 2, b"1")

    def test_iban(self) -> None:
        iban(b"HR1210010051863000160")
        self.assert_refused([6], iban, b"HR1310010051863000160")
        self.assert_refused([3, 0, 0, 4], iban, b"HR12 10010051863000160")
        self.assert_refused([4], iban, b"")
        self.assert_refused([5], iban, b"SI1210010051863000160")

    def test_oib(self) -> None:
        oib(b"12345678903")
        self.assert_refused([6], oib, b"12345678904")
        self.assert_refused([4], oib, b"1234567890")
        self.assert_refused([3, 0, 0, 10], oib, b"1234567890\0")

    def test_reference(self) -> None:
        reference(b"HR69", b"40002-12345678903-100")
        reference(b"HR99", b"")
        self.assert_refused([9], reference, b"HR69", b"40003-12345678903")
        self.assert_refused([8], reference, b"HR69", b"40002")
        self.assert_refused([4], reference, b"HR01", b"1" * 23)
        self.assert_refused([3, 0, 0, 2], reference, b"HR01", b"12a")
        self.assert_refused([7], reference, b"HR12", b"1")
        self.assert_refused([5], reference, b"", b"")

    def test_personal_income(self) -> None:
        for text, number in PERSONAL_INCOME + [(b"40002-12345678903-100-1", 4)]:
            self.assert_told([number], reference, b"HR69", text)
        reference(b"HR00", b"40003-12345678904-101")

    def test_codes(self) -> None:
        """The codes are those of field 22 of an order, whose code is not compared with that of the order's reference."""
        for code in (b"%03d" % number for number in range(1000)):
            of_reference = refused(reference, b"HR69", b"40002-12345678903-" + code)
            of_order = refused(write_order, DAY, 4, replaced(order_fields(), 14, code))
            self.assertEqual(of_reference is None, of_order is None, code)


class Wet(Case):
    def test_list_iban(self) -> None:
        self.assertEqual(list_iban(b"HR??10010051863000160"), [12])
        self.assertEqual(list_iban(b"HR??10010051863000160", texts=True), [b"HR1210010051863000160"])
        self.assertEqual(list_iban(b"HR1210010051863000160"), [0])
        self.assertEqual(list_iban(b"HR1310010051863000160"), [])
        self.assert_refused([1], list_iban, b"")
        self.assert_refused([3], list_iban, b"?R1210010051863000160")
        self.assert_refused([16], list_iban, b"HR?????10051863000160")

    def test_list_reference(self) -> None:
        self.assertEqual(list_reference(b"HR01", b"??"), [0, 19, 27, 35, 43, 51, 60, 78, 86, 94])
        self.assertEqual(list_reference(b"HR01", b"0?", texts=True), [b"00"])
        self.assertEqual(list_reference(b"HR00", b"????"), list(range(10_000)))
        self.assertEqual(list_reference(b"HR99", b"", texts=True), [b""])
        self.assertEqual(list_reference(b"HR01", b"-?"), [])
        self.assert_refused([1], list_reference, b"HR01", b"1" * 23)
        self.assert_refused([3], list_reference, b"HR01", b"x")
        self.assert_refused([16], list_reference, b"HR01", b"?????")
        self.assert_refused([5], list_reference, b"HR", b"?")
        self.assert_refused([7], list_reference, b"HR12", b"?")

    def test_personal_income(self) -> None:
        self.assertEqual(list_reference(b"HR69", b"40002-12345678903-10?"), [0])
        self.assertEqual(list_reference(b"HR69", b"40010-1234567890?"), [3])
        self.assertEqual(list_reference(b"HR69", b"40010-12345678903-???"), [])
        listed = list_reference(b"HR69", b"4000?-12345678903-???")
        self.assertEqual((len(listed), listed[:3], listed[-1]), (55, [2100, 2110, 2120], 2699))

    def test_filled(self) -> None:
        self.assertEqual(filled(b"?-?-?", 7), b"0-0-7")
        self.assertEqual(filled(b"", 7), b"")
        self.assertEqual(filled(b"?", 65_535), b"5")
        self.assertRaises(ValueError, filled, b"?", 65_536)
        self.assertRaises(TypeError, filled, b"?", "7")


class Slips(Case):
    def test_read(self) -> None:
        slip = slip_of(SLIP_FIELDS)
        slip_read(slip)
        self.assertEqual(slip_cents(slip), 12355)
        self.assertEqual([slip_field(slip, number) for number in range(4, 15)], SLIP_FIELDS)
        for number in (0, 1, 2, 3, 15, (1 << 64) - 1):
            self.assertEqual(slip_field(slip, number), b"")

    def test_whole_slip_refused(self) -> None:
        self.assert_refused([1], slip_read, b"\n" * 484)
        self.assert_refused([2], slip_read, b"\n" * 483)
        self.assert_refused([2], slip_cents, b"")
        self.assertEqual(slip_field(b"", 4), b"")

    def test_fields_refused(self) -> None:
        for number, text, refused, byte in (
            (4, b"IVAN_", 3, 4), (4, "Ž".encode() * 31, 4, 0), (10, b"SI1210010051863000160", 5, 0),
            (10, b"HR1310010051863000160", 6, 0), (11, b"HR12", 7, 0), (12, b"1-", 8, 0), (12, b"1", 9, 0),
            (13, b"COSt", 3, 3), (14, b"\xC4", 3, 0),
        ):
            fields = replaced(SLIP_FIELDS, number - 4, text)
            slip = slip_of(fields)
            start = 29 + sum(len(field) + 1 for field in fields[:number - 4])
            self.assert_refused([refused, 0, number, start + byte], slip_read, slip)
            self.assert_refused([refused, 0, number, start + byte], slip_cents, slip)
            self.assert_refused([refused, 0, number, byte], slip_write, 12355, fields)
            self.assertEqual(slip_field(slip, 4), b"")

    def test_personal_income(self) -> None:
        for text, number in PERSONAL_INCOME:
            fields = replaced(replaced(SLIP_FIELDS, 7, b"HR69"), 8, text)
            start = 29 + sum(len(field) + 1 for field in fields[:8])
            self.assert_told([number, 0, 12, start], slip_read, slip_of(fields))
            self.assert_told([number, 0, 12], slip_write, 12355, fields)

    def test_write_refused(self) -> None:
        self.assert_refused([4, 0, 3], slip_write, 10**15, SLIP_FIELDS)
        self.assert_refused([3, 0, 4, 4], slip_write, 1, replaced(SLIP_FIELDS, 0, b"IVAN\nHORVAT"))
        self.assertRaises(ValueError, slip_write, -1, SLIP_FIELDS)
        self.assertRaises(ValueError, slip_write, 1, SLIP_FIELDS[1:])
        self.assertRaises(TypeError, slip_write, 1.5, SLIP_FIELDS)

    def test_round(self) -> None:
        slip = slip_write(12355, SLIP_FIELDS)
        self.assertEqual(slip, slip_of(SLIP_FIELDS))
        self.assertEqual(slip_write(slip_cents(slip), [slip_field(slip, number) for number in range(4, 15)]), slip)

    def test_fields_at_once(self) -> None:
        slip = slip_of(SLIP_FIELDS)
        for kind in (bytes, bytearray, memoryview):
            read = lanecockle.slip(kind(slip))
            self.assertEqual(read, Slip(12355, *(field.decode() for field in SLIP_FIELDS)))
        self.assertEqual((read.payer, read.payer_street, read.payer_town), (
            "ŽELJKO SENEKOVIĆ", "IVANEČKA ULICA 125", "42000 VARAŽDIN"))
        self.assertEqual((read.recipient, read.recipient_street, read.recipient_town), (
            "2DBK d.d.", "ALKARSKI PROLAZ 13B", "21230 SINJ"))
        self.assertEqual((read.iban, read.model, read.reference), (
            "HR1210010051863000160", "HR01", "7269-68499637766-00011"))
        self.assertEqual((read.cents, read.purpose, read.description), (12355, "COST", "Troškovi za 1. mjesec"))

    def test_fields_at_once_refused(self) -> None:
        self.assert_refused([2], lanecockle.slip, b"")
        slip = slip_of(replaced(SLIP_FIELDS, 6, b"HR1310010051863000160"))
        self.assert_refused([6, 0, 10, slip.index(b"HR13")], lanecockle.slip, slip)
        self.assertRaises(TypeError, lanecockle.slip, "")

    def test_fields_at_once_by_one_call(self) -> None:
        asked = mock.Mock(wraps=calls._CALLS["slip_cents"])
        # without the other calls
        with mock.patch.dict(calls._CALLS, {"slip_cents": asked}, clear=True):
            lanecockle.slip(slip_of(SLIP_FIELDS))
        asked.assert_called_once()

    def test_longest(self) -> None:
        fields = ["đ".encode() * most for most in (30, 27, 27, 25, 25, 27)] + SLIP_FIELDS[6:10] + ["š".encode() * 35]
        with warnings.catch_warnings():
            # of its barcode, which is another matter
            warnings.simplefilter("ignore")
            slip = slip_write(10**15 - 1, fields)
        self.assertEqual((len(slip), slip_cents(slip)), (483, 10**15 - 1))


class Wages(Case):
    def test_whole(self) -> None:
        file = file_of_two()
        self.assertEqual(wage_file(DAY, file), COUNTS)
        self.assert_refused([14, 1], wage_file, DAY, b"")
        self.assert_refused([1, 5], wage_file, DAY, file[:-1])
        self.assert_refused([10, 1], wage_file, DAY, file[LINE:])
        self.assert_refused([11, 1, 1], wage_file, DAY + 1, file)
        self.assert_refused([11], wage_file, 20230229, file)
        self.assertRaises(ValueError, wage_file, (1 << 64) + DAY, file)

    def test_steps(self) -> None:
        judge = Judge(DAY)
        for read, line in enumerate(lines_of(file_of_two())):
            self.assertEqual(judge.record().lines, read)
            self.assert_refused([14, read + 1], judge.end)
            judge.step(line)
        self.assertEqual(judge.end(), COUNTS)
        record = judge.record()
        self.assertEqual((record.condition, record.day, record.kind), (3, DAY, 4))
        self.assertEqual((record.promised.total(), record.total.total()), (10**15 + 12354, 10**15 + 12354))
        self.assertEqual(record.file_total.total(), 10**15 + 12354)

    def test_parts_and_stored_record(self) -> None:
        file = file_of_two()
        judge = Judge(DAY)
        judge.lines(file[:2 * LINE])
        judge = Judge.from_record(Record.from_buffer_copy(bytes(judge.record())))
        judge.lines(file[2 * LINE:])
        self.assertEqual(judge.end(), COUNTS)

    def test_changed_files(self) -> None:
        for line, byte, value, told in (
            (2, 3, b"3", [6, 2, 1]), (3, 1001, b" ", [2, 3]), (3, 350, b" ", [3, 3, 10, 350]),
            (3, 997, b"4", [5, 3, 0, 997]), (4, 179, b"2", [7, 4, 6, 177]), (4, 186, b"4", [8, 4, 7, 181]),
            (4, 181, b"5", [5, 4, 7, 181]), (4, 201, b"1", [5, 4, 7, 181]), (4, 197, b"4", [9, 4, 7, 181]),
            (2, 77, b"9", [11, 2, 7, 73]), (2, 52, b"1", [12, 4]), (2, 52, b"3", [12, 5]), (2, 53, b"1", [13, 5]),
        ):
            file = bytearray(file_of_two())
            at = (line - 1) * LINE + byte
            file[at:at + 1] = value
            self.assert_refused(told, wage_file, DAY, file)
            self.assert_refused(told, Judge(DAY).lines, file)
            self.assert_stepped(told, file)

    def assert_stepped(self, told: Sequence[int], file: bytes) -> None:
        judge = Judge(DAY)
        for line in lines_of(file)[:told[1] - 1]:
            judge.step(line)
        self.assert_refused(told, judge.step, lines_of(file)[told[1] - 1])
        self.assert_refused(told, judge.end)

    def test_refusal_stays(self) -> None:
        judge = Judge(DAY)
        self.assert_refused([10, 1], judge.step, write_closing(DAY))
        self.assert_refused([10, 1], judge.step, write_label(DAY, LABEL_FIELDS))
        self.assert_refused([10, 1], judge.lines, b"")
        self.assert_refused([10, 1], judge.end)
        self.assert_refused([11], Judge(0).end)

    def test_made_up_records(self) -> None:
        for name, value in (("condition", 5), ("lines", 1_000_001), ("groups", 1_000_001), ("orders", (1 << 64) - 1),
                            ("declared", 1_000_001), ("counted", (1 << 64) - 1)):
            record = Judge(DAY).record()
            setattr(record, name, value)
            self.assert_refused([17, 1_000_001], Judge.from_record(record).end)
            self.assert_refused([17, 1_000_001], Judge.from_record(record).step, b"")
        for name, high in (("promised", 100), ("total", 100), ("file_total", 1000)):
            record = Judge(DAY).record()
            getattr(record, name).high = high
            self.assert_refused([17, 1_000_001], Judge.from_record(record).end)
            self.assert_refused([17, 1_000_001], Judge.from_record(record).step, b"")

    def test_made_up_refusals(self) -> None:
        for number in list(range(33)) + [(1 << 64) - 1]:
            record = Record(condition=4, told=(number, 3, 4, 5, 6))
            told = [number if number in KINDS else 17, 3, 4, 5, 6 if number == 15 else 0]
            self.assert_refused(told, Judge.from_record(record).end)
            self.assert_refused(told, Judge.from_record(record).step, b"")

    def test_record_is_a_copy(self) -> None:
        judge = Judge(DAY)
        record = judge.record()
        record.lines = 7
        self.assertEqual(judge.record().lines, 0)
        other = Judge.from_record(record)
        record.lines = 8
        self.assertEqual(other.record().lines, 7)


class Lines(Case):
    def test_round(self) -> None:
        file = file_of_two()
        label, group, first, second, _ = lines_of(file)
        orders = b"".join(
            write_order(DAY, 4, [wage_place(order, number) for number in ORDER_NUMBERS]) for order in (first, second))
        again = [
            write_label(DAY, [wage_place(label, number) for number in LABEL_NUMBERS]),
            write_group(DAY, 4, [wage_place(group, number) for number in GROUP_NUMBERS], orders), orders,
            write_closing(DAY),
        ]
        self.assertEqual(b"".join(again), file)

    def test_places(self) -> None:
        label, group, order, _, closing = lines_of(file_of_two())
        self.assertEqual([wage_place(label, number) for number in LABEL_NUMBERS], LABEL_FIELDS)
        self.assertEqual([wage_place(order, number) for number in ORDER_NUMBERS], order_fields())
        self.assertEqual((wage_place(group, 5), wage_place(group, 6)), (b"00002", b"00001000000000012354"))
        for line, number in ((label, 0), (label, 9), (group, 8), (order, 3), (order, 13), (closing, 1), (b"", 1)):
            self.assertEqual(wage_place(line, number), b"")
        self.assertRaises(ValueError, wage_place, label, -1)

    def test_writers_refuse(self) -> None:
        order = write_order(DAY, 4, order_fields())
        self.assert_refused([11], write_label, 20230229, LABEL_FIELDS)
        self.assert_refused([6, 0, 5, 13], write_label, DAY, replaced(LABEL_FIELDS, 4, b"12345678904"))
        self.assert_refused([11], write_order, 0, 3, order_fields())
        self.assert_refused([5], write_order, DAY, 3, order_fields())
        self.assert_refused([4, 0, 10, 347], write_order, DAY, 4, order_fields(b"12355"))
        self.assert_refused([11], write_group, 0, 3, GROUP_FIELDS, b"")
        self.assert_refused([5], write_group, DAY, 3, GROUP_FIELDS, b"")
        self.assert_refused([1], write_group, DAY, 4, GROUP_FIELDS, order[1:])
        self.assert_refused([10], write_group, DAY, 4, GROUP_FIELDS, b"")
        self.assert_refused([10, 2], write_group, DAY, 4, GROUP_FIELDS, order + write_closing(DAY))
        self.assert_refused([12], write_group, DAY, 4, GROUP_FIELDS, bytes(100_000 * LINE))
        self.assert_refused([11, 0, 7, 73], write_group, DAY, 4, replaced(GROUP_FIELDS, 4, b"20240227"), order)
        self.assert_refused([11], write_closing, 20230229)
        self.assertRaises(ValueError, write_label, DAY, LABEL_FIELDS[1:])

    def test_personal_income(self) -> None:
        """In the fields 7 and 12 of an order: written, judged in a file, and lent to the writer of a group."""
        for place, field, byte in ((4, 7, 181), (9, 12, 366)):
            for text, number in PERSONAL_INCOME:
                fields = replaced(replaced(order_fields(), place - 1, b"HR69"), place, text.ljust(22))
                self.assert_told([number, 0, field, byte], write_order, DAY, 4, fields)
                file = with_bytes(file_of_two(), 4, byte - 4, b"HR69" + text.ljust(22))
                self.assert_told([number, 4, field, byte], wage_file, DAY, file)
                self.assert_told([number, 2, field, byte], write_group, DAY, 4, GROUP_FIELDS, file[2 * LINE:4 * LINE])

    def test_no_room(self) -> None:
        """The module lends room enough; the library tells what it needs, and leaves less room as it was."""
        out = ctypes.create_string_buffer(b"\x07" * LINE, LINE)
        told = calls._CALLS["write_closing"](DAY, out, LINE - 1)
        self.assertEqual((told.number, told.needed, out.raw), (15, LINE, b"\x07" * LINE))


class Lent(Case):
    def test_bytes_like(self) -> None:
        for kind in (bytes, bytearray, memoryview):
            iban(kind(b"HR1210010051863000160"))
            self.assertEqual(slip_write(12355, [kind(field) for field in SLIP_FIELDS]), slip_of(SLIP_FIELDS))
            self.assertEqual(slip_field(kind(slip_of(SLIP_FIELDS)), 13), b"COST")
            self.assertEqual(wage_file(DAY, kind(file_of_two())), COUNTS)

    def test_text_is_not_bytes(self) -> None:
        with self.assertRaisesRegex(TypeError, "encode"):
            iban("HR1210010051863000160")
        with self.assertRaisesRegex(TypeError, "encode"):
            slip_write(1, [""] * 11)
        self.assertRaises(TypeError, oib, 12345678903)
        self.assertRaises(TypeError, oib, None)
        self.assertRaises(TypeError, wage_file, "20240228", b"")


class Days(Case):
    """A date is the day that its number, YYYYMMDD, is."""

    def test_each_call(self) -> None:
        date, order = datetime.date(2024, 2, 28), write_order(DAY, 4, order_fields())
        self.assertEqual(bytes(Judge(date).record()), bytes(Judge(DAY).record()))
        self.assertEqual(wage_file(date, file_of_two()), COUNTS)
        self.assertEqual(write_label(date, LABEL_FIELDS), write_label(DAY, LABEL_FIELDS))
        self.assertEqual(write_order(date, 4, order_fields()), order)
        self.assertEqual(write_group(date, 4, GROUP_FIELDS, order), write_group(DAY, 4, GROUP_FIELDS, order))
        self.assertEqual(write_closing(date), write_closing(DAY))

    def test_another_day(self) -> None:
        date, order = datetime.date(2024, 3, 2), write_order(DAY, 4, order_fields())
        self.assert_refused([11, 1, 1], wage_file, date, file_of_two())
        self.assert_refused([11, 1, 1], Judge(date).lines, file_of_two())
        self.assert_refused([11, 0, 1], write_label, date, LABEL_FIELDS)
        self.assert_refused([11, 0, 7, 73], write_group, date, 4, GROUP_FIELDS, order)

    def test_before_2023(self) -> None:
        date = datetime.date(2022, 12, 31)
        self.assert_refused([11], Judge(date).end)
        self.assert_refused([11], wage_file, date, b"")
        self.assert_refused([11], write_label, date, LABEL_FIELDS)
        self.assert_refused([11], write_order, date, 4, order_fields())
        self.assert_refused([11], write_group, date, 4, GROUP_FIELDS, b"")
        self.assert_refused([11], write_closing, date)

    def test_edges(self) -> None:
        self.assertEqual(Judge(datetime.date(9999, 12, 31)).record().day, 99991231)
        self.assertEqual(Judge(datetime.datetime(2023, 1, 1, 23, 59)).record().day, 20230101)
        self.assertRaises(TypeError, Judge, "2024-02-28")
        self.assertRaises(ValueError, Judge, -1)


def table(name: str) -> Iterator[List[str]]:
    """The rows of a table of callers/, each in its parts."""
    for line in (CALLERS / name).read_text(encoding="utf-8").splitlines():
        if not line.startswith("#"):
            yield line.split("|")


def examples() -> List[Tuple[Refusal, str, str]]:
    """The examples of told.txt, each a refusal, with its sheet where one is told, and its two sentences."""
    found = []
    for told, english, croatian in table("told.txt"):
        number, line, field, byte, needed, *sheet = map(int, told.split())
        found.append((Refusal(number, line, field, byte, needed, *map(Sheet, sheet)), english, croatian))
    return found


class Sentences(Case):
    def test_those_of_the_examples(self) -> None:
        for refused, english, croatian in examples():
            self.assertEqual((str(refused), refused.croatian()), (english, croatian))
            self.assertEqual((refused.sentence("en"), refused.sentence("hr")), (english, croatian))

    def test_every_sentence_has_an_example(self) -> None:
        rows = [row for row in table("sentences.txt") if len(row) == 4]
        self.assertEqual({row[0] for row in rows}, {str(number) for number in KINDS})
        for row in rows:
            self.assertTrue(any(self.says(example, row) for example in examples()), row)
        for example in examples():
            self.assertEqual(sum(self.says(example, row) for row in rows), 1, example)

    @staticmethod
    def says(example: Tuple[Refusal, str, str], row: Sequence[str]) -> bool:
        """Whether an example says a row of sentences.txt, in both languages; its first letter may be a capital."""
        refused, *told = example
        number, _, *whats = row
        return int(number) == refused.number and all(
            one.endswith(what.replace("{needed}", str(refused.needed))[1:]) for one, what in zip(told, whats))

    def test_place_and_what(self) -> None:
        refused = Refusal(3, line=3, field=10, byte=350)
        self.assertEqual(refused.place("en"), "line 3, field 10, position 351")
        self.assertEqual(refused.place("hr"), "slog 3, polje 10, pozicija 351")
        self.assertEqual(refused.what("en"), "this byte is not permitted here.")
        self.assertEqual(refused.what("hr"), "ovaj znak ovdje nije dozvoljen.")
        self.assertEqual(Refusal(3).place("hr"), "")
        self.assertRaises(ValueError, refused.sentence, "de")

    def test_distinct(self) -> None:
        for line, field in ((0, 0), (0, 4), (2, 0), (2, 4)):
            refusals = [Refusal(number, line, field, 0, 7) for number in KINDS]
            sentences = {refused.sentence(language) for refused in refusals for language in ("en", "hr")}
            self.assertEqual(len(sentences), 2 * len(KINDS))

    def test_names(self) -> None:
        self.assertEqual(list(KINDS), [*range(1, 18), 20, 28, 29])
        self.assertEqual((Refusal(1).name, Refusal(6).name, Refusal(17).name), ("size", "check", "beyond"))
        self.assertEqual((Refusal(20).name, Refusal(28).name, Refusal(29).name), ("sheet", "field", "overfull"))
        self.assertEqual(len({Refusal(number).name for number in KINDS}), 20)

    def test_pickled(self) -> None:
        refused = pickle.loads(pickle.dumps(Refusal(15, needed=1002)))
        self.assertEqual((refused.number, refused.needed, refused.sheet), (15, 1002, None))
        refused = pickle.loads(pickle.dumps(Refusal(20, line=3, sheet=Sheet.FARM)))
        self.assertEqual((refused.number, refused.line, refused.sheet), (20, 3, Sheet.FARM))


#: Where the type of a line stands, which the library does not hand out.
TYPE = 998


class Fields(Case):
    """The table of fields against the library."""

    @staticmethod
    def handed(layout: str, number: int) -> List[int]:
        """The positions, counted from 1, that the library hands out as a field of a line."""
        high, low = (
            wage_place(bytes(digits) + layout.encode() + b"\r\n", number)
            for digits in zip(*(divmod(position, 256) for position in range(1, TYPE)))
        )
        return [256 * one + other for one, other in zip(high, low)]

    @staticmethod
    def tabled(layout: str, number: int) -> List[int]:
        """The positions by the table; a 309's name, address and seat are handed out as one."""
        field = FIELDS.get((layout, number))
        if (layout, number) == ("309", 2):
            return list(range(35, 175))
        if field is None or not field.read or field.start == TYPE:
            return []
        return list(range(field.start, field.start + field.width))

    def test_lines(self) -> None:
        for layout in ("300", "301", "309", "399"):
            for number in range(40):
                self.assertEqual(self.handed(layout, number), self.tabled(layout, number), (layout, number))

    def test_one_behind_the_other(self) -> None:
        for layout in ("300", "301", "309", "399"):
            fields = [field for field in FIELDS.values() if field.layout == layout]
            self.assertEqual([field.number for field in fields], list(range(1, len(fields) + 1)))
            starts = [1 + sum(field.width for field in fields[:at]) for at in range(len(fields) + 1)]
            self.assertEqual([field.start for field in fields] + [LINE - 1], starts)
            self.assertEqual(fields[-1].rule[0], f"Must be `{layout}`.")

    @staticmethod
    def full(field: Field) -> str:
        """A text as wide as a slip's field, which is right there."""
        right = {1: "HRVHUB30", 2: "EUR", 3: "000000000012355", 10: "HR7023400091510946338", 11: "HR00",
                 12: "12345678901-1234567890", 13: "SALA"}
        return right.get(field.number, "Ž" * field.width)

    def test_slip(self) -> None:
        """A field as wide as in the table is right, and one character wider refused; shorter it is right if `at_most`."""
        right = [*SLIP_START, *SLIP_FIELDS[:7], b"HR00", b"1", b"", b""]
        self.assertEqual([field.number for field in FIELDS.values() if field.layout == "slip"], list(range(1, 15)))
        for number in range(1, 15):
            field, start = FIELDS["slip", number], sum(len(one) + 1 for one in right[:number - 1])
            full = self.full(field)
            self.assertEqual(len(full), field.width)
            slip, long, short = (
                b"".join(one + b"\n" for one in replaced(right, number - 1, text.encode()))
                for text in (full, full + full[-1], full[:-1])
            )
            slip_read(slip)
            # 5 alone applies to the fields 1, 2 and 11
            told = [5 if number in (1, 2, 11) else 4, 0, number, start]
            self.assert_refused(told, slip_read, long)
            if field.at_most:
                slip_read(short)
            else:
                self.assert_refused(told, slip_read, short)

    def test_rules(self) -> None:
        """A rule tells the same widths and words in both languages, and those of its field."""
        for field in FIELDS.values():
            english, croatian = field.rule
            self.assertEqual(re.findall(r"\d+", english), re.findall(r"\d+", croatian), field)
            self.assertEqual(re.findall(r"`.*?`", english), re.findall(r"`.*?`", croatian), field)
            self.assertEqual(english[-1] + croatian[-1], "..", field)
            if field.at_most:
                self.assertIn(f"at most {field.width} characters", english)
            if english.startswith("Must be `"):
                self.assertEqual(english, f"Must be `{english[9:9 + field.width]}`.")


class Package(Case):
    def test_examples(self) -> None:
        for module in (lanecockle, calls, lanecockle.refusal):
            result = doctest.testmod(module)
            self.assertGreater(result.attempted, 0, module)
            self.assertEqual(result.failed, 0, module)

    def test_version(self) -> None:
        told = (CALLERS.parent / "VERSION").read_text(encoding="utf-8").strip()
        self.assertEqual((version(), lanecockle.__version__), (told, told))

    def test_public_names(self) -> None:
        self.assertEqual([name for name in lanecockle.__all__ if not hasattr(lanecockle, name)], [])
        self.assertEqual(len(lanecockle.__all__), len(set(lanecockle.__all__)))


class Library(Case):
    """Where the shared library is looked for."""

    def setUp(self) -> None:
        folder = tempfile.TemporaryDirectory()
        self.addCleanup(folder.cleanup)
        self.folder = Path(folder.name).resolve()

    @staticmethod
    def loaded(package: Path, named: str = "") -> Tuple[str, str]:
        """What an import of a package says: where its library is, and its last line of error."""
        environment = dict(os.environ, LANECOCKLE_LIB=named)
        command = [sys.executable, "-B", "-W", "error", "-c", "import lanecockle; print(lanecockle.library.path())"]
        ended = subprocess.run(
            command, cwd=package.parent, env=environment, capture_output=True, encoding="utf-8", check=False)
        return ended.stdout.strip(), "".join(ended.stderr.strip().splitlines()[-1:])

    def test_named(self) -> None:
        for name in (library.NAME, "another.so"):
            shutil.copy(library.path(), self.folder / name)
            self.assertEqual(self.loaded(PACKAGE, str(self.folder / name)), (str(self.folder / name), ""))
        self.assertEqual(self.loaded(PACKAGE, str(self.folder)), (str(self.folder / library.NAME), ""))

    def test_named_and_missing(self) -> None:
        for named, missing in ((self.folder, self.folder / library.NAME), (self.folder / "none", self.folder / "none")):
            told, error = self.loaded(PACKAGE, str(named))
            self.assertEqual(told, "")
            self.assertTrue(error.startswith(f"ImportError: there is no {missing}; "), error)
            self.assertIn("LANECOCKLE_LIB", error)

    def test_beside_the_package(self) -> None:
        """As a wheel has it; without it, the project's target/staticlib is looked at."""
        package = self.folder / "callers" / "python" / "lanecockle"
        shutil.copytree(PACKAGE, package, ignore=shutil.ignore_patterns("*.so", "__pycache__"))
        project = self.folder / "target" / "staticlib" / library.NAME
        told, error = self.loaded(package)
        self.assertEqual(told, "")
        self.assertTrue(error.startswith(f"ImportError: there is no {project}; "), error)
        shutil.copy(library.path(), package / library.NAME)
        self.assertEqual(self.loaded(package), (str(package / library.NAME), ""))


if __name__ == "__main__":
    unittest.main()
