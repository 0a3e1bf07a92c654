"""Tests of standing text: whose it is, every malformed line, and slips written with it."""

import ctypes
import itertools
import unittest
import warnings
from typing import Any, Callable, Iterator, List, Optional, Tuple

import lanecockle
from lanecockle import (
    FIELDS, STANDING, BarcodeWarning, Refusal, Sheet, StandingText, calls, sheet_text, slip_cents, slip_field, slip_read,
    slip_write, slip_write_standing, standing_text,
)
from tests.test_calls import SLIP_FIELDS, Case, refused, replaced

FARM = "4=OPG HORVAT\n6=42000 VARAŽDIN\n14=\n".encode()
ASSOCIATION = b"4=NITKO\n7=UDRUGA\n13=WTER\n14=Voda\n"

#: The fields of a slip without those that have standing text.
BARE = [field if number in (10, 11, 12) else b"" for number, field in enumerate(SLIP_FIELDS, 4)]

#: Malformed, as the only line of a sheet and behind `4=x`.
MALFORMED = [
    b"\n", b"=\n", b"=x\n", b"4\n", b"x\n", b"04=x\n", b"+4=x\n", b" 4=x\n", b"4 =x\n", b"\t4=x\n", b"0=x\n", b"3=x\n",
    b"10=x\n", b"11=x\n", b"12=x\n", b"15=x\n", b"40=x\n", b"013=WTER\n", b"130=WTER\n", b"18446744073709551620=x\n",
    b"\xEF\xBB\xBF5=x\n", b"5=x=y\n", b"5==\n", b"5=x\r\n", b"5=\r\n", b"\r\n", b"5=x_\n", b"5=x\t\n", b"5=x\0\n",
    b"5=\xC5\n", b"5=\xC5x\n", b"5=\xBD\n", b"5=\x8A\n", b"13=WTE\n", b"13=WTERX\n", b"13=wter\n", b"13=WTE1\n",
    b"13= \n", b"5=x", b"5=", b"5", b"=", b"x", b"\0", b"\r",
]


def longest(number: int) -> bytes:
    """A text as long as a field permits, in letters of two bytes."""
    return ("W" if number == 13 else "Ž").encode() * FIELDS["slip", number].width


def sheets() -> Iterator[Tuple[bytes, bytes]]:
    """Two sheets that are right, each of some of the fields."""
    some = [numbers for count in (0, 1, 2, 8) for numbers in itertools.combinations(STANDING, count)]
    for of_farm, of_association in itertools.product(some, some):
        yield (sheet_text((number, b"") for number in of_farm),
               sheet_text((number, longest(number)) for number in of_association))


class SheetCase(Case):
    def assert_malformed(self, sheet: Sheet, line: int, call: Callable[..., Any], *lent: Any) -> None:
        """That a call refuses a line of a sheet."""
        self.assert_refused([20, line], call, *lent)
        refusal = refused(call, *lent)
        assert refusal is not None
        self.assertIs(refusal.sheet, sheet)


class Answered(SheetCase):
    def test_whose(self) -> None:
        awaited: List[Optional[Tuple[Sheet, str]]] = [
            (Sheet.FARM, "OPG HORVAT"), None, (Sheet.FARM, "42000 VARAŽDIN"), (Sheet.ASSOCIATION, "UDRUGA"), None, None,
            (Sheet.ASSOCIATION, "WTER"), (Sheet.FARM, ""),
        ]
        for number, told in zip(STANDING, awaited):
            found = standing_text(number, FARM, ASSOCIATION)
            self.assertEqual(found, told and StandingText(told[0], told[1].encode()))
            self.assertTrue(found is None or type(found.sheet) is Sheet)

    def test_every_two_sheets(self) -> None:
        """The farm's text where its sheet has the line, even if empty, else the association's, else none."""
        for farm, association in sheets():
            lines = {b"%d" % number: number for number in STANDING}
            of_farm, of_association = (
                {lines[line.split(b"=")[0]] for line in sheet.splitlines()} for sheet in (farm, association))
            for number in STANDING:
                awaited = StandingText(Sheet.FARM, b"") if number in of_farm else (
                    StandingText(Sheet.ASSOCIATION, longest(number)) if number in of_association else None)
                self.assertEqual(standing_text(number, farm, association), awaited)

    def test_what_the_library_tells(self) -> None:
        """Where the text stands in its sheet; 0 and 0 where there is none."""
        for field, told in (
            (4, (0, 1, 2, 10)), (5, (0, 0, 0, 0)), (13, (0, 2, 20, 4)), (14, (0, 1, 34, 0)), (3, (28, 0, 0, 0)),
        ):
            found = calls._CALLS["standing_text"](field, FARM, len(FARM), ASSOCIATION, len(ASSOCIATION))
            self.assertEqual((found.told.number, found.sheet, found.start, found.length), told)
        self.assertEqual(ctypes.sizeof(found), 64)

    def test_types(self) -> None:
        for kind in (bytes, bytearray, memoryview):
            self.assertEqual(standing_text(13, kind(FARM), kind(ASSOCIATION)), (Sheet.ASSOCIATION, b"WTER"))
        with self.assertRaisesRegex(TypeError, "encode"):
            standing_text(4, "", b"")  # type: ignore[arg-type]
        self.assertRaises(TypeError, standing_text, 4, b"", None)
        self.assertRaises(TypeError, standing_text, "4", b"", b"")
        self.assertRaises(ValueError, standing_text, -1, b"", b"")
        self.assertRaises(ValueError, standing_text, 1 << 64, b"", b"")

    def test_fields(self) -> None:
        self.assertEqual([number for number in range(100) if not refused(standing_text, number, b"", b"")], list(STANDING))


class Refused(SheetCase):
    def test_another_field(self) -> None:
        for field in (0, 3, 10, 11, 12, 15, 1 << 32 | 4, (1 << 64) - 1):
            for farm, association in ((FARM, ASSOCIATION), (b"x", b"x")):
                self.assert_refused([28], standing_text, field, farm, association)
                refusal = refused(standing_text, field, farm, association)
                self.assertIsNone(refusal and refusal.sheet)

    def test_malformed(self) -> None:
        for line in MALFORMED:
            with self.subTest(line=line):
                for sheet, at in ((line, 1), (b"4=x\n" + line, 2)):
                    self.assert_malformed(Sheet.FARM, at, standing_text, 4, sheet, ASSOCIATION)
                    self.assert_malformed(Sheet.FARM, at, standing_text, 14, sheet, b"x")
                    self.assert_malformed(Sheet.ASSOCIATION, at, standing_text, 4, FARM, sheet)
                    self.assert_malformed(Sheet.ASSOCIATION, at, slip_write_standing, 1, SLIP_FIELDS, b"", sheet)

    def test_order(self) -> None:
        """Of two lines out of order, or of the same number, the second is the malformed one."""
        for sheet, line in ((b"5=x\n4=y\n", 2), (b"4=x\n4=x\n", 2), (b"4=x\n14=y\n13=WTER\n", 3), (b"13=\n4=x\n", 2)):
            self.assert_malformed(Sheet.FARM, line, standing_text, 4, sheet, b"x")

    def test_rules(self) -> None:
        for number in STANDING:
            right, long = sheet_text([(number, longest(number))]), sheet_text([(number, longest(number) + b"W")])
            self.assertEqual(standing_text(number, b"", right), (Sheet.ASSOCIATION, longest(number)))
            self.assert_malformed(Sheet.ASSOCIATION, 1, standing_text, number, b"", long)

    def test_sentences(self) -> None:
        refusal = refused(standing_text, 4, FARM, b"4=x\n\n")
        assert refusal is not None
        self.assertEqual((refusal.place("en"), refusal.place("hr")), (
            "line 2 of the association's sheet", "redak 2 predloška udruge"))
        self.assertEqual((str(refusal), refusal.croatian()), (
            "Line 2 of the association's sheet: the line is not `number=text` as its field asks for, or is out of order.",
            "Redak 2 predloška udruge: redak nije `broj=tekst` kako polje traži ili nije po redu."))


class Written(SheetCase):
    def test_taken_from_the_sheets(self) -> None:
        slip = slip_write_standing(12355, BARE, FARM, ASSOCIATION)
        slip_read(slip)
        self.assertEqual(slip_cents(slip), 12355)
        for number, given in enumerate(BARE, 4):
            found = standing_text(number, FARM, ASSOCIATION) if number in STANDING else None
            self.assertEqual(slip_field(slip, number), found.text if found else given)

    def test_given(self) -> None:
        self.assertEqual(slip_write_standing(12355, SLIP_FIELDS, FARM, ASSOCIATION), slip_write(12355, SLIP_FIELDS))
        self.assertEqual(slip_write_standing(12355, BARE, b"", b""), slip_write(12355, BARE))
        for number in STANDING:
            fields = replaced(SLIP_FIELDS, number - 4, b"")
            sheet = sheet_text([(number, SLIP_FIELDS[number - 4])])
            for farm, association in ((sheet, b""), (b"", sheet), (sheet, ASSOCIATION)):
                self.assertEqual(slip_write_standing(12355, fields, farm, association), slip_write(12355, SLIP_FIELDS))

    def test_refused(self) -> None:
        for cents, fields, told in (
            (10**15, replaced(BARE, 0, b"_"), [4, 0, 3]), (1, replaced(BARE, 0, b"IVAN_"), [3, 0, 4, 4]),
            (1, replaced(BARE, 6, b""), [4, 0, 10]), (1, replaced(BARE, 7, b""), [5, 0, 11]),
            (1, replaced(BARE, 9, b"COS"), [4, 0, 13]),
            (1, replaced(replaced(BARE, 7, b"HR69"), 8, b"40002-12345678903-101"), [5, 0, 12]),
        ):
            self.assert_refused(told, slip_write_standing, cents, fields, FARM, ASSOCIATION)
            self.assert_malformed(Sheet.FARM, 1, slip_write_standing, cents, fields, b"x", b"x")
        self.assertRaises(ValueError, slip_write_standing, 1, BARE[1:], b"", b"")
        self.assertRaises(ValueError, slip_write_standing, -1, BARE, b"", b"")
        self.assertRaises(TypeError, slip_write_standing, 1, BARE, b"", "")

    def test_longest(self) -> None:
        sheet = sheet_text((number, longest(number)) for number in STANDING)
        with warnings.catch_warnings():
            warnings.simplefilter("ignore")
            self.assertEqual(len(slip_write_standing(10**15 - 1, BARE, sheet, b"")), 483)
        with self.assertWarns(BarcodeWarning) as caught:
            slip_write_standing(10**15 - 1, BARE, b"", sheet)
        self.assertEqual(caught.filename, __file__)

    def test_no_room(self) -> None:
        """The package lends room enough; the library tells what it needs, and leaves less room as it was."""
        slip = slip_write_standing(12355, BARE, FARM, ASSOCIATION)
        out = ctypes.create_string_buffer(b"\x07" * 483, 483)
        lent = (*calls._fields(BARE, 11), FARM, len(FARM), ASSOCIATION, len(ASSOCIATION))
        answer = calls._CALLS["slip_write_standing"](12355, *lent, out, len(slip) - 1)
        self.assertEqual((answer.told.number, answer.told.needed, answer.value, answer.sheet), (15, len(slip), 0, 0))
        self.assertEqual(out.raw, b"\x07" * 483)


class Sheets(unittest.TestCase):
    def test_sheet_text(self) -> None:
        self.assertEqual(sheet_text([]), b"")
        self.assertEqual(sheet_text([(4, b"IVO"), (14, bytearray(b""))]), b"4=IVO\n14=\n")
        self.assertEqual(sheet_text({13: b"WTER", 4: b"x=y"}.items()), b"13=WTER\n4=x=y\n")
        self.assertRaises(TypeError, sheet_text, [(4, "IVO")])
        self.assertRaises(TypeError, sheet_text, [("4", b"IVO")])

    def test_exported(self) -> None:
        self.assertIs(lanecockle.Sheet, Sheet)
        self.assertEqual(Refusal(3).sheet, None)


if __name__ == "__main__":
    unittest.main()
