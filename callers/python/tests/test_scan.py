"""Tests of what readers and people add to a text, and of the height of a slip's barcode."""

import doctest
import itertools
import random
import unittest
import warnings
from typing import Optional

from lanecockle import Refusal, iban, oib, reference, scan, slip_read, slip_write
from lanecockle.scan import FITTING, BarcodeWarning, compact, height, rows, scanned, warn_of_barcode
from tests.test_calls import SLIP_FIELDS, slip_of

MARK = b"\xEF\xBB\xBF"
TEXT = "0123456789ABCDEFGHIJKLMNOPQRSTUVWXYZabcdefghijklmnopqrstuvwxyz ,.:-+?'/()ČčĆćĐđŠšŽž"
REFERENCES = [(b"HR99", b""), (b"HR00", b"1-22-333"), (b"HR01", b"0"), (b"HR01", b"7269-68499637766-00011"),
              (b"HR69", b"40002-12345678903-100")]

FRONTS = [b"", MARK, b"]L2", MARK + b"]L0", b"]L2" + MARK]
ENDS = [b"\n", b"\r\n", b"\r"]
LASTS = [-1, 0, 1, 3]
NULS = [b"", b"\0", b"\0\0\0"]
CODES = ["latin-1", "cp1252"]


def made_up(chance: random.Random, alphabet: str = TEXT, described: bool = False) -> bytes:
    """A right slip; its last fields may be empty unless it must be described."""
    def text(most: int, least: int = 0) -> bytes:
        return "".join(chance.choice(alphabet) for _ in range(chance.randint(least, most))).encode()

    model, number = chance.choice(REFERENCES)
    fields = [text(most) for most in (30, 27, 27, 25, 25, 27)] + [b"HR1210010051863000160", model, number]
    fields += [chance.choice([b"", b"COST"]), text(35, 1 if described else 0)]
    return slip_of(fields)


def twice(data: bytes, code: str) -> bytes:
    """UTF-8 taken for latin-1 or cp1252 and encoded again; bytes that cp1252 leaves open go through, as in Windows."""
    read = "".join(bytes([byte]).decode(code, "ignore") or chr(byte) for byte in data)
    return read.encode()


def damaged(slip: bytes, front: bytes, end: bytes, last: int, nul: bytes, code: Optional[str]) -> bytes:
    """A slip as a reader sends it: `last` line feeds too many, -1 for a missing one."""
    slip = slip[:-1] if last < 0 else slip + b"\n" * last
    data = front + slip.replace(b"\n", end) + nul
    return twice(data, code) if code else data


class Right(unittest.TestCase):
    def test_returned_as_it_is(self) -> None:
        chance = random.Random(417)
        for alphabet in [TEXT, "ŠšŽž", "ČčĆćĐđ", "ŽA ", "?-"] * 60:
            slip = made_up(chance, alphabet)
            slip_read(slip)
            self.assertIs(scanned(slip), slip)

    def test_empty_last_fields(self) -> None:
        slip = slip_of(SLIP_FIELDS[:7] + [b"HR99", b"", b"", b""])
        self.assertTrue(slip.endswith(b"HR99\n\n\n\n"))
        slip_read(slip)
        self.assertIs(scanned(slip), slip)
        self.assertEqual(scanned(slip + b"\n\n"), slip)


class Damaged(unittest.TestCase):
    def test_every_combination(self) -> None:
        chance = random.Random(1)
        for front, end, last, nul, code in itertools.product(FRONTS, ENDS, LASTS, NULS, [None, *CODES]):
            slip = made_up(chance, described=True)
            mended = scanned(damaged(slip, front, end, last, nul, code))
            self.assertEqual(mended, slip, (front, end, last, nul, code))
            self.assertIs(scanned(mended), mended)
            slip_read(mended)

    def test_front_before_text_encoded_twice(self) -> None:
        slip = slip_of(SLIP_FIELDS)
        for front, code in itertools.product(FRONTS, CODES):
            self.assertEqual(scanned(front + twice(slip, code)), slip)

    def test_each_letter_encoded_twice(self) -> None:
        for letter, code in itertools.product("ČčĆćĐđŠšŽž", CODES):
            slip = slip_of([letter.encode()] + SLIP_FIELDS[1:])
            self.assertNotEqual(twice(slip, code), slip)
            self.assertEqual(scanned(twice(slip, code)), slip)

    def test_what_a_reader_puts_behind(self) -> None:
        slip = slip_of(SLIP_FIELDS)
        for behind in (b"\r", b"\r\n", b"\n", b"\r\n\r\n", b"\0", b"\r\0"):
            self.assertEqual(scanned(slip + behind), slip)

    def test_again_is_the_same(self) -> None:
        """Of any bytes, not of slips alone."""
        chance = random.Random(3)
        slip = slip_of(SLIP_FIELDS)
        pieces = [
            MARK, b"]L2", b"]L", b"\r", b"\n", b"\r\n", b"\0", b"\n" * 13, b"A", "Č".encode(), b"\xC8", slip, slip[:-1],
            twice("Č".encode(), "latin-1"), twice(MARK, "cp1252"), twice(twice("Š".encode(), "cp1252"), "cp1252"),
        ]
        for _ in range(3000):
            data = b"".join(chance.choice(pieces) for _ in range(chance.randint(0, 8)))
            self.assertEqual(scanned(scanned(data)), scanned(data))


class Unchanged(unittest.TestCase):
    def assert_unchanged(self, *texts: bytes) -> None:
        """That wrong slips stay as they are."""
        for data in texts:
            self.assertRaises(Refusal, slip_read, data)
            self.assertEqual(scanned(data), data)

    def test_line_feeds(self) -> None:
        slip = slip_of(SLIP_FIELDS)
        bare = slip_of(SLIP_FIELDS[:10] + [b""])
        self.assert_unchanged(
            b"", b"\n", slip[9:], slip.replace(b"COST\n", b""), slip.replace(b"COST\n", b"")[:-1], slip + b"more",
            slip.replace(b"SINJ", b"SI\nNJ"), slip.replace(b"SINJ", b"SI\n\nNJ"), slip + slip, bare[:-1])

    def test_fronts(self) -> None:
        slip = slip_of(SLIP_FIELDS)
        fronts = (b"]L", b"]L-", b"]Q3", b" ]L2", b"\x02", b"\xFF\xFE", b"\0")
        self.assert_unchanged(*(front + slip for front in fronts))

    def test_contents(self) -> None:
        slip = slip_of(SLIP_FIELDS)
        self.assert_unchanged(
            slip.replace(b"EUR", b"eur"), slip.replace(b"HR12", b"HR12 "), slip.replace(b"COST", b"CO\0T"),
            slip.replace(b"SINJ", b"SI\tNJ"))

    def test_character_sets(self) -> None:
        slip = slip_of(SLIP_FIELDS)
        text = slip.decode()
        self.assert_unchanged(
            text.encode("cp1250"), text.encode("utf-16-be"), text.replace("Ž", "Ä").encode(),
            text.replace("Ž", "Å").encode(), slip.decode("cp1250").encode())

    def test_encoded_twice_with_what_no_slip_has(self) -> None:
        for wrong in ("_", "\t", "\0", "Ä", "Ω"):
            slip = slip_of([(wrong + "Ž").encode()] + SLIP_FIELDS[1:])
            self.assert_unchanged(twice(slip, "latin-1"))
        self.assert_unchanged(twice(twice(slip_of(SLIP_FIELDS), "latin-1"), "latin-1"))


class Taken(unittest.TestCase):
    def test_bytes_like(self) -> None:
        slip = slip_of(SLIP_FIELDS)
        for kind in (bytes, bytearray, memoryview):
            self.assertEqual(scanned(kind(b"]L2" + slip)), slip)
            self.assertIsInstance(scanned(kind(slip)), bytes)
            self.assertEqual(compact(kind(b"hr 12")), b"HR12")

    def test_text_is_not_bytes(self) -> None:
        with self.assertRaisesRegex(TypeError, "the reader's bytes, not its text"):
            scanned("HRVHUB30\n")  # type: ignore[arg-type]

    def test_examples(self) -> None:
        self.assertEqual(doctest.testmod(scan), (0, 3))


class Compact(unittest.TestCase):
    def test_blanks(self) -> None:
        for blank in " \t\r\n\v\f\u00a0\u2003\u2007\u2009\u200b\u202f\u3000\ufeff":
            typed = f"{blank}HR12{blank}1001 0051{blank}{blank}8630 0016 0{blank}"
            self.assertEqual(compact(typed), b"HR1210010051863000160", ascii(blank))
            self.assertEqual(compact(typed.encode()), b"HR1210010051863000160", ascii(blank))

    def test_hyphens(self) -> None:
        for hyphen in "-\u2010\u2011\u2012\u2013\u2014\u2015\u2212\ufe63\uff0d":
            self.assertEqual(compact(f"40002 {hyphen} 12345678903{hyphen}100"), b"40002-12345678903-100")

    def test_accepted(self) -> None:
        iban(compact("hr12 1001 0051 8630 0016 0"))
        oib(compact(" 123 456 789 03\n"))
        reference(compact("hr 69"), compact(b"40002 - 12345678903 - 100"))

    def test_what_is_right_stays(self) -> None:
        for text in (b"", b"HR1210010051863000160", b"40002-12345678903-100", b"HR??10010051863000160"):
            self.assertEqual(compact(text), text)

    def test_other_characters_stay(self) -> None:
        """None becomes a letter of ASCII, whatever Unicode calls its capital."""
        for other in "čŽ_.\u0131\u017f\u212a\ud800\udc8a":
            self.assertEqual(compact(other), other.encode("utf-8", "surrogatepass"))
        self.assertEqual(compact(b"\x8A\xC8hr"), b"\x8A\xC8HR")


class Barcode(unittest.TestCase):
    """Measured with zint 2.11.1 for each length from 1 to 483: zint --barcode=PDF417 --cols=9 --secure=4 --binary
    -i FILE --dump, which prints one line to a row. The bytes were 80 to FF, so that zint stays in byte compaction, as
    000 asks: it has no option for that, and packs letters and digits otherwise. With --heightperrow --height=3
    --vwhitesp=2 its SVG of 304 bytes is 100 modules high, that of 305 bytes 103."""

    #: The first length of five rows, of six and so on; below the first there are four.
    FIRST = [
        3, 14, 25, 35, 46, 57, 68, 79, 89, 100, 111, 122, 133, 143, 154, 165, 176, 187, 197, 208, 219, 230, 241, 251,
        262, 273, 284, 295, 305, 316, 327, 338, 349, 359, 370, 381, 392, 403, 413, 424, 435, 446, 457, 467, 478,
    ]

    def test_rows(self) -> None:
        for length in range(1, 484):
            self.assertEqual(rows(length), 4 + sum(first <= length for first in self.FIRST))

    def test_height(self) -> None:
        self.assertAlmostEqual(height(304), 100 * 0.254)
        self.assertAlmostEqual(height(305), 103 * 0.254)
        self.assertEqual(FITTING, 304)

    def test_no_such_barcode(self) -> None:
        self.assertRaises(ValueError, rows, -1)
        self.assertEqual(rows(931), 90)
        self.assertRaises(ValueError, rows, 932)

    def warned(self, length: int) -> None:
        warn_of_barcode(b"x" * length)

    def test_warned(self) -> None:
        with warnings.catch_warnings(record=True) as caught:
            warnings.simplefilter("always")
            self.warned(304)
            self.assertEqual(caught, [])
            self.warned(305)
        self.assertEqual([(warning.category, warning.filename) for warning in caught], [(BarcodeWarning, __file__)])
        self.assertIn("self.warned(305)", source_line(caught[0]))
        self.assertIn("305 bytes, would be 26.2 mm high", str(caught[0].message))

    def test_writer_warns(self) -> None:
        fields = [b"A" * most for most in (27, 27, 25, 25, 27)] + SLIP_FIELDS[6:10] + [b"A" * 35]
        with warnings.catch_warnings(record=True) as caught:
            warnings.simplefilter("always")
            self.assertEqual(len(slip_write(1, ["Ž".encode() * 17 + b"A" * 13] + fields)), 304)
            self.assertEqual(caught, [])
            slip_write(1, ["Ž".encode() * 18 + b"A" * 12] + fields)
        self.assertEqual([(warning.category, warning.filename) for warning in caught], [(BarcodeWarning, __file__)])


def source_line(warning: warnings.WarningMessage) -> str:
    """The line of source that a warning names."""
    with open(warning.filename, encoding="utf-8") as file:
        return file.read().splitlines()[warning.lineno - 1]


if __name__ == "__main__":
    unittest.main()
