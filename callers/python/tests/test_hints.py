"""Tests of the hints: what is said of each mistake in both languages, and that its right neighbour is not told it."""

import random
import re
import string
import unittest
from typing import Any, Callable, Dict, List, Optional, Pattern, Set, Tuple

from lanecockle import (
    FIELDS, KINDS, LINE, STANDING, Judge, Refusal, Rule, Sheet, Tally, check_digits, iban, ledger_read, list_iban,
    list_reference, oib, reference, sheet_text, slip_read, standing_text, wage_file,
)
from lanecockle.hints import CODES, HINTS, MODELS, MOST, _KINDS, of_ledger, of_sheet, of_slip, of_text, of_wage, slip_layout
from lanecockle.refusal import LANGUAGES
from tests.test_calls import DAY, SLIP_FIELDS, file_of_two, lines_of, refused, slip_of, with_bytes
from tests.test_ledger import KUNA, REFERENCE, kuna_with
from tests.test_standing import ASSOCIATION, FARM, MALFORMED, longest

#: A hint that is awaited: its name and what its places are filled with.
Awaited = Tuple[str, Dict[str, object]]
Say = Callable[[Any, str], Optional[List[str]]]

MARK = b"\xEF\xBB\xBF"
SLIP = slip_of(SLIP_FIELDS)
MODELS_TOLD = ", ".join(MODELS)

#: References under HR69 that hold another first part or no code, and what is said of them.
PERSONAL_INCOME: List[Tuple[str, List[Awaited]]] = [
    ("40010-12345678903-100", [("first_HR69", {"seen": "40010"})]),
    ("40003-12345678904-999", [
        ("first_HR69", {"seen": "40003"}), ("code_HR69", {"seen": "999"}), ("near_HR69", {"codes": "699"})]),
    ("40002-12345678903-101", [("code_HR69", {"seen": "101"}), ("near_HR69", {"codes": "100, 110, 191"})]),
    # the first and the last digit exchanged, two neighbours exchanged, more than three codes, and none
    ("40002-12345678903-016", [("code_HR69", {"seen": "016"}), ("near_HR69", {"codes": "610"})]),
    ("40002-12345678903-911", [("code_HR69", {"seen": "911"}), ("near_HR69", {"codes": "191"})]),
    ("40002-12345678903-439", [("code_HR69", {"seen": "439"}), ("near_HR69", {"codes": "433, 432, 431"})]),
    ("40002-12345678903-777", [("code_HR69", {"seen": "777"})]),
]


def slip_with(number: int, content: str, *more: str) -> bytes:
    """The slip with other contents in the field of that number and in those behind it."""
    fields = SLIP.split(b"\n")
    for place, text in enumerate((content,) + more, number - 1):
        fields[place] = text.encode()
    return b"\n".join(fields)


def file_with(line: int, *places: Any) -> bytes:
    """The file with other contents in a line: a position, from 1, and bytes, and so on."""
    file = file_of_two()
    for position, content in zip(places[::2], places[1::2]):
        file = with_bytes(file, line, position - 1, content)
    return file


def cut(file: bytes, at: int, count: int, put: bytes = b"") -> bytes:
    """A file without some bytes, and with others in their place."""
    return file[:at] + put + file[at + count:]


def of_a_slip(data: bytes, language: str) -> Optional[List[str]]:
    """The hints of the library's refusal of a slip; None where it is accepted."""
    refusal = refused(slip_read, data)
    return of_slip(data, refusal, language) if refusal else None


def of_a_ledger_slip(data: bytes, language: str) -> Optional[List[str]]:
    """The hints of the library's refusal of a slip of either currency; None where it is accepted."""
    refusal = refused(ledger_read, data)
    return of_ledger(data, refusal, language) if refusal else None


def of_a_sheet(sheet: bytes, language: str) -> Optional[List[str]]:
    """The hints of the library's refusal of a sheet, the same whose it is; None where it is accepted."""
    refusals = [refused(standing_text, 4, sheet, b""), refused(standing_text, 4, b"", sheet)]
    of_farm, of_association = (of_sheet(sheet, refusal, language) if refusal else None for refusal in refusals)
    assert of_farm == of_association, (of_farm, of_association)
    return of_farm


def of_a_file(lent: Any, language: str) -> Optional[List[str]]:
    """The hints of the library's refusal of a wage file, which may come with a day; None where it is accepted."""
    file, day = lent if isinstance(lent, tuple) else (lent, DAY)
    refusal = refused(wage_file, day, file)
    if refusal is None:
        return None
    line = file[(refusal.line - 1) * LINE:refusal.line * LINE] if refusal.line else b""
    return of_wage(file[:2 * LINE], line, refusal, day, language)


def of_a_full_tally(file: bytes, language: str) -> Optional[List[str]]:
    """The hints of the library's refusal of a file's first line, with a tally that is full already."""
    line = file[:LINE]
    refusal = refused(Judge(DAY).step_tally, line, Tally(groups=1_000_001))
    return of_wage(file[:2 * LINE], line, refusal, DAY, language) if refusal else None


def of_a_text(lent: Tuple[str, bytes], language: str) -> Optional[List[str]]:
    """The hints of the library's refusal of a text; None where it is accepted."""
    what, text = lent
    calls: Dict[str, Callable[[bytes], None]] = {
        "iban": iban, "oib": oib, "model": lambda model: reference(model, b"0"),
        "reference": lambda number: reference(b"HR01", number), "digits": lambda digits: check_digits(Rule.INI, digits),
    }
    refusal = refused(calls[what], text)
    return of_text(what, text, refusal, language) if refusal else None


def names(hints: List[str], at: int) -> List[str]:
    """The names of hints, by the sentences of the table."""
    found = []
    for hint in hints:
        fitting = [name for name, said in PATTERNS[at] if said.fullmatch(hint)]
        assert len(fitting) == 1, (hint, fitting)
        found += fitting
    return found


def pattern(sentence: str) -> Pattern[str]:
    return re.compile(re.sub(r"\\{[a-z]+\\}", ".*", re.escape(sentence)), re.DOTALL)


PATTERNS = [[(name, pattern(said[at])) for name, said in HINTS.items()] for at in range(len(LANGUAGES))]

#: The names of the hints that tests have seen said.
SEEN: Set[str] = set()


class Case(unittest.TestCase):
    def check(self, say: Say, wrong: Any, awaited: List[Awaited], *neighbours: Any) -> None:
        """That of something wrong just this is said in both languages, and none of it of its neighbours."""
        for at, language in enumerate(LANGUAGES):
            told = [HINTS[name][at].format(**values) for name, values in awaited]
            self.assertEqual(say(wrong, language), told)
            for neighbour in neighbours:
                of_neighbour = names(say(neighbour, language) or [], at)
                self.assertFalse({name for name, _ in awaited}.intersection(of_neighbour), neighbour)
        SEEN.update(name for name, _ in awaited)

    def accepted(self, say: Say, *right: Any) -> None:
        for lent in right:
            self.assertIsNone(say(lent, "en"))


class Slips(Case):
    def slip(self, wrong: bytes, awaited: List[Awaited], *neighbours: bytes) -> None:
        self.check(of_a_slip, wrong, awaited, SLIP, *neighbours)

    def test_front(self) -> None:
        self.accepted(of_a_slip, SLIP)
        self.slip(b"", [("empty", {})], b"\n")
        self.slip(MARK + SLIP, [("slip_mark", {})], MARK[1:] + SLIP)
        self.slip(b"]L2" + SLIP, [("aim", {"prefix": "]L2"})], b"]Q3" + SLIP)
        self.slip(MARK + b"]L0" + SLIP, [("slip_mark", {}), ("aim", {"prefix": "]L0"})])
        self.slip(b"\x02" + SLIP, [("prefix", {"count": 1})], slip_with(1, "HRVHUB31"))
        self.slip(b"AB\x02" + SLIP, [("prefix", {"count": 3})])

    def test_utf16(self) -> None:
        short = slip_of([b""] * 6 + SLIP_FIELDS[6:]).decode()
        little, big = b"\xFF\xFE" + short.encode("utf-16-le"), b"\xFE\xFF" + short.encode("utf-16-be")
        self.slip(little, [("utf16", {"mark": "FF FE", "due": "UTF-8"})], short.encode())
        self.slip(big, [("utf16", {"mark": "FE FF", "due": "UTF-8"})], short.encode())
        self.slip(b"\xFF\xFE" + SLIP.decode().encode("utf-16-le"), [("utf16", {"mark": "FF FE", "due": "UTF-8"})])

    def test_several(self) -> None:
        self.slip(SLIP + SLIP, [("several", {})], slip_with(14, "A" * 36))
        short = slip_of([b""] * 6 + SLIP_FIELDS[6:])
        self.slip(short * 2, [("several", {})], short + short[9:])

    def test_line_ends(self) -> None:
        self.slip(SLIP.replace(b"\n", b"\r\n"), [("slip_ends", {"seen": "CR LF"})])
        self.slip(SLIP.replace(b"\n", b"\r"), [("slip_ends", {"seen": "CR"})])
        self.slip(SLIP[:-1].replace(b"\n", b"\r\n"), [("slip_ends", {"seen": "CR LF"}), ("feed_missing", {})])
        self.slip(SLIP[:-1] + b"\r\n", [("slip_ends", {"seen": "CR LF"})], slip_with(4, "IVAN\rHORVAT"))
        self.slip((SLIP + b"\n").replace(b"\n", b"\r\n"),
                  [("slip_ends", {"seen": "CR LF"}), ("feed_doubled", {"count": 15})])

    def test_end(self) -> None:
        bare = slip_of(SLIP_FIELDS[:7] + [b"HR99", b"", b"", b""])
        self.accepted(of_a_slip, bare)
        self.slip(SLIP + b"\0", [("nul", {}), ], slip_with(4, "A\0"))
        self.slip(SLIP[:-1] + b"\0\0", [("nul", {}), ("feed_missing", {})])
        self.slip(SLIP[:-1], [("feed_missing", {})], bare, bare[:-1])
        self.slip(SLIP + b"\n", [("feed_doubled", {"count": 15})], bare)
        self.slip(SLIP + b"\r\n", [("feed_doubled", {"count": 15})])
        self.slip(bare + b"\n\n", [("feed_doubled", {"count": 16})], bare)
        self.slip(SLIP + b"more", [("feed_not_last", {})])
        self.slip(SLIP + b"\r", [("feed_not_last", {})])

    def test_line_feeds(self) -> None:
        fewer = SLIP.replace(b"COST\n", b"")
        self.slip(fewer, [("feeds_few", {"count": 13})], SLIP[:-1])
        self.slip(fewer[:-1], [("feeds_few", {"count": 12})], SLIP[:-1])
        self.slip(SLIP.replace(b"SINJ", b"SI\nNJ"), [("feeds_many", {"count": 15})], SLIP + b"\n")

    def test_encoded_twice(self) -> None:
        self.slip(SLIP.decode("latin-1").encode(), [("twice", {"letter": "Ž"})])
        self.slip(slip_with(4, "ÄŒ"), [("twice", {"letter": "Č"})], slip_with(4, "Ä"))
        self.slip(slip_with(5, "Ä‡", "Å½"), [("twice", {"letter": "ć"})])
        self.slip(slip_with(4, *["Å½" * 30] * 3), [("twice", {"letter": "Ž"})], slip_with(4, *["Ž" * 100] * 3))
        self.slip(SLIP.decode("cp1250").encode(), [("twice_1250", {"letter": "Ž"})], slip_with(4, "Ĺ"))
        for letter in "ČčĆćĐđŠšŽž":
            doubled = letter.encode().decode("latin-1")
            self.slip(slip_with(4, doubled), [("twice", {"letter": letter})], slip_with(4, letter))

    def test_win1250(self) -> None:
        self.slip(SLIP.decode().encode("cp1250"), [("win1250", {"position": 30, "letter": "Ž"})])
        for letter in "ČčĆćĐđŠšŽž":
            fields = [letter.encode("cp1250") + b"A"] + SLIP_FIELDS[1:]
            self.slip(slip_of(fields), [("win1250", {"position": 30, "letter": letter})], slip_with(4, letter))
        # UTF-8 that begins with a byte of WIN-1250's letters, and bytes that are neither.
        self.slip(slip_with(4, "\u020a"), [("text", {})])
        self.slip(slip_of([b"\xFF"] + SLIP_FIELDS[1:]), [("text", {})])

    def test_texts(self) -> None:
        self.slip(slip_with(4, "IVAN\tHORVAT"), [("tab", {"at": 5})], slip_with(4, "IVAN HORVAT"))
        self.slip(slip_with(14, "Žeđ\t"), [("tab", {"at": 4})], slip_with(14, "Žeđ "))
        self.slip(slip_with(4, "Ž" * 31), [("too_long", {"length": 31, "width": 30})], slip_with(4, "Ž" * 30))
        self.slip(slip_with(4, "IVAN_"), [("text", {})], slip_with(4, "IVAN\tHORVAT"), slip_with(12, "1_"))
        self.slip(slip_with(13, "COS"), [("fixed", {"length": 3, "width": 4})], slip_with(13, ""))

    def test_currency(self) -> None:
        self.slip(slip_with(2, "HRK"), [("kuna_slip", {})], slip_with(2, "USD"))
        self.slip(KUNA, [("kuna_slip", {})], slip_with(2, "hrk"))

    def test_amount(self) -> None:
        self.slip(slip_with(3, "123,55"), [("point", {})])
        self.slip(slip_with(3, "0000000000123.55"), [("point", {})], slip_with(3, "000000000012355"))
        self.slip(slip_with(3, "12355"), [("padded", {"length": 5, "width": 15})])
        self.slip(slip_with(3, "          12355"), [("zeros", {"at": 1})])
        self.slip(slip_with(3, "00000000001235O"), [("lookalike", {"at": 15, "seen": "O", "meant": "0"})])
        self.slip(slip_with(3, "0000000000l2355"), [("lookalike", {"at": 11, "seen": "l", "meant": "1"})])

    def test_iban(self) -> None:
        self.slip(slip_with(10, "hr1210010051863000160"), [("lower", {})])
        self.slip(slip_with(10, "HR12 1001 0051 8630 0016 0"), [("blank", {"at": 5})])
        self.slip(slip_with(10, "HR1210010051863000160 "), [("blank", {"at": 22})])
        self.slip(slip_with(10, "HR121OO10051863000160"), [("lookalike", {"at": 6, "seen": "O", "meant": "0"})])
        self.slip(slip_with(10, "HRI210010051863000160"), [("lookalike", {"at": 3, "seen": "I", "meant": "1"})])
        self.slip(slip_with(10, "HRl210010051863000160"), [("lookalike", {"at": 3, "seen": "l", "meant": "1"})])
        self.slip(slip_with(10, "HR121001005186300016"), [("fixed", {"length": 20, "width": 21})])
        self.slip(slip_with(10, "SI5610010051863000160"), [("foreign", {"country": "SI"})],
                  slip_with(10, "HRX210010051863000160"))
        self.slip(slip_with(10, "HR1310010051863000160"), [("iban", {})])

    def test_model(self) -> None:
        self.slip(slip_with(11, "hr01"), [("lower", {}), ("model", {})])
        self.slip(slip_with(11, "HR1"), [("model", {})])
        self.slip(slip_with(11, "HRO1"), [("lookalike", {"at": 3, "seen": "O", "meant": "0"}), ("model", {})])
        self.slip(slip_with(11, "HR12"), [("models", {"models": MODELS_TOLD, "model": "HR12"})], slip_with(11, "HR10"))

    def test_reference(self) -> None:
        self.slip(slip_with(12, "7269–68499637766–00011"), [("dash", {"at": 5})])
        self.slip(slip_with(12, "7269 -68499637766"), [("blank", {"at": 5})])
        self.slip(slip_with(12, "7269-684996377O6-00011"), [("lookalike", {"at": 15, "seen": "O", "meant": "0"})])
        self.slip(slip_with(12, "1" * 23), [("too_long", {"length": 23, "width": 22})])
        self.slip(slip_with(12, "7269-68499637766-00019"), [("digit", {})])
        self.slip(slip_with(12, "1-"), [("parts", {"seen": "1, 0"})])
        self.slip(slip_with(12, ""), [("parts", {"seen": "0"})])

    def test_parts(self) -> None:
        for model, wrong, seen, right in (
            ("HR69", "40002", "5", "40002-12345678903"), ("HR69", "4000-12345678903", "4, 11", "40002-12345678903-100"),
            ("HR35", "0-1234567890", "1, 10", "0-12345678903"), ("HR16", "00000-0000", "5, 4", "00000-0000-00000000"),
        ):
            self.accepted(of_a_slip, slip_with(11, model, right))
            self.slip(slip_with(11, model, wrong), [("parts_" + model, {"seen": seen})], slip_with(11, "HR01", "1-"))
        self.slip(slip_with(11, "HR99", "0"), [("parts_HR99", {})], slip_with(11, "HR99", ""))

    def test_personal_income(self) -> None:
        right = [slip_with(11, "HR69", text) for text in ("40002-12345678903-100", "40010-12345678903")]
        self.accepted(of_a_slip, *right)
        for text, awaited in PERSONAL_INCOME:
            # its model without its form, and a check digit
            self.slip(slip_with(11, "HR69", text), awaited, *right, slip_with(11, "HR6", text),
                      slip_with(11, "HR69", "40002-12345678904-100"))


class Ledger(Case):
    """Slips of either currency: of a kuna slip nothing is said in cents, nor of a euro slip in lipa."""

    def slip(self, wrong: bytes, awaited: List[Awaited], *neighbours: bytes) -> None:
        self.check(of_a_ledger_slip, wrong, awaited, KUNA, SLIP, *neighbours)

    def test_accepted(self) -> None:
        self.accepted(of_a_ledger_slip, KUNA, SLIP)

    def test_amount(self) -> None:
        self.slip(kuna_with(3, b"123,55"), [("lipa_point", {})], slip_with(3, "123,55"))
        self.slip(slip_with(3, "123,55"), [("point", {})], kuna_with(3, b"123,55"))
        self.slip(kuna_with(3, b"00000000012355"), [("lipa_padded", {"length": 14, "width": 15})], slip_with(3, "12355"))
        self.slip(slip_with(3, "12355"), [("padded", {"length": 5, "width": 15})], kuna_with(3, b"12355"))
        self.slip(kuna_with(3, b"          12355"), [("zeros", {"at": 1})])
        self.slip(kuna_with(3, b"00000000001235O"), [("lookalike", {"at": 15, "seen": "O", "meant": "0"})])

    def test_account(self) -> None:
        self.slip(kuna_with(10, b"1001005A1863000160"), [("account_form", {})])
        self.slip(kuna_with(10, b"1OO1005-1863000160"),
                  [("lookalike", {"at": 2, "seen": "O", "meant": "0"}), ("account_form", {})])
        self.slip(kuna_with(10, b"1001005-186300016"), [("fixed", {"length": 17, "width": 18})])
        self.slip(kuna_with(10, b"1001005 1863000160"), [("blank", {"at": 8})])
        self.slip(kuna_with(10, "1001005–1863000160".encode()), [("dash", {"at": 8})])

    def test_iban(self) -> None:
        self.slip(kuna_with(10, b"HR121001005186300016"), [("fixed", {"length": 20, "width": 21})])
        self.slip(kuna_with(10, b"HR1310010051863000160"), [("iban", {})])
        self.slip(kuna_with(10, b"hr1210010051863000160"), [("lower", {})])
        self.slip(kuna_with(10, b"SI5610010051863000160"), [("foreign", {"country": "SI"})])

    def test_other_fields(self) -> None:
        self.slip(kuna_with(4, b"IVAN_"), [("text", {})])
        self.slip(kuna_with(11, b"HRO1"), [("lookalike", {"at": 3, "seen": "O", "meant": "0"}), ("model", {})])
        self.slip(kuna_with(12, b"7269-68949637676-00019"), [("digit", {})])
        self.slip(kuna_with(12, b"1-"), [("parts", {"seen": "1, 0"})])

    def test_personal_income(self) -> None:
        for text, awaited in PERSONAL_INCOME:
            self.slip(KUNA.replace(b"HR01\n" + REFERENCE, b"HR69\n" + text.encode()), awaited)

    def test_currency(self) -> None:
        """Another currency is not said to be the kuna, nor is the kuna itself wrong."""
        self.slip(slip_with(2, "USD"), [])
        self.slip(KUNA[:-1], [("feed_missing", {})])

    def test_layout(self) -> None:
        for data, layout in (
            (KUNA, "kuna"), (SLIP, "slip"), (b"", "slip"), (b"HRK\n", "slip"), (b"\nHRK", "kuna"), (b"\nHRK\r\n", "slip"),
            (b"\n\nHRK\n", "slip"), (b"]L2HRVHUB30\nHRK\n", "kuna"),
        ):
            self.assertEqual(slip_layout(data), layout, data)


class Wages(Case):
    def file(self, wrong: Any, awaited: List[Awaited], *neighbours: Any) -> None:
        self.check(of_a_file, wrong, awaited, file_of_two(), *neighbours)

    def test_front(self) -> None:
        file = file_of_two()
        self.accepted(of_a_file, file)
        self.file(b"", [("empty", {})], file[:LINE])
        self.file(file[:-LINE], [("unfinished", {})], b"", file[:-2])
        self.file(MARK + file, [("wage_mark", {})], MARK[1:] + file)
        text = file.decode("cp1250")
        self.file(b"\xFF\xFE" + text.encode("utf-16-le"), [("utf16", {"mark": "FF FE", "due": "WIN-1250"})])
        self.file(b"\xFE\xFF" + text.encode("utf-16-be"), [("utf16", {"mark": "FE FF", "due": "WIN-1250"})])
        self.file(b'<?xml version="1.0"?>\n<Document/>\n', [("xml", {})], b"Document\n")

    def test_overfull(self) -> None:
        """A running total that has no room for a right line; of a line that is refused, nothing of it is said."""
        self.check(of_a_full_tally, file_of_two(), [("overfull", {})], file_of_two()[LINE:], MARK + file_of_two())

    def test_utf8(self) -> None:
        file = file_of_two()
        self.file(file.decode("cp1250").encode(), [("utf8", {"letter": "ć"})])
        described = "Plaća".encode()
        self.file(file_with(3, 208, described), [("utf8", {"letter": "ć"})], file_with(3, 208, b"Pla\xE6a "))
        self.file(file_with(3, 208, "a–b".encode()), [("utf8", {"letter": "–"})], file_with(3, 208, b"a\x96b"))
        plain = b"a".ljust(140)
        self.file(file_with(3, 1, "Š".encode(), 208, plain), [("utf8", {"letter": "Š"})],
                  file_with(3, 1, b"__", 208, plain))
        # A name in UTF-8, one byte longer for its letter, in a line that is WIN-1250 otherwise.
        mixed = file_with(3, 35, b"\x8Eeljko", 208, b"Pla\xE6a")
        self.file(cut(mixed, 2 * LINE + 34, 1, "Ž".encode()), [("utf8", {"letter": "Ž"})], cut(mixed, 2 * LINE + 34, 1, b"ZZ"))

    def test_not_utf8(self) -> None:
        """Letters of WIN-1250 that are UTF-8 by chance, and others."""
        right = [file_with(3, 208, text.encode("cp1250")) for text in ("ĆŠ", "ČŽĐŠ", "čšžćđ")]
        self.accepted(of_a_file, *right)
        self.file(file_with(3, 208, "ĆŠ_".encode("cp1250")), [], right[0])
        self.file(file_with(3, 35, "Š".encode(), 208, b"a_b".ljust(140)), [], right[0])
        self.file(cut(right[0], 3 * LINE - 9, 1), [("short", {"length": 999, "count": 1})])

    def test_utf8_before(self) -> None:
        """A name in UTF-8, which is not judged, in an earlier line than the one that is too short."""
        file = file_with(2, 100, "š".encode())
        self.accepted(of_a_file, file)
        self.file(cut(file, 3 * LINE - 9, 1), [("short", {"length": 999, "count": 1}), ("utf8", {"letter": "š"})])

    def test_line_ends(self) -> None:
        file = file_of_two()
        self.file(file.replace(b"\r\n", b"\n"), [("wage_ends", {"seen": "LF"})])
        self.file(file.replace(b"\r\n", b"\r"), [("wage_ends", {"seen": "CR"})])
        self.file(file[:-2] + b"\n", [("wage_ends", {"seen": "LF"})], file[:-2])
        self.file(file[:-1], [("wage_ends", {"seen": "CR"})])
        self.file(cut(file, 990, 1).replace(b"\r\n", b"\n"),
                  [("wage_ends", {"seen": "LF"}), ("short", {"length": 999, "count": 1})])

    def test_lengths(self) -> None:
        file = file_of_two()
        for line in range(1, 6):
            at = line * LINE - 9
            self.file(cut(file, at, 1), [("short", {"length": 999, "count": 1})])
            self.file(cut(file, at, 3), [("short", {"length": 997, "count": 3})])
            self.file(cut(file, at, 0, b" "), [("long", {"length": 1001, "count": 1})])
        self.file(cut(file, 990, 0, b"   "), [("long", {"length": 1003, "count": 3})])
        self.file(cut(file, 2 * LINE - 9, 0, b"   "), [("no_end", {})], cut(file, 2 * LINE - 9, 0, b" "))

    def test_end(self) -> None:
        file = file_of_two()
        self.file(file[:-2], [("last_end", {})], file[:-1], file[:-3])
        self.file(file[:-500], [("cut", {"length": 502})], file[:-2])
        for behind in (b"\r\n", b"\n", b"\x1a", b"\r\n\r\n", b"  \r\n"):
            self.file(file + behind, [("empty_last", {})], file + b"x", file[:-LINE], file[:-LINE] + b" " * 9)

    def test_empty_line(self) -> None:
        file = file_of_two()
        for behind in (b"\r\n", b"\n", b" " * 1000 + b"\r\n"):
            self.file(cut(file, LINE, 0, behind), [("empty_line", {})])
        self.file(file + b" " * 1000 + b"\r\n", [("empty_line", {})], file_with(5, 998, b"398"))
        self.file(file + b" " * 1001 + b"\n", [("empty_line", {})], file + b" " * 1002)

    def test_order(self) -> None:
        label, group, first, second, closing = lines_of(file_of_two())
        self.file(label + label, [("second_label", {"line": 2})], label + group)
        self.file(label + first, [("sequence", {"record": "309", "line": 2})])
        self.file(group, [("sequence", {"record": "301", "line": 1})])
        self.file(label + group + first + second + closing + closing, [("sequence", {"record": "399", "line": 6})])

    def test_type(self) -> None:
        self.file(file_with(2, 998, b"302"), [("type", {})], file_with(2, 22, b"USD"))

    def test_checks(self) -> None:
        for line, position, wrong, kind in (
            (1, 14, b"12345678904", "oib"), (1, 47, b"12345678904", "oib"), (3, 552, b"12345678904", "oib"),
            (2, 1, b"HR13", "iban"), (2, 25, b"HR1310010051863000160", "iban"), (3, 1, b"HR71", "iban"),
        ):
            other = {"oib": file_with(2, 1, b"HR13"), "iban": file_with(1, 14, b"12345678904")}[kind]
            self.file(file_with(line, position, wrong), [(kind, {})], other)

    def test_iban(self) -> None:
        self.file(file_with(2, 1, b"hr"), [("lower", {})])
        self.file(file_with(3, 1, b"HR70 2340009151094633".ljust(34)), [("blank", {"at": 5})], file_with(3, 1, b"HR71"))
        self.file(file_with(2, 1, b"HR12IO"), [("lookalike", {"at": 5, "seen": "I", "meant": "1"})])
        self.file(file_with(3, 1, b"HR7\t"), [("tab", {"at": 4})])
        self.file(file_with(2, 1, b"SI"), [("foreign", {"country": "SI"})])

    def test_numbers(self) -> None:
        self.file(file_with(3, 348, b"         123,55"), [("point", {}), ("zeros", {"at": 1})])
        self.file(file_with(3, 348, b"0000000000123.5"), [("point", {})])
        self.file(file_with(2, 54, b"                "), [("zeros", {"at": 1})])
        self.file(file_with(2, 49, b"    2"), [("zeros", {"at": 1})])
        self.file(file_with(1, 14, b" " * 11), [("zeros", {"at": 1})], file_with(1, 14, b"0" * 11))
        self.file(file_with(1, 25, b"O"), [("lookalike", {"at": 1, "seen": "O", "meant": "0"})])
        self.file(file_with(3, 552, b"l2345678903"), [("lookalike", {"at": 1, "seen": "l", "meant": "1"})])

    def test_currency(self) -> None:
        self.file(file_with(2, 22, b"HRK"), [("kuna", {})], file_with(2, 22, b"USD"))
        self.file(file_with(2, 46, b"HRK"), [("kuna", {})], file_with(2, 46, b"EUR"))
        self.file(file_with(3, 544, b"HRK"), [("kuna", {})], file_with(3, 544, b"   "))

    def test_references(self) -> None:
        blank = b" " * 22
        self.file(file_with(3, 178, b"HR12"), [("models", {"models": MODELS_TOLD, "model": "HR12"})])
        self.file(file_with(3, 363, b"HR1 "), [("blank", {"at": 4}), ("model", {})], file_with(3, 363, b"HR12"))
        self.file(file_with(3, 178, b"    "), [("no_model", {})], file_with(3, 178, b"    " + blank))
        self.file(file_with(3, 182, b"40002".ljust(22)), [("parts_HR69", {"seen": "5"})])
        self.file(file_with(3, 363, b"HR99"), [("parts_HR99", {})], file_with(3, 363, b"HR99" + blank))
        self.file(file_with(3, 363, b"HR01", 367, blank), [("parts", {"seen": "0"})])
        self.file(file_with(3, 182, b"40002-12345678904"), [("digit", {})])
        self.file(file_with(3, 182, b"4OOO2"), [("lookalike", {"at": 2, "seen": "O", "meant": "0"})])
        self.file(file_with(3, 182, b"40002 12345678903"), [("blank", {"at": 6})])

    def test_personal_income(self) -> None:
        for text, awaited in PERSONAL_INCOME:
            for position in (178, 363):
                wrong = b"HR69" + text.encode().ljust(22)
                self.file(file_with(3, position, wrong), awaited, file_with(3, position, b"HR6 " + wrong[4:]))

    def test_dates(self) -> None:
        file = file_of_two()
        self.file((file, DAY + 1), [("other_day", {"date": "20240228", "due": DAY + 1})], (file, DAY))
        for date in ("20240227", "20240131", "20240101", "20231231"):
            self.file(file_with(2, 74, date.encode()), [("before", {"date": date, "due": DAY})],
                      file_with(2, 74, b"20240228"))
        self.file(file_with(2, 74, b"2024030A"), [("date_form", {"date": "2024030A"})])
        self.file(file_with(2, 74, b"2024\t3\x81\xE6"), [("tab", {"at": 5}), ("date_form", {"date": "2024·3�ć"})])
        self.file(file_with(2, 74, b"2024 301"), [("zeros", {"at": 5}), ("date_form", {"date": "2024 301"})])

    def test_no_dates(self) -> None:
        """Of the 300, of the 301, and of the day of submission itself, with which nothing is judged."""
        for date, name, more in (
            ("20241301", "date_month", {}), ("20240001", "date_month", {}), ("20240230", "date_day", {"last": 29}),
            ("20230229", "date_day", {"last": 28}), ("20240431", "date_day", {"last": 30}),
            ("20240300", "date_day", {"last": 31}), ("20221231", "date_year", {}), ("00000000", "date_year", {}),
        ):
            values = dict(more, date=date, year=date[:4], month=date[4:6], day=date[6:])
            for line, position in ((1, 1), (2, 74)):
                self.file(file_with(line, position, date.encode()), [(name, values)])
            if date[0] != "0":
                self.file((b"", int(date)), [("day", {"date": date}), (name, values)], (file_of_two(), DAY))

    def test_turned_dates(self) -> None:
        turned = ("date_turned", {"date": "01032024", "turned": "20240301"})
        self.file(file_with(2, 74, b"01032024"), [turned], file_with(2, 74, b"20240301"))
        self.file(file_with(2, 74, b"01132024"), [("date_year", {"date": "01132024", "year": "0113"})])
        self.file((MARK, 2024022), [("day", {"date": "2024022"}), ("date_form", {"date": "2024022"})])
        self.file((b"", 10**15), [("day", {"date": str(10**15)}), ("date_form", {"date": str(10**15)})])


class Texts(Case):
    def text(self, what: str, wrong: bytes, awaited: List[Awaited], right: bytes) -> None:
        self.accepted(of_a_text, (what, right))
        self.check(of_a_text, (what, wrong), awaited, (what, right))

    def test_iban(self) -> None:
        right = b"HR1210010051863000160"
        self.text("iban", b"", [("empty", {})], right)
        self.text("iban", right.lower(), [("lower", {})], right)
        self.text("iban", b"HR12 1001", [("blank", {"at": 5})], right)
        self.text("iban", "HR12\u00a01001".encode(), [("blank", {"at": 5})], right)
        self.text("iban", b"hr12 1001 O", [("lookalike", {"at": 11, "seen": "O", "meant": "0"}), ("lower", {}),
                                           ("blank", {"at": 5})], right)
        self.text("iban", b"HR12\t", [("tab", {"at": 5})], right)
        self.text("iban", right + b"1", [("fixed", {"length": 22, "width": 21})], right)
        self.text("iban", b"DE1210010051863000160", [("foreign", {"country": "DE"})], right)
        self.text("iban", b"HR1310010051863000160", [("iban", {})], right)
        self.text("iban", b"HRX210010051863000160", [("iban_form", {})], right)

    def test_oib(self) -> None:
        right = b"12345678903"
        self.text("oib", b"12345678904", [("oib", {})], right)
        self.text("oib", b"123 456 789 03", [("blank", {"at": 4})], right)
        self.text("oib", b"1234567890E", [("digits", {})], right)
        self.text("oib", b"I2345678903", [("lookalike", {"at": 1, "seen": "I", "meant": "1"})], right)
        self.text("oib", b"1234567890", [("fixed", {"length": 10, "width": 11})], right)

    def test_reference(self) -> None:
        right = b"7269-68499637766-00011"
        self.text("reference", b"7269-68499637766-00019", [("digit", {})], right)
        self.text("reference", "7269\u2014".encode(), [("dash", {"at": 5})], right)
        self.text("reference", b"1-2-3-4", [("parts", {"seen": "1, 1, 1, 1"})], right)
        self.text("reference", right + b"1", [("too_long", {"length": 23, "width": 22})], right)

    def test_reference_and_its_model(self) -> None:
        refusal = refused(reference, b"HR69", b"40002")
        assert refusal is not None
        for at, language in enumerate(LANGUAGES):
            told = HINTS["parts_HR69"][at].format(seen="5")
            self.assertEqual(of_text("reference", b"40002", refusal, language, b"HR69"), [told])

    def test_personal_income(self) -> None:
        def say(text: str, language: str) -> Optional[List[str]]:
            refusal = refused(reference, b"HR69", text.encode())
            return of_text("reference", text.encode(), refusal, language, b"HR69") if refusal else None

        for text, awaited in PERSONAL_INCOME:
            self.check(say, text, awaited, "40002-12345678903-100", "40002-12345678904-100")

    def test_model(self) -> None:
        self.text("model", b"HR05", [("models", {"models": MODELS_TOLD, "model": "HR05"})], b"HR01")
        self.text("model", b"hr01", [("lower", {}), ("model", {})], b"HR01")
        self.text("model", b"", [("model", {})], b"HR00")

    def test_digits(self) -> None:
        self.text("digits", b"2340009", [("digit", {})], b"102305789016")
        self.text("digits", b"1O2305789016", [("lookalike", {"at": 2, "seen": "O", "meant": "0"})], b"102305789016")
        self.text("digits", b"1 023", [("blank", {"at": 2})], b"102305789016")

    def test_wet(self) -> None:
        def say(lent: Tuple[str, bytes], language: str) -> Optional[List[str]]:
            what, text = lent
            refusal = refused(list_iban, text) if what == "iban" else refused(list_reference, b"HR01", text)
            return of_text(what, text, refusal, language) if refusal else None

        wet = ("iban", b"HR????010051863000160")
        self.accepted(say, wet)
        self.check(say, ("iban", b"HR?????10051863000160"), [("marks", {"count": 5})], wet)
        self.check(say, ("reference", b"??????"), [("marks", {"count": 6})], ("reference", b"????"))
        self.check(say, ("iban", b"HR?? 1001"), [("blank", {"at": 5})], ("iban", b"HR??10010051863000160"))
        self.check(say, ("iban", b"HR??1001005186300016"), [("fixed", {"length": 20, "width": 21})], wet)
        self.check(say, ("reference", b"1" * 23), [("too_long", {"length": 23, "width": 22})], ("reference", b"1?"))


class Sheets(Case):
    def sheet(self, wrong: bytes, awaited: List[Awaited], *neighbours: bytes) -> None:
        self.check(of_a_sheet, wrong, awaited, FARM, ASSOCIATION, *neighbours)

    def test_right(self) -> None:
        self.accepted(of_a_sheet, b"", FARM, ASSOCIATION, sheet_text((number, longest(number)) for number in STANDING))

    def test_whole(self) -> None:
        self.sheet(MARK + FARM, [("sheet_mark", {})], b"x" + FARM)
        self.sheet(b"\xFF\xFE" + FARM.decode().encode("utf-16-le"), [("utf16", {"mark": "FF FE", "due": "UTF-8"})])
        self.sheet(FARM.replace(b"\n", b"\r\n"), [("sheet_ends", {"seen": "CR LF"})], FARM.replace(b"\n", b" \n\n"))
        self.sheet(FARM.replace(b"\n", b"\r"), [("sheet_ends", {"seen": "CR"})], FARM.replace(b"\n", b"\n\n"))
        self.sheet(MARK + b"4=IVO\r\n", [("sheet_mark", {}), ("sheet_ends", {"seen": "CR LF"})], b"4=IVO\n")
        self.sheet(b"4=IVO\r", [("sheet_ends", {"seen": "CR"})], b"4=IVO")

    def test_ends(self) -> None:
        self.sheet(FARM[:-1], [("sheet_last", {})], FARM + b"\n")
        self.sheet(b"4=IVO\n14", [("sheet_last", {}), ("sheet_equals", {})], b"4=IVO\n14=\n")
        self.sheet(b"4=IVO\n\n14=\n", [("sheet_empty", {})], b"4=IVO\n \n14=\n")
        self.sheet(b"\n", [("sheet_empty", {})], b"")
        self.sheet(b"\r\n", [("sheet_ends", {"seen": "CR LF"}), ("sheet_empty", {})])

    def test_number(self) -> None:
        self.sheet(b"4 IVO\n", [("sheet_equals", {})], b"4=IVO\n", b"=IVO\n")
        self.sheet(b"=IVO\n", [("sheet_bare", {})], b"4=IVO\n", b"IVO\n")
        self.sheet(b" 4=IVO\n", [("sheet_number", {"seen": " 4"})], b"04=IVO\n")
        self.sheet(b"+4=IVO\n", [("sheet_number", {"seen": "+4"})], b"4=+4\n")
        self.sheet(b"#4=\tIVO\n", [("sheet_number", {"seen": "#4"}), ("tab", {"at": 1}), ("text", {})])
        self.sheet(b"04=IVO\n", [("sheet_zero", {"number": "4"})], b"10=IVO\n")
        self.sheet(b"4=IVO\n0013=WTER\n", [("sheet_zero", {"number": "13"})], b"4=IVO\n13=WTER\n")
        self.sheet(b"10=HR12\n", [("sheet_field", {"number": "10"})], b"9=HR12\n")
        self.sheet(b"010=HR12\n", [("sheet_field", {"number": "010"})], b"09=HR12\n")

    def test_order(self) -> None:
        self.sheet(b"4=IVO\n5=x\n4=ANA\n", [("sheet_twice", {"number": "4", "line": 1})], b"5=x\n4=IVO\n")
        self.sheet(b"4=IVO\n4=IVO\n", [("sheet_twice", {"number": "4", "line": 1})])
        self.sheet(b"14=x\n13=WTER\n", [("sheet_order", {"number": "13", "before": "14"})], b"14=x\n14=x\n")
        self.sheet(b"13=\n4=" + b"x" * 31 + b"\n",
                   [("sheet_order", {"number": "4", "before": "13"}), ("too_long", {"length": 31, "width": 30})])

    def test_text(self) -> None:
        self.sheet(b"4=x=y\n", [("sheet_second", {})], b"4=x-y\n")
        self.sheet(b"4=" + "Ž".encode() * 31 + b"\n", [("too_long", {"length": 31, "width": 30})],
                   b"4=" + "Ž".encode() * 30 + b"\n")
        self.sheet(b"14=" + b"x" * 36 + b"\n", [("too_long", {"length": 36, "width": 35})], b"14=" + b"x" * 35 + b"\n")
        self.sheet(b"4=IVO\tANA\n", [("tab", {"at": 4}), ("text", {})], b"4=IVO ANA\n")
        self.sheet("4=IVO ČAČIĆ\n".encode("cp1250"), [("sheet_1250", {"letter": "Č"})], "4=IVO ČAČIĆ\n".encode())
        self.sheet("4=ČA–IĆ\n".encode(), [("sheet_character", {"at": 3, "seen": "–"}), ("text", {})], "4=ČA-IĆ\n".encode())
        self.sheet(b"4=IVO\xFF\n", [("sheet_character", {"at": 4, "seen": "\uFFFD"}), ("text", {})], b"4=IVO\n")

    def test_purpose(self) -> None:
        for seen in ("wter", "WTE", "WTERX", "WTE1", "W=ER", " "):
            self.sheet(b"13=" + seen.encode() + b"\n", [("sheet_purpose", {"seen": seen})], b"13=\n", b"13=WTER\n")

    def test_every_malformed_line_is_told_something(self) -> None:
        for line in MALFORMED:
            for sheet in (line, b"4=x\n" + line):
                self.assertTrue(of_a_sheet(sheet, "en"), sheet)

    def test_of_others_nothing(self) -> None:
        for refusal in (Refusal(28), Refusal(20), Refusal(20, 5, sheet=Sheet.FARM), Refusal(3, 1)):
            self.assertEqual(of_sheet(b"4=x\n\n", refusal, "en"), [])


class Said(Case):
    def test_literally(self) -> None:
        data = SLIP.replace(b"\n", b"\r\n")
        self.assertEqual(of_a_slip(data, "en"), [
            "Fields end in CR LF here; in a slip they end in LF alone. Take the reader's bytes as they are, or let "
            "`scanned` (`slip --scan`) mend the line ends."])
        self.assertEqual(of_a_slip(data, "hr"), [
            "Polja ovdje završavaju s CR LF, a u uplatnici završavaju samo graničnikom LF. Uzmite bajtove iz čitača "
            "kakvi jesu ili krajeve redaka ispravite pozivom `scanned` (`slip --scan`)."])
        file = file_of_two().decode("cp1250").encode()
        self.assertEqual(of_a_file(file, "en"), [
            "The file holds UTF-8 (ć as more than one byte); a wage file is WIN-1250, one byte to a character. Save it "
            "as WIN-1250 (cp1250; in Windows: ANSI)."])
        self.assertEqual(of_a_file(file, "hr"), [
            "Datoteka sadrži UTF-8 (ć zauzima više od jednog mjesta), a mora biti u kodnoj stranici WIN-1250, gdje "
            "svaki znak zauzima jedno mjesto. Spremite je kao WIN-1250 (cp1250; u Windowsima: ANSI)."])

    def test_at_most_three(self) -> None:
        data = MARK + b"]L2" + SLIP[:-1].replace(b"\n", b"\r\n") + b"\0"
        refusal = refused(slip_read, data)
        assert refusal is not None
        self.assertEqual(names(of_slip(data, refusal, "en"), 0), ["slip_mark", "aim", "slip_ends"])

    def test_no_other_language(self) -> None:
        self.assertRaises(ValueError, of_slip, b"", Refusal(2), "de")

    def test_sentences(self) -> None:
        """Each says what is seen and what to do, in two sentences or more, with the same places in both languages."""
        for name, said in HINTS.items():
            places = [sorted({place for _, place, _, _ in string.Formatter().parse(text) if place}) for text in said]
            self.assertEqual(places[0], places[1], name)
            for text in said:
                self.assertRegex(text, r"^[A-ZČĆĐŠŽ`{].*[.:!] .*\.$", name)
                self.assertNotIn("  ", text)
            self.assertNotEqual(said[0], said[1])


class Tables(unittest.TestCase):
    def test_kinds_are_those_of_the_fields(self) -> None:
        words = {
            "iban": "IBAN", "oib": "OIB", "model": "two digits, a model", "reference": "as the model",
            "amount": "cents", "lipa": "lipa", "date": "YYYYMMDD", "currency": "`EUR`",
        }
        for kind, word in words.items():
            placed = {place for place, of_kind in _KINDS.items() if of_kind == kind}
            self.assertEqual(placed, {place for place, field in FIELDS.items() if word in field.rule[0]}, kind)

    def test_models_are_the_library_s(self) -> None:
        def is_handled(model: str) -> bool:
            refusal = refused(reference, model.encode(), b"0")
            return refusal is None or refusal.number != 7

        self.assertEqual(MODELS, [model for model in (f"HR{number:02}" for number in range(100)) if is_handled(model)])

    def test_codes_are_the_library_s(self) -> None:
        listed = list_reference(b"HR69", b"40002-12345678903-???", texts=True)
        self.assertEqual(CODES, [text[-3:].decode() for text in listed])


class Anything(unittest.TestCase):
    """Whatever the bytes and the refusal, at most three sentences come, the same in each language."""

    PIECES = [
        SLIP, KUNA, b"\r", b"\n", b"\0", b"\t", MARK, b"HR12", b"O", b"\xC4", b"\xFF\xFE", b"{0}", b"{at}", b"300\r\n",
        b" " * 990, b"4=", b"13=x\n", b"04=", b"=", b"HR69\n40003-12345678904-101\n",
    ]

    def assert_some(self, english: List[str], croatian: List[str]) -> None:
        self.assertEqual(names(english, 0), names(croatian, 1))
        self.assertLessEqual(len(english), MOST)
        self.assertEqual(len(set(english)), len(english))

    def test_anything(self) -> None:
        chance = random.Random(17)
        file = file_of_two()
        for _ in range(1000):
            data = b"".join(chance.choice(self.PIECES) for _ in range(chance.randint(0, 6)))
            at = chance.randrange(len(file))
            line = chance.choice([data, data[:LINE], file[at:at + LINE], lines_of(file)[at % 5]])
            number, field, byte = chance.choice(list(KINDS)), chance.randint(0, 26), chance.randint(0, 1100)
            refusal = Refusal(number, chance.randint(0, 3), field, byte)
            what = chance.choice(["iban", "oib", "reference", "model", "digits"])
            day = chance.choice([DAY, 0, 20240231, 1 << 60])
            self.assert_some(*(of_slip(data, refusal, language) for language in LANGUAGES))
            self.assert_some(*(of_ledger(data, refusal, language) for language in LANGUAGES))
            self.assert_some(*(of_sheet(data, Refusal(20, refusal.line), language) for language in LANGUAGES))
            self.assert_some(*(of_wage(data, line, refusal, day, language) for language in LANGUAGES))
            self.assert_some(*(of_text(what, data, refusal, language) for language in LANGUAGES))


class Every(unittest.TestCase):
    def test_every_hint_is_said(self) -> None:
        """By the tests above, which are run for it, so that it stands on its own."""
        SEEN.clear()
        for case in (Slips, Ledger, Wages, Texts, Sheets):
            unittest.defaultTestLoader.loadTestsFromTestCase(case).run(unittest.TestResult())
        self.assertEqual(set(HINTS) - SEEN, set())


if __name__ == "__main__":
    unittest.main()
