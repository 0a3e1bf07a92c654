"""Tests of refusals as a person is shown them: place, content, mark, rule, figures, in both languages."""

import json
import unittest
from typing import Any, List, Tuple
from unittest import mock

from lanecockle import LINE, Judge, Lipa, Record, Refusal, iban, ledger_read, list_iban, reference, slip_read, standing_text
from lanecockle.explain import (
    Shown, kuna, money, of_ledger, of_slip, of_standing, of_text, of_wage, slip_fields, standing_fields,
)
from lanecockle.hints import HINTS
from tests.test_calls import DAY, SLIP_FIELDS, file_of_two, lines_of, refused, replaced, slip_of, with_bytes
from tests.test_ledger import ACCEPTED, KUNA, joined, kuna_with
from tests.test_standing import ASSOCIATION, FARM


def refusal_of(call: Any, *lent: Any) -> Refusal:
    """The refusal that a call raises."""
    refusal = refused(call, *lent)
    assert refusal is not None, "the call accepts"
    return refusal


def changed(line: int, byte: int, value: bytes) -> bytes:
    """The file of two orders with other bytes in a line."""
    return with_bytes(file_of_two(), line, byte, value)


def wage_shown(file: bytes, language: str = "en", day: int = DAY) -> Shown:
    """The refusal of a wage file, found by steps of the judge."""
    judge = Judge(day)
    line = b""
    for line in lines_of(file):
        record = judge.record()
        try:
            judge.step(line)
        except Refusal as refusal:
            return of_wage(refusal, file[:2 * LINE], line if refusal.line else b"", record, day, language)
    return of_wage(refusal_of(judge.end), file[:2 * LINE], b"", judge.record(), day, language)


def slip_shown(slip: bytes, language: str = "en") -> Shown:
    return of_slip(refusal_of(slip_read, slip), slip, language)


def ledger_shown(slip: bytes, language: str = "en") -> Shown:
    return of_ledger(refusal_of(ledger_read, slip), slip, language)


def standing_shown(farm: bytes, association: bytes, language: str = "en", field: int = 4) -> Shown:
    return of_standing(refusal_of(standing_text, field, farm, association), farm, association, language)


def slip_with(number: int, field: bytes) -> bytes:
    """The slip with another field, 4 to 14."""
    return slip_of(replaced(SLIP_FIELDS, number - 4, field))


def body(shown: Shown, language: str = "en") -> List[str]:
    """The lines of a text, without its hints."""
    return [line for line in shown.text(language).split("\n") if not line.startswith(("  hint: ", "  savjet: "))]


class Slips(unittest.TestCase):
    def test_field(self) -> None:
        shown = slip_shown(slip_with(10, b"HR1310010051863000160"))
        self.assertEqual(shown.field_name, "Recipient's account number (IBAN)")
        self.assertEqual((shown.number, shown.name, shown.line, shown.field, shown.byte), (6, "check", 0, 10, 125))
        self.assertEqual((shown.content, shown.mark, shown.figures), ("HR1310010051863000160", 0, {}))
        self.assertEqual((shown.type, shown.start, shown.needed), ("", 0, 0))
        self.assertEqual(body(shown), [
            "refused 6: Field 10, position 126: the check of the IBAN or OIB fails.",
            "  field 10: Recipient's account number (IBAN)",
            "  HR1310010051863000160",
            "  ^",
            "  rule: `HR` and nineteen digits that pass the IBAN's check.",
        ])

    def test_croatian(self) -> None:
        shown = slip_shown(slip_with(10, b"HR1310010051863000160"), "hr")
        self.assertEqual(body(shown, "hr"), [
            "odbijeno 6: Polje 10, pozicija 126: IBAN ili OIB ne prolazi kontrolu.",
            "  polje 10: Broj računa primatelja (IBAN)",
            "  HR1310010051863000160",
            "  ^",
            "  pravilo: `HR` i devetnaest znamenki koje prolaze kontrolu IBAN-a.",
        ])

    def test_personal_income(self) -> None:
        fields = replaced(replaced(SLIP_FIELDS, 7, b"HR69"), 8, b"40010-12345678903-100")
        shown = slip_shown(slip_of(fields))
        self.assertEqual((shown.number, shown.name, shown.field, shown.field_name), (5, "form", 12, "Recipient's reference"))
        self.assertEqual((shown.content, shown.mark), ("40010-12345678903-100", 0))
        self.assertIn("under `HR69`, the first is `40002`", shown.rule)
        self.assertEqual(shown.hints, [HINTS["first_HR69"][0].format(seen="40010")])

    def test_mark_counts_characters(self) -> None:
        shown = slip_shown(slip_with(4, "ŽELJKA Š_".encode()))
        self.assertEqual((shown.number, shown.byte, shown.content, shown.mark), (3, 29 + 10, "ŽELJKA Š_", 8))
        self.assertEqual(body(shown)[2:4], ["  ŽELJKA Š_", "          ^"])

    def test_bytes_that_are_no_text(self) -> None:
        for field, content, mark in (
            (b"A\xC4", "A·", 1), (b"A\xC4B\xFF", "A·B·", 1), (b"\xC5\xBD\x00", "Ž␀", 1), (b"A\x7FB", "A␡B", 1),
            ("AöB".encode(), "AöB", 1), ("A\u0301".encode(), "A·", 1), ("A漢".encode(), "A·", 1),
            ("Aא".encode(), "A·", 1), ("A\u202Ex".encode(), "A·x", 1), ("A\u00A0".encode(), "A·", 1),
        ):
            with self.subTest(field=field):
                shown = slip_shown(slip_with(4, field))
                self.assertEqual((shown.number, shown.content, shown.mark), (3, content, mark))

    def test_field_behind_a_byte_inside_a_character(self) -> None:
        slip = slip_with(4, "AŽ".encode())
        self.assertEqual(of_slip(Refusal(3, field=4, byte=31), slip, "en").mark, 1)
        self.assertEqual(of_slip(Refusal(3, field=4, byte=99), slip, "en").mark, 2)

    def test_empty_field(self) -> None:
        shown = slip_shown(slip_with(10, b""))
        self.assertEqual((shown.number, shown.content, shown.mark), (4, "", 0))
        self.assertEqual(body(shown)[2], "  (empty)")
        self.assertEqual(body(slip_shown(slip_with(10, b""), "hr"), "hr")[2], "  (prazno)")

    def test_no_field(self) -> None:
        slip = slip_of(SLIP_FIELDS)
        shown = slip_shown(slip[:-1])
        self.assertEqual((shown.number, shown.field_name, shown.rule, shown.mark), (2, "", "", -1))
        self.assertTrue(shown.content.startswith("HRVHUB30␊EUR␊000000000012355␊ŽELJKO"))
        self.assertEqual(len(shown.content), len(slip.decode()) - 1)
        self.assertTrue(body(shown)[1].endswith("…"))
        self.assertLess(len(body(shown)[1]), 80)
        self.assertEqual(slip_shown(b"").content, "")

    def test_size(self) -> None:
        shown = slip_shown(b"\n" * 1500)
        self.assertEqual((shown.number, shown.content), (1, "␊" * 483))
        self.assertIn("A slip has at most 483 bytes; 1,500 were read.", shown.hints)
        self.assertIn("najviše 483 bajta; pročitano ih je 1.500.", slip_shown(b"\n" * 1500, "hr").hints[-1])


class Ledger(unittest.TestCase):
    """Slips of either currency: a kuna slip's fields have their own names and rules."""

    def test_account(self) -> None:
        shown = ledger_shown(kuna_with(10, b"1001005A1863000160"))
        self.assertEqual((shown.number, shown.field, shown.content, shown.mark), (5, 10, "1001005A1863000160", 0))
        self.assertEqual(body(shown)[1], "  field 10: Recipient's IBAN or account")
        self.assertIn("seven digits, a hyphen and ten digits", shown.rule)
        shown = ledger_shown(kuna_with(10, b"1001005A1863000160"), "hr")
        self.assertEqual(body(shown, "hr")[1], "  polje 10: IBAN ili račun primatelja")

    def test_amount_has_its_unit(self) -> None:
        of_kuna, of_euro = ledger_shown(kuna_with(3, b"12355")), ledger_shown(slip_of(SLIP_FIELDS).replace(b"0" * 10, b""))
        self.assertEqual((of_kuna.field, of_euro.field), (3, 3))
        for shown, unit, other in ((of_kuna, "lipa", "cent"), (of_euro, "cents", "lipa")):
            self.assertIn(unit, shown.rule)
            self.assertIn(unit, shown.hints[0])
            self.assertNotIn(other, shown.text("en"))

    def test_currency(self) -> None:
        for slip in (KUNA.replace(b"HRK", b"USD"), slip_of(SLIP_FIELDS).replace(b"EUR", b"USD")):
            self.assertEqual(body(ledger_shown(slip)), [
                "refused 5: Field 2, position 10: the content is not the required word, form or code.",
                "  field 2: Currency", "  USD", "  ^", "  rule: Must be `EUR`, or `HRK` in a slip from before 2023.",
            ])
            self.assertIn("`EUR` ili", ledger_shown(slip, "hr").rule)

    def test_other_fields_are_the_slip_s(self) -> None:
        for number, text in ((4, b"_"), (11, b"HR12"), (12, b"1"), (14, b"\t")):
            shown, of_euro = ledger_shown(kuna_with(number, text)), slip_shown(slip_with(number, text))
            self.assertEqual((shown.field_name, shown.rule, shown.hints), (of_euro.field_name, of_euro.rule, of_euro.hints))

    def test_kuna_slip_to_a_euro_reader(self) -> None:
        shown = slip_shown(KUNA)
        self.assertEqual((shown.number, shown.field, shown.rule), (5, 2, "Must be `EUR`."))
        self.assertIn("kuna slip (HRK), from before 2023", shown.hints[0])
        self.assertIn("`ledger`", shown.hints[0])
        self.assertIn("`ledger`", slip_shown(KUNA, "hr").hints[0])

    def test_whole(self) -> None:
        self.assertEqual((ledger_shown(b"").number, ledger_shown(KUNA[:-1]).content[:13]), (2, "HRVHUB30␊HRK␊"))
        self.assertIn("A slip has at most 483 bytes; 1,500 were read.", ledger_shown(b"\n" * 1500).hints)

    def test_fields(self) -> None:
        names = [slip_fields(joined(fields), "en")[9]["name"] for fields in ACCEPTED]
        self.assertEqual(names, ["Recipient's account number (IBAN)"] + 2 * ["Recipient's IBAN or account"])
        told = slip_fields(KUNA, "hr")
        self.assertEqual([field["number"] for field in told], list(range(1, 15)))
        self.assertEqual((told[1]["content"], told[9]["content"]), ("HRK", "1001005-1863000160"))

    def test_kuna(self) -> None:
        for lipa, english, croatian in (
            (0, "0.00 HRK", "0,00 HRK"), (12355, "123.55 HRK", "123,55 HRK"),
            (10**15 - 1, "9,999,999,999,999.99 HRK", "9.999.999.999.999,99 HRK"),
        ):
            self.assertEqual((kuna(Lipa(lipa), "en"), kuna(Lipa(lipa), "hr")), (english, croatian))


class Standing(unittest.TestCase):
    """Standing text: the malformed line, and whose sheet it is."""

    def test_malformed(self) -> None:
        shown = standing_shown(FARM, b"4=x\n14=Voda\n13=WTER\n")
        self.assertEqual((shown.number, shown.name, shown.line, shown.field, shown.byte), (20, "sheet", 3, 0, 0))
        self.assertEqual((shown.sheet, shown.content, shown.mark), ("association", "13=WTER␊", -1))
        self.assertEqual(body(shown), [
            "refused 20: Line 3 of the association's sheet: the line is not `number=text` as its field asks for, or is out of "
            "order.",
            "  line 3 of the association's sheet", "  13=WTER␊",
            "  rule: A field's number, 4 to 9, 13 or 14 and above that of the line before, `=`, a text that the field permits, "
            "and LF.",
        ])
        self.assertEqual(shown.hints, [
            "Field 13 stands behind field 14. Put the lines in ascending order of their numbers."])

    def test_croatian(self) -> None:
        shown = standing_shown(b"4=IVO\n=", b"", "hr")
        self.assertEqual(body(shown, "hr"), [
            "odbijeno 20: Redak 2 predloška gospodarstva: redak nije `broj=tekst` kako polje traži ili nije po redu.",
            "  redak 2 predloška gospodarstva", "  =",
            "  pravilo: Broj polja, 4 do 9, 13 ili 14 i veći od broja u prethodnom retku, `=`, tekst kakav polje dopušta i LF.",
        ])

    def test_line_and_its_end(self) -> None:
        for sheet, content in (
            (b"\n", "␊"), (b"4=x\r\n5=y\r\n", "4=x␍␊"), (b"4=x\n5=y", "5=y"), (b"4=x\n\n5=y\n", "␊"),
            (b"4=\xC5\n", "4=·␊"), (b"4=x\r5=y", "4=x␍5=y"), ("4=Ž\t\n".encode(), "4=Ž␉␊"),
            (b"4=" + b"x" * 999, "4=" + "x" * 481),
        ):
            with self.subTest(sheet=sheet):
                self.assertEqual(standing_shown(sheet, b"").content, content)
                self.assertEqual(standing_shown(FARM, sheet).content, content)

    def test_other_field(self) -> None:
        shown = standing_shown(b"x", b"x", field=10)
        self.assertEqual((shown.number, shown.sheet, shown.content, shown.hints), (28, "", "", []))
        self.assertEqual(shown.text("en"), "refused 28: Only the fields 4 to 9, 13 and 14 have standing text.")

    def test_json(self) -> None:
        told = json.loads(json.dumps(standing_shown(b"x", b"").as_dict()))
        self.assertEqual((told["number"], told["line"], told["sheet"]), (20, 1, "farm"))
        self.assertEqual(slip_shown(b"").as_dict()["sheet"], "")

    def test_fields(self) -> None:
        found = [(number, standing_text(number, FARM, ASSOCIATION)) for number in (4, 5, 13, 14)]
        told = standing_fields(found, "en")
        self.assertEqual(told[0], {"number": 4, "name": "Payer (name)", "sheet": "farm", "content": "OPG HORVAT"})
        self.assertEqual([(field["sheet"], field["content"]) for field in told[1:]], [
            (None, ""), ("association", "WTER"), ("farm", "")])
        self.assertEqual(standing_fields(found, "hr")[3]["name"], "Opis plaćanja")


class Wages(unittest.TestCase):
    def test_field(self) -> None:
        shown = wage_shown(changed(2, 3, b"3"))
        self.assertEqual((shown.number, shown.line, shown.field, shown.byte), (6, 2, 1, 0))
        self.assertEqual((shown.type, shown.start, shown.content, shown.mark), ("301", 1, "HR1310010051863000160", 0))
        self.assertEqual(body(shown), [
            "refused 6: Line 2, field 1, position 1: the check of the IBAN or OIB fails.",
            "  line 2 (301), field 1: IBAN of the payer, positions 1 to 21",
            "  HR1310010051863000160",
            "  ^",
            "  rule: `HR` and nineteen digits that pass the IBAN's check.",
        ])

    def test_croatian(self) -> None:
        shown = wage_shown(changed(3, 350, b" "), "hr")
        self.assertEqual(body(shown, "hr"), [
            "odbijeno 3: Slog 3, polje 10, pozicija 351: ovaj znak ovdje nije dozvoljen.",
            "  slog 3 (309), polje 10: Iznos, pozicije 348 do 362",
            "  000 00000012355",
            "     ^",
            "  pravilo: Petnaest znamenki, iznos u centima s vodećim nulama.",
        ])

    def test_one_position(self) -> None:
        self.assertEqual(body(wage_shown(changed(1, 8, b"7")))[1:4], [
            "  line 1 (300), field 2: Kind of orders in the file, position 9", "  7", "  ^",
        ])

    def test_long_field_is_cut_around_the_mark(self) -> None:
        shown = wage_shown(changed(3, 300, b"\t"))
        self.assertEqual((shown.content[shown.mark], shown.mark, len(shown.content)), ("␉", 93, 140))
        content, mark = body(shown)[2:4]
        self.assertEqual(content[len(mark) - 1], "␉")
        self.assertTrue(mark.endswith(" ^") and content.startswith("  …") and content.endswith("…"))
        self.assertLess(len(content), 80)

    def test_mark_at_the_ends_of_a_long_field(self) -> None:
        for byte, starts, ends in ((207, "  ␉", "…"), (346, "  …", "␉")):
            content, mark = body(wage_shown(changed(3, byte, b"\t")))[2:4]
            self.assertEqual(content[len(mark) - 1], "␉")
            self.assertTrue(content.startswith(starts) and content.endswith(ends), content)

    def test_bytes_of_win_1250(self) -> None:
        shown = wage_shown(changed(3, 207, b"\x8E\xF0\x81\xA0\xAD~"))
        self.assertEqual((shown.content[:6], shown.mark), ("Žđ···~", 2))

    def test_blank_field(self) -> None:
        shown = wage_shown(changed(3, 207, b" " * 140))
        self.assertEqual((shown.number, shown.field, shown.content), (5, 9, " " * 140))
        self.assertEqual(body(shown)[2], "  (blank)")

    def test_name_address_and_seat_are_one_field(self) -> None:
        line = lines_of(file_of_two())[2]
        shown = of_wage(Refusal(3, 3, 2, 40), b"", line, Judge(DAY).record(), DAY, "en")
        self.assertEqual((shown.start, len(shown.content), shown.mark), (35, 140, 6))
        self.assertIn("  line 3 (309), field 2: Name of the recipient, positions 35 to 174", shown.text("en"))

    def test_field_that_no_table_has(self) -> None:
        line = lines_of(file_of_two())[2]
        shown = of_wage(Refusal(3, 3, 77, 40), b"", line, Judge(DAY).record(), DAY, "en")
        self.assertEqual((shown.field_name, shown.rule, shown.mark, len(shown.content)), ("", "", -1, 60))

    def test_type(self) -> None:
        shown = wage_shown(changed(3, 997, b"4"))
        self.assertEqual((shown.number, shown.byte, shown.content, shown.mark), (5, 997, "409", 0))
        self.assertEqual(body(shown)[1:], ["  line 3, positions 998 to 1000", "  409", "  ^"])

    def test_out_of_place(self) -> None:
        label, group, first, second, closing = lines_of(file_of_two())
        of_none = lines_of(changed(2, 48, b"00000"))[1]
        for lines, hint, croatian in (
            ([group], "A line of type 300 is due here.", "Ovdje treba stajati slog 300."),
            ([label, closing], "A line of type 301 is due here.", "Ovdje treba stajati slog 301."),
            ([label, group, group], "A line of type 309 is due here.", "Ovdje treba stajati slog 309."),
            ([label, of_none, closing], "A line of type 309 is due here.", "Ovdje treba stajati slog 309."),
            ([label, group, first, label], "A line of type 309 is due here.", "Ovdje treba stajati slog 309."),
            ([label, group, first, second, label], "A line of type 301 or 399 is due here.",
             "Ovdje treba stajati slog 301 ili 399."),
            ([label, group, first, second, closing, closing], "Nothing may follow the 399 line.",
             "Iza sloga 399 ne smije biti više ništa."),
        ):
            with self.subTest(hint=hint):
                shown = wage_shown(b"".join(lines))
                kind = lines[-1][997:1000].decode()
                self.assertEqual((shown.number, shown.type, shown.content, shown.mark), (10, kind, kind, 0))
                self.assertEqual((shown.line, shown.hints[0]), (len(lines), hint))
                self.assertEqual(wage_shown(b"".join(lines), "hr").hints[0], croatian)

    def test_refused_day(self) -> None:
        shown = wage_shown(file_of_two(), day=20230229)
        self.assertEqual((shown.number, shown.line, shown.content, shown.mark), (11, 0, "20230229", -1))
        self.assertEqual(body(shown)[1:], ["  day of submission", "  20230229"])

    def test_beyond(self) -> None:
        record = Judge(DAY).record()
        record.condition, record.lines = 1, 1_000_000
        line = lines_of(file_of_two())[1]
        shown = of_wage(refusal_of(Judge.from_record(record).step, line), b"", line, record, DAY, "en")
        self.assertEqual((shown.number, shown.line, shown.type, shown.mark), (17, 1_000_001, "301", -1))
        self.assertTrue(shown.content.startswith("HR1210010051863000160EUR"))


class Figures(unittest.TestCase):
    def assert_shown(self, file: bytes, told: Tuple[int, int], figures: Any, english: str, croatian: str) -> None:
        shown = wage_shown(file)
        self.assertEqual((shown.number, shown.line), told)
        self.assertEqual(shown.figures, figures)
        self.assertIn("  " + english, body(shown))
        self.assertIn("  " + croatian, body(wage_shown(file, "hr"), "hr"))

    def test_an_order_too_many(self) -> None:
        self.assert_shown(changed(2, 52, b"1"), (12, 4), {"declared": 1, "counted": 2},
                          "orders: declared 1, counted 2 with this line",
                          "broj naloga: upisano 1, s ovim slogom prebrojeno 2")
        self.assert_shown(changed(2, 52, b"0"), (12, 3), {"declared": 0, "counted": 1},
                          "orders: declared 0, counted 1 with this line",
                          "broj naloga: upisano 0, s ovim slogom prebrojeno 1")

    def test_the_order_too_many_is_shown(self) -> None:
        shown = wage_shown(changed(2, 52, b"1"))
        self.assertEqual((shown.type, shown.start, shown.mark), ("309", 1, -1))
        self.assertEqual(shown.content, "HR7023400091510946338".ljust(34) + "IVANA HORVAT".ljust(26))

    def test_too_few_orders(self) -> None:
        self.assert_shown(changed(2, 48, b"12345"), (12, 5), {"declared": 12345, "counted": 2},
                          "orders: declared 12,345, counted 2", "broj naloga: upisano 12.345, prebrojeno 2")

    def test_too_few_orders_before_another_group(self) -> None:
        lines = lines_of(changed(2, 52, b"3"))
        file = b"".join(lines[:4] + lines[1:])
        self.assertEqual(wage_shown(file).type, "301")
        self.assert_shown(file, (12, 5), {"declared": 3, "counted": 2},
                          "orders: declared 3, counted 2", "broj naloga: upisano 3, prebrojeno 2")

    def test_figures_are_those_of_the_last_group(self) -> None:
        lines = lines_of(file_of_two())
        second = lines_of(changed(2, 52, b"1"))[1]
        self.assert_shown(b"".join(lines[:4] + [second] + lines[2:]), (12, 7), {"declared": 1, "counted": 2},
                          "orders: declared 1, counted 2 with this line",
                          "broj naloga: upisano 1, s ovim slogom prebrojeno 2")

    def test_the_group_is_told(self) -> None:
        """By its 301 line, which stands before the refused line by the orders that were counted."""
        lines = lines_of(file_of_two())
        for place, value, number, told, croatian in (
            (52, b"1", 12, "line 2. Correct the number", "slog 2. Ispravite broj"),
            (52, b"3", 12, "line 2. Correct the number", "slog 2. Ispravite broj"),
            (72, b"5", 13, "line 2. Correct the sum", "slog 2. Ispravite zbroj"),
        ):
            wrong = changed(2, place, value)
            behind = b"".join(lines[:4]) + wrong[LINE:]
            for file, line in ((wrong, 2), (behind, 5)):
                with self.subTest(value=value, number=number, line=line):
                    self.assertEqual(wage_shown(file).number, number)
                    self.assertIn(told.replace("2", str(line)), wage_shown(file).hints[0])
                    self.assertIn(croatian.replace("2", str(line)), wage_shown(file, "hr").hints[0])

    def test_sum(self) -> None:
        self.assert_shown(changed(2, 72, b"5"), (13, 5), {"declared": 10**15 + 12355, "summed": 10**15 + 12354},
                          "sum: declared 10,000,000,000,123.55 EUR, summed 10,000,000,000,123.54 EUR",
                          "zbroj iznosa: upisano 10.000.000.000.123,55 EUR, zbrojeno 10.000.000.000.123,54 EUR")

    def test_sum_beyond_64_bits(self) -> None:
        self.assertEqual(wage_shown(changed(2, 53, b"9" * 20)).figures,
                         {"declared": 10**20 - 1, "summed": 10**15 + 12354})

    def test_a_blank_line_is_not_shown(self) -> None:
        self.assertEqual(body(wage_shown(changed(2, 72, b"5")))[1], "  line 5 (399)")

    def test_missing_line(self) -> None:
        file = file_of_two()
        for lines, kind in ((0, "300"), (1, "301"), (2, "309"), (3, "309"), (4, "399")):
            shown = wage_shown(file[:lines * LINE])
            self.assertEqual((shown.number, shown.line, shown.type), (14, lines + 1, kind))
            self.assertEqual((shown.content, shown.mark, shown.figures), ("", -1, {}))
            self.assertEqual(body(shown)[1:], [f"  missing: line {lines + 1} ({kind})"])
        self.assertEqual(body(wage_shown(b"", "hr"), "hr")[1:], ["  nedostaje: slog 1 (300)"])

    def test_missing_line_of_a_record_that_tells_none(self) -> None:
        shown = of_wage(Refusal(14, 6), b"", b"", Record(condition=3), DAY, "en")
        self.assertEqual((shown.type, body(shown)[1:]), ("", ["  missing: line 6"]))

    def test_money(self) -> None:
        for cents, english, croatian in (
            (0, "0.00 EUR", "0,00 EUR"), (5, "0.05 EUR", "0,05 EUR"), (123456, "1,234.56 EUR", "1.234,56 EUR"),
            (10**20, "1,000,000,000,000,000,000.00 EUR", "1.000.000.000.000.000.000,00 EUR"),
        ):
            self.assertEqual((money(cents, "en"), money(cents, "hr")), (english, croatian))


class LineEnds(unittest.TestCase):
    def assert_ends(self, file: bytes, told: Tuple[int, int], end: str, start: int, fact: str) -> None:
        """That the line is shown up to its end, the mark under that, and its length told."""
        shown = wage_shown(file)
        self.assertEqual((shown.number, shown.line), told)
        self.assertEqual(shown.content[shown.mark:] if shown.mark >= 0 else "", end)
        self.assertEqual(shown.start, start)
        self.assertEqual([line for line in body(shown) if "due: " in line], [fact] if fact else [])

    def test_short(self) -> None:
        file = file_of_two()
        self.assert_ends(file[:2500] + file[2501:], (2, 3), "␍␊", 978,
                         "  bytes before CR LF: 999; due: 1000 before CR LF")

    def test_long(self) -> None:
        file = file_of_two()
        self.assert_ends(file[:2500] + b" " + file[2500:], (2, 3), "␍", 979,
                         "  bytes before CR: 1001; due: 1000 before CR LF")
        self.assert_ends(file[:2500] + b"   " + file[2500:], (2, 3), "", 979, "")

    def test_long_first_line(self) -> None:
        file = file_of_two()
        self.assert_ends(file[:500] + b"    " + file[500:], (2, 1), "␍␊", 983,
                         "  bytes before CR LF: 1004; due: 1000 before CR LF")

    def test_line_feed_alone(self) -> None:
        file = file_of_two()
        self.assert_ends(file.replace(b"\r\n", b"\n"), (2, 1), "␊", 978,
                         "  bytes before LF: 1000; due: 1000 before CR LF")

    def test_end_missing(self) -> None:
        self.assert_ends(file_of_two()[:-2], (1, 5), "", 977,
                         "  bytes before the end of the file: 1000; due: 1000 before CR LF")

    def test_empty_last_line(self) -> None:
        self.assert_ends(file_of_two() + b"\r\n", (1, 6), "␍␊", 1, "  bytes before CR LF: 0; due: 1000 before CR LF")

    def test_croatian(self) -> None:
        self.assertEqual(body(wage_shown(file_of_two()[:-2], "hr"), "hr")[-1],
                         "  znakova prije kraja datoteke: 1000; propisano: 1000 prije CR LF")


class Texts(unittest.TestCase):
    def test_place(self) -> None:
        text = b"HR12 10010051863000160"
        shown = of_text(refusal_of(iban, text), "iban", text, "en")
        self.assertEqual((shown.number, shown.content, shown.mark, shown.field_name), (3, text.decode(), 4, ""))
        self.assertEqual(body(shown), ["refused 3: Position 5: this byte is not permitted here.",
                                       "  HR12 10010051863000160", "      ^"])

    def test_first_byte(self) -> None:
        """Byte 0 is a place where the call tells places, and none in a listing."""
        text = b"hr1210010051863000160"
        self.assertEqual(of_text(refusal_of(iban, text), "iban", text, "en", placed=True).mark, 0)
        self.assertEqual(of_text(refusal_of(list_iban, text), "iban", text, "en").mark, -1)

    def test_no_place(self) -> None:
        text = b"HR1310010051863000160"
        self.assertEqual(of_text(refusal_of(iban, text), "iban", text, "en", placed=True).mark, -1)

    def test_characters(self) -> None:
        shown = of_text(Refusal(3, byte=2), "reference", "Ž\xA0".encode() + b"\x1B[2J\xFF", "en", placed=True)
        self.assertEqual((shown.content, shown.mark), ("Ž·␛[2J·", 1))

    def test_model_reaches_the_hints(self) -> None:
        with mock.patch("lanecockle.hints.of_text", return_value=["!"]) as asked:
            shown = of_text(Refusal(8), "reference", b"1-2", "hr", model=b"HR69")
        self.assertEqual(shown.hints, ["!"])
        self.assertIn(b"HR69", list(asked.call_args[0]) + list(asked.call_args[1].values()))

    def test_five_of_a_reference(self) -> None:
        """Of the model where that has not its form, of the reference where it has."""
        text = b"40002-12345678903-777"
        for model, content, hint in (
            (b"HR6", "HR6", "model"), (b"HR69 ", "HR69 ", "blank"), (b"HR69", text.decode(), "code_HR69"),
        ):
            shown = of_text(refusal_of(reference, model, text), "reference", text, "en", placed=True, model=model)
            self.assertEqual((shown.number, shown.content, shown.mark), (5, content, -1))
            self.assertEqual(shown.hints[0], HINTS[hint][0].format(seen="777", at=5))


class AllRefusals(unittest.TestCase):
    def shown(self) -> List[Tuple[str, Shown]]:
        """Refusals of all kinds, in both languages."""
        file = file_of_two()
        slips = [slip_with(4, b"_"), slip_with(10, b""), b"", b"\n" * 484, slip_with(12, b"1"), slip_with(11, b"HR12")]
        wages = [file[:at] for at in (0, 1, LINE, 1500, 4 * LINE)] + [
            changed(2, 52, b"1"), changed(2, 72, b"5"), changed(3, 997, b"4"), file[LINE:], changed(2, 73, b"20240230"),
        ]
        found = []
        for language in ("en", "hr"):
            found += [(language, slip_shown(slip, language)) for slip in slips]
            found += [(language, wage_shown(wage, language)) for wage in wages]
        return found

    def test_dictionary(self) -> None:
        for _, shown in self.shown():
            self.assertEqual(json.loads(json.dumps(shown.as_dict())), dict(shown._asdict()))
        shown.as_dict()["hints"].append("more")  # type: ignore[attr-defined]
        self.assertNotIn("more", shown.hints)

    def test_text(self) -> None:
        for language, shown in self.shown():
            lines = shown.text(language).split("\n")
            self.assertLessEqual(len(lines), 10)
            refused = "refused" if language == "en" else "odbijeno"
            self.assertEqual(lines[0], f"{refused} {shown.number}: {shown.sentence}")
            self.assertTrue(all(line.startswith("  ") and line.strip() for line in lines[1:]), lines)
            self.assertTrue(all(character.isprintable() for line in lines for character in line))
            said = "hint: " if language == "en" else "savjet: "
            self.assertEqual([line[len(said) + 2:] for line in lines if line.startswith("  " + said)], shown.hints)

    def test_hints_come_from_the_hints(self) -> None:
        with mock.patch("lanecockle.hints.of_slip", return_value=["!"]) as slips:
            self.assertEqual(slip_shown(slip_with(4, b"_"), "hr").hints, ["!"])
        self.assertEqual((slips.call_args[0][0], slips.call_args[0][2]), (slip_with(4, b"_"), "hr"))
        file = changed(3, 350, b" ")
        with mock.patch("lanecockle.hints.of_wage", return_value=["?"]) as wages:
            self.assertEqual(wage_shown(file).hints, ["?"])
        start, line, refusal, day, language = wages.call_args[0]
        self.assertEqual((start, line, day, language), (file[:2 * LINE], lines_of(file)[2], DAY, "en"))
        self.assertEqual((refusal.number, refusal.line), (3, 3))


if __name__ == "__main__":
    unittest.main()
