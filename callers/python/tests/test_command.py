"""Tests of the command: its answers in words and in JSON, its exit statuses, and what it says of the ten mistakes."""

import datetime
import io
import json
import os
import subprocess
import sys
import tempfile
import unittest
from pathlib import Path
from typing import Any, Dict, List, NamedTuple, Optional, Tuple
from unittest import mock

from lanecockle import LINE, __version__, command
from lanecockle.judging import Judging
from tests.test_calls import DAY, SLIP_FIELDS, file_of_two, replaced, slip_of, with_bytes
from tests.test_judging import file_of
from tests.test_ledger import ACCEPTED, KUNA, joined
from tests.test_standing import ASSOCIATION, FARM

PYTHON = Path(__file__).resolve().parents[1]
ON_DAY = ("--day", str(DAY))
SLIP = slip_of(SLIP_FIELDS)

#: An environment that says nothing of a language or a terminal.
PLAIN = {name: value for name, value in os.environ.items() if name not in ("LC_ALL", "LC_MESSAGES", "LANG", "COLUMNS")}


class Ran(NamedTuple):
    """What a command did: its exit status, and what it wrote."""

    status: int
    out: str
    err: str


class Terminal(io.StringIO):
    """A stream that says it is a terminal."""

    def isatty(self) -> bool:
        return True


def run(*arguments: str, given: bytes = b"", language: str = "", err: Optional[io.StringIO] = None) -> Ran:
    """Runs the command in this process, with bytes for its standard input."""
    out, err = io.StringIO(), err or io.StringIO()
    stdin = io.TextIOWrapper(io.BytesIO(given))
    environment = dict(PLAIN, COLUMNS="200", **({"LANG": language} if language else {}))
    with mock.patch.dict(os.environ, environment, clear=True), mock.patch("sys.stdin", stdin), \
            mock.patch("sys.stdout", out), mock.patch("sys.stderr", err):
        status = command.main(list(arguments))
    return Ran(status, out.getvalue(), err.getvalue())


def process(*arguments: str, **given: Any) -> "subprocess.CompletedProcess[bytes]":
    """Runs the command as a process of its own."""
    environment = dict(PLAIN, PYTHONPATH=str(PYTHON), **given.pop("environment", {}))
    asked = [sys.executable, "-B", "-W", "error", "-m", "lanecockle", *arguments]
    return subprocess.run(asked, env=environment, stderr=subprocess.PIPE, check=False, **given)


class Case(unittest.TestCase):
    """Commands asked about files of a temporary folder."""

    def setUp(self) -> None:
        folder = tempfile.TemporaryDirectory()
        self.addCleanup(folder.cleanup)
        self.folder = Path(folder.name)

    def file(self, data: bytes) -> str:
        path = self.folder / "file"
        path.write_bytes(data)
        return str(path)

    def answer(self, *arguments: str, status: int = 0, **given: Any) -> Dict[str, Any]:
        """The JSON answer, which is one line and alone."""
        ran = run(*arguments, "--json", **given)
        self.assertEqual((ran.status, ran.err, ran.out.count("\n"), ran.out[-1:]), (status, "", 1, "\n"))
        facts = json.loads(ran.out)
        self.assertEqual(facts["accepted"], status == 0)
        return facts

    def assert_failed(self, ran: Ran, words: str) -> None:
        """That nothing is answered, and one line is said about it."""
        self.assertEqual((ran.status, ran.out, ran.err.count("\n")), (2, "", 1), ran)
        self.assertTrue(ran.err.startswith("lanecockle: "), ran.err)
        self.assertIn(words, ran.err)


class TenMistakes(Case):
    """What a new user does wrong, and what is said of it: refusal, place, content with its mark, and what to do."""

    def assert_mistake(
        self, asked: List[str], told: Tuple[int, int, int, int], marked: str, english: List[str], croatian: List[str],
    ) -> None:
        """That the number, line, field and byte are told, that the mark stands under what begins with the marked text
        (nowhere if it is empty), and that the hints have the words."""
        for language, words in (("en", english), ("hr", croatian)):
            refusal = self.answer(*asked, "--lang", language, status=1)["refusal"]
            self.assertEqual(tuple(refusal[name] for name in ("number", "line", "field", "byte")), told)
            self.assertEqual(refusal["mark"] >= 0, marked != "")
            ran = run(*asked, "--lang", language)
            self.assertEqual((ran.status, ran.err), (1, ""))
            self.assertIn(f" {told[0]}: {refusal['sentence']}\n", ran.out)
            self.assertEqual(self.under_mark(ran.out)[:len(marked)], marked)
            for word in words:
                self.assertIn(word, " ".join(refusal["hints"]))
            for hint in refusal["hints"]:
                self.assertIn(hint, ran.out)

    def under_mark(self, text: str) -> str:
        """What stands over the mark and behind it; nothing where there is no mark."""
        lines = text.split("\n")
        for line, marked in zip(lines, lines[1:]):
            if marked.strip() == "^":
                return line[marked.index("^"):]
        return ""

    def slip(self, data: bytes) -> List[str]:
        return ["slip", self.file(data)]

    def wage(self, data: bytes) -> List[str]:
        return ["wage", self.file(data), *ON_DAY]

    def test_1_byte_order_mark(self) -> None:
        mark = b"\xEF\xBB\xBF"
        self.assert_mistake(self.slip(mark + SLIP), (5, 0, 1, 0), "·HRVHUB30",
                            ["byte order mark", "With --scan"], ["oznakom redoslijeda bajtova", "Uz --scan"])
        self.assert_mistake(self.wage(mark + file_of_two()), (2, 1, 0, 0), "␍␊",
                            ["byte order mark", "Save it as WIN-1250"],
                            ["oznakom redoslijeda bajtova", "Spremite je u kodnoj stranici WIN-1250"])

    def test_2_wage_file_in_utf_8(self) -> None:
        longer = file_of_two().decode("cp1250").encode("utf-8")
        words = ["UTF-8", "Save it as WIN-1250"], ["UTF-8", "Spremite je kao WIN-1250"]
        self.assert_mistake(self.wage(longer), (2, 3, 0, 0), "␍", *words)
        padded = file_of_two().replace("Plaća 1/2024 ".encode("cp1250"), "Plaća 1/2024".encode("utf-8"))
        self.assert_mistake(self.wage(padded), (3, 3, 9, 210), "Ä‡a 1/2024", *words)

    def test_2_slip_in_win_1250(self) -> None:
        self.assert_mistake(self.slip(SLIP.decode().encode("cp1250")), (3, 0, 4, 29), "·ELJKO",
                            ["the letter Ž in WIN-1250", "as UTF-8"], ["slovo je Ž", "WIN-1250", "kao UTF-8"])

    def test_3_line_feed_alone_in_a_wage_file(self) -> None:
        self.assert_mistake(self.wage(file_of_two().replace(b"\r\n", b"\n")), (2, 1, 0, 0), "␊",
                            ["LF alone", "line ends of Windows"], ["samo s LF", "krajevima redaka kao u Windowsima"])

    def test_4_carriage_returns_in_a_slip(self) -> None:
        self.assert_mistake(self.slip(SLIP.replace(b"\n", b"\r\n")), (5, 0, 1, 0), "HRVHUB30␍",
                            ["end in CR LF", "LF alone", "With --scan"],
                            ["s CR LF", "samo graničnikom LF", "Uz --scan"])

    def test_5_empty_last_line(self) -> None:
        self.assert_mistake(self.wage(file_of_two() + b"\r\n"), (1, 6, 0, 0), "␍␊",
                            ["an empty one", "Delete"], ["prazan redak", "Obrišite"])

    def test_6_line_one_byte_short(self) -> None:
        file = file_of_two()
        self.assert_mistake(self.wage(file[:2600] + file[2601:]), (2, 3, 0, 0), "␍␊",
                            ["after 999 bytes, too early by 1", "too narrow"], ["999, prerano za 1", "prekratko polje"])

    def test_6_line_one_byte_long(self) -> None:
        file = file_of_two()
        self.assert_mistake(self.wage(file[:2600] + b" " + file[2600:]), (2, 3, 0, 0), "␍",
                            ["after 1001 bytes, too late by 1", "too wide"], ["1001, prekasno za 1", "predugo polje"])

    def test_7_lower_case_in_an_iban(self) -> None:
        words = ["lower case", "write HR"], ["mala slova", "upišite HR"]
        self.assert_mistake(self.slip(SLIP.replace(b"HR12", b"hr12")), (3, 0, 10, 125), "hr1210", *words)
        self.assert_mistake(self.wage(with_bytes(file_of_two(), 2, 0, b"hr")), (3, 2, 1, 0), "hr1210", *words)
        self.assert_mistake(["iban", "hr1210010051863000160"], (3, 0, 0, 0), "hr1210", *words)

    def test_7_blanks_in_an_iban(self) -> None:
        words = ["is a blank", "without blanks"], ["praznina", "bez praznina"]
        slip = SLIP.replace(b"HR1210010051863000160", b"HR12 1001 0051 8630 0016 0")
        self.assert_mistake(self.slip(slip), (3, 0, 10, 129), " 1001 0051", *words)
        wage = with_bytes(file_of_two(), 3, 0, b"HR70 2340 0091 5109 4633 8")
        self.assert_mistake(self.wage(wage), (5, 3, 1, 0), "HR70 2340", *words)
        self.assert_mistake(["iban", "HR12 1001 0051 8630 0016 0"], (3, 0, 0, 4), " 1001 0051", *words)

    def test_8_tab(self) -> None:
        words = ["is a tab", "Write a blank"], ["tabulator", "upišite prazninu"]
        self.assert_mistake(self.slip(SLIP.replace(b"za 1.", b"za\t1.")), (3, 0, 14, 192), "␉1. mjesec", *words)
        self.assert_mistake(self.wage(with_bytes(file_of_two(), 4, 213, b"\t")), (3, 4, 9, 213), "␉/2024", *words)

    def test_9_not_a_date(self) -> None:
        self.assert_mistake(self.wage(with_bytes(file_of_two(), 2, 73, b"20240230")), (11, 2, 7, 73), "20240230",
                            ["20240230 is not a date", "no day 30"], ["20240230 nije datum", "nema dan 30"])
        self.assert_mistake(["wage", self.file(file_of_two()), "--day", "20230229"], (11, 0, 0, 0), "",
                            ["20230229, is not a date", "YYYYMMDD"], ["20230229, nije datum", "GGGGMMDD"])

    def test_9_not_today(self) -> None:
        self.assert_mistake(self.wage(with_bytes(file_of_two(), 1, 0, b"20240227")), (11, 1, 1, 0), "20240227",
                            ["dated 20240227", "date it 20240228"],
                            ["Datum u datoteci je 20240227", "upišite 20240228"])

    def test_9_before_today(self) -> None:
        self.assert_mistake(self.wage(with_bytes(file_of_two(), 2, 73, b"20240227")), (11, 2, 7, 73), "20240227",
                            ["before the day of submission", "Write 20240228 or a later day"],
                            ["prije dana podnošenja", "Upišite 20240228 ili kasniji dan"])

    def test_10_check_of_an_iban(self) -> None:
        words = ["It is the IBAN that fails", "Compare"], ["Kontrolu ne prolazi IBAN", "Usporedite"]
        self.assert_mistake(self.slip(SLIP.replace(b"HR12", b"HR13")), (6, 0, 10, 125), "HR1310", *words)
        self.assert_mistake(self.wage(with_bytes(file_of_two(), 2, 3, b"3")), (6, 2, 1, 0), "HR1310", *words)
        self.assert_mistake(["iban", "HR1310010051863000160"], (6, 0, 0, 0), "", *words)

    def test_10_check_of_an_oib(self) -> None:
        words = ["It is the OIB that fails", "Compare"], ["Kontrolu ne prolazi OIB", "Usporedite"]
        self.assert_mistake(self.wage(with_bytes(file_of_two(), 1, 23, b"4")), (6, 1, 5, 13), "12345678904", *words)
        self.assert_mistake(self.wage(with_bytes(file_of_two(), 4, 561, b"4")), (6, 4, 23, 551), "12345678904", *words)
        self.assert_mistake(["oib", "12345678904"], (6, 0, 0, 0), "", *words)


class Slips(Case):
    def test_accepted(self) -> None:
        ran = run("slip", self.file(SLIP))
        self.assertEqual((ran.status, ran.err), (0, ""))
        lines = ran.out.split("\n")
        self.assertEqual(lines[:5], [
            "accepted", "   1 Header: HRVHUB30", "   2 Currency: EUR", "   3 Amount: 123.55 EUR",
            "   4 Payer (name): ŽELJKO SENEKOVIĆ",
        ])
        self.assertEqual(lines[-2:], ["  14 Description of the payment: Troškovi za 1. mjesec", ""])
        self.assertEqual(len(lines), 16)

    def test_croatian(self) -> None:
        lines = run("--lang", "hr", "slip", self.file(SLIP)).out.split("\n")
        self.assertEqual((lines[0], lines[3]), ("prihvaćeno", "   3 Iznos: 123,55 EUR"))

    def test_json(self) -> None:
        facts = self.answer("slip", self.file(SLIP))
        self.assertEqual((facts["cents"], facts["changed"], len(facts["fields"])), (12355, False, 14))
        self.assertEqual(facts["fields"][3], {"number": 4, "name": "Payer (name)", "content": "ŽELJKO SENEKOVIĆ"})

    def test_empty_field(self) -> None:
        ran = run("slip", self.file(slip_of(replaced(SLIP_FIELDS, 0, b""))))
        self.assertIn("\n   4 Payer (name):\n", ran.out)

    def test_scan(self) -> None:
        file = self.file(b"]L2" + SLIP.replace(b"\n", b"\r\n"))
        self.assertEqual(run("slip", file).status, 1)
        ran = run("slip", "--scan", file)
        self.assertEqual((ran.status, ran.out.split("\n")[1]), (0, "mended: what the barcode reader had added or lost"))
        self.assertTrue(self.answer("slip", file, "--scan")["changed"])
        self.assertFalse(self.answer("slip", self.file(SLIP), "--scan")["changed"])
        self.assertEqual(run("slip", self.file(SLIP), "--scan"), run("slip", self.file(SLIP)))

    def test_scan_of_what_stays_refused(self) -> None:
        file = self.file(SLIP.replace(b"\n", b"\r\n").replace(b"HR12", b"HR13"))
        refusal = self.answer("slip", file, "--scan", status=1)["refusal"]
        self.assertEqual((refusal["number"], refusal["field"], refusal["content"]), (6, 10, "HR1310010051863000160"))
        self.assertNotIn("With --scan", run("slip", file).out)

    def test_large_file(self) -> None:
        ran = run("slip", self.file(b"\n" * 3_000_000))
        self.assertEqual(ran.status, 1)
        self.assertIn("refused 1: The input has the wrong size.", ran.out)
        self.assertIn("65,536 were read", ran.out)
        self.assertLess(len(ran.out), 500)


class Ledger(Case):
    def test_kuna(self) -> None:
        ran = run("ledger", self.file(KUNA))
        self.assertEqual((ran.status, ran.err), (0, ""))
        lines = ran.out.split("\n")
        self.assertEqual(lines[:4], [
            "accepted: a kuna slip, read for the ledger, not to be paid", "   1 Header: HRVHUB30", "   2 Currency: HRK",
            "   3 Amount: 123.55 HRK (16.40 EUR at 7.53450)",
        ])
        self.assertEqual((lines[10], len(lines)), ("  10 Recipient's IBAN or account: 1001005-1863000160", 16))

    def test_kuna_in_croatian(self) -> None:
        lines = run("--lang", "hr", "ledger", self.file(KUNA)).out.split("\n")
        self.assertEqual(lines[0], "prihvaćeno: uplatnica u kunama, pročitana za poslovne knjige, ne za plaćanje")
        self.assertEqual(lines[3], "   3 Iznos: 123,55 HRK (16,40 EUR po tečaju 7,53450)")
        self.assertEqual(lines[10], "  10 IBAN ili račun primatelja: 1001005-1863000160")

    def test_euro(self) -> None:
        of_slip = run("slip", self.file(SLIP)).out.split("\n")
        lines = run("ledger", self.file(SLIP)).out.split("\n")
        self.assertEqual((lines[0], lines[1:]), ("accepted: a euro slip", of_slip[1:]))
        croatian = run("ledger", self.file(SLIP), "--lang", "hr").out.split("\n")
        self.assertEqual(croatian[0], "prihvaćeno: uplatnica u eurima")

    def test_json(self) -> None:
        facts = self.answer("ledger", self.file(KUNA))
        fields = facts.pop("fields")
        self.assertEqual(facts, {"accepted": True, "changed": False, "currency": "HRK", "lipa": 12355, "converted": 1640})
        self.assertEqual([field["content"].encode() for field in fields], ACCEPTED[2])
        facts = self.answer("ledger", self.file(SLIP))
        self.assertEqual((facts["currency"], facts["cents"]), ("EUR", 12355))
        self.assertEqual(set(facts) & {"lipa", "converted"}, set())

    def test_standard_input(self) -> None:
        for asked in (["ledger"], ["ledger", "-"]):
            for fields in ACCEPTED:
                self.assertEqual(run(*asked, given=joined(fields)).status, 0)
            self.assertEqual(run(*asked, given=KUNA[:-1]).status, 1)

    def test_scan(self) -> None:
        file = self.file(b"]L2" + KUNA.replace(b"\n", b"\r\n"))
        ran = run("ledger", file)
        self.assertEqual((ran.status, "With --scan this slip is accepted." in ran.out), (1, True))
        self.assertTrue(self.answer("ledger", file, "--scan")["changed"])
        self.assertIn("mended", run("ledger", "--scan", file).out)

    def test_refused(self) -> None:
        file = self.file(KUNA.replace(b"1001005-", b"1001005A"))
        refusal = self.answer("ledger", file, status=1)["refusal"]
        self.assertEqual((refusal["number"], refusal["field"], refusal["content"]), (5, 10, "1001005A1863000160"))
        self.assertIn("a hyphen and ten digits", run("ledger", file).out)

    def test_kuna_is_no_slip(self) -> None:
        """It is refused, and `--scan` does not mend it; the hint names `ledger`."""
        for asked in (["slip", self.file(KUNA)], ["slip", self.file(KUNA), "--scan"]):
            facts = self.answer(*asked, status=1)
            self.assertEqual((facts["refusal"]["number"], facts["refusal"]["field"], facts["refusal"]["byte"]), (5, 2, 9))
            self.assertEqual(set(facts), {"accepted", "refusal"})
            for language in ("en", "hr"):
                ran = run(*asked, "--lang", language)
                self.assertEqual(ran.status, 1)
                self.assertIn("`ledger`", ran.out)
                self.assertNotIn("--scan", ran.out)


class Standing(Case):
    def sheets(self, farm: bytes, association: bytes) -> List[str]:
        """The options for two sheets."""
        options = []
        for name, sheet in (("farm", farm), ("association", association)):
            (self.folder / name).write_bytes(sheet)
            options += [f"--{name}", str(self.folder / name)]
        return options

    def test_all_fields(self) -> None:
        ran = run("standing", *self.sheets(FARM, ASSOCIATION))
        self.assertEqual((ran.status, ran.err), (0, ""))
        self.assertEqual(ran.out.split("\n"), [
            "accepted: standing text",
            "   4 Payer (name), farm's sheet: OPG HORVAT",
            "   5 Payer's address (street and number), in neither sheet",
            "   6 Payer's address (postal code and town), farm's sheet: 42000 VARAŽDIN",
            "   7 Recipient (name), association's sheet: UDRUGA",
            "   8 Recipient's address (street and number), in neither sheet",
            "   9 Recipient's address (postal code and town), in neither sheet",
            "  13 Purpose code, association's sheet: WTER",
            "  14 Description of the payment, farm's sheet: (empty)",
            "",
        ])

    def test_croatian(self) -> None:
        lines = run("standing", *self.sheets(FARM, ASSOCIATION), "--lang", "hr").out.split("\n")
        self.assertEqual(lines[:3], [
            "prihvaćeno: stalni tekst", "   4 Platitelj (naziv/ime i prezime), predložak gospodarstva: OPG HORVAT",
            "   5 Adresa platitelja (ulica i broj), ni u jednom predlošku",
        ])
        self.assertEqual(lines[7:9], [
            "  13 Šifra namjene, predložak udruge: WTER", "  14 Opis plaćanja, predložak gospodarstva: (prazno)"])

    def test_one_field(self) -> None:
        asked = ["standing", *self.sheets(FARM, ASSOCIATION)]
        self.assertEqual(run(*asked, "13").out, "accepted: standing text\n  13 Purpose code, association's sheet: WTER\n")
        self.assertEqual(self.answer(*asked, "13")["fields"], [
            {"number": 13, "name": "Purpose code", "sheet": "association", "content": "WTER"}])

    def test_text_as_it_is(self) -> None:
        """What a text ends in is part of it."""
        ran = run("standing", *self.sheets(b"14=Voda: \n", b""), "14")
        self.assertEqual(ran.out.split("\n")[1], "  14 Description of the payment, farm's sheet: Voda: ")

    def test_json(self) -> None:
        facts = self.answer("standing", *self.sheets(FARM, ASSOCIATION))
        self.assertEqual([(field["number"], field["sheet"], field["content"]) for field in facts["fields"]], [
            (4, "farm", "OPG HORVAT"), (5, None, ""), (6, "farm", "42000 VARAŽDIN"), (7, "association", "UDRUGA"),
            (8, None, ""), (9, None, ""), (13, "association", "WTER"), (14, "farm", ""),
        ])

    def test_one_sheet_or_none(self) -> None:
        facts = self.answer("standing", "--association", self.file(ASSOCIATION))
        self.assertEqual([field["sheet"] for field in facts["fields"] if field["content"]], 4 * ["association"])
        facts = self.answer("standing")
        self.assertEqual([(field["sheet"], field["content"]) for field in facts["fields"]], 8 * [(None, "")])

    def test_standard_input(self) -> None:
        facts = self.answer("standing", "--farm", "-", "--association", self.file(ASSOCIATION), "4", given=FARM)
        self.assertEqual(facts["fields"][0]["content"], "OPG HORVAT")
        facts = self.answer("standing", "--association", "-", "4", given=ASSOCIATION)
        self.assertEqual(facts["fields"][0]["sheet"], "association")
        for language, words in (("en", "cannot both be standard input"), ("hr", "ne mogu oboje biti standardni ulaz")):
            self.assert_failed(run("standing", "--farm", "-", "--association", "-", "--lang", language), words)

    def test_malformed(self) -> None:
        for farm, association, sheet in ((b"4=IVO\n5", b"x", "farm"), (FARM, b"4=IVO\n5", "association")):
            for field in ([], ["14"]):
                asked = ["standing", *self.sheets(farm, association), *field]
                refusal = self.answer(*asked, status=1)["refusal"]
                self.assertEqual((refusal["number"], refusal["line"], refusal["sheet"]), (20, 2, sheet))
                ran = run(*asked)
                self.assertEqual(ran.status, 1)
                self.assertTrue(ran.out.startswith(f"refused 20: Line 2 of the {sheet}'s sheet: "), ran.out)
                self.assertIn("\n  5\n  rule: A field's number, ", ran.out)
                self.assertIn("\n  hint: The last line has no LF at its end.", ran.out)
        ran = run(*asked, "--lang", "hr")
        self.assertTrue(ran.out.startswith("odbijeno 20: Redak 2 predloška udruge: "), ran.out)

    def test_other_field(self) -> None:
        for field in ("10", "0", "9" * 19):
            ran = run("standing", *self.sheets(b"x", b"x"), field)
            self.assertEqual(ran, (1, "refused 28: Only the fields 4 to 9, 13 and 14 have standing text.\n", ""))

    def test_wrong_usage(self) -> None:
        for field in ("x", "-4", "4.0", "9" * 20, ""):
            self.assert_failed(run("standing", "--", field), "not a field number")
        self.assert_failed(run("standing", "x", "--lang", "hr"), "nije broj polja")
        self.assert_failed(run("standing", "--farm", str(self.folder / "none")), "cannot be read")
        self.assert_failed(run("standing", "--farm"), "expected one argument")

    def test_large_file(self) -> None:
        """What is not read of a sheet changes nothing: the malformed line begins before it."""
        ran = run("standing", *self.sheets(FARM + b"x" * 3_000_000, b""))
        self.assertEqual(ran.status, 1)
        self.assertTrue(ran.out.startswith("refused 20: Line 4 of the farm's sheet: "))
        self.assertLess(len(ran.out), 600)


class Wages(Case):
    def test_accepted(self) -> None:
        file = self.file(file_of([700, 1, 1300]))
        self.assertEqual(run("wage", file, *ON_DAY),
                         (0, "accepted: lines 2,006, groups 3, orders 2,001, sum 247,223.55 EUR\n", ""))
        self.assertEqual(run("wage", file, *ON_DAY, "--lang", "hr"),
                         (0, "prihvaćeno: slogova 2.006, grupa 3, naloga 2.001, zbroj 247.223,55 EUR\n", ""))
        self.assertEqual(self.answer("wage", file, *ON_DAY),
                         {"accepted": True, "lines": 2006, "groups": 3, "orders": 2001, "cents": 2001 * 12355})

    def test_today(self) -> None:
        for today, status in ((datetime.date(2024, 2, 28), 0), (datetime.date(2024, 2, 29), 1)):
            with mock.patch("lanecockle.command._today", return_value=today):
                self.assertEqual(run("wage", self.file(file_of_two())).status, status)
        self.assertIn(command._today() - datetime.date.today(), (datetime.timedelta(0), datetime.timedelta(-1)))

    def test_parts(self) -> None:
        """Refused in a late part, the file is explained as it is in memory."""
        file = with_bytes(file_of([1500, 1500]), 2900, 350, b" ")
        with mock.patch("lanecockle.command._PART", 4099):
            answer = self.answer("wage", self.file(file), *ON_DAY, status=1)
        judging = Judging(DAY)
        judging.feed(file)
        self.assertEqual(answer["refusal"], judging.end().as_dict())  # type: ignore[union-attr]
        self.assertEqual(answer["refusal"]["line"], 2900)
        self.assertEqual(answer["read"], {"lines": 2899, "groups": 2, "orders": 2896, "cents": 2896 * 12355})

    def test_read_before_a_refusal(self) -> None:
        """In JSON a refused file tells what was read before the refused line, none of a day that is no date."""
        file = file_of([2, 1])
        for changed, day, read in (
            (with_bytes(file, 4, 350, b" "), DAY, (3, 1, 1, 12355)), (with_bytes(file, 2, 72, b"9"), DAY, (4, 1, 2, 24710)),
            (file[:-LINE], DAY, (6, 2, 3, 37065)), (b"", DAY, (0, 0, 0, 0)), (file, 20230229, (0, 0, 0, 0)),
        ):
            facts = self.answer("wage", self.file(changed), "--day", str(day), status=1)
            self.assertEqual(tuple(facts["read"].values()), read)
            self.assertEqual(list(facts), ["accepted", "refusal", "read"])

    def test_first_line_in_short_parts(self) -> None:
        file = self.file(b"\xEF\xBB\xBF" + file_of_two())
        whole = self.answer("wage", file, *ON_DAY, status=1)
        with mock.patch("lanecockle.command._PART", 1003):
            self.assertEqual(self.answer("wage", file, *ON_DAY, status=1), whole)

    def test_not_read_on(self) -> None:
        """Behind the part in which a file is refused, nothing of it is read."""
        file = io.BytesIO(with_bytes(file_of([300]), 3, 350, b" "))
        judging = Judging(DAY)
        with mock.patch("lanecockle.command._PART", 10_000):
            command._feed(judging, file, command.Progress(None, 0, "en"))
        self.assertEqual((judging.refused, file.tell()), (True, 10_000))

    def test_number_of_orders(self) -> None:
        for digit, figures, words in (
            (b"1", {"declared": 1, "counted": 2}, "declared 1, counted 2 with this line"),
            (b"3", {"declared": 3, "counted": 2}, "declared 3, counted 2\n"),
        ):
            file = self.file(with_bytes(file_of_two(), 2, 52, digit))
            refusal = self.answer("wage", file, *ON_DAY, status=1)["refusal"]
            self.assertEqual((refusal["number"], refusal["figures"]), (12, figures))
            self.assertIn(words, run("wage", file, *ON_DAY).out)

    def test_sum(self) -> None:
        file = self.file(with_bytes(file_of([2]), 2, 72, b"9"))
        refusal = self.answer("wage", file, *ON_DAY, status=1)["refusal"]
        self.assertEqual((refusal["number"], refusal["figures"]), (13, {"declared": 24719, "summed": 24710}))
        self.assertIn("declared 247.19 EUR, summed 247.10 EUR", run("wage", file, *ON_DAY).out)
        self.assertIn("upisano 247,19 EUR, zbrojeno 247,10 EUR", run("wage", file, *ON_DAY, "--lang", "hr").out)

    def test_standard_input(self) -> None:
        for asked in (["wage", *ON_DAY], ["wage", "-", *ON_DAY], [*["wage", *ON_DAY], "-"]):
            self.assertEqual(run(*asked, given=file_of_two()).status, 0)
            self.assertEqual(run(*asked, given=file_of_two()[:-1]).status, 1)


class Bars(Case):
    def bar(self, size: int, language: str = "en") -> Tuple[command.Progress, Terminal, List[float]]:
        """A bar on a terminal, and the clock that it looks at."""
        stream, now = Terminal(), [100.0]
        return command.Progress(stream, size, language, lambda: now[0]), stream, now

    def judging(self) -> Judging:
        judging = Judging(DAY)
        judging.feed(file_of([1200])[:1100 * LINE])
        return judging

    def test_from_a_second_on(self) -> None:
        bar, stream, now = self.bar(4_000_000)
        judging = self.judging()
        for at, seen in ((100.9, 0), (101.0, 1), (101.05, 1), (101.2, 2)):
            now[0] = at
            bar.tell(1_000_000, judging)
            self.assertEqual(stream.getvalue().count("\r"), seen)
        self.assertEqual(stream.getvalue().split("\r")[1], "[####------------] 1 of 4 MB, lines 1,100, orders 1,098")

    def test_cleared(self) -> None:
        bar, stream, now = self.bar(4_000_000)
        now[0] = 102.0
        bar.tell(4_000_000, self.judging())
        shown = stream.getvalue()
        bar.clear()
        bar.clear()
        self.assertEqual(stream.getvalue(), shown + "\r" + " " * (len(shown) - 1) + "\r")

    def test_nothing_to_clear(self) -> None:
        bar, stream, _ = self.bar(1)
        bar.clear()
        self.assertEqual(stream.getvalue(), "")

    def test_shorter_line_covers_a_longer_one(self) -> None:
        bar, stream, now = self.bar(0)
        now[0] = 102.0
        bar.tell(1_000_000_000, self.judging())
        now[0] = 103.0
        bar.tell(2_000_000, self.judging())
        _, long, short = stream.getvalue().split("\r")
        self.assertEqual(len(long), len(short))

    def test_unknown_size_and_croatian(self) -> None:
        bar, stream, now = self.bar(0, "hr")
        now[0] = 102.0
        bar.tell(1_234_567_890, self.judging())
        self.assertEqual(stream.getvalue(), "\r1.234 MB, slogova 1.100, naloga 1.098")
        bar, stream, now = self.bar(1_002_000_000, "hr")
        now[0] = 102.0
        bar.tell(1_234_567_890, self.judging())
        self.assertEqual(stream.getvalue(), "\r[################] 1.234 od 1.002 MB, slogova 1.100, naloga 1.098")

    def test_not_a_terminal(self) -> None:
        pipe = io.StringIO()
        for stream in (pipe, None):
            times = iter([0.0, 10.0, 10.0])
            bar = command.Progress(stream, 10, "en", lambda: next(times))
            bar.tell(5, self.judging())
            bar.clear()
        self.assertEqual(pipe.getvalue(), "")

    def test_of_the_command(self) -> None:
        """A wage file of a known size shows a bar that is gone at the end, refused or not."""
        for file, status in ((file_of([1500]), 0), (file_of([1500])[:-1], 1)):
            with mock.patch.multiple(command.Progress, _PATIENCE=0.0, _PAUSE=0.0), \
                    mock.patch("lanecockle.command._PART", 65_536):
                ran = run("wage", self.file(file), *ON_DAY, err=Terminal())
            self.assertEqual(ran.status, status)
            self.assertIn("[########--------] 0 of 1 MB, lines ", ran.err)
            self.assertTrue(ran.err.endswith(" \r"), ran.err[-90:])
        self.assertEqual(run("wage", self.file(file_of([5])), *ON_DAY, err=Terminal()).err, "")


class Texts(Case):
    def test_accepted(self) -> None:
        for asked, facts in (
            (["iban", "HR1210010051863000160"], {"text": "HR1210010051863000160"}),
            (["oib", "12345678903"], {"text": "12345678903"}),
            (["reference", "HR69", "40002-12345678903-100"], {"model": "HR69", "text": "40002-12345678903-100"}),
            (["reference", "HR99", ""], {"model": "HR99", "text": ""}),
        ):
            self.assertEqual(run(*asked), (0, "accepted\n", ""))
            self.assertEqual(run(*asked, "--lang=hr"), (0, "prihvaćeno\n", ""))
            self.assertEqual(self.answer(*asked), dict(facts, accepted=True))

    def test_standard_input(self) -> None:
        for asked, line in (
            (["iban"], b"HR1210010051863000160"), (["oib"], b"12345678903"),
            (["reference", "HR69"], b"40002-12345678903-100"), (["digit", "ini"], b"10230578901"),
            (["wet"], b"HR01 ??"),
        ):
            for end in (b"", b"\n", b"\r\n", b"\nmore\n"):
                self.assertEqual(run(*asked, given=line + end).status, 0, (asked, end))
            self.assertEqual(run(*asked, given=line + b"x\n").status, 1)

    def test_refused(self) -> None:
        for asked, number, content, mark in (
            (["iban", "SI1210010051863000160"], 5, "SI1210010051863000160", -1), (["iban", ""], 4, "", -1),
            (["iban", "žR1210010051863000160"], 3, "žR1210010051863000160", 0),
            (["oib", "1234567890x"], 3, "1234567890x", 10), (["oib", "1234567890"], 4, "1234567890", -1),
            (["reference", "HR01", "7269-68499637766-00019"], 9, "7269-68499637766-00019", -1),
            (["reference", "HR01", "x"], 3, "x", 0), (["reference", "HR69", "40002"], 8, "40002", -1),
            (["reference", "HR12", "1"], 7, "HR12", -1), (["reference", "hr1", "1"], 5, "hr1", -1),
            (["reference", "HR69", "40002-12345678903-101"], 5, "40002-12345678903-101", -1),
            (["reference", "HR6", "40002-12345678903-101"], 5, "HR6", -1),
            (["wet", "HR?????10051863000160"], 16, "HR?????10051863000160", -1), (["wet", "xx"], 1, "xx", -1),
            (["wet", "xR1210010051863000160"], 3, "xR1210010051863000160", -1),
            (["wet", "HR12", "?"], 7, "HR12", -1), (["wet", "HR01", "?x"], 3, "?x", -1),
            (["digit", "ini", "12x"], 3, "12x", -1), (["digit", "mod11", ""], 1, "", -1),
        ):
            with self.subTest(asked=asked):
                refusal = self.answer(*asked, status=1)["refusal"]
                self.assertEqual((refusal["number"], refusal["content"], refusal["mark"]), (number, content, mark))
                ran = run(*asked)
                self.assertEqual((ran.status, ran.err), (1, ""))
                self.assertTrue(ran.out.startswith(f"refused {number}: "))

    def test_hints_know_the_model(self) -> None:
        self.assertIn("HR69", run("reference", "HR69", "40002").out)

    def test_personal_income(self) -> None:
        asked = ("reference", "HR69", "40002-12345678903-101")
        self.assertEqual(run(*asked).out, (
            "refused 5: The content is not the required word, form or code.\n"
            "  40002-12345678903-101\n"
            "  hint: HR69 asks for a code of the kinds of personal income as the third part; here it is 101. Compare it with "
            "the paper.\n"
            "  hint: If one digit was misread or two were exchanged, the code may be, for example, 100, 110, 191. Write the "
            "right one.\n"))
        self.assertEqual(run(*asked, "--lang", "hr").out, (
            "odbijeno 5: Podatak nije propisana riječ, oblik ili šifra.\n"
            "  40002-12345678903-101\n"
            "  savjet: HR69 traži šifru vrste osobnog primanja kao treći podatak; ovdje je 101. Usporedite podatak s "
            "izvornikom.\n"
            "  savjet: Ako je jedna znamenka krivo pročitana ili su dvije zamijenjene, šifra može biti, na primjer, 100, 110, "
            "191. Upišite pravu.\n"))
        self.assertEqual(run("wet", "HR69", "40002-12345678903-10?").out, "fillings: 1\n40002-12345678903-100\n")
        self.assertEqual(self.answer("wet", "HR69", "4000?-12345678903-???")["count"], 55)

    def test_wet(self) -> None:
        self.assertEqual(run("wet", "HR01", "0?"), (0, "fillings: 1\n00\n", ""))
        self.assertEqual(run("wet", "HR??10010051863000160", "--lang", "hr"),
                         (0, "mogućih dopuna: 1\nHR1210010051863000160\n", ""))
        self.assertEqual(self.answer("wet", "HR01", "??"), {"accepted": True, "count": 10, "fillings": [
            "00", "19", "27", "35", "43", "51", "60", "78", "86", "94"]})
        self.assertEqual(run("wet", "HR1310010051863000160"), (0, "fillings: 0\n", ""))
        self.assertEqual(run("wet", "HR99", ""), (0, "fillings: 1\n\n", ""))

    def test_wet_lines(self) -> None:
        """A line is an IBAN, or a model, one blank and a reference."""
        for line, count in ((b"HR01 ??", 10), (b"HR99 ", 1), (b"HR??10010051863000160", 1)):
            self.assertEqual(self.answer("wet", given=line)["count"], count)
        for line in ("HR?? 1001 0051 8630 0016 0", "HR1210010 051863000160", "HR01"):
            refusal = self.answer("wet", given=line.encode(), status=1)["refusal"]
            self.assertEqual((refusal["number"], refusal["content"]), (1, line))
        self.assertEqual(self.answer("wet", "HR01 ??", status=1)["refusal"]["content"], "HR01 ??")

    def test_wet_hints(self) -> None:
        for asked, what, text in ((["wet", "HR01", "?x"], "reference", b"?x"), (["wet", "?x"], "iban", b"?x"),
                                  (["wet", "HR12", "?"], "model", b"HR12")):
            with mock.patch("lanecockle.hints.of_text", return_value=[]) as hints:
                run(*asked)
            self.assertEqual(hints.call_args[0][:2], (what, text))

    def test_digit(self) -> None:
        self.assertEqual(run("digit", "ini", "10230578901"), (0, "check digit: 6\nnumber with it: 102305789016\n", ""))
        self.assertEqual(run("digit", "mod11", "1234567890", "--lang", "hr").out,
                         "kontrolni broj: 3\nbroj s kontrolnim brojem: 12345678903\n")
        self.assertEqual(self.answer("digit", "mod11", "1234567890"),
                         {"accepted": True, "digit": 3, "number": "12345678903"})

    def test_bytes_that_are_no_text(self) -> None:
        """What a terminal would obey is shown, not sent to it."""
        ran = run("iban", "HR\x1B[2J\udcff\x07")
        self.assertIn("  HR␛[2J·␇\n", ran.out)


class Usage(Case):
    COMMANDS = ("slip", "ledger", "wage", "wet", "iban", "oib", "reference", "digit", "page")

    def test_help(self) -> None:
        ran = run("--help")
        self.assertEqual((ran.status, ran.err), (0, ""))
        for word in (*self.COMMANDS, "--lang", "--json", "--version", "Exit status: 0 accepted", "usage: lanecockle"):
            self.assertIn(word, ran.out)
        self.assertEqual(run("-h"), ran)

    def test_help_in_croatian(self) -> None:
        ran = run("--lang", "hr", "--help")
        self.assertEqual(run("--help", "--lang=hr"), ran)
        self.assertEqual(run("--help", language="hr_HR.UTF-8"), ran)
        for word in ("uporaba: lanecockle", "naredbe:", "opcije:", "Izlazni status: 0 prihvaćeno"):
            self.assertIn(word, ran.out)
        for word in ("usage", "options:", "show this", "judge"):
            self.assertNotIn(word, ran.out)

    def test_help_of_commands(self) -> None:
        for name in self.COMMANDS:
            for language, usage in (("en", "usage"), ("hr", "uporaba")):
                ran = run(name, "--help", "--lang", language)
                self.assertEqual((ran.status, ran.err), (0, ""))
                self.assertTrue(ran.out.startswith(f"{usage}: lanecockle {name} "), ran.out)
                self.assertIn("--json", ran.out)
        self.assertIn("--day", run("wage", "-h").out)
        self.assertIn("--scan", run("slip", "-h").out)
        self.assertIn("--scan", run("ledger", "-h").out)

    def test_version(self) -> None:
        for asked in (["--version"], ["slip", "--version"]):
            self.assertEqual(run(*asked), (0, f"lanecockle {__version__}\n", ""))

    def test_wrong_usage(self) -> None:
        for asked, words in (
            ([], "COMMAND"), (["slop"], "slop"), (["slip", "a", "b"], "b"), (["slip", "--frob"], "--frob"),
            (["slip", "--day"], "--day"),
            (["wage", "--day"], "--day"), (["wage", "--day", "today"], "YYYYMMDD"),
            (["wage", "--day", "2024-02-28"], "YYYYMMDD"), (["wage", "--day", "2024228"], "YYYYMMDD"),
            (["wage", "--day", "２０２４０２２８"], "YYYYMMDD"), (["reference"], "MODEL"), (["digit"], "RULE"),
            (["digit", "luhn", "1"], "luhn"), (["wet", "a", "b", "c"], "c"), (["iban", "a", "--lang", "de"], "de"),
            (["iban", "a", "--lang"], "--lang"), (["iban", "a", "--js"], "--js"),
            (["page", "--port", "65536"], "65536"), (["page", "--port", "x"], "port"),
        ):
            with self.subTest(asked=asked):
                ran = run(*asked)
                self.assert_failed(ran, words)
                self.assertIn("--help", ran.err)

    def test_wrong_usage_in_croatian(self) -> None:
        for asked, words in (
            ([], "nedostaje: NAREDBA"), (["slop"], "NAREDBA: 'slop' nije jedno od: "),
            (["slip", "a", "b"], "nepoznato: b"), (["wage", "--day"], "--day: nedostaje vrijednost"),
            (["wage", "--day", "2024"], "--day: '2024' nije GGGGMMDD"), (["page", "--port", "x"], "--port: 'x' nije port"),
            (["slip", "--scan=1"], "--scan: vrijednost '1' ovdje nije dozvoljena"),
        ):
            with self.subTest(asked=asked):
                ran = run("--lang", "hr", *asked)
                self.assert_failed(ran, words)
                self.assertIn("(pomoć: ", ran.err)
        self.assertIn("[--day GGGGMMDD]", run("wage", "--help", "--lang", "hr").out)

    def test_unreadable(self) -> None:
        for name in ("slip", "ledger", "wage"):
            missing = str(self.folder / "none")
            self.assert_failed(run(name, missing), missing)
            self.assert_failed(run(name, missing, "--json"), missing)
            self.assert_failed(run(name, str(self.folder), "--lang", "hr"), "ne može se pročitati: to je mapa")
            self.assert_failed(run(name, missing, "--lang", "hr"), "ne može se pročitati: ne postoji")

    def test_one_line_of_whatever_name(self) -> None:
        self.assert_failed(run("slip", str(self.folder / "a\n\x1B[2Jb\udcff")), "a··[2Jb·")
        self.assert_failed(run("slip", "a", "b\nc"), "b·c")

    def test_no_standard_input(self) -> None:
        with mock.patch("sys.stdin", None), mock.patch("sys.stderr", io.StringIO()) as err:
            self.assertEqual(command.main(["slip", "--lang", "en"]), 2)
        self.assertEqual(err.getvalue(), "lanecockle: standard input: cannot be read: closed\n")

    def test_options_anywhere(self) -> None:
        expected = run("wet", "HR01", "??", "--json", "--lang", "hr")
        for asked in (
            ["--json", "--lang", "hr", "wet", "HR01", "??"], ["wet", "--json", "HR01", "--lang=hr", "??"],
            ["--lang", "hr", "wet", "HR01", "--json", "??"], ["wet", "--lang", "hr", "--json", "--", "HR01", "??"],
        ):
            self.assertEqual(run(*asked), expected)

    def test_text_that_looks_like_an_option(self) -> None:
        self.assertEqual(run("reference", "HR01", "--", "--json").status, 1)
        self.assertEqual(run("reference", "--", "HR01", "-1").status, 1)
        self.assertEqual(run("--json", "reference", "--", "HR01", "--lang").out[:20], '{"accepted": false, ')

    def test_language_of_the_environment(self) -> None:
        for environment, language in (
            ({}, "en"), ({"LANG": "hr"}, "hr"), ({"LANG": "hr_HR.UTF-8"}, "hr"), ({"LANG": "hr@latin"}, "hr"),
            ({"LANG": "hrx"}, "en"), ({"LANG": "hr_HR", "LC_ALL": "C"}, "en"),
            ({"LANG": "C", "LC_MESSAGES": "hr_HR"}, "hr"),
            ({"LC_ALL": "", "LC_MESSAGES": "", "LANG": "hr_HR"}, "hr"), ({"LC_ALL": "hr_HR", "LC_MESSAGES": "C"}, "hr"),
            ({"LC_MESSAGES": "en_GB", "LANG": "hr_HR"}, "en"),
        ):
            self.assertEqual(command._language(environment), language, environment)
        self.assertEqual(run("oib", "12345678903", language="hr_HR.UTF-8").out, "prihvaćeno\n")
        self.assertEqual(run("oib", "12345678903", "--lang", "en", language="hr_HR.UTF-8").out, "accepted\n")

    def test_page(self) -> None:
        page = mock.Mock()
        page.serve.return_value = 2
        with mock.patch.dict(sys.modules, {"lanecockle.page": page}):
            self.assertEqual(run("page", "--port", "8080", "--no-browser", "--lang", "hr").status, 2)
            self.assertEqual(run("page").status, 2)
        self.assertEqual([call[0] for call in page.serve.call_args_list], [(8080, False, "hr"), (0, True, "en")])

    def test_interrupted(self) -> None:
        with mock.patch("lanecockle.command._feed", side_effect=KeyboardInterrupt):
            self.assertEqual(run("wage", self.file(b"")), (130, "", ""))


class Processes(Case):
    """What cannot be seen from inside: streams that are closed, full, or do not know a character."""

    def test_module(self) -> None:
        ran = process("slip", input=SLIP.replace(b"HR12", b"HR13"), stdout=subprocess.PIPE)
        self.assertEqual((ran.returncode, ran.stderr), (1, b""))
        self.assertTrue(ran.stdout.startswith(b"refused 6: Field 10, "))

    def test_closed_pipe(self) -> None:
        read, write = os.pipe()
        os.close(read)
        try:
            ran = process("wet", "HR00", "????", stdout=write)
        finally:
            os.close(write)
        self.assertEqual((ran.returncode, ran.stderr), (0, b""))

    @unittest.skipUnless(os.path.exists("/dev/full"), "this system has no /dev/full")
    def test_full_disk(self) -> None:
        with open("/dev/full", "wb") as full:
            ran = process("oib", "12345678903", stdout=full)
        self.assertEqual((ran.returncode, ran.stderr.count(b"\n")), (2, 1))
        self.assertTrue(ran.stderr.startswith(b"lanecockle: the answer cannot be written: "))

    def test_narrow_encoding(self) -> None:
        ran = process("iban", "HR\t", "--lang", "hr", environment={"PYTHONIOENCODING": "ascii"}, stdout=subprocess.PIPE)
        self.assertEqual((ran.returncode, ran.stderr), (1, b""))
        self.assertIn(b"  HR?\n", ran.stdout)

    def test_nothing_is_written_to_disk(self) -> None:
        process("wage", *ON_DAY, cwd=self.folder, input=file_of_two(), stdout=subprocess.PIPE)
        self.assertEqual(list(self.folder.iterdir()), [])


if __name__ == "__main__":
    unittest.main()
