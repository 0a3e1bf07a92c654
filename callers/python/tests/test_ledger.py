"""Tests of slips of either currency: read, queried, refused; the two units, and lipa in cents."""

import ctypes
import operator
import unittest
from dataclasses import FrozenInstanceError
from typing import List, Sequence
from unittest import mock

import lanecockle
from lanecockle import (
    FIELDS, EuroCents, LedgerSlip, Lipa, calls, ledger, ledger_field, ledger_read, lipa_in_cents, slip_cents, slip_field,
    slip_read, slip_write,
)
from tests.test_calls import PERSONAL_INCOME, SLIP_FIELDS, Case, refused, replaced

IBAN = b"HR1210010051863000160"
ACCOUNT = b"1001005-1863000160"
REFERENCE = b"7269-68949637676-00018"


def fields_of(currency: bytes = b"HRK", account: bytes = ACCOUNT) -> List[bytes]:
    """The fourteen fields of an accepted slip of 123.55 euro or kuna."""
    fields = replaced(replaced(SLIP_FIELDS, 6, account), 8, REFERENCE)
    return [b"HRVHUB30", currency, b"000000000012355", *fields]


def joined(fields: Sequence[bytes]) -> bytes:
    return b"".join(field + b"\n" for field in fields)


def kuna_with(number: int, text: bytes) -> bytes:
    """A kuna slip with another field, 1 to 14."""
    return joined(replaced(fields_of(), number - 1, text))


#: The slips that are accepted: in euro, in kuna with an IBAN, in kuna with an account.
ACCEPTED = [fields_of(b"EUR", IBAN), fields_of(b"HRK", IBAN), fields_of()]
KUNA = joined(fields_of())


class Read(Case):
    def test_either_currency(self) -> None:
        self.assertEqual([ledger_read(joined(fields)) for fields in ACCEPTED], [EuroCents(12355), Lipa(12355), Lipa(12355)])

    def test_amounts(self) -> None:
        for number in (0, 1, 10**15 - 1):
            digits = b"%015d" % number
            self.assertEqual(ledger_read(joined(replaced(ACCEPTED[0], 2, digits))), EuroCents(number))
            self.assertEqual(ledger_read(kuna_with(3, digits)), Lipa(number))

    def test_fields(self) -> None:
        for fields in ACCEPTED:
            slip = joined(fields)
            self.assertEqual([ledger_field(slip, number) for number in range(4, 15)], fields[3:])
            for number in (0, 1, 2, 3, 15, (1 << 64) - 1):
                self.assertEqual(ledger_field(slip, number), b"")
        self.assertRaises(ValueError, ledger_field, KUNA, -1)

    def test_at_once(self) -> None:
        for kind in (bytes, bytearray, memoryview):
            read = ledger(kind(KUNA))
            self.assertEqual(read, LedgerSlip(Lipa(12355), *(field.decode() for field in fields_of()[3:])))
        self.assertEqual((read.account, read.reference, read.description), (
            "1001005-1863000160", "7269-68949637676-00018", "Troškovi za 1. mjesec"))
        self.assertEqual(ledger(joined(ACCEPTED[0])).amount, EuroCents(12355))

    def test_at_once_by_one_call(self) -> None:
        asked = mock.Mock(wraps=calls._CALLS["ledger_read"])
        # without the other calls
        with mock.patch.dict(calls._CALLS, {"ledger_read": asked}, clear=True):
            ledger(KUNA)
        asked.assert_called_once()

    def test_types(self) -> None:
        for call in (ledger, ledger_read):
            with self.assertRaisesRegex(TypeError, "encode"):
                call("HRVHUB30\n")  # type: ignore[operator]

    def test_all_that_the_library_tells(self) -> None:
        """The converted amount too, which lipa_in_cents gives of any lipa."""
        for fields, told in zip(ACCEPTED, ((1, 12355, 0, 0), (2, 0, 12355, 1640), (2, 0, 12355, 1640))):
            slip = joined(fields)
            read = calls._CALLS["ledger_read"](slip, len(slip))
            self.assertEqual((read.currency, read.cents, read.lipa, read.converted), told)
        read = calls._CALLS["ledger_read"](b"", 0)
        self.assertEqual((read.told.number, read.currency, read.cents, read.lipa, read.converted), (2, 0, 0, 0, 0))
        self.assertEqual(ctypes.sizeof(read), 72)

    def test_another_currency_by_the_library(self) -> None:
        """No number that is told becomes an amount of a wrong unit."""
        told = mock.Mock(return_value=lanecockle.library.Ledger(currency=3, cents=7, lipa=7))
        with mock.patch.dict(calls._CALLS, {"ledger_read": told}):
            self.assertRaises(KeyError, ledger_read, KUNA)


class Refused(Case):
    def assert_all_refused(self, told: Sequence[int], slip: bytes) -> None:
        self.assert_refused(told, ledger_read, slip)
        self.assert_refused(told, ledger, slip)
        self.assertEqual(ledger_field(slip, 4), b"")

    def test_whole(self) -> None:
        self.assert_all_refused([1], b"\n" * 484)
        self.assert_all_refused([2], b"\n" * 483)
        self.assert_all_refused([2], b"")
        self.assert_all_refused([2], KUNA[:-1])

    def test_currency(self) -> None:
        for currency in (b"USD", b"", b"hrk", b"HRK ", b"HRKK", b"HR", b"HRK\r"):
            self.assert_all_refused([5, 0, 2, 9], joined(fields_of(currency, IBAN)))

    def test_fields(self) -> None:
        for number, text, refusal, byte in (
            (1, b"HRVHUB31", 5, 0), (3, b"00000000001235O", 3, 14), (3, b"00000000012355", 4, 0), (4, b"IVAN_", 3, 4),
            (4, "Ž".encode() * 31, 4, 0), (10, b"HR1310010051863000160", 6, 0), (11, b"HRO1", 5, 0), (11, b"HR12", 7, 0),
            (12, b"1-", 8, 0), (12, b"7269-68949637676-00019", 9, 0), (13, b"COSt", 3, 3), (14, b"\xC4", 3, 0),
        ):
            for fields in ACCEPTED:
                changed = replaced(fields, number - 1, text)
                start = sum(len(field) + 1 for field in changed[:number - 1])
                self.assert_all_refused([refusal, 0, number, start + byte], joined(changed))

    def test_personal_income(self) -> None:
        for fields in ACCEPTED:
            for text, number in PERSONAL_INCOME:
                changed = replaced(replaced(fields, 10, b"HR69"), 11, text)
                start = sum(len(field) + 1 for field in changed[:11])
                self.assert_told([number, 0, 12, start], ledger_read, joined(changed))

    def test_account(self) -> None:
        start = KUNA.index(ACCOUNT)
        for text, refusal, byte in (
            (b"1001005A1863000160", 5, 0), (b"100100518-63000160", 5, 0), (b"1001005--863000160", 5, 0),
            (b"1001005-186300016", 4, 0), (b"100100518630001601234", 4, 0), (b"1001005 1863000160", 3, 7),
            (b"1001005-186300016a", 3, 17), (b"HR12-0010051863000160", 3, 4), (b"-001005-1863000160", 3, 0), (b"", 4, 0),
        ):
            self.assert_all_refused([refusal, 0, 10, start + byte], kuna_with(10, text))
        self.assertEqual(ledger_read(kuna_with(10, b"0000000-0000000000")), Lipa(12355))

    def test_account_in_a_euro_slip(self) -> None:
        self.assert_all_refused([3, 0, 10, KUNA.index(ACCOUNT) + 7], joined(fields_of(b"EUR")))


class ForEuroReaders(Case):
    def test_kuna_is_none(self) -> None:
        for fields in ACCEPTED[1:]:
            for call in (slip_read, slip_cents, lanecockle.slip):
                self.assert_refused([5, 0, 2, 9], call, joined(fields))
            self.assertEqual(slip_field(joined(fields), 10), b"")
        self.assert_refused([3, 0, 10, 7], slip_write, 12355, fields_of()[3:])

    def test_euro_is_the_same(self) -> None:
        right = joined(ACCEPTED[0])
        for slip in (right, right[1:], b"", right.replace(b"HR12", b"HR13"), right.replace(b"COST", b"COSt")):
            told, others = refused(slip_read, slip), refused(ledger_read, slip)
            self.assertEqual(told and told.args, others and others.args)
            self.assertEqual([slip_field(slip, number) for number in range(16)],
                             [ledger_field(slip, number) for number in range(16)])
        self.assertEqual(ledger_read(right), EuroCents(slip_cents(right)))


class Units(Case):
    def test_nothing_is_added(self) -> None:
        amounts = [EuroCents(1), Lipa(1), 1]
        for operation in (operator.add, operator.sub, operator.mul, operator.iadd, operator.lt):
            for one in amounts[:2]:
                for other in amounts:
                    self.assertRaises(TypeError, operation, one, other)
                    self.assertRaises(TypeError, operation, other, one)
        self.assertRaises(TypeError, sum, [Lipa(1), Lipa(2)])

    def test_units_differ(self) -> None:
        self.assertNotEqual(EuroCents(1), Lipa(1))
        self.assertEqual((Lipa(1), hash(Lipa(1))), (Lipa(1), hash(Lipa(1))))
        self.assertFalse(hasattr(Lipa(1), "cents") or hasattr(EuroCents(1), "lipa"))

    def test_amounts_stay(self) -> None:
        with self.assertRaises(FrozenInstanceError):
            Lipa(1).lipa = 2  # type: ignore[misc]

    def test_lipa_in_cents(self) -> None:
        for lipa, cents in (
            (0, 0), (3, 0), (4, 1), (12355, 1640), (75345, 10000), (10**15 - 1, 132722808414626),
            (922337203685477, 122415183978429), (922337203685478, 122415183978430), ((1 << 64) - 1, 2448303679568591362),
        ):
            self.assertEqual(lipa_in_cents(Lipa(lipa)), EuroCents(cents))

    def test_nearest(self) -> None:
        """Twice the distance from the exact amount is below a cent."""
        for lipa in [*range(20_000), *((1 << bit) + more for bit in range(20, 64) for more in range(-20, 20))]:
            self.assertLess(2 * abs(lipa_in_cents(Lipa(lipa)).cents * 75345 - lipa * 10000), 75345)

    def test_lipa_alone_are_converted(self) -> None:
        for other in (12355, EuroCents(12355), b"12355", None):
            self.assertRaises(TypeError, lipa_in_cents, other)
        self.assertRaises(ValueError, lipa_in_cents, Lipa(-1))
        self.assertRaises(ValueError, lipa_in_cents, Lipa(1 << 64))
        self.assertRaises(TypeError, lipa_in_cents, Lipa(1.5))  # type: ignore[arg-type]


class Fields(unittest.TestCase):
    def test_those_that_differ(self) -> None:
        of_kuna = {number: field for (layout, number), field in FIELDS.items() if layout == "kuna"}
        self.assertEqual(list(of_kuna), [2, 3, 10])
        for number, field in of_kuna.items():
            self.assertNotEqual(field.rule, FIELDS["slip", number].rule)
            # as long as the table says, the field is accepted; longer, it is refused
            full = {2: b"HRK", 3: b"0" * 15, 10: IBAN}[number]
            self.assertEqual(len(full), field.width)
            self.assertIsInstance(ledger_read(kuna_with(number, full)), Lipa)
            self.assertIsNotNone(refused(ledger_read, kuna_with(number, full + full[-1:])))


if __name__ == "__main__":
    unittest.main()
