"""Lanecockle for Python: HUB3 payment slips and their standing text, kuna slips for the ledgers, wage files of
300/301/309/399 lines, wet slips and check digits.

The checks are those of a proved library, liblanecockle.so, which an installed package has inside it. Text is bytes: a slip
is UTF-8, a wage file WIN-1250 (cp1250 in Python). A call that refuses raises Refusal, with its number, its place, and one
sentence in English, str(refusal), or Croatian, refusal.croatian().

    >>> iban(b"HR1210010051863000160")
    >>> try:
    ...     iban(b"HR1310010051863000160")
    ... except Refusal as refusal:
    ...     print(refusal.number, refusal, refusal.croatian())
    6 The check of the IBAN or OIB fails. IBAN ili OIB ne prolazi kontrolu.
    >>> list_iban(b"HR??10010051863000160")
    [12]

No call keeps anything, so any number of threads may call. Numbers count as in the documents: lines and fields from 1,
bytes from 0, and 0 stands for none.
"""

from . import explain, hints
from .calls import (
    LINE, STANDING, Amount, Counts, EuroCents, Judge, LedgerSlip, Lipa, Rule, Slip, StandingText, check_digits, filled,
    iban, ledger, ledger_field, ledger_read, lipa_in_cents, list_iban, list_reference, make_digit, oib, reference,
    sheet_text, slip, slip_cents, slip_field, slip_read, slip_write, slip_write_standing, standing_text, version, wage_file,
    wage_place, write_closing, write_group, write_label, write_order,
)
from .judging import Accepted, Judging
from .library import Cents, Record, Tally, Told
from .refusal import Refusal, Sheet
from .running import RunningTotal
from .scan import BarcodeWarning, compact, scanned
from .tables import FIELDS, KINDS, VERSION as __version__, Field

__all__ = [
    "FIELDS", "KINDS", "LINE", "STANDING", "Accepted", "Amount", "BarcodeWarning", "Cents", "Counts", "EuroCents", "Field",
    "Judge", "Judging", "LedgerSlip", "Lipa", "Record", "Refusal", "Rule", "RunningTotal", "Sheet", "Slip", "StandingText",
    "Tally", "Told", "__version__", "check_digits", "compact", "explain", "filled", "hints", "iban", "ledger",
    "ledger_field", "ledger_read", "lipa_in_cents", "list_iban", "list_reference", "make_digit", "oib", "reference",
    "scanned", "sheet_text", "slip", "slip_cents", "slip_field", "slip_read", "slip_write", "slip_write_standing",
    "standing_text", "version", "wage_file", "wage_place", "write_closing", "write_group", "write_label", "write_order",
]
