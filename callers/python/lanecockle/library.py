"""The shared library: its structures and functions, as include/lanecockle.h declares them."""

import ctypes
import os
from ctypes import POINTER, c_char_p, c_size_t, c_uint16, c_uint32, c_uint64
from pathlib import Path
from typing import Any, Callable, Dict

NAME = "liblanecockle.so"

#: The condition of a Record that has refused.
REFUSED = 4


class Told(ctypes.Structure):
    """An answer by its numbers, as a Record keeps its refusal: number 0 is acceptance."""

    number: int
    line: int
    field: int
    byte: int
    needed: int
    _fields_ = [(name, c_size_t) for name in ("number", "line", "field", "byte", "needed")]


class Valued(ctypes.Structure):
    """An answer with a value, which is 0 where the answer is a refusal."""

    told: Told
    value: int
    _fields_ = [("told", Told), ("value", c_size_t)]


class Cents(ctypes.Structure):
    """Exact cents: `high` times 10^18, and `low`."""

    high: int
    low: int
    _fields_ = [("high", c_uint64), ("low", c_uint64)]

    def total(self) -> int:
        """The cents as one number."""
        return self.high * 10**18 + self.low


class Ended(ctypes.Structure):
    """What a wage file comes to: its counts, and what all its orders come to; all of these are 0 where it is refused."""

    told: Told
    lines: int
    groups: int
    orders: int
    total: Cents
    _fields_ = [("told", Told), ("lines", c_size_t), ("groups", c_size_t), ("orders", c_size_t), ("total", Cents)]


class Standing(ctypes.Structure):
    """A standing text: `length` bytes from `start` in the sheet that supplied it, 1 the farm's, 2 the association's, 0 none;
    for 20 the sheet that has the malformed line."""

    told: Told
    sheet: int
    start: int
    length: int
    _fields_ = [("told", Told), ("sheet", c_size_t), ("start", c_size_t), ("length", c_size_t)]


class StandingWritten(ctypes.Structure):
    """How many bytes were written, 0 where the answer is a refusal; for 20 the sheet that has the malformed line."""

    told: Told
    value: int
    sheet: int
    _fields_ = [("told", Told), ("value", c_size_t), ("sheet", c_size_t)]


class Ledger(ctypes.Structure):
    """An answer with the currency of a slip, 1 euro or 2 kuna, and its amount in its own unit; 0 where it is refused."""

    told: Told
    currency: int
    cents: int
    lipa: int
    converted: int
    _fields_ = [
        ("told", Told), ("currency", c_size_t), ("cents", c_uint64), ("lipa", c_uint64), ("converted", c_uint64),
    ]


class Part(ctypes.Structure):
    """A part of the lent bytes."""

    start: int
    length: int
    _fields_ = [("start", c_size_t), ("length", c_size_t)]


class Record(ctypes.Structure):
    """The judge's record, plain data: bytes(record) stores it, Record.from_buffer_copy(stored) brings it back.

    `condition` is 0 fresh, 1 after the label, 2 inside a group, 3 closed, 4 refused, with the refusal in `told`. `lines`,
    `groups` and `orders` are those read so far, `file_total` what all these orders came to; `declared` and `promised` are
    the orders and the sum that the group declares, `counted` and `total` what its own orders came to.
    """

    condition: int
    told: Told
    day: int
    kind: int
    lines: int
    groups: int
    orders: int
    file_total: Cents
    declared: int
    promised: Cents
    counted: int
    total: Cents
    _fields_ = [
        ("condition", c_size_t), ("told", Told), ("day", c_uint64), ("kind", c_uint64), ("lines", c_size_t),
        ("groups", c_size_t), ("orders", c_size_t), ("file_total", Cents), ("declared", c_uint64), ("promised", Cents),
        ("counted", c_uint64), ("total", Cents),
    ]


class Tally(ctypes.Structure):
    """A tally of what was read, plain data that is stored as a Record is: groups, orders, and what these orders come to. It
    begins with zeros."""

    groups: int
    orders: int
    total: Cents
    _fields_ = [("groups", c_size_t), ("orders", c_size_t), ("total", Cents)]


_TEXT = [c_char_p, c_size_t]
_SIZES = [POINTER(c_size_t), c_size_t]
_ENTRIES = [POINTER(c_uint16), c_size_t]

#: Each function: what it answers, and what it takes.
_FUNCTIONS: Dict[str, Any] = {
    "version": (c_uint32, []),
    "check_digits": (Told, [c_uint32] + _TEXT),
    "make_digit": (Valued, [c_uint32] + _TEXT),
    "iban": (Told, _TEXT),
    "oib": (Told, _TEXT),
    "reference": (Told, _TEXT + _TEXT),
    "list_iban": (Valued, _TEXT + _ENTRIES),
    "list_reference": (Valued, _TEXT + _TEXT + _ENTRIES),
    "filled": (Told, _TEXT + [c_uint16] + _TEXT),
    "slip_read": (Told, _TEXT),
    "slip_field": (Part, _TEXT + [c_size_t]),
    "slip_cents": (Valued, _TEXT),
    "slip_write": (Valued, [c_uint64] + _TEXT + _SIZES + _TEXT),
    "standing_text": (Standing, [c_size_t] + _TEXT + _TEXT),
    "slip_write_standing": (StandingWritten, [c_uint64] + _TEXT + _SIZES + _TEXT + _TEXT + _TEXT),
    "ledger_read": (Ledger, _TEXT),
    "ledger_field": (Part, _TEXT + [c_size_t]),
    "lipa_in_cents": (c_uint64, [c_uint64]),
    "judge_begin": (Record, [c_uint64]),
    "judge_step": (Record, [Record] + _TEXT),
    "judge_step_tally": (Record, [Record] + _TEXT + [POINTER(Tally)]),
    "judge_lines": (Record, [Record] + _TEXT),
    "judge_end": (Ended, [Record]),
    "wage_file": (Ended, [c_uint64] + _TEXT),
    "wage_place": (Part, _TEXT + [c_size_t]),
    "write_label": (Told, [c_uint64] + _TEXT + _SIZES + _TEXT),
    "write_order": (Told, [c_uint64, c_uint64] + _TEXT + _SIZES + _TEXT),
    "write_group": (Told, [c_uint64, c_uint64] + _TEXT + _SIZES + _TEXT + _TEXT),
    "write_closing": (Told, [c_uint64] + _TEXT),
}


def path() -> Path:
    """Where the shared library is said to be: LANECOCKLE_LIB (the file or its folder), else beside this module, as a wheel
    has it, else in target/staticlib of the project."""
    named = os.environ.get("LANECOCKLE_LIB")
    if named:
        given = Path(named)
        return given / NAME if given.is_dir() else given
    here = Path(__file__).resolve().parent
    if (here / NAME).is_file():
        return here / NAME
    return here.parents[2] / "target" / "staticlib" / NAME


def load() -> Dict[str, Callable[..., Any]]:
    """The functions of the shared library, by their names without `lanecockle_`."""
    found = path()
    if not found.is_file():
        raise ImportError(f"there is no {found}; write it with callers/build, or name it or its folder in LANECOCKLE_LIB")
    library = ctypes.CDLL(str(found.resolve()))
    functions: Dict[str, Callable[..., Any]] = {}
    for name, (answer, taken) in _FUNCTIONS.items():
        function = library["lanecockle_" + name]
        function.restype = answer
        function.argtypes = taken
        functions[name] = function
    return functions
