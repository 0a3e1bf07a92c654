"""What readers and people add to a text, taken off; and the height of a slip's barcode."""

import re
import warnings
from codecs import BOM_UTF8
from typing import Union

# ----------------------------------------------------------------------------------------------------------------------
# Slips as barcode readers send them

_FEEDS = 14

#: Byte order marks and AIM identifiers of PDF417, `]L` and a digit, at the front.
_FRONT = re.compile(b"(?:" + BOM_UTF8 + rb"|\]L[0-9])*")

#: The characters that a slip may have.
_PERMITTED = re.compile(r"[0-9A-Za-z ,.:+?'/()ČčĆćĐđŠšŽž\n-]*")

#: The byte of each character of latin-1 and of cp1252, which differ in no character that both have.
_ONE_BYTE = {chr(byte): byte for byte in range(256)}
_ONE_BYTE.update({bytes([byte]).decode("cp1252", "ignore") or chr(byte): byte for byte in range(0x80, 0xA0)})


def scanned(data: Union[bytes, bytearray, memoryview]) -> bytes:
    """A slip without what barcode readers add: give it the reader's bytes, not its text.

    It takes off AIM identifiers as `]L2`, byte order marks, NUL at the end and surplus line feeds at the end, adds a
    lost last line feed, makes LF of CR LF and of CR, and undoes UTF-8 that was encoded twice. It changes nothing else,
    so a right slip is returned as it is; what it returns may still be refused.

        >>> scanned(b"]L2HRVHUB30\\r\\nEUR\\r\\n")
        b'HRVHUB30\\nEUR\\n'
    """
    if isinstance(data, str):
        raise TypeError("take the reader's bytes, not its text")
    data = bytes(data)
    # What is taken off may have hidden something of the same kind.
    while True:
        mended = _mended(data)
        if mended == data:
            return data
        data = mended


def _mended(data: bytes) -> bytes:
    data = _without_front(data.rstrip(b"\0"))
    data = data.replace(b"\r\n", b"\n").replace(b"\r", b"\n")
    return _ended(_encoded_once(data))


def _without_front(data: bytes) -> bytes:
    front = _FRONT.match(data)
    return data[front.end():] if front else data


def _encoded_once(data: bytes) -> bytes:
    """UTF-8 that was taken for a text of one byte to a character and encoded again, as it was before; else as it is."""
    try:
        once = bytes(_ONE_BYTE[character] for character in data.decode("utf-8"))
        text = _without_front(once).decode("utf-8")
    except (KeyError, UnicodeDecodeError):
        return data
    return once if _PERMITTED.fullmatch(text) else data


def _ended(data: bytes) -> bytes:
    """A slip with fourteen line feeds, the last at its end, where one is missing there or some are too many there."""
    count = data.count(b"\n")
    if count == _FEEDS - 1 and not data.endswith(b"\n"):
        return data + b"\n"
    surplus = count - _FEEDS
    # Of the line feeds at the end one must stay: else the surplus stands inside.
    if surplus > 0 and data.endswith(b"\n" * (surplus + 1)):
        return data[:-surplus]
    return data


# ----------------------------------------------------------------------------------------------------------------------
# Texts as people type them

_BLANKS = re.compile("[\\s\u200b\u2060\ufeff]+")
_HYPHENS = dict.fromkeys(map(ord, "\u2010\u2011\u2012\u2013\u2014\u2015\u2212\ufe63\uff0d"), "-")


def compact(text: Union[str, bytes, bytearray, memoryview]) -> bytes:
    """An IBAN, OIB, model or reference as the calls take it: blanks out, capitals, and hyphens for dashes.

    Other characters stay, as UTF-8 where they are not ASCII.

        >>> compact("hr12 1001 0051 8630 0016 0")
        b'HR1210010051863000160'
    """
    if isinstance(text, str):
        errors = "surrogatepass"
    else:
        errors = "surrogateescape"
        text = bytes(text).decode("utf-8", errors)
    # Of bytes upper() changes a to z alone: no other letter may become a capital of ASCII.
    return _BLANKS.sub("", text).translate(_HYPHENS).encode("utf-8", errors).upper()


# ----------------------------------------------------------------------------------------------------------------------
# The barcode that is printed, by the settings of 000

_COLUMNS = 9
_MOST_ROWS = 90
_CORRECTION = 2 ** (4 + 1)
_MODULE = 0.254
_ROW = 3
_QUIET = 2
_ROOM = 26


class BarcodeWarning(UserWarning):
    """A slip's barcode would be higher than 000 permits, 26 mm with its quiet zones."""


def rows(length: int) -> int:
    """The rows of the barcode of so many bytes: PDF417 of nine columns, error correction level 4, in byte compaction.

        >>> rows(304), rows(305)
        (32, 33)
    """
    # Six bytes are five code words, each byte left over is one; before them stand the length and the mode.
    words = 2 + length // 6 * 5 + length % 6 + _CORRECTION
    found = -(-words // _COLUMNS)
    if length < 0 or found > _MOST_ROWS:
        raise ValueError(f"there is no such barcode of {length} bytes")
    return found


def height(length: int) -> float:
    """The height in millimetres of the barcode of so many bytes, with the quiet zones above and below."""
    return (rows(length) * _ROW + 2 * _QUIET) * _MODULE


#: The most bytes of a slip whose barcode is not too high.
FITTING = max(length for length in range(484) if height(length) <= _ROOM)


def warn_of_barcode(slip: bytes) -> None:
    """Warns (BarcodeWarning) the caller of the function that calls this, if the slip's barcode would be too high."""
    if len(slip) > FITTING:
        warnings.warn(
            f"the barcode of this slip, {len(slip)} bytes, would be {height(len(slip)):.1f} mm high, and the form has "
            f"room for {_ROOM} mm; shorten the slip to {FITTING} bytes", BarcodeWarning, stacklevel=3)
