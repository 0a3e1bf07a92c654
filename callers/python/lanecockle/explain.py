"""A refusal shown as a person would show it: its place by name, what stands there with a mark, the rule, and hints."""

import re
import unicodedata
from typing import Dict, Iterable, List, NamedTuple, Optional, Tuple

from . import hints
from .calls import LINE, Lipa, StandingText
from .library import Record
from .refusal import LANGUAGES, TYPE_BYTE, Refusal, Sheet
from .tables import FIELDS, WORDS

#: What text() says beside sentences, names, rules and hints, in English and Croatian.
_WORDS: Dict[str, Tuple[str, str]] = {
    "refused": ("refused {}: {}", "odbijeno {}: {}"),
    "missing": ("missing: {}", "nedostaje: {}"),
    "day": ("day of submission", "dan podnošenja"),
    "positions": ("positions {} to {}", "pozicije {} do {}"),
    "empty": ("(empty)", "(prazno)"),
    "blank": ("(blank)", "(praznine)"),
    "rule": ("rule: {}", "pravilo: {}"),
    "hint": ("hint: {}", "savjet: {}"),
    "orders": ("orders: declared {}, counted {}", "broj naloga: upisano {}, prebrojeno {}"),
    "with it": ("orders: declared {}, counted {} with this line",
                "broj naloga: upisano {}, s ovim slogom prebrojeno {}"),
    "sum": ("sum: declared {}, summed {}", "zbroj iznosa: upisano {}, zbrojeno {}"),
    "before": ("bytes before {}: {}; due: {} before CR LF", "znakova prije {}: {}; propisano: {} prije CR LF"),
    "file end": ("the end of the file", "kraja datoteke"),
    "currency": ("Must be `EUR`, or `HRK` in a slip from before 2023.",
                 "Mora biti `EUR` ili, u uplatnici iz vremena prije 2023., `HRK`."),
    "sheet": ("A field's number, 4 to 9, 13 or 14 and above that of the line before, `=`, a text that the field permits, and "
              "LF.",
              "Broj polja, 4 do 9, 13 ili 14 i veći od broja u prethodnom retku, `=`, tekst kakav polje dopušta i LF."),
    "slip size": ("A slip has at most {} bytes; {} were read.", "Uplatnica ima najviše {} bajta; pročitano ih je {}."),
    "due": ("A line of type {} is due here.", "Ovdje treba stajati slog {}."),
    "or": (" or ", " ili "),
    "closed": ("Nothing may follow the 399 line.", "Iza sloga 399 ne smije biti više ništa."),
    "miscounted": ("The group's 301 line is line {}. Correct the number in its field 5, or look for an order that is missing "
                   "or too many.",
                   "Slog 301 ove grupe je slog {}. Ispravite broj u njegovu polju 5 ili potražite nalog koji nedostaje ili "
                   "je suvišan."),
    "missummed": ("The group's 301 line is line {}. Correct the sum in its field 6, or look for a wrong amount in its "
                  "orders.",
                  "Slog 301 ove grupe je slog {}. Ispravite zbroj u njegovu polju 6 ili potražite pogrešan iznos u "
                  "nalozima."),
}

_MODEL = re.compile(b"HR[0-9]{2}")
_ENDS = {"␍␊": "CR LF", "␊": "LF", "␍": "CR"}

#: How much is shown of a line's start and of its end, of a slip without a field, and of a content on a terminal's line.
_HEAD = 60
_TAIL = 24
_SLIP = 483
_COLUMNS = 72


class Shown(NamedTuple):
    """A refusal with what there is to show of it, its words in one language.

    `content` is what stands at the place, one printable character for each byte (in a slip and in a typed text for
    each character); `mark` the index in it under which a mark goes, -1 for none. `figures` are `declared` and
    `counted` orders for 12, `declared` and `summed` cents for 13. `type` is the type of the refused line of a wage
    file, and for 14 of the missing one; `start` the position of the line at which `content` starts, 0 where that is
    not in a line. `sheet` is `farm` or `association` for 20, and empty otherwise.
    """

    number: int
    name: str
    sentence: str
    line: int
    field: int
    byte: int
    needed: int
    field_name: str
    rule: str
    content: str
    mark: int
    figures: Dict[str, int]
    hints: List[str]
    type: str = ""
    start: int = 0
    sheet: str = ""

    def text(self, language: str) -> str:
        """The lines that a person is shown, without a line end behind the last."""
        said = [self._place(language)] + self._marked(language) + self._facts(language)
        if self.rule:
            said.append(_say("rule", language, self.rule))
        said += [_say("hint", language, hint) for hint in self.hints]
        lines = [_say("refused", language, self.number, self.sentence)] + [f"  {line}" for line in said if line]
        return "\n".join(lines)

    def as_dict(self) -> Dict[str, object]:
        """The refusal for JSON, by the names of its fields."""
        return dict(self._asdict(), figures=dict(self.figures), hints=list(self.hints))

    def _place(self, language: str) -> str:
        """Line, field and positions by name: `line 2 (301), field 1: IBAN of the payer, positions 1 to 21`."""
        if self.number == 11 and not self.line:
            return _say("day", language)
        at = LANGUAGES.index(language)
        told = []
        if self.sheet:
            told.append(f"{WORDS['sheet line'][at]} {self.line} {WORDS[self.sheet][at]}")
        elif self.line:
            told.append(f"{WORDS['line'][at]} {self.line}" + (f" ({self.type})" if self.type else ""))
        if self.field:
            told.append(f"{WORDS['field'][at]} {self.field}: {self.field_name}")
        if self.start and self._has_content():
            told.append(_positions(self.start, len(self.content), language))
        place = ", ".join(told)
        return _say("missing", language, place) if self.number == 14 else place

    def _has_content(self) -> bool:
        """Whether the content is to be shown: always that of a field, a line's start where it is not blank."""
        return self.field != 0 or self.content.strip() != ""

    def _marked(self, language: str) -> List[str]:
        """The content, and the mark under it, at most as wide as a terminal."""
        if not self._has_content():
            return []
        if not self.content.strip():
            return [_say("blank" if self.content else "empty", language)]
        start = max(0, min(self.mark - _COLUMNS // 2, len(self.content) - _COLUMNS))
        piece = self.content[start:start + _COLUMNS]
        if start > 0:
            piece = "…" + piece[1:]
        if start + _COLUMNS < len(self.content):
            piece = piece[:-1] + "…"
        return [piece.rstrip()] + ([" " * (self.mark - start) + "^"] if self.mark >= 0 else [])

    def _facts(self, language: str) -> List[str]:
        """The figures of 12 and 13, and how long the line is for 1 and 2."""
        if self.number == 12 and self.figures:
            declared, counted = self.figures["declared"], self.figures["counted"]
            said = "with it" if counted > declared else "orders"
            return [_say(said, language, count(declared, language), count(counted, language))]
        if self.number == 13 and self.figures:
            return [_say("sum", language, *(money(self.figures[name], language) for name in ("declared", "summed")))]
        if self.number in (1, 2) and self.line:
            return self._length(language)
        return []

    def _length(self, language: str) -> List[str]:
        """How long the line is without its end, if that can be told."""
        due = LINE - 2
        end = _ENDS.get(self.content[self.mark:]) if self.mark >= 0 else None
        if end is not None:
            return [_say("before", language, end, self.start + self.mark - 1, due)]
        length = self.start + len(self.content) - 1
        return [_say("before", language, _say("file end", language), length, due)] if self.number == 1 else []


# ----------------------------------------------------------------------------------------------------------------------
# Refusals of a slip, of a wage file, of a typed text


def of_slip(refusal: Refusal, data: bytes, language: str) -> Shown:
    """The refusal of a slip, with the content of its field."""
    return _named(_of_slip(refusal, data, hints.of_slip(data, refusal, language), language), "slip", language)


def of_ledger(refusal: Refusal, data: bytes, language: str) -> Shown:
    """The refusal of a slip of either currency, with the content of its field."""
    layout = hints.slip_layout(data)
    shown = _of_slip(refusal, data, hints.of_ledger(data, refusal, language), language)
    shown = _named(shown, layout if (layout, refusal.field) in FIELDS else "slip", language)
    return shown._replace(rule=_say("currency", language)) if refusal.field == 2 else shown


def _of_slip(refusal: Refusal, data: bytes, said: List[str], language: str) -> Shown:
    """The refusal of a slip, without the name of its field."""
    if refusal.number == 1:
        said = said + [_say("slip size", language, _SLIP, count(len(data), language))]
    if not refusal.field:
        return _shown(refusal, _visible(_decoded(data[:_SLIP])), -1, said, language)
    fields = data.split(b"\n", refusal.field)[:refusal.field]
    text = _decoded(fields[-1])
    mark = _character(text, refusal.byte - sum(len(field) + 1 for field in fields[:-1]))
    return _shown(refusal, _visible(text), mark, said, language)


def of_standing(refusal: Refusal, farm: bytes, association: bytes, language: str) -> Shown:
    """The refusal of standing text, with the malformed line and its end."""
    if refusal.sheet is None:
        return _shown(refusal, "", -1, [], language)
    sheet = farm if refusal.sheet == Sheet.FARM else association
    from_line = sheet.split(b"\n", refusal.line - 1)[-1]
    line, end, _ = from_line.partition(b"\n")
    content = _visible(_decoded((line + end)[:_SLIP]))
    shown = _shown(refusal, content, -1, hints.of_sheet(sheet, refusal, language), language)
    return shown._replace(sheet=refusal.sheet.name.lower(), rule=_say("sheet", language))


def of_wage(refusal: Refusal, start: bytes, line: bytes, record: Record, day: int, language: str) -> Shown:
    """The refusal of a wage file, whose first bytes are `start`: in `line`, judged from the record before it."""
    said = _record_hints(refusal, record, language) + hints.of_wage(start, line, refusal, day, language)
    if not refusal.line:
        return _shown(refusal, f"{day:08}", -1, said, language)
    if refusal.number == 14:
        return _shown(refusal, "", -1, said, language)._replace(type="".join(_due(record)[-1:]))
    # Where the first line is too long, its end may stand behind its 1,002 bytes.
    if refusal.line == 1 and len(start) > len(line):
        line = start
    kind = _visible(line[TYPE_BYTE:TYPE_BYTE + 3].decode("cp1250", "replace"))
    first, end, mark = _span(refusal, line, kind)
    content = _visible(line[first:end].decode("cp1250", "replace"))
    shown = _shown(refusal, content, mark - first if mark >= 0 else -1, said, language)
    shown = shown._replace(type=kind if (kind, 1) in FIELDS else "", start=first + 1, figures=_figures(refusal, record))
    return _named(shown, kind, language)


def of_text(
    refusal: Refusal, what: str, text: bytes, language: str, placed: bool = False, model: Optional[bytes] = None,
) -> Shown:
    """The refusal of a typed text: "iban", "oib", "reference" (with its model, if given), "model" or "digits".

    7 of a reference is shown of its model, and so is 5 where that is not `HR` and two digits; another 5 is of what the
    reference holds. `placed` says that the call tells the byte of a 3, so that byte 0 is the first one; a listing and a
    check digit tell none.
    """
    if model is not None and (refusal.number == 7 or refusal.number == 5 and not _MODEL.fullmatch(model)):
        what, text = "model", model
    said = hints.of_text(what, text, refusal, language, model or b"")
    decoded = _decoded(text)
    told = refusal.number == 3 and (placed or refusal.tells_byte())
    mark = _character(decoded, refusal.byte) if told else -1
    return _shown(refusal, _visible(decoded), mark, said, language)


def slip_fields(slip: bytes, language: str) -> List[Dict[str, object]]:
    """The fields of an accepted slip of either currency, for JSON: number, name and content."""
    at, layout = LANGUAGES.index(language), hints.slip_layout(slip)
    fields = [FIELDS.get((layout, number), FIELDS["slip", number]) for number in range(1, 15)]
    return [
        {"number": field.number, "name": field.name[at], "content": content.decode()}
        for field, content in zip(fields, slip.split(b"\n"))
    ]


def standing_fields(found: Iterable[Tuple[int, Optional[StandingText]]], language: str) -> List[Dict[str, object]]:
    """The standing text of fields, for JSON: number, name, whose sheet it is (None for neither) and content."""
    at = LANGUAGES.index(language)
    return [
        {"number": number, "name": FIELDS["slip", number].name[at], "sheet": told.sheet.name.lower() if told else None,
         "content": told.text.decode() if told else ""}
        for number, told in found
    ]


def money(cents: int, language: str) -> str:
    """An amount in euro: `1,234.56 EUR`, in Croatian `1.234,56 EUR`."""
    return f"{_hundredths(cents, language)} EUR"


def kuna(lipa: Lipa, language: str) -> str:
    """An amount in kuna: `1,234.56 HRK`, in Croatian `1.234,56 HRK`."""
    return f"{_hundredths(lipa.lipa, language)} HRK"


def _hundredths(number: int, language: str) -> str:
    """Hundredths as a number with two places behind the point."""
    point = "," if language == "hr" else "."
    return f"{count(number // 100, language)}{point}{number % 100:02}"


def count(number: int, language: str) -> str:
    """A number in groups of three digits: `1,000,000`, in Croatian `1.000.000`."""
    grouped = f"{number:,}"
    return grouped.replace(",", ".") if language == "hr" else grouped


# ----------------------------------------------------------------------------------------------------------------------
# What a refusal says


def _say(word: str, language: str, *values: object) -> str:
    return _WORDS[word][LANGUAGES.index(language)].format(*values)


def _shown(refusal: Refusal, content: str, mark: int, said: List[str], language: str) -> Shown:
    """A refusal with its content and hints, without the name of a field."""
    return Shown(
        refusal.number, refusal.name, refusal.sentence(language), refusal.line, refusal.field, refusal.byte,
        refusal.needed, "", "", content, mark, {}, said,
    )


def _named(shown: Shown, record: str, language: str) -> Shown:
    """The same with name and rule of its field, where one is told."""
    field = FIELDS.get((record, shown.field))
    if field is None:
        return shown
    at = LANGUAGES.index(language)
    return shown._replace(field_name=field.name[at], rule=field.rule[at])


def _positions(start: int, length: int, language: str) -> str:
    if length == 1:
        return f"{WORDS['position'][LANGUAGES.index(language)]} {start}"
    return _say("positions", language, start, start + length - 1)


# ----------------------------------------------------------------------------------------------------------------------
# What a wage file's record and line say


def _due(record: Record) -> Tuple[str, ...]:
    """The types of line that may follow in a file that is not refused."""
    if record.condition == 2:
        return ("309",) if record.counted == 0 or record.counted < record.declared else ("301", "399")
    return {0: ("300",), 1: ("301",)}.get(record.condition, ())


def _record_hints(refusal: Refusal, record: Record, language: str) -> List[str]:
    """What the record knows and the bytes do not: what is due where a line is out of place, and where the group begins whose
    number of orders or sum differs."""
    if refusal.number == 10:
        types = _say("or", language).join(_due(record))
        return [_say("due", language, types) if types else _say("closed", language)]
    if refusal.number in (12, 13):
        said = "miscounted" if refusal.number == 12 else "missummed"
        return [_say(said, language, refusal.line - 1 - record.counted)]
    return []


def _figures(refusal: Refusal, record: Record) -> Dict[str, int]:
    """What the group declares and what its orders come to; an order too many is counted with them."""
    if refusal.number == 12:
        beyond = 1 if record.counted == record.declared else 0
        return {"declared": record.declared, "counted": record.counted + beyond}
    if refusal.number == 13:
        return {"declared": record.promised.total(), "summed": record.total.total()}
    return {}


def _span(refusal: Refusal, line: bytes, kind: str) -> Tuple[int, int, int]:
    """What is shown of a refused line: its first byte, the byte behind its last, the marked byte or -1."""
    if refusal.number in (1, 2):
        return _ending(line)
    if refusal.number == 10 or (refusal.field == 0 and refusal.byte == TYPE_BYTE):
        return TYPE_BYTE, TYPE_BYTE + 3, TYPE_BYTE
    field = FIELDS.get((kind, refusal.field))
    if field is None:
        return 0, _HEAD, -1
    # The fields 2, 3 and 4 of a 309 are read as one.
    last = FIELDS["309", 4] if (kind, refusal.field) == ("309", 2) else field
    return field.start - 1, last.start - 1 + last.width, refusal.byte


def _ending(line: bytes) -> Tuple[int, int, int]:
    """The last bytes of what is a line by its own end: CR LF, else LF, else CR; without one, of the piece."""
    for end in (b"\r\n", b"\n", b"\r"):
        at = line.find(end)
        if at >= 0:
            return max(0, at + len(end) - _TAIL), at + len(end), at
    return max(0, len(line) - _TAIL), len(line), -1


# ----------------------------------------------------------------------------------------------------------------------
# Bytes made visible


def _decoded(data: bytes) -> str:
    """UTF-8 as text; a byte that is not of it stands for itself, as a surrogate."""
    return data.decode("utf-8", "surrogateescape")


def _character(text: str, byte: int) -> int:
    """The index of the character in whose UTF-8 a byte stands."""
    end = 0
    for index, character in enumerate(text):
        end += len(character.encode("utf-8", "surrogateescape"))
        if byte < end:
            return index
    return len(text)


def _visible(text: str) -> str:
    """Text with one printable character, one column wide, for each of its characters."""
    return "".join(map(_visible_character, text))


def _visible_character(character: str) -> str:
    if character < " ":
        return chr(0x2400 + ord(character))
    if character == "\x7F":
        return "␡"
    # Marks, wide and right-to-left characters would move what follows them away from the mark.
    moves = (
        unicodedata.category(character).startswith("M") or unicodedata.east_asian_width(character) in "WF"
        or unicodedata.bidirectional(character) in ("R", "AL")
    )
    return character if character.isprintable() and character != "\uFFFD" and not moves else "·"
