"""The command `lanecockle`: slips, standing text, wage files, wet slips, accounts, references, check digits, judged and
explained."""

import argparse
import contextlib
import datetime
import errno
import io
import json
import os
import re
import stat
import sys
import time
from typing import (
    Any, Callable, ContextManager, Dict, Iterator, List, Mapping, NamedTuple, Optional, Sequence, TextIO, Tuple, cast,
)

from . import explain
from .calls import (
    LINE, STANDING, Bytes, EuroCents, Rule, iban, ledger_read, lipa_in_cents, list_iban, list_reference, make_digit, oib,
    reference, slip_cents, standing_text,
)
from .explain import Shown, count, kuna, money
from .judging import Accepted, Judging
from .refusal import LANGUAGES, Refusal
from .scan import scanned
from .tables import VERSION

PROGRAM = "lanecockle"

#: The bytes that are read of a wage file at once, and at most of what should be a slip, a sheet or a typed line: a sheet that
#: is longer is refused, and its first malformed line begins among these.
_PART = 1 << 20
_MOST = 1 << 16

_RULES = {"ini": Rule.INI, "mod11": Rule.MOD_11_10}

#: What the answers say, in English and Croatian.
_WORDS: Dict[str, Tuple[str, str]] = {
    "accepted": ("accepted", "prihvaćeno"),
    "changed": ("mended: what the barcode reader had added or lost",
                "ispravljeno: što je čitač barkoda dodao ili izgubio"),
    "scan": ("With --scan this slip is accepted.", "Uz --scan ova je uplatnica prihvaćena."),
    "euro": ("accepted: a euro slip", "prihvaćeno: uplatnica u eurima"),
    "kuna": ("accepted: a kuna slip, read for the ledger, not to be paid",
             "prihvaćeno: uplatnica u kunama, pročitana za poslovne knjige, ne za plaćanje"),
    "converted": ("{} ({} at 7.53450)", "{} ({} po tečaju 7,53450)"),
    "standing": ("accepted: standing text", "prihvaćeno: stalni tekst"),
    "farm": ("farm's sheet", "predložak gospodarstva"),
    "association": ("association's sheet", "predložak udruge"),
    "neither": ("in neither sheet", "ni u jednom predlošku"),
    "empty": ("(empty)", "(prazno)"),
    "both": ("--farm and --association cannot both be standard input",
             "--farm i --association ne mogu oboje biti standardni ulaz"),
    "counts": ("accepted: lines {}, groups {}, orders {}, sum {}",
               "prihvaćeno: slogova {}, grupa {}, naloga {}, zbroj {}"),
    "fillings": ("fillings: {}", "mogućih dopuna: {}"),
    "digit": ("check digit: {}", "kontrolni broj: {}"),
    "number": ("number with it: {}", "broj s kontrolnim brojem: {}"),
    "progress": ("{} MB, lines {}, orders {}", "{} MB, slogova {}, naloga {}"),
    "of": ("{} of {}", "{} od {}"),
    "unreadable": ("{}: cannot be read: {}", "{}: ne može se pročitati: {}"),
    "unwritable": ("the answer cannot be written: {}", "odgovor se ne može ispisati: {}"),
    "input": ("standard input", "standardni ulaz"),
    "see": ("{} (see {} --help)", "{} (pomoć: {} --help)"),
}

#: What --help says.
_HELP: Dict[str, Tuple[str, str]] = {
    "about": ("Judges HUB3 payment slips, wage files, IBANs, OIBs and references, and explains what is wrong.",
              "Provjerava uplatnice HUB3, datoteke osobnih primanja, IBAN, OIB i poziv na broj te objašnjava što nije "
              "ispravno."),
    "status": ("Exit status: 0 accepted, 1 refused, 2 wrong usage or a file that cannot be read.",
               "Izlazni status: 0 prihvaćeno, 1 odbijeno, 2 pogrešna uporaba ili datoteka koja se ne može pročitati."),
    "commands": ("commands", "naredbe"),
    "arguments": ("arguments", "argumenti"),
    "options": ("options", "opcije"),
    "help": ("show this help and end", "ispiši ovu pomoć i završi"),
    "version": ("show the version and end", "ispiši verziju i završi"),
    "lang": ("language: en or hr (else that of the environment)", "jezik: en ili hr (inače jezik okoline)"),
    "json": ("answer with one line of JSON", "odgovori jednim retkom u formatu JSON"),
    "slip": ("judge a slip, the bytes of its barcode", "provjeri uplatnicu, sadržaj njezina barkoda"),
    "ledger": ("judge a slip in euro or in kuna, for the ledgers",
               "provjeri uplatnicu u eurima ili u kunama, za poslovne knjige"),
    "standing": ("show the standing text of a slip's fields, and whose sheet has it",
                 "ispiši stalni tekst polja uplatnice i čiji ga predložak ima"),
    "wage": ("judge a wage file of 300, 301, 309 and 399 lines",
             "provjeri datoteku osobnih primanja (slogovi 300, 301, 309 i 399)"),
    "wet": ("list what an IBAN or a reference with ? for unreadable digits may be",
            "ispiši moguće dopune IBAN-a ili poziva na broj u kojem ? stoji za nečitljivu znamenku"),
    "iban": ("judge an IBAN", "provjeri IBAN"),
    "oib": ("judge an OIB", "provjeri OIB"),
    "reference": ("judge a reference under its model", "provjeri poziv na broj prema modelu"),
    "digit": ("make the check digit of a number", "izračunaj kontrolni broj"),
    "page": ("serve the page to try it all in a browser", "pokreni stranicu za isprobavanje u pregledniku"),
    "file": ("a file; standard input if none or -", "datoteka; standardni ulaz ako je nema ili je -"),
    "farm": ("the farm's sheet, a file of lines number=text, - for standard input (empty if none)",
             "predložak gospodarstva, datoteka u kojoj je svaki redak broj=tekst, - za standardni ulaz (prazan ako ga "
             "nema)"),
    "association": ("the association's sheet, likewise", "predložak udruge, isto tako"),
    "field": ("the field, 4 to 9, 13 or 14; all of them if none", "polje, 4 do 9, 13 ili 14; sva ako ga nema"),
    "text": ("the text; one line of standard input if none", "tekst; jedan redak standardnog ulaza ako ga nema"),
    "model": ("the model, as HR01", "model, npr. HR01"),
    "of wet": ("the model, as HR01, for a reference; none for an IBAN",
               "model, npr. HR01, za poziv na broj; bez njega za IBAN"),
    "rule": ("the rule: ini or mod11", "pravilo: ini ili mod11"),
    "digits": ("the digits; one line of standard input if none", "znamenke; jedan redak standardnog ulaza ako ih nema"),
    "scan": ("mend first what barcode readers add or lose", "najprije ispravi što čitači barkoda dodaju ili gube"),
    "day": ("the day of submission, YYYYMMDD (today if none)", "dan podnošenja, GGGGMMDD (inače današnji)"),
    "port": ("the port (a free one if none)", "port (inače bilo koji slobodan)"),
    "no-browser": ("open no browser", "ne otvaraj preglednik"),
}


#: What --help calls an argument in Croatian, by its name in English.
_NAMES = {
    "COMMAND": "NAREDBA", "FILE": "DATOTEKA", "TEXT": "TEKST", "RULE": "PRAVILO", "DIGITS": "ZNAMENKE",
    "YYYYMMDD": "GGGGMMDD", "FIELD": "POLJE",
}

#: What argparse and the types below say of wrong usage, and the same in Croatian.
_USAGE: List[Tuple[str, str]] = [
    (r"the following arguments are required: (.*)", "nedostaje: {}"),
    (r"unrecognized arguments: (.*)", "nepoznato: {}"),
    (r"argument (.*?): invalid choice: (.*?) \(choose from (.*)\)", "{}: {} nije jedno od: {}"),
    (r"argument (.*?): expected one argument", "{}: nedostaje vrijednost"),
    (r"argument (.*?): ignored explicit argument (.*)", "{}: vrijednost {} ovdje nije dozvoljena"),
    (r"argument (.*?): not YYYYMMDD: (.*)", "{}: {} nije GGGGMMDD"),
    (r"argument (.*?): not a port: (.*)", "{}: {} nije port"),
    (r"argument (.*?): not a field number: (.*)", "{}: {} nije broj polja"),
]

#: Why a file cannot be read, in Croatian; other reasons as the system says them.
_REASONS = {
    errno.ENOENT: "ne postoji", errno.EACCES: "nema dozvole", errno.EISDIR: "to je mapa, a ne datoteka",
}


class Answer(NamedTuple):
    """What a command answers: whether it accepts, the facts for JSON, the lines for a person."""

    accepted: bool
    facts: Dict[str, object]
    text: str


class Failure(Exception):
    """Wrong usage, or a file that cannot be read: one line about it."""


def main(arguments: Optional[Sequence[str]] = None) -> int:
    """Runs the command and gives its exit status: 0 accepted, 1 refused, 2 wrong usage or an unreadable file."""
    try:
        return _run(sys.argv[1:] if arguments is None else list(arguments))
    except SystemExit as ended:
        return int(ended.code or 0)
    except Failure as failure:
        said = "".join(character if character.isprintable() else "·" for character in str(failure))
        _write(sys.stderr, f"{PROGRAM}: {said}\n")
        return 2
    except KeyboardInterrupt:
        return 130


def _run(arguments: List[str]) -> int:
    common, rest = _common().parse_known_args(arguments)
    language = common.lang or _language(os.environ)
    if common.version:
        _deliver(f"{PROGRAM} {VERSION}\n", language)
        return 0
    asked = _parser(language).parse_args(rest)
    if asked.command == "page":
        from .page import serve
        return serve(asked.port, not asked.no_browser, language)
    answer = _COMMANDS[asked.command](asked, language)
    facts = json.dumps({"accepted": answer.accepted, **answer.facts})
    _deliver((facts if common.json else answer.text) + "\n", language)
    return 0 if answer.accepted else 1


def _language(environment: Mapping[str, str]) -> str:
    """The language of an environment: Croatian where it says so, else English."""
    named = next((environment[name] for name in ("LC_ALL", "LC_MESSAGES", "LANG") if environment.get(name)), "")
    return "hr" if re.match(r"hr(?![A-Za-z])", named) else "en"


def _say(word: str, language: str, *values: object) -> str:
    return _WORDS[word][LANGUAGES.index(language)].format(*values)


# ----------------------------------------------------------------------------------------------------------------------
# What is asked


class _CroatianHelp(argparse.HelpFormatter):
    """Help whose first word is Croatian too."""

    def add_usage(self, usage: Any, actions: Any, groups: Any, prefix: Optional[str] = None) -> None:
        super().add_usage(usage, actions, groups, "uporaba: " if prefix is None else prefix)


class _Parser(argparse.ArgumentParser):
    """A parser that speaks both languages and says what is wrong in one line."""

    def __init__(self, language: str, **given: Any) -> None:
        formatter = argparse.HelpFormatter if language == "en" else _CroatianHelp
        super().__init__(add_help=False, allow_abbrev=False, formatter_class=formatter, **given)
        self._language = language
        self.taken = self.add_argument_group(self.help_of("arguments"))
        self.options = self.add_argument_group(self.help_of("options"))

    def help_of(self, word: str) -> str:
        return _HELP[word][LANGUAGES.index(self._language)]

    def take(self, *names: str, word: str, **given: Any) -> None:
        """Takes an argument or, by names with hyphens, an option."""
        group = self.options if names[0].startswith("-") else self.taken
        if "metavar" in given:
            given["metavar"] = self.named(given["metavar"])
        group.add_argument(*names, help=self.help_of(word), **given)

    def named(self, name: str) -> str:
        """What help calls an argument."""
        return _NAMES.get(name, name) if self._language == "hr" else name

    def take_common(self) -> None:
        """Takes the options that may stand anywhere."""
        self.take("--lang", word="lang", choices=LANGUAGES)
        self.take("--json", word="json", action="store_true")
        self.take("--version", word="version", action="store_true")

    def print_help(self, file: Any = None) -> None:
        _deliver(self.format_help(), self._language)

    def error(self, message: str) -> Any:
        said = message if self._language == "en" else _usage_in_croatian(message)
        raise Failure(_say("see", self._language, said, self.prog))


def _usage_in_croatian(message: str) -> str:
    for english, croatian in _USAGE:
        found = re.fullmatch(english, message, re.DOTALL)
        if found:
            return croatian.format(*found.groups())
    return message


def _common() -> _Parser:
    """The parser of the options that may stand before the command, behind it, or between its arguments."""
    parser = _Parser("en", prog=PROGRAM)
    parser.take_common()
    return parser


def _parser(language: str) -> _Parser:
    """The parser of the rest. It takes the common options too, so that its help names them."""
    parser = _Parser(language, prog=PROGRAM)
    parser.description, parser.epilog = parser.help_of("about"), parser.help_of("status")
    titled = parser.help_of("commands")
    metavar = parser.named("COMMAND")
    commands: Any = parser.add_subparsers(title=titled, dest="command", metavar=metavar, required=True)
    made: Dict[str, _Parser] = {}
    for name in [*_COMMANDS, "page"]:
        about = parser.help_of(name)
        whole = about[0].upper() + about[1:] + "."
        made[name] = commands.add_parser(name, language=language, help=about, description=whole)
    _take_arguments(made)
    for each in [parser, *made.values()]:
        each.take("-h", "--help", word="help", action="help")
        each.take_common()
    return parser


def _take_arguments(made: Dict[str, _Parser]) -> None:
    """Gives each command its arguments and options."""
    for name in ("slip", "ledger", "wage"):
        made[name].take("file", word="file", metavar="FILE", nargs="?", default="-")
    for name in ("slip", "ledger"):
        made[name].take("--scan", word="scan", action="store_true")
    for sheet in ("farm", "association"):
        made["standing"].take(f"--{sheet}", word=sheet, metavar="FILE")
    made["standing"].take("field", word="field", metavar="FIELD", nargs="?", type=_field)
    made["wage"].take("--day", word="day", metavar="YYYYMMDD", type=_day)
    made["wet"].take("model", word="of wet", metavar="MODEL", nargs="?")
    made["reference"].take("model", word="model", metavar="MODEL")
    made["digit"].take("rule", word="rule", metavar="RULE", choices=sorted(_RULES))
    for name in ("wet", "iban", "oib", "reference"):
        made[name].take("text", word="text", metavar="TEXT", nargs="?")
    made["digit"].take("text", word="digits", metavar="DIGITS", nargs="?")
    made["page"].take("--port", word="port", metavar="PORT", type=_port, default=0)
    made["page"].take("--no-browser", word="no-browser", action="store_true")


def _day(text: str) -> int:
    if not re.fullmatch("[0-9]{8}", text):
        raise argparse.ArgumentTypeError(f"not YYYYMMDD: {text!r}")
    return int(text)


def _field(text: str) -> int:
    if not re.fullmatch("[0-9]{1,19}", text):
        raise argparse.ArgumentTypeError(f"not a field number: {text!r}")
    return int(text)


def _port(text: str) -> int:
    if not re.fullmatch("[0-9]{1,5}", text) or int(text) > 65_535:
        raise argparse.ArgumentTypeError(f"not a port: {text!r}")
    return int(text)


# ----------------------------------------------------------------------------------------------------------------------
# What is read


@contextlib.contextmanager
def _reading(name: str, language: str) -> Iterator[io.BufferedIOBase]:
    """A file by its name, `-` for standard input; one that cannot be opened or read is a Failure."""
    shown = _say("input", language) if name == "-" else name
    try:
        with _opened(name) as file:
            yield file
    except OSError as failure:
        raise Failure(_say("unreadable", language, shown, _reason(failure, language))) from None


def _reason(failure: OSError, language: str) -> str:
    """Why the system refused."""
    told = failure.strerror or str(failure)
    return told if language == "en" else _REASONS.get(failure.errno or 0, told)


def _opened(name: str) -> ContextManager[io.BufferedIOBase]:
    if name != "-":
        return cast(ContextManager[io.BufferedIOBase], open(name, "rb"))
    if sys.stdin is None:
        raise OSError("closed")
    return contextlib.nullcontext(cast(io.BufferedIOBase, sys.stdin.buffer))


def _size(file: io.BufferedIOBase) -> int:
    """The size of a file, 0 where it is not known."""
    try:
        found = os.fstat(file.fileno())
    except OSError:
        return 0
    return found.st_size if stat.S_ISREG(found.st_mode) else 0


def _typed(text: Optional[str], language: str) -> bytes:
    """A text as it was typed, or one line of standard input without its line end."""
    if text is not None:
        return text.encode("utf-8", "surrogateescape")
    with _reading("-", language) as file:
        line = file.readline(_MOST)
    line = line[:-1] if line.endswith(b"\n") else line
    return line[:-1] if line.endswith(b"\r") else line


# ----------------------------------------------------------------------------------------------------------------------
# What is written


def _write(stream: Optional[TextIO], text: str) -> None:
    """Writes text, with `?` for what the stream's encoding does not have."""
    if stream is not None:
        encoding = stream.encoding or "utf-8"
        stream.write(text.encode(encoding, "replace").decode(encoding))
        stream.flush()


def _deliver(text: str, language: str) -> None:
    """Writes to standard output; that nobody reads on is no fault."""
    try:
        _write(sys.stdout, text)
    except OSError as failure:
        # Python writes out what is left once more at its end.
        os.dup2(os.open(os.devnull, os.O_WRONLY), sys.stdout.fileno())
        if not isinstance(failure, BrokenPipeError):
            raise Failure(_say("unwritable", language, _reason(failure, language))) from None


class Progress:
    """A bar on a terminal for what takes longer than a second; on any other stream nothing."""

    _BAR = 16
    _PATIENCE = 1.0
    _PAUSE = 0.1

    def __init__(
        self, stream: Optional[TextIO], size: int, language: str, clock: Callable[[], float] = time.monotonic,
    ) -> None:
        self._stream = stream if stream is not None and stream.isatty() else None
        self._size = size
        self._language = language
        self._clock = clock
        self._next = clock() + self._PATIENCE
        self._width = 0

    def tell(self, done: int, judging: Judging) -> None:
        """Shows the bytes, lines and orders read so far, if it is time to."""
        if self._stream is None or self._clock() < self._next:
            return
        self._next = self._clock() + self._PAUSE
        line = self._line(done, judging)
        _write(self._stream, "\r" + line.ljust(self._width))
        self._width = len(line)

    def clear(self) -> None:
        """Takes the bar away."""
        if self._width:
            _write(self._stream, "\r" + " " * self._width + "\r")
            self._width = 0

    def _line(self, done: int, judging: Judging) -> str:
        language = self._language
        read = count(done // 10**6, language)
        lines, orders = count(judging.lines, language), count(judging.orders, language)
        if not self._size:
            return _say("progress", language, read, lines, orders)
        filled = min(self._BAR, self._BAR * done // self._size)
        read = _say("of", language, read, count(self._size // 10**6, language))
        return f"[{'#' * filled}{'-' * (self._BAR - filled)}] " + _say("progress", language, read, lines, orders)


# ----------------------------------------------------------------------------------------------------------------------
# The commands


def _refused(shown: Shown, language: str) -> Answer:
    return Answer(False, {"refusal": shown.as_dict()}, shown.text(language))


def _slip(asked: argparse.Namespace, language: str) -> Answer:
    """A slip: its amount and every field with its name."""
    data, changed = _slip_of(asked, language)
    try:
        cents = slip_cents(data)
    except Refusal as refusal:
        return _slip_refused(explain.of_slip(refusal, data, language), slip_cents, data, language)
    facts: Dict[str, object] = {"changed": changed, "cents": cents}
    return _slip_told("accepted", facts, money(cents, language), data, language)


def _ledger(asked: argparse.Namespace, language: str) -> Answer:
    """A slip of either currency: which it is, its amount, a kuna slip's also in euro, and every field with its name."""
    data, changed = _slip_of(asked, language)
    try:
        amount = ledger_read(data)
    except Refusal as refusal:
        return _slip_refused(explain.of_ledger(refusal, data, language), ledger_read, data, language)
    facts: Dict[str, object] = {"changed": changed}
    if isinstance(amount, EuroCents):
        facts.update(currency="EUR", cents=amount.cents)
        return _slip_told("euro", facts, money(amount.cents, language), data, language)
    converted = lipa_in_cents(amount).cents
    # no `cents`: whoever asks for these must not be given a converted amount
    facts.update(currency="HRK", lipa=amount.lipa, converted=converted)
    said = _say("converted", language, kuna(amount, language), money(converted, language))
    return _slip_told("kuna", facts, said, data, language)


def _slip_of(asked: argparse.Namespace, language: str) -> Tuple[bytes, bool]:
    """The slip of a file, and whether what a barcode reader added was mended in it."""
    with _reading(asked.file, language) as file:
        read = file.read(_MOST)
    data = scanned(read) if asked.scan else read
    return data, data != read


def _slip_told(word: str, facts: Dict[str, object], amount: str, data: bytes, language: str) -> Answer:
    """What is said of an accepted slip: the word, whether it was mended, and its fields, the amount in words."""
    fields = explain.slip_fields(data, language)
    lines = [_say(word, language)] + ([_say("changed", language)] if facts["changed"] else [])
    for field in fields:
        content = amount if field["number"] == 3 else field["content"]
        lines.append(f"  {field['number']:2} {field['name']}: {content}".rstrip())
    return Answer(True, dict(facts, fields=fields), "\n".join(lines))


def _slip_refused(shown: Shown, call: Callable[[Bytes], object], data: bytes, language: str) -> Answer:
    """What is said of a slip that a call refuses, and whether it would accept the slip mended."""
    mended = [_say("scan", language)] if _accepts(call, scanned(data)) else []
    return _refused(shown._replace(hints=shown.hints + mended), language)


def _accepts(call: Callable[[Bytes], object], data: bytes) -> bool:
    try:
        call(data)
    except Refusal:
        return False
    return True


def _standing(asked: argparse.Namespace, language: str) -> Answer:
    """The standing text of each field, or of one, and whose sheet has it."""
    if asked.farm == asked.association == "-":
        raise Failure(_say("both", language))
    farm, association = _sheet(asked.farm, language), _sheet(asked.association, language)
    numbers = STANDING if asked.field is None else (asked.field,)
    try:
        found = [(number, standing_text(number, farm, association)) for number in numbers]
    except Refusal as refusal:
        return _refused(explain.of_standing(refusal, farm, association, language), language)
    fields = explain.standing_fields(found, language)
    lines = [_say("standing", language)]
    for field in fields:
        said = _say(str(field["sheet"] or "neither"), language)
        if field["sheet"]:
            said += f": {field['content'] or _say('empty', language)}"
        lines.append(f"  {field['number']:2} {field['name']}, {said}")
    return Answer(True, {"fields": fields}, "\n".join(lines))


def _sheet(name: Optional[str], language: str) -> bytes:
    """The sheet of a file, of no bytes where none is named."""
    if name is None:
        return b""
    with _reading(name, language) as file:
        return file.read(_MOST)


def _wage(asked: argparse.Namespace, language: str) -> Answer:
    """A wage file, read in parts: its counts and the sum of its orders."""
    judging = Judging(_today() if asked.day is None else asked.day, language)
    with _reading(asked.file, language) as file:
        progress = Progress(sys.stderr, _size(file), language)
        try:
            _feed(judging, file, progress)
        finally:
            progress.clear()
    ended = judging.end()
    if not isinstance(ended, Accepted):
        refused = _refused(ended, language)
        return refused._replace(facts={**refused.facts, "read": judging.so_far()})
    counts = [count(number, language) for number in ended[:3]]
    return Answer(True, ended._asdict(), _say("counts", language, *counts, money(ended.cents, language)))


def _feed(judging: Judging, file: io.BufferedIOBase, progress: Progress) -> None:
    """Feeds a file to its judging, until its end or a refusal; hints are made of its first two lines."""
    done = 0
    part = file.read1(_PART)
    while part:
        judging.feed(part)
        done += len(part)
        if judging.refused and done >= 2 * LINE:
            return
        progress.tell(done, judging)
        part = file.read1(_PART)


def _today() -> datetime.date:
    return datetime.date.today()


def _wet(asked: argparse.Namespace, language: str) -> Answer:
    """The fillings of an IBAN, or of a reference under its model."""
    model, text = _wet_texts(asked, language)
    try:
        if model is None:
            texts = list_iban(text, texts=True)
        else:
            texts = list_reference(model, text, texts=True)
    except Refusal as refusal:
        return _text_refused(refusal, "iban" if model is None else "reference", model, text, language)
    fillings = [filling.decode() for filling in texts]
    facts = {"count": len(fillings), "fillings": fillings}
    return Answer(True, facts, "\n".join([_say("fillings", language, len(fillings))] + fillings))


def _wet_texts(asked: argparse.Namespace, language: str) -> Tuple[Optional[bytes], bytes]:
    """The model, or none, and the text; a line has a model where its only blank follows four characters."""
    if asked.text is not None:
        return _typed(asked.model, language), _typed(asked.text, language)
    line = _typed(asked.model, language)
    if asked.model is None and line.count(b" ") == 1 and line.index(b" ") == 4:
        return line[:4], line[5:]
    return None, line


def _iban(asked: argparse.Namespace, language: str) -> Answer:
    return _checked("iban", iban, asked, language)


def _oib(asked: argparse.Namespace, language: str) -> Answer:
    return _checked("oib", oib, asked, language)


def _checked(what: str, call: Callable[[Bytes], None], asked: argparse.Namespace, language: str) -> Answer:
    """An IBAN or an OIB."""
    text = _typed(asked.text, language)
    try:
        call(text)
    except Refusal as refusal:
        return _text_refused(refusal, what, None, text, language, placed=True)
    return Answer(True, {"text": text.decode()}, _say("accepted", language))


def _reference(asked: argparse.Namespace, language: str) -> Answer:
    """A reference under its model."""
    model, text = _typed(asked.model, language), _typed(asked.text, language)
    try:
        reference(model, text)
    except Refusal as refusal:
        return _text_refused(refusal, "reference", model, text, language, placed=True)
    return Answer(True, {"model": model.decode(), "text": text.decode()}, _say("accepted", language))


def _digit(asked: argparse.Namespace, language: str) -> Answer:
    """The check digit of a number, and the whole number with it."""
    digits = _typed(asked.text, language)
    try:
        digit = make_digit(_RULES[asked.rule], digits)
    except Refusal as refusal:
        return _text_refused(refusal, "digits", None, digits, language)
    number = f"{digits.decode()}{digit}"
    text = "\n".join((_say("digit", language, digit), _say("number", language, number)))
    return Answer(True, {"digit": digit, "number": number}, text)


def _text_refused(
    refusal: Refusal, what: str, model: Optional[bytes], text: bytes, language: str, placed: bool = False,
) -> Answer:
    return _refused(explain.of_text(refusal, what, text, language, placed, model), language)


_COMMANDS: Dict[str, Callable[[argparse.Namespace, str], Answer]] = {
    "slip": _slip, "standing": _standing, "ledger": _ledger, "wage": _wage, "wet": _wet, "iban": _iban, "oib": _oib,
    "reference": _reference, "digit": _digit,
}
