"""A page to try, for this machine alone: judges a wage file, reads a scanned slip, fills in a wet IBAN or reference.

The server listens on the loopback address and keeps nothing: no file, no log, and of a wage file only the judge's record,
while it is being judged. It answers no other page (Host and Origin are asked for), and what is wrong with a request gets
a status from 400 up, or the connection ends.
"""

import json
import re
import socket
import socketserver
import sys
import threading
import time
import webbrowser
from http import HTTPStatus
from http.server import BaseHTTPRequestHandler, ThreadingHTTPServer
from pathlib import Path
from typing import Any, Callable, Dict, Iterator, List, NoReturn, Optional, Tuple, cast
from urllib.parse import parse_qsl, urlsplit

from .calls import (
    LINE, Lipa, filled, iban, ledger_read, lipa_in_cents, list_iban, list_reference, oib, reference, slip_cents,
)
from .explain import Shown, kuna, money, of_slip, of_text, slip_fields
from .judging import Accepted, Judging
from .refusal import LANGUAGES, Refusal
from .scan import compact, scanned

#: The only address on which the page is served.
LOOPBACK = "127.0.0.1"

#: The largest bodies, in bytes: a wage file of one line more than there may be, a slip or typed text.
WAGE_LIMIT = 1_000_001 * LINE
SMALL_LIMIT = 4096

#: At most so many fillings are written out.
FILLINGS_SHOWN = 200

#: Seconds without a byte after which a client is given up.
PATIENCE = 30.0

_PART = 256 * 1024
_JSON = "application/json"

_FILES = {
    "/": ("page.html", "text/html; charset=utf-8"),
    "/page.css": ("page.css", "text/css; charset=utf-8"),
    "/page.js": ("page.js", "text/javascript; charset=utf-8"),
}

_HEADERS = {
    "Content-Security-Policy": "default-src 'none'; script-src 'self'; style-src 'self'; connect-src 'self'; "
                               "img-src data:; base-uri 'none'; form-action 'none'; frame-ancestors 'none'",
    "Cross-Origin-Resource-Policy": "same-origin",
    "Cross-Origin-Opener-Policy": "same-origin",
    "X-Content-Type-Options": "nosniff",
    "Referrer-Policy": "no-referrer",
    "Cache-Control": "no-store",
    "Connection": "close",
}

#: What a call answers, as JSON.
Answer = Dict[str, object]


# ----------------------------------------------------------------------------------------------------------------------
# What is answered


def _refused(shown: Shown, language: str) -> Answer:
    """A refusal, with the figures of a sum as amounts too: a browser's numbers do not hold twenty digits."""
    amounts = {name: money(cents, language) for name, cents in shown.figures.items()} if shown.name == "sum" else {}
    return {"accepted": False, "refusal": shown.as_dict(), "amounts": amounts}


def _judged(judging: Judging, language: str) -> Answer:
    """What a wage file came to."""
    ended = judging.end()
    if not isinstance(ended, Accepted):
        return _refused(ended, language)
    return {"accepted": True, **ended._asdict(), "sum": money(ended.cents, language)}


def _slip(data: bytes, language: str) -> Answer:
    """The fields of a scanned slip, or its refusal, and whether what the reader added was mended first."""
    slip = scanned(data)
    try:
        cents = slip_cents(slip)
    except Refusal as refusal:
        shown = _refused(of_slip(refusal, slip, language), language)
        return {**shown, "changed": slip != data, "ledger": _ledger(slip, language)}
    fields = slip_fields(slip, language)
    return {"accepted": True, "changed": slip != data, "cents": cents, "sum": money(cents, language), "fields": fields}


def _ledger(slip: bytes, language: str) -> Optional[Answer]:
    """What a kuna slip, which is refused all the same, says for the ledger: its amount in kuna and in euro, its fields."""
    try:
        amount = ledger_read(slip)
    except Refusal:
        return None
    # a euro slip is not shown here: it has its own answer
    if not isinstance(amount, Lipa):
        return None
    euro = money(lipa_in_cents(amount).cents, language)
    return {"kuna": kuna(amount, language), "euro": euro, "fields": slip_fields(slip, language)}


def _wet(asked: Dict[str, str], language: str) -> Answer:
    """The fillings of an IBAN, or of a reference under its model."""
    model, text = _typed(asked)
    try:
        numbers = list_iban(text) if model is None else list_reference(model, text)
    except Refusal as refusal:
        what = "iban" if model is None else "reference"
        return _refused(of_text(refusal, what, text, language, model=model), language)
    fillings = [filled(text, number).decode() for number in numbers[:FILLINGS_SHOWN]]
    return {"accepted": True, "text": text.decode(), "count": len(numbers), "fillings": fillings}


def _check(asked: Dict[str, str], language: str) -> Answer:
    """Whether an IBAN, an OIB or a reference is right."""
    what = asked.get("what", "")
    model, text = _typed(asked)
    if what not in ("iban", "oib", "reference") or (what == "reference") != (model is not None):
        raise _Bad(HTTPStatus.BAD_REQUEST, "what must be iban, oib or reference, the last with a model")
    try:
        if model is None:
            {"iban": iban, "oib": oib}[what](text)
        else:
            reference(model, text)
    except Refusal as refusal:
        return _refused(of_text(refusal, what, text, language, placed=True, model=model), language)
    return {"accepted": True, "text": text.decode()}


def _typed(asked: Dict[str, str]) -> Tuple[Optional[bytes], bytes]:
    """The model, if there is one, and the text, as the calls take them."""
    return compact(asked["model"]) if "model" in asked else None, compact(asked["text"])


# ----------------------------------------------------------------------------------------------------------------------
# What is asked


class _Bad(Exception):
    """What is wrong with a request: a status from 400 up, and why in a sentence."""

    def __init__(self, status: HTTPStatus, why: str) -> None:
        super().__init__(status, why)
        self.status = status
        self.why = why


def _texts(body: bytes) -> Dict[str, str]:
    """The texts of a JSON body, `text` among them."""
    try:
        asked = json.loads(body.decode())
        if not isinstance(asked, dict) or "text" not in asked:
            raise ValueError("no text")
        for name, text in asked.items():
            # what has no UTF-8, half a pair of surrogates, is not text
            (name + text).encode()
        return cast(Dict[str, str], asked)
    except (ValueError, TypeError, RecursionError):
        raise _Bad(HTTPStatus.BAD_REQUEST, "a JSON object of texts is needed, with text among them") from None


class _Request(BaseHTTPRequestHandler):
    """One request, one answer, and the connection ends."""

    server: "PageServer"
    protocol_version = "HTTP/1.1"

    def setup(self) -> None:
        """Sets how long a client may be silent."""
        super().setup()
        self.connection.settimeout(self.server.patience)

    def do_GET(self) -> None:
        """Answers with one of the page's files, or with how far a wage file is judged."""
        self._respond(self._get)

    def do_HEAD(self) -> None:
        """Answers as to GET, without the content."""
        self.do_GET()

    def do_POST(self) -> None:
        """Answers what is said of a wage file, a slip or a typed text."""
        self._respond(self._post)

    def _respond(self, answered: Callable[[str, Dict[str, str]], Tuple[str, bytes]]) -> None:
        try:
            self._ask_for_own_host()
            if not self.path.startswith("/"):
                raise _Bad(HTTPStatus.BAD_REQUEST, "a path is needed")
            kind, content = answered(*self._target())
        except _Bad as bad:
            self.send_error(bad.status, bad.why)
        else:
            self._send(HTTPStatus.OK, kind, content)

    def _get(self, path: str, query: Dict[str, str]) -> Tuple[str, bytes]:
        if path == "/api/progress":
            return _JSON, _json(self.server.progress(query.get("id", ""), self._language(query)))
        if path in self.server.files:
            return _FILES[path][1], self.server.files[path]
        self._no_such(path)

    def _post(self, path: str, query: Dict[str, str]) -> Tuple[str, bytes]:
        self._ask_for_own_origin()
        language = self._language(query)
        if path == "/api/wage":
            return _JSON, _json(self._wage(query, language))
        if path == "/api/slip":
            return _JSON, _json(_slip(self._small_body(), language))
        if path == "/api/wet":
            return _JSON, _json(_wet(_texts(self._small_body()), language))
        if path == "/api/check":
            return _JSON, _json(_check(_texts(self._small_body()), language))
        self._no_such(path)

    def _language(self, query: Dict[str, str]) -> str:
        """The language that is asked for, else the page's own."""
        language = query.get("lang", self.server.language)
        if language not in LANGUAGES:
            raise _Bad(HTTPStatus.BAD_REQUEST, "lang must be en or hr")
        return language

    def _wage(self, query: Dict[str, str], language: str) -> Answer:
        """Judges the body, part by part; meanwhile its running total is told under the id that the client chose."""
        day, name = query.get("day", ""), query.get("id", "")
        if not re.fullmatch("[0-9]{8}", day) or not re.fullmatch("[0-9a-f]{0,64}", name):
            raise _Bad(HTTPStatus.BAD_REQUEST, "day must be eight digits, and id, if given, hexadecimal digits")
        length = self._length(WAGE_LIMIT)
        judging = Judging(int(day), language)
        if name and self.server.running.setdefault(name, judging) is not judging:
            raise _Bad(HTTPStatus.CONFLICT, "this id is in use")
        try:
            # read to its end even after a refusal: a browser that still sends would not see the answer
            for part in self._parts(length):
                judging.feed(part)
            return _judged(judging, language)
        finally:
            self.server.running.pop(name, None)

    def _ask_for_own_host(self) -> None:
        """Another name for this machine, as a foreign page may give it, is not answered."""
        hosts: List[str] = self.headers.get_all("Host", [])
        if len(hosts) != 1 or hosts[0].strip().lower() not in self.server.hosts:
            raise _Bad(HTTPStatus.FORBIDDEN, "the Host is not this page's")

    def _ask_for_own_origin(self) -> None:
        origins: List[str] = self.headers.get_all("Origin", [])
        if origins and origins != ["http://" + self.headers["Host"].strip().lower()]:
            raise _Bad(HTTPStatus.FORBIDDEN, "the Origin is not this page")

    def _target(self) -> Tuple[str, Dict[str, str]]:
        """The path, and what is asked behind it."""
        try:
            target = urlsplit(self.path)
            return target.path, dict(parse_qsl(target.query, keep_blank_values=True, max_num_fields=8))
        except ValueError:
            raise _Bad(HTTPStatus.BAD_REQUEST, "the address is not understood") from None

    def _no_such(self, path: str) -> NoReturn:
        if path in _FILES or path in ("/api/progress", "/api/wage", "/api/slip", "/api/wet", "/api/check"):
            raise _Bad(HTTPStatus.METHOD_NOT_ALLOWED, "GET for the page and its progress, POST for the rest")
        raise _Bad(HTTPStatus.NOT_FOUND, "there is nothing here")

    def _length(self, limit: int) -> int:
        """The length of the body, which must be told."""
        told: List[str] = self.headers.get_all("Content-Length", [])
        if not told or "Transfer-Encoding" in self.headers:
            raise _Bad(HTTPStatus.LENGTH_REQUIRED, "a Content-Length is needed")
        if len(told) != 1 or not re.fullmatch("[0-9]+", told[0].strip()):
            raise _Bad(HTTPStatus.BAD_REQUEST, "the Content-Length is not a number")
        # compared as text first: a number of thousands of digits is not read
        digits = told[0].strip().lstrip("0") or "0"
        if len(digits) > len(str(limit)) or int(digits) > limit:
            raise _Bad(HTTPStatus.REQUEST_ENTITY_TOO_LARGE, f"at most {limit} bytes are taken")
        return int(digits)

    def _parts(self, left: int) -> Iterator[bytes]:
        """The body in parts."""
        while left:
            part = self.rfile.read(min(left, _PART))
            if not part:
                raise ConnectionAbortedError("the client hung up")
            left -= len(part)
            yield part

    def _small_body(self) -> bytes:
        return b"".join(self._parts(self._length(SMALL_LIMIT)))

    def send_error(self, code: int, message: Optional[str] = None, explain: Optional[str] = None) -> None:
        """Answers with a status from 400 up; the base class too calls this, of a request that it cannot read."""
        self._send(code, _JSON, _json({"error": message or HTTPStatus(code).phrase}))
        self._pass_over_rest()

    def _send(self, status: int, kind: str, content: bytes) -> None:
        self.close_connection = True
        self.send_response(status)
        for name, value in _HEADERS.items():
            self.send_header(name, value)
        self.send_header("Content-Type", kind)
        self.send_header("Content-Length", str(len(content)))
        self.end_headers()
        if self.command != "HEAD":
            self.wfile.write(content)

    def _pass_over_rest(self) -> None:
        """Reads what is still sent, for a while: ended at once, the connection might take the answer with it."""
        self.connection.shutdown(socket.SHUT_WR)
        end = time.monotonic() + self.server.patience
        while time.monotonic() < end and self.connection.recv(_PART):
            pass

    def version_string(self) -> str:
        """The name of the server, without a version."""
        return "lanecockle"

    def log_message(self, format: str, *args: Any) -> None:
        """Writes nothing down."""


def _json(answer: Answer) -> bytes:
    return json.dumps(answer).encode("ascii")


# ----------------------------------------------------------------------------------------------------------------------
# The server


class PageServer(ThreadingHTTPServer):
    """The server of the page, on the loopback address; port 0 takes a free one."""

    def __init__(self, port: int, language: str) -> None:
        super().__init__((LOOPBACK, port), _Request)
        self.language = language
        self.patience = PATIENCE
        self.running: Dict[str, Judging] = {}
        self.hosts = _hosts(self.server_port)
        here = Path(__file__).resolve().parent
        self.files = {path: (here / name).read_bytes() for path, (name, _) in _FILES.items()}
        self.files["/"] = self.files["/"].replace(b'<html lang="en">', b'<html lang="%s">' % language.encode(), 1)

    def server_bind(self) -> None:
        """Binds the address, without asking any name server about it."""
        socketserver.TCPServer.server_bind(self)
        self.server_name, self.server_port = LOOPBACK, int(self.socket.getsockname()[1])

    @property
    def address(self) -> str:
        """The address of the page, for a browser."""
        return f"http://{LOOPBACK}:{self.server_port}/"

    def progress(self, name: str, language: str) -> Answer:
        """How far the wage file of an id is judged, and what its orders come to so far."""
        judging = self.running.get(name)
        if judging is None:
            return {"running": False}
        read = judging.so_far()
        return {"running": True, "refused": judging.refused, **read, "sum": money(read["cents"], language)}

    def handle_error(self, request: Any, client_address: Any) -> None:
        """A client that hung up or was too slow is forgotten; another failure is told by its name, without contents."""
        failure = sys.exc_info()[0]
        if failure is not None and not issubclass(failure, OSError):
            print(f"lanecockle page: a request failed, {failure.__name__}", file=sys.stderr)


def _hosts(port: int) -> List[str]:
    """What a Host may be; browsers leave out port 80."""
    names = [LOOPBACK, "localhost"]
    return [f"{name}:{port}" for name in names] + (names if port == 80 else [])


def make_server(port: int = 0, language: str = "en") -> PageServer:
    """A server that listens, and answers once its serve_forever runs."""
    if language not in LANGUAGES:
        raise ValueError(f"the language must be one of {', '.join(LANGUAGES)}, not {language}")
    return PageServer(port, language)


def serve(port: int = 0, open_browser: bool = True, language: str = "en") -> int:
    """Serves the page until Ctrl-C and prints its address; gives the exit status, 2 where the port cannot be had."""
    try:
        server = make_server(port, language)
    except (OSError, OverflowError) as failure:
        why = failure.strerror if isinstance(failure, OSError) else failure
        said = "port {} se ne može otvoriti: {}" if language == "hr" else "port {} cannot be opened: {}"
        print("lanecockle: " + said.format(port, why), file=sys.stderr)
        return 2
    with server:
        print(server.address, flush=True)
        if open_browser:
            # some browsers are waited for, and they wait for the page
            threading.Thread(target=webbrowser.open, args=(server.address,), daemon=True).start()
        try:
            server.serve_forever()
        except KeyboardInterrupt:
            pass
    return 0
