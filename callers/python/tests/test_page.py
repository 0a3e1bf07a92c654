"""Tests of the page through HTTP: each call in both languages, large bodies in constant memory, and bad requests."""

import http.client
import io
import json
import os
import queue
import re
import resource
import signal
import socket
import subprocess
import sys
import threading
import time
import tracemalloc
import unittest
from pathlib import Path
from typing import Any, Dict, Iterator, List, Optional, Tuple
from unittest import mock

from lanecockle import LINE, page, write_closing, write_group, write_label, write_order
from tests.test_calls import DAY, GROUP_FIELDS, LABEL_FIELDS, SLIP_FIELDS, file_of_two, order_fields, replaced, slip_of
from tests.test_ledger import ACCEPTED, KUNA, kuna_with

PACKAGE = Path(page.__file__).resolve().parent
WAGE = f"/api/wage?day={DAY}"

Answered = Tuple[int, Dict[str, str], bytes]


def made_file(groups: List[int]) -> Iterator[bytes]:
    """A wage file of groups of so many orders of one cent, in pieces of at most 200 lines."""
    order = write_order(DAY, 4, order_fields(b"%015d" % 1))
    group = write_group(DAY, 4, GROUP_FIELDS, order)
    yield write_label(DAY, LABEL_FIELDS)
    for orders in groups:
        yield group[:48] + b"%05d%020d" % (orders, orders) + group[73:]
        for done in range(0, orders, 200):
            yield order * min(200, orders - done)
    yield write_closing(DAY)


def lines_of(groups: List[int]) -> int:
    return 2 + len(groups) + sum(groups)


class Served(unittest.TestCase):
    """A page on a free port, in a thread, which must say nothing on standard error."""

    language = "en"

    def setUp(self) -> None:
        self.stderr = io.StringIO()
        patched = mock.patch.object(sys, "stderr", self.stderr)
        patched.start()
        self.addCleanup(patched.stop)
        self.server = page.make_server(0, self.language)
        thread = threading.Thread(target=self.server.serve_forever, args=(0.01,))
        thread.start()
        self.addCleanup(self.server.server_close)
        self.addCleanup(thread.join)
        self.addCleanup(self.server.shutdown)

    def tearDown(self) -> None:
        self.assertEqual(self.stderr.getvalue(), "")

    def ask(self, method: str, path: str, body: Any = None, headers: Optional[Dict[str, str]] = None) -> Answered:
        """Status, headers and content of an answer."""
        connection = http.client.HTTPConnection("127.0.0.1", self.server.server_port, timeout=20)
        try:
            connection.request(method, path, body, headers or {})
            answer = connection.getresponse()
            return answer.status, dict(answer.getheaders()), answer.read()
        finally:
            connection.close()

    def post(self, path: str, body: Any, **headers: str) -> Dict[str, Any]:
        """What a call answers."""
        named = {name.replace("_", "-"): text for name, text in headers.items()}
        status, told, content = self.ask("POST", path, body, named)
        self.assertEqual((status, told["Content-Type"]), (200, "application/json"), content)
        answer: Dict[str, Any] = json.loads(content)
        return answer

    def asked(self, path: str, **texts: str) -> Dict[str, Any]:
        return self.post(path, json.dumps(texts).encode())

    def connect(self) -> socket.socket:
        return socket.create_connection(("127.0.0.1", self.server.server_port), timeout=20)

    def raw(self, sent: bytes) -> bytes:
        """All that is answered to bytes, up to the end of the connection."""
        with self.connect() as connection:
            connection.sendall(sent)
            answer = b""
            while True:
                part = connection.recv(65536)
                if not part:
                    return answer
                answer += part

    def head(self, path: str, *headers: str) -> bytes:
        """The head of a POST."""
        lines = [f"POST {path} HTTP/1.1", f"Host: 127.0.0.1:{self.server.server_port}", *headers, "", ""]
        return "\r\n".join(lines).encode()

    def assert_status(self, status: int, answered: Answered) -> None:
        self.assertEqual(answered[0], status, answered)
        self.assertIn("error", json.loads(answered[2]))

    def assert_answers(self) -> None:
        """That the server answers and keeps nothing of what came before."""
        self.assertTrue(self.post(WAGE, file_of_two())["accepted"])
        self.assertEqual(self.server.running, {})


class Page(Served):
    language = "hr"

    def test_files(self) -> None:
        for path, kind, start in (("/", "text/html", b"<!DOCTYPE html>"), ("/page.css", "text/css", b":root"),
                                  ("/page.js", "text/javascript", b'"use strict"')):
            status, headers, content = self.ask("GET", path)
            self.assertEqual((status, headers["Content-Type"]), (200, kind + "; charset=utf-8"))
            self.assertTrue(content.startswith(start))
        self.assertIn(b'<html lang="hr">', self.ask("GET", "/")[2])
        own = b"Host: 127.0.0.1:%d\r\n" % self.server.server_port
        self.assertTrue(self.raw(b"HEAD / HTTP/1.1\r\n" + own + b"\r\n").endswith(b"\r\n\r\n"))

    def test_headers(self) -> None:
        answers = [self.ask("GET", "/"), self.ask("GET", "/page.js"), self.ask("GET", "/nothing"), self.ask("PUT", "/"),
                   self.ask("POST", WAGE, file_of_two()), self.ask("POST", "/api/slip", b"x" * 5000)]
        self.assertEqual([answer[0] for answer in answers], [200, 200, 404, 501, 200, 413])
        for _, headers, _ in answers:
            policy = headers["Content-Security-Policy"]
            self.assertIn("default-src 'none'; script-src 'self'; style-src 'self'; connect-src 'self'", policy)
            self.assertNotIn("unsafe", policy)
            self.assertEqual(
                [headers[name] for name in ("X-Content-Type-Options", "Referrer-Policy", "Cache-Control")],
                ["nosniff", "no-referrer", "no-store"])
            self.assertNotIn("Python", headers["Server"])

    def test_own_language(self) -> None:
        self.assertEqual(self.post("/api/slip", slip_of(SLIP_FIELDS))["sum"], "123,55 EUR")
        self.assertEqual(self.post("/api/slip?lang=en", slip_of(SLIP_FIELDS))["sum"], "123.55 EUR")


class Written(unittest.TestCase):
    """What stands in the page's files."""

    def read(self, name: str) -> str:
        return (PACKAGE / name).read_text(encoding="utf-8")

    def test_only_text_is_shown(self) -> None:
        script = self.read("page.js")
        for word in ("innerHTML", "outerHTML", "insertAdjacentHTML", "setHTML", "document.write", "DOMParser", "eval(",
                     "createContextualFragment", "Function(", "localStorage", "sessionStorage", "cookie", "indexedDB"):
            self.assertNotIn(word, script)

    def test_nothing_from_outside(self) -> None:
        for name in ("page.html", "page.css", "page.js"):
            text = self.read(name).replace("http://www.w3.org/2000/svg", "")
            self.assertNotRegex(text, r"https?:|//\w+\.\w|@import|url\(")
        self.assertNotRegex(self.read("page.html"), r"<style|<script>|\sstyle=|\son\w+=")

    def test_both_languages_say_the_same(self) -> None:
        script = self.read("page.js")
        table = script[script.index("const TEXTS"):script.index("const PARTS")]
        tables = [dict(re.findall(r"^    (\w+): (\".*\"),$", part, re.M)) for part in table.split("\n  hr: {")]
        english, croatian = tables
        self.assertEqual(list(english), list(croatian))
        self.assertGreater(len(english), 50)
        for key in english:
            marks = [sorted(re.findall(r"\{\w+\}", texts[key])) for texts in tables]
            self.assertEqual(marks[0], marks[1], key)
        used = set(re.findall(r'data-(?:text|label)="(\w+)"', self.read("page.html")))
        used |= set(re.findall(r'"(\w+)"', script.replace(table, "")))
        figures = {"declared", "counted", "summed"}
        self.assertEqual(set(english) - used - figures, {"title"} - used)
        self.assertEqual(set(re.findall(r'\bsay\("(\w+)"', script)) - set(english), set())

    def test_limits_are_the_same(self) -> None:
        limits = f"const LIMITS = {{ wage: {page.WAGE_LIMIT}, slip: {page.SMALL_LIMIT}, wet: {page.SMALL_LIMIT} }};"
        self.assertIn(limits, self.read("page.js"))


class Wages(Served):
    def test_accepted(self) -> None:
        counts = {"accepted": True, "lines": 5, "groups": 1, "orders": 2, "cents": 10**15 + 12354}
        self.assertEqual(self.post(WAGE, file_of_two()), {**counts, "sum": "10,000,000,000,123.54 EUR"})
        self.assertEqual(self.post(WAGE + "&lang=hr", file_of_two()), {**counts, "sum": "10.000.000.000.123,54 EUR"})

    def test_refused(self) -> None:
        for line, byte, text, told in (
            (2, 3, b"3", [6, 2, 1, 0]), (3, 1001, b" ", [2, 3, 0, 0]), (3, 350, b"<", [3, 3, 10, 350]),
            (3, 997, b"4", [5, 3, 0, 997]), (4, 179, b"2", [7, 4, 6, 177]), (4, 186, b"4", [8, 4, 7, 181]),
            (4, 181, b"5", [5, 4, 7, 181]), (4, 197, b"4", [9, 4, 7, 181]), (2, 77, b"9", [11, 2, 7, 73]),
            (2, 997, b"309", [10, 2, 0, 0]),
        ):
            file = bytearray(file_of_two())
            at = (line - 1) * LINE + byte
            file[at:at + len(text)] = text
            self.assert_refused(told, WAGE, bytes(file))
        self.assert_refused([1, 5, 0, 0], WAGE, file_of_two()[:-1])
        self.assert_refused([14, 5, 0, 0], WAGE, file_of_two()[:4 * LINE])
        self.assert_refused([14, 1, 0, 0], WAGE, b"")
        self.assert_refused([11, 0, 0, 0], "/api/wage?day=20230229", file_of_two())
        self.assert_refused([11, 1, 1, 0], f"/api/wage?day={DAY + 1}", file_of_two())

    def assert_refused(self, told: List[int], path: str, body: bytes) -> None:
        sentences = []
        for language in ("en", "hr"):
            answer = self.post(f"{path}&lang={language}", body)
            refusal = answer["refusal"]
            self.assertFalse(answer["accepted"])
            self.assertEqual([refusal[name] for name in ("number", "line", "field", "byte")], told)
            self.assertEqual(bool(refusal["field_name"]), told[2] != 0)
            sentences.append(refusal["sentence"])
        self.assertNotEqual(*sentences)

    def test_marked(self) -> None:
        file = file_of_two()
        refusal = self.post(WAGE, file[:2 * LINE + 361] + b"O" + file[2 * LINE + 362:])["refusal"]
        self.assertEqual((refusal["field_name"], refusal["mark"]), ("Amount", 14))
        self.assertEqual(refusal["content"], "00000000001235O")
        self.assertTrue(refusal["hints"])

    def test_figures(self) -> None:
        file = bytearray(file_of_two())
        file[LINE + 52:LINE + 53] = b"3"
        answer = self.post(WAGE, bytes(file))
        self.assertEqual(answer["refusal"]["figures"], {"declared": 3, "counted": 2})
        self.assertEqual(answer["refusal"]["number"], 12)
        file[LINE + 52:LINE + 54] = b"21"
        answer = self.post(WAGE + "&lang=hr", bytes(file))
        self.assertEqual(answer["refusal"]["figures"], {"declared": 10**19 + 10**15 + 12354, "summed": 10**15 + 12354})
        self.assertEqual(
            answer["amounts"], {"declared": "100.010.000.000.000.123,54 EUR", "summed": "10.000.000.000.123,54 EUR"})

    def test_constant_memory(self) -> None:
        groups = [20_000, 10_000]
        tracemalloc.start()
        try:
            answer = self.post(WAGE, made_file(groups), Content_Length=str(lines_of(groups) * LINE))
            peak = tracemalloc.get_traced_memory()[1]
        finally:
            tracemalloc.stop()
        self.assertEqual((answer["lines"], answer["orders"], answer["sum"]), (30_004, 30_000, "300.00 EUR"))
        self.assertLess(peak, 4_000_000)

    def test_gigabyte(self) -> None:
        groups = 9 * [99_999] + [99_997]
        before = resource.getrusage(resource.RUSAGE_SELF).ru_maxrss
        answer = self.post(WAGE, made_file(groups), Content_Length=str(lines_of(groups) * LINE))
        grown = resource.getrusage(resource.RUSAGE_SELF).ru_maxrss - before
        self.assertEqual((answer["lines"], answer["orders"], answer["cents"]), (1_000_000, 999_988, 999_988))
        # in kilobytes
        self.assertLess(grown, 32_000)

    def test_refused_before_the_end(self) -> None:
        """The answer comes though the client sends on."""
        answer = self.post(WAGE, (b"x" * LINE for _ in range(5000)), Content_Length=str(5000 * LINE))
        self.assertEqual((answer["refusal"]["number"], answer["refusal"]["line"]), (2, 1))

    def test_progress(self) -> None:
        file, name = b"".join(made_file([600])), "0123456789abcdef"
        with self.connect() as connection:
            connection.sendall(self.head(f"{WAGE}&id={name}", f"Content-Length: {len(file)}") + file[:300_000])
            told = self.progress(name)
            end = time.monotonic() + 10
            while not told.get("lines") and time.monotonic() < end:
                told = self.progress(name)
            self.assertEqual((told["running"], told["refused"], told["groups"]), (True, False, 1))
            self.assertEqual(told["orders"], told["lines"] - 2)
            # orders of one cent
            self.assertEqual((told["cents"], told["sum"]), (told["orders"], f"{told['orders'] / 100:.2f} EUR"))
            self.assertEqual(self.progress(name, "&lang=hr")["sum"], told["sum"].replace(".", ","))
            self.assert_status(400, self.ask("GET", f"/api/progress?id={name}&lang=de"))
            self.assert_status(409, self.ask("POST", f"{WAGE}&id={name}", file))
            connection.sendall(file[300_000:])
            with connection.makefile("rb") as answer:
                self.assertIn(b'"accepted": true, "lines": 603', answer.read())
        self.assertEqual(self.progress(name), {"running": False})
        self.assertEqual(self.progress("of nobody"), {"running": False})
        self.assert_answers()

    def progress(self, name: str, more: str = "") -> Dict[str, Any]:
        status, _, content = self.ask("GET", "/api/progress?id=" + name.replace(" ", "+") + more)
        self.assertEqual(status, 200)
        told: Dict[str, Any] = json.loads(content)
        return told


class Slips(Served):
    def test_accepted(self) -> None:
        answer = self.post("/api/slip?lang=hr", slip_of(SLIP_FIELDS))
        self.assertEqual((answer["accepted"], answer["changed"]), (True, False))
        self.assertEqual((answer["cents"], answer["sum"]), (12355, "123,55 EUR"))
        self.assertEqual([field["number"] for field in answer["fields"]], list(range(1, 15)))
        self.assertEqual([field["content"].encode() for field in answer["fields"][3:]], SLIP_FIELDS)
        self.assertEqual(answer["fields"][13]["name"], "Opis plaćanja")
        answer = self.post("/api/slip", slip_of(SLIP_FIELDS))
        self.assertEqual((answer["fields"][13]["name"], answer["sum"]), ("Description of the payment", "123.55 EUR"))

    def test_mended(self) -> None:
        answer = self.post("/api/slip", b"]L2" + slip_of(SLIP_FIELDS).replace(b"\n", b"\r\n"))
        self.assertEqual((answer["accepted"], answer["changed"]), (True, True))
        self.assertEqual([field["content"].encode() for field in answer["fields"][3:]], SLIP_FIELDS)
        answer = self.post("/api/slip", slip_of(replaced(SLIP_FIELDS, 9, b"COSt")).replace(b"\n", b"\r\n"))
        self.assertEqual((answer["accepted"], answer["changed"], answer["refusal"]["field"]), (False, True, 13))

    def test_refused(self) -> None:
        for number, text, refused, mark in (
            (4, b"IVAN_", 3, 4), (4, "Ž".encode() * 31, 4, 0), (10, b"SI1210010051863000160", 5, 0),
            (10, b"HR1310010051863000160", 6, 0), (11, b"HR12", 7, 0), (12, b"1-", 8, 0), (12, b"1", 9, 0),
            (10, b"", 4, 0),
        ):
            answer = self.post("/api/slip", slip_of(replaced(SLIP_FIELDS, number - 4, text)))
            refusal = answer["refusal"]
            self.assertEqual((refusal["number"], refusal["field"], refusal["mark"]), (refused, number, mark))
            self.assertEqual(refusal["content"], text.decode())
        self.assertEqual(self.post("/api/slip", b"x" * 4096)["refusal"]["number"], 1)
        self.assertEqual(self.post("/api/slip", b"")["refusal"]["number"], 2)

    def test_kuna(self) -> None:
        """Refused as a slip, with its hint; beside that, what it says for the ledger."""
        for language, kuna, euro in (("en", "123.55 HRK", "16.40 EUR"), ("hr", "123,55 HRK", "16,40 EUR")):
            answer = self.post(f"/api/slip?lang={language}", KUNA)
            self.assertEqual((answer["accepted"], "sum" in answer, "cents" in answer), (False, False, False))
            self.assertEqual((answer["refusal"]["number"], answer["refusal"]["field"]), (5, 2))
            self.assertIn("`ledger`", answer["refusal"]["hints"][0])
            self.assertEqual((answer["ledger"]["kuna"], answer["ledger"]["euro"]), (kuna, euro))
            self.assertEqual([field["content"].encode() for field in answer["ledger"]["fields"]], ACCEPTED[2])
        self.assertTrue(self.post("/api/slip", b"]L2" + KUNA)["ledger"])

    def test_no_kuna(self) -> None:
        """Of a kuna slip that is refused for the ledger too, and of a euro slip, nothing is said for the ledger."""
        self.assertIsNone(self.post("/api/slip", kuna_with(10, b"1001005"))["ledger"])
        self.assertIsNone(self.post("/api/slip", slip_of(replaced(SLIP_FIELDS, 9, b"COSt")))["ledger"])
        self.assertNotIn("ledger", self.post("/api/slip", slip_of(SLIP_FIELDS)))

    def test_script_is_text(self) -> None:
        slip = slip_of([b"<script>alert(1)</script>"] + SLIP_FIELDS[1:])
        status, headers, content = self.ask("POST", "/api/slip", slip)
        self.assertEqual((status, headers["Content-Type"]), (200, "application/json"))
        self.assertEqual(json.loads(content)["refusal"]["content"], "<script>alert(1)</script>")

    def test_any_bytes(self) -> None:
        self.assertEqual(self.post("/api/slip", bytes(range(256)))["accepted"], False)
        self.assertEqual(self.post("/api/slip?lang=hr", b"\xFF" * 14 + b"\n" * 14)["accepted"], False)


class Typed(Served):
    def test_wet_iban(self) -> None:
        answer = self.asked("/api/wet", text="hr?? 1001 0051 8630 0016 0")
        self.assertEqual(answer, {
            "accepted": True, "text": "HR??10010051863000160", "count": 1, "fillings": ["HR1210010051863000160"]})
        self.assertEqual(self.asked("/api/wet", text="HR1310010051863000160")["count"], 0)

    def test_wet_reference(self) -> None:
        answer = self.asked("/api/wet", model="HR01", text="??")
        self.assertEqual((answer["count"], answer["fillings"][:3]), (10, ["00", "19", "27"]))
        answer = self.asked("/api/wet", model="hr00", text="????")
        self.assertEqual((answer["count"], len(answer["fillings"]), answer["fillings"][199]), (10_000, 200, "0199"))
        self.assertEqual(self.asked("/api/wet", model="HR99", text="")["fillings"], [""])
        answer = self.asked("/api/wet", model="HR69", text="40002-12345678903-10?")
        self.assertEqual(answer["fillings"], ["40002-12345678903-100"])

    def test_wet_refused(self) -> None:
        for texts, number, content in (
            ({"text": "HR"}, 1, "HR"), ({"text": "SI?210010051863000160"}, 3, "SI?210010051863000160"),
            ({"text": "HR?????10051863000160"}, 16, "HR?????10051863000160"), ({"model": "HR", "text": "?"}, 5, "HR"),
            ({"model": "HR12", "text": "?"}, 7, "HR12"), ({"model": "HR01", "text": "ž"}, 3, "ž"),
        ):
            for language in ("en", "hr"):
                refusal = self.asked(f"/api/wet?lang={language}", **texts)["refusal"]
                self.assertEqual((refusal["number"], refusal["content"], refusal["mark"]), (number, content, -1))

    def test_checks(self) -> None:
        self.assertEqual(
            self.asked("/api/check", what="iban", text=" hr12 1001 0051 8630 0016 0 "),
            {"accepted": True, "text": "HR1210010051863000160"})
        self.assertTrue(self.asked("/api/check", what="oib", text="12345678903")["accepted"])
        right = {"what": "reference", "model": "HR69", "text": "40002-12345678903-100"}
        self.assertTrue(self.asked("/api/check", **right)["accepted"])
        for texts, number, mark in (
            ({"what": "iban", "text": "HR1310010051863000160"}, 6, -1), ({"what": "iban", "text": ".R12"}, 3, 0),
            ({"what": "oib", "text": "1234567890"}, 4, -1), ({"what": "oib", "text": "1234567890x"}, 3, 10),
            ({"what": "reference", "model": "HR12", "text": "1"}, 7, -1),
            ({"what": "reference", "model": "HR01", "text": ""}, 8, -1),
            ({"what": "reference", "model": "HR01", "text": "1"}, 9, -1),
            ({"what": "reference", "model": "X", "text": "1"}, 5, -1), ({**right, "text": "40002-12345678903-101"}, 5, -1),
        ):
            refusal = self.asked("/api/check", **texts)["refusal"]
            self.assertEqual((refusal["number"], refusal["mark"]), (number, mark), texts)

    def test_five_of_a_reference(self) -> None:
        """Shown of the model, or of the reference, with the hints of that one."""
        for model, content, words in (("HR6", "HR6", "HR01"), ("HR69", "40010-12345678903-100", "40002")):
            asked = {"what": "reference", "model": model, "text": "40010-12345678903-100"}
            refusal = self.asked("/api/check", **asked)["refusal"]
            self.assertEqual((refusal["number"], refusal["content"], len(refusal["hints"])), (5, content, 1))
            self.assertIn(words, refusal["hints"][0])


class Bad(Served):
    def test_hosts(self) -> None:
        port = self.server.server_port
        for host in (f"127.0.0.1:{port}", f"localhost:{port}", f"LocalHost:{port}"):
            self.assertEqual(self.ask("GET", "/", headers={"Host": host})[0], 200)
        for host in ("", "localhost", "127.0.0.1", f"evil.example:{port}", f"127.0.0.1:{port + 1}",
                     f"127.0.0.1:{port}.evil.example"):
            for method, path in (("GET", "/"), ("GET", "/api/progress?id=0"), ("POST", WAGE)):
                self.assert_status(403, self.ask(method, path, headers={"Host": host}))
        self.assertIn(b" 403 ", self.raw(b"GET / HTTP/1.0\r\n\r\n"))
        own = b"Host: 127.0.0.1:%d\r\n" % port
        self.assertIn(b" 403 ", self.raw(b"GET / HTTP/1.1\r\n" + own + own + b"\r\n"))

    def test_origins(self) -> None:
        port = self.server.server_port
        slip = slip_of(SLIP_FIELDS)
        self.assertTrue(self.post("/api/slip", slip, Origin=f"http://127.0.0.1:{port}")["accepted"])
        local = f"localhost:{port}"
        self.assertTrue(self.post("/api/slip", slip, Origin=f"http://{local}", Host=local)["accepted"])
        for origin in ("null", "http://evil.example", f"https://127.0.0.1:{port}", f"http://127.0.0.1:{port + 1}",
                       f"http://localhost:{port}", ""):
            self.assert_status(403, self.ask("POST", "/api/slip", slip, {"Origin": origin}))

    def test_limits(self) -> None:
        self.assert_status(413, self.ask("POST", "/api/slip", b"x" * 4097))
        self.assert_status(413, self.ask("POST", "/api/wet", b'{"text": "%s"}' % (b"?" * 4096)))
        # so long that the answer is there before all is sent
        self.assert_status(413, self.ask("POST", "/api/check", b" " * 8_000_000))
        for length in (str(page.WAGE_LIMIT + 1), "9" * 30, "9" * 5000):
            self.assertIn(b" 413 ", self.raw(self.head(WAGE, f"Content-Length: {length}") + b"x"))
        self.assert_answers()

    def test_lengths(self) -> None:
        cases: List[Tuple[List[str], int]] = [
            ([], 411), (["Transfer-Encoding: chunked"], 411),
            (["Transfer-Encoding: chunked", "Content-Length: 3"], 411),
            (["Content-Length: -1"], 400), (["Content-Length: 1e3"], 400), (["Content-Length: "], 400),
            (["Content-Length: \xb2"], 400), (["Content-Length: 3", "Content-Length: 4"], 400),
        ]
        for headers, status in cases:
            for path in (WAGE, "/api/slip", "/api/wet", "/api/check"):
                answer = self.raw(self.head(path, *headers) + b"3\r\nabc\r\n0\r\n\r\n")
                self.assertIn(b"HTTP/1.1 %d " % status, answer)
        self.assert_answers()

    def test_bad_json(self) -> None:
        for body in (b"", b"{", b"[]", b"null", b"[" * 4096, b'{"text": 1}', b'{"text": null}', b'{"txt": "1"}',
                     b'{"text": ["1"]}', b'{"text": "\\ud800"}', b'{"text": "1", "model": 2}', b"\xFF",
                     b'{"text": "1"} x', b"9" * 4096):
            for path in ("/api/wet", "/api/check"):
                self.assert_status(400, self.ask("POST", path, body))
        for texts in ({"text": "1"}, {"text": "1", "what": "model"}, {"text": "1", "what": "reference"},
                      {"text": "1", "what": "oib", "model": "HR01"}):
            self.assert_status(400, self.ask("POST", "/api/check", json.dumps(texts)))

    def test_bad_queries(self) -> None:
        for path in ("/api/wage", "/api/wage?day=", "/api/wage?day=2024-02-28", "/api/wage?day=202402280",
                     "/api/wage?day=%00", WAGE + "&id=../x", WAGE + "&id=" + "a" * 65, WAGE + "&lang=de",
                     WAGE + "&a" * 20, "/api/slip?lang=", "/api/wet?lang=EN"):
            self.assert_status(400, self.ask("POST", path, b"{}"))
        for method, path, status in (
            ("GET", "/nothing", 404), ("GET", "/../page.py", 404), ("GET", "/page.py", 404), ("POST", "/nothing", 404),
            ("GET", WAGE, 405), ("POST", "/", 405), ("POST", "/api/progress", 405), ("DELETE", "/", 501),
        ):
            self.assert_status(status, self.ask(method, path))
        self.assertIn(b" 400 ", self.raw(self.head("http://evil.example/", "Content-Length: 0")))

    def test_no_http(self) -> None:
        for sent in (b"\r\n", b"\0\0\0\0\r\n\r\n", b"GET\r\n\r\n", b"GET / HTTP/9.9\r\n\r\n", b"GET / HTTP/x\r\n\r\n",
                     b"G" * 70_000 + b"\r\n\r\n", b"GET / HTTP/1.1\r\n" + b"a: b\r\n" * 200 + b"\r\n",
                     b"GET / HTTP/1.1\r\nHost: " + b"x" * 70_000 + b"\r\n\r\n", b"GET /\r\n\r\n"):
            self.assertNotIn(b" 200 ", self.raw(sent))
        self.assert_answers()

    def test_hang_up(self) -> None:
        for sent in (b"", b"POST", self.head(WAGE + "&id=0a", "Content-Length: 1000000")[:-2],
                     self.head(WAGE + "&id=0a", "Content-Length: 1000000") + file_of_two(),
                     self.head("/api/wet", "Content-Length: 1000") + b"{"):
            with self.connect() as connection:
                connection.sendall(sent)
        self.assert_forgotten()
        self.assert_answers()

    def test_short_body(self) -> None:
        """A file of which only the first part came is not judged."""
        file = file_of_two()
        with self.connect() as connection:
            connection.sendall(self.head(WAGE, f"Content-Length: {len(file) + 1}") + file)
            connection.shutdown(socket.SHUT_WR)
            self.assertEqual(connection.recv(1), b"")
        self.assert_answers()

    def test_slow(self) -> None:
        self.server.patience = 0.1
        for sent in (b"", b"POST", self.head(WAGE + "&id=0a", "Content-Length: 1000000") + file_of_two()):
            with self.connect() as connection:
                connection.sendall(sent)
                self.assertEqual(connection.recv(1), b"")
        self.server.patience = page.PATIENCE
        self.assert_forgotten()
        self.assert_answers()

    def assert_forgotten(self) -> None:
        """That nothing is kept of a file whose client is gone, within a while."""
        end = time.monotonic() + 10
        while self.server.running and time.monotonic() < end:
            time.sleep(0.01)
        self.assertEqual(self.server.running, {})


class Serving(unittest.TestCase):
    def serve(self, *lent: object) -> "subprocess.Popen[str]":
        """A process that serves the page."""
        # where the tests run in the background of a shell, a process of theirs would ignore the signal that ends the page
        code = ("import signal, sys; signal.signal(signal.SIGINT, signal.default_int_handler); "
                f"from lanecockle import page; sys.exit(page.serve(*{lent!r}))")
        environment = dict(os.environ, PYTHONPATH=str(PACKAGE.parent))
        process = subprocess.Popen([sys.executable, "-B", "-W", "error", "-c", code], env=environment, text=True,
                                   stdout=subprocess.PIPE, stderr=subprocess.PIPE)
        self.addCleanup(process.communicate)
        self.addCleanup(process.kill)
        return process

    def test_until_interrupted(self) -> None:
        process = self.serve(0, False, "hr")
        assert process.stdout is not None
        address = process.stdout.readline()
        self.assertRegex(address, r"^http://127\.0\.0\.1:[0-9]+/\n$")
        connection = http.client.HTTPConnection(address[len("http://"):-2], timeout=20)
        connection.request("GET", "/")
        self.assertIn(b'<html lang="hr">', connection.getresponse().read())
        connection.close()
        process.send_signal(signal.SIGINT)
        self.assertEqual((process.communicate(timeout=20), process.returncode), (("", ""), 0))

    def test_port_in_use(self) -> None:
        with socket.create_server(("127.0.0.1", 0)) as taken:
            port = taken.getsockname()[1]
            with mock.patch.object(sys, "stderr", io.StringIO()) as stderr:
                self.assertEqual(page.serve(port, False), 2)
        self.assertIn(f"port {port}", stderr.getvalue())

    def test_browser_is_opened(self) -> None:
        opened: "queue.Queue[str]" = queue.Queue()
        interrupted = mock.patch.object(page.PageServer, "serve_forever", side_effect=KeyboardInterrupt)
        said = mock.patch.object(sys, "stdout", io.StringIO())
        with interrupted, said as stdout, mock.patch("webbrowser.open", opened.put):
            self.assertEqual(page.serve(), 0)
        self.assertEqual(opened.get(timeout=20) + "\n", stdout.getvalue())

    def test_language(self) -> None:
        self.assertRaises(ValueError, page.make_server, 0, "de")

    def test_no_name_server_is_asked(self) -> None:
        with mock.patch.object(socket, "getfqdn", side_effect=AssertionError), page.make_server() as server:
            self.assertRegex(server.address, r"^http://127\.0\.0\.1:[0-9]+/$")


if __name__ == "__main__":
    unittest.main()
