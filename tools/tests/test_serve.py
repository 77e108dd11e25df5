"""The server: who may ask it, what it refuses, and that hostile input ends nothing."""

import http.client
import json
import os
import shutil
import socket
import subprocess
import tempfile
import threading
import time
import unittest
from concurrent.futures import ThreadPoolExecutor
from unittest import mock

import best_texts
import browser
import examples
from koat_tools import serve
from test_command import STAND_IN, script


def open_text(path):
    if not os.path.exists(path):
        return ""
    with open(path, encoding="utf-8") as file:
        return file.read()


def wait(what):
    """What comes to be, within half a minute."""
    for _ in range(300):
        found = what()
        if found:
            return found
        time.sleep(0.1)
    return None


class Serving(unittest.TestCase):
    def setUp(self):
        patched = mock.patch.dict(os.environ, {"KOAT": STAND_IN})
        patched.start()
        self.addCleanup(patched.stop)
        self.server = serve.Server(0, 30, 500)
        threading.Thread(target=self.server.serve_forever, daemon=True).start()
        self.addCleanup(self.server.server_close)
        self.addCleanup(self.server.shutdown)
        self.port = self.server.server_address[1]

    def asked(self, method, path, body=None, host=None, **headers):
        """The status, the headers and the text of an answer."""
        talk = http.client.HTTPConnection("127.0.0.1", self.port, timeout=60)
        given = {"Host": host or f"127.0.0.1:{self.port}", **{key.replace("_", "-"): it for key, it in headers.items()}}
        talk.request(method, path, body, given)
        answer = talk.getresponse()
        text = answer.read().decode()
        talk.close()
        return answer.status, answer.headers, text

    def answer(self, text, query="", **headers):
        path = f"/{self.server.token}/answer{query}"
        return self.asked("POST", path, text, **{"X_Koat": "1", **headers})

    def test_it_listens_on_this_machine_alone(self):
        self.assertEqual(self.server.server_address[0], "127.0.0.1")
        self.assertGreaterEqual(len(self.server.token), 32)
        other = serve.Server(0, 1)
        other.server_close()
        self.assertNotEqual(self.server.token, other.token)

    def test_the_editor_and_a_page(self):
        status, headers, text = self.asked("GET", f"/{self.server.token}/")
        self.assertEqual(status, 200)
        self.assertIn("default-src 'none'; script-src 'nonce-", headers["Content-Security-Policy"])
        self.assertIn("<textarea", text)
        status, _, text = self.answer(examples.text("gcd", ".koat"))
        told = json.loads(text)
        self.assertEqual((status, told["competition"]), (200, "WORST_CASE(?, O(n^1))"))
        status, headers, text = self.asked("GET", f"/{self.server.token}/page/{told['page']}")
        self.assertEqual(status, 200)
        self.assertTrue(headers["Content-Security-Policy"].startswith("sandbox allow-scripts; default-src 'none'"))
        self.assertIn("Rule 2 lowers it", text)

    def test_each_command_is_asked(self):
        text = best_texts.program("difference")
        told = json.loads(self.answer(text, "?by=best")[2])
        self.assertEqual((told["verdict"], told["competition"]), ("bounded", "WORST_CASE(?, O(n^1))"))
        page = self.asked("GET", f"/{self.server.token}/page/{told['page']}")[2]
        self.assertIn("The potential is y - x at start and w.", page)
        flag = examples.text("flag", ".koat")
        found = [json.loads(self.answer(flag, it)[2]).get("verdict") for it in ("", "?by=analyse", "?by=facts", "?by=best")]
        self.assertEqual(found, ["unknown", "unknown", "bounded", "bounded"])
        self.assertEqual(json.loads(self.answer(flag, "?by=prove")[2]), {"problem": "there is no such command"})
        editor = self.asked("GET", f"/{self.server.token}/")[2]
        self.assertIn('<select id="by"><option value="best">', editor)
        self.assertIn("<option>difference</option>", editor)

    def test_a_refusal_has_its_place(self):
        told = json.loads(self.answer("(RULES\n f")[2])["refusal"]
        self.assertEqual((told["line"], told["column"], told["kind"]), (2, 1, "Syntax"))

    def test_others_get_nothing(self):
        token = self.server.token
        asked = [self.asked("GET", it)[0] for it in ("/", "/x/", f"/{token}", f"/{token[:-1]}/", "/../",
                                                     f"/{token}/page/x", f"/{token}/../analyser.py", "/%00", f"/{token}/%2e")]
        self.assertEqual(asked, [404] * len(asked))
        self.assertEqual(self.asked("GET", f"/{token}/", host="evil.example")[0], 404)
        self.assertEqual(self.answer("(", X_Koat="0")[0], 404)
        self.assertEqual(self.answer("(", Origin="http://evil.example")[0], 404)
        self.assertEqual(self.answer("(", Origin=f"http://127.0.0.1:{self.port}")[0], 200)
        self.assertEqual(self.asked("PUT", f"/{token}/answer", "(")[0], 501)

    def test_limits(self):
        self.assertEqual(self.answer("x" * (serve.MOST_BYTES + 1))[0], 413)
        for length in ("-1", "x", "1e3", "9" * 30, "\u00b2".encode("latin-1").decode("latin-1")):
            self.assertIn(self.answer("", Content_Length=length)[0], (411, 413))
        with tempfile.TemporaryDirectory() as room:
            self.server.limits.seconds = 0.3
            with mock.patch.dict(os.environ, {"KOAT": script(room, "slow", "exec sleep 60")}):
                told = json.loads(self.answer("(")[2])
        self.assertIn("time limit of 0.3 seconds", told["problem"])

    def test_hostile_input(self):
        for raw in (b"\0\xff\xfe\r\n\r\n", b"GET " + b"/" * 70000 + b" HTTP/1.1\r\n\r\n", b"GET / HTTP/9.9\r\n\r\n", b"\r\n",
                    b"POST /%s/answer HTTP/1.0\r\nHost: 127.0.0.1:%d\r\nX-Koat: 1\r\nContent-Length: 50\r\n\r\nshort"
                    % (self.server.token.encode(), self.port)):
            with socket.create_connection(("127.0.0.1", self.port), timeout=30) as talk:
                talk.sendall(raw)
                talk.shutdown(socket.SHUT_WR)
                self.assertNotIn(b"Traceback", talk.recv(100000))
        for text in (b"\0" * 1000, bytes(range(256)) * 40, "<script>alert(1)</script>".encode(), b"(" * 100000, b""):
            status, _, told = self.answer(text)
            self.assertEqual((status, list(json.loads(told))), (200, ["refusal"]), told)
        self.assertEqual(self.asked("GET", f"/{self.server.token}/")[0], 200)

    def test_koat_is_ended_where_nobody_waits(self):
        with tempfile.TemporaryDirectory() as room:
            note = os.path.join(room, "note")
            with mock.patch.dict(os.environ, {"KOAT": script(room, "slow", f"echo $$ >{note}; exec sleep 60")}):
                talk = http.client.HTTPConnection("127.0.0.1", self.port, timeout=60)
                talk.request("POST", f"/{self.server.token}/answer", "(", {"X-Koat": "1"})
                number = wait(lambda: open_text(note).strip())
                self.assertTrue(os.path.exists(f"/proc/{number}"))
                talk.sock.shutdown(socket.SHUT_RDWR)
                talk.close()
                self.assertTrue(wait(lambda: not os.path.exists(f"/proc/{number}")))
        self.assertEqual(self.answer("(")[0], 200)

    def test_many_requests_at_once(self):
        def ask(_):
            return self.answer(examples.text("first", ".koat"))[0]
        with ThreadPoolExecutor(12) as workers:
            statuses = list(workers.map(ask, range(12)))
        self.assertEqual(set(statuses) - {200, 503}, set())
        self.assertIn(200, statuses)
        idle = [socket.create_connection(("127.0.0.1", self.port), timeout=10) for _ in range(100)]
        self.assertEqual(self.asked("GET", f"/{self.server.token}/")[0], 200)
        for it in idle:
            it.close()

    def test_old_pages_are_forgotten(self):
        names = [self.server.keep("x") for _ in range(serve.MOST_PAGES + 2)]
        self.assertEqual((len(self.server.pages), names[0] in self.server.pages), (serve.MOST_PAGES, False))

    @unittest.skipUnless(shutil.which("chromium") and browser.LACKING, "test_browser tries it, or chromium isn't there")
    def test_the_editor_in_a_browser(self):
        with tempfile.TemporaryDirectory() as room:
            ran = subprocess.run(["chromium", "--headless", "--no-sandbox", "--disable-gpu", f"--user-data-dir={room}/user",
                                  "--timeout=30000", "--virtual-time-budget=8000", "--dump-dom",
                                  self.server.address + "#KFJVTEVTCiBm"], stdout=subprocess.PIPE,
                                 stderr=subprocess.DEVNULL, text=True, timeout=110, check=False)
        self.assertIn("Line 2, column 1:", ran.stdout)
        self.assertIn('<mark class="here">', ran.stdout)
