"""An editor in the browser with koat's answers beside it, for this machine alone.

The server listens on 127.0.0.1 and answers below a random path alone, which it prints. What it gets is a text of a
program; it runs koat on it with limits on bytes, seconds and memory, and keeps the last pages that it made, in memory.
"""

import contextlib
import glob
import hmac
import html
import json
import os
import re
import secrets
import select
import socket
import sys
import threading
from http.server import BaseHTTPRequestHandler, ThreadingHTTPServer
from urllib.parse import parse_qs, urlsplit

from . import analyser, answers, calls, making, page
from .analyser import Stop

MOST_BYTES = 1 << 20
MOST_AT_ONCE = 2
MOST_PAGES = 8
# How long a client may take to send or to read, and how often it is looked whether it is still there, in seconds.
PATIENCE, LOOK = 10, 0.2
FOLDER = os.path.dirname(os.path.abspath(__file__))


class Server(ThreadingHTTPServer):
    """The server with its token, its limits and the pages that it made."""

    daemon_threads = True
    allow_reuse_address = False

    def __init__(self, port, seconds, mebibytes=None):
        super().__init__(("127.0.0.1", port), Handler)
        self.token, self.limits = secrets.token_urlsafe(24), calls.Limits(seconds, mebibytes)
        self.places, self.pages, self.lock = threading.Semaphore(MOST_AT_ONCE), {}, threading.Lock()

    @property
    def names(self):
        """What a browser of this machine may call the server."""
        return [f"{it}:{self.server_address[1]}" for it in ("127.0.0.1", "localhost")]

    @property
    def address(self):
        return f"http://127.0.0.1:{self.server_address[1]}/{self.token}/"

    def keep(self, text):
        """Keeps a page, and forgets the oldest one; the name under which it is kept."""
        name = secrets.token_urlsafe(12)
        with self.lock:
            self.pages[name] = text
            while len(self.pages) > MOST_PAGES:
                del self.pages[next(iter(self.pages))]
        return name

    def handle_error(self, request, client_address):
        """A client that goes away or sends nonsense is no fault of the server."""


class Handler(BaseHTTPRequestHandler):
    """Answers below the token's path alone, and only to a page of this server."""

    timeout = PATIENCE
    protocol_version = "HTTP/1.0"
    server_version, sys_version = "koat", ""

    def log_message(self, *_):
        """Nothing is logged: the path is a secret."""

    def do_GET(self):
        path = self.path_below()
        if path == "":
            nonce = secrets.token_urlsafe(16)
            policy = (f"default-src 'none'; script-src 'nonce-{nonce}'; style-src 'nonce-{nonce}'; connect-src 'self'; "
                      "frame-src 'self'; base-uri 'none'; form-action 'none'; frame-ancestors 'none'")
            self.put(200, "text/html", editor(nonce), policy)
        elif path is not None and path.startswith("page/") and path[5:] in self.server.pages:
            policy = ("sandbox allow-scripts; default-src 'none'; script-src 'unsafe-inline'; style-src "
                      "'unsafe-inline'; frame-ancestors 'self'")
            self.put(200, "text/html", self.server.pages[path[5:]], policy)
        else:
            self.put(404, "text/plain", "not found\n")

    def do_POST(self):
        if self.path_below() != "answer" or not self.is_of_own_page():
            return self.put(404, "text/plain", "not found\n")
        length = self.headers.get("Content-Length", "")
        if not length.isascii() or not length.isdigit() or len(length) > 9:
            return self.put(411, "text/plain", "a length is needed\n")
        if int(length) > MOST_BYTES:
            self.rfile.read(min(int(length), 8 * MOST_BYTES))
            return self.put(413, "text/plain", f"more than {MOST_BYTES} bytes\n")
        data = self.rfile.read(int(length))
        if len(data) < int(length):
            return self.put(400, "text/plain", "the text is cut off\n")
        if not self.server.places.acquire(timeout=PATIENCE):
            return self.put(503, "text/plain", "other texts are being looked at\n")
        try:
            with self.watched() as calling, analyser.within(calling):
                told = self.answer(data)
        finally:
            self.server.places.release()
        return self.put(200, "application/json", json.dumps(told))

    @contextlib.contextmanager
    def watched(self):
        """Calls of koat that are ended where the client goes away before its answer."""
        calling, done = calls.Calls(analyser.program_path(), self.server.limits), threading.Event()
        watcher = threading.Thread(target=_watch, args=(self.connection, calling, done), daemon=True)
        watcher.start()
        try:
            yield calling
        finally:
            done.set()
            watcher.join()

    def path_below(self):
        """The path below that of the token, or none where the token or the host is another one."""
        parts = urlsplit(self.path).path.split("/", 2)
        is_right = len(parts) == 3 and hmac.compare_digest(parts[1].encode(), self.server.token.encode())
        return parts[2] if is_right and self.headers.get("Host", "") in self.server.names else None

    def is_of_own_page(self):
        """Whether a script of this server's page sent it: others can't set this header without being asked."""
        origin = self.headers.get("Origin")
        return self.headers.get("X-Koat") == "1" and (
            origin is None or origin in [f"http://{it}" for it in self.server.names])

    def answer(self, data):
        """What is said of a text: a refusal with its place, or the name of a page, or why there is none."""
        command = (parse_qs(urlsplit(self.path).query).get("by") or [analyser.ANALYSE])[0]
        if command not in (analyser.ANALYSE, analyser.FACTS, analyser.BEST):
            return {"problem": "there is no such command"}
        seconds = self.server.limits.seconds
        try:
            answer = analyser.analysed(data, "program", None, seconds, command)
            if answer.refusal:
                return {"refusal": answers.as_json(answer, {})["refusal"]}
            beside = making.beside(answer, command, None, seconds)
            beside.drawn = making.drawn(answer, seconds)
            said = {"verdict": answer.report.verdict, "competition": answers.competition(answer)}
            return {**said, "page": self.server.keep(page.page(answer, beside))}
        except Stop as stop:
            return {"problem": stop.line}

    def put(self, status, kind, text, policy="default-src 'none'"):
        data = text.encode("utf-8", "replace")
        self.send_response(status)
        for name, value in (("Content-Type", f"{kind}; charset=utf-8"), ("Content-Length", str(len(data))),
                            ("Content-Security-Policy", policy), ("Cache-Control", "no-store"),
                            ("X-Content-Type-Options", "nosniff"), ("Referrer-Policy", "no-referrer"),
                            ("Cross-Origin-Resource-Policy", "same-origin")):
            self.send_header(name, value)
        self.end_headers()
        self.wfile.write(data)


def _watch(connection, calling, done):
    """Ends the calls as soon as the client has closed its side."""
    while not done.wait(LOOK):
        try:
            if select.select([connection], [], [], 0)[0] and not connection.recv(1, socket.MSG_PEEK):
                return calling.stop()
        except (OSError, ValueError):
            return calling.stop()
    return None


def editor(nonce):
    """The page of the editor, with the examples in it."""
    texts = {}
    folders = [os.path.join(analyser.TOP, "examples", *it) for it in ([], ["best"])]
    for path in [it for folder in folders for it in sorted(glob.glob(os.path.join(folder, "*.koat")))]:
        with open(path, encoding="utf-8") as file:
            texts[os.path.basename(path)[:-len(".koat")]] = file.read()
    shown = {
        "nonce": nonce, "style": _file("serve.css"), "script": _file("serve.js"), "beginning": html.escape(texts.get("gcd", "")),
        "examples": "".join(f"<option>{html.escape(it)}</option>" for it in texts),
        "texts": json.dumps(texts).replace("<", "\\u003c"),
    }
    return re.sub(r"\{\{(\w+)\}\}", lambda match: shown[match.group(1)], _file("serve.html"))


def _file(name):
    with open(os.path.join(FOLDER, name), encoding="utf-8") as file:
        return file.read()


def run(asked, out):
    """Serves until it is interrupted."""
    try:
        server = Server(asked.port, asked.seconds, asked.memory)
    except (OSError, OverflowError) as fault:
        raise Stop(analyser.WORDS_FAULT, f"port {asked.port} can't be listened on: {fault}") from fault
    analyser.ready()
    print(server.address, file=out, flush=True)
    print("show: open this address in a browser of this machine; Ctrl-C ends it", file=sys.stderr)
    try:
        server.serve_forever()
    except KeyboardInterrupt:
        pass
    finally:
        server.server_close()
    return 0
