"""The pages of the workbench, on the loopback address alone.

Each address begins with a random token, which the page has and nobody else; a request has to name this host, and one
that asks for work this page's origin. The only files that are read or written for it are the two that the command line
named, and these are written on request alone, where they are still as they were read.
"""

from __future__ import annotations

import hmac
import json
import secrets
import threading
from http.server import BaseHTTPRequestHandler, ThreadingHTTPServer
from pathlib import Path
from typing import Any, Callable, Optional

from .child import answer

HERE = Path(__file__).resolve().parent
RULES_MOST, SCRIPT_MOST, LINES_MOST = 1 << 20, 1 << 20, 5_000
BODY_MOST = 8 << 20
READ_SECONDS, WAIT_SECONDS = 15, 2
KEPT = 4

TYPES = {"": ("page.html", "text/html; charset=utf-8"), "page.css": ("page.css", "text/css; charset=utf-8"),
         "page.js": ("page.js", "text/javascript; charset=utf-8")}
PAGE_POLICY = ("default-src 'none'; script-src 'self'; style-src 'self'; connect-src 'self'; frame-src 'self'; "
               "base-uri 'none'; form-action 'none'; frame-ancestors 'none'; img-src data:")
TIMELINE_POLICY = ("default-src 'none'; style-src 'unsafe-inline'; script-src 'unsafe-inline'; sandbox allow-scripts; "
                   "frame-ancestors 'self'")


class Refused(Exception):
    """A request that is not answered, with its status."""

    def __init__(self, status: int, why: str):
        super().__init__(why)
        self.status = status


class File:
    """One of the two files: its text as it was read or written last."""

    def __init__(self, path: Path, most: int):
        self.path, self.most = path, most
        self.text = ""

    def read(self) -> str:
        """The text, empty where there is no file yet."""
        self.text = self.on_disk()
        return self.text

    def on_disk(self) -> str:
        try:
            data = self.path.read_bytes()
        except FileNotFoundError:
            return ""
        except OSError as error:
            raise Refused(409, f"{self.path} cannot be read: {error.strerror}") from None
        if len(data) > self.most:
            raise Refused(413, f"{self.path} has more than {self.most} bytes")
        try:
            return data.decode("utf-8")
        except UnicodeDecodeError:
            raise Refused(409, f"{self.path} is no UTF-8") from None

    def write(self, text: str) -> None:
        if self.on_disk() != self.text:
            raise Refused(409, f"{self.path.name} was changed by another: read it anew first")
        try:
            self.path.write_bytes(text.encode("utf-8"))
        except OSError as error:
            raise Refused(409, f"{self.path} cannot be written: {error.strerror}") from None
        self.text = text


class Workbench:
    """The two files, the token, and the time lines of the last runs."""

    def __init__(self, rules: Path, script: Path, title: str, seconds: int, program: Optional[Path] = None):
        self.files = {"rules": File(rules, RULES_MOST), "script": File(script, SCRIPT_MOST)}
        self.title, self.seconds, self.program = title, seconds, program
        self.token = secrets.token_urlsafe(24)
        self.timelines: dict[int, str] = {}
        self.runs = 0
        self.running = threading.Lock()

    def texts(self) -> dict[str, Any]:
        return {"title": self.title, "seconds": self.seconds, "lines": LINES_MOST,
                **{name: {"name": file.path.name, "text": file.read()} for name, file in self.files.items()}}

    def work(self, asked: dict, word: str) -> dict[str, Any]:
        """What the child says of the texts that the page sends."""
        program = None if self.program is None else str(self.program.resolve())
        request: dict[str, Any] = {"do": word, "title": self.title, "rules": text_in(asked, "rules", RULES_MOST),
                                   "script": text_in(asked, "script", SCRIPT_MOST), "program": program}
        if request["script"].count("\n") > LINES_MOST:
            raise Refused(413, f"the script has more than {LINES_MOST} lines: run it by ./try")
        if word == "why":
            request.update(rule=text_in(asked, "rule", 4096), line=max(1, number_in(asked.get("line"))),
                           facts=numbers_in(asked, "facts"))
        if not self.running.acquire(timeout=WAIT_SECONDS):
            raise Refused(409, "another run is going on")
        try:
            return self.kept(answer(request, self.seconds))
        finally:
            self.running.release()

    def kept(self, said: list[dict]) -> dict[str, Any]:
        """The time line stays here, under the number of its run."""
        self.runs += 1
        for message in said:
            if message["kind"] == "timeline":
                self.timelines[self.runs] = message.pop("html")
                message["run"] = self.runs
        for old in sorted(self.timelines)[:-KEPT]:
            del self.timelines[old]
        return {"said": said}

    def save(self, asked: dict) -> dict[str, Any]:
        file = self.files.get(str(asked.get("file")))
        if file is None:
            raise Refused(400, "there is no such file")
        file.write(text_in(asked, "text", file.most))
        return {"saved": file.path.name}


def text_in(asked: dict, name: str, most: int) -> str:
    text = asked.get(name)
    try:
        if isinstance(text, str) and len(text.encode("utf-8")) <= most:
            return text
    except UnicodeEncodeError:
        pass
    raise Refused(413 if isinstance(text, str) else 400, f"{name} is no text of at most {most} bytes")


def number_in(number: Any) -> int:
    if type(number) is int and 0 <= number <= 2**31:
        return number
    raise Refused(400, f"{number!r:.40} is no number of a line or a fact")


def numbers_in(asked: dict, name: str) -> list[int]:
    numbers = asked.get(name, [])
    if isinstance(numbers, list) and len(numbers) <= 20:
        return [number_in(number) for number in numbers]
    raise Refused(400, f"{name} is no list of at most 20 numbers")


class Handler(BaseHTTPRequestHandler):
    """One request."""
    server: "WorkbenchServer"
    timeout = READ_SECONDS
    server_version, sys_version = "workbench", ""

    def do_GET(self) -> None:
        self.reply(self.get)

    def do_POST(self) -> None:
        self.reply(self.post)

    def reply(self, work: Callable[[str], tuple[str, str, str]]) -> None:
        try:
            kind, body, policy = work(self.asked_name())
            self.give(200, kind, body, policy)
        except Refused as refused:
            self.give(refused.status, "application/json", json.dumps({"error": str(refused)}), PAGE_POLICY)

    def asked_name(self) -> str:
        """What stands behind the token, where host, origin and token are right."""
        host = f"127.0.0.1:{self.server.server_address[1]}"
        origin = self.headers.get("Origin")
        if self.headers.get_all("Host") != [host]:
            raise Refused(403, "another host is meant")
        if origin != f"http://{host}" and not (origin is None and self.command == "GET"):
            raise Refused(403, "another page asks")
        if self.headers.get("Sec-Fetch-Site", "same-origin") not in ("same-origin", "none"):
            raise Refused(403, "another page asks")
        _, token, *rest = self.path.split("/", 2) + [""]
        if not hmac.compare_digest(token.encode(), self.server.workbench.token.encode()):
            raise Refused(403, "open the address that was printed")
        return rest[0]

    def get(self, name: str) -> tuple[str, str, str]:
        workbench = self.server.workbench
        if name in TYPES:
            file, kind = TYPES[name]
            return kind, (HERE / file).read_text(encoding="utf-8"), PAGE_POLICY
        if name == "texts":
            return "application/json", json.dumps(workbench.texts()), PAGE_POLICY
        word, _, number = name.partition("/")
        if word == "timeline" and number.isdecimal() and int(number) in workbench.timelines:
            return "text/html; charset=utf-8", workbench.timelines[int(number)], TIMELINE_POLICY
        raise Refused(404, "there is nothing")

    def post(self, name: str) -> tuple[str, str, str]:
        asked, workbench = self.body(), self.server.workbench
        if name in ("run", "why"):
            found = workbench.work(asked, name)
        elif name == "save":
            found = workbench.save(asked)
        else:
            raise Refused(404, "there is nothing")
        return "application/json", json.dumps(found), PAGE_POLICY

    def body(self) -> dict:
        if self.headers.get_content_type() != "application/json":
            raise Refused(415, "a request is JSON")
        length = self.headers.get("Content-Length", "")
        if not length.isdecimal():
            raise Refused(411, "how long is the request?")
        if int(length) > BODY_MOST:
            raise Refused(413, f"the request has more than {BODY_MOST} bytes")
        try:
            asked = json.loads(self.rfile.read(int(length)))
        except (ValueError, RecursionError):
            raise Refused(400, "the request is no JSON") from None
        if not isinstance(asked, dict):
            raise Refused(400, "the request is no object")
        return asked

    def give(self, status: int, kind: str, body: str, policy: str) -> None:
        data = body.encode("utf-8", "replace")
        self.send_response(status)
        self.close_connection = True
        for name, value in (("Content-Type", kind), ("Content-Length", str(len(data))),
                            ("Content-Security-Policy", policy), ("X-Content-Type-Options", "nosniff"),
                            ("Referrer-Policy", "no-referrer"), ("Cache-Control", "no-store"),
                            ("Cross-Origin-Opener-Policy", "same-origin"),
                            ("Cross-Origin-Resource-Policy", "same-origin"), ("Connection", "close")):
            self.send_header(name, value)
        self.end_headers()
        self.wfile.write(data)

    def log_message(self, *words: Any) -> None:
        """Says nothing: addresses have the token in them."""


class WorkbenchServer(ThreadingHTTPServer):
    """Listens on the loopback address alone."""
    daemon_threads = True

    def __init__(self, workbench: Workbench, port: int):
        super().__init__(("127.0.0.1", port), Handler)
        self.workbench = workbench

    @property
    def address(self) -> str:
        return f"http://127.0.0.1:{self.server_address[1]}/{self.workbench.token}/"

    def handle_error(self, request: Any, client_address: Any) -> None:
        """A browser that goes away in the middle is no news."""
