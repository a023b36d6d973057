"""The server of the page: on this machine only, for one page, with a token in the path.

Everything that comes from the page is checked before anything is done: its origin, its token, its size, its shape. What
is sent to the page is never markup: names, output and text are data.
"""
from __future__ import annotations

import hmac
import http.server
import json
import pathlib
import secrets
from typing import Any

from terminal.pipe import Ended
from terminal.scratch import Refused
from terminal.waiting import Interrupted

from .exporting import MODULES, PAGE, STATIC, STYLES
from .holding import Held
from .pairing import Pair

HOST = "127.0.0.1"
TOKEN_BYTES = 16
MOST_BODY = 1 << 16
TYPES = {".html": "text/html; charset=utf-8", ".css": "text/css; charset=utf-8",
         ".js": "text/javascript; charset=utf-8"}
POLICY = (
    "default-src 'none'; script-src 'self'; style-src 'self'; connect-src 'self'; img-src data:; base-uri 'none'; "
    "form-action 'none'; frame-src {}; frame-ancestors {}; require-trusted-types-for 'script'")
HEADERS = (("Cache-Control", "no-store"), ("X-Content-Type-Options", "nosniff"),
           ("Referrer-Policy", "no-referrer"), ("Cross-Origin-Resource-Policy", "same-origin"),
           ("Cross-Origin-Opener-Policy", "same-origin"))
FILES = (PAGE, STYLES, *MODULES)
PAIR = "pair.html"
PAIR_FILES = (PAIR, STYLES, "pair.js", "element.js", "events.js", "memory.js", "program.js")


class Server(http.server.ThreadingHTTPServer):
    daemon_threads = True
    # Several servers may not share a port.
    allow_reuse_address = False

    def __init__(self, sides: dict[str, Held], port: int = 0, pair: Pair | None = None):
        super().__init__((HOST, port), Handler)
        # A run alone stands at the path itself; of two each has a name, and the page of both is above them.
        self.sides, self.pair, self.token = sides, pair, secrets.token_urlsafe(TOKEN_BYTES)
        framing = "'self'" if pair else "'none'"
        self.headers = (("Content-Security-Policy", POLICY.format(framing, framing)), *HEADERS)

    @property
    def address(self) -> str:
        return f"http://{HOST}:{self.server_port}/{self.token}/"

    def handle_error(self, request: Any, client_address: Any) -> None:
        """A browser that goes away in the middle of an answer isn't reported."""


class Handler(http.server.BaseHTTPRequestHandler):
    protocol_version = "HTTP/1.1"
    server_version, sys_version = "qrev", ""
    timeout = 600
    server: Server

    def log_message(self, format: str, *_: Any) -> None:
        pass

    # What is answered.

    def reply(self, status: int, kind: str, body: bytes) -> None:
        self.send_response(status)
        for name, value in (("Content-Type", kind), ("Content-Length", str(len(body))), *self.server.headers):
            self.send_header(name, value)
        self.end_headers()
        if self.command != "HEAD":
            self.wfile.write(body)

    def refuse(self, status: int, text: str) -> None:
        # What else stands in the request isn't read.
        self.close_connection = True
        self.reply(status, "text/plain; charset=utf-8", text.encode())

    def reply_json(self, content: Any) -> None:
        self.reply(200, "application/json", json.dumps(content).encode())

    # Who asks.

    def asked(self) -> str | None:
        """The path after the token, if the request comes from this page of this server; else it is refused."""
        host = f"{HOST}:{self.server.server_port}"
        origin = self.headers.get("Origin")
        is_own = (self.headers.get_all("Host") == [host] and origin in (None, f"http://{host}")
                  and self.headers.get("Sec-Fetch-Site") in (None, "same-origin", "none"))
        path = self.path.partition("?")[0]
        token, slash, rest = path[1:].partition("/")
        if is_own and slash and hmac.compare_digest(token.encode("latin-1", "replace"), self.server.token.encode()):
            return rest
        self.refuse(403, "not from this page")
        return None

    def side(self, path: str) -> tuple[Held | None, str]:
        """Which run a path is about, and what it is about that; None for the page of both."""
        sides = self.server.sides
        if not self.server.pair:
            return sides[""], path
        name, slash, rest = path.partition("/")
        return (sides[name], rest) if slash and name in sides else (None, path)

    def do_GET(self) -> None:
        path = self.asked()
        if path is None:
            return
        held, path = self.side(path)
        if held:
            self.get(held, path)
        elif path == "api/pair" and self.server.pair:
            self.reply_json(self.server.pair.told())
        else:
            self.file(path or PAIR, PAIR_FILES)

    def file(self, name: str, names: tuple[str, ...]) -> None:
        if name not in names:
            return self.refuse(404, "no such page")
        self.reply(200, TYPES[pathlib.Path(name).suffix], (STATIC / name).read_bytes())

    def get(self, held: Held, path: str) -> None:
        """The requested part of a run."""
        if path == "api/run":
            held.page += 1
            self.reply_json({**held.told(), "page": held.page})
        elif path == "api/stream":
            self.stream(held)
        elif path == "api/overview" and held.long:
            self.reply_json(held.long.overview.told())
        elif path == "api/suspicions":
            self.reply_json(held.suspicions())
        elif path == "api/script":
            self.reply(200, "text/plain; charset=utf-8", held.script().encode())
        else:
            self.file(path or PAGE, FILES)

    do_HEAD = do_GET

    def stream(self, held: Held) -> None:
        """The arrays of the run, as they are gathered."""
        self.send_response(200)
        for name, value in (("Content-Type", "application/octet-stream"), ("Transfer-Encoding", "chunked"),
                            *self.server.headers):
            self.send_header(name, value)
        self.end_headers()
        if self.command == "HEAD":
            return
        for part in held.gathering.streamed():
            self.wfile.write(b"%x\r\n" % len(part) + part + b"\r\n")
        self.wfile.write(b"0\r\n\r\n")

    def do_POST(self) -> None:
        path = self.asked()
        if path is None:
            return
        held, path = self.side(path)
        if not held:
            return self.refuse(404, "no such request")
        size = self.headers.get("Content-Length", "")
        if not (size.isascii() and size.isdecimal()) or len(size) > 6 or int(size) > MOST_BODY:
            return self.refuse(413, "no body of such a size is taken")
        if self.headers.get("Content-Type") != "application/json":
            return self.refuse(415, "application/json is expected")
        try:
            asked = json.loads(self.rfile.read(int(size)))
            if not isinstance(asked, dict):
                raise Refused("an object was expected")
            answer = self.acted(held, path, asked)
        except Refused as error:
            return self.refuse(400, str(error))
        except (ValueError, RecursionError):
            return self.refuse(400, "the body is no JSON")
        except (Ended, OSError, Interrupted) as error:
            return self.refuse(500, f"the debugger ended: {error}")
        if answer is None:
            return self.refuse(404, "no such request")
        self.reply_json(answer)

    def acted(self, held: Held, path: str, asked: dict[str, Any]) -> Any:
        """What a request of the page that leads the session is answered; None for an unknown one."""
        if path not in ("api/go", "api/poke", "api/unpoke", "api/stop", "api/window", "api/seek", "api/why"):
            return None
        if asked.get("page") != held.page:
            raise Refused("another page leads this session now; reload this one to lead it again")
        position = held.check_position(asked.get("position"))
        if path == "api/why":
            return held.open().why(position, asked)
        if path == "api/window":
            # A window isn't waited for until the session is where the cursor was before.
            with held.looking:
                return held.open().reach(position)
        if path == "api/stop":
            with held.leading:
                return held.open().stop(asked.get("line"))
        if path == "api/seek":
            with held.leading:
                return held.open().seek(position, asked.get("way"))
        held.asked += 1
        number = held.asked
        with held.leading:
            if path == "api/poke":
                return held.open().poke(position, asked.get("line"))
            if path == "api/unpoke":
                return held.open().unpoke()
            if number != held.asked:
                return {"overtaken": "another position was asked for since"}
            return held.open().go(position)
