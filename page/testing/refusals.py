"""What the server refuses, what it serves, and what `--page` says if there is nothing to show."""
from __future__ import annotations

import http.client
import json
import pathlib
import subprocess
import sys
import tempfile
import time
from functools import partial
from typing import Any, Callable, Iterator

from .causes import COMPARER, TOP
from .serving import MAIN, Serving, alive, children_of, heard

EXAMPLES = TOP / "examples"
SQUARES = str(EXAMPLES / "squares.ssa")
JSON = {"Content-Type": "application/json"}
GO = b'{"page": 1, "position": 45}'
POKED = '{"page": 1, "position": 45, "line": "%s"}'


def asked(port: int, method: str, path: str, headers: list[tuple[str, str]],
          body: bytes | None = None) -> tuple[int, bytes]:
    """The status and the body that a request is answered with, which is sent as it stands."""
    connection = http.client.HTTPConnection("127.0.0.1", port, timeout=60)
    connection.putrequest(method, path, skip_host=True, skip_accept_encoding=True)
    for name, value in headers:
        connection.putheader(name, value)
    if body is not None and "Content-Length" not in dict(headers):
        connection.putheader("Content-Length", str(len(body)))
    connection.endheaders()
    if body is not None:
        connection.send(body)
    answer = connection.getresponse()
    told = answer.read()
    connection.close()
    return answer.status, told


def status_of(port: int, method: str, path: str, headers: list[tuple[str, str]], body: bytes | None = None) -> int:
    return asked(port, method, path, headers, body)[0]


class Asking:
    """Requests to a server, from its own page and from others."""

    def __init__(self, address: str):
        self.port = int(address.split(":")[2].split("/")[0])
        self.token = address.rstrip("/").rsplit("/", 1)[1]
        self.host = f"127.0.0.1:{self.port}"

    def get(self, path: str = "", token: str | None = None, method: str = "GET", host: str | None = None,
            **headers: str) -> int:
        named = [(name.replace("_", "-"), value) for name, value in headers.items()]
        hosted = [("Host", self.host if host is None else host)] if host != "" else []
        return asked(self.port, method, f"/{self.token if token is None else token}/{path}", [*hosted, *named])[0]

    def post(self, path: str, body: bytes, headers: dict[str, str] | None = None) -> tuple[int, bytes]:
        given = {"Host": self.host, **JSON, **(headers or {})}
        return asked(self.port, "POST", f"/{self.token}/{path}", list(given.items()), body)

    def status(self, path: str, body: bytes, headers: dict[str, str] | None = None) -> int:
        return self.post(path, body, headers)[0]


def wanted_statuses(ask: Asking) -> Iterator[tuple[str, int, Callable[[], int]]]:
    """Each request: what it is, and the status that it must have."""
    yield "the page", 200, lambda: ask.get()
    yield "the program", 200, lambda: ask.get("api/run")
    yield "from its own page", 200, lambda: ask.get("api/script", Origin=f"http://{ask.host}",
                                                    Sec_Fetch_Site="same-origin")
    yield "no token", 403, lambda: asked(ask.port, "GET", "/", [("Host", ask.host)])[0]
    yield "no token, a file", 403, lambda: asked(ask.port, "GET", "/app.js", [("Host", ask.host)])[0]
    yield "another token", 403, lambda: ask.get("api/run", token="x" * len(ask.token))
    yield "a token cut short", 403, lambda: ask.get("api/run", token=ask.token[:-1])
    yield "a token of other bytes", 403, lambda: ask.get("api/run", token="%ff" * 22)
    yield "another host", 403, lambda: ask.get("api/run", host=f"evil.example:{ask.port}")
    yield "a host by name", 403, lambda: ask.get("", host=f"localhost:{ask.port}")
    yield "no host", 403, lambda: ask.get("", host="")
    yield "two hosts", 403, lambda: asked(ask.port, "GET", f"/{ask.token}/",
                                          [("Host", ask.host), ("Host", "evil.example")])[0]
    yield "another origin", 403, lambda: ask.get("api/run", Origin="http://evil.example")
    yield "no origin of its own", 403, lambda: ask.get("api/run", Origin="null")
    yield "another port's origin", 403, lambda: ask.get("api/run", Origin=f"http://127.0.0.1:{ask.port + 1}")
    yield "from another site", 403, lambda: ask.get("api/run", Sec_Fetch_Site="cross-site")
    yield "from another port", 403, lambda: ask.get("api/run", Sec_Fetch_Site="same-site")
    yield from foreign_pokes(ask)
    yield "a path out", 404, lambda: ask.get("../main")
    yield "a path out, hidden", 404, lambda: ask.get("%2e%2e/server.py")
    yield "a file that isn't served", 404, lambda: ask.get("server.py")
    yield "what isn't asked", 404, lambda: ask.post("api/quit", GO)[0]
    yield "another method", 501, lambda: ask.get("api/run", method="PUT")
    yield "a body that is too long", 413, lambda: ask.post("api/go", GO, {"Content-Length": "99999999"})[0]
    yield "a length that is none", 413, lambda: ask.post("api/go", GO, {"Content-Length": "-1"})[0]
    yield "a form", 415, lambda: ask.post("api/go", GO, {"Content-Type": "text/plain"})[0]
    yield "no JSON", 400, lambda: ask.post("api/go", b"{")[0]
    yield "JSON that nests", 400, lambda: ask.post("api/go", b"[" * 60000)[0]
    yield "JSON that is no object", 400, lambda: ask.post("api/go", b"[1]")[0]
    for told, position in (("negative", "-1"), ("behind the end", "89"), ("a text", '"1"'), ("true", "true"),
                           ("broken", "1.5"),
                           ("huge", "1" * 40)):
        body = f'{{"page": 1, "position": {position}}}'.encode()
        yield f"a position that is {told}", 400, partial(ask.status, "api/go", body)
    for line in ("poke w $bias 0\\nquit", "continue", "set %i 1; quit", "poke w $bias 0 0", "poke q $bias 0",
                 "poke w $nothing 0",
                 "set %nothing 1", "poke w 5 0", "save /tmp/x", "", "set %i 0x10"):
        yield f"the line {line!r}", 400, partial(ask.status, "api/poke", (POKED % line).encode())
    for line in ("break $fill", "break $nothing @start 0", "break $fill @body 4\\ncontinue", "break $fill @body 99",
                 "watch w 65552; quit", "watch q 65552", "watch w $nothing", "watch $fill %nothing", "delete 1",
                 "delete all", "continue", ""):
        yield f"the stop {line!r}", 400, partial(ask.status, "api/stop", (POKED % line).encode())
    yield "a stop that is a number", 400, lambda: ask.post("api/stop", b'{"page": 1, "position": 4, "line": 7}')[0]
    yield "a way to a stop in a run that is shown whole", 400, lambda: ask.post(
        "api/seek", b'{"page": 1, "position": 4, "way": "continue"}')[0]
    yield "a poke at the end", 400, lambda: ask.post("api/poke",
                                                     b'{"page": 1, "position": 88, "line": "poke w $bias 0"}')[0]
    yield "another page", 400, lambda: ask.post("api/go", b'{"page": 7, "position": 1}')[0]
    yield "a move of the page", 200, lambda: ask.post("api/go", GO, {"Origin": f"http://{ask.host}"})[0]


def foreign_pokes(ask: Asking) -> Iterator[tuple[str, int, Callable[[], int]]]:
    """A value by hand that doesn't come from the page."""
    poke = (POKED % "poke w $bias 0").encode()
    for told, headers in (("another origin", {"Origin": "http://evil.example"}), ("no origin", {"Origin": "null"}),
                          ("another host", {"Host": "evil.example"}), ("a host by name", {"Host": "localhost"}),
                          ("another site", {"Sec-Fetch-Site": "cross-site"})):
        yield f"a poke from {told}", 403, partial(ask.status, "api/poke", poke, headers)
    given = [("Host", ask.host), *JSON.items()]
    for told, path in (("no token", "/api/poke"), ("another token", f"/{'x' * len(ask.token)}/api/poke")):
        yield f"a poke with {told}", 403, partial(status_of, ask.port, "POST", path, given, poke)


def paired_statuses(ask: Asking) -> Iterator[tuple[str, int, Callable[[], int]]]:
    """The same of a server of two runs, each of which has a path of its own."""
    for path, status in (("", 200), ("pair.js", 200), ("api/pair", 200), ("good/", 200), ("bad/app.js", 200),
                         ("good/api/run", 200), ("app.js", 404), ("api/run", 404), ("third/", 404),
                         ("good/pair.js", 404), ("good/../bad/app.js", 404), ("good/%2e%2e/server.py", 404)):
        yield f"{path!r}", status, partial(ask.get, path)
    yield "no token", 403, lambda: asked(ask.port, "GET", "/good/api/run", [("Host", ask.host)])[0]
    yield "another site", 403, lambda: ask.get("api/pair", Sec_Fetch_Site="cross-site")
    yield "a move of neither run", 404, lambda: ask.post("api/go", GO)[0]
    yield "a poke of neither run", 404, lambda: ask.post("third/api/poke", (POKED % "poke w $bias 0").encode())[0]
    yield "a move of one run", 200, lambda: ask.post("good/api/go", GO)[0]
    yield "a page that doesn't lead the other one", 400, lambda: ask.post("bad/api/go", GO)[0]
    yield "a window of a run that is shown whole", 400, lambda: ask.post("good/api/window", GO)[0]
    yield "what lies before a run that is shown whole", 400, lambda: ask.post("good/api/why", GO)[0]


# What is asked about the state at #45 of a run that is shown by windows, and the status of the answer.
BYTES = {"of": "memory", "address": 65536}
WHYS: tuple[tuple[dict[str, Any], int], ...] = (
    ({"of": "temporary", "name": "%i"}, 200), ({"of": "temporary", "name": "%nothing"}, 400),
    ({"of": "temporary", "name": "%i\nquit"}, 400), ({"of": "temporary"}, 400), ({"of": "temporary", "name": 7}, 400),
    ({**BYTES, "bytes": [0, 1, 2, 3]}, 200), ({**BYTES, "bytes": []}, 400), ({**BYTES, "bytes": [48]}, 400),
    ({**BYTES, "bytes": [0] * 49}, 400), ({**BYTES, "bytes": [True]}, 400), ({**BYTES, "bytes": 3}, 400), (BYTES, 400),
    ({**BYTES, "address": -1, "bytes": [0]}, 400), ({**BYTES, "address": 1 << 32, "bytes": [0]}, 400),
    ({**BYTES, "address": 5, "bytes": [0]}, 200), ({**BYTES, "address": "$bias", "bytes": [0]}, 400),
    ({"of": "output", "index": 0}, 400), ({"of": "end"}, 400), ({"of": "control"}, 200),
    ({"of": "call", "inside": 7}, 200), ({"of": "quit"}, 400), ({"of": ["call"]}, 400), ({}, 400),
    ({"of": "call", "page": 7}, 400), ({"of": "call", "position": 1 << 40}, 400))


def whys(program: str) -> str | None:
    """Questions about what lies before a window: each is answered or refused as it must be; none moves the session."""
    with Serving(program, SQUARES, options=("--most", "20")) as serving:
        ask = Asking(serving.address)
        ask.get("api/run")
        while not json.loads(asked(ask.port, "GET", f"/{ask.token}/api/overview", [("Host", ask.host)])[1])["isDone"]:
            time.sleep(.02)
        for question, wanted in WHYS:
            given, told = ask.post("api/why", json.dumps({"page": 1, "position": 45, **question}).encode())
            if given != wanted:
                return f"{question}: status {given} and not {wanted}: {told!r}"
        script = asked(ask.port, "GET", f"/{ask.token}/api/script", [("Host", ask.host)])[1]
        return f"the session was led by {script!r}" if script else None


def paired(program: str) -> str | None:
    """What a server of two runs serves and refuses; only its own page may frame their pages."""
    with Serving(program, SQUARES, SQUARES, options=("--compare", str(COMPARER))) as serving:
        ask = Asking(serving.address)
        for name, wanted, call in paired_statuses(ask):
            given = call()
            if given != wanted:
                return f"{name}: status {given} and not {wanted}"
        connection = http.client.HTTPConnection("127.0.0.1", ask.port)
        connection.request("GET", f"/{ask.token}/good/", headers={"Host": ask.host})
        policy = connection.getresponse().getheader("Content-Security-Policy") or ""
        connection.close()
    return None if "frame-ancestors 'self'" in policy and "frame-src 'self'" in policy else f"the policy is {policy!r}"


def statuses(program: str) -> str | None:
    """Each request is served or refused as it must be, and none of the refused ones did anything."""
    with Serving(program, SQUARES) as serving:
        ask = Asking(serving.address)
        for name, wanted, call in wanted_statuses(ask):
            given = call()
            if given != wanted:
                return f"{name}: status {given} and not {wanted}"
        script = asked(ask.port, "GET", f"/{ask.token}/api/script", [("Host", ask.host)])[1]
        return None if script == b"step 45\n" else f"the session was led by {script!r}"


def headers(program: str) -> str | None:
    """What the page is served with: a policy, and nothing that another site could read."""
    with Serving(program, SQUARES) as serving:
        ask = Asking(serving.address)
        connection = http.client.HTTPConnection("127.0.0.1", ask.port)
        connection.request("GET", f"/{ask.token}/", headers={"Host": ask.host})
        told = dict(connection.getresponse().getheaders())
        connection.close()
    policy = told.get("Content-Security-Policy", "")
    for part in ("default-src 'none'", "script-src 'self';", "style-src 'self';", "connect-src 'self'",
                 "frame-ancestors 'none'"):
        if part not in policy:
            return f"the policy {policy!r} lacks {part}"
    if "unsafe" in policy or "Access-Control-Allow-Origin" in told:
        return f"{told}"
    wanted = {"Referrer-Policy": "no-referrer", "X-Content-Type-Options": "nosniff",
              "Cross-Origin-Resource-Policy": "same-origin"}
    return next((f"{name}: {told.get(name)}" for name, value in wanted.items() if told.get(name) != value), None)


def alone(program: str) -> str | None:
    """It listens on this machine only, with a token of at least 128 bits, another one each time."""
    tokens = []
    for _ in range(2):
        with Serving(program, SQUARES) as serving:
            ask = Asking(serving.address)
            tokens.append(ask.token)
            port = f":{ask.port:04X}"
            listening = [line.split()[1] for line in pathlib.Path("/proc/net/tcp").read_text().split("\n")[1:]
                         if line.split()[1:2] and line.split()[1].endswith(port) and line.split()[3] == "0A"]
            if listening != [f"0100007F{port}"]:
                return f"it listens at {listening}"
    return None if tokens[0] != tokens[1] and min(map(len, tokens)) * 6 >= 128 else f"tokens {tokens}"


def taken_over(program: str) -> str | None:
    """The page that was opened last controls the session, and the one before is told so."""
    with Serving(program, SQUARES) as serving:
        ask = Asking(serving.address)
        pages = [json.loads(asked(ask.port, "GET", f"/{ask.token}/api/run", [("Host", ask.host)])[1])["page"]
                 for _ in range(2)]
        told = [ask.post("api/go", json.dumps({"page": page, "position": 3}).encode()) for page in pages]
    if [status for status, _ in told] != [400, 200] or b"another page leads" not in told[0][1]:
        return f"{pages}: {told}"
    return None if json.loads(told[1][1])["place"] == "#3 $fill @loop 1" else f"{told[1]}"


def ended(program: str) -> str | None:
    """Ctrl-C ends the server and its processes, with status 0; a second one while they end is no error."""
    process = subprocess.Popen([sys.executable, "-B", str(MAIN), "--debugger", program, "--", SQUARES],
                               stdout=subprocess.PIPE, stderr=subprocess.PIPE, text=True, preexec_fn=heard)
    assert process.stdout and process.stderr
    lines = [process.stdout.readline() for _ in range(3)]
    children = children_of(process.pid)
    for _ in range(2):
        process.send_signal(2)
        time.sleep(.02)
    told = process.stderr.read()
    status = process.wait(10)
    for stream in (process.stdout, process.stderr):
        stream.close()
    left = alive(children)
    return None if (status, told, left, lines[2]) == (0, "", [], "until Ctrl-C\n") else \
        f"status {status}, {told!r}, {left} left, {lines}"


def refused(program: str) -> str | None:
    """A refused text is reported with its line, and an unreadable one as unreadable."""
    with tempfile.TemporaryDirectory(prefix="page-") as folder:
        file = pathlib.Path(folder) / "bad.ssa"
        file.write_text("function w $main() {\n@start\n\tret %x\n}\n")
        told = subprocess.run([sys.executable, "-B", str(MAIN), "--debugger", program, "--", str(file)],
                              capture_output=True, text=True)
        missing = subprocess.run([sys.executable, "-B", str(MAIN), "--debugger", program, "--", folder + "/none.ssa"],
                                 capture_output=True, text=True)
        none = subprocess.run([sys.executable, "-B", str(MAIN), "--debugger", program, "--", "--entry", "main"],
                              capture_output=True, text=True)
    wanted = f"{file}:3: C6: a temporary that is nowhere defined\n    ret %x\n"
    if (told.returncode, told.stdout) != (1, wanted):
        return f"status {told.returncode}, {told.stdout!r}"
    if (missing.returncode, missing.stdout, missing.stderr) != \
            (2, "", f"qrev: {folder}/none.ssa: No such file or directory\n"):
        return f"{missing}"
    is_told = (none.returncode, none.stdout, none.stderr) == \
        (64, "", "qrev: a program was expected: ./qrev --page FILE [ARGS..]\n")
    return None if is_told else f"{none}"


CASES = {"statuses": statuses, "two runs": paired, "what lies before": whys, "headers": headers, "alone": alone,
         "one page": taken_over, "Ctrl-C": ended, "refused texts": refused}
