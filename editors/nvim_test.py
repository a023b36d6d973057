"""Tests the configuration for Neovim's nvim-dap on docs/ADAPTER.md, by the requests that nvim-dap makes from it.

This runs no Neovim. What Neovim sends is taken from nvim-dap's own pages and its module `dap.session`: what it says
about itself, when it asks for what, and that a configuration goes to the adapter unchanged, with `${file}` filled in.
"""
from __future__ import annotations

import pathlib
import re
import subprocess
import sys
from typing import Iterator

sys.path.insert(0, str(pathlib.Path(__file__).resolve().parent.parent / "tests"))

from dap_tests.driver import frame, read_message, request_message
from dap_tests.sessions import Message
from harness.running import TOP

PAGE = TOP / "docs" / "ADAPTER.md"
SQUARES = TOP / "examples" / "squares.ssa"
FIRST = {"clientID": "neovim", "clientName": "neovim", "adapterID": "nvim-dap", "pathFormat": "path",
         "columnsStartAt1": True, "linesStartAt1": True, "supportsRunInTerminalRequest": True,
         "supportsVariableType": True, "supportsProgressReporting": True, "supportsStartDebuggingRequest": True,
         "locale": "en_US.UTF-8"}


def configuration() -> tuple[dict[str, str], dict[str, object], list[str]]:
    """The adapter and the configuration that the page has, and the functions of nvim-dap that it binds to keys."""
    page = PAGE.read_text()
    begin = page.index("    local dap = require(\"dap\")")
    block = page[begin:page.index("\n\n", begin)]
    found = re.search(r"dap\.adapters\.qrev = \{(.*?)\}", block)
    body = re.search(r"dap\.configurations\.qbe = \{\s*\{(.*?)\},", block, re.DOTALL)
    assert found and body
    adapter = dict(re.findall(r'(\w+) = "([^"]*)"', found[1]))
    pairs = re.findall(r'(\w+) = ("[^"]*"|true|false|\d+)', body[1])
    words = {"true": True, "false": False}
    given = {name: words[value] if value in words else value.strip('"') for name, value in pairs}
    return adapter, given, re.findall(r"dap\.(\w+)[,)]", block)


class Client:
    """The side of nvim-dap."""

    def __init__(self, program: str):
        self.process = subprocess.Popen([program], stdin=subprocess.PIPE, stdout=subprocess.PIPE)
        assert self.process.stdin and self.process.stdout
        self.stdin, self.stdout = self.process.stdin, self.process.stdout
        self.sequence = 0
        self.events: list[Message] = []

    def send(self, command: str, arguments: Message | None = None) -> int:
        self.sequence += 1
        self.stdin.write(frame(request_message(self.sequence, command, arguments)))
        self.stdin.flush()
        return self.sequence

    def answer(self, number: int) -> Message:
        while True:
            message = read_message(self.stdout)
            if message is None:
                raise ValueError("the adapter ended")
            if message["type"] == "event":
                self.events.append(message)
            elif message["request_seq"] == number:
                return message

    def ask(self, command: str, arguments: Message | None = None) -> Message:
        return self.answer(self.send(command, arguments))

    def event(self, name: str) -> Message:
        while True:
            for index, kept in enumerate(self.events):
                if kept["event"] == name:
                    return self.events.pop(index)
            message = read_message(self.stdout)
            if message is None:
                raise ValueError(f"no event {name}")
            if message["type"] == "event":
                self.events.append(message)


def faults(program: str) -> Iterator[str | None]:
    """A fault of the configuration, or None for each thing that is as it must be."""
    adapter, given, bound = configuration()
    is_ours = adapter.get("type") == "executable" and adapter.get("command", "").endswith("/qrev-dap")
    yield None if is_ours else \
        f"nvim-dap: {adapter}"
    is_launch = {"type", "request", "name"} <= set(given) and given["type"] == "qrev" and given["request"] == "launch"
    yield None if is_launch else \
        f"nvim-dap: {given}"
    yield None if {"step_back", "reverse_continue"} <= set(bound) else f"nvim-dap: keys for {bound}"
    client = Client(program)
    try:
        yield played(client, {**given, "program": str(SQUARES)})
    except (OSError, ValueError, KeyError) as error:
        yield f"nvim-dap: {error!r}"
    finally:
        client.process.kill()
        client.process.wait()


def played(client: Client, launch: Message) -> str | None:
    """A session: a breakpoint, on to it, to the end, and back by the keys of the page."""
    can = client.ask("initialize", FIRST).get("body", {})
    if not can.get("supportsStepBack") or not can.get("supportsConfigurationDoneRequest"):
        return f"nvim-dap: the adapter can do {sorted(can)}"
    client.send("launch", launch)
    client.event("initialized")
    set_points = client.ask("setBreakpoints",
                            {"source": {"path": str(SQUARES), "name": SQUARES.name}, "sourceModified": False,
                             "breakpoints": [{"line": 11}], "lines": [11]})
    if not set_points["success"] or not set_points["body"]["breakpoints"][0]["verified"]:
        return f"nvim-dap: {set_points}"
    client.ask("setExceptionBreakpoints", {"filters": []})
    if not client.ask("configurationDone")["success"]:
        return "nvim-dap: the configuration isn't taken"
    return by_places(client)


def by_places(client: Client) -> str | None:
    """The session's place after each request that a key makes."""
    moves = [(None, "#0 $main @start 0"), ("continue", "#2 $fill @loop 0"), ("stepBack", "#1 $fill @start 0"),
             ("next", "#2 $fill @loop 0"), ("continue", "#11 $fill @loop 0"), ("reverseContinue", "#2 $fill @loop 0")]
    for command, place in moves:
        if command:
            answer = client.ask(command, {"threadId": 1, "granularity": "statement"})
            if not answer["success"]:
                return f"nvim-dap: {answer}"
        stopped = client.event("stopped")["body"]
        frames = client.ask("stackTrace", {"threadId": stopped["threadId"], "startFrame": 0,
                                           "levels": 20})["body"]["stackFrames"]
        if stopped.get("description") != place or not frames[0]["line"]:
            return f"nvim-dap: {command} leads to {stopped} and not to {place}"
        scopes = client.ask("scopes", {"frameId": frames[0]["id"]})["body"]["scopes"]
        if not client.ask("variables", {"variablesReference": scopes[0]["variablesReference"]})["success"]:
            return f"nvim-dap: no variables at {place}"
    return None
