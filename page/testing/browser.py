"""A real browser, driven by its DevTools protocol over two pipes: no driver, no socket and no package of Python."""
from __future__ import annotations

import base64
import itertools
import json
import os
import shutil
import signal
import subprocess
import tempfile
import time
from typing import Any

NAMES = ("chromium", "chromium-browser", "google-chrome", "chrome")
OPTIONS = ("--headless=new", "--no-sandbox", "--disable-gpu", "--no-first-run", "--disable-background-networking",
           "--disable-component-update", "--disable-sync", "--disable-extensions", "--disable-dev-shm-usage",
           "--remote-debugging-pipe", "--hide-scrollbars", "--force-color-profile=srgb")
READY = "document.documentElement.dataset.ready === 'yes'"
FRAMES = "new Promise(done => requestAnimationFrame(() => requestAnimationFrame(done)))"
SHIFT = 8
# The codes of keys without a sign.
CODES = {"Escape": 27, "Enter": 13, "Backspace": 8, "ArrowLeft": 37, "ArrowUp": 38, "ArrowRight": 39, "ArrowDown": 40,
         "End": 35,
         "Home": 36, "Tab": 9}


def found() -> str | None:
    """The browser of this machine, or None."""
    for name in NAMES:
        path = shutil.which(name)
        if path:
            return path
    return None


class Broken(Exception):
    """The browser, or the page in it, failed."""


class Browser:
    def __init__(self, width: int = 1440, height: int = 900, scale: float = 1):
        self.folder = tempfile.TemporaryDirectory(prefix="page-browser-", ignore_cleanup_errors=True)
        read_commands, self.commands = os.pipe()
        self.answers, write_answers = os.pipe()

        def pipes() -> None:
            # Chromium reads commands from 3 and writes answers to 4.
            one, other = os.dup(read_commands), os.dup(write_answers)
            os.dup2(one, 3)
            os.dup2(other, 4)
        self.process = subprocess.Popen(
            [found() or NAMES[0], *OPTIONS, f"--user-data-dir={self.folder.name}", f"--window-size={width},{height}",
             "about:blank"],
            pass_fds=(3, 4), preexec_fn=pipes, stdout=subprocess.DEVNULL, stderr=subprocess.DEVNULL,
            start_new_session=True)
        os.close(read_commands)
        os.close(write_answers)
        self.numbers, self.rest = itertools.count(1), b""
        self.events: list[dict[str, Any]] = []
        self.session: str | None = None
        targets = self.send("Target.getTargets")["targetInfos"]
        page = next(each["targetId"] for each in targets if each["type"] == "page")
        self.session = self.send("Target.attachToTarget", targetId=page, flatten=True)["sessionId"]
        self.send("Page.enable")
        self.send("Runtime.enable")
        self.send("Log.enable")
        self.resize(width, height, scale)

    def resize(self, width: int, height: int, scale: float = 1) -> None:
        self.send("Emulation.setDeviceMetricsOverride", width=width, height=height, deviceScaleFactor=scale,
                  mobile=False)

    # The protocol.

    def send(self, method: str, **parameters: Any) -> dict[str, Any]:
        number = next(self.numbers)
        message = {"id": number, "method": method, "params": parameters}
        if self.session:
            message["sessionId"] = self.session
        data = json.dumps(message).encode() + b"\0"
        while data:
            data = data[os.write(self.commands, data):]
        while True:
            answer = self.read()
            if answer.get("id") == number:
                if "error" in answer:
                    raise Broken(answer["error"]["message"])
                return dict(answer["result"])
            self.events.append(answer)

    def read(self) -> dict[str, Any]:
        while b"\0" not in self.rest:
            piece = os.read(self.answers, 1 << 20)
            if not piece:
                raise Broken("the browser ended")
            self.rest += piece
        text, _, self.rest = self.rest.partition(b"\0")
        return dict(json.loads(text))

    # The page.

    def run(self, script: str) -> Any:
        """The value of an expression in the page."""
        told = self.send("Runtime.evaluate", expression=script, returnByValue=True, awaitPromise=True)
        if "exceptionDetails" in told:
            raise Broken(told["exceptionDetails"].get("exception", {}).get("description", str(told)))
        return told["result"].get("value")

    def open(self, address: str, wanted: str = READY, seconds: float = 180) -> None:
        # What the page before still asks for, of a server that has ended, is no error of this one.
        self.send("Page.navigate", url="about:blank")
        self.run("1")
        self.events.clear()
        self.send("Page.navigate", url=address)
        end = time.monotonic() + seconds
        while time.monotonic() < end:
            try:
                if self.run(wanted):
                    return
            except Broken:
                pass
            time.sleep(.02)
        raise Broken("the page doesn't come: " + "; ".join(self.errors()))

    def errors(self) -> list[str]:
        """What went wrong in the page: exceptions, and what its policy forbade."""
        told = []
        for each in self.events:
            if each.get("method") == "Runtime.exceptionThrown":
                told.append(each["params"]["exceptionDetails"].get("exception", {}).get("description", "an exception"))
            elif each.get("method") == "Log.entryAdded" and each["params"]["entry"]["level"] == "error":
                told.append(each["params"]["entry"]["text"])
        return told

    def settle(self, seconds: float = 0) -> None:
        """Waits until what was asked for is drawn."""
        time.sleep(seconds)
        self.run(FRAMES)

    # Hands.

    def key(self, key: str, shift: bool = False) -> None:
        text = {"text": key} if len(key) == 1 else {"text": "\r"} if key == "Enter" else {}
        for kind in ("keyDown", "keyUp"):
            self.send("Input.dispatchKeyEvent", type=kind, key=key, modifiers=SHIFT if shift else 0,
                      windowsVirtualKeyCode=CODES.get(key, 0), code=key if key in CODES else "",
                      **(text if kind == "keyDown" else {}))
        self.settle()

    def keys(self, *keys: str) -> None:
        for key in keys:
            self.key(key)

    def press(self, x: float, y: float) -> None:
        for kind in ("mousePressed", "mouseReleased"):
            self.send("Input.dispatchMouseEvent", type=kind, x=x, y=y, button="left", clickCount=1)
        self.settle()

    def move(self, x: float, y: float) -> None:
        self.send("Input.dispatchMouseEvent", type="mouseMoved", x=x, y=y)
        self.settle()

    def wheel(self, x: float, y: float, by: float) -> None:
        self.send("Input.dispatchMouseEvent", type="mouseWheel", x=x, y=y, deltaX=0, deltaY=by)
        self.settle(.1)

    def press_twice(self, x: float, y: float) -> None:
        self.press(x, y)
        for kind in ("mousePressed", "mouseReleased"):
            self.send("Input.dispatchMouseEvent", type=kind, x=x, y=y, button="left", clickCount=2)
        self.settle()

    def click(self, selector: str, index: int = 0) -> None:
        box = self.run(f"(() => {{ const one = document.querySelectorAll({json.dumps(selector)})[{index}]; "
                       "one.scrollIntoView({block: 'nearest'}); const box = one.getBoundingClientRect(); "
                       "return [box.left + Math.min(box.width / 2, 40), box.top + box.height / 2]; })()")
        self.press(*box)

    def type(self, text: str) -> None:
        self.send("Input.insertText", text=text)

    def picture(self, file: str) -> None:
        data = self.send("Page.captureScreenshot", format="png")["data"]
        with open(file, "wb") as out:
            out.write(base64.b64decode(data))

    def close(self) -> None:
        try:
            self.send("Browser.close")
        except (Broken, OSError):
            pass
        try:
            self.process.wait(5)
        except subprocess.TimeoutExpired:
            os.killpg(self.process.pid, signal.SIGKILL)
            self.process.wait()
        os.close(self.commands)
        os.close(self.answers)
        self.folder.cleanup()
