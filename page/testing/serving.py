"""A server of the page, for tests."""
from __future__ import annotations

import pathlib
import signal
import subprocess
import sys
from typing import Sequence

MAIN = pathlib.Path(__file__).resolve().parent.parent / "main"


def heard() -> None:
    """What a shell starts in the background ignores Ctrl-C, and hands that on: not so here."""
    signal.signal(signal.SIGINT, signal.SIG_DFL)


def children_of(pid: int) -> list[str]:
    return pathlib.Path(f"/proc/{pid}/task/{pid}/children").read_text().split()


def alive(pids: list[str]) -> list[str]:
    return [pid for pid in pids if pathlib.Path(f"/proc/{pid}/stat").exists()]


class Serving:
    """page/main on a program; `address` is what it prints."""

    def __init__(self, program: str, *words: str, options: Sequence[str] = ()):
        self.process = subprocess.Popen([sys.executable, "-B", str(MAIN), "--debugger", program, *options, "--",
                                         *words],
                                        stdout=subprocess.PIPE, text=True, preexec_fn=heard)
        told = self.process.stdout
        assert told
        self.told, self.address = [], ""
        while line := told.readline():
            self.told.append(line.rstrip("\n"))
            if line.endswith(" is shown at\n"):
                self.address = told.readline().strip()
                told.readline()
                break

    def __enter__(self) -> Serving:
        return self

    def __exit__(self, *_: object) -> None:
        self.close()

    def close(self) -> None:
        self.process.terminate()
        self.process.wait(10)
        if self.process.stdout:
            self.process.stdout.close()
