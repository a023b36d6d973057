"""Libraries that are preloaded to a run; and a run with the one that refuses and counts allocations (refusing.c)."""
import os
import pathlib
import shutil
import struct
import subprocess
import tempfile
from collections.abc import Iterator, Sequence
from contextlib import contextmanager
from typing import Protocol

from harness.running import captured

HERE = pathlib.Path(__file__).resolve().parent


class Asked(Protocol):
    """Which program is tested, and how long it may take."""

    @property
    def program(self) -> str: ...

    @property
    def seconds(self) -> float: ...


class NoCompiler(Exception):
    """There is no C compiler for the library."""


@contextmanager
def library(source: str = "refusing.c") -> Iterator[str]:
    """The library, compiled into a folder of its own."""
    with tempfile.TemporaryDirectory(prefix="preloaded-") as folder:
        made = os.path.join(folder, "preloaded.so")
        for compiler in compilers():
            # What the library takes of the C library is there in the program that it is preloaded to.
            line = [*compiler, "-shared", "-fPIC", "-O1", "-fno-builtin", "-nostdlib", "-o", made,
                    str(HERE / source)]
            if subprocess.run(line, stderr=subprocess.DEVNULL).returncode == 0:
                yield made
                return
        raise NoCompiler(f"there is no C compiler for {source}")


def compilers() -> Iterator[list[str]]:
    """The system's C compiler, else that of the toolchain."""
    if shutil.which("cc"):
        yield ["cc"]
    if shutil.which("rt"):
        guide = subprocess.run(["rt", "doc"], stdout=subprocess.PIPE, stdin=subprocess.DEVNULL).stdout.decode().strip()
        clang = pathlib.Path(guide).parent / "toolchain" / "bin" / "clang"
        if clang.is_file():
            yield [str(clang), "-fuse-ld=lld"]


class Run:
    """A run in which the allocation of that number was refused, if it came to that; none is where the number is 0."""

    def __init__(self, running: Asked, made: str, which: int, words: Sequence[str], script: bytes) -> None:
        with tempfile.NamedTemporaryFile(prefix="counts-") as counts, tempfile.TemporaryFile() as source:
            counts.write(bytes(16))
            counts.flush()
            source.write(script)
            source.seek(0)
            given = {**os.environ, "LD_PRELOAD": made, "REFUSING_WHICH": str(which), "REFUSING_COUNTS": counts.name}
            run = captured([running.program, *words], stdin=source, env=given, timeout=running.seconds)
            counts.seek(0)
            self.allocations, self.bytes = struct.unpack("=QQ", counts.read())
            # The place of an open file is one for all that hold it.
            self.script_read = os.lseek(source.fileno(), 0, os.SEEK_CUR)
        self.was_refused = 0 < which <= self.allocations
        self.written, self.errors, self.status = run.stdout, run.stderr, run.returncode
