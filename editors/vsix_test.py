"""Tests the package for VS Code that release/vsix makes: its form, and what its code does under Node."""
from __future__ import annotations

import json
import pathlib
import re
import shutil
import subprocess
import sys
import tempfile
import xml.etree.ElementTree as ElementTree
import zipfile
from typing import Any, Iterator

sys.path.insert(0, str(pathlib.Path(__file__).resolve().parent.parent / "tests"))

from harness.running import TOP, Skipped

SQUARES = TOP / "examples" / "squares.ssa"
# A run of more moves than the check in Python looks at in a session, and its result: the 30th Fibonacci number.
LONG, FIB = TOP / "rows" / "speed" / "fib.ssa", 832040
ADAPTER = TOP / "release" / "qrev-dap-x86_64-linux"
CHECKER = TOP / "release" / "qrev-check-x86_64-linux"
SCHEMA = "{http://schemas.microsoft.com/developer/vsx-schema/2011}"
TYPES = "{http://schemas.openxmlformats.org/package/2006/content-types}"
# What a manifest of an extension may have, of what VS Code's reference on manifests and on contributions names.
MEMBERS = set("name displayName description version publisher private engines categories main activationEvents "
              "contributes".split())
CONTRIBUTED = {"languages": {"id", "aliases", "extensions", "configuration"},
               "grammars": {"language", "scopeName", "path"},
               "breakpoints": {"language"}, "commands": {"command", "title", "category", "icon"},
               "keybindings": {"command", "key", "when"},
               "debuggers": {"type", "label", "languages", "program", "configurationAttributes",
                             "initialConfigurations", "configurationSnippets"}}
MENUS = {"editor/title/run", "editor/title", "editor/context", "debug/toolBar", "debug/variables/context",
         "commandPalette"}


def made(folder: str, name: str) -> bytes:
    file = pathlib.Path(folder) / name
    subprocess.run([str(TOP / "release" / "vsix"), "--output", str(file)], check=True, capture_output=True)
    return file.read_bytes()


def faults(seconds: float) -> Iterator[str | Skipped | None]:
    """A fault of the package, None for each thing that is as it must be, or a test that is skipped."""
    with tempfile.TemporaryDirectory(prefix="vsix-") as folder:
        yield None if made(folder, "a.vsix") == made(folder, "b.vsix") else "vsix: equal files give other bytes"
        with zipfile.ZipFile(f"{folder}/a.vsix") as package:
            yield package.testzip() and "vsix: a member is damaged"
            yield from form_faults(package)
            yield from manifest_faults(json.loads(package.read("extension/package.json")), package.namelist())
            package.extractall(f"{folder}/out")
            extract_with_rights(package, f"{folder}/fast")
        yield code_fault(f"{folder}/out/extension", seconds)
        yield fast_fault(f"{folder}/fast/extension", seconds)


def extract_with_rights(package: zipfile.ZipFile, folder: str) -> None:
    """What is in the package, with the rights that it says. Without them it is the extension that gives them."""
    package.extractall(folder)
    for member in package.infolist():
        pathlib.Path(folder, member.filename).chmod(member.external_attr >> 16 & 0o777 or 0o644)


def form_faults(package: zipfile.ZipFile) -> Iterator[str | None]:
    """The members, their types, and what the package says of itself."""
    names = package.namelist()
    yield None if names[:2] == ["[Content_Types].xml", "extension.vsixmanifest"] else f"vsix: begins with {names[:2]}"
    others = [name for name in names[2:] if not name.startswith("extension/") or ".." in name]
    yield f"vsix: {others} aren't below extension/" if others else None
    types = ElementTree.fromstring(package.read("[Content_Types].xml"))
    ends = {each.get("Extension") for each in types.findall(f"{TYPES}Default")}
    parts = {each.get("PartName") for each in types.findall(f"{TYPES}Override")}
    untyped = [name for name in names[1:] if pathlib.PurePosixPath(name).suffix not in ends and f"/{name}" not in parts]
    yield f"vsix: {untyped} have no type" if untyped else None
    told = ElementTree.fromstring(package.read("extension.vsixmanifest"))
    identity = told.find(f"{SCHEMA}Metadata/{SCHEMA}Identity")
    manifest = json.loads(package.read("extension/package.json"))
    version = re.search(r"(?m)^## ([0-9.]+)", (TOP / "CHANGELOG.md").read_text())
    assert identity is not None and version
    said = [identity.get(name) for name in ("Id", "Publisher", "Version", "TargetPlatform")]
    yield None if said == [manifest["name"], manifest["publisher"], version[1], "linux-x64"] and \
        manifest["version"] == version[1] else \
        f"vsix: {said} and {manifest['version']} for version {version[1]}"
    assets = {each.get("Type", "").rpartition(".")[2]: each.get("Path") for each in told.iter(f"{SCHEMA}Asset")}
    yield None if assets.get("Manifest") == "extension/package.json" and set(assets.values()) <= set(names) else \
        f"vsix: assets {assets}"
    target = told.find(f"{SCHEMA}Installation/{SCHEMA}InstallationTarget")
    host = None if target is None else target.get("Id")
    yield None if host == "Microsoft.VisualStudio.Code" else f"vsix: for {host}"
    programs = [f"extension/qrev/release/{program.name}" for program in (ADAPTER, CHECKER)]
    yield None if set(programs) <= set(names) and \
        [package.read(name) for name in programs] == [ADAPTER.read_bytes(), CHECKER.read_bytes()] else \
        "vsix: the adapter or what looks on behind a check isn't the released one"
    rights = [package.getinfo(name).external_attr >> 16 & 0o777
              for name in [*programs, "extension/qrev-dap", "extension/qrev/qrev-dap"] if name in names]
    yield None if rights == [0o755] * 4 else \
        f"vsix: the programs and what starts the adapter have the rights {[oct(each) for each in rights]}"


def manifest_faults(manifest: dict[str, Any], names: list[str]) -> Iterator[str | None]:
    """The manifest of the extension, by what VS Code's reference says that it may have."""
    given = manifest["contributes"]
    yield None if set(manifest) <= MEMBERS else f"vsix: members {set(manifest) - MEMBERS}"
    wrong = [(kind, set(each) - CONTRIBUTED[kind]) for kind in CONTRIBUTED for each in given[kind]
             if set(each) - CONTRIBUTED[kind]]
    yield f"vsix: {wrong}" if wrong else None
    yield None if set(given) == {*CONTRIBUTED, "menus", "configuration"} and set(given["menus"]) <= MENUS else \
        f"vsix: contributes {sorted(given)}, menus {sorted(given['menus'])}"
    files = [manifest["main"], given["languages"][0]["configuration"], given["grammars"][0]["path"],
             given["debuggers"][0]["program"]]
    absent = [file for file in files if f"extension/{file.removeprefix('./')}" not in names]
    yield f"vsix: {absent} aren't in it" if absent else None
    yield None if re.fullmatch(r"\^\d+\.\d+\.\d+", manifest["engines"]["vscode"]) else f"vsix: {manifest['engines']}"
    kind = given["debuggers"][0]["type"]
    missing = {f"onDebugResolve:{kind}", f"onDebugDynamicConfigurations:{kind}"} - set(manifest["activationEvents"])
    yield f"vsix: it isn't started by {missing}" if missing else None


def code_fault(folder: str, seconds: float) -> str | Skipped | None:
    """What the extension's code does wrong, with a stand-in for VS Code's module."""
    if not shutil.which("node"):
        return Skipped("node")
    run = subprocess.run(["node", str(TOP / "editors" / "vscode-test.js"), folder, str(SQUARES)], capture_output=True,
                         text=True, timeout=4 * seconds)
    return None if run.returncode == 0 and re.search(r"^[1-9]\d* passed, 0 failed$", run.stdout, re.MULTILINE) else \
        f"vsix: {run.stdout}{run.stderr}"


def fast_fault(folder: str, seconds: float) -> str | None:
    """How the check of a long run in the package differs from the expected result."""
    run = subprocess.run([f"{folder}/qrev/qrev", "--check", "--fast", str(LONG)], capture_output=True, text=True,
                         timeout=2 * seconds)
    return None if run.returncode == 0 and run.stdout.endswith(f", done {FIB}\n") else \
        f"vsix: status {run.returncode}, {run.stdout}{run.stderr}"
