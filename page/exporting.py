"""One file that shows a run without a server: the page, its modules and the run's arrays in it.

Such a file makes no requests: its own policy forbids them.
"""
from __future__ import annotations

import base64
import gzip
import hashlib
import json
import pathlib
import re
from typing import Any

STATIC = pathlib.Path(__file__).resolve().parent / "static"
# In the order in which each finds what it wants of the others.
MODULES = ("program.js", "workedout.js", "run.js", "memory.js", "causes.js", "ghost.js", "element.js", "source.js",
           "plot.js", "bands.js", "timeline.js", "stops.js", "marks.js", "code.js", "values.js", "tree.js", "cells.js",
           "output.js", "agreed.js", "keys.js", "before.js", "app.js")
STYLES, PAGE = "page.css", "index.html"
IMPORT = re.compile(r"^import [^;]*;\n", re.MULTILINE)
# What nobody runs: comments that fill lines of their own.
COMMENT = re.compile(r"^\s*(//.*|/\*(?s:.*?)\*/\s*)\n", re.MULTILINE)
EXPORT = re.compile(r"^export ((?:async )?(?:class|function|const) (\w+))", re.MULTILINE)
# What an exported file may do: run the script and use the styles that are in it, by their sums, and nothing else.
POLICY = ("default-src 'none'; script-src '{}'; style-src '{}'; img-src data:; base-uri 'none'; form-action 'none'; "
          "require-trusted-types-for 'script'")


def joined(names: tuple[str, ...] = MODULES) -> str:
    """Modules as one script, in which each has its own scope and gives what it exports."""
    code = []
    for name in names:
        text = (STATIC / name).read_text()
        given = ", ".join(match[1] for match in EXPORT.findall(text))
        body = EXPORT.sub(r"\1", IMPORT.sub("", text))
        code.append(f"const {{{given}}} = (() => {{\n{body}\nreturn {{{given}}};\n}})();\n")
    return "".join(code)


def lean(text: str) -> str:
    """A script or a style sheet without its comments and without what indents its lines."""
    return "".join(line.strip() + "\n" for line in COMMENT.sub("", text).split("\n") if line.strip())


def sum_of(text: str) -> str:
    """What a policy names an inline script or style by."""
    return "sha256-" + base64.b64encode(hashlib.sha256(text.encode()).digest()).decode()


def packed(content: bytes) -> str:
    return base64.b64encode(gzip.compress(content, 9, mtime=0)).decode()


def exported(told: dict[str, Any], stream: bytes) -> str:
    """The page with the program and its run in it."""
    page = (STATIC / PAGE).read_text()
    code = "\n" + lean(joined()).replace("</script", "<\\/script").replace("<!--", "<\\!--")
    styles = "\n" + lean((STATIC / STYLES).read_text())
    run = "\n".join([packed(json.dumps(told).encode()), packed(stream)])
    policy = POLICY.format(sum_of(code), sum_of(styles))
    return replaced(page, {
        '<meta charset="utf-8">': f'<meta charset="utf-8">\n<meta http-equiv="Content-Security-Policy" '
                                  f'content="{policy}">',
        f'<link rel="stylesheet" href="{STYLES}">': f"<style>{styles}</style>",
        '<script type="module" src="app.js"></script>':
            f'<script type="application/octet-stream" id="run">\n{run}\n</script>\n<script '
            f'type="module">{code}</script>'})


def replaced(page: str, parts: dict[str, str]) -> str:
    """The page with others in place of some of its elements, each of which is there once."""
    for old, new in parts.items():
        before, found, behind = page.partition(old)
        if not found:
            raise ValueError(f"{PAGE} has no {old}")
        page = before + new + behind
    return page
