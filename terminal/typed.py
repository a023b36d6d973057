"""The names of texts that came by a pipe: ./qrev keeps these in a folder, below the names that were typed, and they are
shown by these."""
from __future__ import annotations

import os
import re

# The folder, if something is kept: an absolute path is kept below `kept`, another one below a number.
FOLDER = os.environ.get("QREV_KEPT", "")
KEPT = re.compile(rf"{re.escape(FOLDER)}/(?:kept(?=/)|\d+/)") if FOLDER else None


def as_typed(text: str) -> str:
    """A text with the names that were typed in place of those under which texts are kept."""
    return KEPT.sub("", text) if KEPT else text
