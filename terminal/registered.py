"""All modules that register commands of the prompt."""
from . import (asking, blaming, calling, comparing, counting, files, habits, holds, looking, moving,  # noqa: F401
               searching, sources, stopping, suspecting, tui)  # noqa: F401
