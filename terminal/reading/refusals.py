"""Why a text is refused: the file, the line and what is wrong there."""


class Refused(Exception):
    """What QBE, the assembler or the linker refuses."""

    def __init__(self, path: str, line: int, what: str):
        super().__init__(f"{path}:{line}: {what}")
        self.path, self.line, self.what = path, line, what
