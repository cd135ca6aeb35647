"""A source text with places, and the error that names one."""


class Bad(Exception):
    """What the rules do not have, or what cannot be read, with its place in the file."""

    def __init__(self, text: str, line: int = 0, column: int = 0):
        super().__init__(text)
        self.text = text
        self.line = line
        self.column = column

    def at(self, path: str) -> str:
        if self.line:
            return f"{path}:{self.line}:{self.column}: {self.text}"
        return f"{path}: {self.text}"


class Source:
    def __init__(self, text: str):
        self.text = text

    def place(self, offset: int) -> tuple[int, int]:
        """Line and column of an offset, both from 1."""
        before = self.text[:offset]
        return before.count("\n") + 1, offset - (before.rfind("\n") + 1) + 1

    def bad(self, offset: int, text: str) -> Bad:
        return Bad(text, *self.place(offset))
