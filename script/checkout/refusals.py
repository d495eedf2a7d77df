"""How the script ends where it can't do what it was asked for."""

from __future__ import annotations


class Refusal(Exception):
    """Ends the script with this status. Each line is printed behind `lrls: `, the usage before them
    as it is."""

    def __init__(self, status: int, *lines: str, usage: str = "") -> None:
        super().__init__(*lines)
        self.status = status
        self.lines = lines
        self.usage = usage

    def text(self) -> str:
        """What is printed on standard error."""
        usage = [f"usage: {self.usage}\n"] if self.usage else []
        return "".join([*usage, *(f"lrls: {line}\n" for line in self.lines)])


def wrong_words(usage: str) -> Refusal:
    """The refusal of words that don't make a command."""
    return Refusal(2, usage=usage)
