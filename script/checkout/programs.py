"""The programs of the repository, and what the words of each ask for.

Each command of the script reads this before it runs the program, so it imports little. """

from __future__ import annotations

import os
import sys


class Program:
    """A program of the repository: its crate, and the command that runs it."""

    # The first words that the script answers in the program's place.
    own: tuple[str, ...] = ()

    def __init__(self, crate: str, command: str) -> None:
        self.crate = crate
        self.command = command

    def serves(self, words: list[str]) -> bool:
        """Whether these words have it serve an editor."""
        raise NotImplementedError

    def line(self, path: str, top: str, words: list[str]) -> list[str]:
        """The command line that does what these words ask for, with the program at this path and
        the checkout in this folder."""
        raise NotImplementedError


class Core(Program):
    """`lrls`, whose first word is a command. `show` is a client of it."""

    own = ("build", "prove", "install", "package", "sizes", "--version", "--help", "-h")

    def serves(self, words: list[str]) -> bool:
        return words[:1] == ["serve"]

    def line(self, path: str, top: str, words: list[str]) -> list[str]:
        if words[:1] == ["show"]:
            return [sys.executable, os.path.join(top, "script", "show"), path, *words[1:]]
        return [path, *words]


class EditorServer(Program):
    """`lrls-ide`, which serves where no option asks for something else. It finds a language by its
    name in the grammars of the checkout, unless it is told another folder."""

    own = ("--version", "--help", "-h")
    settings = "--settings"
    grammars = "--grammars"

    def serves(self, words: list[str]) -> bool:
        return self.settings not in words

    def line(self, path: str, top: str, words: list[str]) -> list[str]:
        if any(word.partition("=")[0] == self.grammars for word in words):
            return [path, *words]
        return [path, self.grammars, os.path.join(top, "grammars"), *words]


PROGRAMS = (Core("lrls", "lrls"), EditorServer("lrls_ide", "lrls-ide"))
