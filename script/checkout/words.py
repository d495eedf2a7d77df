"""What the words of a command line are, as far as it has to be known before there is a program."""

from __future__ import annotations

import argparse
import os
import stat
from typing import List, NoReturn, Tuple

from refusals import Refusal, wrong_words

USAGE = "lrls check GRAMMAR | parse GRAMMAR TEXT | serve GRAMMAR"
LANGUAGE_USAGE = "lrls-ide [--grammars FOLDER] [--settings] LANGUAGE"
SHOW_OPTIONS = ("--tokens", "--nodes")
# How many files each command names.
FILES = {"check": 1, "serve": 1, "parse": 2, "show": 2}
# The first lines that a grammar file can have.
FIRST_LINES = (b"lrgrammar 1", b"lrgrammar 2")
# A larger file has another fault, whatever its first line is.
GRAMMAR_BYTES = 65_536


def split(words: List[str]) -> Tuple[List[str], List[str]]:
    """The files that words name behind a command, and the options before, between and behind
    them."""
    files: List[str] = []
    options: List[str] = []
    is_literal = False
    for word in words:
        if is_literal or not word.startswith("-") or word == "-":
            files.append(word)
        elif word == "--":
            is_literal = True
        else:
            options.append(word)
    return files, options


def look_at(top: str, command: str, words: List[str]) -> None:
    """Refuses words that the program of this command would refuse, files that can't be read, and a
    file that is no grammar, before anything is built."""
    if command == "lrls":
        look_at_command(words)
    else:
        look_at_language(os.path.join(top, "grammars"), words)


def look_at_command(words: List[str]) -> None:
    """The same of `lrls`."""
    command = words[0] if words else ""
    files, options = split(words[1:])
    known = SHOW_OPTIONS if command == "show" else ()
    if len(files) != FILES.get(command) or any(option not in known for option in options):
        raise Refusal(2, "for all that the script does: lrls --help", usage=USAGE)
    for path in files:
        if os.path.isdir(path) or not os.access(path, os.R_OK):
            raise Refusal(1, f"cannot read {path}")
    if not may_be_grammar(files[0]):
        raise Refusal(2, "line 1: G1 first line")


class LanguageWords(argparse.ArgumentParser):
    """The words of `lrls-ide`, with these grammars where they name none."""

    def __init__(self, grammars: str) -> None:
        super().__init__(add_help=False, allow_abbrev=False)
        self.add_argument("--grammars", default=grammars)
        self.add_argument("--settings", action="store_true")
        self.add_argument("language")

    def error(self, message: str) -> NoReturn:
        """Refuses other words."""
        raise wrong_words(LANGUAGE_USAGE)


def look_at_language(grammars: str, words: List[str]) -> None:
    """The same of `lrls-ide`, which serves a grammar with a fault too. Settings may name another
    grammar, so they aren't looked at."""
    given = LanguageWords(grammars).parse_args(words)
    path = given.language
    if not set(path) & set("./"):
        path = os.path.join(given.grammars, f"{path}.lr")
    if not path.endswith(".toml") and (os.path.isdir(path) or not os.access(path, os.R_OK)):
        raise Refusal(1, f"cannot read {path}")


def may_be_grammar(path: str) -> bool:
    """Whether a file begins as a grammar does. One that can be read only once, as a pipe, isn't
    looked at."""
    status = os.stat(path)
    if not stat.S_ISREG(status.st_mode) and not os.path.samefile(path, os.devnull):
        return True
    if status.st_size > GRAMMAR_BYTES:
        return True
    with open(path, "rb") as file:
        return file.readline().rstrip(b"\n").rstrip(b"\r") in FIRST_LINES
