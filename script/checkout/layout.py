"""Lays out an installation: the programs, and the folders, pages and manuals that belong to
them."""

from __future__ import annotations

import os
import shutil
import stat
from typing import Callable, Dict, List

from history import commit, version
from marks import statement
from pages import place_pages
from refusals import Refusal, wrong_words
from sources import Checkout
from work import say

USAGE = "lrls install FOLDER | install --prefix FOLDER"
# Folders of the repository that an installation has in share/lrls. Of each the executable files
# that are named lrls-* have a link in bin.
CARRIED = ("grammars", "editors", "ide")
# Scripts of an installation, by where they stand in the repository.
SCRIPTS = {"show": "script/show", "sizes": "tests/oracles/sizes", "trees": "tests/oracles/trees"}
# What the commands answer to --help, by where it stands in share/lrls.
HELP = {"help": "script/help", "help-of-lrls-ide": "script/help-of-lrls-ide"}
# Where the commands stand in the repository that run a program. In share/lrls links lead from there
# to bin: the files for editors look for `lrls` beside their folder, and editors start
# `ide/lrls-ide`.
STARTS = {"lrls": "lrls", "lrls-ide": "ide/lrls-ide"}

# The paths of the programs by their commands, each made where it isn't there.
Programs = Callable[[Checkout], Dict[str, str]]


def install(checkout: Checkout, words: List[str], programs: Programs) -> None:
    """Installs into a folder: the program alone, or with --prefix all that belongs to it."""
    if len(words) == 2 and words[0] == "--prefix":
        install_prefix(checkout, words[1], programs)
    elif len(words) == 1 and not words[0].startswith("-"):
        install_into(checkout, words[0], programs)
    else:
        raise wrong_words(USAGE)


def install_into(checkout: Checkout, folder: str, programs: Programs) -> None:
    """Copies the programs into a folder, each in one step."""
    if not os.path.isdir(folder):
        raise Refusal(1, f"cannot install into {folder}: it is no folder; make it first")
    need_other(checkout, folder)
    if not os.access(folder, os.W_OK):
        raise Refusal(1, f"cannot install into {folder}: nothing can be written there")
    for command, program in programs(checkout).items():
        path = os.path.join(os.path.realpath(folder), command)
        try:
            replace(program, path, 0o755)
        except OSError as error:
            raise Refusal(1, f"not installed into {folder}: {error.strerror}") from None
        say(f"installed as {path}")


def need_other(checkout: Checkout, folder: str) -> None:
    """Refuses the folder that the script lies in."""
    if os.path.realpath(folder) == checkout.top:
        raise Refusal(
            1, f"cannot install into {folder}: the script `lrls` lies there; name another folder"
        )


def install_prefix(checkout: Checkout, folder: str, programs: Programs) -> None:
    """Lays out bin, lib and share in a folder, which is made where it isn't there."""
    try:
        os.makedirs(folder, exist_ok=True)
    except OSError as error:
        raise Refusal(1, f"cannot install into {folder}: {error.strerror}") from None
    need_other(checkout, folder)
    prefix = os.path.realpath(folder)
    try:
        lay_out(checkout, prefix, programs(checkout))
    except OSError as error:
        raise Refusal(
            1,
            f"not installed into {prefix}, or in part only: {error.strerror}: {error.filename2 or error.filename}",
        ) from None
    say(f"installed; the command is {prefix}/bin/lrls")


def replace(source: str, path: str, mode: int) -> None:
    """Puts a copy of a file in place of another one, which may be a program that runs, or a link to
    a file that is to stay."""
    beside = os.path.join(os.path.dirname(path), f".{os.path.basename(path)}.{os.getpid()}")
    try:
        shutil.copyfile(source, beside)
        os.chmod(beside, mode)
        os.replace(beside, path)
    finally:
        if os.path.lexists(beside):
            os.remove(beside)


def lay_out(checkout: Checkout, prefix: str, programs: Dict[str, str]) -> None:
    """Lays out an installation in this folder. What an earlier one left in share/lrls goes."""
    os.umask(0o022)
    share = os.path.join(prefix, "share", "lrls")
    shutil.rmtree(share, ignore_errors=True)
    for folder in ("bin", "lib/lrls", "share/lrls", "share/doc"):
        os.makedirs(os.path.join(prefix, folder), exist_ok=True)
    for name, source in SCRIPTS.items():
        replace(checkout.path(source), os.path.join(share, name), 0o755)
    for name, source in HELP.items():
        replace(checkout.path(source), os.path.join(share, name), 0o644)
    for folder in CARRIED:
        carry(checkout, prefix, folder)
    place_programs(checkout, prefix, programs)
    place_pages(checkout, os.path.join(prefix, "share"))
    place_manuals(checkout, prefix)


def place_programs(checkout: Checkout, prefix: str, programs: Dict[str, str]) -> None:
    """Copies the programs with the commands that run them, and writes what `--version` says of
    them."""
    for command, program in programs.items():
        replace(program, os.path.join(prefix, "lib", "lrls", command), 0o755)
        replace(checkout.path("script", "installed"), os.path.join(prefix, "bin", command), 0o755)
        start = os.path.join(prefix, "share", "lrls", STARTS[command])
        os.makedirs(os.path.dirname(start), exist_ok=True)
        link(os.path.relpath(os.path.join(prefix, "bin", command), os.path.dirname(start)), start)
    made = [
        f"{command}: {statement(program)}"
        for command, program in programs.items()
        if command != "lrls"
    ]
    lines = [f"lrls {version(checkout)}", commit(checkout), statement(programs["lrls"]), *made]
    with open(os.path.join(prefix, "share", "lrls", "version"), "w", encoding="utf-8") as file:
        file.writelines(f"{line}\n" for line in lines)


def link(target: str, path: str) -> None:
    """Makes a link, in place of what lies there."""
    if os.path.lexists(path):
        os.remove(path)
    os.symlink(target, path)


def carry(checkout: Checkout, prefix: str, folder: str) -> None:
    """Copies a folder of the repository into share/lrls, without what Python and its tools keep and
    the commands of a checkout. Everyone may read it."""
    if not os.path.isdir(checkout.path(folder)):
        return
    target = os.path.join(prefix, "share", "lrls", folder)
    left_out = shutil.ignore_patterns("__pycache__", "out", *STARTS)
    shutil.copytree(checkout.path(folder), target, ignore=left_out)
    for where, _, names in os.walk(target):
        os.chmod(where, 0o755)
        for name in names:
            path = os.path.join(where, name)
            os.chmod(path, 0o755 if os.stat(path).st_mode & stat.S_IXUSR else 0o644)
    for name in sorted(os.listdir(target)):
        if name.startswith("lrls-") and os.access(os.path.join(target, name), os.X_OK):
            link(f"../share/lrls/{folder}/{name}", os.path.join(prefix, "bin", name))


def place_manuals(checkout: Checkout, prefix: str) -> None:
    """Copies the manual pages."""
    for name in sorted(os.listdir(checkout.path("man"))):
        section = os.path.join(prefix, "share", "man", f"man{name[-1]}")
        os.makedirs(section, exist_ok=True)
        replace(checkout.path("man", name), os.path.join(section, name), 0o644)
