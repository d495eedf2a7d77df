"""Makes a Debian package of an installation."""

from __future__ import annotations

import gzip
import os
import re
import shutil
import subprocess
import tempfile
import time
from email.utils import formatdate
from typing import Dict, List

from history import git, version
from layout import Programs, lay_out
from refusals import Refusal, wrong_words
from sources import Checkout
from work import say

USAGE = "lrls package [FOLDER]"
TOOLS = ("dpkg", "dpkg-deb", "strip")
# What the package needs besides the C library, and what the page in the browser needs.
NEEDED = "python3 (>= 3.8)"
RECOMMENDED = "python3 (>= 3.11), python3-aiohttp, libjs-codemirror"
NOBODY = "lrls <lrls@example.invalid>"
GLIBC = re.compile(rb"\0GLIBC_([0-9]+(?:\.[0-9]+)*)\0")

CONTROL = """\
Package: lrls
Version: {version}-1
Architecture: {architecture}
Maintainer: {maintainer}
Installed-Size: {size}
Depends: libc6 (>= {glibc}), {needed}
Recommends: {recommended}
Section: devel
Priority: optional
Description: language server for a grammar of your own
 lrls gives editor support to a language that has no server yet. You write a
 grammar file, any conflict-free LR(1) grammar with its token rules, and lrls
 reports faults, folds, selections, tokens and trees over the Language Server
 Protocol 3.17. It scans and parses incrementally.
 .
 The package has grammars to start from, files for Neovim and Emacs, and the
 manual pages lrls(1) and lrgrammar(5).
"""
COPYRIGHT = """\
Format: https://www.debian.org/doc/packaging-manuals/copyright-format/1.0/
Upstream-Name: lrls

Files: *
Copyright: {year} {maintainer}
License: none-given
 The repository has no licence. Ask its maintainers before you pass the
 package on.
"""
CHANGES = """\
lrls ({version}-1) unstable; urgency=low

  * Made from the repository; changelog.gz says what has changed.

 -- {maintainer}  {date}
"""


def package(checkout: Checkout, words: List[str], programs: Programs) -> None:
    """Makes the package in a folder, or in this one."""
    if len(words) > 1 or any(word.startswith("-") for word in words):
        raise wrong_words(USAGE)
    folder = words[0] if words else "."
    if not os.path.isdir(folder):
        raise Refusal(1, f"cannot make a package in {folder}: it is no folder; make it first")
    if not os.access(folder, os.W_OK):
        raise Refusal(1, f"cannot make a package in {folder}: nothing can be written there")
    need_tools()
    made = programs(checkout)
    try:
        path = make_package(checkout, os.path.realpath(folder), made)
    except OSError as error:
        raise Refusal(1, f"no package was made: {error.strerror}: {error.filename}") from None
    say(f"made {path}")
    say(f"to install it, as root: apt-get install {path}")


def need_tools() -> None:
    """Refuses where a command is missing that makes packages."""
    for tool in TOOLS:
        if shutil.which(tool) is None:
            raise Refusal(
                1,
                f"making a package needs the command {tool}, and no folder of PATH has it",
                "on Debian: apt-get install dpkg binutils",
            )


def make_package(checkout: Checkout, folder: str, programs: Dict[str, str]) -> str:
    """Makes the package beside its place and moves it there. Its path."""
    with tempfile.TemporaryDirectory(prefix="lrls-") as work:
        root = os.path.join(work, "root")
        lay_out(checkout, os.path.join(root, "usr"), programs)
        for command in programs:
            # The compiler's mark, by which `--version` knows what was proved, is in .comment and
            # stays.
            run("strip", "--strip-unneeded", os.path.join(root, "usr", "lib", "lrls", command))
        compress(root)
        facts = facts_of(checkout, root, sorted(programs))
        describe(root, facts)
        name = f"lrls_{facts['version']}-1_{facts['architecture']}.deb"
        beside = os.path.join(folder, f".{name}.{os.getpid()}")
        try:
            run("dpkg-deb", "--root-owner-group", "-Zxz", "--build", root, beside)
            os.replace(beside, os.path.join(folder, name))
        finally:
            if os.path.exists(beside):
                os.remove(beside)
    return os.path.join(folder, name)


def run(*words: str) -> str:
    """What a command prints. Where it fails, no package is made."""
    ran = subprocess.run(
        words, stdin=subprocess.DEVNULL, stdout=subprocess.PIPE, stderr=subprocess.PIPE, check=False
    )
    if ran.returncode != 0:
        said = (ran.stdout + ran.stderr).decode(errors="replace").strip().splitlines()
        raise Refusal(1, *(f"{words[0]}: {line}" for line in said), "no package was made")
    return ran.stdout.decode().strip()


def compress(root: str) -> None:
    """Compresses the changes and the manual pages, as Debian has them."""
    pages = os.path.join(root, "usr", "share", "doc", "lrls")
    os.rename(os.path.join(pages, "CHANGELOG.md"), os.path.join(pages, "changelog"))
    manuals = [
        os.path.join(where, name)
        for where, _, names in os.walk(os.path.join(root, "usr/share/man"))
        for name in names
    ]
    for path in [os.path.join(pages, "changelog"), *manuals]:
        with open(path, "rb") as file:
            write_compressed(f"{path}.gz", file.read())
        os.remove(path)


def write_compressed(path: str, content: bytes) -> None:
    """Writes a compressed file that is the same for the same content."""
    with open(path, "wb") as file, gzip.GzipFile("", "wb", 9, file, mtime=0) as packed:
        packed.write(content)


def facts_of(checkout: Checkout, root: str, commands: List[str]) -> Dict[str, str]:
    """What the package says of itself."""
    files = [os.path.join(where, name) for where, _, names in os.walk(root) for name in names]
    return {
        "version": version(checkout),
        "architecture": run("dpkg", "--print-architecture"),
        "maintainer": maintainer(checkout),
        "size": str(sum(-(-os.lstat(path).st_size // 1024) for path in files)),
        "glibc": glibc([os.path.join(root, "usr", "lib", "lrls", command) for command in commands]),
        "needed": NEEDED,
        "recommended": RECOMMENDED,
        "year": time.strftime("%Y"),
        "date": formatdate(),
    }


def maintainer(checkout: Checkout) -> str:
    """Who is named as the maintainer."""
    if os.environ.get("DEBEMAIL"):
        return f"{os.environ.get('DEBFULLNAME', 'lrls')} <{os.environ['DEBEMAIL']}>"
    return git(checkout, "log", "-1", "--format=%an <%ae>") or NOBODY


def glibc(programs: List[str]) -> str:
    """The oldest C library that has all that the programs call."""
    found = []
    for path in programs:
        with open(path, "rb") as file:
            # Two names may share the byte between them.
            found += GLIBC.findall(file.read().replace(b"\0", b"\0\0"))
    return max(
        (word.decode() for word in found),
        key=lambda word: [int(part) for part in word.split(".")],
        default="2.0",
    )


def describe(root: str, facts: Dict[str, str]) -> None:
    """Writes what a package has besides the installation."""
    os.makedirs(os.path.join(root, "DEBIAN"))
    pages = os.path.join(root, "usr", "share", "doc", "lrls")
    for path, text in (
        (os.path.join(root, "DEBIAN", "control"), CONTROL),
        (os.path.join(pages, "copyright"), COPYRIGHT),
    ):
        with open(path, "w", encoding="utf-8") as file:
            file.write(text.format(**facts))
    write_compressed(os.path.join(pages, "changelog.Debian.gz"), CHANGES.format(**facts).encode())
