"""The version and the commit of a checkout."""

from __future__ import annotations

import re
import subprocess

from sources import Checkout

FIRST_RELEASE = "1.0.0"


def version(checkout: Checkout) -> str:
    """The number of the newest version in CHANGELOG.md, or that of the first release."""
    try:
        with open(checkout.path("CHANGELOG.md"), encoding="utf-8") as file:
            found = re.search(r"^## v*([0-9][0-9.]*)", file.read(), re.MULTILINE)
    except OSError:
        found = None
    return found.group(1) if found else FIRST_RELEASE


def git(checkout: Checkout, *words: str) -> str:
    """What git says of the checkout, or nothing where it can't."""
    try:
        ran = subprocess.run(
            ["git", "-C", checkout.top, *words],
            stdin=subprocess.DEVNULL,
            stdout=subprocess.PIPE,
            stderr=subprocess.DEVNULL,
            check=False,
        )
    except OSError:
        return ""
    return ran.stdout.decode(errors="replace").strip() if ran.returncode == 0 else ""


def commit(checkout: Checkout) -> str:
    """The commit, in twelve digits, and whether files have changed since."""
    digits = git(checkout, "rev-parse", "--short=12", "HEAD")
    if not digits:
        return "commit unknown"
    return f"commit {digits}, with changes since" if is_changed(checkout) else f"commit {digits}"


def is_changed(checkout: Checkout) -> bool:
    """Whether a file that git knows has changed since the commit."""
    return bool(git(checkout, "status", "--porcelain", "--untracked-files=no"))


def is_published(checkout: Checkout) -> bool:
    """Whether the commit is one that was got from elsewhere, and no file has changed since. The
    gate has passed on such a one."""
    return bool(git(checkout, "branch", "--remotes", "--contains", "HEAD")) and not is_changed(
        checkout
    )
