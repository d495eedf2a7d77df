"""The program that stands behind a page, `lrls-ide`: where it is, what it may take, and how it ends."""

import contextlib
import os
import resource
import signal
from pathlib import Path

IDE = Path(__file__).resolve().parent.parent
GRAMMARS = IDE.parent / "grammars"
# Of each process: the bytes of memory, and the seconds of processor time.
MEMORY, SECONDS = 1 << 30, 300


def found(program: str | None) -> str:
    """The `lrls-ide` that is named, wherever it is run, and else the one that stands beside this folder: in the repository the
    built one or the script that builds it, and where it is installed that of `bin`."""
    if program:
        return os.path.abspath(program) if os.sep in program else program
    in_repository = IDE.parent / "crates" / "lrls_ide" / "out" / "lrls_ide"
    for path in (in_repository, IDE / "lrls-ide", IDE.parent.parent.parent / "bin" / "lrls-ide"):
        if path.is_file() and os.access(path, os.X_OK):
            return str(path)
    return "lrls-ide"


def limit() -> None:
    """Limits a process, before it runs its program."""
    resource.setrlimit(resource.RLIMIT_AS, (MEMORY, MEMORY))
    resource.setrlimit(resource.RLIMIT_CPU, (SECONDS, SECONDS))
    resource.setrlimit(resource.RLIMIT_CORE, (0, 0))


def how_it_ended(status: int) -> str:
    """The end of a process in words."""
    if status >= 0:
        return f"with status {status}"
    with contextlib.suppress(ValueError):
        return f"by the signal {signal.Signals(-status).name}"
    return f"by the signal {-status}"
