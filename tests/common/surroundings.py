"""Where an editor is tried: a folder of its own, and no file of its user."""

import os
from typing import Dict

# What Emacs' init.el begins with: no file and no message that isn't asked for.
EMACS_START = """(setq native-comp-deferred-compilation nil
      native-comp-async-report-warnings-errors nil)
(setq inhibit-startup-screen t make-backup-files nil auto-save-default nil create-lockfiles nil)
"""


def surroundings(folder: str) -> Dict[str, str]:
    """The environment of an editor that reads no file of its user."""
    own = {
        key: value
        for key, value in os.environ.items()
        if not key.startswith("XDG_") and key != "TMUX"
    }
    return {**own, "HOME": folder, "TERM": "xterm", "LANG": "C.UTF-8", "LC_ALL": "C.UTF-8"}


def placed(folder: str, name: str, text: str) -> str:
    """Writes a file, and returns its path."""
    path = os.path.join(folder, name)
    with open(path, "w", encoding="utf-8", newline="") as file:
        file.write(text)
    return path
