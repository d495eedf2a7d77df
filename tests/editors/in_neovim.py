"""Neovim with editors/neovim.lua: what is typed in turn and at random, with changes by ranges and
with whole texts. tests/editors/trial.lua runs in it."""

import json
import os
import subprocess
import tempfile
from typing import Any, Dict, Iterator, List

from tests import TOP
from tests.common.surroundings import placed, surroundings
from tests.editors.steps import COLOURS, FAULTY, STEPS, TYPED, WHOLE

SECONDS = 600
# Neovim's client sends whole texts where this flag is set.
WHOLES = """local start = vim.lsp.start_client
vim.lsp.start_client = function(config)
  config.flags = { allow_incremental_sync = false }
  return start(config)
end
"""
OURS = os.path.join(TOP, "editors", "neovim.lua")
TRIAL = os.path.join(TOP, "tests", "editors", "trial.lua")


def reported(folder: str, before: str) -> Dict[str, Any]:
    """What Neovim reports of its trial."""
    placed(folder, "trial.sum", FAULTY)
    placed(folder, "steps.json", json.dumps([[keys, awaited] for keys, _, awaited in STEPS]))
    placed(folder, "before.lua", before)
    words = ["nvim", "--headless", "-n", "-i", "NONE", "-u", OURS]
    words += ["--cmd", "luafile before.lua", "trial.sum"]
    words += ["-c", f"luafile {TRIAL}", "-c", "cquit 3"]
    ran = subprocess.run(
        words,
        cwd=folder,
        env=surroundings(folder),
        capture_output=True,
        text=True,
        timeout=SECONDS,
        check=False,
    )
    try:
        with open(os.path.join(folder, "reported.json"), encoding="utf-8") as file:
            found: Dict[str, Any] = json.load(file)
            return found
    except FileNotFoundError:
        return {"wrong": [f"status {ran.returncode}: {ran.stdout}{ran.stderr}"]}


def faults(found: Dict[str, Any], kind: str, other: str) -> Iterator[str]:
    """What is wrong with a report, where changes are sent as one kind alone."""
    yield from found["wrong"]
    if not found["wrong"]:
        if (found["whole"], found["levels"]) != (WHOLE, [1, 1, 0]):
            yield f"another end: {found['whole']!r}, fold levels {found['levels']}"
        if found["colours"] != COLOURS:
            yield f"other colours: {found['colours']}"
        if found["typed"] != TYPED:
            yield f"other colours of what was typed: {found['typed']}"
    if found.get(kind, 0) == 0 or found.get(other, 0) != 0:
        yield f"sent {found.get('ranges')} ranges and {found.get('wholes')} whole texts"


def run(folder: str) -> List[str]:
    """What is wrong in either way."""
    wrong = []
    for name, before, kind, other in [
        ("ranges", "", "ranges", "wholes"),
        ("whole texts", WHOLES, "wholes", "ranges"),
    ]:
        found = reported(tempfile.mkdtemp(dir=folder), before)
        wrong += [f"{name}: {what}" for what in faults(found, kind, other)]
        told = f"changes by {name}: {found.get(kind)} sent"
        print(f"neovim: {len(STEPS)} steps and 200 random edits, {told}")
    return wrong
