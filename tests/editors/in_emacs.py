"""Emacs with editors/emacs.el, on a terminal of its own: what is typed in turn.
tests/editors/trial.el runs in it."""

import json
import os
import pty
import select
import time
from typing import Any, Callable, Dict, List, Sequence

from tests import TOP
from tests.common.surroundings import placed, surroundings
from tests.editors.steps import COLOURS, FAULTY, STEPS, TYPED, WHOLE, Row

# What shows after so many seconds doesn't show.
SECONDS = 60
OURS = os.path.join(TOP, "editors", "emacs.el")
TRIAL = os.path.join(TOP, "tests", "editors", "trial.el")
FACES = {"Number": "font-lock-constant-face", "Operator": "font-lock-keyword-face"}


def in_emacs(diagnostics: Sequence[Row]) -> List[Row]:
    """How Emacs reports these: with the source, and one of no width at the end of the text on the
    whole line before."""
    places = [
        d[:4] if d[:2] != d[2:4] else [d[0] - 1, 0, d[0] - 1, len(FAULTY) - 1] for d in diagnostics
    ]
    return [[*place, "lrls: " + d[4]] for place, d in zip(places, diagnostics)]


def in_faces(colours: Sequence[Row]) -> List[Row]:
    """The same in the faces of Emacs, which has fewer."""
    return [[*place, FACES[colour]] for *place, colour in colours if colour in FACES]


def is_shown(reported: Dict[str, Any], awaited: Sequence[Row]) -> bool:
    """Whether these diagnostics are shown and marked, and the server has the editor's text."""
    return bool(
        reported
        and reported["diagnostics"] == awaited
        and reported["same"]
        and reported["marked"] == len(awaited)
    )


class Emacs:
    """Emacs on a terminal of its own, so that its timers run as they do for someone who types."""

    def __init__(self, folder: str) -> None:
        self.folder = folder
        placed(folder, "trial.sum", FAULTY)
        words = ["emacs", "-nw", "-q", "--eval", "(setq native-comp-deferred-compilation nil)"]
        words += ["-l", OURS, "-l", TRIAL, "trial.sum"]
        child, self.terminal = pty.fork()
        if child == 0:
            os.chdir(folder)
            os.execvpe("emacs", words, surroundings(folder))
        self.child = child

    def type(self, keys: str) -> None:
        for key in keys:
            os.write(self.terminal, key.encode())
            self.drain(0.05)

    def drain(self, seconds: float) -> None:
        """Reads what Emacs draws."""
        end = time.time() + seconds
        while time.time() < end:
            ready, _, _ = select.select([self.terminal], [], [], 0.02)
            if ready:
                os.read(self.terminal, 65_536)

    def reported(self) -> Dict[str, Any]:
        """What Emacs reports; nothing where it hasn't yet."""
        try:
            with open(os.path.join(self.folder, "reported.json"), encoding="utf-8") as file:
                found: Dict[str, Any] = json.load(file)
                return found
        except FileNotFoundError:
            return {}

    def waits(self, is_so: Callable[[Dict[str, Any]], bool]) -> Dict[str, Any]:
        """What Emacs reports, once this is so of it, or at last."""
        end = time.time() + SECONDS
        reported: Dict[str, Any] = {}
        while time.time() < end:
            self.drain(0.2)
            reported = self.reported()
            if reported and is_so(reported):
                break
        return reported

    def shows(self, awaited: Sequence[Row]) -> Dict[str, Any]:
        """What Emacs reports, once it shows these diagnostics and the server has its text, or at
        last."""
        return self.waits(lambda reported: is_shown(reported, awaited))

    def end(self) -> None:
        os.kill(self.child, 9)
        os.waitpid(self.child, 0)
        os.close(self.terminal)


def typed(editor: Emacs) -> List[str]:
    """Types each step. What is wrong with the first one that doesn't show, or with the end."""
    reported: Dict[str, Any] = {}
    for number, (_, keys, awaited) in enumerate(STEPS, 1):
        editor.type(keys)
        reported = editor.shows(in_emacs(awaited))
        if not is_shown(reported, in_emacs(awaited)):
            return [f"step {number}: {reported}"]
    return [] if reported["text"] == WHOLE else [f"another end: {reported['text']!r}"]


def coloured(editor: Emacs, what: str, keys: str, colours: List[Row]) -> List[str]:
    """Types these keys. What is wrong with the colours then."""
    editor.type(keys)
    found = editor.waits(lambda reported: bool(reported["colours"] == colours))["colours"]
    return [] if found == colours else [f"other {what}: {found}"]


def run(folder: str) -> List[str]:
    """What is wrong."""
    editor = Emacs(folder)
    wrong = typed(editor)
    wrong = wrong or coloured(editor, "colours", "", in_faces(COLOURS))
    at_once = "colours of what was typed"
    wrong = wrong or coloured(editor, at_once, "\x03z67+", in_faces(TYPED))
    editor.end()
    print(f"emacs: {len(STEPS)} steps")
    return wrong
