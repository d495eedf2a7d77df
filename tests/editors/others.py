"""Editors that need no file of editors/: each runs with the words of editors/README.md, opens a
faulty file, and has to draw the fault, and no fault once the text is mended. The words are read
from the page, so that what it says is what is tried."""

import os
import re
from typing import Dict, List, Sequence, Tuple

from tests import TOP
from tests.common import screens
from tests.common.surroundings import EMACS_START, placed, surroundings

DOCS = os.path.join(TOP, "docs")
NAMES = ["lsp-mode", "vim-ale", "vim-ycm", "helix"]
# Keys, and what the screen shows and doesn't show then.
Look = Tuple[List[str], List[str], List[str]]
FAULTY = "1+(2)+(3\n+4+\n)+5\n"


def words_of(heading: str) -> str:
    """The first block of code below this heading of editors/README.md."""
    with open(os.path.join(TOP, "editors", "README.md"), encoding="utf-8") as file:
        page = file.read()
    found = re.search(
        rf"^## {re.escape(heading)}\n.*?^```\w*\n(.*?)^```", page, re.DOTALL | re.MULTILINE
    )
    assert found, f"editors/README.md has no words for {heading}"
    return found.group(1).replace("PATH", TOP)


def environment_of(folder: str) -> Dict[str, str]:
    """The system's own commands come first: what is installed by the system runs with the system's
    Python."""
    own = surroundings(folder)
    return {**own, "PATH": "/usr/bin:/bin:" + own["PATH"]}


def tried(
    folder: str,
    name: str,
    words: Sequence[str],
    steps: Sequence[Look],
    picture_at: int,
    draws: bool,
) -> List[str]:
    """Goes through the steps: the keys, what the screen shows then, and what not. Draws a picture
    of one of the screens."""
    placed(folder, "faulty.sum", FAULTY)
    with screens.Screen(folder, words, environment_of(folder), 90, 16) as screen:
        for number, (keys, parts, without) in enumerate(steps):
            screen.press(*keys)
            wrong = screen.shows(parts, without)
            if wrong:
                return [f"{name}, step {number + 1}: {what}" for what in wrong]
            if number == picture_at and draws:
                with open(os.path.join(DOCS, f"{name}.svg"), "w", encoding="utf-8") as file:
                    file.write(screens.picture(screen.cells(), 90))
    print(f"{name}: {len(steps)} looks at the screen")
    return []


EXTEND = ["M-x", "text:lsp-extend-selection", "Enter"]


def lsp_mode(folder: str, draws: bool = False) -> List[str]:
    before = (
        EMACS_START
        + """(package-initialize)
(setq lsp-auto-guess-root t)
(defun show ()
  (interactive)
  (message "selected: %S" (buffer-substring (region-beginning) (region-end))))
(global-set-key (kbd "<f5>") #'show)
"""
    )
    init = placed(folder, "init.el", before + words_of("Emacs with lsp-mode"))
    steps: List[Look] = [
        ([], ["Flymake", "[1 0]"], []),
        (
            ["M-x", "text:flymake-show-buffer-diagnostics", "Enter"],
            ["unexpected RP; expected NUM, LP"],
            [],
        ),
        (["C-x", "1", "C-n", "C-e", "BSpace"], ["\n+4\n", "[0 0]"], []),
        (["C-p", "C-e", "C-b", *EXTEND, "F5"], ['selected: "3"'], []),
    ]
    words = ["emacs", "-nw", "-q", "-l", init, "faulty.sum"]
    return tried(folder, "lsp-mode", words, steps, 1, draws)


VIM = ["vim", "-n", "-i", "NONE", "-u", "vimrc", "faulty.sum"]


def vim_ale(folder: str, draws: bool = False) -> List[str]:
    # The sign isn't the same in all versions.
    before = "set nocompatible\nlet g:ale_virtualtext_cursor = 1\nlet g:ale_sign_error = '>>'\n"
    placed(folder, "vimrc", f"{before}packadd! ale\n{words_of('Vim with ALE')}")
    steps: List[Look] = [
        (["text:3G"], [">>)+5", "unexpected RP; expected NUM, LP"], []),
        (["text:2G$x"], ["+4\n"], [">>"]),
    ]
    return tried(folder, "vim-ale", VIM, steps, 0, draws)


def vim_ycm(folder: str, draws: bool = False) -> List[str]:
    placed(
        folder,
        "vimrc",
        f"set nocompatible\n{words_of('Vim with YouCompleteMe')}packadd! youcompleteme\n",
    )
    steps: List[Look] = [
        (["text:3G"], [">>)+5", "unexpected RP; expected NUM, LP"], []),
        (["text:2G$x"], ["+4\n"], [">>"]),
    ]
    return tried(folder, "vim-ycm", VIM, steps, 0, draws)


def helix(folder: str, draws: bool = False) -> List[str]:
    os.makedirs(os.path.join(folder, ".config", "helix"))
    placed(folder, ".config/helix/languages.toml", words_of("Helix"))
    steps: List[Look] = [
        (["text:2j"], ["\u25cf   3  )+5", "unexpected RP; expected NUM, LP"], []),
        (["text:kgl", "text:d"], ["+4\n"], ["\u25cf   3"]),
    ]
    return tried(folder, "helix", ["hx", "faulty.sum"], steps, 0, draws)
