"""Tries editors/neovim.lua, editors/emacs.el and editors/README.md with the editors themselves.
Needs tmux and those editors, and skips the ones that aren't there: Neovim from 0.7 on; Emacs with
eglot (Debian 12: neovim, emacs-nox, elpa-eglot, elpa-lsp-mode, vim-nox, vim-ale,
vim-youcompleteme, tmux; Debian 13 has Helix too: hx).
One trial: pytest tests/editors -k neovim-screen

    pytest tests/editors --pictures       draws the pictures docs/NAME.svg anew
    pytest tests/editors --minutes N      types keys at random into Neovim and Emacs, as many as N
                                          minutes of typing have
    pytest -s tests/editors --lag         times in Neovim and Emacs how late a key shows in a file
                                          of 5,000 lines, in lines of 1 to 1,000 KB, and in 1,000
                                          KB in 83,000 lines
"""

import subprocess
from pathlib import Path
from typing import Dict, List, Tuple

import pytest

from tests.common.needs import Need, lacking
from tests.editors import trials


def pytest_generate_tests(metafunc: pytest.Metafunc) -> None:
    """The trials, or what an option asks for in their place."""
    option = metafunc.config.getoption
    given: Tuple[object, ...] = ()
    chosen: Dict[str, Tuple[List[Need], trials.Trial]] = trials.TRIALS
    if option("--pictures"):
        chosen = trials.PICTURES
    elif option("--minutes"):
        chosen, given = trials.TYPING, (option("--minutes"),)
    elif option("--lag"):
        chosen = trials.LAG
    rows = [(needs, trial, given) for needs, trial in chosen.values()]
    metafunc.parametrize("needs, trial, given", rows, ids=list(chosen))


def version(command: str) -> str:
    """The first line that an editor prints of its version."""
    ran = subprocess.run([command, "--version"], stdout=subprocess.PIPE, text=True, check=False)
    return ran.stdout.partition("\n")[0]


@pytest.mark.usefixtures("programs")
def test_editor(
    needs: List[Need], trial: trials.Trial, given: Tuple[object, ...], tmp_path: Path
) -> None:
    why = lacking(needs)
    if why:
        pytest.skip(why)
    print(version(needs[0].words[0]))
    assert trial(str(tmp_path), *given) == []
