"""Tries editors that run with `ide/lrls-ide`, on the screen: Neovim, Helix, lsp-mode, eglot, Kate.
Needs tmux and those editors, and skips the ones that aren't there.
One editor: pytest tests/ide/test_editors.py -k neovim

With --pictures the pictures docs/ide-NAME.svg are drawn anew.
"""

from pathlib import Path

import pytest

from tests.common.needs import lacking
from tests.ide.editors import TRIALS


@pytest.mark.usefixtures("programs")
@pytest.mark.parametrize("name", TRIALS)
def test_editor(name: str, tmp_path: Path, draws: bool) -> None:
    needs, trial = TRIALS[name]
    why = lacking(needs)
    if why:
        pytest.skip(why)
    assert trial(str(tmp_path), draws) == []
