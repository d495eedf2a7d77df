"""The trials of editors, which tests/editors/test_editors.py runs.

Each editor opens a faulty file, and text is typed: a diagnostic has to show while the text is
faulty, and none when it is whole. What is awaited is written out here. After each step the server
is asked for its text, which has to be the editor's, so that no change is lost on the way. Neovim is
tried with changes by ranges and with whole texts, and with 200 random edits. Then each editor runs
on a terminal, and its screen is looked at: diagnostics, colours, folds, selections, the tree, a
lost document, a grammar with a conflict, and the restart after its mend; a line of 1,000 KB; what
is typed before, at and after a closed fold; and edits of a grammar beside a text of its language.
Editors that need no file of editors/ run with the words of editors/README.md, and have to draw a
fault and its mending.
"""

from functools import partial
from typing import Callable, Dict, List, Tuple

from tests.common.needs import Need
from tests.editors import (
    closed_folds,
    drawn,
    edited_grammars,
    in_emacs,
    in_neovim,
    lag,
    long_lines,
    others,
    typing_at_random,
)

# A trial in a folder: what is wrong.
Trial = Callable[..., List[str]]

LISP = ["emacs", "--batch", "-q", "--eval"]
VIM = ["vim", "-N", "-es", "-u", "NONE", "-c"]
HAS_ALE = "execute exists(':ALEInfo') ? 'qall!' : 'cquit'"
HAS_YCM = "execute has('python3') && exists('g:loaded_youcompleteme') ? 'qall!' : 'cquit'"
NEOVIM = Need(["nvim", "--version"], "neovim")
TMUX = Need(["tmux", "-V"], "tmux")
EMACS = Need(["emacs", "--version"], "emacs-nox")
EGLOT = Need([*LISP, "(require 'eglot)"], "elpa-eglot")
LSP_MODE = Need([*LISP, "(progn (package-initialize) (require 'lsp-mode))"], "elpa-lsp-mode")
ALE = Need([*VIM, "packadd ale", "-c", HAS_ALE], "vim-ale")
YCM = Need([*VIM, "packadd youcompleteme", "-c", HAS_YCM], "vim-youcompleteme")
HELIX = Need(["hx", "--version"], "hx")

TRIALS: Dict[str, Tuple[List[Need], Trial]] = {
    "neovim": ([NEOVIM], in_neovim.run),
    "neovim-screen": ([NEOVIM, TMUX], drawn.try_neovim),
    "neovim-long": ([NEOVIM, TMUX], long_lines.neovim_screen),
    "neovim-folds": ([NEOVIM, TMUX], closed_folds.neovim),
    "neovim-grammar": ([NEOVIM, TMUX], edited_grammars.neovim),
    "emacs": ([EMACS, EGLOT], in_emacs.run),
    "emacs-screen": ([EMACS, EGLOT, TMUX], drawn.try_emacs),
    "emacs-long": ([EMACS, EGLOT, TMUX], long_lines.emacs_screen),
    "emacs-folds": ([EMACS, EGLOT, TMUX], closed_folds.emacs),
    "emacs-grammar": ([EMACS, EGLOT, TMUX], edited_grammars.emacs),
    "lsp-mode": ([EMACS, LSP_MODE, TMUX], others.lsp_mode),
    "vim-ale": ([ALE, TMUX], others.vim_ale),
    "vim-ycm": ([YCM, TMUX], others.vim_ycm),
    "helix": ([HELIX, TMUX], others.helix),
}
TYPING: Dict[str, Tuple[List[Need], Trial]] = {
    "neovim": ([NEOVIM, TMUX], typing_at_random.neovim),
    "emacs": ([EMACS, EGLOT, TMUX], typing_at_random.emacs),
}
LAG: Dict[str, Tuple[List[Need], Trial]] = {
    "neovim": ([NEOVIM], lambda folder: lag.neovim(folder) + long_lines.neovim()),
    "emacs": ([EMACS, EGLOT], lambda folder: lag.emacs(folder) + long_lines.emacs()),
}
PICTURES: Dict[str, Tuple[List[Need], Trial]] = {
    "neovim": ([NEOVIM, TMUX], drawn.picture_neovim),
    "emacs": ([EMACS, EGLOT, TMUX], drawn.picture_emacs),
    **{name: (TRIALS[name][0], partial(TRIALS[name][1], draws=True)) for name in others.NAMES},
}
