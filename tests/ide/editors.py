"""Editors with `lrls-ide` on the screen: faults, what mends them, colours, the outline and the
words that may follow. The words of their settings are read from editors/README.md, so that what it says is what is
tried; there is no other code for them."""

import os
import re
from typing import Callable, Dict, List, Sequence, Tuple

from tests import TOP
from tests.common import screens
from tests.common.needs import Need
from tests.common.surroundings import placed, surroundings
from tests.editors.trials import ALE
from tests.ide import kate as kate_trial

DOCS = os.path.join(TOP, "docs")
TEXT = """fn area(width, height) {
    let sum = width * height;
    return sum;
}

fn main(width) {
    let size = area(width, 2);
    let name = "a" ;
    print(size, name);
}
"""
# The first line that a fault touches is the third one, behind a semicolon that is missing; then a
# parenthesis is missing, and then a comma.
FAULTY = """fn area(width, height) {
    let sum = width * height
    return sum;
}

fn main(width) {
    let size = area(width, 2;
    let name = "a" ;
    print(size name);
}
"""
MENDED_LINE = "let sum = width * height;"
FIRST_FAULT = 'unexpected "return"; expected ";"'
# Keys, what is on the screen then and what isn't, and whether it is drawn as a picture.
Look = Tuple[List[str], List[str], List[str], bool]
EMACS_BEFORE = """(setq native-comp-deferred-compilation nil
      native-comp-async-report-warnings-errors nil)
(setq inhibit-startup-screen t make-backup-files nil auto-save-default nil create-lockfiles nil)
(package-initialize)
(setq lsp-auto-guess-root t lsp-headerline-breadcrumb-enable nil lsp-warn-no-matched-clients nil)
"""


def words_of(editor: str) -> str:
    """The code below an editor's heading of editors/README.md."""
    with open(os.path.join(TOP, "editors", "README.md"), encoding="utf-8") as file:
        page = file.read()
    found = re.search(
        rf"^### lrls-ide in {re.escape(editor)}\n.*?^```\w*\n(.*?)^```",
        page,
        re.DOTALL | re.MULTILINE,
    )
    assert found, f"editors/README.md has no words for {editor}"
    return found.group(1).replace("PATH", TOP)


def environment_of(folder: str) -> Dict[str, str]:
    """The environment of an editor that reads no file of its user. The system's own commands come
    first."""
    own = surroundings(folder)
    return {**own, "PATH": own["PATH"] + ":/usr/bin:/bin", "TERM": "xterm-256color"}


def coloured(screen: screens.Screen, words: Sequence[str]) -> List[str]:
    """Whether these words of the screen have colours, each another one; waits until that is so."""
    is_so = (
        lambda: len({screen.style_of(word) for word in words} | {screens.Style()}) == len(words) + 1
    )
    return (
        []
        if screens.waited(is_so)
        else [f"the colours of {words}: {[screen.style_of(word) for word in words]}"]
    )


class Trial:
    """An editor on a screen with a text."""

    def __init__(
        self, name: str, folder: str, words: Sequence[str], draws: bool, text: str = TEXT
    ) -> None:
        self.name, self.folder, self.words, self.draws = name, folder, words, draws
        self.text = text

    def run(self, looks: Sequence[Look], colours: Sequence[str]) -> List[str]:
        placed(self.folder, "text.script", self.text)
        with screens.Screen(self.folder, self.words, environment_of(self.folder), 90, 24) as screen:
            wrong = screen.shows(["let sum = width * height"]) or (
                coloured(screen, colours) if colours else []
            )
            for number, (keys, parts, without, is_pictured) in enumerate(looks, 1):
                if wrong:
                    return [f"{self.name}, before look {number}: {what}" for what in wrong]
                screen.press(*keys)
                wrong = screen.shows(parts, without)
                if is_pictured and self.draws and not wrong:
                    with open(
                        os.path.join(DOCS, f"ide-{self.name}.svg"), "w", encoding="utf-8"
                    ) as file:
                        file.write(screens.picture(screen.cells(), 90))
        print(
            f"{self.name}: {len(looks)} looks at the screen"
            + (f", colours of {', '.join(colours)}" if colours else "")
        )
        return [f"{self.name}: {what}" for what in wrong]


def neovim(folder: str, draws: bool) -> List[str]:
    placed(folder, "init.lua", words_of("Neovim"))
    words = ["nvim", "-n", "-i", "NONE", "-u", "init.lua", "text.script"]
    looks: List[Look] = [
        (["text:3GA x", "Escape"], ["return sum; x", 'unexpected "}"'], ["-- INSERT --"], False),
        (["u"], ["return sum;\n"], ["unexpected"], False),
        (
            ["text::lua vim.lsp.buf.document_symbol()", "Enter"],
            ["[Function] area", "[Variable] sum", "[Variable] size"],
            [],
            False,
        ),
        (["C-w", "k", "text:G", "text:O", "text:wh", "C-x", "C-o"], ["while"], [], True),
        (
            ["Escape", "Escape", "text:dd", "text:1G0K"],
            ["FN", "in Statement in Statement"],
            [],
            False,
        ),
    ]
    return Trial("neovim", folder, words, draws).run(looks, ["return", '"a"'])


def helix(folder: str, draws: bool) -> List[str]:
    os.makedirs(os.path.join(folder, ".config", "helix"))
    placed(folder, ".config/helix/languages.toml", words_of("Helix"))
    looks: List[Look] = [
        (["text:2jA x"], ["return sum; x"], [], False),
        (["Escape"], ["NOR"], [], False),
        (["text:j"], ['unexpected "}"'], [], False),
        (["text:u"], ["return sum;\n"], ["unexpected"], False),
        (["Space", "text:s"], ["area", "function", "variable", "size"], [], True),
        (["Escape"], [], ["function"], False),
        (["text:geOwh"], ["while"], [], False),
    ]
    return Trial("helix", folder, ["hx", "text.script"], draws).run(looks, [])


def emacs(
    name: str, heading: str, folder: str, draws: bool, symbols: List[str], colours: Sequence[str]
) -> List[str]:
    init = placed(folder, "init.el", EMACS_BEFORE + words_of(heading))
    words = ["emacs", "-nw", "-q", "-l", init, "text.script"]
    offered = ["M-x", "text:completion-at-point", "Enter"]
    looks: List[Look] = [
        (["M->", "text:x y", "C-a"], ["[1 0]"], [], False),
        (["C-k"], ["[0 0]"], [], False),
        (["M-x", "text:imenu", "Enter", "Tab", "Tab"], symbols, [], name == "eglot"),
        # A first one may only end the search for the symbols.
        (["C-g"], ["area"], [], False),
        (["C-g"], [], ["Index item"], False),
        (
            ["C-x", "1", "M->", "text:f", *offered],
            ["\nf\n", "fn", "for", "false"],
            [],
            name == "lsp-mode",
        ),
    ]
    return Trial(name, folder, words, draws).run(looks, colours)


def lsp_mode(folder: str, draws: bool) -> List[str]:
    return emacs(
        "lsp-mode",
        "Emacs with lsp-mode",
        folder,
        draws,
        ["*Rescan*", "\narea\n"],
        ["area", "return", '"a"', "2)"],
    )


def eglot(folder: str, draws: bool) -> List[str]:
    return emacs("eglot", "Emacs with eglot", folder, draws, ["*Rescan*", "Function"], [])


def emacs_faults(
    name: str, heading: str, folder: str, draws: bool, takes: List[str], outline: Look
) -> List[str]:
    """Three faults, their messages, the outline behind the first one, and that one mended by a fix."""
    init = placed(folder, "init.el", EMACS_BEFORE + words_of(heading))
    words = ["emacs", "-nw", "-q", "-l", init, "text.script"]
    listed = ["M-x", "text:flymake-show-buffer-diagnostics", "Enter"]
    looks: List[Look] = [
        ([], ["[3 0]"], [], False),
        (listed, [FIRST_FAULT, 'unexpected ";"', 'unexpected "name"'], [], True),
        (["C-x", "1", "M-<"], ["L1"], [FIRST_FAULT], False),
        outline,
        (["M-<", "C-n", "C-n", "M-m"], ["L3"], [], False),
        (takes, [MENDED_LINE, "[2 0]"], [], False),
    ]
    return Trial(f"{name}-faults", folder, words, draws, FAULTY).run(looks, [])


def eglot_faults(folder: str, draws: bool) -> List[str]:
    takes = ["M-x", "text:eglot-code-actions", "Enter", "Enter"]
    # This eglot has the symbols by their kinds.
    goes = ["M-x", "text:imenu", "Enter", "text:Function", "Enter", "text:main", "Enter"]
    outline: Look = (goes, ["L6"], [], False)
    return emacs_faults("eglot", "Emacs with eglot", folder, draws, takes, outline)


def lsp_mode_faults(folder: str, draws: bool) -> List[str]:
    # The only fix is taken without a question.
    takes = ["M-x", "text:lsp-execute-code-action", "Enter"]
    lists = ["M-:", "text:(mapcar (quote car) (imenu--make-index-alist t))", "Enter"]
    outline: Look = (lists, ['"area" "main"'], [], False)
    return emacs_faults("lsp-mode", "Emacs with lsp-mode", folder, draws, takes, outline)


def vim_ale_faults(folder: str, draws: bool) -> List[str]:
    before = "set nocompatible\nlet g:ale_virtualtext_cursor = 1\nlet g:ale_sign_error = '>>'\n"
    placed(folder, "vimrc", f"{before}packadd! ale\n{words_of('Vim with ALE')}")
    words = ["vim", "-n", "-i", "NONE", "-u", "vimrc", "text.script"]
    signs = [">>    return sum;", ">>    let size", ">>    print(size"]
    looks: List[Look] = [
        (["text:3G"], [*signs, FIRST_FAULT], [], True),
        (["text::ALECodeAction", "Enter"], ['1) put in ";"'], [], False),
        (["text:1", "Enter"], [MENDED_LINE], ["Code Fixes"], False),
        (["text:7G"], ['unexpected ";"'], [signs[0]], False),
    ]
    return Trial("vim-ale-faults", folder, words, draws, FAULTY).run(looks, [])


def kate(folder: str, draws: bool) -> List[str]:
    return kate_trial.run(
        folder, words_of("Kate"), os.path.join(DOCS, "ide-kate.png") if draws else None
    )


def kate_faults(folder: str, draws: bool) -> List[str]:
    picture = os.path.join(DOCS, "ide-kate-faults.png") if draws else None
    return kate_trial.faults(folder, words_of("Kate"), picture)


TMUX = Need(["tmux", "-V"], "tmux")
LISP = ["emacs", "--batch", "-q", "--eval"]
EMACS = Need(["emacs", "--version"], "emacs-nox")
LSP_MODE = Need([*LISP, "(progn (package-initialize) (require 'lsp-mode))"], "elpa-lsp-mode")
EGLOT = Need([*LISP, "(progn (package-initialize) (require 'eglot))"], "elpa-eglot")
IS_NEW = ["-c", "if !has('nvim-0.10') | cquit | endif", "-c", "quit"]
NEOVIM = Need(["nvim", "--headless", "-u", "NONE", *IS_NEW], "Neovim from 0.10 on")
HELIX = Need(["hx", "--version"], "hx")
TRIALS: Dict[str, Tuple[List[Need], Callable[[str, bool], List[str]]]] = {
    "neovim": ([NEOVIM, TMUX], neovim),
    "helix": ([HELIX, TMUX], helix),
    "lsp-mode": ([EMACS, LSP_MODE, TMUX], lsp_mode),
    "eglot": ([EMACS, EGLOT, TMUX], eglot),
    "eglot-faults": ([EMACS, EGLOT, TMUX], eglot_faults),
    "lsp-mode-faults": ([EMACS, LSP_MODE, TMUX], lsp_mode_faults),
    "vim-ale-faults": ([ALE, TMUX], vim_ale_faults),
    "kate": (kate_trial.NEEDS, kate),
    "kate-faults": (kate_trial.NEEDS, kate_faults),
}
