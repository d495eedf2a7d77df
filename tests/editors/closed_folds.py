"""Typing before, at and after a closed fold, in Neovim and in Emacs: what the screen shows, what
the buffer has, and the server's text, which has to be the buffer's."""

from typing import List

from tests import TOP
from tests.common import screens
from tests.common.surroundings import EMACS_START, placed, surroundings
from tests.editors.drawn import FOLDED, Step, walk

# Shows the buffer's text in one line, and whether it is the server's too.
NEOVIM_INIT = """dofile("{top}/editors/neovim.lua")
vim.api.nvim_create_user_command("Compare", function()
  local params = {{ textDocument = {{ uri = vim.uri_from_bufnr(0) }} }}
  local _, answer = next(vim.lsp.buf_request_sync(0, "lr/text", params, 60000))
  local text = table.concat(vim.api.nvim_buf_get_lines(0, 0, -1, true), "\\n") .. "\\n"
  print(text:gsub("\\n", "|") .. (answer.result.text == text and " here and there" or " only here"))
end, {{}})
"""
EMACS_INIT = """(load "{top}/editors/emacs.el")
(defun compare ()
  (interactive)
  (let ((server (plist-get (lrls--now :lr/text (lrls--document)) :text))
        (text (buffer-substring-no-properties (point-min) (point-max))))
    (message "%s %s" (replace-regexp-in-string "\\n" "|" text)
             (if (equal text server) "here and there" "only here"))))
(global-set-key (kbd "<f5>") #'compare)
(defun fold-all ()
  (interactive)
  (while (not lrls--folds) (accept-process-output nil 0.1))
  (lrls-fold-all))
(global-set-key (kbd "<f6>") #'fold-all)
"""
COMPARE = ["Escape", "text::Compare", "Enter"]
# The fold is closed at each step but for the lines in which Neovim inserts.
NEOVIM_STEPS: List[Step] = [
    ("closed", ["text:zMj"], ["7+\n", "+--  2 lines: (3", "+5"], ["+4)"]),
    ("typed before", ["text:I1+", *COMPARE], ["7+|1+(3|+4)|+5| here and there"], []),
    ("still closed", ["text:zM"], ["7+\n", "+--  2 lines: 1+(3", "+5"], ["+4)\n"]),
    ("typed at its line", ["text:A123", *COMPARE], ["7+|1+(3123|+4)|+5| here and there"], []),
    ("closed again", ["text:zM"], ["+--  2 lines: 1+(3123", "+5"], ["+4)\n"]),
    ("typed after", ["text:jI+6", *COMPARE], ["7+|1+(3123|+4)|+6+5| here and there"], []),
    ("and closed", ["text:zM"], ["+--  2 lines: 1+(3123", "+6+5"], ["+4)\n"]),
    ("opened", ["text:zR"], ["7+\n1+(3123\n+4)\n+6+5"], []),
]
EMACS_STEPS: List[Step] = [
    ("closed", ["F6", "C-n"], ["7+\n(3...\n+5"], ["+4)"]),
    ("typed before", ["C-a", "text:1+"], ["7+\n1+(3...\n+5"], ["+4)"]),
    ("compared", ["F5"], ["7+|1+(3|+4)|+5| here and there"], []),
    ("typed at it", ["C-f", "C-f", "text:123"], ["7+\n1+(3123...\n+5"], ["+4)\n"]),
    ("compared again", ["F5"], ["7+|1+(3123|+4)|+5| here and there"], []),
    ("typed after", ["C-e", "text:+67"], ["7+\n1+(3123...+67\n+5"], ["+4)\n"]),
    ("and compared", ["F5"], ["7+|1+(3123|+4)+67|+5| here and there"], []),
    ("opened", ["C-a", "C-c", "C-f"], ["7+\n1+(3123\n+4)+67\n+5"], []),
    ("closed anew", ["C-c", "C-f"], ["7+\n1+(3123...\n+5"], ["+4)\n"]),
    ("changed inside", ["C-a", *["C-f"] * 7, "C-d"], ["7+\n1+(3123+4)+67\n+5"], ["..."]),
]


def neovim(folder: str) -> List[str]:
    placed(folder, "folded.sum", FOLDED)
    init = placed(folder, "init.lua", NEOVIM_INIT.format(top=TOP))
    with screens.Screen(
        folder, ["nvim", "-n", "-i", "NONE", "-u", init, "folded.sum"], surroundings(folder)
    ) as screen:
        wrong = screen.shows(["7+"]) or walk(screen, NEOVIM_STEPS)
    print(f"neovim-folds: {len(NEOVIM_STEPS)} looks at the screen")
    return wrong


def emacs(folder: str) -> List[str]:
    placed(folder, "folded.sum", FOLDED)
    init = placed(folder, "init.el", EMACS_START + EMACS_INIT.format(top=TOP))
    with screens.Screen(
        folder, ["emacs", "-nw", "-q", "-l", init, "folded.sum"], surroundings(folder)
    ) as screen:
        wrong = screen.shows(["Flymake[0 0]"]) or walk(screen, EMACS_STEPS)
    print(f"emacs-folds: {len(EMACS_STEPS)} looks at the screen")
    return wrong
