"""Types keys at random into Neovim and Emacs on a terminal, and looks whether the server's text is
the editor's.

A minute of typing has 300 keys, and they are pressed as fast as the editor takes them. Most are
text, line breaks and movements; the rest delete, join, undo, redo, copy, paste, fold and select.
After each 300 keys the editor is asked for its text and for the server's, which have to be equal.
The keys are those of a seed, so that a run can be had again.
"""

import json
import os
import random
import time
from typing import Any, Callable, Dict, List, Optional, Sequence

from tests import TOP
from tests.common import screens
from tests.common.surroundings import EMACS_START, placed, surroundings

KEYS_A_MINUTE = 300
SEED = 1

TEXT = [
    "text:1",
    "text:23",
    "text:+",
    "text:(",
    "text:)",
    "text: ",
    "text:\u00e9",
    "text:\U0001f600",
    "text:x",
    "Enter",
]

# Back to normal mode. An Escape would make one key of it and of the next key.
NORMAL = ["C-\\", "C-n"]
NEOVIM_COMMANDS = [
    *("h j k l 0 $ w b gg G".split() * 3),
    *"x dd D J p P yyp ~ u u u C-r C-r Vjd vwd >> <<".split(),
    *"M-o M-o,M-o,M-i M-o,M-o,d zM zR za dap yiw".split(),
]
NEOVIM_INIT = """dofile("{top}/editors/neovim.lua")
vim.opt.swapfile = false
vim.api.nvim_create_user_command("Compare", function()
  local params = {{ textDocument = {{ uri = vim.uri_from_bufnr(0) }} }}
  local answers = vim.lsp.buf_request_sync(0, "lr/text", params, 60000)
  local _, answer = next(answers)
  local text = table.concat(vim.api.nvim_buf_get_lines(0, 0, -1, true), "\\n") .. "\\n"
  local file = io.open("part", "w")
  local found = {{ editor = text, server = answer.result.text, changes = vim.b.changedtick }}
  file:write(vim.fn.json_encode(found))
  file:close()
  os.rename("part", "compared")
end, {{}})
"""

EMACS_COMMANDS = [
    *("C-f C-b C-n C-p C-a C-e M-f M-b".split() * 2),
    *"M-< M-> C-d BSpace BSpace C-k C-y C-w C-o C-t M-d M-u C-_ C-_ C-_ M-^ C-j".split(),
    *"C-@,C-n,C-w C-@,M-f,M-w C-c,C-e C-c,C-e,C-w C-c,C-e,C-c,C-e,C-c,C-s C-c,C-f".split(),
]
EMACS_INIT = (
    EMACS_START
    + """(setq ring-bell-function #'ignore)
;; An error would throw away the keys that wait.
(setq command-error-function #'ignore)
(load "{top}/editors/emacs.el")
(defun compare ()
  (interactive)
  (let ((coding-system-for-write 'utf-8)
        (server (plist-get (lrls--now :lr/text (lrls--document)) :text))
        (editor (buffer-substring-no-properties (point-min) (point-max))))
    (write-region (json-encode (list :editor editor :server server
                                     :changes (buffer-chars-modified-tick)))
                  nil "part" nil 'silent)
    (rename-file "part" "compared" t)))
(global-set-key (kbd "<f5>") #'compare)
"""
)


def compared(screen: screens.Screen, folder: str, keys: Sequence[str]) -> Optional[Dict[str, Any]]:
    """What the editor writes once these keys are pressed: its text, the server's, and a number that
    grows with each change. They are pressed anew where nothing comes, since an editor's client
    gives up on an answer after some seconds."""
    path = os.path.join(folder, "compared")
    if os.path.exists(path):
        os.remove(path)
    for _ in range(10):
        screen.press(*keys)
        if screens.waited(lambda: os.path.exists(path), 30):
            with open(path, encoding="utf-8") as file:
                found: Dict[str, Any] = json.load(file)
                return found
    return None


def keys_of(word: str) -> List[str]:
    """The keys of a word of the commands: tmux's names, separated by commas, or characters."""
    named = [
        part if part[:2] in ("C-", "M-") or part == "BSpace" else f"text:{part}"
        for part in word.split(",")
    ]
    return named


def some_keys(
    choice: random.Random, commands: Sequence[str], before: Sequence[str], modes: str
) -> List[str]:
    """Some text in three of four cases, else a command."""
    if choice.random() < 0.25:
        return [*before, *keys_of(choice.choice(commands))]
    texts = [choice.choice(TEXT) for _ in range(choice.randint(1, 6))]
    return [*before, *([f"text:{choice.choice(modes)}"] if modes else []), *texts]


def session(
    name: str,
    screen: screens.Screen,
    folder: str,
    minutes: float,
    some: Callable[[random.Random], List[str]],
    compare: Sequence[str],
    restart: Sequence[str],
) -> List[str]:
    """Presses what `some` chooses for so long, and compares at each minute. `restart` empties a
    text that has become long."""
    choice, begun = random.Random(SEED), time.time()
    reported: Optional[Dict[str, Any]] = None
    for minute in range(1, round(minutes) + 1):
        keys: List[str] = []
        while len(keys) < KEYS_A_MINUTE:
            keys += some(choice)
        for first in range(0, len(keys), 50):
            screen.press(*keys[first : first + 50])
        reported = compared(screen, folder, compare)
        if not reported or reported["editor"] != reported["server"]:
            return [f"after {minute} minutes: {reported or screen.text()}"]
        if len(reported["editor"]) > 3000:
            screen.press(*restart)
    count, seconds = round(minutes) * KEYS_A_MINUTE, time.time() - begun
    changes, text = (reported[key] if reported else "" for key in ("changes", "editor"))
    print(f"{name}: {count} keys at random in {seconds:.0f} s, changes up to number {changes}")
    print(f"{name}: the last text has {len(text)} characters, and the server has the same")
    return []


def neovim(folder: str, minutes: float) -> List[str]:
    placed(folder, "init.lua", NEOVIM_INIT.format(top=TOP))
    placed(folder, "random.sum", "1+(2\n")
    words = ["nvim", "-n", "-i", "NONE", "-u", "init.lua", "random.sum"]
    some = lambda choice: some_keys(choice, NEOVIM_COMMANDS, NORMAL, "iaAoOI")
    with screens.Screen(folder, words, surroundings(folder)) as screen:
        compare = [*NORMAL, "text::Compare", "Enter"]
        restart = [*NORMAL, "text:ggVGd"]
        return screen.shows(["unexpected end"]) or session(
            "neovim", screen, folder, minutes, some, compare, restart
        )


def emacs(folder: str, minutes: float) -> List[str]:
    init = placed(folder, "init.el", EMACS_INIT.format(top=TOP))
    placed(folder, "random.sum", "1+(2\n")
    words = ["emacs", "-nw", "-q", "-l", init, "random.sum"]
    some = lambda choice: some_keys(choice, EMACS_COMMANDS, [], "")
    with screens.Screen(folder, words, surroundings(folder)) as screen:
        restart = ["C-x", "h", "C-w"]
        return screen.shows(["Flymake[1 0]"]) or session(
            "emacs", screen, folder, minutes, some, ["F5"], restart
        )
