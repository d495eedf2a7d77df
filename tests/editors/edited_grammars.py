"""An edit of a grammar beside a text of its language, in Neovim and in Emacs.

Once it is written the text's faults and colours are by the new grammar. A fault of the grammar is
marked in it, while the text stays as it was; and a server that was killed is told of.
"""

import contextlib
from typing import List

from tests import TOP
from tests.common import processes, screens
from tests.common.surroundings import EMACS_START, placed, surroundings
from tests.editors.drawn import MENDED, Step, front_of, walk

TEXT = "1+2\n+3+\n"
FAULT = "unexpected end; expected NUM"
CONFLICT = [
    "conflict on PLUS",
    "after: Sum PLUS Sum",
    "item: Sum = Sum PLUS Sum ., PLUS",
    "item: Sum = Sum . PLUS Sum, end",
]
UNDEFINED = "line 7: G4 undefined: None"
# The grammar's last line in turn: with a conflict, with a fault, and another one by which the text
# has no fault.
AMBIGUOUS, FAULTY, OTHER = "Sum = Sum PLUS Sum", "Sum = Sum PLUS None", "Sum = Sum PLUS NUM?"
NUMBER, TOKEN = 1, 2


def kill_server(screen: screens.Screen) -> None:
    """Kills the server of the text's language."""
    screens.waited(lambda: servers(screen))
    for process in servers(screen):
        processes.kill(process)


def servers(screen: screens.Screen) -> List[int]:
    """The servers of the text's language; none where something that the editor has started ends
    while it is looked at."""
    editor = int(screen.tmux("display-message", "-p", "#{pane_pid}"))
    with contextlib.suppress(FileNotFoundError, ProcessLookupError):
        return [it for it in processes.descendants(editor) if serves_added(it)]
    return []


def serves_added(process: int) -> bool:
    """Whether a process is the server of the text's language."""
    with open(f"/proc/{process}/cmdline", "rb") as file:
        words = file.read().decode().split("\0")
    return "serve" in words and any(word.endswith("added.lr") for word in words)


def coloured(screen: screens.Screen, text: str, colour: screens.Colour) -> List[str]:
    """What is wrong where this text doesn't get this colour."""
    front = lambda: front_of(screen, text)
    if screens.waited(lambda: front() == colour):
        return []
    return [f"{text} has the colour {front()}, not {colour}:\n{screen.text()}"]


def prepared(folder: str) -> None:
    placed(folder, "some.add", TEXT)
    placed(folder, "added.lr", MENDED)
    placed(folder, "faulty.lr", MENDED.replace(MENDED.splitlines()[-1], FAULTY))


NEOVIM_INIT = """local lrls = dofile("{top}/editors/neovim.lua")
lrls.add({{
  name = "added",
  files = "*.add",
  grammar = "{folder}/added.lr",
  colours = {{ NUM = "Number", ADD = "Operator" }},
}})
lrls.add({{ name = "faulty", files = "*.faulty", grammar = "{folder}/faulty.lr" }})
vim.cmd("highlight Number ctermfg=1 | highlight Operator ctermfg=2 | set noruler shortmess+=F")
"""


def neovim_line(line: str) -> List[str]:
    """The keys that put this line in the place of the grammar's last one and write the file."""
    return ["C-\\", "C-n", "text:G", "text:cc", f"text:{line}", "C-\\", "C-n", "text::w", "Enter"]


NEOVIM_FAULTS: List[Step] = [
    ("a fault of the text", [], ["E +3+ ", FAULT], ["E Sum"]),
    ("a conflict", neovim_line(AMBIGUOUS), [f"lrls: added.lr: {CONFLICT[0]}", *CONFLICT[1:]], []),
    (
        "its mark",
        ["Enter", "Enter"],
        [f"E {AMBIGUOUS} ", f"\u25a0 {CONFLICT[0]}", "E +3+ ", FAULT],
        ["E Sum = NUM"],
    ),
    (
        "an undefined name",
        neovim_line(FAULTY),
        [f"E {FAULTY} ", f"\u25a0 {UNDEFINED}", "E +3+ ", FAULT],
        [CONFLICT[0]],
    ),
]
NEOVIM_MENDED: List[Step] = [
    (
        "another language",
        [
            "text::%s/^lrgrammar 1/lrgrammar 2/|%s/PLUS/ADD/g",
            "Enter",
            *neovim_line(OTHER.replace("PLUS", "ADD")),
        ],
        ["1+2\n+3+\n"],
        [FAULT, UNDEFINED, "E "],
    ),
]
NEOVIM_KILLED: List[Step] = [
    (
        "killed",
        [],
        ["the server of added was ended by signal 9", ":LrlsRestart starts it anew"],
        [],
    ),
    (
        "started anew",
        ["Enter", "Enter", "text::LrlsRestart", "Enter", "C-w", "j", "text:A?"],
        ["E 1+2?", "unexpected invalid"],
        [],
    ),
    (
        "a faulty grammar opened",
        ["Escape", "text::edit faulty.lr", "Enter"],
        [f"E {FAULTY} ", f"\u25a0 {UNDEFINED}"],
        [],
    ),
]


def neovim(folder: str) -> List[str]:
    prepared(folder)
    init = placed(folder, "init.lua", NEOVIM_INIT.format(top=TOP, folder=folder))
    words = ["nvim", "-n", "-i", "NONE", "-u", init, "-o", "added.lr", "some.add"]
    with screens.Screen(folder, words, surroundings(folder)) as screen:
        wrong = (
            walk(screen, NEOVIM_FAULTS)
            or coloured(screen, "1+2", NUMBER)
            or coloured(screen, "+2", None)
        )
        wrong = wrong or walk(screen, NEOVIM_MENDED) or coloured(screen, "+2", TOKEN)
        if not wrong:
            kill_server(screen)
        wrong = wrong or walk(screen, NEOVIM_KILLED)
    steps = [*NEOVIM_FAULTS, *NEOVIM_MENDED, *NEOVIM_KILLED]
    print(f"neovim-grammar: {len(steps) + 3} looks at the screen")
    return wrong


EMACS_INIT = """(load "{top}/editors/emacs.el")
(lrls-add-language "added" "\\\\.add\\\\'" "{folder}/added.lr" nil
                   '(("NUM" . font-lock-constant-face) ("ADD" . font-lock-keyword-face)))
(lrls-add-language "faulty" "\\\\.faulty\\\\'" "{folder}/faulty.lr")
(set-face-foreground 'font-lock-constant-face "red")
(set-face-foreground 'font-lock-keyword-face "green")
"""


def emacs_line(line: str) -> List[str]:
    """The keys that put this line in the place of the grammar's last one, and save the file."""
    return ["M->", "C-p", "C-a", "C-k", f"text:{line}", "C-x", "C-s"]


EMACS_FAULTS: List[Step] = [
    ("a fault of the text", [], ["(Added Flymake[1 0]"], []),
    (
        "its grammar",
        ["C-x", "4", "f", "text:added.lr", "Enter"],
        ["(Added Flymake[1 0]", "(Lr Flymake"],
        [],
    ),
    (
        "a conflict",
        [*emacs_line(AMBIGUOUS)],
        [f"added.lr: {CONFLICT[0]}", *CONFLICT[1:], "(Added Flymake[1 0]"],
        [],
    ),
    (
        "its mark",
        ["C-x", "1", "C-x", "4", "b", "text:some.add", "Enter"],
        ["(Lr Flymake[1 0]", "(Added Flymake[1 0]"],
        [],
    ),
    (
        "an undefined name",
        ["C-x", "o", *emacs_line(FAULTY)],
        ["(Lr Flymake[1 0]", f"added.lr: {UNDEFINED}"],
        [],
    ),
]
OTHER_NAMES = [
    "C-x",
    "1",
    "M-<",
    "M-%",
    "text:PLUS",
    "Enter",
    "text:ADD",
    "Enter",
    "!",
    "M-<",
    "C-e",
    "BSpace",
    "text:2",
]
EMACS_MENDED: List[Step] = [
    (
        "the mark of that",
        ["M-x", "text:flymake-show-buffer-diagnostics", "Enter"],
        [f"lrls: {UNDEFINED}"],
        [CONFLICT[0]],
    ),
    (
        "beside the text",
        [*OTHER_NAMES, "C-x", "4", "b", "text:some.add", "Enter", "C-x", "o"],
        ["(Added Flymake[1 0]"],
        [],
    ),
    ("another language", emacs_line(OTHER.replace("PLUS", "ADD")), ["Reconnected!"], []),
    # Emacs sometimes reads the answers of a new server only at the next key.
    ("at the next key", ["C-a"], ["(Added Flymake[0 0]", "(Lr Flymake[0 0]"], []),
]
EMACS_KILLED: List[Step] = [
    ("killed", [], ["The server was ended by signal 9"], []),
    (
        "started anew",
        ["C-x", "1", "M-x", "text:lrls-restart", "Enter"],
        [],
        ["was ended by signal 9"],
    ),
    (
        "and hears",
        ["C-x", "b", "text:some.add", "Enter", "M-<", "C-e", "text:?"],
        ["1+2?", "Flymake[1 0]"],
        [],
    ),
    (
        "a faulty grammar opened",
        ["C-x", "C-f", "text:faulty.lr", "Enter"],
        ["faulty.lr", "(Lr Flymake"],
        [],
    ),
    ("its count", ["C-a"], ["(Lr Flymake[1 0]"], []),
]


def emacs(folder: str) -> List[str]:
    prepared(folder)
    init = placed(folder, "init.el", EMACS_START + EMACS_INIT.format(top=TOP, folder=folder))
    with screens.Screen(
        folder, ["emacs", "-nw", "-q", "-l", init, "some.add"], surroundings(folder), 100, 30
    ) as screen:
        wrong = (
            walk(screen, EMACS_FAULTS)
            or coloured(screen, "1+2", NUMBER)
            or coloured(screen, "+2", None)
        )
        wrong = wrong or walk(screen, EMACS_MENDED) or coloured(screen, "+2", TOKEN)
        if not wrong:
            kill_server(screen)
        wrong = wrong or walk(screen, EMACS_KILLED)
    steps = [*EMACS_FAULTS, *EMACS_MENDED, *EMACS_KILLED]
    print(f"emacs-grammar: {len(steps) + 3} looks at the screen")
    return wrong
