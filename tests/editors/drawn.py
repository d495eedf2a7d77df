"""What Neovim and Emacs draw with the files of editors/: diagnostics, colours, folds, selections,
the tree, a lost document, and a grammar with a conflict. It is looked at on a terminal
(tests/common/screens.py). Pictures of both are drawn the same way."""

import os
from typing import Iterable, List, Tuple

from tests import TOP
from tests.common import screens
from tests.common.surroundings import EMACS_START, placed, surroundings

DOCS = os.path.join(TOP, "docs")
# A name, keys, and what the screen shows and doesn't show then.
Step = Tuple[str, List[str], List[str], List[str]]

# A grammar with a conflict, the text that it shows, and the line that mends it.
AMBIGUOUS = """lrgrammar 1
token NUM = [0-9]+
token PLUS = "+"
skip WS = [ \\n]+
start Sum
Sum = NUM
Sum = Sum PLUS Sum
"""
CONFLICT = [
    "lrls: conflict on PLUS",
    "after: Sum PLUS Sum",
    "item: Sum = Sum PLUS Sum ., PLUS",
    "item: Sum = Sum . PLUS Sum, end",
]
MENDED = AMBIGUOUS.replace("Sum PLUS Sum", "Sum PLUS NUM")

# A text with a fold from its second line to its third one.
FOLDED = "7+\n(3\n+4)\n+5\n"
# A text with two folds from its first line on, and one after them.
NESTED = "7+((1\n+2)\n+3)\n+(4\n+5)\n"
# More than 1,048,576 bytes.
TOO_LARGE = ("1+" * 32 + "\n") * 16_200 + "1\n"

NEOVIM_INIT = """local lrls = dofile("{top}/editors/neovim.lua")
lrls.add({{ name = "ambiguous", files = "*.amb", grammar = "{folder}/ambiguous.lr" }})
vim.cmd("highlight Number ctermfg=1 | highlight Operator ctermfg=2 | highlight Visual ctermbg=4")
"""
EMACS_INIT = (
    EMACS_START
    + """(load "{top}/editors/emacs.el")
(lrls-add-language "ambiguous" "\\\\.amb\\\\'" "{folder}/ambiguous.lr")
(defun trial-region ()
  (interactive)
  (message "selected: %S"
           (and (use-region-p)
                (buffer-substring-no-properties (region-beginning) (region-end)))))
(global-set-key (kbd "<f5>") #'trial-region)
(defun trial-fold-all ()
  (interactive)
  (while (not lrls--folds) (accept-process-output nil 0.1))
  (lrls-fold-all))
(global-set-key (kbd "<f6>") #'trial-fold-all)
"""
)


def prepared(folder: str) -> None:
    placed(folder, "faulty.sum", "1+(2\n")
    placed(folder, "folded.sum", FOLDED)
    placed(folder, "nested.sum", NESTED)
    placed(folder, "large.sum", TOO_LARGE)
    placed(folder, "some.amb", "1+2\n")
    placed(folder, "ambiguous.lr", AMBIGUOUS)


def walk(screen: screens.Screen, steps: Iterable[Step]) -> List[str]:
    """Presses the keys of each step, and looks whether the screen has its parts. What is wrong in
    the first wrong step."""
    for name, keys, parts, without in steps:
        screen.press(*keys)
        wrong = screen.shows(parts, without)
        if wrong:
            return [f"{name}: {what}" for what in wrong]
    return []


NEOVIM_FAULTS: List[Step] = [
    ("opened", [], ["E 1+(2 ", "unexpected end; expected PLUS, RP"], []),
    ("mended, while typing", ["A", "text:)"], ["-- INSERT --", "1+(2)"], ["unexpected", "E 1"]),
    (
        "faulty, while typing",
        ["text:+"],
        ["-- INSERT --", "E 1+(2)+ ", "unexpected end; expected NUM, LP"],
        [],
    ),
    ("undone", ["Escape", "u"], ["1+(2", "unexpected end; expected PLUS, RP"], []),
]
NEOVIM_FOLDS: List[Step] = [
    ("all folds closed", ["zM"], ["+--  2 lines: (3", "7+\n", "+5"], ["+4)"]),
    (
        "a fault before a fold",
        ["g", "g", "A", "text:+", "Escape"],
        ["unexpected PLUS", "+--  2 lines: (3"],
        ["+4)"],
    ),
    ("a line before a fold", ["O", "text:1+", "Escape"], ["1+\n", "+--  2 lines: (3"], ["+4)"]),
    ("mended", ["u", "u"], ["7+\n", "+--  2 lines: (3"], ["unexpected", "+4)"]),
    (
        "a longer fold",
        ["j", "z", "o", "A", "text:+1", "Enter", "text:+2", "Escape", "z", "c"],
        ["+--  3 lines: (3+1"],
        [],
    ),
]
# Takes what is selected over, and shows it in one line.
SHOWN = ["text:y:echo '<' . substitute(getreg(), nr2char(10), '|', '') . '>'", "Enter"]
NEOVIM_SELECTIONS: List[Step] = [
    ("a token", ["text:/3", "Enter", "M-o", *SHOWN], ["<3>"], []),
    ("a sum", ["M-o", "M-o", *SHOWN], ["<3|+4>"], []),
    ("an atom", ["M-o", "M-o", "M-o", *SHOWN], ["<(3|+4)>"], []),
    ("grown and shrunk", ["text:/3", "Enter", "M-o", "M-o", "M-o", "M-i", *SHOWN], ["<3|+4>"], []),
    ("shrunk to nothing", ["M-o", "M-i"], [], ["VISUAL"]),
]
TREE = """Sum
  Sum
    Sum
      Atom
        NUM  7
    PLUS  +
    Atom
      LP  (
      Sum
        Sum
          Atom
            NUM  3
        PLUS  +
        Atom
          NUM  4
      RP  )
  PLUS  +
  Atom
    NUM  5
"""
NEOVIM_ENDS: List[Step] = [
    ("a lost document", ["text::edit large.sum", "Enter"], ["lrls: document lost: too large"], []),
    (
        "asked about it",
        ["Enter", "text::LrlsTree", "Enter"],
        ["lrls: document lost: too large"],
        ["│"],
    ),
    (
        "its first line",
        ["Enter", "text:gg"],
        ["W 1+1+", "\u25a0 document lost: too large"],
        ["unexpected"],
    ),
    (
        "typed into it",
        ["text:i22", "Escape"],
        ["W 221+1+", "\u25a0 document lost: too large"],
        ["unexpected"],
    ),
    (
        "made small, and opened again",
        ["text:jdG:LrlsRestart", "Enter"],
        ["E 221+1+", "unexpected end"],
        ["document lost"],
    ),
    ("a conflict", ["Enter", "text::edit some.amb", "Enter"], CONFLICT, []),
]


def neovim_words() -> List[str]:
    return ["nvim", "-n", "-i", "NONE", "-u", "init.lua"]


def back_of(screen: screens.Screen, text: str) -> screens.Colour:
    """The colour behind a text of the screen, or -1 where it isn't there."""
    style = screen.style_of(text)
    return -1 if style is None else style.back


def front_of(screen: screens.Screen, text: str) -> screens.Colour:
    """The colour of a text of the screen, or -1 where it isn't there."""
    style = screen.style_of(text)
    return -1 if style is None else style.front


def has_tree(screen: screens.Screen) -> bool:
    """Whether the tree stands beside the text."""
    beside = [line.partition("│")[2] for line in screen.text().split("\n")]
    at = beside.index("Sum") if "Sum" in beside else 0
    return beside[at : at + 19] == TREE.rstrip("\n").split("\n")


def neovim_tree(screen: screens.Screen) -> List[str]:
    """The tree beside the text, with the node under the cursor marked."""
    screen.press("text:/3", "Enter", "text::LrlsTree", "Enter")
    wrong = screen.shows([line.strip() for line in TREE.strip().split("\n")])
    if not screens.waited(lambda: has_tree(screen)):
        wrong.append(f"another tree:\n{screen.text()}")
    moves: List[Tuple[List[str], str, str]] = [
        ([], "NUM  3", "NUM  4"),
        (["j", "text:0l"], "NUM  4", "NUM  3"),
    ]
    for keys, marked, other in moves:
        screen.press(*keys)
        wrong += screen.shows(["NUM  3"])
        backs = lambda: (back_of(screen, marked), back_of(screen, other))
        if not screens.waited(lambda: backs() == (4, None)):
            styles = f"{screen.style_of(marked)}, {screen.style_of(other)}"
            wrong.append(f"another mark than at {marked}: {styles}")
    screen.press("text::LrlsTree", "Enter")
    return wrong + screen.shows(["folded.sum"], ["NUM"])


def neovim_colours(screen: screens.Screen) -> List[str]:
    fronts = lambda: [front_of(screen, text) for text in ("7", "+", "5")]
    if screens.waited(lambda: fronts() == [1, 2, 1]):
        return []
    return [f"other colours: {fronts()}"]


def try_neovim(folder: str) -> List[str]:
    prepared(folder)
    placed(folder, "init.lua", NEOVIM_INIT.format(top=TOP, folder=folder))
    environment = surroundings(folder)
    with screens.Screen(folder, [*neovim_words(), "faulty.sum"], environment) as screen:
        wrong = walk(screen, NEOVIM_FAULTS)
    with screens.Screen(folder, [*neovim_words(), "folded.sum"], environment) as screen:
        wrong += screen.shows(["7+"]) or neovim_colours(screen)
        wrong += neovim_tree(screen)
        wrong += walk(screen, NEOVIM_SELECTIONS)
    with screens.Screen(folder, [*neovim_words(), "folded.sum"], environment) as screen:
        wrong += screen.shows(["7+"]) or walk(screen, NEOVIM_FOLDS)
    with screens.Screen(folder, [*neovim_words(), "faulty.sum"], environment) as screen:
        wrong += screen.shows(["unexpected end"]) or walk(screen, NEOVIM_ENDS)
        placed(folder, "ambiguous.lr", MENDED)
        keys = ["Enter", "text::LrlsRestart", "Enter", "A", "text:+"]
        wrong += walk(screen, [("restarted", keys, ["1+2+", "unexpected end; expected NUM"], [])])
    steps = [*NEOVIM_FAULTS, *NEOVIM_FOLDS, *NEOVIM_SELECTIONS, *NEOVIM_ENDS]
    print(f"neovim-screen: {len(steps) + 4} looks at the screen")
    return wrong


EMACS_STEPS: List[Step] = [
    ("opened", [], ["Flymake[1 0]"], []),
    ("mended", ["C-e", "text:)"], ["1+(2)", "Flymake[0 0]"], []),
    ("faulty", ["text:+"], ["1+(2)+", "Flymake[1 0]"], []),
    (
        "no symbols",
        ["M-x", "text:imenu", "Enter"],
        ["imenu unavailable"],
        ["method not found", "eglot/error"],
    ),
    (
        "another file",
        ["C-x", "C-f", "text:folded.sum", "Enter"],
        ["7+", "+4)", "Flymake"],
        ["1 0]"],
    ),
    ("a fold closed", ["C-n", "C-c", "C-f"], ["(3...\n+5"], ["+4)"]),
    (
        "a fault before a fold",
        ["C-p", "C-e", "text:+"],
        ["7++", "Flymake[1 0]", "(3...\n+5"],
        ["+4)"],
    ),
    ("a fold opened while the text is faulty", ["C-n", "C-c", "C-f"], ["7++\n(3\n+4)\n+5"], []),
    ("and closed", ["C-c", "C-f"], ["7++\n(3...\n+5"], []),
    ("mended", ["C-c", "C-f", "C-p", "C-e", "BSpace"], ["7+\n", "Flymake[0 0]"], ["7++"]),
    ("a token", ["C-n", "C-a", "C-f", "C-c", "C-e", "F5"], ['selected: "3"'], []),
    ("a sum", ["C-c", "C-e", "F5"], ['selected: "3\n+4"'], []),
    ("an atom", ["C-c", "C-e", "F5"], ['selected: "(3\n+4)"'], []),
    ("shrunk", ["C-c", "C-s", "F5"], ['selected: "3\n+4"'], []),
    ("shrunk to nothing", ["C-c", "C-s", "C-c", "C-s", "F5"], ["selected: nil"], []),
    (
        "nested folds",
        ["C-x", "C-f", "text:nested.sum", "Enter", "F6"],
        ["7+((1...\n+(4..."],
        ["+2)", "+5)"],
    ),
    (
        "a lost document",
        ["C-x", "C-f", "text:large.sum", "Enter"],
        ["document lost: too large"],
        [],
    ),
    ("asked about it", ["C-x", "1", "C-c", "C-e"], ["lrls: document lost: too large"], ["*lrls*"]),
    ("typed into it", ["text:22"], ["221+1+"], ["Flymake[1"]),
    ("made small", ["C-n", "C-a", "C-Space", "M->", "C-w", "M-<"], ["221+1+"], ["\n1+1+"]),
    ("and opened again", ["C-c", "C-r", "C-x", "1"], ["221+1+", "Flymake[1 0]"], []),
    ("a conflict", ["C-x", "C-f", "text:some.amb", "Enter"], CONFLICT, []),
]


def try_emacs(folder: str) -> List[str]:
    prepared(folder)
    init = placed(folder, "init.el", EMACS_INIT.format(top=TOP, folder=folder))
    words = ["emacs", "-nw", "-q", "-l", init, "faulty.sum"]
    with screens.Screen(folder, words, surroundings(folder)) as screen:
        wrong = walk(screen, EMACS_STEPS)
        placed(folder, "ambiguous.lr", MENDED)
        keys = ["M-x", "text:lrls-restart", "Enter"]
        wrong = wrong or walk(
            screen,
            [
                ("restarted", keys, ["Connected!"], []),
                ("its own grammar", ["C-e", "text:("], ["1+2(", "Flymake[1 0]"], []),
            ],
        )
    print(f"emacs-screen: {len(EMACS_STEPS) + 2} looks at the screen")
    return wrong


# Pictures.

SCRIPT = """// The greatest of some numbers.
fn greatest(numbers) {
    let found = nil;
    for number in numbers {
        if found == nil or number > found {
            found = number;
        }
    }
    return found;
}

fn is_even(number) {
    return number % 2 == 0;
}

print(greatest([1, 8.5]));
"""
KEYWORDS = "LET FN IF ELSE WHILE FOR IN RETURN BREAK AND OR NOT".split()
CONSTANTS = "NUMBER TRUE FALSE NIL".split()
COMMENTS = "LINE_COMMENT BLOCK_COMMENT COMMENT".split()
CLASSES = [
    (KEYWORDS, "Keyword", "font-lock-keyword-face"),
    (CONSTANTS, "Constant", "font-lock-constant-face"),
    (COMMENTS, "Comment", "font-lock-comment-face"),
    (["STRING"], "String", "font-lock-string-face"),
    (["NAME"], "Identifier", "font-lock-variable-name-face"),
]
NEOVIM_SCRIPT = """local lrls = dofile("{top}/editors/neovim.lua")
lrls.add({{
  name = "script",
  files = "*.script",
  grammar = "{top}/grammars/script.lr",
  comment = "// %s",
  colours = {{ {colours} }},
}})
vim.cmd("set noshowcmd noruler nohlsearch background=dark")
vim.cmd("highlight SignColumn ctermbg=NONE | highlight Folded ctermbg=NONE")
"""
EMACS_SCRIPT = (
    EMACS_START
    + """(setq frame-background-mode 'dark)
(menu-bar-mode 0)
(load "{top}/editors/emacs.el")
(lrls-add-language "script" "\\\\.script\\\\'" "{top}/grammars/script.lr" "//"
                   '({faces}))
(setq flymake-no-changes-timeout 0.1)
"""
)


def written(screen: screens.Screen, name: str, columns: int) -> List[str]:
    with open(os.path.join(DOCS, name), "w", encoding="utf-8") as file:
        file.write(screens.picture(screen.cells(), columns))
    return []


def picture_neovim(folder: str) -> List[str]:
    colours = ", ".join(f'{rule} = "{group}"' for rules, group, _ in CLASSES for rule in rules)
    placed(folder, "init.lua", NEOVIM_SCRIPT.format(top=TOP, colours=colours))
    placed(folder, "greatest.script", SCRIPT)
    words = [*neovim_words(), "greatest.script"]
    with screens.Screen(folder, words, surroundings(folder), 130, 22) as screen:
        wrong = screen.shows(["print(greatest"]) or ["no colours"] * (
            not screens.waited(lambda: front_of(screen, "fn"), 60)
        )
        screen.press(
            "text::LrlsTree",
            "Enter",
            "text::vertical resize 69",
            "Enter",
            "text:/is_even",
            "Enter",
            "text:zc",
        )
        screen.press("text:/found =", "Enter")
        wrong = wrong or screen.shows(["NAME  found", "+--  3 lines: fn is_even"])
        screen.press("text:f;", "text:i + ")
        wrong = wrong or screen.shows(
            ["unexpected SEMICOLON", "this is the tree before it", "+--  3 lines"]
        )
        return wrong or written(screen, "neovim.svg", 130)


def picture_emacs(folder: str) -> List[str]:
    faces = " ".join(f'("{rule}" . {face})' for rules, _, face in CLASSES for rule in rules)
    init = placed(folder, "init.el", EMACS_SCRIPT.format(top=TOP, faces=faces))
    placed(folder, "greatest.script", SCRIPT)
    words = ["emacs", "-nw", "-q", "-l", init, "greatest.script"]
    with screens.Screen(folder, words, surroundings(folder), 90, 22) as screen:
        wrong = screen.shows(["print(greatest", "Flymake"]) or ["no colours"] * (
            not screens.waited(lambda: front_of(screen, "fn"), 60)
        )
        screen.press(
            "C-s", "text:is_even", "Enter", "C-c", "C-f", "C-s", "text:8.5", "Enter", "text:, "
        )
        wrong = wrong or screen.shows(["Flymake[1 0]", "fn is_even(number) {..."])
        screen.press("M-x", "text:flymake-show-buffer-diagnostics", "Enter")
        wrong = wrong or screen.shows(["unexpected RBRACKET"])
        return wrong or written(screen, "emacs.svg", 90)
