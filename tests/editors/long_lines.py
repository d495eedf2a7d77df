"""How long a key takes to show in long lines, and in a text as large in many lines, with the files
of editors/ and without them.

The texts are arrays of JSON. Five letters are typed into a string near the beginning and five in
the middle, each at a random time after the one before it shows, so that some come while the editor
takes in the server's answers. Of each text a row is printed: the median and the greatest time until
a letter was drawn, with the files of editors/ and without, and the difference of the medians. It
may be 50 ms, and in Emacs half of its own time more, which swings.
"""

import random
import re
import statistics
import tempfile
import time
from typing import Callable, Iterator, List, Optional, Sequence, Tuple

from tests import TOP
from tests.common import screens
from tests.common.surroundings import EMACS_START, placed, surroundings
from tests.editors.drawn import SHOWN, Step, front_of, walk
from tests.editors.lag import EMACS_PLAIN, Terminal, drawn

# None of these is drawn by anything but a key.
LETTERS = ["HJKQV", "XYZBW"]
SEED = 1
# After so many seconds a letter that isn't drawn counts as not shown.
PATIENCE = 20
KILOBYTES = [1, 20, 50, 100, 1000]
RECORD = '{{"id":{0},"name":"{1}part {0}","size":{0}.5,"tags":["a","b"],"on":true,"next":null}}'
LINES = 83_000

# The words that start an editor in a folder, and the keys that go to a place of a text.
WordsIn = Callable[[str], List[str]]
KeysTo = Callable[[str, int], str]


def one_line(size: int, mark: str) -> str:
    """An array of JSON of about so many bytes in one line. The mark stands in each name."""
    records: List[str] = []
    length = 1
    while length < size - 100:
        records.append(RECORD.format(len(records), mark))
        length += len(records[-1].encode()) + 1
    return f"[{','.join(records)}]\n"


def many_lines(size: int, count: int) -> str:
    """An array of about so many bytes in so many lines, four for each of its records."""
    records = [f'{{\n"id": {number},\n"name": "part"\n}}' for number in range(count // 4)]
    missing = size // len(records) - len(records[-1]) - 2
    return "[\n" + ",\n".join(records).replace("part", "part" + "a" * missing) + "\n]\n"


def texts() -> Iterator[Tuple[str, str]]:
    """The texts, each with its name."""
    for kilobytes in KILOBYTES:
        yield f"{kilobytes:,} KB in one line", one_line(1000 * kilobytes, "")
        yield f"{kilobytes:,} KB in one line, not all of it ASCII", one_line(
            1000 * kilobytes, "\u00e9"
        )
    yield f"1,000 KB in {LINES:,} lines", many_lines(1_000_000, LINES)


def places(text: str) -> List[int]:
    """Where letters are typed: in the first name, and in one in the middle."""
    return [text.index("part", at) + 2 for at in (0, len(text) // 2)]


def seconds_until_drawn(terminal: Terminal, letter: str) -> Optional[float]:
    """The seconds from the press of a letter until it is drawn, or None where it isn't in time."""
    before, begun = len(terminal.outputs), terminal.press(letter)
    while time.perf_counter() < begun + PATIENCE:
        terminal.follow(0.005)
        for at, character, _ in drawn(terminal.outputs[before:]):
            if character == letter:
                return at - begun
    return None


def typed(terminal: Terminal, letters: str, choice: random.Random) -> List[Optional[float]]:
    """Types the letters. The seconds until each was drawn, up to the first one that wasn't."""
    found: List[Optional[float]] = []
    for letter in letters:
        found.append(seconds_until_drawn(terminal, letter))
        if found[-1] is None:
            break
        terminal.follow(choice.uniform(0, 1.5))
    return found


def timed(folder: str, words: List[str], text: str, keys_to: KeysTo) -> List[Optional[float]]:
    """Types into a text with this editor. The seconds of each letter; `keys_to` are the keys that
    go to a place."""
    placed(folder, "long.json", text)
    choice = random.Random(SEED)
    found: List[Optional[float]] = []
    with Terminal(folder, words) as terminal:
        terminal.settle(2)
        for letters, place in zip(LETTERS, places(text)):
            terminal.press(keys_to(text, place))
            terminal.settle(1)
            found += typed(terminal, letters, choice)
            if found[-1] is None:
                break
    return found


def median(times: Sequence[Optional[float]]) -> Optional[float]:
    """The median of these seconds; none where a letter wasn't shown."""
    shown = [seconds for seconds in times if seconds is not None]
    return statistics.median(shown) if len(shown) == len(times) else None


def in_milliseconds(times: Sequence[Optional[float]]) -> str:
    shown = [seconds for seconds in times if seconds is not None]
    if len(shown) < len(times):
        return f"not shown in {PATIENCE} s"
    return f"{1000 * statistics.median(shown):.0f}, at most {1000 * max(shown):.0f}"


def compared(
    name: str,
    head: Sequence[str],
    words: WordsIn,
    plain_words: WordsIn,
    keys_to: KeysTo,
    allowed: Callable[[float], float],
) -> List[str]:
    """Prints the rows of an editor. What is wrong: the texts in which a letter came later than is
    allowed."""
    print(f"| {name}, ms | {' | '.join(head)} |\n|{'---|' * (len(head) + 1)}", flush=True)
    wrong = []
    for label, text in texts():
        found = []
        for given in (words, plain_words):
            with tempfile.TemporaryDirectory() as folder:
                found.append(timed(folder, given(folder), text, keys_to))
        ours, plain = map(median, found)
        late = ours - plain if ours is not None and plain is not None else None
        cells = [*map(in_milliseconds, found), f"{1000 * late:.0f}" if late is not None else ""]
        print(f"| {label} | {' | '.join(cells)} |", flush=True)
        if late is None or plain is None or late > allowed(plain):
            told = f"{cells[0]} ms, and without editors/ after {cells[1]} ms"
            wrong.append(f"{label}: a letter is drawn after {told}")
    return wrong


NEOVIM_INIT = """local lrls = dofile("{top}/editors/neovim.lua")
lrls.add({{
  name = "json",
  files = "*.json",
  grammar = "{top}/grammars/json.lr",
  colours = {{ STRING = "String", NUMBER = "Number", TRUE = "Boolean", FALSE = "Boolean",
               NULL = "Constant" }},
}})
"""
NEOVIM_WORDS = [
    "nvim",
    "-n",
    "-i",
    "NONE",
    "--cmd",
    "set noshowmode noshowcmd noruler shortmess+=F",
]


def bytes_before(text: str, place: int) -> Tuple[int, int]:
    """The line of a place, from 1 on, and the bytes before it in this line."""
    before = text[:place].split("\n")
    return len(before), len(before[-1].encode())


def neovim_keys(text: str, place: int) -> str:
    line, byte = bytes_before(text, place)
    return f"\x1c\x0e:call cursor({line}, {byte + 1})\ri"


def neovim() -> List[str]:
    def words(folder: str) -> List[str]:
        return [
            *NEOVIM_WORDS,
            "-u",
            placed(folder, "init.lua", NEOVIM_INIT.format(top=TOP)),
            "long.json",
        ]

    head = ["with editors/", "`nvim -u NONE`", "difference"]
    plain_words = lambda folder: [*NEOVIM_WORDS, "-u", "NONE", "long.json"]
    return compared("Neovim", head, words, plain_words, neovim_keys, lambda plain: 0.05)


EMACS_INIT = """(load "{top}/editors/emacs.el")
(lrls-add-language "json" "\\\\.json\\\\'" "{top}/grammars/json.lr" nil
                   '(("STRING" . font-lock-string-face) ("NUMBER" . font-lock-constant-face)
                     ("TRUE" . font-lock-constant-face) ("FALSE" . font-lock-constant-face)
                     ("NULL" . font-lock-constant-face)))
"""


def emacs_keys(text: str, place: int) -> str:
    return f"\x1bgc{place + 1}\r"


def emacs() -> List[str]:
    def words(folder: str, init: str) -> List[str]:
        return [
            "emacs",
            "-nw",
            "-q",
            "-l",
            placed(folder, "init.el", EMACS_PLAIN + init),
            "long.json",
        ]

    head = ["with editors/", "`emacs -q`", "difference"]
    ours = lambda folder: words(folder, EMACS_INIT.format(top=TOP))
    plain = lambda folder: words(folder, "(setq auto-mode-alist nil)\n")
    return compared("Emacs", head, ours, plain, emacs_keys, lambda plain: 0.05 + plain / 2)


# What the screen shows in a line of 1,000 KB.

REGION = """
(defun trial-region ()
  (interactive)
  (message "selected: %s" (buffer-substring-no-properties (region-beginning) (region-end))))
(global-set-key (kbd "<f5>") #'trial-region)
(set-face-foreground 'font-lock-string-face "red")
"""


def looked_at(
    folder: str, words: Sequence[str], steps_at: Callable[[str, int, str], List[Step]]
) -> List[str]:
    """Looks at the colours at the beginning of the line and in its middle, where there are none,
    and goes through the steps."""
    text = one_line(1_000_000, "")
    placed(folder, "long.json", text)
    found = re.compile(r'"(part \d+)"').search(text, len(text) // 2)
    assert found
    first, *others = steps_at(text, found.start(1) + 2, found.group(0))
    with screens.Screen(folder, words, surroundings(folder)) as screen:
        if not screens.waited(lambda: front_of(screen, '"name"') == 1):
            return [f"no colours:\n{screen.text()}"]
        wrong = walk(screen, [first])
        colour = front_of(screen, found.group(0))
        wrong += [] if colour is None else [f"the colour {colour} in the middle"]
        return wrong or walk(screen, others)


def neovim_screen(folder: str) -> List[str]:
    def steps(text: str, place: int, name: str) -> List[Step]:
        return [
            ("in its middle", ["text:" + neovim_keys(text, place)[2:-2], "Enter"], [name], []),
            ("a token", ["M-o", *SHOWN], [f"<{name}>"], []),
            ("the tree", ["text::LrlsTree", "Enter"], [f"STRING  {name}", "COLON  :"], []),
        ]

    init = placed(
        folder, "init.lua", NEOVIM_INIT.format(top=TOP) + 'vim.cmd("highlight String ctermfg=1")\n'
    )
    wrong = looked_at(folder, [*NEOVIM_WORDS[:4], "-u", init, "long.json"], steps)
    print("neovim-long: 4 looks at the screen")
    return wrong


def emacs_screen(folder: str) -> List[str]:
    def steps(_: str, place: int, name: str) -> List[Step]:
        return [
            ("in its middle", ["M-g", "c", f"text:{place + 1}", "Enter"], [name], []),
            ("a token", ["C-c", "C-e", "F5"], [f"selected: {name}"], []),
        ]

    init = placed(folder, "init.el", EMACS_START + EMACS_INIT.format(top=TOP) + REGION)
    wrong = looked_at(folder, ["emacs", "-nw", "-q", "-l", init, "long.json"], steps)
    print("emacs-long: 3 looks at the screen")
    return wrong
