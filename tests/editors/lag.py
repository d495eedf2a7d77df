"""How long a key takes to show and to be coloured in a file of 5,000 lines, in Neovim and in Emacs
with the files of editors/.

A name in the middle of the file is typed on a terminal, letter by letter, so that each key makes a
token longer that has a colour. First each key comes alone, and the letter's first drawing and its
first one in colour are timed; then the keys come at random distances, so that some come while the
editor is busy with an earlier one. The same keys are typed into the same editor without the files
of editors/.
"""

import bisect
import fcntl
import itertools
import os
import pty
import random
import re
import select
import statistics
import struct
import termios
import time
from typing import Callable, Iterator, List, Optional, Sequence, Tuple

from tests import TOP
from tests.common import screens
from tests.common.surroundings import EMACS_START, placed, surroundings

LINES = 5_000
FUNCTION = """fn part_{}(left, right) {{
    let total = left * 2 + right;
    for each in [1, 2.5, left] {{
        if each > total and not false {{
            total = total + each; // grows
        }}
    }}
    return "it is " + total;
}}

"""
# None of these is drawn by anything but a key: not by the file, nor by what an editor reports below
# it.
LETTERS = "GHJKMNQVXYZ"
# How many times the letters are typed, in each of the two ways.
ROUNDS = 5
SEED = 1
RED = 1
ROWS, COLUMNS = 40, 100

DRAWN = re.compile(
    r"\x1b\[([0-9;:]*)m"
    r"|(\x1b\[[0-?]*[ -/]*[@-~]|\x1b\][^\x07\x1b]*(?:\x07|\x1b\\)|\x1b[ -/]*[0-~])"
    r"|([ -~])"
)


# When something was drawn, and its bytes.
Output = Tuple[float, bytes]
# The seconds until a letter was drawn, and until it was in its colour.
Times = Tuple[Optional[float], Optional[float]]


class Terminal:
    """An editor on a terminal, and all that it writes with the times of the writing. It is killed
    when the `with` block ends."""

    def __init__(self, folder: str, words: List[str]) -> None:
        self.outputs: List[Output] = []
        self.child, self.end = pty.fork()
        if self.child == 0:
            os.chdir(folder)
            os.execvpe(words[0], words, surroundings(folder))
        fcntl.ioctl(self.end, termios.TIOCSWINSZ, struct.pack("HHHH", ROWS, COLUMNS, 0, 0))

    def __enter__(self) -> "Terminal":
        return self

    def __exit__(self, *_: object) -> None:
        os.kill(self.child, 9)
        os.waitpid(self.child, 0)
        os.close(self.end)

    def press(self, keys: str) -> float:
        """The time at which these keys are pressed."""
        now = time.perf_counter()
        os.write(self.end, keys.encode())
        return now

    def follow(self, seconds: float) -> None:
        """Reads for so long what the editor draws."""
        until = time.perf_counter() + seconds
        left = seconds
        while left > 0:
            if select.select([self.end], [], [], left)[0]:
                data = os.read(self.end, 65_536)
                self.outputs.append((time.perf_counter(), data))
            left = until - time.perf_counter()

    def settle(self, quiet: float) -> None:
        """Reads until nothing was drawn for so long."""
        count = -1
        while count != len(self.outputs):
            count = len(self.outputs)
            self.follow(quiet)


def drawn(outputs: List[Output]) -> Iterator[Tuple[float, str, screens.Colour]]:
    """What was drawn, character by character: when, which one, and in which colour."""
    text = b"".join(data for _, data in outputs).decode("latin-1")
    ends = list(itertools.accumulate(len(data) for _, data in outputs))
    style = screens.Style()
    for found in DRAWN.finditer(text):
        numbers, _, character = found.groups()
        if character:
            yield outputs[bisect.bisect_right(ends, found.start())][0], character, style.front
        elif numbers is not None:
            style = screens.changed(
                style, [int(number.split(":")[0]) for number in numbers.split(";") if number]
            )


def typed(
    terminal: Terminal, distance: Callable[[], float], quiet: float, rubout: str
) -> Iterator[Times]:
    """Types the letters at such distances and takes them back. Of each the seconds until it was
    drawn, and until it was drawn in its colour, or None where it never was."""
    before = len(terminal.outputs)
    presses = []
    for letter in LETTERS:
        presses.append((letter, terminal.press(letter)))
        terminal.follow(distance())
    terminal.settle(quiet)
    shown = list(drawn(terminal.outputs[before:]))
    for _ in LETTERS:
        terminal.press(rubout)
        terminal.follow(0.02)
    terminal.settle(quiet)
    for letter, begun in presses:
        times = [
            (at - begun, colour)
            for at, character, colour in shown
            if character == letter and at >= begun
        ]
        coloured = next((seconds for seconds, colour in times if colour == RED), None)
        yield times[0][0] if times else None, coloured


def summary(times: Sequence[float]) -> str:
    """The median and the greatest of these seconds, in milliseconds."""
    return f"{1000 * statistics.median(times):.1f} ms, at worst {1000 * max(times):.1f}"


def measured(
    name: str, terminal: Terminal, quiet: float, rubout: str, has_colours: bool
) -> Tuple[List[float], List[str]]:
    """Types in both ways, and prints what it took. Answers the medians until a letter was drawn, or
    what is wrong."""
    choice, medians = random.Random(SEED), []
    for way, distance in [
        ("alone", lambda: quiet),
        ("at random", lambda: choice.uniform(0.03, 0.6)),
    ]:
        found = [times for _ in range(ROUNDS) for times in typed(terminal, distance, quiet, rubout)]
        drawings = [first for first, _ in found if first is not None]
        colours = [coloured for _, coloured in found if coloured is not None]
        if (
            len(drawings) < len(found)
            or has_colours
            and way == "alone"
            and len(colours) < len(found)
        ):
            told = f"{len(drawings)} were drawn, and {len(colours)} in colour"
            return [], [f"{name}: of {len(found)} letters {told}"]
        medians.append(statistics.median(drawings))
        reported = f", in colour after {summary(colours)}" if has_colours and way == "alone" else ""
        print(
            f"{name}: {len(found)} keys {way}: drawn after {summary(drawings)}{reported}",
            flush=True,
        )
    return medians, []


def compared(
    name: str,
    folder: str,
    words: List[str],
    plain_words: List[str],
    find: Sequence[str],
    quiet: float,
    rubout: str,
) -> List[str]:
    """Measures the editor with the files of editors/ and without them."""
    text = "".join(FUNCTION.format(number) for number in range(LINES // 20))
    text += text.replace("part_0(", "here(", 1).replace("part", "other")
    placed(folder, "long.script", text)
    print(f"{name}: {text.count(chr(10))} lines, {len(text)} bytes")
    found = []
    for label, given, has_colours in [(name, words, True), (f"{name}, plain", plain_words, False)]:
        with Terminal(folder, given) as terminal:
            terminal.settle(5)
            for keys in find:
                terminal.press(keys)
                terminal.settle(quiet)
            medians, wrong = measured(label, terminal, quiet, rubout, has_colours)
        if wrong:
            return wrong
        found.append(medians)
    ratios = [with_files / plain for with_files, plain in zip(*found)]
    told = f"{ratios[0]:.1f} and {ratios[1]:.1f} times"
    print(f"{name}: drawn after {told} what it takes without editors/")
    return []


NEOVIM_INIT = """local lrls = dofile("{top}/editors/neovim.lua")
lrls.add({{
  name = "script",
  files = "*.script",
  grammar = "{top}/grammars/script.lr",
  colours = {{ FN = "Keyword", LET = "Keyword", NAME = "Identifier", NUMBER = "Number",
               STRING = "String" }},
}})
vim.cmd("set noshowmode noshowcmd noruler | highlight Identifier ctermfg=1")
"""
NEOVIM_PLAIN = 'vim.cmd("set noshowmode noshowcmd noruler")\n'


def neovim(folder: str) -> List[str]:
    placed(folder, "init.lua", NEOVIM_INIT.format(top=TOP))
    placed(folder, "plain.lua", NEOVIM_PLAIN)
    words = [
        ["nvim", "-n", "-i", "NONE", "-u", init, "long.script"]
        for init in ("init.lua", "plain.lua")
    ]
    return compared("neovim", folder, words[0], words[1], ["/here\r", "ea"], 2, "\x7f")


EMACS_PLAIN = (
    EMACS_START
    + """(setq-default mode-line-format nil)
"""
)
EMACS_INIT = """{plain}(load "{top}/editors/emacs.el")
(set-face-foreground 'font-lock-variable-name-face "red")
(lrls-add-language "script" "\\\\.script\\\\'" "{top}/grammars/script.lr" "//"
                   '(("FN" . font-lock-keyword-face) ("LET" . font-lock-keyword-face)
                     ("NAME" . font-lock-variable-name-face)
                     ("NUMBER" . font-lock-constant-face) ("STRING" . font-lock-string-face)))
"""


def emacs(folder: str) -> List[str]:
    placed(folder, "plain.el", EMACS_PLAIN)
    placed(folder, "init.el", EMACS_INIT.format(plain=EMACS_PLAIN, top=TOP))
    words = [
        ["emacs", "-nw", "-q", "-l", os.path.join(folder, init), "long.script"]
        for init in ("init.el", "plain.el")
    ]
    return compared("emacs", folder, words[0], words[1], ["\x13here", "\r"], 2, "\x7f")
