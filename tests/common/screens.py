"""A program on a terminal of its own, by tmux: what is typed into it, what it draws, and a picture
of that.

A screen is a list of rows, and a row a list of cells. A cell is a character and its style: the
colours of the character and of its background, each a number from 0 to 255, a text as `#1e90ff`, or
None for the terminal's own, and whether it is bold or underlined.
"""

import html
import os
import re
import subprocess
import tempfile
import time
import unicodedata
from typing import Callable, Dict, List, NamedTuple, Optional, Sequence, Tuple, Union

Colour = Union[int, str, None]


class Style(NamedTuple):
    """The colours of a character and of its background, and how it is drawn."""

    front: Colour = None
    back: Colour = None
    bold: bool = False
    underlined: bool = False
    reversed: bool = False


Cell = Tuple[str, Style]
# The first column, the count of columns, the text, the style.
Run = Tuple[int, int, str, Style]

CONFIGURATION = """set -g default-terminal screen-256color
set -g escape-time 0
set -g status off
set -g remain-on-exit on
"""
SIXTEEN = (
    "#000000 #cd3131 #0b8043 #a67c00 #2472c8 #a626a4 #0e7c86 #e5e5e5 "
    "#666666 #f14c4c #23d18b #f5f543 #3b8eea #d670d6 #29b8db #ffffff"
).split()


class Screen:
    """A program on a terminal, which ends when the `with` block ends."""

    def __init__(
        self,
        folder: str,
        words: Sequence[str],
        environment: Dict[str, str],
        columns: int = 100,
        rows: int = 24,
    ) -> None:
        # One of its own for each, since a server of tmux takes some time to end.
        self.socket = os.path.join(tempfile.mkdtemp(dir=folder), "tmux")
        self.environment = environment
        configuration = os.path.join(folder, "tmux.conf")
        with open(configuration, "w", encoding="utf-8") as file:
            file.write(CONFIGURATION)
        size = ["-x", str(columns), "-y", str(rows)]
        self.tmux("-f", configuration, "new-session", "-d", "-c", folder, *size, "--", *words)

    def __enter__(self) -> "Screen":
        return self

    def __exit__(self, *_: object) -> None:
        self.tmux("kill-server")

    def tmux(self, *words: str) -> str:
        """What tmux prints."""
        call = ["tmux", "-S", self.socket, *words]
        ran = subprocess.run(
            call, env=self.environment, capture_output=True, timeout=120, check=False
        )
        if ran.returncode != 0:
            raise RuntimeError(f"{call} ended with status {ran.returncode}: {ran.stderr.decode()}")
        return ran.stdout.decode()

    def press(self, *keys: str) -> None:
        """Presses keys by tmux's names; `text:` and a text types this text."""
        commands: List[str] = []
        for key in keys:
            commands += [*([";"] * bool(commands)), "send-keys"]
            # A semicolon at the end of a word ends a command of tmux.
            commands += (
                ["-l", "--", re.sub(";$", r"\\;", key[5:])] if key.startswith("text:") else [key]
            )
        if commands:
            self.tmux(*commands)

    def text(self) -> str:
        return "\n".join(
            line.rstrip() for line in self.tmux("capture-pane", "-p").split("\n")
        ).rstrip()

    def cells(self) -> List[List[Cell]]:
        return [
            cells_of(line)
            for line in self.tmux("capture-pane", "-p", "-e", "-N").rstrip("\n").split("\n")
        ]

    def shows(
        self, parts: Sequence[str], without: Sequence[str] = (), seconds: float = 60
    ) -> List[str]:
        """Waits until each of the parts is on the screen, and nothing of what it has to be without.
        What is wrong at last. Blanks at the beginning of a line don't count, since an editor may
        have a margin there."""
        end = time.time() + seconds
        while True:
            text = "\n".join(line.lstrip() for line in self.text().split("\n"))
            missing = [part for part in parts if part not in text]
            missing += [f"not: {part}" for part in without if part in text]
            if not missing or time.time() > end:
                return [f"{missing} on the screen:\n{text}"] if missing else []
            time.sleep(0.05)

    def style_of(self, text: str) -> Optional[Style]:
        """The style of the first cell of the first place of this text."""
        for row in self.cells():
            at = "".join(character for character, _ in row).find(text)
            if at >= 0:
                return row[at][1]
        return None


def colour_of(numbers: List[int]) -> Union[int, str]:
    """The colour that these numbers begin with, after a 38 or 48."""
    if numbers[:1] == [5]:
        number = numbers[1]
        del numbers[:2]
        return number
    colour = "#{:02x}{:02x}{:02x}".format(*numbers[1:4])
    del numbers[:4]
    return colour


def changed(style: Style, numbers: Sequence[int]) -> Style:
    """The style after an escape sequence with these numbers."""
    left = list(numbers) or [0]
    while left:
        number = left.pop(0)
        if number == 0:
            style = Style()
        elif number in (1, 22):
            style = style._replace(bold=number == 1)
        elif number in (4, 24):
            style = style._replace(underlined=number == 4)
        elif number in (7, 27):
            style = style._replace(reversed=number == 7)
        elif number == 58:
            colour_of(left)  # of the line below a text, which is drawn in the text's colour
        elif number in (38, 48):
            style = coloured(style, "front" if number == 38 else "back", colour_of(left))
        elif number in (39, 49):
            style = coloured(style, "front" if number == 39 else "back", None)
        else:
            for base, part, first in [
                (30, "front", 0),
                (40, "back", 0),
                (90, "front", 8),
                (100, "back", 8),
            ]:
                if base <= number < base + 8:
                    style = coloured(style, part, number - base + first)
    return style


def coloured(style: Style, part: str, colour: Colour) -> Style:
    """The style with another colour of the character, or else of its background."""
    return style._replace(front=colour) if part == "front" else style._replace(back=colour)


def cells_of(line: str) -> List[Cell]:
    """The cells of a line with escape sequences."""
    cells: List[Cell] = []
    style = Style()
    for numbers, other, character in re.findall(
        r"\x1b\[([0-9;:]*)m|(\x1b[^m]|\x0e|\x0f)|(.)", line
    ):
        if character:
            cells.append((character, style))
        elif not other:
            style = changed(
                style, [int(number.split(":")[0]) for number in numbers.split(";") if number]
            )
    return cells


def written_colour(colour: Colour, otherwise: str) -> str:
    """A colour as an SVG has it."""
    if colour is None or isinstance(colour, str):
        return colour or otherwise
    if colour < 16:
        return SIXTEEN[colour]
    if colour >= 232:
        return "#{0:02x}{0:02x}{0:02x}".format(8 + 10 * (colour - 232))
    levels = [0, 95, 135, 175, 215, 255]
    colour -= 16
    return "#{:02x}{:02x}{:02x}".format(
        levels[colour // 36], levels[colour // 6 % 6], levels[colour % 6]
    )


def width_of(character: str) -> int:
    """How many columns a character takes."""
    return 2 if unicodedata.east_asian_width(character) in "WF" else 1


def runs_of(row: Sequence[Cell]) -> List[Run]:
    """The parts of a row that have one style: first column, count of columns, text, style."""
    runs: List[Run] = []
    column = 0
    for character, style in row:
        width = width_of(character)
        if runs and runs[-1][3] == style:
            first, count, text, _ = runs[-1]
            runs[-1] = (first, count + width, text + character, style)
        else:
            runs.append((column, width, character, style))
        column += width
    return runs


def drawn_run(run: Run, y: int, paper: str, ink: str) -> List[str]:
    """A run as elements of an SVG: its background, where it has one, and its text."""
    first, count, text, style = run
    front, back = written_colour(style.front, ink), written_colour(style.back, paper)
    if style.reversed:
        front, back = back, front
    x, width, found = first * 8, count * 8, []
    if back != paper:
        found.append(f'<rect x="{x}" y="{y}" width="{width}" height="17" fill="{back}"/>')
    # Not all that draw an SVG keep blanks at the ends of a text.
    inked = text.strip()
    if inked:
        blanks = len(text) - len(text.lstrip())
        x, width = x + 8 * blanks, width - 8 * (len(text) - len(inked))
        more = (
            ' font-weight="bold"' * style.bold + ' text-decoration="underline"' * style.underlined
        )
        place = f'x="{x}" y="{y + 13}" textLength="{width}" fill="{front}"'
        found.append(f"<text {place}{more}>{html.escape(inked)}</text>")
    return found


def picture(
    rows: Sequence[Sequence[Cell]], columns: int, paper: str = "#1e1e1e", ink: str = "#d4d4d4"
) -> str:
    """An SVG of a screen."""
    size = f'width="{columns * 8}" height="{len(rows) * 17}"'
    found = [
        f'<svg xmlns="http://www.w3.org/2000/svg" {size} font-family="monospace" '
        'font-size="13" xml:space="preserve">',
        f'<rect {size} fill="{paper}"/>',
    ]
    for number, row in enumerate(rows):
        for run in runs_of(row):
            found += drawn_run(run, number * 17, paper, ink)
    return "\n".join([*found, "</svg>", ""])


def waited(is_so: Callable[[], object], seconds: float = 60) -> bool:
    """Whether this becomes so within some seconds."""
    end = time.time() + seconds
    while time.time() < end:
        if is_so():
            return True
        time.sleep(0.05)
    return bool(is_so())
