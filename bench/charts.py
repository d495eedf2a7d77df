"""Tables, in columns or in Markdown, and charts in SVG with logarithmic axes, made without a library."""

import math
from typing import Iterable, List, Sequence, Tuple

WIDTH, HEIGHT = 720, 420
LEFT, RIGHT, TOP_EDGE, BOTTOM = 70, 170, 40, 50
# Two powers of ten, and a place or a size with its time.
Decades = Tuple[int, int]
Point = Tuple[float, float]
COLOURS = ["#1b6ca8", "#c0392b", "#27864a", "#8e44ad", "#b9770e", "#555555"]


def markdown(head: Sequence[str], rows: Iterable[Sequence[str]]) -> str:
    """A table: its column titles, and its rows of texts."""
    lines = ["| " + " | ".join(head) + " |", "|" + "---|" * len(head)]
    return "\n".join(lines + ["| " + " | ".join(row) + " |" for row in rows]) + "\n"


def show(head: Sequence[str], rows: Sequence[Sequence[str]], is_markdown: bool) -> None:
    """Prints a table."""
    if is_markdown:
        print(markdown(head, rows))
        return
    widths = [max(map(len, column)) for column in zip(head, *rows)]
    for cells in [head, *rows]:
        print("  ".join(cell.ljust(width) for cell, width in zip(cells, widths)).rstrip())


def decades(values: Sequence[float]) -> Decades:
    """The powers of ten around some values: the exponents of the least and of the greatest."""
    return math.floor(math.log10(min(values))), math.ceil(math.log10(max(values)))


def scale(value: float, exponents: Decades, start: float, end: float) -> float:
    """Where a value stands between two ends of an axis that spans these powers of ten."""
    low, high = exponents
    return start + (math.log10(value) - low) / max(1, high - low) * (end - start)


def text(x: float, y: float, words: str, anchor: str = "start", colour: str = "#222") -> str:
    return f'<text x="{x:.1f}" y="{y:.1f}" text-anchor="{anchor}" fill="{colour}">{words}</text>'


def line(points: Iterable[Point], colour: str, width: int = 1, dashes: str = "") -> str:
    path = " ".join(f"{x:.1f},{y:.1f}" for x, y in points)
    look = f'stroke="{colour}" stroke-width="{width}" stroke-dasharray="{dashes}"'
    return f'<polyline points="{path}" fill="none" {look}/>'


def grid(across: Decades, up: Decades) -> List[str]:
    """The lines of the powers of ten, with their labels."""
    parts = []
    for power in range(across[0], across[1] + 1):
        x = scale(10**power, across, LEFT, WIDTH - RIGHT)
        parts.append(line([(x, TOP_EDGE), (x, HEIGHT - BOTTOM)], "#ddd"))
        parts.append(text(x, HEIGHT - BOTTOM + 18, f"{10**power:,}", "middle"))
    for power in range(up[0], up[1] + 1):
        y = scale(10**power, up, HEIGHT - BOTTOM, TOP_EDGE)
        parts.append(line([(LEFT, y), (WIDTH - RIGHT, y)], "#ddd"))
        parts.append(text(LEFT - 6, y + 4, f"{10.0**power:g} ms", "end"))
    return parts


def chart(title: str, series: Sequence[Tuple[str, Sequence[Point]]]) -> str:
    """A chart of lines: each has a name, and points of a size in bytes and a time in ms."""
    across = decades([size for _, points in series for size, _ in points])
    up = decades([time for _, points in series for _, time in points])
    parts = grid(across, up)
    for number, (name, points) in enumerate(series):
        colour = COLOURS[number % len(COLOURS)]
        places = [
            (scale(x, across, LEFT, WIDTH - RIGHT), scale(y, up, HEIGHT - BOTTOM, TOP_EDGE))
            for x, y in points
        ]
        parts.append(line(places, colour, 2))
        parts += [f'<circle cx="{x:.1f}" cy="{y:.1f}" r="3" fill="{colour}"/>' for x, y in places]
        parts.append(text(WIDTH - RIGHT + 12, TOP_EDGE + 12 + 20 * number, name, colour=colour))
    parts.append(text(LEFT, TOP_EDGE - 16, title))
    parts.append(text((LEFT + WIDTH - RIGHT) / 2, HEIGHT - 12, "bytes of text", "middle"))
    box = f'viewBox="0 0 {WIDTH} {HEIGHT}" font-family="sans-serif" font-size="12"'
    head = f'<svg xmlns="http://www.w3.org/2000/svg" {box}>'
    paper = f'<rect width="{WIDTH}" height="{HEIGHT}" fill="white"/>'
    return "\n".join([head, paper, *parts, "</svg>"]) + "\n"
