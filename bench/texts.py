"""Texts to measure with, of about any size, and where they are edited. All of them are ASCII."""

from typing import Callable, List, NamedTuple, Optional, Tuple

# What makes a text of a size; a line and a character; and what is typed there.
Make = Callable[[int], str]
Place = Tuple[int, int]
Typed = Tuple[Place, str]

SCRIPT = """fn area(width, height) {
    let sum = 0;
    while width > sum and not (height == nil) {
        sum = sum + width * height - 2.5e3;
        print("area \\u{21}", [sum, [1]]);
    }
    return sum;
}
"""

LUA = """local function area(width, height)
    local sum, last = 0, nil
    for i = 1, #width do
        if width[i] == height.first and not last then
            sum = sum + width[i] * (height.second - 2)
        else
            self:push({ sum, name = "area" }, [[ long ]])
        end
    end
    return sum
end
"""


def flat_sum(size: int) -> str:
    return "1+" * ((size - 1) // 2) + "1"


def nested(size: int) -> str:
    depth = (size - 1) // 2
    return "(" * depth + "1" + ")" * depth


def mixed(size: int) -> str:
    block = "12+(3+(45+6))+7+\n"
    return block * ((size - 1) // len(block)) + "1"


def repeated(block: str) -> Make:
    """Makes a text of a block as often as it fits."""
    return lambda size: block * max(1, size // len(block))


RECORD = '{"name": "Ada", "born": 1815, "tags": ["first", "second", null], "ok": true},\n'
# Some 4,000 of these make 1 MiB.
PARTS = ", ".join(f'{{"number": {number}, "of": "parts"}}' for number in range(6))
WIDE_RECORD = RECORD.replace("Ada", "Ada, Countess of Lovelace").replace("null", PARTS)


def json_of(record: str) -> Make:
    """Makes a list of a record as often as it fits."""

    def make(size: int) -> str:
        count = max(1, (size - 4) // len(record))
        return "[\n" + (record * count)[:-2] + "\n]"

    return make


def one_token(size: int) -> str:
    return '"' + "a" * (size - 2) + '"'


class Text(NamedTuple):
    """A text: its grammar; how it is made of a size; a character that changes no tree; an item,
    which does; and where between two of its tokens a fault is put in: after its first token, and
    after each of these marks."""

    grammar: str
    make: Make
    character: str
    item: Optional[str]
    mark: Optional[str]


TEXTS = {
    "flat sum": Text("grammars/g0.lr", flat_sum, "1", "1+", "+"),
    "nested": Text("grammars/g0.lr", nested, " ", "1+", None),
    "mixed": Text("grammars/g0.lr", mixed, "1", "9+\n", "\n"),
    "lines": Text("bench/lines.lr", repeated("12+34+5+678;\n"), "1", "9;\n", "\n"),
    "JSON": Text("grammars/json.lr", json_of(RECORD), " ", "null,\n", "\n"),
    "wide JSON": Text("grammars/json.lr", json_of(WIDE_RECORD), " ", "null,\n", "\n"),
    "Lua": Text("grammars/lua.lr", repeated(LUA), " ", None, "\n"),
    "script": Text("grammars/script.lr", repeated(SCRIPT), " ", None, "\n"),
    "one token": Text("grammars/json.lr", one_token, "a", None, None),
}


def place_of(text: str, offset: int) -> Place:
    """The line and character of an offset."""
    return (text.count("\n", 0, offset), offset - (text.rfind("\n", 0, offset) + 1))


def characters(kind: Text, text: str) -> List[Typed]:
    """Where a character is typed: at the start of the text, in its middle and at its end."""
    inside = 1 if kind.make is one_token else 0
    middle = len(text) // 2
    if kind.mark == "\n":
        middle = text.index("\n", middle) + 1
    offsets = (inside, middle, len(text) - inside)
    return [(place_of(text, offset), kind.character) for offset in offsets]


def items(kind: Text, text: str) -> List[Typed]:
    """Where an item is typed: before the first one, one in the middle, and the last one; nowhere in
    a text of no items."""
    if kind.item is None:
        return []
    first = 2 if text.startswith("[") else 0
    if kind.make is nested:
        there = [(0, "1+"), (len(text) // 2, "1+"), (len(text), "+1")]
        return [(place_of(text, offset), typed) for offset, typed in there]
    if kind.item.endswith("\n"):
        last = text.rstrip("\n]").rindex("\n") + 1 if "\n" in text[2:] else first
        offsets = [first, text.index("\n", len(text) // 2) + 1, last]
    else:
        offsets = [0, len(text) // 4 * 2, len(text) - 1]
    return [(place_of(text, offset), kind.item) for offset in offsets]


def first_token_end(text: str) -> int:
    """The offset after the first token: a word, or one character."""
    end = 1
    while text[0].isalnum() and text[end].isalnum():
        end += 1
    return end


def faults(kind: Text, text: str) -> List[Typed]:
    """Where a character that is no token is put in: after the first token, in the middle, and near
    the end."""
    if kind.make is one_token:
        return []
    if kind.mark is None:
        offsets = [1, len(text) // 2, len(text) - 1]
    else:
        middle = text.index(kind.mark, len(text) // 2) + 1
        offsets = [first_token_end(text), middle, text.rstrip("\n]").rindex(kind.mark) + 1]
    return [(place_of(text, offset), "?") for offset in offsets]
