"""What a made program says of itself: the compiler's mark in it, and the note that the script
writes beside it."""

from __future__ import annotations

import hashlib
import json
import re
import struct
from dataclasses import asdict, dataclass
from typing import Iterator, Optional, Tuple

# The compiler writes it into the section .comment of a program that it has proved.
MARK = re.compile(rb"rattle logic=([0-9a-f]+)")
SECTION = b".comment"
# So many digits of the logic are shown, as `rt version` shows it.
DIGITS = 16


@dataclass(frozen=True)
class Note:
    """How a program was made: the kit, the commit, whether that was published and unchanged, and
    the program's SHA-256."""

    kit: str
    commit: str
    published: bool
    sha256: str


def note_path(program: str) -> str:
    """Where the note about a program is."""
    return f"{program}.note"


def write_note(program: str, kit: str, commit: str, published: bool) -> None:
    """Writes the note about a program that was just made."""
    with open(note_path(program), "w", encoding="utf-8") as file:
        json.dump(asdict(Note(kit, commit, published, digest(program))), file, indent=1)


def read_note(program: str) -> Optional[Note]:
    """The note about this very program; none where there is none, or where it is about another
    one."""
    try:
        with open(note_path(program), encoding="utf-8") as file:
            note = Note(**json.load(file))
    except (OSError, ValueError, TypeError):
        return None
    return note if note.sha256 == digest(program) else None


def digest(path: str) -> str:
    """The SHA-256 of a file."""
    with open(path, "rb") as file:
        return hashlib.sha256(file.read()).hexdigest()


def sections(program: bytes) -> Iterator[Tuple[int, int, int]]:
    """The sections of a program of 64 bits (ELF): where the name of each is, counted from that of
    the first, its place and size."""
    at, size, count = (
        *struct.unpack_from("<Q", program, 40),
        *struct.unpack_from("<HH", program, 58),
    )[:3]
    for header in range(at, at + size * count, size):
        (name,) = struct.unpack_from("<I", program, header)
        place, length = struct.unpack_from("<QQ", program, header + 24)
        yield name, place, length


def comment(program: bytes) -> bytes:
    """What the section .comment of a program has; nothing where it has none, or where this is no
    program."""
    if not program.startswith(b"\x7fELF\x02\x01"):
        return b""
    found = list(sections(program))
    (index,) = struct.unpack_from("<H", program, 62)
    names = found[index][1]
    for name, place, length in found:
        if program.startswith(SECTION + b"\0", names + name):
            return program[place : place + length]
    return b""


def logic_of(path: str) -> Optional[str]:
    """The logic by which the program was proved, by the compiler's mark; none where it has no
    mark."""
    try:
        with open(path, "rb") as file:
            mark = MARK.search(comment(file.read()))
    except (OSError, struct.error, IndexError):
        return None
    return mark.group(1).decode() if mark else None


def is_of(logic: str, kit: str) -> bool:
    """Whether the line that names a kit has this logic. It has the first digits alone."""
    digits = kit.rpartition(" logic ")[2]
    return len(digits) >= DIGITS and logic.startswith(digits)


def statement(path: str) -> str:
    """What is known of how a program was made, in one line."""
    logic, note = logic_of(path), read_note(path)
    if logic and note and is_of(logic, note.kit):
        return f"proved here with {note.kit}"
    if logic:
        return f"proved by a kit of logic {logic[:DIGITS]}, by the compiler's mark; which kit wasn't noted"
    if note and note.published:
        return f"built from a commit whose gate passed, proofs not repeated here; by {note.kit}"
    if note:
        return f"built from files that no gate has passed, and not proved; by {note.kit}"
    return "built in a way that was not noted, and not proved"
