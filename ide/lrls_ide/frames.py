"""The frames of the protocol: a header with the content's length, and the content."""

import json
import re
from typing import Any, Iterator

# The core refuses longer ones.
MOST_HEADER = 4_096

LENGTH = re.compile(rb"content-length[ \t]*:[ \t]*([0-9]{1,18})[ \t]*", re.IGNORECASE)


class FrameFault(Exception):
    """A stream that is no sequence of frames. The text says why."""


class Decoder:
    """Cuts a stream into the contents of its frames."""

    def __init__(self) -> None:
        self.rest = bytearray()
        self.length: int | None = None

    def feed(self, data: bytes) -> Iterator[bytes]:
        """The contents of the frames that these bytes end."""
        self.rest += data
        while self.is_whole():
            with memoryview(self.rest) as rest:
                content = bytes(rest[: self.length])
            del self.rest[: self.length]
            self.length = None
            yield content

    def is_whole(self) -> bool:
        """Whether the next frame is there. Reads its header, where that is there."""
        if self.length is None:
            end = self.rest.find(b"\r\n\r\n", 0, MOST_HEADER)
            if end < 0:
                if len(self.rest) >= MOST_HEADER:
                    raise FrameFault(f"a header of more than {MOST_HEADER:,} bytes: {bytes(self.rest[:60])!r}")
                return False
            self.length = self.length_in(bytes(self.rest[:end]))
            del self.rest[: end + 4]
        return len(self.rest) >= self.length

    def length_in(self, header: bytes) -> int:
        """The length of the content, by this header."""
        found = [LENGTH.fullmatch(line) for line in header.split(b"\r\n")]
        lengths = [int(match.group(1)) for match in found if match]
        if len(lengths) != 1:
            raise FrameFault(f"a header without one Content-Length: {header[:60]!r}")
        return lengths[0]


def written(message: Any) -> bytes:
    """The content that says this message."""
    return json.dumps(message, ensure_ascii=False, separators=(",", ":")).encode()


def framed(content: bytes) -> bytes:
    """The frame of a content."""
    return b"Content-Length: %d\r\n\r\n%s" % (len(content), content)


def read(content: bytes) -> dict[str, Any] | None:
    """The message that a content says; None where it says none, which only the core answers."""
    try:
        message = json.loads(content.decode())
    except (ValueError, RecursionError):
        return None
    return message if isinstance(message, dict) else None
