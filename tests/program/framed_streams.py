"""Streams of bytes that `lrls serve` reads, the contents that it writes of their frames, and the
fault that ends them, or none.

No content here is a message: the reply shows whether it is JSON.
"""

from typing import List, Tuple

from tests.program.messages import INVALID, PARSE_ERROR


def padded(size: int) -> bytes:
    """A header part of so many bytes, and a content of two."""
    return b"Content-Length:" + b" " * (size - 20) + b"2\r\n\r\n{}"


STREAMS: List[Tuple[bytes, List[str], str]] = [
    (b"", [], ""),
    (b"Content-Length: 1\r\n\r\n{", [PARSE_ERROR], ""),
    (b"Content-Length: 0\r\nX: " + b"x" * (4_096 - 26) + b"\r\n\r\n", [PARSE_ERROR], ""),
    (
        b"Content-Type: application/vscode-jsonrpc; charset=utf-8\r\nContent-Length: 2\r\n\r\n{}",
        [INVALID],
        "",
    ),
    (
        b"CONTENT-LENGTH:2\r\ncontent-type:\t application/vscode-jsonrpc; charset=utf8 \r\n\r\n{}",
        [INVALID],
        "",
    ),
    (b"X-2:\r\nContent-Length: \t2 \r\nContent: Content-Length: x\r\n\r\n{}", [INVALID], ""),
    (padded(4_096), [INVALID], ""),
    (b"X\r\n\r\n", [], "F1"),
    (b"Content-Length: 1\r\n\r\n{X\r\n\r\n", [PARSE_ERROR], "F1"),
    (b"Content-Length: 2\r\n: 1\r\n\r\n{}", [], "F1"),
    (b"Content-Length: 2\r\nX\r\n\r\n{}", [], "F1"),
    (b"Content-Length: 2\r\nX_: 1\r\n\r\n{}", [], "F1"),
    (b"Content-Length: 2\r\nX: \x7f\r\n\r\n{}", [], "F1"),
    (b"Content-Length: 2\r\nX: 1\n\r\n\r\n{}", [], "F1"),
    (b"Content-Length: 2\r\nX: 1\r\r\n\r\n{}", [], "F1"),
    (b"\r\n", [], "F2"),
    (b"X: Content-Length\r\n\r\n", [], "F2"),
    (b"Content-Type: application/vscode-jsonrpc; charset=utf-8\r\n\r\n", [], "F2"),
    (b"Content-Length: 2\r\nContent-Length: 2\r\n\r\n{}", [], "F3"),
    (b"Content-Length: 2\r\nX: 1\r\nCONTENT-LENGTH: x\r\n\r\n{}", [], "F3"),
    (b"Content-Length: two\r\n\r\n{}", [], "F4"),
    (b"Content-Length: 16777217\r\n\r\n", [], "F4"),
    (b"Content-Length: x\r\nContent-Length: 2\r\n\r\n{}", [], "F4"),
    (b"Content-Type: text/plain\r\nContent-Length: 2\r\n\r\n{}", [], "F5"),
    (
        b"Content-Length: 2\r\nContent-Type: application/vscode-jsonrpc; charset=UTF-8\r\n\r\n{}",
        [],
        "F5",
    ),
    (b"Content-Length: 5\r\n\r\n{}", [], "F6"),
    (b"Content-Len", [], "F6"),
    (b"Content-Length: 2\r\n", [], "F6"),
    (b"X\r\nContent-Length: x\r\n", [], "F6"),
    (padded(4_097)[:4_095], [], "F6"),
    (b"X: " + b"x" * 4_093, [], "F8"),
    (padded(4_097)[:4_096], [], "F8"),
    (padded(4_097), [], "F8"),
    # lines that end in LF alone end no header part
    (b"Content-Length: 2\n\n{}", [], "F6"),
    (b"Content-Length: 2\n\n{}Content-Length: 2\r\n\r\n{}", [], "F1"),
    (b"Content-Length: 2\n\n{}" + b" " * 4_096, [], "F8"),
    # the first faulty line decides
    (b"Content-Type: \r\nContent-Length: x\r\nX\r\n\r\n{}", [], "F5"),
    (b"X\r\nContent-Type: x\r\nContent-Length: x\r\n\r\n{}", [], "F1"),
]
