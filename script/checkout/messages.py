"""What an editor that starts the server is told: log messages of the protocol, besides lines on
standard error.

A session of a program that is there reads this first, so it imports little. """

from __future__ import annotations

import array
import contextlib
import fcntl
import json
import os
import select
import termios
from typing import Optional

UNPROVED = (
    "the proofs of this commit weren't repeated on this machine: `lrls prove` repeats them and "
    "makes the faster program, which counts from then on"
)

INPUT, OUTPUT = 0, 1
# The type `Info` of a message.
INFO = 3


def is_from_editor() -> bool:
    """Whether standard input is no terminal."""
    return not os.isatty(INPUT)


def has_spoken(seconds: Optional[float] = 0) -> bool:
    """Whether the client has sent something that wasn't read yet, or sends it within so many
    seconds; without a number it waits for that, or for the end of the input."""
    waiting = array.array("i", [0])
    with contextlib.suppress(OSError):
        ready, _, _ = select.select([INPUT], [], [], seconds)
        if ready:
            fcntl.ioctl(INPUT, termios.FIONREAD, waiting)
    return waiting[0] > 0


def log(line: str) -> None:
    """Sends a line as a log message. The protocol allows one from when the client has asked for
    `initialize`."""
    message = {
        "jsonrpc": "2.0",
        "method": "window/logMessage",
        "params": {"type": INFO, "message": f"lrls: {line}"},
    }
    content = json.dumps(message, separators=(",", ":")).encode()
    os.write(OUTPUT, b"Content-Length: %d\r\n\r\n%s" % (len(content), content))


def log_unproved() -> None:
    """Tells the editor that has started a session, once it speaks, that its program was made
    without a proof."""
    if is_from_editor() and has_spoken(None):
        log(UNPROVED)
