"""A client of `lrls serve`, which the tests and the programs of bench/ share."""

import json
import os
import subprocess
import threading
import time
from typing import IO, Dict, Optional, Sequence, Tuple

from tests import TOP

START = os.path.join(TOP, "lrls")
# With LRLS_QUICK the programs are run that are made without a proof.
IS_QUICK = bool(os.environ.get("LRLS_QUICK"))


def made(command: str) -> str:
    """The path of the program of this command."""
    crate = command.replace("-", "_")
    quick, proved = ("out", "quick", command), ("crates", crate, "out", crate)
    return os.path.join(TOP, *(quick if IS_QUICK else proved))


# The program that is run: the one that is made, or the one that LRLS_PROGRAM names, which is run as
# it is.
OTHER = os.environ.get("LRLS_PROGRAM")
PROGRAM = os.path.abspath(OTHER) if OTHER else made("lrls")
# After so many seconds without its end, or without a reply, a program has failed.
PATIENCE = int(os.environ.get("LRLS_PATIENCE", "60"))
SUMS = os.path.join(TOP, "grammars", "g0.lr")


def build() -> None:
    """Makes the programs where that isn't done. From then on the sessions run them without looking
    whether it is."""
    if not OTHER:
        subprocess.run([START, "build" if IS_QUICK else "prove"], check=True)


def position(place: Tuple[int, int]) -> Dict[str, int]:
    """A line and a character in it, as the protocol writes them."""
    return {"line": place[0], "character": place[1]}


def framed(message: object) -> bytes:
    """A message with its header."""
    content = json.dumps(message, separators=(",", ":")).encode()
    return b"Content-Length: %d\r\n\r\n%s" % (len(content), content)


def received(out: IO[bytes]) -> bytes:
    """The content of the next frame on this stream."""
    length = 0
    while True:
        line = out.readline()
        if not line:
            raise EOFError("the server has ended")
        if line == b"\r\n":
            return out.read(length)
        name, value = line.split(b":", 1)
        if name.lower() == b"content-length":
            length = int(value)


class Session:
    """A server that runs. Each message waits for its answers; their contents are returned as they
    were sent."""

    def __init__(self, grammar: str) -> None:
        words = [PROGRAM, "serve", os.path.join(TOP, grammar)]
        self.process = subprocess.Popen(
            words, stdin=subprocess.PIPE, stdout=subprocess.PIPE, bufsize=0
        )
        assert self.process.stdin and self.process.stdout
        self.input = self.process.stdin
        self.output = os.fdopen(os.dup(self.process.stdout.fileno()), "rb", buffering=1 << 16)
        self.waits_since: Optional[float] = None
        threading.Thread(target=self.watch, daemon=True).start()
        self.send({"jsonrpc": "2.0", "id": 0, "method": "initialize", "params": {}})

    def watch(self) -> None:
        """Ends a server that hasn't replied for too long. What waits for its reply then meets the
        end of its output."""
        while self.process.poll() is None:
            since = self.waits_since
            if since is not None and time.monotonic() - since > PATIENCE:
                self.process.kill()
            time.sleep(1)

    def write(self, frame: bytes) -> None:
        """Writes all of a frame: the pipe may take it in parts."""
        view = memoryview(frame)
        while view:
            view = view[self.input.write(view) :]

    def receive(self) -> bytes:
        self.waits_since = time.monotonic()
        content = received(self.output)
        self.waits_since = None
        return content

    def send(self, message: object, answers: int = 1) -> bytes:
        """Sends a message that has so many answers, and returns the last one of them."""
        self.write(framed(message))
        answer = b""
        for _ in range(answers):
            answer = self.receive()
        return answer

    def notify(self, method: str, params: object, answers: int = 1) -> bytes:
        return self.send({"jsonrpc": "2.0", "method": method, "params": params}, answers)

    def request(self, method: str, params: object) -> bytes:
        return self.send({"jsonrpc": "2.0", "id": 0, "method": method, "params": params})

    def ask(self, method: str, uri: str, **more: object) -> bytes:
        params: Dict[str, object] = {"textDocument": {"uri": uri}, **more}
        return self.request(method, params)

    def open(self, uri: str, version: int, text: str, answers: int = 1) -> bytes:
        document = {"uri": uri, "languageId": "text", "version": version, "text": text}
        return self.notify("textDocument/didOpen", {"textDocument": document}, answers)

    def change(self, uri: str, version: int, changes: Sequence[object], answers: int = 1) -> bytes:
        document = {"uri": uri, "version": version}
        return self.notify(
            "textDocument/didChange", {"textDocument": document, "contentChanges": changes}, answers
        )

    def forget(self, uri: str) -> bytes:
        return self.notify("textDocument/didClose", {"textDocument": {"uri": uri}})

    def end(self) -> int:
        """Closes the input, and returns the status with which the server ends."""
        self.input.close()
        return self.process.wait(timeout=PATIENCE)

    def close(self) -> int:
        """Ends the server by `shutdown` and `exit`."""
        self.send({"jsonrpc": "2.0", "id": 0, "method": "shutdown"})
        self.write(framed({"jsonrpc": "2.0", "method": "exit"}))
        return self.process.wait(timeout=PATIENCE)
