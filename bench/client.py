"""A client of `lrls serve`, which times its answers."""

import os
import sys
import time
from typing import Dict, Tuple

TOP = os.path.dirname(os.path.dirname(os.path.abspath(__file__)))
sys.path.append(TOP)

from tests.common import serving
from tests.common.serving import framed, position

URI = "bench:text"


# A line and a character, and a time in seconds with the content that was answered.
Place = Tuple[int, int]
Answer = Tuple[float, bytes]


class Session(serving.Session):
    """A server that runs. Times are those from the first byte written to the last byte of the
    answer, in seconds."""

    def __init__(self, grammar: str) -> None:
        super().__init__(grammar)
        self.version = 0

    def timed(self, message: object, answers: int = 1) -> Answer:
        """Sends a message that has so many answers. Returns the time and the last one of them."""
        frame = framed(message)
        answer = b""
        begun = time.perf_counter()
        self.write(frame)
        for _ in range(answers):
            answer = self.receive()
        return time.perf_counter() - begun, answer

    def notify(  # type: ignore[override]
        self, method: str, params: object, answers: int = 1
    ) -> Answer:
        return self.timed({"jsonrpc": "2.0", "method": method, "params": params}, answers)

    def request(self, method: str, params: object) -> Answer:  # type: ignore[override]
        return self.timed({"jsonrpc": "2.0", "id": 0, "method": method, "params": params})

    def ask(self, method: str, uri: str = URI, **more: object) -> Answer:  # type: ignore[override]
        params: Dict[str, object] = {"textDocument": {"uri": uri}, **more}
        return self.request(method, params)

    def open(self, text: str, uri: str = URI, answers: int = 1) -> float:  # type: ignore[override]
        self.version += 1
        document = {"uri": uri, "languageId": "text", "version": self.version, "text": text}
        return self.notify("textDocument/didOpen", {"textDocument": document}, answers)[0]

    def change(  # type: ignore[override]
        self, start: Place, end: Place, text: str, uri: str = URI, answers: int = 1
    ) -> float:
        self.version += 1
        edit = {"range": {"start": position(start), "end": position(end)}, "text": text}
        document = {"uri": uri, "version": self.version}
        params = {"textDocument": document, "contentChanges": [edit]}
        return self.notify("textDocument/didChange", params, answers)[0]

    def forget(self, uri: str = URI) -> float:  # type: ignore[override]
        return self.notify("textDocument/didClose", {"textDocument": {"uri": uri}})[0]

    def memory(self, name: str = "VmHWM") -> float:
        """The greatest memory that the process had, or with `VmRSS` the memory that it has, in
        MiB."""
        with open(f"/proc/{self.process.pid}/status", encoding="ascii") as status:
            for line in status:
                if line.startswith(name + ":"):
                    return int(line.split()[1]) / 1024
        return 0.0
