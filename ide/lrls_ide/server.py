"""One `lrls-ide` that runs for a part of a page: what goes to it, and what comes from it."""

import asyncio
import contextlib
import itertools
import json
import secrets
import sys
from typing import Any, Callable

from .frames import Decoder, framed, written
from .programs import limit

# Ids of requests that come from here. No page has them by chance.
OWN = "page-" + secrets.token_hex(8) + "-"
# The pipe holds so many bytes, where the system lets it.
PIPE = 1 << 20
F_SETPIPE_SZ = 1031
READ = 1 << 18


class Gone(Exception):
    """The server has ended before it replied."""


class Refused(Exception):
    """A request is refused, with this code and text."""

    def __init__(self, code: int, text: str) -> None:
        super().__init__(text)
        self.code = code


class Server:
    """A server that runs. `on_message` gets the contents of the frames that reply to no request from here, and `on_end` the
    status of the process."""

    def __init__(self, on_message: Callable[[bytes], None], on_end: Callable[[int], None]) -> None:
        self.on_message, self.on_end = on_message, on_end
        self.numbers = itertools.count(1)
        self.waiting: dict[str, asyncio.Future[Any]] = {}
        self.process: asyncio.subprocess.Process | None = None
        self.reading: asyncio.Task[None] | None = None
        self.is_ending = False

    async def start(self, *words: str) -> dict[str, Any]:
        """Runs the program with these words, and initializes it as an editor does. Returns what it can."""
        pipe = asyncio.subprocess.PIPE
        self.process = await asyncio.create_subprocess_exec(
            *words, stdin=pipe, stdout=pipe, stderr=asyncio.subprocess.DEVNULL, limit=PIPE, preexec_fn=limit
        )
        self.widen()
        self.reading = asyncio.create_task(self.read())
        can: dict[str, Any] = await self.ask("initialize", {"capabilities": {}})
        self.send(written({"jsonrpc": "2.0", "method": "initialized", "params": {}}))
        return can

    def widen(self) -> None:
        """Lets much stand in the pipe, so that a long reply comes in few pieces."""
        if sys.platform != "linux" or self.process is None:
            return
        import fcntl

        # A system may allow less, and the process may have ended already.
        with contextlib.suppress(OSError, ValueError):
            transport = self.process._transport.get_pipe_transport(1)  # type: ignore[attr-defined]
            fcntl.fcntl(transport.get_extra_info("pipe").fileno(), F_SETPIPE_SZ, PIPE)

    async def read(self) -> None:
        """Reads all that it sends, up to its end."""
        assert self.process and self.process.stdout
        decoder = Decoder()
        while data := await self.process.stdout.read(READ):
            for content in decoder.feed(data):
                self.handle(content)
        status = await self.process.wait()
        for future in self.waiting.values():
            if not future.done():
                future.set_exception(Gone())
                # Who began to wait may have given up, and then nobody looks at it.
                future.exception()
        self.waiting.clear()
        if not self.is_ending:
            self.on_end(status)

    def handle(self, content: bytes) -> None:
        """Hands a reply to who waits for it, and all else on."""
        if OWN.encode() in content:
            self.replied(json.loads(content))
        else:
            self.on_message(content)

    def replied(self, message: dict[str, Any]) -> None:
        """A reply to a request from here has come."""
        future = self.waiting.pop(message.get("id", ""), None)
        if future is None or future.done():
            return
        if "error" in message:
            future.set_exception(Refused(message["error"]["code"], message["error"]["message"]))
        else:
            future.set_result(message["result"])

    def send(self, content: bytes) -> None:
        """Sends a content. To a server that has ended it is lost."""
        if self.process and self.process.stdin and not self.process.stdin.is_closing():
            self.process.stdin.write(framed(content))

    async def ask(self, method: str, params: Any) -> Any:
        """The result of a request."""
        if self.reading is None or self.reading.done():
            raise Gone
        number = OWN + str(next(self.numbers))
        future = self.waiting[number] = asyncio.get_running_loop().create_future()
        self.send(written({"jsonrpc": "2.0", "id": number, "method": method, "params": params}))
        return await future

    async def stop(self, seconds: float = 2) -> None:
        """Ends it: its input is closed, and where that doesn't help in time, it is killed."""
        self.is_ending = True
        if self.process is None or self.reading is None:
            return
        if self.process.stdin:
            self.process.stdin.close()
        try:
            await asyncio.wait_for(asyncio.shield(self.reading), seconds)
        except asyncio.TimeoutError:
            with contextlib.suppress(ProcessLookupError):
                self.process.kill()
            await self.reading
