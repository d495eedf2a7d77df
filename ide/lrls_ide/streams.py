"""Standard input and output of a page's process, which are pipes."""

import asyncio
import os
from typing import Callable

READ = 1 << 16


class Writer(asyncio.BaseProtocol):
    """Writes to standard output without waiting, and without losing anything."""

    def __init__(self) -> None:
        self.transport: asyncio.WriteTransport | None = None
        self.is_lost = asyncio.get_running_loop().create_future()

    @classmethod
    async def on(cls, number: int) -> "Writer":
        """A writer on a file that is open under this number."""
        writer = cls()
        file = os.fdopen(number, "wb", buffering=0, closefd=False)
        writer.transport, _ = await asyncio.get_running_loop().connect_write_pipe(lambda: writer, file)
        return writer

    def connection_lost(self, exc: Exception | None) -> None:
        """Nobody reads any more."""
        if not self.is_lost.done():
            self.is_lost.set_result(None)

    def write(self, data: bytes) -> None:
        """Writes all of this, now or later."""
        if self.transport is not None:
            self.transport.write(data)

    def waiting(self) -> int:
        """How many bytes wait for who reads them."""
        return self.transport.get_write_buffer_size() if self.transport is not None else 0

    async def close(self) -> None:
        """Writes what is left, and ends."""
        if self.transport is not None:
            self.transport.close()
            await asyncio.wait([self.is_lost], timeout=5)


class Reader:
    """Reads standard input, and calls `on_data` with what is read, which is empty at the end."""

    def __init__(self, number: int, on_data: Callable[[bytes], None]) -> None:
        self.number, self.on_data = number, on_data
        self.loop = asyncio.get_running_loop()

    def start(self) -> None:
        """Begins to read."""
        self.loop.add_reader(self.number, self.read)

    def read(self) -> None:
        """Reads what is there."""
        try:
            data = os.read(self.number, READ)
        except (BlockingIOError, InterruptedError):
            return
        except OSError:
            data = b""
        if not data:
            self.loop.remove_reader(self.number)
        self.on_data(data)
