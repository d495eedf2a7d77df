"""The page in the browser: who may open it, what it gets, and how much of everything."""

import argparse
import asyncio
import contextlib
import hmac
import html
import json
import os
import secrets
import signal
import subprocess
import sys
import tempfile
import time
import webbrowser
from pathlib import Path
from typing import Any, Iterator

from aiohttp import WSMsgType, web

from .frames import Decoder, framed
from .page import BAD
from .programs import GRAMMARS, IDE, found

ASSETS = IDE / "playground"
CODEMIRROR = Path("/usr/share/javascript/codemirror")
HOST = "127.0.0.1"
# The pages at a time, the bytes of a message, and the messages of a page: at once, and on average in a second.
MOST_PAGES = 32
MOST_BYTES = 4 << 20
MOST_AT_ONCE, MOST_A_SECOND = 2_000, 200
# The bytes that are read at once of what goes to a page, and the seconds that a page's end may take.
READ, PATIENCE = 1 << 18, 10
HEADERS = {
    "Content-Security-Policy": "default-src 'self'; style-src 'self' 'unsafe-inline'; frame-ancestors 'none'; base-uri 'none'",
    "X-Content-Type-Options": "nosniff",
    "Referrer-Policy": "no-referrer",
    "Cache-Control": "no-store",
}
FORWARD = """<!DOCTYPE html>
<html lang="en">
<meta charset="utf-8">
<meta http-equiv="refresh" content="0; url={0}">
<title>lrls-playground</title>
<a href="{0}">lrls-playground</a>
</html>
"""
TRY_AGAIN, POLICY, FAILED = 1013, 1008, 1011


class Allowance:
    """How many messages a page may send still."""

    def __init__(self) -> None:
        self.left, self.at = float(MOST_AT_ONCE), time.monotonic()

    def takes_one(self) -> bool:
        """Whether one more may come now."""
        now = time.monotonic()
        self.left = min(MOST_AT_ONCE, self.left + (now - self.at) * MOST_A_SECOND) - 1
        self.at = now
        return self.left >= 0


class Playground:
    """The web server of the pages. Its address has a key that nobody else knows."""

    def __init__(self, program: str) -> None:
        self.program = program
        self.key = secrets.token_urlsafe(16)
        self.port = 0
        self.open_pages = 0
        self.sockets: set[web.WebSocketResponse] = set()

    def application(self) -> web.Application:
        """What is served, and to whom."""
        application = web.Application(middlewares=[self.guard])
        application.router.add_get("/{key}/", self.index)
        application.router.add_get("/{key}/socket", self.socket)
        application.router.add_get("/{key}/{file:[a-z]+\\.(?:js|css|svg)}", self.asset)
        application.router.add_get("/{key}/codemirror/{file:[a-z/-]+\\.(?:js|css)}", self.codemirror)
        application.on_shutdown.append(self.close_all)
        return application

    @web.middleware
    async def guard(self, request: web.Request, handler: Any) -> web.StreamResponse:
        """Refuses all that doesn't come from the page itself."""
        if request.host not in (f"{HOST}:{self.port}", f"localhost:{self.port}"):
            raise web.HTTPForbidden(text="lrls-playground answers at 127.0.0.1 alone\n")
        if not hmac.compare_digest(request.match_info.get("key", "").encode(), self.key.encode()):
            raise web.HTTPNotFound(text="no such page: open the address that lrls-playground has printed\n")
        response = await handler(request)
        if not response.prepared:
            response.headers.update(HEADERS)
        return response

    async def index(self, _: web.Request) -> web.StreamResponse:
        """The page."""
        return web.FileResponse(ASSETS / "index.html")

    async def asset(self, request: web.Request) -> web.StreamResponse:
        """A script or the style of the page."""
        return self.file(ASSETS, request.match_info["file"])

    async def codemirror(self, request: web.Request) -> web.StreamResponse:
        """A file of CodeMirror."""
        return self.file(CODEMIRROR, request.match_info["file"])

    @staticmethod
    def file(folder: Path, name: str) -> web.StreamResponse:
        """A file in a folder, if it is there."""
        path = folder / name
        if not path.is_file():
            raise web.HTTPNotFound(text="no such file\n")
        return web.FileResponse(path)

    async def socket(self, request: web.Request) -> web.StreamResponse:
        """The socket of a page, whose servers end with it."""
        origin = request.headers.get("Origin", "")
        if origin not in (f"http://{HOST}:{self.port}", f"http://localhost:{self.port}"):
            raise web.HTTPForbidden(text="a socket is for the page itself\n")
        socket = web.WebSocketResponse(max_msg_size=MOST_BYTES, heartbeat=30)
        await socket.prepare(request)
        if self.open_pages >= MOST_PAGES:
            await socket.close(code=TRY_AGAIN, message=f"{MOST_PAGES} pages are open: close one".encode())
            return socket
        self.open_pages += 1
        self.sockets.add(socket)
        try:
            await self.serve(socket)
        finally:
            self.open_pages -= 1
            self.sockets.discard(socket)
        return socket

    async def serve(self, socket: web.WebSocketResponse) -> None:
        """Serves a page until its socket closes, by a process of its own."""
        process = await self.started()
        writer = asyncio.create_task(self.write(socket, process))
        try:
            await self.read(socket, process)
        finally:
            assert process.stdin
            process.stdin.close()
            await self.ended(process)
            writer.cancel()

    async def started(self) -> asyncio.subprocess.Process:
        """The process of a page. An interrupt from the keyboard is for this one alone."""
        pipe = asyncio.subprocess.PIPE
        words = [sys.executable, "-BP", "-m", "lrls_ide.page", self.program]
        environment = {**os.environ, "PYTHONPATH": str(IDE)}
        return await asyncio.create_subprocess_exec(
            *words, stdin=pipe, stdout=pipe, env=environment, start_new_session=True
        )

    async def ended(self, process: asyncio.subprocess.Process) -> None:
        """Waits for the end of a page's process, and ends it where that takes too long."""
        try:
            await asyncio.wait_for(process.wait(), PATIENCE)
        except asyncio.TimeoutError:
            process.kill()
            await process.wait()

    async def write(self, socket: web.WebSocketResponse, process: asyncio.subprocess.Process) -> None:
        """Sends what the process of a page says; it also says whether the page has to be closed."""
        assert process.stdout
        decoder = Decoder()
        while data := await process.stdout.read(READ):
            for content in decoder.feed(data):
                if content.startswith(BAD):
                    why = json.loads(content)["bad"]
                    await socket.close(code=POLICY, message=f"no message of a page: {why}".encode())
                elif not socket.closed:
                    await socket.send_str(content.decode())
        if not socket.closed:
            await socket.close(code=FAILED, message=b"the process of the page has ended")

    async def read(self, socket: web.WebSocketResponse, process: asyncio.subprocess.Process) -> None:
        """Hands on what a page sends. A message that no page sends ends it."""
        assert process.stdin
        allowance = Allowance()
        async for message in socket:
            if message.type != WSMsgType.TEXT:
                await socket.close(code=POLICY, message=b"no message of a page: not a text")
                return
            if not allowance.takes_one():
                await socket.close(code=POLICY, message=b"too many messages")
                return
            process.stdin.write(framed(message.data.encode()))
            try:
                await process.stdin.drain()
            except ConnectionError:
                return

    async def close_all(self, _: web.Application) -> None:
        """Closes all pages, when the program ends."""
        for socket in list(self.sockets):
            await socket.close(code=1001, message=b"lrls-playground has ended")


def arguments() -> argparse.Namespace:
    """What the command line says."""
    parser = argparse.ArgumentParser(prog="lrls-playground", description="A page in the browser in which a grammar is written and tried.")
    parser.add_argument("--port", type=int, default=0, help="the port, where it shall not be any free one")
    parser.add_argument("--open", action="store_true", help="opens the page in the browser")
    parser.add_argument("--server", metavar="PROGRAM", help="the program `lrls-ide`, where another one than that beside is wanted")
    return parser.parse_args()


async def serve(given: argparse.Namespace, program: str) -> None:
    """Serves pages until it is ended. Then it closes them, so that their folders and servers go too."""
    playground = Playground(program)
    runner = web.AppRunner(playground.application(), access_log=None)
    await runner.setup()
    site = web.TCPSite(runner, HOST, given.port)
    await site.start()
    playground.port = site._server.sockets[0].getsockname()[1]  # type: ignore[union-attr]
    address = f"http://{HOST}:{playground.port}/{playground.key}/"
    print(f"{address}\nWhoever has this address can use the page; Ctrl-C ends it.", flush=True)
    ended = asyncio.Event()
    asyncio.get_running_loop().add_signal_handler(signal.SIGTERM, ended.set)
    with forwarding(address) if given.open else contextlib.nullcontext() as file:
        if file:
            webbrowser.open(file.as_uri())
        try:
            await ended.wait()
        finally:
            await runner.cleanup()


@contextlib.contextmanager
def forwarding(address: str) -> Iterator[Path]:
    """A file that leads to an address, while the block lasts. Only who has started the program can
    read it: the arguments of a browser can be seen by all users of the machine."""
    with tempfile.TemporaryDirectory(prefix="lrls-playground-") as folder:
        file = Path(folder) / "open.html"
        file.touch(mode=0o600)
        file.write_text(FORWARD.format(html.escape(address)), encoding="utf-8")
        yield file


def main() -> int:
    """Runs the program. Answers its status."""
    given = arguments()
    if not CODEMIRROR.is_dir():
        print("lrls-playground: CodeMirror is missing: apt install libjs-codemirror", file=sys.stderr)
        return 1
    program = found(given.server)
    try:
        # A script makes its program first, and says how far it is.
        subprocess.run([program, "--settings", str(GRAMMARS / "lr.lr")], stdout=subprocess.DEVNULL, check=False)
        asyncio.run(serve(given, program))
    except OSError as error:
        why = f"can't run {program}: {error.strerror}; name another one with --server PROGRAM"
        print(f"lrls-playground: {why if error.filename == program else error}", file=sys.stderr)
        return 1
    except KeyboardInterrupt:
        pass
    return 0
