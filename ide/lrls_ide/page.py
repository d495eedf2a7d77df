"""What stands behind one page of `lrls-playground`: a bridge to an `lrls-ide` for its text and to another one for its grammar.
Each page has a process, so that one with much to do makes no other one wait."""

import asyncio
import contextlib
import json
import shutil
import signal
import sys
import tempfile
from pathlib import Path
from typing import Any, Callable, Coroutine

from .frames import Decoder, framed, written
from .programs import GRAMMARS, how_it_ended
from .server import Gone, Refused, Server
from .streams import Reader, Writer

TEXT = "page:text"
# The methods that a page may send to a server, and those of them that are about no document.
NOTES = ("textDocument/didOpen", "textDocument/didChange", "textDocument/didClose")
ASKED = ("textDocument/foldingRange", "textDocument/semanticTokens/range", "lr/stats", "lrls/nodes", "lrls/tokens")
ABOUT_NONE = ("lrls/grammar",)
# The method that this process answers itself.
PLACED = "page/place"
# So many bytes wait for a page that doesn't take them.
MOST_WAITING = 64 << 20
# So often a server that ends is started again, and within so many seconds the next end counts as the same trouble.
MOST_STARTS, SECONDS = 3, 10
EMPTY = b'lrgrammar 2\ntoken X = "x"\nstart S\nS = X*\n'
# What the web server reads of a page that must not go on.
BAD = b'{"from":"page","bad":'
SHOWN = b"window/showMessage"

Send = Callable[[bytes], None]


def member(value: Any, *names: str) -> Any:
    """What objects within objects have under these names; None where something is missing."""
    for name in names:
        value = value.get(name) if isinstance(value, dict) else None
    return value


def id_of(message: dict[str, Any]) -> int | None:
    """The id of a request of a page; None of a message that has none."""
    value = message.get("id")
    if not isinstance(value, int) or isinstance(value, bool):
        return None
    return value if 0 <= value < 1 << 31 else None


def text_of(path: Path) -> str:
    """The text of a file, as far as it can be read."""
    try:
        return path.read_text(encoding="utf-8", errors="replace")
    except OSError:
        return ""


class BadMessage(Exception):
    """What a page must not send. The text says why."""


class Part:
    """A part of a page, with the server that looks at it, which is started again where it ends. What the server sends goes to
    the page under the part's name."""

    def __init__(self, name: str, words: list[str], send: Send) -> None:
        self.name, self.words, self.send_to_page = name, words, send
        self.server = self.new_server()
        self.starts = 0
        self.tasks: set[asyncio.Task[Any]] = set()
        # The messages that are shown of the settings' file, which are for nobody else.
        self.of_settings: list[str] = []

    def new_server(self) -> Server:
        """A server that doesn't run yet."""
        return Server(self.from_server, self.ended)

    def keep(self, work: Coroutine[Any, Any, None]) -> None:
        """Does some work beside."""
        task = asyncio.create_task(work)
        self.tasks.add(task)
        task.add_done_callback(self.tasks.discard)

    async def begin(self) -> None:
        """Starts the server. The page is told what it can."""
        can = await self.server.start(*self.words)
        self.put(written({"capabilities": can["capabilities"]}))

    async def finish(self) -> None:
        """Ends the server, and all work."""
        for task in list(self.tasks):
            task.cancel()
        await self.server.stop()

    def put(self, content: bytes) -> None:
        """Hands a content to the page."""
        self.send_to_page(b'{"from":"%s","message":%s}' % (self.name.encode(), content))

    def from_server(self, content: bytes) -> None:
        """Hands on what the server sends, but for what it shows of the settings."""
        if SHOWN in content[:60]:
            text = str(member(json.loads(content), "params", "message"))
            if "grammar.toml" in text:
                self.of_settings.append(text)
                return
        self.put(content)

    def ended(self, status: int) -> None:
        """The server has ended by itself: starts it again."""
        self.starts += 1
        if self.starts <= MOST_STARTS:
            self.keep(self.start_again(how_it_ended(status)))

    async def start_again(self, how: str) -> None:
        """Starts a server in the place of one that has ended. The page opens its text again then."""
        self.server = self.new_server()
        with contextlib.suppress(Gone, OSError):
            await self.begin()
            words = f"what looks at the {self.name} ended {how}; it was started again, and nothing was lost"
            self.put(written({"restarted": words}))
            await asyncio.sleep(SECONDS)
            self.starts = 0


class Page:
    """One page: its two parts, and the folder that its grammar is in."""

    def __init__(self, program: str, send: Send) -> None:
        self.send = send
        self.folder = Path(tempfile.mkdtemp(prefix="lrls-page-"))
        self.grammar, self.settings = self.folder / "grammar.lr", self.folder / "grammar.toml"
        self.write(self.grammar, EMPTY)
        self.text = Part("text", [program, str(self.grammar)], send)
        self.parts = {
            "text": self.text,
            "grammar": Part("grammar", [program, str(GRAMMARS / "lr.lr")], send),
        }
        self.lock = asyncio.Lock()
        self.languages = languages()

    async def begin(self) -> None:
        """Starts both parts."""
        await asyncio.gather(*(part.begin() for part in self.parts.values()))
        self.send(written({"from": "page", "languages": sorted(self.languages)}))

    async def end(self) -> None:
        """Ends both parts, and takes the folder away."""
        ends = (part.finish() for part in self.parts.values())
        await asyncio.gather(*ends, return_exceptions=True)
        shutil.rmtree(self.folder, ignore_errors=True)

    def handle(self, content: bytes) -> None:
        """Handles a message of the page. Raises `BadMessage` where it is none."""
        try:
            message = json.loads(content)
        except (ValueError, RecursionError):
            raise BadMessage("no JSON") from None
        if not isinstance(message, dict):
            raise BadMessage("no object")
        to, given = message.get("to"), message.get("message")
        if to == "page" and given is None:
            self.load(message)
        elif to == "page":
            self.place(given)
        elif to in ("text", "grammar"):
            self.hand_on(self.parts[to], given)
        else:
            raise BadMessage("to no part of the page")

    def hand_on(self, part: Part, message: Any) -> None:
        """Hands a message to the server of a part, where a page may send it."""
        if not isinstance(message, dict) or message.get("jsonrpc") != "2.0":
            raise BadMessage("no message of the protocol")
        method, params, number = message.get("method"), message.get("params"), id_of(message)
        is_note = method in NOTES and "id" not in message
        is_asked = method in ASKED and number is not None
        is_about_it = (is_note or is_asked) and member(params, "textDocument", "uri") == f"page:{part.name}"
        if not is_about_it and (method not in ABOUT_NONE or number is None):
            raise BadMessage("a method, an id or a document that no page has")
        try:
            part.server.send(written(message))
        except UnicodeEncodeError:
            raise BadMessage("half of a pair of units is no character") from None

    def place(self, message: Any) -> None:
        """Has the text looked at by another grammar, as the page asks."""
        number = id_of(message) if isinstance(message, dict) else None
        text, language = member(message, "params", "text"), member(message, "params", "language")
        if member(message, "method") != PLACED or number is None:
            raise BadMessage("no request to the page")
        if not isinstance(text, str) or not isinstance(language, str | None):
            raise BadMessage("no grammar to put in place")
        try:
            grammar = text.encode()
        except UnicodeEncodeError:
            raise BadMessage("half of a pair of units is no character") from None
        self.text.keep(self.placed(number, grammar, language))

    async def placed(self, number: int, grammar: bytes, language: str | None) -> None:
        """Puts a grammar in place, and tells the page which language's settings are used with it."""
        async with self.lock:
            used = await self.use(grammar, language)
        result = {"jsonrpc": "2.0", "id": number, "result": {"language": used}}
        self.send(written({"from": "page", "message": result}))

    async def use(self, grammar: bytes, language: str | None) -> str | None:
        """Has the text looked at by a grammar. The settings of a language of the menu go with its grammar, as long as they fit:
        returns its name, where it has settings and they do."""
        same = (name for name, text in self.languages.items() if text.encode() == grammar)
        language = next(same, language)
        self.take_settings(language)
        self.write(self.grammar, grammar)
        self.text.of_settings.clear()
        await self.is_read()
        if self.text.of_settings:
            # They are another grammar's.
            self.settings.unlink(missing_ok=True)
            await self.is_read()
        return language if self.settings.is_file() else None

    async def is_read(self) -> None:
        """Waits until the server of the text has read its files, and has published what they say of the text."""
        with contextlib.suppress(Gone, Refused):
            await self.text.server.ask("lr/stats", {"textDocument": {"uri": TEXT}})

    def write(self, path: Path, content: bytes) -> None:
        """A file gets this content, all at once."""
        new = path.with_suffix(".new")
        new.write_bytes(content)
        new.replace(path)

    def take_settings(self, language: str | None) -> None:
        """The settings are those of this language of the menu; none, where it has none."""
        settings = GRAMMARS / f"{language}.toml"
        if language not in self.languages or not settings.is_file():
            self.settings.unlink(missing_ok=True)
            return
        lines = text_of(settings).split("\n")
        kept = "\n".join(line for line in lines if not line.startswith("grammar ="))
        self.write(self.settings, kept.encode())

    def load(self, message: dict[str, Any]) -> None:
        """Sends a grammar of the menu, and its sample."""
        name = message.get("name")
        if message.get("do") != "load":
            raise BadMessage("no action of a page")
        if not isinstance(name, str) or name not in self.languages:
            raise BadMessage("no language of the menu")
        samples = sorted((GRAMMARS / "samples").glob(f"{name}.*"))
        sample = next((path for path in samples if path.suffix != ".tree"), Path(f"{name}.txt"))
        names = [f"{name}.lr", sample.name]
        found = {"from": "page", "loaded": name, "names": names, "grammar": self.languages[name]}
        self.send(written({**found, "text": text_of(sample)}))


def languages() -> dict[str, str]:
    """The names of the menu, each with its grammar."""
    return {path.stem: text_of(path) for path in GRAMMARS.glob("*.lr")}


class Process:
    """The process of a page: it takes the page's messages as frames on standard input, and writes
    what goes to the page on standard output, until its input ends."""

    def __init__(self, out: Writer) -> None:
        self.out = out
        self.ended = asyncio.Event()
        self.decoder = Decoder()
        self.page: Page | None = None

    def send(self, content: bytes) -> None:
        """Sends a message to the page."""
        self.out.write(framed(content))
        if self.out.waiting() > MOST_WAITING and not self.ended.is_set():
            self.refuse("it doesn't take what it asked for")

    def refuse(self, why: str) -> None:
        """Has the page closed."""
        self.ended.set()
        self.out.write(framed(BAD + written(why) + b"}"))

    def take(self, data: bytes) -> None:
        """Takes what the page has sent; nothing, where it has ended."""
        if not data:
            self.ended.set()
        for content in self.decoder.feed(data):
            if self.page is not None and not self.ended.is_set():
                self.handle(self.page, content)

    def handle(self, page: Page, content: bytes) -> None:
        """Handles one message. Whatever goes wrong with it, it was none of a page."""
        try:
            page.handle(content)
        except BadMessage as bad:
            self.refuse(str(bad))
        except Exception as error:
            print(f"lrls-playground: {type(error).__name__}: {error}", file=sys.stderr)
            self.refuse("it can't be handled")

    async def run(self, program: str) -> None:
        """Serves the page to its end, by this `lrls-ide`."""
        self.page = Page(program, self.send)
        asyncio.get_running_loop().add_signal_handler(signal.SIGTERM, self.ended.set)
        try:
            await self.page.begin()
            Reader(0, self.take).start()
            await self.ended.wait()
        finally:
            await self.page.end()
            await self.out.close()


async def serve(program: str) -> None:
    """Serves a page on standard input and output, by this `lrls-ide`."""
    out = await Writer.on(1)
    process = Process(out)
    out.is_lost.add_done_callback(lambda _: process.ended.set())
    await process.run(program)


if __name__ == "__main__":
    asyncio.run(serve(sys.argv[1]))
