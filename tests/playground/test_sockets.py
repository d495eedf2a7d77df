"""Tries the sockets of `ide/lrls-playground`, without a browser: hosts, origins, keys, messages,
and how it opens a browser.
Needs Python 3.11 and the Debian packages python3-aiohttp and libjs-codemirror.
One of them: pytest tests/playground/test_sockets.py -k messages

LRLS_PLAYGROUND in the environment is another program to test.
"""

import asyncio
import contextlib
import json
import os
import re
import time
from pathlib import Path
from socket import socket as Socket
from typing import Any, Dict, Iterator, Tuple

import pytest

from tests import TOP
from tests.common import processes
from tests.common.cases import Cases
from tests.common.serving import PATIENCE
from tests.playground.program import CODEMIRROR, Playground

aiohttp = pytest.importorskip("aiohttp", reason="lrls-playground needs python3-aiohttp")
yarl = pytest.importorskip("yarl", reason="lrls-playground needs python3-aiohttp")
if not os.path.isdir(CODEMIRROR):
    pytest.skip("lrls-playground needs libjs-codemirror", allow_module_level=True)

# The program takes no longer message.
MOST_BYTES = 4 << 20
# What comes with each file: scripts and connections of the page itself alone.
HEADERS = {
    "Content-Security-Policy": "default-src 'self'; style-src 'self' 'unsafe-inline'; "
    "frame-ancestors 'none'; base-uri 'none'",
    "X-Content-Type-Options": "nosniff",
    "Referrer-Policy": "no-referrer",
    "Cache-Control": "no-store",
}
# So often it is tried whether a busy page makes another one wait, until it is seen that it doesn't.
TIMES = 5
# What a core may take, as the system shows it: docs/IDE.md says the same.
LIMITS = {"Max address space": 1 << 30, "Max cpu time": 300, "Max core file size": 0}


def request_of(**more: object) -> str:
    """A request as a page sends it, with some members in the place of others."""
    params = {"textDocument": {"uri": "page:text"}}
    return json.dumps(
        {
            "to": "text",
            "message": {
                "jsonrpc": "2.0",
                "id": 1,
                "method": "lr/stats",
                "params": params,
                **more,
            },
        }
    )


BAD_MESSAGES = [
    "{",
    "[]",
    "null",
    "[" * 100_000,
    json.dumps({"to": "nobody"}),
    json.dumps({"to": "page", "do": "exit"}),
    json.dumps({"to": "page", "do": "load", "name": "../../etc/passwd"}),
    json.dumps({"to": "page", "do": "grammar", "text": 5}),
    json.dumps({"to": "page", "message": 5}),
    json.dumps({"to": "page", "message": {"id": 1, "method": "page/none"}}),
    json.dumps({"to": "page", "message": {"method": "page/place", "params": {"text": ""}}}),
    json.dumps({"to": "page", "message": {"id": 1, "method": "page/place", "params": {}}}),
    json.dumps(
        {"to": "page", "message": {"id": 1, "method": "page/place", "params": {"text": "\ud800"}}}
    ),
    request_of(method="lrls/grammar", id=None),
    request_of(method="lrls/grammar", params={"text": "\ud800"}),
    json.dumps({"to": "text", "message": 5}),
    json.dumps({"to": "text", "message": {"jsonrpc": "2.0", "method": "exit"}}),
    json.dumps({"to": "text", "message": {"jsonrpc": "2.0", "id": 1, "method": "shutdown"}}),
    request_of(id="a"),
    request_of(method="lr/none"),
    request_of(params={"textDocument": {"uri": "file:///etc/passwd"}}),
    request_of(params={"textDocument": 5}),
    request_of(params=None),
    json.dumps({"to": ["text"], "message": {}}),
    json.dumps({"to": {"a": 1}}),
    json.dumps({"to": "page", "do": ["load"], "name": "script"}),
    json.dumps({"to": "page", "do": "load", "name": {"a": 1}}),
    request_of(method=["lr/stats"]),
    request_of(method={"lr/stats": 1}),
    request_of(params={"textDocument": {"uri": ["page:text"]}}),
    request_of(params={"textDocument": {"uri": "page:text", "half": "\ud800"}}),
    b"bytes",
    "x" * (5 << 20),
]


async def refused_requests(cases: Cases, address: str) -> None:
    """Hosts, origins and keys."""
    site = address.split("/")[2]
    origin = f"http://{site}"
    rows = [
        ("the page", "", {}, 200),
        ("a script", "page.js", {}, 200),
        ("another key", "%2e%2e/none/", {}, 404),
        ("no key", "%2e%2e/", {}, 404),
        ("a file that isn't there", "none.js", {}, 404),
        ("a file elsewhere", "codemirror/%2e%2e/%2e%2e/%2e%2e/%2e%2e/etc/passwd", {}, 404),
        ("another host", "", {"Host": "evil.example"}, 403),
        ("a socket from elsewhere", "socket", {"Origin": "http://evil.example"}, 403),
        ("a socket without an origin", "socket", {}, 403),
        ("a socket that is none", "socket", {"Origin": origin}, 400),
    ]
    async with aiohttp.ClientSession() as session:
        for name, path, headers, status in rows:
            async with session.get(
                yarl.URL(address + path, encoded=True), headers=headers
            ) as answer:
                cases.check(f"request of {name}", status, answer.status)
                if status == 200:
                    there = {header: answer.headers.get(header) for header in HEADERS}
                    cases.check(f"headers of {name}", HEADERS, there)


async def refused_messages(cases: Cases, playground: Playground) -> None:
    """Messages that no page sends end it, and leave nothing."""
    origin = "http://" + playground.address.split("/")[2]
    async with aiohttp.ClientSession() as session:
        for given in BAD_MESSAGES:
            async with session.ws_connect(
                playground.address + "socket", headers={"Origin": origin}
            ) as socket:
                # A message may still be on its way when the program closes the socket.
                with contextlib.suppress(OSError):
                    await (
                        socket.send_bytes(given)
                        if isinstance(given, bytes)
                        else socket.send_str(given)
                    )
                awaited = (1008, 1009) if len(given) < MOST_BYTES else (1006, 1009)
                cases.check(f"message {given[:60]!r}", True, await closed_with(socket) in awaited)
        async with session.ws_connect(
            playground.address + "socket", headers={"Origin": origin}
        ) as socket:
            with contextlib.suppress(OSError):
                for _ in range(20_000):
                    await socket.send_str(request_of())
            cases.check("too many messages", True, await closed_with(socket) in (1006, 1008))
    cases.check("processes and folders after refused messages", (0, 0), playground.settles())
    cases.check("tracebacks after refused messages", 0, playground.errors().count("Traceback"))


def limits_of(process: int) -> Dict[str, str]:
    """The greatest limits of a process, by the system's names for them."""
    with open(f"/proc/{process}/limits", encoding="ascii") as file:
        rows = [re.split(r"  +", line) for line in file]
    return {row[0]: row[2] for row in rows}


async def limited(cases: Cases, playground: Playground) -> None:
    """The cores of a page have limits; nobody else can reach the program, or guess its address."""
    key = playground.address.split("/")[3]
    cases.check("characters of the key", True, len(key) >= 16)
    port = int(playground.address.split("/")[2].split(":")[1])
    # Another address of this machine: whoever listens everywhere answers there too.
    with Socket() as other:
        cases.check(
            "a connection to another address", True, other.connect_ex(("127.0.0.2", port)) != 0
        )
    origin = "http://" + playground.address.split("/")[2]
    async with aiohttp.ClientSession() as session:
        async with session.ws_connect(
            playground.address + "socket", headers={"Origin": origin}
        ) as page:
            while json.loads((await page.receive(timeout=PATIENCE)).data).get("from") != "page":
                pass
            (of_page,) = processes.children(playground.process.pid)
            cores = processes.children(of_page)
            cases.check("the cores of a page", 2, len(cores))
            for core in cores:
                found = limits_of(core)
                awaited = {name: str(limit) for name, limit in LIMITS.items()}
                cases.check("the limits of a core", awaited, {name: found[name] for name in LIMITS})


def sent_to(server: str, method: str, **more: object) -> str:
    """A message for a server of a page, as the page sends it."""
    return json.dumps(
        {"to": server, "message": {"jsonrpc": "2.0", "method": method, **more}}, ensure_ascii=False
    )


async def answer_to(socket: Any, number: int, server: str = "text") -> Any:
    """The answer of a server to the request of this number."""
    while True:
        envelope = json.loads((await socket.receive(timeout=5 * PATIENCE)).data)
        if envelope.get("message", {}).get("id") == number and envelope["from"] == server:
            return envelope["message"].get("result")


async def with_script(socket: Any, text: str) -> None:
    """A page has this text, in the language of the menu that is named script."""
    with open(os.path.join(TOP, "grammars", "script.lr"), encoding="utf-8") as file:
        params: Dict[str, object] = {"text": file.read(), "language": "script"}
    await socket.send_str(sent_to("page", "page/place", id=1, params=params))
    assert await answer_to(socket, 1, "page") == {"language": "script"}
    document = {"uri": "page:text", "languageId": "text", "version": 1, "text": text}
    params = {"textDocument": document}
    await socket.send_str(sent_to("text", "textDocument/didOpen", params=params))


async def longest_wait(socket: Any, is_done: "asyncio.Future[Any]") -> float:
    """The longest time that a page waits for an answer, until this is done."""
    longest, number = 0.0, 10
    while not is_done.done():
        begun, number = time.monotonic(), number + 1
        params = {"textDocument": {"uri": "page:text"}}
        await socket.send_str(sent_to("text", "lr/stats", id=number, params=params))
        await answer_to(socket, number)
        longest = max(longest, time.monotonic() - begun)
        await asyncio.sleep(0.02)
    return longest


async def busy_page(cases: Cases, playground: Playground) -> None:
    """A page with a megabyte makes no other one wait. The system may do so once, and not always."""
    for _ in range(TIMES):
        longest, taken, count = await waits_of(playground)
        if longest < taken / 4:
            break
    cases.check("the tree of a megabyte", True, count > 1)
    cases.check(f"{longest:.2f} s are a fourth of {taken:.2f}", True, longest < taken / 4)
    print(f"a megabyte: {taken:.2f} s; the longest wait of another page: {longest:.2f} s")


async def waits_of(playground: Playground) -> Tuple[float, float, int]:
    """The longest wait of a page beside one that works out the tree of a megabyte, how long that
    takes, and how many nodes are on the way to a place."""
    origin, address = "http://" + playground.address.split("/")[2], playground.address + "socket"
    line = "let narrow = limits.length - 1 < 3 and limits[0](5) > nil;\n"
    async with aiohttp.ClientSession() as session:
        async with session.ws_connect(
            address, headers={"Origin": origin}, max_msg_size=0
        ) as large, session.ws_connect(address, headers={"Origin": origin}) as small:
            await with_script(small, line)
            await with_script(large, line * (1_000_000 // len(line)))
            begun = time.monotonic()
            params = {
                "textDocument": {"uri": "page:text"},
                "position": {"line": 9_000, "character": 4},
            }
            await large.send_str(sent_to("text", "lrls/nodes", id=2, params=params))
            found = asyncio.ensure_future(answer_to(large, 2))
            longest = await longest_wait(small, found)
            return longest, time.monotonic() - begun, len((await found)["path"])


async def closed_with(socket: Any) -> Any:
    """The code with which a socket is closed."""
    while True:
        message = await socket.receive(timeout=PATIENCE)
        if message.type in (
            aiohttp.WSMsgType.CLOSE,
            aiohttp.WSMsgType.CLOSED,
            aiohttp.WSMsgType.ERROR,
            aiohttp.WSMsgType.CLOSING,
        ):
            return socket.close_code


async def too_many_pages(cases: Cases, playground: Playground) -> None:
    """At most 32 pages are open, each a process with two cores. All of them end."""
    origin = "http://" + playground.address.split("/")[2]
    async with aiohttp.ClientSession() as session:
        sockets = []
        for number in range(33):
            socket = await session.ws_connect(
                playground.address + "socket", headers={"Origin": origin}
            )
            if number < 32:
                while (
                    json.loads((await socket.receive(timeout=PATIENCE)).data).get("from") != "page"
                ):
                    pass
            sockets.append(socket)
        cases.check("the 33rd page", 1013, await closed_with(sockets.pop()))
        cases.check("processes and folders of 32 pages", (96, 32), playground.settles((96, 32)))
        for socket in sockets:
            await socket.close()
    cases.check("processes and folders after 32 pages", (0, 0), playground.settles())


async def ended_with_a_page(cases: Cases, playground: Playground) -> None:
    """The program is ended while a page is open: nothing of the page is left."""
    origin = "http://" + playground.address.split("/")[2]
    async with aiohttp.ClientSession() as session:
        async with session.ws_connect(
            playground.address + "socket", headers={"Origin": origin}
        ) as socket:
            while json.loads((await socket.receive(timeout=PATIENCE)).data).get("from") != "page":
                pass
            playground.process.terminate()
            cases.check("a page when the program ends", 1001, await closed_with(socket))
    cases.check(
        "the status of a program that was ended", 0, playground.process.wait(timeout=PATIENCE)
    )
    cases.check("folders after the end of the program", [], os.listdir(playground.folder))


@pytest.fixture
def playground(programs: None) -> Iterator[Playground]:
    with Playground() as started:
        yield started


def test_requests(cases: Cases, playground: Playground) -> None:
    asyncio.run(refused_requests(cases, playground.address))
    cases.end(12)


def test_messages(cases: Cases, playground: Playground) -> None:
    asyncio.run(refused_messages(cases, playground))
    cases.end(20)


def test_pages(cases: Cases, playground: Playground) -> None:
    asyncio.run(too_many_pages(cases, playground))
    cases.end(3)


def test_busy_page(cases: Cases, playground: Playground) -> None:
    asyncio.run(busy_page(cases, playground))
    cases.end(2)


BROWSER = """#!/bin/sh
printf '%s\\n' "$@" > "$0.words"
"""


def test_open(cases: Cases, programs: None, tmp_path: Path) -> None:
    """What a browser is called with doesn't have the key, and the file that it is given has."""
    browser, words = tmp_path / "browser", tmp_path / "browser.words"
    browser.write_text(BROWSER, encoding="ascii")
    browser.chmod(0o700)
    with Playground("--open", BROWSER=str(browser)) as playground:
        end = time.monotonic() + PATIENCE
        while not (words.is_file() and words.read_text()) and time.monotonic() < end:
            time.sleep(0.05)
        uri = words.read_text(encoding="utf-8").strip()
        cases.check("the key isn't among the words", False, playground.address.split("/")[3] in uri)
        file = Path(uri[len("file://") :])
        cases.check("who can read the file", "0o600", oct(file.stat().st_mode & 0o777))
        cases.check("who can list its folder", "0o700", oct(file.parent.stat().st_mode & 0o777))
        text = file.read_text(encoding="utf-8")
        cases.check("it leads to the page", True, f"url={playground.address}" in text)
        playground.process.terminate()
        playground.process.wait(timeout=PATIENCE)
        cases.check("it is gone at the end", [], os.listdir(playground.folder))
    cases.end(5)


def test_limits(cases: Cases, playground: Playground) -> None:
    asyncio.run(limited(cases, playground))
    cases.end(5)


def test_end(cases: Cases, playground: Playground) -> None:
    asyncio.run(ended_with_a_page(cases, playground))
    cases.end(3)
