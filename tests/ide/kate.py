"""Kate with `lrls-ide`, on a screen of its own (Xvfb).

What Kate has asked is read from a wrapper that stands before `lrls-ide`, and what it has taken of
an offer from the file that it saves. That colours are drawn is seen on its screen: the same numbers
have another colour where the settings give them another type.
"""

import json
import os
import re
import shutil
import subprocess
import time
from typing import Callable, List, Optional

from tests import TOP
from tests.common.needs import Need
from tests.common.serving import PATIENCE
from tests.common.surroundings import placed, surroundings

NEEDS = [
    Need(["sh", "-c", "QT_QPA_PLATFORM=offscreen kate --version"], "kate"),
    Need(["sh", "-c", "command -v Xvfb"], "xvfb"),
    Need(["xdotool", "--version"], "xdotool"),
    Need(["import", "-version"], "imagemagick"),
    Need(["dbus-run-session", "--version"], "dbus-daemon"),
]
TEXT = '{\n    "name": "lrls",\n    "numbers": [1, 2.5e3],\n    "inner": { "flag": false }\n}\n'
# A comma is missing, then another one, then a colon.
FAULTY = '{\n    "name": "lrls"\n    "numbers": [1 2.5e3],\n    "inner": { "flag" false }\n}\n'
# The first characters of the faults in that, and the names in its outline.
FAULTS = ('"character":4,"line":2', '"character":18,"line":2', '"character":22,"line":3')
NAMES = ('"name":"numbers"', '"name":"inner"', '"name":"flag"')
KATERC = """[General]
Show welcome view for new window=false
Last Session=

[Kate Plugins]
lspclientplugin=true

[lspclient]
AllowedServerCommandLines={command}
SemanticHighlighting=true
SymbolTree=true
SymbolDetails=true
"""
WRAPPER = """#!/usr/bin/python3
import subprocess, sys, threading
server = subprocess.Popen({command!r}, stdin=subprocess.PIPE, stdout=subprocess.PIPE)
def copy(source, sink, name):
    with open({folder!r} + "/" + name, "wb", buffering=0) as log:
        while data := source.read1(65536):
            log.write(data)
            sink.write(data)
            sink.flush()
    sink.close()
answers = (server.stdout, sys.stdout.buffer, "answers")
threading.Thread(target=copy, args=answers, daemon=True).start()
copy(sys.stdin.buffer, server.stdin, "questions")
"""
# The third line of the text on the screen, which has the numbers; and the third and the fourth.
LINE = "560x18+85+145"
TWO_LINES = "560x38+85+145"
METHODS = ("textDocument/semanticTokens", "textDocument/documentSymbol", "textDocument/completion")
OFFERED = '"label":"true"'


class Kate:
    """Kate with a file, on a screen, while the `with` block lasts."""

    def __init__(self, folder: str, settings: str, text: str = TEXT) -> None:
        self.folder = folder
        table = json.loads(settings)
        command = table["servers"]["json"]["command"]
        wrapper = placed(folder, "server", WRAPPER.format(command=command, folder=folder))
        os.chmod(wrapper, 0o700)
        table["servers"]["json"]["command"] = [wrapper]
        os.makedirs(os.path.join(folder, ".config", "kate", "lspclient"))
        placed(folder, ".config/kate/lspclient/settings.json", json.dumps(table))
        placed(folder, ".config/katerc", KATERC.format(command=wrapper))
        self.file = placed(folder, "text.json", text)
        self.display = f":{90 + os.getpid() % 100}"
        self.environment = {
            **surroundings(folder),
            "DISPLAY": self.display,
            "QT_QPA_PLATFORM": "xcb",
            "XDG_RUNTIME_DIR": folder,
        }
        self.screen = self.start("Xvfb", self.display, "-screen", "0", "1100x700x24")
        self.waits(lambda: os.path.exists(f"/tmp/.X11-unix/X{self.display[1:]}"))
        self.kate = self.start("dbus-run-session", "--", "kate", "--startanon", "-n", self.file)

    def start(self, *words: str) -> "subprocess.Popen[bytes]":
        return subprocess.Popen(
            words,
            env=self.environment,
            cwd=self.folder,
            stdout=subprocess.DEVNULL,
            stderr=subprocess.DEVNULL,
        )

    def __enter__(self) -> "Kate":
        return self

    def __exit__(self, *_: object) -> None:
        for process in (self.kate, self.screen):
            process.terminate()
            try:
                process.wait(timeout=10)
            except subprocess.TimeoutExpired:
                process.kill()
                process.wait()

    def press(self, *words: str) -> None:
        subprocess.run(
            ["xdotool", *words], env=self.environment, capture_output=True, timeout=30, check=False
        )
        time.sleep(0.5)

    def logged(self, name: str) -> str:
        path = os.path.join(self.folder, name)
        if not os.path.exists(path):
            return ""
        with open(path, encoding="utf-8", errors="replace") as file:
            return file.read()

    def waits(self, is_so: Callable[[], object], seconds: float = PATIENCE) -> bool:
        """Whether this becomes so."""
        end = time.monotonic() + seconds
        while not is_so():
            if time.monotonic() > end:
                return False
            time.sleep(0.2)
        return True

    def picture(self, path: str, *words: str) -> str:
        subprocess.run(
            ["import", "-window", "root", *words, path],
            env=self.environment,
            timeout=30,
            check=True,
        )
        return path

    def drawn(self) -> str:
        """A picture of the line with the numbers, once Kate has their colours."""
        self.waits(lambda: '"resultId"' in self.logged("answers"))
        time.sleep(2)
        return self.picture(os.path.join(self.folder, "line.png"), "-crop", LINE)


def colours_are_drawn(folder: str, settings: str) -> List[str]:
    """What is wrong with the colours: how many points differ between numbers that are numbers, and
    numbers that are comments."""
    pictures = []
    for kind in ("number", "comment"):
        own = os.path.join(folder, kind)
        os.mkdir(own)
        for name in ("json.lr", "json.toml"):
            shutil.copy(os.path.join(TOP, "grammars", name), own)
        with open(os.path.join(own, "json.toml"), encoding="utf-8") as file:
            text = file.read()
        placed(own, "json.toml", text.replace('NUMBER = "number"', f'NUMBER = "{kind}"'))
        with Kate(own, settings.replace('"json"]', f'"{own}/json.toml"]')) as kate:
            pictures.append(kate.drawn())
    words = ["compare", "-metric", "AE", *pictures, os.path.join(folder, "difference.png")]
    counted = subprocess.run(words, capture_output=True, text=True, timeout=30, check=False).stderr
    number = re.match(r"[0-9.e+]+", counted)
    assert number, counted
    points = float(number.group())
    print(f"kate: {points:.0f} points of the line differ where its numbers are comments")
    return (
        []
        if points > 20
        else [f"kate: only {points} points differ where numbers have another type"]
    )


def typed(kate: Kate, picture: Optional[str]) -> List[str]:
    """Types a member with the beginning of its value, and takes what is offered. What is wrong."""
    kate.press("search", "--sync", "--onlyvisible", "--name", "text.json", "windowfocus")
    for key in ("ctrl+End", "Up", "Up", "End", "Left"):
        kate.press("key", key)
    kate.press("type", ', "x": tr')
    kate.press("key", "ctrl+space")
    is_offered = kate.waits(lambda: OFFERED in kate.logged("answers"))
    time.sleep(1)
    if picture:
        kate.picture(picture)
    kate.press("key", "Return")
    kate.press("key", "ctrl+s")
    saved = lambda: open(kate.file, encoding="utf-8").read()
    wrong = [] if is_offered else ["kate: nothing was offered"]
    if not kate.waits(lambda: '"x": true' in saved()):
        wrong.append(f"kate: the offer wasn't taken: {saved()!r}")
    return wrong


def made_small(picture: str) -> None:
    """Gives a picture few colours."""
    words = ["convert", picture, "+dither", "-colors", "48"]
    subprocess.run([*words, "-define", "png:compression-level=9", picture], check=True)


def marked(kate: Kate) -> int:
    """How many points of the two lines with faults are light red, as Kate draws such a line."""
    path = kate.picture(os.path.join(kate.folder, "lines.png"), "-crop", TWO_LINES)
    words = ["convert", path, "-format", "%c", "histogram:info:-"]
    counts = subprocess.run(words, capture_output=True, text=True, timeout=30, check=True).stdout
    points = re.findall(r"(\d+): \((\d+),(\d+),(\d+)", counts)
    return sum(int(n) for n, red, green, _ in points if int(red) > 245 and 215 < int(green) < 240)


def faults(folder: str, settings: str, picture: Optional[str]) -> List[str]:
    """What is wrong where Kate has a text with three faults on two lines: what it was sent, and
    what it draws."""
    with Kate(folder, settings, FAULTY) as kate:
        for part in (*FAULTS, *NAMES):
            if not kate.waits(lambda: part in kate.logged("answers")):
                return [f"kate, faults: never got {part}"]
        # More than one line has.
        if not kate.waits(lambda: marked(kate) > 12_000):
            return [f"kate, faults: only {marked(kate)} points of two lines are marked"]
        if picture:
            # The button "LSP" below the text, which shows what is said of the faults.
            kate.press("mousemove", "254", "454", "click", "1")
            time.sleep(2)
            kate.picture(picture, "-crop", "733x466+0+0")
    if picture and shutil.which("convert"):
        made_small(picture)
    print("kate: three faults on two marked lines; it was sent the outline behind the first")
    return []


def run(folder: str, settings: str, picture: Optional[str]) -> List[str]:
    """What is wrong with Kate and lrls-ide. With a path, a picture of it is drawn."""
    wrong = colours_are_drawn(folder, settings)
    with Kate(folder, settings) as kate:
        for method in METHODS[:2]:
            if not kate.waits(lambda: method in kate.logged("questions")):
                return [f"kate: never asked {method}"]
        kate.waits(
            lambda: '"documentSymbol"' in kate.logged("questions")
            or '"name":"inner"' in kate.logged("answers")
        )
        wrong += typed(kate, picture)
    if picture and not wrong and shutil.which("convert"):
        made_small(picture)
    print(f"kate: asked {', '.join(METHODS)}; an offer was taken")
    return wrong
