"""Firefox with the page of `lrls-playground`. Debian has no geckodriver, which hands selenium's commands
on to Firefox, so they go to it from here: a command is a list with its number, its name and its
parameters, as JSON behind its length, and so is what it answers."""

import itertools
import json
import os
import shutil
import socket
import subprocess
import tempfile
import time
from typing import Any, Dict, List

import pytest
from selenium.webdriver import FirefoxOptions
from selenium.webdriver.remote.command import Command
from selenium.webdriver.remote.file_detector import UselessFileDetector
from selenium.webdriver.remote.webdriver import WebDriver

from tests.common.serving import PATIENCE
from tests.playground.browser import Browser

PROGRAM = "firefox-esr"
if not shutil.which(PROGRAM):
    pytest.skip(f"the page needs {PROGRAM}", allow_module_level=True)

# Firefox's names of selenium's commands.
NAMES = {
    Command.CLOSE: "WebDriver:CloseWindow",
    Command.FIND_ELEMENT: "WebDriver:FindElement",
    Command.GET: "WebDriver:Navigate",
    Command.GET_CURRENT_URL: "WebDriver:GetCurrentURL",
    Command.GET_ELEMENT_ARIA_LABEL: "WebDriver:GetComputedLabel",
    Command.GET_ELEMENT_ARIA_ROLE: "WebDriver:GetComputedRole",
    Command.GET_TITLE: "WebDriver:GetTitle",
    Command.GO_BACK: "WebDriver:Back",
    Command.NEW_SESSION: "WebDriver:NewSession",
    Command.NEW_WINDOW: "WebDriver:NewWindow",
    Command.QUIT: "WebDriver:DeleteSession",
    Command.REFRESH: "WebDriver:Refresh",
    Command.SEND_KEYS_TO_ELEMENT: "WebDriver:ElementSendKeys",
    Command.SET_WINDOW_RECT: "WebDriver:SetWindowRect",
    Command.SWITCH_TO_WINDOW: "WebDriver:SwitchToWindow",
    Command.W3C_ACTIONS: "WebDriver:PerformActions",
    Command.W3C_EXECUTE_SCRIPT: "WebDriver:ExecuteScript",
    Command.W3C_GET_CURRENT_WINDOW_HANDLE: "WebDriver:GetWindowHandle",
}
# Any free port is taken, and the page may read what is copied.
SETTINGS = """user_pref("marionette.port", 0);
user_pref("dom.events.testing.asyncClipboard", true);
"""
# What a line of the browser's output begins with that the page is the cause of.
LOGGED = ("JavaScript error: http", "JavaScript warning: http")
DARK = """
const name = "layout.css.prefers-color-scheme.content-override";
Services.prefs.setIntPref(name, arguments[0] ? 0 : 1);
"""
# The window can't be as narrow as what is shown in it.
WIDE = """
for (const [side, size] of [["width", arguments[0]], ["height", arguments[1]]]) {
  for (const name of [side, `min-${side}`, `max-${side}`]) {
    gBrowser.selectedBrowser.style.setProperty(name, `${size}px`);
  }
}
"""
# How much wider and higher a window is than what is shown in it.
AROUND = 200


class Connection:
    """The connection over which a Firefox takes commands."""

    def __init__(self, port: int) -> None:
        self.socket = socket.create_connection(("127.0.0.1", port), PATIENCE)
        self.input = self.socket.makefile("rb")
        self.numbers = itertools.count(1)
        self.received()

    def received(self) -> Any:
        """The next that Firefox says."""
        length = b""
        while not length.endswith(b":"):
            byte = self.input.read(1)
            if not byte:
                raise ConnectionError("Firefox has ended")
            length += byte
        return json.loads(self.input.read(int(length[:-1])))

    def execute(self, command: str, params: Dict[str, Any]) -> Dict[str, Any]:
        """Does one of selenium's commands, and answers in the form that selenium reads."""
        given = {} if command == Command.NEW_SESSION else params
        return self.does(NAMES[command], given)

    def does(self, name: str, params: Dict[str, Any]) -> Dict[str, Any]:
        """Does a command of Firefox."""
        content = json.dumps([0, next(self.numbers), name, params]).encode()
        self.socket.sendall(b"%d:%s" % (len(content), content))
        _, _, error, result = self.received()
        if error:
            return {"status": 500, "value": json.dumps({"value": error})}
        answer: Dict[str, Any] = result if "value" in result else {"value": result}
        return answer

    def close(self) -> None:
        self.input.close()
        self.socket.close()


class Program:
    """A Firefox that runs with a profile of its own."""

    def __init__(self) -> None:
        self.folder = tempfile.mkdtemp(prefix="lrls-firefox-")
        with open(os.path.join(self.folder, "user.js"), "w", encoding="ascii") as file:
            file.write(SETTINGS)
        self.said = os.path.join(self.folder, "said")
        words = [PROGRAM, "--headless", "--marionette", "--remote-allow-system-access"]
        with open(self.said, "wb") as said:
            self.process = subprocess.Popen(
                [*words, "--no-remote", "--profile", self.folder, "about:blank"],
                stdout=said,
                stderr=said,
                env={**os.environ, "HOME": self.folder},
            )

    def port(self) -> int:
        """The port at which it takes commands, once it does."""
        path = os.path.join(self.folder, "MarionetteActivePort")
        end = time.monotonic() + PATIENCE
        while time.monotonic() < end and self.process.poll() is None:
            if os.path.exists(path) and os.path.getsize(path):
                with open(path, encoding="ascii") as file:
                    return int(file.read())
            time.sleep(0.05)
        raise ConnectionError(f"{PROGRAM} takes no commands")

    def lines(self) -> List[str]:
        """What it has said."""
        with open(self.said, encoding="utf-8", errors="replace") as file:
            return file.read().splitlines()

    def end(self) -> None:
        self.process.terminate()
        self.process.wait(timeout=PATIENCE)
        shutil.rmtree(self.folder, ignore_errors=True)


class Firefox(Browser):
    """Firefox, by its own door for commands."""

    def __init__(self, address: str, width: int = 1400, height: int = 860) -> None:
        self.program = Program()
        try:
            self.connection = Connection(self.program.port())
            driver = WebDriver(command_executor=self.connection, options=FirefoxOptions())
            # Firefox runs here, and reads the files itself.
            driver.file_detector = UselessFileDetector()
            super().__init__(driver, address)
            self.is_wide(width, height)
        except BaseException:
            self.program.end()
            raise

    def __exit__(self, *_: object) -> None:
        self.connection.close()
        self.program.end()

    def has(self, script: str, *given: Any) -> None:
        """Runs a script on the browser itself, and not on the page."""
        self.connection.does("Marionette:SetContext", {"value": "chrome"})
        self.run(script, *given)
        self.connection.does("Marionette:SetContext", {"value": "content"})

    def is_wide(self, width: int, height: int) -> None:
        self.driver.set_window_rect(width=width + AROUND, height=height + AROUND)
        self.has(WIDE, width, height)

    def is_dark(self, is_dark: bool) -> None:
        self.has(DARK, is_dark)

    def lets_copy(self) -> None:
        """It may, by the settings that the browser began with."""

    def logged(self) -> List[str]:
        return [line for line in self.program.lines() if line.startswith(LOGGED)]
