"""A browser with the page of `lrls-playground`, as the tests drive it: Chromium, in `chromium.py`,
and Firefox, in `firefox.py`.
Needs the Debian packages python3-aiohttp, libjs-codemirror, python3-selenium, and chromium-driver
or firefox-esr: each browser that is there is tried.
"""

import contextlib
import os
import shutil
import subprocess
import time
from typing import Any, Callable, List, Set, Tuple

import pytest

from tests import TOP
from tests.common.serving import PATIENCE
from tests.playground.program import CODEMIRROR

pytest.importorskip("aiohttp", reason="lrls-playground needs python3-aiohttp")
pytest.importorskip("selenium", reason="the page needs python3-selenium")
if not os.path.isdir(CODEMIRROR):
    pytest.skip("lrls-playground needs libjs-codemirror", allow_module_level=True)

DOCS = os.path.join(TOP, "docs")
# So long it is waited for what the page shows.
SECONDS = PATIENCE
# Shift, Control and Alt, which stay down while what follows is pressed, and what a line ends with.
HELD, ENTER = "\ue008\ue009\ue00a", "\ue007"
# What is seen of the page and may have a role.
SEEN = """
return [...document.querySelectorAll("button, select, textarea, input, section, [role]")].filter(
  (it) => it.checkVisibility({ visibilityProperty: true }));
"""


class Browser:
    """A browser with the page, while the `with` block lasts."""

    def __init__(self, driver: Any, address: str) -> None:
        self.driver = driver
        self.address = address
        self.driver.get(address)

    def is_wide(self, width: int, height: int) -> None:
        """The page has this size from now on."""
        raise NotImplementedError

    def is_dark(self, is_dark: bool) -> None:
        """Who looks at the page prefers dark colours, or light ones."""
        raise NotImplementedError

    def lets_copy(self) -> None:
        """The page may read and write what is copied."""
        raise NotImplementedError

    def logged(self) -> List[str]:
        """What the browser has logged of the page."""
        raise NotImplementedError

    def roles(self) -> List[Tuple[str, str]]:
        """The role and the name of each part of the page, to those who don't see it."""
        return [(part.aria_role, part.accessible_name) for part in self.run(SEEN)]

    def __enter__(self) -> "Browser":
        return self

    def __exit__(self, *_: object) -> None:
        self.driver.quit()

    def run(self, script: str, *given: Any) -> Any:
        return self.driver.execute_script(script, *given)

    def text(self, part: str) -> Any:
        return self.run("return document.getElementById(arguments[0]).textContent", part)

    def waits(self, is_so: Callable[[], object], seconds: float = SECONDS) -> bool:
        """Whether this becomes so. A part of the page may not be there yet to be looked at."""
        from selenium.common.exceptions import JavascriptException

        end = time.monotonic() + seconds
        while time.monotonic() < end:
            with contextlib.suppress(JavascriptException):
                if is_so():
                    return True
            time.sleep(0.05)
        return bool(is_so())

    def comes(self, wanted: object, look: Callable[[], object]) -> object:
        """What this finds, once it is what is wanted, or at last."""
        found: List[object] = []

        def is_so() -> bool:
            found[:] = [look()]
            return found == [wanted]

        self.waits(is_so)
        return found[0]

    def shows(self, part: str, words: str, seconds: float = SECONDS) -> object:
        """Whether a part of the page comes to have these words, else what it has."""
        return self.waits(lambda: words in self.text(part), seconds) or self.text(part)

    def editor(self, name: str, script: str, *given: Any) -> Any:
        """Runs a script on an editor, which is called `code`."""
        return self.run(
            f"const code = document.querySelector('#{name} .CodeMirror').CodeMirror; {script}",
            *given,
        )

    def put(self, name: str, text: str) -> None:
        """Puts a text into an editor, as one edit."""
        self.editor(name, "code.setValue(arguments[0])", text)

    def value(self, name: str) -> Any:
        """The text of an editor."""
        return self.editor(name, "return code.getValue()")

    def click(self, part: str) -> None:
        """Clicks on a part of the page."""
        self.run("document.getElementById(arguments[0]).click()", part)

    def choose(self, language: str) -> None:
        """Chooses a language of the menu."""
        self.run(
            "const menu = document.getElementById('menu'); menu.value = arguments[0];"
            "menu.dispatchEvent(new Event('change'))",
            language,
        )

    def press(self, *keys: str) -> None:
        """Presses keys one by one, each where the focus is then: no part of the page is held
        meanwhile, so it may be drawn anew."""
        from selenium.webdriver.common.actions.action_builder import ActionBuilder

        actions, held = ActionBuilder(self.driver), ""
        for key in "".join(keys).replace("\n", ENTER):
            actions.key_action.key_down(key)
            if key in HELD:
                held += key
            else:
                actions.key_action.key_up(key)
        for key in held:
            actions.key_action.key_up(key)
        actions.perform()

    def all_of(self, selector: str) -> Any:
        """The words of all parts that a selector finds."""
        script = "return [...document.querySelectorAll(arguments[0])].map((it) => it.textContent)"
        return self.run(script, selector)

    def type(self, name: str, keys: str) -> None:
        """Types keys into an editor, where its cursor is. It is never drawn anew, so its field may
        be held, which takes a tenth of the time that `press` does."""
        self.editor(name, "code.focus()")
        self.driver.find_element("css selector", f"#{name} textarea").send_keys(keys)

    def colours(self, name: str) -> Set[Tuple[str, str]]:
        """The words with colours that an editor shows, each with its class."""
        script = (
            "return [...document.querySelectorAll(`#${arguments[0]} [class*='t-']`)]"
            ".map((it) => [it.textContent, it.className])"
        )
        return {(text, kind.strip()) for text, kind in self.run(script, name)}

    def picture(self, name: str) -> None:
        """A picture of the page, with few colours."""
        path = os.path.join(DOCS, name)
        self.driver.save_screenshot(path)
        if shutil.which("convert"):
            subprocess.run(
                [
                    "convert",
                    path,
                    "+dither",
                    "-colors",
                    "48",
                    "-define",
                    "png:compression-level=9",
                    path,
                ],
                check=True,
            )


# What begins a browser at an address.
Begins = Callable[[str], Browser]
