"""Chromium with the page of `lrls-playground`."""

import shutil
from typing import Any, List

import pytest

from tests.playground.browser import Browser

if not shutil.which("chromedriver"):
    pytest.skip("the page needs chromium-driver", allow_module_level=True)

WORDS = ("--headless=new", "--no-sandbox", "--disable-gpu", "--disable-dev-shm-usage")
COPYING = ["clipboardReadWrite", "clipboardSanitizedWrite"]


class Chromium(Browser):
    """Chromium, by its driver."""

    def __init__(self, address: str, width: int = 1400, height: int = 860) -> None:
        from selenium import webdriver
        from selenium.webdriver.chrome.service import Service

        options = webdriver.ChromeOptions()
        for word in (*WORDS, f"--window-size={width},{height}"):
            options.add_argument(word)
        options.set_capability("goog:loggingPrefs", {"browser": "ALL"})
        service = Service(shutil.which("chromedriver"))
        super().__init__(webdriver.Chrome(service=service, options=options), address)

    def does(self, command: str, **params: object) -> Any:
        """Gives the browser a command of its own protocol."""
        return self.driver.execute_cdp_cmd(command, params)

    def is_wide(self, width: int, height: int) -> None:
        self.does(
            "Emulation.setDeviceMetricsOverride",
            width=width,
            height=height,
            deviceScaleFactor=1,
            mobile=False,
        )

    def is_dark(self, is_dark: bool) -> None:
        scheme = "dark" if is_dark else "light"
        features = [{"name": "prefers-color-scheme", "value": scheme}]
        self.does("Emulation.setEmulatedMedia", features=features)

    def lets_copy(self) -> None:
        self.does("Emulation.setFocusEmulationEnabled", enabled=True)
        self.does("Browser.grantPermissions", permissions=COPYING)

    def logged(self) -> List[str]:
        return [row["message"] for row in self.driver.get_log("browser")]
