"""The browsers in which the tests of the page are run."""

from typing import TYPE_CHECKING

import pytest

if TYPE_CHECKING:
    from tests.playground.browser import Begins


@pytest.fixture(scope="module", params=["chromium", "firefox"])
def browser(request: pytest.FixtureRequest) -> "Begins":
    """What begins a browser: each test that uses it is run in each of them that is there."""
    if request.param == "firefox":
        from tests.playground.firefox import Firefox

        return Firefox
    from tests.playground.chromium import Chromium

    return Chromium
