"""What a test needs that this machine may lack, and what it may not lack.

LRLS_REQUIRE in the environment names Debian packages, with commas between them: where a test would
be skipped for want of one of these, it fails. So a reason to skip names the package that it wants.
"""

import os
import re
import shutil
import subprocess
from typing import Iterable, List, NamedTuple, Optional, Sequence

PACKAGE = re.compile(r"[a-z0-9][a-z0-9.+-]+")


class Need(NamedTuple):
    """A command that has to end well, and what has to be installed for that: a Debian package, or
    in other words a version that Debian may not have."""

    words: Sequence[str]
    of: str


def works(words: Sequence[str]) -> bool:
    """Whether a command is there and ends well."""
    if not shutil.which(words[0]):
        return False
    return subprocess.run(words, capture_output=True, check=False).returncode == 0


def lacking(needs: Iterable[Need]) -> Optional[str]:
    """Why a test is skipped that needs these commands to end well; none where they do."""
    failing = next((need for need in needs if not works(need.words)), None)
    return None if failing is None else f"needs {failing.of}: `{' '.join(failing.words)}` fails"


def required() -> List[str]:
    """The packages that have to be there."""
    return [name for name in os.environ.get("LRLS_REQUIRE", "").split(",") if name]


def is_required(reason: str) -> bool:
    """Whether a reason to skip names a package that has to be there."""
    named = PACKAGE.findall(reason.partition(": `")[0])
    return any(name in required() for name in named)
