"""The program `lrls-playground`, as the tests run it."""

import contextlib
import os
import shutil
import subprocess
import tempfile
import time
from typing import List, Tuple

from tests import TOP
from tests.common import processes, serving
from tests.common.serving import PATIENCE

# LRLS_PLAYGROUND is another program to test.
PROGRAM = os.environ.get("LRLS_PLAYGROUND", os.path.join(TOP, "ide", "lrls-playground"))
CODEMIRROR = "/usr/share/javascript/codemirror"


class Playground:
    """The program, while the `with` block lasts."""

    def __init__(self, *words: str, **variables: str) -> None:
        self.folder = tempfile.mkdtemp(prefix="lrls-test-")
        environment = {**os.environ, "TMPDIR": self.folder, **variables}
        # What it says on standard error, which has to be nothing.
        self.said = tempfile.TemporaryFile("w+")
        named = ["--server", serving.made("lrls-ide")] if serving.IS_QUICK else []
        self.process = subprocess.Popen(
            [PROGRAM, *named, *words],
            stdout=subprocess.PIPE,
            stderr=self.said,
            text=True,
            env=environment,
        )
        assert self.process.stdout
        self.address = self.process.stdout.readline().strip()

    def __enter__(self) -> "Playground":
        return self

    def __exit__(self, *_: object) -> None:
        self.process.terminate()
        self.process.wait(timeout=PATIENCE)
        shutil.rmtree(self.folder)

    def left(self) -> Tuple[int, int]:
        """The processes and the folders that there are for pages."""
        return len(self.processes()), len(os.listdir(self.folder))

    def processes(self) -> List[int]:
        """The processes of pages, each with its servers."""
        while True:
            # A process may end while those that it has started are looked for.
            with contextlib.suppress(FileNotFoundError, ProcessLookupError):
                return list(processes.descendants(self.process.pid))

    def errors(self) -> str:
        """What it has said on standard error."""
        self.said.seek(0)
        return self.said.read()

    def settles(
        self, wanted: Tuple[int, int] = (0, 0), seconds: float = PATIENCE
    ) -> Tuple[int, int]:
        """What is left of pages, once it is this, or at last."""
        end = time.monotonic() + seconds
        while self.left() != wanted and time.monotonic() < end:
            time.sleep(0.05)
        return self.left()
