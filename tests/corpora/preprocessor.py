"""C for tests/corpora: what the preprocessor makes of a file."""

import os
import shutil
import subprocess
from typing import List, Tuple

# Headers of the folders around a file, up to so many folders above it, are found too.
FOLDERS_ABOVE = 3


def preprocessed(path: str, text: str) -> List[Tuple[str, str]]:
    """The file after the preprocessor, which finds the headers that the file names. A file that it
    refuses has no text, and without gcc none has one."""
    if not shutil.which("gcc"):
        return []
    folders: List[str] = []
    above = os.path.dirname(os.path.abspath(path))
    for _ in range(FOLDERS_ABOVE):
        folders += ["-I", above, "-I", os.path.join(above, "include")]
        above = os.path.dirname(above)
    words = ["gcc", "-E", "-P", *folders, path]
    ran = subprocess.run(
        words, stdout=subprocess.PIPE, stderr=subprocess.DEVNULL, timeout=60, check=False
    )
    return [] if ran.returncode else [(path, ran.stdout.decode(errors="replace"))]
