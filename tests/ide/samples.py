"""The samples of the languages, and files as an editor writes them."""

import os

from tests import TOP

FOLDER = os.path.join(TOP, "grammars", "samples")
# The sample of each language.
SAMPLES = {
    name.split(".")[0]: name for name in sorted(os.listdir(FOLDER)) if not name.endswith(".tree")
}


def sample(name: str) -> str:
    with open(os.path.join(FOLDER, name), encoding="utf-8", newline="") as file:
        return file.read()


def written(path: str, text: str) -> str:
    """Writes a file as a whole, as an editor does. Returns its path."""
    with open(path + ".new", "w", encoding="utf-8", newline="") as file:
        file.write(text)
    os.replace(path + ".new", path)
    return path
