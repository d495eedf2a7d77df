"""The tests. CONTRIBUTING.md says what each folder tries."""

import os

# The folder of the repository.
TOP = os.path.dirname(os.path.dirname(os.path.abspath(__file__)))
