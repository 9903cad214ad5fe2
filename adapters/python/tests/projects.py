"""Projects in temporary folders, whose tests are run as a user would run them."""

import os
import subprocess
import sys
import tempfile
import textwrap
import unittest
from pathlib import Path
from typing import Dict

PACKAGE = Path(__file__).resolve().parent.parent


class ProjectCase(unittest.TestCase):
    """A test with a folder of its own, which has the mark of a project's root."""

    def setUp(self) -> None:
        folder = tempfile.TemporaryDirectory()
        self.addCleanup(folder.cleanup)
        self.root = Path(folder.name).resolve()
        self.write("pyproject.toml", "")

    def write(self, path: str, text: str) -> None:
        file = self.root / path
        file.parent.mkdir(parents=True, exist_ok=True)
        # An older file of the same length and second would be taken for the same by Python's cache.
        file.write_text(textwrap.dedent(text), "utf-8")

    def read(self, path: str) -> str:
        return (self.root / path).read_text("utf-8")

    def python(self, *words: str, **variables: str) -> "subprocess.CompletedProcess[str]":
        """Runs Python in the project, where neither `CI` nor a setting of the package is set but these."""
        kept = {name: text for name, text in os.environ.items() if name != "CI" and not name.startswith("SNAP_")}
        path = os.pathsep.join([str(PACKAGE), *filter(None, [os.environ.get("PYTHONPATH")])])
        environment: Dict[str, str] = {**kept, "PYTHONPATH": path, "PYTHONDONTWRITEBYTECODE": "1", **variables}
        return subprocess.run([sys.executable, *words], cwd=self.root, env=environment, capture_output=True, text=True)

    def files(self) -> Dict[str, str]:
        """The text of each snapshot, approved or pending, by its path."""
        return {str(path.relative_to(self.root)): path.read_text("utf-8") for path in self.root.rglob("*.snap*")}
