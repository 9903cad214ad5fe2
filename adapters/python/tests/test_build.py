"""The package's own build: its wheel and its archive of sources, and an installation that asks no network."""

import base64
import csv
import hashlib
import os
import shutil
import subprocess
import sys
import tarfile
import tempfile
import unittest
import zipfile
from pathlib import Path

from .projects import PACKAGE, ProjectCase

MODULES = ["__init__", "callers", "case", "documents", "failures", "plugin", "program", "snapshots"]
INFORMATION = "snap_testing-0.1.0.dist-info"


def build(folder: Path, hook: str, made: Path) -> str:
    """The name that the hook returns, called as an installer does: in the folder of the sources, which is on Python's path."""
    code = f"import sys; sys.path.insert(0, '.'); import build_backend; print(build_backend.{hook}({str(made)!r}))"
    return subprocess.check_output([sys.executable, "-B", "-c", code], cwd=folder, text=True).strip()


class Builds(unittest.TestCase):
    def setUp(self) -> None:
        folder = tempfile.TemporaryDirectory()
        self.addCleanup(folder.cleanup)
        self.made = Path(folder.name)

    def test_the_wheel_holds_the_package_alone(self) -> None:
        self.assertEqual(build(PACKAGE, "build_wheel", self.made), "snap_testing-0.1.0-py3-none-any.whl")
        with zipfile.ZipFile(self.made / "snap_testing-0.1.0-py3-none-any.whl") as wheel:
            wanted = [f"snap_testing/{name}.py" for name in MODULES] + ["snap_testing/py.typed"]
            wanted += [f"{INFORMATION}/{name}" for name in ("LICENSE", "METADATA", "RECORD", "WHEEL", "entry_points.txt")]
            self.assertEqual(sorted(wheel.namelist()), sorted(wanted))
            self.assertEqual(wheel.read(f"{INFORMATION}/entry_points.txt"), b"[pytest11]\nsnap_testing = snap_testing.plugin\n")
            lines = wheel.read(f"{INFORMATION}/METADATA").decode().splitlines()
            for line in ("Metadata-Version: 2.1", "Name: snap_testing", "Version: 0.1.0", "Requires-Python: >=3.8"):
                self.assertIn(line, lines[: lines.index("")])
            self.check_record(wheel)

    def check_record(self, wheel: zipfile.ZipFile) -> None:
        rows = list(csv.reader(wheel.read(f"{INFORMATION}/RECORD").decode().splitlines()))
        self.assertEqual(rows[-1], [f"{INFORMATION}/RECORD", "", ""])
        self.assertEqual([row[0] for row in rows], wheel.namelist())
        for path, told, size in rows[:-1]:
            data = wheel.read(path)
            # 32 bytes have one sign of padding in base64.
            self.assertEqual(base64.urlsafe_b64decode(told[len("sha256=") :] + "="), hashlib.sha256(data).digest())
            self.assertEqual(int(size), len(data))

    def test_the_same_wheel_from_the_archive_of_sources(self) -> None:
        first, second = self.made / "first", self.made / "second"
        first.mkdir(), second.mkdir()
        self.assertEqual(build(PACKAGE, "build_sdist", self.made), "snap_testing-0.1.0.tar.gz")
        with tarfile.open(self.made / "snap_testing-0.1.0.tar.gz") as archive:
            names = archive.getnames()
            archive.extractall(self.made)
        self.assertEqual({name.split("/")[0] for name in names}, {"snap_testing-0.1.0"})
        self.assertIn("snap_testing-0.1.0/PKG-INFO", names)
        self.assertIn("snap_testing-0.1.0/tests/test_build.py", names)
        wheel = build(PACKAGE, "build_wheel", first)
        build(self.made / "snap_testing-0.1.0", "build_wheel", second)
        self.assertEqual((first / wheel).read_bytes(), (second / wheel).read_bytes())

    def test_a_folder_that_was_copied_alone(self) -> None:
        alone = self.made / "far" / "away" / "python"
        shutil.copytree(PACKAGE, alone, ignore=shutil.ignore_patterns("__pycache__", "LICENSE"))
        with zipfile.ZipFile(self.made / build(alone, "build_wheel", self.made)) as wheel:
            self.assertIn("snap_testing/snapshots.py", wheel.namelist())
            self.assertNotIn(f"{INFORMATION}/LICENSE", wheel.namelist())


class Installs(ProjectCase):
    def test_into_a_fresh_environment_without_a_network(self) -> None:
        home = self.root / "environment"
        for words in (["venv", "--without-pip", str(home)], ["pip", "--version"]):
            ran = subprocess.run([sys.executable, "-m", *words], capture_output=True, text=True)
            if ran.returncode:
                self.skipTest(f"no virtual environment and pip here: {ran.stdout}{ran.stderr}")
        python = str(home / "bin" / "python")
        pip = [sys.executable, "-m", "pip", "--python", python]
        # A proxy that refuses all: whoever asks the network fails.
        environment = {**os.environ, "PIP_DISABLE_PIP_VERSION_CHECK": "1", "https_proxy": "http://127.0.0.1:9", "PIP_RETRIES": "0"}
        environment.pop("PYTHONPATH", None)
        ran = subprocess.run([*pip, "install", str(PACKAGE)], env=environment, cwd=self.root, capture_output=True, text=True)
        self.assertEqual(ran.returncode, 0, ran.stdout + ran.stderr)
        self.write("script.py", "from snap_testing import *\nassert_snapshot(1)\nSnapshotTestCase\nimport snap_testing; print(snap_testing.__file__)\n")
        ran = subprocess.run([python, "script.py"], env={**environment, "SNAP_MODE": "inplace"}, cwd=self.root, capture_output=True, text=True)
        self.assertEqual((ran.returncode, ran.stderr), (0, ""))
        self.assertTrue(ran.stdout.startswith(str(home)), ran.stdout)
        self.assertEqual(self.read("snapshots/script__script.snap").rsplit("---\n")[-1], "1\n")
