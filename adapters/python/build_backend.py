"""Builds the package: the hooks of PEP 517, with Python's standard library alone, so that an installation asks no network."""

import base64
import hashlib
import io
import os
import re
import tarfile
import zipfile
from pathlib import Path
from typing import Any, Dict, Iterator, List, Optional, Tuple

HERE = Path(__file__).resolve().parent
PACKAGE = "snap_testing"
VERSION = re.findall(r'^__version__ = "(.*)"$', (HERE / PACKAGE / "__init__.py").read_text("utf-8"), re.M)[0]
STEM = f"{PACKAGE}-{VERSION}"
# The first moment that a zip archive can tell: so the same files give the same wheel.
TIME = (1980, 1, 1, 0, 0, 0)

METADATA = f"""\
Metadata-Version: 2.1
Name: {PACKAGE}
Version: {VERSION}
Summary: Snapshot tests of Python values, for unittest, pytest and plain scripts, judged by the program snap
License: Apache-2.0
Classifier: Framework :: Pytest
Classifier: License :: OSI Approved :: Apache Software License
Classifier: Programming Language :: Python :: 3
Requires-Python: >=3.8
Description-Content-Type: text/markdown

"""
WHEEL = "Wheel-Version: 1.0\nGenerator: snap_testing build_backend\nRoot-Is-Purelib: true\nTag: py3-none-any\n"
ENTRY_POINTS = f"[pytest11]\n{PACKAGE} = {PACKAGE}.plugin\n"

Files = List[Tuple[str, bytes]]


def build_wheel(
    wheel_directory: str, config_settings: Optional[Dict[str, Any]] = None, metadata_directory: Optional[str] = None
) -> str:
    """Writes the wheel into the folder, and returns its name."""
    folder = f"{STEM}.dist-info"
    files = list(sources(PACKAGE))
    files += license_at(f"{folder}/LICENSE")
    files.append((f"{folder}/METADATA", metadata()))
    files.append((f"{folder}/WHEEL", WHEEL.encode()))
    files.append((f"{folder}/entry_points.txt", ENTRY_POINTS.encode()))
    files.append((f"{folder}/RECORD", record(files, f"{folder}/RECORD")))
    name = f"{STEM}-py3-none-any.whl"
    with zipfile.ZipFile(os.path.join(wheel_directory, name), "w", zipfile.ZIP_DEFLATED) as wheel:
        for path, data in files:
            entry = zipfile.ZipInfo(path, TIME)
            entry.compress_type = zipfile.ZIP_DEFLATED
            entry.external_attr = 0o100644 << 16
            wheel.writestr(entry, data)
    return name


def build_sdist(sdist_directory: str, config_settings: Optional[Dict[str, Any]] = None) -> str:
    """Writes the archive of the sources into the folder, and returns its name."""
    files = [(name, (HERE / name).read_bytes()) for name in ("README.md", "benchmark.py", "build_backend.py", "pyproject.toml")]
    files += [*sources(PACKAGE), *sources("tests"), *license_at("LICENSE"), ("PKG-INFO", metadata())]
    name = f"{STEM}.tar.gz"
    with tarfile.open(os.path.join(sdist_directory, name), "w:gz", format=tarfile.PAX_FORMAT) as archive:
        for path, data in files:
            entry = tarfile.TarInfo(f"{STEM}/{path}")
            entry.size = len(data)
            archive.addfile(entry, io.BytesIO(data))
    return name


def sources(folder: str) -> Iterator[Tuple[str, bytes]]:
    """The files of a folder beside this module, each with its path from here; what Python made of them is left out."""
    for path in sorted((HERE / folder).rglob("*")):
        if path.is_file() and path.suffix in (".py", ".typed"):
            yield path.relative_to(HERE).as_posix(), path.read_bytes()


def metadata() -> bytes:
    return METADATA.encode() + (HERE / "README.md").read_bytes()


def license_at(name: str) -> Files:
    """The license under this name: beside this module in an archive of the sources, and two folders above in the repository
    and in snap's own package. A copy of this folder alone has none, and is built without it."""
    found = [place for place in (HERE / "LICENSE", HERE.parent.parent / "LICENSE") if place.exists()]
    return [(name, place.read_bytes()) for place in found[:1]]


def record(files: Files, own: str) -> bytes:
    """The list of all files with their sums and lengths in bytes; for the list itself neither is said."""
    lines = []
    for path, data in files:
        sum = base64.urlsafe_b64encode(hashlib.sha256(data).digest()).rstrip(b"=").decode()
        lines.append(f"{path},sha256={sum},{len(data)}\n")
    return ("".join(lines) + f"{own},,\n").encode()
