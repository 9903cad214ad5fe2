"""The plugin for pytest: the fixture `snapshot`, and the option `--snap-update`."""

from __future__ import annotations

import os
from typing import Any

import pytest

from . import snapshots


def pytest_addoption(parser: Any) -> None:
    parser.getgroup("snap").addoption(
        "--snap-update", action="store_true", help="write each snapshot that is missing or differs: the mode inplace of snap"
    )


def pytest_configure(config: Any) -> None:
    snapshots.mode_of_runner = "inplace" if config.getoption("--snap-update") else None


def pytest_unconfigure(config: Any) -> None:
    snapshots.mode_of_runner = None


@pytest.fixture
def snapshot(request: Any) -> snapshots.Snapshots:
    """Compares the test's values with their snapshots: `snapshot(value)`."""
    node = request.node
    classes = node.cls.__qualname__.split(".") if getattr(node, "cls", None) else []
    file = os.path.abspath(str(getattr(node, "path", None) or node.fspath))
    return snapshots.Snapshots(snapshots.Test(file, tuple(classes), node.name))
