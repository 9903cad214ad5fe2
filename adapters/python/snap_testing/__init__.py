"""Snapshot tests of Python values: whether a value is the one that was approved before, judged by the program snap.

`SnapshotTestCase` is for unittest, the fixture `snapshot` for pytest, and `assert_snapshot` and `Snapshots` for plain scripts.
"""

from __future__ import annotations

from typing import TYPE_CHECKING, Any

from .documents import SORTED, Refused
from .program import ProgramError
from .snapshots import Snapshots, assert_snapshot

if TYPE_CHECKING:
    from .case import SnapshotTestCase

__version__ = "0.1.0"
__all__ = ["SORTED", "ProgramError", "Refused", "SnapshotTestCase", "Snapshots", "assert_snapshot"]


def __getattr__(name: str) -> Any:
    """Imports unittest only where its class is asked for: a plain script needn't wait for that."""
    if name == "SnapshotTestCase":
        from .case import SnapshotTestCase

        return SnapshotTestCase
    raise AttributeError(f"module {__name__!r} has no attribute {name!r}")
