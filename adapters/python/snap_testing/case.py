"""The class for unittest."""

from __future__ import annotations

import os
import sys
import unittest
from typing import Any, Mapping

from .snapshots import Snapshots, Test

__unittest = True  # Leaves this module out of the tracebacks that unittest prints.


class SnapshotTestCase(unittest.TestCase):
    """A test case whose values are compared with their snapshots."""

    # Whether texts of several lines are written as literal blocks; `None` leaves it to `SNAP_LITERAL`.
    snapshot_literal: bool | None = None
    _snapshots: Snapshots | None = None

    def run(self, result: unittest.TestResult | None = None) -> unittest.TestResult | None:
        self._snapshots = None
        return super().run(result)

    def assert_snapshot(
        self, value: Any, name: str | None = None, *, redact: Mapping[str, Any] | None = None, sort: bool = False
    ) -> None:
        """Passes where the value is the approved one: see `Snapshots`, which says what each word means."""
        __tracebackhide__ = True
        caller = sys._getframe(1)
        if self._snapshots is None:
            self._snapshots = Snapshots(test_of(self, caller.f_code.co_filename), self.snapshot_literal)
        failure = self._snapshots.failure_of(value, name, redact, sort, caller)
        if failure is not None:
            raise failure


def test_of(case: unittest.TestCase, file: str) -> Test:
    """What the test is called. Its file is that of its class; where Python doesn't know that, the caller's."""
    kind = type(case)
    known = getattr(sys.modules.get(kind.__module__), "__file__", None) or file
    classes = tuple(part for part in kind.__qualname__.split(".") if part != "<locals>")
    return Test(os.path.abspath(known), classes, case._testMethodName)
