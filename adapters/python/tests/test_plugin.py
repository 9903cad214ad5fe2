"""The plugin for pytest, where pytest is installed: the fixture, the option, and where a failure is told."""

import importlib.util
import unittest

from .projects import ProjectCase

TESTS = """
    import pytest
    from snap_testing import SnapshotTestCase

    def test_one(snapshot):
        snapshot({"id": 1, "b": [2]}, redact={".id": "[id]"}, sort=True)

    class TestOrder:
        @pytest.mark.parametrize("what", ["x", "y"])
        def test_each(self, snapshot, what):
            snapshot(what)
            snapshot([what])
            snapshot(0, name=f"own {what}")

    class PlainTest(SnapshotTestCase):
        def test_plain(self):
            self.assert_snapshot(1)
"""
# The value of each snapshot, by its name after that of the module.
VALUES = {
    "test_one": 'b:\n  - 2\nid: "[id]"\n',
    "TestOrder__test_each[x]": "x\n",
    "TestOrder__test_each[x]-2": "- x\n",
    "TestOrder__own x": "0\n",
    # A bare y has no other meaning.
    "TestOrder__test_each[y]": "y\n",
    "TestOrder__test_each[y]-2": "- y\n",
    "TestOrder__own y": "0\n",
    "PlainTest__test_plain": "1\n",
}


@unittest.skipUnless(importlib.util.find_spec("pytest"), "pytest is not installed")
class Plugin(ProjectCase):
    def setUp(self) -> None:
        super().setUp()
        self.write("tests/test_orders.py", TESTS)

    def pytest(self, *words: str, **variables: str) -> str:
        # The plugin of this folder, and none that is installed.
        variables = {"PYTEST_DISABLE_PLUGIN_AUTOLOAD": "1", **variables}
        return self.python("-m", "pytest", "-p", "no:cacheprovider", "-p", "snap_testing.plugin", *words, **variables).stdout

    def change(self, old: str, new: str) -> None:
        text = self.read("tests/test_orders.py")
        self.assertIn(old, text)
        self.write("tests/test_orders.py", text.replace(old, new))

    def values(self, end: str) -> dict:
        begin = "tests/snapshots/test_orders__"
        return {path[len(begin) : -len(end)]: text.split("---\n", 2)[2] for path, text in self.files().items() if path.endswith(end)}

    def test_an_update_writes_all_and_passes(self) -> None:
        self.assertIn(" 4 passed", self.pytest("--snap-update"))
        self.assertEqual(self.values(".snap"), VALUES)
        self.assertEqual(len(self.files()), len(VALUES))
        for variables in ({}, {"CI": "1"}):
            self.assertIn(" 4 passed", self.pytest(**variables))

    def test_an_update_is_stronger_than_the_environment(self) -> None:
        self.assertIn(" 4 passed", self.pytest("--snap-update", CI="1", SNAP_MODE="no"))

    def test_first_values_fail_and_are_pending(self) -> None:
        self.assertIn(" 4 failed", self.pytest())
        wanted = {name: text for name, text in VALUES.items() if name in ("test_one", "PlainTest__test_plain") or name.endswith("]")}
        self.assertEqual(self.values(".snap.new"), wanted)

    def test_ci_writes_nothing(self) -> None:
        said = self.pytest(CI="1")
        self.assertIn(" 4 failed", said)
        self.assertIn("AssertionError: rejected tests/snapshots/test_orders__test_one.snap: a first snapshot", said)
        self.assertEqual(self.files(), {})

    def test_a_failure_is_of_the_test_at_its_line(self) -> None:
        self.pytest("--snap-update")
        self.change("snapshot([what])", 'snapshot([what, "new"])')
        said = self.pytest()
        self.assertIn(" 2 failed, 2 passed", said)
        self.assertNotIn(" error", said.rsplit("\n", 2)[1])
        self.assertIn("\ntests/test_orders.py:12: AssertionError\n", said)
        self.assertNotIn("snap_testing/", said)
        for line in ("E        - x\n", "E       +- new\n"):
            self.assertIn(line, said)
        self.assertEqual(self.values(".snap.new"), {f"TestOrder__test_each[{what}]-2": f"- {what}\n- new\n" for what in "xy"})

    def test_a_refused_value_names_its_place(self) -> None:
        self.change('"b": [2]', '"b": [2j]')
        said = self.pytest("--snap-update")
        self.assertIn(" 1 failed, 3 passed", said)
        self.assertIn("Refused: .b[0]: a value of the type complex, which has no rule", said)
        self.assertIn("\ntests/test_orders.py:6: Refused\n", said)
