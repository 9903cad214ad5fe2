"""The class for unittest and the function for plain scripts, in projects of their own: names, files, modes and failures."""

import unittest

from .projects import ProjectCase

ORDER = """
    import unittest
    from snap_testing import SORTED, SnapshotTestCase, assert_snapshot

    class OrderTest(SnapshotTestCase):
        def test_first(self):
            self.assert_snapshot({"id": 7341, "note": "one\\ntwo\\n", "paid": False})
"""
FIRST = "tests/snapshots/test_order__OrderTest__test_first.snap"
VALUE = 'id: 7341\nnote: |\n  one\n  two\n\npaid: false\n'
HEADER = """\
---
source: tests/test_order.py
expression: "{\\"id\\": 7341, \\"note\\": \\"one\\\\ntwo\\\\n\\", \\"paid\\": False}"
---
"""
PENDING_HEADER = HEADER.replace("expression", "assertion_line: 7\nexpression")


class UnittestCase(ProjectCase):
    def setUp(self) -> None:
        super().setUp()
        self.write("tests/test_order.py", ORDER)

    def run_tests(self, **variables: str) -> str:
        """What unittest says of the project's tests."""
        return self.python("-m", "unittest", "discover", "-s", "tests", **variables).stderr

    def change(self, old: str, new: str) -> None:
        text = self.read("tests/test_order.py")
        self.assertIn(old, text)
        self.write("tests/test_order.py", text.replace(old, new))

    def body(self, path: str) -> str:
        return self.read(path).split("---\n", 2)[2]

    def bodies(self, lines: str, **variables: str) -> dict:
        """The value of each snapshot, by the last part of its name, that a test of these lines leaves in the mode `inplace`."""
        self.change('self.assert_snapshot({"id": 7341, "note": "one\\ntwo\\n", "paid": False})', lines)
        said = self.run_tests(SNAP_MODE="inplace", **variables)
        self.assertIn("\nOK", said)
        return {path.rsplit("__", 1)[1]: self.body(path) for path in self.files()}


class Life(UnittestCase):
    """A snapshot from its first run on."""

    def test_a_first_run_fails_and_leaves_a_pending_snapshot(self) -> None:
        said = self.run_tests()
        self.assertEqual(self.files(), {f"{FIRST}.new": PENDING_HEADER + VALUE})
        self.assertIn(f"AssertionError: pending {FIRST}: a first snapshot, nothing is approved yet. The value is:\n{VALUE}To approve it", said)
        self.assertIn("FAILED (failures=1)", said)

    def test_a_failure_is_at_the_line_of_its_value(self) -> None:
        said = self.run_tests()
        self.assertIn("tests/test_order.py\", line 7, in test_first\n", said)
        self.assertNotIn("snap_testing/", said)

    def test_an_approved_value_passes(self) -> None:
        self.run_tests()
        (self.root / f"{FIRST}.new").rename(self.root / FIRST)
        for mode in ("new", "no", "inplace"):
            self.assertIn("\nOK", self.run_tests(SNAP_MODE=mode))
        self.assertEqual(self.files(), {FIRST: PENDING_HEADER + VALUE})

    def test_an_update_writes_and_passes(self) -> None:
        self.assertIn("\nOK", self.run_tests(SNAP_MODE="inplace"))
        self.assertEqual(self.files(), {FIRST: HEADER + VALUE})
        self.change("7341", "9000")
        self.assertIn("\nOK", self.run_tests(SNAP_MODE="inplace"))
        self.assertEqual(self.body(FIRST), VALUE.replace("7341", "9000"))

    def test_a_changed_value_fails_with_its_diff(self) -> None:
        self.run_tests(SNAP_MODE="inplace")
        self.change("two", "2")
        said = self.run_tests()
        diff = f"--- {FIRST}\n+++ the value\n@@ -1,6 +1,6 @@\n id: 7341\n note: |\n   one\n-  two\n+  2\n \n paid: false\n"
        self.assertIn(f"AssertionError: pending {FIRST}: the value is not the approved one\n{diff}To approve it", said)
        self.assertIn(f"move {FIRST}.new over {FIRST}\n", said)
        self.assertEqual(self.body(f"{FIRST}.new"), VALUE.replace("two", "2"))
        self.assertEqual(self.body(FIRST), VALUE)

    def test_ci_rejects_a_changed_value_and_writes_nothing(self) -> None:
        self.run_tests(SNAP_MODE="inplace")
        self.change("7341", "9000")
        said = self.run_tests(CI="true")
        self.assertIn(f"AssertionError: rejected {FIRST}: the value is not the approved one\n--- {FIRST}\n+++ the value\n", said)
        self.assertIn("\n-id: 7341\n+id: 9000\n note: |\n   one\n", said)
        self.assertNotIn(f"{FIRST}.new", said)
        self.assertEqual(self.files(), {FIRST: HEADER + VALUE})

    def test_ci_rejects_a_first_value_and_shows_it(self) -> None:
        said = self.run_tests(CI="1")
        self.assertIn(f"rejected {FIRST}: a first snapshot, nothing is approved yet. The value is:\n{VALUE}To approve", said)
        self.assertEqual(self.files(), {})

    def test_a_header_that_stands_in_the_way(self) -> None:
        self.write(FIRST, "---\nsnapshot_kind: binary\nextension: bin\n---\n" + VALUE)
        self.assertIn("Both texts agree: see whether the header", self.run_tests())


class Settings(UnittestCase):
    def test_modes(self) -> None:
        # What is set, and what becomes of a first value.
        rows = [({}, "pending"), ({"CI": ""}, "pending"), ({"CI": "false"}, "pending"), ({"CI": "1"}, "rejected")]
        rows += [({"CI": "1", "SNAP_MODE": "new"}, "pending"), ({"SNAP_MODE": "no"}, "rejected")]
        rows += [({"SNAP_UPDATE": "1", "SNAP_MODE": "no"}, "rejected"), ({"SNAP_UPDATE": "0"}, "pending")]
        for variables, wanted in rows:
            with self.subTest(variables=variables):
                self.assertIn(f"AssertionError: {wanted} ", self.run_tests(**variables))
        self.assertIn("\nOK", self.run_tests(SNAP_UPDATE="1", CI="1"))

    def test_no_mode(self) -> None:
        self.assertIn("ProgramError: SNAP_MODE is 'update', and the modes are inplace, new and no", self.run_tests(SNAP_MODE="update"))

    def test_a_missing_program(self) -> None:
        said = self.run_tests(SNAP="/nowhere/snap")
        self.assertIn("ProgramError: the program /nowhere/snap can't be run (No such file or directory)", said)
        self.assertIn("README.md of snap's repository tells where it comes from", said)

    def test_literal_blocks_can_be_left(self) -> None:
        plain = 'id: 7341\nnote: "one\\ntwo\\n"\npaid: false\n'
        self.run_tests(SNAP_MODE="inplace", SNAP_LITERAL="0")
        self.assertEqual(self.body(FIRST), plain)
        self.change("    def test_first", "    snapshot_literal = True\n    def test_first")
        self.run_tests(SNAP_MODE="inplace", SNAP_LITERAL="0")
        self.assertEqual(self.body(FIRST), VALUE)

    def test_the_workspace_can_be_set(self) -> None:
        self.run_tests(SNAP_MODE="inplace", SNAP_WORKSPACE="tests")
        self.assertIn("source: test_order.py\n", self.read(FIRST))

    def test_the_workspace_is_the_nearest_root(self) -> None:
        self.write("tests/setup.py", "")
        self.run_tests(SNAP_MODE="inplace")
        self.assertIn("source: test_order.py\n", self.read(FIRST))


class Values(UnittestCase):
    def test_names_and_counters(self) -> None:
        lines = "[self.assert_snapshot(n) for n in 'abc']; self.assert_snapshot(1, name='x'); self.assert_snapshot(2, 'x'); self.assert_snapshot(3, 'a/b')"
        wanted = {"test_first.snap": "a\n", "test_first-2.snap": "b\n", "test_first-3.snap": "c\n", "x.snap": "1\n", "x-2.snap": "2\n", "b.snap": "3\n"}
        self.assertEqual(self.bodies(lines), wanted)

    def test_a_name_of_two_tests_is_refused(self) -> None:
        self.change('False})', 'False}, "x")\n\n    def test_second(self):\n        self.assert_snapshot(2, "x")')
        said = self.run_tests(SNAP_MODE="inplace")
        self.assertIn("Refused: name: the test test_first has a snapshot of the name 'x' already; give each its own", said)
        self.assertEqual([self.body(path) for path in self.files()], [VALUE])

    def test_names_of_one_file_are_counted_too(self) -> None:
        lines = "self.assert_snapshot(1, name='a/b'); self.assert_snapshot(2, name='a__b')"
        self.assertEqual(self.bodies(lines), {"b.snap": "1\n", "b-2.snap": "2\n"})

    def test_redactions_and_sorting(self) -> None:
        lines = 'self.assert_snapshot({"t": [2, 1], "id": 7, "at": {"b": 1, "a": 2}}, redact={".id": "[id]", ".t": SORTED}, sort=True)'
        self.assertEqual(self.bodies(lines), {"test_first.snap": 'at:\n  a: 2\n  b: 1\nid: "[id]"\nt:\n  - 1\n  - 2\n'})

    def test_a_refused_value_sends_nothing_and_leaves_others(self) -> None:
        self.change('"paid": False})', '"user": {"made": 1j}})\n\n    def test_second(self):\n        self.assert_snapshot(2)')
        said = self.run_tests(SNAP_MODE="inplace")
        self.assertIn("Refused: .user.made: a value of the type complex, which has no rule", said)
        self.assertIn("FAILED (errors=1)", said)
        self.assertEqual(list(self.files()), [FIRST.replace("first", "second")])

    def test_a_refused_document(self) -> None:
        self.change("False})", 'False}, redact={".[": "x"})')
        said = self.run_tests()
        self.assertIn("ProgramError: the value test_first of tests/test_order.py:7 (is each of its selectors one: .[?) was not judged, status 3", said)
        self.assertIn("snap: document 1 is no request", said)

    def test_a_helper_is_told_as_the_line_of_the_test(self) -> None:
        self.write("tests/helper.py", "def check(case, value):\n    case.assert_snapshot(value)\n")
        self.change('self.assert_snapshot({"id": 7341, "note": "one\\ntwo\\n", "paid": False})', "import helper\n        helper.check(self, 1)")
        self.run_tests()
        wanted = "---\nsource: tests/test_order.py\nassertion_line: 8\nexpression: test_first\n---\n1\n"
        self.assertEqual(self.files(), {f"{FIRST}.new": wanted})

    def test_subtests_go_on(self) -> None:
        self.change('self.assert_snapshot({', 'for n in (1, 2):\n            with self.subTest(n=n):\n                self.assert_snapshot(n)\n        return ({')
        self.run_tests()
        self.assertEqual(sorted(self.files()), [FIRST.replace(".snap", "-2.snap.new"), f"{FIRST}.new"])

    def test_nested_classes(self) -> None:
        self.change("class OrderTest", "class Outer:\n  class OrderTest")
        self.change("\n    def", "\n        def")
        self.change("\n        self", "\n            self")
        self.write("tests/test_order.py", self.read("tests/test_order.py") + "\nInner = Outer.OrderTest\n")
        self.run_tests(SNAP_MODE="inplace")
        self.assertEqual(list(self.files()), [FIRST.replace("OrderTest", "Outer__OrderTest")])

    def test_a_class_in_a_function(self) -> None:
        text = """
            from snap_testing import SnapshotTestCase
            def make():
                class OrderTest(SnapshotTestCase):
                    def test_first(self):
                        self.assert_snapshot(1)
                return OrderTest
            Made = make()
        """
        self.write("tests/test_order.py", text)
        self.run_tests(SNAP_MODE="inplace")
        self.assertEqual(list(self.files()), [FIRST.replace("OrderTest", "make__OrderTest")])


class Scripts(ProjectCase):
    def run_script(self, text: str) -> str:
        self.write("jobs/script.py", text)
        return self.python("jobs/script.py", SNAP_MODE="inplace").stderr

    def test_names_are_those_of_functions(self) -> None:
        text = """
        from snap_testing import Snapshots, assert_snapshot
        def total():
            assert_snapshot(1)
            [assert_snapshot(n) for n in (2, 3)]
        total()
        assert_snapshot("top")
        assert_snapshot(value="named", name="x")
        Snapshots(literal=False)("a\\nb", "y")
        """
        self.assertEqual(self.run_script(text), "")
        made = {path[len("jobs/snapshots/script__") : -len(".snap")]: text.split("---\n")[1:] for path, text in self.files().items()}
        wanted = {
            "total": ["source: jobs/script.py\nexpression: \"1\"\n", '1\n'],
            "total-2": ["source: jobs/script.py\nexpression: n\n", "2\n"],
            "total-3": ["source: jobs/script.py\nexpression: n\n", "3\n"],
            "script": ["source: jobs/script.py\nexpression: \"\\\"top\\\"\"\n", "top\n"],
            "x": ["source: jobs/script.py\nexpression: \"\\\"named\\\"\"\n", "named\n"],
            "y": ["source: jobs/script.py\nexpression: script\n", '"a\\nb"\n'],
        }
        self.assertEqual(made, wanted)

    def test_a_call_over_lines_is_told_by_its_function(self) -> None:
        self.run_script("from snap_testing import assert_snapshot\ndef total():\n    assert_snapshot(\n        1,\n    )\ntotal()\n")
        self.assertIn("expression: total\n", self.read("jobs/snapshots/script__total.snap"))

    def test_two_calls_in_a_line_are_told_by_their_function(self) -> None:
        self.run_script("from snap_testing import assert_snapshot\ndef total():\n    assert_snapshot(1); assert_snapshot(2)\ntotal()\n")
        self.assertIn("expression: total\n", self.read("jobs/snapshots/script__total.snap"))


if __name__ == "__main__":
    unittest.main()
