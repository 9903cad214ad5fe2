"""Runs of the program over batches, and what becomes of its refusals and faults."""

import os
import shutil
import tempfile
import unittest
from pathlib import Path
from typing import Any
from unittest import mock

from snap_testing.documents import Request
from snap_testing.program import ProgramError, Verdict, judge


def request(name: str, value: Any = 1, **more: Any) -> Request:
    return Request("m", "a.py", 3, name, "x", value, **more)


class Batches(unittest.TestCase):
    def setUp(self) -> None:
        folder = tempfile.TemporaryDirectory()
        self.addCleanup(folder.cleanup)
        self.root = Path(folder.name)

    def judge(self, *requests: Request, mode: str = "inplace") -> Any:
        return judge(requests, mode, str(self.root), True)

    def path(self, name: str) -> str:
        return str(self.root / "snapshots" / f"m__{name}.snap")

    def program(self, text: str) -> Any:
        """Puts a script in the program's place."""
        file = self.root / "program"
        file.write_text(f"#!/bin/sh\n{text}\n")
        file.chmod(0o755)
        return mock.patch.dict(os.environ, {"SNAP": str(file)})

    def test_no_request_asks_no_program(self) -> None:
        with mock.patch.dict(os.environ, {"SNAP": "/nowhere"}):
            self.assertEqual(self.judge(), [])

    def test_a_verdict_for_each(self) -> None:
        self.judge(request("b"), request("c"))
        answers = self.judge(request("a"), request("b"), request("c", 2), mode="new")
        wanted = [Verdict("pending", self.path("a")), Verdict("passed", self.path("b")), Verdict("pending", self.path("c"))]
        self.assertEqual(answers, wanted)
        self.assertEqual(self.judge(request("c", 2), mode="no"), [Verdict("rejected", self.path("c"))])

    def test_one_process_for_a_batch(self) -> None:
        with self.program(f"echo >>'{self.root}/runs'; grep -c ^--- >/dev/null; echo passed one; echo passed two"):
            self.assertEqual(self.judge(request("a"), request("b")), [Verdict("passed", "one"), Verdict("passed", "two")])
        self.assertEqual((self.root / "runs").read_text(), "\n")

    def test_a_path_in_quotes(self) -> None:
        for name in ('a "b" \\', "tab\t", "\x7f", "a\u2028b", "é: x"):
            # A backslash is written as two underscores.
            self.assertEqual(self.judge(request(name)), [Verdict("updated", self.path(name.replace("\\", "__")))])

    def test_a_refused_document_leaves_no_other_unjudged(self) -> None:
        bad = request("bad", redactions=[{"at": ".[", "put": 1}])
        answers = self.judge(request("a"), bad, request("b"), bad._replace(line=9), request("c"))
        self.assertEqual([answer.word for answer in answers if isinstance(answer, Verdict)], ["updated"] * 3)
        self.assertEqual([isinstance(answer, ProgramError) for answer in answers], [False, True, False, True, False])
        said = "the value bad of a.py:3 (is each of its selectors one: .[?) was not judged, status 3: snap: document 2 is no request"
        self.assertEqual(str(answers[1]), said)
        self.assertIn("a.py:9", str(answers[3]))

    def test_a_refusal_has_the_words_of_the_program_beside(self) -> None:
        # In its place stands a script, which is handed the same stream and tells of each document.
        beside = self.root / "snap-explain"
        beside.write_text(f'#!/bin/sh\necho "$@" >>"{self.root}/words"\nawk \'/^---/ {{ print "document " ++n ", line 2: why" }}\'\nexit 1\n')
        beside.chmod(0o755)
        bad = request("bad", redactions=[{"at": ".[", "put": 1}])
        with self.program(f'exec "{shutil.which(os.environ.get("SNAP") or "snap")}" "$@"'):
            answers = self.judge(request("a"), bad, request("b"))
        self.assertTrue(str(answers[1]).endswith("status 3: snap: document 2 is no request\ndocument 2, line 2: why"), answers[1])
        self.assertEqual((self.root / "words").read_text(), f"stream {self.root} --literal\n")
        self.assertEqual(answers[2], Verdict("updated", self.path("b")))

    def test_a_file_fault(self) -> None:
        os.makedirs(self.path("a"))
        answers = self.judge(request("a"), request("b"))
        said = f"the value a of a.py:3 was not judged, status 5: snap: document 1: file fault at {self.path('a')}"
        self.assertEqual((str(answers[0]), answers[1]), (said, Verdict("updated", self.path("b"))))

    def test_a_signal_is_told_of_its_value(self) -> None:
        with self.program("read line; read line; case $line in *bad*) kill -SEGV $$ ;; esac; echo passed x"):
            answers = self.judge(request("bad"), request("a"))
        said = "the value bad of a.py:3 was not judged, signal 11: nothing on standard error"
        self.assertEqual((str(answers[0]), answers[1]), (said, Verdict("passed", "x")))

    def test_a_fault_of_the_run(self) -> None:
        with self.assertRaisesRegex(ProgramError, "ended with status 2: snap: bad words$"):
            self.judge(request("a"), mode="maybe")

    def test_too_few_lines(self) -> None:
        with self.program("echo passed x"), self.assertRaisesRegex(ProgramError, "ended with status 0"):
            self.judge(request("a"), request("b"))

    def test_a_program_that_does_not_read(self) -> None:
        # More than a pipe holds.
        with self.program("echo no >&2; exit 4"), self.assertRaisesRegex(ProgramError, "ended with status 4: no$"):
            self.judge(request("a", "x" * 1000000))

    def test_a_long_stream_and_many_lines(self) -> None:
        # More than a pipe holds, both ways.
        answers = self.judge(*(request(f"{number:0200}", "x" * 1000) for number in range(400)))
        self.assertEqual([answer.word for answer in answers], ["updated"] * 400)

    def test_another_program_of_the_name(self) -> None:
        with self.program("echo error: cannot find app; exit 1"), self.assertRaisesRegex(ProgramError, "may be another program"):
            self.judge(request("a"))

    def test_a_missing_program(self) -> None:
        wanted = r"/nowhere/snap can't be run \(No such file.*set SNAP.*README.md of snap's repository"
        with mock.patch.dict(os.environ, {"SNAP": "/nowhere/snap"}), self.assertRaisesRegex(ProgramError, wanted):
            self.judge(request("a"))

    def test_the_program_on_the_path(self) -> None:
        with self.program("echo passed found"):
            os.rename(self.root / "program", self.root / "snap")
            with mock.patch.dict(os.environ, {"SNAP": "", "PATH": f"{self.root}:{os.environ['PATH']}"}):
                self.assertEqual(self.judge(request("a")), [Verdict("passed", "found")])
