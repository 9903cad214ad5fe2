"""Hands values over to the program, one process for each, and fails where its value is not the approved one."""

from __future__ import annotations

import os
import sys
from types import FrameType
from typing import Any, Mapping, NamedTuple

from . import callers
from .documents import Refused, Request, redactions_of, text_of, to_json
from .failures import explain
from .program import MODES, ProgramError, judge

__unittest = True  # Leaves this module out of the tracebacks that unittest prints.

# The mode of all tests of this process, where a test runner was told one.
mode_of_runner: str | None = None


class Test(NamedTuple):
    """What a test is called: its file as an absolute path, its classes from the outermost, and its own name."""

    file: str
    classes: tuple[str, ...]
    name: str


# Which test each snapshot of this process is of, by the path of its file without `snapshots` and the suffix.
owners: dict[str, Test] = {}


class Snapshots:
    """The snapshots of one test, or of a plain script, where no test is given and names are those of functions.

    `literal` says whether texts of several lines are written as literal blocks; where it isn't given, the environment
    variable `SNAP_LITERAL` says so, and they are without it.
    """

    def __init__(self, test: Test | None = None, literal: bool | None = None) -> None:
        self.test = test
        self.literal = is_set("SNAP_LITERAL", "1") if literal is None else literal
        self.used: set[str] = set()

    def __call__(
        self, value: Any, name: str | None = None, *, redact: Mapping[str, Any] | None = None, sort: bool = False
    ) -> None:
        """Passes where the value is the approved one, or was written in the mode `inplace`.

        The snapshot is called by the test, or by `name`; a further one in the same test by that and `-2`, `-3`. `redact` has
        selectors, and what is put in place of what they hit, or `SORTED`; with `sort`, the maps are sorted by their keys.

        Raises `AssertionError` where it is not, or none is approved yet, `Refused` for a value that can't be handed over, and
        `ProgramError` where there is no verdict.
        """
        __tracebackhide__ = True
        failure = self.failure_of(value, name, redact, sort, sys._getframe(1))
        if failure is not None:
            raise failure

    def failure_of(
        self, value: Any, name: str | None, redact: Mapping[str, Any] | None, sort: bool, caller: FrameType
    ) -> Exception | None:
        """What is to be raised, so that a traceback ends at the caller's line."""
        try:
            frame = callers.frame_in(self.test and self.test.file, caller)
            test = self.test or Test(os.path.abspath(frame.f_code.co_filename), (), callers.function_name(frame))
            workspace = callers.workspace_of(test.file)
            request = self.request_for(test, name, frame, workspace)
            request = request._replace(value=to_json(value), redactions=redactions_of(redact), sort=sort)
            answer = judge([request], mode(), workspace, self.literal)[0]
            if isinstance(answer, ProgramError):
                raise answer
            is_passed = answer.word in ("passed", "updated")
            return None if is_passed else AssertionError(explain(answer, request, self.literal))
        except (Refused, ProgramError) as error:
            return error.with_traceback(None)

    def request_for(self, test: Test, name: str | None, frame: FrameType, workspace: str) -> Request:
        """A request without a value yet."""
        words = {
            "module": "::".join((callers.stem(test.file), *test.classes)),
            "file": os.path.relpath(test.file, workspace).replace(os.sep, "/"),
            "expr": callers.expression(frame),
            "name": test.name if name is None else name,
        }
        words = {key: text_of(text, key) for key, text in words.items()}
        words["name"] = self.free_name(test, words["module"], words["name"])
        return Request(line=frame.f_lineno, value=None, **words)

    def free_name(self, test: Test, module: str, name: str) -> str:
        """The name, with a counter where this test used it already. Raises `Refused` where another test did."""
        number, counted = 1, name
        while (path := path_of(test, module, counted)) in self.used:
            number, counted = number + 1, f"{name}-{number + 1}"
        self.used.add(path)
        owner = owners.setdefault(path, test)
        if owner != test:
            raise Refused("name", f"the test {owner.name} has a snapshot of the name {counted!r} already; give each its own")
        return counted


def path_of(test: Test, module: str, name: str) -> str:
    """What tells the files of snapshots apart: module and name are parts of one file's name, where slashes are underscores."""
    words = f"{module}::{name}".replace("::", "__").replace("/", "__").replace("\\", "__")
    return os.path.join(os.path.dirname(test.file), words)


def mode() -> str:
    """The mode of a run: what the runner was told, else `SNAP_MODE`, else `inplace` where `SNAP_UPDATE` is `1`, else `no` where
    `CI` is set, and `new` elsewhere."""
    updates = os.environ.get("SNAP_UPDATE") == "1"
    chosen = mode_of_runner or os.environ.get("SNAP_MODE") or ("inplace" if updates else "no" if is_set("CI", "") else "new")
    if chosen not in MODES:
        raise ProgramError(f"SNAP_MODE is {chosen!r}, and the modes are inplace, new and no")
    return chosen


def is_set(variable: str, default: str) -> bool:
    """Whether the environment variable says yes: anything but nothing, `0`, `no` and `false`."""
    return os.environ.get(variable, default).lower() not in ("", "0", "no", "false")


# For plain scripts: names are those of the functions that it is called in.
assert_snapshot = Snapshots()
