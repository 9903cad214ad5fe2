"""Where a value was made: the line of the test, the source text of the value there, and the project's root."""

from __future__ import annotations

import functools
import linecache
import os
from types import FrameType

# The files and folders that the root of a project has, one of them at least.
ROOT_MARKS = ("pyproject.toml", "setup.py", ".git")
# How a call is named whose argument is the value.
CALLS = ("assert_snapshot", "snapshot")


def frame_in(file: str | None, caller: FrameType) -> FrameType:
    """The innermost frame in this file from the caller outwards; the caller's where there is none, or no file is given."""
    frame: FrameType | None = caller
    while file is not None and frame is not None and os.path.abspath(frame.f_code.co_filename) != file:
        frame = frame.f_back
    return caller if frame is None else frame


def function_name(frame: FrameType) -> str:
    """The name of the function, not of a comprehension or a lambda in it; of other code, that of the file without its suffix."""
    name = frame.f_code.co_name
    if not name.startswith("<"):
        return name
    if name != "<module>" and frame.f_back is not None and frame.f_back.f_code.co_filename == frame.f_code.co_filename:
        return function_name(frame.f_back)
    return stem(frame.f_code.co_filename)


def stem(file: str) -> str:
    return os.path.splitext(os.path.basename(file))[0]


def expression(frame: FrameType) -> str:
    """The source text of the value, where its call is the only one in its line and fits in it; else the function's name."""
    return argument_in(linecache.getline(frame.f_code.co_filename, frame.f_lineno).strip()) or function_name(frame)


def argument_in(line: str) -> str | None:
    import ast

    try:
        tree = ast.parse(line)
    except (SyntaxError, ValueError):
        return None
    calls = [node for node in ast.walk(tree) if isinstance(node, ast.Call) and called(node.func) in CALLS]
    if len(calls) != 1:
        return None
    values = [*calls[0].args[:1], *(keyword.value for keyword in calls[0].keywords if keyword.arg == "value")]
    return ast.get_source_segment(line, values[0]) if values else None


def called(function: object) -> str:
    """The last name of what is called: of `self.assert_snapshot` the second."""
    return getattr(function, "attr", getattr(function, "id", ""))


def workspace_of(file: str) -> str:
    """The folder that snapshots' paths begin at: `SNAP_WORKSPACE`, or the nearest one with a root's mark at or above the file."""
    chosen = os.environ.get("SNAP_WORKSPACE")
    return os.path.abspath(chosen) if chosen else root_above(os.path.dirname(file)) or os.getcwd()


@functools.lru_cache(maxsize=None)
def root_above(folder: str) -> str | None:
    while not any(os.path.exists(os.path.join(folder, mark)) for mark in ROOT_MARKS):
        above = os.path.dirname(folder)
        if above == folder:
            return None
        folder = above
    return folder
