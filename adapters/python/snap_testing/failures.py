"""What a failure says: the verdict, the path of the snapshot, and what changed."""

from __future__ import annotations

import os

from .documents import Request
from .program import ProgramError, Verdict, judge


def explain(verdict: Verdict, request: Request, literal: bool) -> str:
    """The words for a value that is pending or rejected: its text as a whole where none is approved yet, else a diff.

    Raises `ProgramError` where the text of a rejected value can't be made.
    """
    path = shown(verdict.path)
    pending = f"{verdict.path}.new"
    approved = body_at(verdict.path)
    new = body_at(pending) if verdict.word == "pending" else body_made_of(request, literal)
    if approved is None:
        told = [f"{verdict.word} {path}: a first snapshot, nothing is approved yet. The value is:", *(new or [])]
    else:
        told = [f"{verdict.word} {path}: the value is not the approved one", *compared(approved, new or [], path)]
    told.append("To approve it, run the test with SNAP_UPDATE=1 (in pytest with --snap-update)")
    if verdict.word == "pending":
        told[-1] += f", or move {shown(pending)} over {path}"
    return "\n".join(told)


def compared(approved: list[str], new: list[str], path: str) -> list[str]:
    import difflib  # Only a failure waits for it.

    diff = list(difflib.unified_diff(approved, new, path, "the value", lineterm=""))
    return diff or ["Both texts agree: see whether the header of the approved file is a map in YAML and says no binary"]


def body_at(path: str) -> list[str] | None:
    """The lines of the value in a snapshot file; `None` where there is no such file."""
    try:
        with open(path, "rb") as file:
            text = file.read().decode("utf-8", "replace")
    except OSError:
        return None
    lines = [line.rstrip("\r") for line in text.rstrip().split("\n")]
    fences = [number for number, line in enumerate(lines) if line.rstrip() == "---"]
    if fences[:1] == [0]:
        return lines[fences[1] + 1 :] if len(fences) > 1 else lines
    # insta's oldest format: the header ends with a blank line.
    return lines[lines.index("") + 1 :] if "" in lines else lines


def body_made_of(request: Request, literal: bool) -> list[str]:
    """The lines of a value that was rejected, of which the program left no file: it writes one into a folder of its own."""
    import tempfile  # Only a failure waits for it.

    with tempfile.TemporaryDirectory() as folder:
        alone = request._replace(module="value", file="value", name="value")
        answer = judge([alone], "inplace", folder, literal)[0]
        if isinstance(answer, ProgramError):
            raise answer
        return body_at(answer.path) or []


def shown(path: str) -> str:
    """The path as it is seen from the current folder, where it is in there."""
    near = os.path.relpath(path)
    return path if near.startswith(os.pardir) else near
