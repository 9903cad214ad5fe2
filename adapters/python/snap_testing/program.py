"""Runs the program over a batch of requests, in one process, and reads its verdicts."""

from __future__ import annotations

import json
import os
import subprocess
from typing import NamedTuple, Sequence

from .documents import Request, document

MODES = ("inplace", "new", "no")
VERDICTS = ("passed", "updated", "pending", "rejected")
# The exit statuses of a run that judged each request, and of one that a document or its file stopped. See docs/FORMAT.md.
JUDGED, STOPPED = (0, 1), (3, 5)


class ProgramError(RuntimeError):
    """The program was not found, couldn't be run, or gave no verdict."""


class Verdict(NamedTuple):
    """What the program said of a request, and the path of its snapshot."""

    word: str
    path: str


def judge(requests: Sequence[Request], mode: str, workspace: str, literal: bool) -> list[Verdict | ProgramError]:
    """The verdict on each request; an error for one that the program refused, and those after it are judged by a further run.

    Raises `ProgramError` where the fault is none of a document.
    """
    answers: list[Verdict | ProgramError] = []
    while len(answers) < len(requests):
        rest = requests[len(answers) :]
        ran = run(rest, mode, workspace, literal)
        verdicts = [read_line(line) for line in ran.stdout.decode("utf-8", "replace").split("\n")[:-1]]
        said = ran.stderr.decode("utf-8", "replace").strip() or "nothing on standard error"
        ended = f"signal {-ran.returncode}" if ran.returncode < 0 else f"status {ran.returncode}"
        is_judged = ran.returncode in JUDGED and len(verdicts) == len(rest)
        is_stopped = (ran.returncode in STOPPED or is_signal(ran.returncode)) and len(verdicts) < len(rest)
        if not is_judged and not is_stopped:
            raise ProgramError(f"{ran.args[0]} ended with {ended}: {said}")
        answers += verdicts
        if is_stopped:
            told = [said, *reasons(rest, len(verdicts), ran.args[0], [workspace, *flags_of(literal)])]
            answers.append(ProgramError(f"{described(rest[len(verdicts)])} was not judged, {ended}: " + "\n".join(told)))
    return answers


def run(requests: Sequence[Request], mode: str, workspace: str, literal: bool) -> "subprocess.CompletedProcess[bytes]":
    program = os.environ.get("SNAP") or "snap"
    words = [program, "run", mode, workspace, *flags_of(literal)]
    # Python's own files are not inherited anyway, and without the closing of others a process starts sooner.
    pipes = {"stdin": subprocess.PIPE, "stdout": subprocess.PIPE, "stderr": subprocess.PIPE, "close_fds": False}
    try:
        with subprocess.Popen(words, **pipes) as process:  # type: ignore[call-overload]
            return subprocess.CompletedProcess(words, *ended(process, "".join(map(document, requests)).encode()))
    except OSError as error:
        raise ProgramError(
            f"the program {program} can't be run ({error.strerror}): set SNAP to its path, or put it on the path as snap; "
            "README.md of snap's repository tells where it comes from"
        ) from None


def flags_of(literal: bool) -> list[str]:
    """The flags of a run, where texts of several lines are literal blocks or not."""
    return ["--literal"] if literal else []


def reasons(requests: Sequence[Request], place: int, program: str, asked: Sequence[str]) -> list[str]:
    """What `snap-explain` says of the request at this place, where it is beside the program: why it is refused, in a line each."""
    import shutil  # Only a failure waits for it.

    words = [os.path.join(os.path.dirname(shutil.which(program) or ""), "snap-explain"), "stream", *asked]
    stream = "".join(map(document, requests)).encode()
    try:
        said = subprocess.run(words, input=stream, capture_output=True, env={**os.environ, "SNAP_AS_BUILT": "1"}).stdout
    except OSError:
        return []
    return [line for line in said.decode("utf-8", "replace").splitlines() if line.startswith(f"document {place + 1}, ")]


def ended(process: "subprocess.Popen[bytes]", stream: bytes) -> tuple[int, bytes, bytes]:
    """Feeds the program, and waits for its end. It reads all before it writes a line, so that no pipe fills up in turn."""
    assert process.stdin and process.stdout and process.stderr
    try:
        with process.stdin:
            process.stdin.write(stream)
    except BrokenPipeError:
        pass  # It ended without reading: its status and its words tell why.
    lines, errors = process.stdout.read(), process.stderr.read()
    return process.wait(), lines, errors


def is_signal(status: int) -> bool:
    """Whether a signal ended the program, as where a value is nested too deep for its stack; a launcher adds 128."""
    return status < 0 or status > 128


def read_line(line: str) -> Verdict:
    word, _, path = line.partition(" ")
    if word not in VERDICTS:
        raise ProgramError(f"no verdict: {line!r}; SNAP, or snap on the path, may be another program, as snapd's snap is")
    # In quotes a path has the escapes of JSON.
    return Verdict(word, json.loads(path) if path.startswith('"') else path)


def described(request: Request) -> str:
    """Which value it was, with what may be wrong with its words."""
    selectors = ", ".join(redaction["at"] for redaction in request.redactions)
    hint = f" (is each of its selectors one: {selectors}?)" if selectors else ""
    return f"the value {request.name} of {request.file}:{request.line}{hint}"
