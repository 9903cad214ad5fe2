"""Runs of a program in which a growth of memory, or a call of the system, fails: what bench/sweep and bench/sweep_rows share."""
import os
import subprocess
import tempfile
from pathlib import Path

HERE = Path(__file__).resolve().parent
SECONDS = 60


def library(room):
    """The library that lets them fail, made in the room; LD_PRELOAD names it."""
    made = Path(room, "faults.so")
    subprocess.run(["cc", "-O1", "-shared", "-fPIC", "-o", made, HERE / "faults.c", "-ldl"], check=True)
    return made


def run_failing(words, given, top, made, kind, at, does=False):
    """How the run of these words ends in which the thing of this number fails (0: none does), how many there were, and which it was."""
    with tempfile.NamedTemporaryFile() as counted:
        said = {"FAULT_KIND": kind, "FAULT_AT": str(at), "FAULT_DOES": "01"[does], "FAULT_COUNT": counted.name}
        told = {**os.environ, "LD_PRELOAD": str(made), **said}
        done = subprocess.run(words, input=given, cwd=top, env=told, capture_output=True, timeout=SECONDS)
        count, _, name = Path(counted.name).read_text().strip().partition(" ")
    return done, int(count), name
