#!/usr/bin/env python3
"""Prints what the package costs beyond the program itself: a process with the class for unittest, and each value.

Usage: SNAP=PROGRAM python3 benchmark.py

The program itself is the same program over the same documents, started by `posix_spawn` with files as its streams. A time
is the least of many, since other work on the machine only adds to it; of whole processes, it is that of the processors, for
Python and the program together. Ends with status 1 where a limit is passed.
"""

import os
import resource
import subprocess
import sys
import tempfile
from pathlib import Path
from typing import Dict, List, Optional

HERE = Path(__file__).resolve().parent
PROGRAM = os.environ.get("SNAP") or "snap"
# Milliseconds that the class may cost, and how many values and tries a time is taken of.
LIMITS = {"a process": 30.0, "a value": 1.0}
VALUES, TRIES, STARTS = 100, 7, 15

# Pieces of the programs that are timed. BARE does for one document what an adapter can't avoid.
BARE = """
import os
ACTIONS = [(os.POSIX_SPAWN_OPEN, 0, "document", os.O_RDONLY, 0), (os.POSIX_SPAWN_OPEN, 1, os.devnull, os.O_WRONLY, 0)]
def bare():
    words = [PROGRAM, "run", "no", os.getcwd(), "--literal"]
    os.waitpid(os.posix_spawnp(PROGRAM, words, os.environ, file_actions=ACTIONS), 0)
"""
VALUE = '{"id": 7341, "paid": False, "lines": [{"what": "lamp", "price": 12.5, "tags": ("new", None)}] * 3, "note": "a\\nb\\n"}'
CASE = """
import unittest
from snap_testing import SnapshotTestCase
class Case(SnapshotTestCase):
    def runTest(self):
        self.assert_snapshot(VALUE, name="value")
        self._snapshots.used.clear()
case = Case()
def value():
    if not case.run().wasSuccessful():
        raise SystemExit("benchmark: the value did not pass")
"""
TIMED = """
import time
def time_of(work):
    begin = time.perf_counter()
    work()
    return (time.perf_counter() - begin) * 1000
times = [(time_of(value), time_of(bare)) for _ in range(VALUES)]
print(*map(min, zip(*times)))
"""
DOCUMENT = """
from snap_testing.documents import Request, document, to_json
print(document(Request("case::Case", "case.py", 1, "value", "x", to_json(VALUE))), end="")
"""
BARE_TEST = "@pytest.mark.parametrize('number', range(VALUES))\ndef test(number): bare()\n"
PLUGIN_TEST = "@pytest.mark.parametrize('number', range(VALUES))\ndef test(number, snapshot): snapshot(VALUE)\n"


def main() -> int:
    with tempfile.TemporaryDirectory() as folder:
        os.chdir(folder)
        Path("setup.py").touch()
        set_up()
        costs = {"a process": cost_of_process(), "a value": cost_of_value()}
        plugin = cost_in_pytest()
    for what, cost in costs.items():
        print(f"the class, {what}: {cost:.2f} ms beyond the program; at most {LIMITS[what]:g} ms")
    print("the plugin: pytest is not installed" if plugin is None else f"the plugin, a test with a value: {plugin:.2f} ms beyond it")
    return int(any(cost > LIMITS[what] for what, cost in costs.items()))


def set_up() -> None:
    """Writes the snapshot that values pass against, and the document that the program itself is run over."""
    script("case.py", CASE + "value()\n")
    subprocess.run([sys.executable, "case.py"], env={**environment(), "SNAP_MODE": "inplace"}, check=True)
    script("document.py", DOCUMENT)
    with open("document", "wb") as file:
        subprocess.run([sys.executable, "document.py"], env=environment(), stdout=file, check=True)
    script("bare.py", "import unittest\n" + BARE + "bare()\n")


def script(name: str, text: str) -> None:
    Path(name).write_text(f"PROGRAM = {PROGRAM!r}\nVALUES = {VALUES}\nVALUE = {VALUE}\n{text}")


def environment() -> Dict[str, str]:
    """The settings of all runs. Modules are compiled once, as an installed package's are, and kept in the temporary folder."""
    here = os.getcwd()
    settings = {"PYTHONPATH": str(HERE), "PYTHONDONTWRITEBYTECODE": "", "PYTHONPYCACHEPREFIX": os.path.join(here, "compiled")}
    return {**os.environ, **settings, "SNAP_MODE": "no", "SNAP_WORKSPACE": here, "PYTEST_DISABLE_PLUGIN_AUTOLOAD": "1"}


def cost_of_process() -> float:
    """Milliseconds of a process with one value beyond one that imports unittest too and runs the program itself."""
    return difference(["case.py"], ["bare.py"], STARTS)


def cost_of_value() -> float:
    """Milliseconds of a further value of a process."""
    script("times.py", BARE + CASE.replace("import unittest", "") + TIMED)
    # The class's file tells where the snapshot is.
    os.replace("times.py", "case.py")
    value, bare = map(float, subprocess.check_output([sys.executable, "case.py"], env=environment()).split())
    return value - bare


def cost_in_pytest() -> Optional[float]:
    if subprocess.run([sys.executable, "-c", "import pytest"], stderr=subprocess.DEVNULL).returncode:
        return None
    script("test_bare.py", "import pytest\n" + BARE + BARE_TEST)
    script("test_plugin.py", "import pytest\n" + PLUGIN_TEST)
    pytest = ["-m", "pytest", "-q", "-p", "no:cacheprovider", "-p", "snap_testing.plugin"]
    started(*pytest, "--snap-update", "test_plugin.py")
    return difference([*pytest, "test_plugin.py"], [*pytest, "test_bare.py"], TRIES) / VALUES


def started(*words: str) -> float:
    """Milliseconds of a run of Python, and of the programs that it ran."""
    begin = resource.getrusage(resource.RUSAGE_CHILDREN)
    subprocess.run([sys.executable, *words], env=environment(), stdout=subprocess.DEVNULL, check=True)
    end = resource.getrusage(resource.RUSAGE_CHILDREN)
    return (end.ru_utime + end.ru_stime - begin.ru_utime - begin.ru_stime) * 1000


def difference(words: List[str], bare: List[str], tries: int) -> float:
    """By how many milliseconds the least run with these words is above that with the other ones, which are run in turn."""
    times = [(started(*words), started(*bare)) for _ in range(tries)]
    return min(time for time, _ in times) - min(time for _, time in times)


if __name__ == "__main__":
    sys.exit(main())
