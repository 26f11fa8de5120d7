"""Runs programs, and measures what they take; a module of the other scripts."""
import pathlib
import subprocess
import sys
from typing import NamedTuple

TOP = pathlib.Path(__file__).resolve().parent.parent
BUILT = TOP / "crates" / "cpog_cli" / "out" / "cpog_cli"

# Runs a program from a file to a file, and prints its status, its seconds, of processor time too, and its memory at the peak.
STARTER = """
import os, sys, time
reads = (os.POSIX_SPAWN_OPEN, 0, sys.argv[1], os.O_RDONLY, 0)
writes = (os.POSIX_SPAWN_OPEN, 1, sys.argv[2], os.O_WRONLY | os.O_CREAT | os.O_TRUNC, 0o600)
start = time.monotonic()
process = os.posix_spawn(sys.argv[3], sys.argv[3:], os.environ, file_actions=[reads, writes])
_, status, usage = os.wait4(process, 0)
seconds = time.monotonic() - start
print(os.waitstatus_to_exitcode(status), seconds, usage.ru_utime + usage.ru_stime, usage.ru_maxrss)
"""


class Run(NamedTuple):
    """How a program ended, and what it took: the seconds that passed, its processor time, and its memory at the peak in bytes."""

    status: int
    passed: float
    seconds: float
    memory: int


def said_file(path: str) -> pathlib.Path:
    """Where the output of a run on this file stands."""
    return pathlib.Path(f"{path}.said")


def run_once(words: list[str], path: str, said: str | None = None) -> Run:
    """Runs a program on a file. A small interpreter starts it, whose some 8 MiB are the least that is told."""
    starter = [sys.executable, "-I", "-S", "-c", STARTER, path, said or str(said_file(path)), *words]
    done = subprocess.run(starter, stdout=subprocess.PIPE, stderr=subprocess.DEVNULL, check=True, text=True)
    status, passed, seconds, memory = done.stdout.split()
    return Run(int(status), float(passed), float(seconds), int(memory) * (1 if sys.platform == "darwin" else 1024))


def build() -> bool:
    """Builds this repository's program if need be. Once it is built, an empty text ends with status 6."""
    return subprocess.run([TOP / "cpog", "synth"], stdin=subprocess.DEVNULL, stdout=subprocess.DEVNULL).returncode == 6
