"""Runs the program's subcommands, and says what they leave: exit status, standard output and standard error."""

import atexit
import functools
import shutil
import subprocess
import tempfile
from pathlib import Path
from typing import Any

from suite import TOP, program

Ended = tuple[int, bytes | None, bytes]
FAILED = b"failed read or write\n"
BAD_LINE = b'{"error":"bad line"}\n'
SECONDS = 60


def run(*words: str | bytes | Path, source: bytes | None = b"", **streams: Any) -> Ended:
    """The exit status, and what stands on standard output and on standard error, with this on standard input."""
    how = {"input": source, "stdout": subprocess.PIPE, "timeout": SECONDS, **streams}
    ran = subprocess.run([str(program()), *words], stderr=subprocess.PIPE, **how)
    return ran.returncode, ran.stdout, ran.stderr


def replay(log: bytes, *words: str, timeout: float = SECONDS) -> Ended:
    """What `replay` leaves of a log."""
    return run("replay", "--name", "hub.example", *words, source=log, timeout=timeout)


def compare_answers(told: Ended, wanted: list[bytes]) -> None:
    """That a replay gave these answers, and no more. The first other one is told."""
    status, out, err = told
    assert (status, err) == (0, b"") and out is not None, (status, err)
    for at, (answer, right) in enumerate(zip(out.split(b"\n"), wanted)):
        assert answer == right, (at, answer[:2000], right[:2000])
    assert out == b"".join(answer + b"\n" for answer in wanted), (out.count(b"\n"), len(wanted))


@functools.cache
def compiled(name: str, *how: str) -> Path:
    """A C file of tests/faults, compiled for this run: as a library, which the loader puts before the program (`LD_PRELOAD`), or
    by these options."""
    folder = Path(tempfile.mkdtemp())
    atexit.register(shutil.rmtree, folder)
    built = folder / name
    source = TOP / "tests/faults" / (name + ".c")
    subprocess.run(["cc", *(how or ("-shared", "-fPIC")), "-O1", "-o", built, source, "-ldl"], check=True)
    return built
