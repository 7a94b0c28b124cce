#!/usr/bin/env python3
"""`mx_federd serve` whose standard error is a pipe that is full, and that nobody reads: it starts, answers, goes on beside a file
that failed, and ends."""

import contextlib
import os
import resource
import subprocess
import sys
import time
from collections.abc import Iterator
from pathlib import Path

from suite import program, run_tests
from event_logs import NAME, Base, Log, state_path
from matrix_events import A, message
from running_server import SECONDS, Server, getting, host_line, sending

STORAGE = 503, b'{"errcode":"M_UNKNOWN","error":"storage"}'
UNKNOWN = "GET", "/_matrix/federation/v1/unknown"
# How long a program may take to end whose standard error nobody reads, on a busy machine.
SECONDS_TO_END = 20


@contextlib.contextmanager
def full_pipe() -> Iterator[tuple[int, int]]:
    """A pipe that takes nothing more: its end for reading, and its end for writing."""
    read, write = os.pipe()
    try:
        os.set_blocking(write, False)
        for size in (4_096, 1):
            with contextlib.suppress(BlockingIOError):
                while True:
                    os.write(write, b"-" * size)
        os.set_blocking(write, True)
        yield read, write
    finally:
        os.close(read)
        os.close(write)


def said_on(read: int) -> bytes:
    """What came on a pipe behind what filled it, until nothing more comes for a second."""
    said = b""
    os.set_blocking(read, False)
    quiet_until = time.monotonic() + 1
    while time.monotonic() < quiet_until:
        with contextlib.suppress(BlockingIOError):
            said += os.read(read, 65_536)
            quiet_until = time.monotonic() + 1
        time.sleep(0.01)
    return said.lstrip(b"-")


def fill(server: Server, base: Base) -> None:
    """Lets the shard's file grow no more, and sends messages until one is not kept."""
    resource.prlimit(server.process.pid, resource.RLIMIT_FSIZE, (400_000, -1))
    for number in range(20):
        said = message(A, [base.join_c], base.of_a, "x" * 60_000 + str(number))
        if (reply := server.ask(*sending("a.example", "t%d" % number, [said])))[0] != 200:
            assert reply == STORAGE, reply
            return
    raise AssertionError("all were kept")


def beside_a_full_pipe(folder: Path) -> None:
    """Over a full pipe a server starts and answers. The one thread that meets a file's failure goes on answering, and what
    was to be said comes once the pipe is read, in its order."""
    base, data = Base(Log()), folder / "data"
    with full_pipe() as (read, write):
        server = Server(data, hosts=[host_line(base.create)], stderr=write, restore_signals=False)
        events = [base.join_a, base.levels, base.rules, base.join_b, base.join_c]
        assert server.ask(*sending("a.example", "base", events))[0] == 200
        fill(server, base)
        for _ in range(3):
            assert server.ask(*getting("a.example", state_path("state_ids", base.join_b))) == STORAGE
            assert server.ask(*UNKNOWN)[0] == 404
        lines = said_on(read).splitlines()
        assert lines[0] == b"serving " + bytes(data), lines
        assert len(lines) == 2 and lines[1].startswith(b"storage: " + bytes(data) + b"/shard-0.db: "), lines
        server.stop()


def ends_beside_a_full_pipe(folder: Path) -> None:
    """A server that is to end once a file has failed ends, though its standard error takes nothing; and so does a start that
    is refused."""
    base = Base(Log())
    with full_pipe() as (_, write):
        server = Server(folder / "data", "--stop-on-storage", hosts=[host_line(base.create)], stderr=write, restore_signals=False)
        events = [base.join_a, base.levels, base.rules, base.join_b, base.join_c]
        assert server.ask(*sending("a.example", "base", events))[0] == 200
        fill(server, base)
        assert server.process.wait(SECONDS_TO_END) == 1
        server.stop()
        words = [program(), "serve", "--name", "other.example", "--data", folder / "data", "--port", "0"]
        ran = subprocess.run([str(word) for word in words], stdout=subprocess.PIPE, stderr=write, timeout=SECONDS_TO_END)
        assert (ran.returncode, ran.stdout) == (1, b""), ran


def closed_standard_error(folder: Path) -> None:
    """A server whose standard error is closed by who read it, or was never open, answers."""
    base = Base(Log())
    for name, how in (("closed", {"stderr": subprocess.PIPE}), ("none", {"stderr": None, "preexec_fn": lambda: os.close(2)})):
        server = Server(folder / name, hosts=[host_line(base.create)], restore_signals=False, **how)
        if server.process.stderr:
            server.process.stderr.close()
        events = [base.join_a, base.levels, base.rules, base.join_b, base.join_c]
        assert server.ask(*sending("a.example", "base", events))[0] == 200
        fill(server, base)
        assert server.ask(*UNKNOWN)[0] == 404
        server.stop()


TESTS = [beside_a_full_pipe, ends_beside_a_full_pipe, closed_standard_error]

if __name__ == "__main__":
    sys.exit(run_tests(TESTS, "standard error that nobody reads"))
