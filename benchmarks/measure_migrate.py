#!/usr/bin/env python3
"""Measures `mx_federd migrate` over a shard's file of the first layout: `measure_migrate.py [PROGRAM [ROWS]]`. Beside it
SQLite's own library makes the same copy in one transaction. Of each it prints seconds, by the clock and of the processor, the
least of three runs, and the most memory that was held. A file that is in the second layout already shows what the opening
takes alone."""

import contextlib
import os
import shutil
import sqlite3
import subprocess
import sys
import tempfile
import time
from pathlib import Path

TOP = Path(__file__).resolve().parent.parent
sys.dont_write_bytecode = True
sys.path[:0] = [str(TOP / "tests"), str(TOP / "examples/layouts")]
from make_first import KEPT  # noqa: E402
from matrix_events import A, ROOM, canonical, create, id_of, join, sealed  # noqa: E402

PROGRAM = Path(sys.argv[1] if len(sys.argv) > 1 else TOP / "crates/mx_federd/out/mx_federd")
ROWS = int(sys.argv[2]) if sys.argv[2:] and sys.argv[1] != "--copy" else 50_000
COPY = (
    "CREATE TABLE kept2 (place INTEGER PRIMARY KEY, room TEXT NOT NULL, version TEXT NOT NULL, event TEXT NOT NULL, caller INTEGER NOT NULL)",
    "CREATE TABLE layout (place INTEGER PRIMARY KEY, number INTEGER NOT NULL)",
    "INSERT INTO kept2 SELECT place, room, '6', event, caller FROM kept ORDER BY place",
    "DELETE FROM kept",
    "INSERT INTO layout VALUES (1, 2)",
)


def make_file(path):
    """A room whose messages each follow the one before."""
    first = create()
    joined = join(A, [first], [first])
    rows, last, auth = [first, joined], id_of(joined), [id_of(first), id_of(joined)]
    for number in range(3, ROWS + 1):
        made = sealed({
            "auth_events": auth, "content": {"body": "message %d" % number}, "depth": number, "origin_server_ts": 10 * number,
            "prev_events": [last], "room_id": ROOM, "sender": A, "type": "m.room.message",
        })
        rows.append(made)
        last = id_of(made)
    with contextlib.closing(sqlite3.connect(path)) as connection:
        connection.execute(KEPT)
        connection.executemany("INSERT INTO kept (room, event, caller) VALUES (?, ?, 1)", [(ROOM, canonical(made).decode()) for made in rows])
        connection.commit()


def copy(path):
    """What SQLite's own library does in one transaction, with its log brought to the disk. Says how long it took."""
    begun = time.monotonic(), time.process_time()
    connection = sqlite3.connect(path, isolation_level=None)
    connection.execute("PRAGMA journal_mode=wal")
    connection.execute("PRAGMA synchronous=full")
    connection.execute("BEGIN")
    for statement in COPY:
        connection.execute(statement)
    connection.execute("COMMIT")
    connection.close()
    print(time.monotonic() - begun[0], time.process_time() - begun[1])


def timed(words):
    """Seconds by the clock and of the processor, and megabytes at most, of a process, and what it printed."""
    begun = time.monotonic()
    child = subprocess.Popen([str(word) for word in words], stdout=subprocess.PIPE)
    out = child.stdout.read()
    _, status, usage = os.wait4(child.pid, 0)
    assert status == 0, status
    return time.monotonic() - begun, usage.ru_utime + usage.ru_stime, usage.ru_maxrss / 1024, out


def main():
    if sys.argv[1:2] == ["--copy"]:
        return copy(sys.argv[2])
    with tempfile.TemporaryDirectory() as folder:
        whole = Path(folder) / "whole.db"
        make_file(whole)
        print("%d rows, a file of %.1f MB" % (ROWS, whole.stat().st_size / 1e6))
        for name in ("migrate", "SQLite's copy", "a second migrate"):
            runs = []
            for number in range(3):
                data = Path(folder) / ("%s%d" % (name[:3], number))
                data.mkdir()
                shutil.copy(whole, data / "shard-0.db")
                if name == "SQLite's copy":
                    _, _, memory, out = timed([sys.executable, __file__, "--copy", data / "shard-0.db"])
                    runs.append((*map(float, out.split()), memory))
                    continue
                if name == "a second migrate":
                    timed([PROGRAM, "migrate", "--data", data])
                run = timed([PROGRAM, "migrate", "--data", data])
                assert run[3] == b"shard 0: %d rows\n" % ROWS, run
                runs.append(run)
            told = min(it[0] for it in runs), min(it[1] for it in runs), max(it[2] for it in runs)
            print("%s: %.2f seconds, %.2f of the processor, %.0f MB" % (name, *told), flush=True)


if __name__ == "__main__":
    main()
