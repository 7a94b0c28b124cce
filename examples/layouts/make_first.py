#!/usr/bin/env python3
"""Makes examples/layouts/first: the files of a server in the first layout of a shard's file, as SQLite's own library makes
them. Its nine rows are those of the room in which a demotion and a topic race, brought by two transactions."""

import contextlib
import sqlite3
import sys
from pathlib import Path

FOLDER = Path(__file__).resolve().parent
sys.dont_write_bytecode = True
sys.path.insert(0, str(FOLDER.parent.parent / "tests"))
from event_logs import Base, Log  # noqa: E402
from matrix_events import A, ACCEPTED, B, canonical, id_of, levels, topic  # noqa: E402

KEPT = "CREATE TABLE kept (place INTEGER PRIMARY KEY, room TEXT NOT NULL, event TEXT NOT NULL, caller INTEGER NOT NULL)"
REPLIES = ("CREATE TABLE replies (place INTEGER PRIMARY KEY, origin TEXT NOT NULL, txn TEXT NOT NULL, reply TEXT NOT NULL, "
           "UNIQUE (origin, txn))")


def transactions():
    """The create event, and the events of each transaction."""
    base = Base(Log())
    first = topic(A, [base.join_c], base.of_a, "a")
    lowered = levels(A, [first], base.of_a, {A: 100, B: 0, "@c:c.example": 50})
    second = topic(B, [first], base.of_b, "b")
    begun = [base.join_a, base.levels, base.rules, base.join_b, base.join_c]
    return base.create, {"base": begun, "t1": [first, lowered, second]}


def main():
    create, sent = transactions()
    folder = FOLDER / "first"
    folder.mkdir(exist_ok=True)
    for file in folder.iterdir():
        file.unlink()
    rows = [(create, 0)] + [(made, 1) for events in sent.values() for made in events]
    with contextlib.closing(sqlite3.connect(folder / "shard-0.db")) as connection:
        connection.execute(KEPT)
        connection.executemany("INSERT INTO kept (room, event, caller) VALUES (?, ?, ?)",
                               [(made["room_id"], canonical(made).decode(), caller) for made, caller in rows])
        connection.commit()
    with contextlib.closing(sqlite3.connect(folder / "book-0.db")) as connection:
        connection.execute(REPLIES)
        replies = [("a.example", txn, canonical({"pdus": {id_of(made): ACCEPTED for made in events}}).decode())
                   for txn, events in sent.items()]
        connection.executemany("INSERT INTO replies (origin, txn, reply) VALUES (?, ?, ?)", replies)
        connection.commit()


if __name__ == "__main__":
    main()
