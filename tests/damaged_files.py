#!/usr/bin/env python3
"""Starts `mx_federd serve` over files that were changed: rows that no server writes, single bits, files that disagree or stand in
another's place. Each start is refused with the path, or all that was answered is answered still.

The files are those of tests/served_files.py."""

import contextlib
import json
import random
import shutil
import sqlite3
import sys
import time
from pathlib import Path

from suite import run_tests
from event_logs import quoted
from matrix_events import A, B, canonical, error, id_of, message, rejected, topic
from running_server import Refused, Server, getting, is_refused, refusal, rows_of, sending, serving
from served_files import REPLIES_TABLE, ROWS_OF_REPLIES, filled

# Within how many seconds a server writes how many rows its files have.
SECONDS_UNTIL_COUNTED = 15
# In how many copies of a directory a bit is changed.
FLIPS = 200


def without_sums(data: Path, copy: Path) -> Path:
    """The tables of a directory in files that SQLite's own library makes, whose pages have no sums: it may change them."""
    copy.mkdir()
    for file in data.glob("*.db"):
        with contextlib.closing(sqlite3.connect(file)) as old, contextlib.closing(sqlite3.connect(copy / file.name)) as new:
            new.executescript("\n".join(old.iterdump()))
    return copy


def check_refused(folder: Path, data: Path, file: str, statements: list[str]) -> None:
    """Of a directory that opens, each copy in which one of these was run on this file is refused."""
    for number, statement in enumerate(statements):
        broken = without_sums(data, folder / ("%s%d" % (file, number)))
        with contextlib.closing(sqlite3.connect(broken / file)) as connection:
            connection.executescript(statement)
        assert is_refused(refusal(broken), b"storage", bytes(broken)), statement
    assert refusal(data) is None and refusal(without_sums(data, folder / "plain")) is None


def broken_tables(folder: Path) -> None:
    """Rows that no shard can have, and files that are not of this server, are refused."""
    data, _, _ = filled(folder, "sound")
    statements = [
        "DELETE FROM kept2 WHERE place = 2",
        "UPDATE kept2 SET event = ' ' || event WHERE place = 9",
        "INSERT INTO kept2 SELECT 10, room, version, event, caller FROM kept2 WHERE place = 9",
        "DELETE FROM kept2 WHERE place > 7; DELETE FROM kept2 WHERE place = 6; UPDATE kept2 SET place = 6 WHERE place = 7",
        # An event that makes no room behind one that does, and the other way round.
        "DELETE FROM kept2 WHERE place > 1; INSERT INTO kept2 SELECT 2, room, version, event, caller FROM kept2",
        "UPDATE kept2 SET place = 100 WHERE place = 1; UPDATE kept2 SET place = 1 WHERE place = 2; UPDATE kept2 SET place = 2 WHERE place = 100",
        "UPDATE kept2 SET event = '{}' WHERE place = 9",
        "UPDATE kept2 SET room = 'r' WHERE place = 9",
        "UPDATE kept2 SET room = '!s:a.example' WHERE place = 9",
        "UPDATE kept2 SET caller = -1 WHERE place = 9",
        "UPDATE kept2 SET caller = 4294967296 WHERE place = 9",
        "UPDATE kept2 SET place = 10 WHERE place = 9",
        "UPDATE kept2 SET version = '7' WHERE place = 9",
        "UPDATE kept2 SET version = '5'",
        "DELETE FROM layout",
        "UPDATE layout SET number = 3",
        "UPDATE layout SET place = 2",
        "INSERT INTO layout VALUES (2, 2)",
        "INSERT INTO kept SELECT place, room, event, caller FROM kept2 WHERE place = 1",
        "DROP TABLE kept",
        "DROP TABLE layout",
        "CREATE TABLE other (place INTEGER)",
        "ALTER TABLE kept2 ADD COLUMN more INTEGER",
        "DROP TABLE kept2; CREATE TABLE kept2 (place INTEGER)",
    ]
    check_refused(folder, data, "shard-0.db", statements)


def broken_books(folder: Path) -> None:
    """Rows that no book can have, and files that are not of this server, are refused."""
    data, _, _ = filled(folder, "sound")
    without_unique = (
        "ALTER TABLE replies RENAME TO old; CREATE TABLE replies (%s); INSERT INTO replies SELECT * FROM old; DROP TABLE old;"
        "INSERT INTO replies SELECT 3, origin, txn, reply FROM replies WHERE place = 2;" % ROWS_OF_REPLIES)
    check_refused(folder, data, "book-0.db", [
        "DELETE FROM replies WHERE place = 1",
        "UPDATE replies SET place = 3 WHERE place = 2",
        "UPDATE replies SET origin = '' WHERE place = 2",
        # Two rows of one transaction, also where the table is made to seem as it should be.
        without_unique,
        without_unique + "PRAGMA writable_schema = ON; UPDATE sqlite_master SET sql = '%s' WHERE name = 'replies'" % REPLIES_TABLE,
        "CREATE TABLE other (place INTEGER)",
        "ALTER TABLE replies ADD COLUMN more INTEGER",
        "DROP TABLE replies; CREATE TABLE replies (place INTEGER)",
    ])


def read_by_sqlite(folder: Path) -> None:
    """SQLite's own library reads a file, and copies its log into it, with no harm. Where it writes, the sums of the pages
    don't hold, and the file is refused."""
    data, reply, (base, *_) = filled(folder, "read")
    for _ in range(2):
        assert rows_of(data, "SELECT count(*) FROM kept2") == [(9,)]
        assert rows_of(data, "SELECT count(*) FROM replies", "book-0.db") == [(2,)]
        with serving(data) as server:
            assert server.ask(*sending("a.example", "t1", [])) == reply
    with contextlib.closing(sqlite3.connect(data / "shard-0.db")) as connection:
        connection.execute("UPDATE kept2 SET caller = caller + 1 WHERE place = 3")
        connection.commit()
    assert is_refused(refusal(data), b"storage", bytes(data / "shard-0.db"))


def flipped_bits(folder: Path) -> None:
    """Of files whose logs were copied into them single bits are changed, one at a time: the start is refused, with the
    file's path, or all that was answered is answered still."""
    data, reply, (base, first, lowered, second) = filled(folder, "whole")
    events = [base.create, base.join_a, base.levels, base.rules, base.join_b, base.join_c, first, lowered, second]
    # The start copies what the logs have.
    assert refusal(data) is None
    files = sorted(data.glob("*.db"))
    assert all(log.stat().st_size < 100 for log in data.glob("*-wal"))
    refused, places = 0, random.Random(11)
    for number in range(FLIPS):
        changed = folder / str(number)
        shutil.copytree(data, changed)
        file = changed / files[number % len(files)].name
        content = bytearray(file.read_bytes())
        at = places.randrange(len(content))
        content[at] ^= 1 << places.randrange(8)
        file.write_bytes(content)
        try:
            with serving(changed) as server:
                assert server.ask(*sending("a.example", "t1", [])) == reply, (file, at)
                shown = [server.ask(*getting("a.example", "v1/event/" + quoted(id_of(made)))) for made in events]
                assert [json.loads(told[1])["pdus"] for told in shown] == [[made] for made in events], (file, at, shown)
        except Refused as told:
            refused += 1
            assert is_refused(told.args, b"storage", bytes(file)), (file, at, told.args)
        shutil.rmtree(changed)
    assert refused >= FLIPS // 2, refused


def files_that_disagree(folder: Path) -> None:
    """A directory whose book has the reply to an event that is in no shard is refused, unless that is accepted. An event
    that was rejected is in its shard, and one that was refused has to be in none."""
    data, reply, (base, _, lowered, _) = filled(folder, "sound")
    late = topic(B, [lowered], base.of_b, "late")
    unsent = message(A, [lowered], base.of_a, "unsent")
    behind = message(A, [unsent], base.of_a, "behind")
    with serving(data) as server:
        told = server.ask(*sending("a.example", "t2", [late, behind]))
    assert told == (200, canonical({"pdus": {id_of(late): rejected("A7"), id_of(behind): error("missing events")}})), told
    assert rows_of(data, "SELECT count(*) FROM kept2") == [(10,)]
    assert refusal(data) is None
    for least, lost, status in (
        (10, b"1 event that its replies call kept is in no shard", 200),
        (8, b"3 events that its replies call kept are in no shard", 404),
    ):
        broken = without_sums(data, folder / ("lost%d" % least))
        rows_of(broken, "DELETE FROM kept2 WHERE place >= %d" % least)
        line = bytes(broken / "book-0.db") + b": " + lost + b"\n"
        assert refusal(broken) == (1, b"storage\n" + line), line
        server = Server(broken, "--accept-loss")
        assert server.process.stderr.readline() == line
        assert server.ask(*sending("a.example", "t1", [])) == reply
        shown = server.ask(*getting("a.example", "v1/event/" + quoted(id_of(lowered))))
        assert shown[0] == status, shown
        server.stop()
        # That start has mended nothing: the next one is refused too.
        assert refusal(broken) == (1, b"storage\n" + line), line
    assert refusal(data, "--accept-loss") is None


def files_of_other_places(folder: Path) -> None:
    """Rows of rooms and of servers of another place are refused."""
    data, _, _ = filled(folder, "two", "--shards", "2")
    for kind in ("shard", "book"):
        swapped = folder / kind
        shutil.copytree(data, swapped)
        for file in list(swapped.glob(kind + "-*")):
            other = {"0": "1", "1": "0"}[file.name[len(kind) + 1]]
            file.rename(swapped / ("new %s-%s%s" % (kind, other, file.name[len(kind) + 2:])))
        for file in list(swapped.glob("new *")):
            file.rename(swapped / file.name[4:])
        assert is_refused(refusal(swapped, "--shards", "2"), b"storage", bytes(swapped)), kind
    assert refusal(data, "--shards", "2") is None


def frames_of(log: bytes) -> list[tuple[int, int]]:
    """Where each frame of a write-ahead log begins that has the head's salts, with the number of its page."""
    size = 24 + int.from_bytes(log[8:12], "big")
    starts = range(32, len(log) - size + 1, size)
    return [(at, int.from_bytes(log[at:at + 4], "big")) for at in starts if log[at + 8:at + 16] == log[16:24]]


def damaged_logs(folder: Path) -> None:
    """A bit that changes in a write-ahead log, before the last transaction in it, is told as damage, and the start is
    refused unless the loss is accepted. So is one in its head. In the last transaction it looks as a loss of power does."""
    data, reply, (base, *_) = filled(folder, "whole")
    with serving(data) as server:
        for number in range(6):
            said = message(A, [base.join_c], base.of_a, "m%d" % number)
            assert server.ask(*sending("a.example", "m%d" % number, [said]))[0] == 200
    places = random.Random(5)
    for name in ("shard-0.db-wal", "book-0.db-wal"):
        log = (data / name).read_bytes()
        begun = [at for at, page in frames_of(log) if page == 0xFF000000]
        assert len(begun) >= 3, begun
        cause = bytes(data / name) + b": it is damaged, and rows behind the damage were answered\n"
        for number in range(25):
            at = places.randrange(32, begun[-1]) if number else places.randrange(32)
            changed = folder / "changed"
            shutil.copytree(data, changed)
            content = bytearray(log)
            content[at] ^= 1 << places.randrange(8)
            (changed / name).write_bytes(content)
            line = cause.replace(bytes(data), bytes(changed))
            assert refusal(changed) == (1, b"storage\n" + line), (name, at)
            assert (changed / name).read_bytes() == content, (name, at)
            # In the shard's log the events that were answered are gone too, which is told behind it.
            server = Server(changed, "--accept-loss")
            assert server.process.stderr.readline() == line, (name, at)
            server.stop()
            shutil.rmtree(changed)
        # Cut off anywhere, or with zeros from anywhere on in the last transaction, it is what a crash may leave.
        for number in range(10):
            at = places.randrange(begun[-1], len(log))
            torn = folder / "torn"
            shutil.copytree(data, torn)
            (torn / name).write_bytes(log[:at] if number % 2 else log[:at] + bytes(len(log) - at))
            assert refusal(torn, "--accept-loss") is None, (name, at)
            shutil.rmtree(torn)
    with serving(data) as server:
        assert server.ask(*sending("a.example", "t1", [])) == reply


def put_back(older: Path, data: Path, name: str) -> None:
    """A file of an older day, with its log as it was then."""
    for end in ("", "-wal"):
        (data / (name + end)).unlink(missing_ok=True)
        if (older / (name + end)).exists():
            shutil.copy(older / (name + end), data / (name + end))


def files_of_an_older_day(folder: Path) -> None:
    """A file that comes back from before another start is told with the number of rows that it had, and the start is refused
    unless the loss is accepted. All files of one older day can't be told from that day's."""
    data, reply, (base, *_) = filled(folder, "whole")
    older = folder / "older"
    shutil.copytree(data, older)
    said = [message(A, [base.join_c], base.of_a, "m%d" % number) for number in range(2)]
    with serving(data) as server:
        for number, made in enumerate(said):
            assert server.ask(*sending("a.example", "m%d" % number, [made]))[0] == 200
    # The start that notes how many rows there are.
    assert refusal(data) is None
    assert json.loads((data / "rows.json").read_bytes()) == {"book-0.db": 4, "shard-0.db": 11}
    for name, told in (
        ("book-0.db", b"it has 2 rows, and had 4 before: it is from an older copy, or has lost its log\n"),
        ("shard-0.db", b"2 events that its replies call kept are in no shard\n"),
    ):
        mixed = folder / name
        shutil.copytree(data, mixed)
        put_back(older, mixed, name)
        line = bytes(mixed / "book-0.db") + b": " + told
        assert refusal(mixed) == (1, b"storage\n" + line), name
        with serving(mixed, "--accept-loss") as server:
            said_lines = [server.process.stderr.readline() for _ in range(2 if name == "shard-0.db" else 1)]
            assert server.ask(*sending("a.example", "t1", [])) == reply
        assert said_lines[0] == line, said_lines
        assert name == "book-0.db" or said_lines[1].startswith(bytes(mixed / name) + b": it has 9 rows, and had 11 before: ")
        # What was accepted is not told again; events that are in no shard are.
        assert (refusal(mixed) is None) == (name == "book-0.db"), name
    # An emptied log is a file of an older day too.
    mixed = folder / "emptied"
    shutil.copytree(data, mixed)
    with serving(mixed) as server:
        assert server.ask(*sending("a.example", "more", []))[0] == 200
        time.sleep(SECONDS_UNTIL_COUNTED)
    (mixed / "book-0.db-wal").write_bytes(b"")
    assert refusal(mixed) == (1, b"storage\n" + bytes(mixed / "book-0.db") + b": it has 4 rows, and had 5 before: it is from an older copy, or has lost its log\n")
    # What does not say how many rows there were is refused, and without it nothing is compared.
    (mixed / "rows.json").write_bytes(b"[]")
    assert is_refused(refusal(mixed), b"storage", bytes(mixed / "rows.json") + b": ")
    (mixed / "rows.json").unlink()
    assert refusal(mixed) is None
    assert refusal(older) is None


TESTS = [
    broken_tables, broken_books, read_by_sqlite, flipped_bits, files_that_disagree, files_of_other_places, damaged_logs,
    files_of_an_older_day,
]

if __name__ == "__main__":
    sys.exit(run_tests(TESTS, "damaged files"))
