#!/usr/bin/env python3
"""Runs `mx_federd serve` on loopback, over files of its own, stops or kills it, and starts it again: over its own files, files of
the first layout and files that SQLite made, with files missing, and on a disk that is full.

What is answered is compared with answers that stand here, which come from the definitions and never from the program."""

import contextlib
import http.client
import json
import os
import random
import resource
import shutil
import sqlite3
import stat
import subprocess
import sys
import threading
import time
from pathlib import Path

from suite import TOP, program, run_tests
from event_logs import FEDERATION, NAME, Base, Log, header, quoted, state_path
from make_first import transactions
from matrix_events import (
    A, ACCEPTED, B, D, Event, altered, canonical, create, event, id_of, join, levels, message, redacted, topic,
)
from running_server import (
    REPLIES, SECONDS, Reply, Server, asked, base_room, getting, host_line, is_refused, refusal, rows_of, sending,
    serving,
)

# The tables, as SQLite is told to make them.
KEPT_TABLE = "CREATE TABLE kept (place INTEGER PRIMARY KEY, room TEXT NOT NULL, event TEXT NOT NULL, caller INTEGER NOT NULL)"
ROWS_OF_REPLIES = "place INTEGER PRIMARY KEY, origin TEXT NOT NULL, txn TEXT NOT NULL, reply TEXT NOT NULL"
REPLIES_TABLE = "CREATE TABLE replies (%s, UNIQUE (origin, txn))" % ROWS_OF_REPLIES

# How often a server is killed among transactions.
KILLS = 200
# The room's beginning, a topic, power levels, and another topic.
Race = tuple[Base, Event, Event, Event]


def demotion_race() -> Race:
    """The room in which B's topic comes behind the power levels that take B's power away."""
    base = Base(Log())
    first = topic(A, [base.join_c], base.of_a, "a")
    lowered = levels(A, [first], base.of_a, {A: 100, B: 0, "@c:c.example": 50})
    second = topic(B, [first], base.of_b, "b")
    return base, first, lowered, second


def filled(folder: Path, name: str, *words: str) -> tuple[Path, Reply, Race]:
    """A directory with the room of the race, the reply to the transaction `t1`, and the events."""
    base, first, lowered, second = demotion_race()
    data = folder / name
    with serving(data, *words, hosts=[host_line(base.create)]) as server:
        events = [base.join_a, base.levels, base.rules, base.join_b, base.join_c]
        server.ask(*sending("a.example", "base", events))
        reply = server.ask(*sending("a.example", "t1", [first, lowered, second]))
    assert reply == (200, canonical({"pdus": {id_of(it): ACCEPTED for it in (first, lowered, second)}})), reply
    return data, reply, (base, first, lowered, second)


def rows_reopened(folder: Path) -> None:
    """Nine rows with the places 1 to 9. Opened again, B's topic is soft failed, the power levels are the one forward
    extremity, and A's topic stands."""
    data, _, (base, first, lowered, second) = filled(folder, "rows")
    # The directory and its files are for their owner alone.
    for path, mode in ((data, 0o700), *((it, 0o600) for it in data.iterdir())):
        assert stat.S_IMODE(os.stat(path).st_mode) == mode, (path, oct(os.stat(path).st_mode))
    assert rows_of(data, "SELECT count(*), min(place), max(place) FROM kept2") == [(9, 1, 9)]
    last = message(A, [lowered], [base.create, base.join_a, lowered])
    with serving(data) as server:
        template = server.ask(*getting("d.example", "v1/make_join/%s/%s?ver=6" % (quoted("!r:a.example"), quoted(D))))
        assert json.loads(template[1])["event"]["prev_events"] == [id_of(lowered)], template
        again = server.ask(*sending("a.example", "t2", [second, last]))
        assert json.loads(again[1]) == {"pdus": {id_of(it): ACCEPTED for it in (second, last)}}, again
        state = server.ask(*getting("a.example", state_path("state_ids", last)))
        assert json.loads(state[1])["pdu_ids"][6:] == [id_of(first)], state
    # Stopped once more, and over the same rooms: each is hosted already.
    with serving(data, hosts=[host_line(base.create)]) as server:
        shown = server.ask(*getting("b.example", "v1/event/" + quoted(id_of(last))))
        assert json.loads(shown[1])["pdus"] == [last], shown


def race_reopened(folder: Path) -> None:
    """As in the row `demotion_race` B's topic comes before the power levels that take B's power away. Opened again it is
    judged by the state at its place, so that both are forward extremities; by the last state it would be soft failed."""
    base, first, lowered, second = demotion_race()
    events = [base.join_a, base.levels, base.rules, base.join_b, base.join_c, first, second, lowered]
    template = getting("d.example", "v1/make_join/%s/%s?ver=6" % (quoted("!r:a.example"), quoted(D)))
    for hosts in ([host_line(base.create)], []):
        with serving(folder / "race", hosts=hosts) as server:
            if hosts:
                assert server.ask(*sending("a.example", "t1", events))[0] == 200
            made = json.loads(server.ask(*template)[1])
            assert set(made["event"]["prev_events"]) == {id_of(second), id_of(lowered)}, made


def redaction_reopened(folder: Path) -> None:
    """A redacted event is given in its redacted form, and the others whole, also after the room was opened again; and so
    is an event whose content hash did not hold when it came."""
    data, _, (base, first, lowered, second) = filled(folder, "redaction")
    said = message(A, [lowered], [base.create, base.join_a, lowered], "said")
    redacts = event("m.room.redaction", A, [said], [base.create, base.join_a, lowered], {}, redacts=id_of(said))
    other = message(A, [redacts], [base.create, base.join_a, lowered], "other")
    false_hash = altered(message(A, [other], [base.create, base.join_a, lowered], "true"), body="false")
    told = [said, redacts, other, false_hash]

    def shown(server: Server) -> Reply:
        """Compares what is shown of the events, and gives the state before the last."""
        for made, given in ((said, redacted(said)), (other, other), (false_hash, redacted(false_hash))):
            reply = server.ask(*getting("a.example", "v1/event/" + quoted(id_of(made))))
            assert json.loads(reply[1])["pdus"] == [given], (made, reply)
        return server.ask(*getting("b.example", state_path("state", false_hash)))

    with serving(data) as server:
        reply = server.ask(*sending("a.example", "t3", told))
        assert json.loads(reply[1]) == {"pdus": {id_of(it): ACCEPTED for it in told}}, reply
        before = shown(server)
    with serving(data) as server:
        assert shown(server) == before


def kept_reply_reopened(folder: Path) -> None:
    """A transaction that was answered gets the same reply after each new start."""
    data, reply, (base, first, *_) = filled(folder, "replies")
    for _ in range(2):
        with serving(data) as server:
            assert server.ask(*sending("a.example", "t1", [message(A, [first], base.of_a)])) == reply


def killed_while_it_answers(folder: Path) -> None:
    """A server that is killed among transactions, and started again: each reply that was answered is the answer still."""
    server, base = base_room(folder, "--threads", "2", "--shards", "2")
    replies, went_away = [], []

    def client(name: str) -> None:
        """Sends one message after another, until the server is gone."""
        connection, last = server.connect(), base.join_c
        try:
            for number in range(10_000):
                last = message(A, [last], base.of_a, "%s %d" % (name, number))
                txn = "%s%d" % (name, number)
                replies.append((txn, asked(connection, *sending("a.example", txn, [last]))))
        except (OSError, http.client.HTTPException):
            went_away.append(name)

    threads = [threading.Thread(target=client, args=(name,)) for name in "xy"]
    for thread in threads:
        thread.start()
    last = time.monotonic() + SECONDS
    while len(replies) < 40 and not went_away and time.monotonic() < last:
        time.sleep(0.01)
    server.process.kill()
    for thread in threads:
        thread.join(SECONDS)
    server.stop()
    assert sorted(went_away) == ["x", "y"] and len(replies) >= 40, (went_away, len(replies))
    with serving(folder / "base", "--shards", "2") as again:
        for txn, reply in replies:
            assert again.ask(*sending("a.example", txn, [])) == reply, txn


def check_answered(server: Server, answered: list[tuple[str, Event, Reply]]) -> None:
    """That each transaction which was answered has its reply still, and its event is there."""
    for txn, made, reply in answered:
        assert reply == (200, canonical({"pdus": {id_of(made): ACCEPTED}})), (txn, reply)
        assert server.ask(*sending("a.example", txn, [])) == reply, txn
        shown = server.ask(*getting("a.example", "v1/event/" + quoted(id_of(made))))
        assert json.loads(shown[1])["pdus"] == [made], (txn, shown)


def killed_at_any_moment(folder: Path) -> None:
    """A server is killed at some moment among the transactions of four clients, many times, and started again: each start
    works, each reply that was answered is the answer still, its event is there, and a transaction that got no reply, sent
    again, is answered as one that was sent once."""
    server, base = base_room(folder, "--threads", "2", "--shards", "2")
    moments, lasts, unanswered = random.Random(7), dict.fromkeys("wxyz", base.join_c), {}
    kept = 0
    for number in range(KILLS):
        answered: list[tuple[str, Event, Reply]] = []

        def client(name: str) -> None:
            """Sends what was not answered, and one message after another, until the server is gone."""
            connection = server.connect()
            with contextlib.suppress(OSError, http.client.HTTPException):
                for count in range(10_000):
                    if name not in unanswered:
                        text = "%s %d %d" % (name, number, count)
                        unanswered[name] = text.replace(" ", "-"), message(A, [lasts[name]], base.of_a, text)
                    txn, made = unanswered[name]
                    reply = asked(connection, *sending("a.example", txn, [made]))
                    answered.append((txn, made, reply))
                    lasts[name] = made
                    del unanswered[name]

        threads = [threading.Thread(target=client, args=(name,)) for name in lasts]
        for thread in threads:
            thread.start()
        time.sleep(moments.uniform(0, 0.1))
        server.process.kill()
        for thread in threads:
            thread.join(SECONDS)
        server.stop()
        server = Server(folder / "base", "--threads", "2", "--shards", "2")
        check_answered(server, answered)
        kept += len(answered)
    server.stop()
    assert kept >= KILLS, kept


def rows_of_a_book(folder: Path) -> None:
    """A book has one row for each transaction that was closed, in their order, and none for one that was not opened."""
    server, base = base_room(folder)
    data = folder / "base"
    said = message(A, [base.join_c], base.of_a)
    assert server.ask("PUT", FEDERATION + "v1/send/t2", header("a.example"), b"[]")[0] == 400
    reply = server.ask(*sending("b.example", "t1", [said]))
    assert reply == (200, canonical({"pdus": {id_of(said): ACCEPTED}})), reply
    server.stop()
    beginning = {id_of(it): ACCEPTED for it in (base.join_a, base.levels, base.rules, base.join_b, base.join_c)}
    rows = [(1, "a.example", "base", canonical({"pdus": beginning}).decode()), (2, "b.example", "t1", reply[1].decode())]
    assert rows_of(data, REPLIES, "book-0.db") == rows
    with serving(data) as server:
        assert server.ask(*sending("b.example", "t1", [])) == reply
        assert server.ask(*sending("a.example", "t2", [])) == (200, b'{"pdus":{}}')
        assert server.ask(*sending("a.example", "t2", [said])) == (200, b'{"pdus":{}}')
    rows.append((3, "a.example", "t2", '{"pdus":{}}'))
    assert rows_of(data, REPLIES, "book-0.db") == rows
    try:
        rows_of(data, "INSERT INTO replies SELECT 4, origin, txn, '[]' FROM replies WHERE place = 2", "book-0.db")
        raise AssertionError("a second reply was taken")
    except sqlite3.IntegrityError:
        pass


def tables_made_by_sqlite(folder: Path) -> None:
    """Files that SQLite's own library made are opened, and their rows come back: replies of two servers under one number,
    and events with the least and the greatest number of a caller."""
    data = folder / "made"
    data.mkdir()
    first = create()
    joined = join(A, [first], [first])
    replies = [("a.example", '{"pdus":{}}'), ("b.example", '{"pdus":{"%s":{}}}' % id_of(joined))]
    with contextlib.closing(sqlite3.connect(data / "book-0.db")) as connection:
        connection.execute(REPLIES_TABLE)
        connection.executemany("INSERT INTO replies (origin, txn, reply) VALUES (?, 't1', ?)", replies)
        connection.commit()
    events = [(first["room_id"], canonical(made).decode(), caller) for made, caller in ((first, 0), (joined, 4_294_967_295))]
    with contextlib.closing(sqlite3.connect(data / "shard-0.db")) as connection:
        connection.execute(KEPT_TABLE)
        connection.executemany("INSERT INTO kept (room, event, caller) VALUES (?, ?, ?)", events)
        connection.commit()
    said = message(A, [joined], [first, joined])
    with serving(data) as server:
        for origin, reply in replies:
            assert server.ask(*sending(origin, "t1", [said])) == (200, reply.encode()), origin
        shown = server.ask(*getting("a.example", "v1/event/" + quoted(id_of(joined))))
        assert json.loads(shown[1])["pdus"] == [joined], shown
        assert server.ask(*sending("a.example", "t2", [said])) == (200, canonical({"pdus": {id_of(said): ACCEPTED}}))
    rows = rows_of(data, "SELECT room, event, caller FROM kept2 ORDER BY place")
    assert rows[:2] == events and rows[2][1] == canonical(said).decode() and len(rows) == 3, rows


def first_layout_opened(folder: Path) -> None:
    """A directory of the first layout is brought to the second one by the first start over it, which says so once. What it
    answers is what its rows say, and the next start says nothing of it."""
    data = folder / "first"
    shutil.copytree(TOP / "examples/layouts/first", data)
    create_event, sent = transactions()
    events = [create_event, *sent["base"], *sent["t1"]]
    old = rows_of(data, "SELECT place, room, event, caller FROM kept ORDER BY place")
    assert [row[2] for row in old] == [canonical(made).decode() for made in events]
    for said in (bytes(data) + b": brought to the second layout\n", None):
        server = Server(data)
        if said is not None:
            assert server.process.stderr.readline() == said
        for txn, made in sent.items():
            reply = server.ask(*sending("a.example", txn, []))
            assert reply == (200, canonical({"pdus": {id_of(it): ACCEPTED for it in made}})), reply
        for made in events:
            shown = server.ask(*getting("a.example", "v1/event/" + quoted(id_of(made))))
            assert json.loads(shown[1])["pdus"] == [made], shown
        template = server.ask(*getting("d.example", "v1/make_join/%s/%s?ver=6" % (quoted("!r:a.example"), quoted(D))))
        assert json.loads(template[1])["event"]["prev_events"] == [id_of(sent["t1"][1])], template
        server.process.terminate()
        server.process.wait(SECONDS)
        assert b"second layout" not in server.process.stderr.read()
        server.stop()
        assert rows_of(data, "SELECT place, room, event, caller FROM kept2 ORDER BY place") == old
        assert rows_of(data, "SELECT DISTINCT version FROM kept2") == [("6",)]
        assert rows_of(data, "SELECT count(*) FROM kept") == [(0,)] and rows_of(data, "SELECT * FROM layout") == [(1, 2)]
    # Rows of the first layout that have no version are refused, and stay.
    for number, statement in enumerate((
            "DELETE FROM kept WHERE place = 1; UPDATE kept SET place = place - 1",
            "UPDATE kept SET event = replace(event, '\"room_version\":\"6\"', '\"room_version\":\"5\"') WHERE place = 1")):
        broken = folder / str(number)
        shutil.copytree(TOP / "examples/layouts/first", broken)
        with contextlib.closing(sqlite3.connect(broken / "shard-0.db")) as connection:
            connection.executescript(statement)
        found = rows_of(broken, "SELECT * FROM kept")
        assert is_refused(refusal(broken), b"storage", bytes(broken)), statement
        assert rows_of(broken, "SELECT * FROM kept") == found
        assert rows_of(broken, "SELECT name FROM sqlite_master") == [("kept",)]


def reopened_after_each_request(folder: Path) -> None:
    """A room is hosted, hosted once more, joined and asked, each by a server that is started over the same files: the rows
    are the events that were kept, and none changes."""
    data, first = folder / "again", create()
    joined = join(A, [first], [first])
    statement = "SELECT place, room, event, caller FROM kept2 ORDER BY place"
    assert refusal(data) is None
    assert rows_of(data, statement) == []
    assert refusal(data, hosts=[host_line(first)]) is None
    hosted = rows_of(data, statement)
    assert [row[:3] for row in hosted] == [(1, first["room_id"], canonical(first).decode())], hosted
    assert refusal(data, hosts=[host_line(first)]) is None
    assert rows_of(data, statement) == hosted
    with serving(data) as server:
        assert server.ask(*sending("a.example", "t1", [joined])) == (200, canonical({"pdus": {id_of(joined): ACCEPTED}}))
    both = rows_of(data, statement)
    assert both[:1] == hosted and [row[:3] for row in both[1:]] == [(2, first["room_id"], canonical(joined).decode())], both
    with serving(data) as server:
        shown = server.ask(*getting("a.example", "v1/event/" + quoted(id_of(joined))))
        assert json.loads(shown[1])["pdus"] == [joined], shown
    assert rows_of(data, statement) == both


def other_numbers_of_shards(folder: Path) -> None:
    """A directory is opened with as many shards as it was made with."""
    data, _, _ = filled(folder, "two", "--shards", "2")
    made = b"storage\n" + bytes(data) + b": made for hub.example with 2 shards\n"
    assert refusal(data, "--shards", "1") == (1, made)
    assert refusal(data, "--shards", "3") == (1, made)
    # A directory of before does not say so.
    (data / "server.json").unlink()
    assert is_refused(refusal(data, "--shards", "1"), b"storage", bytes(data / "shard-1.db"))
    assert is_refused(refusal(data, "--shards", "3"), b"storage", bytes(data))
    assert not (data / "server.json").exists()
    assert refusal(data, "--shards", "2") is None
    assert (data / "server.json").read_bytes() == b'{"layout":2,"name":"hub.example","shards":2}\n'


def missing_files(folder: Path) -> None:
    """A directory that lacks a file is refused where another one has rows. Where none has, the file is made: so a first
    start that was cut off leaves nothing to mend."""
    whole, _, _ = filled(folder, "whole", "--shards", "2")
    new = folder / "new"
    assert refusal(new, "--shards", "2") is None
    for name in ("shard-0.db", "shard-1.db", "book-0.db", "book-1.db"):
        for made in (whole, new):
            lacking = folder / (made.name + name)
            shutil.copytree(made, lacking)
            for file in lacking.glob(name + "*"):
                file.unlink()
            told = refusal(lacking, "--shards", "2")
            assert told is None if made == new else is_refused(told, b"storage", bytes(lacking)), (made, name)
            assert lacking.joinpath(name).exists() == (made == new), (made, name)


def made_for_another_server(folder: Path) -> None:
    """A directory says what it was made for, and a start under another name, or in another layout, is refused. One that
    does not read is refused with its path. A line that was cut off as it was written does no harm."""
    data, _, _ = filled(folder, "made")
    file, line = data / "server.json", b'{"layout":2,"name":"hub.example","shards":1}\n'
    assert file.read_bytes() == line and stat.S_IMODE(os.stat(file).st_mode) == 0o600
    words = [program(), "serve", "--name", "other.example", "--data", data, "--port", "0"]
    ran = subprocess.run([str(word) for word in words], capture_output=True, timeout=SECONDS)
    told = b"storage\n" + bytes(data) + b": made for hub.example with 1 shard\n"
    assert (ran.returncode, ran.stdout, ran.stderr) == (1, b"", told), ran
    file.write_bytes(line.replace(b"2", b"3", 1))
    assert refusal(data) == (1, told.replace(b"shard\n", b"shard in layout 3\n"))
    for content in (b"", b"{", b"[]", line[:-10], line.replace(b"1", b"-1"), line.replace(b'"hub.example"', b"7"), b"\xff"):
        file.write_bytes(content)
        assert is_refused(refusal(data), b"storage", bytes(file) + b": "), content
        assert file.read_bytes() == content
    file.unlink()
    file.mkdir()
    assert is_refused(refusal(data), b"storage", bytes(file) + b": ")
    file.rmdir()
    (data / "server.json.new").write_bytes(line[:10])
    assert refusal(data) is None and file.read_bytes() == line


def emptied_files(folder: Path) -> None:
    """A directory in which a file is empty is refused where another one has rows, and the file stays so. Where none has
    rows it is made anew."""
    whole, _, _ = filled(folder, "whole", "--shards", "2")
    new = folder / "new"
    assert refusal(whole, "--shards", "2") is None and refusal(new, "--shards", "2") is None
    for name in ("shard-0.db", "shard-1.db", "book-0.db", "book-1.db"):
        for made in (whole, new):
            emptied = folder / (made.name + name)
            shutil.copytree(made, emptied)
            (emptied / (name + "-wal")).unlink()
            (emptied / name).write_bytes(b"")
            for words in ((), ("--accept-loss",)):
                told = refusal(emptied, "--shards", "2", *words)
                assert told is None if made == new else is_refused(told, b"storage", bytes(emptied / name) + b": "), told
                assert ((emptied / name).stat().st_size == 0) == (made == whole), (made, name)


def refused_starts(folder: Path) -> None:
    """A line that does not host its room, a port that is taken, and numbers outside their limits."""
    base = Base(Log())
    bad = b'{"error":"bad line"}\n'
    for line, told in (
        (host_line(message(A, [base.create], [], room="!s:a.example")), b'{"refused":"not a create event"}\n'),
        (host_line(create(room="!r:z.example")), b'{"refused":"rule A1.2"}\n'),
        (host_line({"type": "m.room.create"}), b'{"refused":"malformed"}\n'),
        (canonical({"step": "open", "origin": "a.example", "txn": "t", "pdus": []}), bad),
    ):
        rooms = folder / "refused.rooms"
        told = told + bytes(rooms) + b": line 2\n"
        assert refusal(folder / "refused", hosts=[host_line(base.create), line]) == (1, told), line
    # Blank lines are passed over.
    assert refusal(folder / "blank", hosts=[b"", host_line(base.create), b" \t\r", b""]) is None
    with serving(folder / "one", hosts=[host_line(base.create)]) as server:
        words = [program(), "serve", "--name", NAME, "--data", folder / "two", "--port", str(server.port)]
        ran = subprocess.run([str(word) for word in words], capture_output=True, timeout=SECONDS)
        place = b"127.0.0.1:%d" % server.port
        assert not ran.stdout and is_refused((ran.returncode, ran.stderr), b"failed read or write", place), ran
        taken = folder / "taken"
        taken.write_bytes(b"")
        for words, about in ((["--data", taken], taken), (["--data", folder / "x", "--host", folder / "none"], folder / "none")):
            ran = subprocess.run([program(), "serve", "--name", NAME, *words], capture_output=True, timeout=SECONDS)
            assert not ran.stdout and is_refused((ran.returncode, ran.stderr), b"failed read or write", bytes(about)), ran
    for words in (["--threads", "0"], ["--threads", "65"], ["--shards", "0"], ["--connections", "257"], ["--port", "65536"]):
        ran = subprocess.run([program(), "serve", "--name", NAME, "--data", folder / "x", *words], capture_output=True, timeout=SECONDS)
        assert ran.returncode == 2 and not ran.stdout, (words, ran)


def full_disk(folder: Path) -> None:
    """A file that can't grow: what was answered stays, and what can't be kept is answered so. The shard then answers so to
    all, until the program is started again; where it is told to stop, it ends by itself, with status 1."""
    base = Base(Log())
    events = [base.join_a, base.levels, base.rules, base.join_b, base.join_c]
    sent = [message(A, [base.join_c], base.of_a, "x" * 60_000 + str(number)) for number in range(20)]
    storage = 503, b'{"errcode":"M_UNKNOWN","error":"storage"}'
    kept = 0
    for words in ((), ("--stop-on-storage",)):
        # A write over the limit fails, where its signal is ignored, as it is here.
        server = Server(folder / "full", *words, hosts=[host_line(base.create)], restore_signals=False)
        assert server.ask(*sending("a.example", "base", events))[0] == 200
        resource.prlimit(server.process.pid, resource.RLIMIT_FSIZE, (400_000 * (1 + len(words)), -1))
        while (told := server.ask(*sending("a.example", "t%d" % kept, [sent[kept]])))[0] == 200:
            kept += 1
        assert told == storage, told
        if words:
            assert server.process.wait(SECONDS) == 1
            said = server.process.stderr.read()
        else:
            assert server.ask(*getting("a.example", state_path("state_ids", base.join_b))) == storage
            said = server.said(b"storage: ")
            server.process.terminate()
            said += server.process.stderr.read()
        server.stop()
        # Told once, and why.
        file = bytes(folder / "full/shard-0.db")
        assert said.count(b"storage: ") == 1 and b"\nstorage: " + file + b": " in said, said
    with serving(folder / "full") as server:
        for number in range(kept):
            told = server.ask(*sending("a.example", "t%d" % number, []))
            assert told == (200, canonical({"pdus": {id_of(sent[number]): ACCEPTED}})), (number, told)


TESTS = [
    rows_reopened, race_reopened, redaction_reopened, kept_reply_reopened, killed_while_it_answers, killed_at_any_moment,
    rows_of_a_book, tables_made_by_sqlite, first_layout_opened, reopened_after_each_request, other_numbers_of_shards,
    made_for_another_server, missing_files, emptied_files, refused_starts, full_disk,
]

if __name__ == "__main__":
    sys.exit(run_tests(TESTS, "a server's files"))
