#!/usr/bin/env python3
"""How `mx_federd serve` opens its files: many at once, those that the system does not open, those that are removed, renamed or
replaced while it runs, and what it says at a start."""

import http.client
import os
import shutil
import stat
import subprocess
import sys
import time
from collections.abc import Callable
from pathlib import Path
from unittest.mock import patch

from suite import Chosen, LeftOut, program, run_tests
from event_logs import NAME, Base, Log, quoted
from matrix_events import A, ACCEPTED, Event, canonical, id_of, message
from running_server import (
    SECONDS, Refused, Reply, Server, asked, base_room, getting, is_refused, memory_of, refusal, sending, serving,
)

STORAGE = 503, b'{"errcode":"M_UNKNOWN","error":"storage"}'
# How long a start over 64 shards without rows may take on a busy machine.
EMPTY_SHARDS_SECONDS = 10
# How long a lost file may go unnoticed: the server looks each second, on a busy machine.
SECONDS_TO_NOTICE = 4
# How long a start goes on until it says that it does.
SECONDS_OF_SILENCE = 10
# The user that has nothing.
NOBODY = 65_534


def empty_shards(folder: Path) -> None:
    """64 shards without rows are made, and opened again, each within seconds and 60 MB. The directory has nothing but its
    files, and is as a start over one shard after another leaves it."""
    data, names = folder / "many", {"server.json", "rows.json"}
    names |= {"%s-%d.db%s" % (kind, number, end) for kind in ("shard", "book") for number in range(64) for end in ("", "-wal")}
    for _ in range(2):
        begun = time.monotonic()
        with serving(data, "--shards", "64") as server:
            seconds, kilobytes = time.monotonic() - begun, memory_of(server.process)
        print("64 shards without rows: %.2f seconds, %d KB" % (seconds, kilobytes))
        assert kilobytes < 60_000, kilobytes
        assert seconds < EMPTY_SHARDS_SECONDS, seconds
        assert {it.name for it in data.iterdir()} == names
        assert all(stat.S_IMODE(os.stat(it).st_mode) == 0o600 for it in data.iterdir())


def first_of_the_failing_files(folder: Path) -> None:
    """Of several files that can't be opened, the first one by its number is told, shards before books."""
    data = folder / "failing"
    assert refusal(data, "--shards", "12") is None
    for names in (("book-2.db", "book-11.db"), ("shard-9.db", "shard-10.db"), ("shard-3.db", "shard-4.db")):
        for name in names:
            (data / name).write_bytes(b"no database")
        for _ in range(3):
            assert is_refused(refusal(data, "--shards", "12"), b"storage", bytes(data / names[0]) + b": "), names


def words_of_the_system(folder: Path) -> None:
    """A file that the system does not open is told with the system's words behind SQLite's."""
    data, whole = folder / "words", folder / "whole"
    assert refusal(whole) is None
    shutil.copytree(whole, data)
    os.link(data / "shard-0.db", data / "other")
    told = b"storage\n" + bytes(data / "shard-0.db") + b": unable to open database file: "
    assert refusal(data) == (1, told + b"unsupported\n")
    (data / "other").unlink()
    (data / "shard-0.db").chmod(0o400)
    assert start_of_its_owner(folder, data) == (1, told + b"Permission denied (os error 13)\n")


def start_of_its_owner(folder: Path, data: Path) -> object:
    """What a refused start says to a user who may do what the modes of the files allow. Root may do more, and becomes another one."""
    how: dict[str, object] = {}
    own = Path(shutil.copy(program(), folder / "mx_federd"))
    if os.getuid() == 0:
        how = {"user": NOBODY, "group": NOBODY, "extra_groups": []}
        for path in (folder, own, data, *data.iterdir()):
            os.chown(path, NOBODY, NOBODY)
    with patch.object(Chosen.values, "program", own):
        try:
            Server(data, **how).stop()
        except Refused as refused:
            return refused.args
        except PermissionError as error:
            raise LeftOut(f"no other user may run a program here: {error}") from error
    return None


def renamed(data: Path, name: str) -> None:
    """A file that is renamed in its directory."""
    (data / name).rename(data / ("other-" + name))


def removed(data: Path, name: str) -> None:
    """A file that is removed."""
    (data / name).unlink()


def replaced(data: Path, name: str) -> None:
    """A file in whose place a copy of it is put."""
    shutil.copy(data / name, data / "copy")
    (data / "copy").rename(data / name)


def moved_away(data: Path, _name: str) -> None:
    """The directory of a file gets another name."""
    data.rename(data.with_name("moved"))


def answers_after(server: Server, base: Base, change: Callable[[], None]) -> list[tuple[float, Event, Reply]]:
    """One message after another, before and after a change of the files: how many seconds behind it each was sent, and what
    it was answered."""
    connection, answers, sent, changed = server.connect(), [], [], 0.0
    for number in range(10_000):
        if number == 10:
            change()
            changed = time.monotonic()
        begun = time.monotonic()
        if number >= 10 and begun - changed > SECONDS_TO_NOTICE + 1:
            break
        sent.append(message(A, [base.join_c], base.of_a, "m%d" % number))
        try:
            reply = asked(connection, *sending("a.example", "m%d" % number, [sent[-1]]))
        except (OSError, http.client.HTTPException):
            break
        answers.append((begun - changed if number >= 10 else 0.0, sent[-1], reply))
        time.sleep(0.02)
    return answers


def lost_files(folder: Path) -> None:
    """A file, or a log, that is removed, renamed or replaced under a running server, alone or with its directory: after a
    moment each message that would be kept there is answered by 503, and who runs the server is told once, which file and
    why."""
    gone, other = b": it was removed or renamed, or its directory was; ", b": another file was put in its place; "
    for number, (change, name, why, count) in enumerate((
        (renamed, "shard-0.db", gone, 1), (removed, "shard-0.db", gone, 1), (replaced, "shard-0.db", other, 1),
        (removed, "book-0.db", gone, 1), (renamed, "shard-0.db-wal", gone, 1), (moved_away, "shard-0.db", gone, 2),
    )):
        place = folder / str(number)
        place.mkdir()
        server, base = base_room(place)
        data = place / "base"
        answers = answers_after(server, base, lambda: change(data, name))
        late = [reply for seconds, _, reply in answers if seconds > SECONDS_TO_NOTICE]
        assert late and set(late) == {STORAGE}, (change, name, late[:3])
        assert all(reply[0] == 200 for seconds, _, reply in answers if seconds == 0.0)
        server.process.terminate()
        said = [line for line in server.process.stderr.read().splitlines() if not line.startswith(b"serving ")]
        server.stop()
        assert len(said) == count and said[0].startswith(b"storage: " + bytes(data / name) + why), said


def a_lost_file_ends_the_server(folder: Path) -> None:
    """A server that is to end once a file has failed ends by itself once one is lost, with status 1, also where nobody asks
    it anything. Put back under its name the file has all that was answered before."""
    server, base = base_room(folder, "--stop-on-storage")
    data, said = folder / "base", message(A, [base.join_c], base.of_a, "said")
    reply = server.ask(*sending("a.example", "t1", [said]))
    assert reply == (200, canonical({"pdus": {id_of(said): ACCEPTED}})), reply
    renamed(data, "shard-0.db")
    assert server.process.wait(SECONDS_TO_NOTICE) == 1
    lines = server.process.stderr.read().splitlines()
    server.stop()
    assert lines[1].startswith(b"storage: " + bytes(data / "shard-0.db") + b": ") and lines[2:] == [b"storage"], lines
    (data / "other-shard-0.db").rename(data / "shard-0.db")
    with serving(data) as server:
        assert server.ask(*sending("a.example", "t1", [])) == reply
        shown = server.ask(*getting("b.example", "v1/event/" + quoted(id_of(said))))
        assert shown[0] == 200, shown


def names_outside_the_grammar(folder: Path) -> None:
    """A name that no server can have is told at the start, in a line, and others are not."""
    for number, (name, is_told) in enumerate((
        ("https://hub.example", True), ("a b", True), ("hub.example:84488448", True), ("[::1", True),
        ("hub.example:8448", False), ("192.0.2.1", False), ("[2001:db8::1]:8448", False),
    )):
        words = [program(), "serve", "--name", name, "--data", folder / str(number), "--port", "0"]
        process = subprocess.Popen([str(word) for word in words], stdout=subprocess.PIPE, stderr=subprocess.PIPE)
        assert process.stdout.readline().startswith(b"listening "), name
        told = [b"warning: " + name.encode() + b": no server has such a name, by the Matrix specification\n"] if is_told else []
        told.append(b"serving " + bytes(folder / str(number)) + b"\n")
        try:
            for line in told:
                assert (said := process.stderr.readline()) == line, (name, said)
        finally:
            process.terminate()
        assert process.communicate(timeout=SECONDS) == (b"", b""), name


def a_long_start(folder: Path) -> None:
    """A start that takes longer than some seconds says each time how long it has gone on, where standard error is no terminal
    too. Here it waits for a file of rooms."""
    rooms, data = folder / "rooms", folder / "data"
    os.mkfifo(rooms)
    words = [program(), "serve", "--name", NAME, "--data", data, "--port", "0", "--rooms", rooms]
    process = subprocess.Popen([str(word) for word in words], stdout=subprocess.PIPE, stderr=subprocess.PIPE)
    with open(rooms, "wb"):
        begun = time.monotonic()
        line = process.stderr.readline()
        assert time.monotonic() - begun > SECONDS_OF_SILENCE / 2, line
        assert line == bytes(data) + b": starting for 10 seconds; the rows of 2 files are judged\n", line
    assert process.stdout.readline().startswith(b"listening ")
    process.terminate()
    process.communicate(timeout=SECONDS)


TESTS = [
    empty_shards, first_of_the_failing_files, words_of_the_system, lost_files, a_lost_file_ends_the_server,
    names_outside_the_grammar, a_long_start,
]

if __name__ == "__main__":
    sys.exit(run_tests(TESTS, "opened files"))
