#!/usr/bin/env python3
"""Tests `mx_federd` by its command line: `check`, `replay` and `migrate`, the options that each subcommand takes, what stands on a
terminal, and reads and writes that fail. `audit` and `log` have scripts of their own.

What the program prints is compared with texts that stand here and with examples/, which come from the definitions (the id by
Python's hashlib) and never from the program."""

import contextlib
import json
import os
import re
import shutil
import signal
import sqlite3
import subprocess
import sys
import threading
import time
from collections.abc import Callable
from pathlib import Path
from typing import Any

from suite import TOP, program, run_tests
from event_logs import FEDERATION, Log, by_id, call, get, given, quoted, send, sent
from matrix_events import (
    A, ACCEPTED, ROOM, Event, canonical, create, error, event, id_of, join, sealed, unsigned, without,
)
from program import BAD_LINE, FAILED, Ended, compare_answers, replay, run

Rows = list[tuple[Any, ...]]
LARGEST_LINE = 8_388_608
POWER_LEVELS = {
    "auth_events": [], "content": {"ban": 50, "invite": 50, "notifications": {"room": 50}, "users": {"@a:a.example": 100}},
    "depth": 4, "hashes": {"sha256": "x"}, "origin_server_ts": 40, "prev_events": [], "room_id": "!r:a.example",
    "sender": "@a:a.example", "signatures": {"a.example": {"ed25519:1": "s"}}, "state_key": "",
    "type": "m.room.power_levels", "unsigned": {"age": 5},
}
SPELLED_OTHERWISE = (
    b' { "unsigned":{"age":5},"type" : "m.room.power_levels","state_key":"",\n"signatures":{"a.example":{"ed25519:1":"s"}},'
    b'"sender":"@a:a.example","room_id":"!r:a.example","prev_events":[ ],"origin_server_ts":40,"hashes":{"sha256":"x"},'
    b'"depth":4,"content":{"users":{"@a:a.example":100},"notifications":{"room":50},"invite":50,"ban":50},"auth_events":[]}\r\n'
)


def check_prints_three_lines() -> None:
    """`check` prints the id, whether the content hash holds, and the canonical text, however the input is spelled."""
    assert id_of(POWER_LEVELS) == "$T88qUID58cSwgtjrzS_C35dNVOdZei7Dk6AJtTNbu9U"
    text = canonical(POWER_LEVELS)
    wanted = 0, b"id %s\nhash bad\ncanonical %s\n" % (id_of(POWER_LEVELS).encode(), text), b""
    assert run("check", source=text) == wanted
    assert run("check", source=SPELLED_OTHERWISE) == wanted, "spelling of the input is free"


def checked(made: Event, hash_holds: bool) -> Ended:
    """What `check` leaves of an event."""
    text = canonical(made)
    return 0, b"id %s\nhash %s\ncanonical %s\n" % (id_of(made).encode(), b"good" if hash_holds else b"bad", text), b""


def hashes_and_ids() -> None:
    """The hash and the id of an event of each type that redaction knows, of others, and of altered ones."""
    keys = (
        "aliases", "ban", "creator", "events", "events_default", "history_visibility", "invite", "join_rule", "kick",
        "membership", "name", "notifications", "redact", "room_version", "state_default", "users", "users_default", 'a"\x01',
    )
    content = {key: [1, -2, [], {}] for key in keys}
    more = {key: 1 for key in ("age", "event_id", "membership", "origin", "prev_state", "redacts", "x")}
    for kind in (
        "m.room.member", "m.room.create", "m.room.join_rules", "m.room.power_levels", "m.room.history_visibility",
        "m.room.aliases", "m.room.message", "m.room.redaction", "m.room.server_acl", "",
    ):
        for inner in ({}, content):
            made = {**event(kind, A, [], [], inner, "", **more), "unsigned": {"age": 5}}
            assert run("check", source=canonical(made)) == checked(made, True), made
            assert run("check", source=canonical(unsigned(made))) == checked(unsigned(made), True), made
            for other in ({**made, "origin": 2}, {**made, "content": {**inner, "body": "a"}}, {**made, "hashes": {}}):
                assert run("check", source=canonical(other)) == checked(other, False), other


def canonical_texts() -> None:
    """The text of any value that has one, and the refusal of the others, each as an event's content has it."""
    made = without(create(), "hashes")
    for value in (
        {"b": 1, "a": "\u00e9\u0007\n"}, {"\U00010000": 2, "\uff61": 1}, {"b": [1, {"d": None}], "a": "c"},
        9007199254740991, -9007199254740991, 0, "\x00\x1f\x7f\b\f\r\t\"\\\u2028", [[], {}, True, False], {"": {"": ""}},
    ):
        held = sealed({**made, "content": {"x": value}})
        spelled = json.dumps(held, indent=1).encode()
        for source in (canonical(held), spelled):
            assert run("check", source=source) == checked(held, True), value
    for text in ("9007199254740992", "-9007199254740992", "[9007199254740992,1.0]", "1.0", "1e2", "-0", "1E400", "0.1"):
        source = canonical(sealed({**made, "content": {"x": "HERE"}})).replace(b'"HERE"', text.encode())
        told_of = b"not JSON" if text == "1E400" else b"not canonical"
        assert run("check", source=source) == (1, b"", b"refused: " + told_of + b"\n"), text


def full_room() -> tuple[Log, list[Event], Callable[[int], Event]]:
    """A log that fills a room with 50,000 events, these, and what makes the next message."""
    log = Log()
    first = create()
    chain = [join(A, [first], [first])]
    log.host(first)
    auth, last = [id_of(first), id_of(chain[0])], id_of(chain[0])

    def next_message(number: int) -> Event:
        """A message of this depth behind the last event."""
        return sealed({
            "auth_events": auth, "content": {"body": "m"}, "depth": number, "origin_server_ts": 10 * number,
            "prev_events": [last], "room_id": ROOM, "sender": A, "type": "m.room.message",
        })

    names = [last]
    for number in range(3, 50_001):
        chain.append(next_message(number))
        last = id_of(chain[-1])
        names.append(last)
    for at in range(0, len(chain), 50):
        answer = 200, {"pdus": {name: ACCEPTED for name in names[at:at + 50]}}
        send(log, "a.example", "t%d" % at, chain[at:at + 50], answer)
    return log, [first, *chain], next_message


def room_at_its_limit() -> None:
    """A room of 50,000 events keeps no other one, and knows and tells those that it has."""
    log, (first, *chain), next_message = full_room()
    joined, last = chain[0], id_of(chain[-1])
    over = next_message(50_001)
    sent(log, "a.example", "over", (over, error("room full")), (chain[-1], ACCEPTED), (chain[0], ACCEPTED))
    room = quoted(ROOM)
    get(log, "v1/event/" + quoted(id_of(over)), (404, {"errcode": "M_NOT_FOUND", "error": "not found"}), "a.example")
    get(log, "v1/event/" + quoted(last), given(chain[-1]), "a.example")
    get(log, "v1/event_auth/%s/%s" % (room, quoted(last)), (200, {"auth_chain": by_id(first, joined)}), "a.example")
    get(log, "v1/backfill/%s?v=%s&limit=100" % (room, quoted(last)), given(*reversed(chain[-100:])), "a.example")
    body = {"earliest_events": [], "latest_events": [last], "limit": 20}
    wanted = 200, {"events": chain[-21:-1]}
    call(log, "POST", FEDERATION + "v1/get_missing_events/" + room, wanted, origin="a.example", body=body)
    assert len(chain) == 49_999
    compare_answers(replay(log.text(), timeout=600), log.answers)


def check_refusals() -> None:
    """Each kind of input that is no event is refused with its cause."""
    for source, told in (
        (b"{}", b"field missing or of a wrong kind"),
        (b"[1.0]", b"not canonical"),
        (b"[1]", b"not an object"),
        (b"", b"not JSON"),
        (b'{"a":9007199254740992}', b"not canonical"),
        (b'{"a":18446744073709551616}', b"not canonical"),
        (b'"\xff"', b"not JSON"),
    ):
        assert run("check", source=source) == (1, b"", b"refused: " + told + b"\n"), source


def explained_refusals() -> None:
    """`check --explain` says in a second line which field of an event has which fault; the first line stays as it is."""
    whole = without(create(), "unsigned")
    wrong, limit, number = b"refused: field missing or of a wrong kind\n", b"refused: limit\n", b"refused: not canonical\n"
    cases = (
        (without(whole, "depth"), wrong, b"depth: missing\n"), ({**whole, "depth": "1"}, wrong, b"depth: wrong kind\n"),
        ({**whole, "state_key": 1}, wrong, b"state_key: wrong kind\n"), ({**whole, "depth": -1}, limit, b"depth: over limit\n"),
        ({**whole, "type": "t" * 256}, limit, b"type: over limit\n"), ({**whole, "room_id": "r"}, wrong, b"room_id: wrong kind\n"),
        ({**whole, "prev_events": ["$a"] * 21}, limit, b"prev_events: over limit\n"),
        ({**whole, "depth": 2 ** 53}, number, b'"depth": an integer is out of range\n'),
        ({**whole, "content": {"x": [1.5]}}, number, b'"content": a number is not a 64-bit integer\n'),
        ({**whole, "content": {"x": 2 ** 53}, "depth": 1.5}, number, b'"depth": a number is not a 64-bit integer\n'),
    )
    for made, first, second in cases:
        source = canonical(made)
        assert run("check", source=source) == (1, b"", first), made
        assert run("check", "--explain", source=source) == (1, b"", first + second), made
    assert run("check", "--explain", source=b"[1]") == (1, b"", b"refused: not an object\nnot an object\n")
    assert run("check", "--explain", source=b"[1.5]") == (1, b"", number + b"a number is not a 64-bit integer\n")
    assert run("check", "--explain", source=b"[") == (1, b"", b"refused: not JSON\n")
    assert run("check", "--explain", source=canonical(whole)) == checked(whole, True)


def content_hash_as_a_status() -> None:
    """With `check --strict` a content hash that does not hold is told after the three lines, with status 1."""
    made = create()
    other = {**made, "origin": 2}
    assert run("check", "--strict", source=canonical(made)) == checked(made, True)
    _, lines, _ = checked(other, False)
    assert run("check", source=canonical(other)) == (0, lines, b"")
    assert run("check", "--strict", source=canonical(other)) == (1, lines, b"refused: content hash\n")


def first_bad_line() -> None:
    """`replay --strict` ends behind the answer to the first bad line, and says its number and fault."""
    first = create()
    host = b'{"event":' + canonical(first) + b',"step":"host"}\n'
    hosted = b'{"hosted":"%s"}\n' % id_of(first).encode()
    open_line = b'{"step":"open","origin":"a.example","txn":"t","pdus":%s}'
    for line, why in (
        (b"", b"not JSON"), (b"{", b"not JSON"), (b"[]", b"not an object"), (b"{}", b"step: missing"), (b'{"step":1}', b"step: wrong kind"),
        (b'{"step":"hosts"}', b"step: unknown"), (b'{"step":"host"}', b"event: missing"), (b'{"step":"host","event":1,"x":2}', b'"x": unknown key'),
        (b'{"step":"next","txn":"t"}', b"origin: missing"), (b'{"step":"close","origin":"","txn":"t"}', b"origin: wrong kind"),
        (open_line % b"1", b"pdus: wrong kind"), (open_line % (b"[" + b"1," * 50 + b"1]"), b"pdus: over limit"),
        (b'{"step":"call","method":"GET","target":"/","now":-1}', b"now: wrong kind"),
        (b'{"step":"call","method":"GET","target":"/","now":9007199254740992}', b"now: over limit"),
        (b'{"step":"call","method":"GET","target":"/","now":1,"body":null}', b"body: wrong kind"),
    ):
        source = host + line + b"\n" + host
        told = b"refused: bad line\nline 2: " + why + b"\n"
        assert replay(source, "--strict") == (1, hosted + BAD_LINE, told), line
        assert replay(source) == (0, hosted + BAD_LINE + hosted.replace(b"hosted", b"already"), b""), line
    malformed = b'{"event":1,"step":"host"}\n'
    assert replay(host + malformed, "--strict") == (0, hosted + b'{"refused":"malformed"}\n', b""), "a malformed event makes no line bad"
    assert replay(host * 2000 + b"x", "--strict")[2] == b"refused: bad line\nline 2001: not JSON\n"


def deep_nesting() -> None:
    """Values nested 127 deep are read, and deeper ones refused."""
    for depth, told in ((127, b"not an object"), (128, b"not JSON"), (100_000, b"not JSON")):
        source = b"[" * depth + b"]" * depth
        assert run("check", source=source) == (1, b"", b"refused: " + told + b"\n"), depth


def cut_input() -> None:
    """An event that is cut anywhere is no JSON."""
    whole = canonical(POWER_LEVELS)
    for length in range(len(whole)):
        assert run("check", source=whole[:length]) == (1, b"", b"refused: not JSON\n"), length


def words_that_ask_for_nothing() -> None:
    """Words that name no subcommand, or more than it takes, are refused with status 2."""
    for words in ([], [""], ["chek"], ["--help"], ["check=1"], ["check", "more", "more"]):
        status, out, err = run(*words, source=b"{}")
        assert (status, out) == (2, b"") and err, (words, status, out, err)
    assert run(b"check\xff") == (2, b"", b"a word is no UTF-8\n")


def words_of_replay() -> None:
    """A server name, and a number of shards within its limits."""
    name = "--name", "hub.example"
    for words in (
        ["--name", "", "--shards", "1"], [*name, "--shards", "0"], [*name, "--shards", "65"], [*name, "--shards", "x"],
        ["--shards", "1"], ["--shards", "1", "--shards", "1"],
    ):
        status, out, err = run("replay", *words)
        assert (status, out) == (2, b"") and err, (words, status, out, err)
    for words in ([*name], [*name, "--shards", "64"]):
        assert run("replay", *words) == (0, b"", b""), words


def words_of_serve() -> None:
    """A server name, and a directory that has a name, are asked for before anything is made."""
    for words in (
        ["--name", "", "--data", "x"], ["--name", "hub.example"], ["--name", "hub.example", "--data", ""],
        ["--name", "hub.example", "--data", "x", "--port", "65536"],
    ):
        status, out, err = run("serve", *words)
        assert (status, out) == (2, b"") and err, (words, status, out, err)


def words_of_migrate() -> None:
    """A directory that has a name, and a number of shards."""
    for words in ([], ["--data", ""], ["--data", "x", "--shards", "0"], ["--data", "x", "--shards", "65"], ["--data", "x", "--name", "hub.example"]):
        status, out, err = run("migrate", *words)
        assert (status, out) == (2, b"") and err, (words, status, out, err)


def migrated_files(folder: Path) -> None:
    """A directory of the first layout, twice; an empty file; a layout of another number; a file that is missing."""
    data = folder / "first"
    shutil.copytree(TOP / "examples/layouts/first", data)
    for _ in range(2):
        assert run("migrate", "--data", data) == (0, b"shard 0: 9 rows\n", b"")
    assert tables_of(data / "shard-0.db")[1:] == ([], [(1, 2)])
    empty = folder / "empty"
    empty.mkdir()
    (empty / "shard-0.db").touch()
    for _ in range(2):
        assert run("migrate", "--data", empty) == (0, b"shard 0: 0 rows\n", b"")
    status, out, err = run("migrate", "--data", data, "--shards", "2")
    assert (status, out) == (1, b"") and err.startswith(b"storage\n" + bytes(data)), (status, out, err)
    whole = tables_of(data / "shard-0.db")
    for statement in ("UPDATE layout SET number = 3", "INSERT INTO kept SELECT place, room, event, caller FROM kept2"):
        other = folder / "other"
        other.mkdir()
        with contextlib.closing(sqlite3.connect(data / "shard-0.db")) as old, contextlib.closing(sqlite3.connect(other / "shard-0.db")) as new:
            new.executescript("\n".join(old.iterdump()) + statement)
        found = tables_of(other / "shard-0.db")
        assert found != whole
        status, out, err = run("migrate", "--data", other)
        assert (status, out) == (1, b"") and err.startswith(b"storage\n" + bytes(other)), (status, out, err)
        assert tables_of(other / "shard-0.db") == found, "nothing changes"
        shutil.rmtree(other)


def tables_of(file: Path) -> tuple[Rows, ...]:
    """The rows of the three tables of a shard's file."""
    with contextlib.closing(sqlite3.connect(file)) as connection:
        return tuple(connection.execute("SELECT * FROM " + table).fetchall() for table in ("kept2", "kept", "layout"))


def help_of_each_subcommand() -> None:
    """`--help` names what each option takes, and ends with an example and the page."""
    pages = {"check": "LOG", "replay": "LOG", "log": "LOG", "serve": "OPERATION", "audit": "AUDIT", "migrate": "FILES"}
    for subcommand, page in pages.items():
        status, out, err = run(subcommand, "--help")
        text = err.decode()
        *_, example, named = text.rstrip("\n").split("\n")
        assert (status, out) == (2, b"") and example.startswith("Example: mx_federd ") and subcommand in example, text
        assert named == f"Page: docs/{page}.md" and (TOP / "docs" / f"{page}.md").is_file(), text
        for option, value in ("--name", "SERVER"), ("--data", "DIR"), ("--shards", "1-64"), ("--room", "ROOM_ID"):
            assert option + " " not in text or f"{option} <{value}>" in text, (subcommand, option, text)


def progress_on_a_terminal() -> None:
    """Where standard error is a terminal, replay and audit tell each second how much was read."""
    for words in (["replay", "--name=hub.example"], ["audit", "--name=hub.example", "--room=" + ROOM]):
        ours, theirs = os.openpty()
        process = subprocess.Popen([str(program()), *words], stdin=subprocess.PIPE, stdout=subprocess.DEVNULL, stderr=theirs)
        os.close(theirs)
        for _ in range(3):
            process.stdin.write(b"[]\n")
            process.stdin.flush()
            time.sleep(1.1)
        told = os.read(ours, 65_536).decode().splitlines()
        process.stdin.close()
        process.wait()
        os.close(ours)
        assert told and all(line in ("3 bytes read", "6 bytes read", "9 bytes read") for line in told), (words, told)


def all_of(terminal: int) -> bytes:
    """All that was written to a terminal which no program has open any more; it is closed then."""
    told = b""
    with contextlib.suppress(OSError):  # at its end the terminal fails
        while piece := os.read(terminal, 65_536):
            told += piece
    os.close(terminal)
    return told


def shares_told(log: Path, *words: str) -> tuple[list[int], str]:
    """The shares of a log that a replay of it tells on a terminal, on one line, and what it tells behind them."""
    ours, theirs = os.openpty()
    command = [str(program()), "replay", "--name=hub.example", *words, str(log)]
    process = subprocess.Popen(command, stdout=subprocess.PIPE, stderr=theirs)
    os.close(theirs)
    time.sleep(2.2)  # the pipe is full, and the program waits
    process.stdout.read()
    process.wait()
    told = all_of(ours).decode()
    size = log.stat().st_size
    found = re.fullmatch(r"((?:\r[0-9]{1,3} %% of %d bytes read)+)\r\n(.*)" % size, told, re.DOTALL)
    assert found, told
    return [int(it) for it in re.findall(r"\r([0-9]+) %", found[1])], found[2]


def share_on_a_terminal(folder: Path) -> None:
    """Of a file it is told which share was read, on one line, which ends with the file, or before it is told what is wrong."""
    log = folder / "log"
    lines = b'{"event":1,"step":"host"}\n' * 300_000
    log.write_bytes(lines)
    shares, behind = shares_told(log)
    assert shares == sorted(shares) and len(shares) > 1 and shares[-1] == 100 and behind == "", (shares, behind)
    log.write_bytes(lines + b"[]\n" + lines)
    shares, behind = shares_told(log, "--strict")
    assert shares == sorted(shares) and len(shares) > 1 and 49 <= shares[-1] <= 51, shares
    assert behind == "refused: bad line\r\nline 300001: not an object\r\n", behind


def files_opened_on_a_terminal(folder: Path) -> None:
    """Where standard error is a terminal, serve and migrate tell each second how many files are opened, and serve that all are."""
    empty = folder / "empty"
    empty.mkdir()
    for number in range(16):
        (empty / f"shard-{number}.db").touch()
    for words, data, lines, at_last in (
        (["serve", "--name=hub.example", "--port=0"], folder / "new", 1, ["32 files opened; their rows are judged"]),
        (["migrate"], empty, 16, []),
    ):
        told = told_by_one_that_halts(words, data, lines)
        each_second = [it for it in told if re.fullmatch("[1-9][0-9]* files opened", it)]
        assert each_second and [it for it in told if "files opened;" in it] == at_last, (words, told)


def told_by_one_that_halts(words: list[str], data: Path, lines: int) -> list[str]:
    """What the terminal has when so many lines are printed, by a program that halts a second once its first file is begun."""
    ours, theirs = os.openpty()
    command = [str(program()), *words, f"--data={data}", "--shards=16"]
    process = subprocess.Popen(command, stdin=subprocess.DEVNULL, stdout=subprocess.PIPE, stderr=theirs)
    os.close(theirs)
    try:
        first = data / "shard-0.db"
        while not first.exists() or first.stat().st_size == 0:
            assert process.poll() is None, words
        process.send_signal(signal.SIGSTOP)
        time.sleep(1.1)
        process.send_signal(signal.SIGCONT)
        for _ in range(lines):
            assert process.stdout.readline(), words
    finally:
        process.kill()
        process.wait()
    told = b""
    with contextlib.suppress(OSError):  # with no program left, reading a terminal fails at its end
        while True:
            told += os.read(ours, 65_536)
    os.close(ours)
    return told.decode().splitlines()


def answers_before_the_end_of_a_log() -> None:
    """The first answers come while the log goes on; its last line may lack its newline."""
    process = subprocess.Popen([str(program()), "replay", "--name=hub.example"], stdin=subprocess.PIPE, stdout=subprocess.PIPE)
    late = threading.Timer(30, process.kill)
    late.start()
    try:
        process.stdin.write(b"[]\n" * 1000)
        process.stdin.flush()
        assert process.stdout.readline() == BAD_LINE
        process.stdin.write(b"[]\n\n[]")
        process.stdin.close()
        assert process.stdout.read() == BAD_LINE * 1002
        assert process.wait() == 0
    finally:
        late.cancel()
        process.kill()


def memory_for(log: bytes) -> int:
    """The most kilobytes that a replay has taken once it was given this log."""
    process = subprocess.Popen([str(program()), "replay", "--name=hub.example"], stdin=subprocess.PIPE, stdout=subprocess.DEVNULL)
    process.stdin.write(log)
    process.stdin.flush()
    status = Path(f"/proc/{process.pid}/status").read_text()
    process.stdin.close()
    assert process.wait() == 0
    return int(status.partition("VmHWM:")[2].split()[0])


def a_log_takes_the_memory_of_a_line() -> None:
    """A log of 256 long lines takes no more memory than one of a single line."""
    line = b"[%s]\n" % (b" " * 65_533)
    assert memory_for(line * 256) - memory_for(line) < 8_192


def failed_reads_and_writes() -> None:
    """A folder can't be read, and nothing can be written to a full device."""
    for words, source in ((["check"], canonical(POWER_LEVELS)), (["replay", "--name=hub.example"], b"{}\n")):
        folder = os.open("/", os.O_RDONLY)
        assert run(*words, source=None, stdin=folder) == (1, b"", FAILED), words
        os.close(folder)
        with open("/dev/full", "wb") as full:
            assert run(*words, source=source, stdout=full) == (1, None, FAILED), words


def files_in_place_of_standard_input(folder: Path) -> None:
    """`check`, `replay`, `log` and `audit` read a file that is named; one that can't be opened is named with the system's words."""
    log = TOP / "examples/audit/two_bans.jsonl"
    event = folder / "event.json"
    event.write_bytes(canonical(POWER_LEVELS))
    for words, file in ((["check"], event), (["replay", "--name=hub.example"], log), (["log"], log), (["audit", "--room=" + ROOM], log)):
        assert run(*words, file) == run(*words, source=file.read_bytes()) != run(*words), words
        assert run(*words, folder / "none") == (1, b"", FAILED + bytes(folder / "none") + b": No such file or directory (os error 2)\n"), words
        assert run(*words, file, file)[0] == 2, words
    assert run("audit", "--room=" + ROOM, "--data", folder, log)[0] == 2


def output_that_nobody_reads_on() -> None:
    """Where the reader of standard output goes, as `head` does, the program ends, and says nothing but what it says of a log."""
    log = (TOP / "examples/audit/two_bans.jsonl").read_bytes()
    for words, source in (
        (["replay", "--name=hub.example"], b"[]\n" * 200_000), (["audit", "--room=" + ROOM], log), (["log"], log),
        (["check"], canonical(POWER_LEVELS)),
    ):
        ours, theirs = os.pipe()
        os.close(ours)
        status, _, err = run(*words, source=source, stdout=theirs)
        os.close(theirs)
        assert status == 1 and FAILED not in err and (words[0] == "log" or err == b""), (words, status, err)


def answers_of_the_logs() -> None:
    """Each log of examples/ and examples/rows gets its answers on one shard and on 64: no answer depends on their number."""
    logs = [*sorted((TOP / "examples").glob("*.answers.jsonl")), *sorted((TOP / "examples/rows").glob("*.answers.jsonl"))]
    for answers in logs:
        log = answers.with_name(answers.name.replace(".answers", "")).read_bytes()
        for shards in ("1", "64"):
            compare_answers(replay(log, "--shards", shards), answers.read_bytes().splitlines())
    assert len(logs) > 2, logs


def line_of_8_mebibytes() -> None:
    """A line of 8 MiB of spaces, without an end, gets its answer."""
    assert replay(b" " * LARGEST_LINE) == (0, BAD_LINE, b"")


def million_empty_lines() -> None:
    """Each of a million empty lines gets its answer."""
    assert replay(b"\n" * 1_000_000, timeout=600) == (0, BAD_LINE * 1_000_000, b"")


TESTS = [
    check_prints_three_lines, hashes_and_ids, canonical_texts, room_at_its_limit, check_refusals, explained_refusals,
    content_hash_as_a_status, first_bad_line, deep_nesting, cut_input, share_on_a_terminal,
    words_that_ask_for_nothing, words_of_replay, words_of_serve, help_of_each_subcommand, progress_on_a_terminal, files_opened_on_a_terminal,
    words_of_migrate, migrated_files, answers_before_the_end_of_a_log, a_log_takes_the_memory_of_a_line,
    failed_reads_and_writes, files_in_place_of_standard_input, output_that_nobody_reads_on, answers_of_the_logs, line_of_8_mebibytes, million_empty_lines,
]

if __name__ == "__main__":
    sys.exit(run_tests(TESTS, "the command line"))
