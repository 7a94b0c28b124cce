#!/usr/bin/env python3
"""Tests `mx_federd serve` on loopback: it is asked over sockets, by one client and by many at once, and its files are read once
it is stopped.

What it answers is compared with examples/ and with answers that stand here, which come from the definitions and never from the
program."""

import contextlib
import json
import resource
import subprocess
import sys
import threading
from collections.abc import Callable
from pathlib import Path
from typing import Any

from suite import TOP, program, run_tests
from event_logs import FEDERATION, NAME, Base, Log, header, quoted, state_path
from matrix_events import A, ACCEPTED, Event, Json, canonical, create, error, id_of, join, message
from running_server import (
    LARGEST_BODY, NOT_JSON, REPLIES, SECONDS, TOO_LARGE, UNKNOWN_PATH, Server, asked, base_room, getting, host_line,
    is_refused, memory_of, rows_of, sending, serving,
)

# How often a transaction is sent that is refused.
TRIES = 100_000

# ---- logs

def requests_of(log: Path) -> tuple[list[bytes], list[tuple[Any, int, Json]]]:
    """The rooms that a log hosts, and its requests with their answers. A transaction by single lines is one request."""
    lines = [json.loads(line) for line in log.read_bytes().splitlines()]
    answers = [json.loads(line) for line in log.with_name(log.stem + ".answers.jsonl").read_bytes().splitlines()]
    hosts, requests = [], []
    opened: dict[Any, Json] = {}
    for line, answer in zip(lines, answers):
        key = line.get("origin"), line.get("txn")
        if line["step"] == "host":
            hosts.append(canonical(line))
        elif line["step"] == "open" and "open" in answer:
            opened[key] = line
        elif line["step"] == "close" and "closed" in answer:
            open_line = opened.pop(key)
            request = sending(line["origin"], quoted(line["txn"]), open_line["pdus"])
            requests.append((request, 200, answer["closed"]))
        elif line["step"] == "call":
            body = line["body"].encode() if "body" in line else None
            request = line["method"], line["target"], line.get("authorization"), body
            requests.append((request, answer["status"], answer["body"]))
    return hosts, requests


def at_the_moment_of(told: Json, wanted: Json) -> Json:
    """The body that was told, with the moment of the wanted one in place of its own."""
    if "origin_server_ts" in wanted:
        return {**told, "origin_server_ts": wanted["origin_server_ts"]}
    if "origin_server_ts" in wanted.get("event", {}) and "room_version" in wanted:
        return {**told, "event": {**told["event"], "origin_server_ts": wanted["event"]["origin_server_ts"]}}
    return told


def check_log(folder: Path, log: Path) -> int:
    """Sends the requests of a log to a server, and compares their answers: how many there were."""
    hosts, requests = requests_of(log)
    with serving(folder / log.stem, "--shards", "2", hosts=hosts) as server:
        connection = server.connect()
        for request, status, wanted in requests:
            got = asked(connection, *request)
            told = at_the_moment_of(json.loads(got[1]), wanted)
            assert (got[0], told) == (status, wanted), (log.stem, request[:2], got, status, wanted)
        connection.close()
    return len(requests)


# Rows whose lines can't be requests of HTTP: spaces round a header's value, steps out of turn, hosting that is refused.
NO_REQUESTS = {"authorization_spellings", "steps_out_of_turn", "host_refusals", "bad_lines", "number_held_by_a_line", "refusals_in_their_order",
               "unknown_version"}


def every_route(folder: Path) -> None:
    """Each log of rows gets the answers of `replay`, from a server that keeps the connection open."""
    logs = [TOP / "examples/requests.jsonl", *sorted((TOP / "examples/rows").glob("*.jsonl"))]
    count = 0
    for log in logs:
        if not log.name.endswith(".answers.jsonl") and log.stem not in NO_REQUESTS:
            count += check_log(folder, log)
    assert count > 150, count


# ---- connections

def run_together(client: Callable[..., None], of_each: list[tuple[Any, ...]]) -> None:
    """Runs a client on a thread of its own for each of these, and waits for their ends."""
    threads = [threading.Thread(target=client, args=it) for it in of_each]
    for thread in threads:
        thread.start()
    for thread in threads:
        thread.join(SECONDS)


def two_connections(folder: Path) -> None:
    """Two clients at the same time: a query for the ids of a state, and a path without a route."""
    server, base = base_room(folder, "--threads", "2", "--shards", "2")
    query = getting("b.example", state_path("state_ids", base.join_b))
    replies = {}
    together = threading.Barrier(2)

    def client(name: str, request: Any) -> None:
        """Connects, waits for the other client, and asks."""
        connection = server.connect()
        connection.connect()
        together.wait(SECONDS)
        replies[name] = asked(connection, *request)
        connection.close()

    run_together(client, [("ids", query), ("path", ("GET", "/x"))])
    server.stop()
    chain = sorted(id_of(it) for it in (base.create, base.join_a, base.levels))
    state = [id_of(it) for it in (base.create, base.rules, base.join_a, base.levels)]
    assert replies["ids"] == (200, canonical({"auth_chain_ids": chain, "pdu_ids": state})), replies
    assert replies["path"] == UNKNOWN_PATH, replies


def one_reply_to_a_transaction(folder: Path) -> None:
    """A transaction that two clients send again and again at the same time has one reply."""
    server, base = base_room(folder, "--threads", "4", "--shards", "2")
    events = [message(A, [base.join_c], base.of_a, "m%d" % number) for number in range(20)]
    replies = []

    def client() -> None:
        """Sends the transaction ten times."""
        for _ in range(10):
            status, told = server.ask(*sending("a.example", "t1", events))
            if status == 503:
                assert told == b'{"errcode":"M_UNKNOWN","error":"busy"}', told
            else:
                replies.append((status, told))

    run_together(client, [()] * 4)
    wanted = 200, canonical({"pdus": {id_of(event): ACCEPTED for event in events}})
    assert replies and all(reply == wanted for reply in replies), replies[:2]
    assert server.ask(*sending("a.example", "t1", [])) == wanted
    server.stop()
    kept = [rows for name in ("book-0.db", "book-1.db") for rows in rows_of(folder / "base", REPLIES, name)]
    assert [row[1:] for row in kept if row[2] == "t1"] == [("a.example", "t1", wanted[1].decode())], kept
    counts = [rows_of(folder / "base", "SELECT count(*) FROM kept2", name) for name in ("shard-0.db", "shard-1.db")]
    assert sorted(counts) == [[(0,)], [(26,)]], counts


def seen_later(folder: Path) -> None:
    """What comes through one seat, whose connection stays open, is shown through another one."""
    server, base = base_room(folder, "--threads", "2")
    made = message(A, [base.join_c], base.of_a)
    first, second = server.connect(), server.connect()
    assert asked(first, *sending("a.example", "t1", [made]))[0] == 200
    status, told = asked(second, *getting("b.example", "v1/event/" + quoted(id_of(made))))
    assert status == 200 and json.loads(told)["pdus"] == [made], told
    first.close()
    second.close()
    server.stop()


def messages_of_seat(events: list[Event], txn: str) -> list[Event]:
    """The 25 messages that one client sends to a room with this beginning."""
    return [message(A, events[1:], events, "%s %d" % (txn, number), room=events[0]["room_id"]) for number in range(25)]


def check_sendings(rows: list[tuple[Any, ...]], txns: set[str]) -> None:
    """Of a room's rows those of each of these transactions are its 25 messages, in the order sent, with one seat's number."""
    assert len(rows) == 52, len(rows)
    sent = [(caller, *json.loads(event)["content"]["body"].split()) for caller, event in rows[2:]]
    assert {txn for _, txn, _ in sent} == txns, sent
    for txn in txns:
        of_one = [(caller, int(number)) for caller, whose, number in sent if whose == txn]
        assert [number for _, number in of_one] == list(range(25)), of_one
        assert len({caller for caller, _ in of_one}) == 1 and 1 <= of_one[0][0] <= 64, of_one


def four_clients(folder: Path) -> None:
    """Four clients at the same time, two for each of two rooms in two shards, send 25 messages each. Each room keeps its
    beginning and 50 messages: 25 of each of its clients, in the order sent, each transaction through one seat."""
    rooms = []
    for name in ("!r:a.example", "!s:a.example"):
        made = create(room=name)
        rooms.append([made, join(A, [made], [made], room=name)])
    together = threading.Barrier(4)
    faults = []

    def client(server: Server, events: list[Event], txn: str) -> None:
        """Connects, waits for the other clients, and sends the messages."""
        try:
            connection = server.connect()
            sent = messages_of_seat(events, txn)
            assert asked(connection, "GET", "/x") == UNKNOWN_PATH
            together.wait(SECONDS)
            wanted = 200, canonical({"pdus": {id_of(event): ACCEPTED for event in sent}})
            assert asked(connection, *sending("a.example", txn, sent)) == wanted
            together.wait(SECONDS)
            connection.close()
        except Exception as fault:  # noqa: BLE001
            faults.append(fault)

    with serving(folder / "seats", "--threads", "4", "--shards", "2", hosts=[host_line(made) for made, _ in rooms]) as server:
        for number, events in enumerate(rooms):
            assert server.ask(*sending("a.example", "base%d" % number, events[1:]))[0] == 200
        run_together(client, [(server, events, "%d%s" % (number, half)) for number, events in enumerate(rooms) for half in "ab"])
    assert not faults, faults
    statement = "SELECT caller, event FROM kept2 ORDER BY place"
    for number in (0, 1):
        check_sendings(rows_of(folder / "seats", statement, "shard-%d.db" % number), {f"{number}a", f"{number}b"})


def bodies_over_the_limit(folder: Path) -> None:
    """A body of 8 MiB is read, and one of a byte more is answered by 413, on any path."""
    server, _ = base_room(folder)
    spaces = b" " * LARGEST_BODY
    put = "PUT", FEDERATION + "v1/send/t1", header("a.example")
    assert server.ask(*put, spaces + b" ") == TOO_LARGE
    assert server.ask("PUT", "/x", None, spaces + b" ") == TOO_LARGE
    assert server.ask(*put, spaces) == NOT_JSON
    assert server.ask("GET", "/x") == UNKNOWN_PATH
    server.stop()


def bodies_that_are_no_json(folder: Path) -> None:
    """A body with a byte that is no UTF-8 is no JSON, nor one that is nested 128 deep; one that is nested 127 deep is read."""
    server, _ = base_room(folder)
    put = "PUT", FEDERATION + "v1/send/t1", header("a.example")
    for body in (b"\xff", b'{"pdus":[],"x":"\xff"}', b"[" * 128 + b"]" * 128, b"[" * 100_000 + b"]" * 100_000):
        assert server.ask(*put, body) == NOT_JSON, body[:100]
    assert server.ask(*put, b"[" * 127 + b"]" * 127) == (400, b'{"errcode":"M_BAD_JSON","error":"body has a wrong form"}')
    assert server.ask(*put, b'{"pdus":' + b"[" * 127 + b"]" * 127 + b"}") == NOT_JSON
    assert server.ask(*put, b'{"pdus":' + b"[" * 126 + b"]" * 126 + b"}") == (200, b'{"pdus":{}}')
    server.stop()


def bad_clients(folder: Path) -> None:
    """Malformed heads, and clients that stop in the middle of a request: the next client is answered, and no call was made."""
    server, base = base_room(folder)
    for head in (b"\r\nGET\r\n\r\n", b"GET / HTTP/9.9\r\n\r\n", b"\x00\xff\r\n\r\n", b"GET / HTTP/1.1\r\nA b: c\r\n\r\n"):
        with server.socket() as client:
            client.sendall(head)
            told = client.recv(65536)
            assert not told or told.startswith(b"HTTP/1.1 4"), told
    body = canonical({"pdus": [message(A, [base.join_c], base.of_a)]})
    head = "PUT %sv1/send/t1 HTTP/1.1\r\nHost: x\r\nAuthorization: %s\r\nContent-Length: %d\r\n\r\n"
    whole = (head % (FEDERATION, header("a.example"), len(body))).encode() + body
    for length in (0, 1, 20, len(whole) - len(body), len(whole) - 1):
        with server.socket() as client:
            client.sendall(whole[:length])
    status, told = server.ask(*sending("a.example", "t1", []))
    assert (status, told) == (200, b'{"pdus":{}}'), told
    server.stop()


def connections_past_the_limit(folder: Path) -> None:
    """Of 200 connections at once at least 16 are answered, and the others are closed unanswered. No connection came before,
    since one that its server has not closed yet counts as open."""
    server = Server(folder / "limit", "--connections", "16")
    clients = [server.socket() for _ in range(200)]
    for client in clients:
        with contextlib.suppress(OSError):
            client.sendall(b"GET /x HTTP/1.1\r\nHost: x\r\nConnection: close\r\n\r\n")
    answered = closed = 0
    for client in clients:
        told = b""
        with contextlib.suppress(ConnectionError):
            while part := client.recv(65536):
                told += part
        assert not told or told.startswith(b"HTTP/1.1 404") and told.endswith(UNKNOWN_PATH[1]), told
        answered, closed = (answered + 1, closed) if told else (answered, closed + 1)
        client.close()
    assert answered >= 16 and answered + closed == 200, (answered, closed)
    assert server.ask("GET", "/x") == UNKNOWN_PATH
    server.stop()


def many_requests(folder: Path) -> None:
    """10,000 requests over 64 connections: each is answered, and the server keeps no memory of them."""
    server, base = base_room(folder, "--threads", "64", "--connections", "64", "--shards", "4")
    query = getting("b.example", "v1/event/" + quoted(id_of(base.create)))
    faults = []

    def client(count: int) -> None:
        """Asks so many times on one connection."""
        try:
            connection = server.connect()
            for _ in range(count):
                status, told = asked(connection, *query)
                assert status == 200 and json.loads(told)["pdus"] == [base.create]
            connection.close()
        except Exception as fault:  # noqa: BLE001
            faults.append(fault)

    def run(count: int) -> None:
        """Has 64 clients ask so many times each."""
        threads = [threading.Thread(target=client, args=(count,)) for _ in range(64)]
        for thread in threads:
            thread.start()
        for thread in threads:
            thread.join()

    run(10)
    before = memory_of(server.process)
    run(157)
    after = memory_of(server.process)
    server.stop()
    assert not faults, faults[0]
    assert after - before < 16_384, (before, after)


def walk_of_the_readme(folder: Path) -> None:
    """What README shows a new user: the same answers before and after a stop."""
    example = TOP / "examples/serve"
    rooms = example.joinpath("rooms.jsonl").read_bytes().splitlines()
    for _ in range(2):
        with serving(folder / "walk", hosts=rooms) as server:
            ran = subprocess.run(["sh", "walk.sh", str(server.port)], cwd=example, capture_output=True, timeout=SECONDS)
            assert ran.stdout == example.joinpath("walk.answers").read_bytes(), ran


def refused_tries(folder: Path) -> None:
    """Where nothing can be kept, a transaction that is sent again and again is refused each time, and nothing is left of
    it: neither of what was begun nor of what was given up."""
    base = Base(Log())
    # A write over the limit fails, where its signal is ignored, as it is here.
    server = Server(folder / "refused", hosts=[host_line(base.create)], restore_signals=False)
    events = [base.join_a, base.levels, base.rules, base.join_b, base.join_c]
    assert server.ask(*sending("a.example", "base", events))[0] == 200
    told = threading.Thread(target=server.process.stderr.read)
    told.start()
    resource.prlimit(server.process.pid, resource.RLIMIT_FSIZE, (0, -1))
    request = sending("a.example", "t", [message(A, [base.join_c], base.of_a, "hello")])
    storage = 503, b'{"errcode":"M_UNKNOWN","error":"storage"}'
    connection = server.connect()
    for _ in range(1_000):
        assert asked(connection, *request) == storage
    before = memory_of(server.process)
    for _ in range(TRIES):
        assert asked(connection, *request) == storage
    grown = memory_of(server.process) - before
    connection.close()
    server.process.terminate()
    told.join(SECONDS)
    server.stop()
    assert grown < 16_384, grown


def unheard(folder: Path) -> None:
    """Nobody takes what it says on standard error: it listens and answers all the same. Where nobody takes the line on
    standard output, it ends."""
    words = [str(it) for it in (program(), "serve", "--name", NAME, "--data", folder / "unheard", "--port", "0")]
    with open("/dev/full", "wb") as full:
        server = subprocess.Popen(words, stdin=subprocess.DEVNULL, stdout=subprocess.PIPE, stderr=full)
        assert server.stdout.readline().startswith(b"listening 127.0.0.1:")
        server.terminate()
        server.wait(SECONDS)
        server.stdout.close()
        ran = subprocess.run(words, stdout=full, stderr=subprocess.PIPE, timeout=SECONDS)
        assert is_refused((ran.returncode, ran.stderr), b"failed read or write", b"standard output"), ran


def transactions_in_two_rooms(folder: Path) -> None:
    """One transaction with events of two rooms in two shards, after which both rooms have them; d.example's join, too."""
    first, second = Base(Log()), create(room="!s:a.example")
    with serving(folder / "rooms", "--shards", "2", "--threads", "2", hosts=[host_line(first.create), host_line(second)]) as server:
        joins = [join(A, [first.create], [first.create]), join(A, [second], [second], room="!s:a.example")]
        told = server.ask(*sending("a.example", "t1", joins))
        assert json.loads(told[1]) == {"pdus": {id_of(it): ACCEPTED for it in joins}}, told
        for made in joins:
            shown = server.ask(*getting("a.example", "v1/event/" + quoted(id_of(made))))
            assert json.loads(shown[1])["pdus"] == [made], shown
        lost = message(A, [joins[1]], [first.create, joins[0]])
        told = server.ask(*sending("a.example", "t2", [lost]))
        assert json.loads(told[1]) == {"pdus": {id_of(lost): error("missing events")}}, told


TESTS = [
    every_route, two_connections, one_reply_to_a_transaction, seen_later, four_clients, bodies_over_the_limit,
    bodies_that_are_no_json, bad_clients, connections_past_the_limit, many_requests, walk_of_the_readme, refused_tries, unheard,
    transactions_in_two_rooms,
]

if __name__ == "__main__":
    sys.exit(run_tests(TESTS, "a running server"))
