#!/usr/bin/env python3
"""A shard of `mx_federd serve` that is busy without end: requests for other shards, and those that go to none, are answered
as if it were not, and requests that wait for it are forgotten once their clients are gone."""

import contextlib
import sys
import threading
import time
from collections.abc import Callable, Iterator
from pathlib import Path

from suite import run_tests
from event_logs import Base, Log, quoted
from matrix_events import A, Event, canonical, create, event, id_of, join, message
from running_server import UNKNOWN_PATH, Reply, Request, Server, asked, getting, host_line, memory_of, sending, serving

# A server whose name an access control list takes long to compare.
SLOW_SERVER = "a" * 200
SENDERS = 8
SHARDS = ("--shards", "8", "--connections", "64")
# How many seconds later a request may be answered than by a server that nobody else asks, on the same machine.
APART = 0.01
# A room in another shard than that of the other tests: a room's shard is the sum of its id's bytes, modulo their number.
OTHER_ROOM = "!s:a.example"
X: Request = ("GET", "/x", None)


def slow_list(base: Base) -> Event:
    """An access control list of 500 patterns, each of which is tried on the name of a server that sends an event: some half a
    millisecond for SLOW_SERVER, where the machine has nothing else to do."""
    content = {"allow": ["*"], "deny": ["*a*a*a*a*b%d" % number for number in range(500)]}
    return event("m.room.server_acl", A, [base.join_c], base.of_a, content, "")


@contextlib.contextmanager
def two_rooms(data: Path, threads: int = 4) -> Iterator[tuple[Server, Base, Event]]:
    """A server of so many threads with the room of the rows, whose list is a slow one, and another room in another shard with
    its last event."""
    base, other = Base(Log()), create(OTHER_ROOM)
    joined = join(A, [other], [other], room=OTHER_ROOM)
    hosts = [host_line(base.create), host_line(other)]
    with serving(data, "--threads", str(threads), *SHARDS, hosts=hosts) as server:
        events = [base.join_a, base.levels, base.rules, base.join_b, base.join_c]
        for txn, sent in (("base", events), ("list", [slow_list(base)]), ("other", [joined])):
            status, told = server.ask(*sending("a.example", txn, sent))
            assert status == 200 and b"error" not in told, told
        yield server, base, joined


@contextlib.contextmanager
def busy_room(server: Server, base: Base, queries: dict[Request, int] | None = None) -> Iterator[None]:
    """Eight clients, each of which sends transactions of 50 events to the room of the rows, one behind the other, and one for
    each of these queries, which are answered with these statuses."""
    ended = threading.Event()
    faults: list[Reply] = []

    def ask_on(request_of: Callable[[int], Request], wanted: int) -> None:
        """Asks one request after another."""
        connection = server.connect()
        turn = 0
        while not ended.is_set():
            reply = asked(connection, *request_of(turn))
            turn += 1
            if reply[0] != wanted:
                faults.append(reply)
        connection.close()

    def sender(number: int) -> Callable[[int], Request]:
        return lambda turn: sending(SLOW_SERVER, f"{number}-{turn}", [base.join_b] * 50)

    clients = [(sender(number), 200) for number in range(SENDERS)]
    clients += [(lambda turn, query=query: query, status) for query, status in (queries or {}).items()]
    threads = [threading.Thread(target=ask_on, args=client) for client in clients]
    for thread in threads:
        thread.start()
    time.sleep(1)
    try:
        yield
    finally:
        ended.set()
        for thread in threads:
            thread.join()
    assert not faults, faults[0]


def seconds_of(server: Server, request: Request, status: int) -> list[float]:
    """How long each of 200 requests takes, or of as many as are answered within half a minute. Each connection has ten of them,
    since the next one may be with another thread."""
    found: list[float] = []
    end = time.monotonic() + 30
    while len(found) < 200 and time.monotonic() < end:
        connection = server.connect()
        for _ in range(10):
            start = time.monotonic()
            reply = asked(connection, *request)
            found.append(time.monotonic() - start)
            assert reply[0] == status, reply
            time.sleep(0.002)
        connection.close()
    return sorted(found)


def late(seconds: list[float]) -> float:
    """The time within which all were answered but the slowest twentieth, which is the machine's."""
    return seconds[len(seconds) * 19 // 20]


def beside_a_busy_room(folder: Path) -> None:
    """Beside eight senders into one room, a path without a route and a room of another shard are answered within ten
    milliseconds: no later than that behind a server on the same machine which nobody else asks."""
    with two_rooms(folder / "busy") as (server, base, last), two_rooms(folder / "idle") as (idle, _, _):
        state_ids = getting("a.example", "v1/state_ids/%s?event_id=%s" % (quoted(OTHER_ROOM), quoted(id_of(last))))
        with busy_room(server, base):
            for what, request, status in (("a path without a route", X, UNKNOWN_PATH[0]), ("another shard's room", state_ids, 200)):
                busy, alone = late(seconds_of(server, request, status)), late(seconds_of(idle, request, status))
                print(f"{what}: {busy * 1000:.1f} ms, and {alone * 1000:.1f} where nobody else asks")
                assert busy < alone + APART, (what, busy, alone)


def one_thread_beside_a_busy_room(folder: Path) -> None:
    """With one thread too: beside senders into one room, a query for it and one for an event of no room, a room of another
    shard is answered as soon."""
    with two_rooms(folder / "busy", 1) as (server, base, last), two_rooms(folder / "idle", 1) as (idle, _, _):
        room, event_id = quoted(base.create["room_id"]), quoted(id_of(base.join_c))
        queries = {
            getting("a.example", f"v1/state_ids/{room}?event_id={event_id}"): 200,
            getting("a.example", "v1/event/" + quoted("$" + "x" * 43)): 404,
        }
        state_ids = getting("a.example", "v1/state_ids/%s?event_id=%s" % (quoted(OTHER_ROOM), quoted(id_of(last))))
        with busy_room(server, base, queries):
            busy, alone = late(seconds_of(server, state_ids, 200)), late(seconds_of(idle, state_ids, 200))
            print(f"another shard's room: {busy * 1000:.1f} ms, and {alone * 1000:.1f} where nobody else asks")
            assert busy < alone + APART, (busy, alone)


def large_transaction(base: Base) -> list[Event]:
    """Fifty events of 60,000 bytes each."""
    return [message(A, [base.join_c], base.of_a, f"{number}" + "x" * 60_000) for number in range(50)]


def leave_transactions(server: Server, body: bytes, numbers: range) -> int:
    """Clients that send this transaction and go away while it waits. How many kilobytes the server holds at least in the five
    seconds afterwards."""
    for number in numbers:
        method, target, authorization, _ = sending(SLOW_SERVER, f"left-{number}", [])
        head = f"{method} {target} HTTP/1.1\r\nHost: x\r\nAuthorization: {authorization}\r\nContent-Length: {len(body)}\r\n\r\n"
        with server.socket() as client:
            client.sendall(head.encode() + body)
            time.sleep(0.02)
    held = []
    for _ in range(10):
        time.sleep(0.5)
        held.append(memory_of(server.process))
    return min(held)


def clients_that_leave(folder: Path) -> None:
    """While a room is busy, clients send a transaction of 3 MB to it one after the other, and go away while it waits: sixty
    of them leave no more behind than twenty, which is what the allocator keeps."""
    with two_rooms(folder / "left") as (server, base, _), busy_room(server, base):
        body = canonical({"pdus": large_transaction(base)})
        before = leave_transactions(server, body, range(20))
        after = leave_transactions(server, body, range(20, 80))
        print(f"sixty transactions of 3 MB whose clients have left: {(after - before) / 1024:.0f} MB more than twenty")
        assert after - before < 90_000, (before, after)


TESTS = [beside_a_busy_room, one_thread_beside_a_busy_room, clients_that_leave]

if __name__ == "__main__":
    sys.exit(run_tests(TESTS, "slow shards"))
