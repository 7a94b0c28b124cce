#!/usr/bin/env python3
"""Clients that mean harm, or are broken, against `mx_federd serve` on loopback: they are answered or closed, others are
answered meanwhile, and what they made it hold is given back."""

import contextlib
import errno
import http.client
import random
import resource
import socket
import subprocess
import sys
import threading
import time
from collections.abc import Iterator
from pathlib import Path

from suite import program, run_tests
from event_logs import FEDERATION, NAME, Base, header, state_path
from matrix_events import A, canonical, event, id_of
from running_server import LARGEST_BODY, SECONDS, TOO_LARGE, UNKNOWN_PATH, Refused, Server, asked, base_room, memory_of, sending, serving

GET_X = b"GET /x HTTP/1.1\r\nHost: x\r\n\r\n"
# How long a client may wait whose server has nothing else to do, on a busy machine.
SOON = 5


def head_of(method: str, target: str, *lines: str) -> bytes:
    """The head of a request with these lines."""
    return "\r\n".join([f"{method} {target} HTTP/1.1", "Host: x", *lines, "", ""]).encode()


def sent_head(body_length: int, txn: str = "t1") -> bytes:
    """The head of a transaction whose body has so many bytes."""
    return head_of("PUT", FEDERATION + "v1/send/" + txn, "Authorization: " + header("a.example"), f"Content-Length: {body_length}")


def told_to(client: socket.socket) -> bytes:
    """All that a client is told until its connection is closed."""
    told = b""
    with contextlib.suppress(ConnectionError):
        while part := client.recv(65536):
            told += part
    return told


@contextlib.contextmanager
def closing_allowed() -> Iterator[None]:
    """For what is sent to a server that may have closed the connection: the client is told that it is reset, or, where it
    says that nothing more comes, that it is connected no longer."""
    try:
        yield
    except ConnectionError:
        pass
    except OSError as fault:
        if fault.errno != errno.ENOTCONN:
            raise


def is_answered_soon(server: Server) -> bool:
    """Whether a new client gets its answer soon."""
    start = time.monotonic()
    return server.ask("GET", "/x") == UNKNOWN_PATH and time.monotonic() - start < SOON


def state_query(base: Base, origin: str) -> bytes:
    """A query for the state before C's join."""
    return head_of("GET", FEDERATION + state_path("state", base.join_c), "Authorization: " + header(origin))


def send_without_reading(client: socket.socket, query: bytes) -> None:
    """Asks again and again, until nothing more is taken of it, or it is closed."""
    client.setblocking(False)
    with contextlib.suppress(OSError):
        while True:
            client.send(query * 100)


def waiting_connections(folder: Path) -> None:
    """One thread and 256 places: 150 idle clients, 50 whose bodies are half sent, and 50 that send without end and never
    read. A new client is answered at once."""
    server, base = base_room(folder, "--threads", "1", "--connections", "256")
    kept = [server.socket() for _ in range(250)]
    for client in kept[150:200]:
        client.sendall(sent_head(1000) + b"{")
    for client in kept[200:]:
        send_without_reading(client, state_query(base, "a.example"))
    assert all(is_answered_soon(server) for _ in range(20))
    for client in kept:
        client.close()
    server.stop()


def queries_without_end(folder: Path) -> None:
    """One thread, and 25 clients that send queries without end and read no reply, each query some two milliseconds of work:
    an access control list tries 2,000 patterns on a name of 200 bytes. A new client is answered soon."""
    server, base = base_room(folder, "--threads", "1", "--connections", "64")
    content = {"allow": ["*"], "deny": ["*a*a*a*a*b%d" % number for number in range(2000)]}
    listed = event("m.room.server_acl", A, [base.join_c], base.of_a, content, "")
    assert server.ask(*sending("a.example", "list", [listed]))[0] == 200
    kept = [server.socket() for _ in range(25)]
    for client in kept:
        send_without_reading(client, state_query(base, "a" * 200))
    assert all(is_answered_soon(server) for _ in range(5))
    for client in kept:
        client.close()
    server.stop()


def a_place_for_a_new_client(folder: Path) -> None:
    """Where all places are taken, a new client gets one at once: that of the client which has been idle longest. The server
    counts in milliseconds; of those that are idle since the same one, the first to come gives way."""
    with serving(folder / "places", "--connections", "4") as server:
        kept = [server.connect() for _ in range(4)]
        for connection in kept:
            assert asked(connection, "GET", "/x") == UNKNOWN_PATH
        assert is_answered_soon(server)
        for connection in kept[1:]:
            assert asked(connection, "GET", "/x") == UNKNOWN_PATH
        for connection in kept:
            connection.close()


def a_place_among_slow_clients(folder: Path) -> None:
    """Where three clients that send their bodies a byte at a time have all places but one, and one that reads no reply the
    last, a new client gets a place at once: that of the one which has been waited for longest."""
    server, base = base_room(folder, "--connections", "4")
    # Until it has seen that the connection of the request before is closed.
    time.sleep(1)
    slow = [server.socket() for _ in range(4)]
    for client in slow[:3]:
        client.sendall(sent_head(1000) + b"{")
        time.sleep(0.1)
    send_without_reading(slow[3], state_query(base, "a.example"))
    for _ in range(4):
        time.sleep(0.2)
        for client in slow[:3]:
            client.sendall(b" ")
    kept = [server.connect()]
    assert asked(kept[0], "GET", "/x") == UNKNOWN_PATH
    assert told_to(slow[0]) == b""
    # One that is idle gives way before one that is slow, once its worker has seen that nothing more comes.
    time.sleep(0.5)
    assert is_answered_soon(server)
    with contextlib.suppress(OSError, http.client.HTTPException):
        assert asked(kept[0], "GET", "/x") != UNKNOWN_PATH
    for client in slow[1:3]:
        client.sendall(b" ")
    kept[0].close()
    for client in slow:
        client.close()
    server.stop()


@contextlib.contextmanager
def asking(server: Server, count: int, seconds: float) -> Iterator[None]:
    """So many clients, each of which asks GET /x every so many seconds, and connects again where it is closed."""
    ended = threading.Event()

    def ask_on(number: int) -> None:
        ended.wait(seconds * number / count)
        while not ended.is_set():
            with contextlib.suppress(OSError), server.socket() as client:
                client.settimeout(SOON)
                while not ended.is_set():
                    client.sendall(GET_X)
                    if not client.recv(65536):
                        break
                    ended.wait(seconds)

    threads = [threading.Thread(target=ask_on, args=(number,)) for number in range(count)]
    for thread in threads:
        thread.start()
    time.sleep(2 * seconds)
    try:
        yield
    finally:
        ended.set()
        for thread in threads:
            thread.join(SECONDS)


def clients_that_ask_on(folder: Path) -> None:
    """As many clients as there are places, 16 and 256, ask every so often: a new client is answered within a second."""
    for count, seconds, options in ((16, 0.5, ()), (256, 4, ("--connections", "256"))):
        with serving(folder / f"asking-{count}", *options) as server, asking(server, count, seconds):
            times = []
            for _ in range(20):
                start = time.monotonic()
                assert server.ask("GET", "/x") == UNKNOWN_PATH
                times.append(time.monotonic() - start)
                time.sleep(0.1)
        assert max(times) < 1, times


def no_more_than_its_places(folder: Path) -> None:
    """Four places, and twelve clients, the first of whose requests come to their ends while the others connect: never are
    more than four of them answered once all have their places or are closed."""
    with serving(folder / "exact", "--connections", "4", "--threads", "4") as server:
        for _ in range(100):
            first = [server.socket() for _ in range(4)]
            for client in first:
                client.sendall(GET_X[:5])
            clients = list(first)
            for client in first:
                for _ in range(2):
                    clients.append(server.socket())
                with closing_allowed():
                    client.sendall(GET_X[5:])
            time.sleep(0.05)
            answered = sum(asks_again(client) for client in clients)
            assert answered <= 4, answered
            for client in clients:
                client.close()


def asks_again(client: socket.socket) -> bool:
    """Whether a connection is still answered, and stays open behind it."""
    client.settimeout(SOON)
    with contextlib.suppress(ConnectionError):
        client.sendall(GET_X + GET_X)
        told = b""
        while told.count(UNKNOWN_PATH[1]) < 2:
            part = client.recv(65536)
            if not part:
                return False
            told += part
        return True
    return False


def new_connections_when_full(folder: Path) -> None:
    """All places are taken, and more than a thousand connections come in a second: all are taken in or turned away, and the
    client that comes next is answered. They come no faster than that, since a client whose connection finds the system's
    queue full tries again after a second."""
    with serving(folder / "full") as server:
        kept = [server.socket() for _ in range(16)]
        start = time.monotonic()
        for _ in range(3000):
            server.socket().close()
            time.sleep(0.0005)
        assert is_answered_soon(server)
        spent = time.monotonic() - start
        print(f"3000 new connections where all places are taken: {spent:.1f} s")
        assert spent < 10, spent
        for client in kept:
            client.close()


def one_connection_after_another(folder: Path) -> None:
    """10,000 connections, each for one request, where three places are: each is answered, and no memory is kept."""
    with serving(folder / "many", "--connections", "3") as server:
        for number in range(10_000):
            if number == 1000:
                before = memory_of(server.process)
            assert server.ask("GET", "/x") == UNKNOWN_PATH
        after = memory_of(server.process)
        assert after - before < 8192, (before, after)


def bytes_one_at_a_time(folder: Path) -> None:
    """A request that comes a byte at a time is answered."""
    server, base = base_room(folder)
    body = canonical({"pdus": [base.join_c]})
    with server.socket() as client:
        client.setsockopt(socket.IPPROTO_TCP, socket.TCP_NODELAY, 1)
        for byte in sent_head(len(body)) + body:
            client.sendall(bytes([byte]))
        told = client.recv(65536)
    assert told.startswith(b"HTTP/1.1 200") and told.endswith(canonical({"pdus": {id_of(base.join_c): {}}})), told
    server.stop()


def hundred_at_once(folder: Path) -> None:
    """100 requests on one connection, before the first is answered: 100 replies."""
    with serving(folder / "pipelined") as server, server.socket() as client:
        client.sendall(GET_X * 99 + head_of("GET", "/x", "Connection: close"))
        told = told_to(client)
    assert told.count(b"HTTP/1.1 404") == 100 and told.count(UNKNOWN_PATH[1]) == 100, told[:1000]


def two_at_once(folder: Path) -> None:
    """Two requests that come together, a hundred times: neither reply waits until the other is acknowledged, which takes a
    client's system some 40 milliseconds."""
    with serving(folder / "together") as server, server.socket() as client:
        times = []
        for _ in range(100):
            start = time.monotonic()
            client.sendall(GET_X * 2)
            told = b""
            while told.count(UNKNOWN_PATH[1]) < 2:
                told += client.recv(65536)
            times.append(time.monotonic() - start)
    assert sorted(times)[50] < 0.03, sorted(times)[50]


def long_heads(folder: Path) -> None:
    """Heads of a mebibyte are refused and their connections closed."""
    with serving(folder / "heads") as server:
        for head in (b"GET /" + b"x" * 2**20 + b" HTTP/1.1\r\n\r\n", b"GET /x HTTP/1.1\r\nA: " + b"x" * 2**20 + b"\r\n\r\n",
                     b"GET /x HTTP/1.1\r\n" + b"A: x\r\n" * 2**17 + b"\r\n"):
            with server.socket() as client:
                with closing_allowed():
                    client.sendall(head)
                told = told_to(client)
                assert not told or told.split()[1] in (b"400", b"414", b"431"), told
            assert is_answered_soon(server)


def framing(folder: Path) -> None:
    """What HTTP says of codings, chunks, methods and targets."""
    server, _ = base_room(folder)
    send = FEDERATION + "v1/send/t9"
    who = "Authorization: " + header("a.example")
    for request, status, fields in (
        (head_of("PUT", send, who, "Transfer-Encoding: gzip, chunked") + b"0\r\n\r\n", b"501", b""),
        (head_of("PUT", send, who, "Transfer-Encoding: chunked") + b"zz\r\n", b"400", b""),
        (head_of("PUT", send, who, "Transfer-Encoding: chunked") + b"2\r\n{}\r\n0\r\n\r\n", b"400", b"M_BAD_JSON"),
        (head_of("POST", send, who, "Content-Length: 0"), b"405", b"\r\nallow: PUT\r\n"),
        (head_of("PUT", FEDERATION + "v1/event/$x"), b"405", b"\r\nallow: GET\r\n"),
        (head_of("GET", FEDERATION + "v1/get_missing_events/!r:x"), b"405", b"\r\nallow: POST\r\n"),
        (head_of("PATCH", "/x"), b"404", UNKNOWN_PATH[1]),
        (head_of("PUT", "http://x" + FEDERATION + "v1/event/$x"), b"405", b"\r\nallow: GET\r\n"),
        (b"GET /x HTTP/1.1\r\nHost: a b\r\n\r\n", b"400", b"M_UNRECOGNIZED"),
        (b"GET /x HTTP/1.1\r\nHost: a/b\r\n\r\n", b"400", b"M_UNRECOGNIZED"),
        (b"GET /x HTTP/1.1\r\nHost: [::1]:8008\r\n\r\n", b"404", UNKNOWN_PATH[1]),
        (b"GET /x HTTP/1.1\r\nHost: a\r\nHost: a\r\n\r\n", b"400", b""),
        (b"GET /x HTTP/1.1\r\n\r\n", b"400", b""),
        (head_of("OPTIONS", "*"), b"404", UNKNOWN_PATH[1]),
    ):
        with server.socket() as client:
            client.sendall(request)
            client.shutdown(socket.SHUT_WR)
            told = told_to(client)
        assert told.split()[1] == status and fields in told, (request, told)
    server.stop()


def lengths_past_the_limit(folder: Path) -> None:
    """A body that is announced as too long is refused before it comes: no 100 goes, and the connection is closed behind the
    reply. A client that sends all of it all the same reads the reply."""
    server, _ = base_room(folder)
    for length in (2**62, LARGEST_BODY + 1):
        with server.socket() as client:
            start = time.monotonic()
            client.sendall(head_of("PUT", "/x", f"Content-Length: {length}", "Expect: 100-continue"))
            told = told_to(client)
            assert time.monotonic() - start < SOON
        assert told.startswith(b"HTTP/1.1 413") and told.endswith(TOO_LARGE[1]), told
    assert server.ask("PUT", "/x", None, b" " * (2 * LARGEST_BODY)) == TOO_LARGE
    server.stop()


def mutated_requests(folder: Path) -> None:
    """65,000 requests that were whole before some of their bytes were changed, left out or sent twice: each connection is
    answered or closed, and the server goes on. One seed, so that each run has the same ones."""
    server, base = base_room(folder, "--threads", "2", "--connections", "256")
    body = canonical({"pdus": [base.join_c]})
    whole = [
        sent_head(len(body), "m1") + body,
        head_of("GET", state_path("state_ids", base.join_b), "Authorization: " + header("b.example")),
        head_of("PUT", FEDERATION + "v1/send/m2", "Authorization: " + header("a.example"), "Transfer-Encoding: chunked")
        + b"%x\r\n%b\r\n0\r\n\r\n" % (len(body), body),
    ]
    chance = random.Random(36)

    def mutated() -> bytes:
        """One of the requests, with one to three changes."""
        data = bytearray(chance.choice(whole))
        for _ in range(chance.randrange(1, 4)):
            at = chance.randrange(len(data))
            kind = chance.randrange(3)
            if kind == 0:
                data[at] = chance.randrange(256)
            elif kind == 1:
                del data[at:at + chance.randrange(1, 20)]
            else:
                data[at:at] = data[at:at + chance.randrange(1, 20)]
        return bytes(data)

    for _ in range(650):
        with server.socket() as client:
            client.settimeout(SECONDS)
            with closing_allowed():
                for _ in range(100):
                    client.sendall(mutated())
                client.shutdown(socket.SHUT_WR)
            told = told_to(client)
            assert not told or told.startswith(b"HTTP/1.1 "), told[:100]
    assert is_answered_soon(server)
    server.stop()


def large_bodies(folder: Path) -> None:
    """64 bodies of 8 MiB at once, made to take much memory: within 1.5 GB each is answered, and the memory is given back."""
    server, _ = base_room(folder, "--threads", "4", "--connections", "64", "--memory", "600")
    before = memory_of(server.process)
    objects = b'{"pdus":[' + b'{"":0},' * ((LARGEST_BODY - 20) // 7) + b"{}]}"
    content = b'{"pdus":[{"content":[' + b'{"":0},' * ((LARGEST_BODY - 40) // 7) + b"{}]}]}"
    keys = b'{"pdus":{' + b",".join(b'"%x":0' % number for number in range(720_000)) + b"}}"
    zeros = b'{"pdus":[' + b"0," * (LARGEST_BODY // 2 - 10) + b"0]}"
    # The first is no transaction, for the number of its events; the events of the second are malformed.
    bodies = [(objects, 400), (content, 200), (keys, 400), (zeros, 400)]
    faults = []

    def client(number: int) -> None:
        """Sends one of the bodies."""
        body, wanted = bodies[number % len(bodies)]
        try:
            status, told = server.ask("PUT", FEDERATION + "v1/send/b%d" % number, header("a.example"), body)
            assert status == wanted, (number, status, told)
        except Exception as fault:  # noqa: BLE001
            faults.append(fault)

    threads = [threading.Thread(target=client, args=(number,)) for number in range(64)]
    for thread in threads:
        thread.start()
    for thread in threads:
        thread.join(SECONDS)
    highest, after = memory_of(server.process, "VmHWM"), memory_of(server.process)
    assert not faults, faults[0]
    assert is_answered_soon(server)
    print(f"64 bodies of 8 MiB: {highest / 1024:.0f} MB at most, {after / 1024:.0f} MB afterwards, {before / 1024:.0f} before")
    assert highest < 1_572_864, highest
    server.stop()


def refused_threads(folder: Path) -> None:
    """Where a thread can't be started the program says so, and does not listen."""
    words = [str(word) for word in (program(), "serve", "--name", NAME, "--data", folder / "threads", "--port", "0", "--threads", "64")]

    def few() -> None:
        """Leaves the program 400 MiB of addresses."""
        resource.setrlimit(resource.RLIMIT_AS, (400 << 20, 400 << 20))

    ran = subprocess.run(words, capture_output=True, timeout=SECONDS, preexec_fn=few)
    assert (ran.returncode, ran.stdout) == (1, b"") and ran.stderr.splitlines()[0] in (b"thread", b"memory"), ran


def few_descriptors(folder: Path) -> None:
    """With any count of descriptors it either does not listen, or answers, or lets a client wait for a descriptor; it
    closes none unanswered."""
    told = []
    for count in range(4, 32):

        def few(count: int = count) -> None:
            """Leaves the program so many descriptors."""
            resource.setrlimit(resource.RLIMIT_NOFILE, (count, count))

        try:
            server = Server(folder / f"few-{count}", "--threads", "1", preexec_fn=few)
        except Refused as refused:
            status, lines = refused.args
            assert status == 1 and lines, (count, refused)
            told.append("refused")
            continue
        with server.socket() as client:
            client.settimeout(SOON)
            client.sendall(GET_X)
            try:
                assert client.recv(65536).startswith(b"HTTP/1.1 404"), count
                told.append("answered")
            except TimeoutError:
                told.append("waiting")
        server.stop()
    assert told[0] == "refused" and told[-1] == "answered", told


def no_descriptors(folder: Path) -> None:
    """Out of descriptors it waits, with no processor taken, and goes on once some are free."""
    with serving(folder / "descriptors", "--connections", "256") as server:
        pid = server.process.pid
        resource.prlimit(pid, resource.RLIMIT_NOFILE, (64, 64))
        clients = [server.socket() for _ in range(120)]
        ticks = sum(int(it) for it in open(f"/proc/{pid}/stat").read().rpartition(")")[2].split()[11:13])
        time.sleep(2)
        spent = sum(int(it) for it in open(f"/proc/{pid}/stat").read().rpartition(")")[2].split()[11:13]) - ticks
        assert spent < 50, spent
        for client in clients:
            client.close()
        assert server.ask("GET", "/x") == UNKNOWN_PATH


TESTS = [
    waiting_connections, queries_without_end, a_place_for_a_new_client, a_place_among_slow_clients,
    clients_that_ask_on, no_more_than_its_places, new_connections_when_full, one_connection_after_another,
    bytes_one_at_a_time, hundred_at_once, two_at_once, long_heads, framing, lengths_past_the_limit, mutated_requests,
    large_bodies, refused_threads, few_descriptors, no_descriptors,
]

if __name__ == "__main__":
    sys.exit(run_tests(TESTS, "hostile clients"))
