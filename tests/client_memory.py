#!/usr/bin/env python3
"""What `mx_federd serve` holds for clients that read nothing of their replies, or send half a body: no more than `--memory`,
while others are answered, and it is given back."""

import contextlib
import socket
import sys
import threading
import time
from collections.abc import Iterator
from dataclasses import dataclass
from pathlib import Path

from suite import run_tests
from event_logs import FEDERATION, Base, header, state_path
from matrix_events import A, Event, event, id_of, message
from running_server import LARGEST_BODY, NOT_JSON, SECONDS, UNKNOWN_PATH, Server, base_room, getting, memory_of, sending

# The usual `--memory`, in bytes.
TOTAL = 512_000_000
# How much more a server may hold than what is counted, in bytes: a reply that each of four threads makes, and what is buffered
# of connections.
BESIDE = 250_000_000
# How much of the memory the system gives back late, in bytes.
KEPT = 80_000_000
# A state of 36 MB: so many events, each with a text of so many bytes.
EVENTS, LENGTH = 600, 59_500
# How long a client may wait whose server has room for it, on a busy machine.
SOON = 5
CLOSED = b"memory: connections closed to make room: "


@dataclass
class LargeRoom:
    """A server of four threads whose room has a long state: the query for it, its reply, and what the server held then."""

    server: Server
    base: Base
    query: bytes
    reply: bytes
    before: int

    def ask(self) -> socket.socket:
        """A client that asks for the state, and reads nothing yet."""
        client = self.server.socket()
        client.sendall(self.query)
        return client

    def held(self, name: str = "VmRSS") -> int:
        """How many bytes it holds beyond what it held before."""
        return memory_of(self.server.process, name) * 1024 - self.before

    def stop(self) -> list[bytes]:
        """Ends the server, and tells the lines of its standard error."""
        self.server.process.terminate()
        _, lines = self.server.process.communicate(timeout=SECONDS)
        return lines.splitlines()


def long_state(base: Base) -> list[Event]:
    """Events of A's, each a part of the state."""
    made = []
    last = base.join_c
    for number in range(EVENTS):
        last = event("m.test", A, [last], base.of_a, {"text": "%05d" % number + "x" * LENGTH}, str(number))
        made.append(last)
    return made


@contextlib.contextmanager
def started(folder: Path) -> Iterator[tuple[Server, Base]]:
    """A server of four threads that hosts a room, and ends with its test."""
    server, base = base_room(folder, "--threads", "4", "--connections", "256")
    try:
        yield server, base
    finally:
        server.process.kill()
        server.process.wait(SECONDS)


def large_room(server: Server, base: Base) -> LargeRoom:
    """The room of a server, whose state has 36 MB now, once that was read."""
    events = long_state(base)
    last = message(A, [events[-1]], base.of_a)
    events.append(last)
    for start in range(0, len(events), 50):
        part = events[start:start + 50]
        status, told = server.ask(*sending("a.example", f"state-{start}", part))
        assert status == 200 and b"error" not in told, told[:1000]
    method, target, who = getting("a.example", state_path("state", last))
    query = f"{method} {target} HTTP/1.1\r\nHost: x\r\nAuthorization: {who}\r\n\r\n".encode()
    status, reply = server.ask(method, target, who)
    assert status == 200 and all(id_of(made).encode() or made["content"]["text"].encode() in reply for made in events[:-1])
    assert len(reply) > EVENTS * LENGTH, len(reply)
    return LargeRoom(server, base, query, reply, memory_of(server.process) * 1024)


def read_reply(client: socket.socket, piece: int = 1 << 20, pause: float = 0) -> bytes:
    """The body of the reply that a client is told, read in pieces with so many seconds between them, as far as it comes."""
    told = bytearray()
    length = None
    with contextlib.suppress(ConnectionError):
        while length is None or len(told) < length:
            part = client.recv(piece)
            if not part:
                break
            told += part
            if length is None and b"\r\n\r\n" in told:
                head, _, _ = bytes(told).partition(b"\r\n\r\n")
                length = len(head) + 4 + int(head.lower().partition(b"content-length: ")[2].split()[0])
            time.sleep(pause)
    return bytes(told).partition(b"\r\n\r\n")[2]


def is_given_back(room: LargeRoom) -> bool:
    """Whether what was held is given back soon."""
    end = time.monotonic() + SOON
    while room.held() > KEPT:
        if time.monotonic() > end:
            return False
        time.sleep(0.1)
    return True


def small_query_time(room: LargeRoom) -> float:
    """How many seconds a new client waits for one event."""
    start = time.monotonic()
    status, _ = room.server.ask(*getting("b.example", "v1/event/" + id_of(room.base.join_b)))
    assert status == 200, status
    return time.monotonic() - start


def unread_replies(folder: Path) -> None:
    """40 clients ask for a state of 36 MB and read nothing: the server holds no more than its total, and a small query of
    another client is answered at once. One that reads gets its long reply; who runs the server is told that connections
    were closed, and once the clients are gone their memory is given back."""
    with started(folder) as (server, base):
        room = large_room(server, base)
        clients = [room.ask() for _ in range(40)]
        times = []
        for _ in range(20):
            times.append(small_query_time(room))
            assert room.server.ask("GET", "/x") == UNKNOWN_PATH
            time.sleep(0.4)
        with room.ask() as reader:
            assert read_reply(reader) == room.reply
        highest = room.held("VmHWM")
        for client in clients:
            client.close()
        assert is_given_back(room), room.held()
        with room.ask() as reader:
            assert read_reply(reader) == room.reply
        lines = room.stop()
        print(f"40 unread replies of {len(room.reply) / 1e6:.0f} MB: {highest / 1e6:.0f} MB at most; a small query {max(times):.2f} s at most")
        assert highest < TOTAL + BESIDE, highest
        assert max(times) < SOON, times
        counts = [int(line.removeprefix(CLOSED)) for line in lines if line.startswith(CLOSED)]
        assert counts and len(counts) <= 20 and sum(counts) <= 40, lines


def longest_unread_first(folder: Path) -> None:
    """As many clients as there is room for read nothing; the reply of one more takes the place of the one that has been
    unread longest, and of no other."""
    with started(folder) as (server, base):
        room = large_room(server, base)
        fitting = TOTAL // len(room.reply)
        clients = []
        for _ in range(fitting):
            clients.append(room.ask())
            clients[-1].recv(1, socket.MSG_PEEK)
            time.sleep(0.1)
        time.sleep(1.5)
        clients.append(room.ask())
        clients[-1].recv(1, socket.MSG_PEEK)
        told = [read_reply(client) for client in clients]
        assert len(told[0]) < len(room.reply)
        assert [reply == room.reply for reply in told[1:]] == [True] * fitting, [len(reply) for reply in told]
        for client in clients:
            client.close()
        room.stop()


def who_reads_on_stays(folder: Path) -> None:
    """A client that reads a long reply by and by, for four seconds, gets all of it beside 40 that read nothing and came after
    it."""
    with started(folder) as (server, base):
        room = large_room(server, base)
        slow = room.ask()
        slow.recv(1, socket.MSG_PEEK)
        told: list[bytes] = []
        reading = threading.Thread(target=lambda: told.append(read_reply(slow, len(room.reply) // 80, 0.05)))
        reading.start()
        clients = [room.ask() for _ in range(40)]
        reading.join(SECONDS)
        assert told == [room.reply], [len(reply) for reply in told]
        for client in [slow, *clients]:
            client.close()
        room.stop()


def send_half(server: Server, clients: list[socket.socket]) -> None:
    """A client that sends a body of 8 MiB but for its last byte."""
    client = server.socket()
    clients.append(client)
    head = f"PUT {FEDERATION}v1/send/half HTTP/1.1\r\nHost: x\r\nAuthorization: {header('a.example')}\r\nContent-Length: {LARGEST_BODY}\r\n\r\n"
    with contextlib.suppress(OSError):
        client.sendall(head.encode() + b" " * (LARGEST_BODY - 1))


def half_bodies(folder: Path) -> None:
    """128 clients send bodies of 8 MiB but for the last byte, and 128 more once they are gone: the server holds no more than
    its total, a small query is answered at once, and a whole body of 8 MiB is taken in. Each time their memory is given
    back."""
    with started(folder) as (server, base):
        room = LargeRoom(server, base, b"", b"", memory_of(server.process) * 1024)
        times = []
        for number in range(2):
            clients: list[socket.socket] = []
            halves = [threading.Thread(target=send_half, args=(server, clients)) for _ in range(128)]
            for thread in halves:
                thread.start()
            for _ in range(20):
                times.append(small_query_time(room))
                time.sleep(0.2)
            target = f"{FEDERATION}v1/send/whole-{number}"
            assert server.ask("PUT", target, header("a.example"), b" " * LARGEST_BODY) == NOT_JSON
            for client in clients:
                client.close()
            for thread in halves:
                thread.join(SECONDS)
            assert is_given_back(room), room.held()
        highest = room.held("VmHWM")
        print(f"128 half bodies: {highest / 1e6:.0f} MB at most; a small query {max(times):.2f} s at most")
        assert highest < TOTAL + BESIDE, highest
        assert max(times) < SOON, times
        room.stop()


TESTS = [unread_replies, longest_unread_first, who_reads_on_stays, half_bodies]

if __name__ == "__main__":
    sys.exit(run_tests(TESTS, "client memory"))
