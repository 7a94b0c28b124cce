"""`mx_federd serve` on loopback, over files of its own, for tests that ask it over sockets."""

import contextlib
import http.client
import json
import socket
import sqlite3
import subprocess
import threading
from collections.abc import Iterator, Sequence
from pathlib import Path
from typing import Any

from event_logs import FEDERATION, NAME, Base, Log, header
from matrix_events import Event, canonical
from suite import program

LARGEST_BODY = 8_388_608
# How long a step may take before its test fails: as long as a busy machine may want.
SECONDS = 300
JSON = "application/json"
REPLIES = "SELECT place, origin, txn, reply FROM replies ORDER BY place"
NOT_JSON = (400, b'{"errcode":"M_NOT_JSON","error":"body is not JSON"}')
TOO_LARGE = (413, b'{"errcode":"M_TOO_LARGE","error":"body over 8 MiB"}')
UNKNOWN_PATH = (404, b'{"errcode":"M_UNRECOGNIZED","error":"unknown path"}')
# A status and a body.
Reply = tuple[int, bytes]
# A method and a target, and, where there are, the Authorization header and a body.
Request = tuple[str, str, str] | tuple[str, str, str, bytes]


class Refused(Exception):
    """The program ended in place of serving: its status, and what it said on standard error."""


class Server:
    """A running server over a directory."""

    def __init__(self, data: Path, *words: object, hosts: Sequence[bytes] = (), port: int = 0, **how: Any) -> None:
        rooms = Path(data).with_suffix(".rooms")
        rooms.write_bytes(b"".join(line + b"\n" for line in hosts))
        command = [program(), "serve", "--name", NAME, "--data", data, "--port", port, "--host", rooms, *words]
        how = {"stdout": subprocess.PIPE, "stderr": subprocess.PIPE, **how}
        self.process = subprocess.Popen([str(word) for word in command], stdin=subprocess.DEVNULL, **how)
        told = self.process.stdout.readline()
        if not told:
            status = self.process.wait(SECONDS)
            raise Refused(status, self.process.stderr.read() if self.process.stderr else b"")
        assert told.startswith(b"listening 127.0.0.1:"), told
        self.port = int(told.rpartition(b":")[2])

    def said(self, beginning: bytes) -> bytes:
        """What it says on standard error up to a line that begins so: a thread of its own writes it within a moment."""
        killer = threading.Timer(SECONDS, self.process.kill)
        killer.start()
        lines = [self.process.stderr.readline()]
        while lines[-1] and not lines[-1].startswith(beginning):
            lines.append(self.process.stderr.readline())
        killer.cancel()
        assert lines[-1], lines
        return b"".join(lines)

    def stop(self) -> None:
        """Ends the server, and waits for its end."""
        self.process.terminate()
        self.process.wait(SECONDS)
        for stream in (self.process.stdout, self.process.stderr):
            if stream:
                stream.close()

    def connect(self) -> http.client.HTTPConnection:
        """A connection for requests."""
        return http.client.HTTPConnection("127.0.0.1", self.port, timeout=SECONDS)

    def socket(self) -> socket.socket:
        """A connection for bytes."""
        return socket.create_connection(("127.0.0.1", self.port), timeout=SECONDS)

    def ask(self, *request: Any) -> Reply:
        """The reply to one request, on a connection of its own."""
        connection = self.connect()
        try:
            return asked(connection, *request)
        finally:
            connection.close()


@contextlib.contextmanager
def serving(data: Path, *words: object, hosts: Sequence[bytes] = ()) -> Iterator[Server]:
    """A server that is stopped at the end."""
    server = Server(data, *words, hosts=hosts)
    try:
        yield server
    finally:
        server.stop()


def refusal(data: Path, *words: object, hosts: Sequence[bytes] = ()) -> tuple[int, bytes] | None:
    """What a start that has to be refused says."""
    try:
        with serving(data, *words, hosts=hosts):
            return None
    except Refused as refused:
        return refused.args


def is_refused(told: tuple[int, bytes] | None, first: bytes, about: bytes) -> bool:
    """Whether a start was refused with this line, and a second one that begins with what it is about."""
    if told is None:
        return False
    status, lines = told
    line, _, cause = lines.partition(b"\n")
    return status == 1 and line == first and cause.startswith(about) and cause.count(b"\n") == 1


def asked(connection: http.client.HTTPConnection, method: str, target: str, authorization: str | None = None,
          body: bytes | None = None) -> Reply:
    """The status and the body of the reply to a request, whose body has to be JSON."""
    headers = {} if authorization is None else {"Authorization": authorization}
    connection.request(method, target, body, headers)
    reply = connection.getresponse()
    told = reply.read()
    assert reply.getheader("Content-Type") == JSON, reply.getheaders()
    assert canonical(json.loads(told)) == told, told
    return reply.status, told


def sending(origin: str, txn: str, events: Sequence[Event]) -> Request:
    """The request that sends a transaction."""
    return "PUT", FEDERATION + "v1/send/" + txn, header(origin), canonical({"pdus": events})


def getting(origin: str, path: str) -> Request:
    """The request of a query."""
    return "GET", FEDERATION + path, header(origin)


def free_port() -> int:
    """A port that nobody listens at."""
    with socket.create_server(("127.0.0.1", 0)) as listener:
        return listener.getsockname()[1]


def base_room(folder: Path, *words: object, **how: Any) -> tuple[Server, Base]:
    """A server over new files that hosts the room of the rows, and the events of that room."""
    base = Base(Log())
    server = Server(folder / "base", *words, hosts=[host_line(base.create)], **how)
    events = [base.join_a, base.levels, base.rules, base.join_b, base.join_c]
    status, _ = server.ask(*sending("a.example", "base", events))
    assert status == 200
    return server, base


def host_line(event: Event) -> bytes:
    """The line that hosts a room."""
    return canonical({"step": "host", "event": event})


def rows_of(data: Path, statement: str, name: str = "shard-0.db") -> list[tuple[Any, ...]]:
    """What a statement finds in a file of a server that is stopped; it may change it."""
    with contextlib.closing(sqlite3.connect(data / name)) as connection:
        found = connection.execute(statement).fetchall()
        connection.commit()
        return found


def memory_of(process: "subprocess.Popen[bytes]", name: str = "VmRSS") -> int:
    """How many kilobytes a process holds."""
    status = Path("/proc/%d/status" % process.pid).read_text()
    return int(status.partition(name + ":")[2].split()[0])
