"""Logs for `mx_federd replay` with their answers (docs/LOG.md), the requests that stand in them, and the room that most tests
begin with."""

import urllib.parse
from collections.abc import Iterable, Sequence
from pathlib import Path

from matrix_events import (
    A, ACCEPTED, B, C, ROOM, Event, Json, Reply, canonical, create, id_of, join, levels, rules,
)

NAME = "hub.example"
FEDERATION = "/_matrix/federation/"
# A status and the body that goes with it.
Answer = tuple[int, Json]


class Log:
    """A log with its answers."""

    def __init__(self) -> None:
        self.lines: list[bytes] = []
        self.answers: list[bytes] = []
        self.end = b"\n"

    def line(self, line: Json, answer: Json) -> None:
        """A line, given as bytes or as a value, and its answer."""
        self.lines.append(line if isinstance(line, bytes) else canonical(line))
        self.answers.append(canonical(answer))

    def host(self, event: Event, answer: Json = None) -> None:
        """A line that hosts a room."""
        self.line({"step": "host", "event": event}, answer or {"hosted": id_of(event)})

    def open(self, origin: str, txn: str, events: Sequence[Event], answer: Json) -> None:
        """The line that opens a transaction."""
        self.line({"step": "open", "origin": origin, "txn": txn, "pdus": events}, answer)

    def next(self, origin: str, txn: str, answer: Json) -> None:
        """The line that takes the next event of a transaction."""
        self.line({"step": "next", "origin": origin, "txn": txn}, answer)

    def close(self, origin: str, txn: str, answer: Json) -> None:
        """The line that closes a transaction."""
        self.line({"step": "close", "origin": origin, "txn": txn}, answer)

    def transaction(self, origin: str, txn: str, *told: tuple[Event, Reply]) -> Json:
        """A whole transaction of events with their replies. Of an id that is sent twice the last reply stands."""
        self.open(origin, txn, [event for event, _ in told], {"open": len(told)})
        for event, reply in told:
            self.next(origin, txn, {"id": id_of(event), "reply": reply})
        body = {"pdus": {id_of(event): reply for event, reply in told}}
        self.close(origin, txn, {"closed": body})
        return body

    def text(self) -> bytes:
        """The log as `replay` reads it."""
        return b"\n".join(self.lines) + self.end

    def write(self, folder: Path, name: str) -> None:
        """Writes the log and its answers to files of this name."""
        (folder / (name + ".jsonl")).write_bytes(self.text())
        (folder / (name + ".answers.jsonl")).write_bytes(b"\n".join(self.answers) + b"\n")


class Base:
    """A creates a room and joins it, gives B and C level 50 and lets everybody join, and they join."""

    def __init__(self, log: Log) -> None:
        self.create = create()
        self.join_a = join(A, [self.create], [self.create])
        users = {A: 100, B: 50, C: 50}
        self.levels = levels(A, [self.join_a], [self.create, self.join_a], users)
        self.rules = rules([self.levels], [self.create, self.join_a, self.levels], "public")
        auth = [self.create, self.levels, self.rules]
        self.join_b = join(B, [self.rules], auth)
        self.join_c = join(C, [self.join_b], auth)
        self.of_a = [self.create, self.join_a, self.levels]
        self.of_b = [self.create, self.levels, self.join_b]
        self.of_c = [self.create, self.levels, self.join_c]
        events = [self.join_a, self.levels, self.rules, self.join_b, self.join_c]
        log.host(self.create)
        log.transaction("a.example", "base", *((event, ACCEPTED) for event in events))


def quoted(text: str) -> str:
    """A text as a part of a path or a parameter."""
    return urllib.parse.quote(text, safe="")


def header(origin: str) -> str:
    """The Authorization header of a request of this server."""
    return 'X-Matrix origin="%s",destination="%s",key="ed25519:auto",sig="x"' % (origin, NAME)


def call(log: Log, method: str, target: str, answer: Answer, *, origin: str | None = None, now: int = 1000, body: Json = None,
         **more: Json) -> None:
    """A request, and its status and body."""
    line = {"step": "call", "method": method, "target": target, "now": now, **more}
    if origin is not None:
        line["authorization"] = header(origin)
    if body is not None:
        line["body"] = body if isinstance(body, str) else canonical(body).decode()
    status, told = answer
    log.line(line, {"body": told, "status": status})


def get(log: Log, path: str, answer: Answer, origin: str, **more: Json) -> None:
    """A query."""
    call(log, "GET", FEDERATION + path, answer, origin=origin, **more)


def send(log: Log, origin: str, txn: str, events: Sequence[Event], answer: Answer, **body: Json) -> None:
    """A request that sends a transaction."""
    call(log, "PUT", FEDERATION + "v1/send/" + txn, answer, origin=origin, body={"pdus": events, **body})


def told(*replies: tuple[Event, Reply]) -> Answer:
    """The reply of a transaction, by its events and what is told of each."""
    return 200, {"pdus": {id_of(made): reply for made, reply in replies}}


def sent(log: Log, origin: str, txn: str, *replies: tuple[Event, Reply]) -> Answer:
    """A request that sends a transaction, by its events and what is told of each."""
    answer = told(*replies)
    send(log, origin, txn, [made for made, _ in replies], answer)
    return answer


def given(*events: Event, now: int = 1000) -> Answer:
    """Events that this server sends."""
    return 200, {"origin": NAME, "origin_server_ts": now, "pdus": list(events)}


def by_id(*events: Event) -> list[Event]:
    """The events in the order of their ids."""
    return sorted(events, key=id_of)


def ids(events: Iterable[Event]) -> list[str]:
    """The ids of events."""
    return [id_of(made) for made in events]


def state_path(kind: str, made: Event) -> str:
    """The path that asks for the state before an event."""
    return "v1/%s/%s?event_id=%s" % (kind, quoted(ROOM), quoted(id_of(made)))
