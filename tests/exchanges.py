"""Exchanges with a server that is ended in between: what is sent, and what a server over what was left has to answer."""

import contextlib
import http.client
import json
import shutil
import sqlite3
import tempfile
from collections.abc import Sequence
from pathlib import Path
from types import SimpleNamespace
from typing import Any

from event_logs import Base, Log, quoted
from make_first import transactions
from matrix_events import A, ACCEPTED, B, Event, canonical, create, event, id_of, join, message
from running_server import Reply, Request, Server, getting, host_line, sending, serving

STORAGE = 503, b'{"errcode":"M_UNKNOWN","error":"storage"}'


class Exchange:
    """The events of the rows' room in a transaction, and then one of two messages, t1."""

    # Options of its server.
    words: Sequence[object] = ()

    def __init__(self) -> None:
        base = self.base = Base(Log())
        self.hosts = [host_line(base.create)]
        first = message(B, [base.join_c], base.of_b, "first")
        self.said = [first, message(B, [first], base.of_b, "second")]
        events = [base.join_a, base.levels, base.rules, base.join_b, base.join_c]
        self.first, self.second = sending("a.example", "base", events), sending("b.example", "t1", self.said)
        self.events = {"base": events, "t1": self.said}
        self.sent = {"base": self.first, "t1": self.second}

    def reply_to(self, txn: str) -> Reply:
        """The reply to a transaction of events that are all accepted."""
        return 200, canonical({"pdus": {id_of(made): ACCEPTED for made in self.events[txn]}})

    def ask(self, server: Server) -> dict[str, Reply]:
        """The replies of a server, until it is gone."""
        replies: dict[str, Reply] = {}
        with contextlib.suppress(OSError, http.client.HTTPException):
            for txn, request in self.sent.items():
                replies[txn] = server.ask(*request)
        return replies

    def check_again(self, data: Path, replies: dict[str, Reply]) -> None:
        """A server over what was left: each start works, each answered reply comes again, with no event sent, and what was
        not answered is answered as if it were sent once, whatever of it was kept."""
        with serving(data, *self.words, hosts=self.hosts) as server:
            for txn, reply in replies.items():
                assert reply in (self.reply_to(txn), STORAGE), (txn, reply)
                if reply != STORAGE:
                    assert server.ask(*self.empty(txn)) == reply, txn
            for txn, request in self.sent.items():
                assert server.ask(*request) == self.reply_to(txn), txn
                assert server.ask(*self.empty(txn)) == self.reply_to(txn), txn
            for made in self.said:
                shown = server.ask(*getting("b.example", "v1/event/" + quoted(id_of(made))))
                assert json.loads(shown[1])["pdus"] == [made], shown
        for name, kept in self.kept().items():
            rows = [row for row, in rows_in_copy(data, name, "SELECT event FROM kept2 ORDER BY place")]
            assert rows == [canonical(made).decode() for made in kept], rows

    def kept(self) -> dict[str, list[Event]]:
        """What each shard's file has in the end."""
        return {"shard-0.db": [self.base.create, *self.events["base"], *self.events["t1"]]}

    def empty(self, txn: str) -> Request:
        """The request of a transaction with its events left out."""
        return sending("a.example" if txn == "base" else "b.example", txn, [])


class ExchangeOfTwoRooms(Exchange):
    """The same, where t1 has its second message in another room, in a shard of its own."""

    words = ("--shards", 2)

    def __init__(self) -> None:
        super().__init__()
        room = "!s:a.example"
        self.other = create(room=room)
        joined = join(A, [self.other], [self.other], room=room)
        public = event("m.room.join_rules", A, [joined], [self.other, joined], {"join_rule": "public"}, "", room=room)
        self.others = [joined, public, join(B, [public], [self.other, public], room=room)]
        self.hosts.append(host_line(self.other))
        self.said[1] = message(B, self.others[2:], [self.other, self.others[2]], "second", room=room)
        self.events = {"base": [*self.events["base"], *self.others], "t1": self.said}
        self.first, self.second = sending("a.example", "base", self.events["base"]), sending("b.example", "t1", self.said)
        self.sent = {"base": self.first, "t1": self.second}

    def kept(self) -> dict[str, list[Event]]:
        """What each shard's file has in the end."""
        base = self.events["base"][:-len(self.others)]
        return {
            "shard-0.db": [self.base.create, *base, self.said[0]], "shard-1.db": [self.other, *self.others, self.said[1]],
        }


class LongExchange(Exchange):
    """The same behind so much that a running server copies its log into its file, in the middle of `more`."""

    def __init__(self) -> None:
        super().__init__()
        long = [message(A, [self.base.join_c], self.base.of_a, "x" * 60_000 + str(number)) for number in range(60)]
        self.events = {"base": self.events["base"], "long": long[:48], "more": long[48:], "t1": self.said}
        before = {txn: sending("a.example", txn, self.events[txn]) for txn in ("base", "long", "more")}
        self.sent = {**before, "t1": self.second}

    def kept(self) -> dict[str, list[Event]]:
        """What the shard's file has in the end."""
        return {"shard-0.db": [self.base.create, *(made for events in self.events.values() for made in events)]}

    def empty(self, txn: str) -> Request:
        """The request of a transaction with its events left out."""
        return sending("b.example" if txn == "t1" else "a.example", txn, [])


class OldExchange(Exchange):
    """What the first layout's example was answered, and what a server over it answers."""

    def __init__(self) -> None:
        create, self.events = transactions()
        self.base, self.hosts, self.said = SimpleNamespace(create=create), [], self.events["t1"]
        self.sent = {txn: sending("a.example", txn, made) for txn, made in self.events.items()}

    def empty(self, txn: str) -> Request:
        """The request of a transaction with its events left out."""
        return sending("a.example", txn, [])


def rows_in_copy(data: Path, file: str, statement: str) -> list[tuple[Any, ...]]:
    """Rows of a file as it stands, which a running server has locked: of a copy."""
    with tempfile.TemporaryDirectory() as folder:
        for name in (file, file + "-wal"):
            if (data / name).exists():
                shutil.copy(data / name, folder)
        with contextlib.closing(sqlite3.connect(Path(folder) / file)) as connection:
            return connection.execute(statement).fetchall()
