"""The file of what the front keeps: the keys that servers published, and the joins that are still to be passed on."""
import json
import sqlite3
import time
from pathlib import Path
from typing import Optional

from texts import Json

MOST_SERVERS = 10_000
MOST_JOINS = 10_000


class Kept:
    def __init__(self, path: Path) -> None:
        self.rows = sqlite3.connect(path, isolation_level=None)
        self.rows.execute("CREATE TABLE IF NOT EXISTS keys (server TEXT PRIMARY KEY, reply TEXT, asked REAL)")
        self.rows.execute("CREATE TABLE IF NOT EXISTS joins (id TEXT, server TEXT, event TEXT, PRIMARY KEY (id, server))")

    def published(self, server: str) -> Optional[tuple[Json, float]]:
        """What a server last told of its keys, and when, in seconds since 1970."""
        row = self.rows.execute("SELECT reply, asked FROM keys WHERE server = ?", (server,)).fetchone()
        return None if row is None else (json.loads(row[0]), row[1])

    def keep_published(self, server: str, reply: Json) -> None:
        self.rows.execute("INSERT OR REPLACE INTO keys VALUES (?, ?, ?)", (server, json.dumps(reply), time.time()))
        if self.rows.execute("SELECT count(*) FROM keys").fetchone()[0] > MOST_SERVERS:
            self.rows.execute("DELETE FROM keys WHERE server = (SELECT server FROM keys ORDER BY asked LIMIT 1)")

    def joins(self) -> list[tuple[str, str]]:
        """The joins that are to be passed on: the event's ID, and the server that lacks it."""
        return list(self.rows.execute("SELECT id, server FROM joins"))

    def join(self, event_id: str) -> Json:
        event: Json = json.loads(self.rows.execute("SELECT event FROM joins WHERE id = ?", (event_id,)).fetchone()[0])
        return event

    def keep_join(self, event_id: str, server: str, event: Json) -> bool:
        """False where it is there already, or there are too many."""
        if self.rows.execute("SELECT count(*) FROM joins").fetchone()[0] >= MOST_JOINS:
            return False
        row = event_id, server, json.dumps(event)
        return self.rows.execute("INSERT OR IGNORE INTO joins VALUES (?, ?, ?)", row).rowcount == 1

    def drop_join(self, event_id: str, server: str) -> None:
        self.rows.execute("DELETE FROM joins WHERE id = ? AND server = ?", (event_id, server))
