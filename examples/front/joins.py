"""Joins that the server behind accepted, passed on to the other servers in the room."""
import asyncio
import json
import sqlite3
import time
from typing import Any

from discovery import FAILURES, Network
from hub import FEDERATION, quoted
from kept import Kept
from texts import is_server_name, say, server_of

AT_ONCE = 16
SECONDS = 60
LARGEST_REPLY = 65_536
MOST_TRIES = 40
LONGEST_PAUSE = 3_600


class Joins:
    def __init__(self, network: Network, kept: Kept) -> None:
        self.network, self.kept = network, kept
        self.places = asyncio.Semaphore(AT_ONCE)
        self.tasks: set[asyncio.Task[None]] = set()
        for event_id, server in kept.joins():
            self._start(event_id, server)

    def pass_on(self, event_id: str, reply: bytes) -> None:
        """Of the reply to a send_join: its event to all servers that its state has a joined user of."""
        told = json.loads(reply)
        for server in sorted(servers_in(told["state"]) - {self.network.name, server_of(told["event"]["sender"])}):
            try:
                if self.kept.keep_join(event_id, server, told["event"]):
                    self._start(event_id, server)
                    continue
                fault = "waits already, or too many wait"
            except sqlite3.Error as cause:
                fault = str(cause)
            say("join %s to %s: not passed on: %s" % (event_id, server, fault))

    def _start(self, event_id: str, server: str) -> None:
        task = asyncio.create_task(self._deliver(event_id, server))
        self.tasks.add(task)
        task.add_done_callback(self.tasks.discard)

    async def _deliver(self, event_id: str, server: str) -> None:
        for attempt in range(MOST_TRIES):
            try:
                async with self.places:
                    return await self._send(event_id, server)
            except FAILURES as fault:
                say("join %s to %s: try %d: %s %s" % (event_id, server, attempt + 1, type(fault).__name__, fault))
            await asyncio.sleep(min(2 ** attempt, LONGEST_PAUSE))
        say("join %s to %s: given up" % (event_id, server))
        self.kept.drop_join(event_id, server)

    async def _send(self, event_id: str, server: str) -> None:
        event = self.kept.join(event_id)
        content = {"origin": self.network.name, "origin_server_ts": int(time.time() * 1000), "pdus": [event]}
        async with self.network.open(server) as peer:
            peer.allow(LARGEST_REPLY, SECONDS)
            told = await peer.ask("PUT", FEDERATION + "v1/send/" + quoted(event_id.strip("$")), content)
        self.kept.drop_join(event_id, server)
        if told.get("pdus") != {event_id: {}}:
            say("join %s to %s: answered %r" % (event_id, server, told))


def servers_in(state: list[Any]) -> set[str]:
    joined = [it["state_key"] for it in state
              if it["type"] == "m.room.member" and it["content"].get("membership") == "join"]
    return {it.partition(":")[2] for it in joined if is_server_name(it.partition(":")[2])}
