"""The keys of servers, as they publish them (Server-Server API, Retrieving server keys), and this server's own."""
import asyncio
import os
import re
import time
from collections import OrderedDict
from pathlib import Path
from typing import Awaitable, Callable

from signedjson.key import decode_verify_key_bytes, generate_signing_key, read_signing_keys, write_signing_keys
from signedjson.sign import SignatureVerifyException, sign_json, verify_signed_json
from signedjson.types import SigningKey, VerifyKey
from unpaddedbase64 import decode_base64, encode_base64

from kept import MOST_SERVERS, Kept
from texts import Json, say

KEY_ID = re.compile(r"ed25519:[\w.+/=-]{1,100}", re.ASCII)
DAY = 86_400_000
MOST_KEYS = 32
MOST_ASKED_AT_ONCE = 256
# How many seconds pass before a server is asked again that failed, or told of no such key.
PAUSE = 30


class NoKey(Exception):
    """Why there is no key."""


def now() -> int:
    return int(time.time() * 1000)


def own_keys(path: Path) -> list[SigningKey]:
    """The signing keys of a file in Synapse's form, which is made with a new key where there is none."""
    if not path.exists():
        with open(os.open(path, os.O_WRONLY | os.O_CREAT | os.O_EXCL, 0o600), "w") as file:
            write_signing_keys(file, [generate_signing_key("a_" + os.urandom(3).hex())])
    with open(path) as file:
        return list(read_signing_keys(file))


def named(key: SigningKey) -> str:
    return "%s:%s" % (key.alg, key.version)


def publish(server: str, signing: list[SigningKey]) -> Json:
    """What this server tells of its keys."""
    told: Json = {"server_name": server, "valid_until_ts": now() + DAY, "old_verify_keys": {}}
    told["verify_keys"] = {named(it): {"key": encode_base64(it.verify_key.encode())} for it in signing}
    for key in signing:
        told = sign_json(told, server, key)
    return told


class Published:
    """The keys of a server, each with the last moment at which it is valid."""

    def __init__(self, server: str, reply: Json, asked: float) -> None:
        """ValueError where the reply is not the server's, or none of its keys signed it."""
        if reply.get("server_name") != server:
            raise ValueError("its keys are those of %r" % (reply.get("server_name"),))
        until = min(reply["valid_until_ts"], int(asked * 1000) + 7 * DAY)
        self.current = {key: (made, until) for key, made, _ in _decoded(reply["verify_keys"])
                        if _has_signed(reply, server, made)}
        self.old = {key: (made, int(it["expired_ts"])) for key, made, it in _decoded(reply.get("old_verify_keys", {}))}
        if not self.current:
            raise ValueError("none of its keys signed what it tells of them")

    def find(self, key_id: str, at: int, for_events: bool) -> VerifyKey | None:
        key, until = self.current.get(key_id) or (for_events and self.old.get(key_id)) or (None, 0)
        return key if at <= until else None


def _decoded(listed: Json) -> list[tuple[str, VerifyKey, Json]]:
    return [(key_id, decode_verify_key_bytes(key_id, decode_base64(it["key"])), it)
            for key_id, it in list(listed.items())[:MOST_KEYS] if KEY_ID.fullmatch(key_id)]


def _has_signed(reply: Json, server: str, key: VerifyKey) -> bool:
    try:
        verify_signed_json(reply, server, key)
        return True
    except SignatureVerifyException:
        return False


class Keys:
    """Where keys are looked for: those that are pinned, then those that are kept, then the server itself."""

    def __init__(self, kept: Kept, pinned: dict[str, Json], fetch: Callable[[str], Awaitable[Json]]) -> None:
        self.kept, self.fetch = kept, fetch
        self.pinned = {server: {key_id: decode_verify_key_bytes(key_id, decode_base64(it)) for key_id, it in keys.items()}
                       for server, keys in pinned.items()}
        self.known: OrderedDict[str, Published] = OrderedDict()
        self.tried: OrderedDict[str, float] = OrderedDict()
        self.asking: dict[str, asyncio.Task[None]] = {}

    async def find(self, server: str, key_id: str, at: int, for_events: bool) -> VerifyKey:
        """The key of a server that is valid at this moment; NoKey where there is none."""
        if server in self.pinned:
            key = self.pinned[server].get(key_id)
        else:
            key = self._looked_up(server, key_id, at, for_events)
            if key is None:
                await self._ask_once(server)
                key = self._looked_up(server, key_id, at, for_events)
        if key is None:
            raise NoKey("%s has no key %s that is valid at %d" % (server, key_id, at))
        return key

    def _looked_up(self, server: str, key_id: str, at: int, for_events: bool) -> VerifyKey | None:
        if server not in self.known and (row := self.kept.published(server)):
            remember(self.known, server, Published(server, *row))
        return self.known[server].find(key_id, at, for_events) if server in self.known else None

    async def _ask_once(self, server: str) -> None:
        """Asks the server, once for all who want its keys, unless it was asked a moment ago."""
        task = self.asking.get(server)
        if task is None:
            if time.monotonic() - self.tried.get(server, -PAUSE) < PAUSE:
                return
            if len(self.asking) >= MOST_ASKED_AT_ONCE:
                raise NoKey("too many servers are asked for their keys")
            remember(self.tried, server, time.monotonic())
            task = self.asking[server] = asyncio.create_task(self._ask(server))
            task.add_done_callback(lambda _: self.asking.pop(server))
        await asyncio.shield(task)

    async def _ask(self, server: str) -> None:
        try:
            reply = await self.fetch(server)
            remember(self.known, server, Published(server, reply, time.time()))
            self.kept.keep_published(server, reply)
        except Exception as fault:  # whatever a stranger's reply leads to
            say("keys of %s: %s %s" % (server, type(fault).__name__, fault))


def remember(table: OrderedDict, server: str, value: object) -> None:  # type: ignore[type-arg]
    """Puts a value into a table of servers, out of which the oldest goes where there are too many."""
    table.pop(server, None)
    table[server] = value
    if len(table) > MOST_SERVERS:
        table.popitem(last=False)
