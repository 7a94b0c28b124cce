"""Requests of other servers: each is checked, and answered by this program or by the server behind; what is refused is
said."""
import asyncio
import re
from collections import Counter
from contextlib import AbstractAsyncContextManager, contextmanager, nullcontext, suppress
from dataclasses import dataclass, field
from typing import Any, Iterator, Optional

from aiohttp import web
from canonicaljson import encode_canonical_json
from signedjson.types import SigningKey

from gaps import Gaps
from hub import FEDERATION, Hub, HubFault
from joins import Joins
from keys import Keys, publish
from signatures import NotSigned, check_event, claims_of, event_id, known_claim, verify_request
from texts import Json, read_json, say

LARGEST_BODY = 8 * 1024 * 1024
SMALL_BODY = 65_536
LARGE_AT_ONCE = 2
# How much of one origin may be under way: its requests with events, its missing events, and its other requests.
OF_ONE_ORIGIN = {"PUT": 8, "missing events": 8}
OTHERS_OF_ONE_ORIGIN = 256
SECONDS_OF_A_BODY = 30
MOST_EVENTS = 50
SEND = re.compile(FEDERATION + r"v1/send/[^/?]+(?:\?.*)?")
SEND_JOIN = re.compile(FEDERATION + r"v2/send_join/[^/?]+/[^/?]+(?:\?.*)?")
Reply = tuple[int, bytes]


class Refused(Exception):
    def __init__(self, status: int, code: str, text: str) -> None:
        super().__init__(text)
        self.reply = status, encode_canonical_json({"errcode": code, "error": text})


@dataclass
class Front:
    name: str
    signing: list[SigningKey]
    reached_at: str
    keys: Keys
    hub: Hub
    gaps: Gaps
    joins: Joins
    large: asyncio.Semaphore = field(default_factory=lambda: asyncio.Semaphore(LARGE_AT_ONCE))
    under_way: Counter[tuple[str, str]] = field(default_factory=Counter)

    @web.middleware
    async def handle(self, request: web.Request, handler: object) -> web.Response:
        """Answers each request, as a middleware that hands none on to a `handler`."""
        told = self._own(request)
        if told is not None:
            return web.json_response(told)
        try:
            status, text = await self._answered(request)
        except Refused as refused:
            say("%s %s: %s" % (request.method, request.raw_path, refused))
            status, text = refused.reply
        except HubFault as fault:
            say("%s %s: the server behind: %s" % (request.method, request.raw_path, fault))
            status, text = Refused(502, "M_UNKNOWN", "no reply of the server behind").reply
        return web.Response(body=text, status=status, content_type="application/json")

    def _own(self, request: web.Request) -> Optional[Json]:
        """What this program tells to everybody."""
        path = request.raw_path.partition("?")[0] if request.method == "GET" else ""
        if path == "/_matrix/key/v2/server" or path.startswith("/_matrix/key/v2/server/"):
            return publish(self.name, self.signing)
        if path == FEDERATION + "v1/version":
            return {"server": {"name": "mx_federd", "version": "0"}}
        return {"m.server": self.reached_at} if path == "/.well-known/matrix/server" else None

    async def _answered(self, request: web.Request) -> Reply:
        method, target = request.method, request.raw_path
        if not target.startswith(FEDERATION) or method == "PUT" and not (SEND.fullmatch(target) or SEND_JOIN.fullmatch(target)):
            raise Refused(404, "M_UNRECOGNIZED", "unknown path")
        if not self.hub.takes(target):
            raise Refused(400, "M_INVALID_PARAM", "invalid path")
        small = request.content_length is not None and request.content_length <= SMALL_BODY or not request.body_exists
        place: AbstractAsyncContextManager[None] = self.large
        if small:
            place = nullcontext()
        async with place:
            origin, content = await self._signed(request)
            with self._counted(origin, method):
                events = events_of(target, content) if method == "PUT" else []
                reply = await self._passed_on(origin, method, target, content, events)
        if events and SEND.fullmatch(target):
            with suppress(Refused), self._counted(origin, "missing events"):
                return await self.gaps.heal(origin, events, reply)
        elif events and reply[0] == 200:
            self.joins.pass_on(event_id(content), reply[1])
        return reply

    @contextmanager
    def _counted(self, origin: str, method: str) -> Iterator[None]:
        """Refuses what is too much of one origin at a time."""
        counted = origin, method
        if self.under_way[counted] >= OF_ONE_ORIGIN.get(method, OTHERS_OF_ONE_ORIGIN):
            raise Refused(503, "M_UNKNOWN", "busy")
        self.under_way[counted] += 1
        try:
            yield
        finally:
            self.under_way[counted] -= 1
            if not self.under_way[counted]:
                del self.under_way[counted]

    async def _signed(self, request: web.Request) -> tuple[str, Any]:
        """The origin of a request, and what it says, once its signature is checked."""
        try:
            claim, key = await known_claim(self.keys, claims_of(request.headers.getall("Authorization", []), self.name))
            body = await self._body(request)
            signed: Json = {"method": request.method, "uri": request.raw_path, "origin": claim.origin, "destination": self.name}
            if body:
                signed["content"] = await asyncio.to_thread(read_json, body)
            await asyncio.to_thread(verify_request, claim, key, signed)
        except NotSigned as fault:
            raise Refused(401, "M_UNAUTHORIZED", str(fault)) from None
        except ValueError as fault:
            raise Refused(400, "M_NOT_JSON", str(fault)) from None
        return claim.origin, signed.get("content")

    async def _body(self, request: web.Request) -> bytes:
        try:
            async with asyncio.timeout(SECONDS_OF_A_BODY):
                return await request.read()
        except web.HTTPRequestEntityTooLarge:
            raise Refused(413, "M_TOO_LARGE", "body over 8 MiB") from None
        except TimeoutError:
            raise Refused(408, "M_UNKNOWN", "the body did not come") from None

    async def _passed_on(self, origin: str, method: str, target: str, content: Any, events: list[Json]) -> Reply:
        await asyncio.gather(*(self._check(event) for event in events[:MOST_EVENTS]))
        for event in events[MOST_EVENTS:]:
            event["signatures"] = {}
        return await self.hub.ask(origin, method, target, None if content is None else encode_canonical_json(content))

    async def _check(self, event: Json) -> None:
        """Takes the signatures off an event whose sender's server did not sign it: the server behind refuses it then."""
        try:
            await check_event(self.keys, event)
        except NotSigned as fault:
            say("event of %r: %s" % (event.get("sender"), fault))
            event["signatures"] = {}


def events_of(target: str, content: Any) -> list[Json]:
    """The events of a transaction, or the join of a send_join."""
    if not isinstance(content, dict):
        return []
    listed = content.get("pdus") if SEND.fullmatch(target) else [content]
    return [it for it in listed if isinstance(it, dict)] if isinstance(listed, list) else []
