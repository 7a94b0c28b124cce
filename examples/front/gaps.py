"""Events that the server behind lacks: they are asked of the server whose transaction cites them, checked, put to the
server behind, and then the transaction's events are put to it again."""
import asyncio
import time
import uuid
from collections import OrderedDict
from graphlib import TopologicalSorter
from typing import Any
from weakref import WeakValueDictionary

from canonicaljson import encode_canonical_json

from discovery import FAILURES, Network, Peer
from hub import FEDERATION, Hub, HubFault, quoted, results
from keys import Keys, remember
from signatures import NotSigned, check_event, event_id
from texts import Json, say, server_of

# A sender that waits no longer for its reply ends nothing: it sends the transaction again, and finds the gap healed.
SECONDS = 110
SECONDS_OF_A_REPLY = 20
MOST_REQUESTS = 300
MOST_EVENTS = 5_000
MOST_BYTES = 64 * 1024 * 1024
LARGEST_REPLY = 8 * 1024 * 1024
LARGEST_EVENT = 65_536
IN_ONE_TRANSACTION = 50
IN_ONE_REQUEST = 20
MOST_IN_A_REPLY = 500
# How many seconds pass before a server is asked again for the events of a room of which it did not give all.
PAUSE = 30


class Gaps:
    def __init__(self, hub: Hub, network: Network, keys: Keys) -> None:
        self.hub, self.network, self.keys = hub, network, keys
        self.origins: WeakValueDictionary[str, asyncio.Lock] = WeakValueDictionary()
        self.failed: OrderedDict[str, float] = OrderedDict()

    async def heal(self, origin: str, events: list[Any], first: tuple[int, bytes]) -> tuple[int, bytes]:
        """The reply to a transaction's events: the first one, or, where they cited missing events and these came, the
        one to the same events under another number."""
        lacking = lacking_by_room(events, first) if b"missing events" in first[1] else {}
        lacking = {room: citing for room, citing in lacking.items() if not self._failed_lately(origin, room)}
        if not lacking:
            return first
        try:
            async with asyncio.timeout(SECONDS), self.origins.setdefault(origin, asyncio.Lock()):
                for room, citing in lacking.items():
                    await self._fill(origin, room, citing)
                return await self.hub.send(origin, new_number(), events)
        except (HubFault, *FAILURES) as fault:
            say("missing events of %s from %s: given up: %s %s" % (list(lacking), origin, type(fault).__name__, fault))
            for room in lacking:
                remember(self.failed, origin + " " + room, time.monotonic())
            return first

    def _failed_lately(self, origin: str, room: str) -> bool:
        return time.monotonic() - self.failed.get(origin + " " + room, -PAUSE) < PAUSE

    async def _fill(self, origin: str, room: str, citing: dict[str, Json]) -> None:
        async with self.network.open(origin) as peer:
            peer.allow(LARGEST_REPLY, SECONDS_OF_A_REPLY)
            search = Search(self, peer, origin, room)
            await search.run(citing)
        found = search.in_order()
        for at in range(0, len(found), IN_ONE_TRANSACTION):
            reply = await self.hub.send(origin, new_number(), found[at:at + IN_ONE_TRANSACTION])
            faults = {name: it["error"] for name, it in results(*reply).items() if "error" in it}
            if reply[0] != 200 or faults:
                say("missing events of %s from %s: status %d, %s" % (room, origin, reply[0], faults))
        if search.lacking:
            remember(self.failed, origin + " " + room, time.monotonic())
            say("missing events of %s from %s: %d did not come, such as %s"
                % (room, origin, len(search.lacking), list(search.lacking)[0]))


class Search:
    """A walk from events back to those that the server behind holds, by what one server gives."""

    def __init__(self, gaps: Gaps, peer: Peer, origin: str, room: str) -> None:
        self.gaps, self.peer, self.room = gaps, peer, room
        # The servers that may be in the room, and so are shown what the server behind holds.
        self.witnesses = list(dict.fromkeys([origin, server_of(room)]))
        self.events: dict[str, Json] = {}
        self.held: dict[str, None] = {}
        self.lacking: dict[str, None] = {}
        self.requests = 0

    async def run(self, citing: dict[str, Json]) -> None:
        """Fills `events`, and leaves in `lacking` what did not come."""
        for event in citing.values():
            await self._note(event)
        while self.lacking and self._has_room() and await self._step(citing):
            pass

    def in_order(self) -> list[Json]:
        """What came, parents first."""
        order = {it: [cited for cited in cites(event) if cited in self.events] for it, event in self.events.items()}
        return [self.events[it] for it in TopologicalSorter(order).static_order()]

    def _has_room(self) -> bool:
        return self.requests < MOST_REQUESTS and len(self.events) < MOST_EVENTS and self.peer.received < MOST_BYTES

    async def _step(self, citing: dict[str, Json]) -> bool:
        """Asks for what is lacking in one way after the other, until one gives some of it."""
        wanted = list(self.lacking)[:IN_ONE_REQUEST]
        latest = [it for it, event in {**citing, **self.events}.items() if self.lacking.keys() & event["prev_events"]]
        room = quoted(self.room)
        missing = {"earliest_events": list(self.held)[-IN_ONE_REQUEST:], "latest_events": latest[-IN_ONE_REQUEST:],
                   "limit": 100, "min_depth": 0}
        backfill = "".join("&v=" + quoted(it) for it in wanted)
        return (bool(latest) and await self._ask("POST", "v1/get_missing_events/" + room, "events", missing)
                or await self._ask("GET", "v1/backfill/" + room + "?limit=100" + backfill, "pdus")
                or any([await self._ask("GET", "v1/event/" + quoted(it), "pdus") for it in wanted]))

    async def _ask(self, method: str, path: str, part: str, content: Json | None = None) -> bool:
        self.requests += 1
        try:
            return await self._take((await self.peer.ask(method, FEDERATION + path, content))[part])
        except FAILURES as fault:
            say("%s: %s: %s %s" % (self.peer.name, path, type(fault).__name__, fault))
            return False

    async def _take(self, offered: list[Any]) -> bool:
        """Takes those that are lacking, and those that they cite in turn."""
        by_id = ids_of([it for it in offered[:MOST_IN_A_REPLY] if isinstance(it, dict) and it.get("room_id") == self.room])
        before = len(self.events)
        while ready := [it for it in self.lacking if it in by_id]:
            for found in ready:
                event = by_id.pop(found)
                try:
                    await check_event(self.gaps.keys, event)
                except NotSigned as fault:
                    say("event %s from %s: %s" % (found, self.peer.name, fault))
                    continue
                del self.lacking[found]
                self.events[found] = event
                await self._note(event)
        return len(self.events) > before

    async def _note(self, event: Json) -> None:
        """Notes which of the events that it cites are lacking."""
        for cited in cites(event):
            if cited not in self.events and cited not in self.held and cited not in self.lacking:
                shown = [await self.gaps.hub.shows(it, cited) for it in self.witnesses]
                (self.held if any(shown) else self.lacking)[cited] = None


def cites(event: Json) -> list[str]:
    """The events that it cites, as many as a sound event may have; ValueError where it is none."""
    cited = [*event["prev_events"], *event["auth_events"]]
    if len(cited) > 30 or not all(isinstance(it, str) and len(it) < 256 for it in cited):
        raise ValueError("not sound")
    return cited


def ids_of(events: list[Any]) -> dict[str, Json]:
    """The sound events, by their IDs."""
    found: dict[str, Json] = {}
    for event in events:
        try:
            cites(event)
            if len(encode_canonical_json(event)) <= LARGEST_EVENT:
                found[event_id(event)] = event
        except (NotSigned, KeyError, TypeError, ValueError):
            pass
    return found


def lacking_by_room(events: list[Any], reply: tuple[int, bytes]) -> dict[str, dict[str, Json]]:
    """The events that were answered `missing events`, by their rooms and IDs."""
    told = results(*reply)
    found: dict[str, dict[str, Json]] = {}
    for name, event in ids_of(events).items():
        if told.get(name) == {"error": "missing events"}:
            found.setdefault(event["room_id"], {})[name] = event
    return found


def new_number() -> str:
    return "front-" + uuid.uuid4().hex
