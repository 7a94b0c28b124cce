"""Events of the Matrix federation, by the specification: canonical JSON, redaction, content hashes, event ids, and the making of
events that have them. The standard library alone works them out, and nothing here is taken from the program.

The rules are those of room versions 6 and 7. A signature is a stand-in, which only has the form of one."""

import base64
import hashlib
import json
from collections.abc import Sequence
from typing import Any

Json = Any
Event = dict[str, Any]
# What is told of an event: an empty object where it is accepted.
Reply = dict[str, str]

A, B, C, D, E = ("@%s:%s.example" % (name, name) for name in "abcde")
ROOM = "!r:a.example"
ACCEPTED: Reply = {}

# What redaction keeps of an event and of its content (Matrix specification, Room Version 6, redactions).
KEPT = {
    "event_id", "type", "room_id", "sender", "state_key", "content", "hashes", "signatures", "depth", "prev_events",
    "prev_state", "auth_events", "origin", "origin_server_ts", "membership",
}
KEPT_CONTENT = {
    "m.room.member": {"membership"},
    "m.room.create": {"creator"},
    "m.room.join_rules": {"join_rule"},
    "m.room.power_levels": {
        "ban", "events", "events_default", "kick", "redact", "state_default", "users", "users_default",
    },
    "m.room.history_visibility": {"history_visibility"},
}


def canonical(value: Json) -> bytes:
    """The canonical JSON of a value."""
    return json.dumps(value, sort_keys=True, separators=(",", ":"), ensure_ascii=False).encode()


def without(event: Event, *keys: str) -> Event:
    """The event without these keys."""
    return {key: value for key, value in event.items() if key not in keys}


def redacted(event: Event) -> Event:
    """The redacted form of an event."""
    kept = {key: value for key, value in event.items() if key in KEPT}
    allowed = KEPT_CONTENT.get(event["type"], set())
    return {**kept, "content": {key: value for key, value in event["content"].items() if key in allowed}}


def unpadded(digest: bytes) -> str:
    """Base64 without padding."""
    return base64.b64encode(digest).decode().rstrip("=")


def content_hash(event: Event) -> str:
    """The content hash of an event, as it stands in `hashes`."""
    return unpadded(hashlib.sha256(canonical(without(event, "unsigned", "signatures", "hashes"))).digest())


def reference_hash(event: Event) -> bytes:
    """The reference hash of an event."""
    return hashlib.sha256(canonical(without(redacted(event), "unsigned", "signatures"))).digest()


def id_of(event: Event) -> str:
    """The id of an event: its reference hash in the alphabet for URLs."""
    return "$" + base64.urlsafe_b64encode(reference_hash(event)).decode().rstrip("=")


def server_of(user: str) -> str:
    """The server name of a user id."""
    return user.partition(":")[2]


def sealed(event: Event) -> Event:
    """The event with its content hash and a signature of its sender's server."""
    hashes = {"sha256": content_hash(event)}
    return {**event, "hashes": hashes, "signatures": {server_of(event["sender"]): {"ed25519:1": "s"}}}


def event(kind: str, sender: str, prev: Sequence[Event], auth: Sequence[Event], content: Json, key: str | None = None,
          time: int | None = None, room: str = ROOM, **more: Json) -> Event:
    """An event after `prev` that cites `auth`, which are events too, with more keys."""
    depth = 1 + max((other["depth"] for other in prev), default=0)
    made = {
        "auth_events": [id_of(other) for other in auth],
        "content": content,
        "depth": depth,
        "origin_server_ts": 10 * depth if time is None else time,
        "prev_events": [id_of(other) for other in prev],
        "room_id": room,
        "sender": sender,
        "type": kind,
        **more,
    }
    return sealed(made if key is None else {**made, "state_key": key})


def create(room: str = ROOM, **content: Json) -> Event:
    """A's create event of a room of version 6."""
    return event("m.room.create", A, [], [], {"creator": A, "room_version": "6", **content}, "", room=room)


def member(sender: str, target: str, membership: str, prev: Sequence[Event], auth: Sequence[Event], time: int | None = None,
           room: str = ROOM, **content: Json) -> Event:
    """A membership of a user."""
    content = {"membership": membership, **content}
    return event("m.room.member", sender, prev, auth, content, target, time, room)


def join(user: str, prev: Sequence[Event], auth: Sequence[Event], **more: Json) -> Event:
    """A user's own join."""
    return member(user, user, "join", prev, auth, **more)


def levels(sender: str, prev: Sequence[Event], auth: Sequence[Event], users: dict[str, int], **content: Json) -> Event:
    """Power levels with these levels of users."""
    return event("m.room.power_levels", sender, prev, auth, {"users": users, **content}, "")


def rules(prev: Sequence[Event], auth: Sequence[Event], rule: str) -> Event:
    """A's join rules."""
    return event("m.room.join_rules", A, prev, auth, {"join_rule": rule}, "")


def topic(sender: str, prev: Sequence[Event], auth: Sequence[Event], text: str = "t") -> Event:
    """A topic of the room."""
    return event("m.room.topic", sender, prev, auth, {"topic": text}, "")


def message(sender: str, prev: Sequence[Event], auth: Sequence[Event], text: str = "m", room: str = ROOM) -> Event:
    """A message with this text."""
    return event("m.room.message", sender, prev, auth, {"body": text}, room=room)


def altered(event: Event, **content: Json) -> Event:
    """The event with another content under the old content hash."""
    return {**event, "content": {**event["content"], **content}}


def unsigned(event: Event) -> Event:
    """The event with no signature."""
    return {**event, "signatures": {}}


def rejected(label: str) -> Reply:
    """The reply to an event that a rule rejects."""
    return {"error": "rejected: " + label}


def error(text: str) -> Reply:
    """The reply to an event that is refused for this cause."""
    return {"error": text}
