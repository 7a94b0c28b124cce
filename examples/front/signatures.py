"""Who signed a request (Server-Server API, Request Authentication) and an event (Validating hashes and signatures)."""
import hashlib
import re
from dataclasses import dataclass
from typing import Optional

from canonicaljson import encode_canonical_json
from signedjson.sign import SignatureVerifyException, verify_signed_json
from signedjson.types import VerifyKey
from unpaddedbase64 import encode_base64

from keys import KEY_ID, Keys, NoKey, now
from texts import Json, is_server_name, server_of

# What redaction keeps of an event, and of its content by its type, in rooms of version 6 and 7.
KEPT = set("type room_id sender state_key content hashes signatures depth prev_events prev_state auth_events origin"
           " origin_server_ts membership event_id".split())
KEPT_CONTENT = {
    "m.room.member": {"membership"},
    "m.room.create": {"creator"},
    "m.room.join_rules": {"join_rule"},
    "m.room.power_levels": set("ban events events_default kick redact state_default users users_default".split()),
    "m.room.history_visibility": {"history_visibility"},
}
_PARAMETER = re.compile(r'[ \t]*([\w!#$%&\'*+.^`|~-]+)[ \t]*=[ \t]*(?:"((?:[^"\\]|\\.)*)"|([^\s",]+))[ \t]*(?:,|$)',
                        re.ASCII)
# How many keys of one event, and how many Authorization headers of one request, are looked at.
MOST_SIGNATURES = 4


class NotSigned(Exception):
    """Why a request or an event does not count as signed."""


@dataclass(frozen=True)
class Claim:
    """What an Authorization header says: it is believed once its signature is checked."""
    origin: str
    destination: Optional[str]
    key: str
    signature: str


def claims_of(headers: list[str], name: str) -> list[Claim]:
    """What the Authorization headers of a request to this server say, all of one origin."""
    if not 0 < len(headers) <= MOST_SIGNATURES:
        raise NotSigned("%d Authorization headers" % len(headers))
    claims = [_claim(header) for header in headers]
    if any(it.origin != claims[0].origin for it in claims):
        raise NotSigned("Authorization headers of two origins")
    if any(it.destination not in (None, name) for it in claims):
        raise NotSigned("wrong destination")
    return claims


def _claim(header: str) -> Claim:
    scheme, _, rest = header.partition(" ")
    named: dict[str, str] = {}
    at = 0
    while at < len(rest):
        found = _PARAMETER.match(rest, at)
        if not found or found[1].lower() in named:
            raise NotSigned("Authorization has a wrong form")
        named[found[1].lower()] = found[3] or re.sub(r"\\(.)", r"\1", found[2])
        at = found.end()
    claim = Claim(named.get("origin", ""), named.get("destination"), named.get("key", ""), named.get("sig", ""))
    if scheme.lower() != "x-matrix" or not is_server_name(claim.origin) or not KEY_ID.fullmatch(claim.key):
        raise NotSigned("no X-Matrix with an origin and a key")
    return claim


async def known_claim(keys: Keys, claims: list[Claim]) -> tuple[Claim, VerifyKey]:
    """The first of some claims of one origin whose key that server has, valid now."""
    for claim in claims:
        try:
            return claim, await keys.find(claim.origin, claim.key, now(), for_events=False)
        except NoKey as cause:
            fault = str(cause)
    raise NotSigned(fault)


def verify_request(claim: Claim, key: VerifyKey, signed: Json) -> None:
    """That the origin signed this method, uri, origin, destination and content."""
    try:
        verify_signed_json({**signed, "signatures": {claim.origin: {claim.key: claim.signature}}}, claim.origin, key)
    except SignatureVerifyException as fault:
        raise NotSigned(str(fault)) from None


def redacted(event: Json) -> Json:
    content = event.get("content")
    if not isinstance(content, dict) or not isinstance(event.get("type"), str):
        raise NotSigned("no event")
    allowed = KEPT_CONTENT.get(event["type"], set())
    kept = {name: value for name, value in event.items() if name in KEPT}
    return {**kept, "content": {name: value for name, value in content.items() if name in allowed}}


def event_id(event: Json) -> str:
    """The reference hash of an event, as its ID."""
    hashed = {name: value for name, value in redacted(event).items() if name not in ("signatures", "unsigned")}
    return "$" + encode_base64(hashlib.sha256(encode_canonical_json(hashed)).digest(), urlsafe=True)


async def check_event(keys: Keys, event: Json) -> None:
    """That the server of its sender signed the event's redacted form, by a key that was valid at its time."""
    pruned, at, fault = redacted(event), event.get("origin_server_ts"), "no signature of its sender's server"
    try:
        server = server_of(event.get("sender"))
        named = [it for it in dict(event["signatures"][server]) if KEY_ID.fullmatch(it)]
    except (KeyError, TypeError, ValueError):
        raise NotSigned(fault) from None
    if not isinstance(at, int):
        raise NotSigned("no origin_server_ts")
    for key_id in named[:MOST_SIGNATURES]:
        try:
            verify_signed_json(pruned, server, await keys.find(server, key_id, at, for_events=True))
            return
        except (NoKey, SignatureVerifyException) as cause:
            fault = str(cause)
    raise NotSigned(fault)
