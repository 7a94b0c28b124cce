"""The server behind: requests that it is asked as one whose signature was checked."""
import json
import urllib.parse
from typing import Any, Optional

import aiohttp
from canonicaljson import encode_canonical_json
from yarl import URL

from discovery import read_bounded
from texts import Json

LARGEST_REPLY = 64 * 1024 * 1024
FEDERATION = "/_matrix/federation/"


class HubFault(Exception):
    """The server behind gave no reply, or not the one that was asked for."""


class Hub:
    def __init__(self, name: str, place: str, http: aiohttp.ClientSession) -> None:
        self.name, self.place, self.http = name, place, http

    async def ask(self, origin: str, method: str, target: str, body: Optional[bytes] = None) -> tuple[int, bytes]:
        """The status and the body of its reply. A request that met a connection which was being closed is sent once
        more: each is answered the same twice."""
        url = self._url(target)
        headers = {"Authorization": 'X-Matrix origin="%s",destination="%s"' % (origin, self.name),
                   "Content-Type": "application/json"}
        for last in (False, True):
            try:
                async with self.http.request(method, url, data=body, headers=headers, allow_redirects=False) as reply:
                    return reply.status, await read_bounded(reply.content, LARGEST_REPLY)
            except (aiohttp.ClientError, OSError, ValueError) as fault:
                if last or not isinstance(fault, aiohttp.ServerDisconnectedError):
                    raise HubFault("%s %s" % (type(fault).__name__, fault)) from None
        raise AssertionError

    def takes(self, target: str) -> bool:
        """Whether a target is sent in the form in which it was signed."""
        return self._url(target).raw_path_qs == target

    def _url(self, target: str) -> URL:
        return URL("http://" + self.place + target, encoded=True)

    async def send(self, origin: str, number: str, events: list[Any]) -> tuple[int, bytes]:
        body = encode_canonical_json({"pdus": events})
        return await self.ask(origin, "PUT", FEDERATION + "v1/send/" + number, body)

    async def shows(self, origin: str, event_id: str) -> bool:
        """Whether it holds an event and shows it to this server."""
        status, text = await self.ask(origin, "GET", FEDERATION + "v1/event/" + quoted(event_id))
        if status not in (200, 404):
            raise HubFault("status %d: %r" % (status, text[:200]))
        return status == 200


def quoted(text: str) -> str:
    return urllib.parse.quote(text, safe="")


def results(status: int, reply: bytes) -> Json:
    """What a transaction's reply says of each event, by its ID."""
    found: Json = json.loads(reply)["pdus"] if status == 200 else {}
    return found
