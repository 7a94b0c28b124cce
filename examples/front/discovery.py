"""Where a server is reached (Server-Server API, Server discovery), and requests to it, each with a limit of time and
size."""
import asyncio
import ipaddress
import socket
import ssl
from contextlib import asynccontextmanager
from dataclasses import dataclass
from pathlib import Path
from typing import Any, AsyncIterator, Optional

import aiohttp
import dns.asyncresolver
import dns.exception
from aiohttp.abc import AbstractResolver
from signedjson.sign import sign_json
from signedjson.types import SigningKey
from yarl import URL

from keys import named
from texts import SERVER_NAME, Json, is_server_name, read_object

SECONDS = 10
MOST_REDIRECTS = 3
MOST_ADDRESSES = 6
LARGEST_OF_KEYS = 65_536
HEADERS = {"Accept-Encoding": "identity", "User-Agent": "mx_federd front"}
Place = tuple[str, int]
FAILURES = (aiohttp.ClientError, OSError, ValueError, KeyError, TypeError)


@dataclass(frozen=True)
class Destination:
    """The name that is in the Host header, the name that the certificate has to be for, and the addresses."""
    host: str
    certificate: str
    places: list[Place]


class Peer:
    """A server, over connections of its own, for as long as it is asked."""

    def __init__(self, http: aiohttp.ClientSession, to: Destination, name: str, origin: str, key: SigningKey) -> None:
        self.http, self.to, self.name, self.origin, self.key = http, to, name, origin, key
        self.received, self.largest, self.timeout = 0, LARGEST_OF_KEYS, aiohttp.ClientTimeout(total=SECONDS)

    def allow(self, largest: int, seconds: int) -> None:
        """Lets replies be larger and come later than those about keys."""
        self.largest, self.timeout = largest, aiohttp.ClientTimeout(total=seconds)

    async def ask(self, method: str, target: str, content: Optional[Json] = None) -> Json:
        """The object that answers a signed request with status 200; one of FAILURES where there is none."""
        signed: Json = {"method": method, "uri": target, "origin": self.origin, "destination": self.name}
        signed = sign_json(signed if content is None else {**signed, "content": content}, self.origin, self.key)
        signature = signed["signatures"][self.origin][named(self.key)]
        header = 'X-Matrix origin="%s",destination="%s",key="%s",sig="%s"' % (
            self.origin, self.name, named(self.key), signature)
        headers = {**HEADERS, "Host": self.to.host, "Authorization": header}
        url = URL("https://%s:%d%s" % (self.to.certificate, self.to.places[0][1], target), encoded=True)
        about = {"headers": headers, "allow_redirects": False, "timeout": self.timeout}
        async with self.http.request(method, url, json=content, **about) as reply:
            text = await read_bounded(reply.content, self.largest)
            self.received += len(text)
            if reply.status != 200:
                raise ValueError("status %d of %s: %r" % (reply.status, target, text[:200]))
            return await asyncio.to_thread(read_object, text)


class Network:
    """The other servers. Those in `hosts`, from NAME:PORT to an address and a port, are looked up nowhere else; of the
    others no address is taken that is private."""

    def __init__(self, name: str, key: SigningKey, trusted: ssl.SSLContext, hosts: dict[str, Place]) -> None:
        self.name, self.key, self.trusted, self.hosts = name, key, trusted, hosts
        self.listed = {it.rpartition(":")[0] for it in hosts}

    @asynccontextmanager
    async def open(self, server: str) -> AsyncIterator[Peer]:
        async with asyncio.timeout(2 * SECONDS):
            to = await self.destination(server)
        async with self._session(to.places) as http:
            yield Peer(http, to, server, self.name, self.key)

    async def keys_of(self, server: str) -> Json:
        async with asyncio.timeout(3 * SECONDS):
            async with self.open(server) as peer:
                return await peer.ask("GET", "/_matrix/key/v2/server")

    async def destination(self, server: str) -> Destination:
        host, port = _parts(server)
        if port is None and not _is_literal(host):
            if delegated := await self._well_known(host):
                server = delegated
                host, port = _parts(server)
        if port is not None or _is_literal(host):
            return Destination(server, host, await self._places(host, port or 8448))
        found = [] if host in self.listed else await services(host)
        places = [place for target in found or [(host, 8448)] for place in await self._places(*target)]
        return Destination(host, host, places[:MOST_ADDRESSES])

    async def _places(self, host: str, port: int) -> list[Place]:
        if host in self.listed:
            return [self.hosts["%s:%d" % (host, port)]]
        bare = host.strip("[]")
        found = await asyncio.get_running_loop().getaddrinfo(
            bare, port, type=socket.SOCK_STREAM, flags=socket.AI_ADDRCONFIG)
        places = [(address[0], port) for *_, address in found if ipaddress.ip_address(address[0]).is_global]
        if not places:
            raise ValueError("%s has no address that is public" % host)
        return places[:MOST_ADDRESSES]

    async def _well_known(self, host: str) -> Optional[str]:
        """What the host delegates to. One that gives no sound answer delegates to nothing."""
        url = URL("https://%s/.well-known/matrix/server" % host)
        try:
            for _ in range(MOST_REDIRECTS + 1):
                async with self._session(await self._places(_bracketed(url), url.port or 443)) as http:
                    async with http.get(url, headers=HEADERS, allow_redirects=False) as reply:
                        if reply.status == 200:
                            told = read_object(await read_bounded(reply.content, LARGEST_OF_KEYS))["m.server"]
                            return told if is_server_name(told) else None
                        url = url.join(URL(reply.headers["Location"]))
                        if url.scheme != "https":
                            return None
        except FAILURES:
            pass
        return None

    def _session(self, places: list[Place]) -> aiohttp.ClientSession:
        connector = aiohttp.TCPConnector(resolver=_Fixed(places), use_dns_cache=False, ssl=self.trusted, limit=4)
        timeout = aiohttp.ClientTimeout(total=SECONDS)
        return aiohttp.ClientSession(connector=connector, timeout=timeout, auto_decompress=False)


class _Fixed(AbstractResolver):
    """Connects to these addresses and ports, whatever the name and the port are."""

    def __init__(self, places: list[Place]) -> None:
        self.places = places

    async def resolve(self, host: str, port: int = 0, family: int = socket.AF_UNSPEC) -> list[dict[str, Any]]:
        return [{"hostname": host, "host": address, "port": at, "proto": 0, "flags": socket.AI_NUMERICHOST,
                 "family": socket.AF_INET6 if ":" in address else socket.AF_INET} for address, at in self.places]

    async def close(self) -> None:
        pass


async def services(host: str) -> list[Place]:
    """The targets of a host's SRV records, the first to be tried first; none where there are none."""
    for service in ("_matrix-fed._tcp.", "_matrix._tcp."):
        try:
            found = await dns.asyncresolver.Resolver().resolve(service + host, "SRV", lifetime=SECONDS / 2)
            return [(it.target.to_text(omit_final_dot=True), it.port)
                    for it in sorted(found, key=lambda it: (it.priority, -it.weight))][:MOST_ADDRESSES]
        except dns.exception.DNSException:
            pass
    return []


async def read_bounded(content: aiohttp.StreamReader, largest: int) -> bytes:
    text = bytearray()
    async for part in content.iter_chunked(65_536):
        text += part
        if len(text) > largest:
            raise ValueError("more than %d bytes" % largest)
    return bytes(text)


def read_hosts(path: Path) -> dict[str, Place]:
    """A file of lines NAME:PORT ADDRESS:PORT."""
    lines = [it.split() for it in path.read_text().splitlines() if it.strip() and not it.startswith("#")]
    return {name: (place.rpartition(":")[0].strip("[]"), int(place.rpartition(":")[2])) for name, place in lines}


def _parts(server: str) -> tuple[str, Optional[int]]:
    found = SERVER_NAME.fullmatch(server)
    if not found:
        raise ValueError("%r is no server name" % server)
    return found["host"], int(found["port"]) if found["port"] else None


def _is_literal(host: str) -> bool:
    try:
        return bool(ipaddress.ip_address(host.strip("[]")))
    except ValueError:
        return False


def _bracketed(url: URL) -> str:
    host = url.host or ""
    return "[%s]" % host if ":" in host else host

