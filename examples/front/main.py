#!/usr/bin/python3
"""What stands in front of `mx_federd serve`: README.md beside it says what it does.

It asks for Debian's packages python3-aiohttp, python3-signedjson and python3-dnspython."""
import argparse
import asyncio
import json
import logging
import signal
import sqlite3
import ssl
import sys
from pathlib import Path

import aiohttp
from aiohttp import web
from unpaddedbase64 import encode_base64

from discovery import Network, read_hosts
from gaps import Gaps
from hub import Hub
from joins import Joins
from kept import Kept
from keys import Keys, named, own_keys
from serving import LARGEST_BODY, Front
from texts import SERVER_NAME, is_server_name, say

HUB_CONNECTIONS = 12


def words() -> argparse.Namespace:
    reader = argparse.ArgumentParser(description="Stands in front of `mx_federd serve`.")
    reader.add_argument("--name", required=True, help="this server's name, the same as that of mx_federd")
    reader.add_argument("--data", required=True, type=Path, help="the directory of signing.key and front.db")
    reader.add_argument("--hub", default="127.0.0.1:8008", help="where mx_federd listens")
    reader.add_argument("--listen", default="127.0.0.1:9000", help="the address and the port on which other servers ask")
    reader.add_argument("--certificate", type=Path, help="PEM, with the chain; without it plain HTTP is spoken, behind a proxy")
    reader.add_argument("--certificate-key", type=Path, help="PEM, where it is not in the same file")
    reader.add_argument("--authorities", type=Path, help="PEM: more authorities that certificates of others may be of")
    reader.add_argument("--hosts", type=Path, help="lines NAME:PORT ADDRESS:PORT: servers that are looked up nowhere else")
    reader.add_argument("--pinned", type=Path, help='keys that are asked of nobody: {"SERVER": {"ed25519:ID": "BASE64"}}')
    reader.add_argument("--reached-at", help="what /.well-known/matrix/server tells, where it is not NAME:8448 or NAME")
    given = reader.parse_args()
    if not is_server_name(given.name):
        reader.error("--name is no server name")
    return given


class OneLine(logging.Handler):
    """What the libraries log, such as a request that is no HTTP, in one line each."""

    def emit(self, record: logging.LogRecord) -> None:
        say("%s: %r" % (record.getMessage(), record.exc_info and record.exc_info[1]))


async def serve(given: argparse.Namespace) -> None:
    given.data.mkdir(mode=0o700, exist_ok=True)
    signing = own_keys(given.data / "signing.key")
    kept = Kept(given.data / "front.db")
    trusted = ssl.create_default_context()
    if given.authorities:
        trusted.load_verify_locations(given.authorities)
    network = Network(given.name, signing[0], trusted, read_hosts(given.hosts) if given.hosts else {})
    pinned = json.loads(given.pinned.read_text()) if given.pinned else {}
    pinned[given.name] = {named(it): encode_base64(it.verify_key.encode()) for it in signing}
    keys = Keys(kept, pinned, network.keys_of)
    # The server behind may close a connection that is idle for five seconds.
    connector = aiohttp.TCPConnector(limit=HUB_CONNECTIONS, keepalive_timeout=4)
    timeout = aiohttp.ClientTimeout(total=60)
    async with aiohttp.ClientSession(connector=connector, timeout=timeout, auto_decompress=False) as http:
        hub = Hub(given.name, given.hub, http)
        port = SERVER_NAME.fullmatch(given.name)["port"]  # type: ignore[index]
        reached_at = given.reached_at or given.name + ("" if port else ":8448")
        front = Front(given.name, signing, reached_at, keys, hub, Gaps(hub, network, keys), Joins(network, kept))
        await listen(front, given)


async def listen(front: Front, given: argparse.Namespace) -> None:
    """Listens until SIGTERM or SIGINT; what is under way then has ten seconds to be answered."""
    context = None
    if given.certificate:
        context = ssl.create_default_context(ssl.Purpose.CLIENT_AUTH)
        context.load_cert_chain(given.certificate, given.certificate_key)
    app = web.Application(client_max_size=LARGEST_BODY + 1, middlewares=[front.handle])
    runner = web.AppRunner(app, access_log=None, auto_decompress=False)
    await runner.setup()
    host, _, port = given.listen.rpartition(":")
    await web.TCPSite(runner, host.strip("[]"), int(port), ssl_context=context, shutdown_timeout=10).start()
    print("listening %s:%d" % runner.addresses[0][:2], flush=True)
    stop = asyncio.Event()
    for number in (signal.SIGTERM, signal.SIGINT):
        asyncio.get_running_loop().add_signal_handler(number, stop.set)
    await stop.wait()
    await runner.cleanup()


if __name__ == "__main__":
    logging.basicConfig(level=logging.WARNING, handlers=[OneLine()])
    try:
        asyncio.run(serve(words()))
    except (OSError, ValueError, IndexError, TypeError, AttributeError, sqlite3.Error) as fault:
        say("not started: %s %s" % (type(fault).__name__, fault))
        sys.exit(1)
