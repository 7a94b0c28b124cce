"""Tests of the front: the keys of servers, where a server is, and its own side."""

import asyncio
import gzip
import json
import socket
import ssl
import subprocess
import threading
import time
from collections.abc import Callable
from typing import Any

from front_servers import (
    AUTHORITY, FEDERATION, KEYS, OTHER, SIGNATURE, Peer, World, a_message, authorization, in_a_world, is_unsigned, now,
    published, sealed, signature_of, told,
)
from event_logs import NAME
from matrix_events import Json, content_hash, id_of, without
from running_server import SECONDS
from signedjson.key import decode_verify_key_bytes, generate_signing_key, read_signing_keys
from signedjson.sign import sign_json, verify_signed_json
from suite import TOP
from unpaddedbase64 import decode_base64, encode_base64

# ---- keys

# What is said of the servers that give no keys, where the cause has a name of its own.
CAUSES = {
    "slow": "TimeoutError", "endless": "more than 65536 bytes", "head": "Too many headers", "liar": "its keys are those of",
    "unsigned": "none of its keys signed", "redirect": "status 302", "missing": "status 404", "down": "Cannot connect",
    "certificate": "certificate verify failed", "unlisted": "gaierror",
}


@in_a_world
def expired_keys(world: World) -> None:
    """A key counts for requests until `valid_until_ts`, and an old one for events until `expired_ts`."""
    old, moment = generate_signing_key("old"), now() - 1000
    retired = generate_signing_key("retired")
    more = {"old_verify_keys": {
        "ed25519:old": {"key": encode_base64(old.verify_key.encode()), "expired_ts": moment},
        "ed25519:retired": {"key": encode_base64(retired.verify_key.encode()), "expired_ts": now() + 1_000_000}}}
    world.a.answers["/_matrix/key"] = lambda _: (200, published("a.example", KEYS["a.example"], **more))
    world.b.answers["/_matrix/key"] = lambda _: (200, published("b.example", KEYS["b.example"], valid_until_ts=10_000))
    world.fill()
    assert is_unsigned(world.send("t1", [], key=old), "no key ed25519:old")
    assert is_unsigned(world.send("t1", [], key=retired), "no key ed25519:retired")
    assert is_unsigned(world.send("t1", [], origin="b.example"), "valid at")
    before, after = a_message(world, "before"), {**a_message(world, "after"), "origin_server_ts": moment + 1}
    after["hashes"] = {"sha256": content_hash(after)}
    for made in (before, after):
        made["signatures"] = {"a.example": {"ed25519:old": signature_of(made, "a.example", old)}}
    late = {**a_message(world, "late"), "origin_server_ts": now() + 8 * 86_400_000}
    late = sealed(without(late, "hashes", "signatures"))
    wanted = {id_of(before): {}, id_of(after): SIGNATURE, id_of(late): SIGNATURE}
    assert told(world.send("t2", [before, after, late])) == (200, {"pdus": wanted})


def endless(request: Any) -> None:
    """A body without end."""
    request.wfile.write(b"HTTP/1.1 200 OK\r\nContent-Type: application/json\r\n\r\n{")
    try:
        while True:
            request.wfile.write(b" " * 65_536)
    except OSError:
        return


def head(request: Any) -> None:
    """A head without end."""
    request.wfile.write(b"HTTP/1.1 200 OK\r\n")
    try:
        while True:
            request.wfile.write(b"X-%d: y\r\n" % time.monotonic_ns())
    except OSError:
        return


def packed(request: Any) -> tuple[Any, ...]:
    """A body that grows as it is unpacked."""
    return 200, gzip.compress(b" " * 50_000_000), ("Content-Encoding", "gzip")


def bad_answers() -> dict[str, Callable[[Any], Any]]:
    """What bad servers answer to the question for their keys, by their names."""
    lies = sign_json(without(published("a.example", OTHER), "signatures"), "liar.example", OTHER)
    not_signed = {**published("unsigned.example", OTHER), "signatures": {}}
    return {
        "slow": lambda _: time.sleep(60), "endless": endless, "head": head, "packed": packed, "liar": lambda _: (200, lies),
        "unsigned": lambda _: (200, not_signed), "text": lambda _: (200, b"no JSON"), "list": lambda _: (200, []),
        "redirect": lambda _: (302, b"", ("Location", "https://a.example:8448/_matrix/key/v2/server")),
        "empty": lambda _: (200, {}), "missing": lambda _: (404, {}), "strange": lambda _: (200, {
            "server_name": "strange.example", "valid_until_ts": "x", "verify_keys": {"ed25519:1": 3}}),
    }


@in_a_world
def bad_key_servers(world: World) -> None:
    """Down, slow, endless, of another name, not signed, no JSON, a redirect, another certificate: 401, in time, and the
    front answers others meanwhile."""
    answers = bad_answers()
    peers = {name: Peer(AUTHORITY, name + ".example", "e.example" if name != "slow" else None) for name in answers}
    for name, peer in peers.items():
        peer.answers["/_matrix/key"] = answers[name]
        peer.server.socket.context.load_cert_chain(*AUTHORITY.issue(name + ".example"))
        world.hosts[name + ".example:8448"] = peer.port
    world.hosts["down.example:8448"] = 1
    world.hosts["certificate.example:8448"] = world.a.port
    world.start_front()
    started, replies = time.monotonic(), {}

    def client(name: str) -> None:
        """Asks as this server."""
        header = authorization("GET", FEDERATION + "v1/event/$x", name + ".example", None, OTHER)
        replies[name] = world.raw("GET", FEDERATION + "v1/event/$x", [("Authorization", header)])

    names = [*answers, "down", "certificate", "unlisted"]
    threads = [threading.Thread(target=client, args=(it,)) for it in names]
    for thread in threads:
        thread.start()
    world.fill()
    assert time.monotonic() - started < 8, "others waited"
    for thread in threads:
        thread.join(SECONDS)
    assert time.monotonic() - started < 40
    for name in names:
        assert is_unsigned(replies[name], "no key"), (name, replies[name])
        line = world.front.wait_for_line("keys of %s.example:" % name)
        assert CAUSES.get(name, "") in line, line
    asked = [it.split(":")[0] for it in world.front.said if it.startswith("keys of ")]
    assert len(asked) == len(set(asked)), asked
    for peer in peers.values():
        peer.close()


@in_a_world
def keys_are_asked_once(world: World) -> None:
    """200 requests at once, of which none has a key yet, ask for it once; a key that is not there is not asked for again."""
    path, replies = FEDERATION + "v1/event/$x", []
    world.a.answers["/_matrix/key"] = lambda _: time.sleep(1) or (200, published("a.example", KEYS["a.example"]))

    def client() -> None:
        """Asks once."""
        replies.append(world.ask("GET", path, "a.example")[0])

    threads = [threading.Thread(target=client) for _ in range(200)]
    for thread in threads:
        thread.start()
    for thread in threads:
        thread.join(SECONDS)
    assert replies == [404] * 200, replies
    assert world.a.asked == ["/_matrix/key/v2/server"], world.a.asked
    for _ in range(5):
        assert is_unsigned(world.ask("GET", path, "a.example", key=generate_signing_key("2")))
    assert world.a.asked == ["/_matrix/key/v2/server"], world.a.asked


@in_a_world
def kept_and_pinned_keys(world: World) -> None:
    """Keys outlive a new start while their server is down; a pinned one is asked of nobody, and no other counts beside it."""
    world.fill()
    world.a.answers["/_matrix/key"] = world.b.answers["/_matrix/key"] = lambda _: (500, {})
    first = world.start_front()
    assert world.send("t1", []) == (200, b'{"pdus":{}}')
    pinned = world.folder / "pinned"
    pinned.write_text(json.dumps({"b.example": {"ed25519:1": encode_base64(KEYS["b.example"].verify_key.encode())},
                                  "a.example": {"ed25519:2": encode_base64(OTHER.verify_key.encode())}}))
    again = world.start_front("--pinned", pinned)
    assert again["verify_keys"] == first["verify_keys"], "the signing key is kept"
    assert world.send("t1", [], origin="b.example") == (200, b'{"pdus":{}}')
    assert is_unsigned(world.send("t2", []))
    assert world.b.asked == ["/_matrix/key/v2/server"], world.b.asked


@in_a_world
def own_side(world: World) -> None:
    """Its own key, signed by it, as a file in Synapse's form has it; its version; its delegation."""
    reply = told(world.raw("GET", "/_matrix/key/v2/server"))[1]
    path = world.folder / "front/signing.key"
    (key,) = read_signing_keys(path.read_text().splitlines())
    named = "ed25519:" + key.version
    assert list(reply["verify_keys"]) == [named] and reply["server_name"] == NAME, reply
    assert path.stat().st_mode & 0o777 == 0o600
    verify_signed_json(reply, NAME, decode_verify_key_bytes(named, decode_base64(reply["verify_keys"][named]["key"])))
    assert now() < reply["valid_until_ts"] <= now() + 86_400_000
    assert told(world.raw("GET", "/_matrix/federation/v1/version"))[1]["server"]["name"] == "mx_federd"
    assert told(world.raw("GET", "/.well-known/matrix/server"))[1] == {"m.server": NAME + ":8448"}


@in_a_world
def unheard(world: World) -> None:
    """That nobody takes what it says on standard error does no harm; a request that is no HTTP is one line there."""
    with world.connect() as client:
        client.sendall(b"\x00\xff\r\n\r\n")
        client.recv(65536)
    world.front.wait_for_line("Bad")
    assert len(world.front.said) == 1, world.front.said
    with open("/dev/full", "wb") as full:
        world.start_front(said=full)
    assert is_unsigned(world.send("t1", [], key=OTHER))
    world.fill()


@in_a_world
def not_started(world: World) -> None:
    """What is wrong with its files is said in one line, and the status is 1."""
    words = [TOP / "examples/front/main.py", "--name", NAME, "--data", world.folder / "other"]
    (world.folder / "wrong").write_text("5")
    (world.folder / "other").mkdir()
    for more in (["--hosts", world.folder / "none"], ["--pinned", world.folder / "wrong"], ["--hosts", world.folder / "wrong"],
                 ["--listen", "127.0.0.1:%d" % world.front.port], ["--certificate", world.folder / "wrong"]):
        ran = subprocess.run([*map(str, [*words, *more])], capture_output=True, timeout=SECONDS)
        assert ran.returncode == 1 and ran.stderr.startswith(b"not started: ") and ran.stderr.count(b"\n") == 1, ran


# ---- where a server is

def network(world: World, **hosts: int) -> Any:
    """What the front finds servers by, with these places on loopback."""
    from discovery import Network
    places = {name: ("127.0.0.1", port) for name, port in hosts.items()}
    trusted = ssl.create_default_context(cafile=world.authority.certificate)
    return Network(NAME, OTHER, trusted, places)


async def reached(network: Any, server: str) -> str:
    """The server name in the key that a server publishes there, or the failure's name."""
    from discovery import FAILURES
    try:
        return (await network.keys_of(server))["server_name"]
    except FAILURES as fault:
        return type(fault).__name__


@in_a_world
def delegation(world: World) -> None:
    """`/.well-known/matrix/server`: to a port, to a name, behind redirects; loops, large and wrong ones delegate nothing;
    names with a port and IP literals are asked for none. The certificate is that of the name that is delegated to."""
    named = Peer(AUTHORITY, "e.example")
    literal, plain = Peer(AUTHORITY, "127.0.0.1"), Peer(AUTHORITY, "e.example", plain=True)
    plain.answers["/.well-known"] = lambda _: (200, {"m.server": "a.example"})
    hosts = {"e.example:443": named.port, "e.example:8448": world.b.port, "e.example:80": plain.port, "a.example:9": world.a.port,
             "a.example:8448": world.a.port, "127.0.0.1:%d" % literal.port: literal.port, "[::1]:9": world.a.port}
    places = network(world, **hosts)
    literal.key, named.key = OTHER, OTHER

    def to(status: int, value: Json, *headers: tuple[str, str]) -> str:
        """Where e.example is reached when it answers so."""
        named.answers["/.well-known"] = lambda _: (status, value, *headers)
        return asyncio.run(reached(places, "e.example"))

    assert to(200, {"m.server": "a.example"}) == "a.example" and world.a.hosts[-1] == "a.example"
    assert to(200, {"m.server": "a.example:9"}) == "a.example" and world.a.hosts[-1] == "a.example:9"
    assert to(200, {"m.server": "127.0.0.1:%d" % literal.port}) == "127.0.0.1"
    # What delegates nothing leads to e.example:8448, where b.example's certificate is another name's.
    for told_so in ((200, {"m.server": "a/b"}), (200, {"m.server": 3}), (200, []), (404, {}), (200, b" " * 100_000),
                    (302, b"", ("Location", "http://e.example/.well-known/matrix/server")),
                    (302, b"", ("Location", "https://127.0.0.2/x")), (302, b"", ("Location", "https://10.0.0.1/x")),
                    (302, b"", ("Location", "/.well-known/matrix/server"))):
        assert to(*told_so) == "ClientConnectorCertificateError", told_so
    assert named.asked.count("/.well-known/matrix/server") <= 3 + 8 + 4, named.asked
    named.answers["/there"] = lambda _: (200, {"m.server": "a.example"})
    assert to(301, b"", ("Location", "/there")) == "a.example"
    asked = len(named.asked)
    assert asyncio.run(reached(places, "a.example:9")) == "a.example" and len(named.asked) == asked
    assert asyncio.run(reached(places, "[::1]:9")) == "ClientConnectorError"
    for peer in (named, literal, plain):
        peer.close()


@in_a_world
def service_records(world: World) -> None:
    """SRV: the port and the addresses of the target, under the certificate of the name; over a small DNS server."""
    import dns.asyncresolver
    import discovery
    records = {"_matrix-fed._tcp.e.example.": "20 5 7 second.example.\n10 5 8 first.example.", "_matrix._tcp.f.example.": "10 5 9 old.example."}
    resolver = dns.asyncresolver.Resolver(configure=False)
    resolver.nameservers, resolver.port = ["127.0.0.1"], name_server(records)
    named = Peer(AUTHORITY, "e.example")
    named.key = OTHER
    places = network(world, **{"first.example:8": named.port, "second.example:7": named.port, "old.example:9": named.port})
    real, discovery.dns.asyncresolver.Resolver = discovery.dns.asyncresolver.Resolver, lambda: resolver

    async def nothing(_: str) -> None:
        """No delegation."""
        return None

    places._well_known = nothing
    try:
        found = [asyncio.run(discovery.services(it)) for it in ("e.example", "f.example", "g.example", "..", "a" * 99)]
        assert found == [[("first.example", 8), ("second.example", 7)], [("old.example", 9)], [], [], []], found
        assert asyncio.run(reached(places, "e.example")) == "e.example" and named.hosts[-1] == "e.example"
        assert asyncio.run(reached(places, "f.example")) == "ClientConnectorCertificateError"
    finally:
        discovery.dns.asyncresolver.Resolver = real
        named.close()


def name_server(records: dict[str, str]) -> int:
    """The port of a DNS server that has these SRV records and no other name."""
    import dns.message
    import dns.rcode
    import dns.rrset
    bound = socket.socket(socket.AF_INET, socket.SOCK_DGRAM)
    bound.bind(("127.0.0.1", 0))

    def serve() -> None:
        """Answers without end."""
        while True:
            text, place = bound.recvfrom(4096)
            asked = dns.message.from_wire(text)
            reply = dns.message.make_response(asked)
            found = records.get(asked.question[0].name.to_text())
            if found:
                reply.answer.append(dns.rrset.from_text_list(asked.question[0].name, 60, "IN", "SRV", found.split("\n")))
            else:
                reply.set_rcode(dns.rcode.NXDOMAIN)
            bound.sendto(reply.to_wire(), place)

    threading.Thread(target=serve, daemon=True).start()
    return bound.getsockname()[1]


@in_a_world
def private_addresses(world: World) -> None:
    """Nobody makes the front ask an address of the operator's own networks."""
    places = network(world)
    for server in ("127.0.0.1:%d" % world.a.port, "10.0.0.1", "192.168.1.1:80", "169.254.169.254:80", "[::1]:22", "[fd00::1]",
                   "[::ffff:127.0.0.1]:80", "0.0.0.0:80", "localhost:%d" % world.a.port, "0:80", "2130706433:80"):
        assert asyncio.run(reached(places, server)) in ("ValueError", "gaierror"), server
    assert not world.a.asked


TESTS = [
    expired_keys, bad_key_servers, keys_are_asked_once, kept_and_pinned_keys, own_side, unheard, not_started,
    delegation, service_records, private_addresses,
]
