"""What tests/front.py runs: a certificate authority, small servers which sign, serve keys and check what they get, and the front
over a running server. Signatures are made and checked here by signedjson, and hashes and redacted forms by
tests/matrix_events.py, by no line of the front."""

import contextlib
import http.client
import http.server
import json
import socket
import ssl
import subprocess
import sys
import tempfile
import threading
import time
import urllib.parse
from collections.abc import Callable, Iterable, Sequence
from pathlib import Path
from typing import Any

import matrix_events
from event_logs import FEDERATION, NAME, Base, Log
from matrix_events import A, Event, Json, canonical, content_hash, error, id_of, message, redacted, server_of, without
from running_server import SECONDS, Reply, Server, host_line
from signedjson.key import decode_verify_key_bytes, generate_signing_key
from signedjson.sign import sign_json, verify_signed_json
from suite import TOP
from unpaddedbase64 import decode_base64, encode_base64

FRONT = TOP / "examples/front/main.py"
DAY = 86_400_000
NEW_KEY = "-newkey", "ec", "-pkeyopt", "ec_paramgen_curve:prime256v1", "-nodes"
KEYS = {name: generate_signing_key("1") for name in ("a.example", "b.example", "c.example")}


def now() -> int:
    """The time in milliseconds."""
    return int(time.time() * 1000)


def sealed(event: Event) -> Event:
    """The event with its content hash and a signature, by the true key, of its sender's server."""
    server = server_of(event["sender"])
    made = {**event, "hashes": {"sha256": content_hash(event)}}
    return {**made, "signatures": {server: {"ed25519:1": signature_of(made, server, KEYS[server])}}}


def signature_of(event: Event, server: str, key: Any) -> str:
    """The signature of an event by a key of a server: that of its redacted form."""
    return sign_json(without(redacted(event), "signatures"), server, key)["signatures"][server]["ed25519:" + key.version]


# The events that tests make are signed by true keys.
matrix_events.sealed = sealed


def published(server: str, key: Any, **more: Json) -> Json:
    """What a server says of its key."""
    told = {"server_name": server, "valid_until_ts": now() + DAY, "old_verify_keys": {},
            "verify_keys": {"ed25519:" + key.version: {"key": encode_base64(key.verify_key.encode())}}, **more}
    return sign_json(told, server, key)


class Authority:
    """A certificate authority of this run, by openssl."""

    def __init__(self, folder: Path) -> None:
        self.folder = folder
        self.certificate = folder / "authority.pem"
        self.run("req", "-x509", *NEW_KEY, "-days", "2", "-subj", "/CN=authority", "-keyout",
                 folder / "authority.key", "-out", self.certificate)

    def run(self, *words: object) -> None:
        """Runs openssl."""
        subprocess.run(["openssl", *map(str, words)], check=True, capture_output=True, timeout=SECONDS)

    def issue(self, name: str) -> tuple[Path, Path]:
        """The files of a certificate for this name and of its key."""
        made, key, request = (self.folder / (name + it) for it in (".pem", ".key", ".csr"))
        if not made.exists():
            kind = "IP" if name[0] == "1" else "DNS"
            more = self.folder / (name + ".ext")
            more.write_text("subjectAltName=%s:%s\n" % (kind, name))
            self.run("req", *NEW_KEY, "-subj", "/CN=x", "-keyout", key, "-out", request)
            self.run("x509", "-req", "-in", request, "-CA", self.certificate, "-CAkey", self.folder / "authority.key",
                     "-CAcreateserial", "-days", "2", "-extfile", more, "-out", made)
        return made, key


class Peer:
    """A small server of one name over TLS on loopback, whose answers a test may change: `answers` has functions by the
    beginning of a path, which give a status and a body, or write the reply themselves and give None."""

    def __init__(self, authority: Authority, name: str, certificate_for: str | None = None, plain: bool = False) -> None:
        self.name, self.key = name, KEYS.get(name)
        self.events: dict[str, Event] = {}
        self.answers: dict[str, Callable[[Any], Any]] = {}
        self.asked: list[str] = []
        self.hosts: list[str] = []
        self.received: list[Json] = []
        self.faults: list[Exception] = []
        self.hub_keys: dict[str, bytes] = {}
        self.server = http.server.ThreadingHTTPServer(("127.0.0.1", 0), handler_of(self))
        self.server.daemon_threads = True
        if not plain:
            context = ssl.SSLContext(ssl.PROTOCOL_TLS_SERVER)
            context.load_cert_chain(*authority.issue(certificate_for or name))
            self.server.socket = context.wrap_socket(self.server.socket, server_side=True, do_handshake_on_connect=False)
        self.server.handle_error = lambda *_: None
        self.port = self.server.server_address[1]
        threading.Thread(target=self.server.serve_forever, daemon=True).start()

    def close(self) -> None:
        """Ends the server."""
        self.server.shutdown()
        self.server.server_close()

    def hold(self, *events: Event) -> None:
        """Has these events from now on."""
        self.events.update((id_of(it), it) for it in events)

    def answer(self, request: Any, body: bytes) -> Any:
        """The reply to a request: what the test has set, else what a server answers."""
        self.asked.append(request.path)
        self.hosts.append(request.headers["Host"])
        for beginning, give in self.answers.items():
            if request.path.startswith(beginning):
                return give(request)
        if request.path == "/_matrix/key/v2/server":
            return 200, published(self.name, self.key)
        if request.path.startswith(FEDERATION):
            self.check(request, body)
            return self.answer_signed(request, json.loads(body) if body else None)
        return 404, {}

    def check(self, request: Any, body: bytes) -> None:
        """That the hub signed the request; the hub's key was told by the front before."""
        given = dict(it.split("=", 1) for it in request.headers["Authorization"].removeprefix("X-Matrix ").split(","))
        given = {name: it.strip('"') for name, it in given.items()}
        signed = {"method": request.command, "uri": request.path, "origin": NAME, "destination": self.name}
        if body:
            signed["content"] = json.loads(body)
        signed["signatures"] = {NAME: {given["key"]: given["sig"]}}
        verify_signed_json(signed, NAME, decode_verify_key_bytes(given["key"], self.hub_keys[given["key"]]))
        assert given["origin"] == NAME and given["destination"] == self.name, given

    def answer_signed(self, request: Any, content: Json) -> tuple[int, Json]:
        """The reply to a signed request."""
        path, _, query = request.path.removeprefix(FEDERATION).partition("?")
        if path.startswith("v1/send/"):
            self.received.append(content)
            return 200, {"pdus": {id_of(it): {} for it in content["pdus"]}}
        if path.startswith("v1/get_missing_events/"):
            return 200, {"events": self.before(content["latest_events"], set(content["earliest_events"]))}
        if path.startswith("v1/backfill/"):
            starts = urllib.parse.parse_qs(query)["v"]
            return 200, {"origin": self.name, "origin_server_ts": now(), "pdus": self.before(starts, set(), True)}
        event = self.events.get(urllib.parse.unquote(path.removeprefix("v1/event/")))
        return (200, {"origin": self.name, "origin_server_ts": now(), "pdus": [event]}) if event else (404, {})

    def before(self, latest: Sequence[str], earliest: set[str], themselves: bool = False) -> list[Event]:
        """At most 20 events, as Synapse gives, nearest first."""
        found: list[Event] = []
        queue, seen = list(latest), set(earliest)
        for event_id in queue:
            event = self.events.get(event_id)
            if event and event_id not in seen and len(found) < 20:
                seen.add(event_id)
                found += [event] if themselves or event_id not in latest else []
                queue += event["prev_events"]
        return found


def handler_of(peer: Peer) -> type[http.server.BaseHTTPRequestHandler]:
    """What answers the requests to a small server."""
    class Handler(http.server.BaseHTTPRequestHandler):
        """One connection."""

        protocol_version = "HTTP/1.1"

        def answered(self) -> None:
            """Answers a request of any method."""
            body = self.rfile.read(int(self.headers.get("Content-Length", 0)))
            try:
                told = peer.answer(self, body)
            except Exception as fault:  # noqa: BLE001
                peer.faults.append(fault)
                told = 500, {}
            if told is None:
                self.close_connection = True
                return
            text = told[1] if isinstance(told[1], bytes) else canonical(told[1])
            self.send_response(told[0])
            self.send_header("Content-Length", str(len(text)))
            for name, value in told[2:]:
                self.send_header(name, value)
            self.end_headers()
            self.wfile.write(text)

        do_GET = do_PUT = do_POST = answered

        def log_message(self, *_: object) -> None:
            """Says nothing."""

    return Handler


class Front:
    """A running front; what it says on standard error is in `said`."""

    def __init__(self, folder: Path, hub_port: int, *words: object, said: Any = subprocess.PIPE) -> None:
        self.said: list[str] = []
        command = [FRONT, "--name", NAME, "--data", folder / "front", "--hub", "127.0.0.1:%d" % hub_port, *words]
        self.process = subprocess.Popen([str(it) for it in command], stdout=subprocess.PIPE, stderr=said)
        told = self.process.stdout.readline().decode()
        if not told.startswith("listening 127.0.0.1:"):
            raise AssertionError((told, self.process.stderr.read()))
        self.port = int(told.rpartition(":")[2])
        self.reader = threading.Thread(target=self.read, daemon=True)
        self.reader.start()

    def read(self) -> None:
        """Collects what is said."""
        for line in self.process.stderr or []:
            self.said.append(line.decode().rstrip("\n"))

    def wait_for_line(self, about: str) -> str:
        """The first line with these words in it, once it has been read: a reply may come before it is."""
        wait_for(lambda: any(about in it for it in self.said))
        return next(it for it in self.said if about in it)

    def stop(self) -> None:
        """Ends the front, which says of no exception that it has not foreseen."""
        self.process.terminate()
        assert self.process.wait(SECONDS) == 0
        self.reader.join(SECONDS)
        assert not any("Traceback" in it for it in self.said), self.said


class World:
    """A hub with the room of the rows, the front before it over TLS, and the servers of A and B."""

    def __init__(self, folder: Path, authority: Authority, plain: bool = False) -> None:
        self.folder, self.authority, self.plain = folder, authority, plain
        self.base = Base(Log())
        self.hub = Server(folder / "hub", "--threads", "4", hosts=[host_line(self.base.create)])
        self.a, self.b = Peer(authority, "a.example"), Peer(authority, "b.example")
        self.hosts = {"a.example:8448": self.a.port, "b.example:8448": self.b.port}
        self.front: Any = None
        self.start_front()

    def start_front(self, *words: object, **how: Any) -> Json:
        """Starts the front anew: what it says of its key."""
        if self.front:
            self.front.stop()
        hosts = self.folder / "hosts"
        hosts.write_text("".join("%s 127.0.0.1:%d\n" % it for it in self.hosts.items()))
        certificate, key = self.authority.issue(NAME)
        tls = () if self.plain else ("--certificate", certificate, "--certificate-key", key)
        self.front = Front(self.folder, self.hub.port, "--listen", "127.0.0.1:0", "--authorities",
                           self.authority.certificate, "--hosts", hosts, *tls, *words, **how)
        told = json.loads(self.raw("GET", "/_matrix/key/v2/server")[1])
        keys = {name: decode_base64(it["key"]) for name, it in told["verify_keys"].items()}
        self.a.hub_keys = self.b.hub_keys = keys
        return told

    def connect(self, port: int | None = None) -> socket.socket:
        """A connection over TLS whose certificate is checked; to the front itself a plain one, where it ends no TLS."""
        plain = socket.create_connection(("127.0.0.1", port or self.front.port), timeout=SECONDS)
        context = ssl.create_default_context(cafile=self.authority.certificate)
        return plain if self.plain and not port else context.wrap_socket(plain, server_hostname=NAME)

    def raw(self, method: str, target: str, headers: Sequence[tuple[str, str]] = (), body: bytes | None = None,
            port: int | None = None) -> Reply:
        """The status and the body of a reply, over a connection of its own."""
        connection = http.client.HTTPConnection("127.0.0.1")
        connection.sock = self.connect(port)
        with contextlib.closing(connection):
            connection.putrequest(method, target, skip_host=True)
            for name, value in [("Host", NAME), *headers]:
                connection.putheader(name, value)
            if body is not None:
                connection.putheader("Content-Length", str(len(body)))
            connection.endheaders(body)
            reply = connection.getresponse()
            return reply.status, reply.read()

    def ask(self, method: str, target: str, origin: str, content: Json = None, *, key: Any = None, text: bytes | None = None,
            port: int | None = None, **signed: Json) -> Reply:
        """The reply to a signed request; `signed` has what is signed in place of what is asked, `text` the body in place
        of the content's."""
        signature = authorization(method, target, origin, content, key or KEYS[origin], **signed)
        body = canonical(content) if text is None and content is not None else text
        return self.raw(method, target, [("Authorization", signature)], body, port)

    def send(self, number: str, events: Sequence[Json], origin: str = "a.example", **more: Any) -> Reply:
        """The reply to a transaction."""
        content = {"origin": origin, "origin_server_ts": now(), "pdus": events}
        return self.ask("PUT", FEDERATION + "v1/send/" + number, origin, content, **more)

    def fill(self) -> None:
        """The room's beginning, sent by A's server."""
        base = self.base
        events = [base.join_a, base.levels, base.rules, base.join_b]
        self.a.hold(base.create, *events)
        assert self.send("base", events) == (200, accepted(events))

    def at_hub(self, method: str, target: str, origin: str, body: bytes | None = None) -> Reply:
        """The reply of the server behind the front."""
        return self.hub.ask(method, target, 'X-Matrix origin="%s"' % origin, body)

    def close(self) -> None:
        """Ends all servers, none of which has met a fault."""
        self.front.stop()
        self.hub.stop()
        self.a.close()
        self.b.close()
        assert not self.a.faults and not self.b.faults, (self.a.faults, self.b.faults)


def authorization(method: str, target: str, origin: str, content: Json, key: Any, **signed: Json) -> str:
    """The Authorization header of a request; `signed` has what is signed in place of what is asked."""
    said = {"method": method, "uri": target, "origin": origin, "destination": NAME, **signed}
    if content is not None:
        said["content"] = content
    named = "ed25519:" + key.version
    signature = sign_json(said, origin, key)["signatures"][origin][named]
    return 'X-Matrix origin="%s",destination="%s",key="%s",sig="%s"' % (origin, said["destination"], named, signature)


def accepted(events: Iterable[Event]) -> bytes:
    """The reply to a transaction of events that are all accepted."""
    return canonical({"pdus": {id_of(it): {} for it in events}})


def wait_for(found: Callable[[], Any], seconds: float = 30) -> None:
    """Waits until something is there."""
    until = time.monotonic() + seconds
    while not found():
        assert time.monotonic() < until, "it did not come"
        time.sleep(0.05)


def free_port() -> int:
    """A port that nobody has."""
    with socket.create_server(("127.0.0.1", 0)) as bound:
        return bound.getsockname()[1]


_folder = tempfile.TemporaryDirectory()
AUTHORITY = Authority(Path(_folder.name))
OTHER = generate_signing_key("1")
SIGNATURE = error("signature")
NO_REPLY = (502, b'{"errcode":"M_UNKNOWN","error":"no reply of the server behind"}')


def in_a_world(test: Callable[[World], None]) -> Callable[[Path], None]:
    """A test in a world of its own, which is closed behind it."""
    def run(folder: Path) -> None:
        """Runs the test, and ends what it leaves behind where it fails."""
        world = World(folder, AUTHORITY)
        try:
            test(world)
        except BaseException:
            print("\n".join(world.front.said[-20:]), file=sys.stderr)
            world.front.process.kill()
            world.hub.stop()
            raise
        world.close()
    run.__name__ = test.__name__
    return run


def told(reply: Reply) -> tuple[int, Json]:
    """The status of a reply, and its body as a value."""
    status, text = reply
    return status, json.loads(text)


def is_refused(reply: Reply, status: int, code: str, about: str = "") -> bool:
    """Whether a reply is this refusal, with this text in it."""
    return reply[0] == status and json.loads(reply[1])["errcode"] == code and about in json.loads(reply[1])["error"]


def is_unsigned(reply: Reply, about: str = "") -> bool:
    """Whether a reply says that the signature does not hold."""
    return is_refused(reply, 401, "M_UNAUTHORIZED", about)


def a_message(world: World, text: str = "m", prev: Event | None = None) -> Event:
    """A message of A behind this event, or behind B's join."""
    return message(A, [prev or world.base.join_b], world.base.of_a, text)
