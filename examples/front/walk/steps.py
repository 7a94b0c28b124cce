#!/usr/bin/python3
"""The steps of README's walk: what the users of a.example and b.example do in a room that both servers host.

    steps.py DIRECTORY create      makes both signing keys and prints the line that hosts the room
    steps.py DIRECTORY talk        A makes the room, B joins it, A writes while b.example is not told, and then is"""
import http.client
import json
import socket
import ssl
import sys
import time
import urllib.parse
from pathlib import Path

sys.dont_write_bytecode = True
HERE = Path(__file__).resolve().parent
sys.path[:0] = [str(HERE.parent), str(HERE.parents[2] / "tests")]
import matrix_events  # noqa: E402
from keys import named, own_keys  # noqa: E402
from matrix_events import canonical, id_of  # noqa: E402
from signedjson.sign import sign_json  # noqa: E402

FEDERATION = "/_matrix/federation/"
FOLDER = Path(sys.argv[1])
KEYS = {}
for server in ("a.example", "b.example"):
    (FOLDER / server).mkdir(mode=0o700, exist_ok=True)
    KEYS[server] = own_keys(FOLDER / server / "signing.key")[0]


def sealed(event):
    """The event with its content hash, signed by its sender's server."""
    server = event["sender"].partition(":")[2]
    made = {**event, "hashes": {"sha256": matrix_events.content_hash(event)}}
    kept = matrix_events.without(matrix_events.redacted(made), "signatures")
    return {**made, "signatures": sign_json(kept, server, KEYS[server])["signatures"]}


def ask(server, method, target, origin, content=None):
    """What a server answers to another one's signed request, over TLS."""
    hosts = dict(line.split() for line in (FOLDER / "hosts").read_text().splitlines())
    address, _, port = hosts[server + ":8448"].rpartition(":")
    signed = {"method": method, "uri": target, "origin": origin, "destination": server}
    signed = sign_json(signed if content is None else {**signed, "content": content}, origin, KEYS[origin])
    header = 'X-Matrix origin="%s",destination="%s",key="%s",sig="%s"' % (
        origin, server, named(KEYS[origin]), signed["signatures"][origin][named(KEYS[origin])])
    connection = http.client.HTTPConnection(server)
    trusted = ssl.create_default_context(cafile=FOLDER / "authority.pem")
    connection.sock = trusted.wrap_socket(socket.create_connection((address, int(port)), timeout=120), server_hostname=server)
    connection.request(method, target, None if content is None else canonical(content), {"Authorization": header})
    reply = connection.getresponse()
    told = json.loads(reply.read())
    connection.close()
    assert reply.status == 200, (server, target, reply.status, told)
    return told


def send(server, origin, events):
    number = "walk%d" % time.monotonic_ns()
    told = ask(server, "PUT", FEDERATION + "v1/send/" + number, origin, {"origin": origin, "pdus": events})["pdus"]
    faults = [it["error"] for it in told.values() if it]
    print("%s sends %d events to %s: %s" % (origin, len(events), server, ", ".join(faults) or "accepted"))


def talk():
    create = json.loads((FOLDER / "rooms.jsonl").read_text())["event"]
    a = matrix_events.join(matrix_events.A, [create], [create])
    levels = matrix_events.levels(matrix_events.A, [a], [create, a], {matrix_events.A: 100})
    rules = matrix_events.rules([levels], [create, a, levels], "public")
    for server in ("a.example", "b.example"):
        send(server, "a.example", [a, levels, rules])
    room, user = (urllib.parse.quote(it, safe="") for it in (create["room_id"], matrix_events.B))
    template = ask("a.example", "GET", FEDERATION + "v1/make_join/%s/%s?ver=6" % (room, user), "b.example")["event"]
    joined = sealed({**template, "origin": "b.example"})
    path = FEDERATION + "v2/send_join/%s/%s" % (room, urllib.parse.quote(id_of(joined), safe=""))
    state = ask("a.example", "PUT", path, "b.example", joined)["state"]
    print("b.example joins by a.example, which tells it of %d events of state" % len(state))
    send("b.example", "b.example", [joined])
    said = [joined]
    for number in range(100):
        said.append(matrix_events.message(matrix_events.A, said[-1:], [create, a, levels], "message %d" % number))
    send("a.example", "a.example", said[1:51])
    send("a.example", "a.example", said[51:])
    send("b.example", "a.example", said[-1:])
    path = FEDERATION + "v1/backfill/%s?limit=100&v=%s" % (room, urllib.parse.quote(id_of(said[-1]), safe=""))
    shown = {id_of(it) for it in ask("b.example", "GET", path, "b.example")["pdus"]}
    print("b.example has %d of the 100 messages" % len(shown & {id_of(it) for it in said[1:]}))


if __name__ == "__main__":
    matrix_events.sealed = sealed
    if sys.argv[2:] == ["create"]:
        print(canonical({"step": "host", "event": matrix_events.create()}).decode())
    else:
        talk()
