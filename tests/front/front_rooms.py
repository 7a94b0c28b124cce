"""Tests of the front: missing events and joins, behind nginx, and the walk of its README."""

import os
import re
import shutil
import signal
import subprocess
import time
from pathlib import Path
from typing import Any
from urllib.parse import unquote

from front_servers import (
    AUTHORITY, FEDERATION, KEYS, OTHER, Peer, World, a_message, accepted, authorization, free_port, in_a_world,
    is_unsigned, sealed, signature_of, told, wait_for,
)
from event_logs import NAME, quoted
from matrix_events import A, B, C, Event, error, id_of, join, message, without
from running_server import SECONDS
from suite import TOP, LeftOut, program

# ---- gaps and joins

def chain(world: World, count: int) -> list[Event]:
    """So many messages, each after the one before."""
    made: list[Event] = []
    for number in range(count):
        made.append(a_message(world, "m%d" % number, made[-1] if made else None))
    return made


@in_a_world
def gap_that_heals(world: World) -> None:
    """300 messages that the hub never got, asked for 20 at a time; the reply is that to the same events, and a replay of
    the number is answered the same."""
    world.fill()
    events = chain(world, 301)
    world.a.hold(*events)
    assert world.send("t1", events[-1:]) == (200, accepted(events[-1:]))
    for made in (events[0], events[150], events[299]):
        shown = told(world.ask("GET", FEDERATION + "v1/event/" + quoted(id_of(made)), "b.example"))
        assert shown[0] == 200 and shown[1]["pdus"] == [made], shown
    asked = len(world.a.asked)
    assert asked < 30, world.a.asked
    assert world.send("t1", []) == (200, b'{"pdus":{"%s":{"error":"missing events"}}}' % id_of(events[-1]).encode())
    assert world.send("t1", events[-1:]) == (200, accepted(events[-1:]))
    assert len(world.a.asked) == asked


@in_a_world
def gap_by_other_ways(world: World) -> None:
    """A server that has no get_missing_events is asked by backfill, and one that has neither event by event; state that
    is cited in `auth_events` alone comes too."""
    world.fill()
    base = world.base
    levels = sealed(without({**base.levels, "depth": 7, "prev_events": [id_of(base.join_b)], "content": {
        "users": {A: 100, B: 60}}}, "hashes", "signatures"))
    levels = sealed(without({**levels, "auth_events": [id_of(it) for it in base.of_a]}, "hashes", "signatures"))
    first = message(A, [levels], [base.create, base.join_a, levels], "1")
    second = message(A, [first], [base.create, base.join_a, levels], "2")
    world.a.hold(levels, first, second)
    none = lambda _: (404, {"errcode": "M_UNRECOGNIZED"})  # noqa: E731
    world.a.answers[FEDERATION + "v1/get_missing_events"] = none
    assert world.send("t1", [second]) == (200, accepted([second]))
    third = message(A, [second], [base.create, base.join_a, levels], "3")
    fourth = message(A, [third], [base.create, base.join_a, levels], "4")
    world.a.hold(third, fourth)
    world.a.answers[FEDERATION + "v1/backfill"] = none
    assert world.send("t2", [fourth]) == (200, accepted([fourth]))


@in_a_world
def gap_of_a_new_server(world: World) -> None:
    """The join of the sender itself lies in the gap: what the hub holds is told by its answers to the room's first server,
    and not by those to the sender, which is shown nothing."""
    world.fill()
    base, c = world.base, Peer(AUTHORITY, "c.example")
    c.hub_keys = world.a.hub_keys
    world.hosts["c.example:8448"] = c.port
    world.start_front()
    joined = join(C, [base.join_b], [base.create, base.levels, base.rules])
    said = message(C, [joined], [base.create, base.levels, joined])
    c.hold(joined, said)
    assert world.send("t1", [said], origin="c.example") == (200, accepted([said]))
    assert len(c.asked) == 2 and "get_missing_events" in c.asked[1] and not c.faults, (c.asked, c.faults)
    c.close()


@in_a_world
def child_before_its_parent(world: World) -> None:
    """In one transaction: nobody has to be asked for what it has itself."""
    world.fill()
    first, second = chain(world, 2)
    assert world.send("t1", [second, first]) == (200, accepted([second, first]))
    assert world.a.asked == ["/_matrix/key/v2/server"], world.a.asked


@in_a_world
def gap_that_does_not_heal(world: World) -> None:
    """A server that gives nothing, forged events, or others than were asked for: the first reply stands, in time, and the
    server is not asked again at once."""
    world.fill()
    events = chain(world, 3)
    forged = {**events[1], "signatures": {"a.example": {"ed25519:1": signature_of(events[1], "a.example", OTHER)}}}
    unasked = a_message(world, "unasked")
    reply = {"events": [forged, unasked, events[0], 5, {}, {"room_id": "!r:a.example", "prev_events": [[]], "auth_events": 3}]}
    world.a.answers[FEDERATION + "v1/get_missing_events"] = lambda _: (200, reply)
    missing = 200, {"pdus": {id_of(events[2]): error("missing events")}}
    assert told(world.send("t1", events[2:])) == missing
    assert world.ask("GET", FEDERATION + "v1/event/" + quoted(id_of(unasked)), "b.example")[0] == 404
    asked = len(world.a.asked)
    assert asked <= 6, world.a.asked
    world.front.wait_for_line("did not come")
    assert told(world.send("t2", events[2:])) == missing
    assert len(world.a.asked) == asked
    assert world.send("t3", events) == (200, accepted(events))


@in_a_world
def gap_without_end(world: World) -> None:
    """A server that gives one event a time, each of which cites one more: it is asked 300 times and no more."""
    world.fill()
    events = chain(world, 400)
    by_id = {id_of(it): it for it in events}
    world.a.answers[FEDERATION + "v1/backfill"] = lambda request: (200, {"pdus": [by_id[unquote(request.path.split("v=")[-1])]]})
    world.a.answers[FEDERATION + "v1/get_missing_events"] = lambda _: (404, {})
    assert told(world.send("t1", events[-1:])) == (200, {"pdus": {id_of(events[-1]): error("missing events")}})
    assert 290 <= len(world.a.asked) <= 302, len(world.a.asked)
    world.front.wait_for_line("1 did not come")


@in_a_world
def half_bodies(world: World) -> None:
    """Clients that send half of a large body hold up no small request, and once they are gone no large one."""
    target = FEDERATION + "v1/send/t1"
    head = "PUT %s HTTP/1.1\r\nHost: x\r\nContent-Length: 100000\r\nAuthorization: %s\r\n\r\n{" % (
        target, authorization("PUT", target, "a.example", {}, KEYS["a.example"]))
    clients = [world.connect() for _ in range(8)]
    for client in clients:
        client.sendall(head.encode())
    started = time.monotonic()
    world.fill()
    assert time.monotonic() - started < 60, "it waited for the half bodies, of which two at a time have 30 seconds"
    for client in clients:
        client.close()
    large = [a_message(world, str(it) + "m" * 10_000) for it in range(20)]
    assert world.send("t2", large) == (200, accepted(large))


@in_a_world
def join_reaches_other_servers(world: World) -> None:
    """A join that was accepted is sent to the servers in the room, but not to the new one; again after a failure, also
    where the front was started anew meanwhile."""
    world.fill()
    failed = []
    world.a.answers[FEDERATION + "v1/send"] = lambda _: failed.append(1) or (500, {})
    user = "@b2:b.example"
    template = told(world.ask("GET", FEDERATION + "v1/make_join/%s/%s?ver=6" % (quoted("!r:a.example"), quoted(user)), "b.example"))
    made = sealed({**template[1]["event"], "origin": "b.example"})
    path = FEDERATION + "v2/send_join/%s/%s" % (quoted(made["room_id"]), quoted(id_of(made)))
    status, reply = told(world.ask("PUT", path, "b.example", made))
    assert status == 200 and reply["event"] == made and len(reply["state"]) == 5, reply
    wait_for(lambda: len(failed) >= 2)
    world.start_front()
    del world.a.answers[FEDERATION + "v1/send"]
    wait_for(lambda: world.a.received)
    assert [it["pdus"] for it in world.a.received] == [[made]] and world.a.received[0]["origin"] == NAME
    time.sleep(0.5)
    world.start_front()
    time.sleep(1.5)
    assert len(world.a.received) == 1 and not world.b.received, "it is sent once, and not to its own server"


# ---- behind nginx

def nginx(folder: Path) -> str | None:
    """The program of nginx: the one that is installed, or the one of Debian's package, unpacked and not installed."""
    if found := shutil.which("nginx") or shutil.which("nginx", path="/usr/sbin"):
        return found
    if shutil.which("apt-get"):
        subprocess.run(["apt-get", "download", "nginx"], cwd=folder, capture_output=True, timeout=300)
        for package in folder.glob("nginx_*.deb"):
            subprocess.run(["dpkg", "-x", package, folder / "nginx"], capture_output=True, timeout=300)
    unpacked = folder / "nginx/usr/sbin/nginx"
    return str(unpacked) if unpacked.exists() and subprocess.run([unpacked, "-v"], capture_output=True).returncode == 0 else None


def behind_nginx(folder: Path) -> None:
    """The configuration of examples/front passes `nginx -t`, and nginx with it ends TLS before the front, with the
    certificate, the ports and the directory of this test in place of its own."""
    server_program = nginx(folder)
    if server_program is None:
        raise LeftOut("nginx is not there and could not be fetched")
    world = World(folder, AUTHORITY, plain=True)
    world.fill()
    certificate, key = AUTHORITY.issue(NAME)
    port, other = free_port(), free_port()
    places = [(it, folder / it) for it in ("client_body", "proxy", "fastcgi", "uwsgi", "scgi")]
    text = (TOP / "examples/front/nginx.conf").read_text()
    for old, new in (("/etc/letsencrypt/live/hub.example/fullchain.pem", certificate), ("listen [::]:", "# listen [::]:"),
                     ("/etc/letsencrypt/live/hub.example/privkey.pem", key), ("127.0.0.1:9000", "127.0.0.1:%d" % world.front.port),
                     ("listen 8448 ", "listen 127.0.0.1:%d " % port), ("listen 443 ", "listen 127.0.0.1:%d " % other),
                     ("/run/nginx.pid", folder / "nginx.pid"), ("/var/log/nginx", folder), ("user www-data;", ""),
                     ("http {", "http {" + "".join("%s_temp_path %s;" % it for it in places))):
        assert old in text, old
        text = text.replace(old, str(new))
    (folder / "nginx.conf").write_text(text)
    words = [server_program, "-p", str(folder), "-c", str(folder / "nginx.conf"), "-e", "stderr", "-g", "daemon off;"]
    said = subprocess.run([*words, "-t"], capture_output=True, timeout=SECONDS)
    assert said.returncode == 0 and b"test is successful" in said.stderr, said
    server = subprocess.Popen(words, stderr=subprocess.DEVNULL)
    try:
        wait_for(lambda: answers(world, port))
        made = a_message(world)
        assert world.send("t1", [made], port=port) == (200, accepted([made]))
        assert is_unsigned(world.send("t2", [], key=OTHER, port=port))
        path = FEDERATION + "v1/event/%21%2F%3a?x=%20"
        assert world.ask("GET", path, "a.example", port=port) == world.at_hub("GET", path, "a.example")
        assert told(world.raw("GET", "/.well-known/matrix/server", port=other))[1] == {"m.server": NAME + ":8448"}
        assert world.raw("GET", "/_matrix/client/versions", port=port)[0] == 404
    finally:
        server.terminate()
        server.wait(SECONDS)
        world.close()


def answers(world: World, port: int) -> bool:
    """Whether the front is reached at this port."""
    try:
        return world.raw("GET", "/_matrix/key/v2/server", port=port)[0] == 200
    except OSError:
        return False


# ---- README

PACKAGES = "python3-aiohttp python3-signedjson python3-dnspython openssl".split()


def walk_of_the_readme(folder: Path) -> None:
    """The walk's commands, as they stand, but for the ports and for the packages, print what README shows."""
    page = (TOP / "examples/front/README.md").read_text()
    blocks = [it.strip("\n") for it in re.findall(r"^```\n(.*?)^```$", page, re.DOTALL | re.MULTILINE)]
    install_line, make, create, start, talk = blocks
    assert install_line.split()[4:] == PACKAGES, install_line
    command, _, shown = talk.removeprefix("$ ").partition("\n")
    (folder / "bin").mkdir()
    (folder / "bin/mx_federd").symlink_to(program())
    home = {**os.environ, "HOME": str(folder), "PATH": "%s/bin:%s" % (folder, os.environ["PATH"])}
    ports = {it: str(free_port()) for it in ("8451", "8452", "8011", "8012")}

    def run(text: str, **how: Any) -> "subprocess.Popen[bytes]":
        """Starts these commands, on ports that are free."""
        for old, new in ports.items():
            text = text.replace(old, new)
        return subprocess.Popen(["bash", "-euc", text], cwd=TOP, env=home, start_new_session=True, **how)

    assert run(make + "\n" + create).wait(SECONDS) == 0
    with open(folder / "said", "w+") as said:
        servers = run(start + "\nwait", stdout=said, stderr=said)
        try:
            wait_for(lambda: (folder / "said").read_text().count("listening") == 4, SECONDS)
            talking = run(command, stdout=subprocess.PIPE)
            told = talking.communicate(timeout=SECONDS)[0].decode().strip("\n")
        finally:
            os.killpg(servers.pid, signal.SIGTERM)
            servers.wait(SECONDS)
        assert told == shown, (told, said.seek(0), said.read())


TESTS = [
    gap_that_heals, gap_by_other_ways, gap_of_a_new_server, child_before_its_parent, gap_that_does_not_heal,
    gap_without_end, half_bodies, join_reaches_other_servers, behind_nginx, walk_of_the_readme,
]
