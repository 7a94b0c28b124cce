#!/usr/bin/env python3
"""What `mx_federd serve` tells an operator: each line of `--log` and each figure of `--admin` against what was done, which is counted
here; the port while all connections are taken, while a file fails, and among clients that mean harm; the file of the log while it is
moved away, and where it can't be written."""

import contextlib
import http.client
import json
import os
import re
import resource
import shutil
import socket
import subprocess
import sys
import threading
import time
from collections import Counter
from collections.abc import Iterator, Sequence
from pathlib import Path
from typing import Any

from suite import LeftOut, program, run_tests
from event_logs import FEDERATION, NAME, Base, header, state_path
from matrix_events import A, Event, canonical, create, id_of, message
from running_server import SECONDS, Refused, Server, asked, base_room, free_port, getting, host_line, sending, serving

STORAGE = 503, b'{"errcode":"M_UNKNOWN","error":"storage"}'
UNKNOWN = "GET", "/_matrix/federation/v1/unknown"
# How long a request at the admin port may take, its client's silence included, on a busy machine.
SECONDS_TO_ANSWER = 20
# A line of text: the moment, the level, the kind, and what is told.
TEXT_LINE = re.compile(r"\d{4}-\d\d-\d\dT\d\d:\d\d:\d\d\.\d{3}Z (ERROR|WARN|INFO) [a-z_]+( [a-z_]+=(\d+|\"[^\n]*\"))+")
# A line of the text form of Prometheus: a comment, or a figure with its labels.
FIGURE = re.compile(r"([a-z_]+)(?:\{((?:[a-z]+=\"[^\"\\\n]*\",?)+)\})? (\d+(?:\.\d+)?)")
LABEL = re.compile(r"([a-z]+)=\"([^\"]*)\"")


# ---- what is asked

def shown(port: int, target: str, method: str = "GET", body: bytes | None = None, **headers: str) -> tuple[int, str]:
    """The reply of the admin port: its status and its text."""
    connection = http.client.HTTPConnection("127.0.0.1", port, timeout=SECONDS_TO_ANSWER)
    try:
        connection.request(method, target, body, headers)
        reply = connection.getresponse()
        return reply.status, reply.read().decode()
    finally:
        connection.close()


def figures(text: str) -> dict[str, float]:
    """The figures of a text of Prometheus, by their names with their labels. Each has its two lines before it, and stands once."""
    found: dict[str, float] = {}
    kinds: dict[str, str] = {}
    lines = text.split("\n")
    assert lines.pop() == ""
    helped = ""
    for line in lines:
        if line.startswith("# HELP "):
            helped = line.split(" ")[2]
            continue
        if line.startswith("# TYPE "):
            _, _, name, kind = line.split(" ")
            assert name == helped and name not in kinds and kind in ("counter", "gauge", "histogram"), line
            kinds[name] = kind
            continue
        matched = FIGURE.fullmatch(line)
        assert matched, line
        family = matched[1] if matched[1] in kinds else re.sub("_(bucket|sum|count)$", "", matched[1])
        assert family == helped and (kinds[family] == "histogram") == (family != matched[1]), line
        name = matched[1] + "".join("|%s=%s" % it for it in LABEL.findall(matched[2] or ""))
        assert name not in found, line
        found[name] = float(matched[3])
    return found


def figure(port: int, name: str, wanted: float) -> None:
    """Waits until a figure of the metrics is so: rooms are counted every two seconds."""
    until = time.monotonic() + SECONDS_TO_ANSWER
    while (found := figures(shown(port, "/metrics")[1])).get(name) != wanted:
        assert time.monotonic() < until, (name, wanted, found)
        time.sleep(0.1)


@contextlib.contextmanager
def room(folder: Path, *words: object) -> Iterator[tuple[Server, Base]]:
    """A server over new files with the room of the rows, which is stopped at the end. Its files may fail."""
    server, base = base_room(folder, *words, restore_signals=False)
    try:
        yield server, base
    finally:
        server.stop()


def written(log: Path, is_enough: Any) -> list[str]:
    """The lines of a log, once there are enough."""
    until = time.monotonic() + SECONDS_TO_ANSWER
    while True:
        lines = log.read_text().splitlines() if log.exists() else []
        if is_enough(lines):
            return lines
        assert time.monotonic() < until, lines
        time.sleep(0.05)


def records(log: Path, count: int) -> list[dict[str, Any]]:
    """The records of a log of JSON, once there are so many of requests."""
    def is_enough(lines: Sequence[str]) -> bool:
        return sum('"kind":"request"' in line for line in lines) >= count

    return [json.loads(line) for line in written(log, is_enough)]


# ---- what is done

class Done:
    """Requests, and what a log and figures have to tell of them."""

    def __init__(self, server: Server, base: Base) -> None:
        self.server, self.base = server, base
        self.requests: list[dict[str, Any]] = []
        self.events: list[dict[str, Any]] = []
        # the transaction that made the room
        self.replies = Counter({("send", 200): 1})
        self.results = Counter({"accepted": 5})

    def ask(self, request: tuple[Any, ...], route: str, status: int, **told: str) -> None:
        """One request."""
        reply = self.server.ask(*request)
        assert reply[0] == status, (request[:2], reply)
        level = "INFO" if status < 500 else "WARN"
        self.requests.append({"kind": "request", "level": level, "method": request[0], "route": route, "status": status,
                              "bytes": len(reply[1]), **told})
        self.replies[route, status] += 1

    def send(self, txn: str, event: Event, cause: str = "") -> None:
        """A transaction with one event, which is kept or not for this."""
        self.ask(sending("b.example", txn, [event]), "send", 200, origin="b.example")
        result = cause.partition(":")[0] or "accepted"
        self.results[result] += 1
        if cause:
            kind = "rejected" if result == "rejected" else "refused"
            self.events.append({"kind": kind, "level": "INFO", "origin": "b.example", "event_id": id_of(event),
                                "room": event["room_id"], "sender": event["sender"], "cause": cause})

    def all(self) -> None:
        """Requests of each kind."""
        base, room_id = self.base, self.base.create["room_id"]
        self.send("t1", message(A, [base.join_c], base.of_a))
        gone = message(A, [base.join_c], base.of_a, "gone")
        self.send("t2", message(A, [gone], base.of_a), "missing events")
        self.send("t3", message(A, [base.join_c], base.of_a, room="!other:a.example"), "unknown room")
        self.send("t4", message("@d:a.example", [base.join_c], [base.create, base.levels]), "rejected: A5")
        self.ask(getting("c.example", state_path("state_ids", base.join_b)), "state_ids", 200, origin="c.example", room=room_id)
        self.ask(getting("c.example", state_path("state", base.join_b)), "state", 200, origin="c.example", room=room_id)
        self.ask(getting("c.example", "v1/event/" + id_of(base.join_b)), "event", 200, origin="c.example")
        self.ask(getting("c.example", "v1/event/$unknown"), "event", 404, origin="c.example")
        self.ask(UNKNOWN, "unknown", 404)
        self.ask(("POST", FEDERATION + "v1/event/$x"), "event", 405)
        self.ask(("PUT", FEDERATION + "v1/send/t5", header("b.example"), b"x"), "send", 400)
        self.ask(("GET", FEDERATION + "v1/event/$x"), "event", 401)


def without_times(record: dict[str, Any]) -> dict[str, Any]:
    """A record without what depends on the moment."""
    return {key: value for key, value in record.items() if key not in ("at", "milliseconds")}


# ---- the log

def each_line(folder: Path) -> None:
    """The log has a line for each request, with its origin, method, route, room, status and bytes, and before it one for each of
    its events that was refused or rejected, with the cause that the reply tells; and one for each line of standard error. None has
    a body or anything of an event's content."""
    log, since = folder / "log", time.time()
    with room(folder, "--log", log, "--log-format", "json") as (server, base):
        done = Done(server, base)
        done.all()
        lines = records(log, 1 + len(done.requests))
    requests = [without_times(it) for it in lines if it["kind"] == "request"]
    assert requests[1:] == done.requests, (requests, done.requests)
    events = [without_times(it) for it in lines if it["kind"] in ("refused", "rejected")]
    assert events == done.events, (events, done.events)
    notices = [without_times(it) for it in lines if it["kind"] == "started"]
    assert notices == [{"kind": "started", "level": "INFO", "text": "serving %s" % (folder / "base")}], notices
    assert len(lines) == len(requests) + len(events) + len(notices), lines
    assert all(since - 1 < it["at"] / 1000 < time.time() + 1 for it in lines), lines
    assert all(0 <= it["milliseconds"] < 60_000 for it in lines if it["kind"] == "request"), lines
    places = [place for place, it in enumerate(lines) if it["kind"] == "rejected"]
    assert all(lines[place + 1]["route"] == "send" for place in places), lines
    assert '"body"' not in log.read_text() and "gone" not in log.read_text()


def lines_of_text(folder: Path) -> None:
    """As text each line has its moment, level and kind before what is told, and no text of a client ends a line or begins a
    member."""
    log = folder / "log"
    with room(folder, "--log", log) as (server, _):
        hostile = 'X-Matrix origin="b.example",destination="hub.example",key="ed25519:a",sig="x"'
        assert server.ask("GET", FEDERATION + "v1/event/$a%0A%22b%22%20c=1", hostile)[0] in (400, 404)
        lines = written(log, lambda lines: sum(" request " in line for line in lines) >= 2)
    assert all(TEXT_LINE.fullmatch(line) for line in lines), lines
    last = [line for line in lines if " request " in line][-1]
    assert last.split(" ", 3)[3].startswith('origin="b.example" method="GET" route="event" status='), lines


def levels(folder: Path) -> None:
    """At the level `warn` requests that the server can answer have no line, and those that it can't have one; at `error` failed
    files alone have."""
    for level, kinds in (("warn", {"file_failed", "request"}), ("error", {"file_failed"})):
        log, data = folder / level, folder / ("of_" + level)
        data.mkdir()
        with room(data, "--log", log, "--log-format", "json", "--log-level", level) as (server, base):
            fill(server, base)
            lines = written(log, lambda lines: any("file_failed" in line for line in lines))
            time.sleep(1)
            lines = written(log, lambda lines: True)
        told = [json.loads(line) for line in lines]
        assert {it["kind"] for it in told} == kinds, told
        assert all(it["status"] == 503 for it in told if it["kind"] == "request"), told


def on_standard_error(folder: Path) -> None:
    """Where the log goes to standard error, each line there is a record."""
    server, _ = base_room(folder, "--log", "-", "--log-format", "json")
    assert server.ask(*UNKNOWN)[0] == 404
    time.sleep(1)
    server.process.terminate()
    lines = [json.loads(line) for line in server.process.stderr.read().splitlines()]
    assert Counter(it["kind"] for it in lines) == {"started": 1, "request": 2}, lines
    server.stop()


def moved_away(folder: Path) -> None:
    """A log that is moved away again and again while clients ask is begun anew, and no line of it is lost."""
    log, clients, each = folder / "log", 4, 300
    with room(folder, "--threads", "2", "--log", log, "--log-format", "json") as (server, _):
        def client() -> None:
            """Asks on one connection."""
            connection = server.connect()
            for _ in range(each):
                connection.request(*UNKNOWN)
                connection.getresponse().read()
            connection.close()

        threads = [threading.Thread(target=client) for _ in range(clients)]
        for thread in threads:
            thread.start()
        moved = 0
        while any(thread.is_alive() for thread in threads):
            with contextlib.suppress(FileNotFoundError):
                os.rename(log, folder / ("moved%d" % moved))
                moved += 1
            time.sleep(0.05)
        for thread in threads:
            thread.join(SECONDS)
        wanted = 1 + clients * each

        def count() -> int:
            """How many lines of requests the files have."""
            files = [*folder.glob("moved*"), log] if log.exists() else [*folder.glob("moved*")]
            return sum(line.count('"kind":"request"') for file in files for line in file.read_text().splitlines())

        until = time.monotonic() + SECONDS_TO_ANSWER
        while count() < wanted and time.monotonic() < until:
            time.sleep(0.1)
        assert moved > 1 and count() == wanted, (moved, count(), wanted)
        assert not any("dropped" in file.read_text() for file in folder.glob("moved*"))


def log_that_fails(folder: Path) -> None:
    """A server whose log takes nothing answers all the same; one whose log can't be opened does not start."""
    with room(folder, "--log", "/dev/full") as (server, _):
        assert server.ask(*UNKNOWN)[0] == 404
    try:
        Server(folder / "other", "--log", folder / "none" / "log")
    except Refused as refused:
        status, told = refused.args
        assert status == 1 and told.splitlines()[0] == b"failed read or write", refused.args
        assert told.splitlines()[1] == b"%s: No such file or directory (os error 2)" % bytes(folder / "none" / "log"), refused.args
    else:
        raise AssertionError("it started")


def a_gap_that_lasts(folder: Path) -> None:
    """Once 100 events of a server in a row were refused since events that they cite are missing, and none was kept, standard error
    and the log warn, once, and the metrics count that server until one of its events is kept."""
    log, port = folder / "log", free_port()
    server, base = base_room(folder, "--log", log, "--log-format", "json", "--admin", port)
    gone = message(A, [base.join_c], base.of_a, "gone")
    after = [message(A, [gone], base.of_a, "m%d" % number) for number in range(100)]
    warning = "warning: b.example: 100 of its events in a row were refused with missing events, and none was kept"
    for number, (begin, end) in enumerate(((0, 50), (50, 99))):
        assert server.ask(*sending("b.example", "t%d" % number, after[begin:end]))[0] == 200
    assert server.ask(*sending("c.example", "t", after[:50]))[0] == 200
    assert not any(it["kind"] == "warning" for it in records(log, 4))
    for number in range(2):
        assert server.ask(*sending("b.example", "u%d" % number, after[99:] + after[:10]))[0] == 200
    told = [it for it in records(log, 6) if it["kind"] == "warning"]
    assert figures(shown(port, "/metrics")[1])["mx_federd_lasting_gaps"] == 1
    assert [without_times(it) for it in told] == [{"kind": "warning", "level": "WARN", "text": warning}], told
    said = message("@b:b.example", [base.join_c], [base.create, base.levels, base.join_b])
    kept = server.ask(*sending("b.example", "kept", [said]))
    assert kept == (200, canonical({"pdus": {id_of(said): {}}})), kept
    assert figures(shown(port, "/metrics")[1])["mx_federd_lasting_gaps"] == 0
    told = server.said(b"warning: ")
    server.process.terminate()
    told += server.process.stderr.read()
    assert told.decode().splitlines()[1:] == [warning], told
    server.stop()


# ---- the admin port

def each_figure(folder: Path) -> None:
    """The metrics have what was done: requests by route and status, how long they took, and what became of events."""
    port, since = free_port(), int(time.time())
    with room(folder, "--admin", port, "--threads", "2") as (server, base):
        done = Done(server, base)
        done.all()
        assert shown(port, "/health") == (200, "ok\n")
        status, text = shown(port, "/metrics")
    assert status == 200
    found = figures(text)
    replies = {"mx_federd_requests_total|route=%s|status=%d" % it: count for it, count in done.replies.items()}
    assert {name: found[name] for name in found if name.startswith("mx_federd_requests_total")} == replies, found
    names = ("accepted", "rejected", "unknown room", "server acl", "second create", "signature", "missing events", "room full")
    results = {"mx_federd_events_total|result=" + name: done.results[name] for name in names}
    assert {name: found[name] for name in found if name.startswith("mx_federd_events_total")} == results, found
    buckets = [found[name] for name in found if name.startswith("mx_federd_request_seconds_bucket")]
    count = sum(done.replies.values())
    assert len(buckets) == 12 and buckets == sorted(buckets) and buckets[-1] == count, buckets
    assert found["mx_federd_request_seconds_count"] == count and 0 < found["mx_federd_request_seconds_sum"] < 60 * count, found
    assert found["mx_federd_open_transactions"] == found["mx_federd_failed_files"] == found["mx_federd_lasting_gaps"] == 0, found
    assert found["mx_federd_dropped_log_lines_total"] == found["mx_federd_held_bytes"] == 0, found
    transactions = sum(count for (route, status), count in done.replies.items() if (route, status) == ("send", 200))
    assert found["mx_federd_kept_transactions"] == transactions, found
    assert since <= found["mx_federd_start_time_seconds"] <= time.time(), found


def each_connection(folder: Path) -> None:
    """The metrics tell how many connections are idle, how many wait for their clients within a request, how many are answered, and
    how many bytes are held of what has come."""
    port = free_port()
    with room(folder, "--admin", port, "--threads", "1") as (server, _):
        name = "mx_federd_connections|state="
        # the connection that made the room is closed
        figure(port, name + "idle", 0)
        head = b"PUT /_matrix/federation/v1/send/x HTTP/1.1\r\nHost: hub.example\r\nContent-Length: 1000000\r\n\r\n"
        silent, begun = [server.socket() for _ in range(3)], [server.socket() for _ in range(2)]
        for client in begun:
            client.sendall(head + b"x" * 500_000)
        for state, wanted in (("idle", 3), ("slow", 2), ("busy", 0)):
            figure(port, name + state, wanted)
        found = figures(shown(port, "/metrics")[1])["mx_federd_held_bytes"]
        assert 900_000 <= found <= 3_000_000, found
        for client in silent + begun:
            client.close()
        figure(port, name + "slow", 0)
        figure(port, "mx_federd_held_bytes", 0)


def rooms(port: int) -> list[dict[str, Any]]:
    """The rooms that the port lists."""
    status, text = shown(port, "/rooms")
    assert status == 200 and (not text or text.endswith("\n")), (status, text)
    return [json.loads(line) for line in text.splitlines()]


def in_all_shards(port: int, name: str) -> float:
    """The sum of a figure over all shards."""
    return sum(value for key, value in figures(shown(port, "/metrics")[1]).items() if key.startswith(name + "|shard="))


def each_room(folder: Path) -> None:
    """The port lists the rooms, and hosts further ones as lines of a log do; what it hosted is there at the next start."""
    port, second = free_port(), create("!second:a.example", room_version="7")
    not_a_create = message(A, [], [], room="!third:a.example")
    answers = ((host_line(second), 200, {"hosted": id_of(second)}), (host_line(second) + b"\n", 200, {"already": id_of(second)}),
               (host_line({}), 400, {"refused": "malformed"}), (host_line(not_a_create), 400, {"refused": "not a create event"}),
               (b"", 400, {"error": "bad line"}), (b"x", 400, {"error": "bad line"}))
    listed = [{"events": 1, "extremities": 1, "joined_servers": 0, "most_events": 50_000, "room": "!second:a.example", "version": "7"}]
    with serving(folder / "data", "--admin", port, "--shards", "3"):
        assert not rooms(port)
        for line, status, answer in answers:
            assert shown(port, "/rooms", "POST", line) == (status, canonical(answer).decode() + "\n"), (line, status)
        assert rooms(port) == listed, rooms(port)
        until = time.monotonic() + SECONDS_TO_ANSWER
        while in_all_shards(port, "mx_federd_rooms") != 1:
            assert time.monotonic() < until
            time.sleep(0.1)
        assert in_all_shards(port, "mx_federd_room_events") == 1
    with serving(folder / "data", "--admin", port, "--shards", "3"):
        assert rooms(port) == listed, rooms(port)


def rooms_counted(folder: Path) -> None:
    """A room's line and the metrics count its events, its forward extremities, and the servers that are in it."""
    port = free_port()
    with room(folder, "--admin", port) as (server, base):
        for number in range(4):
            said = message(A, [base.join_b], base.of_a, "m%d" % number)
            assert server.ask(*sending("b.example", "t%d" % number, [said]))[0] == 200
        figure(port, "mx_federd_room_events|shard=0", 10)
        figure(port, "mx_federd_rooms|shard=0", 1)
        listed, = rooms(port)
        servers = {it["sender"].partition(":")[2] for it in (base.join_a, base.join_b, base.join_c)}
        assert (listed["room"], listed["events"], listed["joined_servers"]) == (base.create["room_id"], 10, len(servers)), listed
        figure(port, "mx_federd_most_extremities|shard=0", listed["extremities"])
        assert listed["extremities"] == 5, listed


def nearly_full(folder: Path) -> None:
    """Once a room has 45,000 of the 50,000 events that it may have, standard error and the log warn, once."""
    port, log = free_port(), folder / "log"
    with room(folder, "--admin", port, "--log", log, "--log-format", "json", "--log-level", "warn") as (server, base):
        connection = server.connect()
        cited, left = base.join_c, 45_000 - 6
        for number in range(0, left, 50):
            sent = []
            for _ in range(min(50, left - number)):
                cited = message(A, [cited], base.of_a)
                sent.append(cited)
            if number + 50 >= left:
                figure(port, "mx_federd_room_events|shard=0", 6 + number)
                assert not log.read_text()
            assert asked(connection, *sending("a.example", "t%d" % number, sent))[0] == 200
        connection.close()
        figure(port, "mx_federd_room_events|shard=0", 45_000)
        lines = [json.loads(line) for line in written(log, lambda lines: lines)]
        warning = "warning: %s: 45,000 of the 50,000 events that a room may have are there" % base.create["room_id"]
        assert [without_times(it) for it in lines] == [{"kind": "warning", "level": "WARN", "text": warning}], lines
        time.sleep(3)
        assert len(log.read_text().splitlines()) == 1
        assert server.said(b"warning: ").decode().splitlines()[-1] == warning


def by_promtool(folder: Path) -> None:
    """Prometheus' own reader finds no fault in the metrics."""
    if not shutil.which("promtool"):
        raise LeftOut("promtool, of Debian's prometheus")
    port = free_port()
    with room(folder, "--admin", port) as (server, base):
        Done(server, base).all()
        text = shown(port, "/metrics")[1]
    ran = subprocess.run(["promtool", "check", "metrics"], input=text.encode(), capture_output=True, timeout=SECONDS_TO_ANSWER)
    assert ran.returncode == 0 and not ran.stderr, ran


def other_requests(folder: Path) -> None:
    """The port answers at its three paths alone, to no page of a browser, one request a connection, and no client keeps it from the
    next one."""
    port = free_port()
    with room(folder, "--admin", port):
        assert shown(port, "/") == (404, "unknown path\n")
        assert shown(port, "/rooms", "PUT") == (405, "unknown method\n")
        assert shown(port, "/rooms", "POST", b"x", Origin="http://a.example")[0] == 403
        assert shown(port, "/rooms", "POST", b"x" * 200_000)[0] == 400
        assert shown(port, "/health", "POST") == (405, "unknown method\n")
        for said in (b"x\r\n\r\n", b"GET /health\r\n\r\n", b"\0" * 100_000, b"GET /health HTTP/1.1\r\n" + b"a: b\r\n" * 100 + b"\r\n"):
            with socket.create_connection(("127.0.0.1", port), SECONDS_TO_ANSWER) as client:
                with contextlib.suppress(ConnectionError):
                    client.sendall(said)
                    assert client.recv(100).startswith(b"HTTP/1.1 400 Bad Request\r\n"), said
        silent = [socket.create_connection(("127.0.0.1", port)) for _ in range(3)]
        begun = time.monotonic()
        assert shown(port, "/health") == (200, "ok\n")
        assert time.monotonic() - begun < SECONDS_TO_ANSWER
        for client in silent:
            client.close()


def all_places_taken(folder: Path) -> None:
    """The port answers while as many clients as may are in the middle of a request."""
    port = free_port()
    with room(folder, "--admin", port, "--connections", "256") as (server, _):
        clients = [server.socket() for _ in range(256)]
        for client in clients:
            client.sendall(b"PUT /_matrix/federation/v1/send/x HTTP/1.1\r\nHost: hub.example\r\nContent-Length: 100\r\n\r\nx")
        assert shown(port, "/health") == (200, "ok\n")
        assert figures(shown(port, "/metrics")[1])["mx_federd_requests_total|route=send|status=200"] == 1
        for client in clients:
            client.close()


def fill(server: Server, base: Base) -> None:
    """Lets the shard's file grow no more, and sends messages until one is not kept."""
    resource.prlimit(server.process.pid, resource.RLIMIT_FSIZE, (400_000, -1))
    for number in range(20):
        said = message(A, [base.join_c], base.of_a, "x" * 60_000 + str(number))
        if (reply := server.ask(*sending("a.example", "t%d" % number, [said])))[0] != 200:
            assert reply == STORAGE, reply
            return
    raise AssertionError("all were kept")


def a_failed_file(folder: Path) -> None:
    """While a file of rows has failed, /health answers 503 with the line that standard error has, and the metrics count it."""
    port, log = free_port(), folder / "log"
    server, base = base_room(folder, "--admin", port, "--log", log, restore_signals=False)
    assert shown(port, "/health") == (200, "ok\n")
    fill(server, base)
    written(log, lambda lines: any(" file_failed " in line for line in lines))
    status, text = shown(port, "/health")
    assert status == 503 and text.startswith("storage: %s/shard-0.db: " % (folder / "base")) and text.count("\n") == 1, text
    found = figures(shown(port, "/metrics")[1])
    assert found["mx_federd_failed_files"] == 1 and found["mx_federd_requests_total|route=send|status=503"] == 1, found
    assert server.said(b"storage: ").decode().splitlines(True)[1] == text
    server.stop()


def a_port_that_is_taken(folder: Path) -> None:
    """Where somebody listens at the port, the server does not start."""
    with socket.create_server(("127.0.0.1", 0)) as listener:
        port = listener.getsockname()[1]
        words = [program(), "serve", "--name", NAME, "--data", folder / "data", "--port", "0", "--admin", port]
        ran = subprocess.run([str(word) for word in words], capture_output=True, timeout=SECONDS)
    assert (ran.returncode, ran.stdout) == (1, b""), ran
    assert ran.stderr.decode() == "failed read or write\n127.0.0.1:%d: Address already in use (os error 98)\n" % port, ran


TESTS = [each_line, lines_of_text, levels, on_standard_error, moved_away, log_that_fails, a_gap_that_lasts, each_figure, each_connection,
         each_room, rooms_counted, nearly_full, by_promtool, other_requests, all_places_taken, a_failed_file, a_port_that_is_taken]

if __name__ == "__main__":
    sys.exit(run_tests(TESTS, "what an operator is told"))
