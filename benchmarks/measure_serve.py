#!/usr/bin/env python3
"""Measures `mx_federd serve` over files, and prints what it finds.

    measure_serve.py rows [--program PATH] [--folder DIR] [--events 10000]
    measure_serve.py requests [--program PATH] [--folder DIR] [--seconds 5] [--constant PATH]
    measure_serve.py shards [--program PATH] [--folder DIR] [--events 10000] [--slow-sync MICROSECONDS]
    measure_serve.py files [--folder DIR]
    measure_serve.py senders [--program PATH] [--folder DIR] [--events 1000]
    measure_serve.py noting [--program PATH] [--folder DIR] [--seconds 5]

`rows`: a transaction of 50 messages, beside sqlite3's own command line, which inserts the same rows in 50 transactions
with a write-ahead log and synchronous FULL; and how long the server takes to open its files again, beside `replay` of the
same events. `requests`: requests a second by wrk, over 1 and 4 threads, and sends of one event; in a folder of /dev/shm
the files are in memory. `--constant` names a program that takes a port and a number of threads, and gives each request
one answer (benchmarks/constant_server.txt). `shards`: a transaction of 50 messages of four rooms, whose shard is one and the
same, and whose shards are four; with `--slow-sync` a sleep follows each sync of a file, as if the disk were slower. `files`:
rows by sqlite3 alone, each in a transaction of its own, in one file by one process, and in four by four at once: what the
disk gains by four files. `senders`: messages to one room by one sender and by eight at once, one event to a
transaction: events a second, and the server's processor time for each. `noting`: queries for an event, to a server with
`--log` and `--admin` and to one with neither, five times by turns, on one thread: the middle of the requests a second and of
the processor's time for each. It wants Debian's packages sqlite3 and wrk, `shards` and `senders` neither, `files` sqlite3,
`noting` wrk; `--slow-sync` wants gcc."""

import argparse
import http.client
import json
import os
import re
import statistics
import subprocess
import sys
import tempfile
import threading
import time
from pathlib import Path

HERE = Path(__file__).resolve().parent
TOP = HERE.parent
PROGRAM = TOP / "crates/mx_federd/out/mx_federd"
sys.path.insert(0, str(TOP / "tests"))
sys.dont_write_bytecode = True
from event_logs import FEDERATION, header, quoted  # noqa: E402
from running_server import free_port  # noqa: E402

SETTINGS = "PRAGMA journal_mode=WAL; PRAGMA synchronous=FULL;\n"
COLUMNS = "place INTEGER PRIMARY KEY, room TEXT NOT NULL, version TEXT NOT NULL, event TEXT NOT NULL, caller INTEGER NOT NULL"
TABLE = f"CREATE TABLE kept2 ({COLUMNS});\n"
# How many connections a proxy's pool may have.
MANY = 64
# More sends a second than one connection can have.
MOST_SENDS = 25_000


def log_of(events, members=50, batch=50, room="!room:s0.example", shape="linear"):
    words = [sys.executable, HERE / "make_log.py", "--shape", shape, "--events", str(events), "--members", str(members)]
    words += ["--batch", str(batch), "--room", room]
    return subprocess.run(words, stdout=subprocess.PIPE, check=True).stdout


def parts_of(log):
    """The lines that host, and the transactions of a log: origin, number, and the body to send."""
    hosts, sends = [], []
    for line in log.splitlines():
        step = json.loads(line)
        if step["step"] == "host":
            hosts.append(line + b"\n")
        elif step["step"] == "open":
            body = json.dumps({"pdus": step["pdus"]}, separators=(",", ":"), ensure_ascii=False).encode()
            sends.append((step["origin"], step["txn"], body))
    return hosts, sends


class Server:
    def __init__(self, program, data, *words, hosts=(), environment=None):
        rooms = Path(data).with_suffix(".rooms")
        rooms.write_bytes(b"".join(hosts))
        start = time.monotonic()
        words = [program, "serve", "--name", "hub.example", "--data", data, "--port", "0", "--host", rooms, *words]
        self.process = subprocess.Popen([str(word) for word in words], stdout=subprocess.PIPE, env=environment)
        self.port = int(self.process.stdout.readline().rpartition(b":")[2])
        self.seconds = time.monotonic() - start
        self.connection = http.client.HTTPConnection("127.0.0.1", self.port)

    def send(self, origin, txn, body):
        """How many seconds the reply to a transaction took."""
        start = time.monotonic()
        target = FEDERATION + "v1/send/" + quoted(txn)
        self.connection.request("PUT", target, body, {"Authorization": header(origin)})
        reply = self.connection.getresponse()
        told = reply.read()
        if reply.status != 200 or b"error" in told:
            sys.exit(f"a transaction was answered {reply.status} {told[:200]}")
        return time.monotonic() - start

    def stop(self):
        self.connection.close()
        self.process.terminate()
        self.process.wait()


def sqlite_seconds(folder, data, rows):
    """How long sqlite3 takes for each of the rows of a server's file, in a transaction of its own."""
    row = "place||','||quote(room)||','||quote(version)||','||quote(event)||','||caller"
    read = f"SELECT 'INSERT INTO kept2 VALUES('||{row}||');' FROM kept2 ORDER BY place LIMIT %d;"
    inserts = subprocess.run(["sqlite3", data / "shard-0.db", read % rows], stdout=subprocess.PIPE, check=True, text=True).stdout
    found = []
    for number in range(5):
        start = time.monotonic()
        script = SETTINGS + TABLE + inserts
        subprocess.run(["sqlite3", folder / f"beside{number}.db"], input=script, stdout=subprocess.DEVNULL, check=True, text=True)
        found.append((time.monotonic() - start) / rows)
    return found


def rows(options, folder):
    log = log_of(options.events)
    hosts, sends = parts_of(log)
    data = folder / "data"
    server = Server(options.program, data, hosts=hosts)
    taken = [server.send(*send) for send in sends]
    server.stop()
    fifty = sorted(seconds for seconds, send in zip(taken, sends) if send[2].count(b'"m.room.message"') >= 50)
    beside = sqlite_seconds(folder, data, 2_000)
    print(f"a transaction of 50 messages: median {statistics.median(fifty) * 1000:.1f} ms, least {fifty[0] * 1000:.1f} ms")
    print(f"50 rows by sqlite3: median {statistics.median(beside) * 50_000:.1f} ms, least {min(beside) * 50_000:.1f} ms")
    opened, replayed = [], []
    for _ in range(5):
        server = Server(options.program, data)
        opened.append(server.seconds)
        server.stop()
        start = time.monotonic()
        subprocess.run([str(options.program), "replay", "--name", "hub.example"], input=log, stdout=subprocess.DEVNULL, check=True)
        replayed.append(time.monotonic() - start)
    print(f"opening {options.events} rows: median {statistics.median(opened):.2f} s, least {min(opened):.2f} s")
    print(f"replaying them: median {statistics.median(replayed):.2f} s, least {min(replayed):.2f} s")


def mixed_sends(events):
    """Four rooms, whose places differ among four: the lines that host them, the transactions that fill them, and
    transactions of 50 of their messages, the rooms in turn."""
    rooms = [parts_of(log_of(events // 4, batch=1, room=f"!room{number}:s0.example")) for number in range(1, 5)]
    hosts = [host for hosts, _ in rooms for host in hosts]
    first = [len(sends) - events // 4 for _, sends in rooms]
    base = [(origin, f"base{number}-{txn}", body)
            for number, ((_, sends), count) in enumerate(zip(rooms, first)) for origin, txn, body in sends[:count]]
    messages = [json.loads(send[2])["pdus"][0] for turn in zip(*(sends[count:] for (_, sends), count in zip(rooms, first))) for send in turn]
    origin = rooms[0][1][-1][0]
    bodies = [json.dumps({"pdus": messages[start : start + 50]}, separators=(",", ":"), ensure_ascii=False).encode()
              for start in range(0, len(messages), 50)]
    return hosts, base, [(origin, str(number), body) for number, body in enumerate(bodies)]


def slow_disk(folder, microseconds):
    """The environment of a program in which a sleep of so many microseconds follows each sync."""
    library = folder / "slow_sync.so"
    subprocess.run(["gcc", "-shared", "-fPIC", "-O1", HERE / "slow_sync.c", "-o", library, "-ldl"], check=True)
    return dict(os.environ, LD_PRELOAD=str(library), SLOW_SYNC=str(microseconds))


def shards(options, folder):
    hosts, base, mixed = mixed_sends(options.events)
    environment = slow_disk(folder, options.slow_sync) if options.slow_sync else None
    found = {1: [], 4: []}
    for run in range(5):
        for count, medians in found.items():
            words = ["--threads", "1", "--shards", str(count)]
            server = Server(options.program, folder / f"{run}-{count}", *words, hosts=hosts, environment=environment)
            for send in base:
                server.send(*send)
            medians.append(statistics.median(server.send(*send) for send in mixed))
            server.stop()
    for count, medians in found.items():
        told = ", ".join(f"{seconds * 1000:.1f}" for seconds in medians)
        print(f"50 messages of four rooms in {count} shards: {told} ms (medians of {len(mixed)} transactions)")
    print(f"four shards beside one: {statistics.median(found[4]) / statistics.median(found[1]):.2f}")


def inserting(folder, name, count):
    """sqlite3 at work on so many rows of 600 bytes, each in a transaction of its own."""
    script = SETTINGS + "CREATE TABLE rows (place INTEGER PRIMARY KEY, event TEXT NOT NULL);\n"
    script += "".join(f"INSERT INTO rows VALUES({place}, '{'x' * 600}');\n" for place in range(count))
    (folder / f"{name}.sql").write_text(script)
    with open(folder / f"{name}.sql") as inserts:
        return subprocess.Popen(["sqlite3", folder / f"{name}.db"], stdin=inserts, stdout=subprocess.DEVNULL)


def files(_options, folder):
    found = {1: [], 4: []}
    for run in range(5):
        for count, seconds in found.items():
            start = time.monotonic()
            for process in [inserting(folder, f"{run}-{count}-{number}", 20_000 // count) for number in range(count)]:
                if process.wait() != 0:
                    sys.exit("sqlite3 failed")
            seconds.append(time.monotonic() - start)
    for count, seconds in found.items():
        print(f"50 rows in {count} files by sqlite3: {statistics.median(seconds) / 400 * 1000:.2f} ms (median of five times 20,000)")
    print(f"four files beside one: {statistics.median(found[4]) / statistics.median(found[1]):.2f}")


def processor_seconds(process):
    """How long a process has had a processor."""
    fields = Path(f"/proc/{process.pid}/stat").read_text().rpartition(")")[2].split()
    return (int(fields[11]) + int(fields[12])) / os.sysconf("SC_CLK_TCK")


def send_all(server, sends):
    """Sends these one after the other over a connection of its own."""
    connection = http.client.HTTPConnection("127.0.0.1", server.port)
    for origin, txn, body in sends:
        connection.request("PUT", FEDERATION + "v1/send/" + quoted(txn), body, {"Authorization": header(origin)})
        connection.getresponse().read()
    connection.close()


def senders(options, folder):
    """All messages follow one event, so that each can come at any time."""
    hosts, sends = parts_of(log_of(options.events, batch=1, shape="wide"))
    base, messages = sends[: len(sends) - options.events], sends[len(sends) - options.events :]
    for count in (1, 8):
        server = Server(options.program, folder / str(count), "--threads", "8", hosts=hosts)
        for send in base:
            server.send(*send)
        threads = [threading.Thread(target=send_all, args=(server, messages[number::count])) for number in range(count)]
        start, before = time.monotonic(), processor_seconds(server.process)
        for thread in threads:
            thread.start()
        for thread in threads:
            thread.join()
        rate = options.events / (time.monotonic() - start)
        each = (processor_seconds(server.process) - before) / options.events
        print(f"{count} senders: {rate:,.0f} events a second, {each * 1e6:,.0f} microseconds of a processor for each")
        server.stop()


def wrk(port, target, threads, seconds, origin, *script, connections=None):
    words = ["wrk", "-t", str(threads), "-c", str(connections or threads), "-d", f"{seconds}s", "-H", "Authorization: " + header(origin)]
    words += ["-s", HERE / "sends.lua"] if script else []
    words += [f"http://127.0.0.1:{port}{target}", *(["--", *script] if script else [])]
    ran = subprocess.run([str(word) for word in words], stdout=subprocess.PIPE, check=True, text=True).stdout
    if "Non-2xx" in ran and target != "/x":
        sys.exit(ran)
    return float(re.search(r"Requests/sec:\s+([\d.]+)", ran)[1])


def told(threads, name, rate):
    print(f"{threads} threads, {name}: {rate:,.0f} requests a second", flush=True)


def queries(options, folder, threads):
    hosts, sends = parts_of(log_of(1_000, members=500))
    words = "--threads", str(threads), "--shards", "4", "--connections", "256"
    server = Server(options.program, folder / f"queries{threads}", *words, hosts=hosts)
    for send in sends:
        server.send(*send)
    server.connection.close()
    event = json.loads(sends[-1][2])["pdus"][-1]
    (newest,) = event["prev_events"]
    targets = {
        "a path without a route": "/x",
        "an event": FEDERATION + "v1/event/" + quoted(newest),
        "the state of 500 members": FEDERATION + f"v1/state/{quoted(event['room_id'])}?event_id={quoted(newest)}",
    }
    for name, target in targets.items():
        told(threads, name, wrk(server.port, target, threads, options.seconds, sends[-1][0]))
    rate = wrk(server.port, targets["an event"], threads, options.seconds, sends[-1][0], connections=MANY)
    told(threads, f"an event, {MANY} connections", rate)
    server.stop()


def sending(options, folder, threads):
    """Each thread sends the messages of a room of its own, one after the other. A thread that has none left waits, so
    that there have to be more of them than can be sent."""
    events = MOST_SENDS * options.seconds
    bodies = folder / f"bodies{threads}"
    bodies.mkdir()
    rooms = [parts_of(log_of(events, batch=1, room=f"!room{number}:s0.example")) for number in range(1, threads + 1)]
    hosts = [host for hosts, _ in rooms for host in hosts]
    server = Server(options.program, folder / f"sends{threads}", "--threads", str(threads), "--shards", "4", hosts=hosts)
    for number, (_, sends) in enumerate(rooms, 1):
        first = len(sends) - events
        for place, (origin, _, body) in enumerate(sends[:first]):
            server.send(origin, f"base{number}-{place}", body)
        bodies.joinpath(str(number)).write_bytes(b"\n".join(body for _, _, body in sends[first:]))
    server.connection.close()
    origin = rooms[0][1][-1][0]
    rate = wrk(server.port, "", threads, options.seconds, origin, bodies)
    server.stop()
    if rate > 0.95 * threads * MOST_SENDS:
        sys.exit("the messages ran out")
    told(threads, f"sends of one event to {folder.parent}", rate)


def room_with_members(options, folder, *words):
    """A server of one thread that hosts a room of 500 members, the target of a query for its newest event, and who asks."""
    hosts, sends = parts_of(log_of(1_000, members=500))
    server = Server(options.program, folder, "--threads", "1", "--connections", "256", *words, hosts=hosts)
    for send in sends:
        server.send(*send)
    server.connection.close()
    event = json.loads(sends[-1][2])["pdus"][-1]
    return server, FEDERATION + "v1/event/" + quoted(event["prev_events"][0]), sends[-1][0]


def noting(options, folder):
    servers = {"neither": room_with_members(options, folder / "plain"),
               "--log and --admin": room_with_members(options, folder / "noting", "--log", folder / "log", "--admin", str(free_port()))}
    for connections in (1, MANY):
        rates, times = {name: [] for name in servers}, {name: [] for name in servers}
        for _ in range(5):
            for name, (server, target, origin) in servers.items():
                before = processor_seconds(server.process)
                rate = wrk(server.port, target, 1, options.seconds, origin, connections=connections)
                rates[name].append(rate)
                times[name].append((processor_seconds(server.process) - before) / (rate * options.seconds))
        for name in servers:
            told(1, f"{connections} connections, {name}, {statistics.median(times[name]) * 1e6:.1f} microseconds each", statistics.median(rates[name]))
    for server, _, _ in servers.values():
        server.stop()


def constant(options, threads):
    process = subprocess.Popen([str(options.constant), str(threads)], stdout=subprocess.PIPE)
    port = int(process.stdout.readline().rpartition(b":")[2])
    told(threads, "one answer to all", wrk(port, "/", threads, options.seconds, "a.example"))
    told(threads, f"one answer to all, {MANY} connections", wrk(port, "/", threads, options.seconds, "a.example", connections=MANY))
    process.terminate()
    process.wait()


def requests(options, folder):
    for threads in (1, 4):
        if options.constant:
            constant(options, threads)
        queries(options, folder, threads)
        sending(options, folder, threads)


def main():
    parser = argparse.ArgumentParser(description=__doc__, formatter_class=argparse.RawDescriptionHelpFormatter)
    parser.add_argument("what", choices=("rows", "requests", "shards", "files", "senders", "noting"))
    parser.add_argument("--program", type=Path, default=PROGRAM)
    parser.add_argument("--folder", type=Path)
    parser.add_argument("--events", type=int, default=10_000)
    parser.add_argument("--seconds", type=int, default=5)
    parser.add_argument("--constant", type=Path)
    parser.add_argument("--slow-sync", type=int)
    options = parser.parse_args()
    with tempfile.TemporaryDirectory(dir=options.folder) as folder:
        measures = {"rows": rows, "requests": requests, "shards": shards, "files": files, "senders": senders, "noting": noting}
        measures[options.what](options, Path(folder))


if __name__ == "__main__":
    main()
