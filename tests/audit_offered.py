#!/usr/bin/env python3
"""Tests what `mx_federd audit` tells of events that were offered and not kept, of the sum on standard error, of several questions at
once, and of the files of a running server.

It is compared with the answers of examples/rows, which are written by the rules, and with texts that stand here."""

import json
import re
import resource
import subprocess
import sys
import threading
from collections import Counter
from collections.abc import Iterator
from pathlib import Path

from suite import TOP, run_tests
from event_logs import FEDERATION, Base, Log, call, header, send, told
from export_events import log_of, room_of
from matrix_events import (
    A, ACCEPTED, B, D, ROOM, Event, Json, altered, canonical, create, event, id_of, join, message, sealed, topic, unsigned, without,
)
from program import Ended, run
from running_server import Server, host_line, sending

SUM = re.compile(rb"accepted (\d+), soft failed (\d+), rejected (\d+); refused (\d+)(?:: ([^;]*))?; malformed (\d+); bad lines (\d+)(.*)\n")


def audit(source: bytes, *words: str, room: str = ROOM) -> Ended:
    """What `audit` leaves of a log."""
    return run("audit", "--room", room, *words, source=source)


def lines_of(source: bytes, *words: str, room: str = ROOM) -> list[Json]:
    """The lines of `audit` of a log."""
    return [json.loads(line) for line in audit(source, *words, room=room)[1].splitlines()]


def summed(err: bytes) -> tuple[list[int], dict[str, int], bytes]:
    """What a sum says: its numbers, the causes of refusals, and what stands behind."""
    found = SUM.fullmatch(err)
    assert found, err
    causes = [it.rpartition(" ") for it in (found[5] or b"").decode().split(", ") if it]
    return [int(found[k]) for k in (1, 2, 3, 4, 6, 7)], {name: int(count) for name, _, count in causes}, found[8]


def sum_of_lines(lines: list[Json]) -> tuple[list[int], dict[str, int]]:
    """The sum of these lines, but for bad ones."""
    verdicts = Counter(line["verdict"] for line in lines)
    causes = Counter(line["because"].partition(":")[0] for line in lines if line["verdict"] == "refused")
    malformed = causes.pop("malformed", 0)
    kept = [verdicts[it] for it in ("accepted", "soft failed", "rejected")]
    return [*kept, verdicts["refused"] - malformed, malformed], dict(causes)


def refusals_of(answers: bytes) -> Counter[tuple[str, str]]:
    """The ids of events that were refused in transactions, each with its cause and how often, by the answers to a log."""
    found: Counter[tuple[str, str]] = Counter()
    for answer in map(json.loads, answers.splitlines()):
        error = answer["reply"].get("error", "") if "id" in answer else ""
        if error and not error.startswith("rejected: "):
            found[answer["id"], error] += 1
    return found


def rooms_of(log: bytes) -> set[str]:
    """The ids of rooms that stand in a log of steps."""
    return {it.decode() for it in re.findall(rb'"room_id":"(![^"\\]*:[^"\\]*)"', log)}


def refusals_of_the_rows() -> None:
    """Over each log of examples/rows that has no requests: each event that an answer refuses has a line with that cause, as often;
    the sum is that of the lines."""
    told_causes = set()
    for answers in sorted((TOP / "examples/rows").glob("*.answers.jsonl")):
        log = (answers.parent / answers.name.replace(".answers", "")).read_bytes()
        if b'"step":"call"' in log:
            continue
        found: Counter[tuple[str, str]] = Counter()
        for room in rooms_of(log):
            status, out, err = audit(log, room=room)
            lines = [json.loads(line) for line in out.splitlines()]
            assert (status == 0) == any(it["verdict"] != "refused" for it in lines), (answers.name, status)
            counted, causes, _ = summed(err.removesuffix(b"refused: no such room\n"))
            assert (counted[:5], causes) == sum_of_lines(lines), (answers.name, err)
            offered = [it for it in lines if it["verdict"] == "refused" and "transaction" in it and "event_id" in it]
            found.update((it["event_id"], it["because"]) for it in offered)
            told_causes |= {it["because"] for it in offered}
        assert found == refusals_of(answers.read_bytes()), answers.name
    assert told_causes == {"signature", "server acl", "missing events", "second create", "unknown room"}, told_causes


def place_of_refused_events() -> None:
    """A refused event stands behind those that the room had, with who offered it, and its missing events by their ids."""
    log = Log()
    base = Base(log)
    first, second = message(A, [base.join_c], base.of_a, "1"), message(A, [base.join_c], base.of_a, "2")
    child = message(A, [first, second], [*base.of_a[:2], base.levels], "3")
    log.transaction("b.example", "t7", (child, {"error": "missing events"}), (first, ACCEPTED), (child, {"error": "missing events"}),
                    (second, ACCEPTED), (child, ACCEPTED), (unsigned(first), ACCEPTED))
    status, out, err = audit(log.text())
    lines = [json.loads(line) for line in out.splitlines()]
    assert status == 0 and [it["event_id"] for it in lines[6:]] == [id_of(it) for it in (child, first, child, second, child)], lines
    early, _, later, _, kept = lines[6:]
    assert early["missing"] == [id_of(first), id_of(second)] and later["missing"] == [id_of(second)], (early, later)
    assert (early["after"], later["after"], kept["place"]) == (6, 7, 9)
    assert {(it["origin"], it["transaction"]) for it in (early, later)} == {("b.example", "t7")}
    for key in ("type", "sender", "content", "depth", "prev_events", "auth_events", "origin_server_ts"):
        assert early[key] == child[key], key
    assert summed(err) == ([9, 0, 0, 2, 0, 0], {"missing events": 2}, b"; came again 1"), err
    assert audit(log.text(), "--event", id_of(child))[1] == b"".join(canonical(it) + b"\n" for it in (early, later, kept))


def wrong_fields(good: Event) -> list[tuple[Json, str | None, str]]:
    """Values that are no events, each with its field and its fault."""
    kinds = {
        "auth_events": "x", "content": [], "depth": "1", "hashes": None, "origin_server_ts": True, "prev_events": ["x"], "sender": "a",
        "signatures": 1, "type": {},
    }
    limits = {
        "auth_events": ["$x"] * 11, "depth": -1, "prev_events": ["$" + "x" * 255], "sender": "@" + "a" * 300 + ":a.example",
        "state_key": "k" * 256, "type": "t" * 256,
    }
    return [
        *((without(good, key), key, "missing") for key in [*kinds, "room_id"]),
        *(({**good, key: value}, key, "wrong kind") for key, value in kinds.items()),
        ({**good, "room_id": "r"}, None, "elsewhere"), ({**good, "room_id": 1}, "room_id", "wrong kind"),
        ({**good, "state_key": 1}, "state_key", "wrong kind"),
        *(({**good, key: value}, key, "over limit") for key, value in limits.items()),
        ({**good, "content": {"body": "x" * 66_000}}, None, "too long"),
        ({**good, "depth": 2**60}, None, "not canonical"), ([], None, "not an object"), ("x", None, "not an object"),
    ]


def malformed_values() -> None:
    """Each value of a transaction that is no event has a line with its place, its field and its fault."""
    log = Log()
    base = Base(log)
    good = message(A, [base.join_c], base.of_a)
    for number, (value, field, fault) in enumerate(wrong_fields(good)):
        log.open("b.example", f"m{number}", [good, value], {"open": 1})
    lines = [it for it in lines_of(log.text()) if it["verdict"] == "refused"]
    wanted = [
        {"after": 6, "because": "malformed", "fault": fault, "origin": "b.example", "position": 2, "transaction": f"m{number}",
         "verdict": "refused"} | ({"field": field} if field else {})
        for number, (_, field, fault) in enumerate(wrong_fields(good)) if fault != "elsewhere"
    ]
    assert lines == wanted, next((told, right) for told, right in zip(lines, wanted) if told != right)
    sent = Log()
    sent.host(base.create)
    send(sent, "a.example", "one", [base.join_a, 7], told((base.join_a, ACCEPTED)))
    found = [it for it in lines_of(sent.text(), "--name", "hub.example") if it["verdict"] == "refused"]
    assert [(it["position"], it["transaction"], it["origin"]) for it in found] == [(2, "one", "a.example")], found


def rooms_that_are_not_hosted() -> None:
    """The event that was to begin a room of another version is told, and those that come after it; a second create event is."""
    other = create(room_version="10")
    log = Log()
    log.host(other, {"refused": "rule A1.3"})
    log.transaction("a.example", "one", (join(A, [other], [other]), {"error": "unknown room"}))
    status, out, err = audit(log.text())
    lines = [json.loads(line) for line in out.splitlines()]
    assert status == 1 and err.endswith(b"refused: no such room\n"), err
    assert [it["because"] for it in lines] == ["rule A1.3: rooms of versions 6 and 7 are hosted, and of no other", "unknown room"], lines
    assert audit(log.text(), "--dot")[:2] == (1, b"") and audit(log.text(), "--event", "$x")[:2] == (1, b"")
    again = Log()
    again.host(create())
    again.host(create(), {"already": id_of(create())})
    again.host(create(more=1), {"already": id_of(create())})
    lines = lines_of(again.text())
    assert [(it["verdict"], it.get("because")) for it in lines] == [("accepted", None), ("refused", "second create")], lines


def joins_that_are_refused() -> None:
    """A join of a user of another server, and one of a room that is not hosted, are told with who sent them and no transaction."""
    log = Log()
    base = Base(log)
    joining = join(D, [base.join_c], [base.create, base.levels, base.rules])

    def send_join(made: Event, room: str, origin: str) -> None:
        target = FEDERATION + "v2/send_join/" + room + "/" + id_of(made)
        log.lines.append(canonical({
            "step": "call", "method": "PUT", "target": target, "now": 1, "authorization": header(origin), "body": canonical(made).decode()}))

    send_join(joining, ROOM.replace("!", "%21"), "b.example")
    send_join(unsigned(joining), ROOM.replace("!", "%21"), "d.example")
    status, out, err = audit(log.text(), "--name", "hub.example")
    refused = [it for it in map(json.loads, out.splitlines()) if it["verdict"] == "refused"]
    assert status == 0 and [(it["because"], it["origin"]) for it in refused] == [
        ("user of another server", "b.example"), ("signature", "d.example")], refused
    assert all("transaction" not in it and it["membership"] == "join" for it in refused)


def forged_body() -> None:
    """An event whose content was changed on its way is kept redacted, and told so."""
    log = Log()
    base = Base(log)
    honest = message(A, [base.join_c], base.of_a, "honest")
    forged = altered(honest, body="forged")
    log.transaction("b.example", "t", (forged, ACCEPTED))
    line = lines_of(log.text())[-1]
    assert (line["event_id"], line["content_hash"], line["content"]) == (id_of(honest), "bad", {}), line


def access_list_in_the_midst() -> None:
    """From an access list that denies a server on, what that server offers is refused; what it offered before stands."""
    log = Log()
    base = Base(log)
    before = message(B, [base.join_c], base.of_b, "before")
    denying = event("m.room.server_acl", A, [before], base.of_a, {"allow": ["*"], "deny": ["b.example"]}, "")
    after = message(B, [denying], base.of_b, "after")
    log.transaction("b.example", "1", (before, ACCEPTED))
    log.transaction("a.example", "2", (denying, ACCEPTED))
    log.transaction("b.example", "3", (after, {"error": "server acl"}))
    lines = lines_of(log.text())
    assert [(it["event_id"], it["verdict"]) for it in lines[-3:]] == [
        (id_of(before), "accepted"), (id_of(denying), "accepted"), (id_of(after), "refused")]
    assert (lines[-1]["because"], lines[-1]["origin"]) == ("server acl", "b.example")


def event_that_lacks_in_the_middle() -> None:
    """An export in which one event lacks: it is said, and what follows is told as missing what it cites."""
    events = room_of(60)
    lacking = events.pop(30)
    status, log, err = run("log", source=b"".join(canonical(without(it, "event_id", "unsigned")) + b"\n" for it in events))
    assert status == 0 and b"missing " + id_of(without(lacking, "event_id", "unsigned")).encode() in err, err
    lines = lines_of(log)
    kept = {it["event_id"] for it in lines if it["verdict"] != "refused"}
    refused = [it for it in lines if it["verdict"] == "refused"]
    assert len(lines) == 59 and refused and all(it["because"] == "missing events" for it in refused)
    for it in refused:
        assert it["missing"] and set(it["missing"]) <= {*it["prev_events"], *it["auth_events"]} - kept, it
    assert id_of(without(lacking, "event_id", "unsigned")) in refused[0]["missing"]


def processor_seconds(log: bytes, *words: str, room: str = ROOM) -> float:
    """How many seconds of a processor `audit` takes for an answer."""
    before = resource.getrusage(resource.RUSAGE_CHILDREN).ru_utime
    assert audit(log, *words, room=room)[0] == 0
    return resource.getrusage(resource.RUSAGE_CHILDREN).ru_utime - before


def several_questions() -> None:
    """Of several events, and of all that is told of one, the answers are those to each question alone, each behind its line."""
    log = (TOP / "examples/audit/two_bans.jsonl").read_bytes()
    ids = [line["event_id"] for line in lines_of(log)]
    for option, asked in (
        ("--event", "event"), ("--state-before", "state_before"), ("--state-after", "state_after"), ("--resolution", "resolution"),
    ):
        wanted = b"".join(canonical({"asked": asked, "event_id": it}) + b"\n" + audit(log, option, it)[1] for it in ids[-3:])
        assert audit(log, option, *ids[-3:]) == (0, wanted, b""), option
        assert audit(log, option, ids[-3], f"{option}={ids[-2]}", option, ids[-1])[1] == wanted, option
    all_of_it = [("event", "--event"), ("state_before", "--state-before"), ("resolution", "--resolution"), ("state_after", "--state-after")]
    wanted = b"".join(canonical({"asked": asked, "event_id": ids[-1]}) + b"\n" + audit(log, option, ids[-1])[1] for asked, option in all_of_it)
    assert audit(log, "--at", ids[-1]) == (0, wanted, b"")
    assert audit(log, "--event", ids[0], "$nothing") == (1, b"", b"refused: no such event\n")
    assert audit(log, "--at", ids[0], "--event", ids[0])[0] == 2


def cost_of_several_questions() -> None:
    """50 questions of a log cost little more than one, since it is read once."""
    log = log_of(room_of(2_000))
    ids = [line["event_id"] for line in lines_of(log)]

    def seconds(*words: str) -> float:
        return processor_seconds(log, *words)

    one = min(seconds("--event", ids[-1]) for _ in range(3))
    many = min(seconds("--event", *ids[::40]) for _ in range(3))
    assert many < 1.5 * one + 0.05, (one, many)


def cost_of_a_page_with_merges() -> None:
    """A page of 4,000 events, 500 of which join branches in conflict, costs a few times its lines: each resolution that is told reads
    what it is about, and not the room."""
    words = [sys.executable, TOP / "benchmarks/make_log.py", "--shape", "conflict", "--events", "4000"]
    log = subprocess.run(words, stdout=subprocess.PIPE, check=True).stdout
    room = json.loads(log.splitlines()[0])["event"]["room_id"]

    lines = processor_seconds(log, room=room)
    page = processor_seconds(log, "--html", room=room)
    print("of a processor: lines %.2f seconds, page %.2f" % (lines, page))
    assert page < 8 * lines, (lines, page)


def name_where_it_is_needed() -> None:
    """A log of steps needs no server name, and one with a request does."""
    log = (TOP / "examples/audit/two_bans.jsonl").read_bytes()
    assert audit(log) == audit(log, "--name", "hub.example") == audit(log, "--name", "other.example")
    asked = Log()
    Base(asked)
    call(asked, "GET", FEDERATION + "v1/nothing", (404, {}))
    assert audit(asked.text()) == (1, b"", b"refused: a line is a request, for which --name says whose server answers\n")
    status, _, err = audit(asked.text(), "--name", "hub.example")
    assert status == 0 and summed(err) == ([6, 0, 0, 0, 0, 0], {}, b"; refused requests 1"), err
    status, _, err = audit(b"nonsense\n" + log, "--name", "hub.example")
    assert status == 0 and summed(err)[0] == [11, 1, 1, 0, 0, 1], err


def messages(base: Base, count: int) -> Iterator[Event]:
    """A line of messages of A."""
    last = base.join_c
    for number in range(count):
        last = message(A, [last], base.of_a, "m%d" % number)
        yield last


def files_of_a_running_server(folder: Path) -> None:
    """An audit of the files of a server that is written to has what was answered before it began, and nothing that was not sent."""
    base = Base(Log())
    server = Server(folder / "data", hosts=[host_line(base.create)])
    sent = [base.join_a, base.levels, base.rules, base.join_b, base.join_c, *messages(base, 1_500)]
    answered = [0]

    def write() -> None:
        for number, made in enumerate(sent):
            assert server.ask(*sending("a.example", f"t{number}", [made]))[0] == 200
            answered[0] = number + 1

    writer = threading.Thread(target=write)
    writer.start()
    try:
        audits = 0
        while writer.is_alive():
            before = answered[0]
            status, out, err = run("audit", "--room", ROOM, "--data", folder / "data")
            assert status == 0, err
            ids = [json.loads(line)["event_id"] for line in out.splitlines()]
            assert len(ids) > before and ids == [id_of(it) for it in [base.create, *sent][: len(ids)]], (before, len(ids))
            audits += 1
    finally:
        writer.join()
        server.stop()
    assert audits > 3 and err == b"accepted %d, soft failed 0, rejected 0; of refused events no file tells\n" % len(ids), (audits, err)


TESTS = [
    refusals_of_the_rows, place_of_refused_events, malformed_values, rooms_that_are_not_hosted, joins_that_are_refused, forged_body,
    access_list_in_the_midst, event_that_lacks_in_the_middle, several_questions, cost_of_several_questions, cost_of_a_page_with_merges,
    name_where_it_is_needed, files_of_a_running_server,
]

if __name__ == "__main__":
    sys.exit(run_tests(TESTS, "events that were offered"))
