#!/usr/bin/env python3
"""Tests `mx_federd log`, which makes a log of the events that another server exports: its options, the forms of an export, the
order of the log, and what is said of events that are left out, missing, malformed or changed.

The logs are compared with those that examples/rows/export_events.py makes by the definition."""

import json
import sys
from collections.abc import Iterable

from suite import run_tests
from export_events import log_of, room_of, shuffled
from matrix_events import A, ACCEPTED, ROOM, Event, Json, altered, canonical, create, event, id_of, sealed, without
from program import replay, run

# The keys of an audit's line that tell the same whatever the order of arrival is.
STEADY = ("event_id", "type", "sender", "verdict", "is_extremity", "in_current_state", "judged_by")


def lines_with(events: Iterable[Json]) -> bytes:
    """The events, one on a line."""
    return b"".join(canonical(it) + b"\n" for it in events)


def bare(events: Iterable[Event]) -> list[Event]:
    """The events without what `shuffled` puts to them."""
    return [without(it, "event_id", "unsigned") for it in events]


def words_of_log() -> None:
    """A room id and a server name, where they are told; no events."""
    for words in (["--room", "r"], ["--room", ""], ["--origin", ""], ["--missing", "x", "x"], ["more", "more"], ["--name", "a.example"]):
        status, out, err = run("log", *words)
        assert (status, out) == (2, b"") and err, (words, status, out, err)
    for words in ([], ["--missing", "--origin", "a.example"]):
        assert run("log", *words) == (1, b"", b"events 0\nrefused: no events\n"), words
    assert run("log", "--room", ROOM) == (1, b"", b"events 0\nrefused: no such room\n")


def log_of_a_shuffled_room() -> None:
    """500 events in any order: the log is the definition's, and replay and audit tell of each event as of the room in its
    order of arrival."""
    events = room_of(500)
    told = b"events 500\nlet go \"event_id\" of 500\nlet go \"unsigned\" of 500\nroom !r:a.example events 500, version 6\n"
    told += b"log of !r:a.example events 500, came again 0\n"
    straight, room = log_of(events), ["--name", "hub.example", "--room", ROOM]
    assert run("log", source=lines_with(events))[:2] == (0, straight), "a room in its order stays"
    answers = run("replay", *room[:2], source=straight)[1].splitlines()
    verdicts = {tuple(sorted(json.loads(answer)["reply"].items())) for answer in answers if b'"reply"' in answer}
    assert verdicts == {()}, "all are accepted"
    lines = sorted(run("audit", *room, source=straight)[1].splitlines())
    for seed in range(3):
        mixed = shuffled(events, seed)
        wanted = log_of(bare(mixed))
        assert wanted != straight
        assert run("log", source=lines_with(mixed)) == (0, wanted, told), seed
        answers = run("replay", *room[:2], source=wanted)[1].splitlines()
        kept = {it["id"]: it["reply"] for it in map(json.loads, answers) if "id" in it}
        assert kept == {id_of(it): ACCEPTED for it in events[1:]}, seed
        audited = run("audit", *room, source=wanted)[1].splitlines()
        assert sorted(map(steady, audited)) == sorted(map(steady, lines)), seed


def steady(line: bytes) -> bytes:
    """What an audit's line tells whatever the order of arrival is."""
    told = json.loads(line)
    return canonical({key: told.get(key) for key in STEADY})


def forms_of(events: list[Event], half: list[Event], rest: list[Event]) -> list[bytes]:
    """The texts of exports with these events, of which `half` and `rest` are the parts."""
    wanted = log_of(events)
    return [
        canonical(events), json.dumps(events, indent=2).encode(), lines_with(events), lines_with(events).replace(b"\n", b"\r\n\n"),
        canonical({"pdus": events}), canonical({"events": events, "origin": "a.example"}), canonical({"auth_chain": half, "pdus": rest}),
        canonical({"state": rest, "auth_chain": half, "event": events[0]}), canonical({"auth_events": half, "events": rest}),
        lines_with([{"auth_chain": half}, {"pdus": rest}]), canonical([{"pdus": half}, {"state": rest}]),
        lines_with({"event": it, "stream": 1} for it in events), lines_with({"event_id": id_of(it), "json": it} for it in events),
        lines_with({"json": canonical(it).decode(), "format_version": 3} for it in events), canonical([canonical(it).decode() for it in events]),
        canonical({"events": [{"event": canonical(it).decode()} for it in events]}), wanted,
    ]


def forms_of_an_export() -> None:
    """An array, one event a line, replies of federation requests, and what is put round an event, give one log."""
    events = room_of(60)
    wanted = log_of(events)
    half, rest = events[:30], events[30:]
    for source in forms_of(events, half, rest):
        status, out, err = run("log", source=source)
        assert (status, out) == (0, wanted), source[:200]
        assert b"events 60\n" in err or b"events 61\n" in err, err


def transactions_of_a_log() -> None:
    """One event more than a transaction holds; the server that sends them."""
    for count, origin in ((1, None), (2, "b.example"), (51, None), (52, None), (101, "b.example:8448"), (102, None)):
        events = room_of(102)[:count]
        words = [] if origin is None else ["--origin", origin]
        assert run("log", *words, source=lines_with(events))[:2] == (0, log_of(events, ROOM, origin)), count
        sizes = [len(json.loads(line)["pdus"]) for line in log_of(events).splitlines() if b'"open"' in line]
        assert sizes == [50] * ((count - 1) // 50) + [(count - 1) % 50] * ((count - 1) % 50 > 0), sizes


def events_that_come_again() -> None:
    """An event that stands in an export twice stands in the log once."""
    events = room_of(70)
    status, out, err = run("log", source=lines_with([*events, *reversed(events), {**events[9], "unsigned": {}}]))
    assert (status, out) == (0, log_of(events))
    assert b"events 141\n" in err and b"log of !r:a.example events 70, came again 71\n" in err, err


def log_of_one_of_two_rooms() -> None:
    """Of an export of two rooms the log is that of the room that is named, and none where none is."""
    other = "!s:a.example"
    one, two = room_of(60), room_of(80, room=other, seed=3)
    source = lines_with(it for pair in zip(one, two) for it in pair) + lines_with(two[60:])
    rooms = b"events 140\nroom !r:a.example events 60, version 6\nroom !s:a.example events 80, version 6\n"
    assert run("log", source=source) == (1, b"", rooms + b"refused: several rooms, of which --room names one\n")
    logs = []
    for room, events in ((ROOM, one), (other, two)):
        told = rooms + b"log of %s events %d, came again 0\n" % (room.encode(), len(events))
        assert run("log", "--room", room, source=source) == (0, log_of(events, room), told), room
        logs.append(log_of(events, room))
    both = replay(b"".join(logs))[1]
    assert both.count(b'"reply":{}') == 138 and b"kept" not in both, "logs of two rooms make one log"
    assert run("log", "--room", "!t:a.example", source=source) == (1, b"", rooms + b"refused: no such room\n")


def log_of_a_room_that_is_not_hosted() -> None:
    """A room of another version, or of none, has its log, and it is said that it is not hosted."""
    for version, told in (("10", b', version "10" is not hosted: 6 and 7 are\n'), ("7", b", version 7\n")):
        events = room_of(40, version)
        wanted = b"events 40\nroom !r:a.example events 40" + told + b"log of !r:a.example events 40, came again 0\n"
        assert run("log", source=lines_with(events)) == (0, log_of(events), wanted), version
    nameless = sealed({**without(create(), "hashes", "signatures"), "content": {"creator": A}})
    status, out, err = run("log", source=canonical(nameless))
    assert (status, out) == (0, log_of([nameless])) and b", no version: 6 and 7 are hosted\n" in err, err


def log_of_a_partial_history() -> None:
    """An event in the middle lacks: what cites it is said, with its id. The create event lacks: no log."""
    events = room_of(300)
    gone = events[150]
    rest = [it for it in events if it is not gone]
    citing = [it for it in rest if id_of(gone) in it["prev_events"] + it["auth_events"]]
    told = b"events 299\nroom !r:a.example events 299, version 6\nlog of !r:a.example events 299, came again 0\n"
    told += b"partial history: %d events cite 1 that are not there\nmissing %s\n" % (len(citing), id_of(gone).encode())
    status, out, err = run("log", source=lines_with(rest))
    assert (status, out, err) == (0, log_of(rest), told), err
    answers = map(json.loads, replay(out)[1].splitlines())
    replies = {it["id"]: it["reply"] for it in answers if "id" in it}
    lost = {id_of(gone)}
    for it in events[1:]:
        if lost.intersection(it["prev_events"] + it["auth_events"]):
            lost.add(id_of(it))
    assert {name for name, reply in replies.items() if reply} == lost - {id_of(gone)}
    late = events[-50:]
    cited = {name for it in late for name in it["prev_events"] + it["auth_events"]} - {id_of(it) for it in [events[0], *late]}
    assert len(cited) > 10
    for words, shown in (([], 10), (["--missing"], len(cited))):
        _, _, err = run("log", *words, source=lines_with([events[0], *late]))
        lines = [line for line in err.splitlines() if line.startswith(b"missing ")]
        assert lines == [b"missing " + name.encode() for name in sorted(cited)[:shown]], err
        assert (b"%d more, which --missing tells\n" % (len(cited) - 10) in err) == (shown == 10), err
    told = b"events 50\nroom !r:a.example events 50, no create event\nrefused: no create event\n"
    assert run("log", source=lines_with(late)) == (1, b"", told)


def what_an_export_lets_go() -> None:
    """Keys that no event has are let go, unless the content hash holds with them; `unsigned` always."""
    first = create()
    plain = event("m.room.message", A, [first], [first], {"body": "m"})
    whole = event("m.room.message", A, [first], [first], {"body": "w"}, event_id="$x", age=1)
    forged = altered(plain, body="other")
    client = [
        {**first, "event_id": id_of(first)}, {**plain, "age": 5, "event_id": "$y", "user_id": A}, {**whole, "unsigned": {}},
        {**forged, "event_id": "$z"},
    ]
    wanted = log_of([first, plain, whole])
    status, out, err = run("log", source=lines_with(client))
    assert (status, out) == (0, wanted), out
    told = b'events 4\nlet go "age" of 1\nlet go "event_id" of 3\nlet go "unsigned" of 1\nlet go "user_id" of 1\n'
    assert err.startswith(told), err
    many = {"k%02d" % n: n for n in range(12)}
    _, out, err = run("log", source=lines_with([{**first, **many}]))
    assert out == log_of([first]) and err.count(b"let go \"k") == 10 and b"let go 2 other keys\n" in err, err


def what_an_export_has_beside_events() -> None:
    """Malformed events, lines that are not JSON, and values that are no events are told, and the others are read."""
    events = room_of(20)
    lines = lines_with(events[:10]) + b'{"type":"x","sender":"y"}\n{]\n[1,null,"x",{}]\n' + lines_with(events[10:]) + b"cut"
    status, out, err = run("log", source=lines)
    told = b"events 20\nmalformed event 11: field missing or of a wrong kind\n"
    told += b"line 12 is not JSON\nline 24 is not JSON\nvalues that are no events 4\n"
    assert (status, out) == (0, log_of(events)) and err.startswith(told), err
    bad = {**events[3], "depth": -1}
    _, _, err = run("log", source=lines_with([*events, *[bad] * 12]))
    assert err.count(b": limit\n") == 10 and b"2 more malformed events\n" in err, err
    _, _, err = run("log", source=lines_with(events) + b"{\n" * 12)
    assert err.count(b" is not JSON\n") == 10 and b"2 more lines that are not JSON\n" in err, err


TESTS = [
    words_of_log, log_of_a_shuffled_room, forms_of_an_export, transactions_of_a_log, events_that_come_again,
    log_of_one_of_two_rooms, log_of_a_room_that_is_not_hosted, log_of_a_partial_history, what_an_export_lets_go,
    what_an_export_has_beside_events,
]

if __name__ == "__main__":
    sys.exit(run_tests(TESTS, "log"))
