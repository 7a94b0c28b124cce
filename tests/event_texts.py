#!/usr/bin/env python3
"""Tests that a transaction has the same events in whatever text it comes (`mx_federd replay`).

Where all of them come in canonical JSON no JSON value is made of them; where one does not, as where its keys stand in another
order, the whole transaction is read to its value. So each text is given as it is, and beside an event whose keys are in no order.
Which events are well formed stands here, and ids are worked out by `matrix_events.py`."""

import json
import sys
from collections.abc import Iterator

from suite import TOP, run_tests
from event_logs import FEDERATION, Base, Log, call
from matrix_events import A, Event, Json, canonical, id_of, message
from program import compare_answers, replay

LARGEST = 2**53 - 1
LONGEST_TEXT = 65_536
# Contents with members that rules read, of which the ID of an event depends, by its type.
CONTENTS: dict[str, list[Json]] = {
    "m.room.member": [{"membership": "join"}, {"membership": 7}, {"displayname": "é", "membership": "ban", "reason": "x"}],
    "m.room.create": [{"creator": "@a:b", "m.federate": False, "room_version": "6"}, {"creator": None}, {"creator": {"a": [1]}}],
    "m.room.power_levels": [{"ban": "50", "events": {"m.x": 0}, "users": {"@a:b": 100, "@c:d": "5"}, "users_default": -1}, {"users": []}],
    "m.room.join_rules": [{"allow": [{"type": "x"}], "join_rule": "public"}],
    "m.room.history_visibility": [{"history_visibility": "\u2028\"", "zzz": {"users": 1}}],
}


def written(value: Json) -> bytes:
    """The text of a value without spaces, its keys in the order in which they stand."""
    return json.dumps(value, separators=(",", ":"), ensure_ascii=False).encode()


def turned(value: Json) -> Json:
    """The value with the keys of each object in the reverse order."""
    if isinstance(value, dict):
        return {key: turned(it) for key, it in reversed(value.items())}
    return [turned(it) for it in value] if isinstance(value, list) else value


def turned_text(text: bytes) -> bytes:
    """The text with its keys in the reverse order, where it is what Python writes of its value; else the text."""
    try:
        value = json.loads(text)
    except ValueError:
        return text
    return written(turned(value)) if written(value) == text else text


def turned_line(line: bytes) -> bytes:
    """The line of a log with the keys of its events in the reverse order, where it has any."""
    try:
        value = json.loads(line)
    except ValueError:
        return line
    if not isinstance(value, dict) or written(value) != line:
        return line
    if value.get("step") == "call" and isinstance(value.get("body"), str):
        return written({**value, "body": turned_text(value["body"].encode()).decode()})
    return written(turned(value)) if value.get("step") == "open" else line


def logs_with_keys_in_reverse_order() -> None:
    """Each log of examples/ gets its answers where the keys of what it sends stand in the reverse order."""
    others = 0
    for answers in [*sorted((TOP / "examples").glob("*.answers.jsonl")), *sorted((TOP / "examples/rows").glob("*.answers.jsonl"))]:
        lines = answers.with_name(answers.name.replace(".answers", "")).read_bytes().splitlines()
        log = [turned_line(line) for line in lines]
        others += sum(one != other for one, other in zip(lines, log))
        compare_answers(replay(b"\n".join(log) + b"\n"), answers.read_bytes().splitlines())
    assert others > 300, others


class Room:
    """A room, a message in it, and another one, which is given with its keys in the reverse order."""

    def __init__(self) -> None:
        self.log = Log()
        base = Base(self.log)
        self.message = message(A, [base.join_c], base.of_a)
        self.other = message(A, [base.join_c], base.of_a, "other")

    def changed(self, **fields: Json) -> Event:
        """The message with these fields, of which None stands for none."""
        return {key: it for key, it in {**self.message, **fields}.items() if it is not None}

    def spelled(self, old: str, new: str) -> bytes:
        """The text of the message with a part of it spelled otherwise."""
        text = canonical(self.message).decode()
        assert text.count(old) == 1, old
        return text.replace(old, new).encode()


def opened(room: Room, lines: list[bytes], ids: list[list[str] | None]) -> None:
    """That each of these lines opens a transaction with events of these ids, or none, in the room's log."""
    log, wanted = list(room.log.lines), []
    for txn, (line, events) in enumerate(zip(lines, ids)):
        log.append(line.replace(b"TXN", b"%d" % txn))
        wanted.append(None if events is None else len(events))
        for _ in events or []:
            log.append(canonical({"step": "next", "origin": "a.example", "txn": str(txn)}))
        wanted += events or []
    status, out, err = replay(b"\n".join(log) + b"\n")
    assert (status, err) == (0, b"") and out is not None, (status, err)
    told = [json.loads(answer) for answer in out.splitlines()[len(room.log.lines):]]
    for line, answer, right in zip([line[:300] for line in log[len(room.log.lines):]], told, wanted):
        given = answer.get("id") if isinstance(right, str) else answer.get("open")
        assert given == right and (right is not None or answer == {"error": "bad line"}), (line, answer, right)
    assert len(told) == len(wanted)


def line_of(*events: bytes) -> bytes:
    """The line that opens a transaction with events of these texts."""
    return b'{"origin":"a.example","pdus":[%s],"step":"open","txn":"TXN"}' % b",".join(events)


def both_ways(room: Room, cases: list[tuple[bytes, Event | None]]) -> None:
    """That each text stands for this event, or for none that is well formed, given alone and beside another event."""
    lines, ids = [], []
    for text, event in cases:
        alone = [] if event is None else [id_of(event)]
        lines += [line_of(text), line_of(text, written(turned(room.other)))]
        ids += [alone, [*alone, id_of(room.other)]]
    opened(room, lines, ids)


def fields_of(room: Room) -> Iterator[tuple[dict[str, Json], bool]]:
    """Fields of an event, and whether it is well formed with them."""
    ids = ["$" + chr(97 + at) * 43 for at in range(21)]
    deep: Json = 0
    for _ in range(100):
        deep = [deep]
    yield from (({"depth": it}, 0 <= it <= LARGEST) for it in (0, -1, LARGEST, LARGEST + 1, 2**63, 2**64))
    yield from (({"origin_server_ts": it}, abs(it) <= LARGEST) for it in (0, -LARGEST, -LARGEST - 1, LARGEST, LARGEST + 1))
    yield from (({"auth_events": ids[:it]}, it <= 10) for it in (0, 10, 11))
    yield from (({"prev_events": ids[:it]}, it <= 20) for it in (0, 1, 20, 21))
    yield from (({"type": "é" * (it // 2) + "x" * (it % 2)}, it <= 255) for it in (0, 255, 256))
    yield from (({"room_id": it}, it == "!a:b") for it in ("!a:b", "r:b", "!r", "!r:", "", 7))
    yield from (({"sender": it}, it == "@a:b") for it in ("@a:b", "a:b", "@a", "@a:", "", None))
    yield from (({"auth_events": [it]}, it == "$a") for it in ("$a", "$", "a", 7, None))
    yield from (({"content": it}, isinstance(it, dict)) for it in ({}, [], "", None))
    yield from (({"content": {"body": it}}, True) for it in ("\0\x1f\"\\/\x7f", "\u2028é\U0001f600", deep, [1, {"b": None, "a": True}]))
    yield from (({"content": {it: 7, "z": 8}}, True) for it in ("", "membership", "users", "é", "\0"))
    yield from (({"hashes": it}, it is not None) for it in ({}, {"sha256": 7}, {"sha256": "x", "sha512": "y"}, {"sha512": "y"}, None))
    yield from (({"signatures": it}, it != []) for it in ({}, {"a": {}}, {"a": {"k": "s", "l": "t"}}, {"a": {}, "b": {}}, {"a": 7}, []))
    yield from (({"unsigned": it}, it != 1.5) for it in ({"age": -5}, 7, [[]], "x", 1.5))
    yield from (({"state_key": it}, it in ("", "x" * 255)) for it in ("", "x" * 255, "é" * 128, 7))
    yield from (({"type": type, "state_key": "", "content": it}, True) for type, contents in CONTENTS.items() for it in contents)
    yield from (({it: "x"}, True) for it in ("origin", "redacts", "state_key", "event_id", "zzz", "aaa", "prev_state"))


def events_at_the_limits() -> None:
    """An event is the one that its fields make, or malformed, at and behind each limit of the format."""
    room = Room()
    cases = [(canonical(event), event if formed else None) for fields, formed in fields_of(room) for event in [room.changed(**fields)]]
    whole = len(canonical(room.changed(content={"body": ""})))
    for length in (LONGEST_TEXT, LONGEST_TEXT + 1):
        event = room.changed(content={"body": "x" * (length - whole)})
        cases.append((canonical(event), event if length == LONGEST_TEXT else None))
    both_ways(room, cases)


def messages_spelled_otherwise() -> None:
    """A message is the same in each spelling of its text, and malformed where it has a number that is no integer."""
    room = Room()
    depth, body = '"depth":%d' % room.message["depth"], '"body":"m"'
    cases: list[tuple[bytes, Event | None]] = [
        (json.dumps(room.message, sort_keys=True, indent=1).replace("\n", "\r\t").encode(), room.message),
        (room.spelled(body, '"b\\u006fdy":"\\u006d"'), room.message),
        (room.spelled('"m.room.message"', '"m.room\\u002emessage"'), room.message),
        (room.spelled(body, '"body":"\\ud83d\\ude00\\/"'), room.changed(content={"body": "\U0001f600/"})),
        (room.spelled(body, '"body":"x","body":"m"'), room.message),
        (room.spelled(depth, '"depth":0,' + depth), room.message),
        (room.spelled('"content"', '"content":{"body":"x"},"content"'), room.message),
    ]
    cases += [(room.spelled(depth, '"depth":' + it), None) for it in ("7.0", "7e0", "70e-1", "-0", "0.0", "9007199254740992", "-1")]
    cases += [(room.spelled(body, '"body":' + it), None) for it in ("1.5", "-0", "[1e0]", '{"a":9007199254740992}')]
    both_ways(room, cases)


def lines_that_are_bad() -> None:
    """A line is bad where it is no JSON, has other keys, or has no array of at most 50 events; of a key that is repeated the last
    value stands."""
    room = Room()
    good, other = canonical(room.message), written(turned(room.other))
    both = [id_of(room.message), id_of(room.other)]
    cases: list[tuple[bytes, list[str] | None]] = [(line_of(), [])]
    for texts, ids in (([good], both[:1]), ([good, other], both)):
        line = line_of(*texts)
        cases += [(line, ids), (line.replace(b'"pdus":', b'"pdus":[7],"pdus":'), ids)]
        cases += [(line.replace(b'"step"', b'"pdus":[],"step"'), []), (line.replace(b'"step"', b'"pdus":{},"step"'), None)]
        cases += [(line[:cut], None) for cut in (-1, -20, -60, 100)] + [(line + b"}", None), (line.replace(b"]", b"],", 1), None)]
        cases += [(line.replace(b'"step"', b'"edus":[],"step"'), None), (line.replace(b'"a.example","pdus"', b'7,"pdus"'), None)]
        cases += [(line.replace(b'"step":"open"', b'"step":"%s"' % step), None) for step in (b"host", b"next", b"close", b"call", b"x")]
        cases += [(line_of(*texts[:-1], *[texts[-1]] * many), ids[:-1] + ids[-1:] * many if len(ids) + many <= 51 else None)
                  for many in (49, 50, 51)]
        for at in (122, 123, 124):
            event = canonical(room.changed(content={"body": []})).replace(b"[]}", b"[" * at + b"]" * at + b"}")
            deep = room.changed(content={"body": json.loads("[" * at + "]" * at)})
            cases.append((line_of(event, *texts), [id_of(deep), *ids] if at < 124 else None))
    for spelling in (b'"depth":01', b'"depth":1e400', b'"depth":+1', b'"depth":.5'):
        bad = good.replace(b'"depth":%d' % room.message["depth"], spelling)
        cases += [(line_of(bad), None), (line_of(bad, other), None)]
    bad = good.replace(b'"m"', b'"\\ud800"')
    cases += [(line_of(bad), None), (line_of(bad, other), None), (line_of(good.replace(b'"m"', b'"\xff"')), None)]
    opened(room, [line for line, _ in cases], [ids for _, ids in cases])


def bodies_of_requests() -> None:
    """A request has at most 50 events and 100 others, which are not looked at, in whatever text they come."""
    room = Room()
    good, other = canonical(room.message), written(turned(room.other))
    log, statuses = Log(), []
    log.lines += room.log.lines
    for events, others in ((0, 0), (1, 0), (50, 100), (51, 0), (1, 101), (0, 101)):
        for last in (good, other):
            texts = [good] * (events - 1) + [last] * min(events, 1)
            body = b'{"edus":[%s],"pdus":[%s]}' % (b",".join([b"{}"] * others), b",".join(texts))
            target = FEDERATION + "v1/send/%d" % len(statuses)
            call(log, "PUT", target, (200, None), origin="a.example", body=body.decode())
            statuses.append(200 if events <= 50 and others <= 100 else 400)
    status, out, err = replay(log.text())
    assert (status, err) == (0, b"") and out is not None, (status, err)
    told = [json.loads(answer)["status"] for answer in out.splitlines()[len(room.log.lines):]]
    assert told == statuses, (told, statuses)


TESTS = [
    logs_with_keys_in_reverse_order, events_at_the_limits, messages_spelled_otherwise, lines_that_are_bad, bodies_of_requests,
]

if __name__ == "__main__":
    sys.exit(run_tests(TESTS, "the texts of events"))
