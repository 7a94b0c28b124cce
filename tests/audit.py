#!/usr/bin/env python3
"""Tests `mx_federd audit`: its options, and what it tells of the events of logs: verdicts, labels and sentences, the entries by
which an event is judged, states, resolutions, and the picture of examples/audit.

It is compared with the answers of the logs, with files that were written by the definitions, and with texts that stand here."""

import contextlib
import json
import sys
from collections.abc import Iterator
from pathlib import Path
from typing import Any

from suite import TOP, run_tests
from audit_lines import because
from event_logs import Base, Log
from matrix_events import A, B, C, ROOM, Event, Json, canonical, id_of, levels, topic
from program import FAILED, Ended, run

# What is said of examples/audit as a whole.
TWO_BANS = b"accepted 11, soft failed 1, rejected 1; refused 0; malformed 0; bad lines 0\n"
# A type and a state key.
Key = tuple[str, str]
# The lines that are told of the events of a log, by their ids, each with the id of its room.
Told = dict[str, tuple[str, Json]]


def words_of_audit() -> None:
    """A room, where its events are, and at most one question."""
    name, room = ["--name", "hub.example"], ["--room", ROOM]
    for words in (
        name, [*name, "--room", "r"], [*name, *room, "--data", "x"], [*room, "--data", ""], [*name, *room, "--event", "x"],
        [*room, "--name", ""], [*room, "--event", "$x", "--at", "$x"],
        [*name, *room, "--event", "$x", "--dot"], [*name, *room, "--event", "$x", "--state-before", "$x"],
        [*name, *room, "--event", "$x", "--html"], [*name, *room, "--dot", "--html"],
    ):
        status, out, err = run("audit", *words)
        assert (status, out) == (2, b"") and err, (words, status, out, err)
    for words in (room, [*name, *room]):
        assert run("audit", *words) == (1, b"", sum_of() + b"refused: no such room\n"), words
    assert run("audit", *room, "--data", "/dev/null") == (1, b"", FAILED + b"/dev/null/shard-0.db: it can't be read\n")
    assert run("audit", *name, *room, "--event", "x") == (2, b"", b"--event x is no event ID, which begins with $\n")
    _, _, both = run("audit", *name, *room, "--event", "$x", "--dot")
    assert b"'--dot'" in both and b"'--event <EVENT_ID>...'" in both and b"cannot be used with" in both, both


def sum_of(accepted: int = 0, soft_failed: int = 0, rejected: int = 0) -> bytes:
    """The sum of a log in which nothing was refused."""
    counts = f"accepted {accepted}, soft failed {soft_failed}, rejected {rejected}"
    return f"{counts}; refused 0; malformed 0; bad lines 0\n".encode()


def audit_of_two_bans() -> None:
    """The lines, the resolution and the picture of examples/audit, and the states that the lines tell of."""
    folder = TOP / "examples/audit"
    log = (folder / "two_bans.jsonl").read_bytes()

    def audit(*words: str, shards: str = "1") -> Ended:
        """What `audit` leaves of the log."""
        return run("audit", "--name=hub.example", "--room", ROOM, "--shards", shards, *words, source=log)

    lines = (folder / "two_bans.lines.jsonl").read_bytes()
    for shards in ("1", "64"):
        assert audit(shards=shards) == (0, lines, TWO_BANS)
    told = [json.loads(line) for line in lines.splitlines()]
    both = next(line for line in told if line["is_extremity"])
    for line in told:
        assert audit("--event", line["event_id"]) == (0, canonical(line) + b"\n", b"")
    assert audit("--event", "$x") == (1, b"", b"refused: no such event\n")
    assert audit("--resolution", both["event_id"]) == (0, (folder / "two_bans.resolution.jsonl").read_bytes(), b"")
    assert audit("--resolution", told[1]["event_id"]) == (0, b"", b"")
    assert audit("--dot") == (0, (folder / "two_bans.dot").read_bytes(), TWO_BANS)
    state = sorted((line["type"], line["state_key"], line["event_id"]) for line in told if line["in_current_state"])
    wanted = b"".join(
        canonical({"type": kind, "state_key": key, "event_id": made}) + b"\n" for kind, key, made in state)
    for question in ("--state-before", "--state-after"):
        assert audit(question, both["event_id"]) == (0, wanted, b"")


def rooms_of(log: bytes) -> list[str]:
    """The ids of the rooms of which a log has an event."""
    found = set()
    for line in log.splitlines():
        with contextlib.suppress(ValueError, AttributeError, TypeError):
            asked = json.loads(line)
            found |= {it.get("room_id") for it in [asked.get("event") or {}, *(asked.get("pdus") or [])]}
    return sorted(it for it in found if isinstance(it, str))


def keys_asked(line: Json) -> list[Key]:
    """The types and state keys that the rules ask for, by the selection of auth events, of an event of an audit's line."""
    asked = [("m.room.create", ""), ("m.room.power_levels", ""), ("m.room.member", line["sender"])]
    target = ("m.room.member", line.get("state_key"))
    return asked if line["type"] != "m.room.member" or target in asked or target[1] is None else asked + [target]


def entries_of_auth_events(line: Json, lines: Told) -> dict[Key, str]:
    """What the events that an event cites make of a state: of two at one key the first."""
    entries: dict[Key, str] = {}
    for cited in (lines[event_id][1] for event_id in line["auth_events"]):
        if "state_key" in cited:
            entries.setdefault((cited["type"], cited["state_key"]), cited["event_id"])
    return entries


# The lines that compare the level of the sender with one that an action asks for.
LEVEL_LABELS = {"A4.3.5", "A4.4.3", "A4.4.5", "A4.5.3", "A6", "A7"}
# Those that compare it with levels of the power levels event itself.
ENTRY_LABELS = {"A9.3", "A9.4", "A9.5", "A9.6", "A9.7"}


def offered_by(line: bytes) -> list[Json]:
    """The events that a line of a log offers: a host line's, an open line's, or those of the body of a request."""
    with contextlib.suppress(ValueError, AttributeError, TypeError):
        asked = json.loads(line)
        body = json.loads(asked.get("body") or "{}")
        return [it for it in [asked.get("event"), *(asked.get("pdus") or []), *(body.get("pdus") or []), body] if it]
    return []


def events_of(log: bytes) -> dict[str, Event]:
    """The events of a log by their ids."""
    found = {}
    for line in log.splitlines():
        for offered in offered_by(line):
            with contextlib.suppress(ValueError, AttributeError, TypeError, KeyError):
                found[id_of(offered)] = offered
    return found


def because_of(line: Json, events: dict[str, Event]) -> str | None:
    """What a line has to say of the levels that were compared, by the create event and the power levels that it names. Nothing
    of another line of the rules."""
    if line["rule"] not in LEVEL_LABELS:
        return None
    stood = {(it["type"], it["state_key"]): events.get(it["event_id"]) for it in line["judged_by"]}
    return because(line["rule"], events[line["event_id"]], stood[("m.room.create", "")], stood[("m.room.power_levels", "")])


def labels_in_docs() -> set[str]:
    """The labels of the table in docs/LOG.md."""
    rows = (TOP / "docs/LOG.md").read_text().splitlines()
    return {row.split("|")[1].strip() for row in rows if row.startswith("| A")}


def lines_of(log: bytes) -> Told:
    """The lines that `audit` tells of the events that all rooms of a log kept, with the room of each, by the id of the event."""
    told: Told = {}
    for room in rooms_of(log):
        status, out, _ = run("audit", "--name=hub.example", "--room=" + room, source=log)
        lines = [json.loads(line) for line in out.splitlines()] if status == 0 else []
        told |= {it["event_id"]: (room, it) for it in lines if it["verdict"] != "refused"}
    return told


def compare_verdicts(answers: Path, told: Told) -> None:
    """That the verdict and the label of each event that was kept are those of its answer."""
    for answer in map(json.loads, answers.read_bytes().splitlines()):
        error = answer.get("reply", {}).get("error", "") if "id" in answer else None
        if error == "" or error and error.startswith("rejected: "):
            _, line = told[answer["id"]]
            assert (line["verdict"] == "rejected") == bool(error), (answers.name, line)
            assert not error or line["rule"] == error.removeprefix("rejected: "), (answers.name, line)


def state_of_check(log: bytes, room: str, line: Json, told: Told) -> dict[Key, str] | None:
    """The state by which the check that decided judges an event; nothing where none of the two did."""
    if line.get("check") == "auth events":
        return entries_of_auth_events(line, told)
    if line.get("check") == "state before":
        _, out, _ = run("audit", "--name=hub.example", "--room=" + room, "--state-before=" + line["event_id"], source=log)
        return {(it["type"], it["state_key"]): it["event_id"] for it in map(json.loads, out.splitlines())}
    return None


def compare_entries(log: bytes, room: str, line: Json, told: Told) -> None:
    """That the entries told are at the keys that the rules ask for, and those of the state by which the event is judged."""
    asked = [(entry["type"], entry["state_key"]) for entry in line["judged_by"]]
    joining = [key for key in asked if key == ("m.room.join_rules", "") and line["type"] == "m.room.member"]
    assert line["type"] == "m.room.create" or asked == keys_asked(line) + joining or line["rule"] == "A4.T", line
    state = state_of_check(log, room, line, told)
    for entry in line["judged_by"] if state is not None else []:
        assert state.get((entry["type"], entry["state_key"])) == entry["event_id"], line


State = dict[tuple[str, str], int]


def states_of_page(page: bytes) -> Iterator[tuple[Json, State, State]]:
    """What a page of a room says of each event: its line, and the states before and after it, by its changes."""
    frame = (TOP / "crates/mx_page/page/frame.html").read_bytes()
    head, mark, end = frame.partition(b'<script type="application/json" id="room-data">')
    assert page.startswith(head + mark) and page.endswith(end)
    data = page[len(head + mark) : len(page) - len(end)]
    assert b"<" not in data

    def changed(state: State, changes: list[list[Any]]) -> State:
        new = {key: place for key, place in state.items() if [*key] not in [it[:2] for it in changes]}
        return new | {(kind, key): place for kind, key, place in changes if place is not None}

    after: list[State] = []
    for entry in json.loads(data)["events"]:
        before = changed(after[entry["base"] - 1] if "base" in entry else {}, entry["before"])
        after.append(changed(before, entry["after"]))
        yield entry, before, after[-1]


def page_of_two_bans() -> None:
    """The page of examples/audit is the frame with the data: each event's line, and its states and resolution as the options tell them."""
    log = (TOP / "examples/audit/two_bans.jsonl").read_bytes()

    def audit(*words: str) -> Ended:
        return run("audit", "--name=hub.example", "--room", ROOM, *words, source=log)

    told = [json.loads(line) for line in audit()[1].splitlines()]
    status, page, err = audit("--html")
    assert (status, err) == (0, TWO_BANS)
    entries = list(states_of_page(page))
    assert [entry["line"] for entry, _, _ in entries] == told
    for entry, *states in entries:
        event = entry["line"]["event_id"]
        for question, state in zip(("--state-before", "--state-after"), states):
            ids = {key: told[place - 1]["event_id"] for key, place in sorted(state.items())}
            wanted = b"".join(canonical({"type": kind, "state_key": key, "event_id": ids[kind, key]}) + b"\n" for kind, key in ids)
            assert audit(question, event) == (0, wanted, b""), event
        resolution = b"".join(canonical(it) + b"\n" for it in entry.get("resolution", []))
        assert audit("--resolution", event) == (0, resolution, b""), event


def audit_of_the_rows() -> None:
    """Over each log of examples/rows: of each event that was kept the verdict and the label are those of its answer, of
    each that is not accepted the sentence is its label's alone, and the entries told are at the keys that the rules ask
    for those of the state before it, or of its auth events, where that decided. Each label is told but those of create
    events."""
    sentences: dict[str, str] = {}
    labels = set()
    for answers in sorted((TOP / "examples/rows").glob("*.answers.jsonl")):
        log = (answers.parent / answers.name.replace(".answers", "")).read_bytes()
        told = lines_of(log)
        compare_verdicts(answers, told)
        for room, line in told.values():
            if line["verdict"] != "accepted":
                labels.add(line["rule"])
                why = because_of(line, events_of(log))
                assert line["because"] == why if why else sentences.setdefault(line["because"], line["rule"]) == line["rule"], (answers.name, line)
            compare_entries(log, room, line, told)
    assert labels == {label for label in labels_in_docs() if not label.startswith("A1.")}, sorted(labels)
    sentences = {text.partition("; ")[2] if label in ENTRY_LABELS else text: label for text, label in sentences.items()}
    assert len(sentences) == len(labels - LEVEL_LABELS), sorted(sentences)


def audit_of_soft_failures() -> None:
    """Of a soft failed event the entries are those of the current state as it came: there the sender is banned, or has
    lost her level."""
    for row, kind, sender, check, rule, deciding in (
        ("soft_failure", "m.room.topic", C, "current state", "A5", {"membership": "ban"}),
        ("soft_failed_invite", "m.room.member", B, "current state", "A4.3.5", {"users": {A: 100}}),
    ):
        log = (TOP / "examples/rows" / (row + ".jsonl")).read_bytes()
        events = {id_of(it): it for line in map(json.loads, log.splitlines()) for it in line.get("pdus", [])}
        status, out, err = run("audit", "--name=hub.example", "--room=" + ROOM, source=log)
        assert status == 0 and err.startswith(b"accepted "), row
        lines = [json.loads(line) for line in out.splitlines()]
        failed = [it for it in lines if it["verdict"] == "soft failed" and (it["type"], it["sender"]) == (kind, sender)]
        assert [it["check"] for it in failed] == [check] and [it["rule"] for it in failed] == [rule], (row, failed)
        stood = [events[entry["event_id"]]["content"] for entry in failed[0]["judged_by"] if entry["event_id"] in events]
        assert any(deciding.items() <= content.items() for content in stood), (row, failed)


def audit_of_an_event_sent_twice() -> None:
    """An event that was known as it came again has one line, in the place where it came first."""
    log = (TOP / "examples/rows/rejected_parent.jsonl").read_bytes()
    sent_ids = [id_of(it) for line in map(json.loads, log.splitlines()) for it in [line.get("event"), *line.get("pdus", [])] if it]
    assert len(set(sent_ids)) < len(sent_ids)
    _, out, _ = run("audit", "--name=hub.example", "--room=" + ROOM, source=log)
    assert [json.loads(line)["event_id"] for line in out.splitlines()] == list(dict.fromkeys(sent_ids))


def audit_of_a_demotion() -> None:
    """A resolution in which power levels that take B's level away come before her topic, which they undo. The join of B is
    checked since the topic rests on it; the topics have one power levels event, and come by their times."""
    log = (TOP / "examples/rows/demotion_before_the_topic.jsonl").read_bytes()
    base = Base(Log())
    before = topic(A, [base.join_c], base.of_a, "a")
    topic_b = topic(B, [before], base.of_b, "b")
    demotes = levels(A, [before], base.of_a, {A: 100, B: 0, C: 50})
    both = topic(B, [demotes, topic_b], base.of_b, "c")
    wanted = [
        {"conflicted": place, "event_id": id_of(it), "state_key": "", "type": it["type"]}
        for place, state in enumerate(([demotes, before], [base.levels, topic_b])) for it in state
    ] + [
        {"allowed": True, "event_id": id_of(it), "order": order}
        for order, it in (("power", base.levels), ("power", demotes), ("mainline", base.join_b), ("mainline", before))
    ] + [{
        "allowed": False, "event_id": id_of(topic_b), "order": "mainline", "rule": "A7",
        "because": "the sender's level is below what the event's type asks for: its entry in events, else state_default or events_default",
    }]
    told = run("audit", "--name=hub.example", "--room=" + ROOM, "--resolution=" + id_of(both), source=log)
    assert told == (0, b"".join(canonical(line) + b"\n" for line in wanted), b"")


TESTS = [
    words_of_audit, audit_of_two_bans, page_of_two_bans, audit_of_the_rows, audit_of_soft_failures, audit_of_an_event_sent_twice,
    audit_of_a_demotion,
]

if __name__ == "__main__":
    sys.exit(run_tests(TESTS, "audit"))
