#!/usr/bin/env python3
"""Writes the logs of this folder and their answers: `examples/rows/make_rows.py`.

Each log is a worked row: `NAME.jsonl` is what `mx_federd replay` reads, and `NAME.answers.jsonl` what it has to print.
The events get their true hashes and ids here. The answers are written by hand, by the authorization rules of room
versions 6 and 7 and the checks on receipt of an event; nothing here was taken from what the program prints."""

import sys
from pathlib import Path

FOLDER = Path(__file__).resolve().parent
sys.path.insert(0, str(FOLDER.parent.parent / "tests"))
sys.dont_write_bytecode = True
from query_rows import QUERY_ROWS  # noqa: E402
from event_logs import Base, Log  # noqa: E402
from matrix_events import (  # noqa: E402
    A, ACCEPTED, B, C, D, E, altered, canonical, create, error, event, id_of, join, levels, member, message, rejected,
    rules, sealed, topic, unsigned, without,
)
from request_rows import REQUEST_ROWS, life_of_a_room  # noqa: E402
from state_rows import STATE_ROWS  # noqa: E402
from version_rows import VERSION_ROWS  # noqa: E402


def host_refusals(log):
    """A room is made of a sound create event alone, and the first of its faults is told."""
    sound = create()
    bare = without(sound, "hashes", "signatures")
    nothing = {"content": {}, "room_id": "!r:z.example", "prev_events": ["$x"], "auth_events": ["$x"]}

    def host(text, *, hashed=True, signed=True, **changes):
        made = sealed({**bare, **changes})
        made = made if hashed else {**made, "hashes": {"sha256": "x"}}
        log.host(made if signed else unsigned(made), {"refused": text})

    host("rule A1.4", content={"room_version": "6"})
    host("rule A1.1", prev_events=["$x"])
    host("rule A1.2", room_id="!r:z.example")
    host("rule A1.3", content={"creator": A})
    host("rule A1.3", content={"creator": A, "room_version": "8"})
    host("not a create event", type="m.room.message")
    host("not a create event", state_key="k")
    host("malformed", auth_events=["$x"])
    host("signature", signed=False)
    host("content hash", hashed=False)
    for hashes in ({}, {"sha256": 1}):
        log.host({**sound, "hashes": hashes}, {"refused": "content hash"})
    host("malformed", depth=-1)
    # Several faults in one event.
    host("not a create event", hashed=False, signed=False, **nothing, type="m.room.message")
    host("malformed", hashed=False, signed=False, **nothing)
    nothing["auth_events"] = []
    host("signature", hashed=False, signed=False, **nothing)
    host("content hash", hashed=False, **nothing)
    host("rule A1.1", **nothing)
    nothing["prev_events"] = []
    host("rule A1.2", **nothing)
    host("rule A1.3", content={})
    keyless = sealed(without(bare, "state_key"))
    log.host(keyless, {"refused": "not a create event"})
    log.line({"step": "host", "event": {}}, {"refused": "malformed"})
    log.host(sound)
    log.host(sound, {"already": id_of(sound)})
    log.host(unsigned(sound), {"already": id_of(sound)})


def join_before_join_rules(log):
    """Without join rules a room is for those who are invited."""
    first = create()
    log.host(first)
    log.transaction(
        "a.example", "t1",
        (join(A, [first], [first]), ACCEPTED),
        (join(B, [first], [first]), rejected("A4.2.6")),
    )


def parent_and_child(log):
    """A room with its creator, a message of hers, and one after it."""
    first = create()
    joined = join(A, [first], [first])
    parent = message(A, [joined], [first, joined], "p")
    child = message(A, [parent], [first, joined], "q")
    log.host(first)
    log.transaction("a.example", "t0", (joined, ACCEPTED))
    return parent, child


def child_before_parent(log):
    """An event is refused before its parent is there, and can be sent again; the first reply of a number stays."""
    parent, child = parent_and_child(log)
    first = log.transaction("a.example", "t1", (child, error("missing events")), (parent, ACCEPTED))
    log.transaction("a.example", "t2", (child, ACCEPTED), (parent, ACCEPTED))
    log.open("a.example", "t1", [], {"kept": first})
    log.open("a.example", "t1", [child], {"kept": first})
    log.open("b.example", "t1", [], {"open": 0})


def steps_out_of_turn(log):
    """Steps of a transaction that is not open, has events left, or has none."""
    parent, child = parent_and_child(log)
    log.open("a.example", "t1", [child, parent], {"open": 2})
    log.next("a.example", "t1", {"id": id_of(child), "reply": error("missing events")})
    log.close("a.example", "t1", {"more": 1})
    log.next("a.example", "t9", {"not_open": True})
    log.close("b.example", "t1", {"not_open": True})
    log.open("a.example", "t1", [], {"busy": True})
    log.next("a.example", "t1", {"id": id_of(parent), "reply": ACCEPTED})
    log.next("a.example", "t1", {"no_more": True})
    body = {"pdus": {id_of(child): error("missing events"), id_of(parent): ACCEPTED}}
    log.close("a.example", "t1", {"closed": body})
    log.next("a.example", "t1", {"not_open": True})
    log.close("a.example", "t1", {"not_open": True})
    log.open("a.example", "t1", [child], {"kept": body})


def last_text_stands(log):
    """Of an id that is sent twice in a transaction the last text stands."""
    parent, child = parent_and_child(log)
    log.transaction(
        "a.example", "t1",
        (event("m.room.create", A, [], [], {"creator": A, "room_version": "6"}, "", 11), error("second create")),
        (child, error("missing events")),
        (parent, ACCEPTED),
        (child, ACCEPTED),
    )


def altered_content(log):
    """An event whose content was altered is kept redacted, and stays so when the right one comes."""
    base = Base(log)
    right = levels(A, [base.join_c], base.of_a, {A: 100, B: 50, C: 50}, invite=100)
    wrong = altered(right, invite=70)
    log.transaction("a.example", "t1", (unsigned(wrong), error("signature")))
    log.transaction("a.example", "t2", (wrong, ACCEPTED))
    # Redacted power levels have no `invite`, so that B may invite; the right ones would forbid it.
    auth = [base.create, right, base.join_b]
    invite = member(B, D, "invite", [right], auth + [base.rules])
    log.transaction("b.example", "t3", (invite, ACCEPTED))
    log.transaction("a.example", "t4", (right, ACCEPTED))
    invite = member(B, E, "invite", [invite], auth + [base.rules])
    log.transaction("b.example", "t5", (invite, ACCEPTED))


def two_rooms(log):
    """Two rooms, and in each its creator's join; a message of the first room that cites an event of the second."""
    first, second = create(), create("!s:a.example")
    joined = join(A, [first], [first])
    other = join(A, [second], [second], room="!s:a.example")
    return first, second, joined, other, message(A, [other], [first, joined])


def two_rooms_one_transaction(log):
    """An event that follows an event of another room misses it."""
    first, second, joined, other, cites_other = two_rooms(log)
    log.host(first)
    log.host(second)
    log.transaction(
        "a.example", "t1", (joined, ACCEPTED), (other, ACCEPTED), (cites_other, error("missing events")))


def one_of_two_rooms_alone(log):
    """The same where the first room is hosted alone."""
    first, _, joined, other, cites_other = two_rooms(log)
    log.host(first)
    log.transaction(
        "a.example", "t1", (joined, ACCEPTED), (other, error("unknown room")), (cites_other, error("missing events")))


def refusals_in_their_order(log):
    """What is asked of an event before it is judged: known, a second create event, signatures, what it cites."""
    base = Base(log)
    second = sealed({**without(create(), "hashes", "signatures"), "prev_events": ["$x"], "depth": 9})
    orphan = message(A, [base.join_c], base.of_a)
    orphan = sealed({**orphan, "prev_events": [id_of(base.join_c), "$missing"]})
    uncited = message(A, [base.join_c], base.of_a)
    uncited = sealed({**uncited, "auth_events": [id_of(base.create), "$missing"]})
    log.transaction(
        "c.example", "t1",
        (unsigned(base.join_c), ACCEPTED),
        (unsigned(second), error("second create")),
        (second, error("second create")),
        (unsigned(orphan), error("signature")),
        (orphan, error("missing events")),
        (uncited, error("missing events")),
        (join(A, [], [], room="!s:a.example"), error("unknown room")),
    )


def access_list(log):
    """The list of a room's current state is asked first, of that room alone, and by the server that sends."""
    base = Base(log)
    second = create("!s:a.example")
    other = join(A, [second], [second], room="!s:a.example")
    log.host(second)
    denied = "A.EVIL.example:8448"
    log.transaction(denied, "t1", (message(B, [base.join_c], base.of_b, "before"), ACCEPTED))
    content = {"allow": ["*"], "allow_ip_literals": False, "deny": ["*.evil.example"]}
    listed = event("m.room.server_acl", A, [base.join_c], base.of_a, content, "")
    log.transaction("a.example", "t1", (listed, ACCEPTED))
    # The list is in force, though the event follows one that came before it.
    said = message(B, [base.join_c], base.of_b)
    log.transaction(denied, "t2", (said, error("server acl")), (other, ACCEPTED))
    for origin in ("1.2.3.4", "[::1]:80", "b.evil.example"):
        log.transaction(origin, "t1", (said, error("server acl")))
    # It is asked before anything of the event.
    log.transaction(
        denied, "t3", (listed, error("server acl")), (base.create, error("server acl")),
        (unsigned(message(B, [listed], base.of_b)), error("server acl")))
    log.transaction("evil.example", "t1", (said, ACCEPTED))
    # Without an entry that allows, and with lists of a wrong kind, nobody is let in, and nobody can undo it.
    closed = event("m.room.server_acl", A, [listed, said], base.of_a, {"allow": "*", "deny": ["*"]}, "")
    log.transaction("a.example", "t2", (closed, ACCEPTED))
    undone = event("m.room.server_acl", A, [closed], base.of_a, content, "")
    log.transaction("a.example", "t3", (undone, error("server acl")))


def malformed_events(log):
    """Malformed events of a transaction have no entry."""
    base = Base(log)
    sound = message(A, [base.join_c], base.of_a)
    bad = [{}, None, 1, {**sound, "depth": -1}, {**sound, "auth_events": ["$x"] * 11}, without(sound, "hashes")]
    log.open("a.example", "t1", [*bad, sound], {"open": 1})
    log.next("a.example", "t1", {"id": id_of(sound), "reply": ACCEPTED})
    log.close("a.example", "t1", {"closed": {"pdus": {id_of(sound): ACCEPTED}}})


def format_limits(log):
    """The limits of an event's format: the longest that is formed, and one beyond it."""
    short = without(create(), "hashes", "state_key")
    short = {**short, "type": "m.room.message", "hashes": {"sha256": "x"}, "content": {}}
    text = 65_536 - len(canonical({**short, "content": {"body": ""}}))
    for number, (key, within, over) in enumerate((
        ("prev_events", ["$e"] * 20, ["$e"] * 21),
        ("auth_events", ["$e"] * 10, ["$e"] * 11),
        ("prev_events", ["$" + "e" * 254], ["$" + "e" * 255]),
        ("depth", 9007199254740991, 9007199254740992),
        ("depth", 0, -1),
        ("depth", 1, 1.0),
        ("depth", 1, "1"),
        ("origin_server_ts", -9007199254740991, "5"),
        ("prev_events", ["$e"], ["e"]),
        ("auth_events", ["$e"], ["$"]),
        ("type", "t" * 255, "t" * 256),
        ("type", "t", 1),
        ("state_key", "k" * 255, "k" * 256),
        ("state_key", "", None),
        ("sender", "@" + "a" * 252 + ":b", "@" + "a" * 253 + ":b"),
        ("sender", "@a:b", "@a"),
        ("room_id", "!r:a", "@r:a"),
        ("redacts", 1, 1.5),
        ("content", {"body": "a" * text}, {"body": "a" * (text + 1)}),
        ("content", {}, []),
        ("hashes", {}, None),
    )):
        log.open("a.example", "t%d" % number, [{**short, key: within}, {**short, key: over}], {"open": 1})


def signatures(log):
    """An event is signed where its sender's server, port included, has a signature that is no empty text."""
    base = Base(log)
    said = message(A, [base.join_c], base.of_a)
    told = []
    for made in ({}, {"b.example": {"ed25519:1": "s"}}, {"a.example": "s"}, {"a.example": {"ed25519:1": 1}},
                 {"a.example": {"ed25519:1": ""}}):
        told.append(({**said, "signatures": made}, error("signature")))
    said = message(A, [base.join_c], base.of_a, "n")
    told.append(({**said, "signatures": {"a.example": {"ed25519:1": "", "ed25519:2": "s"}}}, ACCEPTED))
    joined = join("@z:z.example:8448", [base.join_c], [base.create, base.levels, base.rules])
    told.append(({**joined, "signatures": {"z.example": {"ed25519:1": "s"}}}, error("signature")))
    told.append((joined, ACCEPTED))
    log.transaction("a.example", "t1", *told)


def level_texts(log):
    """What reads as a level: an integer, or a text that is one between spaces, with a sign or without."""
    base = Base(log)
    auth, prev, told = base.of_a, base.join_c, []
    for level in ("1 0", "9007199254740992", "-9007199254740992", "9" * 64, "+-1", "- 1", "+", " ", "", "1.0",
                  "\u00085", "5\u000e", "5\u00a0", "\u0661", True, None, [1], {}):
        told.append((levels(A, [prev], auth, {A: 100, B: level, C: 50}), rejected("A9.1")))
    above = levels(A, [prev], auth, {A: 100, B: "9007199254740991", C: 50})
    told.append((above, rejected("A9.7")))
    for level in ("-7", -1, "-0", "\t\n\u000b\u000c\r 5\t\r ", "0" * 63 + "9", "-9007199254740991", " +0050 "):
        prev = levels(A, [prev], auth, {A: 100, B: level, C: 50})
        auth = [base.create, base.join_a, prev]
        told.append((prev, ACCEPTED))
    # B's level is 50 again.
    told.append((topic(B, [prev], [base.create, prev, base.join_b]), ACCEPTED))
    log.transaction("a.example", "t1", *told)
    past = {**levels(A, [prev], auth, {A: 100}), "content": {"users": {A: 9007199254740992}}}
    log.open("a.example", "t2", [past], {"open": 0})
    log.close("a.example", "t2", {"closed": {"pdus": {}}})


def power_level_changes(log):
    """Who may change which level."""
    base = Base(log)
    users = {A: 100, B: 50, C: 50}

    def by_b(users, **content):
        return levels(B, [base.join_c], base.of_b, users, **content)

    log.transaction(
        "b.example", "t1",
        (by_b({A: 100, B: 50, C: 40}), rejected("A9.6")),
        (by_b({A: 100, B: 51, C: 50}), rejected("A9.7")),
        (by_b({A: 100, B: 50, C: 50, D: 51}), rejected("A9.7")),
        (by_b({A: 100, B: 50, C: 50, "d": 1}), rejected("A9.1")),
        (by_b([]), rejected("A9.1")),
        (by_b(users, invite=51), rejected("A9.3")),
        (by_b(users, users_default="51"), rejected("A9.3")),
        (by_b(users, events={"m.x": 51}), rejected("A9.5")),
        (by_b({A: 100, B: 40, C: 50}), ACCEPTED),
    )
    raised = levels(A, [base.join_c], base.of_a, users, kick=60, events={"m.x": 60})
    auth = [base.create, raised, base.join_b]
    log.transaction(
        "a.example", "t2",
        (raised, ACCEPTED),
        (levels(B, [raised], auth, users, events={"m.x": 60}), rejected("A9.3")),
        (levels(B, [raised], auth, users, kick=60), rejected("A9.4")),
        (levels(B, [raised], auth, users, kick=60, events={"m.x": 60, "m.y": 50}), ACCEPTED),
    )


def notification_levels(log):
    """A level of `notifications` is asked for as those of `events` are."""
    base = Base(log)
    users = {A: 100, B: 50, C: 50}
    log.transaction(
        "b.example", "t1",
        (levels(B, [base.join_c], base.of_b, users, notifications={"room": 60}), rejected("A9.5")),
        (levels(B, [base.join_c], base.of_b, users, notifications={"room": 50}), ACCEPTED),
    )


def join_on_an_invite(log):
    """Whoever is invited may join; without power levels everybody may set a topic, and nobody but A may kick."""
    first = create()
    joined = join(A, [first], [first])
    invite = member(A, B, "invite", [joined], [first, joined])
    join_b = join(B, [invite], [first, invite])
    kick = member(B, A, "leave", [join_b], [first, joined, join_b])
    log.host(first)
    log.transaction(
        "b.example", "t1",
        (joined, ACCEPTED),
        (invite, ACCEPTED),
        (member(B, C, "join", [invite], [first, invite]), rejected("A4.2.2")),
        (join(C, [invite], [first]), rejected("A4.2.6")),
        (topic(B, [invite], [first, invite]), rejected("A5")),
        (join_b, ACCEPTED),
        (topic(B, [join_b], [first, join_b]), ACCEPTED),
        (kick, rejected("A4.4.5")),
        (member(A, B, "leave", [join_b], [first, joined, join_b]), ACCEPTED),
    )


def ban_and_invite_rules(log):
    """Bans, invites, kicks and knocks."""
    base = Base(log)
    prev = [base.join_c]
    party = member(A, D, "invite", prev, base.of_a + [base.rules], third_party_invite={})
    ban = member(A, C, "ban", prev, base.of_a + [base.join_c])
    of_banned = [base.create, base.levels, ban]
    log.transaction(
        "a.example", "t1",
        (member(B, C, "ban", prev, base.of_b + [base.join_c]), rejected("A4.5.3")),
        (member(B, C, "leave", prev, base.of_b + [base.join_c]), rejected("A4.4.5")),
        (party, rejected("A4.T")),
        (member(A, B, "invite", prev, base.of_a + [base.join_b, base.rules]), rejected("A4.3.3")),
        (member(D, D, "knock", prev, [base.create, base.levels]), rejected("A4.6")),
        (member(D, D, "leave", prev, [base.create, base.levels]), rejected("A4.4.1")),
        (member(D, E, "invite", prev, [base.create, base.levels, base.rules]), rejected("A4.3.2")),
        (ban, ACCEPTED),
        (join(C, [ban], of_banned + [base.rules]), rejected("A4.2.3")),
        (message(C, [ban], of_banned), rejected("A5")),
        (member(C, C, "leave", [ban], of_banned), rejected("A4.4.1")),
        (member(A, C, "invite", [ban], base.of_a + [ban, base.rules]), rejected("A4.3.3")),
        (member(A, C, "leave", [ban], base.of_a + [ban]), ACCEPTED),
    )


def kicks_and_bans_by_outsiders(log):
    """Kicks and bans by users who are not joined, and an unban below the level that a ban asks for."""
    base = Base(log)
    raised = levels(A, [base.join_c], base.of_a, {A: 100, B: 50, C: 50}, ban=60)
    join_e = join(E, [raised], [base.create, raised, base.rules])
    ban = member(A, C, "ban", [join_e], [base.create, raised, base.join_a, base.join_c])
    outside = [base.create, raised, join_e]
    log.transaction(
        "a.example", "t1",
        (raised, ACCEPTED),
        (join_e, ACCEPTED),
        (member(D, E, "leave", [join_e], outside), rejected("A4.4.2")),
        (member(D, E, "ban", [join_e], outside), rejected("A4.5.1")),
        (ban, ACCEPTED),
        (member(B, C, "leave", [ban], [base.create, raised, base.join_b, ban]), rejected("A4.4.3")),
        # What these cite allows them: there C is joined, and a ban asks for 50. In the state before them C is banned.
        (member(C, E, "leave", [ban], [base.create, raised, base.join_c, join_e]), rejected("A4.4.2")),
        (member(C, E, "ban", [ban], [base.create, base.levels, base.join_c, join_e]), rejected("A4.5.1")),
    )


def event_without_prev_events(log):
    """The state before an event that follows none is empty, and so is the one after it."""
    base = Base(log)
    alone = message(B, [], base.of_b)
    log.transaction(
        "b.example", "t1",
        (alone, rejected("A0")),
        (message(B, [alone], base.of_b), rejected("A0")),
        (message(B, [base.join_c, alone], base.of_b), ACCEPTED),
    )


def auth_events_check(log):
    """What an event may cite as its auth events."""
    base = Base(log)
    prev, (first, join_a, level) = [base.join_c], base.of_a
    lowered = levels(B, prev, base.of_b, {A: 100, B: 50, C: 40})
    log.transaction(
        "a.example", "t1",
        (message(A, prev, [first, join_a, level, level]), rejected("A2.1")),
        (message(A, prev, [first, join_a, level, base.rules]), rejected("A2.2")),
        (message(A, prev, [join_a, level]), rejected("A2.4")),
        (message(A, prev, []), rejected("A2.4")),
        (lowered, rejected("A9.6")),
        (message(A, prev, [first, join_a, lowered]), rejected("A2.3")),
        (message(A, prev, [first, join_a, level]), ACCEPTED),
    )


def closed_to_other_servers(log):
    """A room whose create event keeps it to its own server."""
    first = create(**{"m.federate": False})
    joined = join(A, [first], [first])
    public = rules([joined], [first, joined], "public")
    log.host(first)
    log.transaction(
        "b.example", "t1",
        (joined, ACCEPTED),
        (public, ACCEPTED),
        (join(B, [public], [first, public]), rejected("A3")),
        (join("@z:a.example", [public], [first, public]), ACCEPTED),
    )


def other_rules(log):
    """State keys that begin with `@`, levels that an event needs, third party invites."""
    base = Base(log)
    prev = [base.join_c]
    raised = levels(A, prev, base.of_a, {A: 100, B: 50}, events={"m.x": 51}, events_default=50, invite=51)
    of_b = [base.create, raised, base.join_b]
    of_c = [base.create, raised, base.join_c]
    log.transaction(
        "b.example", "t1",
        (event("m.x", B, prev, base.of_b, {}, A), rejected("A8")),
        (event("m.x", B, prev, base.of_b, {}, B), ACCEPTED),
        (raised, ACCEPTED),
        (event("m.x", B, [raised], of_b, {}), rejected("A7")),
        (event("m.y", B, [raised], of_b, {}), ACCEPTED),
        (event("m.y", C, [raised], of_c, {}), rejected("A7")),
        (event("m.room.third_party_invite", B, [raised], of_b, {}, "k"), rejected("A6")),
        (member(B, D, "invite", [raised], of_b + [base.rules]), rejected("A4.3.5")),
        (event("m.room.member", B, [raised], of_b, {"membership": "join"}), rejected("A4.1")),
        (event("m.room.member", B, [raised], of_b, {}, B), rejected("A4.1")),
    )


def demotion(log):
    """A topic of B, and beside it power levels that take her level away; the topic that follows both."""
    base = Base(log)
    before = topic(A, [base.join_c], base.of_a, "a")
    topic_b = topic(B, [before], base.of_b, "b")
    demotes = levels(A, [before], base.of_a, {A: 100, B: 0, C: 50})
    after = topic(B, [demotes, topic_b], base.of_b, "c")
    return before, topic_b, demotes, after, message(B, [demotes, topic_b], base.of_b)


def demotion_race(log):
    """The topic comes first and is accepted; whoever has both knows B at level 0."""
    before, topic_b, demotes, after, said = demotion(log)
    log.transaction(
        "b.example", "t1",
        (before, ACCEPTED), (topic_b, ACCEPTED), (demotes, ACCEPTED), (after, rejected("A7")), (said, ACCEPTED))


def demotion_before_the_topic(log):
    """The power levels come first, the topic is soft failed, and the rest is the same."""
    before, topic_b, demotes, after, said = demotion(log)
    log.transaction(
        "b.example", "t1",
        (before, ACCEPTED), (demotes, ACCEPTED), (topic_b, ACCEPTED), (after, rejected("A7")), (said, ACCEPTED))


def soft_failure(log):
    """A topic beside a ban is soft failed: it counts in the states after it, and the ban stands."""
    base = Base(log)
    before = topic(A, [base.join_c], base.of_a, "a")
    ban = member(A, C, "ban", [before], base.of_a + [base.join_c])
    topic_c = topic(C, [before], base.of_c, "c")
    both = message(A, [ban, topic_c], base.of_a)
    log.transaction(
        "c.example", "t1",
        (before, ACCEPTED),
        (ban, ACCEPTED),
        (topic_c, ACCEPTED),
        (both, ACCEPTED),
        # After the topic alone C is joined, after both banned.
        (message(C, [topic_c], base.of_c), ACCEPTED),
        (message(C, [both], base.of_c), rejected("A5")),
    )


def soft_failed_invite(log):
    """An invite by someone who has just lost her level is soft failed, and stands in the state after it."""
    base = Base(log)
    private = levels(A, [base.join_c], base.of_a, {A: 100, B: 50}, invite=50)
    of_a = [base.create, base.join_a, private]
    invited = rules([private], of_a, "invite")
    demotes = levels(A, [invited], of_a, {A: 100}, invite=50)
    invite = member(B, D, "invite", [invited], [base.create, private, base.join_b, invited])
    auth = [base.create, private, invited]
    log.transaction(
        "b.example", "t1",
        (private, ACCEPTED),
        (invited, ACCEPTED),
        (demotes, ACCEPTED),
        (invite, ACCEPTED),
        (join(D, [invite], auth + [invite]), ACCEPTED),
        (join(D, [demotes], auth + [invite]), rejected("A4.2.6")),
        (join(D, [invite], auth), rejected("A4.2.6")),
    )


def rejected_parent(log):
    """An event may follow a rejected one, which changes no state."""
    base = Base(log)
    topic_d = topic(D, [base.join_c], [base.create, base.levels])
    after = message(A, [topic_d], base.of_a)
    ban = member(B, C, "ban", [after], base.of_b + [base.join_c])
    log.transaction(
        "d.example", "t1",
        (topic_d, rejected("A5")),
        (after, ACCEPTED),
        (ban, rejected("A4.5.3")),
        (message(C, [ban], base.of_c), ACCEPTED),
        (topic_d, rejected("A5")),
        (unsigned(topic_d), rejected("A5")),
    )


def state_before_rejects(log):
    """What its auth events allow and the state before it does not is rejected."""
    base = Base(log)
    ban = member(A, C, "ban", [base.join_c], base.of_a + [base.join_c])
    demotes = levels(A, [ban], base.of_a, {A: 100, B: 0})
    closed = rules([demotes], [base.create, base.join_a, demotes], "invite")
    log.transaction(
        "a.example", "t1",
        (ban, ACCEPTED),
        (message(C, [ban], base.of_c), rejected("A5")),
        (demotes, ACCEPTED),
        (topic(B, [demotes], base.of_b), rejected("A7")),
        (closed, ACCEPTED),
        (join(D, [closed], [base.create, base.levels, base.rules]), rejected("A4.2.6")),
        (message(B, [closed], base.of_b), ACCEPTED),
    )


def create_in_the_auth_difference(log):
    """The state with the create event alone, and that of the whole room, resolve to the latter."""
    base = Base(log)
    log.transaction(
        "b.example", "t1",
        (topic(B, [base.create, base.join_c], base.of_b), ACCEPTED),
        (message(C, [base.join_c, base.create], base.of_c), ACCEPTED),
        (topic(D, [base.create, base.join_c], [base.create, base.levels]), rejected("A5")),
    )


def mainline_without_power_levels(log, leaves_at, invited_at, reply):
    """D leaves, and beside it is invited anew: of the two the later one stands, by their timestamps."""
    first = create()
    joined = join(A, [first], [first])
    invite = member(A, D, "invite", [joined], [first, joined])
    leave = member(D, D, "leave", [invite], [first, invite], leaves_at)
    anew = member(A, D, "invite", [invite], [first, joined, invite], invited_at)
    log.host(first)
    log.transaction(
        "a.example", "t1",
        (joined, ACCEPTED), (invite, ACCEPTED), (leave, ACCEPTED), (anew, ACCEPTED),
        (join(D, [leave, anew], [first, anew]), reply))


def invited_after_leaving(log):
    mainline_without_power_levels(log, 300, 500, ACCEPTED)


def left_after_the_invite(log):
    mainline_without_power_levels(log, 500, 300, rejected("A4.2.6"))


def mainline_positions(log, leaves_by, invites_by, reply):
    """The same with power levels, of which the newer ones come later, whatever the timestamps are."""
    first = create()
    joined = join(A, [first], [first])
    old = levels(A, [joined], [first, joined], {A: 100})
    new = levels(A, [old], [first, joined, old], {A: 100, B: 50})
    invite = member(A, D, "invite", [new], [first, joined, new])
    power = {"old": old, "new": new}
    leave = member(D, D, "leave", [invite], [first, power[leaves_by], invite], 500)
    anew = member(A, D, "invite", [invite], [first, joined, power[invites_by], invite], 300)
    log.host(first)
    log.transaction(
        "a.example", "t1",
        (joined, ACCEPTED), (old, ACCEPTED), (new, ACCEPTED), (invite, ACCEPTED), (leave, ACCEPTED), (anew, ACCEPTED),
        (join(D, [leave, anew], [first, new, anew]), reply))


def invited_by_newer_power_levels(log):
    mainline_positions(log, "old", "new", ACCEPTED)


def invited_by_equal_power_levels(log):
    mainline_positions(log, "new", "new", rejected("A4.2.6"))


def resolution_of_65_states(log):
    """65 topics follow one event and are all accepted; the next event is judged by what their states resolve to."""
    first = create()
    joined = join(A, [first], [first])
    log.host(first)
    log.transaction("a.example", "t0", (joined, ACCEPTED))
    topics = [topic(A, [joined], [first, joined], str(number)) for number in range(65)]
    log.transaction("a.example", "t1", *((each, ACCEPTED) for each in topics[:50]))
    log.transaction("a.example", "t2", *((each, ACCEPTED) for each in topics[50:]))
    log.transaction(
        "a.example", "t3",
        (message(A, [joined], [first, joined]), ACCEPTED),
        (message(A, topics[:20], [first, joined]), ACCEPTED),
        (message(D, [joined], [first]), rejected("A5")),
    )


def bad_lines(log):
    """Lines that are no step change nothing."""
    log.open("a.example", "t1", [], {"open": 0})
    for line in (
        b"", b" ", b"{}", b"[]", b"null", b"{\"step\":\"\xff\"}", b"\xc3",
        b'{"step":"host"}', b'{"step":"host","event":{},"x":1}',
        b'{"step":"close","origin":"a.example"}',
        b'{"step":"next","origin":"","txn":"t1"}', b'{"step":"next","origin":null,"txn":"t1"}',
        b'{"step":"next","origin":"a.example","txn":1}',
        b'{"step":"next","origin":"a.example","txn":"t1"', b'{"step":"next","origin":"a.example","txn":"t1"}}',
        b'{"step":"leave","origin":"a.example","txn":"t1"}',
        b'{"step":"call","method":"GET","now":1}', b'{"step":"call","method":"GET","target":"/x"}',
        b'{"step":"call","method":"GET","target":"/x","now":-1}',
        b'{"step":"call","method":"GET","target":"/x","now":9007199254740992}',
        b'{"step":"call","method":"GET","target":"/x","now":1,"origin":"a.example"}',
        b'{"step":"call","method":"GET","target":"/x","now":1,"body":{}}',
        b'{"step":"call","method":"GET","target":"/x","now":1,"authorization":null}',
        b'{"step":"open","origin":"a.example","txn":"t1"}',
        b'{"step":"open","origin":"a.example","txn":"t1","pdus":{}}',
        b'{"step":"open","origin":"a.example","txn":"t1","pdus":null}',
        b'{"step":"open","origin":"a.example","txn":"t1","pdus":[' + b",".join([b"{}"] * 51) + b"]}",
        b"[" * 200,
    ):
        log.line(line, error("bad line"))
    log.open("a.example", "t1", [], {"busy": True})
    # Of a key that is repeated the last value stands.
    log.line(b' { "txn" : "t1", "step":"next","origin":"a.example","txn":"t9"}\r', {"not_open": True})
    log.open("a.example", "t2", [{}] * 50, {"open": 0})
    # The last line may lack its end.
    log.end = b""


ROWS = (
    host_refusals, join_before_join_rules, child_before_parent, steps_out_of_turn, last_text_stands, altered_content,
    two_rooms_one_transaction, one_of_two_rooms_alone, refusals_in_their_order, access_list, malformed_events,
    format_limits, signatures, level_texts, power_level_changes, notification_levels, join_on_an_invite,
    ban_and_invite_rules, kicks_and_bans_by_outsiders, event_without_prev_events, auth_events_check, closed_to_other_servers, other_rules, demotion_race,
    demotion_before_the_topic, soft_failure, soft_failed_invite, rejected_parent, state_before_rejects,
    create_in_the_auth_difference, invited_after_leaving, left_after_the_invite, invited_by_newer_power_levels,
    invited_by_equal_power_levels, resolution_of_65_states, bad_lines, *REQUEST_ROWS, *STATE_ROWS,
    *VERSION_ROWS, *QUERY_ROWS,
)


def main() -> None:
    """Writes each row, and the log of a room's life by requests."""
    for row in ROWS:
        log = Log()
        row(log)
        log.write(FOLDER, row.__name__)
    log = Log()
    life_of_a_room(log)
    log.write(FOLDER.parent, "requests")


main()
