"""Worked rows of queries: their limits, the order of their refusals, and what is shown of events that others sent oddly.

The answers are written by hand, by docs/ACCESS.md and docs/LOG.md; nothing here was taken from what the program prints.
`make_rows.py` writes the logs."""

import json

from event_logs import FEDERATION, NAME, Base, by_id, call, get, given, ids, quoted, sent, state_path, told
from matrix_events import A, ACCEPTED, B, C, D, ROOM, create, error, event, id_of, join, member, message, redacted
from request_rows import NOT_FOUND, forbidden

WRONG_VERSION = 400, {"errcode": "M_INCOMPATIBLE_ROOM_VERSION", "error": "room version", "room_version": "6"}


def missing_events(log, body, answer, origin="b.example"):
    call(log, "POST", FEDERATION + "v1/get_missing_events/" + quoted(ROOM), answer, origin=origin, body=body)


def messages_after(base, count):
    """So many messages of A, each after the one before."""
    last, made = base.join_c, []
    for number in range(count):
        last = message(A, [last], base.of_a, "m%d" % number)
        made.append(last)
    return made


def limits_of_history_queries(log):
    """At most 100 events are backfilled, and at most 20 missing ones given, whatever is asked."""
    base = Base(log)
    made = messages_after(base, 101)
    for start in range(0, 101, 50):
        sent(log, "a.example", "t%d" % start, *((it, ACCEPTED) for it in made[start:start + 50]))
    path = "v1/backfill/%s?v=%s&limit=" % (quoted(ROOM), quoted(id_of(made[-1])))
    for limit in ("100", "101", "99999999999999999999999999"):
        get(log, path + limit, given(*made[:0:-1]), "b.example")
    between = {"earliest_events": ids([base.join_c]), "latest_events": ids([made[-1]])}
    for limit in (20, 21, 18446744073709551615):
        missing_events(log, {**between, "limit": limit}, (200, {"events": made[80:100]}))


def limit_of_prev_events(log):
    """The template of a join follows at most 20 forward extremities, the deepest ones, and of those the least ids."""
    base = Base(log)
    made = [message(A, [base.join_c], base.of_a, "m%d" % number) for number in range(21)]
    deep = message(A, [made[0]], base.of_a, "deep")
    sent(log, "a.example", "t1", *((it, ACCEPTED) for it in [*made, deep]))
    prev = [deep, *by_id(*made[1:])[:19]]
    template = {
        "auth_events": ids([base.create, base.levels, base.rules]), "content": {"membership": "join"}, "depth": 9,
        "origin": NAME, "origin_server_ts": 1000, "prev_events": ids(prev), "room_id": ROOM, "sender": D, "state_key": D,
        "type": "m.room.member",
    }
    path = "v1/make_join/%s/%s?ver=6" % (quoted(ROOM), quoted(D))
    get(log, path, (200, {"event": template, "room_version": "6"}), "d.example")


def depths_that_fall(log):
    """Servers choose depths: the deepest event of a backfill may be an early one."""
    base = Base(log)

    def said(prev, depth, text):
        return event("m.room.message", A, [prev], base.of_a, {"body": text}, depth=depth)

    first = said(base.join_c, 100, "first")
    second = said(first, 50, "second")
    third = said(second, 60, "third")
    fourth = said(third, 1, "fourth")
    sent(log, "a.example", "t1", *((it, ACCEPTED) for it in (first, second, third, fourth)))
    path = "v1/backfill/%s?v=%s&limit=%d"
    get(log, path % (quoted(ROOM), quoted(id_of(fourth)), 2), given(first, third), "b.example")
    get(log, path % (quoted(ROOM), quoted(id_of(second)), 1), given(first), "b.example")
    get(log, path % (quoted(ROOM), quoted(id_of(fourth)), 4), given(first, third, second, base.join_c), "b.example")
    between = {"earliest_events": ids([base.join_c]), "latest_events": ids([fourth])}
    missing_events(log, {**between, "limit": 2}, (200, {"events": [third, first]}))
    missing_events(log, {**between, "min_depth": 60}, (200, {"events": [third, first]}))
    missing_events(log, between, (200, {"events": [second, third, first]}))


def event_sent_in_another_text(log):
    """An event whose text as sent has other spaces, another order of keys and other escapes than its canonical text is
    given in its canonical text."""
    base = Base(log)
    said = message(A, [base.join_c], base.of_a, "a é \u2028 \" \\ \n z")
    keys = sorted(said, reverse=True)
    spaced = "\r\n\t" + json.dumps({"pdus": [{key: said[key] for key in keys}]}, ensure_ascii=True, indent=3) + " "
    spaced = spaced.replace(" z\"", "\\u0020\\u007a\"").replace("m.room.message", "m\\u002eroom.message")
    call(log, "PUT", FEDERATION + "v1/send/t1", told((said, ACCEPTED)), origin="a.example", body=spaced)
    get(log, "v1/event/" + quoted(id_of(said)), given(said), "b.example")
    # The line of a log too.
    next_one = message(A, [said], base.of_a, "\u00e9")
    line = json.dumps({"txn": "t2", "step": "open", "pdus": [next_one], "origin": "a.example"}, ensure_ascii=True, indent=None)
    log.line(line.encode(), {"open": 1})
    log.next("a.example", "t2", {"id": id_of(next_one), "reply": ACCEPTED})
    log.close("a.example", "t2", {"closed": {"pdus": {id_of(next_one): ACCEPTED}}})
    get(log, "v1/event/" + quoted(id_of(next_one)), given(next_one), "b.example")


def two_faults_of_a_template(log):
    """make_join: another server's user comes before the version, and the version before the rules."""
    base = Base(log)
    ban = member(A, C, "ban", [base.join_c], [*base.of_a, base.join_c])
    sent(log, "a.example", "t1", (ban, ACCEPTED))
    path = "v1/make_join/%s/%s?ver=%d"
    get(log, path % (quoted(ROOM), quoted(C), 1), forbidden("user of another server"), "b.example")
    get(log, path % (quoted(ROOM), quoted(C), 1), WRONG_VERSION, "c.example")
    get(log, path % (quoted(ROOM), quoted(C), 6), forbidden("rule A4.2.3"), "c.example")


def outsiders(log):
    """A server outside the room is told so, also where what it asks for is not held."""
    base = Base(log)
    room, unheld = quoted(ROOM), quoted("$unheld")
    for path in (
        "v1/state/%s?event_id=%s" % (room, unheld), "v1/state_ids/%s?event_id=%s" % (room, unheld),
        "v1/event_auth/%s/%s" % (room, unheld), "v1/backfill/%s?v=%s&limit=1" % (room, unheld),
    ):
        get(log, path, forbidden("not in room"), "d.example")
        get(log, path, NOT_FOUND, "b.example")
    missing_events(log, {"latest_events": ["$unheld"]}, forbidden("not in room"), "d.example")
    missing_events(log, {"latest_events": ["$unheld"]}, (200, {"events": []}))
    get(log, "v1/event/" + quoted(id_of(base.join_c)), NOT_FOUND, "d.example")


def access_list_of_all_requests(log):
    """The access control list is asked first by each query of a room, and by a join of the server's own user; a join of
    another server's user is refused before."""
    base = Base(log)
    content = {"allow": ["*"], "deny": ["d.example"]}
    listed = event("m.room.server_acl", A, [base.join_c], base.of_a, content, "")
    sent(log, "a.example", "t1", (listed, ACCEPTED))
    room, unheld = quoted(ROOM), quoted("$unheld")
    for path in ("v1/backfill/%s?v=%s&limit=1" % (room, unheld), "v1/event_auth/%s/%s" % (room, unheld)):
        get(log, path, forbidden("server acl"), "d.example")
    missing_events(log, {"latest_events": ["$unheld"]}, forbidden("server acl"), "d.example")
    auth = [base.create, base.levels, base.rules]
    for made, answer in (
        (join(D, [listed], auth), forbidden("server acl")),
        (join("@e:e.example", [listed], auth), forbidden("user of another server")),
    ):
        target = FEDERATION + "v2/send_join/%s/%s" % (room, quoted(id_of(made)))
        call(log, "PUT", target, answer, origin="d.example", body=made)


def redaction_by_the_same_server(log):
    """Who is below the level to redact redacts what a user of the same server sent, and nothing else."""
    base = Base(log)
    joined = join(D, [base.join_c], [base.create, base.levels, base.rules])
    of_d = [base.create, base.levels, joined]
    other = "@other:d.example"
    joined_too = join(other, [joined], [base.create, base.levels, base.rules])
    of_other = [base.create, base.levels, joined_too]
    said = message(D, [joined_too], of_d, "x")
    by_b = message(B, [said], base.of_b, "y")

    def redaction(sender, prev, auth, redacts):
        return event("m.room.redaction", sender, [prev], auth, {}, redacts=id_of(redacts))

    of_said = redaction(other, by_b, of_other, said)
    of_b = redaction(other, of_said, of_other, by_b)
    events = (joined, joined_too, said, by_b, of_said, of_b)
    sent(log, "d.example", "t1", *((it, ACCEPTED) for it in events))
    get(log, "v1/event/" + quoted(id_of(said)), given(redacted(said)), "b.example")
    get(log, "v1/event/" + quoted(id_of(by_b)), given(by_b), "b.example")


def left_behind_event(log):
    """Of two rooms one is hosted: an event of the other is not held."""
    first, second = create(), create("!s:a.example")
    joined = join(A, [first], [first])
    other = join(A, [second], [second], room="!s:a.example")
    cites_other = message(A, [other], [first, joined])
    log.host(first)
    sent(
        log, "a.example", "t1", (joined, ACCEPTED), (other, error("unknown room")), (cites_other, error("missing events")))
    for made in (other, cites_other):
        get(log, "v1/event/" + quoted(id_of(made)), NOT_FOUND, "a.example")
    get(log, "v1/state/%s?event_id=%s" % (quoted("!s:a.example"), quoted(id_of(other))), NOT_FOUND, "a.example")
    get(log, state_path("state_ids", cites_other), NOT_FOUND, "a.example")
    get(log, "v1/event/" + quoted(id_of(joined)), given(joined), "a.example")


QUERY_ROWS = (
    limits_of_history_queries, limit_of_prev_events, depths_that_fall, event_sent_in_another_text,
    two_faults_of_a_template, outsiders, access_list_of_all_requests, redaction_by_the_same_server, left_behind_event,
)
