"""Worked rows of requests: `call` lines, each with the status and the body that answer it.

The answers are written by hand, by the Server-Server API and the faults that docs/LOG.md lists; nothing here was taken
from what the program prints. `make_rows.py` writes the logs."""

from event_logs import FEDERATION, NAME, Base, by_id, call, get, given, ids, quoted, send, sent, state_path
from matrix_events import (
    A, ACCEPTED, B, C, D, ROOM, altered, create, error, event, id_of, join, levels, member, message, redacted, rules, topic, unsigned,
)

NOT_FOUND = (404, {"errcode": "M_NOT_FOUND", "error": "not found"})


def forbidden(text):
    return 403, {"errcode": "M_FORBIDDEN", "error": text}


def invalid(part):
    return 400, {"errcode": "M_INVALID_PARAM", "error": "invalid " + part}


def missing(name):
    return 400, {"errcode": "M_MISSING_PARAM", "error": "missing " + name}


def requests_child_before_parent(log):
    """The row 'child before parent', by requests: the first reply of a number stays."""
    first = create()
    parent = join(A, [first], [first])
    child = message(A, [parent], [first, parent])
    log.host(first)
    reply = sent(log, "a.example", "t1", (child, error("missing events")), (parent, ACCEPTED))
    sent(log, "a.example", "t2", (child, ACCEPTED), (parent, ACCEPTED))
    send(log, "a.example", "t1", [], reply)


def requests_altered_content(log):
    """The row 'altered content', by requests: an event whose content was altered is kept, and served, redacted."""
    base = Base(log)
    right = message(A, [base.join_c], base.of_a, "said")
    wrong = altered(right, body="never said")
    sent(log, "a.example", "t1", (unsigned(right), error("signature")))
    sent(log, "a.example", "t2", (wrong, ACCEPTED))
    path = "v1/event/" + quoted(id_of(right))
    get(log, path, given(redacted(wrong)), "b.example")
    sent(log, "a.example", "t3", (right, ACCEPTED))
    get(log, path, given(redacted(wrong)), "b.example")


def requests_two_rooms(log):
    """The row 'two rooms, one transaction', by requests."""
    first, second = create(), create("!s:a.example")
    log.host(first)
    log.host(second)
    joined = join(A, [first], [first])
    other = join(A, [second], [second], room="!s:a.example")
    cites_other = message(A, [other], [first, joined])
    sent(log, "a.example", "t1", (joined, ACCEPTED), (other, ACCEPTED), (cites_other, error("missing events")))
    for made in (joined, other):
        get(log, "v1/event/" + quoted(id_of(made)), given(made), "a.example")


def access_list_by_requests(log):
    """The row 'ACL per room', by requests. The query for one event is not guarded by the list."""
    base = Base(log)
    second = create("!s:a.example")
    other = join(A, [second], [second], room="!s:a.example")
    log.host(second)
    content = {"allow": ["*"], "allow_ip_literals": False, "deny": ["*.evil.example"]}
    listed = event("m.room.server_acl", A, [base.join_c], base.of_a, content, "")
    sent(log, "a.example", "t1", (listed, ACCEPTED))
    said = message(B, [listed], base.of_b)
    denied = "A.EVIL.example:8448"
    sent(log, denied, "t1", (said, error("server acl")), (other, ACCEPTED))
    for origin in (denied, "1.2.3.4", "[::1]:80"):
        get(log, state_path("state", base.join_c), forbidden("server acl"), origin)
        get(log, "v1/make_join/%s/%s?ver=6" % (quoted(ROOM), quoted("@x:" + origin)), forbidden("server acl"), origin)
    get(log, state_path("state", base.join_c), forbidden("not in room"), "evil.example")
    get(log, "v1/event/" + quoted(id_of(base.join_c)), NOT_FOUND, denied)


def state_ids_and_chains(log):
    """The rows 'state ids' and 'event auth and denials'."""
    base = Base(log)
    state = [base.create, base.rules, base.join_a, base.levels]
    chain = by_id(base.create, base.join_a, base.levels)
    get(log, state_path("state_ids", base.join_b), (200, {"auth_chain_ids": ids(chain), "pdu_ids": ids(state)}), "b.example")
    get(log, state_path("state", base.join_b), (200, {"auth_chain": chain, "pdus": state}), "b.example")
    auth = "v1/event_auth/%s/%s" % (quoted(ROOM), quoted(id_of(base.join_b)))
    get(log, auth, (200, {"auth_chain": by_id(base.create, base.join_a, base.levels, base.rules)}), "b.example")
    for path in (auth, state_path("state", base.join_b), state_path("state_ids", base.join_b)):
        get(log, path, forbidden("not in room"), "e.example")
    rejected = topic(D, [base.join_c], [base.create, base.levels])
    sent(log, "d.example", "t1", (rejected, error("rejected: A5")))
    for made in (rejected, message(A, [base.join_c], base.of_a)):
        get(log, state_path("state", made), NOT_FOUND, "b.example")
        get(log, "v1/event/" + quoted(id_of(made)), NOT_FOUND, "b.example")
    get(log, state_path("state", base.join_b).replace(quoted(ROOM), quoted("!z:a.example")), NOT_FOUND, "b.example")


def backfill_and_missing_events(log):
    """The row 'backfill and missing events'."""
    base = Base(log)
    room = quoted(ROOM)
    last = quoted(id_of(base.join_c))
    get(log, "v1/backfill/%s?v=%s&limit=2" % (room, last), given(base.join_c, base.join_b), "b.example")
    get(log, "v1/backfill/%s?v=%s&limit=0" % (room, last), given(), "b.example")
    get(log, "v1/backfill/%s?v=%s" % (room, last), missing("limit"), "b.example")
    get(log, "v1/backfill/%s?limit=2" % room, missing("v"), "b.example")
    get(log, "v1/backfill/%s?v=%s&limit=2" % (room, quoted("$x")), NOT_FOUND, "b.example")
    between = {"earliest_events": ids([base.join_a]), "latest_events": ids([base.join_c])}

    def ask(events, **more):
        body = {**between, **more}
        answer = 200, {"events": events}
        call(log, "POST", FEDERATION + "v1/get_missing_events/" + room, answer, origin="b.example", body=body)

    ask([base.levels, base.rules, base.join_b])
    ask([base.rules, base.join_b], min_depth=4)
    ask([base.join_b], limit=1)
    ask([], limit=0)


def template_of_a_join(log):
    """The row 'join template'."""
    base = Base(log)
    path = "v1/make_join/%s/%s" % (quoted(ROOM), quoted(D))
    made = {
        "auth_events": ids([base.create, base.levels, base.rules]), "content": {"membership": "join"}, "depth": 7,
        "origin": NAME, "origin_server_ts": 1000, "prev_events": ids([base.join_c]), "room_id": ROOM, "sender": D,
        "state_key": D, "type": "m.room.member",
    }
    answer = 200, {"event": made, "room_version": "6"}
    get(log, path + "?ver=6", answer, "d.example")
    get(log, path + "?ver=1&ver=6", answer, "d.example")
    wrong = 400, {"errcode": "M_INCOMPATIBLE_ROOM_VERSION", "error": "room version", "room_version": "6"}
    get(log, path, wrong, "d.example")
    get(log, path + "?ver=60", wrong, "d.example")
    get(log, path + "?ver=6", forbidden("user of another server"), "b.example")
    get(log, path.replace(quoted(ROOM), quoted("!z:a.example")) + "?ver=6", NOT_FOUND, "d.example")
    said = topic(A, [base.join_c], base.of_a)
    ban = member(A, C, "ban", [said], [*base.of_a, base.join_c])
    sent(log, "a.example", "t1", (said, ACCEPTED), (ban, ACCEPTED))
    get(log, "v1/make_join/%s/%s?ver=6" % (quoted(ROOM), quoted(C)), forbidden("rule A4.2.3"), "c.example")


def joined_history(log):
    """The row 'joined history', and what is shown after the join."""
    base = Base(log)
    content = {"history_visibility": "joined"}
    visibility = event("m.room.history_visibility", A, [base.join_c], base.of_a, content, "")
    invite = member(A, D, "invite", [visibility], [*base.of_a, base.rules])
    said = message(A, [invite], base.of_a, "x")
    sent(log, "a.example", "t1", (visibility, ACCEPTED), (invite, ACCEPTED), (said, ACCEPTED))
    path = "v1/event/" + quoted(id_of(said))
    get(log, path, NOT_FOUND, "d.example")
    get(log, path, given(said), "b.example")
    joined = join(D, [said], [base.create, base.levels, base.rules, invite])
    sent(log, "d.example", "t1", (joined, ACCEPTED))
    get(log, path, given(redacted(said)), "d.example")
    get(log, "v1/event/" + quoted(id_of(joined)), given(joined), "d.example")


def effective_redaction(log):
    """The row 'effective redaction': by the level, and by the sender's server, and by nobody else."""
    base = Base(log)

    def redaction(sender, prev, auth, redacts):
        return event("m.room.redaction", sender, [prev], auth, {}, redacts=id_of(redacts))

    said = message(C, [base.join_c], base.of_c, "x")
    other = message(C, [said], base.of_c, "y")
    joined = join(D, [other], [base.create, base.levels, base.rules])
    by_stranger = redaction(D, joined, [base.create, base.levels, joined], said)
    sent(log, "c.example", "t1", (said, ACCEPTED), (other, ACCEPTED), (joined, ACCEPTED), (by_stranger, ACCEPTED))
    get(log, "v1/event/" + quoted(id_of(said)), given(said), "b.example")
    by_level = redaction(B, by_stranger, base.of_b, said)
    by_sender = redaction(C, by_level, base.of_c, other)
    sent(log, "b.example", "t1", (by_level, ACCEPTED), (by_sender, ACCEPTED))
    for made in (said, other):
        get(log, "v1/event/" + quoted(id_of(made)), given(redacted(made)), "b.example")


def route_faults(log):
    """The row 'route faults'."""
    call(log, "GET", "/x", (404, {"errcode": "M_UNRECOGNIZED", "error": "unknown path"}))
    path = FEDERATION + "v1/event/$x"
    call(log, "POST", path, (405, {"errcode": "M_UNRECOGNIZED", "error": "unknown method"}), origin="b.example")
    call(log, "GET", path, (401, {"errcode": "M_UNAUTHORIZED", "error": "no origin"}))
    # The path comes before the method.
    call(log, "POST", "/x/", (404, {"errcode": "M_UNRECOGNIZED", "error": "unknown path"}))
    call(log, "GET", FEDERATION + "v1/event/a/b", (404, {"errcode": "M_UNRECOGNIZED", "error": "unknown path"}))


def authorization_spellings(log):
    """The row 'authorization spellings'."""
    target = FEDERATION + "v1/event/$x"
    for spelling in (
        'X-Matrix origin=b.example,key="k",sig="s"', 'x-matrix  origin="b.example" , destination="hub.example"',
        "X-MATRIX ORIGIN=b.example,origin=z.example",
    ):
        call(log, "GET", target, NOT_FOUND, authorization=spelling)
    wrong = 401, {"errcode": "M_UNAUTHORIZED", "error": "wrong destination"}
    call(log, "GET", target, wrong, authorization="X-Matrix origin=b.example,destination=z.example")
    none = 401, {"errcode": "M_UNAUTHORIZED", "error": "no origin"}
    for spelling in ("Bearer x", "", "X-Matrix", "X-Matrix origin=", "X-Matrix destination=hub.example", "X-Matrix origin=b.example\t"):
        call(log, "GET", target, none, authorization=spelling)


def transaction_limits(log):
    """The row 'transaction limits', and bodies of wrong forms, of which each leaves its number free."""
    wrong = 400, {"errcode": "M_BAD_JSON", "error": "body has a wrong form"}
    send(log, "b.example", "t1", [{}] * 51, wrong)
    send(log, "b.example", "t1", [], wrong, edus=[{}] * 101)
    for body in ("[]", "null", "{}", '{"pdus":{}}', '{"pdus":[],"edus":{}}'):
        call(log, "PUT", FEDERATION + "v1/send/t1", wrong, origin="b.example", body=body)
    not_json = 400, {"errcode": "M_NOT_JSON", "error": "body is not JSON"}
    for body in ("", "{", '{"pdus":[]', "[" * 200, '{"pdus":[]}}'):
        call(log, "PUT", FEDERATION + "v1/send/t1", not_json, origin="b.example", body=body)
    send(log, "b.example", "t1", [{}] * 50, (200, {"pdus": {}}), edus=[{}] * 100)
    send(log, "b.example", "t1", [], (200, {"pdus": {}}))


def parameter_faults(log):
    """The row 'parameter faults': one fault each, the first in the order."""
    room = quoted(ROOM)
    get(log, "v1/event/%FF", invalid("event id"), "b.example")
    get(log, "v1/event/x", invalid("event id"), "b.example")
    get(log, "v1/backfill/%s?v=$x&limit=x" % room, invalid("limit"), "b.example")
    get(log, "v1/backfill/%s?v=x&limit=x" % room, invalid("event id"), "b.example")
    get(log, "v1/state/" + room, missing("event_id"), "b.example")
    get(log, "v1/state/x?event_id=x", invalid("room id"), "b.example")
    get(log, "v1/state/%s?event_id=x" % room, invalid("event id"), "b.example")
    get(log, "v1/make_join/%s/x?ver=6" % room, invalid("user id"), "b.example")
    send(log, "b.example", "%FF", [], invalid("path"))
    # The origin comes before the segments, and these before the parameters and the body.
    call(log, "GET", FEDERATION + "v1/state/x", (401, {"errcode": "M_UNAUTHORIZED", "error": "no origin"}))
    call(log, "PUT", FEDERATION + "v1/send/%FF", invalid("path"), origin="b.example", body="{")


def number_held_by_a_line(log):
    """The row 'number held by a line'."""
    base = Base(log)
    said = message(A, [base.join_c], base.of_a)
    log.open("a.example", "t1", [said], {"open": 1})
    busy = 503, {"errcode": "M_UNKNOWN", "error": "busy"}
    send(log, "a.example", "t1", [said], busy)
    log.next("a.example", "t1", {"id": id_of(said), "reply": ACCEPTED})
    send(log, "a.example", "t1", [], busy)
    log.close("a.example", "t1", {"closed": {"pdus": {id_of(said): ACCEPTED}}})
    send(log, "a.example", "t1", [], (200, {"pdus": {id_of(said): ACCEPTED}}))


def send_join(log):
    """The row 'send join', with what is refused."""
    base = Base(log)
    joined = join(D, [base.join_c], [base.create, base.levels, base.rules])

    def put(made, answer, origin="d.example", room=ROOM, id=None):
        target = FEDERATION + "v2/send_join/%s/%s" % (quoted(room), quoted(id or id_of(made)))
        call(log, "PUT", target, answer, origin=origin, body=made)

    put(joined, forbidden("user of another server"), "b.example")
    put(joined, invalid("room id"), room="!z:a.example")
    put(joined, invalid("event id"), id="$x")
    put(member(D, D, "leave", [base.join_c], [base.create, base.levels]), invalid("event"))
    put({}, (400, {"errcode": "M_BAD_JSON", "error": "body has a wrong form"}), id="$x")
    put(unsigned(joined), forbidden("signature"))
    put(join(D, [message(A, [base.join_c], base.of_a)], [base.create, base.levels, base.rules]), forbidden("missing events"))
    put(join(D, [base.join_c], [base.create, base.levels]), forbidden("rule A4.2.6"))
    state = [base.create, base.rules, base.join_a, base.join_b, base.join_c, base.levels]
    answer = 200, {
        "auth_chain": by_id(base.create, base.join_a, base.levels, base.rules), "event": joined, "origin": NAME, "state": state,
    }
    put(joined, answer)
    put(joined, answer)
    put(join(D, [create("!z:a.example")], [], room="!z:a.example"), NOT_FOUND, room="!z:a.example")
    get(log, state_path("state_ids", base.join_b), (200, {
        "auth_chain_ids": ids(by_id(base.create, base.join_a, base.levels)),
        "pdu_ids": ids([base.create, base.rules, base.join_a, base.levels]),
    }), "d.example")


def state_ids(log, made, state, chain):
    answer = {"auth_chain_ids": ids(by_id(*chain)), "pdu_ids": ids(state)}
    get(log, state_path("state_ids", made), (200, answer), "b.example")


def key_removed_by_a_delta(log):
    """Where power levels that demote B meet her topic, the state after both has no topic."""
    base = Base(log)
    topic_b = topic(B, [base.join_c], base.of_b)
    demotes = levels(A, [base.join_c], base.of_a, {A: 100, B: 0, C: 50})
    after = message(A, [topic_b], base.of_a)
    merged = message(A, [topic_b, demotes], [base.create, base.join_a, demotes])
    sent(log, "b.example", "t1", *((made, ACCEPTED) for made in (topic_b, demotes, after, merged)))
    members = [base.join_a, base.join_b, base.join_c]
    chain = [base.create, base.join_a, base.levels, base.rules]
    state_ids(log, after, [base.create, base.rules, *members, base.levels, topic_b], chain + [base.join_b])
    state_ids(log, merged, [base.create, base.rules, *members, demotes], chain)


def long_chain(log):
    """200 topics in a chain: the state before each has the one before it."""
    base = Base(log)
    before = [base.join_c]
    for number in range(200):
        before.append(topic(A, before[-1:], base.of_a, "t%d" % number))
    topics = before[1:]
    for first in range(0, 200, 50):
        sent(log, "a.example", "t%d" % first, *((made, ACCEPTED) for made in topics[first:first + 50]))
    members = [base.join_a, base.join_b, base.join_c]
    chain = [base.create, base.join_a, base.levels, base.rules]
    for place in (1, 2, 56, 57, 58, 63, 64, 65, 121, 122, 127, 128, 129, 190, 199):
        state_ids(log, topics[place], [base.create, base.rules, *members, base.levels, topics[place - 1]], chain)


def life_of_a_room(log):
    """examples/requests.jsonl: a room is hosted, a server joins it, sends, forks and merges, redacts, and asks each query."""
    first = create()
    joined_a = join(A, [first], [first])
    power = levels(A, [joined_a], [first, joined_a], {A: 100})
    public = rules([power], [first, joined_a, power], "public")
    log.host(first)
    sent(log, "a.example", "t1", (joined_a, ACCEPTED), (power, ACCEPTED), (public, ACCEPTED))
    room = quoted(ROOM)
    made = {
        "auth_events": ids([first, power, public]), "content": {"membership": "join"}, "depth": 5, "origin": NAME,
        "origin_server_ts": 1000, "prev_events": ids([public]), "room_id": ROOM, "sender": B, "state_key": B,
        "type": "m.room.member",
    }
    get(log, "v1/make_join/%s/%s?ver=6" % (room, quoted(B)), (200, {"event": made, "room_version": "6"}), "b.example")
    joined_b = join(B, [public], [first, power, public])
    answer = {
        "auth_chain": by_id(first, joined_a, power, public), "event": joined_b, "origin": NAME,
        "state": [first, public, joined_a, power],
    }
    target = FEDERATION + "v2/send_join/%s/%s" % (room, quoted(id_of(joined_b)))
    call(log, "PUT", target, (200, answer), origin="b.example", body=joined_b)
    of_a, of_b = [first, joined_a, power], [first, power, joined_b]
    said = message(B, [joined_b], of_b, "hello")
    sent(log, "b.example", "t1", (said, ACCEPTED))
    named = topic(A, [said], of_a, "a topic")
    other = message(B, [said], of_b, "on the other side of the fork")
    merged = message(A, [named, other], of_a, "merged")
    removed = event("m.room.redaction", A, [merged], of_a, {}, redacts=id_of(said))
    sent(log, "a.example", "t2", (named, ACCEPTED), (other, ACCEPTED), (merged, ACCEPTED), (removed, ACCEPTED))
    get(log, "v1/event/" + quoted(id_of(said)), given(redacted(said)), "b.example")
    state = [first, public, joined_a, joined_b, power, named]
    chain = by_id(first, joined_a, power, public)
    get(log, state_path("state_ids", merged), (200, {"auth_chain_ids": ids(chain), "pdu_ids": ids(state)}), "b.example")
    get(log, state_path("state", merged), (200, {"auth_chain": chain, "pdus": state}), "b.example")
    path = "v1/event_auth/%s/%s" % (room, quoted(id_of(said)))
    get(log, path, (200, {"auth_chain": by_id(first, joined_a, power, public, joined_b)}), "b.example")
    path = "v1/backfill/%s?v=%s&limit=3" % (room, quoted(id_of(merged)))
    get(log, path, given(merged, *by_id(named, other)), "b.example")
    between = {"earliest_events": ids([said]), "latest_events": ids([removed])}
    found = 200, {"events": [*by_id(named, other), merged]}
    call(log, "POST", FEDERATION + "v1/get_missing_events/" + room, found, origin="b.example", body=between)
    get(log, path, forbidden("not in room"), "c.example")


REQUEST_ROWS = (
    requests_child_before_parent, requests_altered_content, requests_two_rooms, access_list_by_requests,
    state_ids_and_chains, backfill_and_missing_events, template_of_a_join, joined_history, effective_redaction,
    route_faults, authorization_spellings, transaction_limits, parameter_faults, number_held_by_a_line, send_join,
    key_removed_by_a_delta, long_chain,
)
