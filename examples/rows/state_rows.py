"""Worked rows of states: what a room's states are where branches meet, which events count, and what rests on what.

The answers are written by hand, by the rules of receipt and by state resolution version 2, as docs/DEFINITIONS.md
names them; nothing here was taken from what the program prints. `make_rows.py` writes the logs."""

from event_logs import FEDERATION, Base, by_id, call, get, given, ids, quoted, sent
from matrix_events import (
    A, ACCEPTED, B, C, D, ROOM, create, error, event, id_of, join, levels, message, redacted, rejected, rules, topic,
    unsigned,
)
from request_rows import NOT_FOUND

USERS = {A: 100, B: 50, C: 50}
LOWERED = {A: 100, B: 0, C: 50}


def chain_of(held, starts):
    """The auth chains of these events: what they cite as auth events, and what these cite."""
    found, left = {}, [cited for made in starts for cited in made["auth_events"]]
    while left:
        name = left.pop()
        if name not in found:
            found[name] = held[name]
            left += held[name]["auth_events"]
    return by_id(*found.values())


def by_key(state):
    return sorted(state, key=lambda made: (made["type"], made["state_key"]))


def by_depth(events):
    """The deepest first, and of equal depths the lesser id."""
    return sorted(events, key=lambda made: (-made["depth"], id_of(made)))


class Told:
    """The room of the rows, what is sent to it, and what is told of its states."""

    def __init__(self, log, base=None):
        self.log = log
        self.base = base or Base(log)
        self.count = 0
        base = self.base
        self.state = [base.create, base.rules, base.join_a, base.join_b, base.join_c, base.levels]
        self.held = {id_of(made): made for made in self.state}

    def send(self, origin, *replies):
        self.count += 1
        self.held.update((id_of(made), made) for made, _ in replies)
        sent(self.log, origin, "n%d" % self.count, *replies)

    def accept(self, *events):
        for first in range(0, len(events), 50):
            self.send("a.example", *((made, ACCEPTED) for made in events[first:first + 50]))

    def state_with(self, *more):
        """The state of the beginning with these events at their keys."""
        keys = {(made["type"], made["state_key"]): made for made in [*self.state, *more]}
        return by_key(keys.values())

    def state_is(self, made, *more):
        """Before the event the state is that of the beginning with these events at their keys."""
        state = self.state_with(*more)
        answer = {"auth_chain_ids": ids(chain_of(self.held, state)), "pdu_ids": ids(state)}
        path = "v1/state_ids/%s?event_id=%s" % (quoted(ROOM), quoted(id_of(made)))
        get(self.log, path, (200, answer), "b.example")

    def meets(self, heads, *more, auth=None):
        """A message of A follows these events, and the state before it is as told."""
        base = self.base
        power = next((made for made in more if made["type"] == "m.room.power_levels"), base.levels)
        made = message(A, heads, auth or [base.create, base.join_a, power], "meets %d" % self.count)
        self.accept(made)
        self.state_is(made, *more)
        return made

    def ends_are(self, *ends, power=None):
        """The forward extremities and the current power levels, as the template of a join shows them."""
        base = self.base
        made = {
            "auth_events": ids([base.create, power or base.levels, base.rules]), "content": {"membership": "join"},
            "depth": 1 + max(end["depth"] for end in ends), "origin": "hub.example", "origin_server_ts": 1000,
            "prev_events": ids(by_depth(ends)), "room_id": ROOM, "sender": D, "state_key": D, "type": "m.room.member",
        }
        path = "v1/make_join/%s/%s?ver=6" % (quoted(ROOM), quoted(D))
        get(self.log, path, (200, {"event": made, "room_version": "6"}), "d.example")

    def is_let_in(self, reply=ACCEPTED):
        """What evil.example is told of an event that is known: the current access list lets it in or not."""
        self.send("evil.example", (self.base.join_c, reply))


DENIED = error("server acl")


def listed_by(sender, prev, auth):
    content = {"allow": ["*"], "deny": ["evil.example"]}
    return event("m.room.server_acl", sender, prev, auth, content, "")


def list_beside_power_levels(told):
    """An access list of B, and beside it power levels that take her level away."""
    base = told.base
    listed = listed_by(B, [base.join_c], base.of_b)
    lowered = levels(A, [base.join_c], base.of_a, LOWERED)
    after = message(A, [listed], base.of_a, "after the list alone")
    both = message(A, [listed, lowered], [base.create, base.join_a, lowered], "after both")
    return listed, lowered, after, both


def access_list_before_power_levels(log):
    """The list comes first and is in force, until the resolution of the states after both takes it away. The same states
    resolve again and again: as the current one, before what follows both, and with what follows the list alone."""
    told = Told(log)
    listed, lowered, after, both = list_beside_power_levels(told)
    told.is_let_in()
    told.ends_are(told.base.join_c)
    told.accept(listed)
    told.state_is(listed)
    told.ends_are(listed)
    told.is_let_in(DENIED)
    told.accept(lowered)
    told.state_is(lowered)
    told.ends_are(listed, lowered, power=lowered)
    told.is_let_in()
    told.accept(after)
    told.state_is(after, listed)
    told.ends_are(after, lowered, power=lowered)
    told.is_let_in()
    told.accept(both)
    told.state_is(both, lowered)
    told.ends_are(after, both, power=lowered)
    told.is_let_in()


def access_list_behind_power_levels(log):
    """The power levels come first. The list is soft failed: never in force and no forward extremity, and yet it stands in
    the state after it. A rejected event is no forward extremity either, and changes no state."""
    told = Told(log)
    base = told.base
    listed, lowered, after, both = list_beside_power_levels(told)
    told.accept(lowered)
    told.ends_are(lowered, power=lowered)
    told.accept(listed)
    told.state_is(listed)
    told.ends_are(lowered, power=lowered)
    told.is_let_in()
    refused = topic(D, [lowered], [base.create, lowered])
    told.send("d.example", (refused, rejected("A5")))
    told.ends_are(lowered, power=lowered)
    told.accept(both)
    told.state_is(both, lowered)
    told.ends_are(both, power=lowered)
    told.is_let_in()
    told.accept(after)
    told.state_is(after, listed)
    told.ends_are(both, after, power=lowered)
    told.is_let_in()


def events_received(log):
    """What is asked of one event after another, and whether it is then shown."""
    told = Told(log)
    base = told.base
    said = message(A, [base.join_c], base.of_a)
    refused = topic(D, [base.join_c], [base.create, base.levels])

    def shown(made, is_shown):
        get(log, "v1/event/" + quoted(id_of(made)), given(made) if is_shown else NOT_FOUND, "a.example")

    for made, reply, is_shown in (
        (unsigned(said), error("signature"), False), (said, ACCEPTED, True), (unsigned(said), ACCEPTED, True),
        (refused, rejected("A5"), False), (unsigned(refused), rejected("A5"), False),
    ):
        told.send("a.example", (made, reply))
        shown({**made, "signatures": said["signatures"]} if is_shown else made, is_shown)
    told.ends_are(said)


def closures(log):
    """All that lies behind events, and their auth chains; a rejected event lies there too, and is not given."""
    told = Told(log)
    base = told.base
    listed, lowered, after, both = list_beside_power_levels(told)
    refused = topic(D, [base.join_c], [base.create, base.levels])
    last = message(A, [both, refused], [base.create, base.join_a, lowered], "last")
    told.accept(listed, lowered)
    told.send("d.example", (refused, rejected("A5")))
    told.accept(both, last)
    room = quoted(ROOM)
    beginning = [base.create, base.join_a, base.levels, base.rules, base.join_b, base.join_c]
    for made, chain in (
        (last, [base.create, base.join_a, base.levels, lowered]), (base.create, []), (base.join_a, [base.create]),
        (listed, [base.create, base.join_a, base.levels, base.rules, base.join_b]),
        (base.join_c, [base.create, base.join_a, base.levels, base.rules]),
    ):
        get(log, "v1/event_auth/%s/%s" % (room, quoted(id_of(made))), (200, {"auth_chain": by_id(*chain)}), "b.example")

    def backfill(starts, events):
        starts = "&".join("v=" + quoted(id_of(made)) for made in starts)
        get(log, "v1/backfill/%s?%s&limit=100" % (room, starts), given(*events), "b.example")

    behind = [*by_id(listed, lowered), *reversed(beginning)]
    backfill([last], [last, both, *behind])
    backfill([lowered, listed], behind)
    backfill([refused], behind[2:])
    backfill([base.create], [base.create])

    def missing(latest, events):
        body = {"earliest_events": [], "latest_events": ids(latest), "limit": 20}
        call(log, "POST", FEDERATION + "v1/get_missing_events/" + room, (200, {"events": events}), origin="b.example", body=body)

    missing([last], [*beginning, *by_id(listed, lowered), both])
    missing([base.join_c], beginning[:5])
    missing([base.create], [])


def levels_at(time, sender, prev, auth, users=USERS, **content):
    return event("m.room.power_levels", sender, prev, auth, {"users": users, **content}, "", time)


def rules_at(time, sender, prev, auth, rule):
    return event("m.room.join_rules", sender, prev, auth, {"join_rule": rule}, "", time)


def topic_at(time, sender, prev, auth, text):
    return event("m.room.topic", sender, prev, auth, {"topic": text}, "", time)


def equals(log):
    """The room of the rows in which B has as much power as A."""
    base = Base.__new__(Base)
    base.create = create()
    base.join_a = join(A, [base.create], [base.create])
    base.levels = levels(A, [base.join_a], [base.create, base.join_a], {A: 100, B: 100, C: 50})
    base.rules = rules([base.levels], [base.create, base.join_a, base.levels], "public")
    auth = [base.create, base.levels, base.rules]
    base.join_b = join(B, [base.rules], auth)
    base.join_c = join(C, [base.join_b], auth)
    base.of_a = [base.create, base.join_a, base.levels]
    base.of_b = [base.create, base.levels, base.join_b]
    base.of_c = [base.create, base.levels, base.join_c]
    log.host(base.create)
    sent(log, "a.example", "base", *((made, ACCEPTED) for made in (base.join_a, base.levels, base.rules, base.join_b, base.join_c)))
    return base


def rules_beside_a_demotion(log, time, stands):
    """A gives up her level at the time 100, and B gives it back at 300. Beside that A sets new join rules. In neither state
    stands the event that took the level, but it is in one auth chain alone, and so counts in its place among the others."""
    told = Told(log, equals(log))
    base = told.base
    given_up = levels_at(100, A, [base.join_c], base.of_a, {A: 0, B: 100, C: 50})
    given_back = levels_at(300, B, [given_up], [base.create, given_up, base.join_b], {A: 100, B: 100, C: 50})
    invited = rules_at(time, A, [base.join_c], base.of_a, "invite")
    told.accept(given_up, given_back, invited)
    told.meets([given_back, invited], given_back, *([invited] if stands else []))


def join_rules_after_a_demotion(log):
    """At 200 A has no level for them."""
    rules_beside_a_demotion(log, 200, False)


def join_rules_before_a_demotion(log):
    """At 80 she has."""
    rules_beside_a_demotion(log, 80, True)


def forked_power_levels(log):
    """Power levels are replaced twice in each of two branches. All four are put in the order of their times, and the last
    one stands. Of the topics the one that rests on it stands, though the other one is later: that one rests on power levels
    outside of the mainline, and by them on those before the fork."""
    told = Told(log)
    base = told.base

    def fork(name, times, topic_time, prev):
        first = levels_at(times[0], A, prev, base.of_a, kick=51, events={name: 1})
        second = levels_at(times[1], A, [first], [base.create, base.join_a, first], kick=52, events={name: 1})
        said = topic_at(topic_time, A, [second], [base.create, base.join_a, second], name)
        return first, second, said

    for name, times, stands in (("one", ((70, 90), (80, 100)), 1), ("two", ((70, 100), (80, 85)), 0)):
        topic_times = (400, 500) if stands == 0 else (500, 400)
        forks = [fork(name + side, times[at], topic_times[at], [base.join_c]) for at, side in enumerate("ab")]
        told.accept(*forks[0], *forks[1])
        _, power, said = forks[stands]
        told.meets([forks[0][2], forks[1][2]], power, said)


def order_of_power_events(log):
    """Of join rules in conflict the last one stands, in the order of who rests on whom, then of the sender's level, the
    greater one first, then of the time, then of the id."""
    told = Told(log)
    base = told.base
    prev = [base.join_c]

    def by_a(time, after=prev, power=None, rule="invite"):
        return rules_at(time, A, after, [base.create, base.join_a, power or base.levels], rule)

    def by_b(time):
        return rules_at(time, B, prev, base.of_b, "private")

    # By their times.
    early, late = by_a(100), by_a(200)
    told.accept(late, early)
    told.meets([late, early], late)
    # At one time, by their ids.
    one, other = by_a(100, rule="x"), by_a(100, rule="y")
    told.accept(one, other)
    told.meets([one, other], max(one, other, key=id_of))
    # The lesser level comes later, at whatever time.
    lesser = by_b(50)
    told.accept(lesser)
    told.meets([late, lesser], lesser)
    # What rests on power levels comes behind them, at whatever time.
    power = levels_at(300, A, prev, base.of_a, kick=51)
    behind = by_a(50, [power], power)
    told.accept(power, behind)
    told.meets([behind, late], behind, power)
    # Also where power levels lie between that stand in neither state: 50 comes behind 120, and so behind 115, not 130.
    first = levels_at(100, A, prev, base.of_a, kick=61)
    second = levels_at(110, A, [first], [base.create, base.join_a, first], kick=62)
    third = levels_at(120, A, [second], [base.create, base.join_a, second], kick=63)
    last = by_a(50, [third], third)
    aside = by_a(105)
    told.accept(first, second, third, last, aside)
    for time, stands in ((115, False), (130, True)):
        between = by_a(time, [first], first)
        told.accept(between)
        told.meets([last, between, aside], third, between if stands else last)


def order_on_the_mainline(log):
    """Of topics in conflict the last one stands, in the order of the mainline's events on which they rest, the oldest
    first, then of the time, then of the id. What rests on none comes before all."""
    told = Told(log)
    base = told.base
    none = [base.create, base.join_a]
    newer = levels_at(70, A, [base.join_c], base.of_a, kick=51)
    of_newer = [base.create, base.join_a, newer]
    told.accept(newer)

    def meet(first, second, stands, *power):
        told.accept(first, second)
        told.meets([first, second], stands, *(power or [newer]), auth=of_newer)

    def said(time, auth, text, prev=newer):
        return topic_at(time, A, [prev], auth, text)

    on_none, on_old, on_new = said(900, none, "none"), said(500, base.of_a, "old"), said(100, of_newer, "new")
    meet(on_none, on_old, on_old)
    meet(on_none, on_new, on_new)
    meet(on_old, on_new, on_new)
    for auth in (none, base.of_a, of_newer):
        early, late = said(200, auth, "early"), said(300, auth, "late")
        meet(late, early, late)
        one, other = said(200, auth, "one"), said(200, auth, "other")
        meet(one, other, max(one, other, key=id_of))
    # Power levels that rest on no others, and are not on the mainline, are as none.
    apart = levels_at(75, A, [newer], none, kick=52)
    newest = levels_at(80, A, [newer], of_newer, kick=53)
    of_apart, of_newest = [base.create, base.join_a, apart], [base.create, base.join_a, newest]
    told.accept(apart, newest)
    on_apart, on_older = said(900, of_apart, "apart", apart), said(100, base.of_a, "older", newest)
    told.accept(on_apart, on_older)
    told.meets([on_apart, on_older], on_older, newest, auth=of_newest)


def redactions_by_name(log):
    """An event that comes after its redaction is shown redacted. A redaction that names no event hides none, and of two
    that name one event it is enough that one may."""
    told = Told(log)
    base = told.base
    said = message(C, [base.join_c], base.of_c, "x")
    other = message(C, [base.join_c], base.of_c, "y")

    def redaction(sender, prev, auth, redacts):
        return event("m.room.redaction", sender, prev, auth, {}, redacts=redacts)

    def shown(made, reply):
        get(log, "v1/event/" + quoted(id_of(made)), reply, "b.example")

    nobody = redaction(B, [base.join_c], base.of_b, "$100")
    early = redaction(B, [base.join_c], base.of_b, id_of(said))
    told.accept(nobody, early)
    shown(said, NOT_FOUND)
    told.accept(said, other)
    shown(said, given(redacted(said)))
    shown(other, given(other))
    joined = join(D, [base.join_c], [base.create, base.levels, base.rules])
    idle = redaction(D, [joined], [base.create, base.levels, joined], id_of(other))
    told.accept(joined, idle)
    shown(other, given(other))
    told.accept(redaction(B, [base.join_c], base.of_b, id_of(other)))
    shown(other, given(redacted(other)))


def long_chain_of_power_levels(log):
    """120 power levels in a chain, each of which rests on the one before it. States from near its end resolve to the last."""
    told = Told(log)
    base = told.base
    chain, auth = [base.join_c], base.of_a
    for number in range(120):
        made = levels(A, chain[-1:], auth, USERS, events={"m.x": number % 100}, kick=number % 50)
        chain.append(made)
        auth = [base.create, base.join_a, made]
    told.accept(*chain[1:])
    for place in (118, 60, 2):
        aside = message(A, [chain[place]], [base.create, base.join_a, chain[place]], "aside %d" % place)
        told.accept(aside)
        told.state_is(aside, chain[place])
        told.meets([aside, chain[120]], chain[120])
        told.meets([aside, chain[119]], chain[119])


def long_chain_with_removals(log):
    """In each of 25 rounds a topic of B meets power levels that take her level away, and is gone; then she has it again. In
    every third round A sets a name."""
    told = Told(log)
    base = told.base
    last, power, names = base.join_c, base.levels, []
    for number in range(25):
        named = topic(B, [last], [base.create, power, base.join_b], "t%d" % number)
        of_a = [base.create, base.join_a, power]
        lowered = levels(A, [last], of_a, LOWERED, kick=number)
        after = message(A, [named], of_a, "a%d" % number)
        met = message(A, [named, lowered], [base.create, base.join_a, lowered], "m%d" % number)
        raised = levels(A, [met], [base.create, base.join_a, lowered], USERS, kick=number)
        told.accept(named, lowered, after, met, raised)
        told.state_is(after, named, power, *names)
        told.state_is(met, lowered, *names)
        told.state_is(raised, lowered, *names)
        last, power = raised, raised
        if number % 3 == 0:
            last = event("m.room.name", A, [raised], [base.create, base.join_a, raised], {"name": str(number)}, "")
            told.accept(last)
            told.state_is(last, raised, *names)
            names = [last]


STATE_ROWS = (
    access_list_before_power_levels, access_list_behind_power_levels, events_received, closures,
    join_rules_after_a_demotion, join_rules_before_a_demotion, forked_power_levels, order_of_power_events,
    order_on_the_mainline, redactions_by_name, long_chain_of_power_levels, long_chain_with_removals,
)
