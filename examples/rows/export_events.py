"""Events of rooms as other servers export them, and the logs that `mx_federd log` has to make of them.

The order and the lines of a log are worked out here by the definition, with Python's json and hashlib."""

import random

from matrix_events import A, ROOM, canonical, create, event, id_of


def room_of(count, version="6", room=ROOM, seed=7):
    """A room of so many events in order of arrival: joins, messages that fork and meet again, and topics."""
    chance = random.Random(seed)
    users = ["@u%d:s%d.example" % (n, n % 20) for n in range(60)]
    first = create(room, room_version=version)
    events, state, heads, joined = [first], {("m.room.create", ""): first}, [first], [A]

    def auth(kind, sender, key, content):
        keys = [("m.room.create", ""), ("m.room.power_levels", ""), ("m.room.member", sender)]
        if kind == "m.room.member":
            keys += [("m.room.member", key)] + [("m.room.join_rules", "")] * (content["membership"] == "join")
        found = {id_of(state[it]): state[it] for it in keys if it in state}
        return list(found.values())

    def add(kind, sender, content, key=None, after=None):
        made = event(kind, sender, after or heads, auth(kind, sender, key, content), content, key, room=room)
        events.append(made)
        if key is not None:
            state[kind, key] = made
        heads[:] = [made]
        return made

    add("m.room.member", A, {"membership": "join"}, A)
    add("m.room.power_levels", A, {"users": {A: 100}}, "")
    add("m.room.join_rules", A, {"join_rule": "public"}, "")
    while len(events) < count:
        dice = chance.random()
        if dice < 0.15 and len(joined) < len(users):
            joined.append(users[len(joined)])
            add("m.room.member", joined[-1], {"membership": "join"}, joined[-1])
        elif dice < 0.2 and len(events) + 2 <= count:
            before = list(heads)
            heads[:] = [add("m.room.message", chance.choice(joined), {"body": side}, None, before) for side in "ab"]
        elif dice < 0.23:
            add("m.room.topic", A, {"topic": "t%d" % len(events)}, "")
        else:
            add("m.room.message", chance.choice(joined), {"body": "m%d" % len(events)})
    return events


def shuffled(events, seed=1):
    """The events in another order, each with what a server puts to it."""
    mixed = [{**it, "event_id": id_of(it), "unsigned": {"age_ts": 1, "score": 0.5}} for it in events]
    random.Random(seed).shuffle(mixed)
    return mixed


def cited(made):
    return made["prev_events"] + made["auth_events"]


def in_order(events):
    """The next is always the first of those left that cites none that is left."""
    left, order = [(id_of(it), it) for it in events], []
    while left:
        names = {name for name, _ in left}
        free = next(at for at, (_, it) in enumerate(left) if not names.intersection(cited(it)))
        order.append(left.pop(free)[1])
    return order


def log_of(events, room=ROOM, origin=None):
    """The text of the log of these events of a room, which have what their hashes are of and no more."""
    of_room = [it for it in events if it["room_id"] == room]
    first = next(it for it in of_room if it["type"] == "m.room.create" and it.get("state_key") == "" and not cited(it))
    each = {id_of(it): it for it in reversed([first, *of_room])}
    names = list(dict.fromkeys(id_of(it) for it in [first, *of_room]))
    others = in_order([each[name] for name in names])[1:]
    lines = [{"step": "host", "event": first}]
    for count, start in enumerate(range(0, len(others), 50)):
        part = others[start:start + 50]
        key = {"origin": origin or first["sender"].partition(":")[2], "txn": "%s %d" % (room, count + 1)}
        lines += [{"step": "open", **key, "pdus": part}, *({"step": "next", **key} for _ in part), {"step": "close", **key}]
    return b"".join(canonical(line) + b"\n" for line in lines)
