#!/usr/bin/env python3
"""Replays random rooms, and compares each answer with a plain model of the rules and of state resolution.

The model is written from the Matrix specification (Room Versions 6 and 7: authorization rules; Room Version 2: state
resolution), for the kinds of events that these rooms have. Rooms are by the numbers 1, 2, .. as seeds, of version 6 and
7 in turn, for 20 seconds, or for `--seconds`."""

import random
import sys
import time
from collections.abc import Sequence

from suite import option, run_tests
from event_logs import Log, get, ids, quoted
from matrix_events import A, ACCEPTED, B, C, D, ROOM, Event, Json, Reply, event, id_of, rejected
from program import compare_answers, replay
from state_rows import by_key, chain_of
from version_rows import VersionedRoom

# A type and a state key; the events of a state, and the ids of one, by these.
Key = tuple[str, str]
State = dict[Key, Event]
Ids = dict[Key, str]
CREATE, POWER, RULES, MEMBER = ("m.room.create", ""), ("m.room.power_levels", ""), ("m.room.join_rules", ""), "m.room.member"


def key_of(made: Event) -> Key | None:
    """The key of an event in a state, if it has one."""
    return (made["type"], made["state_key"]) if "state_key" in made else None


def needed_keys(version: str, made: Event) -> list[Key]:
    """The keys of the auth events that an event needs."""
    keys = [CREATE, POWER, (MEMBER, made["sender"])]
    if made["type"] == MEMBER:
        keys.append((MEMBER, made["state_key"]))
        by_rule = ("join", "invite", "knock") if version == "7" else ("join", "invite")
        keys += [RULES] if made["content"]["membership"] in by_rule else []
    return list(dict.fromkeys(keys))


def level(state: State, user: str) -> int:
    """A user's power level."""
    if POWER in state:
        return state[POWER]["content"]["users"].get(user, 0)
    return 100 if state[CREATE]["content"]["creator"] == user else 0


def membership(state: State, user: str) -> str | None:
    """A user's membership, if it has one."""
    made = state.get((MEMBER, user))
    return made["content"]["membership"] if made else None


def fault(version: str, state: State, made: Event) -> str | None:
    """The label of the first rule that rejects the event on this state, or None."""
    sender, own = made["sender"], level(state, made["sender"])
    if made["type"] == MEMBER:
        return member_fault(version, state, made, own)
    if membership(state, sender) != "join":
        return "A5"
    if own < (50 if "state_key" in made and POWER in state else 0):
        return "A7"
    return levels_fault(state[POWER]["content"], made["content"], sender, own) if key_of(made) == POWER and POWER in state else None


def member_fault(version: str, state: State, made: Event, own: int) -> str | None:
    """The label of the first rule that rejects a membership on this state, or None."""
    sender, target, wanted = made["sender"], made["state_key"], made["content"]["membership"]
    now, other = membership(state, target), level(state, target)
    rule = state[RULES]["content"]["join_rule"] if RULES in state else "invite"
    if wanted == "join":
        if now == "ban":
            return "A4.2.3"
        is_open = rule == "invite" or version == "7" and rule == "knock"
        return None if rule == "public" or is_open and now in ("invite", "join") else "A4.2.6"
    if wanted == "knock":
        if version == "6":
            return "A4.6"
        if rule != "knock":
            return "A4.7.1"
        if sender != target:
            return "A4.7.2"
        return "A4.7.4" if now in ("ban", "invite", "join") else None
    if wanted == "invite":
        if membership(state, sender) != "join":
            return "A4.3.2"
        return "A4.3.3" if now in ("join", "ban") else None
    if wanted == "leave" and sender == target:
        return None if now in ("invite", "join") or version == "7" and now == "knock" else "A4.4.1"
    if membership(state, sender) != "join":
        return "A4.4.2" if wanted == "leave" else "A4.5.1"
    if wanted == "ban":
        return None if own >= 50 and other < own else "A4.5.3"
    if now == "ban" and own < 50:
        return "A4.4.3"
    return None if own >= 50 and other < own else "A4.4.5"


def levels_fault(before: Json, after: Json, sender: str, own: int) -> str | None:
    """The label of the first rule that rejects these power levels behind those, or None."""
    changed = [user for user in {**before["users"], **after["users"]} if before["users"].get(user) != after["users"].get(user)]
    if any(user != sender and before["users"].get(user, -1) >= own for user in changed):
        return "A9.6"
    return "A9.7" if any(after["users"].get(user, -1) > own for user in changed) else None


class Room:
    """The events of a room, and the states by the model."""

    def __init__(self, version: str, base: VersionedRoom) -> None:
        self.version = version
        self.held: dict[str, Event] = {}
        self.before: dict[str, Ids] = {}
        self.after: dict[str, Ids] = {}
        self.chains: dict[str, set[str]] = {}
        for made in (base.create, base.join_a, base.levels, base.rules, base.join_b, base.join_c):
            self.add(made, self.state_after(made["prev_events"]), True)

    def add(self, made: Event, before: Ids, is_accepted: bool) -> None:
        """Keeps an event, and the states before and after it."""
        name = id_of(made)
        self.held[name], self.before[name] = made, before
        self.after[name] = {**before, key_of(made): name} if is_accepted and key_of(made) else before
        self.chains[name] = set(made["auth_events"]).union(*(self.chains[cited] for cited in made["auth_events"]))

    def events(self, state: Ids) -> State:
        """The events of a state."""
        return {key: self.held[name] for key, name in state.items()}

    def state_after(self, prev: Sequence[str]) -> Ids:
        """The state behind these events."""
        return self.resolve([self.after[name] for name in prev]) if prev else {}

    def of_auth_events(self, made: Event) -> Ids:
        """The state that an event's auth events make."""
        return {key_of(self.held[name]): name for name in made["auth_events"]}

    def resolve(self, states: list[Ids]) -> Ids:
        """State resolution."""
        keys = {key for state in states for key in state}
        agreed = {key: states[0][key] for key in keys if key in states[0] and all(s.get(key) == states[0][key] for s in states)}
        found = {state[key] for state in states for key in keys - agreed.keys() if key in state}
        if not found:
            return agreed
        chains = [set().union(*(self.chains[name] for name in state.values())) for state in states]
        full = found | (set().union(*chains) - set.intersection(*chains))
        power = {name for name in full if self.is_power(self.held[name])}
        power |= {other for name in power for other in self.chains[name] & full}
        resolved = self.judged(agreed, self.power_order(power))
        resolved = self.judged(resolved, self.mainline_order(resolved.get(POWER), full - power))
        return {**resolved, **agreed}

    def is_power(self, made: Event) -> bool:
        """Whether it is a power event."""
        if made["type"] == MEMBER:
            return made["content"]["membership"] in ("leave", "ban") and made["sender"] != made["state_key"]
        return key_of(made) in (POWER, RULES)

    def power_order(self, names: set[str]) -> list[str]:
        """The reverse topological power ordering."""
        def rank(name: str) -> tuple[int, int, str]:
            """What comes first of events of which none cites the other."""
            made = self.held[name]
            state = self.events(self.of_auth_events(made))
            own = level(state, made["sender"]) if state else 100
            return -own, made["origin_server_ts"], name

        left, order = set(names), []
        while left:
            first = min((name for name in left if not self.chains[name] & left), key=rank)
            left.remove(first)
            order.append(first)
        return order

    def power_of(self, name: str) -> str | None:
        """The power levels that an event cites, if it does."""
        return self.of_auth_events(self.held[name]).get(POWER)

    def mainline_order(self, power: str | None, names: set[str]) -> list[str]:
        """The mainline ordering by these power levels."""
        mainline = []
        while power:
            mainline.append(power)
            power = self.power_of(power)

        def rank(name: str) -> tuple[int, int, str]:
            """The place of the first power levels in the mainline, from its end."""
            at: str | None = name
            while at and at not in mainline:
                at = self.power_of(at)
            place = mainline.index(at) if at else len(mainline)
            return -place, self.held[name]["origin_server_ts"], name

        return sorted(names, key=rank)

    def judged(self, state: Ids, names: list[str]) -> Ids:
        """The iterative checks of these events on a state."""
        state = dict(state)
        for name in names:
            made, cited = self.held[name], self.of_auth_events(self.held[name])
            wanted = {key: state.get(key, cited.get(key)) for key in needed_keys(self.version, made)}
            seen = self.events({key: other for key, other in wanted.items() if other})
            if made["type"] == "m.room.create" or made["prev_events"] == [seen[CREATE] and id_of(seen[CREATE])]:
                state[key_of(made)] = name
            elif key_of(made) and fault(self.version, seen, made) is None:
                state[key_of(made)] = name
        return state


def content_of(chance: random.Random, kind: str, sender: str) -> tuple[str | None, Json]:
    """The state key and the content of a random event of this kind."""
    if kind == "m.room.power_levels":
        return "", {"users": {A: 100, B: chance.choice((0, 50, 50, 100)), C: chance.choice((0, 50, 50))}}
    if kind == "m.room.join_rules":
        return "", {"join_rule": chance.choice(("public", "invite", "knock", "knock", "x"))}
    if kind == MEMBER:
        target = chance.choice((sender, sender, B, C, D))
        own, others = ("join", "join", "leave", "knock", "knock"), ("leave", "leave", "ban", "ban", "invite", "knock")
        wanted = chance.choice(own if target == sender != A else others)
        return (target, {"membership": wanted}) if target != A else (C, {"membership": "ban"})
    if kind == "m.room.message":
        return None, {"body": str(chance.random())}
    return "", {"name": str(chance.random())}


KINDS = ("m.room.power_levels", "m.room.join_rules", MEMBER, MEMBER, "m.room.topic", "m.room.topic", "m.room.name", "m.room.message")


# The keys at which most events of a crowd stand.
CROWDS = [
    [(MEMBER, C)],
    [("m.room.topic", "")],
    [(MEMBER, B), (MEMBER, C)],
    [(MEMBER, B), (MEMBER, C), ("m.room.topic", "")],
]


def crowd_content(chance: random.Random, keys: list[Key]) -> tuple[str, str, str | None, Json]:
    """The sender, kind, state key and content of an event of a crowd: mostly at one of these keys."""
    if chance.random() < 0.1:
        kind = chance.choice(KINDS)
        return A, kind, *content_of(chance, kind, A)
    kind, who = chance.choice(keys)
    if kind == MEMBER:
        return who, MEMBER, who, {"displayname": str(chance.random()), "membership": chance.choice(("join",) * 9 + ("leave",))}
    return chance.choice((A, B, C)), kind, "", {"topic": str(chance.random())}


def random_parents(chance: random.Random, base: VersionedRoom, latest: list[Event], crowded: list[Key] | None
                   ) -> tuple[list[Event], str, str, str | None, Json]:
    """The events before a random event, its sender, kind, state key and content."""
    if crowded:
        prev = latest[-chance.randrange(8, 20):] if chance.random() < 0.3 else [base.join_c]
        return prev, *crowd_content(chance, crowded)
    prev = chance.sample(latest, min(len(latest), chance.choice((1, 1, 2, 3))))
    sender, kind = chance.choice((A, A, B, B, C, D)), chance.choice(KINDS)
    kind = MEMBER if sender == D else kind
    return prev, sender, kind, *content_of(chance, kind, sender)


def random_log(seed: int) -> tuple[Log, list[tuple[Event, Reply]]]:
    """A random room. In each third one the events crowd on one event, so that the room has many forward extremities, and
    some events cite as many as may be."""
    chance, log = random.Random(seed), Log()
    version = "67"[seed % 2 - 1]
    base = VersionedRoom(version)
    base.begin(log)
    room, latest = Room(version, base), [base.join_c]
    told: list[tuple[Event, Reply]] = []
    crowded = chance.choice(CROWDS) if seed % 3 == 0 else None
    for _ in range(40):
        prev, sender, kind, key, content = random_parents(chance, base, latest, crowded)
        before = room.state_after([id_of(made) for made in prev])
        shape = {"type": kind, "sender": sender, "content": content, "state_key": key}
        auth = [room.held[before[needed]] for needed in needed_keys(version, shape) if needed in before]
        made = event(kind, sender, prev, auth, content, key, chance.randrange(60, 90))
        if id_of(made) in room.held:
            continue
        label = fault(version, room.events(before), made)
        room.add(made, before, label is None)
        told.append((made, ACCEPTED if label is None else rejected(label)))
        latest = (latest + [made])[-20 if crowded else -chance.choice((2, 4, 6)):]
    log.transaction("a.example", "t", *told)
    ask_states(log, room, told)
    return log, told


def ask_states(log: Log, room: Room, told: list[tuple[Event, Reply]]) -> None:
    """A query for the ids of the state before each event that is accepted."""
    for made, reply in told:
        if reply == ACCEPTED:
            state = by_key(room.events(room.before[id_of(made)]).values())
            answer = {"auth_chain_ids": ids(chain_of(room.held, state)), "pdu_ids": ids(state)}
            get(log, "v1/state_ids/%s?event_id=%s" % (quoted(ROOM), quoted(id_of(made))), (200, answer), "a.example")


def random_rooms() -> None:
    """All answers of each random room are the model's."""
    end, seed, accepted, count = time.monotonic() + option("seconds"), 0, 0, 0
    while time.monotonic() < end or seed < 5:
        seed += 1
        log, told = random_log(seed)
        accepted, count = accepted + sum(reply == ACCEPTED for _, reply in told), count + len(told)
        try:
            compare_answers(replay(log.text(), "--shards", "2", timeout=300), log.answers)
        except AssertionError as fault:
            raise AssertionError(f"room {seed}") from fault
    print(f"{seed} random rooms, {count} events, of which {accepted} are accepted")


TESTS = [random_rooms]

if __name__ == "__main__":
    seconds = "--seconds", {"type": float, "default": 20, "help": "how long rooms are made (default: 20; at least five are)"}
    sys.exit(run_tests(TESTS, "random rooms", [seconds]))
