#!/usr/bin/env python3
"""Makes logs for `mx_federd replay`, for measuring, with true ids and hashes, and signatures of the presence form.

    make_log.py --shape linear|fork|conflict|joins|newcomers|wide|soft|siblings|members|topics|bans|ladder|renames|all_banned
                 --events N [--members 50] [--turns 3] [--batch 50] [--form step|call] [--times rising|falling|random]
                 [--ask COUNT]
                 [--seed 1] [--body BYTES] [--room ID] > log
    make_log.py --check-power BYTES > event       (one power levels event for `check`)

linear    a base room, then N messages, each after the one before.
fork      of every ten events the eighth (a topic) and the ninth (a message) stand on the seventh,
          and the tenth merges them.
conflict  rounds of eight: two power levels, a ban and two topics, all on the last event; a message
          that merges the five; the unban and the new join of the banned member.
joins     N new members join, one after the other: each event changes the state.
newcomers N new members join, each on the same event: N forward extremities, whose states differ at N keys.
wide      N messages that all follow the same event: N forward extremities.
siblings  one member joins again N times, each time on the same event with another name: N forward extremities, whose
          states differ at one key.
members   the same, three members in turn, or as many as `--turns` says: the states differ at three keys.
topics    N topics by moderators on the same event.
bans      one moderator bans and unbans a member N times, each time on the same event.
ladder    two members rename themselves side by side, and the next two renames each cite both.
renames   one member renames herself N - 2 times, each time on the event before; a message on the event before all of
          these, and a ban of the member on the last: the renames stand in the ban's auth chain, and are in conflict.
all_banned  half of the N events are joins of new members, one after the other, and the others a moderator's bans of
          each of them, all on the last join.
soft      A moderator is demoted; N topics of hers follow one another on the other side of a fork.

In `soft` the topics are soft failed; every other event is accepted. Each transaction is an open line, its next lines
and a close line, or with `call` the line of a request. The base room isn't counted in N. `--times` are the
timestamps of the events past the base room. `--ask` adds lines that ask a
query about the last event, so many of them, of the kind that `--kind` names.
"""

import argparse
import random
import sys
from pathlib import Path

sys.path.insert(0, str(Path(__file__).resolve().parent.parent / "tests"))
sys.dont_write_bytecode = True
from event_logs import FEDERATION, header, quoted  # noqa: E402
from matrix_events import Event, canonical, content_hash, id_of, reference_hash, server_of, unpadded  # noqa: E402

SHAPES = ["linear", "fork", "conflict", "joins", "newcomers", "wide", "soft", "siblings", "members", "topics", "bans", "ladder",
          "renames", "all_banned"]
ROOM = "!room:s0.example"


def seal(event: Event) -> str:
    """Adds hash and signature; the event's id."""
    event["hashes"] = {"sha256": content_hash(event)}
    signature = unpadded(reference_hash(event) * 2)
    event["signatures"] = {server_of(event["sender"]): {"ed25519:auto": signature}}
    return id_of(event)


class Room:
    def __init__(self, options):
        self.random = random.Random(options.seed)
        self.options = options
        self.now = 1_600_000_000_000
        self.events = []
        self.depths = {}
        self.users = ["@u%d:s%d.example" % (n, n % 10) for n in range(options.members)]
        self.admin, *self.mods = self.users[:4]
        self.member = {}
        self.create = self.add("m.room.create", self.admin, [], [],
                               {"creator": self.admin, "room_version": "6"}, "")
        self.join(self.admin, [self.create], rules=False)
        self.power = self.add("m.room.power_levels", self.admin, [self.member[self.admin]],
                              [self.create, self.member[self.admin]], self.levels(0), "")
        self.rules = self.add("m.room.join_rules", self.admin, [self.power],
                              self.auth(self.admin), {"join_rule": "public"}, "")
        self.tip = self.rules
        for user in self.users[1:]:
            self.tip = self.join(user, [self.tip])
        self.base = len(self.events)

    def levels(self, number):
        users = {self.admin: 100, **{mod: 50 for mod in self.mods}}
        return {"users": users, "ban": 50, "kick": 50, "state_default": 50,
                "events": {"m.x": number % 50, "m.y": 7}}

    def add(self, kind, sender, prev, auth, content, key=None):
        self.now += 1000
        event = {
            "auth_events": auth,
            "content": content,
            "depth": 1 + max((self.depths[other] for other in prev), default=0),
            "origin": sender.partition(":")[2],
            "origin_server_ts": self.time(),
            "prev_events": prev,
            "room_id": self.options.room,
            "sender": sender,
            "type": kind,
        }
        if key is not None:
            event["state_key"] = key
        id_ = seal(event)
        event["unsigned"] = {"age_ts": self.now + 7}
        self.depths[id_] = event["depth"]
        self.events.append(event)
        return id_

    def time(self):
        if not hasattr(self, "base") or self.options.times == "rising":
            return self.now
        count = self.now - 1000 * self.base
        return 3_200_000_000_000 - count if self.options.times == "falling" else 1_600_000_000_000 + self.random.randrange(10**9)

    def auth(self, sender, *more):
        return [self.create, self.power, self.member[sender], *more]

    def join(self, user, prev, rules=True):
        auth = [self.create, self.power, self.rules] if rules else [self.create]
        if user in self.member:
            auth.append(self.member[user])
        self.member[user] = self.add("m.room.member", user, prev, auth,
                                     {"displayname": user[1:4], "membership": "join"}, user)
        return self.member[user]

    def message(self, sender, prev):
        body = "".join(self.random.choices("etaoin shrdlu", k=self.options.body))
        return self.add("m.room.message", sender, prev, self.auth(sender),
                        {"body": body, "msgtype": "m.text"})

    def topic(self, sender, prev):
        return self.add("m.room.topic", sender, prev, self.auth(sender),
                        {"topic": "topic %d" % len(self.events)}, "")

    def linear(self):
        self.tip = self.message(self.random.choice(self.users), [self.tip])

    def fork(self):
        for _ in range(7):
            self.linear()
        left = self.topic(self.admin, [self.tip])
        right = self.message(self.random.choice(self.users), [self.tip])
        self.tip = self.message(self.random.choice(self.users), [left, right])

    def conflict(self):
        number = len(self.events)
        target = self.random.choice(self.users[4:])
        first, second, third = self.mods
        tips = []
        change = [("m.room.power_levels", self.admin, number), ("m.room.power_levels", first, number + 1)]
        for kind, sender, level in change:
            tips.append(self.add(kind, sender, [self.tip], self.auth(sender), self.levels(level), ""))
        ban = self.add("m.room.member", second, [self.tip], self.auth(second, self.member[target]),
                       {"membership": "ban"}, target)
        tips += [ban, self.topic(second, [self.tip]), self.topic(third, [self.tip])]
        # By power order the admin's change comes first, and the other one is allowed on it.
        self.power, self.member[target] = tips[1], ban
        self.tip = self.message(self.admin, tips)
        self.tip = self.add("m.room.member", self.admin, [self.tip],
                            self.auth(self.admin, ban), {"membership": "leave"}, target)
        self.member[target] = self.tip
        self.tip = self.join(target, [self.tip])

    def joins(self):
        self.users.append("@u%d:s%d.example" % (len(self.users), len(self.users) % 10))
        self.tip = self.join(self.users[-1], [self.tip])

    def newcomers(self):
        self.users.append("@u%d:s%d.example" % (len(self.users), len(self.users) % 10))
        self.join(self.users[-1], [self.tip])

    def wide(self):
        self.message(self.random.choice(self.users), [self.tip])

    def rename(self, user, prev, before):
        return self.add("m.room.member", user, prev, [self.create, self.power, self.rules, before],
                        {"displayname": "n%d" % len(self.events), "membership": "join"}, user)

    def siblings(self):
        self.rename(self.users[-1], [self.tip], self.member[self.users[-1]])

    def members(self):
        user = self.users[-1 - len(self.events) % self.options.turns]
        self.rename(user, [self.tip], self.member[user])

    def topics(self):
        self.topic(self.mods[len(self.events) % 3], [self.tip])

    def bans(self):
        target = self.users[-1]
        content = {"membership": "ban" if len(self.events) % 2 else "leave", "reason": "%d" % len(self.events)}
        self.add("m.room.member", self.mods[0], [self.tip], self.auth(self.mods[0], self.member[target]), content, target)

    def ladder(self):
        if len(self.events) == self.base:
            self.tips = [self.tip]
        prev, one, other = self.tips, self.users[-1], self.users[-2]
        left, right = self.rename(one, prev, self.member[one]), self.rename(other, prev, self.member[other])
        self.member[one], self.member[other] = left, right
        self.tips = [left, right]

    def ban(self, target, prev):
        return self.add("m.room.member", self.mods[0], prev, self.auth(self.mods[0], self.member[target]),
                        {"membership": "ban"}, target)

    def renames(self):
        user, left = self.users[-1], self.base + self.options.events - len(self.events)
        if len(self.events) == self.base:
            self.first = self.tip
        if left == 2:
            self.message(self.admin, [self.first])
        elif left == 1:
            self.ban(user, [self.tip])
        else:
            self.member[user] = self.tip = self.rename(user, [self.tip], self.member[user])

    def all_banned(self):
        number, joins = len(self.events) - self.base, (self.options.events + 1) // 2
        if number < joins:
            self.joins()
        else:
            self.ban(self.users[self.options.members + number - joins], [self.tip])

    def soft(self):
        if len(self.events) == self.base:
            bare = dict(self.levels(0), users={self.admin: 100})
            self.tip = self.add("m.room.power_levels", self.admin, [self.tip], self.auth(self.admin), bare, "")
            self.last = self.events[self.base]["prev_events"][0]
        self.last = self.topic(self.mods[0], [self.last])

    def lines(self):
        step = getattr(self, self.options.shape)
        while len(self.events) < self.base + self.options.events:
            step()
        del self.events[self.base + self.options.events:]
        yield {"step": "host", "event": self.events[0]}
        origin, batch = "s0.example", self.options.batch
        for start in range(1, len(self.events), batch):
            pdus = self.events[start:start + batch]
            txn = "t%d" % start
            number = {"origin": origin, "txn": txn}
            if self.options.form == "call":
                yield self.call("PUT", "v1/send/" + txn, origin, canonical({"pdus": pdus}).decode())
                continue
            yield {"step": "open", **number, "pdus": pdus}
            for _ in pdus:
                yield {"step": "next", **number}
            yield {"step": "close", **number}
        for _ in range(self.options.ask):
            yield self.query(self.options.kind)

    def call(self, method, path, origin, body=None):
        line = {"step": "call", "method": method, "target": FEDERATION + path, "authorization": header(origin), "now": self.now}
        return line if body is None else {**line, "body": body}

    def query(self, kind):
        """A query of this kind about the last event, by a server in the room."""
        room, origin, ids = quoted(self.options.room), "s1.example", list(self.depths)[:len(self.events)]
        last = quoted(ids[-1])
        if kind == "get_missing_events":
            body = {"earliest_events": [ids[-30]], "latest_events": [ids[-1]], "limit": 20}
            return self.call("POST", "v1/get_missing_events/" + room, origin, canonical(body).decode())
        paths = {
            "event": "v1/event/" + last,
            "state": "v1/state/%s?event_id=%s" % (room, last),
            "state_ids": "v1/state_ids/%s?event_id=%s" % (room, last),
            "event_auth": "v1/event_auth/%s/%s" % (room, last),
            "backfill": "v1/backfill/%s?v=%s&limit=100" % (room, last),
            "make_join": "v1/make_join/%s/%s?ver=6" % (room, quoted("@new:s1.example")),
            "unknown_path": "v1/nothing/" + room,
        }
        return self.call("GET", paths[kind], origin)


def power_event(size):
    """A power levels event whose canonical text is just below `size` bytes."""
    users = {}
    event = {
        "auth_events": [], "content": {"users": users}, "depth": 4, "origin_server_ts": 40,
        "prev_events": [], "room_id": ROOM, "sender": "@u0:s0.example", "state_key": "",
        "type": "m.room.power_levels",
    }
    while len(canonical(event)) < size - 250:
        users["@user%06d:s%d.example" % (len(users), len(users) % 97)] = len(users) % 100
    seal(event)
    return event


def main():
    parser = argparse.ArgumentParser()
    parser.add_argument("--shape", choices=SHAPES, default="linear")
    parser.add_argument("--events", type=int, default=1000)
    parser.add_argument("--members", type=int, default=50)
    parser.add_argument("--turns", type=int, default=3)
    parser.add_argument("--batch", type=int, default=50)
    parser.add_argument("--form", choices=["step", "call"], default="step")
    parser.add_argument("--times", choices=["rising", "falling", "random"], default="rising")
    parser.add_argument("--ask", type=int, default=0)
    parser.add_argument("--kind", default="event")
    parser.add_argument("--seed", type=int, default=1)
    parser.add_argument("--body", type=int, default=60)
    parser.add_argument("--room", default=ROOM)
    parser.add_argument("--check-power", type=int)
    options = parser.parse_args()
    if options.check_power:
        sys.stdout.buffer.write(canonical(power_event(options.check_power)))
        return
    for line in Room(options).lines():
        sys.stdout.buffer.write(canonical(line) + b"\n")


main()
