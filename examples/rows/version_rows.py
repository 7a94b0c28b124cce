"""Worked rows of room version 7, and of rooms of both versions beside each other.

The answers are written by hand, by the authorization rules of room versions 6 and 7; nothing here was taken from what
the program prints. `make_rows.py` writes the logs."""

from event_logs import NAME, get, quoted
from matrix_events import A, ACCEPTED, B, C, D, ROOM, create, event, id_of, join, member, rejected, sealed, without


class VersionedRoom:
    """The room of `Base` of a version, and with an id of its own: A, B with level 50, C with level 50, who all joined."""

    def __init__(self, version, room=ROOM):
        self.room = room
        self.create = create(room=room, room_version=version)
        self.join_a = join(A, [self.create], [self.create], room=room)
        users = {"users": {A: 100, B: 50, C: 50}}
        self.levels = self.state("m.room.power_levels", [self.join_a], [self.create, self.join_a], users)
        self.of_a = [self.create, self.join_a, self.levels]
        self.rules = self.rule("public", self.levels)
        auth = [self.create, self.levels, self.rules]
        self.join_b = join(B, [self.rules], auth, room=room)
        self.join_c = join(C, [self.join_b], auth, room=room)
        self.members = [self.join_a, self.levels, self.rules, self.join_b, self.join_c]

    def state(self, kind, prev, auth, content):
        return event(kind, A, prev, auth, content, "", room=self.room)

    def rule(self, rule, after):
        return self.state("m.room.join_rules", [after], self.of_a, {"join_rule": rule})

    def member(self, sender, target, membership, after, auth):
        return member(sender, target, membership, [after], auth, room=self.room)

    def begin(self, log):
        log.host(self.create)
        log.transaction("a.example", "base", *((made, ACCEPTED) for made in self.members))

    def knocked(self):
        """The join rule is now to knock, and D knocks."""
        asks = self.rule("knock", self.join_c)
        return asks, self.member(D, D, "knock", asks, [self.create, self.levels, asks])


def knock_in_version_7(log):
    """D knocks, is invited and joins. Who is in the room can't knock, and nobody knocks for another."""
    base = VersionedRoom("7")
    base.begin(log)
    asks, knock = base.knocked()
    of_b = [base.create, base.levels, base.join_b, asks]
    log.transaction(
        "a.example", "t1",
        (asks, ACCEPTED),
        (base.member(B, B, "knock", asks, of_b), rejected("A4.7.4")),
        (base.member(A, D, "knock", asks, [*base.of_a, asks]), rejected("A4.7.2")),
        (knock, ACCEPTED),
    )
    invite = base.member(A, D, "invite", knock, [*base.of_a, asks, knock])
    joined = base.member(D, D, "join", invite, [base.create, base.levels, asks, invite])
    log.transaction("d.example", "t1", (invite, ACCEPTED), (joined, ACCEPTED))


def knock_withdrawn_in_version_7(log):
    """A user who knocked may leave."""
    base = VersionedRoom("7")
    base.begin(log)
    asks, knock = base.knocked()
    leave = base.member(D, D, "leave", knock, [base.create, base.levels, knock])
    log.transaction("d.example", "t1", (asks, ACCEPTED), (knock, ACCEPTED), (leave, ACCEPTED))


def knock_refused_in_version_7(log):
    """Where the join rule is another one nobody knocks; who is banned does not knock, and who was invited need not."""
    base = VersionedRoom("7")
    base.begin(log)
    auth = [base.create, base.levels, base.rules]
    asks = base.rule("knock", base.join_c)
    ban = base.member(A, D, "ban", asks, base.of_a)
    knock = base.member(D, D, "knock", ban, [base.create, base.levels, asks, ban])
    unban = base.member(A, D, "leave", ban, [*base.of_a, ban])
    again = base.member(D, D, "knock", unban, [base.create, base.levels, asks, unban])
    invite = base.member(A, D, "invite", again, [*base.of_a, asks, again])
    invited = base.member(D, D, "knock", invite, [base.create, base.levels, asks, invite])
    log.transaction(
        "d.example", "t1",
        (base.member(D, D, "knock", base.join_c, auth), rejected("A4.7.1")),
        (asks, ACCEPTED),
        (ban, ACCEPTED),
        (knock, rejected("A4.7.4")),
        (unban, ACCEPTED),
        (again, ACCEPTED),
        (invite, ACCEPTED),
        (invited, rejected("A4.7.4")),
    )


def knock_in_version_6(log):
    """Version 6 knows no knocking: join rules are not selected for it, and there is no such membership."""
    base = VersionedRoom("6")
    base.begin(log)
    asks, knock = base.knocked()
    bare = base.member(D, D, "knock", asks, [base.create, base.levels])
    log.transaction("d.example", "t1", (asks, ACCEPTED), (knock, rejected("A2.2")), (bare, rejected("A4.6")))


def template_of_another_version(log):
    """make_join asks for the room's own version, and tells it."""
    base = VersionedRoom("7")
    base.begin(log)
    path = "v1/make_join/%s/%s" % (quoted(ROOM), quoted(D))
    wrong = 400, {"errcode": "M_INCOMPATIBLE_ROOM_VERSION", "error": "room version", "room_version": "7"}
    auth = [base.create, base.levels, base.rules]
    made = {
        "auth_events": [id_of(other) for other in auth], "content": {"membership": "join"}, "depth": 7,
        "origin": NAME, "origin_server_ts": 1000, "prev_events": [id_of(base.join_c)], "room_id": ROOM, "sender": D,
        "state_key": D, "type": "m.room.member",
    }
    get(log, path + "?ver=6", wrong, "d.example")
    get(log, path, wrong, "d.example")
    get(log, path + "?ver=6&ver=7", (200, {"event": made, "room_version": "7"}), "d.example")


def unknown_version(log):
    """A create event of another version makes no room."""
    bare = without(create(), "hashes", "signatures")
    for version in ("5", "8", "07", ""):
        log.host(sealed({**bare, "content": {"creator": A, "room_version": version}}), {"refused": "rule A1.3"})
    log.host(create(room_version="7"))


def rooms_of_both_versions(log):
    """The same users send the same shapes of events to a room of each version, in turn, by the same transactions: each
    room answers as it does alone."""
    sixth, seventh = VersionedRoom("6", "!six:a.example"), VersionedRoom("7", "!seven:a.example")
    log.host(sixth.create)
    log.host(seventh.create)
    both = [made for pair in zip(sixth.members, seventh.members) for made in pair]
    log.transaction("a.example", "base", *((made, ACCEPTED) for made in both))
    asks_six, knock_six = sixth.knocked()
    asks_seven, knock_seven = seventh.knocked()
    invite_six = sixth.member(A, D, "invite", asks_six, [*sixth.of_a, asks_six])
    invite_seven = seventh.member(A, D, "invite", knock_seven, [*seventh.of_a, asks_seven, knock_seven])
    auth_six = [sixth.create, sixth.levels, asks_six, invite_six]
    joined_six = sixth.member(D, D, "join", invite_six, auth_six)
    auth_seven = [seventh.create, seventh.levels, asks_seven, invite_seven]
    joined_seven = seventh.member(D, D, "join", invite_seven, auth_seven)
    log.transaction(
        "d.example", "t1",
        (asks_six, ACCEPTED),
        (asks_seven, ACCEPTED),
        (knock_six, rejected("A2.2")),
        (knock_seven, ACCEPTED),
        (invite_six, ACCEPTED),
        (invite_seven, ACCEPTED),
        # The rule `knock` is no rule of version 6, so that it lets in nobody there.
        (joined_six, rejected("A4.2.6")),
        (joined_seven, ACCEPTED),
    )


VERSION_ROWS = (
    knock_in_version_7, knock_withdrawn_in_version_7, knock_refused_in_version_7, knock_in_version_6,
    template_of_another_version, unknown_version, rooms_of_both_versions,
)
