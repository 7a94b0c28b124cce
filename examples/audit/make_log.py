#!/usr/bin/env python3
"""Writes the files of this folder: `examples/audit/make_log.py`.

`two_bans.jsonl` is a log in which two sides of a room ban each other, and `two_bans.answers.jsonl` what `mx_federd replay`
prints for it. `two_bans.lines.jsonl` is what `mx_federd audit --name NAME --room ROOM` has to print for it,
`two_bans.resolution.jsonl` what `--resolution` prints of the event that follows both sides, and `two_bans.dot` what
`--dot` prints. All of it is written by the rules of room version 6 and by state resolution; nothing here was taken from
what the program prints."""

import sys
from pathlib import Path

FOLDER = Path(__file__).resolve().parent
sys.path[:0] = [str(FOLDER.parent / "rows"), str(FOLDER.parent.parent / "tests")]
sys.dont_write_bytecode = True

from event_logs import Base, Log  # noqa: E402
from matrix_events import A, ACCEPTED, B, C, ROOM, canonical, event, id_of, member, message, rejected  # noqa: E402
from audit_lines import CREATE, LEVELS, RULES, because, entry, own_members  # noqa: E402

COLOURS = {"accepted": "#d5e8d4", "soft failed": "#fff2cc", "rejected": "#f8cecc"}
# What --resolution says of a step that is not allowed.
STEP_BECAUSE = {"A4.5.3": "a ban whose sender's level is below ban, or is not above the target's"}


def member_of(user):
    return ("m.room.member", user)


class Room:
    """The events of the log, and what is told of each."""

    def __init__(self, log):
        base = Base(log)
        self.base = base
        self.told = []
        create, join_a = base.create, base.join_a
        self.tell(create, {})
        self.tell(join_a, {CREATE: create, LEVELS: None, member_of(A): None, RULES: None})
        self.tell(base.levels, {CREATE: create, LEVELS: None, member_of(A): join_a})
        self.tell(base.rules, {CREATE: create, LEVELS: base.levels, member_of(A): join_a})
        for joined in (base.join_b, base.join_c):
            asked = {CREATE: create, LEVELS: base.levels, member_of(joined["sender"]): None, RULES: base.rules}
            self.tell(joined, asked)

    def tell(self, made, asked, verdict="accepted", check=None, rule=None):
        self.told.append((made, asked, verdict, check, rule))


def levels_of(room, time, b, c):
    """The power levels that A sets after the base, with these levels of B and C."""
    base = room.base
    content = {"users": {A: 100, B: b, C: c}}
    return event("m.room.power_levels", A, [base.join_c], base.of_a, content, "", time)


def two_bans(log):
    """A raises B on one side and C on the other, at almost the same time, and on each side the raised one bans the
    other. Whoever has both keeps the later power levels: C's ban of B stands, and B's ban of C does not."""
    room = Room(log)
    base = room.base
    create, join_b, join_c = base.create, base.join_b, base.join_c
    raise_b = levels_of(room, 1000, 75, 50)
    ban_c = member(B, C, "ban", [raise_b], [create, raise_b, join_b, join_c], 2000)
    raise_c = levels_of(room, 1001, 50, 75)
    ban_b = member(C, B, "ban", [raise_c], [create, raise_c, join_c, join_b], 2001)
    both = message(A, [ban_c, ban_b], [create, base.join_a, raise_c], "both")
    late = message(B, [ban_c], [create, raise_b, join_b], "late")
    after = message(B, [both], [create, raise_c, join_b], "after")
    log.transaction("a.example", "raise_b", (raise_b, ACCEPTED))
    log.transaction("b.example", "ban_c", (ban_c, ACCEPTED))
    log.transaction("a.example", "raise_c", (raise_c, ACCEPTED))
    log.transaction("c.example", "ban_b", (ban_b, ACCEPTED))
    log.transaction("a.example", "both", (both, ACCEPTED))
    log.transaction("b.example", "late", (late, ACCEPTED), (after, rejected("A5")))
    of_a, of_b, of_c = member_of(A), member_of(B), member_of(C)
    for raised in (raise_b, raise_c):
        room.tell(raised, {CREATE: create, LEVELS: base.levels, of_a: base.join_a})
    room.tell(ban_c, {CREATE: create, LEVELS: raise_b, of_b: join_b, of_c: join_c})
    room.tell(ban_b, {CREATE: create, LEVELS: raise_c, of_c: join_c, of_b: join_b})
    room.tell(both, {CREATE: create, LEVELS: raise_c, of_a: base.join_a})
    banned = {CREATE: create, LEVELS: raise_c, of_b: ban_b}
    room.tell(late, banned, "soft failed", "current state", "A5")
    room.tell(after, banned, "rejected", "state before", "A5")
    # In order of arrival.
    order = {id_of(made): place for place, made in enumerate(
        [create, base.join_a, base.levels, base.rules, join_b, join_c, raise_b, ban_c, raise_c, ban_b, both, late, after])}
    room.told.sort(key=lambda told: order[id_of(told[0])])
    current = {id_of(made) for made in (create, base.join_a, raise_c, base.rules, ban_b, join_c)}
    # The joins are in conflict, and in the auth chains of the bans.
    steps = [(raise_b, None), (raise_c, None), (join_b, None), (join_c, None), (ban_c, "A4.5.3"), (ban_b, None)]
    return room, {id_of(both)}, current, both, steps


def line_of(place, made, asked, verdict, check, rule, extremities, current):
    line = own_members(made)
    create, power = asked.get(CREATE), asked.get(LEVELS)
    if rule is not None:
        line.update(check=check, rule=rule, because=because(rule, made, create, power))
    line["judged_by"] = [entry(made, kind, key, stood, create, power) for (kind, key), stood in asked.items()]
    return {
        **line, "verdict": verdict, "redacted_by": [], "place": place, "version": "6",
        "is_extremity": id_of(made) in extremities, "in_current_state": id_of(made) in current,
    }


def resolution_lines(steps):
    """Each side's entries in conflict, and then the checks."""
    raise_b, raise_c, join_b, join_c, ban_c, ban_b = (made for made, _ in steps)
    sides = (
        {LEVELS: raise_b, member_of(B): join_b, member_of(C): ban_c},
        {LEVELS: raise_c, member_of(B): ban_b, member_of(C): join_c},
    )
    for place, side in enumerate(sides):
        for (kind, key), made in sorted(side.items()):
            yield {"conflicted": place, "type": kind, "state_key": key, "event_id": id_of(made)}
    for made, rule in steps:
        yield step_line("power", made, rule)


def step_line(order, made, rule):
    line = {"order": order, "event_id": id_of(made), "allowed": rule is None}
    return line if rule is None else {**line, "rule": rule, "because": STEP_BECAUSE[rule]}


def picture(told, extremities):
    yield "digraph room {"
    yield "  node [shape=box, style=filled];"
    places = {id_of(made): place for place, (made, *_) in enumerate(told)}
    for place, (made, _, verdict, _, _) in enumerate(told):
        label = "\\n".join((made["type"], made["sender"], id_of(made)[:9]))
        border = ", peripheries=2" if id_of(made) in extremities else ""
        yield f'  e{place} [label="{label}", fillcolor="{COLOURS[verdict]}"{border}];'
        for prev in made["prev_events"]:
            yield f"  e{place} -> e{places[prev]};"
    yield "}"


def write(name, lines):
    (FOLDER / name).write_bytes(b"\n".join(lines) + b"\n")


def main():
    log = Log()
    room, extremities, current, both, steps = two_bans(log)
    write("two_bans.jsonl", log.lines)
    write("two_bans.answers.jsonl", log.answers)
    write("two_bans.lines.jsonl", [canonical(line_of(place, *told, extremities, current)) for place, told in enumerate(room.told, 1)])
    write("two_bans.resolution.jsonl", [canonical(line) for line in resolution_lines(steps)])
    write("two_bans.dot", [line.encode() for line in picture(room.told, extremities)])
    print(ROOM, id_of(both))


main()
