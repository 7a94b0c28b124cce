"""What `mx_federd audit` has to tell of events, by the rules of room versions 6 and 7 and not by the program (docs/AUDIT.md)."""

import json

from matrix_events import canonical, content_hash, id_of

CREATE = ("m.room.create", "")
LEVELS = ("m.room.power_levels", "")
RULES = ("m.room.join_rules", "")
MOST_BYTES = 1024
SENTENCES = {
    "A4.2.3": "a join of a banned user",
    "A4.2.6": "a join that the join rule does not allow",
    "A5": "the sender is not joined",
}


def level_of(user, create, power):
    """Matrix specification, m.room.power_levels."""
    if power is None:
        return 100 if create is not None and create["content"].get("creator") == user else 0
    content = power["content"]
    return content.get("users", {}).get(user, content.get("users_default", 0))


def named_level(name, power):
    usual = {"ban": 50, "kick": 50, "invite": 0, "redact": 50}[name]
    return usual if power is None else power["content"].get(name, usual)


def level_of_type(made, power):
    """The level that the event's type asks for, and which key of the power levels gives it."""
    if power is None:
        return 0, "no power levels"
    content = power["content"]
    if made["type"] in content.get("events", {}):
        return content["events"][made["type"]], "events"
    name, usual = ("state_default", 50) if "state_key" in made else ("events_default", 0)
    return content.get(name, usual), name


def level_needed(made, power):
    if made["type"] == "m.room.third_party_invite":
        return named_level("invite", power)
    if made["type"] != "m.room.member":
        return level_of_type(made, power)[0]
    name = {"invite": "invite", "ban": "ban", "leave": "kick"}.get(made["content"].get("membership"))
    if name is None or (name == "kick" and made["sender"] == made["state_key"]):
        return None
    return named_level(name, power)


def because(rule, made, create, power):
    """What is said of the line of the rules that does not allow an event."""
    def has(user):
        return f"{user} has level {level_of(user, create, power)}"

    had = has(made["sender"])
    if rule in ("A4.3.5", "A6"):
        return f"{had}; invite asks for {named_level('invite', power)}"
    if rule == "A4.4.3":
        return f"{had}; ban asks for {named_level('ban', power)}"
    if rule == "A4.4.5":
        return f"{had}; kick asks for {named_level('kick', power)}; {has(made['state_key'])}"
    if rule == "A4.5.3":
        return f"{had}; ban asks for {named_level('ban', power)}; {has(made['state_key'])}"
    if rule == "A7":
        level, source = level_of_type(made, power)
        return f"{had}; {made['type']} asks for {level} ({source})"
    return SENTENCES[rule]


def entry(made, kind, key, stood, create, power):
    """An entry of `judged_by`: what stood at a key, and what the rules read there."""
    told = {"type": kind, "state_key": key, "event_id": None if stood is None else id_of(stood)}
    if kind == "m.room.power_levels":
        told["level"] = level_of(made["sender"], create, power)
        told["level_needed"] = level_needed(made, power)
    if stood is not None and kind == "m.room.member":
        told["membership"] = stood["content"].get("membership")
    if stood is not None and kind == "m.room.join_rules":
        told["join_rule"] = stood["content"].get("join_rule")
    return {name: value for name, value in told.items() if value is not None or name == "event_id"}


def own_members(made):
    """What a line has of the event itself, as it is kept or, of a refused one, as it was sent."""
    line = {key: made[key] for key in ("type", "sender", "depth", "origin_server_ts", "prev_events", "auth_events")}
    if "state_key" in made:
        line["state_key"] = made["state_key"]
    text = canonical(made["content"])
    if "state_key" in made or len(text) <= MOST_BYTES:
        line["content"] = made["content"]
    else:
        line["content_cut"] = text[:MOST_BYTES].decode(errors="ignore")
    if made["type"] == "m.room.member" and "membership" in made["content"]:
        line["membership"] = made["content"]["membership"]
    holds = made["hashes"].get("sha256") == content_hash(made)
    return {**line, "event_id": id_of(made), "content_hash": "good" if holds else "bad"}


def refused_line(made, why, origin, transaction, after, missing=()):
    """The line of an event that was offered and not kept."""
    line = {**own_members(made), "verdict": "refused", "because": why, "after": after}
    line |= {} if origin is None else {"origin": origin}
    line |= {} if transaction is None else {"transaction": transaction}
    return line | ({"missing": [id_of(it) for it in missing]} if missing else {})


def read_lines(text):
    return [json.loads(line) for line in text.splitlines()]
