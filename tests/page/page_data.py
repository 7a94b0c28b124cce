"""The data of a room's page, as `audit` tells them of a log; and rooms made up, with no program asked."""

import base64
import hashlib
import json
import random
import re
import subprocess
from pathlib import Path
from typing import Any, Iterable

Value = dict[str, Any]
State = dict[tuple[str, str], str]

TOP = Path(__file__).resolve().parent.parent.parent
FRAME = TOP / "crates/mx_page/page/frame.html"
MARK = '<script type="application/json" id="room-data">'
END = "</script>"
CREATE, LEVELS, RULES, MEMBER = ("m.room.create", "m.room.power_levels", "m.room.join_rules", "m.room.member")


def page_of(data: Value, frame: str | None = None) -> str:
    """The frame with the data at their place: each `<` is written so that no event can close the script."""
    before, after = (frame if frame is not None else FRAME.read_text()).split(MARK + END)
    text = json.dumps(data, ensure_ascii=False, sort_keys=True, separators=(",", ":")).replace("<", "\\u003c")
    return before + MARK + text + END + after


def sealed(frame: str) -> str:
    """The frame with the hashes of its style and its script in its policy, so that the browser runs no other."""
    for name, start in (("style", "<style>"), ("script", "<script>")):
        text = frame.rsplit(start, 1)[1].split(f"</{name}>", 1)[0]
        hashed = base64.b64encode(hashlib.sha256(text.encode()).digest()).decode()
        frame = re.sub(f"{name}-src '[^']*'", f"{name}-src 'sha256-{hashed}'", frame, count=1)
    return frame


def data_of(page: str) -> Value:
    """The data that a page holds."""
    return json.loads(page.split(MARK, 1)[1].split(END, 1)[0])


class Audit:
    """A program, and the log of one room."""

    def __init__(self, program: str, log: Path) -> None:
        self.program, self.log = program, log
        hosted = [json.loads(line) for line in log.read_text().splitlines() if '"room' in line]
        self.room = next(room for room in map(room_of, hosted) if room is not None)
        self.name = "hub.example"

    def run(self, *options: str) -> str:
        words = [self.program, "audit", "--name", self.name, "--room", self.room, *options]
        with self.log.open("rb") as events:
            done = subprocess.run(words, stdin=events, capture_output=True, check=False)
        if done.returncode != 0:
            raise SystemExit(f"{' '.join(words)}: {done.stderr.decode()}")
        return done.stdout.decode()

    def lines(self, *options: str) -> list[Value]:
        return [json.loads(line) for line in self.run(*options).splitlines()]

    def kept(self) -> list[Value]:
        """The lines of the events that the room kept."""
        return [line for line in self.lines() if line["verdict"] != "refused"]

    def state(self, side: str, event_id: str) -> State:
        return {(entry["type"], entry["state_key"]): entry["event_id"] for entry in self.lines(f"--state-{side}", event_id)}


def room_of(line: Value) -> str | None:
    """The room that a line of a log hosts."""
    for value in (line, *line.values()):
        if isinstance(value, dict) and isinstance(value.get("room_id"), str):
            return value["room_id"]
    return None


def changes(old: State, new: State, places: dict[str, int]) -> list[list[Any]]:
    """What changes from one state to another."""
    return [[*key, places[new[key]] if key in new else None] for key in sorted({*old, *new}) if old.get(key) != new.get(key)]


def data_by_lines(audit: Audit) -> Value:
    """What `--html` puts into the frame, made of what the other options print of each event."""
    lines = audit.kept()
    places = {line["event_id"]: line["place"] for line in lines}
    after: dict[int, State] = {}
    events = []
    for line in lines:
        bases = [places[prev] for prev in line["prev_events"] if prev in places][:1]
        base = after[bases[0]] if bases else {}
        before = audit.state("before", line["event_id"])
        after[line["place"]] = audit.state("after", line["event_id"])
        event: Value = {"line": line, "before": changes(base, before, places)}
        event["after"] = changes(before, after[line["place"]], places)
        if bases:
            event["base"] = bases[0]
        if len(line["prev_events"]) > 1:
            event["resolution"] = audit.lines("--resolution", line["event_id"])
        events.append(event)
    return {"room": audit.room, "events": events, "refused": [line for line in audit.lines() if line["verdict"] == "refused"]}


def data_by_rules(room: str, lines: list[Value], resolutions: dict[str, list[Value]]) -> Value:
    """The same of lines and resolutions alone: what all states share, and what a resolution's steps allow, stands before an event."""
    places = {line["event_id"]: line["place"] for line in lines}
    keys = {line["event_id"]: (line["type"], line.get("state_key", "")) for line in lines}
    after: dict[int, State] = {}
    events = []
    for line in lines:
        prev = [after[places[one]] for one in line["prev_events"]]
        base: State = prev[0] if prev else {}
        before = {key: held for key, held in base.items() if all(state.get(key) == held for state in prev)}
        steps = resolutions.get(line["event_id"], [])
        before.update({keys[step["event_id"]]: step["event_id"] for step in steps if step.get("allowed")})
        new = {keys[line["event_id"]]: line["event_id"]} if "state_key" in line and line["verdict"] != "rejected" else {}
        after[line["place"]] = {**before, **new}
        event: Value = {"line": line, "before": changes(base, before, places), "after": changes(before, {**before, **new}, places)}
        if prev:
            event["base"] = places[line["prev_events"][0]]
        if len(prev) > 1:
            event["resolution"] = steps
        events.append(event)
    return {"room": room, "events": events, "refused": []}


def example() -> Value:
    """The data of examples/audit/two_bans.jsonl, by the lines that stand beside it."""
    def read(name: str) -> list[Value]:
        return [json.loads(line) for line in (TOP / "examples/audit" / name).read_text().splitlines()]

    lines = read("two_bans.lines.jsonl")
    return data_by_rules("!r:a.example", lines, {lines[10]["event_id"]: read("two_bans.resolution.jsonl")})


def refused_events() -> list[Value]:
    """Lines of two events and a value that were offered to that room and not kept; of the second nobody says who offered it."""
    def line(sender: str, cause: str, **more: Any) -> Value:
        return {"after": 13, "auth_events": [], "because": cause, "content": {"body": cause}, "content_hash": "good", "depth": 9,
                "event_id": "$" + sender[1] * 43, "origin_server_ts": 9000, "prev_events": ["$" + "p" * 43], "sender": sender,
                "type": "m.room.message", "verdict": "refused", **more}

    malformed = {"after": 13, "because": "malformed", "fault": "wrong kind", "field": "depth", "origin": "d.example", "position": 2,
                 "transaction": "t", "verdict": "refused"}
    return [line("@d:d.example", "missing events", origin="d.example", missing=["$" + "p" * 43]), line("@e:e.example", "room full"), malformed]


def states_of(data: Value) -> list[tuple[State, State]]:
    """The states before and after each event, by the changes."""
    def changed(state: State, made: list[list[Any]]) -> State:
        new = dict(state)
        for kind, state_key, place in made:
            if place is None:
                del new[(kind, state_key)]
            else:
                new[(kind, state_key)] = data["events"][place - 1]["line"]["event_id"]
        return new

    states: list[tuple[State, State]] = []
    for event in data["events"]:
        before = changed(states[event["base"] - 1][1] if "base" in event else {}, event["before"])
        states.append((before, changed(before, event["after"])))
    return states


class MadeRoom:
    """A room made up for the page: its lines have the right keys, and nothing of them was judged."""

    def __init__(self, seed: int = 1) -> None:
        self.chance = random.Random(seed)
        self.events: list[Value] = []

    def add(self, sender: str, kind: str, content: Value, prev: Iterable[int] = (), **more: Any) -> int:
        """An event after those at the places `prev`; the state before it is that after the first."""
        place = len(self.events) + 1
        event_id = "$" + "".join(self.chance.choices("ABCDEFGHIJKLMNOPQRSTUVWXYZabcdefghijklmnopqrstuvwxyz0123456789-_", k=43))
        prev = list(prev)
        line: Value = {
            "auth_events": [self.id(1)] if place > 1 else [], "content": content, "content_hash": "good", "depth": place,
            "event_id": event_id, "in_current_state": False, "is_extremity": False, "judged_by": self.judged(place),
            "origin_server_ts": 1_700_000_000_000 + 1000 * place, "place": place, "prev_events": [self.id(one) for one in prev],
            "redacted_by": [], "sender": sender, "type": kind, "verdict": "accepted", "version": "6",
        }
        line.update(more)
        if kind == MEMBER and isinstance(content.get("membership"), str):
            line["membership"] = content["membership"]
        event: Value = {"line": line, "before": [], "after": []}
        if prev:
            event["base"] = prev[0]
        if len(prev) > 1:
            event["resolution"] = []
        if "state_key" in line and line["verdict"] != "rejected":
            event["after"] = [[kind, line["state_key"], place]]
        self.events.append(event)
        return place

    def judged(self, place: int) -> list[Value]:
        return [{"event_id": self.id(1), "state_key": "", "type": CREATE}] if place > 1 else []

    def id(self, place: int) -> str:
        return self.events[place - 1]["line"]["event_id"]

    def data(self) -> Value:
        return {"room": "!made:a.example", "events": self.events, "refused": []}


def large_room(size: int) -> Value:
    """Talk on two or more branches that meet, with members, topics, and events that are not accepted."""
    room = MadeRoom()
    ends = [room.add("@a:a.example", CREATE, {"creator": "@a:a.example", "room_version": "6"}, state_key="")]
    while len(room.events) < size:
        user = f"@user{room.chance.randrange(400)}:s{room.chance.randrange(30)}.example"
        draw = room.chance.random()
        prev = ends if draw < 0.08 else [room.chance.choice(ends)]
        more: Value = {}
        kind, content = "m.room.message", {"body": f"message {len(room.events)} of {user}", "msgtype": "m.text"}
        if draw > 0.97:
            kind, content, more = "m.room.topic", {"topic": f"topic {len(room.events)}"}, {"state_key": ""}
        elif draw > 0.9:
            kind, content, more = MEMBER, {"membership": "join"}, {"state_key": user}
        elif draw > 0.88:
            more = {"verdict": "soft failed", "check": "current state", "rule": "A5", "because": "the sender is not joined"}
        place = room.add(user, kind, content, prev, **more)
        if not more.get("rule"):
            kept = [end for end in ends if end not in prev]
            ends = [place, *kept, prev[0]][:6] if room.chance.random() < 0.05 else [place, *kept]
    for end in ends:
        room.events[end - 1]["line"]["is_extremity"] = True
    return room.data()


def room_with_removals() -> Value:
    """States that lose entries: where branches meet, and after an event."""
    room = MadeRoom(3)
    first = room.add("@a:a.example", CREATE, {"creator": "@a:a.example"}, state_key="")
    left = room.add("@a:a.example", "m.room.topic", {"topic": "left"}, [first], state_key="")
    right = room.add("@a:a.example", "m.room.name", {"name": "right"}, [first], state_key="")
    room.add("@a:a.example", "m.room.message", {"body": "both"}, [left, right])
    room.events[-1]["before"] = [["m.room.topic", "", None]]
    room.add("@a:a.example", "m.room.message", {"body": "none"}, [4])
    room.events[-1]["after"] = [[CREATE, "", None]]
    room.add("@a:a.example", "m.room.topic", {"topic": "again"}, [5], state_key="")
    return room.data()


def hostile_room() -> Value:
    """Texts that mean harm: markup, names of 255 bytes, text from right to left, control characters, 2,000 senders."""
    room = MadeRoom(2)
    attack = "</script><script>window.harm = 1; fetch('http://harm.example/')</script><img src=x onerror='window.harm = 2'>"
    turned = "\u202egnol si siht\u2066 \u0000\u0001\n\r\t\u2028\u0085 \u05e9\u05dc\u05d5\u05dd \ufffe"
    long = "@" + "n" * 242 + ":s.example"
    last = room.add(attack, CREATE, {"creator": attack, "room_version": "6", "__proto__": {"harm": 1}}, state_key="")
    last = room.add(long, "m.room.topic", {"topic": attack}, [last], state_key=attack)
    last = room.add(long, "t" * 255, {"body": "x" * 5000}, [last], state_key="k" * 255)
    last = room.add(turned, turned, {"body": turned, turned: turned}, [last], state_key=turned)
    last = room.add(turned, "m.room.message", {"body": turned, "msgtype": "constructor"}, [last])
    last = room.add("__proto__", "__proto__", {"__proto__": 1}, [last], state_key="__proto__")
    levels = {"users": {"__proto__": 100, "constructor": "50", attack: -5}, "events": [1], "ban": None}
    for content in (levels, {"users": "x", "events": {"toString": 7}}, {"users": {turned: 1}}, {}):
        last = room.add("@a:a.example", LEVELS, content, [last], state_key="")
    for content in ({"membership": attack}, {"membership": 5}, {}, {"membership": "ban"}):
        last = room.add("@a:a.example", MEMBER, content, [last], state_key=turned)
    for content in ({"body": 5}, {"body": attack}, {"body": {}}, {"msgtype": 5}, {"body": "\U0001f600" * 200}):
        last = room.add("@a:a.example", "m.room.message", content, [last], origin_server_ts=2**53 - 1)
    rejected = {"verdict": "rejected", "check": "state before", "rule": attack, "because": attack + turned}
    room.add("toString", "constructor", {"body": attack}, [last], **rejected)
    for number in range(2000):
        user = f"@{number}{turned if number % 7 == 0 else attack if number % 7 == 1 else ''}:s.example"
        last = room.add(user, MEMBER, {"membership": "join"}, [last], state_key=user, in_current_state=True)
    room.events[-1]["line"].update(is_extremity=True, redacted_by=[room.id(5)])
    refused = {"event_id": attack, "because": attack, "sender": turned, "type": attack, "origin": attack}
    return {"room": f"!{attack}{turned}:a.example", "events": room.events, "refused": [refused]}
