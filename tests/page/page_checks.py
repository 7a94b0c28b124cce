"""What is checked of a room's page in a browser: each function takes the visit of a page, and fails by an assertion."""

import re
import tempfile
from pathlib import Path
from typing import Any

import page_data as made
from page_browser import Browser

Value = dict[str, Any]
ROWS = "[...document.querySelectorAll('.row')].sort((a, b) => a.id.slice(4) - b.id.slice(4))"
SETTLE = "new Promise((done) => requestAnimationFrame(() => requestAnimationFrame(() => done(1))))"


class Visit:
    """A browser, and a frame to put rooms into."""

    def __init__(self, browser: Browser, frame: str) -> None:
        self.browser, self.frame = browser, frame
        self.folder = Path(tempfile.mkdtemp(prefix="room_page."))
        self.data: Value = {}

    def open(self, data: Value, width: int = 1200, place: int = 0) -> float:
        self.data = data
        file = self.folder / "room.html"
        file.write_text(made.page_of(data, self.frame))
        self.browser.size(width, 760)
        seconds = self.browser.open(file, f"#{self.id(place)}" if place else "")
        assert self.value("document.documentElement.dataset.ready") == "yes", "the page's script did not end"
        return seconds

    def value(self, expression: str) -> Any:
        return self.browser.value(expression)

    def id(self, place: int) -> str:
        return self.data["events"][place - 1]["line"]["event_id"]

    def texts(self, selector: str) -> list[str]:
        return self.value(f"[...document.querySelectorAll(`{selector}`)].map((e) => e.innerText)")

    def click(self, selector: str, shift: bool = False) -> None:
        self.browser.click(selector, shift)
        self.value(SETTLE)

    def press(self, *keys: str, shift: bool = False) -> None:
        for key in keys:
            self.browser.press(key, shift)
        self.value(SETTLE)

    def row(self, place: int) -> str:
        return f'.row[data-place="{place}"]'

    def selected(self) -> int:
        """The place of the selected event, by its row, by the address, and by the panel: all three are the same."""
        by_row = self.value("Number(document.querySelector('.row.selected')?.dataset.place ?? 0)")
        by_panel = int(self.texts("#panel h2")[0].split()[0])
        by_address = self.value("location.hash.slice(1)")
        assert by_address == self.id(by_panel), (by_address, by_panel)
        assert by_row in (0, by_panel), (by_row, by_panel)
        return by_panel

    def places(self) -> list[int]:
        return self.value(f"{ROWS}.filter((e) => e.dataset.place).map((e) => Number(e.dataset.place))")

    def fill(self, field: str, text: str) -> None:
        script = f"(() => {{ const e = document.getElementById('{field}'); e.value = {made.json.dumps(text)};"
        self.value(script + " e.dispatchEvent(new Event('input', {bubbles: true})); })()")
        self.value("new Promise((done) => setTimeout(() => done(1), 120))")

    def state(self) -> dict[tuple[str, str], tuple[str, str]]:
        rows = self.value("[...document.querySelectorAll('.states tbody tr')].map((e) => ({...e.dataset, name: e.className}))")
        for row in rows:
            assert row["name"] == ("same" if row["before"] == row["after"] else "differs"), row
        return {(row["type"], row["stateKey"]): (row["before"], row["after"]) for row in rows}


def example(visit: Visit) -> None:
    visit.open(made.example())
    assert visit.texts("#title") == ["Room !r:a.example"] and visit.texts("#about") == ["version 6 · 13 events"]
    assert [words.split() for words in visit.texts("#counts button")] == [["11", "accepted"], ["1", "soft", "failed"], ["1", "rejected"]]
    assert visit.places() == list(range(1, 14)), visit.places()
    words = visit.texts(".row .words")
    assert words[6:] == ["level of @b:b.example 50 to 75", "bans @c:c.example", "level of @c:c.example 50 to 75", "bans @b:b.example",
                         "“both”", "“late”", "“after”"], words
    assert words[:2] == ["creates the room", "joins"] and words[3] == "sets the join rule: public", words
    assert visit.texts(".row .sender")[7] == "@b:b.example" and visit.texts(".row .time")[6] == "00:00:01.000"
    assert visit.texts(".row .type")[0] == "m.room.create"
    assert visit.texts(".row .said") == ["soft failed: the sender is not joined", "rejected: the sender is not joined"]
    assert visit.selected() == 12, "the first event that is not accepted is selected"
    assert visit.texts(".verdict .sentence") == ["Soft failed: the sender is not joined"]
    assert visit.texts(".checks li") == ["✓ auth events", "✓ state before", "✗ current state"]
    assert "Rule A5." in visit.texts(".verdict")[0]
    judged = visit.value("[...document.querySelectorAll('.judged-by a')].map((e) => e.dataset.event)")
    assert judged == [visit.id(1), visit.id(9), visit.id(10)], judged
    told = visit.texts(".judged-by tbody tr")
    assert "@b:b.example has level 50; this event asks for 0" in told[1] and "membership: ban" in told[2], told
    assert '"body": "late"' in visit.texts("#panel pre")[0]


def refused(visit: Visit) -> None:
    """Events that were not kept are told below the graph, and nothing where there are none."""
    visit.open(made.example())
    assert visit.texts("#refused") == [""] and visit.value("document.title") == "Room !r:a.example: audit"
    visit.open({**made.example(), "refused": made.refused_events()})
    assert visit.texts("#refused summary") == ["3 refused events, kept nowhere"] and visit.texts("#title") == ["Room !r:a.example"]
    visit.click("#refused summary")
    first, second = (line["event_id"] for line in made.refused_events()[:2])
    assert visit.texts("#refused li") == [f"@d:d.example m.room.message from d.example: missing events {first}",
                                          f"@e:e.example m.room.message from ?: room full {second}",
                                          "? ? from d.example: malformed depth wrong kind"], visit.texts("#refused li")
    assert visit.places() == list(range(1, 14)) and visit.selected() == 12, "they are no events of the graph"
    graph, told = (visit.value(f"(() => {{ const b = document.querySelector('{part}').getBoundingClientRect(); return [b.left, b.right,"
                               " b.top, b.bottom]; })()") for part in ("#list", "#refused"))
    assert graph[:2] == told[:2] and graph[3] == told[2] and told[3] <= 760 and graph[3] - graph[2] > 200, (graph, told)


def colours(visit: Visit) -> None:
    visit.open(made.example())
    shown = visit.value("[...document.querySelectorAll('.row .fill')].map((e) => getComputedStyle(e).fill)")
    assert len(set(shown[:11])) == 1 and len({shown[0], shown[11], shown[12]}) == 3, shown
    red, green, _ = (int(part) for part in re.findall(r"\d+", shown[0]))
    assert green > red, shown[0]
    red, green, _ = (int(part) for part in re.findall(r"\d+", shown[12]))
    assert red > 2 * green, shown[12]
    ringed = visit.value(f"{ROWS}.filter((e) => e.querySelector('.ring')).map((e) => Number(e.dataset.place))")
    assert ringed == [11], ringed


ENDS = f"""{ROWS}.map((row) => {{ const top = new Set(), bottom = new Set();
  for (const path of row.querySelectorAll('path')) {{ const [a, b] = [0, path.getTotalLength()].map((at) => path.getPointAtLength(at));
    for (const p of [a, b]) {{ if (p.y < 0.5) top.add(p.x); if (p.y > 27.5) bottom.add(p.x); }} }}
  const dot = row.querySelector('circle'); return {{place: Number(row.dataset.place ?? 0), top: [...top].sort((a, b) => a - b),
    bottom: [...bottom].sort((a, b) => a - b), dot: dot ? Number(dot.getAttribute('cx')) : null,
    into: [...row.querySelectorAll('path')].filter((p) => Math.abs(p.getPointAtLength(p.getTotalLength()).y - 14) < 0.5).length}}; }})"""


def graph(visit: Visit) -> None:
    """The dots' columns, and lines that go on from each row to the next."""
    visit.open(made.example())
    rows = visit.value(ENDS)
    first, second = rows[0]["dot"], rows[6]["dot"]
    assert [row["dot"] for row in rows] == [first] * 6 + [second, second, first, first, first, second, first], rows
    assert [row["into"] for row in rows] == [0] + [1] * 9 + [2, 1, 1], rows
    for data in (made.example(), made.large_room(60)):
        visit.open(data)
        rows = visit.value(ENDS)
        for above, below in zip(rows, rows[1:]):
            assert above["bottom"] == below["top"], (above, below)
        for row in rows:
            prev = data["events"][row["place"] - 1]["line"]["prev_events"] if row["place"] else []
            assert not row["place"] or row["into"] == len(prev), (row, prev)
        assert rows[0]["top"] == [] and len(rows) > 12


def check_states(visit: Visit, states: list[tuple[made.State, made.State]]) -> None:
    """The page's tables are these states."""
    visit.press("Home")
    visit.click("#tab-state")
    for place, (before, after) in enumerate(states, 1):
        visit.value(f"location.hash = '{visit.id(place)}'")
        visit.value(SETTLE)
        assert visit.selected() == place
        shown = visit.state()
        assert {key: held[0] for key, held in shown.items() if held[0]} == before, (place, before, shown)
        assert {key: held[1] for key, held in shown.items() if held[1]} == after, (place, after, shown)


def states(visit: Visit) -> None:
    for data in (made.example(), made.large_room(40), made.room_with_removals()):
        visit.open(data)
        check_states(visit, made.states_of(data))


def far_states(visit: Visit) -> None:
    """States far along a room, over those that are kept whole; asked back and forth."""
    data = made.large_room(3000)
    expected = made.states_of(data)
    visit.open(data)
    visit.click("#tab-state")
    for place in (3000, 1700, 2999, 2, 1200, 2400):
        visit.value(f"location.hash = '{visit.id(place)}'")
        visit.value(SETTLE)
        if visit.value("document.getElementById('all-entries') !== null"):
            visit.click("#all-entries")
        shown = visit.state()
        before, after = expected[place - 1]
        assert {key: held[0] for key, held in shown.items() if held[0]} == before, place
        assert {key: held[1] for key, held in shown.items() if held[1]} == after, place


def resolution(visit: Visit) -> None:
    visit.open(made.example())
    visit.click(visit.row(11))
    assert visit.texts(".conflicts tr.key") == ["m.room.member @b:b.example", "m.room.member @c:c.example", "m.room.power_levels"]
    held = visit.value("[...document.querySelectorAll('.conflicts .stands, .conflicts .lost')].map((e) => [e.className, e.dataset.held])")
    assert held == [[name, visit.id(place)] for name, place in (("lost", 5), ("stands", 10), ("lost", 8), ("stands", 6), ("lost", 7),
                                                                ("stands", 9))], held
    assert visit.texts(".conflicts .lost td:first-child") == ["after 8"] * 3
    steps = visit.value("[...document.querySelectorAll('.steps li')].map((e) => [e.className, e.querySelector('a').dataset.event])")
    assert [step[1] for step in steps] == [visit.id(place) for place in (7, 9, 5, 6, 8, 10)], steps
    assert [step[0] for step in steps] == ["allowed"] * 4 + ["not-allowed", "allowed"], steps
    assert "a ban whose sender's level is below ban" in visit.texts(".steps .why")[0] and "(A4.5.3)" in visit.texts(".steps .why")[0]


def links(visit: Visit) -> None:
    visit.open(made.example())

    def listed(words: str) -> list[str]:
        return visit.value(f"[...document.querySelectorAll('[data-links=\"{words}\"] a')].map((e) => e.dataset.event)")

    visit.click(visit.row(8))
    assert visit.selected() == 8
    assert listed("Prev events") == [visit.id(7)] and listed("Following events") == [visit.id(11), visit.id(12)]
    assert listed("Auth events") == [visit.id(place) for place in (1, 7, 5, 6)]
    visit.click(f'[data-links="Following events"] a[data-event="{visit.id(11)}"]')
    assert visit.selected() == 11
    visit.click(visit.row(5))
    for place in (11, 8):
        visit.value("history.back()")
        visit.value("new Promise((done) => setTimeout(() => done(1), 200))")
        assert visit.selected() == place, "the tab's history leads back"
    visit.open(made.example(), place=5)
    assert visit.selected() == 5, "the address holds the event"
    large = made.large_room(3000)
    visit.open(large, place=1500)
    assert visit.selected() == 1500 and 1500 in visit.places(), "its row is in view"


def finding(visit: Visit) -> None:
    visit.open(made.example())
    for field, text, places in (("find-text", "LATE", [12]), ("find-text", "bans @b", [10]), ("find-sender", "@c:", [6, 10]),
                                ("find-key", "@c:c", [6, 8]), ("find-type", "m.room.power_levels", [3, 7, 9]),
                                ("find-verdict", "rejected", [13]), ("find-verdict", "not accepted", [12, 13])):
        visit.fill(field, text)
        assert visit.places() == places, (field, text, visit.places())
        assert visit.texts("#found") == [f"{len(places)} of 13 events"]
        assert visit.selected() in places
        visit.click("#clear")
        assert visit.places() == list(range(1, 14))
    visit.click('#counts button[data-verdict="soft failed"]')
    assert visit.places() == [12]
    visit.click('#counts button[data-verdict="soft failed"]')
    assert len(visit.places()) == 13
    visit.click("#next")
    assert visit.selected() == 13
    visit.click("#next")
    assert visit.selected() == 12
    visit.fill("find-verdict", "rejected")
    visit.click("#next")
    assert visit.selected() == 13, "the next one is one of those that are listed"


def keyboard(visit: Visit) -> None:
    visit.open(made.example())
    visit.click(visit.row(8))
    for keys, shift, place in ((["ArrowDown"], False, 9), (["ArrowUp", "ArrowUp"], False, 7), (["ArrowLeft"], False, 6),
                               (["ArrowRight"], False, 7), (["Home"], False, 1), (["End"], False, 13), (["ArrowLeft"], False, 11),
                               (["ArrowLeft"], True, 10), (["n"], False, 12), (["N"], True, 13), (["ArrowUp", "ArrowUp"], False, 11),
                               (["ArrowLeft"], False, 8), (["ArrowRight"], True, 12)):
        visit.press(*keys, shift=shift)
        assert visit.selected() == place, (keys, shift, place, visit.selected())
    visit.press("/")
    assert visit.value("document.activeElement.id") == "find-text"
    visit.press("n", "c")
    assert visit.value("document.getElementById('find-text').value") == "nc", "keys that are written do nothing else"
    visit.fill("find-text", "")
    visit.browser.type("both")
    visit.value("new Promise((done) => setTimeout(() => done(1), 150))")
    assert visit.places() == [11]
    visit.press("Escape")
    assert visit.value("document.activeElement.id") == "list"
    visit.press("Enter")
    assert visit.value("document.activeElement.id") == "panel"
    visit.click("#tab-why")
    visit.press("ArrowRight")
    assert visit.value("document.activeElement.id") == "tab-state" and visit.texts(".states th")[1] == "Before"
    assert visit.selected() == 11, "arrows on the tabs do not move along the graph"


def compare(visit: Visit) -> None:
    data = made.example()
    expected = made.states_of(data)
    visit.open(data)
    visit.click(visit.row(8), shift=True)
    visit.click(visit.row(10))
    old, new = expected[7][1], expected[9][1]
    differ = {key: (old.get(key, ""), new.get(key, "")) for key in {*old, *new} if old.get(key) != new.get(key)}
    assert visit.state() == differ and len(differ) == 3, visit.state()
    visit.click("#only-differs")
    assert visit.state() == {key: (old.get(key, ""), new.get(key, "")) for key in {*old, *new}}
    visit.value("(() => { const e = document.getElementById('first-side'); e.value = 'before'; e.dispatchEvent(new Event('change')); })()")
    assert {key: held[0] for key, held in visit.state().items()} == {key: expected[7][0].get(key, "") for key in visit.state()}
    visit.press("c")
    assert visit.value("document.querySelector('.row.pinned').dataset.place") == "10"


def folds(visit: Visit) -> None:
    room = made.MadeRoom()
    last = room.add("@a:a.example", made.CREATE, {"creator": "@a:a.example"}, state_key="")
    for number in range(30):
        kind = {12: "m.room.topic", 20: "m.room.redaction"}.get(number, "m.room.message")
        more: Value = {"state_key": ""} if number == 12 else {}
        if number == 24:
            more = {"verdict": "soft failed", "check": "current state", "rule": "A5", "because": "the sender is not joined"}
        last = room.add(f"@{number % 5}:b.example", kind, {"body": str(number)}, [last], **more)
    visit.open(room.data(), place=1)
    assert visit.places() == [1, 14, 22, 23, 24, 25, 26], visit.places()
    folded = visit.value(f"{ROWS}.filter((e) => e.dataset.fold).map((e) => [Number(e.dataset.fold), e.getAttribute('aria-expanded')])")
    assert folded == [[2, "false"], [15, "false"], [27, "false"]], folded
    assert visit.texts(".row.fold .words")[0] == "▸ 12 messages of @0:b.example, @1:b.example, @2:b.example and 2 others"
    visit.click('.row[data-fold="2"]')
    assert visit.places() == [*range(1, 15), *range(22, 27)], visit.places()
    visit.click('.row[data-fold="2"]')
    assert visit.places() == [1, 14, *range(22, 27)]
    visit.value(f"location.hash = '{visit.id(17)}'")
    visit.value(SETTLE)
    assert visit.selected() == 17 and 17 in visit.places(), "a link into a run opens it"
    visit.press("Home", "ArrowDown", "Enter")
    assert visit.places()[:14] == list(range(1, 15)), "Enter opens a run"
