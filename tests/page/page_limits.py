"""More of what is checked of a room's page: its words, texts that mean harm, large rooms, small windows, its policy, its roles."""

import re
from typing import Any

import page_data as made
from page_checks import ROWS, SETTLE, Visit

Value = dict[str, Any]
MOST_SECONDS = 5.0
MOST_PROCESSOR_SECONDS = 5.0
FRAMES = 120
MOST_MILLISECONDS = 50.0
BACKGROUND = "getComputedStyle(document.body).backgroundColor"


def words(visit: Visit) -> None:
    room = made.MadeRoom()
    user, other = "@a:a.example", "@b:b.example"
    last = room.add(user, made.CREATE, {"creator": user}, state_key="")
    expected = ["creates the room"]
    levels: Value = {"users": {user: 100}, "ban": 50}
    for content, told in (
            ({"membership": "invite"}, f"invites {other}"), ({"membership": "leave"}, f"withdraws the invite of {other}"),
            ({"membership": "ban"}, f"bans {other}"), ({"membership": "leave"}, f"unbans {other}"), ({"membership": "join"}, "joins"),
            ({"membership": "join"}, "changes the profile"), ({"membership": "leave"}, f"kicks {other}")):
        last = room.add(user, made.MEMBER, content, [last], state_key=other)
        expected.append(told)
    for membership, told in (("knock", "knocks"), ("leave", "withdraws the knock"), ("invite", f"invites {user}"),
                             ("leave", "declines the invite"), ("join", "joins"), ("leave", "leaves")):
        last = room.add(user, made.MEMBER, {"membership": membership}, [last], state_key=user)
        expected.append(told)
    for content, told in (
            (levels, f"sets the levels: {user} 100"), ({**levels, "ban": 60}, "level to ban 50 to 60"),
            ({**levels, "ban": 60}, "sets the same levels again"),
            ({"users": {user: 100, other: 75}, "ban": 60, "events": {"m.room.topic": 5}},
             f"level of {other} 0 to 75; level to send m.room.topic unset to 5"),
            ({"users": {other: 1}, "kick": 1, "redact": 1},
             f"level of {user} 100 to 0; level of {other} 75 to 1; level to send m.room.topic 5 to unset; 3 more levels")):
        last = room.add(user, made.LEVELS, content, [last], state_key="")
        expected.append(told)
    for kind, content, more, told in (
            ("m.room.topic", {"topic": "tea"}, {"state_key": ""}, "sets the topic: tea"),
            ("m.room.message", {"body": "a.png", "msgtype": "m.image"}, {}, "sends an image: a.png"),
            ("m.room.message", {}, {}, "sends a message"),
            ("m.room.name", {"name": "kitchen"}, {"state_key": ""}, "names the room: kitchen"),
            ("m.room.encrypted", {}, {}, "sends an encrypted message"), ("x.y", {}, {}, "sends x.y"),
            ("x.y", {}, {"state_key": ""}, "sets x.y"), ("x.y", {}, {"state_key": "z"}, "sets x.y of z")):
        last = room.add(user, kind, content, [last], **more)
        expected.append(told)
    last = room.add(user, "m.room.redaction", {}, [last])
    room.events[1]["line"]["redacted_by"] = [room.id(last)]
    expected.append(f"redacts 2, m.room.member of {user}")
    visit.open(room.data(), width=1600)
    visit.browser.size(1600, 1200)
    visit.value(SETTLE)
    shown = [text for text in visit.value(f"{ROWS}.map((e) => e.querySelector('.words').title)")]
    assert shown == expected, [pair for pair in zip(shown, expected) if pair[0] != pair[1]]
    struck = visit.value(f"{ROWS}.filter((e) => getComputedStyle(e.querySelector('.words')).textDecorationLine === 'line-through')"
                         ".map((e) => Number(e.dataset.place))")
    assert struck == [2], struck
    visit.click(visit.row(last))
    assert visit.value("document.querySelector('[data-links=Redacts] a').dataset.event") == room.id(2)


def hostile(visit: Visit) -> None:
    visit.open(made.hostile_room())
    for place in (1, 2, 4, 6, 8, 10, 16, 20, 2020):
        visit.value(f"location.hash = '{visit.id(place)}'")
        visit.value(SETTLE)
        assert visit.selected() == place
        for tab in ("state", "compare", "why"):
            visit.click(f"#tab-{tab}")
        heights = visit.value(f"{ROWS}.map((e) => e.getBoundingClientRect().height)")
        assert set(heights) == {28}, heights
        tall = visit.value(f"{ROWS}.filter((e) => [...e.children].some((c) => c.getBoundingClientRect().height > 28)).length")
        assert tall == 0, "a text breaks its row"
    visit.fill("find-text", "</script>")
    assert len(visit.places()) > 5
    visit.click("#clear")
    visit.click("#refused summary")
    assert visit.texts("#title")[0].startswith("Room !</script>") and "</script>" in visit.texts("#refused li")[0]
    assert visit.value("document.querySelectorAll('script').length") == 2
    assert visit.value("document.querySelectorAll('img, iframe, object, style ~ style, [onerror], [onclick]').length") == 0
    assert visit.value("window.harm === undefined && ({}).harm === undefined"), "a script of an event ran"
    mark = "[\\u0000-\\u0009\\u000b-\\u001f\\u0085\\u2028\\u202e\\u2066\\ufffe]"
    visit.value(f"location.hash = '{visit.id(5)}'")
    visit.value(SETTLE)
    assert not visit.value(f"/{mark}/.test(document.getElementById('rows').textContent + document.getElementById('panel').textContent)")
    assert visit.texts(f"{visit.row(5)} .words")[0].startswith("“"), "a kind of message that no table has"
    isolated = "[...document.querySelectorAll('bdi')].every((e) => getComputedStyle(e).unicodeBidi === 'isolate' && e.dir === 'auto')"
    assert visit.value(isolated) and visit.value("document.querySelectorAll('.row bdi').length") > 10
    visit.value(f"location.hash = '{visit.id(3)}'")
    visit.value(SETTLE)
    assert visit.value(f"document.querySelector('{visit.row(3)} .sender').title.length") == 253, "the whole name is in the title"
    visit.value(f"location.hash = '{visit.id(2020)}'")
    visit.click("#tab-state")
    assert len(visit.texts(".states tbody tr")) == 300
    visit.click("#all-entries")
    assert len(visit.texts(".states tbody tr")) > 2000


def large(visit: Visit) -> None:
    for size in (10_000, 50_000):
        before = visit.browser.processor_time()
        seconds = visit.open(made.large_room(size))
        processor = visit.browser.processor_time() - before
        print(f"    {size:,} events open in {seconds:.2f} s, {processor:.2f} s of a processor", flush=True)
        assert size > 10_000 or seconds <= MOST_SECONDS or processor <= MOST_PROCESSOR_SECONDS, "it opens too slowly"
        assert 20 < visit.value("document.querySelectorAll('.row').length") < 100, "only the rows in view are made"
        scroll(visit, size)


def scroll(visit: Visit, size: int) -> None:
    """Scrolls by three rows a frame, and then far: the rows in view are there, in their order."""
    before = visit.browser.processor_time()
    steps = visit.value(f"""new Promise((done) => {{ const list = document.getElementById('list'), times = []; let last = performance.now();
      list.scrollTop = 0; const step = (now) => {{ times.push(now - last); last = now; list.scrollTop += 84;
      times.length < {FRAMES} ? requestAnimationFrame(step) : done(times.sort((a, b) => a - b)); }}; requestAnimationFrame(step); }})""")
    middle = steps[len(steps) // 2]
    processor = (visit.browser.processor_time() - before) * 1000 / FRAMES
    print(f"    scrolling: half of the frames within {middle:.0f} ms, all but two within {steps[-3]:.0f} ms; "
          f"a frame takes {processor:.0f} ms of the processors", flush=True)
    assert size > 10_000 or middle <= MOST_MILLISECONDS or processor <= MOST_MILLISECONDS, steps[-5:]
    for part in (0.5, 1.0, 0.0):
        visit.value(f"document.getElementById('list').scrollTop = {part} * document.getElementById('list').scrollHeight")
        visit.value(SETTLE)
        seen = visit.value(f"""(() => {{ const box = document.getElementById('list').getBoundingClientRect();
          return {ROWS}.map((e) => e.getBoundingClientRect()).filter((r) => r.bottom > box.top && r.top < box.bottom).length
            >= Math.floor(box.height / 28); }})()""")
        assert seen, "rows in view are missing"
        assert visit.value("document.querySelectorAll('.row').length") < 100, "rows out of view are removed"
    visit.press("End")
    assert visit.selected() == size


def windows(visit: Visit) -> None:
    """From 400 to 1,600 points of width, in light and dark."""
    grounds = []
    for scheme in ("light", "dark"):
        visit.browser.scheme(scheme)
        for width in (400, 800, 1200, 1600):
            visit.open(made.example(), width=width)
            assert visit.value("document.documentElement.scrollWidth") <= width, width
            for part in ("#list", "#panel"):
                box = visit.value(f"(() => {{ const b = document.querySelector('{part}').getBoundingClientRect(); return [b.left, b.right,"
                                  " b.top, b.bottom]; })()")
                assert box[0] >= 0 and box[1] <= width and box[3] <= 760 and box[3] - box[2] > 200 and box[1] - box[0] > 300, (part, box)
            cut = visit.value(f"{ROWS}.filter((e) => e.querySelector('.words').getBoundingClientRect().width < 40).length")
            assert cut == 0, "the words have no room"
        grounds.append(visit.value(BACKGROUND))
        for ink, ground in ((".soft", "#panel"), (".row .sender", "#list"), (".row .type", ".events"), ("#panel a", "body"),
                            (".verdict .sentence", ".verdict"), (".row .soft-failed", ".events"), (".row .rejected", ".events")):
            check_contrast(visit, ink, ground)
    visit.browser.scheme("light")
    assert grounds[0] != grounds[1], grounds


def check_contrast(visit: Visit, ink: str, ground: str) -> None:
    def lightness(selector: str, name: str) -> float:
        text = visit.value(f"""(() => {{ let e = document.querySelector('{selector}'); for (; e; e = e.parentElement) {{
          const c = getComputedStyle(e).{name}; if (c !== 'rgba(0, 0, 0, 0)') return c; }} return 'rgb(255, 255, 255)'; }})()""")
        parts = [int(part) / 255 for part in re.findall(r"\d+", text)[:3]]
        red, green, blue = (part / 12.92 if part <= 0.04045 else ((part + 0.055) / 1.055) ** 2.4 for part in parts)
        return 0.2126 * red + 0.7152 * green + 0.0722 * blue

    low, high = sorted((lightness(ink, "color"), lightness(ground, "backgroundColor")))
    assert (high + 0.05) / (low + 0.05) >= 4.0, (ink, (high + 0.05) / (low + 0.05))


def roles(visit: Visit) -> None:
    visit.open(made.example())
    assert visit.value("document.getElementById('list').getAttribute('role')") == "listbox"
    rows = visit.value(f"{ROWS}.map((e) => ['role', 'aria-setsize', 'aria-posinset', 'aria-selected'].map((n) => e.getAttribute(n)))")
    assert rows == [["option", "13", str(place), str(place == 12).lower()] for place in range(1, 14)], rows
    label = visit.value(f"document.querySelector('{visit.row(12)}').getAttribute('aria-label')")
    assert label == "12, @b:b.example “late”, soft failed: the sender is not joined", label
    assert visit.value(f"document.querySelector('{visit.row(11)}').getAttribute('aria-label')").endswith("accepted, forward extremity")
    active = visit.value("document.getElementById(document.getElementById('list').getAttribute('aria-activedescendant')).dataset.place")
    assert active == "12", active
    tabs = visit.value("[...document.querySelectorAll('[role=tab]')].map((e) => e.getAttribute('aria-selected'))")
    assert tabs == ["true", "false", "false"], tabs
    unnamed = visit.value("[...document.querySelectorAll('input, select')].filter((e) => !e.labels.length && !e.ariaLabel).length")
    assert unnamed == 0
    assert visit.value("document.documentElement.lang") == "en" and visit.value("document.querySelectorAll('h1').length") == 1


def bare(visit: Visit) -> None:
    """The frame without a room, and a room with one event."""
    file = visit.folder / "bare.html"
    file.write_text(visit.frame)
    visit.browser.open(file)
    assert "no event" in visit.texts("#panel")[0]
    room = made.MadeRoom()
    room.add("@a:a.example", made.CREATE, {"creator": "@a:a.example"}, state_key="")
    for data, title in ((room.data(), "Room !made:a.example"), ({"events": room.events}, "Room of @a:a.example")):
        visit.open(data)
        assert visit.selected() == 1 and visit.texts("#title") == [title]


def text(visit: Visit) -> None:
    """The frame's own text: its size, its policy, and no word by which a text would become markup."""
    lines = visit.frame.splitlines()
    assert visit.frame.isascii(), "the frame has characters that are not ASCII"
    assert len(lines) < 900 and max(map(len, lines)) <= 140, (len(lines), max(map(len, lines)))
    assert made.sealed(visit.frame) == visit.frame, "the policy's hashes are old: tests/room_page.py --hashes"
    assert "default-src 'none'" in visit.frame
    for word in ("innerHTML", "outerHTML", "insertAdjacent", "document.write", "eval(", "Function(", "fetch(", "import(", "<link",
                 "@import", "url(", "XMLHttpRequest"):
        assert word not in visit.frame, word
    assert set(re.findall(r"https?://[^\"' ]*", visit.frame)) == {"http://www.w3.org/2000/svg"}
    assert visit.frame.count(made.MARK + made.END) == 1


def policy(visit: Visit) -> None:
    """A script or a picture that would come into the page in spite of all does nothing; this is told on the console."""
    visit.open(made.example())
    visit.value("(() => { const s = document.createElement('script'); s.textContent = 'window.harm = 1'; document.body.append(s); })()")
    visit.value("(() => { const d = document.createElement('div'); d.setAttribute('onclick', 'window.harm = 1'); document.body.append(d);"
                " d.click(); })()")
    visit.value("(() => { const i = new Image(); i.src = 'http://harm.example/a.png'; document.body.append(i); })()")
    assert visit.value("window.harm === undefined"), "the policy lets another script run"
    assert any("Content Security Policy" in told for told in visit.browser.said())
    visit.browser.happened.clear()
