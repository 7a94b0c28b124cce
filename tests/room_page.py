#!/usr/bin/env python3
"""The page that `audit --html` prints, in headless Chromium: its frame over made-up rooms, and the pages of three logs.

It installs Debian's chromium where it may, as root with apt-get; without it all is left out."""

import shutil
import sys
import time
from collections.abc import Callable
from pathlib import Path

from suite import TOP, program, run_tests

sys.path.insert(0, str(TOP / "tests/page"))
import page_checks as checks  # noqa: E402
import page_data as made  # noqa: E402
from page_browser import Browser  # noqa: E402
from page_checks import Visit  # noqa: E402
from page_frame import FRAME_TESTS, PageTest, run  # noqa: E402

LOGS = ("audit/two_bans.jsonl", "rows/forked_power_levels.jsonl", "rows/effective_redaction.jsonl", "rows/refusals_in_their_order.jsonl")


def in_browser(name: str, about: str | None, test: PageTest) -> Callable[[], None]:
    """A test of the frame, in a browser of its own."""

    def page_test() -> None:
        with Browser() as browser:
            visit = Visit(browser, made.FRAME.read_text())
            start = time.monotonic()
            try:
                run(test, visit)
            finally:
                shutil.rmtree(visit.folder)
            print(f"    {time.monotonic() - start:.1f} seconds", flush=True)

    page_test.__name__, page_test.__doc__ = name, about
    return page_test


def in_order(event: made.Value) -> made.Value:
    """An event of the data with its changes by their keys."""
    return {**event, "before": sorted(event["before"], key=lambda one: one[:2]), "after": sorted(event["after"], key=lambda one: one[:2])}


def check_page(visit: Visit, log: str) -> None:
    """The page of a log is the frame with the data in it, and shows the states that the program prints of each event."""
    audit = made.Audit(str(program()), TOP / "examples" / log)
    states = [(audit.state("before", line["event_id"]), audit.state("after", line["event_id"])) for line in audit.kept()]
    page = audit.run("--html")
    data = made.data_of(page)
    expected = made.data_by_lines(audit)
    before, after = visit.frame.split(made.MARK + made.END)
    assert page.startswith(before + made.MARK) and page.endswith(made.END + after), "the page is not the frame with data"
    assert "<" not in page[len(before) + len(made.MARK):-len(made.END + after)], "the data could close their script"
    assert list(data) == ["room", "events", "refused"]
    assert data["room"] == expected["room"] and data["refused"] == expected["refused"], (data["room"], data["refused"])
    for event, other in zip(data["events"], expected["events"], strict=True):
        assert in_order(event) == in_order(other), (event, other)
    visit.open(data)
    assert visit.texts("#title") == [f"Room {audit.room}"]
    checks.check_states(visit, states)


def of_log(log: str) -> Callable[[], None]:
    """The test of the page of one log."""
    return in_browser("page_of_" + Path(log).stem, check_page.__doc__, lambda visit: check_page(visit, log))


TESTS = [in_browser("page_" + test.__name__, test.__doc__, test) for test in FRAME_TESTS] + [of_log(log) for log in LOGS]

if __name__ == "__main__":
    sys.exit(run_tests(TESTS, "the room's page"))
