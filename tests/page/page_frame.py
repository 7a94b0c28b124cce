#!/usr/bin/env python3
"""The frame of the room's page: the hashes of its policy, a picture, and mistakes in it that its tests find."""

import argparse
import shutil
import sys
from collections.abc import Callable
from pathlib import Path

sys.path.insert(0, str(Path(__file__).resolve().parent.parent))

import page_checks as checks
import page_data as made
import page_limits as limits
from page_browser import Browser
from page_checks import Visit
from page_mistakes import MISTAKES, UNSEALED

PageTest = Callable[[Visit], None]
FRAME_TESTS: list[PageTest] = [
    limits.text, limits.bare, checks.example, checks.refused, checks.colours, checks.graph, checks.states, checks.far_states,
    checks.resolution, checks.links, checks.finding, checks.keyboard, checks.compare, checks.folds, limits.words, limits.hostile,
    limits.windows, limits.roles, limits.policy, limits.large,
]


def run(test: PageTest, visit: Visit) -> None:
    """One test; the page has said nothing on the console and asked for nothing."""
    visit.browser.happened.clear()
    test(visit)
    assert visit.browser.said() == [], visit.browser.said()
    assert visit.browser.asked_for() == [], visit.browser.asked_for()


def found(browser: Browser, test: PageTest, frame: str) -> str | None:
    """What a test says of a frame with a mistake; nothing where it finds none."""
    visit = Visit(browser, frame)
    try:
        run(test, visit)
    except (AssertionError, ValueError, IndexError, TypeError) as error:
        return str(error).splitlines()[0][:100] if str(error) else type(error).__name__
    finally:
        shutil.rmtree(visit.folder)
    return None


def run_mistakes(names: list[str]) -> int:
    frame = made.FRAME.read_text()
    tests = {test.__name__: test for test in FRAME_TESTS}
    edits = [(edit, True) for edit in MISTAKES] + [(edit, False) for edit in UNSEALED]
    missed = 0
    with Browser() as browser:
        for (name, old, new), seal in edits:
            if names and name not in names:
                continue
            assert frame.count(old) == 1, f"{frame.count(old)} places of the frame have {old!r}"
            broken = frame.replace(old, new)
            told = found(browser, tests[name], made.sealed(broken) if seal else broken)
            missed += told is None
            print(f"{name}: {'NOT FOUND' if told is None else 'found'}: {new[:70]!r}: {told}", flush=True)
    print(f"{missed} mistakes not found")
    return 1 if missed else 0


def picture(file: Path, program: str | None) -> int:
    """Of the page that a program prints, or of the lines that stand beside the example."""
    log = made.TOP / "examples/audit/two_bans.jsonl"
    data = made.data_of(made.Audit(program, log).run("--html")) if program else made.example()
    with Browser() as browser:
        visit = Visit(browser, made.FRAME.read_text())
        visit.open(data)
        browser.size(1200, 700)
        browser.picture(file)
        shutil.rmtree(visit.folder)
    return 0


def main() -> int:
    """Does what the options ask for."""
    parser = argparse.ArgumentParser(description=__doc__)
    work = parser.add_mutually_exclusive_group(required=True)
    work.add_argument("--hashes", action="store_true", help="write the hashes of the frame's style and script into its policy")
    work.add_argument("--picture", type=Path, help="make a picture of the page of examples/audit/two_bans.jsonl")
    work.add_argument("--mistakes", nargs="*", help="put mistakes into the frame, each of which a test has to find (default: all)")
    parser.add_argument("--program", help="of the page that this program prints, and not of the lines beside the example")
    told = parser.parse_args()
    if told.hashes:
        made.FRAME.write_text(made.sealed(made.FRAME.read_text()))
        return 0
    if told.picture:
        return picture(told.picture, told.program)
    return run_mistakes(told.mistakes)


if __name__ == "__main__":
    sys.exit(main())
