"""What all test scripts share: options, the choice of tests, what is printed of each, and the exit status.

    tests/NAME.py [--program PATH] [--list] [TEST ..]

A script gives its tests to `run_tests`. Each is a function; one with a parameter gets an empty folder of its own. A test that lacks
what it needs raises `LeftOut` with the reason."""

import argparse
import inspect
import sys
import tempfile
import traceback
from collections.abc import Callable, Sequence
from pathlib import Path
from typing import Any

TOP = Path(__file__).resolve().parent.parent
BUILT = TOP / "crates/mx_federd/out/mx_federd"
LEFT_OUT = 77
# Where the makers of the worked rows and of old files stand.
sys.path += [str(TOP / "examples/rows"), str(TOP / "examples/layouts")]

Test = Callable[..., None]
# An option of one script alone: its name, and what argparse is told of it.
Option = tuple[str, dict[str, Any]]


class LeftOut(Exception):
    """What a test needs is not there."""


class Chosen:
    """The options of the script that runs, once `run_tests` has read them."""

    values = argparse.Namespace(program=BUILT)


def program() -> Path:
    """The program that is tested."""
    return Chosen.values.program


def option(name: str) -> Any:
    """The value of an option that one script has alone."""
    return getattr(Chosen.values, name)


def end_of(test: Test) -> str:
    """Runs a test, prints what became of it, and says so."""
    try:
        if inspect.signature(test).parameters:
            with tempfile.TemporaryDirectory() as folder:
                test(Path(folder))
        else:
            test()
    except LeftOut as reason:
        print(f"{test.__name__}: LEFT OUT, {reason}", flush=True)
        return "left out"
    except Exception:  # noqa: BLE001
        traceback.print_exc()
        print(f"{test.__name__}: FAILED", flush=True)
        return "failed"
    print(f"{test.__name__}: passed", flush=True)
    return "passed"


def options(tests: Sequence[Test], more: Sequence[Option]) -> argparse.Namespace:
    """The options of the command line. A test that there is not is refused."""
    names = [test.__name__ for test in tests]
    parser = argparse.ArgumentParser(description=sys.modules["__main__"].__doc__, formatter_class=argparse.RawDescriptionHelpFormatter)
    parser.add_argument("--program", type=Path, default=BUILT, help="the program that is tested (default: what `rt ci` has built)")
    parser.add_argument("--list", action="store_true", help="list the tests, and run none")
    for name, how in more:
        parser.add_argument(name, **how)
    parser.add_argument("tests", nargs="*", metavar="TEST", help="the tests to run (default: all)")
    told = parser.parse_args()
    if unknown := [name for name in told.tests if name not in names]:
        parser.error(f"no such test: {' '.join(unknown)}")
    told.program = told.program.resolve()
    return told


def run_tests(tests: Sequence[Test], about: str, more: Sequence[Option] = ()) -> int:
    """Runs all tests, or those that are named, prints a line of each and a last one, and gives the exit status: 0, 1 where
    one failed, or 77 where none failed and one was left out."""
    Chosen.values = options(tests, more)
    if Chosen.values.list:
        print(*(test.__name__ for test in tests), sep="\n")
        return 0
    wanted = [test for test in tests if test.__name__ in Chosen.values.tests or not Chosen.values.tests]
    ends = [end_of(test) for test in wanted]
    failed, left_out = ends.count("failed"), ends.count("left out")
    also = f", {left_out} left out" if left_out else ""
    print(f"{ends.count('passed')} tests of {about} passed, {failed} failed{also}")
    return 1 if failed else LEFT_OUT if left_out else 0
