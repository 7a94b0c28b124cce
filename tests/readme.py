#!/usr/bin/env python3
"""Tests README.md: runs the commands that it shows, with programs that are built in the place of `rt try --` and `rt run --`, and
compares what they print with what README shows or with the file that it names. In what README shows, `..` stands for what
was cut. README's figures are those of docs/SPEED.md. The links of all pages lead to a file, and to a heading in it.

Without a program for README's first command that test is left out."""

import os
import re
import subprocess
import sys
from pathlib import Path

from suite import TOP, LeftOut, option, program, run_tests

SECONDS = 300
REPLAY = TOP / "crates/example_replay/out/example_replay"
Block = list[str]


def page() -> str:
    """The text of README."""
    return (TOP / "README.md").read_text()


def blocks() -> list[Block]:
    """The lines of each fenced block of README."""
    return [it.strip("\n").split("\n") for it in re.findall(r"^```\n(.*?)^```$", page(), re.DOTALL | re.MULTILINE)]


def commands(crate: str, built: Path) -> list[str]:
    """The lines by which a crate is run in its folder by `rt`, with its program in the place of `rt`."""
    start = re.compile(rf"\(cd crates/{crate} && rt (?:try|run) -- .*\)")
    found = [lines[0] for lines in blocks() if start.fullmatch(lines[0])]
    assert found, f"README runs no program of {crate}"
    return [re.sub(r"rt (?:try|run) --", str(built), it) for it in found]


def named(folder: Path) -> Path:
    """A folder in which the program that is tested has its name."""
    programs = folder / "programs"
    programs.mkdir()
    (programs / "mx_federd").symlink_to(program())
    return programs


def printed(command: str, programs: Path) -> str:
    """What a command prints at the top of the repository, where `mx_federd` is found among these programs."""
    words = ["bash", "-o", "pipefail", "-c", command]
    found = {**os.environ, "PATH": f"{programs}:{os.environ['PATH']}"}
    ran = subprocess.run(words, cwd=TOP, env=found, stdout=subprocess.PIPE, timeout=SECONDS, text=True)
    assert ran.returncode == 0, (command, ran)
    return ran.stdout


def is_shown(shown: str, line: str) -> bool:
    """Whether a line is the one that is shown, but for what was cut."""
    return re.fullmatch(".*?".join(re.escape(it) for it in shown.split("..")), line) is not None


def log_of_first_answer() -> tuple[str, list[str], list[str]]:
    """README's first command, the lines of its log, and their answers."""
    [command] = commands("example_replay", option("example_replay").resolve())
    log = TOP / "crates/example_replay" / re.search(r"< (\S+)\)", command)[1]
    return command, log.read_text().splitlines(), log.with_suffix(".answers.jsonl").read_text().splitlines()


def lines_of_first_answer() -> None:
    """The lines that README shows are a line of the first command's log and its answer."""
    _, asked, answered = log_of_first_answer()
    shown = [lines for lines in blocks() if '"step":' in lines[0]]
    assert shown, "README shows no line of a log"
    for call, answer in shown:
        assert any(is_shown(call, it) and is_shown(answer, told) for it, told in zip(asked, answered)), call


def first_answer(folder: Path) -> None:
    """README's first command prints its log's answers."""
    if not option("example_replay").exists():
        raise LeftOut(f"there is no program {option('example_replay')}")
    command, _, answered = log_of_first_answer()
    assert printed(command, named(folder)).splitlines() == answered, command


def commands_by_rt(folder: Path) -> None:
    """Each command that runs the program by `rt` ends with status 0."""
    programs = named(folder)
    for command in commands("mx_federd", program()):
        printed(command, programs)


def audits(folder: Path) -> None:
    """An `audit` prints what README says that its line says."""
    programs = named(folder)
    shown = [lines[0] for lines in blocks() if "mx_federd audit " in lines[0]]
    said = re.findall(r'`("[a-z_]+":"[^`]*")`', page())
    assert shown and said, "README shows no audit"
    for command in shown:
        told = printed(command, programs)
        assert all(it in told for it in said), (told, said)


def requests(folder: Path) -> None:
    """The server that is shown, over a directory of its own, gives the reply that is shown to each curl."""
    programs, lists = named(folder), blocks()
    served = [lines[0] for lines in lists if lines[0].startswith("mx_federd serve ")]
    curls = [lines for lines in lists if lines[0].startswith("$ curl ")]
    assert served and curls, "README shows no server or no request"
    for number, command in enumerate(served):
        words = [f"{folder}/hub{number}" if it.startswith("~") else it for it in command.split()]
        server = subprocess.Popen([programs / words[0], *words[1:], "--port", "0"], cwd=TOP,
                                  stdout=subprocess.PIPE, stderr=subprocess.DEVNULL, text=True)
        try:
            port = re.fullmatch(r"listening 127\.0\.0\.1:(\d+)\n", server.stdout.readline())[1]
            for lines in curls:
                answer_each(lines, port, programs)
        finally:
            server.terminate()
            server.wait(SECONDS)


def answer_each(lines: Block, port: str, programs: Path) -> None:
    """Runs each curl of a block at this port, and compares its reply with the line behind it."""
    for command, shown in zip(lines[::2], lines[1::2]):
        told = printed(command[2:].replace("127.0.0.1:8008", "127.0.0.1:" + port), programs)
        assert told.strip("\n") == shown, (command, told)


def files_are_there() -> None:
    """Each page and file that README names is there."""
    paths = set(re.findall(r"(?<!/)\b(?:docs|examples|tests|benchmarks)/[\w./]*\w|\.ci/\w+", page()))
    missing = [it for it in sorted(paths) if not (TOP / it).exists()]
    assert not missing, missing


def figures_stand() -> None:
    """Each number of README's table of costs stands in docs/SPEED.md."""
    number = re.compile(r"\d[\d,.]*\d|\d")
    rows = [it for it in page().partition("## What that costs")[2].partition("\n## ")[0].split("\n") if it.startswith("|")]
    lacking = set(number.findall("\n".join(rows))) - set(number.findall((TOP / "docs/SPEED.md").read_text()))
    assert rows and not lacking, lacking


def headings(page: Path) -> set[str]:
    """The names by which the headings of a page are linked to."""
    text = re.sub(r"^```.*?^```$", "", page.read_text(), flags=re.DOTALL | re.MULTILINE)
    said = [it.strip().lower() for it in re.findall(r"^#+ (.*)$", text, re.MULTILINE)]
    return {re.sub(r"[^\w\- ]", "", it).replace(" ", "-") for it in said}


def broken_links(page: Path) -> list[str]:
    """The links of a page to a file or a heading that is not there. Links to other sites are not followed."""
    text = re.sub(r"^```.*?^```$|`[^`\n]*`", "", page.read_text(), flags=re.DOTALL | re.MULTILINE)
    targets = [it for it in re.findall(r"\]\(([^)\s]+)\)", text) if "://" not in it]
    broken = []
    for link in targets:
        path, _, heading = link.partition("#")
        target = (page.parent / path).resolve() if path else page
        if not target.exists() or heading and heading not in headings(target):
            broken.append(f"{page.relative_to(TOP)}: {link}")
    return broken


def links() -> None:
    """No link of a page is broken."""
    pages = [it for it in sorted(TOP.rglob("*.md")) if "out" not in it.parts]
    broken = [it for page in pages for it in broken_links(page)]
    assert not broken, broken


TESTS = [lines_of_first_answer, first_answer, commands_by_rt, audits, requests, files_are_there, figures_stand, links]

if __name__ == "__main__":
    first = "--example-replay", {"type": Path, "default": REPLAY, "help": "the program of example_replay (default: the one that is built)"}
    sys.exit(run_tests(TESTS, "README", [first]))
