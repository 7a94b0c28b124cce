#!/usr/bin/env python3
"""Writes the page's frame, page/frame.html, into the sources of this crate: the texts before and behind the place of the
data, as src/frame.rt and src/frame/*.rt. `--check` writes nothing, and fails where a source is not what it would write."""
import sys
from pathlib import Path

CRATE = Path(__file__).resolve().parent.parent
MARK = '<script type="application/json" id="room-data">'
CLOSING = "</script>"
# How many lines of the frame a source has.
LINES = 400
# What a source may have at most, and how many there may be.
MOST_FILES = 18


def halves() -> tuple[str, str]:
    """The frame up to the place of the data, and from there on."""
    text = (CRATE / "page/frame.html").read_text(encoding="ascii")
    if text.count(MARK) != 1 or not text.partition(MARK)[2].startswith(CLOSING):
        sys.exit(f"page/frame.html has not once {MARK}{CLOSING}")
    if '"##' in text or "\r" in text:
        sys.exit('page/frame.html has a text that ends a literal of the sources: "##, or a carriage return')
    head, _, end = text.partition(MARK)
    return head + MARK, end


def pieces(text: str) -> list[str]:
    """A text in pieces of so many lines."""
    lines = text.splitlines(keepends=True)
    return ["".join(lines[at : at + LINES]) for at in range(0, len(lines), LINES)]


def piece_source(piece: str) -> str:
    """The source of a piece."""
    return (
        "// A part of the page's frame, written by page/write_frame.py.\n"
        "\n"
        "pub(crate) fn text() -> &'static str {\n"
        f'    r##"{piece}"##\n'
        "}\n"
    )


def frame_source(heads: list[str], ends: list[str]) -> str:
    """The source that names the pieces."""

    def lists(name: str, what: str, names: list[str]) -> str:
        # As rt fmt lays it out: in one line where that has at most 100 columns.
        items = "[" + ", ".join(f"{it}::text()" for it in names) + "]"
        if len(items) > 96:
            items = "[\n" + "".join(f"        {it}::text(),\n" for it in names) + "    ]"
        return (
            f"\n/// {what}, in pieces that follow one another. Which text it is page/write_frame.py sees to.\n"
            f"pub fn {name}() -> [&'static str; {len(names)}] {{\n    {items}\n}}\n"
        )

    return (
        "// The page's frame, written by page/write_frame.py.\n"
        + "".join(f"mod {it};\n" for it in sorted(heads + ends))
        + lists("page_head", "The page's frame up to the place of the data", heads)
        + lists("page_end", "The page's frame behind the data", ends)
    )


def sources() -> dict[Path, str]:
    """What each source is to be."""
    head, end = (pieces(it) for it in halves())
    heads = [f"head_{at:02}" for at in range(1, len(head) + 1)]
    ends = [f"end_{at:02}" for at in range(1, len(end) + 1)]
    if len(head) + len(end) > MOST_FILES:
        sys.exit(f"page/frame.html makes more than {MOST_FILES} sources")
    folder = CRATE / "src/frame"
    named = zip(heads + ends, head + end)
    return {CRATE / "src/frame.rt": frame_source(heads, ends)} | {folder / f"{name}.rt": piece_source(it) for name, it in named}


def main() -> int:
    """Writes the sources, or compares them."""
    wanted = sources()
    there = {CRATE / "src/frame.rt", *(CRATE / "src/frame").glob("*.rt")}
    if sys.argv[1:] == ["--check"]:
        differ = sorted(it.name for it in there | set(wanted) if not it.is_file() or it.read_text() != wanted.get(it))
        for name in differ:
            print(f"{name} is not what page/write_frame.py writes")
        return 1 if differ else 0
    for path in there - set(wanted):
        path.unlink(missing_ok=True)
    (CRATE / "src/frame").mkdir(exist_ok=True)
    for path, text in wanted.items():
        path.write_text(text)
    return 0


if __name__ == "__main__":
    sys.exit(main())
