"""What a crate promises, as a text: its definitions, and its sources without the bodies of functions, imports, tests and
comments.

`sum_of_contracts(crate)` is that text's SHA-256. It stays while bodies and proofs change, and changes with any clause,
invariant, model, type or definition."""

import hashlib
import re
from pathlib import Path

# A comment, a text, a character, or a name after an apostrophe (a lifetime): what braces may stand in without being one.
TOKEN = re.compile(
    r"""(?P<comment>//[^\n]*|/\*.*?\*/)|(?P<text>b?r(?P<marks>\#*)".*?"(?P=marks)|b?"(?:\\.|[^"\\])*")"""
    r"""|(?P<character>b?'(?:\\(?:u\{[0-9a-fA-F]+\}|x..|.)|[^'\\])')|(?P<word>'?[A-Za-z_]\w*)|(?P<space>\s+)|(?P<mark>.)""",
    re.DOTALL,
)
OPENING, CLOSING = "([{", ")]}"


def tokens_of(source: str) -> list[str]:
    """The tokens of a source, without comments, white space, and commas in front of a closing bracket: these are layout."""
    found = [it[0] for it in TOKEN.finditer(source) if not it["comment"] and not it["space"]]
    return [it for it, after in zip(found, [*found[1:], ""]) if it != "," or after not in CLOSING or not after]


def end_of_group(tokens: list[str], at: int) -> int:
    """The place behind the group that opens at a place."""
    depth = 0
    for place in range(at, len(tokens)):
        depth += (tokens[place] in OPENING) - (tokens[place] in CLOSING)
        if depth == 0:
            return place + 1
    return len(tokens)


def is_clause(tokens: list[str], at: int) -> bool:
    """Whether the brace at a place opens a clause: `requires {`, or with a name, `ensures ok {`."""
    return any(word in ("requires", "ensures") for word in tokens[max(at - 2, 0) : at])


def end_of_head(tokens: list[str], at: int) -> tuple[int, int]:
    """Of a function that begins at a place: where its signature and clauses end, and where its body does."""
    place = at
    while place < len(tokens) and tokens[place] != ";":
        if tokens[place] == "{" and not is_clause(tokens, place):
            return place, end_of_group(tokens, place)
        place = end_of_group(tokens, place) if tokens[place] in OPENING else place + 1
    return place, place


def promises(tokens: list[str], start: int, head: int) -> bool:
    """Whether a function is public, or has a clause."""
    return "pub" in tokens[max(start - 4, 0) : start] or any(it in ("requires", "ensures") for it in tokens[start:head])


def without_bodies(tokens: list[str]) -> list[str]:
    """The tokens but for the bodies of functions, private functions without a clause, and what is imported."""
    kept: list[str] = []
    place = 0
    while place < len(tokens):
        if tokens[place] == "fn" and place + 1 < len(tokens) and tokens[place + 1] not in OPENING:
            head, after = end_of_head(tokens, place)
            if promises(tokens, place, head):
                kept += tokens[place:head]
            place = after
        elif tokens[place] == "use" and tokens[place - 1] not in ("ghost", "pub"):
            place = tokens.index(";", place) + 1
        else:
            kept.append(tokens[place])
            place += 1
    return kept


def is_test(path: Path) -> bool:
    return path.stem == "tests" or path.stem.endswith("_tests")


def contracts_of(crate: Path) -> str:
    """What a crate promises, file by file."""
    sources = sorted(path for path in (crate / "src").rglob("*.rt") if not is_test(path))
    parts = [f"{path.relative_to(crate)}\n{' '.join(without_bodies(tokens_of(path.read_text())))}\n" for path in sources]
    definitions = sorted((crate / "specs").rglob("*.antt"))
    for path in definitions:
        lines = (line.rstrip() for line in path.read_text().split("\n") if not line.lstrip().startswith("-- "))
        parts.append(f"{path.relative_to(crate)}\n" + "\n".join(line for line in lines if line) + "\n")
    return "".join(parts)


def sum_of(text: str) -> str:
    return hashlib.sha256(text.encode()).hexdigest()[:32]


def sum_of_contracts(crate: Path) -> str:
    return sum_of(contracts_of(crate))


def sum_of_edits(crate: Path) -> str:
    """The sum of the wrong bodies that stand beside a crate."""
    edits = sorted((crate / "wrong-bodies").glob("*.edit"))
    return sum_of("".join(f"{path.name}\n{path.read_text()}\n" for path in edits))
