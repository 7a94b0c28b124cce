"""What a crate gives out: the functions, types and methods that its `src/lib.rt` exports, with the clauses of each.

`items_of(crate)` reads the sources of a crate as tokens (.ci/contracts.py), without any compiler."""

import re
from dataclasses import dataclass, field
from pathlib import Path

from contracts import OPENING, end_of_group, end_of_head, tokens_of


WORD = re.compile(r"[A-Za-z_]\w*")


@dataclass
class Function:
    """A function, with the type or trait that it belongs to, if any."""

    name: str
    owner: str
    file: Path
    is_public: bool
    head: list[str]

    @property
    def full_name(self) -> str:
        return f"{self.owner}::{self.name}" if self.owner else self.name

    def clauses(self) -> list[tuple[str, str, list[str]]]:
        """The clauses: `requires` or `ensures`, the clause's name or nothing, and the tokens of its text."""
        found = []
        for place, word in enumerate(self.head):
            if word not in ("requires", "ensures") or place + 1 >= len(self.head):
                continue
            opening = place + 1 if self.head[place + 1] == "{" else place + 2
            if opening < len(self.head) and self.head[opening] == "{":
                name = self.head[place + 1] if opening == place + 2 else ""
                found.append((word, name, self.head[opening + 1 : end_of_group(self.head, opening) - 1]))
        return found


@dataclass
class Sources:
    """The sources of a crate: what they define, what they export, and each word that stands in them."""

    functions: list[Function] = field(default_factory=list)
    types: dict[str, Path] = field(default_factory=dict)
    models: dict[str, Path] = field(default_factory=dict)
    # What is implemented: a trait, a type, and the file.
    impls: list[tuple[str, str, Path]] = field(default_factory=list)
    exported: set[str] = field(default_factory=set)
    modules: set[str] = field(default_factory=set)
    files: list[Path] = field(default_factory=list)
    words: set[str] = field(default_factory=set)

    def public_functions(self) -> list[Function]:
        """The functions that the crate gives out, and the public methods of the types that it gives out."""
        return [it for it in self.functions if it.is_public and (it.owner or it.name) in self.exported]


def end_of_angles(tokens: list[str], at: int) -> int:
    """The place behind the `<..>` that opens at a place, where one does."""
    if at >= len(tokens) or tokens[at] != "<":
        return at
    depth = 0
    for place in range(at, len(tokens)):
        if tokens[place] == "<":
            depth += 1
        elif tokens[place] == ">" and tokens[place - 1] not in ("-", "="):
            depth -= 1
            if depth == 0:
                return place + 1
    return len(tokens)


@dataclass
class Owner:
    """A type or a trait whose methods stand in a block, and where the block ends."""

    name: str
    is_trait: bool
    end: int


class Reader:
    """Adds what one file defines to the sources of its crate."""

    def __init__(self, sources: Sources, file: Path, tokens: list[str]) -> None:
        self.sources, self.file, self.tokens = sources, file, tokens
        self.owners: list[Owner] = []

    def read(self) -> None:
        place = 0
        while place < len(self.tokens):
            self.owners = [it for it in self.owners if it.end > place]
            place = self.read_at(place)

    def read_at(self, place: int) -> int:
        """Reads what begins at a place, if anything does, and tells where to go on."""
        word, following = self.tokens[place], "".join(self.tokens[place + 1 : place + 2])
        if word == "impl" and (place == 0 or self.tokens[place - 1] in "};]"):
            return self.read_impl(place)
        if word in ("struct", "enum", "trait", "type") and WORD.fullmatch(following):
            return self.read_type(place)
        if word == "fn" and WORD.fullmatch(following):
            return self.read_function(place)
        return place + 1

    def read_impl(self, place: int) -> int:
        opening = self.tokens.index("{", place)
        name, trait = self.names_of_impl(end_of_angles(self.tokens, place + 1), opening)
        if trait == "Model":
            self.sources.models[name] = self.file
        elif trait:
            self.sources.impls.append((trait, name, self.file))
        self.owners.append(Owner(name, False, end_of_group(self.tokens, opening)))
        return opening + 1

    def names_of_impl(self, place: int, opening: int) -> tuple[str, str]:
        """The name of the type, and that of the trait or nothing."""
        name = trait = ""
        while place < opening and self.tokens[place] != "where":
            word = self.tokens[place]
            if word == "for":
                name, trait = "", name
            elif WORD.fullmatch(word):
                name = word
            place = end_of_angles(self.tokens, place) if word == "<" else place + 1
        return name, trait

    def read_type(self, place: int) -> int:
        name = self.tokens[place + 1]
        self.sources.types.setdefault(name, self.file)
        if self.tokens[place] != "trait":
            return place + 2
        opening = self.tokens.index("{", place)
        self.owners.append(Owner(name, True, end_of_group(self.tokens, opening)))
        return opening + 1

    def read_function(self, place: int) -> int:
        head, after = end_of_head(self.tokens, place)
        owner = self.owners[-1] if self.owners else Owner("", False, 0)
        is_public = owner.is_trait or "pub" in self.tokens[max(place - 2, 0) : place]
        name, signature = self.tokens[place + 1], self.tokens[place:head]
        self.sources.functions.append(Function(name, owner.name, self.file, is_public, signature))
        return max(after, place + 1)


def exports_of(tokens: list[str], sources: Sources) -> None:
    """Adds what a `lib.rt` exports: the last words of each `pub use`, and its public modules."""
    place = 0
    while place < len(tokens):
        if tokens[place : place + 2] == ["pub", "use"]:
            end = tokens.index(";", place)
            words = tokens[place + 2 : end]
            # What another crate gives out stands on that crate's page.
            if not words[0].startswith("mx_"):
                names = words[words.index("{") + 1 :] if "{" in words else words[-1:]
                sources.exported.update(it for it in names if WORD.fullmatch(it))
            place = end
        elif tokens[place : place + 2] == ["pub", "mod"]:
            sources.modules.add(tokens[place + 2])
        place += 1


def sources_of(crate: Path) -> Sources:
    """The sources of a crate, its tests among them."""
    sources = Sources()
    sources.files = sorted((crate / "src").rglob("*.rt"))
    tokens = {file: tokens_of(file.read_text()) for file in sources.files}
    for file, words in tokens.items():
        sources.words.update(it for it in words if WORD.fullmatch(it))
        Reader(sources, file, words).read()
    root = crate / "src/lib.rt"
    exports_of(tokens.get(root, []), sources)
    for module in sorted(sources.modules):
        exports_of(tokens[crate / f"src/{module}.rt"], sources)
    return sources
