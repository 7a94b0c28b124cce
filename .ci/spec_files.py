"""Definitions in a crate's `specs/*.antt`: which words a file defines, on which lines, and which words each names.

A definition is an `abbrev`, an `unfoldable`, a `record` or a `data`; the constructors of a `data` stand for it. A word that
is `pub` alone is a law, which is proved and need not be believed."""

import re
from dataclasses import dataclass, field
from pathlib import Path

NAME = r"[A-Za-z_][\w']*(?:-[\w']+)*"
# A word with what is read of it, as `journal.seen`; and what is imported from where.
DOTTED = re.compile(rf"(?<![\w.◌]){NAME}(?:\.{NAME})*")
USE = re.compile(r"^\s*(?:ghost |pub |unfoldable )*use ([\w.]+?)(?:\.\{([^}]*)\}| as (\w+));?\s*$", re.MULTILINE)
DECLARATION = re.compile(rf"^(\s*)((?:abbrev |unfoldable |opaque |pub |record |data )+)({NAME})(?=[\s:(]|$)")
CONSTRUCTOR = re.compile(rf"^\s+(?:pub )?({NAME}(?: {NAME})*) :")
TEXT = re.compile(r'"(?:\\.|[^"\\])*"')
KEYWORDS = {"abbrev", "pub", "unfoldable", "record", "data", "where", "if", "then", "else", "let", "in", "Type"}
# Names that a definition binds: of a function without a name, and in parentheses before a colon.
BOUND = (re.compile(r"λ ([\w' ]+)\."), re.compile(r"[({]([\w' ]+) :"))


@dataclass
class Scope:
    """What a file imports: words with the module and the word that each stands for, and modules by their other names."""

    words: dict[str, tuple[str, str]] = field(default_factory=dict)
    modules: dict[str, str] = field(default_factory=dict)

    def add(self, text: str) -> None:
        for module, names, alias in USE.findall(text):
            if alias:
                self.modules[alias] = module
            for name in filter(None, (it.strip() for it in names.split(","))):
                word, _, other = name.partition(" as ")
                self.words.setdefault(other or word, (module, word))

    def meant(self, dotted: str) -> tuple[str, str] | None:
        """The module and the word that a word of the file stands for, where it is imported."""
        first, _, rest = dotted.partition(".")
        if first in self.modules and rest:
            return self.modules[first], rest.split(".")[0]
        return self.words.get(first)


@dataclass
class Definition:
    """A definition, with the words that stand in it, each with what is read of it."""

    name: str
    lines: int = 0
    named: list[str] = field(default_factory=list)
    bound: set[str] = field(default_factory=set)
    # What stands before the `=` of an equation: a constructor, or a name that the equation binds.
    matched: set[str] = field(default_factory=set)

    def add(self, line: str) -> None:
        self.lines += 1
        line = TEXT.sub("", line)
        self.named += DOTTED.findall(line)
        for pattern in BOUND:
            self.bound.update(name for names in pattern.findall(line) for name in names.split())
        left, equals, _ = line.partition(" = ")
        if equals and left.split()[:1] == [self.name]:
            self.matched.update(DOTTED.findall(left.strip().removeprefix(self.name)))

    def words(self, constructors: set[str]) -> list[str]:
        """The words of other definitions that it names."""
        bound = KEYWORDS | self.bound | {self.name} | (self.matched - constructors)
        return [it for it in dict.fromkeys(self.named) if it.split(".")[0] not in bound]


@dataclass
class SpecFile:
    """A file of definitions."""

    path: Path
    scope: Scope = field(default_factory=Scope)
    definitions: dict[str, Definition] = field(default_factory=dict)
    # Constructors of a `data`, by their names.
    constructors: dict[str, str] = field(default_factory=dict)

    def defined(self, word: str) -> Definition | None:
        return self.definitions.get(self.constructors.get(word, word))


def is_empty(line: str) -> bool:
    bare = line.strip()
    return bare in ("", "abbrev mutual") or bare.startswith(("--", "module _", "unfolding ")) or bool(USE.match(line))


def read_spec(path: Path) -> SpecFile:
    file = SpecFile(path)
    text = path.read_text()
    file.scope.add(text)
    current: Definition | None = None
    indent, kinds = 0, ""
    for line in filter(lambda it: not is_empty(it), text.splitlines()):
        found = DECLARATION.match(line)
        inside = bool(re.search("record|data", kinds)) and len(line) - len(line.lstrip()) > indent
        if found and not inside and found[1] + found[2] == "pub ":
            # A law, with its proof.
            current, kinds = None, ""
        elif found and not inside:
            current = file.definitions.setdefault(found[3], Definition(found[3]))
            indent, kinds = len(found[1]), found[2]
        if current:
            current.add(line)
            part = CONSTRUCTOR.match(line) if inside else None
            if part and "data" in kinds:
                file.constructors |= dict.fromkeys(part[1].split(), current.name)
            elif part:
                current.bound.update(part[1].split())
    return file
