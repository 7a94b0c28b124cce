#!/usr/bin/env python3
"""Looks that the crates' pages and the pages on what is proved speak of what is there: `.ci/page_claims.py`.

Of crates/NAME/README.md, for each crate of crates.txt:

- each public function is named, a method as `Type::method`;
- each name in backquotes stands in the sources of the crate, or of a crate that the page names;
- each clause in parentheses is a clause of a function that the same line names;
- each file that is cited is there;
- the number of wrong bodies is that of the files.

docs/PROVED.md links each crate's page and names each library of crates.txt among what is trusted; each name on it, on
docs/THEOREMS.md and on docs/DEFINITIONS.md stands in some crate; docs/THEOREMS.md has the theorems that
.ci/believed.py follows; and docs/DEFINITIONS.md has a row for each file of docs/definitions_by_theorem.txt.
`.ci/page_claims.py --mistakes` puts a mistake of each kind into a page, and looks that it is found."""

import re
import sys
from dataclasses import dataclass
from pathlib import Path

TOP = Path(__file__).resolve().parent.parent
sys.path.insert(0, str(TOP / ".ci"))
from believed import THEOREMS  # noqa: E402
from public_items import WORD, Function, Sources, sources_of  # noqa: E402

QUOTED = re.compile(r"`([^`\n]+)`")
PATH_NAME = re.compile(r"[\w.-]*(?:/[\w.-]+)+|[\w-]+\.(?:antt|rt|py|md)")
METHOD = re.compile(r"[A-Za-z_]\w*::[A-Za-z_]\w*")
# What stands in parentheses and tells clauses, and the name of a clause.
CLAUSES = re.compile(r"\(([^()]*`[^()]*)\)")
CLAUSE = re.compile(r"(?:requires )?[a-z_]+")
PLAIN_PATH = re.compile(r"(?<![\w/.`-])(?:docs|tests|examples|crates|specs|proofs)/[\w./-]*\w")
WRONG_BODIES = re.compile(r"^(\d+) in `wrong-bodies`(?: and (\d+) in `must-fail`)?", re.MULTILINE)
# Words of this page, of other languages or of other libraries, which no source of a crate has.
OTHER_WORDS = {
    "wrong-bodies", "must-fail", "clap", "serde_json", "log", "audit", "replay", "serve", "check", "migrate", "pdus",
    "signatures",
    "membership", "limit", "ver", "args", "stdin", "stdout",
}  # fmt: skip
# What a type promises, or a trait of the standard library; and the word that a function asks for something.
OTHER_CLAUSES = {"requires", "invariant", "from_gives", "is_clone", "output"}


@dataclass
class Crate:
    """A crate, with its sources, and the words of its definitions."""

    name: str
    sources: Sources
    defined: set[str]

    @property
    def folder(self) -> Path:
        return TOP / "crates" / self.name

    def functions(self, name: str) -> list[Function]:
        """The functions that a page may mean by a name."""
        return [it for it in self.sources.functions if name in (it.full_name, it.name)]

    def has(self, name: str) -> bool:
        if METHOD.fullmatch(name):
            return bool(self.functions(name)) or all(it in self.sources.words for it in name.split("::"))
        return name in self.sources.words or name in self.defined


def read_crates() -> dict[str, Crate]:
    names = [line.split(":")[0] for line in (TOP / "crates.txt").read_text().splitlines() if line.strip()]
    crates = {}
    for name in names:
        specs = (TOP / "crates" / name).rglob("specs/*.antt")
        words = {word for file in specs for word in re.findall(r"[A-Za-z_]\w*", file.read_text())}
        crates[name] = Crate(name, sources_of(TOP / "crates" / name), words)
    return crates


def page_of(name: str) -> Path:
    return TOP / "crates" / name / "README.md"


def unnamed_functions(crate: Crate, text: str) -> list[str]:
    named = set(QUOTED.findall(text))
    lacking = sorted({it.full_name for it in crate.sources.public_functions()} - named)
    return [f"{it} is public, and not named" for it in lacking]


def crates_on(crate: Crate, text: str, crates: dict[str, Crate]) -> list[Crate]:
    """The crate of a page, and those that the page names."""
    return [crate] + [crates[it] for it in sorted(set(re.findall(r"\bmx_\w+", text))) if it in crates and it != crate.name]


def is_name(quoted: str) -> bool:
    return bool(WORD.fullmatch(quoted) or METHOD.fullmatch(quoted))


def unknown_names(text: str, among: list[Crate]) -> list[str]:
    names = {it for it in QUOTED.findall(text) if is_name(it)} - OTHER_WORDS
    crates = {it.name for it in among}
    return [f"`{it}` stands in no source" for it in sorted(names - crates) if not any(crate.has(it) for crate in among)]


def functions_on(line: str, among: list[Crate]) -> list[Function]:
    """The functions that a line names in backquotes."""
    return [it for name in QUOTED.findall(line) if is_name(name) for crate in among for it in crate.functions(name)]


def strange_clauses(text: str, among: list[Crate]) -> list[str]:
    """The clauses in parentheses that are of no function of their line, nor other names of the sources."""
    found = []
    for line in text.splitlines():
        functions = functions_on(line, among)
        own = {clause for it in functions for _, clause, _ in it.clauses()}
        for group in CLAUSES.findall(line):
            for name in QUOTED.findall(group):
                is_clause = CLAUSE.fullmatch(name) and not any(crate.functions(name) for crate in among)
                if functions and is_clause and name.removeprefix("requires ") not in own | OTHER_CLAUSES:
                    found.append(f"`{name}` is no clause of {', '.join(it.full_name for it in functions)}")
    return found


def lacking_files(text: str, folder: Path) -> list[str]:
    paths = {word for it in QUOTED.findall(text) for word in it.split() if PATH_NAME.fullmatch(word)}
    paths |= set(PLAIN_PATH.findall(text))
    paths |= {it for it in re.findall(r"\]\(([^)#]+)\)", text) if "://" not in it}
    return [f"there is no file {it}" for it in sorted(paths) if not (folder / it).exists() and not (TOP / it).exists()]


def miscounted_bodies(crate: Crate, text: str) -> list[str]:
    counts = tuple(len(list((crate.folder / it).glob("*.edit"))) for it in ("wrong-bodies", "must-fail"))
    told = WRONG_BODIES.search(text)
    said = (int(told[1]), int(told[2] or 0)) if told else (0, 0)
    if said == counts:
        return []
    return [f"says {said[0]} and {said[1]} wrong bodies, and there are {counts[0]} and {counts[1]}"]


def faults_of_page(crate: Crate, text: str, crates: dict[str, Crate]) -> list[str]:
    among = crates_on(crate, text, crates)
    return (
        unnamed_functions(crate, text)
        + unknown_names(text, among)
        + strange_clauses(text, among)
        + lacking_files(text, crate.folder)
        + miscounted_bodies(crate, text)
    )


def faults_of_doc(path: Path, crates: dict[str, Crate]) -> list[str]:
    text = path.read_text()
    everywhere = list(crates.values())
    return unknown_names(text, everywhere) + strange_clauses(text, everywhere) + lacking_files(text, path.parent)


def unlinked_crates(text: str, crates: dict[str, Crate]) -> list[str]:
    return [f"does not link the page of {it}" for it in crates if f"(../crates/{it}/README.md)" not in text]


def untold_libraries(text: str, crates: dict[str, Crate]) -> list[str]:
    """The libraries of crates.txt that a page does not name among what is trusted."""
    lines = [line.split(":") for line in (TOP / "crates.txt").read_text().splitlines() if ":" in line]
    used = {word for _, words in lines for word in words.split()} - set(crates)
    trusted = set(re.findall(r"\w+", text.partition("## What is trusted")[2].partition("\n## ")[0]))
    return [f"does not name {it} among what is trusted" for it in sorted(used - trusted)]


def specs_in_table(text: str) -> set[str]:
    """The files of definitions that the rows of a table name, as `mx_canon/specs: Canonical, KeyOrder`."""
    rows = re.findall(r"\b(mx_\w+)/specs: ([\w, ]+)", text)
    return {f"crates/{crate}/specs/{name.strip()}.antt" for crate, names in rows for name in names.split(",")}


def misplaced_specs(text: str) -> list[str]:
    """The files that are on the list of definitions and not in the table, and those in the table that are not there."""
    told = specs_in_table(text)
    listed = set(re.findall(r"crates/mx_\w+/specs/\w+\.antt", (TOP / "docs/definitions_by_theorem.txt").read_text()))
    strange = [f"there is no file {it}" for it in sorted(told) if not (TOP / it).exists()]
    return [f"has no row with {it}" for it in sorted(listed - told)] + strange


def other_theorems(text: str) -> list[str]:
    """The theorems of a page's short list that .ci/believed.py does not follow, and those that it has beside them."""
    short = text.partition("## In short")[2].partition("\n## ")[0]
    told = {it.lower() for it in re.findall(r"^- \*\*(.+?)\.\*\*", short, re.MULTILINE)} - {"everywhere"}
    return [f"{it} is not on both lists of theorems" for it in sorted(told ^ set(THEOREMS))]


def all_faults(crates: dict[str, Crate]) -> list[str]:
    faults = []
    for name, crate in crates.items():
        page = page_of(name)
        if page.exists():
            faults += [f"crates/{name}/README.md: {it}" for it in faults_of_page(crate, page.read_text(), crates)]
        else:
            faults.append(f"crates/{name}/README.md is missing")
    for name in ("PROVED", "THEOREMS", "DEFINITIONS"):
        faults += [f"docs/{name}.md: {it}" for it in faults_of_doc(TOP / f"docs/{name}.md", crates)]
    faults += [f"docs/DEFINITIONS.md: {it}" for it in misplaced_specs((TOP / "docs/DEFINITIONS.md").read_text())]
    faults += [f"docs/THEOREMS.md: {it}" for it in other_theorems((TOP / "docs/THEOREMS.md").read_text())]
    proved = (TOP / "docs/PROVED.md").read_text()
    return faults + [f"docs/PROVED.md {it}" for it in unlinked_crates(proved, crates) + untold_libraries(proved, crates)]


# Mistakes in the page of mx_dock: what is put in place of what, and what has to be found.
MISTAKES = [
    ("`Dock::meet`", "Meeting", "Dock::meet is public, and not named"),
    ("`Journaled`", "`Journalled`", "`Journalled` stands in no source"),
    ("`specs/Dock.antt`", "`specs/Docks.antt`", "there is no file specs/Docks.antt"),
    ("`src/tests.rt`", "`src/tested.rt`", "there is no file src/tested.rt"),
    ("(`later`, `seen`, `begins`)", "(`later`, `seen`, `apart`)", "`apart` is no clause of"),
    (" in `wrong-bodies`:", "0 in `wrong-bodies`:", "says "),
]


def missed_mistakes(crates: dict[str, Crate]) -> list[str]:
    """The mistakes that no check finds."""
    text = page_of("mx_dock").read_text()
    missed = []
    for old, new, wanted in MISTAKES:
        if old not in text:
            missed.append(f"{old} does not stand on the page of mx_dock")
        elif not any(it.startswith(wanted) for it in faults_of_page(crates["mx_dock"], text.replace(old, new), crates)):
            missed.append(f"{new} in place of {old} is not found")
    proved = (TOP / "docs/PROVED.md").read_text()
    if not unlinked_crates(proved.replace("(../crates/mx_dock/README.md)", "(../crates/mx_dock)"), crates):
        missed.append("a page that docs/PROVED.md does not link is not found")
    if not untold_libraries(proved.replace("matchit", "a router"), crates):
        missed.append("a library that docs/PROVED.md does not name is not found")
    definitions = (TOP / "docs/DEFINITIONS.md").read_text()
    if len(misplaced_specs(definitions.replace("KeyOrder", "KeysOrder"))) != 2:
        missed.append("a file that docs/DEFINITIONS.md does not name, or that is not there, is not found")
    theorems = (TOP / "docs/THEOREMS.md").read_text()
    if len(other_theorems(theorems.replace("**Exports.**", "**Logs.**"))) != 2:
        missed.append("a theorem that stands on one list alone is not found")
    return missed


def main() -> int:
    crates = read_crates()
    if sys.argv[1:] == ["--mistakes"]:
        faults, told = missed_mistakes(crates), f"{len(MISTAKES)} mistakes in a page and those in lists, not found"
    else:
        faults, told = all_faults(crates), f"{len(crates)} crates, faults"
    for fault in faults:
        print(fault)
    print(f"page_claims: {told}: {len(faults)}")
    return 1 if faults else 0


if __name__ == "__main__":
    sys.exit(main())
