#!/usr/bin/env python3
"""What has to be believed of each theorem, worked out: `.ci/believed.py`.

A theorem is carried by the clauses of some public functions (THEOREMS). Each word that these name is followed to its
definition in a crate's specs, and each word that stands there, and so on: through imports, to types of the program, and
of a type with a model to the value that it is seen as. Words of the standard library and of the kit are not followed,
nor are those that a parameter of a function gives, as `V.judges` of a verifier.

`.ci/believed.py` prints the list by theorem, which docs/definitions_by_theorem.txt keeps, and `--check` compares the two."""

import re
import sys
import textwrap
from collections.abc import Iterable
from dataclasses import dataclass, field
from functools import cache
from pathlib import Path

TOP = Path(__file__).resolve().parent.parent
sys.path.insert(0, str(TOP / ".ci"))
from public_items import Function, Sources, sources_of  # noqa: E402
from spec_files import Scope, SpecFile, read_spec  # noqa: E402

LIST = TOP / "docs/definitions_by_theorem.txt"
# Theorems, each with the crates whose functions carry it; behind a function stand its clauses, where not all of them do.
# `Keeper@SqliteKeeper` is what a trait's words are to a type.
THEOREMS: dict[str, dict[str, str]] = {
    "isolation": {
        "mx_world": "run(replies,after,records,alone,err,stopped) World::step(next,err,own) agreeing_runs_answer_alike "
        "agreeing_orders_answer_alike last_answers_are_told",
    },
    "judging": {
        "mx_room": "Room::host Room::receive",
        "mx_receipt": "Timeline::begin Timeline::offer Timeline::state_before Timeline::state_after Timeline::current "
        "Timeline::extremities",
        "mx_state_res": "resolve",
        "mx_auth": "judge judge_auth_events needed_keys",
    },
    "events": {
        "mx_commands": "check_event lines_of",
        "mx_pdu": "Pdu::from_value Pdu::redacted Pdu::hash_holds",
        "mx_redact": "redact content_hash reference_hash signing_bytes event_id",
        "mx_canon": "check text read",
    },
    "access": {
        "mx_access": "acl_allows in_room visible is_redacted served Viewer::shown",
        "mx_room": "Room::ask Room::join",
    },
    "transactions": {
        "mx_book": "Book::open Book::keep Book::give_up Book::place",
        "mx_world": "outcome_of processing_result reply_body last_answers_are_told",
    },
    "keeping": {
        "mx_keeper": "SqliteKeeper::adopt SqliteKeeper::leaves_its_table Place::of Keeper@SqliteKeeper TableRow@ShardRow "
        "TableRow@BookRow",
        "mx_shard": "Shard::host(durable,crash) Shard::offer(durable,crash) Shard::join(durable,crash)",
        "mx_book": "Book::keep(durable,crash)",
    },
    "stop and reopen": {
        "mx_world": "run(durable,crash,storage,refused) World::reopen stops_leave_the_journals "
        "known_events_keep_their_verdicts",
        "mx_shard": "Shard::reopen",
        "mx_book": "Book::reopen",
        "mx_keeper": "SqliteKeeper::adopt Keeper@SqliteKeeper TableRow@ShardRow TableRow@BookRow",
        "mx_engine": "shards_outlast_a_crash books_outlast_a_crash told_as_kept_is_seen reopened_servers_have_what_was_told",
    },
    "requests": {
        "mx_requests": "read_request query_reply join_reply fault_reply memory_reply storage_reply",
        "mx_wire": "respond",
    },
    "threads": {
        "mx_engine": "Engine::open Engine::host Engine::join Engine::ask Engine::transaction Engine::meet Engine::close",
    },
    "bytes in, bytes out": {"mx_log": "run_lines"},
    "exports": {
        "mx_export": "log_of_room each_event_has_one_place cited_events_come_first left_out_events_cite_in_circles "
        "events_in_order_stay",
    },
    "audit": {
        "mx_audit": "RoomAudit::begin RoomAudit::receive RoomAudit::of_timeline RoomAudit::explanation resolution_steps resolution_before "
        "deciding_check_makes_the_verdict steps_make_the_state event_line state_lines lines_of_resolution picture_lines "
        "picture_head picture_end",
        "mx_page": "page_entry changes data_start refused_start refused_entry data_end changes_make_the_state data_has_no_tag"
        " entries_make_the_data",
        "mx_reasons": "reason because",
        "mx_lines": "refused_line malformed_line",
    },
}  # fmt: skip
ROOT = re.compile(r"([\w:@]+)(?:\(([\w,]+)\))?")
# A name, with what is read of it, among tokens with spaces between them.
SPACED = re.compile(r"(?<![\w.])([A-Za-z_]\w*)((?: \. [A-Za-z_]\w*)*)")
IMPORT = re.compile(r"^(?:pub )?use (\w+)(?:::\w+)*::(?:\{([^}]*)\}|(\w+));", re.MULTILINE)
MEMBER = re.compile(r"ghost Value = \{(.*?)\};", re.DOTALL)


@dataclass(frozen=True)
class Item:
    """What has to be believed: a definition of a file, a type of the program, or the value that a type is seen as."""

    file: str
    name: str
    lines: int


@dataclass
class Believed:
    """What was found so far."""

    items: dict[tuple[str, str], Item] = field(default_factory=dict)

    def has(self, file: Path, name: str) -> bool:
        return (str(file.relative_to(TOP)), name) in self.items

    def add(self, file: Path, name: str, lines: int) -> None:
        place = str(file.relative_to(TOP))
        self.items[(place, name)] = Item(place, name, lines)


@cache
def sources(crate: str) -> Sources:
    return sources_of(TOP / "crates" / crate)


@cache
def spec(path: Path) -> SpecFile | None:
    return read_spec(path) if path.exists() else None


@cache
def imports_of(file: Path) -> dict[str, str]:
    """The names that a source imports from other crates of the repository, with their crates."""
    found = {}
    for crate, several, one in IMPORT.findall(file.read_text()):
        for name in [one] if one else several.split(","):
            if crate.startswith("mx_"):
                found[name.strip().split(" as ")[-1]] = crate
    return found


@cache
def scope_of(file: Path) -> Scope:
    scope = Scope()
    scope.add(file.read_text())
    return scope


def code_lines(text: str) -> int:
    return sum(1 for line in text.splitlines() if line.strip() and not line.strip().startswith("//"))


def text_of_type(file: Path, name: str) -> str:
    """The text of a type of the program."""
    text = file.read_text()
    found = re.search(rf"^pub(?:\([^)]*\))? (?:enum|struct) {name}\b", text, re.MULTILINE)
    if not found:
        return ""
    end = re.compile(r"^}|;$", re.MULTILINE).search(text, found.start())
    return text[found.start() : end.end()] if end else ""


def place_of_type(name: str, crate: str, file: Path) -> tuple[str, Path] | None:
    """The crate and the file of a type that is named in a file of a crate; none where no crate here has it."""
    crate = imports_of(file).get(name, crate)
    where = sources(crate).types.get(name)
    root = TOP / f"crates/{crate}/src/lib.rt"
    if where or root == file:
        return (crate, where) if where else None
    return place_of_type(name, crate, root) if name in imports_of(root) else None


def follow_type(name: str, crate: str, file: Path, believed: Believed) -> None:
    """A type of the program, named in a file of a crate: the value that it is seen as, or its parts."""
    found = place_of_type(name, crate, file)
    if found is None or believed.has(found[1], name):
        return
    crate, where = found
    model = sources(crate).models.get(name)
    if model:
        text = next(iter(MEMBER.findall(text_of_impl(model, "Model", name))), "")
    else:
        text = re.sub(r"//.*", "", text_of_type(where, name))
    if text or model:
        believed.add(where, name, max(code_lines(text), 1))
        follow_words(SPACED.findall(text), where, crate, believed)


def text_of_impl(file: Path, trait: str, name: str) -> str:
    """The text of a trait's implementation, or nothing where a macro writes it."""
    head = rf"^impl\b[^;{{]*\b{trait}\b[^;{{]* for [^;{{]*\b{name}\b"
    found = re.search(head + r".*?^}", file.read_text(), re.MULTILINE | re.DOTALL)
    return found[0] if found else ""


def follow_import(module: str, word: str, believed: Believed) -> bool:
    """A word of a module of definitions, or a type that is declared for them."""
    parts = module.split(".")
    if parts[0] != "Rattle" or not parts[1].startswith("mx_"):
        return True
    crate, rest = parts[1], parts[2:]
    if rest[:2] == ["specs", "declared"]:
        name = rest[-2] if rest[-1] == "TheVariants" else rest[-1]
        follow_type(name, crate, TOP / f"crates/{crate}/src/lib.rt", believed)
        return True
    return follow_spec(TOP / f"crates/{crate}" / ("/".join(rest) + ".antt"), word, believed)


def follow_spec(path: Path, word: str, believed: Believed) -> bool:
    """A word of a file of definitions, where that defines it; and all that it names."""
    file = spec(path)
    found = file.defined(word) if file else None
    if file is None or found is None:
        given_on = file.scope.words.get(word) if file else None
        return given_on is not None and follow_import(*given_on, believed)
    if not believed.has(path, found.name):
        believed.add(path, found.name, found.lines)
        constructors = {it for it in found.matched if is_constructor(file, it)}
        for name in found.words(constructors):
            meant = file.scope.meant(name)
            if file.defined(name.split(".")[0]):
                follow_spec(path, name.split(".")[0], believed)
            elif meant:
                follow_import(*meant, believed)
    return True


def is_constructor(file: SpecFile, name: str) -> bool:
    """Whether a word that an equation matches is a constructor, of this file or an imported one."""
    if name in file.constructors or "." in name:
        return True
    module, word = file.scope.words.get(name, ("", ""))
    if ".declared." in module:
        return True
    parts = module.split(".")
    other = spec(TOP / f"crates/{parts[1]}" / ("/".join(parts[2:]) + ".antt")) if len(parts) > 2 else None
    return other is not None and word in other.constructors


def follow_words(found: list[tuple[str, str]], file: Path, crate: str, believed: Believed) -> None:
    """Words of a source: definitions that it imports, and types."""
    for first, behind in found:
        meant = scope_of(file).meant(first + behind.replace(" ", ""))
        if meant:
            follow_import(*meant, believed)
        elif first[0].isupper():
            follow_type(first, crate, file, believed)


def follow_clause(function: Function, text: str, crate: str, believed: Believed) -> None:
    bound = {name for names in re.findall(r"λ ([\w ]+?) \.", text) for name in names.split()}
    bound |= {name for names in re.findall(r"[({] ([\w ]+) :", text) for name in names.split()}
    bare = re.sub(r"λ [\w ]+? \.", " ", text)
    words = [it for it in SPACED.findall(bare) if it[0] not in bound]
    follow_words(words, function.file, crate, believed)


def carried_by(crate: str, name: str) -> Function:
    found = [it for it in sources(crate).public_functions() if it.full_name == name]
    if not found:
        raise SystemExit(f"{crate} has no public function {name}")
    return found[0]


def follow_trait(crate: str, trait: str, name: str, believed: Believed) -> None:
    """What the words of a trait are to a type."""
    file = next(file for *of, file in sources(crate).impls if of == [trait, name])
    text = text_of_impl(file, trait, name)
    members = re.findall(r"ghost \w+ = \{.*?\};$", text, re.MULTILINE | re.DOTALL)
    if members:
        believed.add(file, f"{trait} of {name}", sum(code_lines(it) for it in members))
    for member in members:
        follow_words(SPACED.findall(re.sub(r"λ [\w ]+\.", " ", member)), file, crate, believed)


def believed_by(carriers: dict[str, str]) -> Believed:
    believed = Believed()
    for crate, names in carriers.items():
        for name, only in (ROOT.fullmatch(it).groups() for it in names.split()):
            if "@" in name:
                follow_trait(crate, *name.split("@"), believed)
                continue
            follow_function(crate, carried_by(crate, name), only, believed)
    return believed


def follow_function(crate: str, function: Function, only: str | None, believed: Believed) -> None:
    """The clauses of a function, all or some, and the types of its signature."""
    clauses = [it for it in function.clauses() if not only or it[1] in only.split(",")]
    if only and {it[1] for it in clauses} != set(only.split(",")):
        raise SystemExit(f"{function.full_name} of {crate} has not the clauses {only}")
    for _, _, tokens in clauses:
        follow_clause(function, " ".join(tokens), crate, believed)
    end = next((n for n, it in enumerate(function.head) if it in ("requires", "ensures")), len(function.head))
    follow_words(SPACED.findall(" ".join(function.head[:end])), function.file, crate, believed)
    if function.owner:
        follow_type(function.owner, crate, function.file, believed)


def believed_by_all() -> Believed:
    """What the clauses of all public functions of all crates name, and what the crates' traits are to their types."""
    believed = Believed()
    crates = sorted(it.name for it in (TOP / "crates").iterdir())
    traits = {name for crate in crates for name in sources(crate).types}
    for crate in crates:
        for trait, name, _ in sources(crate).impls:
            if trait in traits and not crate.endswith("_tests"):
                follow_trait(crate, trait, name, believed)
        for function in sources(crate).public_functions():
            if function.clauses():
                follow_function(crate, function, None, believed)
    return believed


def wrapped(head: str, words: list[str]) -> str:
    text = head + ", ".join(words)
    return textwrap.fill(text, 118, subsequent_indent="    ", break_long_words=False, break_on_hyphens=False)


def told_of(what: str, items: Iterable[Item]) -> str:
    found = list(items)
    lines, files = sum(it.lines for it in found), {it.file for it in found}
    return f"{what}: {len(found)} definitions, {lines} lines in {len(files)} files"


def part_of(theorem: str, items: list[Item], by: str) -> list[str]:
    files: dict[str, list[Item]] = {}
    for item in items:
        files.setdefault(item.file, []).append(item)
    told = [told_of(theorem, items), by]
    for file, found in sorted(files.items()):
        told.append(wrapped(f"  {file}, {sum(it.lines for it in found)}: ", sorted(it.name for it in found)))
    return told


def listed() -> str:
    parts, everything = [], {}
    for theorem, carriers in THEOREMS.items():
        believed = believed_by(carriers)
        everything |= believed.items
        by = "; ".join(f"{crate}: {' '.join(names.split())}" for crate, names in carriers.items())
        parts += ["", *part_of(theorem, list(believed.items.values()), wrapped("  by ", [by]))]
    public = believed_by_all().items | everything
    head = [
        "What has to be believed of each theorem, as .ci/believed.py works it out. Behind each file stands how many of its",
        "lines these definitions take, without comments; a file in src has types, or the values that they are seen as.",
        "",
        told_of("all theorems together", everything.values()),
        told_of("all public functions of all crates", public.values()),
    ]
    return "\n".join(head + parts) + "\n"


def main() -> int:
    text = listed()
    if sys.argv[1:] != ["--check"]:
        print(text, end="")
        return 0
    if not LIST.exists() or LIST.read_text() != text:
        print("docs/definitions_by_theorem.txt is not what .ci/believed.py works out: write it anew, and look at what changed")
        return 1
    print(f"believed, {text.splitlines()[3]}")
    return 0


if __name__ == "__main__":
    sys.exit(main())
