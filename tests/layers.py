#!/usr/bin/env python3
"""Looks at what the crates of a running node show: who may name the inner ones, and what is public without need.

usage: tests/layers.py           (a second; proves nothing, changes nothing)
       tests/layers.py --list    lists each public name of these crates that no other crate names, also those that stay

 1. The code of a crate names `lc_lock`, `lc_segments` and `lc_log_side` only where MAY_NAME has it: who has a segment or
    a log can lose commits, and `lc_node` hands on what callers need. Clauses may cite definitions of any crate, by
    `ghost use Rattle.lc_segments.specs..`, and so may specs/ and proofs/. So crates.txt gives a crate an inner one
    only where its code may name that, or where it cites it.
 2. Another crate, an example or a measurement names each public function, type and field of the crates INNER, and each
    name that one of these hands on. A type is needed too where a name that is needed has it in its head. What stays
    all the same stands in STAYS, with the reason. Passed over are laws (src/laws.rt), which are read and not called.
 3. No field of a type of SEALED is public, whoever names it: these keep what they promise by their calls alone.

A method counts as named by `.name(` or `::name`, whoever has it; a function of a type by `Type::name`, a field by `.name`
or in `Type { .. }`, all else by its import. So some names that nobody needs are not seen.

It prints each miss with its file and line; the last line is 'N passed, M failed'.
"""
import dataclasses
import pathlib
import re
import sys
from typing import Dict, Iterator, List, Set, Tuple

TOP = pathlib.Path(__file__).resolve().parent.parent
INNER = ("lc_lock", "lc_segments", "lc_log_side", "lc_node", "lc_cluster")

# Whose code may name an inner crate, beside that crate.
MAY_NAME = {
    "lc_lock": {"lc_segments", "lc_log_side", "lc_node", "lc_cluster", "lc_tests_threads"},
    "lc_segments": {"lc_log_side", "lc_node", "lc_cluster"},
    "lc_log_side": {"lc_node", "lc_cluster"},
}

# The types whose fields are their crate's own.
SEALED = {"TicketLock", "Loan", "SegSide", "LogSide", "Ended", "Held", "Node", "PeerNode", "Cluster"}
SEALED |= {"PeerEnd", "PeerInbox", "SendEnds", "RecvEnds", "Travelling"}

# What stays public though no other crate names it, as 'CRATE NAME' or 'CRATE TYPE::NAME', and why.
STAYS = {
    "lc_segments NodeFault::code": "each fault has its number, for who keeps or sends it",
    "lc_node fresh_nodes": "the first half of an opening, whose clause is exact: for who wants to know what comes up",
    "lc_node FreshNode::come_up": "the second half of an opening",
}

CITES = re.compile(r"\b(?:Rattle\.(\w+)\.|(\w+)::)(?:specs|proofs)\b")
COMMENT = re.compile(r"(?m)(?:^|(?<=\s))//.*$")
GHOST_USE = re.compile(r"\bghost use [^;]*;")
GHOST = re.compile(r"\b(?:requires\*?|ensures\*?|ghost)\s+(?:\w+\s*[:=]?\s*)?\{")
IMPORT = re.compile(r"\b(pub )?use (\w+)::(\{[^}]*\}|[\w:]+)")
OWNER = re.compile(r"(?m)^(?:pub(?:\(crate\))? )?(?:impl|trait)\b[^{]*")
ITEM = re.compile(r"(?m)^( *)pub (?:const |unsafe )*(fn|struct|enum|trait|const|type) (\w+)")
FIELD = re.compile(r"(?m)^    pub (\w+):([^\n]*)")
TYPE = re.compile(r"(?m)^pub(?:\(crate\))? (?:struct|enum|trait) (\w+)")
CAPITAL = re.compile(r"\b[A-Z]\w*")


def blank(text: str) -> str:
    """As many lines, and nothing on them."""
    return "\n" * text.count("\n")


def closing(text: str, start: int) -> int:
    """The place behind the brace that closes the one at this place."""
    depth = 0
    for place in range(start, len(text)):
        depth += {"{": 1, "}": -1}.get(text[place], 0)
        if depth == 0:
            return place + 1
    return len(text)


def code_of(path: pathlib.Path) -> str:
    """What is compiled: no comment, no import for clauses, and no clause."""
    text = COMMENT.sub("", path.read_text(encoding="utf-8"))
    text = GHOST_USE.sub(lambda it: blank(it[0]), text)
    while True:
        clause = GHOST.search(text)
        if not clause:
            return text
        end = closing(text, clause.end() - 1)
        text = text[: clause.start()] + blank(text[clause.start() : end]) + text[end:]


@dataclasses.dataclass(frozen=True)
class Public:
    """A public name: its crate, kind, owner, head, and where it stands."""

    crate: str
    kind: str  # fn, method, function of a type, type, field, or handed on
    owner: str
    name: str
    head: str
    place: str

    @property
    def key(self) -> str:
        return f"{self.crate} {self.owner}::{self.name}" if self.owner else f"{self.crate} {self.name}"


class Sources:
    """The code of each crate by file, that of examples and measurements, and what crates.txt says."""

    def __init__(self) -> None:
        self.code: Dict[str, Dict[pathlib.Path, str]] = {}
        for path in sorted((TOP / "crates").glob("*/src/**/*.rt")):
            self.code.setdefault(path.relative_to(TOP / "crates").parts[0], {})[path] = code_of(path)
        for path in sorted([*TOP.glob("examples/rattle/**/*.rt.txt"), *TOP.glob("bench/**/*.rt.txt")]):
            self.code.setdefault(str(path.relative_to(TOP).parent), {})[path] = code_of(path)
        self.needs: Dict[str, Set[str]] = {}
        self.lines: Dict[str, int] = {}
        for number, line in enumerate((TOP / "crates.txt").read_text(encoding="utf-8").splitlines(), 1):
            head, colon, rest = line.partition("#")[0].partition(":")
            if colon:
                self.needs[head.split()[0]] = set(rest.split())
                self.lines[head.split()[0]] = number

    def stand_on(self, crate: str) -> Set[str]:
        """Whose code may have a value of this crate: the crates above it, and what is none of crates.txt."""
        above, more = {crate}, True
        while more:
            found = {it for it, needs in self.needs.items() if needs & above} - above
            more = bool(found)
            above |= found
        return (above | (self.code.keys() - self.needs.keys())) - {crate}


def line_of(text: str, place: int) -> int:
    return text.count("\n", 0, place) + 1


def cites(crate: str) -> Set[str]:
    """The crates whose definitions or lemmas a crate cites."""
    found: Set[str] = set()
    for part in ("src", "specs", "proofs"):
        for path in (TOP / "crates" / crate / part).glob("**/*"):
            if path.suffix in (".rt", ".antt"):
                found.update(one or other for one, other in CITES.findall(path.read_text(encoding="utf-8")))
    return found


def misnamed(sources: Sources) -> Iterator[Tuple[bool, str]]:
    """Of each naming of an inner crate: whether it may be, and where it is."""
    for crate, files in sources.code.items():
        for path, text in files.items():
            for it in re.finditer(rf"\b({'|'.join(MAY_NAME)})\b", text):
                may = crate == it[1] or crate in MAY_NAME[it[1]]
                place = f"{path.relative_to(TOP)}:{line_of(text, it.start())}"
                yield may, f"{place}: names {it[1]}, which {crate} may not: see MAY_NAME"
    for crate, needs in sources.needs.items():
        for inner in sorted(needs & MAY_NAME.keys()):
            may = crate in MAY_NAME[inner] or inner in cites(crate)
            yield may, f"crates.txt:{sources.lines[crate]}: {crate} stands on {inner}, which nothing there cites"


def head_at(text: str, start: int) -> str:
    """The text from here to the body, or to the end of the item."""
    ends = [place for place in (text.find("{", start), text.find(";\n", start)) if place >= 0]
    return text[start : min(ends, default=len(text))]


def publics(crate: str, files: Dict[pathlib.Path, str], laws: Set[str]) -> Iterator[Public]:
    """The public names of a crate, but for laws."""
    for path, text in files.items():
        where = path.relative_to(TOP)
        if path.name == "laws.rt":
            continue
        owners = [(it.start(), owner_in(it[0])) for it in OWNER.finditer(text)]
        types = [(it.start(), it[1]) for it in TYPE.finditer(text)]
        for it in ITEM.finditer(text):
            head, place = head_at(text, it.start()), f"{where}:{line_of(text, it.start(3))}"
            if it[2] != "fn":
                body = text[it.start() : closing(text, it.start() + len(head))] if it[2] in ("enum", "trait") else head
                yield Public(crate, "type", "", it[3], body, place)
                continue
            owner = next((name for at, name in reversed(owners) if at < it.start()), "") if it[1] else ""
            kind = "fn" if not owner else "method" if re.search(r"\bself\b", head) else "function of a type"
            yield Public(crate, kind, owner, it[3], head, place)
        for it in FIELD.finditer(text):
            owner = next((name for at, name in reversed(types) if at < it.start()), "")
            yield Public(crate, "field", owner, it[1], it[2], f"{where}:{line_of(text, it.start(1))}")
        for it in IMPORT.finditer(text):
            if it[1] and it[2].startswith("lc_"):
                for name in sorted(set(re.findall(r"\w+", it[3])) - laws):
                    at = text.find(name, it.start(3))
                    yield Public(crate, "handed on", "", name, "", f"{where}:{line_of(text, at)}")


def owner_in(head: str) -> str:
    """The type of an impl, or the trait of a trait."""
    plain = None
    while plain != head:
        plain, head = head, re.sub(r"<[^<>]*>", "", head)
    return re.findall(r"\w+", head.split(" for ")[-1].partition(" where ")[0].partition(":")[0])[-1]


def imports(text: str) -> Set[Tuple[str, str]]:
    """Each crate with each name that is imported from it, or named by its path."""
    found = {(it[2], name) for it in IMPORT.finditer(text) for name in re.findall(r"\w+", it[3])}
    return found | set(re.findall(r"\b(lc_\w+)::(\w+)", text))


class Outside:
    """What others than a crate name."""

    def __init__(self, sources: Sources, crate: str) -> None:
        above = sources.stand_on(crate)
        self.texts = [text for it, files in sources.code.items() if it in above for text in files.values()]
        self.imported: Set[Tuple[str, str]] = set().union(*(imports(text) for text in self.texts))
        self.declared = {name for other in above for name in declared(other, crate)}

    def has(self, pattern: str) -> bool:
        look = re.compile(pattern)
        return any(look.search(text) for text in self.texts)

    def names(self, it: Public, handed_on_by: Set[str]) -> bool:
        name = re.escape(it.name)
        if it.kind == "method":
            return self.has(rf"\.\s*{name}\s*(?:::<[^()]*>)?\(|::{name}\b")
        if it.kind == "function of a type":
            return self.has(rf"\b{it.owner}(?:::)?(?:<[^;(){{}}]*>)?::{name}\b")
        if it.kind == "field":
            return self.has(rf"\.{name}\b(?!\s*\()|\b{it.owner}(?:::<[^{{}}]*>)? \{{[^{{}}]*\b{name}\b")
        cited = it.kind == "type" and it.name in self.declared
        return cited or any((crate, it.name) in self.imported for crate in handed_on_by | {it.crate})


def declared(crate: str, of: str) -> Set[str]:
    """The types of a crate that another's clauses and definitions cite."""
    pattern = re.compile(rf"\bRattle\.{of}\.specs\.declared\.[\w.]*?\b([A-Z]\w*)")
    paths = [it for part in ("src", "specs") for it in (TOP / "crates" / crate / part).glob("**/*") if it.is_file()]
    return {name for path in paths for name in pattern.findall(path.read_text(encoding="utf-8"))}


def looked_at(sources: Sources) -> Iterator[Tuple[Public, bool]]:
    """Each public name of the inner crates, and whether somebody needs it."""
    laws = {
        it[3]
        for files in sources.code.values()
        for path, text in files.items()
        if path.name == "laws.rt"
        for it in ITEM.finditer(text)
    }
    found = [it for crate in INNER for it in publics(crate, sources.code.get(crate, {}), laws)]
    handed_on: Dict[str, Set[str]] = {}
    for it in found:
        if it.kind == "handed on":
            handed_on.setdefault(it.name, set()).add(it.crate)
    outside = {crate: Outside(sources, crate) for crate in INNER}
    named = [it for it in found if outside[it.crate].names(it, handed_on.get(it.name, set()))]
    # Who has a needed name has the types in its head without naming them, and so what these have.
    needed: Set[Public] = set()
    while True:
        heads = {word for it in needed for word in CAPITAL.findall(it.head)}
        types = heads | {it.name for it in named if it.kind == "type"}
        more = {it for it in named if not it.owner or it.owner in types}
        more |= {it for it in found if it.kind == "type" and it.name in heads}
        if more <= needed:
            break
        needed |= more
    for it in found:
        yield it, it in needed


def main(arguments: List[str]) -> int:
    sources = Sources()
    looks = list(looked_at(sources))
    if arguments == ["--list"]:
        for it, is_needed in looks:
            if not is_needed:
                print(f"{it.place}: {it.kind} {it.key}" + (f" (stays: {STAYS[it.key]})" if it.key in STAYS else ""))
        return 0
    passed, misses = 0, []
    for may, miss in misnamed(sources):
        passed += may
        misses += [] if may else [miss]
    for it, is_needed in looks:
        if it.kind == "field" and it.owner in SEALED:
            misses.append(f"{it.place}: {it.key} is public: see SEALED")
        elif is_needed or it.key in STAYS:
            passed += 1
        else:
            misses.append(f"{it.place}: {it.key} is public, and no other crate names it")
    for key in sorted(STAYS.keys() - {it.key for it, is_needed in looks if not is_needed}):
        misses.append(f"tests/layers.py: {key} stays without need: it is gone, or somebody names it")
    for name in sorted(SEALED - {it.name for it, _ in looks if it.kind == "type"}):
        misses.append(f"tests/layers.py: SEALED has {name}, which is gone")
    for miss in misses:
        print(miss)
    print(f"{passed} passed, {len(misses)} failed")
    return 1 if misses else 0


if __name__ == "__main__":
    sys.exit(main(sys.argv[1:]))
