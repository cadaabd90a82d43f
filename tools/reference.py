#!/usr/bin/env python3
"""Makes docs/reference/ of the sources: a page for each crate that exports something, with its exported types and
functions and its definitions, as the comments above them tell; and a page and a picture of the layers of the crates.

usage: tools/reference.py            writes docs/reference/ anew (seconds; proves nothing)
       tools/reference.py --check    writes nothing, and names each file there that is not what the sources give;
                                     then the status is 1; the last line is 'N passed, M failed'
"""
import argparse
import dataclasses
import pathlib
import re
import sys
from typing import Dict, Iterator, List, Set, Tuple

TOP = pathlib.Path(__file__).resolve().parent.parent
sys.path.insert(0, str(TOP / "tests"))

import dead_names  # noqa: E402
import document_names  # noqa: E402
import statements  # noqa: E402

REFERENCE = TOP / "docs" / "reference"
MADE = "<!-- Made by tools/reference.py of what the sources say. Change those, and make it anew. -->\n"

EXPORT = re.compile(r"(?m)^pub use ([\w:]+)::(\w+|\{[^}]*\});")
PUBLIC_MODULE = re.compile(r"(?m)^pub mod (\w+);")
ITEM = re.compile(
    r"(?P<indent> {4})?(?P<pub>pub )?(?:(?:final|const|unsafe|(?P<extern>extern \S+)) )*"
    r"(?P<kind>fn|struct|enum|trait|type|const|static|impl)\b *(?P<name>\w*)"
)
COMMENT = re.compile(r"(?:(?<=\s)|^)//.*", re.M)
PART = re.compile(r"    (?:pub (?:ghost )?\w|ghost \w)")
MODULE = re.compile(r"( *)module ")
SPAN = re.compile(r"(`[^`]*`)")
HEADING = re.compile(r"(?m)^#+ (.*)$")


# ---- The crates and their layers.


@dataclasses.dataclass
class Crate:
    """A crate, as crates.txt has it."""

    name: str
    below: List[str]  # (the crates of this repository on which it stands)
    outside: List[str]
    layer: int = 0

    @property
    def folder(self) -> pathlib.Path:
        return TOP / "crates" / self.name

    @property
    def root(self) -> pathlib.Path:
        library = self.folder / "src" / "lib.rt"
        return library if library.exists() else self.folder / "src" / "main.rt"

    @property
    def is_program(self) -> bool:
        return self.root.name == "main.rt"

    def head(self) -> str:
        """What the root of the crate says of it."""
        lines = self.root.read_text(encoding="utf-8").splitlines()
        return " ".join(it[3:].strip() for it in lines if it.startswith("//!"))

    def sentence(self) -> str:
        return re.split(r"(?<=\.) ", self.head(), maxsplit=1)[0]


def crates() -> List[Crate]:
    """All crates in the order of crates.txt, each with its layer: the longest chain of crates below it."""
    rows = [line.split(":") for line in (TOP / "crates.txt").read_text(encoding="utf-8").splitlines() if ":" in line]
    names = {head.split()[0] for head, _ in rows}
    found = []
    for head, below in rows:
        words = below.split()
        here, outside = [it for it in words if it in names], [it for it in words if it not in names]
        found.append(Crate(head.split()[0], here, outside))
    by_name = {it.name: it for it in found}

    def layer_of(crate: Crate) -> int:
        return max((layer_of(by_name[it]) + 1 for it in crate.below), default=0)

    for crate in found:
        crate.layer = layer_of(crate)
    return found


# ---- The definitions of specs/.


@dataclasses.dataclass
class Entry:
    """Something with a name: what the comment above it says, and its statement."""

    name: str
    text: str
    code: List[str]


@dataclasses.dataclass
class Section:
    """The entries of one file, with what its head says."""

    path: pathlib.Path
    text: str
    entries: List[Entry]


def comment_above(lines: List[str], number: int) -> Tuple[str, int]:
    """The comment that ends above a line, and the line with which it begins."""
    first = number
    while first and lines[first - 1].lstrip().startswith("--"):
        first -= 1
    return "\n".join(it.strip()[2:].strip() for it in lines[first:number]), first


def is_code(line: str) -> bool:
    return bool(line.strip()) and not line.lstrip().startswith(("--", "use ", "pub use ", "open "))


def modules_around(lines: List[str], number: int) -> List[str]:
    """The heads of the modules in which a line stands, the outermost first."""
    indent, found = len(lines[number]) - len(lines[number].lstrip()), []
    for at in range(number - 1, -1, -1):
        module = MODULE.match(lines[at])
        if module and len(module[1]) < indent:
            indent = len(module[1])
            end = next(it for it in range(at, number) if lines[it].rstrip().endswith("where"))
            found = lines[at : end + 1] + found
    return found


def definitions(path: pathlib.Path) -> Section:
    """Each definition of a file, with the comment above it; and the comment at its head, which ends above no code."""
    lines = path.read_text(encoding="utf-8").splitlines()
    found = [(number - 1, name) for name, _, number, _ in dead_names.File(path).definitions]
    begins = [comment_above(lines, number)[1] for number, _ in found]
    entries = []
    for (number, name), end in zip(found, begins[1:] + [len(lines)]):
        if not name:  # (a module)
            continue
        while not is_code(lines[end - 1]):
            end -= 1
        code = modules_around(lines, number) + lines[number:end]
        entries.append(Entry(name, comment_above(lines, number)[0], [it.rstrip() for it in code if it.strip()]))
    head = next((at for at, line in enumerate(lines) if not line.startswith("--")), len(lines))
    is_of_file = head == len(lines) or not is_code(lines[head])
    return Section(path, comment_above(lines, head)[0] if is_of_file else "", entries)


# ---- What a crate exports.


@dataclasses.dataclass
class Item:
    """Something that a source has: a type, a function, a constant, or a block of functions that belongs to a type."""

    kind: str
    name: str
    owner: str
    is_public: bool
    is_extern: bool
    text: str
    code: List[str]


def blanked(text: str) -> str:
    """The text with blanks in the place of its comments, so that all else stays in its place."""
    return COMMENT.sub(lambda it: " " * len(it[0]), text)


def items(path: pathlib.Path) -> Iterator[Item]:
    """What a source has, in its order."""
    text = path.read_text(encoding="utf-8")
    plain = blanked(text)
    docs: List[str] = []
    brackets, place = 0, 0
    owner, block = "", ""
    for line in text.splitlines(keepends=True):
        start, place = place, place + len(line)
        shown = line.strip()
        item = ITEM.match(line)
        if shown.startswith("///"):
            docs.append(shown[3:].strip())
        elif brackets or shown.startswith("#["):
            brackets += shown.count("[") + shown.count("(") - shown.count("]") - shown.count(")")
        elif item:
            clauses, end = statements.head_of(plain, start + item.end())
            kind, name, is_public = item["kind"], item["name"], bool(item["pub"])
            if item["indent"]:
                is_public |= block == "trait" or (block == "impl of a trait" and bool(docs or clauses))
            else:
                owner, block = block_of(kind, name, plain[start + item.start("kind") : end])
            code = statement(kind, text, plain, start, end)
            of = owner if item["indent"] else ""
            yield Item(kind, name, of, is_public, bool(item["extern"]), "\n".join(docs), code)
            docs = []
        elif shown:
            docs = []


def block_of(kind: str, name: str, head: str) -> Tuple[str, str]:
    """To what belongs that which stands in a block with this head; and what kind of block it is."""
    if kind != "impl":
        return name, kind
    words = document_names.owners_in(head[len("impl") :])
    return words[-1], "impl of a trait" if "for" in words else kind


def statement(kind: str, text: str, plain: str, start: int, end: int) -> List[str]:
    """What the sources say of an item: of a function its head and its clauses, of a type what is public of it."""
    head = text[start:end].rstrip()
    if kind in ("const", "static", "type"):
        head = text[start : plain.index(";", start) + 1]
    elif kind in ("struct", "enum", "trait") and plain[end] == "{":
        body = text[end + 1 : statements.closing(plain, end) - 1].splitlines()
        parts = body[1:] if kind == "enum" else list(public_parts(body, plain[end + 1 :].splitlines()))
        head = "\n".join([head + " {", *parts, "}"]) if any(parts) else head + " { .. }"
    lines = [it.rstrip() for it in head.splitlines() if it.strip()]
    indent = len(lines[0]) - len(lines[0].lstrip())
    return [it[indent:] for it in lines]


def public_parts(body: List[str], plain: List[str]) -> Iterator[str]:
    """The public fields and the ghost members of a type, each with the comment above it."""
    docs: List[str] = []
    depth = 0
    for line, code in zip(body, plain):
        if depth == 0 and line.lstrip().startswith("///"):
            docs.append(line)
        elif depth or PART.match(line):
            yield from docs
            yield line
            docs = []
            depth += sum(code.count(it) for it in "{(") - sum(code.count(it) for it in "})")
        elif line.strip():
            docs = []


def exports(crate: Crate) -> Tuple[Set[str], Set[str], Dict[str, str]]:
    """The names that a crate exports, the modules of which it exports all, and by name whose it is what it hands on."""
    text = blanked(crate.root.read_text(encoding="utf-8"))
    names, handed_on = set(), {}
    for module, listed in EXPORT.findall(text):
        for word in re.findall(r"\w+", listed):
            if module in crate.below:
                handed_on[word] = module
            else:
                names.add(word)
    return names, set(PUBLIC_MODULE.findall(text)), handed_on


def exported(crate: Crate) -> List[Section]:
    """What a crate exports, by source file."""
    names, modules, _ = exports(crate)
    sections = []
    for path in sorted((crate.folder / "src").rglob("*.rt")):
        entries = [as_entry(it) for it in items(path) if is_exported(it, names, path.stem in modules)]
        if entries:
            sections.append(Section(path, "", entries))
    return sections


def is_exported(item: Item, names: Set[str], of_all: bool) -> bool:
    """Whether an item can be named from outside of its crate."""
    is_named = of_all or item.is_extern or (item.owner or item.name) in names
    return item.kind != "impl" and item.is_public and is_named


def as_entry(item: Item) -> Entry:
    return Entry(f"{item.owner}::{item.name}" if item.owner else item.name, item.text, item.code)


# ---- The pages.


def escaped(text: str) -> str:
    """A comment as Markdown: of its signs only backticks mean a layout, and a line that is a heading there."""
    spans = SPAN.split(text)
    plain = "".join(it if it.startswith("`") else re.sub(r"([*<\[_])", r"\\\1", it) for it in spans)
    return HEADING.sub(r"**\1**", plain)


def entry_lines(entry: Entry, language: str) -> List[str]:
    lines = [f"#### `{entry.name}`", ""]
    if entry.text:
        lines += [escaped(entry.text), ""]
    return [*lines, f"```{language}", *entry.code, "```", ""]


def section_lines(crate: Crate, section: Section, language: str) -> List[str]:
    path = section.path.relative_to(crate.folder)
    lines = [f"### [{path}](../../crates/{crate.name}/{path})", ""]
    if section.text:
        lines += [escaped(section.text), ""]
    return lines + [line for entry in section.entries for line in entry_lines(entry, language)]


def links(names: List[str], pages: Set[str]) -> str:
    return ", ".join(f"[{it}]({it}.md)" if it in pages else it for it in names) or "no other"


def head_of(path: pathlib.Path) -> str:
    """The comment at the head of a file, in one line."""
    mark = "//!" if path.suffix == ".rt" else "--"
    words = []
    for line in path.read_text(encoding="utf-8").splitlines():
        if not line.startswith(mark):
            break
        words.append(line[len(mark) :].strip())
    return " ".join(words)


def file_lines(crate: Crate) -> Iterator[str]:
    """A row for each file of the crate but its root and its lists of modules, with what its head says."""
    files = [it for it in sorted((crate.folder / "src").glob("**/*.rt")) if it != crate.root]
    files += [it for it in sorted((crate.folder / "specs").glob("*.antt")) if it.stem != "Lib"]
    if files:
        yield from ["## Files", "", "| File | What it has |", "|---|---|"]
    for it in files:
        name = it.relative_to(crate.folder)
        yield f"| [{name}](../../crates/{crate.name}/{name}) | {escaped(head_of(it))} |"


def crate_page(crate: Crate, source: List[Section], pages: Set[str]) -> str:
    specs = [definitions(it) for it in sorted((crate.folder / "specs").glob("*.antt"))]
    handed_on = exports(crate)[2]
    readme = f"What it is for: its [README](../../crates/{crate.name}/README.md)."
    lines = [f"# {crate.name}", "", MADE, escaped(crate.head()), ""]
    lines += [f"It stands on {links(crate.below, pages)}. {readme}", "", "## What it exports", ""]
    if handed_on:
        words = [f"`{name}` of {links([other], pages)}" for name, other in sorted(handed_on.items())]
        lines += [f"It hands on {', '.join(words)}.", ""]
    lines += [line for section in source for line in section_lines(crate, section, "rust")]
    if any(it.entries for it in specs):
        lines += ["## Definitions", ""]
    lines += [line for section in specs if section.entries for line in section_lines(crate, section, "")]
    lines += file_lines(crate)
    return "\n".join(lines).rstrip() + "\n"


def layers_page(found: List[Crate], pages: Set[str]) -> str:
    lines = ["# Reference", "", MADE]
    lines.append(
        "Of each crate that exports something a page has its types and functions, each with its clauses, and the\n"
        "definitions that these cite. Programs and crates of tests have none. All of it is what the sources say.\n"
        "What it comes to: [PROMISES](../PROMISES.md) and [MODEL](../MODEL.md)."
    )
    lines += ["", "![The crates in layers: each stands on crates of lower rows alone](layers.svg)", ""]
    lines += ["| Crate | What it is | Stands on | Of others |", "|---|---|---|---|"]
    for crate in found:
        name = links([crate.name], pages)
        below, outside = links(crate.below, pages) if crate.below else "", ", ".join(crate.outside)
        lines.append(f"| {name} | {escaped(crate.sentence())} | {below} | {outside} |")
    return "\n".join(lines) + "\n"


# ---- The picture of the layers.

LETTER, GAP, HEIGHT, STEP, LEFT, WIDEST = 7, 8, 22, 34, 30, 760


def rows_of(found: List[Crate]) -> List[Tuple[int, List[str]]]:
    """The names of each layer, the highest layer first; a layer that is too wide for the picture takes several rows."""
    rows = []
    for layer in range(max(it.layer for it in found), -1, -1):
        row, width = [], 0
        for name in (it.name for it in found if it.layer == layer):
            if row and width + box_width(name) > WIDEST:
                rows.append((layer, row))
                row, width = [], 0
            row.append(name)
            width += box_width(name) + GAP
        rows.append((layer, row))
    return rows


def box_width(name: str) -> int:
    return len(name) * LETTER + 14


def picture(found: List[Crate]) -> str:
    """The layers as rows of boxes, the lowest at the bottom, each with its number at the left."""
    rows = rows_of(found)
    width, height = LEFT + WIDEST + GAP, len(rows) * STEP + GAP
    size = f'width="{width}" height="{height}"'
    lines = [f'<svg xmlns="http://www.w3.org/2000/svg" {size} viewBox="0 0 {width} {height}">']
    lines.append("<style>text{font:11px monospace} rect{fill:#d3e4f1;stroke:#6b8fa8} .ground{fill:#fff}</style>")
    lines.append(f'<rect class="ground" {size}/>')
    for at, (layer, names) in enumerate(rows):
        top, left = GAP + at * STEP, LEFT
        lines.append(f'<text x="6" y="{top + 15}">{layer}</text>')
        for name in names:
            lines.append(f'<rect x="{left}" y="{top}" width="{box_width(name)}" height="{HEIGHT}" rx="3"/>')
            lines.append(f'<text x="{left + 7}" y="{top + 15}" textLength="{len(name) * LETTER}">{name}</text>')
            left += box_width(name) + GAP
    return "\n".join([*lines, "</svg>", ""])


# ---- All of it.


def reference() -> Dict[str, str]:
    """What docs/reference/ is to have, by the names of its files."""
    found = crates()
    sources = {it.name: exported(it) for it in found if not it.is_program}
    pages = {name for name, sections in sources.items() if sections}
    files = {f"{it.name}.md": crate_page(it, sources[it.name], pages) for it in found if it.name in pages}
    return {**files, "README.md": layers_page(found, pages), "layers.svg": picture(found)}


def differing(wanted: Dict[str, str]) -> List[str]:
    """The files that are not as wanted, those that are missing or too many among them."""
    there = {it.name: it.read_text(encoding="utf-8") for it in REFERENCE.glob("*")}
    return sorted(it for it in {*wanted, *there} if wanted.get(it) != there.get(it))


def write(wanted: Dict[str, str]) -> None:
    REFERENCE.mkdir(parents=True, exist_ok=True)
    for name in differing(wanted):
        if name in wanted:
            (REFERENCE / name).write_text(wanted[name], encoding="utf-8")
        else:
            (REFERENCE / name).unlink()


def main() -> int:
    parser = argparse.ArgumentParser(description="Makes docs/reference/ of the sources.")
    parser.add_argument("--check", action="store_true", help="write nothing; fail where a file is not as it is to be")
    wanted = reference()
    if not parser.parse_args().check:
        write(wanted)
        return 0
    wrong = differing(wanted)
    for name in wrong:
        print(f"docs/reference/{name} is not what the sources give: run tools/reference.py", file=sys.stderr)
    print(f"{len(wanted) - len(set(wrong) & set(wanted))} passed, {len(wrong)} failed")
    return 1 if wrong else 0


if __name__ == "__main__":
    sys.exit(main())
