#!/usr/bin/env python3
"""Looks that what the documents name stands in the sources: each name in backticks, and each clause that docs/PROMISES.md
names.

usage: tests/document_names.py [DOCUMENT..]     (seconds; proves nothing; else README.md, CONTRIBUTING.md, docs/*.md and
                                                 the README.md of each crate; docs/reference/ is made of the sources)

Of a text in backticks this is looked up:
 1. A name: what a crate defines or imports, a word of the code of a script, a client or an example, a file or a folder.
    Of `Owner::name` the owner has to have it: a type, a trait or a crate. Of `name(..)`, `Name<..>`, `name!` the name.
 2. A path: of a file or a folder, or the end of one. A `*` stands for anything, as do words in capitals (`NAME`).
 3. A text with blanks is a command or a clause: its first word and its options are looked up, the rest are arguments.
 4. `name` (`file`): the name stands in a file of that name too, unless that is a file of tests.
Skipped is what is no name: blocks between ``` lines, a text with ': ' (which is printed) or a sign that no name has
(which is code), a first word in capitals (which stands for a number or a name), and a path from the root (the
system's). tests/outside_names.txt has the words of the outside world.

In docs/PROMISES.md a name with names in brackets after it, as in `sync` [`honest`, `len`], is a function with clauses of
its contract. With several names in braces each clause stands at one of them. Brackets without a clause, and links, are
passed over.

It prints each unknown name with its file and line; the last line is 'N passed, M failed'.
"""
import os
import pathlib
import re
import sys

TOP = pathlib.Path(__file__).resolve().parent.parent
OUTSIDE = TOP / "tests" / "outside_names.txt"
DOCUMENTS = (
    "README.md",
    "CONTRIBUTING.md",
    *sorted(str(it.relative_to(TOP)) for it in [*(TOP / "docs").glob("*.md"), *(TOP / "crates").glob("*/README.md")]),
)

# ---- What stands in the sources.

BUILT = {".git", "out", "build", "__pycache__"}
NO_SOURCES = ("docs/", "man/", "completion/", "tests/statements.txt", "tests/outside_names.txt")
NO_SOURCE_SUFFIXES = {".md", ".edit", ".edits", ".svg"}

COMMENTS = {
    ".rt": re.compile(r"//.*"),
    ".rs": re.compile(r"//.*"),
    ".antt": re.compile(r"(?m)(?:^|(?<=\s))--(?:\s.*)?$"),
    ".c": re.compile(r"/\*.*?\*/|//[^\n]*", re.S),
    ".py": re.compile(r'(?m)^\s*"""[\s\S]*?"""|(?:^|\s)#.*$'),
    ".sh": re.compile(r"(?m)(?:^|\s)#.*$"),
}
COMMENTS |= {".h": COMMENTS[".c"], ".hpp": COMMENTS[".c"], ".cpp": COMMENTS[".c"], ".pyi": COMMENTS[".py"]}

ITEM = re.compile(r"\b(?:fn|struct|enum|trait|type|const|static|mod|macro_rules!|ensures\*?|requires\*?|ghost) (\w+)")
FIELD = re.compile(r"\b(\w+):(?!:)")
VARIANT = re.compile(r"(?m)^ +([A-Z]\w*)(?= \{|[(,]| =|$)")
CALLED = re.compile(r"(?:\.|::)([a-z]\w*)")
USE = re.compile(r"(?m)^\s*(?:pub(?:\(\w+\))? |ghost )*use ([^;]+)")
OWNER = re.compile(r"(?m)^(?:pub(?:\(\w+\))? )?(impl|trait|enum|struct)\b([^{;]*)\{(.*)$")
DEFINED = re.compile(r"(?m)^ {0,4}(?:(?:pub|abbrev|unfoldable|record|data) )*([^\s:(){}]+)(?= ?[:({])")
BOUND = re.compile(r"[({]([^(){}:]+) : ")
ALIAS = re.compile(r"\btype (\w+)(?:<[^=;]*>)? = (\w+)")
LITERAL = re.compile(r'"([^"\s]+)"')
WORD = re.compile(r"\w+")
OPTION = re.compile(r"(?<![\w-])--?[A-Za-z][\w-]*")


def source_files():
    """The path of each file that is not built."""
    for folder, folders, files in os.walk(TOP):
        folders[:] = [it for it in folders if it not in BUILT]
        for file in files:
            if ".so" not in file:
                yield (pathlib.Path(folder) / file).relative_to(TOP).as_posix()


def code(file):
    """The text of a file without its comments; those of a proof define nothing by the way that they are read."""
    text = (TOP / file).read_text(encoding="utf-8", errors="replace")
    if "/proofs/" in file:
        return text
    return COMMENTS.get(pathlib.PurePath(file).suffix, COMMENTS[".sh"]).sub("", text)


def owners_in(head):
    """What the head of a block names, without parameters: a type, and a trait where it is the impl of one."""
    plain = None
    while plain != head:
        plain, head = head, re.sub(r"<[^<>]*>", "", head)
    return WORD.findall(re.sub(r"(?s)\bwhere\b.*|:.*", "", head))


class Sources:
    """The names, the options and the paths of the repository, and who has which name."""

    def __init__(self):
        self.names, self.options, self.literals, self.suffixes = set(), set(), set(), set()
        self.members, self.aliases, self.paths, self.words = {}, {}, {}, {}
        for file in source_files():
            self.add_path(file)
            if not file.startswith(NO_SOURCES) and pathlib.PurePath(file).suffix not in NO_SOURCE_SUFFIXES:
                self.add_names(file)

    def add_path(self, file):
        parts = file.split("/")
        for end in range(1, len(parts) + 1):
            for start in range(end):
                self.paths.setdefault("/".join(parts[start:end]), set()).add(file)
        stem, dot, suffix = parts[-1].partition(".")
        self.names.update([stem, *parts[:-1]])
        self.suffixes.add(suffix)

    def add_names(self, file):
        text = code(file)
        if file.endswith(".antt"):
            self.names.update(DEFINED.findall(text))
            if "/specs/" in file:
                self.names.update(word for bound in BOUND.findall(text) for word in bound.split())
            return
        self.options.update(OPTION.findall(text))
        if file.endswith(".rt"):
            self.add_rattle(file.split("/")[1], text)
        else:
            self.names.update(WORD.findall(text))

    def add_rattle(self, crate, text):
        uses = {word for use in USE.findall(text) for word in WORD.findall(use)}
        items = {*ITEM.findall(text), *FIELD.findall(text), *VARIANT.findall(text)}
        self.names.update(uses, items, CALLED.findall(text))
        self.literals.update(LITERAL.findall(text))
        self.members.setdefault(crate, set()).update(uses | items)
        self.aliases.update(ALIAS.findall(text))
        for head in OWNER.finditer(text):
            end = head.end() if head.group(3).strip().endswith("}") else text.find("\n}", head.end())
            body = text[head.start(3) : end]
            have = {*ITEM.findall(body), *FIELD.findall(body), *VARIANT.findall(body)}
            for owner in owners_in(head.group(2)):
                self.members.setdefault(owner, set()).update(have)

    def words_of(self, file):
        if file not in self.words:
            self.words[file] = set(WORD.findall((TOP / file).read_text(encoding="utf-8")))
        return self.words[file]


# ---- What the documents name.

FENCE = re.compile(r"(?ms)^```.*?^```")
SPAN = re.compile(r"(?s)(`+)(.+?)\1(?!`)")
PLACED = re.compile(r"`([\w:]+)`\s+\((`[\w/.]+\.(?:rt|antt|c|h|py|sh)`(?:(?:, | and )`[\w/.]+`)*)[);,]")
NAME = re.compile(r"&?((?:\w+(?:<\w+>)?::)*)(\w+|\{[\w, ]+\})(?:<[\w, ]+>)?!?(\*|\.\.)?(?:\(.*\))?")
PATH = re.compile(r"[\w.*-]*(?:/[\w.*-]+)*/?")
PLACEHOLDER = re.compile(r"[A-Z][A-Z0-9]*")


def is_known_name(sources, owners, name, rest):
    if rest:
        return any(it.startswith(name) for it in sources.names)
    if not owners:
        return name in sources.names
    owner = owners.split("::")[-2].partition("<")[0]
    return any(name in sources.members.get(it, ()) for it in (owner, sources.aliases.get(owner)))


def is_known_path(sources, path):
    fields = path.split(".")
    if "/" not in path and fields[-1] not in sources.suffixes and sources.names.issuperset(fields):
        return True  # (a field or a method)
    parts = path.strip("/").split("/")
    if not any("*" in it or it.startswith(".") or PLACEHOLDER.fullmatch(it) for it in parts):
        return "/".join(parts) in sources.paths or path in sources.literals
    forms = ["[^/]+" if PLACEHOLDER.fullmatch(it) else re.escape(it).replace(r"\*", "[^/]*") for it in parts]
    form = re.compile("[^/]*" + "/".join(forms))
    return any(form.fullmatch(it) for known in (sources.paths, sources.literals) for it in known)


def unknown_word(sources, outside, word):
    """The names of one word that stand nowhere."""
    if word in outside:
        return []
    named = NAME.fullmatch(word)
    if named:
        owners, name, rest = named.groups()
        each = WORD.findall(name)
        return [owners + it for it in each if it not in outside and not is_known_name(sources, owners, it, rest)]
    is_path = PATH.fullmatch(word) and WORD.search(word) and not word.startswith("/")
    return [] if not is_path or is_known_path(sources, word) else [word]


def unknown_in(sources, outside, text):
    """The names of a text in backticks that stand nowhere."""
    if ": " in text:
        return []
    if " " not in text and not text.startswith("-") or NAME.fullmatch(text):
        return unknown_word(sources, outside, text)
    first = text.partition(" ")[0]
    options = [it for it in OPTION.findall(text) if it not in sources.options and it not in outside]
    if first.startswith("-") or PLACEHOLDER.fullmatch(first):
        return options
    return unknown_word(sources, outside, first) + options


def unknown_names(sources, outside, document, text):
    """Each name that stands nowhere, or not in the file that is named after it; and how many texts have none."""
    text = FENCE.sub(lambda block: re.sub(r"[^\n]", "", block[0]), text)
    wrong, passed = [], 0
    for span in SPAN.finditer(text):
        line = text.count("\n", 0, span.start()) + 1
        unknown = unknown_in(sources, outside, " ".join(span[2].split()))
        wrong += [f"{document}:{line}: {it} stands nowhere in the sources" for it in unknown]
        passed += not unknown
    for placed in PLACED.finditer(text):
        line = text.count("\n", 0, placed.start()) + 1
        name = placed[1].split("::")[-1]
        homes = [home for file in re.findall(r"`(.*?)`", placed[2]) for home in sources.paths.get(file, ())]
        if homes and not any("/lc_tests" in it or name in sources.words_of(it) for it in homes):
            wrong.append(f"{document}:{line}: {placed[1]} does not stand in {placed[2]}")
    return wrong, passed


# ---- The clauses that docs/PROMISES.md names.

NAMED = re.compile(r"`([\w:]+(?:\{[\w, ]+\})?)`(?:\s+\([^)]*\))?\s*\[([^\[\]]*`[^\[\]]*)\](?!\()")
HEAD = re.compile(r"^[ \t]*(?:pub(?:\([a-z]+\))? )?(?:final )?(?:extern \S+ )?fn (\w+)", re.M)
CLAUSE = re.compile(r"^\s*ensures\*? (\w+) \{", re.M)


def contracts():
    """The names of the clauses at each function, by its name; several functions may have one name."""
    found = {}
    for source in sorted((TOP / "crates").glob("*/src/**/*.rt")):
        text = source.read_text(encoding="utf-8")
        heads = list(HEAD.finditer(text))
        for head, following in zip(heads, [*heads[1:], None]):
            body = text[head.start() : following.start() if following else len(text)]
            found.setdefault(head.group(1), []).append(set(CLAUSE.findall(body)))
    return found


def unknown_clauses(document, text):
    """Each clause that its function does not have; and how many functions have theirs."""
    known, wrong, passed = contracts(), [], 0
    for named in NAMED.finditer(text):
        clauses = set(re.findall(r"`(\w+)`", named.group(2)))
        line = text.count("\n", 0, named.start()) + 1
        last = named.group(1).split("::")[-1]
        if last.startswith("{"):
            # (of several functions at once: each clause stands at one of them)
            have = [set().union(*(it for one in last.strip("{}").split(", ") for it in known.get(one, [])))]
        else:
            have = known.get(last)
        missing = min((clauses - it for it in have), key=len) if have else clauses
        if missing:
            wrong.append(f"{document}:{line}: {named.group(1)} has no clause {', '.join(sorted(missing))}")
        else:
            passed += 1
    return wrong, passed


def main(documents):
    sources = Sources()
    outside = {it for it in OUTSIDE.read_text(encoding="utf-8").splitlines() if it and not it.startswith("#")}
    wrong, passed = [], 0
    for document in documents or DOCUMENTS:
        text = (TOP / document).read_text(encoding="utf-8")
        looks = [unknown_names(sources, outside, document, text)]
        if document == "docs/PROMISES.md":
            looks.append(unknown_clauses(document, text))
        for found, good in looks:
            wrong += found
            passed += good
    for it in wrong:
        print(it)
    print(f"{passed} passed, {len(wrong)} failed")
    return 1 if wrong else 0


if __name__ == "__main__":
    sys.exit(main(sys.argv[1:]))
