#!/usr/bin/env python3
"""Lists what is promised, each as a name and a hash of its text: each clause of each public function and of each method of a
trait, each ghost member, ghost field and model, each type, constant and static, and each definition that any of these reaches.
The list is kept in tests/statements.txt, so that a clause which is dropped, or a definition which is changed, shows as such.

usage: tests/statements.py            compares with the list (seconds; proves nothing); the last line is 'N passed, M failed'
       tests/statements.py --write    writes the list anew
"""
import collections
import hashlib
import pathlib
import re
import sys

TOP = pathlib.Path(__file__).resolve().parent.parent
KEPT = TOP / "tests" / "statements.txt"

OWNER = re.compile(r"^(?:pub(?:\(crate\))? )?(impl|trait)\b(.*)", re.M)
FUNCTION = re.compile(r"^( *)(pub )?(?:final |const |unsafe |extern \S+ )*fn (\w+)", re.M)
CLAUSE = re.compile(r"\s*(ghost|requires\*?|ensures\*?)\s+(?:(\w+)\s*:?\s*)?\{")
DEFINITION = re.compile(r"^(\s*)(?:abbrev pub|unfoldable pub|pub abbrev|pub record|pub data|pub|abbrev|unfoldable|record|data) (?:record |data )?([^\s:]+)")
IMPORT = re.compile(r"^\s*(?:pub )?use Rattle\.(\w+)\.specs\.([\w.]+)\.\{(.*)\}", re.M)
ALIAS = re.compile(r"^\s*(?:pub |ghost )?use Rattle\.(\w+)\.specs\.([\w.]+) as (\w+)", re.M)
CITED = re.compile(r"^ *ghost use Rattle\.(\w+)\.specs\.([\w.]+)\.\{(.*?)\};", re.M | re.S)
GHOST = re.compile(r"^ +(?:pub )?ghost (?!use)(\w+)\s*[=:]\s*\{", re.M)
ITEM = re.compile(r"^(?:#\[[^\n]*\]\n)*(?:pub(?:\(crate\))? )?(enum|struct|const|static) (\w+)", re.M)
WORD = re.compile(r"[^\s(){}\[\],;.]+")


def one_line(text):
    return " ".join(text.split())


def without_comments(text):
    return re.sub(r"(?m)(^|\s)//.*$", "", text)


def closing(text, start):
    """The place behind the brace that closes the one at this place."""
    depth = 0
    for place in range(start, len(text)):
        depth += {"{": 1, "}": -1}.get(text[place], 0)
        if depth == 0:
            return place + 1
    return len(text)


def head_of(text, start):
    """The clauses between the name of a function, which ends here, and its body, each with its kind, name and text; and the place of
    the body, or of the semicolon in its stead."""
    found = []
    place, brackets = start, 0
    while place < len(text) and (brackets or text[place] not in "{;"):
        clause = CLAUSE.match(text, place)
        if clause and text[place] in " \n":
            end = closing(text, clause.end() - 1)
            found.append((clause.group(1), clause.group(2) or "", one_line(text[clause.end() : end - 1])))
            place = end
        else:
            brackets += {"[": 1, "]": -1}.get(text[place], 0)  # (an array's type has a semicolon)
            place += 1
    return found, place


def clauses_of(text, start):
    """The clauses of the function whose name ends here: kind, name and text."""
    return head_of(text, start)[0]


def definitions():
    """Each definition of specs/, by crate, module and name; and what each module imports, by the name there."""
    found, imports = {}, {}
    for source in sorted((TOP / "crates").glob("*/specs/**/*.antt")):
        crate = source.parts[source.parts.index("crates") + 1]
        module = ".".join(source.relative_to(TOP / "crates" / crate / "specs").with_suffix("").parts)
        text = source.read_text(encoding="utf-8")
        imports[crate, module] = imported(IMPORT, text)
        name, indent = None, 0
        for line in text.splitlines():
            if line.lstrip().startswith("module "):
                name = None
            if not line.strip() or line.lstrip().startswith(("--", "use ", "pub use ", "pub mod ", "mod ", "module ")):
                continue
            head = DEFINITION.match(line)
            if head and (name is None or len(head.group(1)) <= indent):
                name, indent = head.group(2), len(head.group(1))
                found[crate, module, name] = []
            if name is not None:
                found[crate, module, name].append(line)
    return found, imports


def imported(pattern, text):
    """By the name in the file: the crate, the module and the name of what is imported."""
    names = {}
    for crate, module, items in pattern.findall(text):
        for item in items.split(","):
            name, _, other = item.strip().partition(" as ")
            names[other.strip() or name] = (crate, module, name)
    return names


def aliases():
    """Of each module of specs/: the modules that it names by another name."""
    named = {}
    for source in (TOP / "crates").glob("*/specs/**/*.antt"):
        crate = source.parts[source.parts.index("crates") + 1]
        module = ".".join(source.relative_to(TOP / "crates" / crate / "specs").with_suffix("").parts)
        named[crate, module] = {name: (c, m) for c, m, name in ALIAS.findall(source.read_text(encoding="utf-8"))}
    return named


def reached(found, imports, roots):
    """The definitions that these reach, by way of what they name."""
    named = aliases()
    todo, seen = collections.deque(roots), set()
    while todo:
        key = todo.popleft()
        if key in seen or key not in found:
            continue
        seen.add(key)
        crate, module, _ = key
        text = "\n".join(found[key])
        for word in set(WORD.findall(text)):
            todo.append(imports[crate, module].get(word, (crate, module, word)))
        for alias, name in re.findall(r"(\w+)\.(\w+)", text):
            if alias in named[crate, module]:
                todo.append((*named[crate, module][alias], name))
    return seen


def digest(text):
    return hashlib.sha256(one_line(text).encode()).hexdigest()[:12]


def told_clauses(text):
    """Of each function of a source that others may call: its name, with that of its owner, and its clauses."""
    owners = [(it.start(), it[1], one_line(text[it.start(2) : text.find("{", it.start(2))])) for it in OWNER.finditer(text)]
    for head in FUNCTION.finditer(text):
        kind, owner = "", ""
        if head[1]:
            kind, owner = next(((kind, owner) for at, kind, owner in reversed(owners) if at < head.start()), ("", ""))
        if head[2] or kind == "trait" or " for " in owner:
            yield head[3], clauses_of(text, head.end())


def told_ghosts(text):
    """Of each ghost member, ghost field and model of a source: its name and text."""
    for it in GHOST.finditer(text):
        yield it[1], text[it.end() : closing(text, it.end() - 1) - 1]


def told_items(text):
    """Of each type, constant and static of a source: its kind, name and text."""
    for it in ITEM.finditer(text):
        if it[1] in ("const", "static"):
            end = text.find(";\n", it.end())
        else:
            start = min(place for place in (text.find("{", it.end()), text.find(";", it.end()), len(text)) if place >= 0)
            end = closing(text, start) if text[start : start + 1] == "{" else start
        yield it[1], it[2], text[it.start() : end]


def statements():
    lines, roots = [], []
    for source in sorted((TOP / "crates").glob("*/src/**/*.rt")):
        place = f"{source.parts[source.parts.index('crates') + 1]} {source.name}"
        text = without_comments(source.read_text(encoding="utf-8"))
        cited, told = imported(CITED, text), []
        for name, clauses in told_clauses(text):
            lines += [f"{place} fn {name} {kind} {label} {digest(clause)}" for kind, label, clause in clauses]
            told += [clause for _, _, clause in clauses]
        for name, body in told_ghosts(text):
            lines.append(f"{place} ghost {name} {digest(body)}")
            told.append(body)
        lines += [f"{place} {kind} {name} {digest(body)}" for kind, name, body in told_items(text)]
        roots += [cited[word] for body in told for word in WORD.findall(body) if word in cited]
    found, imports = definitions()
    for crate, module, name in sorted(reached(found, imports, roots)):
        lines.append(f"{crate} specs/{module} {name} {digest(' '.join(found[crate, module, name]))}")
    return lines


def main():
    lines = statements()
    if sys.argv[1:] == ["--write"]:
        KEPT.write_text("".join(f"{line}\n" for line in lines), encoding="utf-8")
        return 0
    kept = KEPT.read_text(encoding="utf-8").splitlines()
    gone, new = collections.Counter(kept) - collections.Counter(lines), collections.Counter(lines) - collections.Counter(kept)
    for line in gone:
        print(f"no more: {line}")
    for line in new:
        print(f"new: {line}")
    if gone or new:
        print("where that is meant, write the list anew: tests/statements.py --write")
    print(f"{len(lines)} passed, {sum(gone.values()) + sum(new.values())} failed")
    return 1 if gone or new else 0


if __name__ == "__main__":
    sys.exit(main())
