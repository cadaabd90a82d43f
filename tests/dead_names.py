#!/usr/bin/env python3
"""Lists the public definitions and lemmas of specs/ and proofs/ that nothing names.

usage: tests/dead_names.py [CRATE..]     (seconds; proves nothing, changes nothing)

A name is named by what stands in its own file outside its own definition, and by each file that imports it from there
or gives its path in an attribute. An import counts, since a tactic may take what a file imports. Passed over are fields
and constructors, and Answers.antt, Invariants.antt and Proof.antt, whose names the prover looks for by itself.
Names that only other dead names use are not listed: look again once those are gone. A name that is to stay all the
same stands in EXCEPTIONS, with the reason.

It prints each with its file and line, and what is an exception with its reason; the last line is 'N public names, M of
them named nowhere'. The status is 1 where one of those is no exception. The gate calls it.
"""
import pathlib
import re
import sys

TOP = pathlib.Path(__file__).resolve().parent.parent
OF_THE_PROVER = {"Answers.antt", "Invariants.antt", "Proof.antt"}

# What stays though nothing names it, as 'crates/NAME/specs/FILE.antt: NAME', and why: a law that stands for outsiders, or
# a definition that a reader of the documents needs.
EXCEPTIONS = {}

LISTED = re.compile(r"\buse Rattle\.(\w+)\.(specs|proofs)\.([\w.]+)\.\{([^}]*)\}")
WHOLE = re.compile(r"\buse Rattle\.(\w+)\.(specs|proofs)\.([\w.]+)(?: as \w+)?\s*;?$", re.M)
IMPORT = re.compile(r"(?ms)^ *(?:pub )?use [^\n{]*(?:\{[^}]*\})?[^\n]*$")
ATTRIBUTE = re.compile(r"\b(\w+)::(specs|proofs)::((?:\w+::)+)([^\s,()]+)")
HEAD = re.compile(r"^( *)((?:(?:pub|abbrev|unfoldable|record|data|ruleset) )*)([^\s:(){}=]+)(?=\s|:|$)")
COMMENT = re.compile(r"(?m)(?:^|(?<=\s))--(?:\s.*)?$")
WORD = re.compile(r"[^\s(){}\[\],;.:|`\"]+")


def blank(found):
    """As many lines, and nothing on them."""
    return "\n" * found[0].count("\n")


class File:
    """A file of definitions: which stand in it, and which words stand in each."""

    def __init__(self, path):
        self.path = path
        parts = path.relative_to(TOP / "crates").with_suffix("").parts
        self.module = (parts[0], parts[1], ".".join(parts[2:]))
        # of each definition its name, whether it is public, its line, and the words that stand in it
        self.definitions = []
        self.read(IMPORT.sub(blank, COMMENT.sub("", path.read_text(encoding="utf-8"))))

    def read(self, text):
        deepest = None  # (what is indented more belongs to the definition in front)
        for number, line in enumerate(text.splitlines(), 1):
            head = HEAD.match(line)
            if line.lstrip().startswith(("module ", "mod ", "pub mod ")):
                deepest = None
                self.add("", False, number, line)
            elif head and (deepest is None or len(head[1]) <= deepest) and self.is_new(head, line):
                deepest = len(head[1])
                self.add(head[3], "pub" in head[2].split(), number, line[head.end() :])
            elif self.definitions:
                self.definitions[-1][3].extend(WORD.findall(line))

    def is_new(self, head, line):
        """Whether a line begins a definition: it has a type, or a word that no equation begins with."""
        return bool(head[2]) or line[head.end() :].lstrip().startswith(": ") or line.rstrip().endswith(" :")

    def add(self, name, is_public, number, rest):
        self.definitions.append((name, is_public, number, WORD.findall(rest)))


def pieces(name):
    """The words by which a name is used: itself, or the signs of an operator."""
    return [it for it in name.split("◌") if it] if "◌" in name else [name]


def import_names(text):
    """Each name that a text imports, with its module; and each module that it imports as a whole."""
    listed, whole = set(), set(WHOLE.findall(text))
    for crate, part, module, items in LISTED.findall(text):
        listed.update((crate, part, module, item.strip().partition(" as ")[0]) for item in items.split(","))
    return listed, whole


def sources(*parts):
    found = [it for part in parts for it in sorted((TOP / "crates").glob(f"*/{part}/**/*"))]
    return [it for it in found if it.suffix in (".rt", ".antt")]


def named_elsewhere(files):
    """Each name that is imported, with its module; and of a module that is imported whole, all words of those files."""
    listed, whole, handed_on = set(), {}, {}
    for path in sources("src", "specs", "proofs"):
        crate = path.relative_to(TOP / "crates").parts[0]
        text = path.read_text(encoding="utf-8")
        here, modules = import_names(text)
        listed |= here
        for owner, part, module, name in ATTRIBUTE.findall(text):
            listed.add((crate if owner == "crate" else owner, part, module[:-2].replace("::", "."), name))
        for module in modules & files.keys():
            whole.setdefault(module, set()).update(WORD.findall(text))
            if path.name == "Lib.antt":
                handed_on[crate, module[1], module[2]] = module
    # (what a crate hands on is imported from that crate too)
    return {(*handed_on.get(it[:3], it[:3]), it[3]) for it in listed}, whole


def main(crates):
    found = [File(path) for path in sources("specs", "proofs") if path.name not in OF_THE_PROVER]
    files = {it.module: it for it in found}
    listed, whole = named_elsewhere(files)
    public, dead = 0, []
    for module, file in files.items():
        if crates and module[0] not in crates:
            continue
        for at, (name, is_public, number, _) in enumerate(file.definitions):
            if not is_public:
                continue
            public += 1
            beside = {word for other, it in enumerate(file.definitions) if other != at for word in it[3]}
            beside |= whole.get(module, set())
            if (*module, name) not in listed and not beside.issuperset(pieces(name)):
                dead.append((file.path.relative_to(TOP), number, name, EXCEPTIONS.get(f"{file.path.relative_to(TOP)}: {name}")))
    for path, number, name, reason in dead:
        print(f"{path}:{number}: {name}" + (f" (stays: {reason})" if reason else ""))
    print(f"{public} public names, {len(dead)} of them named nowhere")
    return 0 if all(reason for *_, reason in dead) else 1


if __name__ == "__main__":
    sys.exit(main(sys.argv[1:]))
