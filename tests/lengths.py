#!/usr/bin/env python3
"""Looks that the documents that are kept by hand stay short: their lines, their sentences, and all of them together.

usage: tests/lengths.py [DOCUMENT..]     (seconds; proves nothing; else README.md, CONTRIBUTING.md, docs/*.md and the
                                          README.md of each crate, and the size of all pages of the book together)

 1. A line has at most 100 characters. Passed over are tables and blocks between ``` lines; of a link its text counts.
 2. A sentence has at most 40 words. A cell of a table, an item of a list and a heading end one. A text in backticks is
    one word, and a list of such texts in brackets is none.
 3. README.md and docs/*.md have at most 140,000 bytes together, and the README.md of all crates 80,000. docs/reference/ is
    made of the sources.

It prints each miss with its file and line; the last line is 'N passed, M failed'.
"""
import argparse
import dataclasses
import pathlib
import re
import sys
from typing import Iterator, List, Tuple

TOP = pathlib.Path(__file__).resolve().parent.parent
CHARACTERS, WORDS = 100, 40
BYTES, BYTES_OF_CRATES = 140_000, 80_000

FENCE = re.compile(r"(?ms)^```.*?^```$")
TARGET = re.compile(r"\]\([^)\s]*\)|\]\[[^\]]*\]|^\[[^\]]*\]: .*$|<https?:[^>]*>")
NAMES = re.compile(r"\[`[^\[\]]*`\](?!\()")
SPAN = re.compile(r"(?s)(`+).+?\1")
BEGINS = re.compile(r"\s*(?:[-*+]|\d+\.)\s|#+ |\|")
ENDS = re.compile(r"""(?<!\be\.g)(?<!\bi\.e)[.?!]["')*_\]]*\s+""")
CELL_ENDS = re.compile(rf"{ENDS.pattern}|\|")
WORD = re.compile(r"\w")


@dataclasses.dataclass
class Found:
    """The misses of a document, and how many of its lines and sentences are no miss."""

    misses: List[str]
    passed: int = 0

    def look(self, is_right: bool, miss: str) -> None:
        if is_right:
            self.passed += 1
        else:
            self.misses.append(miss)


def documents() -> List[pathlib.Path]:
    return [*book(), TOP / "CONTRIBUTING.md", *of_crates()]


def of_crates() -> List[pathlib.Path]:
    return sorted((TOP / "crates").glob("*/README.md"))


def book() -> List[pathlib.Path]:
    """The pages whose size counts."""
    return [TOP / "README.md", *sorted((TOP / "docs").glob("*.md"))]


def paragraphs(lines: List[str]) -> Iterator[Tuple[int, str]]:
    """The parts of a page beyond whose end no sentence goes, each with its first line."""
    first, block = 1, []
    for number, line in enumerate([*lines, ""], 1):
        is_alone = bool(block) and block[0].startswith(("#", "|"))
        if block and (is_alone or not line.strip() or BEGINS.match(line)):
            yield first, "\n".join(block)
            block = []
        if line.strip():
            first = first if block else number
            block.append(line)


def sentences(lines: List[str]) -> Iterator[Tuple[int, str]]:
    """Each sentence with the line in which it begins."""
    for first, text in paragraphs(lines):
        ends = CELL_ENDS if text.startswith("|") else ENDS
        starts = [0, *(it.end() for it in ends.finditer(text))]
        for start, end in zip(starts, [*starts[1:], len(text)]):
            yield first + text.count("\n", 0, start), " ".join(text[start:end].split())


def words_of(sentence: str) -> int:
    plain = SPAN.sub("x", TARGET.sub("]", NAMES.sub("", sentence)))
    return sum(1 for it in plain.split() if WORD.search(it))


def look_at(document: pathlib.Path) -> Found:
    found, name = Found([]), document.relative_to(TOP)
    text = FENCE.sub(lambda it: "\n" * it[0].count("\n"), document.read_text(encoding="utf-8"))
    lines = text.splitlines()
    for number, line in enumerate(lines, 1):
        count = len(TARGET.sub("]", line))
        if not line.startswith("|"):
            found.look(count <= CHARACTERS, f"{name}:{number}: {count} characters: {line.strip()}")
    for number, sentence in sentences(lines):
        count = words_of(sentence)
        found.look(count <= WORDS, f"{name}:{number}: {count} words: {sentence}")
    return found


def look_at_size() -> Found:
    found = Found([])
    for name, pages, most in [
        ("README.md and docs/*.md", book(), BYTES),
        ("crates/*/README.md", of_crates(), BYTES_OF_CRATES),
    ]:
        size = sum(len(it.read_bytes()) for it in pages)
        found.look(size <= most, f"{name}: {size} bytes, where {most} may be")
    return found


def main() -> int:
    parser = argparse.ArgumentParser(description="Looks that the documents that are kept by hand stay short.")
    parser.add_argument("documents", nargs="*", type=pathlib.Path, help="these alone, and not their size")
    asked = [it.resolve() for it in parser.parse_args().documents]
    looks = [look_at(it) for it in asked or documents()]
    if not asked:
        looks.append(look_at_size())
    misses = [miss for found in looks for miss in found.misses]
    for miss in misses:
        print(miss)
    print(f"{sum(it.passed for it in looks)} passed, {len(misses)} failed")
    return 1 if misses else 0


if __name__ == "__main__":
    sys.exit(main())
