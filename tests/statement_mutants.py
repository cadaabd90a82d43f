#!/usr/bin/env python3
"""Tries whether tests/statements.py sees a weakened promise. Each row changes one text of a copy of the sources; the list, made
of the copy before, has to tell that it is another. Each change is taken back. Proves nothing.

usage: tests/statement_mutants.py     by hand, after a change of tests/statements.py; the last line is 'N passed, M failed'
"""
import pathlib
import re
import shutil
import subprocess
import sys
import tempfile

TOP = pathlib.Path(__file__).resolve().parent.parent

# What is weakened, the file, the line that goes (a pattern, which stands in it), and the text in its place.
ROWS = [
    ("a clause of a public function", "lc_changes/src/changes.rt", r"^        ensures values \{ self\.new\.values ≡ self\.old\.values \}\n", ""),
    ("a requires that is added", "lc_changes/src/changes.rt", r"^        ensures \{ result ≡ self\.now\.image_len \}\n", "        requires never { 1 ≡ 2 }\n        ensures { result ≡ self.now.image_len }\n"),
    ("a definition of the headline", "lc_core/specs/Headline.antt", r"^  pub closed : .*\n", ""),
    ("a row of the machine", "lc_model/specs/Machine.antt", r"\(\(reply ≡ Nothing\) × \(new ≡ old\)\)", "((reply ≡ Nothing) × (new ≡ new))"),
    ("a variant of Event", "lc_model/src/event.rt", r"^    Trim.*\n", ""),
    ("a field of a type", "lc_record/src/geometry.rt", r"^    pub words: u32,\n", ""),
    ("what a flush of a node leaves", "lc_node/specs/Flushes.antt", r"^    pub flushes : .*\n", ""),
    ("that a record is of just the runs", "lc_node/specs/Commits.antt", r"    pub of_runs : IsOfRuns set whole\n    pub closes", "    pub closes"),
    ("what gathered bytes make", "lc_changes/specs/Gathering.antt", r"^puts_at segment \[\] values bytes = bytes\n", "puts_at segment [] values bytes = values\n"),
    ("that a call of C steps", "lc_c/specs/Calls.antt", r"^  pub steps : .*\n", ""),
    ("what a script tells over files", "lc_tool/specs/Tells.antt", r"TellsScript g script text status = TellsStop text status ⊎", "TellsScript g script text status = Unit {0} ⊎"),
    ("the value of an adopted store", "lc_core/specs/Adoption.antt", r"^ *pub value_is.*\n", ""),
    ("what a work's run is said to do", "lc_segments/src/put.rt", r"^    ghost ran = \{ λ old new .*\n(?:        .*\n)*", "    ghost ran = { λ old new locked before set answer after sets. new ≡ old };\n"),
    ("whether an area in memory is honest", "lc_disk/src/mem_area.rt", r"ghost honest = \{ λ", "ghost honest = { λ _. false }; ghost other = { λ"),
    ("which bytes of it are dirty", "lc_disk/src/mem_area.rt", r"^    ghost dirty = .*\n", "    ghost dirty = { λ a k. false };\n"),
    ("the invariant of a model", "lc_log_side/src/log_side.rt", r"^    ghost invariant = .*\n", ""),
    ("a part of that invariant", "lc_log_side/specs/LogSide.antt", r"^    pub holds : .*\n", ""),
    ("a ghost field", "lc_node/src/log_room.rt", r"^    ghost own_seat: .*\n", ""),
    ("a clause of an impl", "lc_c/src/mirror_area.rt", r"^        ensures last \{ mirror_last self\.new ≡ Some \(Write .*\n", ""),
    ("a constant that clauses cite", "lc_committer/src/committing.rt", r"const TRIES: u32 = 10_000;", "const TRIES: u32 = 1;"),
    ("a rule of the stage", "lc_stage/specs/Staging.antt", r"^  pub tiled.*\n", ""),
    ("a law of a public trait", "lc_disk/src/area.rt", r"^    ghost reads_bytes: .*\n", ""),
    ("a clause of a public trait", "lc_disk/src/area.rt", r"^        ensures clean .*\n", ""),
    ("the invariant of what C's arrays hold", "lc_changes/specs/Changes.antt", r"^  pub kept_inside : .*\n", ""),
    ("a law", "lc_stage/src/laws.rt", r"× \(q ≡ r\)|\(q ≡ r\) × ", ""),
    ("when a log may be reset", "lc_token/specs/Reset.antt", r"^AreKnown .*\n(?:    .*\n)*", "AreKnown words known = Unit {0}\n"),
]


def runs(copy, *words):
    return subprocess.run([sys.executable, "tests/statements.py", *words], cwd=copy, capture_output=True, check=False).returncode


def sees(copy, file, pattern, new):
    """Whether the list of the copy tells of the change; None where the text is not there."""
    path = copy / "crates" / file
    text = path.read_text(encoding="utf-8")
    changed = re.sub(pattern, lambda _: new, text, count=1, flags=re.M)
    if changed == text:
        return None
    path.write_text(changed, encoding="utf-8")
    seen = runs(copy) != 0
    path.write_text(text, encoding="utf-8")
    return seen


def main():
    failed = 0
    with tempfile.TemporaryDirectory(prefix="lcrvm-statements-") as room:
        copy = pathlib.Path(room)
        shutil.copytree(TOP / "crates", copy / "crates", ignore=shutil.ignore_patterns("out"))
        (copy / "tests").mkdir()
        shutil.copy(TOP / "tests" / "statements.py", copy / "tests")
        runs(copy, "--write")
        for what, file, pattern, new in ROWS:
            seen = sees(copy, file, pattern, new)
            if not seen:
                failed += 1
                print(f"{what} ({file}): {'the text is not there' if seen is None else 'not seen'}")
    print(f"{len(ROWS) - failed} passed, {failed} failed")
    return 1 if failed else 0


if __name__ == "__main__":
    sys.exit(main())
