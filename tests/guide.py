#!/usr/bin/env python3
"""Runs the code blocks of README.md and docs/GUIDE.md as they stand; tests/guide.sh starts it.

usage: tests/guide.py WORK PREFIX PYTHON [DOCUMENT..]

    WORK      an empty folder
    PREFIX    where `make install` has put the program and the library
    PYTHON    a Python that has the package; `-` for none, and then Python blocks are named as skipped
    DOCUMENT  by itself README.md and docs/GUIDE.md

The blocks of a document run in its order, in one folder that has examples/ and docs/store.svg. What a block is its tag
says:

    console   A session. Lines with `$ ` are commands, and lines with `> ` right after one go on with it; the others are what
              it prints, on standard output and standard error. A command whose status is not 0 stands in front of
              `$ echo $?`. After one with --follow typed lines and their answers come by turns.
    python    A program, which prints what its comments `# prints TEXT` say.
    c         A program, compiled by `cc`, without a warning, and with what pkg-config says. It prints what its comments
              `/* prints TEXT */` say.
    rust      Rattle: lines that stand one after another in a file of examples/rattle/NAME. Each file NAME/*.rt.txt has a
              block in docs/GUIDE.md. Whether they are proved is not looked at.
    sh        Commands that want the kit, root or a network: each is a line of ELSEWHERE, which says what runs it.
    text      No code: a drawing.

Each failure is named with its document and line. First each kind of block is tried with a wrong one, which has to be
found. The last line is 'N passed, M failed', in blocks.
"""
import contextlib
import os
import pathlib
import re
import select
import shlex
import shutil
import signal
import subprocess
import sys
import time

TOP = pathlib.Path(__file__).resolve().parent.parent
DOCUMENTS = ["README.md", "docs/GUIDE.md"]
PROGRAMS = TOP / "examples" / "rattle"
SECONDS = 60

# What is run by something else, and by what.
ELSEWHERE = {
    "(cd crates/lcrvm && rt try -- run < ../../examples/hello.script)": "by hand: it takes a minute and wants the kit",
    "bash .ci/run": "the gate itself",
    "sudo make install": "tests/install.sh, without root",
    "pip install ./*.whl": "tests/install.sh, from the archive",
    "make prove": "nothing here: the gate proves the same crates",
    "make dist": "tests/install.sh",
    "mkdir -p crates/count/src": "by hand",
    "cp examples/rattle/count/main.rt.txt crates/count/src/main.rt": "by hand",
    "echo 'count: lc_disk lc_core lc_files lc_store' >> crates.txt": "by hand",
    '(cd crates/count && rt try -- "$OLDPWD/small")': "by hand: it takes a minute and wants the kit",
}

# Wrong blocks of each kind, and where each has to be named.
CONTROL = """\
```console
$ echo one
two
```
```console
$ false
```
```console
$ lcrvm run --follow
begin 0 0 1
no
```
```python
print(1)  # prints 2
```
```python
raise SystemExit(1)
```
```c
#include <stdio.h>
int main(void) { puts("1"); return 0; } /* prints 2 */
```
```c
int main(void) { return 1; }
```
```rust
fn main() {}
```
```sh
rt unknown
```
```text
$ ls
```
```
untagged
```
"""
CONTROL_LINES = [2, 6, 10, 14, 17, 20, 24, 27, 30, 33, 36]

FENCE = re.compile(r"^```(\w*)$")


class Failure(Exception):
    """A block that is not as it says: the line, and what is wrong."""

    def __init__(self, line, *said):
        super().__init__("\n".join(said))
        self.line = line


def blocks_of(text):
    """The tag, the number of the first line, and the lines of each block."""
    tag, first, held = None, 0, []
    for number, line in enumerate(text.splitlines(), 1):
        fence = FENCE.match(line)
        if fence and tag is None:
            tag, first, held = fence[1], number + 1, []
        elif line == "```":
            yield tag, first, held
            tag = None
        elif tag is not None:
            held.append(line)
    if tag is not None:
        raise Failure(first, "a block that does not end")


def compare(line, what, found, wanted):
    if found != wanted:
        raise Failure(line, f"{what} prints", *(f"  {it}" for it in found), "and not", *(f"  {it}" for it in wanted))


# ---- Sessions.

# One command in a shell that has the variables and the folder that the command before it left.
ONE_COMMAND = """\
set -a; . "$1"; (exit "$2"); eval "$3"; left=$?
{ export -p; printf 'cd %q\\n' "$PWD"; } > "$1"
exit "$left"
"""


def commands_of(first, lines):
    """The number of its line, the text, and what is printed, of each command of a session."""
    commands = []
    for number, line in enumerate(lines, first):
        if line.startswith("$ "):
            commands.append((number, [line[2:]], []))
        elif not commands:
            raise Failure(number, "a session begins with a command")
        elif line.startswith("> ") and not commands[-1][2]:
            commands[-1][1].append(line[2:])
        else:
            commands[-1][2].append(line)
    return [(number, "\n".join(text), said) for number, text, said in commands]


def answers_by_turns(process, number, lines):
    """Types each line, and compares its answer before the next is typed."""
    for index in range(0, len(lines), 2):
        typed, wanted = lines[index], lines[index + 1 : index + 2]
        with contextlib.suppress(BrokenPipeError):  # what it said before it ended can still be read
            process.stdin.write(typed.encode() + b"\n")
        answer, end = b"", time.monotonic() + SECONDS
        while not answer.endswith(b"\n"):
            if not select.select([process.stdout], [], [], max(0, end - time.monotonic()))[0]:
                raise Failure(number + 1 + index, f"{typed}: no answer")
            byte = os.read(process.stdout.fileno(), 1)
            if not byte:
                break
            answer += byte
        compare(number + 1 + index, typed, answer.decode().splitlines(), wanted)


def run_session(folder, environment, first, lines):
    commands = commands_of(first, lines)
    state = folder / ".session"
    if not state.exists():
        state.write_text("")
    status = 0
    for index, (number, text, wanted) in enumerate(commands):
        words = ["bash", "-c", ONE_COMMAND, "bash", str(state), str(status), text]
        follows = "--follow" in shlex.split(text)
        process = subprocess.Popen(
            words, cwd=folder, env=environment, bufsize=0, start_new_session=True,
            stdin=subprocess.PIPE, stdout=subprocess.PIPE, stderr=subprocess.STDOUT)
        try:
            if follows:
                answers_by_turns(process, number, wanted)
            printed = process.communicate(timeout=SECONDS)[0].decode(errors="replace").splitlines()
        except subprocess.TimeoutExpired:
            raise Failure(number, f"{text}: not at its end after {SECONDS} seconds") from None
        finally:
            with contextlib.suppress(ProcessLookupError):
                os.killpg(process.pid, signal.SIGKILL)
        compare(number, text, printed, [] if follows else wanted)
        status = process.returncode
        following = commands[index + 1][1] if index + 1 < len(commands) else ""
        if status != 0 and following != "echo $?":
            raise Failure(number, f"{text}: status {status}")


# ---- Programs.


def run_program(folder, environment, first, words, wanted):
    try:
        done = subprocess.run(words, cwd=folder, env=environment, stdin=subprocess.DEVNULL, capture_output=True,
                              timeout=SECONDS)
    except subprocess.TimeoutExpired:
        raise Failure(first, f"the program is not at its end after {SECONDS} seconds") from None
    said = done.stderr.decode(errors="replace").splitlines()
    if done.returncode != 0 or said:
        raise Failure(first, f"the program ends with status {done.returncode}", *said)
    compare(first, "the program", done.stdout.decode(errors="replace").splitlines(), wanted)


def run_python(folder, environment, first, lines, python):
    program = folder / f"block_{first}.py"
    program.write_text("\n".join(lines) + "\n")
    run_program(folder, environment, first, [python, "-W", "error", str(program)],
                re.findall(r"# prints (.*)$", "\n".join(lines), re.M))


def run_c(folder, environment, first, lines):
    source, program = folder / f"block_{first}.c", folder / f"block_{first}"
    source.write_text("\n".join(lines) + "\n")
    flags = subprocess.run(["pkg-config", "--cflags", "--libs", "lcrvm"], env=environment, capture_output=True, text=True)
    command = ["cc", "-Wall", "-Wextra", "-Werror", str(source), *shlex.split(flags.stdout), "-o", str(program)]
    made = subprocess.run(command, env=environment, capture_output=True, text=True)
    if flags.returncode != 0 or made.returncode != 0:
        raise Failure(first, "the program is not compiled:", flags.stderr + made.stderr)
    run_program(folder, environment, first, [str(program)], re.findall(r"/\* prints (.*?) \*/", "\n".join(lines)))


# ---- What is not run.


def rattle_programs():
    return {it: it.read_text(encoding="utf-8").splitlines() for it in sorted(PROGRAMS.glob("*/*.rt.txt"))}


def has_lines(program, lines):
    return any(program[at : at + len(lines)] == lines for at in range(len(program) - len(lines) + 1))


def look_at_rattle(first, lines):
    if not any(has_lines(program, lines) for program in rattle_programs().values()):
        raise Failure(first, "these lines stand in no file of examples/rattle, one after another")


def look_at_commands(first, lines, used):
    for number, line in enumerate(lines, first):
        if line not in ELSEWHERE:
            raise Failure(number, f"nothing is known to run this: {line}")
        used.add(line)


def look_at_text(first, lines):
    for number, line in enumerate(lines, first):
        if re.match(r"\$ |import |#include |use |fn ", line):
            raise Failure(number, f"this is code: {line}")


# ---- Documents.


class Blocks:
    """The blocks of documents, one after another, and what became of them."""

    def __init__(self, work, prefix, python):
        self.work, self.prefix, self.python = work, prefix, python
        self.passed, self.failures, self.used, self.skipped = 0, [], set(), set()
        self.has_pkgconfig = shutil.which("pkg-config") is not None

    def folder(self, document):
        folder = self.work / document.replace("/", "_")
        (folder / "docs").mkdir(parents=True)
        shutil.copytree(TOP / "examples", folder / "examples", ignore=shutil.ignore_patterns("__pycache__"))
        shutil.copy(TOP / "docs/store.svg", folder / "docs")
        return folder

    def environment(self):
        return {**os.environ, "LD_LIBRARY_PATH": f"{self.prefix}/lib", "PKG_CONFIG_PATH": f"{self.prefix}/lib/pkgconfig",
                "PYTHONDONTWRITEBYTECODE": "1", "LC_ALL": "C", "PATH": f"{self.prefix}/bin:{os.environ['PATH']}"}

    def run(self, document, text):
        folder, environment = self.folder(document), self.environment()
        try:
            blocks = list(blocks_of(text))
        except Failure as failure:
            self.failures.append((document, failure.line, str(failure)))
            return
        for tag, first, lines in blocks:
            try:
                self.run_block(tag, first, lines, folder, environment)
            except Failure as failure:
                self.failures.append((document, failure.line, str(failure)))

    def run_block(self, tag, first, lines, folder, environment):
        if tag == "console":
            run_session(folder, environment, first, lines)
        elif tag == "python" and self.python == "-":
            return self.skipped.add("the Python programs: there is no package")
        elif tag == "python":
            run_python(folder, environment, first, lines, self.python)
        elif tag == "c" and not self.has_pkgconfig:
            return self.skipped.add("the C programs: no pkg-config")
        elif tag == "c":
            run_c(folder, environment, first, lines)
        elif tag == "rust":
            look_at_rattle(first, lines)
        elif tag == "sh":
            look_at_commands(first, lines, self.used)
        elif tag == "text":
            look_at_text(first, lines)
        else:
            raise Failure(first, f"a block without a tag that is known: {tag}")
        self.passed += 1


def main(work, prefix, python, *documents):
    work, prefix = pathlib.Path(work).resolve(), pathlib.Path(prefix).resolve()
    control = Blocks(work, prefix, python)
    control.run("control", CONTROL)
    found = [line for _, line, _ in control.failures]
    blocks = Blocks(work, prefix, python)
    for document in documents or DOCUMENTS:
        blocks.run(document, (TOP / document).read_text(encoding="utf-8"))
    failures = [f"{document}:{line}: {said}" for document, line, said in blocks.failures]
    if found != CONTROL_LINES and not control.skipped:
        failures.append(f"tests/guide.py: in CONTROL the lines {found} are found, and not {CONTROL_LINES}")
    if not documents:
        guide = (TOP / "docs/GUIDE.md").read_text(encoding="utf-8")
        shown = [lines for tag, _, lines in blocks_of(guide) if tag == "rust"]
        failures += [f"{name.relative_to(TOP)}:1: docs/GUIDE.md shows nothing of it"
                     for name, program in rattle_programs().items() if not any(has_lines(program, it) for it in shown)]
        failures += [f"tests/guide.py: no document has this line of ELSEWHERE: {it}"
                     for it in sorted(set(ELSEWHERE) - blocks.used)]
    for it in failures:
        print(it)
    for it in sorted(blocks.skipped):
        print(f"skipped: {it}")
    print(f"{blocks.passed} passed, {len(failures)} failed")
    return 1 if failures else 0


if __name__ == "__main__":
    sys.exit(main(*sys.argv[1:]))
