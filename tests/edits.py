"""Reads the edits of crates/*/must-fail/ and crates/*/by-hand/wrong_bodies.edits for tests/edits.sh, which says how it is called.

An edit is lines 'file: src/..', 'old: TEXT' and 'new: TEXT': TEXT stands once in that file, as the pairs before have made it. In
must-fail/ it is a file, as the kit wants it; in the other it follows a line 'edit: NAME'.
"""
import argparse
import concurrent.futures
import contextlib
import datetime
import pathlib
import re
import shutil
import subprocess
import sys
import tempfile

MOST_IN_THE_GATE = 6
MOST_CRATES_IN_THE_GATE = 5
BY_HAND = "by-hand/wrong_bodies.edits"
PARTS = ("src", "specs", "proofs")
FUNCTION = re.compile(r'^( *)(?:pub(?:\([a-z]+\))? )?(?:const )?(?:extern "C" )?fn (\w+)', re.M)


def function_at(text, place):
    """The name of the function that this place of a source stands in; none where it stands between two."""
    found = [it for it in FUNCTION.finditer(text) if it.start() <= place]
    if not found or re.search(rf"^{found[-1][1]}\}}", text[found[-1].start() : place], re.M):
        return ""
    return found[-1][2]


def by_hand(crate):
    """The edits of a crate that are tried by hand: of each its name and its lines. A ValueError says what is wrong with the file."""
    found, file = [], crate / BY_HAND
    for line in file.read_text(encoding="utf-8").splitlines() if file.is_file() else []:
        kind, _, name = line.partition(": ")
        if kind == "edit":
            found.append((name, []))
        elif found:
            found[-1][1].append(line)
        elif line:
            raise ValueError("a line stands before the first 'edit:'")
    return found


def in_the_gate(crate):
    """The edits of a crate that the gate tries: of each its name and its lines."""
    return [(it.stem, it.read_text(encoding="utf-8").splitlines()) for it in sorted(crate.glob("must-fail/*"))]


def changes(lines, crate):
    """Those of an edit, each as a source's path in the crate, the old text and the new one; a ValueError says why it is none."""
    made, path, old = [], None, None
    for line in lines:
        kind, _, rest = line.partition(":")
        rest = rest.removeprefix(" ")
        if kind == "file":
            path = rest.strip()
            if not path.startswith("src/") or not (crate / path).is_file():
                raise ValueError(f"there is no source {path}")
        elif kind == "old":
            old = rest
        elif kind == "new":
            if path is None or not old:
                raise ValueError("a 'new:' stands before a 'file:' or an 'old:'")
            made.append((path, old, rest))
            old = None
    if not made or old:
        raise ValueError("it has no pair of 'old:' and 'new:', or half of one")
    return made


def made_in(made, crate):
    """The texts of the files that these changes make, by their path in the crate; a ValueError says why they cannot be made."""
    texts = {}
    for path, old, new in made:
        text = texts.get(path) or (crate / path).read_text(encoding="utf-8")
        if text.count(old) != 1:
            raise ValueError(f"an 'old:' stands {text.count(old)} times in {path}")
        texts[path] = text.replace(old, new)
    return texts


def applied(lines, crate):
    """The texts of the files that the edit changes, by their path in the crate; a ValueError says why it cannot be applied."""
    return made_in(changes(lines, crate), crate)


def wrongs_of(crate):
    """How many edits of the crate can be applied, and what is wrong with the others."""
    wrongs, names, good = [], set(), 0
    gate = in_the_gate(crate)
    if len(gate) > MOST_IN_THE_GATE:
        wrongs.append(f"{len(gate)} edits stand in must-fail/, and {MOST_IN_THE_GATE} are the most")
    wrongs += [f"must-fail/{it.name}: it is no .edit" for it in sorted(crate.glob("must-fail/*")) if it.suffix != ".edit"]
    try:
        edits = gate + by_hand(crate)
    except ValueError as why:
        return 0, wrongs + [f"{BY_HAND}: {why}"]
    for name, lines in edits:
        try:
            if name in names:
                raise ValueError("its name stands twice")
            names.add(name)
            applied(lines, crate)
            good += 1
        except ValueError as why:
            wrongs.append(f"{name}: {why}")
    return good, wrongs


def fits(top):
    """Whether each edit can be applied, and no crate has too many in the gate, nor more crates than may have any."""
    good = wrong = 0
    crates = sorted((top / "crates").iterdir())
    gate = [it.name for it in crates if in_the_gate(it)]
    if len(gate) > MOST_CRATES_IN_THE_GATE:
        print(f"must-fail/ stands in {', '.join(gate)}, and {MOST_CRATES_IN_THE_GATE} crates are the most")
        wrong += 1
    for crate in crates:
        fit, wrongs = wrongs_of(crate)
        good += fit
        wrong += len(wrongs)
        for why in wrongs:
            print(f"{crate.name}: {why}")
    print(f"{good} edits fit, {wrong} do not")
    return 1 if wrong else 0


@contextlib.contextmanager
def copied(top, name):
    """The folder of the crate in a copy of the repository, which goes again."""
    with tempfile.TemporaryDirectory(prefix="lcrvm-edits-") as room:
        copy = pathlib.Path(room)
        for it in ("crates.txt", "HANDLES"):
            shutil.copy(top / it, copy / it)
        for crate in (top / "crates").iterdir():
            to = copy / "crates" / crate.name
            to.mkdir(parents=True)
            for part in PARTS:
                if (crate / part).is_dir():
                    shutil.copytree(crate / part, to / part)
            # (of the crate itself what earlier checks kept, of the others the built library)
            kept = "out" if crate.name == name else "out/rlib"
            if (crate / kept).is_dir():
                shutil.copytree(crate / kept, to / kept)
        yield copy / "crates" / name


def check(at):
    """What a check of the crate in this folder says."""
    ran = subprocess.run(["rt", "check", "--jobs", "1"], cwd=at, stdout=subprocess.PIPE, stderr=subprocess.STDOUT, errors="replace")
    return ran.stdout


def checked(top, name, texts, without):
    """What a check says of a copy of the crate with these texts and without these answers."""
    with copied(top, name) as at:
        for path, text in texts.items():
            (at / path).write_text(text, encoding="utf-8")
        for path in without:
            (at / path).unlink(missing_ok=True)
        return check(at)


def open_goals(said):
    """The goals that a check leaves open, each as the answers' file, its name there and what it says."""
    goals = {}
    lines = said.split("\n")
    for at, line in enumerate(lines):
        found = re.match(r"note: `([^`]+)` of (?:\./)?(proofs/\S+) must prove: (.*)", line)
        if found:
            text = [found[3]]
            for more in lines[at + 1 :]:
                if not more.startswith("  ") or "names you can use" in more:
                    break
                text.append(more.strip())
            goals[found[2], found[1], " ".join(text)] = None
    return goals


def bare(top, name, edit):
    crate = top / "crates" / name
    edits = dict(in_the_gate(crate) + by_hand(crate))
    if edit not in edits:
        print(f"{name} has no edit {edit}", file=sys.stderr)
        return 2
    texts = applied(edits[edit], crate)
    said = checked(top, name, texts, [])
    at_fault = sorted(set(re.findall(r"(?:\./)?(proofs/\S+?/Answers\.antt):\d+:\d+: error", said)))
    if not at_fault:
        print("no answer that is written by hand is in the way:")
        wrong = open_goals(said)
    else:
        print("without " + ", ".join(at_fault) + ":")
        before = open_goals(checked(top, name, {}, at_fault))
        wrong = [it for it in open_goals(checked(top, name, texts, at_fault)) if it not in before]
    for path, goal, text in wrong:
        print(f"{path} {goal}\n    {text}")
    print(f"{len(wrong)} goals that the edit alone leaves open")
    return 0


class Edit:
    """One by hand: its name, its changes, and the functions that they stand in, as a source's path and a name."""

    def __init__(self, name, lines, crate):
        self.name = name
        self.changes = changes(lines, crate)
        self.functions = set()
        texts = {}
        for path, old, new in self.changes:
            text = texts.get(path) or (crate / path).read_text(encoding="utf-8")
            self.functions.add((path, function_at(text, text.index(old) + len(old) - len(old.lstrip()))))
            texts[path] = text.replace(old, new)

    def is_of_none(self):
        """Whether it changes what stands in no function, as a constant, so that any function may be refused."""
        return any(name == "" for _, name in self.functions)

    def stands_at(self, path, line, texts):
        """Whether a line of a source is one that it has made."""
        if line > len(texts[path].splitlines()):
            return False
        text = texts[path].splitlines()[line - 1].strip()
        return text and any(it == path and (new.strip() in text or text in new) for it, _, new in self.changes)


def beside(edits):
    """As many of the edits as stand in different functions, in order, and the others."""
    taken, chosen, left = set(), [], []
    for edit in edits:
        if edit.functions & taken:
            left.append(edit)
        else:
            taken |= edit.functions
            chosen.append(edit)
    return chosen, left


def made_together(edits, crate):
    """The texts with all these edits, which of them are made, and which are not, since another has changed what they name."""
    made, done, left = [], [], []
    for edit in edits:
        try:
            made_in(made + edit.changes, crate)
            made += edit.changes
            done.append(edit)
        except ValueError:
            left.append(edit)
    return made_in(made, crate), done, left


class Said:
    """What a check said of the functions of a crate."""

    def __init__(self, text, texts, crate):
        self.text = text
        self.verdicts = dict(re.findall(r"^fn (\S+): (.*)$", text, re.M))
        self.open = set()
        for path, line in re.findall(r"^note: (src/\S+?):(\d+):\d+: ", text, re.M):
            source = texts.get(path) or (crate / path).read_text(encoding="utf-8")
            # (a note names the line where a function begins, or one inside it)
            self.open.add((path, function_at(source, sum(map(len, source.splitlines(True)[: int(line)])) - 1)))

    def proves(self, function):
        """Whether it is proved; one that may wait is too, and says so."""
        return self.verdicts[function].startswith("proved")

    def of(self, path, name):
        """The functions of this name of a source, by the paths that a check gives them."""
        module = path.removeprefix("src/").removesuffix(".rt").replace("/", "::")
        named = [it for it in self.verdicts if re.sub(r"<.*?>", "", it).split("::")[-1] == name]
        return [it for it in named if f"::{module}::" in it] or named

    def waits_for(self, functions):
        """What these functions call that is not proved."""
        said = " ".join(self.verdicts[it] for it in functions)
        return {it for part in said.split("it calls")[1:] for it in re.findall(r"`([^`]+)`", part)} - set(functions)

    def errors(self, functions):
        """The errors in the answers of these functions."""
        found = []
        for it in functions:
            folder = "proofs/" + "/".join(re.sub(r"<.*?>", "", it).split("::")[1:]) + "/"
            # (an error goes on in the lines below it that are indented)
            whole = re.findall(rf"^(?:\./)?{re.escape(folder)}\S+: error: (.*(?:\n  .*)*)", self.text, re.M)
            found += [re.sub(r"\n +", " ", it) for it in whole]
        return found


def is_of_a_name(error):
    """Whether an error says no more than that a written answer names what is not there."""
    return re.search(r"has no (field )?`|has no `\S+` that can be named|was not checked", error) is not None


def judged(edit, said, alone):
    """What a check says of an edit: a word, and more of it; None where it has to be tried with fewer others."""
    functions = [it for path, name in edit.functions for it in said.of(path, name)]
    if edit.is_of_none():
        functions = [it for it in said.verdicts if not said.proves(it)]
        return ("refused", ", ".join(functions)[:160]) if functions else ("still proved", "")
    if not functions:
        return "not seen", "no function of its source is checked"
    if all(said.proves(it) for it in functions):
        return "still proved", ", ".join(functions)
    if said.waits_for(functions) and not alone:
        return None
    errors = said.errors(functions)
    told = [it for it in errors if not is_of_a_name(it)]
    if told:
        return "refused", told[0][:160]
    if edit.functions & said.open or not errors:
        goals = re.findall(r"`search` did not prove (.*?)(?:; |$)", "; ".join(said.verdicts[it] for it in functions))
        return "refused", ("a goal stays open: " + ", ".join(goals)).rstrip(": ")
    return "refused by a name", errors[0][:160]


class Tries:
    """The edits by hand of a crate as they are tried: what was said of each, and which are left."""

    def __init__(self, top, name):
        self.crate = top / "crates" / name
        self.name = name
        self.left = [Edit(edit, lines, self.crate) for edit, lines in by_hand(self.crate)]
        self.alone = {it for it in self.left if it.is_of_none()}
        self.words = {}

    def tell(self, edit, word, more=""):
        self.words[edit.name] = word
        print(f"{self.name} {edit.name}: {word}" + (f": {more}" if more else ""), flush=True)

    def choose(self):
        """Takes as many as can be tried in one check; what they make of the sources."""
        chosen, self.left = beside(self.left)
        if any(it in self.alone for it in chosen):
            first = next(it for it in chosen if it in self.alone)
            self.left += [it for it in chosen if it is not first]
            chosen = [first]
        texts, chosen, again = made_together(chosen, self.crate)
        self.left += again
        return texts, chosen

    def write(self, at, texts, chosen):
        for path in {path for it in self.left + chosen for path, _, _ in it.changes}:
            text = texts.get(path) or (self.crate / path).read_text(encoding="utf-8")
            (at / path).write_text(text, encoding="utf-8")

    def check_those_that_compile(self, at, texts, chosen):
        """What a check says of the chosen ones, without those that do not compile; which these are."""
        while True:
            self.write(at, texts, chosen)
            said = Said(check(at), texts, self.crate)
            if said.verdicts or not chosen:
                return said, chosen
            places = {(path, int(line)) for path, line in re.findall(r"(src/\S+?\.rt):(\d+):", said.text) if path in texts}
            wrong = [it for it in chosen if any(it.stands_at(path, line, texts) for path, line in places)]
            if not wrong and len(chosen) > 1:
                self.alone |= set(chosen)
                self.left = chosen + self.left
                return said, []
            for it in wrong or list(chosen):
                self.tell(it, "does not compile")
                chosen.remove(it)
            texts, chosen, again = made_together(chosen, self.crate)
            self.left += again

    def judge(self, said, chosen):
        """Tells what a check says of the chosen ones; one that waits for what another has changed comes first in the next check."""
        again = []
        for it in chosen:
            found = judged(it, said, len(chosen) == 1)
            if found is None:
                again.append(it)
            else:
                self.tell(it, *found)
        if len(again) == len(chosen):
            self.alone |= set(again)
        self.left = again + self.left


def together(top, name, until):
    """Tries the edits by hand of a crate, as many in one check as stand in different functions, and begins none after a time."""
    tries = Tries(top, name)
    with copied(top, name) as at:
        while tries.left and (until is None or datetime.datetime.now() < until):
            texts, chosen = tries.choose()
            said, chosen = tries.check_those_that_compile(at, texts, chosen)
            tries.judge(said, chosen)
            for path in list(texts):
                (at / path).write_text((tries.crate / path).read_text(encoding="utf-8"), encoding="utf-8")
    for it in tries.left:
        tries.tell(it, "not tried")
    return tries


def all_together(top, names, lanes, until):
    """Tries those of several crates, so many crates side by side; prints how many of each were refused, and who was not."""
    with concurrent.futures.ThreadPoolExecutor(lanes) as pool:
        tried = list(pool.map(lambda name: together(top, name, until), names))
    for it in tried:
        refused = list(it.words.values()).count("refused")
        print(f"{it.name}: {refused} refused, {len(it.words) - refused} not")
    survivors = [f"{it.name} {edit}: {word}" for it in tried for edit, word in it.words.items() if word != "refused"]
    for line in survivors:
        print(line)
    print(f"{sum(len(it.words) for it in tried) - len(survivors)} refused, {len(survivors)} not")
    return 1 if survivors else 0


def end_time(text):
    """The next time of the clock that reads HH:MM."""
    now = datetime.datetime.now()
    end = datetime.datetime.combine(now.date(), datetime.datetime.strptime(text, "%H:%M").time())
    return end if end > now else end + datetime.timedelta(days=1)


def main(words):
    parser = argparse.ArgumentParser(prog="tests/edits.sh", description="Tries wrong bodies that the prover has to refuse.")
    what = parser.add_mutually_exclusive_group(required=True)
    what.add_argument("--fits", action="store_true", help="look that each edit can be applied (seconds; proves nothing)")
    what.add_argument("--together", action="store_true", help="try the edits by hand, several in one check")
    what.add_argument("--bare", nargs=2, metavar=("NAME", "EDIT"), help="print the goals that an edit alone leaves open")
    parser.add_argument("-j", type=int, default=1, metavar="N", dest="lanes", help="so many crates side by side")
    parser.add_argument("--until", type=end_time, metavar="HH:MM", help="begin no check after this time")
    parser.add_argument("names", nargs="*", metavar="NAME", help="these crates; all, if left out")
    top, said = pathlib.Path(words[0]), parser.parse_args(words[1:])
    if said.fits:
        return fits(top)
    if said.bare:
        return bare(top, *said.bare)
    names = said.names or sorted(it.parents[1].name for it in top.glob(f"crates/*/{BY_HAND}"))
    return all_together(top, names, said.lanes, said.until)


if __name__ == "__main__":
    sys.exit(main(sys.argv[1:]))
