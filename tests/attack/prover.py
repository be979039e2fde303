"""What tests/attack/mutants and tests/attack/run share: copies of the repository in which code is changed, the prover run over them, and what it
says read."""
import os
import queue
import re
import shutil
import subprocess
import sys
from collections import namedtuple
from concurrent.futures import ThreadPoolExecutor
from contextlib import contextmanager
from pathlib import Path

import rattle_mutants

ROOT = Path(__file__).resolve().parents[2]
# the function (or else the file) that an error belongs to, where it stands, and its text
Error = namedtuple("Error", "owner place text")
# what one check said: its exit status, its words, and of each function that has no proof why not
Said = namedtuple("Said", "status words unproved")
# a function that the check did not prove; what is said of structs and enums is no matter here
UNPROVED = re.compile(r"^fn (\w+)::(\S+): (?:(?:not proved|no proof|could not tell)(?:: (.*))?)$", re.M)
# it says no more than that something which it calls was not proved
RESTS = re.compile(r"it calls `[^`]*`, which is not proved")
# an error's further lines are set in by two spaces; of a proof that rattle makes itself there are notes on what it cannot show
ERROR = re.compile(
    r"^(?:note: (?=\S+: (?:error\b|it is not proved that )))?(?:\./)?(\S+?\.(?:rt|antt)):(\d+):(\d+): "
    r"(?=error|it is not proved)(?:error(?:\[\S+\])?: )?(.*(?:\n  .*)*)", re.M)
# what the prover says where a proof's text does not fit the code any more, and no fact is asked for (rt must-fail goes by the same words)
UNFIT = re.compile(r"has no field|is not in scope|has no `|was not admitted")


def listed_crates():
    """The crates of crates.txt, without what may stand after a name."""
    lines = (ROOT / "crates.txt").read_text().splitlines()
    return [line.split(":")[0].split()[0] for line in lines if ":" in line.split("#")[0]]


def copy_of_head(tree):
    """A copy of HEAD's crates, without their wrong programs."""
    tree.mkdir()
    archive = subprocess.run(["git", "archive", "HEAD", "crates", "crates.txt"], cwd=ROOT, check=True, capture_output=True).stdout
    subprocess.run(["tar", "-x", "-C", tree], input=archive, check=True)
    for folder in (tree / "crates").glob("*/must-fail"):
        shutil.rmtree(folder)
    return tree


class Trees:
    """Copies of HEAD, one for each job. rt check begins there with what checks in other copies on this machine kept."""

    def __init__(self, room, jobs, prepare=None):
        first = copy_of_head(room / "0")
        if prepare:
            prepare(first)
        self.all = [first] + [shutil.copytree(first, room / str(k)) for k in range(1, jobs)]
        self.free = queue.Queue()
        for tree in self.all:
            self.free.put(tree)

    def each(self, task, items):
        """task(tree, item) of each item, as many at a time as there are trees, in the order of the items."""
        def run(item):
            tree = self.free.get()
            try:
                return task(tree, item)
            finally:
                self.free.put(tree)
        with ThreadPoolExecutor(len(self.all)) as pool:
            yield from pool.map(run, items)

    def prove(self, crate):
        """Has each tree check the crate's true code, one after the other so that the later ones begin with what the first kept, and keeps the folders of
        checked modules to start from."""
        for tree in self.all:
            said = check(tree, crate)
            if said.status != 0:
                sys.exit(f"{crate} is not proved as it stands:\n{said.words[-2000:]}")
            shutil.rmtree(tree / "proved", ignore_errors=True)
            copy_kept(kept_of(tree, crate), tree / "proved")


def kept_of(tree, crate):
    """Where rt check keeps the modules that it checked."""
    return tree / "crates" / crate / "out/incremental"


def copy_kept(folder, to):
    """Copies such a folder; a checked module gets a second name alone, as a check puts another file in its place and writes into none."""
    def one(a, b):
        return os.link(a, b) if a.endswith(".oantt") else shutil.copy2(a, b)
    shutil.copytree(folder, to, copy_function=one)


def ran(tree, crate, *words, **env):
    done = subprocess.run(["rt", *words], cwd=tree / "crates" / crate, capture_output=True, text=True, env={**os.environ, **env})
    said = done.stdout + done.stderr
    return Said(done.returncode, said, {name: why for of, name, why in UNPROVED.findall(said) if of == crate})


def check(tree, crate):
    """What the prover says of the crate as it stands in the tree."""
    return ran(tree, crate, "check", "--jobs", "1")


def compiles(tree, crate):
    """What the compiler's front end says: of no function is a proof asked."""
    return ran(tree, crate, "check", "--jobs", "1", "--only", "")


def check_over_proved(tree, crate):
    """The same as check, over the modules of the true code that what was changed leaves as they were."""
    shutil.rmtree(kept_of(tree, crate), ignore_errors=True)
    copy_kept(tree / "proved", kept_of(tree, crate))
    return check(tree, crate)


def check_from_nothing(tree, crate):
    """The same, over nothing but the libraries below. `rt check` would begin with what another copy kept, and so rt ci is asked, which does not; it
    wants files as rt fmt lays them out."""
    ran(tree, crate, "fmt")
    done = subprocess.run(["rt", "ci", crate], cwd=tree, capture_output=True, text=True, env={**os.environ, "RT_JOBS": "1", "CI": ""})
    said = done.stdout + done.stderr
    return Said(done.returncode, said, {name: why for of, name, why in UNPROVED.findall(said) if of == crate})


def check_twice(tree, crate):
    """The same; what seems to pass is checked again from nothing."""
    said = check_over_proved(tree, crate)
    return check_from_nothing(tree, crate) if said.status == 0 else said


@contextmanager
def changed(tree, texts):
    """The tree with other texts in its files, by their paths, for a while."""
    true = {path: (tree / path).read_text() for path in texts}
    try:
        for path, text in texts.items():
            (tree / path).write_text(text)
        yield
    finally:
        for path, text in true.items():
            (tree / path).write_text(text)


def owner(tree, crate, path, line):
    """The function, with the module that it is in, whose proof or source this is; else the file, a path in the crate's folder."""
    parts = path.split("/")
    if parts[0] == "proofs" and parts[-1] in ("Proof.antt", "Answers.antt", "Invariants.antt"):
        return "::".join(parts[1:-1])
    if parts[0] == "src":
        return function_in(path, rattle_mutants.function_at((tree / "crates" / crate / path).read_text(), line))
    return path


def function_in(path, function):
    """A function's name with the module that its file is."""
    module = Path(path).stem
    return function if module in ("lib", "main") else f"{module}::{function}"


def errors(tree, crate, said):
    """The errors in what the prover said, while the tree is as it was checked."""
    found = []
    for file, line, column, text in ERROR.findall(said.words):
        path = file.replace(f"{tree}/crates/{crate}/", "")
        found.append(Error(owner(tree, crate, path, int(line)), f"{crate}/{path}:{line}:{column}", text))
    return found


def of_function(found, function):
    return [error for error in found if error.owner == function]


def is_text(found):
    """Whether all that these errors say is that a proof's text does not fit; where there is none, nothing is known of a fact."""
    return all("/proofs/" in error.place and UNFIT.search(" ".join(error.text.split())) for error in found)


def rests_on_another(why):
    """Whether a function has no proof for no more reason than that one which it calls has none."""
    return bool(RESTS.search(why))


def first(found, said):
    """The first error in short: its function, place and first line; the last line of what was said where there is none."""
    return f"{found[0].owner}: {found[0].place}: {found[0].text.splitlines()[0][:160]}" if found else said.words.strip().splitlines()[-1][:160]
