#!/usr/bin/env python3
"""Runs worked examples with each call for memory refused in turn, and says how each run ended.

A run has to end with status 6 or as the run with ample memory does. What it prints is a front by whole lines of what that one
prints, PROOF is as before or holds a file that `check` accepts, every other file is as before, no part is left, and nothing
stands on standard error. The status is 1 where some run does not keep to this. Needs `gcc`, and a program that takes the C
library's memory and is linked to it dynamically.
"""

import argparse
import collections
import mmap
import multiprocessing
import os
import pathlib
import subprocess
import sys
import tempfile
import tomllib

HERE = pathlib.Path(__file__).resolve().parent
TOP = HERE.parent.parent
DATA = TOP / "crates" / "rail_vectors" / "data"

OLDER = b"rcvlog 1\nan older file\n"

Example = collections.namedtuple("Example", "name files words")
Ended = collections.namedtuple("Ended", "status text error proof names")
Setting = collections.namedtuple("Setting", "program library example older all_later")

# The file of worked examples and the name there, and which of its commands; and of some, words that take the place of the command.
CHOSEN = (
    ("simulations", "one train over two sections", 0, None),
    ("simulations", "two trains, one after the other", 0, None),
    ("routes", "two sections with a signal between them", 0, None),
    ("searches", "a greatest time that just holds", 0, None),
    ("searches", "a greatest time one millisecond shorter", 0, None),
    ("searches", "a greatest time one millisecond shorter", 0, "--bounds"),
    ("checks", "a train that is not through in time", 0, None),
    ("bounds", "a second train that is through 17 ticks after the first entered, counted from there", 0, None),
    ("trials", "seed 0", 0, None),
)


def row_named(book, name):
    """The worked example of this name in a file of them."""
    with open(DATA / f"{book}.toml", "rb") as file:
        rows = tomllib.load(file)["row"]
    return next(row for row in rows if row["name"] == name)


def files_of(row):
    """The files of a worked example, by name."""
    files = {}
    if "station" in row:
        text = (DATA / "stations" / f"{row['station']}.toml").read_text()
        if "replaced" in row:
            text = text.replace(row["replaced"], row["by"])
        files["design.toml"] = text.encode()
    for key, name in (("plan", "plan.json"), ("proof", "proof.txt")):
        if key in row:
            files[name] = row[key].encode()
    return files


def examples():
    """The worked examples that are run."""
    for book, name, number, option in CHOSEN:
        row = row_named(book, name)
        words = row["command"][number]["words"].split()
        if option:
            words[-2:-2] = [option]
        yield Example(f"{words[0]}: {name}{f' {option}' if option else ''}", files_of(row), words)


def lay_out(folder, files):
    """Makes the folder hold these files and no other."""
    for name in os.listdir(folder):
        if name not in files:
            os.remove(os.path.join(folder, name))
    for name, held in files.items():
        path = pathlib.Path(folder, name)
        if not path.is_file() or path.read_bytes() != held:
            path.write_bytes(held)


def run(program, words, folder, counted=None):
    """How a run of the program in the folder ends."""
    child = subprocess.run([program, *words], cwd=folder, env=counted or {}, stdin=subprocess.DEVNULL, capture_output=True)
    proof = pathlib.Path(folder, "proof.txt")
    names = tuple(sorted(os.listdir(folder)))
    return Ended(child.returncode, child.stdout, child.stderr, proof.read_bytes() if proof.is_file() else None, names)


class Bench:
    """A folder in which the runs of one setting are made one after the other."""

    def __init__(self, setting, folder):
        self.setting = setting
        self.folder = os.path.join(folder, "files")
        self.counter = os.path.join(folder, "count")
        os.mkdir(self.folder)
        pathlib.Path(self.counter).write_bytes(bytes(8))
        with open(self.counter, "r+b") as file:
            self.count = mmap.mmap(file.fileno(), 8)
        self.files = dict(setting.example.files)
        if setting.older and setting.example.words[0] == "verify":
            self.files["proof.txt"] = OLDER
        self.accepted = set()

    def ended(self, number):
        """How the run ends whose call of this number is refused, and how many calls there were."""
        lay_out(self.folder, self.files)
        self.count[:8] = bytes(8)
        counted = {"LD_PRELOAD": self.setting.library, "COUNTED": self.counter, "REFUSED": str(number)}
        if self.setting.all_later:
            counted["ALL_LATER"] = "1"
        ended = run(self.setting.program, self.setting.example.words, self.folder, counted)
        return ended, int.from_bytes(self.count[:8], sys.byteorder)

    def is_accepted(self, proof):
        """Whether `check` accepts a proof that a search of the example stored."""
        if proof not in self.accepted:
            words = self.setting.example.words
            steps = words[words.index("--steps") + 1]
            told = run(self.setting.program, ["check", "--steps", steps, *words[-2:]], self.folder)
            if (told.status, told.text) == (0, f"yes steps {steps}\n".encode()):
                self.accepted.add(proof)
        return proof in self.accepted

    def faults(self, ended, ample):
        """What is wrong with how a run ended."""
        before = self.files.get("proof.txt")
        if ended.status not in (6, ample.status):
            yield f"status {ended.status}"
        if ended.status != 6 and ended.text != ample.text:
            yield f"prints {ended.text[:200]!r}"
        if not is_front(ended.text, ample.text):
            yield f"prints no front by whole lines: {ended.text[-80:]!r}"
        if ended.error:
            yield f"on standard error: {ended.error[:200]!r}"
        if ended.status != 6 and (ended.proof == before) != (ample.proof == before):
            yield "PROOF is not as with ample memory"
        if ended.proof != before and not self.is_accepted(ended.proof):
            yield "PROOF holds what no check accepts"
        if set(ended.names) - {"proof.txt"} != set(self.files) - {"proof.txt"}:
            yield f"the folder holds {' '.join(ended.names)}"
        for name, held in self.files.items():
            if name != "proof.txt" and pathlib.Path(self.folder, name).read_bytes() != held:
                yield f"{name} is not as before"


def is_front(text, whole):
    """Whether a text is a front of another by whole lines."""
    return whole.startswith(text) and (not text or text.endswith(b"\n"))


def kind_of(ended, ample):
    """How a run ended, in a word."""
    if ended.status == 6:
        return "a front" if ended.text else "nothing"
    return "ample" if ended.status == ample.status else "other"


def run_part(part):
    """How many runs of these numbers ended in each way, and the faults."""
    setting, numbers = part
    kinds = collections.Counter()
    faults = []
    with tempfile.TemporaryDirectory(dir=scratch()) as folder:
        bench = Bench(setting, folder)
        ample, _ = bench.ended(0)
        for number in numbers:
            ended, _ = bench.ended(number)
            kinds[kind_of(ended, ample)] += 1
            faults += [f"call {number}: {fault}" for fault in bench.faults(ended, ample)]
    return kinds, faults


def scratch():
    """A folder in memory, where there is one."""
    return "/dev/shm" if os.path.isdir("/dev/shm") else None


def calls_of(setting):
    """How many calls for memory the run makes, and what is wrong with it."""
    with tempfile.TemporaryDirectory(dir=scratch()) as folder:
        bench = Bench(setting, folder)
        ample, calls = bench.ended(0)
        plain = run(setting.program, setting.example.words, bench.folder)
        faults = list(bench.faults(ample, ample))
        if (plain.status, plain.text) != (ample.status, ample.text):
            faults.append("the run that is counted ends in another way than the one that is not")
        if calls == 0:
            faults.append("no call is counted: is the program linked to the C library dynamically?")
        return calls, faults


def settings(given, library):
    """Each example with each way to refuse, and of a search without and with an older proof."""
    for example in examples():
        if given.only not in example.name:
            continue
        for older in (False, True) if example.words[0] == "verify" else (False,):
            for all_later in (False, True):
                yield Setting(os.path.abspath(given.program), library, example, older, all_later)


def compiled(folder):
    """The library that counts and refuses."""
    library = os.path.join(folder, "refuse.so")
    subprocess.run(["gcc", "-O2", "-Wall", "-shared", "-fPIC", "-o", library, HERE / "refuse.c"], check=True)
    return library


def show(setting, calls, kinds, faults):
    """Prints a line about a setting, and one about each fault."""
    older = "older" if setting.older else "none"
    refused = "and later" if setting.all_later else "alone"
    counts = " ".join(f"{kinds[kind]:>8}" for kind in ("nothing", "a front", "ample", "other"))
    print(f"{setting.example.name:91} {older:>6} {refused:>10} {calls:>8} {counts} {len(faults):>7}", flush=True)
    for fault in faults:
        print(f"    {fault}", flush=True)


def main():
    words = argparse.ArgumentParser(description=__doc__)
    words.add_argument("--program", default=str(TOP / "crates" / "rcv" / "out" / "rcv"), help="the program to run, as it is built")
    words.add_argument("--jobs", type=int, default=1, help="how many runs are made at the same time")
    words.add_argument("--every", type=int, default=1, metavar="K", help="refuse only every Kth call")
    words.add_argument("--only", default="", help="examples whose names have these words")
    given = words.parse_args()
    if not os.access(given.program, os.X_OK):
        words.error(f"{given.program} is not built yet; ./rcv builds it")
    total = wrong = 0
    heads = " ".join(f"{head:>8}" for head in ("nothing", "a front", "ample", "other"))
    print(f"{'example':91} {'PROOF':>6} {'refused':>10} {'calls':>8} {heads} {'faults':>7}", flush=True)
    with tempfile.TemporaryDirectory() as folder, multiprocessing.Pool(given.jobs) as pool:
        for setting in settings(given, compiled(folder)):
            calls, faults = calls_of(setting)
            numbers = range(1, calls + 1, given.every)
            parts = [(setting, numbers[start::given.jobs]) for start in range(given.jobs)]
            kinds = collections.Counter()
            for more, found in pool.imap_unordered(run_part, parts):
                kinds += more
                faults += found
            show(setting, calls, kinds, faults)
            total += len(numbers)
            wrong += len(faults)
    print(f"{total} runs, {wrong} faults")
    return wrong > 0


if __name__ == "__main__":
    sys.exit(main())
