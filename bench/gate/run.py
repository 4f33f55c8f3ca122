#!/usr/bin/env python3
"""Says what the check of each crate takes in a run of the gate, and what the longest chain of crates takes.

  bench/gate/run.py [COMMAND ..]     runs the command at the top of the checkout, `rt ci --anew` where none is given, writes what it
                                     prints to standard error, and then a row for each crate to standard output

Once a second it looks at which provers run, of which crate, and how much processor time each has taken; so what begins and ends
between two looks is not seen. The chain is that of the wall times of the crates' own proofs, each behind those of the crates below.
"""
import os
import subprocess
import sys
import threading
import time

TOP = os.path.dirname(os.path.dirname(os.path.dirname(os.path.abspath(__file__))))
TICK = os.sysconf("SC_CLK_TCK")
KINDS = ("proof", "tests", "edits", "compiling")


def crates(top=TOP):
    """The crates of crates.txt with the crates of the repository that each stands on."""
    rows = [line.partition("#")[0].strip() for line in open(f"{top}/crates.txt", encoding="utf-8")]
    below = {name.strip(): deps.split() for name, _, deps in (row.partition(":") for row in rows if row)}
    return {name: [dep for dep in deps if dep in below] for name, deps in below.items()}


def provers():
    """For each prover that runs now: its number with when it began, its crate, what it does, and its processor seconds."""
    for pid in filter(str.isdigit, os.listdir("/proc")):
        try:
            words = open(f"/proc/{pid}/cmdline", "rb").read().decode(errors="replace").split("\0")
            if "--crate-name" not in words or not words[0].endswith("/rattle"):
                continue
            folder = os.readlink(f"/proc/{pid}/cwd")
            fields = open(f"/proc/{pid}/stat", encoding="utf-8", errors="replace").read().rpartition(") ")[2].split()
        except OSError:
            continue
        kind = (
            "edits" if os.path.basename(folder).startswith("rt-edit-")
            else "tests" if "--test" in words
            else "compiling" if "--crate-checked" in words
            else "proof"
        )
        yield (pid, fields[19]), words[words.index("--crate-name") + 1], kind, (int(fields[11]) + int(fields[12])) / TICK


class Watch:
    """What was seen of the provers of a run."""

    def __init__(self):
        self.start, self.seconds, self.first, self.last = time.time(), {}, {}, {}

    def look(self):
        now = time.time() - self.start
        for prover, crate, kind, seconds in provers():
            self.seconds[crate, kind, prover] = seconds
            self.first.setdefault((crate, kind), now)
            self.last[crate, kind] = now

    def processor(self, crate, kind):
        return sum(seconds for (name, what, _), seconds in self.seconds.items() if (name, what) == (crate, kind))

    def wall(self, crate):
        return self.last.get((crate, "proof"), 0) - self.first.get((crate, "proof"), 0)

    def table(self, below):
        rows = [("crate", "from", "to", *KINDS)]
        names = sorted(below, key=lambda it: -sum(self.processor(it, kind) for kind in KINDS))
        for name in names:
            times = [f"{self.processor(name, kind):.0f}" for kind in KINDS]
            rows.append((name, f"{self.first.get((name, 'proof'), 0):.0f}", f"{self.last.get((name, 'proof'), 0):.0f}", *times))
        sums = [f"{sum(self.processor(name, kind) for name in below):.0f}" for kind in KINDS]
        rows.append(("all", "0", f"{time.time() - self.start:.0f}", *sums))
        return rows

    def chain(self, below):
        """The chain of crates whose own proofs take longest, one behind the other."""
        longest = {}

        def to(name):
            if name not in longest:
                best = max((to(dep) for dep in below[name]), default=(0, []))
                longest[name] = (best[0] + self.wall(name), [*best[1], name])
            return longest[name]

        return max(to(name) for name in below)


def main(words):
    below, watch, ended = crates(), Watch(), threading.Event()

    def looks():
        while not ended.wait(1):
            watch.look()

    looking = threading.Thread(target=looks)
    looking.start()
    status = subprocess.run(words or ["rt", "ci", "--anew"], cwd=TOP, stdout=sys.stderr).returncode
    ended.set()
    looking.join()
    for row in watch.table(below):
        print("| " + " | ".join(row) + " |")
    seconds, names = watch.chain(below)
    print(f"\nThe longest chain takes {seconds:.0f} s: {' '.join(f'{name} {watch.wall(name):.0f}' for name in names)}")
    print(f"status {status}")
    return status


if __name__ == "__main__":
    sys.exit(main(sys.argv[1:]))
