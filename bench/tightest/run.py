#!/usr/bin/env python3
"""Looks for the least times of stations, and says what `rcv tightest --bounds` answers, and what it takes.

The stations of `stations`, or of another folder, are made: what is asked for is the first within of each. The file
`figures` has a line for each, `<station> <steps> <least ms> <seconds> <failed> <seconds> <failed> <seconds> <failed>`: the
least time, and the processor seconds of another program, which is not verified, and how many plans failed in it: for
`verify --bounds` at the least time and a tick below together, for `tightest --bounds`, and for `tightest`; `late -` is more
than 20 seconds.

A least time is right where it is that of `figures`, where bench/checker/simulate.py says of the plan what is printed of its
run with that time put in, where the stored proof passes its check with a tick less and not with the least time itself, and
where `verify --bounds` finds a plan with the least time and none with a tick less. A search may take 20 processor seconds, or
40 where trains stand or signals have overlaps, and three times what these two searches take together; both bars are of
`tightest --bounds` alone.

Each line that is printed: the station, the steps, the least time, the processor seconds of the search, those of the two others,
the ratio, the lines of the proof that derive, its bounds, its cones, its bytes, the processor seconds of its check, and those
of the other program. The status is 1 where something is missed.
"""

import argparse
import os
import pathlib
import re
import subprocess
import sys
import tempfile
import tomllib

HERE = pathlib.Path(__file__).resolve().parent
TOP = HERE.parent.parent
BUDGETS = ["--conflicts", "10000000", "--ticks", "1000000000000"]
TIME = re.compile(rb"max_ms\s*=\s*\d+")
# Below so many seconds two searches are not told apart.
LEAST = 0.1
sys.path.append(str(TOP / "bench" / "checker"))

import simulate  # noqa: E402


def asked(wanted):
    """The stations, each with its steps, its least time, and the seconds and failed plans of the other program."""
    for line in (HERE / "figures").read_text().splitlines():
        station, steps, least, *others = line.split()
        if not wanted or any(word in station for word in wanted):
            yield station, int(steps), int(least), others


def measured(words, seconds):
    """What a program prints, or None where it takes longer, and its processor seconds."""
    limited = ["sh", "-c", f'ulimit -t {seconds}; exec "$0" "$@"', *map(str, words)]
    child = subprocess.Popen(limited, stdin=subprocess.DEVNULL, stdout=subprocess.PIPE, stderr=subprocess.DEVNULL)
    text = child.stdout.read().decode()
    status, used = os.wait4(child.pid, 0)[1:]
    child.returncode = 0
    return (None if os.WIFSIGNALED(status) else text), used.ru_utime + used.ru_stime


class Station:
    """A station with its steps, and the files of one run in a folder."""

    def __init__(self, given, name, steps, folder):
        self.program, self.steps, self.seconds = given.program, steps, given.seconds
        self.design = given.folder / f"{name}.toml"
        self.text = self.design.read_bytes()
        self.folder = pathlib.Path(folder)
        self.proof = self.folder / "proof"
        self.proof.unlink(missing_ok=True)
        read = tomllib.loads(self.text.decode())
        self.tick, self.version = read["tick_ms"], read["version"]

    def at(self, ms):
        """A file with the design whose first within has this greatest time."""
        path = self.folder / f"at{ms}.toml"
        path.write_bytes(TIME.sub(b"max_ms = %d" % ms, self.text, count=1))
        return path

    def tightest(self, flags):
        words = [self.program, "tightest", *flags, "--steps", self.steps, *BUDGETS, "--within", "1", self.design, self.proof]
        return measured(words, self.seconds)

    def verify(self, ms):
        """The first line of a search by bounds with this greatest time, and its seconds."""
        words = [self.program, "verify", "--bounds", "--steps", self.steps, *BUDGETS, self.at(ms), self.folder / "other"]
        text, spent = measured(words, 10 * self.seconds)
        return (text or "late").split("\n")[0], spent

    def check(self, ms):
        """What a check of the stored proof says with this time put in, and its seconds."""
        words = [self.program, "check", "--within", "1", "--max-ms", ms, "--steps", self.steps, self.design, self.proof]
        text, spent = measured(words, 10 * self.seconds)
        return (text or "late").strip(), spent

    def is_told(self, printed, ms):
        """Whether the run of the plan that is printed is the one that bench/checker/simulate.py tells with this time."""
        head, steps, plan, timetable = printed.split("\n", 3)
        path = self.folder / "plan"
        path.write_text(plan)
        return timetable == simulate.text_of(self.at(ms), path)


def wrong(station, printed, least):
    """What is wrong with what is printed and stored of a least time; and the seconds of the two checks and searches."""
    found, below = [], least - station.tick
    if not station.is_told(printed, least):
        found.append("another run")
    passed, checked = station.check(below)
    if passed != f"yes steps {station.steps}":
        found.append(f"check {passed}")
    if not station.check(least)[0].startswith("no "):
        found.append("passes with the least time too")
    plan, one = station.verify(least)
    none, other = station.verify(below)
    if not plan.startswith("plan steps ") or none != f"infeasible steps {station.steps}":
        found.append(f"verify {plan}, {none}")
    return found, checked, one + other


def lines_of(proof, kind):
    return sum(line[:2] == kind for line in proof.split(b"\n"))


def tried(given, station, least, others):
    """A line about a station, and what is missed."""
    flags = [] if given.plain else ["--bounds"]
    printed, spent = station.tightest(flags)
    first = (printed or "late").split("\n")[0]
    told = others[4:6] if given.plain else others[2:4]
    beside = f"another program {told[0]} ({told[1]}), twice {others[0]} ({others[1]})"
    line = f"{station.design.stem:24} {station.steps:3} {first:32} {spent:7.2f} s"
    if first != f"tightest within 1 ms {least}":
        return f"{line}; {beside}", [f"not {least}"]
    missed, checked, twice = wrong(station, printed, least)
    ratio = spent / max(twice, LEAST)
    proof = station.proof.read_bytes() if station.proof.exists() else b""
    kinds = " ".join(str(lines_of(proof, kind)) for kind in (b"d ", b"b ", b"r "))
    if not given.plain and spent > (40 if station.version > 2 else 20):
        missed.append("late")
    if not given.plain and spent > LEAST and ratio > 3:
        missed.append("more than three times")
    return f"{line}, verify twice {twice:.2f} s, ratio {ratio:.1f}; {kinds} {len(proof)} bytes, check {checked:.2f} s; {beside}", missed


def main():
    parser = argparse.ArgumentParser(description=__doc__, formatter_class=argparse.RawDescriptionHelpFormatter)
    parser.add_argument("--program", default=TOP / "rcv")
    parser.add_argument("--folder", type=pathlib.Path, default=HERE / "stations", help="the folder with the stations")
    parser.add_argument("--seconds", type=int, default=60, help="the limit on processor seconds of a search")
    parser.add_argument("--plain", action="store_true", help="without --bounds")
    parser.add_argument("stations", nargs="*", help="parts of names")
    given = parser.parse_args()
    many = faults = 0
    for name, steps, least, others in asked(given.stations):
        with tempfile.TemporaryDirectory() as folder:
            line, missed = tried(given, Station(given, name, steps, folder), least, others)
        print(line + ("  MISSED: " + ", ".join(missed) if missed else ""), flush=True)
        many, faults = many + 1, faults + bool(missed)
    print(f"{many} stations, {faults} missed")
    return faults > 0


if __name__ == "__main__":
    sys.exit(main())
