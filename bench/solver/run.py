#!/usr/bin/env python3
"""Solves made clauses with the solver of the project, and says how many lines and seconds each takes.

The program `solve_clauses` is proved and built first where it is not built yet or a source is newer. The instances are
made from fixed seeds in a temporary folder, and from stations of `bench/stations`. With `--peers`, `minisat` and `cadical` solve
each instance too, one after the other, where they are on the path. The status is 1 where an instance fails, as where a recorded
line does not follow, or where two answers differ; one that is late has not failed.
"""

import argparse
import pathlib
import random
import re
import shutil
import subprocess
import sys
import tempfile
import time

import clauses as stations

TOP = pathlib.Path(__file__).resolve().parent.parent.parent
CRATE = TOP / "crates" / "solve_clauses"
PROGRAM = CRATE / "out" / "solve_clauses"
ANSWER = re.compile(r"(sat|unsat|spent) lines ([0-9]+)\n")


def sources():
    """Every file that the program is made of."""
    yield TOP / "crates.txt"
    for part in ("src", "specs", "proofs"):
        for folder in (TOP / "crates").glob(f"*/{part}"):
            yield from (path for path in folder.rglob("*") if path.is_file())


def build():
    """Proves and builds the program where it is not there or a source is newer."""
    if PROGRAM.exists():
        made = PROGRAM.stat().st_mtime
        if all(path.stat().st_mtime <= made for path in sources()):
            return
        PROGRAM.unlink()
    done = subprocess.run(["rt", "run"], cwd=CRATE, stdin=subprocess.DEVNULL, stdout=subprocess.PIPE, stderr=subprocess.STDOUT)
    if not PROGRAM.exists():
        sys.stderr.buffer.write(done.stdout)
        sys.exit(1)


def pigeons(birds, holes):
    """Each bird has a hole, and no two have the same one: unsatisfiable where the birds are more."""
    def var(bird, hole):
        return bird * holes + hole + 1

    clauses = [[var(bird, hole) for hole in range(holes)] for bird in range(birds)]
    for hole in range(holes):
        for one in range(birds):
            clauses += [[-var(one, hole), -var(other, hole)] for other in range(one + 1, birds)]
    return birds * holes, clauses


def random_clauses(seed, variables, count):
    """Clauses of three different variables, each negated or not."""
    source = random.Random(seed)
    clauses = []
    for _ in range(count):
        chosen = source.sample(range(1, variables + 1), 3)
        clauses.append([var if source.random() < 0.5 else -var for var in chosen])
    return variables, clauses


# Stations with the steps that are asked for and those of the shortest plan.
STATIONS = (
    ("cross-3-slack", 6, 6), ("cross-4-slack", 8, 8), ("meet-5-slack", 6, 6), ("meet-7-slack", 8, 8), ("meet-8-slack", 9, 8),
    ("line-3-slack", 12, 9), ("longline-4-slack", 13, 13), ("terminus-5-slack", 11, 10), ("yard-8-slack", 6, 5),
)


def instances(most):
    """The name, the number of variables and the clauses of each; random ones have at most so many variables."""
    for birds in (7, 8, 9):
        yield (f"pigeons {birds} in {birds - 1}", *pigeons(birds, birds - 1))
    for variables in (120, 150, 175, 200, 250):
        if variables <= most:
            for seed in range(20 if variables == 120 else 10):
                yield (f"random {variables} seed {seed}", *random_clauses(seed, variables, round(4.2 * variables)))
    for station, steps, fewest in STATIONS:
        path = TOP / "bench" / "stations" / f"{station}.toml"
        yield (f"{station} by {fewest}", *stations.formula(path, steps, fewest))
        yield (f"{station} by {fewest - 1}", *stations.formula(path, steps, fewest - 1))


def solve(path, conflicts, limit):
    """The answer, the number of lines and the seconds. The answer is `late` past the limit, and None where the run failed."""
    begin = time.monotonic()
    try:
        done = subprocess.run([PROGRAM, str(conflicts), path], stdin=subprocess.DEVNULL, capture_output=True, text=True, timeout=limit)
    except subprocess.TimeoutExpired:
        return "late", "-", time.monotonic() - begin
    seconds = time.monotonic() - begin
    found = ANSWER.fullmatch(done.stdout)
    if done.returncode != 0 or found is None:
        return None, f"status {done.returncode}: {done.stdout.strip()}", seconds
    return found[1], found[2], seconds


def peer(name, path, limit):
    """What another solver answers, and its seconds."""
    begin = time.monotonic()
    try:
        done = subprocess.run([name, path], stdin=subprocess.DEVNULL, stdout=subprocess.DEVNULL, stderr=subprocess.DEVNULL, timeout=limit)
    except subprocess.TimeoutExpired:
        return "late", limit
    return {10: "sat", 20: "unsat"}.get(done.returncode, "failed"), time.monotonic() - begin


def main():
    words = argparse.ArgumentParser(description=__doc__)
    words.add_argument("--conflicts", type=int, default=200_000, help="how many lines an instance may derive")
    words.add_argument("--limit", type=float, default=60, help="how many seconds an instance may take, after which it is late")
    words.add_argument("--most", type=int, default=200, help="how many variables random clauses may have")
    words.add_argument("--peers", action="store_true", help="whether minisat and cadical solve each instance too")
    given = words.parse_args()
    peers = [name for name in ("minisat", "cadical") if given.peers and shutil.which(name)]
    build()
    counts = {"sat": 0, "unsat": 0, "spent": 0, "late": 0}
    failed = 0
    total = 0.0
    print(f"{'name':<24}{'answer':<8}{'lines':>8}{'seconds':>10}" + "".join(f"{name:>10}" for name in peers))
    with tempfile.TemporaryDirectory() as folder:
        path = pathlib.Path(folder) / "clauses.cnf"
        for name, variables, clauses in instances(given.most):
            path.write_text(stations.written(variables, clauses))
            answer, lines, seconds = solve(path, given.conflicts, given.limit)
            total += seconds
            if answer is None:
                failed += 1
                print(f"{name:<24}failed: {lines} ({seconds:.2f} seconds)", flush=True)
            else:
                counts[answer] += 1
                others = [peer(other, path, given.limit) for other in peers]
                if {answer, *(other for other, _ in others)} >= {"sat", "unsat"}:
                    failed += 1
                told = "".join(f"{passed:>10.2f}" for _, passed in others)
                print(f"{name:<24}{answer:<8}{lines:>8}{seconds:>10.2f}{told}", flush=True)
    told = ", ".join(f"{answer} {count}" for answer, count in counts.items())
    print(f"{told}, failed {failed}, all {sum(counts.values()) + failed}, seconds {total:.2f}")
    sys.exit(1 if failed else 0)


if __name__ == "__main__":
    main()
