#!/usr/bin/env python3
"""Looks for plans of the stations of `bench/stations`, and says what `rcv verify` answers, how long it takes and what it derives.

Each line: the station, the steps, the answer, the seconds and, where a proof is stored, its derived lines, its bounds and its
cones (each of a plan that failed), how many literals their clauses have on average, its bytes, and the seconds of its check. With
`--bounds` plans that fail are excluded by bounds where one is found, with `--any` a plan of any number of steps will do, and
with `--normal` only plans are looked at in which no command could be given a step earlier. The file `figures` has a line
`<station> <steps> <answer> <lines>` for each, where `lines` may be `-`; the status is 1 where an answer differs from it, a search
takes longer than its seconds, or derives more than three times the lines, or a proof does not pass its check.

With `--dwell` the stations are those of `bench/stations/dwell`, whose trains stand at their platforms, looked for with
`--bounds`. A line then says how many plans failed, and behind the seconds and that number those of another program, from
`figures_dwell`, which has `<station> <steps> <answer> <seconds> <failed>`. Of a plan, what is printed of its run has to be
what bench/checker/simulate.py says of it. With `--overlap` they are those of `bench/stations/overlap`, whose signals have
overlaps, with `figures_overlap`; where this has `late -` for the other program, a search that is late here is no fault.
"""

import argparse
import os
import pathlib
import re
import subprocess
import sys
import tempfile
import time

TOP = pathlib.Path(__file__).resolve().parent.parent.parent
STATIONS = TOP / "bench" / "stations"
FIGURES = pathlib.Path(__file__).resolve().parent / "figures"
sys.path += [str(TOP / "bench" / "solver"), str(TOP / "bench" / "checker")]

import simulate  # noqa: E402
from clauses import Station  # noqa: E402


def asked():
    """The stations, each with its steps, its answer and the lines that a search may take."""
    for line in FIGURES.read_text().splitlines():
        station, steps, answer, lines = line.split()
        answer = answer.replace("_", " ")
        yield station, int(steps), answer, None if lines == "-" else int(lines)


def asked_in(folder):
    """The stations of a folder, each with its steps, its answer, and the seconds and failed plans of another program."""
    for line in FIGURES.with_name(f"figures_{folder}").read_text().splitlines():
        station, steps, answer, seconds, failed = line.split()
        yield station, int(steps), answer.replace("_", " "), seconds, failed


def verify(program, station, steps, flags, seconds, folder):
    """The first line of one search, its seconds, the text of its proof, and all that it printed and told."""
    proof = pathlib.Path(folder) / "proof"
    proof.unlink(missing_ok=True)
    budgets = ["--conflicts", "10000000", "--ticks", "1000000000000"] + flags
    begin = time.monotonic()
    try:
        done = subprocess.run(
            [program, "verify", "--steps", str(steps), *budgets, STATIONS / f"{station}.toml", proof],
            stdin=subprocess.DEVNULL, stdout=subprocess.PIPE, stderr=subprocess.PIPE, timeout=seconds,
        )
    except subprocess.TimeoutExpired:
        return "late", seconds, "", "", ""
    passed = time.monotonic() - begin
    printed = done.stdout.decode()
    first = printed.split("\n", 1)[0]
    return first, passed, proof.read_text() if proof.exists() else "", printed, done.stderr.decode()


def check(program, station, steps, folder):
    """Whether the stored proof passes its check, and the seconds."""
    begin = time.monotonic()
    done = subprocess.run(
        [program, "check", "--steps", str(steps), STATIONS / f"{station}.toml", pathlib.Path(folder) / "proof"],
        stdin=subprocess.DEVNULL, stdout=subprocess.PIPE, stderr=subprocess.DEVNULL,
    )
    return done.stdout.decode() == f"yes steps {steps}\n", time.monotonic() - begin


def cone_of(numbers):
    """The trains of a cone, each with its path and how many commands of it are free, and its listed pairs."""
    place = next(i for i, word in enumerate(numbers) if word in "tp")
    trains, pairs = {}, set()
    while place < len(numbers):
        if numbers[place] == "p":
            first, second = numbers[place + 1:place + 3], numbers[place + 3:place + 5]
            pairs.add((tuple(map(int, first)), tuple(map(int, second))))
            place += 5
        else:
            train, _, free = map(int, numbers[place + 1:place + 4])
            end = numbers.index("0", place + 4)
            trains[train] = (free, [int(route) for route in numbers[place + 4:end]])
            place = end + 3
    return trains, pairs


def bound_of(line):
    """The requirement of a bound, its origin, and its legs: each the train, and of each place the routes, those kept out, and whether it is named."""
    words = line.split()
    place = 3 if words[1] in ("within", "order") else 4
    required, begin = words[1:place], place
    while words[place] not in "lo":
        place += 1
    origin, legs = words[begin:place], []
    while place < len(words):
        if words[place] in "lo":
            legs.append((int(words[place + 1]), []))
            place += 2
        elif words[place] == "n":
            legs[-1][1].append(([int(words[place + 1])], [], True))
            place += 2
        else:
            end = words.index("0", place)
            last = words.index("0", end + 1)
            legs[-1][1].append(([int(r) for r in words[place + 1:end]], [int(r) for r in words[end + 1:last]], False))
            place = last + 1
    return required, origin, legs


def literals_of_bound(station, line):
    """How many literals the clause of a bound has."""
    required, origin, legs = bound_of(line)
    said = set()
    for train, places in legs:
        for own, without, named in places:
            said |= {(False, train, own[0])} if named else {(True, train, route) for route in without}
    for (train, places), (later, others) in zip(legs, legs[1:]):
        last, first = places[-1], others[0]
        said |= {(last[2] and first[2], train, r, later, q) for r in last[0] for q in first[0]}
    count = len(said)
    if origin[0] == "one":
        first = station.counted_from(required[0], int(required[1]))
        visit = station.trains[first - 1][1][0]
        begins = [r for r in station.routes if r.start[0] == "boundary" and r.start[1] in visit]
        count += sum(
            bool(r.sections.keys() & known.sections.keys())
            for r in begins for other in range(1, len(station.trains) + 1) if other != first for known in station.routes
        )
    elif origin[0] == "cone":
        count += literals(station, f"r within {' '.join(origin[1:])}")
    return count


def literals(station, line):
    """How many literals the clause of a cone has."""
    trains, pairs = cone_of(line.split())
    routes = station.routes
    count = len(pairs) + sum(len(path) for _, path in trains.values())
    for train, (free, path) in trains.items():
        for route in path[:free]:
            own = routes[route - 1].sections.keys()
            count += sum(
                ((other, number), (train, route)) not in pairs and bool(own & known.sections.keys())
                for other in range(1, len(station.trains) + 1) if other != train
                for number, known in enumerate(routes, 1)
            )
        if free == len(path) or line.startswith("r path"):
            last = routes[path[-1] - 1].finish
            if last not in {routes[route - 1].start for route in path}:
                count += sum(route.start == last for route in routes)
    return count


def average(station, bounds, cones):
    """How many literals the clauses of these bounds and cones have on average."""
    read = Station(STATIONS / f"{station}.toml")
    count = len(bounds) + len(cones)
    total = sum(literals_of_bound(read, line) for line in bounds) + sum(literals(read, line) for line in cones)
    return total // count if count else 0


def failed_plans(proof, told):
    """How many plans failed in a search: each has a line in the proof that is stored, or else the last line tells it."""
    if proof:
        return len(re.findall(r"^[rb] ", proof, re.M))
    found = re.findall(r"(\d+) plans? failed", told)
    return int(found[-1]) if found else 0


def told_alike(station, printed, folder):
    """Whether the run of a plan that is printed is the one that bench/checker/simulate.py tells."""
    head, plan, timetable = printed.split("\n", 2)
    path = pathlib.Path(folder) / "plan"
    path.write_text(plan)
    return timetable == simulate.text_of(STATIONS / f"{station}.toml", path)


def run_beside(given, stations):
    """Searches for plans of the stations of a folder, beside those of another program, and says how many missed."""
    missed, seconds, failures, late = 0, [0.0, 0.0], [0, 0], 0
    with tempfile.TemporaryDirectory() as folder:
        for station, steps, answer, theirs, theirs_failed in asked_in(stations):
            if given.stations and station not in given.stations:
                continue
            place = f"{stations}/{station}"
            flags = ["--bounds", "--progress"]
            first, passed, proof, printed, told = verify(given.program, place, steps, flags, given.seconds, folder)
            failed, faults, checked = failed_plans(proof, told), [], ""
            both_late = theirs == first == "late"
            if first != answer and not both_late:
                faults.append("other answer")
            if passed > given.bar and theirs != "late":
                faults.append("late")
            if proof:
                passes, took = check(given.program, place, steps, folder)
                checked = f", check {took:.2f} s"
                if not passes:
                    faults.append("not checked")
            elif first.startswith("plan steps") and not told_alike(place, printed, folder):
                faults.append("another run")
            missed += bool(faults)
            if theirs == "late":
                late += 1
                beside = f"{passed:7.2f} s ({failed}){checked}; another program late"
            else:
                seconds[0], failures[0] = seconds[0] + passed, failures[0] + failed
                seconds[1], failures[1] = seconds[1] + float(theirs), failures[1] + int(theirs_failed)
                beside = f"{passed:7.2f} s ({failed}){checked}; another program {theirs} s ({theirs_failed})"
            print(f"{station:22} {steps:3} {first:22} {beside}{'  MISSED: ' + ', '.join(faults) if faults else ''}", flush=True)
    out = f", without the {late} for which that is late" if late else ""
    print(f"in all {seconds[0]:.1f} s ({failures[0]}); another program {seconds[1]:.1f} s ({failures[1]}){out}")
    print(f"{missed} missed")
    return missed


def main():
    words = argparse.ArgumentParser(description=__doc__)
    words.add_argument("--program", default=TOP / "crates" / "rcv" / "out" / "rcv", help="the program, as ./rcv builds it")
    words.add_argument("--bounds", action="store_true", help="exclude plans that fail by bounds where one is found")
    words.add_argument("--any", action="store_true", help="take a plan of any number of steps; only beside --bounds")
    words.add_argument("--normal", action="store_true", help="look only at plans in which no command could be given earlier; without --bounds")
    words.add_argument("--dwell", action="store_true", help="the stations whose trains stand at their platforms, by bounds")
    words.add_argument("--overlap", action="store_true", help="the stations whose signals have overlaps, by bounds")
    words.add_argument("--seconds", type=float, help="how long a search may take before it is stopped: 20, or 120 with --dwell")
    words.add_argument("--bar", type=float, help="how long a search should take at most: 10, 20 with --overlap or 120 with --dwell")
    words.add_argument("stations", nargs="*", help="the stations, all of them if none is named")
    given = words.parse_args()
    given.seconds = given.seconds or (120 if given.dwell else 20)
    given.bar = given.bar or (120 if given.dwell else 20 if given.overlap else 10)
    if given.any and not given.bounds:
        words.error("--any stands beside --bounds alone")
    if given.normal and given.bounds:
        words.error("--normal does not stand beside --bounds")
    if (given.dwell or given.overlap) and (given.any or given.normal or given.dwell and given.overlap):
        words.error("--dwell and --overlap stand neither beside each other nor beside --any or --normal")
    flags = ["--bounds"] * given.bounds + ["--any"] * given.any + ["--normal"] * given.normal
    if not os.access(given.program, os.X_OK):
        subprocess.run([TOP / "rcv", "routes", TOP / "stations" / "halt.toml"], stdout=subprocess.DEVNULL, check=True)
    if given.dwell or given.overlap:
        sys.exit(1 if run_beside(given, "dwell" if given.dwell else "overlap") else 0)
    missed = 0
    with tempfile.TemporaryDirectory() as folder:
        for station, steps, answer, most in asked():
            if given.stations and station not in given.stations:
                continue
            first, passed, proof, _, _ = verify(given.program, station, steps, flags, given.seconds, folder)
            derived = len(re.findall(r"^d ", proof, re.M))
            bounds = re.findall(r"^b .*", proof, re.M)
            cones = re.findall(r"^r .*", proof, re.M)
            forgot = len(re.findall(r"^x ", proof, re.M))
            faults, told = [], "-"
            if proof:
                passes, took = check(given.program, station, steps, folder)
                of = average(station, bounds, cones)
                told = f"{derived} lines {len(bounds)} bounds {len(cones)} cones of {of} {forgot} forgotten {len(proof)} bytes, check {took:.2f} s"
                if not passes:
                    faults.append("not checked")
            if given.any and answer.startswith("plan steps"):
                answer = "plan steps"
            if answer != "open":
                if not first.startswith(answer):
                    faults.append("other answer")
                if passed > given.bar:
                    faults.append("late")
                if most is not None and proof and derived > 3 * most:
                    faults.append("many lines")
            missed += bool(faults)
            print(f"{station:18} {steps:3} {first:22} {passed:7.2f} s  {told}{'  MISSED: ' + ', '.join(faults) if faults else ''}", flush=True)
    print(f"{missed} missed")
    sys.exit(1 if missed else 0)


main()
