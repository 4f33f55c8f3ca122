#!/usr/bin/env python3
"""Looks for plans of stations of the size of real ones, and says what `rcv verify --bounds` answers, and what it takes.

The stations of `stations` are made: as many elementary routes as those of the method's paper have, and the questions that are
asked there. A name says which station it is, what its trains do, how many there are, and whether it can be met easily
(`slack`), just so (`tight`), or not at all, by a second (`over`); `none` has no time, and of `open` no program that was tried
decided it. The file `figures` has a line `<station> <steps> <answer> <seconds>` for each: the processor seconds that an
unverified program with a modern solver took, over the same clauses, with `late` past 20.

Each line that is printed: the station, the steps, the answer, its processor seconds, those of the other program, the greatest
memory in MB, and where a proof is stored its lines that derive, its bounds, its cones, its bytes, and the processor seconds of
its check. Behind the last one: how many were decided within 1, 10 and 20 seconds, which took more than 20 seconds though the
other program took at most 7, how often the design was refused for its clauses, and the median of seconds in terms of the
other program's, of those that take either at least a tenth of a second. The status is 1 where an answer differs, or a proof
does not pass its check.
"""

import argparse
import os
import pathlib
import statistics
import subprocess
import sys
import tempfile

HERE = pathlib.Path(__file__).resolve().parent
TOP = HERE.parent.parent
BUDGETS = ["--conflicts", "1000000", "--ticks", "1000000000"]


def asked(wanted):
    """The stations, each with its steps, its answer, and the seconds of the other program."""
    for line in (HERE / "figures").read_text().splitlines():
        station, steps, answer, seconds = line.split()
        if not wanted or any(word in station for word in wanted):
            yield station, int(steps), answer.replace("_", " "), None if seconds == "late" else float(seconds)


def measured(words, seconds):
    """What a program prints first, its processor seconds and its greatest memory in MB; or None for what it prints, where it
    takes longer."""
    limited = ["sh", "-c", f'ulimit -t {seconds}; exec "$0" "$@"', *map(str, words)]
    child = subprocess.Popen(limited, stdin=subprocess.DEVNULL, stdout=subprocess.PIPE, stderr=subprocess.DEVNULL)
    text = child.stdout.read().decode()
    status, used = os.wait4(child.pid, 0)[1:]
    child.returncode = 0
    spent = used.ru_utime + used.ru_stime
    return (None if os.WIFSIGNALED(status) else text.partition("\n")[0]), spent, used.ru_maxrss / 1024


def is_same(answer, expected):
    """Whether an answer is the one that is known; of an open question any will do, and any plan where one of the fewest isn't
    asked for."""
    return expected == "not known" or answer == expected


def lines_of(proof, kind):
    return sum(line[:2] == kind for line in proof.split(b"\n"))


def main():
    parser = argparse.ArgumentParser(description=__doc__, formatter_class=argparse.RawDescriptionHelpFormatter)
    parser.add_argument("--program", default=TOP / "rcv")
    parser.add_argument("--seconds", type=int, default=20, help="the limit on processor seconds")
    parser.add_argument("--any", action="store_true", help="asks for a plan of any number of steps")
    parser.add_argument("--plain", action="store_true", help="without --bounds")
    parser.add_argument("stations", nargs="*", help="parts of names")
    given = parser.parse_args()
    flags = [] if given.plain else ["--bounds"]
    flags += ["--any"] if given.any else []
    within, missed, refused, ratios, wrong, most = {1: 0, 10: 0, 20: 0}, [], 0, [], 0, 0.0
    with tempfile.TemporaryDirectory() as folder:
        for station, steps, expected, others in asked(given.stations):
            proof = pathlib.Path(folder) / "proof"
            proof.unlink(missing_ok=True)
            design = HERE / "stations" / f"{station}.toml"
            words = [given.program, "verify", *flags, "--steps", steps, *BUDGETS, design, proof]
            answer, spent, memory = measured(words, given.seconds)
            most = max(most, memory)
            line = f"{station} {steps} {(answer or 'late').replace(' ', '_')} {spent:.1f} {'late' if others is None else others} {memory:.0f}"
            decided = answer is not None and answer.split()[0] in ("plan", "infeasible")
            if decided:
                for limit in within:
                    within[limit] += spent <= limit
                plan = answer.startswith("plan") and expected.startswith("plan") and given.any
                if not plan and not is_same(answer, expected):
                    line, wrong = line + f" DIFFERS {expected}", wrong + 1
            elif answer is not None and "D14" in answer:
                refused += 1
            if others is not None and (not decided or spent > 20) and others <= 7:
                missed.append(station)
            if decided and others is not None and max(spent, others) >= 0.1:
                ratios.append(max(spent, 0.05) / max(others, 0.05))
            if proof.exists():
                text = proof.read_bytes()
                said, checked, _ = measured([given.program, "check", "--steps", steps, design, proof], 10 * given.seconds)
                line += f" {lines_of(text, b'd ')} {lines_of(text, b'b ')} {lines_of(text, b'r ')} {len(text)} {checked:.1f}"
                if said != f"yes steps {steps}":
                    line, wrong = line + f" CHECK {said}", wrong + 1
                elif checked > spent:
                    line += " slow"
            print(line, flush=True)
    print("decided within " + ", ".join(f"{limit}: {many}" for limit, many in within.items()))
    print(f"refused for their clauses: {refused}; the most memory: {most:.0f} MB")
    print("past 20 seconds where the other program took at most 7: " + (" ".join(missed) or "none"))
    if ratios:
        print(f"the median of the ratio to the other program: {statistics.median(ratios):.2f} of {len(ratios)}")
    return wrong > 0


if __name__ == "__main__":
    sys.exit(main())
