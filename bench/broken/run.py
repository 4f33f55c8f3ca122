#!/usr/bin/env python3
"""Breaks designs, plans, proofs and words of command lines, gives them to every command, and says whether each run keeps to its rules.

The files are those of `stations` and of the worked examples. Each run has to end by itself within the time, with a status of the table
in docs/COMMANDS.md and a text of that status by whole lines; nothing stands on standard error; and nothing is stored but a proof, after a
search that ends with status 1, or with 0 and a least time above 0, which a check of the same steps accepts. One seed gives the same
runs each time, in whatever order they are made. The status is 1 where some run breaks a rule. `--case` makes one run again and leaves its files.
"""

import argparse
import collections
import multiprocessing
import os
import pathlib
import random
import re
import shlex
import signal
import sys
import tempfile
import time
import tomllib

import breaks
import corpus

TOP = pathlib.Path(__file__).resolve().parent.parent.parent

SOUND = corpus.stations(refused=False)
STATIONS = SOUND + corpus.stations(refused=True)
DESIGNS = [station.design for station in STATIONS]
SECOND = {
    "plan.json": [plan for station in STATIONS for plan in station.plans],
    "proof.txt": [proof for station in STATIONS for _, proof in station.proofs],
}

OLDER = b"rcvlog 1\nan older file\n"
COMMANDS = ("simulate", "routes", "verify", "tightest", "check", "trial")
USAGE = re.escape(
    b"usage: rcv simulate DESIGN PLAN; rcv routes DESIGN; rcv verify [--normal] --steps N --conflicts C --ticks T "
    b"DESIGN PROOF; rcv tightest --steps N --conflicts C --ticks T --within W DESIGN PROOF; "
    b"rcv check [--within W --max-ms X] --steps N DESIGN PROOF; rcv trial SEED SIZE\n"
)

# The texts of each status, and of those that differ by the command its texts for each.
TEXTS = {
    2: USAGE,
    3: rb"design refused D(0[1-9]|1[0-5]) [^\n]+\n",
    4: rb"plan refused P[1-4] [^\n]+\n",
    5: rb"(trial [^\n]+\nnodes [^\n]+\n)?conflicts spent \d+\n",
    7: rb"",
    9: rb"(trial [^\n]+\nnodes [^\n]+\n)?ticks spent \d+ of \d+\n",
    10: rb"(trial [^\n]+\nnodes [^\n]+\n)?log spent \d+ next \d+\n",
    11: rb"too long (design|plan) 8388608\n|too long proof 268435456\n",
    (0, "simulate"): rb"met tick \d+\n(train|grant|pass|visit) [\s\S]*\n",
    (1, "simulate"): rb"fails path train \S+ visit \d+\n|fails (within|order|grant|visit) [^\n]+ tick \d+\ntrain [\s\S]*\n",
    (0, "routes"): rb"(route \d+ \S+ \S+ length \d+ sections [^\n]+\n)+",
    (0, "verify"): rb'plan steps \d+\n\{"steps":[^\n]+\}\nmet tick \d+\ntrain [\s\S]*\n',
    (1, "verify"): rb"infeasible steps \d+\n",
    (0, "tightest"): rb'tightest within \d+ ms \d+\nplan steps \d+\n\{"steps":[^\n]+\}\nmet tick \d+\ntrain [\s\S]*\n',
    (1, "tightest"): rb"infeasible steps \d+\n",
    (0, "check"): rb"yes steps \d+\n",
    (1, "check"): rb"no line \d+ [^\n]+\n",
    (0, "trial"): rb"trial [^\n]+\nnodes [^\n]+\nplan steps \d+ tick \d+\n",
    (1, "trial"): rb"trial [^\n]+\nnodes [^\n]+\ninfeasible steps \d+\n",
}
MATCHES = {key: re.compile(text) for key, text in TEXTS.items()}

Case = collections.namedtuple("Case", "words files")
Ended = collections.namedtuple("Ended", "status text error seconds memory late")


# What is run.


def budgets(chance):
    """The options of a search, small enough that it is short."""
    steps = chance.choice(("1", "2", "2", "3", "3", "4", "5"))
    words = ["--steps", steps, "--conflicts", chance.choice(("1", "10", "100", "300")), "--ticks", chance.choice(("1", "17", "18", "1000", "10000"))]
    if chance.random() < 0.5:
        words.insert(chance.choice((0, 2, 4, 6)), "--bounds")
    return words


def within_asked(chance):
    """The within of a search for the least time or of a check: mostly the first."""
    return ["--within", "1" if chance.random() < 0.8 else chance.choice(("2", "3", "4", "256"))]


def time_asked(chance):
    """Now and then a greatest time that is put into a within for a check."""
    if chance.random() < 0.8:
        return []
    return [*within_asked(chance), "--max-ms", chance.choice(("0", "999", "7000", "8000", "9000", "200000", "600000", "86400000"))]


def steps_asked(chance, steps):
    """The steps of a check: mostly those that a proof was written for."""
    return steps if chance.random() < 0.8 else chance.choice(("1", "2", "3", "4", "5", "8", "64", "256"))


def sound_case(chance):
    """A command over files that belong to each other, none of them broken."""
    station = chance.choice(SOUND if chance.random() < 0.9 else STATIONS)
    command = chance.choice(("simulate", "simulate", "routes", "verify", "verify", "tightest", "tightest", "check", "check", "check", "check"))
    files = {"design.toml": station.design}
    if command == "simulate":
        files["plan.json"] = chance.choice(station.plans)
        words = [command, "design.toml", "plan.json"]
    elif command == "routes":
        words = [command, "design.toml"]
    elif command in ("verify", "tightest"):
        more = within_asked(chance) if command == "tightest" else []
        words = [command, *budgets(chance), *more, "design.toml", "new.txt"]
        if chance.random() < 0.5:
            files["new.txt"] = OLDER
    else:
        steps, files["proof.txt"] = chance.choice(station.proofs)
        words = [command, *time_asked(chance), "--steps", steps_asked(chance, steps), "design.toml", "proof.txt"]
    return Case([word.encode() for word in words], files)


def break_file(chance, files, name):
    """Breaks one of the files."""
    if name == "design.toml" and chance.random() < 0.6:
        files[name] = chance.choice(breaks.SLIGHT)(chance, files[name])
    elif name == "design.toml":
        files[name] = breaks.broken(chance, files[name], breaks.TEXTS, chance.choice(DESIGNS))
    else:
        ways = breaks.PROOFS if name == "proof.txt" else breaks.TEXTS
        files[name] = breaks.broken(chance, files[name], ways, chance.choice(SECOND[name]))


def case_of(seed, number):
    """The case of a number: the words and the files, of which some are broken."""
    chance = random.Random(f"{seed} {number}")
    case = sound_case(chance)
    breakable = [name for name in case.files if name != "new.txt"]
    breakable += breakable[1:]
    kind = chance.random()
    if kind < 0.85:
        break_file(chance, case.files, chance.choice(breakable))
    if kind < 0.15:
        break_file(chance, case.files, chance.choice(breakable))
    if kind > 0.9:
        words = [b"trial", b"%d" % chance.randrange(2**64), b"1"] if chance.random() < 0.1 else case.words
        return case._replace(words=breaks.broken_words(chance, words))
    if kind > 0.85:
        case.files[chance.choice(breakable)] = chance.choice(DESIGNS + SECOND["plan.json"] + SECOND["proof.txt"])
    return case


# How it is run.


class Runner:
    """Runs the program in a folder of its own, one run after the other."""

    def __init__(self, program, limit, folder):
        self.program = os.path.abspath(program)
        self.limit = limit
        self.child = None
        self.late = False
        os.chdir(folder)
        nothing = os.open("/dev/null", os.O_RDONLY)
        self.out, self.error = (os.memfd_create(name) for name in ("out", "error"))
        for file in (self.out, self.error):
            os.set_blocking(file, True)
        self.actions = [(os.POSIX_SPAWN_DUP2, nothing, 0), (os.POSIX_SPAWN_DUP2, self.out, 1), (os.POSIX_SPAWN_DUP2, self.error, 2)]
        signal.signal(signal.SIGALRM, self.kill)

    def kill(self, *_):
        """Ends the run that takes too long."""
        self.late = True
        if self.child is not None:
            os.kill(self.child, signal.SIGKILL)

    def run(self, words):
        """How a run with these words ends."""
        for file in (self.out, self.error):
            os.ftruncate(file, 0)
            os.lseek(file, 0, os.SEEK_SET)
        self.late = False
        self.child = os.posix_spawn(self.program, [b"rcv", *words], {}, file_actions=self.actions)
        signal.setitimer(signal.ITIMER_REAL, self.limit)
        _, status, usage = os.wait4(self.child, 0)
        signal.setitimer(signal.ITIMER_REAL, 0)
        self.child = None
        text, error = (os.pread(file, 1 << 26, 0) for file in (self.out, self.error))
        return Ended(os.waitstatus_to_exitcode(status), text, error, usage.ru_utime + usage.ru_stime, usage.ru_maxrss // 1024, self.late)


def lay_out(files):
    """Makes the current folder hold these files and no other."""
    for name in os.listdir("."):
        if name not in files:
            os.remove(name)
    for name, held in files.items():
        with open(name, "wb", buffering=0) as file:
            file.write(held)


def standing():
    """What the current folder holds."""
    return {name: pathlib.Path(name).read_bytes() for name in os.listdir(".")}


# What has to be so.


def names_of(words):
    """The words of a command that are neither options nor their values, the command itself aside."""
    names = []
    rest = iter(words[1:])
    for word in rest:
        if word == b"--":
            return names + list(rest)
        if word in (b"--steps", b"--conflicts", b"--ticks", b"--within", b"--max-ms"):
            next(rest, None)
        elif word == b"-" or not word.startswith(b"-"):
            names.append(word)
    return names


def option_of(words, option):
    """The value of an option, or nothing where it is not there."""
    for place, word in enumerate(words):
        name, joined, value = word.partition(b"=")
        if name == option:
            return value if joined else words[place + 1]
    return b""


def command_of(words):
    """The command, as text."""
    return words[0].decode(errors="replace") if words else ""


def text_faults(words, ended):
    """What is wrong with what a run printed."""
    if ended.late:
        yield "did not end"
        return
    command = command_of(words)
    match = MATCHES.get(ended.status) or MATCHES.get((ended.status, command))
    if match is None:
        yield f"status {ended.status} of {command[:20]!r}"
    elif not match.fullmatch(ended.text):
        yield f"status {ended.status} prints {ended.text[:200]!r}"
    if ended.text and not ended.text.endswith(b"\n"):
        yield f"no whole lines: {ended.text[-80:]!r}"
    if ended.error:
        yield f"on standard error: {ended.error[:200]!r}"


def has_proof(words, ended):
    """Whether a search has stored a proof."""
    is_least = command_of(words) == "tightest" and ended.status == 0
    return ended.text.split()[4] != b"0" if is_least else command_of(words) in ("verify", "tightest") and ended.status == 1


def time_shown(words, design, text):
    """The options of a check with the time that a stored proof shows to be too little: none of a search for a plan. The design is read
    here by Python's reader, which takes less than the program's: where it doesn't, there are none to tell."""
    if command_of(words) != "tightest":
        return []
    try:
        read = tomllib.loads(pathlib.Path(os.fsdecode(design)).read_text())
    except ValueError:
        return None
    tick = read["tick_ms"]
    most = int(text.split()[4]) - tick if text.startswith(b"tightest") else read["horizon_ms"] // tick * tick
    return [b"--within", option_of(words, b"--within"), b"--max-ms", b"%d" % most]


def proof_faults(runner, case, ended, names):
    """What is wrong with a proof that is stored."""
    steps = b"%d" % int(option_of(case.words, b"--steps"))
    shown = time_shown(case.words, names[0], ended.text)
    if shown is not None:
        told = runner.run([b"check", *shown, b"--steps", steps, b"--", *names])
        if (told.status, told.text) != (0, b"yes steps " + steps + b"\n"):
            yield f"a check of what is stored ends with status {told.status} and {told.text[:200]!r}"


def stored_faults(runner, case, ended):
    """What is wrong with what a run stored."""
    after = standing()
    changed = sorted(name for name in after.keys() | case.files.keys() if after.get(name) != case.files.get(name))
    is_stored = has_proof(case.words, ended)
    if not changed:
        if is_stored:
            yield "there is a proof, and nothing is stored"
        return
    names = [os.path.normpath(name) for name in names_of(case.words)]
    if not is_stored or len(names) != 2 or changed != [os.fsdecode(names[1])]:
        yield f"status {ended.status} changes {' '.join(changed)[:200]}"
    elif names[0] != names[1]:
        yield from proof_faults(runner, case, ended, names)


def plan_faults(runner, case, ended):
    """What is wrong with a plan that is found: it has to be met, but for the within whose least time was asked for."""
    is_least = command_of(case.words) == "tightest"
    *_, plan, timetable = ended.text.split(b"\n", 3 if is_least else 2)
    pathlib.Path("found.json").write_bytes(plan)
    told = runner.run([b"simulate", b"--", names_of(case.words)[0], b"found.json"])
    within = b"fails within %d " % int(option_of(case.words, b"--within")) if is_least else b"\n"
    if (told.status, told.text) != (0, timetable) and not told.text.startswith(within):
        yield f"its plan ends with status {told.status} and {told.text[:200]!r}"


def yes_faults(runner, case, ended):
    """What is wrong with a check that is answered with yes: a search finds no plan, or none with the time that was put in."""
    within, most = option_of(case.words, b"--within"), option_of(case.words, b"--max-ms")
    budgets = [b"--steps", ended.text.split()[-1], b"--conflicts", b"1000", b"--ticks", b"10000"]
    asked = [b"tightest", *budgets, b"--within", within] if within else [b"verify", *budgets]
    told = runner.run([*asked, b"--", names_of(case.words)[0], b"found.txt"])
    takes_longer = within and told.status == 0 and int(most) < int(told.text.split()[4])
    if told.status not in (1, 5, 9) and not takes_longer:
        yield f"a search ends with status {told.status} and {told.text[:200]!r}"


def answer_faults(runner, case, ended):
    """What is wrong with an answer by what other commands say."""
    command = command_of(case.words)
    if ended.status == 0 and command in ("verify", "tightest"):
        yield from plan_faults(runner, case, ended)
    elif ended.status == 0 and command == "check":
        yield from yes_faults(runner, case, ended)


def faults_of(runner, case, ended, bar):
    """What is wrong with a run."""
    faults = list(text_faults(case.words, ended))
    if ended.seconds > bar:
        faults.append(f"takes {ended.seconds:.2f} seconds")
    sound = not faults
    faults += stored_faults(runner, case, ended)
    if sound:
        faults += answer_faults(runner, case, ended)
    return faults


def answer_of(text):
    """The first line of a text without its numbers and names, or of a refusal its code."""
    words = text.split(b"\n")[0].decode(errors="replace").split()
    if words[:1] == ["no"]:
        return " ".join(["no line", *words[3:]])
    return " ".join(words[: 3 if words[1:2] == ["refused"] or words[:1] == ["too"] else 2])


# Many runs.


class Tally:
    """How many runs ended in each way, what was wrong, and the longest and the largest run."""

    def __init__(self):
        self.ends = collections.Counter()
        self.answers = collections.Counter()
        self.faults = []
        self.slowest = (0.0, -1)
        self.largest = (0, -1)

    def count(self, number, case, ended, faults):
        """Counts a run."""
        self.ends[command_of(case.words), ended.status] += 1
        self.answers[answer_of(ended.text)] += 1
        self.faults += [(number, fault) for fault in faults]
        self.slowest = max(self.slowest, (ended.seconds, number))
        self.largest = max(self.largest, (ended.memory, number))

    def add(self, other):
        """Adds what another one counted."""
        self.ends += other.ends
        self.answers += other.answers
        self.faults += other.faults
        self.slowest = max(self.slowest, other.slowest)
        self.largest = max(self.largest, other.largest)


def begin_worker(given, folder):
    """Gives a worker its runner, in a folder of its own."""
    global RUNNER
    RUNNER = Runner(given.program, given.seconds * given.factor, tempfile.mkdtemp(dir=folder))


def run_cases(given, first, end):
    """Makes the runs of these numbers."""
    tally = Tally()
    for number in range(first, end):
        case = case_of(given.seed, number)
        lay_out(case.files)
        ended = RUNNER.run(case.words)
        tally.count(number, case, ended, faults_of(RUNNER, case, ended, given.seconds))
    return tally


def run_piece(piece):
    """Makes the runs of a piece."""
    return run_cases(*piece)


def pieces(given, many=200):
    """The runs that are made, some of them at a time."""
    for first in range(given.first, given.first + given.count, many):
        yield given, first, min(first + many, given.first + given.count)


def show(tally, done, begin):
    """Prints how many runs ended in each way."""
    known = collections.Counter()
    for (command, status), many in tally.ends.items():
        known[command if command in COMMANDS else "other", status] += many
    statuses = sorted({status for _, status in known})
    print(f"{'command':10}" + "".join(f"{status:>9}" for status in statuses))
    for command in (*COMMANDS, "other"):
        print(f"{command:10}" + "".join(f"{known[command, status]:>9}" for status in statuses))
    print(", ".join(f"{answer or 'nothing'} {many}" for answer, many in tally.answers.most_common()))
    seconds = time.monotonic() - begin
    print(f"the longest took {tally.slowest[0]:.2f} seconds of a processor (case {tally.slowest[1]}), the largest {tally.largest[0]} MB (case {tally.largest[1]})")
    print(f"{done} runs, {len(tally.faults)} faults, {seconds:.0f} seconds", flush=True)


def run_all(given):
    """Makes all runs, and prints how it goes."""
    begin = told = time.monotonic()
    tally = Tally()
    done = 0
    memory = "/dev/shm" if os.path.isdir("/dev/shm") else None
    with tempfile.TemporaryDirectory(dir=memory) as folder, multiprocessing.Pool(given.jobs, begin_worker, (given, folder)) as pool:
        for (_, first, end), part in zip(pieces(given), pool.imap(run_piece, pieces(given))):
            for number, fault in part.faults:
                print(f"seed {given.seed} case {number}: {fault}", flush=True)
            tally.add(part)
            done += end - first
            if time.monotonic() > told + 60:
                told = time.monotonic()
                print(f"{done} runs, {len(tally.faults)} faults, {told - begin:.0f} seconds", flush=True)
    show(tally, done, begin)
    return len(tally.faults) > 0


def run_one(given):
    """Makes one run, and leaves its files."""
    case = case_of(given.seed, given.case)
    folder = tempfile.mkdtemp(prefix="broken-")
    runner = Runner(given.program, given.seconds * given.factor, folder)
    lay_out(case.files)
    ended = runner.run(case.words)
    faults = faults_of(runner, case, ended, given.seconds)
    lay_out(case.files)
    print(f"cd {folder} && {shlex.join(['rcv', *(word.decode(errors='backslashreplace') for word in case.words)])}")
    print(f"status {ended.status}, {ended.seconds:.3f} seconds, {ended.memory} MB, prints {ended.text[:1000]!r}")
    for fault in faults:
        print(fault)
    return len(faults) > 0


def main():
    words = argparse.ArgumentParser(description=__doc__)
    words.add_argument("--program", default=str(TOP / "crates" / "rcv" / "out" / "rcv"), help="the program to run, as it is built")
    words.add_argument("--seed", type=int, default=1, help="which cases are made")
    words.add_argument("--count", type=int, default=10_000, help="how many of them")
    words.add_argument("--first", type=int, default=0, help="the number of the first case")
    words.add_argument("--jobs", type=int, default=1, help="how many runs are made at the same time")
    words.add_argument("--seconds", type=float, default=2, help="how long a run may take on a processor")
    words.add_argument("--factor", type=float, default=60, help="after how many times as long by the clock it is killed")
    words.add_argument("--case", type=int, help="makes the run of this number alone, and leaves its files")
    given = words.parse_args()
    if not os.access(given.program, os.X_OK):
        words.error(f"{given.program} is not built yet; ./rcv builds it")
    given.program = os.path.abspath(given.program)
    return run_all(given) if given.case is None else run_one(given)


if __name__ == "__main__":
    sys.exit(main())
