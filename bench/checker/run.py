#!/usr/bin/env python3
"""Compares what check.py and `rcv check` say of proof files.

The files are those that `rcv verify` stores, plainly, with `--bounds` and with `--normal`, for designs of `stations` and
`bench/stations`, those that `rcv tightest` stores for them, plainly and with `--bounds`, and those of the worked examples
of `crates/rail_vectors`. Each case takes one of them and mostly changes it once by chance, or with `--made` makes a file
for its design with one line of a cone or a bound; and asks both, with a greatest time put in where the file needs one, or
now and then another. Printed are how many answers agree, how often each was given, and every case in which the two
differ; the status is 1 where there is one. One seed gives the same cases each time. With `--keep` the files of cases that
differ are left in a folder.
"""

import argparse
import collections
import pathlib
import random
import re
import subprocess
import sys
import tempfile
import time
import tomllib

import check
import lines as made

TOP = pathlib.Path(__file__).resolve().parent.parent.parent
sys.path.append(str(TOP / "bench" / "broken"))

import corpus  # noqa: E402

# Designs with a number of steps for which there is no plan.
ASKED = """
stations/halt 1, stations/halt_within 2, stations/follow 3, stations/junction 4, stations/crossing_hurried 3
stations/crossing 2, stations/overtaking 3
cross-1-over 2, cross-2-over 4, cross-1-tight 1, cross-2-tight 3, cross-2-slack 3
meet-2-over 3, meet-3-over 4, meet-2-tight 1, meet-3-tight 3, meet-3-slack 2
line-1-over 4, line-1-tight 2, line-2-tight 5
longline-1-over 7, longline-1-tight 5
terminus-2-over 5, terminus-2-tight 4, terminus-3-tight 5
yard-2-over 6, yard-2-tight 4
"""

# A proof file with its design and its steps, and the within and its greatest time in ms that are put in, or None.
File = collections.namedtuple("File", "name design steps proof time")


def asked_for():
    """The designs of which there are searches, each with its steps."""
    for entry in ASKED.replace("\n", ",").split(","):
        if entry.strip():
            name, steps = entry.split()
            yield TOP / (name + ".toml" if "/" in name else f"bench/stations/{name}.toml"), int(steps)


def standing(found):
    """The visits of a train, with times to stand at them, the same for the same visits."""
    many = len(tomllib.loads(found[0].decode())["visits"])
    chance = random.Random(found[0])
    times = [0] + [chance.choice((0, 0, 1, 999, 2500, 20_000, 60_000)) for visit in range(1, many)]
    return found[0] + b", dwell_ms=" + str(times).encode()


def overlapping(design):
    """Overlaps at most signals of a design, the same for the same design: mostly of the sections behind the signal."""
    file, chance = tomllib.loads(design.decode()), random.Random(design)
    ends = {}
    for edge in file.get("edge", []):
        for end, far in (("from", "to"), ("to", "from")):
            ends.setdefault((edge[end], edge[end + "_side"]), []).append((edge["section"], edge[far], edge[far + "_side"]))
    for signal in file.get("signal", []):
        behind = ends.get((signal["node"], signal["toward"]), [])
        further = [end for section, node, side in behind for end in ends.get((node, "ab".replace(side, "")), [])]
        near = [section for section, node, side in behind]
        sections = near if chance.random() < 0.4 else near + [section for section, node, side in further]
        sections += [chance.choice(file["edge"])["section"]] if chance.random() < 0.2 else []
        if sections and chance.random() < 0.7:
            ms = chance.choice((0, 1, 999, 2500, 20_000, 60_000))
            yield f"\n[[overlap]]\nsignal = \"{signal['name']}\"\nsections = {sections[:16]}\nhold_ms = {ms}\n".encode()


def of_version(design, version):
    """The same design in this version, where it is one of version 1; from version 3 on its trains stand at visits, and in
    version 4 signals have overlaps."""
    if b"version = 1" not in design:
        return design
    overlaps = b"".join(overlapping(design)) if version > 3 else b""
    if version > 2:
        design = re.sub(rb"visits\s*=\s*\[(?:\s*\[[^\]]*\]\s*,?)*\s*\]", standing, design)
    return design.replace(b"version = 1", b"version = %d" % version) + overlaps


def time_shown(design, told):
    """The greatest time of within 1 for which a search for the least time has stored a proof: a tick less than that, or
    where it found no plan the horizon."""
    words, read = told.split(), check.Design(design)
    return (1, int(words[4]) - read.tick if words[:1] == ["tightest"] else read.horizon * read.tick)


def stored(program, folder, version):
    """The files that searches within small budgets store, each with the design and the steps that it was made for."""
    for path, steps in asked_for():
        design = folder / "stored.toml"
        design.write_bytes(of_version(path.read_bytes(), version))
        ways = [["verify"], ["verify", "--bounds"], ["verify", "--normal"]]
        if check.Design(design.read_bytes()).withins:
            ways += [["tightest", "--within", "1"], ["tightest", "--within", "1", "--bounds"]]
        for way in ways:
            proof = folder / "stored"
            proof.unlink(missing_ok=True)
            words = [*way, "--steps", str(steps), "--conflicts", "3000", "--ticks", "300000", design, proof]
            told = subprocess.run([program, *words], stdout=subprocess.PIPE).stdout.decode()
            if proof.exists():
                shown = time_shown(design.read_bytes(), told) if way[0] == "tightest" else None
                yield File(" ".join([path.stem, str(steps), *way]), design.read_bytes(), steps, proof.read_bytes(), shown)
            else:
                print("nothing stored:", path.stem, steps, *way)


def examples(version):
    """The files of the stations and of the worked examples."""
    for number, station in enumerate(corpus.stations(refused=False)):
        for place, (steps, proof) in enumerate(station.proofs):
            if 1 <= int(steps) <= 256:
                yield File(f"example {number}.{place}", of_version(station.design, version), int(steps), proof, None)


def line_of(chance, lines):
    """A line behind the head: first its kind is chosen, then one of that kind."""
    kinds = collections.defaultdict(list)
    for place, line in enumerate(lines):
        if place > 0:
            kinds[line[:1]].append(place)
    return chance.choice(kinds[chance.choice(sorted(kinds))]) if kinds else 0


def other_number(chance, lines):
    place = line_of(chance, lines)
    words = lines[place].split(b" ")
    numbers = [i for i, word in enumerate(words) if word.lstrip(b"-").isdigit()]
    if numbers:
        at = chance.choice(numbers)
        value = int(words[at])
        own = [int(words[i]) for i in numbers if words[i] != b"0"] or [1]
        ways = [value + 1, value - 1, chance.choice(own), chance.choice(own)]
        words[at] = str(chance.choice(ways * 6 + [0, value * 10, value + 4294967296])).encode()
    lines[place] = b" ".join(words)


def sign(chance, lines):
    places = [place for place, line in enumerate(lines) if line[:2] == b"d " and line[2:3] != b"0"]
    if places:
        place = chance.choice(places)
        words = lines[place].split(b" ")
        at = chance.randrange(1, words.index(b"0"))
        words[at] = words[at][1:] if words[at][:1] == b"-" else b"-" + words[at]
        lines[place] = b" ".join(words)


def other_word(chance, lines):
    place = line_of(chance, lines)
    words = lines[place].split(b" ")
    at, other = chance.randrange(len(words)), chance.randrange(len(words))
    way = chance.randrange(3)
    if way == 0:
        del words[at]
    elif way == 1:
        words.insert(at, words[other])
    else:
        words[at], words[other] = words[other], words[at]
    lines[place] = b" ".join(words)


def drop_line(chance, lines):
    del lines[line_of(chance, lines)]


def double_line(chance, lines):
    lines.insert(chance.randrange(len(lines) + 1), lines[line_of(chance, lines)])


def swap_lines(chance, lines):
    one, other = line_of(chance, lines), line_of(chance, lines)
    lines[one], lines[other] = lines[other], lines[one]


def forget(chance, lines):
    numbers = [word for line in lines for word in line.split(b" ")[1:] if word.isdigit() and word != b"0"]
    lines.insert(chance.randrange(1, len(lines) + 1), b"x " + chance.choice(numbers or [b"1"]) + b" 0")


def other_head(chance, lines):
    steps = chance.randrange(1, 9)
    within = chance.randrange(0, 4)
    lines[0] = chance.choice((b"rcvlog 1", b"rcvlog 2", b"rcvlog 4 1 2", b"rcvlog 5 1 2", b"rcvlog 6 1 2",
                              b"rcvlog 6 1 %d %d" % (steps, within), lines[0] + b" %d" % within,
                              *(b"rcvlog %d 1 %d" % (version, steps) for version in (2, 3, 4, 5))))


CHANGES = [other_number] * 20 + [sign, drop_line, swap_lines] * 2 + [other_word, double_line, forget, other_head]


def other_time(chance, given):
    """The time that is put in, and now and then another: none, a tick more or less, 0, or that of another within."""
    within, ms = given or (1, 60000)
    if chance.random() < (0.94 if given is None else 0.8):
        return given
    return chance.choice((None, (within, ms + 1000), (within, max(0, ms - 1000)), (within, 0), (within + 1, ms)))


def case_of(seed, number, files):
    """A file, changed or not, with the time that is put in, and the steps that are asked for."""
    chance = random.Random(f"{seed} {number}")
    file = chance.choice(files)
    file = file._replace(time=other_time(chance, file.time))
    steps, lines, last = file.steps, file.proof.split(b"\n")[:-1], b"\n"
    way = chance.random()
    if way > 0.96:
        steps = chance.choice([n for n in (1, steps - 1, steps + 1, steps + 2) if n > 0])
    elif way > 0.94:
        last = b""
    elif way > 0.14 and lines:
        chance.choice(CHANGES)(chance, lines)
    return file, steps, b"\n".join(lines) + last


def design_of(file, designs):
    if file.design not in designs:
        designs[file.design] = check.Design(file.design)
    return designs[file.design]


def made_case(seed, number, files):
    """A file that is made for a design, which may have other times then, and the steps."""
    chance = random.Random(f"made {seed} {number}")
    file = chance.choice(files)
    text, lines = made.made_file(chance, file.design, file.steps)
    if chance.random() < 0.2:
        other_number(chance, lines)
    return file._replace(design=text), file.steps, b"\n".join(lines) + b"\n"


def said_by(program, steps, in_time, folder):
    options = ["--within", str(in_time[0]), "--max-ms", str(in_time[1])] if in_time else []
    words = [program, "check", *options, "--steps", str(steps), folder / "design", folder / "proof"]
    return subprocess.run(words, stdout=subprocess.PIPE).stdout.decode().strip()


def is_admitted(program, file, folder):
    (folder / "design").write_bytes(file.design)
    return not subprocess.run([program, "routes", folder / "design"], stdout=subprocess.DEVNULL).returncode


def main():
    parser = argparse.ArgumentParser(description=__doc__)
    parser.add_argument("--program", default=TOP / "rcv", help="the program whose answers are compared")
    parser.add_argument("--seed", type=int, default=1)
    parser.add_argument("--count", type=int, default=1000)
    parser.add_argument("--first", type=int, default=0, help="the number of the first case")
    parser.add_argument("--made", action="store_true", help="makes lines, in place of changes of stored files")
    parser.add_argument("--version", type=int, default=1, help="the version of the designs, 1 to 4")
    parser.add_argument("--keep", type=pathlib.Path)
    asked = parser.parse_args()
    answers, designs, differ, own, others = collections.Counter(), {}, 0, 0.0, 0.0
    with tempfile.TemporaryDirectory() as folder:
        folder = pathlib.Path(folder)
        if asked.made:
            files = [File(f"{path.stem} {steps}", of_version(path.read_bytes(), asked.version), steps, b"", None)
                     for path, steps in asked_for()]
        else:
            files = list(stored(asked.program, folder, asked.version))
        searched = len(files)
        files += [file for file in examples(asked.version) if is_admitted(asked.program, file, folder)]
        print(f"{len(files)} files, {searched} of them of searches, and {len(files) - searched} of worked examples")
        for number in range(asked.first, asked.first + asked.count):
            if asked.made:
                file, steps, proof = made_case(asked.seed, number, files)
                designs.clear()
            else:
                file, steps, proof = case_of(asked.seed, number, files)
            (folder / "design").write_bytes(file.design)
            (folder / "proof").write_bytes(proof)
            begin = time.monotonic()
            theirs = said_by(asked.program, steps, file.time, folder)
            middle = time.monotonic()
            ours = check.judge_in_time(design_of(file, designs), file.time, steps, proof)
            own, others = own + time.monotonic() - middle, others + middle - begin
            if ours != theirs:
                differ += 1
                print(f"case {number}, {file.name}, steps {steps}, time {file.time}: rcv {theirs!r}, check.py {ours!r}")
                if asked.keep:
                    place = asked.keep / str(number)
                    place.mkdir(parents=True, exist_ok=True)
                    (place / "design.toml").write_bytes(file.design)
                    (place / "proof.txt").write_bytes(proof)
            words = theirs.split(" ")
            answers["yes" if words[0] == "yes" else " ".join(words[3:]) if words[0] == "no" else theirs] += 1
    for answer, many in answers.most_common():
        print(f"{many:6} {answer}")
    print(f"{asked.count - differ} of {asked.count} agree; check.py took {own:.0f} seconds, rcv {others:.0f}")
    return differ > 0


if __name__ == "__main__":
    sys.exit(main())
