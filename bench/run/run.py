#!/usr/bin/env python3
"""Runs plans and cones that are on their way for a day, and says how long each takes.

Each case has a bar in seconds, of the whole command with the reading of its files; the status is 1 where one is missed or an answer
is not the one that is told.
"""

import argparse
import json
import pathlib
import subprocess
import sys
import tempfile
import time

TOP = pathlib.Path(__file__).resolve().parent.parent.parent
DAY = 86_400
RUNS = TOP / "crates" / "day_runs"


class Design:
    """A design that grows entry by entry."""

    version = 1
    stop_ms = None
    hold_ms = None

    def __init__(self, vehicle, ticks=DAY):
        self.entries = {"node": [], "edge": [], "signal": [], "train": [], "order": [], "within": []}
        self.vehicle = vehicle
        self.ticks = ticks

    def add(self, kind, **keys):
        """A new entry with a name of its own; the name. From version 3 on a train stands at each visit but the first."""
        entries = self.entries[kind]
        if kind == "train" and self.version >= 3:
            keys["dwell_ms"] = [0] + [self.stop_ms or 0] * (len(keys["visits"]) - 1)
        if kind not in ("order", "within"):
            keys["name"] = f"{kind}{len(entries)}"
        entries.append(keys)
        return keys.get("name")

    def line(self, edges, length, speed, signal_each, uneven=False, section_of=None):
        """A line of so many edges from a boundary to a boundary, with a signal after each so many of them; its nodes. Every other
        edge has half the speed where `uneven` is set."""
        nodes = [self.add("node", boundary=True)]
        for number in range(1, edges + 1):
            nodes.append(self.add("node", boundary=number == edges))
            own = len(self.entries["edge"]) if section_of is None else section_of(number)
            section = self.add("edge", **{"from": nodes[-2]}, from_side="b", to=nodes[-1], to_side="a",
                               length_mm=length, speed_mm_s=speed // 2 if uneven and number % 2 else speed, section=f"section{own}")
            if number < edges and number % signal_each == 0:
                self.add("signal", node=nodes[-1], toward="b")
            assert section
        return nodes

    def overlaps(self):
        """An overlap at each signal with an edge behind it: the sections of the edges there."""
        behind = {}
        for edge in self.entries["edge"]:
            for end in "from", "to":
                behind.setdefault((edge[end], edge[f"{end}_side"]), {})[edge["section"]] = True
        for signal in self.entries["signal"]:
            sections = list(behind.get((signal["node"], signal["toward"]), {}))
            if sections:
                yield {"signal": signal["name"], "sections": sections, "hold_ms": self.hold_ms}

    def text(self):
        """The design as TOML."""
        def value(told):
            if isinstance(told, bool):
                return "true" if told else "false"
            return json.dumps(told)

        parts = [f"version = {self.version}", "tick_ms = 1000", f"horizon_ms = {1000 * self.ticks}"]
        parts += [f"vehicle = [{{{', '.join(f'{key}={value(told)}' for key, told in self.vehicle.items())}}}]"]
        overlaps = {} if self.hold_ms is None else {"overlap": list(self.overlaps())}
        for kind, entries in (self.entries | overlaps).items():
            rows = ", ".join("{" + ", ".join(f"{key}={value(told)}" for key, told in entry.items()) + "}" for entry in entries)
            parts.append(f"{kind} = [{rows}]")
        return "\n".join(parts) + "\n"


def routes_by_start(program, path):
    """The number of the route from each start, as `rcv routes` lists them."""
    listed = subprocess.run([program, "routes", path], stdout=subprocess.PIPE, text=True, check=True).stdout
    return {row.split()[2]: int(row.split()[1]) for row in listed.splitlines()}


def vehicle(speed, length=100_000):
    """A vehicle of this speed."""
    return {"name": "v", "length_mm": length, "accel_mm_s2": 500, "brake_mm_s2": 700, "speed_mm_s": speed}


def steps_apart():
    """How many steps a train has to be behind another: one more where its overlap is in the way."""
    return 2 if Design.hold_ms is None else 3


def following(lines, routes, length, speed, uneven=False):
    """On each line two trains, the second some steps behind the first: the design, and of each train its line and its first step."""
    design = Design(vehicle(speed, min(length, 100_000)))
    starts = []
    for _ in range(lines):
        first_signal = len(design.entries["signal"])
        nodes = design.line(routes, length, speed, 1, uneven)
        for behind in (0, steps_apart()):
            design.add("train", vehicle="v", visits=[[nodes[0]], [nodes[-1]]])
            starts.append((nodes[0], first_signal, routes, behind))
    return design, starts


def crossing(lines, routes, length, speed):
    """Lines with a train each, all of which begin at once. Each line crosses those before it: a train comes to a section of another
    some steps behind it."""
    design = Design(vehicle(speed, min(length, 100_000)))
    starts = []
    for line in range(lines):
        first_signal = len(design.entries["signal"])
        nodes = design.line(routes, length, speed, 1, section_of=lambda number, line=line: steps_apart() * line + number)
        design.add("train", vehicle="v", visits=[[nodes[0]], [nodes[-1]]])
        starts.append((nodes[0], first_signal, routes, 0))
    return design, starts


def in_turn(trains, edges, length, speed):
    """One line of many edges and two routes, over which all trains go in turn, with as many demands as a design may have."""
    design = Design(vehicle(speed))
    nodes = design.line(edges, length, speed, edges // 2 + 1)
    starts = []
    inner = nodes[1:-1]
    for number in range(trains):
        visits = [[nodes[0]]] + [inner[64 * place:64 * place + 64] for place in range(14)] + [[nodes[-1]]]
        design.add("train", vehicle="v", visits=visits)
        starts.append((nodes[0], 0, 2, 2 * number))
    for number in range(256):
        train = number % (trains - 1)
        visit = number // (trains - 1) + 1
        design.add("order", first_train=f"train{train}", first_visit=visit, then_train=f"train{train + 1}", then_visit=visit)
        design.add("within", from_train=f"train{train}", from_visit=1, to_train=f"train{train}", to_visit=16, max_ms=86_400_000)
    return design, starts


def in_rows(lines, trains, steps, length, speed, behind):
    """Lines of as many routes as a plan may have steps. The trains of a line follow each other, each so many steps behind the one
    before, as many as have a first step. A train is given its routes up to the last step, and has to come to the end of the first."""
    design = Design(vehicle(speed, length // 2))
    starts = []
    for line in range(lines):
        first_signal = len(design.entries["signal"])
        nodes = design.line(steps, length, speed, 1)
        for number in range(min(trains // lines, (steps - 1) // behind + 1 if behind else trains)):
            design.add("train", vehicle="v", visits=[[nodes[0]], [nodes[1]]])
            starts.append((nodes[0], first_signal, steps - behind * number, behind * number))
    return design, starts


def braked(designed, brake):
    """The design and what belongs to it, of which the vehicle brakes at this rate."""
    designed[0].vehicle["brake_mm_s2"] = brake
    return designed


def falling(designed, fall):
    """The design and what belongs to it, of which each edge is slower than the one before by so many mm/s."""
    for number, edge in enumerate(designed[0].entries["edge"]):
        edge["speed_mm_s"] -= number * fall
    return designed


def round_a_loop(rounds, edges, length, speed, fall=0):
    """A train that goes round a loop of many edges again and again, and another that waits until it is through. Where the loop begins
    and ends a tree of switches joins as many tracks, each with a signal, so that the train comes by another one each time: the design,
    and the starts of the first train's routes. Each edge of the loop is slower than the one before by `fall` mm/s."""
    design = Design(vehicle(speed, length))

    def edge(start, end, slower=0):
        own = len(design.entries["edge"])
        design.add("edge", **{"from": start}, from_side="b", to=end, to_side="a", length_mm=length, speed_mm_s=speed - slower,
                   section=f"section{own}")

    def tree(leaves, join):
        """Joins the leaves pair by pair; the root."""
        while len(leaves) > 1:
            pairs = [leaves[place:place + 2] for place in range(0, len(leaves), 2)]
            leaves = [join(pair) if len(pair) == 2 else pair[0] for pair in pairs]
        return leaves[0]

    def joined(pair, after):
        node = design.add("node", boundary=False)
        for leaf in pair:
            edge(*((node, leaf) if after else (leaf, node)))
        return node

    entry = design.add("node", boundary=True)
    tracks = [design.add("node", boundary=False) for _ in range(rounds)]
    for track in tracks:
        design.add("signal", node=track, toward="b")
    nodes = [tree([entry, *tracks], lambda pair: joined(pair, False))]
    for number in range(edges):
        nodes.append(design.add("node", boundary=False))
        edge(nodes[-2], nodes[-1], number * fall)
    edge(nodes[-1], tree(tracks, lambda pair: joined(pair, True)))
    for _ in range(2):
        design.add("train", vehicle="v", visits=[[entry], [nodes[1]]])
    return design, [f"boundary:{entry}"] + [f"signal:{signal['name']}" for signal in design.entries["signal"]]


def looped(program, folder, brake, rounds, *track):
    """The words of a simulation of a train that goes round a loop so often, each time by the next signal, and of one behind it."""
    design, starts = braked(round_a_loop(rounds, *track), brake)
    path = folder / "design.toml"
    path.write_text(design.text())
    listed = subprocess.run([program, "routes", path], stdout=subprocess.PIPE, text=True, check=True).stdout
    numbers = {tuple(row.split()[2:4]): int(row.split()[1]) for row in listed.splitlines()}
    steps = [[["train0", numbers[ends]]] for ends in zip(starts, starts[1:])] + [[["train1", numbers[starts[0], starts[1]]]]]
    (folder / "plan.json").write_text(json.dumps({"steps": steps}))
    return ["simulate", path, folder / "plan.json"]


def plan(starts, numbers):
    """The plan in which each train is given its routes step by step, from its first step on."""
    steps = [[] for _ in range(max(routes + behind for _, _, routes, behind in starts))]
    for train, (boundary, first_signal, routes, behind) in enumerate(starts):
        places = [f"boundary:{boundary}"] + [f"signal:signal{first_signal + place}" for place in range(routes - 1)]
        for step, place in enumerate(places):
            steps[behind + step].append([f"train{train}", numbers[place]])
    return json.dumps({"steps": steps})


def simulated(program, folder, told):
    """The words and the first line of a simulation of a design with its plan."""
    design, starts = told
    path = folder / "design.toml"
    path.write_text(design.text())
    (folder / "plan.json").write_text(plan(starts, routes_by_start(program, path)))
    return ["simulate", path, folder / "plan.json"]


def checked(program, folder, lines, line):
    """The words of a check of so many lines of one cone."""
    design = Design(vehicle(2_000))
    nodes = design.line(600, 1_000, 100, 1)
    design.add("train", vehicle="v", visits=[[nodes[0]], [nodes[-1]]])
    design.add("train", vehicle="v", visits=[[nodes[0]], [nodes[-1]]])
    (folder / "design.toml").write_text(design.text())
    (folder / "proof").write_text("rcvlog 1\n" + f"{line}\n" * lines)
    return ["check", "--steps", "1", folder / "design.toml", folder / "proof"]


def cases(program, runs, folder):
    """The name, the bar in seconds, how the answer begins, and the program with its words of each."""
    for name, bar, begins, words in commands(program, folder):
        yield name, bar, begins, [program, *words]
    failed = "200000 runs: 200000 fail"
    yield "200,000 runs of two trains that wait for a day", 20, failed, [runs, "200000", RUNS / "data" / "day.toml"]


def commands(program, folder):
    """The name, the bar in seconds, how the answer begins, and the words of each command."""
    yield "32 trains over 62 routes each, a day", 0.5, "met", simulated(program, folder, following(16, 62, 1_300_000, 1_000))
    yield "32 trains over 62 short routes each, a day", 0.5, "met", simulated(program, folder, following(16, 62, 10_000, 1_000))
    yield "32 trains over 62 routes, every other one slow", 0.5, "met", simulated(program, folder, following(16, 62, 500_000, 20_000, True))
    yield "32 trains over 31 routes each, which cross", 0.5, "met", simulated(program, folder, crossing(32, 31, 10_000, 1_000))
    yield "32 trains in turn over 1,998 nodes each, all demands", 2, "met", simulated(program, folder, in_turn(32, 1_998, 1_000, 1_000))
    yield "32 trains in turn over long edges, all demands", 2, "", simulated(program, folder, in_turn(32, 1_998, 100_000, 100_000))
    yield "128 trains in turn over 1,998 nodes each, all demands", 2, "met", simulated(program, folder, in_turn(128, 1_998, 1_000, 10_000))
    yield "128 trains in turn over long edges, all demands", 2, "fails", simulated(program, folder, in_turn(128, 1_998, 100_000, 100_000))
    yield "the same with brakes of 100 mm/s2", 2, "fails", simulated(program, folder, braked(in_turn(128, 1_998, 100_000, 100_000), 100))
    slower = falling(braked(in_turn(128, 1_998, 100_000, 100_000), 50), 5)
    yield "the same with brakes of 50 mm/s2, each edge 5 mm/s slower than the one before", 2, "fails", simulated(program, folder, slower)
    slower = falling(braked(in_turn(128, 1_998, 100_000, 100_000), 20), 3)
    yield "the same with brakes of 20 mm/s2, each edge 3 mm/s slower than the one before", 2, "fails", simulated(program, folder, slower)
    longer = falling(braked(in_turn(128, 1_998, 1_000, 5_000), 1_000), 1)
    longer[0].vehicle["length_mm"] = 900_000
    yield "128 trains of 900 m in turn over edges of 1 m, each 1 mm/s slower", 2, "met", simulated(program, folder, longer)
    yield "a train 44 times round a loop of 1,850 edges", 2, "met", looped(program, folder, 700, 44, 1_850, 20_000, 20_000)
    yield "the same with brakes of 1 mm/s2", 2, "fails", looped(program, folder, 1, 44, 1_850, 20_000, 20_000)
    yield "the same, each edge 1 mm/s slower than the one before", 2, "fails", looped(program, folder, 1, 44, 1_850, 20_000, 20_000, 1)
    yield "the same, each edge 5 mm/s slower than the one before", 2, "fails", looped(program, folder, 1, 44, 1_850, 20_000, 20_000, 5)
    yield "128 trains in a row over up to 256 routes each", 2, "met", simulated(program, folder, in_rows(1, 128, 256, 10_000, 20_000, steps_apart()))
    yield "126 trains in three rows over up to 256 routes each", 2, "met", simulated(program, folder, in_rows(3, 126, 256, 10_000, 20_000, steps_apart()))
    refused = "plan refused P4 step 1 train train0 section section0"
    yield "128 trains over 256 routes each, all at once", 2, refused, simulated(program, folder, in_rows(1, 128, 256, 10_000, 20_000, 0))
    yield "100,000 cones of a train that is followed for a day", 10, "no line 100002", checked(program, folder, 100_000, "r visit 1 2 t 1 86400 1 1 0 0 0")


def main():
    words = argparse.ArgumentParser(description=__doc__)
    words.add_argument("--program", default=str(TOP / "rcv"), help="the program to run")
    words.add_argument("--runs-program", default=str(RUNS / "out" / "day_runs"), help="the program that runs one plan many times")
    words.add_argument("--limit", type=float, default=120, help="how many seconds a case may take, after which it is killed")
    words.add_argument("--only", default="", help="cases whose names have these words")
    words.add_argument("--version", type=int, default=1, help="the version of the designs, 1 to 4")
    words.add_argument("--stops", type=int, help="the ms that each train stands at each visit but the first, in version 3; no answer is asked for")
    words.add_argument("--overlaps", type=int, help="the ms for which an overlap at each signal is held, in version 4; no answer is asked for")
    given = words.parse_args()
    Design.version = 4 if given.overlaps is not None else 3 if given.stops is not None else given.version
    Design.stop_ms, Design.hold_ms = given.stops, given.overlaps
    any_answer = given.stops is not None or given.overlaps is not None
    missed = 0
    with tempfile.TemporaryDirectory() as made:
        for name, bar, begins, told in cases(given.program, given.runs_program, pathlib.Path(made)):
            if given.only not in name:
                continue
            begin = time.monotonic()
            try:
                done = subprocess.run(told, stdin=subprocess.DEVNULL, stdout=subprocess.PIPE, text=True, timeout=given.limit)
                answer = done.stdout.splitlines()[0] if done.stdout else f"status {done.returncode}"
            except subprocess.TimeoutExpired:
                answer = "killed"
            seconds = time.monotonic() - begin
            bad = seconds > bar or not (answer.startswith(begins) or (any_answer and answer.startswith(("met", "fails"))))
            missed += bad
            print(f"{name:56} {bar:>4} {seconds:>8.2f} s  {answer[:60]}{'  MISSED' if bad else ''}", flush=True)
    print(f"{missed} missed")
    return missed > 0


if __name__ == "__main__":
    sys.exit(main())
