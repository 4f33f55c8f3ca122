#!/usr/bin/env python3
"""simulate.py DESIGN PLAN

Prints what `rcv simulate` prints of a plan, as docs/COMMANDS.md says, by the runs of check.py. It takes for granted that
neither the design nor the plan is refused. The status is 0 where the plan meets the design, and else 1.

    simulate.py --program RCV DESIGN PLAN [DESIGN PLAN ..]

compares what the two print, and says where it differs; the status is 1 then."""
import json
import subprocess
import sys
import tomllib

import check


class Names:
    """The names of a design by their numbers."""

    def __init__(self, data):
        file = tomllib.loads(data.decode())
        self.nodes = [node["name"] for node in file["node"]]
        self.trains = [train["name"] for train in file["train"]]


class PlanRun:
    """The run of a plan: that of the cone of all its commands, in which each waits for those that precede it."""

    def __init__(self, design, names, plan):
        self.design, self.names = design, names
        commands = [((names.trains.index(t) + 1, r), i) for i, step in enumerate(plan["steps"]) for t, r in step]
        self.path = {t: [c[1] for c, i in commands if c[0] == t] for t in range(1, design.T + 1)}
        pairs = [(d, c) for d, i in commands for c, j in commands if i < j and design.contend(d, c)]
        cones = [{"train": t, "horizon": design.horizon, "free": len(path), "path": path} for t, path in self.path.items()]
        self.run = check.Run(design, cones, pairs)
        self.made = {t: check.matched(design.train(t).visits, self.run.stops(t)) for t in self.path}

    def first(self, t, test):
        """The first tick at whose end the train's state passes a test, or None."""
        return next((k for k, state in enumerate(self.run.states[t]) if k > 0 and test(*state)), None)

    def granted(self, t, j):
        return self.first(t, lambda granted, x, v, stood: j <= granted)

    def passed(self, t, stop):
        return stop and self.first(t, lambda granted, x, v, stood: stop[2] <= granted and stop[1] <= x)

    def visited(self, t, j):
        return self.passed(t, self.made[t][j - 1])

    def has_stood(self, t, j):
        until = sum(self.design.train(t).dwells[:j])
        return self.first(t, lambda granted, x, v, stood: until <= stood)

    def failures(self):
        """What fails, each with the tick at which it is certain, in the order in which it is named at one tick."""
        design, trains = self.design, self.names.trains
        last = design.horizon
        for w, (t, j, u, k, most, ms) in enumerate(design.withins, 1):
            made, end = self.visited(t, j), self.visited(u, k)
            if made and made + most <= last and not (end and end <= made + most):
                yield made + most, f"fails within {w}"
        for o, (u, k, t, j) in enumerate(design.orders, 1):
            made, first = self.visited(t, j), self.visited(u, k)
            if made and not (first and first < made):
                yield made, f"fails order {o}"
        for t, path in self.path.items():
            for j in range(1, len(path) + 1):
                if not self.granted(t, j):
                    yield last, f"fails grant train {trains[t - 1]} command {j}"
        for t in self.path:
            for j in range(1, len(self.made[t]) + 1):
                if not self.visited(t, j):
                    yield last, f"fails visit train {trains[t - 1]} visit {j}"

    def done(self):
        """The tick at which all is granted and visited, or None."""
        ticks = [self.granted(t, j) for t, path in self.path.items() for j in range(1, len(path) + 1)]
        ticks += [self.visited(t, j) for t in self.path for j in range(1, len(self.made[t]) + 1)]
        return None if None in ticks else max(ticks)

    def of_train(self, t, last):
        node = lambda number: self.names.nodes[number]
        by = lambda tick: tick is not None and tick <= last
        for j, r in enumerate(self.path[t], 1):
            if by(self.granted(t, j)):
                yield f"grant {j} route {r} tick {self.granted(t, j)}"
        for stop in self.run.stops(t):
            if by(self.passed(t, stop)):
                yield f"pass {node(stop[0])} tick {self.passed(t, stop)}"
        for j, stop in enumerate(self.made[t], 1):
            if by(self.visited(t, j)):
                tick = self.visited(t, j)
                yield f"visit {j} {node(stop[0])} tick {tick} ms {tick * self.design.tick}"
        for j, ticks in enumerate(self.design.train(t).dwells, 1):
            if ticks > 0 and by(self.has_stood(t, j)):
                yield f"dwell {j} {node(self.made[t][j - 1][0])} tick {self.has_stood(t, j)}"

    def lines(self):
        for t in self.path:
            for j, stop in enumerate(self.made[t], 1):
                if stop is None:
                    yield f"fails path train {self.names.trains[t - 1]} visit {j}"
                    return
        failures, done = list(self.failures()), self.done()
        first = min((tick for tick, what in failures), default=None)
        last = done if first is None else first
        yield f"met tick {last}" if first is None else f"{next(what for k, what in failures if k == first)} tick {last}"
        for t in self.path:
            yield f"train {self.names.trains[t - 1]}"
            yield from self.of_train(t, last)


def text_of(design, plan):
    """The lines that are printed of the plan in the one file, over the design in the other."""
    with open(design, "rb") as file:
        data = file.read()
    with open(plan, "rb") as file:
        steps = json.load(file)
    return "".join(line + "\n" for line in PlanRun(check.Design(data), Names(data), steps).lines())


def main(words):
    if words[:1] == ["--program"] and len(words) > 3 and len(words) % 2 == 0:
        differ = 0
        for design, plan in zip(words[2::2], words[3::2]):
            told = subprocess.run([words[1], "simulate", design, plan], stdout=subprocess.PIPE).stdout.decode()
            if told != text_of(design, plan):
                differ += 1
                print(f"{plan} differs")
        print(f"{len(words) // 2 - 1 - differ} of {len(words) // 2 - 1} plans are told alike")
        return 1 if differ else 0
    if len(words) != 2:
        sys.exit("usage: simulate.py [--program RCV] DESIGN PLAN")
    text = text_of(*words)
    print(text, end="")
    return 0 if text.startswith("met") else 1


if __name__ == "__main__":
    sys.exit(main(sys.argv[1:]))
