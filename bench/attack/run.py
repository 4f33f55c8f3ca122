#!/usr/bin/env python3
"""Checks files that someone wrote to keep `rcv` busy, and says how long and how much memory each takes.

Designs have at most 300 KB and proof lines at most 10 MB. Each case has a bar in seconds; the status is 1 where one is missed.
"""

import argparse
import os
import pathlib
import subprocess
import sys
import tempfile
import time

TOP = pathlib.Path(__file__).resolve().parent.parent.parent


class Station:
    """A design that grows entry by entry."""

    def __init__(self, ticks=86_400, length=2_000):
        self.ticks = ticks
        self.length = length
        self.nodes = []
        self.edges = []
        self.signals = []
        self.trains = []

    def node(self, boundary=False):
        """A new node."""
        name = f"n{len(self.nodes)}"
        self.nodes.append(f'{{name="{name}"{",boundary=true" if boundary else ""}}}')
        return name

    def edge(self, start, end, section=None):
        """A new edge from side b of a node to side a of another, in a section of its own where none is named."""
        name = f"e{len(self.edges)}"
        self.edges.append(
            f'{{name="{name}",from="{start}",from_side="b",to="{end}",to_side="a",length_mm=1000,speed_mm_s=100,'
            f'section="{section or name}"}}'
        )

    def signal(self, node, toward="b"):
        """A new signal."""
        self.signals.append(f'{{name="s{len(self.signals)}",node="{node}",toward="{toward}"}}')

    def train(self, *visits):
        """A new train with these visits, each a node or some of which one is to be passed."""
        sets = [[visit] if isinstance(visit, str) else visit for visit in visits]
        places = ",".join("[" + ",".join(f'"{node}"' for node in nodes) + "]" for nodes in sets)
        self.trains.append(f'{{name="t{len(self.trains)}",vehicle="v",visits=[{places}]}}')

    def line(self, start, many, section=None):
        """So many edges one after the other; the last node."""
        for _ in range(many):
            end = self.node()
            self.edge(start, end, section)
            start = end
        return start

    def diamonds(self, start, many):
        """Places with two ways each, so that there are two to the power of so many ways through all of them; the last node."""
        for _ in range(many):
            end = self.node()
            self.edge(start, end)
            self.edge(start, end)
            start = self.line(end, 1)
        return start

    def text(self):
        """The design."""
        parts = ["version = 1", "tick_ms = 1000", f"horizon_ms = {1000 * self.ticks}"]
        for name, entries in (("node", self.nodes), ("edge", self.edges), ("signal", self.signals), ("train", self.trains)):
            parts.append(f"{name} = [{','.join(entries)}]")
        parts.append(f'vehicle = [{{name="v",length_mm={self.length},accel_mm_s2=500,brake_mm_s2=700,speed_mm_s=2000}}]')
        return "\n".join(parts) + "\n"


def ways(diamonds, sections, lines, trains, exits=False):
    """Lines that have nothing in common, each with many ways that share all but the first sections."""
    station = Station()
    starts = []
    for _ in range(lines):
        start = station.node(boundary=True)
        end = station.line(station.diamonds(station.line(start, 1), diamonds), sections)
        last = station.node(boundary=exits)
        station.edge(end, last)
        starts.append((start, last))
    for number in range(trains):
        station.train(*starts[number % lines])
    return station.text()


def ladder(routes, trains, ticks=86_400):
    """A line of so many routes of one edge each, all in one section."""
    station = Station(ticks)
    first = station.node(boundary=True)
    node = station.line(first, 1, "z")
    for _ in range(routes - 1):
        station.signal(node)
        node = station.line(node, 1, "z")
    for _ in range(trains):
        station.train(first, node)
    return station.text()


def waiting(before, behind, length):
    """Many ways to a signal, and many from there on, for two trains that are as long as many of them."""
    station = Station(length=length)
    first = station.node(boundary=True)
    node = station.diamonds(station.line(first, 1, "z"), before)
    station.signal(node)
    end = station.line(station.diamonds(node, behind), 1, "z")
    for _ in range(2):
        station.train(first, end)
    return station.text()


def side_by_side(lines, sections):
    """Lines side by side, each with a train that is slow enough to be on its way for a day."""
    station = Station()
    for _ in range(lines):
        first = station.node(boundary=True)
        station.train(first, station.line(first, sections))
    return station.text().replace("length_mm=1000,", "length_mm=10000000,")


def visits(diamonds, sections, many):
    """One train whose visits name places that no way meets."""
    station = Station()
    first = station.node(boundary=True)
    end = station.line(station.diamonds(station.line(first, 1), diamonds), sections)
    siding = station.node()
    names = [siding]
    for _ in range(64):
        siding = station.line(siding, 1)
        names.append(siding)
    station.train(first, *[names[1:]] * (many - 2), end)
    return station.text()


def proof(*lines):
    """A proof file of these lines."""
    return "rcvlog 1\n" + "".join(line + "\n" for line in lines)


def sorted_proof(steps, *lines):
    """A proof file of these lines over the clauses of trains that come in turn."""
    return f"rcvlog 4 1 {steps}\n" + "".join(line + "\n" for line in lines)


def creeping(edges):
    """A train that is on its only route, of so many edges, for more than a day."""
    station = Station()
    first = station.node(boundary=True)
    last = station.node(boundary=True)
    station.train(first, last)
    station.edge(station.line(first, edges - 1), last)
    return station.text().replace("length_mm=1000,", "length_mm=10000000,")


def stages(many, switches=0):
    """A line of places, each with two ways to the next signal, for two trains; beyond the last signal is a tree of so many switches
    in a row."""
    station = Station()
    first = station.node(boundary=True)
    node = station.line(first, 1, "z")
    for _ in range(many):
        station.signal(node)
        end = station.node()
        station.edge(node, end, "z")
        station.edge(node, end, "z")
        node = station.line(end, 1, "z")
    station.signal(node)
    ends = [station.line(node, 1, "z")]
    for _ in range(switches):
        ends = [station.line(end, 1, "z") for end in ends for _ in range(2)]
    for _ in range(2):
        station.train(first, node)
    return station.text()


def both_ways(train, first, many):
    """A leg over so many places of the stages, each with both of its routes."""
    return f"l {train} " + " ".join(f"a {2 * place} {2 * place + 1} 0 0" for place in range(first, first + many))


def listed(routes):
    """A valid cone of two trains that lists all pairs but those that would hold up the first command."""
    path = " ".join(str(number) for number in range(1, routes + 1))
    pairs = [f"p 1 {one} 2 {other}" for one in range(1, routes + 1) for other in range(1, routes + 1)]
    pairs += [f"p 2 {one} 1 {other}" for one in range(1, routes + 1) for other in range(2, routes + 1)]
    return f"r grant 2 1 t 1 1 1 {path} 0 0 0 t 2 1 0 {path} 0 1 1 " + " ".join(pairs)


def ring(routes, more):
    """A line of so many routes that leads into a ring of more of them."""
    station = Station()
    first = station.node(boundary=True)
    node = station.line(first, 1)
    for _ in range(routes - 1):
        station.signal(node)
        node = station.line(node, 1)
    entry = node
    for _ in range(more - 1):
        station.signal(node)
        node = station.line(node, 1)
    station.signal(node)
    station.edge(node, entry)
    station.train(first, entry)
    return station.text()


def again(routes, more, times):
    """A cone of a path that goes round the ring so many times."""
    line = " ".join(str(number) for number in range(1, routes + 1))
    round_ = " " + " ".join(str(number) for number in range(routes + 1, routes + more + 1))
    return f"r grant 1 1 t 1 0 0 {line}{round_ * times} 0 0 0"


def cases():
    """The name, the bar in seconds, the design, the steps and the proof of each."""
    end = proof("d 0 1 0")
    yield "one train, ways that share nothing", 2, ways(9, 900, 2, 1), 2, end
    yield "one train, ways that share all", 2, ways(10, 1900, 1, 1), 2, end
    yield "one train, visits that no way makes", 2, visits(10, 1700, 16), 2, end
    yield "two trains, ways that share all", 2, ways(9, 1900, 1, 2), 1, end
    yield "two trains, ways that share nothing", 2, ways(8, 900, 2, 2), 1, end
    yield "two long trains at a signal with many ways", 2, waiting(7, 8, 2_000_000), 2, end
    yield "two trains, many routes in one section", 2, ladder(600, 2), 1, end
    yield "32 trains, ways that share all and exit", 2, ways(3, 1900, 1, 32, exits=True), 2, end
    yield "32 trains, ways that share all", 2, ways(3, 1900, 1, 32), 2, end
    yield "one line, 719,400 listed pairs", 2, ladder(600, 2, ticks=1), 1, proof(listed(600), "d 0 1 0")
    yield "one line, round a ring 1,000,000 times", 2, ring(900, 2), 1, proof(again(900, 2, 1_000_000))
    yield "100,000 lines of paths", 5, ladder(600, 2), 1, proof(*["r path 1 2 t 1 0 0 1 2 3 0 0 0"] * 100_000)
    yield "10,000 lines of one free command", 5, ladder(600, 2, ticks=1), 1, proof(*["r grant 1 2 t 1 1 1 1 2 0 0 0"] * 10_000)
    yield "1,000 lines that are followed for 1,000 ticks", 5, ladder(600, 2, ticks=1000), 1, proof(*["r visit 1 2 t 1 1000 1 1 0 0 0"] * 1_000)
    day = " ".join(f"t {number} 86400 1 {number} 0 0 0" for number in range(1, 33))
    yield "one line, 32 trains that are followed for a day", 2, side_by_side(32, 50), 1, proof(f"r visit 1 2 {day}")
    yield "a bound of a train that creeps for a day", 2, creeping(20), 1, sorted_proof(1, "b visit 1 2 zero l 1 n 1")
    yield "a bound of a train on 1,900 edges", 2, creeping(1900), 1, sorted_proof(1, "b visit 1 2 zero l 1 n 1")
    yield "a bound with 4,096 ways", 2, stages(12), 1, sorted_proof(1, f"b visit 1 2 zero {both_ways(1, 1, 12)}")
    slow = stages(12).replace("length_mm=1000,", "length_mm=10000000,")
    yield "a bound with 4,096 slow ways", 2, slow, 1, sorted_proof(1, f"b visit 1 2 zero {both_ways(1, 1, 12)}")
    legs = " ".join(both_ways(1 + leg % 2, 1, 11) + " n 24" for leg in range(4)) + " " + both_ways(1, 1, 12)
    yield "a bound with five legs of many ways", 2, stages(12), 1, sorted_proof(1, f"b visit 1 2 zero {legs}")
    yield "a bound with 512 routes behind it", 2, stages(4, 9), 1, sorted_proof(1, f"b visit 1 2 zero {both_ways(1, 1, 4)}")
    routes = " ".join(str(number % 600 + 1) for number in range(2_500_000))
    yield "a bound of 2,500,000 routes", 2, ladder(600, 2), 1, sorted_proof(1, f"b visit 1 2 zero l 1 a {routes} 0 0")
    yield "20,000 bounds of one place", 5, ladder(600, 2), 1, sorted_proof(1, *["b visit 1 2 zero l 1 a 1 2 3 0 0"] * 20_000)
    yield "one line that forgets 1,000,000 clauses", 2, ladder(2, 2), 1, proof("x " + " ".join(["1"] * 1_000_000) + " 0")
    yield "one line of 1,000,000 hints", 2, ladder(2, 2), 1, proof("d 0 " + " ".join(["1"] * 1_000_000) + " 0")


def run(program, words, limit):
    """The status, the text, the seconds and the greatest memory in KB; the status is None past the limit."""
    begin = time.monotonic()
    with tempfile.TemporaryFile() as out:
        child = subprocess.Popen([program, *words], stdin=subprocess.DEVNULL, stdout=out, stderr=subprocess.STDOUT)
        while True:
            done, status, usage = os.wait4(child.pid, os.WNOHANG)
            if done:
                break
            if time.monotonic() - begin > limit:
                child.kill()
                os.wait4(child.pid, 0)
                child.returncode = -9
                return None, "", time.monotonic() - begin, 0
            time.sleep(0.005)
        child.returncode = os.waitstatus_to_exitcode(status)
        seconds = time.monotonic() - begin
        out.seek(0)
        return child.returncode, out.read().decode(errors="replace"), seconds, usage.ru_maxrss


def main():
    words = argparse.ArgumentParser(description=__doc__)
    words.add_argument("--program", default=str(TOP / "rcv"), help="the program to run")
    words.add_argument("--limit", type=float, default=60, help="how many seconds a case may take, after which it is killed")
    words.add_argument("--only", default="", help="cases whose names have these words")
    given = words.parse_args()
    missed = 0
    print(f"{'name':48} {'design':>7} {'proof':>9} {'bar':>4} {'seconds':>8} {'MB':>6}  answer")
    with tempfile.TemporaryDirectory() as folder:
        design = pathlib.Path(folder) / "design.toml"
        file = pathlib.Path(folder) / "proof.txt"
        for name, bar, text, steps, told in cases():
            if given.only not in name:
                continue
            design.write_text(text)
            file.write_text(told)
            status, answer, seconds, memory = run(given.program, ["check", "--steps", str(steps), str(design), str(file)], given.limit)
            shown = "killed" if status is None else f"{status} {answer.strip()[:60]}"
            missed += status is None or seconds > bar
            print(f"{name:48} {len(text) // 1000:>4} KB {len(told) // 1000:>6} KB {bar:>4} {seconds:>8.2f} {memory // 1000:>6}  {shown}", flush=True)
    print(f"{missed} bars missed")
    return missed > 0


if __name__ == "__main__":
    sys.exit(main())
