#!/usr/bin/env python3
"""Lists the clauses of designs that have nearly as many literals as a design may have, and says how long and how much memory that takes.

Each case is the largest station of its kind that is not refused as too large, which is found by halves. Each has a bar in seconds and
one in MB; the status is 1 where one is missed.
"""

import argparse
import os
import pathlib
import signal
import subprocess
import sys
import tempfile
import time

TOP = pathlib.Path(__file__).resolve().parent.parent.parent
REFUSED = "design refused D14 base"


def station(routes, trains):
    """Lines side by side with two routes each, and perhaps one with a single route, over which trains go; the design."""
    nodes, edges, signals, ways = [], [], [], []

    def node(boundary=False):
        nodes.append(f'{{name="n{len(nodes)}"{",boundary=true" if boundary else ""}}}')
        return f"n{len(nodes) - 1}"

    def edge(start, end):
        name = f"e{len(edges)}"
        edges.append(f'{{name="{name}",from="{start}",from_side="b",to="{end}",to_side="a",length_mm=10000,speed_mm_s=2000,section="{name}"}}')

    for first in range(0, routes, 2):
        start, end = node(boundary=True), node()
        edge(start, end)
        if first + 1 < routes:
            signals.append(f'{{name="s{len(signals)}",node="{end}",toward="b"}}')
            start_again, end = end, node()
            edge(start_again, end)
        ways.append((start, end))
    rows = [f'{{name="t{number}",vehicle="v",visits=[["{ways[number % len(ways)][0]}"],["{ways[number % len(ways)][1]}"]]}}' for number in range(trains)]
    parts = ["version = 1", "tick_ms = 1000", "horizon_ms = 3600000"]
    parts.append('vehicle = [{name="v",length_mm=2000,accel_mm_s2=500,brake_mm_s2=700,speed_mm_s=2000}]')
    for name, entries in (("node", nodes), ("edge", edges), ("signal", signals), ("train", rows)):
        parts.append(f"{name} = [{','.join(entries)}]")
    return "\n".join(parts) + "\n"


def measured(told, limit):
    """What a command prints first, its seconds, and the most memory that it had at a time, in MB."""
    begin = time.monotonic()
    child = subprocess.Popen(told, stdin=subprocess.DEVNULL, stdout=subprocess.PIPE)
    signal.signal(signal.SIGALRM, lambda *_: child.kill())
    signal.alarm(limit)
    text = child.stdout.read().decode()
    _, status, used = os.wait4(child.pid, 0)
    signal.alarm(0)
    child.returncode = os.waitstatus_to_exitcode(status)
    answer = text.splitlines()[0] if text else f"status {child.returncode}"
    return answer, time.monotonic() - begin, used.ru_maxrss * 1024 / 1_000_000


def largest(program, folder, trains, steps, limit):
    """The greatest number of routes with which the station is not refused, up to 1,000, with its files."""
    design, proof = folder / "design.toml", folder / "proof"
    proof.write_text("rcvlog 1\n")

    def fits(routes):
        design.write_text(station(routes, trains))
        answer, _, _ = measured([program, "check", "--steps", str(steps), design, proof], limit)
        return answer != REFUSED

    low, high = 1, 1_001
    while high - low > 1:
        middle = (low + high) // 2
        low, high = (middle, high) if fits(middle) else (low, middle)
    design.write_text(station(low, trains))
    return low, design, proof


def main():
    words = argparse.ArgumentParser(description=__doc__)
    words.add_argument("--program", default=str(TOP / "rcv"), help="the program to run")
    words.add_argument("--limit", type=int, default=60, help="how many seconds a command may take, after which it is killed")
    words.add_argument("--seconds", type=float, default=2, help="the bar in seconds")
    words.add_argument("--megabytes", type=float, default=200, help="the bar in MB")
    given = words.parse_args()
    missed = 0
    with tempfile.TemporaryDirectory() as made:
        folder = pathlib.Path(made)
        for trains, steps in ((128, 1), (128, 2), (128, 4), (128, 16), (128, 64), (32, 4), (32, 16), (8, 256), (2, 256)):
            routes, design, proof = largest(given.program, folder, trains, steps, given.limit)
            name = f"{trains} trains, {steps} steps, {routes} routes"
            answer, seconds, megabytes = measured([given.program, "check", "--steps", str(steps), design, proof], given.limit)
            bad = seconds > given.seconds or megabytes > given.megabytes or answer != "no line 2 no final line"
            missed += bad
            search = [given.program, "verify", "--steps", str(steps), "--conflicts", "1", "--ticks", "1", design, folder / "none"]
            ended, later, more = measured(search, given.limit)
            print(f"{name:36} check {seconds:>6.2f} s {megabytes:>5.0f} MB  verify {later:>6.2f} s {more:>5.0f} MB  {answer}; {ended}"
                  f"{'  MISSED' if bad else ''}", flush=True)
    print(f"{missed} missed")
    return missed > 0


if __name__ == "__main__":
    sys.exit(main())
