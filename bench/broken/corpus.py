"""The designs, plans and proofs of the stations and of the worked examples."""

import collections
import json
import pathlib
import tomllib

TOP = pathlib.Path(__file__).resolve().parent.parent.parent
STATIONS = TOP / "stations"
DATA = TOP / "crates" / "rail_vectors" / "data"

# A design with the plans and the proofs that were written for it, each proof with the steps that it is checked with.
Station = collections.namedtuple("Station", "design plans proofs")

# The books of worked examples whose designs are refused, some of them late and after much work.
REFUSED = ("refused_designs", "limits")


def steps_of(words):
    """The number of steps in a command, or 2 where there is none."""
    return words[words.index("--steps") + 1] if "--steps" in words[:-1] else "2"


class Corpus:
    """Stations by their designs, in the order in which they were added."""

    def __init__(self):
        self.stations = {}

    def add(self, design, plan=None, proof=None):
        """Adds a design, where it is new, with a plan and a proof."""
        station = self.stations.setdefault(design, Station(design, [], []))
        if plan is not None and plan not in station.plans:
            station.plans.append(plan)
        if proof is not None and proof not in station.proofs:
            station.proofs.append(proof)

    def add_stations(self):
        """Adds the stations that the calls of `stations` name, and all plans there."""
        for path in sorted(STATIONS.glob("*.toml")):
            plan = path.with_suffix(".plan.json")
            self.add(path.read_bytes(), plan.read_bytes() if plan.exists() else None)
        for line in (STATIONS / "calls").read_text().splitlines():
            words = line.split()
            if words[:2] == ["rcv", "check"] and not words[-1].startswith("NEW/"):
                proof = (STATIONS / words[-1]).read_bytes()
                self.add((STATIONS / words[-2]).read_bytes(), proof=(steps_of(words), proof))

    def add_examples(self, refused):
        """Adds what the worked examples have as files: of those of refused designs, or of the others."""
        for book in sorted(DATA.glob("*.toml")):
            if (book.stem in REFUSED) != refused:
                continue
            for row in tomllib.loads(book.read_text())["row"]:
                if "station" in row:
                    self.add_example(row)

    def add_example(self, row):
        """Adds the files of a worked example."""
        design = (DATA / "stations" / f"{row['station']}.toml").read_text()
        design = design.replace(row.get("replaced", "\0"), row.get("by", ""))
        words = row["command"][0]["words"].split() if "command" in row else []
        proof = (steps_of(words), row["proof"].encode()) if "proof" in row else None
        self.add(design.encode(), row["plan"].encode() if "plan" in row else None, proof)


def trains_of(design):
    """The names of the trains of a design, or none where it is no design."""
    try:
        return [train["name"] for train in tomllib.loads(design.decode())["train"]]
    except (ValueError, KeyError, TypeError):
        return []


def made_plans(design):
    """Plans that may be good or not: each train in turn on routes 1 and 2, and all of them in one step."""
    trains = trains_of(design)[:128]
    in_turn = [[[train, route]] for train in trains for route in (1, 2)]
    at_once = [[[train, 1 + number] for number, train in enumerate(trains)]]
    return [json.dumps({"steps": steps}, separators=(",", ":")).encode() for steps in (in_turn, at_once)]


def stations(refused):
    """The stations that are refused designs, or those that are not, each with a plan and a proof at the least."""
    corpus = Corpus()
    if not refused:
        corpus.add_stations()
    corpus.add_examples(refused)
    for station in corpus.stations.values():
        if not station.plans:
            station.plans.extend(made_plans(station.design))
        if not station.proofs:
            station.proofs.append(("2", b"rcvlog 1\nr within 1 t 1 9 2 1 2 0 0 0\nd 0 9 10 14 0\n"))
    return list(corpus.stations.values())
