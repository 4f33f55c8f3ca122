#!/usr/bin/env python3
"""Writes the clauses that every plan of at most so many steps of a station makes true, as DIMACS: `clauses.py STATION STEPS [BY]`.

With BY, one clause more says that all is given by that step. It is written apart from the program, from the same definitions.
"""

import pathlib
import sys
import tomllib


class Station:
    """A design, with what its clauses speak of."""

    def __init__(self, path):
        text = tomllib.loads(pathlib.Path(path).read_text())
        self.nodes = [node["name"] for node in text["node"]]
        self.boundaries = {node["name"] for node in text["node"] if node.get("boundary", False)}
        self.signals = {(signal["node"], signal["toward"]): signal["name"] for signal in text.get("signal", [])}
        self.ends = {}
        for edge in text["edge"]:
            self.ends.setdefault((edge["from"], edge["from_side"]), []).append((edge, (edge["to"], edge["to_side"])))
            self.ends.setdefault((edge["to"], edge["to_side"]), []).append((edge, (edge["from"], edge["from_side"])))
        places = {edge["name"]: place for place, edge in enumerate(text["edge"])}
        for edges in self.ends.values():
            edges.sort(key=lambda end: places[end[0]["name"]])
        lengths = {vehicle["name"]: vehicle["length_mm"] for vehicle in text["vehicle"]}
        self.trains = [(lengths[train["vehicle"]], train["visits"]) for train in text["train"]]
        self.routes = list(self.find_routes())
        names = [train["name"] for train in text["train"]]
        self.froms = {
            "within": [names.index(within["from_train"]) + 1 for within in text.get("within", [])],
            "order": [names.index(order["then_train"]) + 1 for order in text.get("order", [])],
        }

    def counted_from(self, kind, number):
        """The train of the visit from which the ticks of a within or an order are counted."""
        return self.froms[kind][number - 1]

    def find_routes(self):
        """The routes, by their starts, and then by the first edge in which two differ."""
        for node in self.nodes:
            for side in "ab":
                if node in self.boundaries:
                    yield from self.paths(("boundary", node), (node, side), [])
                elif (node, side) in self.signals:
                    yield from self.paths(("signal", node, side), (node, side), [])

    def paths(self, start, leaving, edges):
        """The routes that go on by leaving a node at a side."""
        for edge, (node, side) in self.ends.get(leaving, []):
            path = edges + [(edge, node)]
            other = (node, "b" if side == "a" else "a")
            if node in self.boundaries:
                yield Route(start, ("exit", node), path)
            elif other in self.signals:
                yield Route(start, ("signal", *other), path)
            elif other not in self.ends:
                yield Route(start, ("dead", node), path)
            else:
                yield from self.paths(start, other, path)


class Route:
    """A route with its length, the nodes at the ends of its edges, and how far each section reaches."""

    def __init__(self, start, finish, path):
        self.start, self.finish = start, finish
        self.nodes = {node for _, node in path}
        self.length = 0
        self.sections = {}
        for edge, _ in path:
            self.length += edge["length_mm"]
            self.sections[edge["section"]] = self.length


def clauses(station, steps):
    """How many variables there are, and the clauses, in order."""
    routes, trains = station.routes, station.trains
    many = len(routes)
    commands = [(t, r) for t in range(len(trains)) for r in range(many)]

    def given(c, i):
        return (c[0] * many + c[1]) * steps + i

    def if_given(c, i):
        return [given(c, i)] if i else []

    def contend(d, c):
        return d[0] != c[0] and bool(routes[d[1]].sections.keys() & routes[c[1]].sections.keys())

    pairs = [(d, c) for d in commands for c in commands if contend(d, c)]
    first_pair = len(commands) * steps + 1
    first_step = first_pair + len(pairs)
    every = range(1, steps + 1)
    found = [[-given(c, i), given(c, i + 1)] for c in commands for i in every[:-1]]
    for c in commands:
        start = routes[c[1]].start
        for i in every:
            if start[0] == "signal":
                found.append([-given(c, i)] + [x for r in range(many) if routes[r].finish == start for x in if_given((c[0], r), i - 1)])
            elif start[1] not in trains[c[0]][1][0]:
                found.append([-given(c, i)])
    for t in range(len(trains)):
        for r in range(many):
            for q in range(r + 1, many):
                one, other = routes[r], routes[q]
                if (one.start[0] == other.start[0] == "boundary" or one.start == other.start
                        or one.finish[0] == "signal" and one.finish == other.finish):
                    found.append([-given((t, r), steps), -given((t, q), steps)])
    for d, c in pairs:
        if d[0] < c[0]:
            found += [[-given(d, i), *if_given(d, i - 1), -given(c, i), *if_given(c, i - 1)] for i in every]

    def onward(chain):
        starts = {routes[w].start for w in chain}
        finish = routes[chain[-1]].finish
        return [w for w in range(many) if routes[w].start == finish and finish not in starts]

    def chains(chain, bound):
        if routes[chain[-1]].finish[0] != "exit" and sum(routes[w].length for w in chain) < bound:
            yield chain
            for w in onward(chain):
                yield from chains(chain + [w], bound)

    for d, c in pairs:
        shared = routes[d[1]].sections.keys() & routes[c[1]].sections.keys()
        bound = max(routes[d[1]].sections[z] for z in shared) + trains[d[0]][0]
        for chain in chains([d[1]], bound):
            further = onward(chain)
            for i in every[:-1]:
                found.append([-given((d[0], w), i) for w in chain] + [-given(c, i + 1), given(c, i)] + [given((d[0], w), i) for w in further])
    for t, (_, visits) in enumerate(trains):
        for k, visit in enumerate(visits):
            def may(route):
                return bool(route.nodes & set(visit)) if k else route.start[0] == "boundary" and route.start[1] in visit
            found.append([given((t, r), steps) for r in range(many) if may(routes[r])])
    for place, (d, c) in enumerate(pairs):
        p = first_pair + place
        found.append([-p, given(c, steps)])
        found += [[-p, -given(c, i), *if_given(d, i - 1)] for i in every]
        found += [[p, -given(d, i), given(c, i), -given(c, steps)] for i in every[:-1]]
    for k in every[:-1]:
        found += [[-(first_step + k - 1), -given(c, steps), given(c, k)] for c in commands]
    return first_step + steps - 1, found


def written(variables, found):
    """The clauses as DIMACS."""
    lines = [f"p cnf {variables} {len(found)}"]
    lines += [" ".join(map(str, clause + [0])) for clause in found]
    return "\n".join(lines) + "\n"


def formula(path, steps, by=None):
    """The clauses of a station for so many steps, and that all is given by a step where one is named."""
    variables, found = clauses(Station(path), steps)
    if by is not None:
        found.append([variables - steps + by])
    return variables, found


if __name__ == "__main__":
    sys.stdout.write(written(*formula(sys.argv[1], int(sys.argv[2]), int(sys.argv[3]) if len(sys.argv) > 3 else None)))
