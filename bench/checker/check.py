#!/usr/bin/env python3
"""check.py [--within W --max-ms X] [--steps N] DESIGN PROOF

Says what a proof file shows of a design, as `rcv check` does: `yes steps <k>`, or `no line <l> <reason>`. It does what
docs/PROOF-FORMAT.md says, with docs/DEFINITIONS.md and docs/DESIGNERS.md, and takes for granted that the design is
admitted. With --within and --max-ms the design is that of the file with another greatest time in one within. Without
--steps the head of the file has to name the number of steps."""
import copy
import sys
import tomllib

SMALL = 4294967295
LOOKS = 33554432
LITERALS = 16000000
MOST_BYTES = 268435456


class Bad(Exception):
    """A line is bad, for this reason."""


# ---- the design


class Route:
    def __init__(self, start, finish, edges, design):
        self.start, self.finish, self.edges = start, finish, edges
        self.stretches, self.release, self.length = [], {}, 0
        for e in edges:
            length, limit, section = design.edges[e][2:]
            self.length += length
            self.stretches.append((self.length, limit))
            self.release[section] = self.length
        sections, hold = design.overlaps.get(finish[1], ([], 0)) if self.to_signal else ([], 0)
        self.held = {section: hold for section in sections if section not in self.release}
        self.sections = [*self.release, *self.held]  # own ones, and then those of the overlap at its end
        self.nodes = []  # behind the start, with offsets

    def has(self, section):
        return section in self.release or section in self.held

    def shares(self, other):
        return any(other.has(z) for z in self.sections)

    def shares_own(self, other):
        return any(other.has(z) for z in self.release)

    first = property(lambda self: self.start[0] == "boundary")
    exits = property(lambda self: self.finish[0] == "exit")
    dead = property(lambda self: self.finish[0] == "dead")
    to_signal = property(lambda self: self.finish[0] == "signal")

    def follows(self, other):
        return self.start[0] == "signal" and other.finish == self.start

    def clearing(self, other, length):
        """Where a train of a length has left all own sections that the other has; 0 where there is none."""
        return max((self.release[z] + length for z in self.release if other.has(z)), default=0)


class Train:
    pass


class Design:
    def __init__(self, data):
        file = tomllib.loads(data.decode())
        tick = file["tick_ms"]
        self.tick, self.version = tick, file["version"]
        self.horizon = file["horizon_ms"] // tick
        speed = lambda v: v * tick // 1000
        gain = lambda v: v * tick * tick // 1000000
        nodes = file.get("node", [])
        number = {node["name"]: i for i, node in enumerate(nodes)}
        self.boundary = [node.get("boundary", False) for node in nodes]
        self.edges, self.at = [], {}
        for i, e in enumerate(file.get("edge", [])):
            one, other = (number[e["from"]], e["from_side"]), (number[e["to"]], e["to_side"])
            self.edges.append((one, other, e["length_mm"], speed(e["speed_mm_s"]), e["section"]))
            self.at.setdefault(one, []).append(i)
            self.at.setdefault(other, []).append(i)
        self.signals = {(number[s["node"]], s["toward"]): i for i, s in enumerate(file.get("signal", []))}
        place = {s["name"]: i for i, s in enumerate(file.get("signal", []))}
        # by signal the sections of its overlap, and for how many ticks they are held
        self.overlaps = {place[o["signal"]]: (o["sections"], (o["hold_ms"] + tick - 1) // tick)
                         for o in file.get("overlap", [])}
        vehicles = {v["name"]: v for v in file.get("vehicle", [])}
        self.trains, by_name = [], {}
        for t in file["train"]:
            v, train = vehicles[t["vehicle"]], Train()
            train.vehicle, train.length = t["vehicle"], v["length_mm"]
            train.tail = train.length if self.version >= 2 else 0
            train.accel, train.brake, train.top = gain(v["accel_mm_s2"]), gain(v["brake_mm_s2"]), speed(v["speed_mm_s"])
            train.visits = [[number[name] for name in visit] for visit in t["visits"]]
            train.dwell_ms = t.get("dwell_ms", [0] * len(train.visits))
            train.dwells = [(ms + tick - 1) // tick for ms in train.dwell_ms]
            by_name[t["name"]] = len(self.trains) + 1
            self.trains.append(train)
        self.orders = [(by_name[o["first_train"]], o["first_visit"], by_name[o["then_train"]], o["then_visit"])
                       for o in file.get("order", [])]
        self.withins = [(by_name[w["from_train"]], w["from_visit"], by_name[w["to_train"]], w["to_visit"],
                         w["max_ms"] // tick, w["max_ms"]) for w in file.get("within", [])]
        self.find_routes()
        self.T, self.R = len(self.trains), len(self.routes)
        self.bases, self.timed = {}, {}

    def with_time(self, within, max_ms):
        """The same design with another greatest time in a within of it."""
        if (within, max_ms) not in self.timed:
            other = self.timed[within, max_ms] = copy.copy(self)
            other.withins, other.bases, other.timed = list(self.withins), {}, {}
            other.withins[within - 1] = self.withins[within - 1][:4] + (max_ms // self.tick, max_ms)
        return self.timed[within, max_ms]

    def find_routes(self):
        self.routes = []
        other_side = {"a": "b", "b": "a"}
        for node, boundary in enumerate(self.boundary):
            if boundary:
                side = "a" if self.at.get((node, "a")) else "b"
                starts = [(("boundary", node), side)]
            else:
                starts = [(("signal", self.signals[node, side]), side) for side in "ab" if (node, side) in self.signals]
            for start, side in starts:
                stack = [((node, side), [], [])]
                while stack:
                    leaving, path, passed = stack.pop()
                    finish = self.finish_at(leaving) if path else None
                    if finish is not None:
                        route = Route(start, finish, path, self)
                        route.nodes = list(zip(passed, (end for end, limit in route.stretches)))
                        self.routes.append(route)
                        continue
                    for e in reversed(self.at.get(leaving, [])):
                        if e not in path:
                            one, other = self.edges[e][:2]
                            there = other if one == leaving else one
                            stack.append(((there[0], other_side[there[1]]), path + [e], passed + [there[0]]))

    def finish_at(self, leaving):
        """How a route ends that would leave a node by this side, if it ends there."""
        if self.boundary[leaving[0]]:
            return ("exit", leaving[0])
        if leaving in self.signals:
            return ("signal", self.signals[leaving])
        return None if self.at.get(leaving) else ("dead", leaving[0])

    def route(self, r):
        return self.routes[r - 1]

    def train(self, t):
        return self.trains[t - 1]

    def has_train(self, t):
        return 1 <= t <= self.T

    def has_visit(self, t, k):
        return self.has_train(t) and 1 <= k <= len(self.train(t).visits)

    def contend(self, d, c):
        return d[0] != c[0] and self.route(d[1]).shares(self.route(c[1]))

    def can_visit(self, t, k, r):
        visit, route = self.train(t).visits[k - 1], self.route(r)
        if k == 1:
            return route.first and route.start[1] in visit
        return any(node in visit for node, offset in route.nodes)

    def begins(self, t):
        """The routes with which a train may begin."""
        return [r for r in range(1, self.R + 1) if self.can_visit(t, 1, r)]

    def past(self, way):
        """The routes that go past routes in a row."""
        starts = {self.route(r).start for r in way}
        last = self.route(way[-1])
        return [q for q in range(1, self.R + 1) if self.route(q).follows(last) and self.route(q).start not in starts]


# ---- variables and clauses


class Dead(Exception):
    """What is denied is of a command of which the base doesn't speak."""


def live_commands(design):
    """The commands whose route stands on a way of their train."""
    found = set()
    for t in range(1, design.T + 1):
        visits = design.train(t).visits

        def made(r, j):
            for node, offset in design.route(r).nodes:
                if j < len(visits) and node in visits[j]:
                    j += 1
            return j

        front = [(r, 1) for r in design.begins(t)]
        reached, behind = set(front), {}
        while front:
            r, j = front.pop()
            for q in range(1, design.R + 1):
                if design.route(q).follows(design.route(r)):
                    after = (q, made(r, j))
                    behind.setdefault(after, []).append((r, j))
                    if after not in reached:
                        reached.add(after)
                        front.append(after)
        front = [(r, j) for r, j in reached if made(r, j) == len(visits)]
        ends = set(front)
        while front:
            for before in behind.get(front.pop(), []):
                if before not in ends:
                    ends.add(before)
                    front.append(before)
        found |= {(t, r) for r, j in ends}
    return found


class Base:
    """The variables and the clauses of a design for plans of at most n steps: of all commands, or of these alone."""

    def __init__(self, design, n, live=None):
        self.design, self.n = design, n
        T, R = design.T, design.R
        every = [(t, r) for t in range(1, T + 1) for r in range(1, R + 1)]
        self.commands = [c for c in every if live is None or c in live]
        self.place = {c: place for place, c in enumerate(self.commands)}
        shared = {r: [q for q in range(1, R + 1) if design.route(r).shares(design.route(q))] for r in range(1, R + 1)}
        self.pairs, self.before = {}, {}
        for d in self.commands:
            for t in range(1, T + 1):
                if t != d[0]:
                    for r in shared[d[1]]:
                        if (t, r) in self.place:
                            self.pairs[d, (t, r)] = len(self.commands) * n + len(self.pairs) + 1
                            self.before.setdefault((t, r), []).append(d)
        self.last = len(self.commands) * n + len(self.pairs) + n
        self.clauses = list(self.made())
        self.turns, self.normal = {}, None

    def given(self, c, i):
        return self.place[c] * self.n + i

    def used(self, c):
        return self.given(c, self.n)

    def some_given(self, t, routes, i):
        """That a train is given one of these routes by step i, of those of which the base speaks; by step 0 none is."""
        return tuple(self.given((t, q), i) for q in routes if i > 0 and (t, q) in self.place)

    def not_used(self, c):
        if c not in self.place:
            raise Dead
        return -self.used(c)

    def not_before(self, d, c):
        if (d, c) not in self.pairs:
            raise Dead
        return -self.pairs[d, c]

    def by(self, k):
        return self.last - self.n + k

    def made(self):
        design, n, given, used = self.design, self.n, self.given, self.used
        numbers = range(1, design.R + 1)
        for c in self.commands:
            for i in range(1, n):
                yield (-given(c, i), given(c, i + 1))
        for c in self.commands:
            t, route = c[0], design.route(c[1])
            before = [q for q in numbers if route.follows(design.route(q))]
            for i in range(1, n + 1):
                if not route.first:
                    yield (-given(c, i),) + self.some_given(t, before, i - 1)
                elif not design.can_visit(t, 1, c[1]):
                    yield (-given(c, i),)
        for t in range(1, design.T + 1):
            for r in numbers:
                for q in range(r + 1, design.R + 1):
                    one, other = design.route(r), design.route(q)
                    if (t, r) in self.place and (t, q) in self.place and (
                            one.first and other.first or one.start == other.start
                            or one.to_signal and one.finish == other.finish):
                        yield (-used((t, r)), -used((t, q)))
        for d, c in self.pairs:
            if d[0] < c[0]:
                for i in range(1, n + 1):
                    yield ((-given(d, i),) + ((given(d, i - 1),) if i > 1 else ())
                           + (-given(c, i),) + ((given(c, i - 1),) if i > 1 else ()))
        for d, c in self.pairs:
            t = d[0]
            clear = design.route(d[1]).clearing(design.route(c[1]), design.train(t).length)
            for chain, onward in self.chains([d[1]], clear):
                for i in range(1, n):
                    if all((t, w) in self.place for w in chain):
                        yield (tuple(-given((t, w), i) for w in chain) + (-given(c, i + 1), given(c, i))
                               + self.some_given(t, onward, i))
        for t in range(1, design.T + 1):
            for k in range(1, len(design.train(t).visits) + 1):
                yield self.some_given(t, [r for r in numbers if design.can_visit(t, k, r)], n)
        for (d, c), p in self.pairs.items():
            yield (-p, used(c))
            for i in range(1, n + 1):
                yield (-p, -given(c, i)) + ((given(d, i - 1),) if i > 1 else ())
            for i in range(1, n):
                yield (p, -given(d, i), given(c, i), -used(c))
        for k in range(1, n):
            for c in self.commands:
                yield (-self.by(k), -used(c), given(c, k))

    def chains(self, chain, clear):
        route = self.design.route
        if route(chain[-1]).exits or sum(route(w).length for w in chain) >= clear:
            return
        onward = self.design.past(chain)
        yield chain, onward
        for q in onward:
            yield from self.chains(chain + [q], clear)

    def turn_clauses(self, within=None):
        """The clauses that trains which are alike come in turn: all of them, or those that a within doesn't name."""
        if within not in self.turns:
            self.turns[within] = turns = []
            design = self.design
            named = () if within is None else design.withins[within - 1][0:3:2]
            trains = [t for t in range(1, design.T + 1) if t not in named]
            for place, t in enumerate(trains):
                u = next((u for u in trains[place + 1:] if are_alike(design, t, u)), None)
                if u is not None:
                    for q in design.begins(u):
                        for i in range(1, self.n + 1):
                            if (u, q) in self.place:
                                turns.append((-self.given((u, q), i),) + self.some_given(t, design.begins(t), i))
        return self.turns[within]

    def given_in(self, c, i):
        return self.last + self.given(c, i)

    def led_to(self, v):
        """The routes to which chains from a route lead."""
        design, found, front = self.design, {v}, [v]
        while front:
            front = [q for r in front for q in range(1, design.R + 1)
                     if design.route(q).follows(design.route(r)) and design.route(q).start != design.route(v).start
                     and q not in found and not found.add(q)]
        return found

    def normal_clauses(self):
        if self.normal is None:
            self.normal = []
            design, n, given, given_in = self.design, self.n, self.given, self.given_in
            numbers = range(1, design.R + 1)
            for c in self.commands:
                for i in range(1, n + 1):
                    self.normal.append((-given_in(c, i), given(c, i)))
                    if i > 1:
                        self.normal.append((-given_in(c, i), -given(c, i - 1)))
                    self.normal.append((-given(c, i),) + ((given(c, i - 1),) if i > 1 else ()) + (given_in(c, i),))
            led = {v: self.led_to(v) for v in numbers}
            keep = {r: set().union(*(led[v] for v in numbers if design.route(v).shares(design.route(r)))) for r in numbers}
            for c in self.commands:
                leaders = [(c[0], q) for q in numbers if design.route(c[1]).follows(design.route(q))]
                keepers = [e for e in self.commands if e[0] != c[0] and e[1] in keep[c[1]]]
                for i in range(2, n + 1):
                    self.normal.append((-given_in(c, i),) + tuple(given_in(e, i - 1) for e in leaders + keepers))
        return self.normal

    def behind(self, version, within=None):
        """The clauses behind those of the base under a head, and the number of the last variable."""
        if version in (4, 5, 6):
            return self.turn_clauses(within), self.last
        if version == 3:
            return self.normal_clauses(), self.last + len(self.commands) * self.n
        return [], self.last


def are_alike(design, t, u):
    one, other = design.train(t), design.train(u)
    swap = lambda x: u if x == t else t if x == u else x
    orders = set(design.orders)
    withins = {w[:4] + w[5:] for w in design.withins}
    return (one.vehicle == other.vehicle and one.visits == other.visits and one.dwell_ms == other.dwell_ms
            and all((swap(o[0]), o[1], swap(o[2]), o[3]) in orders for o in orders)
            and all((swap(w[0]), w[1], swap(w[2]), w[3], w[4]) in withins for w in withins))


# ---- the words of a line


class Words:
    def __init__(self, text):
        self.words, self.next = text.split(b" "), 0

    def text(self):
        if self.next == len(self.words):
            raise Bad("text")
        self.next += 1
        return self.words[self.next - 1]

    def peek(self):
        return self.words[self.next] if self.next < len(self.words) else None

    def number(self, least=0, most=SMALL):
        return as_number(self.text(), least, most)

    def long(self, least=0):
        return self.number(least, 10 ** 18 - 1)

    def listed(self, member):
        found = []
        while True:
            word = self.text()
            if word == b"0":
                return found
            found.append(member(word))

    def routes(self):
        return self.listed(lambda word: as_number(word, 1, SMALL))

    def end(self):
        if self.next != len(self.words):
            raise Bad("text")


def as_number(word, least, most):
    if not 1 <= len(word) <= 18 or any(not 48 <= byte <= 57 for byte in word) or len(word) > 1 and word[0] == 48:
        raise Bad("text")
    value = int(word)
    if not least <= value <= most:
        raise Bad("text")
    return value


def as_literal(word):
    return -as_number(word[1:], 1, SMALL) if word[:1] == b"-" else as_number(word, 1, SMALL)


def as_clause(word):
    return as_number(word, 1, 10 ** 18 - 1)


def some(found):
    if not found:
        raise Bad("text")
    return found


def head_of(text):
    """None, or the version of the file with the version of the design, the steps and the within that it names, if any."""
    try:
        words = Words(text)
        if words.text() != b"rcvlog":
            return None
        version = words.text()
        if version == b"1":
            words.end()
            return (1, None, None, None)
        if version in (b"2", b"3", b"4", b"5", b"6"):
            head = (int(version), words.long(), words.long(), words.long() if version == b"6" else None)
            words.end()
            return head
        return None
    except Bad:
        return None


def read_cone_parts(words):
    trains, pairs = [], []
    while words.peek() == b"t":
        words.text()
        train = {"train": words.number(), "horizon": words.long(), "free": words.number()}
        train["path"] = some(words.routes())
        holder = (words.number(), words.number())
        train["holder"] = None if holder == (0, 0) else holder
        trains.append(train)
    some(trains)
    while words.peek() == b"p":
        words.text()
        pairs.append(((words.number(), words.number()), (words.number(), words.number())))
    return trains, pairs


def read_violation(words):
    kind = words.text()
    if kind in (b"within", b"order"):
        return (kind.decode(), words.number())
    if kind in (b"path", b"grant", b"visit"):
        return (kind.decode(), words.number(), words.number())
    raise Bad("text")


def read_bound(words):
    kind = words.text()
    if kind in (b"within", b"order"):
        requirement = (kind.decode(), words.number())
    elif kind == b"visit":
        requirement = ("visit", words.number(), words.number())
    elif kind == b"grant":
        requirement = ("grant", words.number(), words.number(1))
    else:
        raise Bad("text")
    origin, tick, trains, pairs = words.text(), 0, [], []
    if origin == b"cone":
        tick = words.long()
        trains, pairs = read_cone_parts(words)
    elif origin not in (b"from", b"zero", b"one"):
        raise Bad("text")
    legs = []
    while words.peek() == b"l":
        words.text()
        train, places = words.number(), []
        while words.peek() not in (None, b"l"):
            kind = words.text()
            if kind == b"n":
                places.append((True, [words.number(1)], []))
            elif kind == b"a":
                own = some(words.routes())
                places.append((False, own, words.routes()))
            else:
                raise Bad("text")
        legs.append((train, some(places)))
    some(legs)
    return requirement, origin.decode(), tick, trains, pairs, legs


# ---- motion


def brakes_well(u, train, stretches, end, x):
    """A move by u from x and then full braking keeps the limits, those under the train too where they bind its tail, and stops up to
    the end, if there is one."""
    at = 0
    while u > 0:
        y = x + u
        while at < len(stretches) and stretches[at][0] <= x - train.tail:
            at += 1
        i = at
        while i < len(stretches):
            if stretches[i][1] < u:
                return False
            if stretches[i][0] >= y:
                break
            i += 1
        x, u = y, u - train.brake
    return end is None or x <= end


def greatest(test, most):
    """The greatest number up to the most that passes a test, or 0. Whatever is less than one that passes does so too: a
    slower move covers each point later or never, and by then it is slower still."""
    low, high = 0, most
    while low < high:
        middle = (low + high + 1) // 2
        low, high = (middle, high) if test(middle) else (low, middle - 1)
    return low


class Run:
    """The run of a cone, up to its greatest horizon: at the end of each tick how many commands are granted, where the
    head is, how fast, and how many ticks the train has stood at its visits in all."""

    def __init__(self, design, trains, pairs):
        self.design = design
        self.by = {c["train"]: c for c in trains}
        self.path = {t: c["path"][:c["free"]] for t, c in self.by.items()}
        self.waits = {}
        for d, c in pairs:
            self.waits.setdefault(c, []).append(d)
        self.states = {t: [(0, 0, 0, 0)] for t in self.by}
        self.tracks, self.offsets = {}, {}
        for t, path in self.path.items():
            at, stretches, offsets = 0, [], [0]
            tracks = [[]]
            for r in path:
                route = design.route(r)
                stretches = stretches + [(at + end, limit) for end, limit in route.stretches]
                at += route.length
                offsets.append(at)
                tracks.append(stretches)
            self.tracks[t], self.offsets[t] = tracks, offsets
        self.dwells = {t: list(self.to_stand(t)) for t in self.by}
        for tick in range(1, max((c["horizon"] for c in trains), default=0) + 1):
            new = {t: self.moved(t, tick) for t in self.by}
            for t, state in new.items():
                self.states[t].append(state)

    def state(self, t, tick):
        states = self.states[t]
        return states[min(tick, len(states) - 1)]

    def has_released(self, d, section, tick):
        t, r = d
        if t not in self.by or r not in self.path[t]:
            return False
        place, route = self.path[t].index(r), self.design.route(r)
        if section in route.held:  # of the overlap: held on when the head has come to the route's end
            tick = min(tick, self.by[t]["horizon"]) - route.held[section]
            end = self.offsets[t][place] + route.length
        else:
            end = self.offsets[t][place] + route.release[section] + self.design.train(t).length
        if tick < 0:
            return False
        granted, x = self.state(t, tick)[:2]
        return place < granted and end <= x

    def shared(self, d, c):
        return [z for z in self.design.route(d[1]).sections if self.design.route(c[1]).has(z)]

    def moved(self, t, tick):
        granted, x, v, stood = self.states[t][-1]
        if tick > self.by[t]["horizon"]:
            return granted, x, v, stood
        path = self.path[t]
        if granted < len(path):
            c = (t, path[granted])
            if all(self.has_released(d, z, tick - 1) for d in self.waits.get(c, []) for z in self.shared(d, c)):
                granted += 1
        if granted == 0:
            return granted, x, v, stood
        train, end = self.design.train(t), self.place(t, granted, stood)
        if end == x:
            stood += 1
        if end is None and not any(self.design.route(r).exits for r in path[:granted]):
            end = self.offsets[t][granted]
        stretches = self.tracks[t][granted]
        stretches = [s for s in stretches if s[0] > x - train.tail]
        u = greatest(lambda u: brakes_well(u, train, stretches, end, x), min(v + train.accel, train.top))
        return granted, x + u, u, stood

    def to_stand(self, t):
        """The visits at which the train stands, on the nodes of the free commands: offset, command, and the ticks that
        it has stood in all when it has stood enough there."""
        train, until = self.design.train(t), 0
        for ticks, stop in zip(train.dwells, matched(train.visits, self.stops(t))):
            until += ticks
            if stop is not None and ticks > 0:
                yield stop[1], stop[2], until

    def place(self, t, granted, stood):
        """The offset of the first visit on the granted routes at which the train has still to stand, or None."""
        return next((offset for offset, command, until in self.dwells[t] if stood < until and command <= granted), None)

    def stops(self, t):
        """The nodes of the free commands: node, offset, command."""
        found = []
        for j, r in enumerate(self.path.get(t, [])):
            route = self.design.route(r)
            if j == 0:
                node = route.start[1] if route.first else None
                found.append((node, 0, 1))
            found += [(node, self.offsets[t][j] + offset, j + 1) for node, offset in route.nodes]
        return found

    def visit_tick(self, t, k, last):
        """The tick, at most the last, at which the visit is made, or None."""
        stop = matched(self.design.train(t).visits, self.stops(t))[k - 1]
        if stop is None:
            return None
        for tick in range(1, last + 1):
            granted, x = self.state(t, tick)[:2]
            if stop[2] <= granted and stop[1] <= x:
                return tick
            if tick >= len(self.states[t]):
                return None
        return None


def matched(visits, stops):
    """The stop at which each visit is made, or None."""
    found, at = [], 0
    for k, visit in enumerate(visits):
        if k > 0:
            while at < len(stops) and stops[at][0] not in visit:
                at += 1
        found.append(stops[at] if at < len(stops) else None)
        at += 1
    return found


# ---- cones


def cone_in_design(design, violation, trains, pairs):
    for c in trains:
        if not design.has_train(c["train"]) or any(not 1 <= r <= design.R for r in c["path"]):
            return False
        if c["horizon"] > design.horizon or c["free"] > len(c["path"]):
            return False
        routes = [design.route(r) for r in c["path"]]
        if not routes[0].first or any(not q.follows(r) for r, q in zip(routes, routes[1:])):
            return False
        if len({r.start for r in routes}) < len(routes):
            return False
    numbers = [c["train"] for c in trains]
    if any(one >= other for one, other in zip(numbers, numbers[1:])):
        return False
    commands = {(c["train"], r) for c in trains for r in c["path"]}
    if any(c["holder"] is not None and c["holder"] not in commands for c in trains):
        return False
    if any(d not in commands or c not in commands or not design.contend(d, c) for d, c in pairs):
        return False
    if any(one >= other for one, other in zip(pairs, pairs[1:])):
        return False
    kind = violation[0]
    if kind == "within":
        return 1 <= violation[1] <= len(design.withins)
    if kind == "order":
        return 1 <= violation[1] <= len(design.orders)
    if kind == "visit":
        return design.has_visit(*violation[1:])
    if kind == "grant":
        return any(c["train"] == violation[1] and 1 <= violation[2] <= len(c["path"]) for c in trains)
    only = trains[0]
    return (design.has_visit(*violation[1:]) and len(trains) == 1 and only["train"] == violation[1]
            and only["horizon"] == 0 and only["free"] == 0 and only["holder"] is None and not pairs)


def free_granted(run, trains):
    return all(run.state(c["train"], c["horizon"])[0] >= c["free"] for c in trains)


def held(run, trains, pairs):
    listed = set(pairs)
    for c in trains:
        t, X, free, holder = c["train"], c["horizon"], c["free"], c["holder"]
        needed = free < len(c["path"]) and X >= 1 and run.state(t, X - 1)[0] >= free
        if not needed:
            if holder is not None:
                return False
            continue
        if holder is None:
            return False
        waiting = (t, c["path"][free])
        if (holder, waiting) not in listed or run.by[holder[0]]["horizon"] < X - 1:
            return False
        if all(run.has_released(holder, z, X - 1) for z in run.shared(holder, waiting)):
            return False
    return True


def violation_shown(design, run, violation, trains):
    horizon = lambda t: run.by[t]["horizon"] if t in run.by else 0
    made_by = lambda t, k, tick: run.visit_tick(t, k, tick) if t in run.by else None
    kind = violation[0]
    if kind == "path":
        t, k = violation[1:]
        whole = Run(design, [dict(trains[0], free=len(trains[0]["path"]))], [])
        return matched(design.train(t).visits, whole.stops(t))[k - 1] is None
    if kind == "within":
        t, j, u, k, most = design.withins[violation[1] - 1][:5]
        made = made_by(t, j, horizon(t))
        return made is not None and horizon(u) >= made + most and made_by(u, k, made + most) is None
    if kind == "order":
        u, k, t, j = design.orders[violation[1] - 1]
        made = made_by(t, j, horizon(t))
        return made is not None and horizon(u) >= made - 1 and made_by(u, k, made - 1) is None
    t, k = violation[1:]
    if horizon(t) != design.horizon:
        return False
    return k > run.by[t]["free"] if kind == "grant" else made_by(t, k, design.horizon) is None


def cone_clause(base, violation, trains, pairs):
    """What is left of the clause of a cone. Dead where it denies something of which the base doesn't speak."""
    design, clause, listed = base.design, {base.not_before(*pair) for pair in pairs}, set(pairs)
    for c in trains:
        t, path, free = c["train"], c["path"], c["free"]
        clause |= {base.not_used((t, r)) for r in path}
        if free >= len(path) or violation[0] == "path":
            clause |= set(base.some_given(t, design.past(path), base.n))
        for r in path[:free]:
            clause |= {base.pairs[d, (t, r)] for d in base.before.get((t, r), []) if (d, (t, r)) not in listed}
    return clause


def cone_line(base, words):
    violation = read_violation(words)
    trains, pairs = read_cone_parts(words)
    words.end()
    if not cone_in_design(base.design, violation, trains, pairs):
        raise Bad("path not in design")
    try:
        clause = cone_clause(base, violation, trains, pairs)
    except Dead:
        raise Bad("path not in design") from None
    run = Run(base.design, trains, pairs)
    if not free_granted(run, trains):
        raise Bad("command not granted")
    if not held(run, trains, pairs):
        raise Bad("holder not valid")
    if not violation_shown(base.design, run, violation, trains):
        raise Bad("violation not shown")
    return clause


# ---- bounds


class Ticks:
    """The ticks of the legs of a bound."""

    def __init__(self, design, legs):
        self.design, self.legs = design, legs
        self.ways = [list(ways(design, [routes for named, routes, kept in places])) for t, places in legs]
        edges = lambda rs: sum(len(design.route(r).edges) for r in rs)
        self.stretches = 0
        for j, found in enumerate(self.ways):
            own = sum(edges(w) + sum(edges(w + [q]) for q in design.past(w)) for w in found)
            self.stretches += own * len(self.next_routes(j) or [0])
        self.most = min(design.horizon, LOOKS // self.stretches) if self.stretches else 0
        self.known = {}

    def next_routes(self, j):
        return self.legs[j + 1][1][0][1] if j + 1 < len(self.legs) else None

    def before_last(self, w):
        return sum(self.design.route(r).length for r in w[:-1])

    def clear(self, j, w, q):
        length = self.design.train(self.legs[j][0]).length
        return self.before_last(w) + self.design.route(w[-1]).clearing(self.design.route(q), length)

    def at(self, visit, r):
        t, k = visit
        if k <= 1:
            return 0
        nodes = self.design.train(t).visits[k - 1]
        return next((offset for node, offset in self.design.route(r).nodes if node in nodes), 0)

    def reach(self, to, w):
        return self.before_last(w) + self.at(to, w[-1])

    def tracks(self, w):
        route = self.design.route
        if route(w[-1]).exits:
            return [(w, False)]
        return [(w, True)] + [(w + [q], route(q).dead) for q in self.design.past(w)]

    def track(self, t, rs, closed):
        """The stretches of a track, its end, whether it is from rest, and the free moves that are known."""
        key = (t, tuple(rs), closed)
        if key not in self.known:
            stretches, at = [], 0
            for r in rs:
                stretches += [(at + end, limit) for end, limit in self.design.route(r).stretches]
                at += self.design.route(r).length
            self.known[key] = (stretches, at if closed else None, self.design.route(rs[0]).first, {})
        return self.known[key]

    def free_move(self, train, track, x):
        stretches, end, rest, moves = track
        if x not in moves:
            left = x - train.tail
            ahead = [s for s in stretches if s[0] > left]
            behind = [(left - e, limit) for e, limit in stretches if e <= left] + ([(x, 0)] if rest else [])
            moves[x] = greatest(lambda u: all(rise(train.accel, u, limit) <= way for way, limit in behind)
                                and brakes_well(u, train, ahead, end, x), train.top)
        return moves[x]

    def steps(self, t, track, x, y, waited):
        train = self.design.train(t)
        for j in range(self.most + 1):
            if x >= y:
                return j
            move = self.free_move(train, track, x)
            if move == 0:
                break
            x += move
            if waited:
                x = min(x, (train.accel + train.brake) * (j + 1) * (j + 2) // 2)
        return self.most + 1

    def run(self, t, w, y):
        return max(min(self.steps(t, self.track(t, *track), 0, y, True) for track in self.tracks(w)) - 1, 0)

    def on(self, t, w, x, y):
        return max(min(self.steps(t, self.track(t, *track), max(x - 1, 0), y, False)
                       for track in self.tracks(w)) - 1, 0)

    def of_leg(self, j, to, begin=None):
        """The ticks of a leg: to what the next leg waits for, or to the visit."""
        t, found = self.legs[j][0], self.most
        for w in self.ways[j]:
            following = self.next_routes(j)
            for y in ([self.reach(to, w)] if following is None else [self.clear(j, w, q) for q in following]):
                ticks = self.run(t, w, y) if begin is None else self.on(t, w, self.at(begin, w[0]), y)
                found = min(found, ticks)
        return found

    def in_all(self, to, begin=None):
        """To the visit, or where there is none to the grant of the last leg."""
        last, ticks = len(self.legs) - 1, 0
        for j in range(last + (to is not None)):
            ticks += self.of_leg(j, to, begin if j == 0 else None) + (j < last)
        return ticks

    def are_ahead(self, begin, to):
        following = self.next_routes(0)
        return all(self.at(begin, w[0]) <= y for w in self.ways[0]
                   for y in ([self.reach(to, w)] if following is None else [self.clear(0, w, q) for q in following]))


def ways(design, places):
    if not places:
        yield []
        return
    for rest in ([[]] if len(places) == 1 else ways(design, places[1:])):
        for r in places[0]:
            if not rest or design.route(rest[0]).follows(design.route(r)):
                yield [r] + rest


def rise(accel, u, limit):
    total = 0
    u -= accel
    while u > limit:
        total += u
        u -= accel
    return total


def visits_between(design, requirement):
    """The visits from which and to which ticks are counted, and the train of the last leg."""
    kind = requirement[0]
    if kind == "within":
        t, j, u, k = design.withins[requirement[1] - 1][:4]
        return (t, j), (u, k), u
    if kind == "order":
        u, k, t, j = design.orders[requirement[1] - 1]
        return (t, j), (u, k), u
    return None, (requirement[1:] if kind == "visit" else None), requirement[1]


def requirement_in_design(design, requirement):
    kind = requirement[0]
    if kind == "within":
        return 1 <= requirement[1] <= len(design.withins)
    if kind == "order":
        return 1 <= requirement[1] <= len(design.orders)
    if kind == "visit":
        return design.has_visit(*requirement[1:])
    return design.has_train(requirement[1]) and 1 <= requirement[2] <= design.R


def rising(routes):
    return all(one < other for one, other in zip(routes, routes[1:]))


def bound_names_design(design, requirement, origin, trains, pairs, legs):
    if not requirement_in_design(design, requirement):
        return False
    for t, places in legs:
        if not design.has_train(t):
            return False
        for named, routes, kept in places:
            if any(not 1 <= r <= design.R for r in routes + kept) or not rising(routes) or not rising(kept):
                return False
    if sum(len(places) for t, places in legs) > 64:
        return False
    for j, (t, places) in enumerate(legs):
        many = len(legs[j + 1][1][0][1]) if j + 1 < len(legs) else 1
        for named, routes, kept in places:
            many *= len(routes)
        if many > 4096:
            return False
    for (t, places), (u, others) in zip(legs, legs[1:]):
        if any(not design.contend((t, r), (u, q)) or not design.route(r).shares_own(design.route(q))
               for r in places[-1][1] for q in others[0][1]):
            return False
    begin, to, last = visits_between(design, requirement)
    if legs[-1][0] != last:
        return False
    if origin == "from":
        return begin is not None and legs[0][0] == begin[0]
    if origin == "one":
        return begin is not None and begin[1] == 1
    if origin == "cone":
        return begin is not None and cone_in_design(design, requirement, trains, pairs)
    return begin is None


def covered(design, requirement, origin, legs):
    numbers = range(1, design.R + 1)
    route = design.route
    within = lambda place, test: all(r in place[1] or r in place[2] for r in numbers if test(r))
    begin, to, last = visits_between(design, requirement)
    for t, places in legs:
        for place, following in zip(places, places[1:]):
            if place[0]:
                if any(not route(q).follows(route(place[1][0])) for q in following[1]):
                    return False
            elif any(route(q).first for q in following[1]) \
                    or not within(place, lambda r: any(route(q).follows(route(r)) for q in following[1])):
                return False
    for t, places in legs[:-1]:
        if not places[-1][0] and not any(within(places[-1], lambda r: design.can_visit(t, k, r))
                                         for k in range(1, len(design.train(t).visits) + 1)):
            return False
    places = legs[-1][1]
    if requirement[0] == "grant":
        if len(places) != 1 or not places[0][0] or places[0][1] != [requirement[2]]:
            return False
    elif places[-1][0]:
        r = places[-1][1][0]
        if any(q != r and design.can_visit(*to, q) and route(q).to_signal and not route(r).first for q in numbers):
            return False
    elif not within(places[-1], lambda r: design.can_visit(*to, r)):
        return False
    if origin == "from":
        t, k = begin
        first = legs[0][1][0][1]
        if k == 1:
            return all(route(r).first for r in first)
        nodes = design.train(t).visits[k - 1]
        at_end = lambda r: route(r).exits and next(
            offset for node, offset in route(r).nodes if node in nodes) == route(r).length
        return all(design.can_visit(t, k, r) for r in first) \
            and (k == 2 or all(at_end(r) for r in numbers if design.can_visit(t, k, r)))
    return True


def bound_shown(design, requirement, origin, tick, trains, pairs, legs):
    ticks = Ticks(design, legs)
    if ticks.stretches > LOOKS:
        return False
    begin, to, last = visits_between(design, requirement)
    most = design.withins[requirement[1] - 1][4] if requirement[0] == "within" else None
    if origin == "from" and begin[1] > 1:
        return ticks.are_ahead(begin, to) and (most is None or ticks.in_all(to, begin) > most)
    if origin in ("from", "one"):
        return most is None or ticks.in_all(to) > most
    if origin == "zero":
        return 1 + ticks.in_all(to) > design.horizon
    run = Run(design, trains, pairs)
    if not free_granted(run, trains) or not held(run, trains, pairs) or begin[0] not in run.by:
        return False
    if run.visit_tick(begin[0], begin[1], run.by[begin[0]]["horizon"]) != tick:
        return False
    return 1 + ticks.in_all(to) >= tick if most is None else 1 + ticks.in_all(to) > tick + most


def bound_clause(base, requirement, origin, trains, pairs, legs):
    design, clause = base.design, set()
    for t, places in legs:
        for named, routes, kept in places:
            if named:
                clause.add(base.not_used((t, routes[0])))
            clause |= set(base.some_given(t, kept, base.n))
    for (t, places), (u, others) in zip(legs, legs[1:]):
        both = places[-1][0] and others[0][0]
        for r in places[-1][1]:
            for q in others[0][1]:
                if both:
                    clause.add(base.not_before((t, r), (u, q)))
                elif ((u, q), (t, r)) in base.pairs:
                    clause.add(base.pairs[(u, q), (t, r)])
    if origin == "one":
        t = visits_between(design, requirement)[0][0]
        for r in design.begins(t):
            clause |= {base.pairs[d, (t, r)] for d in base.before.get((t, r), [])}
    if origin == "cone":
        clause |= cone_clause(base, requirement, trains, pairs)
    return clause


def bound_line(base, words):
    requirement, origin, tick, trains, pairs, legs = read_bound(words)
    words.end()
    design = base.design
    if not bound_names_design(design, requirement, origin, trains, pairs, legs):
        raise Bad("bound not in design")
    try:
        clause = bound_clause(base, requirement, origin, trains, pairs, legs)
    except Dead:
        raise Bad("bound not in design") from None
    if any(-literal in clause for literal in clause):
        raise Bad("bound not in design")
    if not covered(design, requirement, origin, legs):
        raise Bad("place not covered")
    if not bound_shown(design, requirement, origin, tick, trains, pairs, legs):
        raise Bad("bound not shown")
    return clause


# ---- the file


class Log:
    """The clauses so far: of each its literals, or None where it is not live, and whether a line derived it."""

    def __init__(self, base, clauses, last):
        self.base, self.clauses, self.last, self.derived = base, list(clauses), last, set()

    def live(self, number):
        clause = self.clauses[number - 1] if number <= len(self.clauses) else None
        if clause is None:
            raise Bad("unknown clause")
        return clause

    def follows(self, clause, hints):
        held = {-literal for literal in clause}
        for place, hint in enumerate(hints):
            still_open = {literal for literal in self.live(hint) if -literal not in held}
            if place + 1 == len(hints):
                if still_open:
                    raise Bad("no conflict")
                return
            if len(still_open) != 1 or still_open <= held:
                raise Bad("hint not unit")
            held |= still_open
        raise Bad("no conflict")

    def line(self, text, version):
        """Takes a line, and says for how many steps it shows that there is no plan, or None."""
        words = Words(text)
        kind = words.text()
        if kind == b"d":
            clause = words.listed(as_literal)
            if not rising([abs(literal) for literal in clause]):
                raise Bad("text")
            hints = words.listed(as_clause)
            words.end()
            if clause and abs(clause[-1]) > self.last:
                raise Bad("text")
            self.follows(clause, hints)
            self.clauses.append(clause)
            self.derived.add(len(self.clauses))
            if not clause:
                return self.base.n
            k = -clause[0] - (self.base.last - self.base.n)
            return k if len(clause) == 1 and 1 <= k <= self.base.n else None
        if kind == b"r":
            self.clauses.append(cone_line(self.base, words))
        elif kind == b"b":
            if version not in (4, 5, 6):
                raise Bad("text")
            self.clauses.append(bound_line(self.base, words))
        elif kind == b"x":
            numbers = some(words.listed(as_clause))
            words.end()
            for number in numbers:
                self.live(number)
                if number not in self.derived:
                    raise Bad("drop refused")
                self.clauses[number - 1] = None
        else:
            raise Bad("text")
        return None


def base_for(design, n, of_live):
    if (n, of_live) not in design.bases:
        design.bases[n, of_live] = Base(design, n, live_commands(design) if of_live else None)
    return design.bases[n, of_live]


def literals(clauses):
    return sum(len(clause) for clause in clauses)


def is_asked(head, design, n):
    """Whether what a head names is what is asked: the version of the design, the steps, and a within that is there."""
    version, of_design, steps, within = head
    return version == 1 or (of_design, steps) == (design.version, n) \
        and (within is None or 1 <= within <= len(design.withins))


def judge(design, n, data):
    """What a file shows of a design for n steps."""
    if len(data) > MOST_BYTES:
        return f"too long proof {MOST_BYTES}"
    lines = data.split(b"\n")
    ends = [True] * (len(lines) - 1) + [False]
    if not lines[-1]:
        lines.pop(), ends.pop()
    head = head_of(lines[0]) if lines and ends[0] else None
    of_live = head is not None and head[0] in (5, 6)
    base = base_for(design, n, of_live)
    if not of_live and literals(base.clauses) > LITERALS:
        return "design refused D14 base"
    if not lines:
        return "no line 1 no final line"
    if head is None:
        return "no line 1 text"
    if not is_asked(head, design, n):
        return "no line 1 head differs"
    more, last = base.behind(head[0], head[3])
    clauses = base.clauses + more
    if literals(clauses) > LITERALS:
        return "no line 1 base too large"
    log, shown = Log(base, clauses, last), None
    for number, (text, ended) in enumerate(zip(lines, ends), 1):
        if number > 1:
            try:
                if not ended:
                    raise Bad("text")
                shown = log.line(text, head[0])
            except Bad as reason:
                return f"no line {number} {reason}"
    return f"no line {len(lines) + 1} no final line" if shown is None else f"yes steps {shown}"


def judge_in_time(design, time, n, data):
    """The same, where a within of the design has another greatest time, if one is given: its number and the ms."""
    if time is None:
        return judge(design, n, data)
    if time[0] > len(design.withins):
        is_large = literals(base_for(design, n, False).clauses) > LITERALS
        return "design refused D14 base" if is_large else "design refused D15 within"
    return judge(design.with_time(*time), n, data)


USAGE = "usage: check.py [--within W --max-ms X] [--steps N] DESIGN PROOF"


def options(words):
    """The numbers behind the options, and the words behind these."""
    given = {}
    while words[:1] and words[0] in ("--within", "--max-ms", "--steps") and len(words) > 1:
        given[words[0]] = int(words[1])
        words = words[2:]
    if len(words) != 2 or ("--within" in given) != ("--max-ms" in given):
        sys.exit(USAGE)
    return given, words


def main(words):
    given, words = options(words)
    with open(words[0], "rb") as file:
        design = Design(file.read())
    with open(words[1], "rb") as file:
        data = file.read()
    steps = given.get("--steps")
    if steps is None:
        head = head_of(data.split(b"\n")[0])
        if head is None or head[0] == 1 or not 1 <= head[2] <= 256:
            sys.exit(USAGE)
        steps = head[2]
    time = (given["--within"], given["--max-ms"]) if "--within" in given else None
    answer = judge_in_time(design, time, steps, data)
    print(answer)
    return 0 if answer.startswith("yes") else 1


if __name__ == "__main__":
    sys.exit(main(sys.argv[1:]))
