"""Lines of cones and bounds that are made by chance for a design, many of them good or nearly so."""

import re
import tomllib

import check


def path_of(chance, design, t):
    """A path of a train from one of its first boundaries, as far as it goes."""
    firsts = design.begins(t)
    path = [chance.choice(firsts or [1])]
    while len(path) < 12:
        onward = design.past(path)
        if not onward:
            break
        path.append(chance.choice(onward))
    return path


def near(chance, value, often=0.06):
    """The number, or now and then one beside it."""
    return max(0, value + chance.choice((-1, 1, 2))) if chance.random() < often else value


def violation(chance, design, trains):
    """Something that may fail, as it stands in a line, and the ticks that it may take."""
    ways = ["visit", "grant"] + ["within"] * 4 * bool(design.withins) + ["order"] * 3 * bool(design.orders)
    kind = chance.choice(ways)
    if kind in ("within", "order"):
        return (kind, near(chance, chance.randrange(1, 1 + len(design.withins if kind == "within" else design.orders))))
    t = chance.choice(trains)
    return (kind, t, near(chance, chance.randrange(1, 1 + len(design.train(t).visits))))


def cone_parts(chance, design, what):
    """Cone trains and pairs, trains on paths by chance, of which some wait for others; and of a greatest time the ticks
    for which the cone shows just so that it fails, or just not."""
    trains = list(range(1, design.T + 1))
    named = sorted(chance.sample(trains, chance.randrange(1, 1 + min(3, len(trains)))))
    if what[0] in ("within", "order"):
        named_in = design.withins[what[1] - 1] if what[0] == "within" else design.orders[what[1] - 1]
        named = sorted(set(named) | {named_in[0], named_in[2]}) if chance.random() < 0.95 else named
    paths = {t: path_of(chance, design, t) for t in named}
    commands = [(t, r) for t in named for r in paths[t]]
    turn = {c: (paths[c[0]].index(c[1]) + chance.random() * 3, c[0]) for c in commands}
    pairs = [(d, c) for d in commands for c in commands if design.contend(d, c) and turn[d] < turn[c]]
    last = min(design.horizon, 3000)
    free = [{"train": t, "horizon": last, "free": len(paths[t]), "path": paths[t]} for t in named]
    whole = check.Run(design, free, pairs)
    ticks, just = [last], None
    if what[0] == "within":
        t, j, u, k, most = design.withins[what[1] - 1][:5]
        made = whole.visit_tick(t, j, last) if t in paths else None
        end = whole.visit_tick(u, k, last) if u in paths else None
        if made and end and end > made:
            most = just = end - made - chance.choice((0, 1, 1, 1))
        ticks = [made + most] if made else ticks
    elif what[0] == "order":
        t, j = design.orders[what[1] - 1][2:]
        made = whole.visit_tick(t, j, last) if t in paths else None
        ticks = [made] if made else ticks
    elif chance.random() < 0.5:
        ticks = [design.horizon]
    horizon = min(chance.choice(ticks), design.horizon)
    if horizon > last:
        horizon = chance.choice((last, design.horizon))
    cones, listed = [], set()
    for t in named:
        path, X = paths[t], near(chance, horizon, 0.1)
        free = whole.state(t, X)[0]
        c = {"train": t, "horizon": X, "free": near(chance, free, 0.1), "path": path, "holder": None}
        if free < len(path) and X >= 1 and whole.state(t, X - 1)[0] >= free:
            waiting = (t, path[free])
            before = [d for d, e in pairs if e == waiting]
            late = [d for d in before if not all(whole.has_released(d, z, X - 1) for z in whole.shared(d, waiting))]
            if before:
                c["holder"] = chance.choice(late if late and chance.random() < 0.95 else before)
                listed.add((c["holder"], waiting))
        listed |= {(d, e) for d, e in pairs if e[0] == t and e[1] in path[:free]}
        cones.append(c)
    if listed and chance.random() < 0.05:
        listed.discard(chance.choice(sorted(listed)))
    return cones, sorted(listed), just


def words_of_cone(cones, pairs):
    words = []
    for c in cones:
        words += ["t", c["train"], c["horizon"], c["free"], *c["path"], 0, *(c["holder"] or (0, 0))]
    for d, c in pairs:
        words += ["p", *d, *c]
    return words


def cone_line(chance, design):
    """The words of a line, and the ticks of its greatest time that it shows just so or just not, if any."""
    if chance.random() < 0.1:
        t = chance.randrange(1, design.T + 1)
        path = path_of(chance, design, t)
        path = path[:chance.randrange(1, 1 + len(path))]
        visit = chance.randrange(1, 1 + len(design.train(t).visits))
        return ["r", "path", t, visit, "t", t, 0, 0, *path, 0, 0, 0], None
    what = violation(chance, design, range(1, design.T + 1))
    try:
        cones, pairs, just = cone_parts(chance, design, what)
    except IndexError:
        return ["r", *what, "t", 1, 0, 0, 1, 0, 0, 0], None
    return ["r", *what, *words_of_cone(cones, pairs)], just


def places_of(chance, design, t, path, visit):
    """Places of a leg: each names its route, or has all that may lead to the next or on which the visit may be made."""
    places, numbers = [], range(1, design.R + 1)
    following = None
    for r in reversed(path):
        if chance.random() < 0.5:
            places.append(("n", [r], []))
        else:
            if following is not None:
                own = [q for q in numbers if any(design.route(s).follows(design.route(q)) for s in following)]
            elif visit is not None and visit[0] == t and 1 <= visit[1] <= len(design.train(t).visits):
                own = [q for q in numbers if design.can_visit(t, visit[1], q)]
            else:
                k = chance.randrange(1, 1 + len(design.train(t).visits))
                own = [q for q in numbers if design.can_visit(t, k, q)]
            out = [q for q in own if q != r and chance.random() < 0.3]
            places.append(("a", [q for q in own if q not in out] or [r], out))
        following = places[-1][1]
        if chance.random() < 0.03:
            places[-1] = (places[-1][0], places[-1][1][:1], places[-1][2])
    return places[::-1]


def bound_line(chance, design):
    what = violation(chance, design, range(1, design.T + 1))
    if what[0] == "grant":
        what = ("grant", what[1], chance.choice(path_of(chance, design, what[1])))
    try:
        begin, to, last = check.visits_between(design, what)
    except IndexError:
        begin, to, last = None, None, what[1]
    legs, t = [], last if 1 <= last <= design.T else 1
    path = path_of(chance, design, t)
    if what[0] == "grant":
        path = path[:1 + path.index(what[2])] if what[2] in path else path
        path = path[-1:]
    else:
        is_later = begin is not None and begin[0] == t and begin[1] > 1
        later = [i for i, r in enumerate(path) if is_later and design.can_visit(*begin, r)]
        first = chance.choice((later * 3 if later else [0, 0]) + [0, chance.randrange(len(path))])
        path = path[first:chance.choice((len(path), chance.randrange(first + 1, len(path) + 1)))]
    legs.append((t, places_of(chance, design, t, path, to) if what[0] != "grant" else [("n", path, [])]))
    while len(legs) < 4 and chance.random() < (0.5 if what[0] != "grant" else 0.85):
        u = chance.randrange(1, design.T + 1)
        before = path_of(chance, design, u)
        after = [(legs[0][0], q) for q in legs[0][1][0][1]]
        waits = lambda r, c: design.contend((u, r), c) and (
            design.route(r).shares_own(design.route(c[1])) or chance.random() < 0.1)
        ends = [i for i, r in enumerate(before) if all(waits(r, c) for c in after)]
        if ends:
            end = chance.choice(ends)
            first = chance.choice((0, chance.randrange(end + 1)))
            legs.insert(0, (u, places_of(chance, design, u, before[first:end + 1], None)))
    if begin is None:
        origins = [["zero"]] * 9 + [["from"]]
    else:
        is_first = begin[1] == 1
        origins = [["from"]] * ((5 if is_first else 9) if legs[0][0] == begin[0] else 1)
        origins += [["one"]] * (4 if is_first else 1) + [["zero"]]
        cones, pairs, just = cone_parts(chance, design, what)
        run = check.Run(design, cones, pairs)
        c = run.by.get(begin[0])
        tick = run.visit_tick(begin[0], begin[1], c["horizon"]) if c else None
        origins += [["cone", near(chance, tick or 1), *words_of_cone(cones, pairs)]] * 3
    words = ["b", *what, *chance.choice(origins)]
    for u, places in legs:
        words += ["l", u]
        for kind, own, out in places:
            words += ["n", own[0]] if kind == "n" else ["a", *own, 0, *out, 0]
    return words


def with_time(text, key, place, ms):
    """The text of the design with another number behind a key."""
    found = list(re.finditer(key + rb"\s*=\s*([\d_]+)", text))
    if ms < 1 or place >= len(found):
        return text
    start, end = found[place].span(1)
    return text[:start] + b"%d" % ms + text[end:]


def with_ticks(chance, text, design, words):
    """The text of the design, where the bound is covered with a greatest time, or a horizon, that its legs take just so
    or just not."""
    line = check.Words(" ".join(map(str, words[1:])).encode())
    what, origin, tick, trains, pairs, legs = check.read_bound(line)
    if not check.bound_names_design(design, what, origin, trains, pairs, legs):
        return text
    if not check.covered(design, what, origin, legs):
        return text
    begin, to, last = check.visits_between(design, what)
    ticks = check.Ticks(design, legs).in_all(to, begin if origin == "from" and begin and begin[1] > 1 else None)
    if origin == "zero":
        return with_time(text, b"horizon_ms", 0, (ticks + chance.choice((0, 1))) * design.tick)
    if what[0] != "within":
        return text
    most = ticks + chance.choice((0, -1)) + (1 - tick if origin == "cone" else 0)
    return with_time(text, b"max_ms", what[1] - 1, most * design.tick)


def with_other_visits(chance, text):
    """The text of the design, now and then with another visit of the same train in an order or a greatest time."""
    visits = {t["name"]: len(t["visits"]) for t in tomllib.loads(text.decode())["train"]}
    found = list(re.finditer(rb'_train\s*=\s*"([^"]+)"\s*,\s*[a-z]+_visit\s*=\s*(\d+)', text))
    if not found or chance.random() < 0.5:
        return text
    place = chance.choice(found)
    start, end = place.span(2)
    return text[:start] + b"%d" % chance.randrange(1, 1 + visits[place.group(1).decode()]) + text[end:]


def made_file(chance, text, n):
    """A design and the lines of a file with one such line, and mostly one that derives its clause, or all of it but one
    literal."""
    text = with_other_visits(chance, text)
    design = check.Design(text)
    if chance.random() < 0.4:
        words, just = cone_line(chance, design)
        if just is not None and words[1] == "within":
            text = with_time(text, b"max_ms", words[2] - 1, just * design.tick)
    else:
        words = bound_line(chance, design)
        if chance.random() < 0.8:
            text = with_ticks(chance, text, design, words)
    design = check.Design(text)
    line = " ".join(map(str, words)).encode()
    version = chance.choice((4, 5, 6) if design.withins else (4, 5))
    within = chance.randrange(1, 1 + len(design.withins)) if version == 6 else None
    lines = [b"rcvlog %d %d %d" % (version, design.version, n) + (b" %d" % within if within else b""), line]
    base = check.base_for(design, n, version != 4)
    more, last = base.behind(version, within)
    log = check.Log(base, base.clauses + more, last)
    try:
        log.line(line, version)
    except check.Bad:
        return text, lines
    clause = sorted(log.clauses[-1], key=abs)
    if clause and chance.random() < 0.5:
        clause.remove(chance.choice(clause))
    elif chance.random() < 0.5:
        free = [v for v in range(1, base.last + 1) if v not in clause and -v not in clause]
        clause = sorted(clause + [chance.choice(free or [1])], key=abs)
    if all(abs(one) < abs(other) for one, other in zip(clause, clause[1:])):
        words = [b"d", *(b"%d" % literal for literal in clause), b"0", b"%d" % len(log.clauses), b"0"]
        lines.append(b" ".join(words))
    return text, lines
