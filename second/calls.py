"""Accepted calls over small graphs, and at the limits."""

import math

import matrix
import plan
import rules
import text

LARGEST = 4294967295

# Particles and pairs, among them repeats in both orders, equal pairs, and equal pairs at n or above.
SMALL = [
    (0, [(0, 0), (LARGEST, LARGEST)]),
    (1, []),
    (2, [(0, 1), (1, 0)]),
    (3, [(2, 1), (9, 9)]),
]
LARGER = [
    (0, []),
    (4, [(0, 1), (1, 0), (0, 1), (1, 1), (3, 2)]),
]

VALUES = [0.0, -0.0, 1.0, -1.0, 0.1, 3e38, -3e38, 1e-45, 1e-39, -7.25, 1e20, math.inf, -math.inf, math.nan]

TOLERANCES = [0.0, -0.0, 1e-45, 0.001, 0.5, 3e38]

# Records of counts: fresh, below the cap by one and at it, and with the largest counts.
COUNTS = [[0] * 7, [1, 2, 3, 4, 5, 6, 7], [3999999999, 0, 0, 0, 0, 0, 0], [0, 1, 0, 3999999999, 0, 0, 0], [LARGEST] * 7]


def pick(draw, items):
    return items[int(draw.random() * len(items))]


def junk(draw, name, length):
    values = VALUES if name in text.FLOATS else [7, 0, 1, LARGEST]
    return [pick(draw, values) for _ in range(length)]


def pattern(n, pairs):
    """The lists that building leaves, just as long as their content."""
    call = {"n": n, "count": len(pairs), "pairs": [number for pair in pairs for number in pair]}
    call.update({"row_offsets": [], "cols": [], "diagonal": [], "work": []})
    blocks = matrix.pattern_from_pairs(call)
    return {"row_offsets": call["row_offsets"], "cols": call["cols"][:blocks], "diagonal": call["diagonal"]}


def accepted(draw, word, graph, rest):
    """A call of this word on the graph, each list longer than it must be by `rest` places of junk.

    With no particles a call on a row or on a particle isn't accepted: its row 0 is at n.
    """
    n, pairs = graph
    numbers, lists, _ = text.SHAPES[word]
    call = {"word": word, "n": n}
    if "count" in numbers:
        call |= {"count": len(pairs), "pairs": [number for pair in pairs for number in pair]}
    else:
        call |= pattern(n, pairs)
    if "values" in lists:
        call |= dict(zip(rules.PLAN, plan.plan_of(plan.joined(call))))
    call = {name: item for name, item in call.items() if name in ("word", *numbers, *lists)}
    if "row" in numbers:
        call["row"] = int(draw.random() * n)
    if "col" in numbers:
        call["col"] = pick(draw, [*range(n + 1), LARGEST])
    if "tolerance" in numbers:
        call |= {"max_iterations": pick(draw, [0, 1, 2, 5, 20]), "tolerance": pick(draw, TOLERANCES)}
    if "max_dense_dofs" in numbers:
        call["max_dense_dofs"] = pick(draw, [2 * n, 2 * n + 1])
    if "factored" in numbers:
        call |= {"factored": pick(draw, [0, 1]), "counts": pick(draw, COUNTS)}
    if "entries" in numbers:
        call |= constraint(draw, n, rest)
    for name in "marks", "pinned":
        if name in lists and name not in call:
            call[name] = marks(draw, n + rest)
    if "loaded" in numbers:
        call |= table(draw, call["pinned"][:n])
    if "particle" in numbers:
        call["particle"] = int(draw.random() * n)
    call |= {name: call.get(name, []) for name in lists}
    for name, need in rules.needs(call).items():
        if name in lists and name != "counts":
            call[name] = call[name] + junk(draw, name, need + rest - len(call[name]))
    return call


def marks(draw, length):
    """Any bytes; zero means free."""
    return [pick(draw, [0, 0, 1, 255]) for _ in range(length)]


def constraint(draw, n, rest):
    """Marks, and entries whose particles may be repeated."""
    entries = pick(draw, [1, 2, 3]) if n else 0
    pinned = marks(draw, n + rest)
    return {"entries": entries, "pinned": pinned, "particles": [int(draw.random() * n) for _ in range(entries)]}


def table(draw, pinned):
    """Some of the particles that aren't pinned are loaded, in any order."""
    free = [particle for particle, mark in enumerate(pinned) if mark == 0]
    draw.shuffle(free)
    loaded = free[: int(draw.random() * (min(len(free), rules.COLUMNS) + 1))]
    columns = {particle: column for column, particle in enumerate(loaded)}
    return {"loaded": len(loaded), "column_of": [columns.get(particle, rules.UNLOADED) for particle in range(len(pinned))]}


def at_the_limits(draw):
    many = (rules.PARTICLES, [])
    last = rules.PARTICLES - 1
    yield accepted(draw, "pattern_from_pairs", many, 0)
    yield accepted(draw, "diagonal_index", many, 0) | {"row": last}
    yield accepted(draw, "block_index", many, 0) | {"row": last, "col": last}
    pairs = accepted(draw, "pattern_from_pairs", (2, [(0, 1)] * rules.PAIRS), 0)
    # Zeros keep the line short.
    yield pairs | {name: [0] * len(pairs[name]) for name in ("cols", "work")}
    yield from envelopes_at_the_limit(draw)
    yield from loads_at_the_limit()
    yield from columns_at_the_limit(draw)


def envelopes_at_the_limit(draw):
    """Of 16,384 entries, and of each of the next three numbers: all pairs of 90 have 16,290, a chain of k has 7k - 4."""
    complete = [(a, b) for b in range(90) for a in range(b)]
    for chain, single in (14, 0), (12, 5), (0, 32), (11, 8):
        links = [(90 + i, 91 + i) for i in range(chain - 1)]
        call = accepted(draw, "plan", (90 + chain + single, complete + links), 0)
        # Ones keep the line short.
        yield call | {name: [1] * len(call[name]) for name in rules.PLAN + rules.WORK}


def loads_at_the_limit():
    """With 15, 16 and 17 loaded of 20, particles new, pinned, loaded and past the last, over lists that show them and that don't."""
    for count in 15, 16, 17:
        table = [*range(count), *[rules.UNLOADED] * (20 - count)]
        pinned = [0] * 19 + [1]
        for particle in 0, count, 19, 20, LARGEST:
            load = {"word": "load_particle", "n": 20, "loaded": count, "particle": particle}
            for places in count, count + 1, 20:
                yield load | {"pinned": pinned, "column_of": table[:places]}
                yield load | {"pinned": pinned[:places], "column_of": table}
            # Lists that go on behind n.
            yield load | {"pinned": [*pinned, 0, 0], "column_of": [*table, rules.UNLOADED, 7]}


def columns_at_the_limit(draw):
    """More than 16 with room for one less and for all, a count without end, and particles or none where there is none."""
    numbers = [*range(2), *[rules.UNLOADED] * 18]
    for word in "response_from_columns", "particle_block_from_columns":
        call = {"word": word, "pinned": [0] * 20, "column_of": numbers, "particle": 0, "entries": 1, "particles": [0], "gradients": [1.0, -0.0]}
        call |= {"out": junk(draw, "out", 8)}
        for n, count, floats in (2, 16, 128), (2, 17, 128), (2, 17, 136), (2, 2, 15), (2, 2, 16), (1, LARGEST, 64), (0, 0, 0), (0, 1, 0), (0, LARGEST, 0):
            given = call | {"n": n, "loaded": count, "columns": [0.5] * floats}
            yield given
            yield given | {"entries": 0}
