"""Damaged input: faults in every list and number of every call, alone and several at once."""

import copy
import itertools
import math
import random

import calls
import rules
import text
from calls import LARGEST

SEVERAL = 8

# The step's calls have long lines, and their tests of pattern and plan are those of other calls: of these faults they have every third.
STEP_GRAPHS = [(0, []), (1, []), (2, [(0, 1), (1, 0)])]
THIRD = 3


def put(name, at, value):
    def fault(call):
        call[name][at] = value

    return fault


def swap(name, at):
    def fault(call):
        items = call[name]
        items[at], items[at + 1] = items[at + 1], items[at]

    return fault


def drop(slot):
    """The pattern without one block; its lists stay as long as they were."""

    def fault(call):
        call["cols"].append(call["cols"].pop(slot))
        for name in "row_offsets", "diagonal":
            call[name] = [place - (slot < place < LARGEST) for place in call[name]]

    return fault


def number(name, value):
    def fault(call):
        call[name] = value

    return fault


def cut(name, length):
    def fault(call):
        del call[name][length:]

    return fault


def faults_of_pairs(call):
    n = call["n"]
    for at in range(2 * call["count"]):
        yield put("pairs", at, n)
    if call["count"]:
        yield put("pairs", 0, LARGEST)


def faults_of_pattern(call):
    n, starts, cols, diagonal = (call[name] for name in ("n", "row_offsets", "cols", "diagonal"))
    blocks = starts[n]
    for at in range(n + 1):
        yield from (put("row_offsets", at, value) for value in (starts[at] + 1, LARGEST))
    for at in range(1, n + 1):
        yield from (put("row_offsets", at, value) for value in (starts[at] - 1, 0))
    for slot in range(blocks):
        yield drop(slot)
    for slot in range(blocks - 1):
        yield swap("cols", slot)
        yield put("cols", slot + 1, cols[slot])
    for row in range(n):
        last = starts[row + 1] - 1
        yield from (put("cols", last, value) for value in (n, LARGEST, cols[last] + 1))
        yield from (put("diagonal", row, value) for value in (diagonal[row] + 1, diagonal[row] - 1, blocks, LARGEST) if value >= 0)


def shift(at, columns):
    """Both rows of a position start further right or left, and the row starts follow."""

    def fault(call):
        n, first, starts = call["n"], call["first"], call["row_start"]
        first[2 * at] += columns
        first[2 * at + 1] += columns
        for row in range(2 * at, 2 * n):
            starts[row + 1] = starts[row] + row - first[row] + 1

    return fault


def exchange(one, other):
    """Two particles change places in the order and in its inverse."""

    def fault(call):
        order, inverse = call["perm"], call["inv_perm"]
        order[one], order[other] = order[other], order[one]
        inverse[order[one]], inverse[order[other]] = one, other

    return fault


def faults_of_plan(call):
    n, order, first, starts = (call[name] for name in ("n", "perm", "first", "row_start"))
    for i in range(n):
        yield from (put("perm", i, value) for value in (order[(i + 1) % n], n, LARGEST))
        yield from (put("inv_perm", i, value) for value in (call["inv_perm"][(i + 1) % n], n, LARGEST))
        yield shift(i, 2 if first[2 * i] < 2 * i else -2 if first[2 * i] else 1)
        yield shift(i, 1)
        yield exchange(i, (i + 1) % n)
    for row in range(2 * n):
        yield from (put("first", row, value) for value in (first[row] + 1, first[row] + 2, LARGEST))
    for row in range(2 * n + 1):
        yield from (put("row_start", row, value) for value in (starts[row] + 1, max(starts[row], 1) - 1, LARGEST))


def faults_of_table(call):
    """A number at the count, one missing, one twice, and a pinned particle with a number."""
    count, table = call["loaded"], call["column_of"]
    for particle in range(call["n"]):
        known = (count, max(count, 1) - 1, 0, LARGEST - 1, rules.UNLOADED)
        yield from (put("column_of", particle, value) for value in known if value != table[particle])
        yield put("pinned", particle, 0 if call["pinned"][particle] else 255)


def faults_of_numbers(call):
    n = call["n"]
    yield from (number("n", value) for value in (n + 1, rules.PARTICLES, rules.PARTICLES + 1, LARGEST))
    if n:
        yield number("n", n - 1)
    if "count" in call:
        yield from (number("count", value) for value in (call["count"] + 1, rules.PAIRS, rules.PAIRS + 1, LARGEST))
    if "row" in call:
        yield from (number("row", value) for value in (n, n + 1, LARGEST))
    if "max_dense_dofs" in call:
        yield from (number("max_dense_dofs", value) for value in (0, max(2 * n, 1) - 1, 2 * n, LARGEST))
    if "entries" in call:
        yield from (number("entries", value) for value in (0, call["entries"] + 1, rules.ENTRIES, rules.ENTRIES + 1, LARGEST))
    if "loaded" in call:
        some = (call["loaded"] + 1, max(call["loaded"], 1) - 1, rules.COLUMNS, rules.COLUMNS + 1, LARGEST)
        yield from (number("loaded", value) for value in some)
    if "particle" in call:
        yield from (number("particle", value) for value in (n, n + 1, LARGEST))
    if "tolerance" in call:
        yield from (number("max_iterations", value) for value in (rules.ITERATIONS, rules.ITERATIONS + 1, LARGEST))
        yield from (number("tolerance", value) for value in (-0.0, -1e-45, -1.0, math.inf, -math.inf, math.nan))


def faults_of_lengths(call):
    needs = rules.needs(call)
    for name in text.lists(call):
        if needs[name] and name != "counts":
            yield cut(name, needs[name] - 1)
            yield cut(name, 0)


def every(call):
    return THIRD if "max_dense_dofs" in call else 1


def faults(call):
    """Those that change an item come first: the others may leave no item to change."""
    if "pairs" in call:
        yield from faults_of_pairs(call)
    elif "row_offsets" in call:
        yield from itertools.islice(faults_of_pattern(call), None, None, every(call))
    if "values" in call:
        yield from itertools.islice(faults_of_plan(call), None, None, every(call))
    if "entries" in call:
        yield from (put("particles", at, value) for at in range(call["entries"]) for value in (call["n"], LARGEST))
    if "loaded" in call:
        yield from faults_of_table(call)
    yield from faults_of_numbers(call)
    yield from faults_of_lengths(call)


def damaged(call, some):
    call = copy.deepcopy(call)
    for fault in some:
        fault(call)
    return call


def several(draw, call):
    """Two or three faults at once, so that the order of the numbers shows."""
    known = list(faults(call))
    for turn in range(SEVERAL * every(call)):
        places = sorted(int(draw.random() * len(known)) for _ in range(2 + turn % 2))
        yield damaged(call, [known[place] for place in places])


def graphs(numbers, names):
    if "max_dense_dofs" in numbers:
        return STEP_GRAPHS
    # Floats make long lines, so the larger graphs are for the calls without them.
    return calls.SMALL if text.FLOATS.intersection(names) else calls.SMALL + calls.LARGER


def cases(seed):
    draw = random.Random(seed)
    for word in text.STORED:
        numbers, names, _ = text.SHAPES[word]
        for graph in graphs(numbers, names):
            call = calls.accepted(draw, word, graph, 1)
            yield call
            yield from (damaged(call, [fault]) for fault in faults(call))
            yield from several(draw, call)
    yield from calls.at_the_limits(draw)
