"""The columns of loaded particles: the table, the solves along both axes, what is combined from them, and a particle's own block."""

import step
from gradient import along
from plane import plus, times

# What the table has for a particle that isn't loaded, and the number of the answer 'not loaded'.
UNLOADED, NOT_LOADED = 4294967295, 7

COMBINED = 0
WAYS = 6


def clear_columns(call):
    call["column_of"][: call["n"]] = [UNLOADED] * call["n"]
    return 0


def load_particle(call):
    """How many are loaded then. A pinned particle, or one that is loaded already, changes nothing."""
    particle, count = call["particle"], call["loaded"]
    if call["pinned"][particle] or call["column_of"][particle] != UNLOADED:
        return count
    call["column_of"][particle] = count
    return count + 1


def places(call, particle, axis):
    """Where the particle's column along the axis stands."""
    length = 2 * call["n"]
    start = (2 * call["column_of"][particle] + axis) * length
    return slice(start, start + length)


def compute_columns(call):
    """By particle, whatever the columns' numbers are. Each solve is counted before the next."""
    ended = [0] * WAYS
    for particle in range(call["n"]):
        if call["column_of"][particle] == UNLOADED:
            continue
        for axis in 0, 1:
            push = [0.0] * (2 * call["n"])
            push[2 * particle + axis] = 1.0
            call["columns"][places(call, particle, axis)], outcome, _ = step.solved(call, push)
            ended[outcome[0]] += 1
    step.clear(call, ["rhs"])
    step.clear_work(call)
    call["ended"] = ended


def added(call, free):
    """The columns times their weights, and whether none was missing. A weight that equals zero asks for no column."""
    out = [0.0] * (2 * call["n"])
    for particle, weights in free:
        for axis, weight in enumerate(weights):
            if weight == 0:
                continue
            if call["column_of"][particle] == UNLOADED:
                return out, False
            out = along(out, weight, call["columns"][places(call, particle, axis)])
    return out, True


def response_from_columns(call):
    free = step.free_entries(call)
    out, whole = added(call, free)
    call["out"][: len(out)] = out
    if not whole:
        call |= {"how": [NOT_LOADED], "floats": []}
    else:
        call |= {"how": [COMBINED if free else step.NOTHING], "floats": [step.gain(free, out)]}


def half(a, b):
    return times(plus(a, b), 0.5)


def particle_block_from_columns(call):
    n, particle = call["n"], call["particle"]
    if call["pinned"][particle]:
        call["out"][: 4 * n] = [0.0] * (4 * n)
        call |= {"how": [COMBINED], "floats": [0.0] * 4}
    elif call["column_of"][particle] == UNLOADED:
        call |= {"how": [NOT_LOADED], "floats": []}
    else:
        both = [call["columns"][places(call, particle, axis)] for axis in (0, 1)]
        call["out"][: 4 * n] = both[0] + both[1]
        (c0x, c0y), (c1x, c1y) = (column[2 * particle : 2 * particle + 2] for column in both)
        call |= {"how": [COMBINED], "floats": [half(c0x, c0x), half(c0y, c1x), half(c1x, c0y), half(c1y, c1y)]}


WORK = {
    "clear_columns": clear_columns,
    "load_particle": load_particle,
    "compute_columns": compute_columns,
    "response_from_columns": response_from_columns,
    "particle_block_from_columns": particle_block_from_columns,
}
