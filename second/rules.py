"""The refusals (docs/RULES.md § 3), as far as the block matrix, planning, the direct solve, the conjugate gradient, the step and its columns
meet them."""

import math

import plan

PARTICLES = 1024
PAIRS = 4096
ENVELOPE = 16384
ENTRIES = 16
COLUMNS = 16
UNLOADED = 4294967295
ITERATIONS = 4096

PLAN = ["perm", "inv_perm", "first", "row_start"]
WORK = ["degrees", "placed", "mark", "level", "queue"]
VECTORS = ["b", "x", "residual", "direction", "a_direction", "z"]
COUNTS = 7


def plan_counts(call):
    """Where a call says which plans are small enough to factor, the others are neither needed nor tested."""
    return "values" in call and 2 * call["n"] <= call.get("max_dense_dofs", 2 * call["n"])


def needs(call):
    """How long each list must be, where the row starts are long enough to read the block count and the factor's length."""
    n = call["n"]
    if "pairs" in call:
        count = call["count"]
        room = n + 2 * count
        starts = {"pairs": 2 * count, "row_offsets": n + 1, "cols": room, "diagonal": n}
        return starts | {"blocks": 4 * room, "work": 2 * count}
    long = dict.fromkeys([*PLAN, *WORK, "marks", "pinned", "column_of"], n) | {"first": 2 * n, "row_start": 2 * n + 1}
    long |= dict.fromkeys([*VECTORS, "out", "rhs", "scratch"], 2 * n) | {"preconditioner": 4 * n}
    if "entries" in call:
        long |= {"particles": call["entries"], "gradients": 2 * call["entries"]}
    if "columns" in call:
        long["columns"] = 4 * n * call["loaded"]
    if call["word"] == "particle_block_from_columns":
        long["out"] = 4 * n
    if "row_offsets" in call:
        blocks = call["row_offsets"][n]
        long |= {"row_offsets": n + 1, "cols": blocks, "diagonal": n, "blocks": 4 * blocks}
    if plan_counts(call):
        long["values"] = call["row_start"][2 * n]
    elif "values" in call:
        long |= dict.fromkeys([*PLAN, "values", "scratch"], 0)
    return long | {"counts": COUNTS}


def too_many_particles(call):
    return call["n"] > PARTICLES


def too_many_pairs(call):
    return call.get("count", 0) > PAIRS or call.get("entries", 0) > ENTRIES or one_too_many(call)


def one_too_many(call):
    """Loading a particle that is new, as far as the lists show it, where as many as can be are loaded. This comes before 3."""
    if call["word"] != "load_particle" or call["loaded"] < COLUMNS:
        return False
    particle, pinned, table = call["particle"], call["pinned"], call["column_of"]
    shown = particle < min(call["n"], len(pinned), len(table))
    return shown and pinned[particle] == 0 and table[particle] == UNLOADED


def too_short(call):
    n = call["n"]
    if "row_offsets" in call and len(call["row_offsets"]) < n + 1:
        return True
    if plan_counts(call) and len(call["row_start"]) < 2 * n + 1:
        return True
    return any(len(call[name]) < need for name, need in needs(call).items() if name in call)


def outside(call):
    n = call["n"]
    if "pairs" in call:
        given = call["pairs"][: 2 * call["count"]]
        return any(a != b and max(a, b) >= n for a, b in zip(given[::2], given[1::2]))
    if "entries" in call:
        return any(particle >= n for particle in call["particles"][: call["entries"]])
    return max(call.get("row", -1), call.get("particle", -1)) >= n


def misformed(call):
    """A pattern is tested where its three lists are handed in; a row alone is shown without its diagonal."""
    return "pairs" not in call and "diagonal" in call and not well_formed(call)


def well_formed(call):
    n, starts, cols, diagonal = (call[name] for name in ("n", "row_offsets", "cols", "diagonal"))
    if starts[0] != 0 or any(starts[r] > starts[r + 1] for r in range(n)):
        return False
    stored = set()
    for r in range(n):
        row = cols[starts[r] : starts[r + 1]]
        rising = all(left < right for left, right in zip(row, row[1:]))
        inside = all(c < n for c in row)
        own_slot = starts[r] <= diagonal[r] < starts[r + 1] and cols[diagonal[r]] == r
        if not (rising and inside and own_slot):
            return False
        stored.update((r, c) for c in row)
    return all((c, r) in stored for r, c in stored)


def misfitting(call):
    """A plan that is handed in is there for a factor's list, a table with the count of its columns."""
    return plan_counts(call) and not fits(call) or "loaded" in call and not numbered(call)


def numbered(call):
    """The table numbers unpinned particles from 0 up to its count, at most 16, each once. What stands behind n isn't looked at."""
    n, count = call["n"], call["loaded"]
    given = [(column, mark) for column, mark in zip(call["column_of"][:n], call["pinned"][:n]) if column != UNLOADED]
    free = all(mark == 0 for _, mark in given)
    return count <= COLUMNS and free and sorted(column for column, _ in given) == list(range(count))


def fits(call):
    n = call["n"]
    order, inverse, first, starts = (call[name] for name in PLAN)
    order, inverse = order[:n], inverse[:n]
    if sorted(order) != list(range(n)) or any(inverse[v] != i for i, v in enumerate(order)):
        return False
    for i in range(n):
        if first[2 * i] != first[2 * i + 1] or first[2 * i] % 2 or first[2 * i] > 2 * i:
            return False
    if starts[0] != 0 or any(starts[row + 1] != starts[row] + row - first[row] + 1 for row in range(2 * n)):
        return False
    if "row_offsets" not in call:
        return True
    places = ((inverse[r], inverse[c]) for r in range(n) for c in call["cols"][call["row_offsets"][r] : call["row_offsets"][r + 1]])
    return all(first[2 * i] <= 2 * j for i, j in places if j <= i)


def too_wide(call):
    if plan_counts(call):
        return call["row_start"][2 * call["n"]] > ENVELOPE
    return call["word"] == "plan" and plan.plan_of(plan.joined(call))[-1][-1] > ENVELOPE


def out_of_range(call):
    if "tolerance" not in call:
        return False
    tolerance = call["tolerance"]
    return not (math.isfinite(tolerance) and tolerance >= 0) or call["max_iterations"] > ITERATIONS


# Lowest number first; a later test may read what an earlier one has found to be there.
TABLE = [
    (1, too_many_particles),
    (2, too_many_pairs),
    (3, too_short),
    (4, outside),
    (5, misformed),
    (6, misfitting),
    (7, too_wide),
    (8, out_of_range),
]


def refusal(call):
    """The number that the call is refused by, or 0."""
    return next((number for number, fails in TABLE if fails(call)), 0)
