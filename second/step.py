"""The step: its factor with the mark, its solve over both routes, the response to a constraint, and the tally of step solves."""

import direct
import gradient
from gradient import dot
from plane import plus

CAP = 4000000000

# Where a tally counts: a direct solve, an outcome by its number, a refused call. A response with no entries left asks for no solve.
DIRECT, REFUSED, NOTHING = 0, 6, 6

# What `factorize_step_matrix` answers beside a failure: the mark is set, or the plan doesn't count.
MARKED, ITERATIVE = 0, 2

WORK_VECTORS = ["scratch", "residual", "direction", "a_direction", "z"]


def dense(call):
    """Whether the plan and the factor count."""
    return 2 * call["n"] <= call["max_dense_dofs"]


def count(call, kind):
    if sum(call["counts"]) < CAP:
        call["counts"][kind] += 1


def clear(call, names):
    length = 2 * call["n"]
    for name in names:
        call[name][:length] = [0.0] * length


def clear_work(call):
    """The scratch belongs to the plan's route."""
    clear(call, WORK_VECTORS if dense(call) else WORK_VECTORS[1:])


def factorize_step_matrix(call):
    if dense(call):
        failed = direct.factorize(call)
        if failed is None:
            return MARKED
        gradient.update_preconditioner(call)
        return failed
    gradient.update_preconditioner(call)
    return ITERATIVE


def solved(call, b):
    """The solution, and what is told of how it came about."""
    asked = call | {"b": b, "x": [0.0] * (2 * call["n"])}
    if dense(call) and call["factored"]:
        asked["scratch"] = list(call["scratch"])
        direct.solve(asked)
        asked |= {"outcome": [DIRECT, 0], "floats": []}
    else:
        asked |= {name: list(call[name]) for name in WORK_VECTORS[1:]}
        gradient.conjugate_gradient(asked)
    count(call, asked["outcome"][0])
    return asked["x"], asked["outcome"], asked["floats"]


def solve_step(call):
    length = 2 * call["n"]
    x, outcome, floats = solved(call, call["b"][:length])
    call["x"][:length] = x
    clear_work(call)
    call |= {"outcome": outcome, "floats": floats}


def free_entries(call):
    """A constraint's particles that aren't pinned, with their gradients."""
    given = zip(call["particles"], zip(call["gradients"][::2], call["gradients"][1::2]), range(call["entries"]))
    return [(p, list(g)) for p, g, _ in given if call["pinned"][p] == 0]


def gain(free, x):
    """One that isn't above zero is zero."""
    total = 0.0
    for p, g in free:
        total = plus(total, dot(g, x[2 * p : 2 * p + 2]))
    return total if total > 0 else 0.0


def response_into(call):
    length = 2 * call["n"]
    left = free_entries(call)
    call["out"][:length] = [0.0] * length
    outcome, floats, x = [NOTHING, 0], [], []
    if left:
        rhs = [0.0] * length
        for p, g in left:
            rhs[2 * p : 2 * p + 2] = [plus(a, b) for a, b in zip(rhs[2 * p : 2 * p + 2], g)]
        x, outcome, floats = solved(call, rhs)
        call["out"][:length] = x
    clear(call, ["rhs"])
    clear_work(call)
    call |= {"outcome": outcome, "floats": [gain(left, x), *floats]}


WORK = {"factorize_step_matrix": factorize_step_matrix, "solve_step": solve_step, "response_into": response_into}
