"""The conjugate gradient: the preconditioner, the solve, and how it ended."""

import math

import matrix
import plane
from plane import minus, over, plus, times

# By the outcomes' numbers (docs/RULES.md, module 5).
ZERO, NEAR, CONVERGED, CURVATURE, LIMIT = 1, 2, 3, 4, 5


def update_preconditioner(call):
    for r in range(call["n"]):
        slot = call["diagonal"][r]
        found = plane.inverse(*call["blocks"][4 * slot : 4 * slot + 4])
        call["preconditioner"][4 * r : 4 * r + 4] = found if all(map(math.isfinite, found)) else matrix.IDENTITY


def dot(u, v):
    total = 0.0
    for k in range(0, len(u), 2):
        total = plus(total, plane.dot(*u[k : k + 2], *v[k : k + 2]))
    return total


def product(call, v):
    given = call | {"x": v, "out": [0.0] * len(v)}
    matrix.mul(given)
    return given["out"]


def preconditioned(call, v):
    p, out = call["preconditioner"], []
    for k in range(0, len(v), 2):
        out += plane.block_times(*p[2 * k : 2 * k + 4], *v[k : k + 2])
    return out


def along(u, factor, v):
    """u and a multiple of v."""
    return [plus(a, times(b, factor)) for a, b in zip(u, v)]


def run(call, b, x):
    """How it ended, after how many turns, with what floats; and x, not rescaled."""
    length = dot(b, b)
    if length == 0:
        return ZERO, 0, [], [0.0] * len(x)
    threshold = times(times(call["tolerance"], call["tolerance"]), length)
    residual = [minus(p, q) for p, q in zip(b, product(call, x))]
    length = dot(residual, residual)
    if length <= threshold:
        return NEAR, 0, [length], x
    direction = preconditioned(call, residual)
    steep = dot(residual, direction)
    for turn in range(call["max_iterations"]):
        bent = product(call, direction)
        denominator = dot(direction, bent)
        if not denominator > 0:
            return CURVATURE, turn, [length, denominator], x
        step = over(steep, denominator)
        x = along(x, step, direction)
        residual = [minus(r, times(q, step)) for r, q in zip(residual, bent)]
        length = dot(residual, residual)
        if length <= threshold:
            return CONVERGED, turn + 1, [length], x
        z = preconditioned(call, residual)
        before, steep = steep, dot(residual, z)
        direction = along(z, over(steep, before), direction)
    return LIMIT, call["max_iterations"], [length], x


def rescaled(call, b, x):
    denominator = dot(x, product(call, x))
    if denominator <= 0:
        return [0.0] * len(x)
    factor = over(dot(b, x), denominator)
    factor = 0.0 if factor < 0 else 1.0 if factor > 1 else factor
    return x if factor == 1 else [times(it, factor) for it in x]


def conjugate_gradient(call):
    length = 2 * call["n"]
    b, x = call["b"][:length], call["x"][:length]
    how, count, floats, x = run(call, b, x)
    call["x"][:length] = rescaled(call, b, x) if how in (CURVATURE, LIMIT) else x
    for name in "residual", "direction", "a_direction", "z":
        call[name][:length] = [0.0] * length
    call |= {"outcome": [how, count], "floats": floats}


WORK = {"update_preconditioner": update_preconditioner, "conjugate_gradient": conjugate_gradient}
