"""Plane numbers: f32 arithmetic by rounding doubles, vectors and blocks of it, and the root by whole numbers."""

import math
import struct

# Of a root's digits the f32 keeps so many; twice as many of its square and two more leave one digit to round by, and what is left over.
DIGITS = 24
ENOUGH = 2 * DIGITS + 2


def rounded(x):
    """The f32 nearest to a double. Sums, products and quotients of two f32 come out right: a double has more than twice the digits."""
    try:
        return struct.unpack("<f", struct.pack("<f", x))[0]
    except OverflowError:
        return math.copysign(math.inf, x)


def plus(a, b):
    return rounded(a + b)


def minus(a, b):
    return rounded(a - b)


def times(a, b):
    return rounded(a * b)


def over(a, b):
    """Python divides by no zero."""
    if b != 0:
        return rounded(a / b)
    return math.nan if a == 0 or math.isnan(a) else math.copysign(math.inf, a) * math.copysign(1.0, b)


def dot(ux, uy, vx, vy):
    return plus(times(ux, vx), times(uy, vy))


def block_times(c0x, c0y, c1x, c1y, vx, vy):
    return [plus(times(c0x, vx), times(c1x, vy)), plus(times(c0y, vx), times(c1y, vy))]


def determinant(c0x, c0y, c1x, c1y):
    return minus(times(c0x, c1y), times(c1x, c0y))


def inverse(c0x, c0y, c1x, c1y):
    r = over(1.0, determinant(c0x, c0y, c1x, c1y))
    return [times(c1y, r), times(c0y, -r), times(c1x, -r), times(c0x, r)]


def whole(x):
    """A number above zero as m and e: it is m times two to the e."""
    bits = struct.unpack("<I", struct.pack("<f", x))[0]
    field, m = bits >> 23, bits & 0x7FFFFF
    return (m | 1 << 23, field - 150) if field else (m, -149)


def root(x):
    """The f32 nearest to the root, a middle going to the even one: rounded once, off the whole root of a whole number."""
    if math.isnan(x) or x < 0:
        return math.nan
    if x == 0 or x == math.inf:
        return x
    m, e = whole(x)
    shift = ENOUGH - m.bit_length()
    shift += (e - shift) % 2
    square, e = m << shift, (e - shift) // 2
    q = math.isqrt(square)
    cut = q.bit_length() - DIGITS
    kept, dropped, middle = q >> cut, q % (1 << cut), 1 << (cut - 1)
    beyond = dropped > middle or (dropped == middle and (square > q * q or kept % 2 == 1))
    return math.ldexp(kept + beyond, e + cut)


# The operations of the case lines: floats in, floats out.
WORK = {
    "root": lambda *given: [root(*given)],
    "dot": lambda *given: [dot(*given)],
    "times": block_times,
    "determinant": lambda *given: [determinant(*given)],
    "inverse": inverse,
}
