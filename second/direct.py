"""Factoring by a handed plan, and solving by what stands in the factor's list."""

from matrix import slots
from plane import minus, over, plus, root, times


class Envelope:
    """The factor's list as rows and columns."""

    def __init__(self, call):
        self.first, self.starts, self.values = call["first"], call["row_start"], call["values"]

    def place(self, row, col):
        return self.starts[row] + col - self.first[row]

    def __getitem__(self, at):
        return self.values[self.place(*at)]

    def __setitem__(self, at, item):
        self.values[self.place(*at)] = item


def load(call, entries):
    """The permuted matrix's lower triangle, zeros elsewhere."""
    length = call["row_start"][2 * call["n"]]
    call["values"][:length] = [0.0] * length
    inverse, blocks = call["inv_perm"], call["blocks"]
    for r in range(call["n"]):
        for k in slots(call, r):
            for e in 0, 1:
                for d in 0, 1:
                    row, col = 2 * inverse[r] + d, 2 * inverse[call["cols"][k]] + e
                    if col <= row:
                        entries[row, col] = blocks[4 * k + 2 * e + d]


def products(entries, row, other, columns):
    total = 0.0
    for k in columns:
        total = plus(total, times(entries[row, k], entries[other, k]))
    return total


def factorize(call):
    """None, or the row and pivot that it ends with."""
    entries = Envelope(call)
    load(call, entries)
    first = call["first"]
    for i in range(2 * call["n"]):
        for j in range(first[i], i):
            item = entries[i, j]
            shared = range(max(first[i], first[j]), j)
            if shared:
                item = minus(item, products(entries, i, j, shared))
            entries[i, j] = over(item, entries[j, j])
        pivot = entries[i, i]
        for k in range(first[i], i):
            pivot = minus(pivot, times(entries[i, k], entries[i, k]))
        if not pivot > 0:
            return i, pivot
        entries[i, i] = root(pivot)
    return None


def solve(call):
    n, order, first, entries = call["n"], call["perm"], call["first"], Envelope(call)
    y = [call["b"][2 * order[i] + d] for i in range(n) for d in (0, 1)]
    for i in range(2 * n):
        item = y[i]
        if first[i] < i:
            total = 0.0
            for k in range(first[i], i):
                total = plus(total, times(entries[i, k], y[k]))
            item = minus(item, total)
        y[i] = over(item, entries[i, i])
    for i in reversed(range(2 * n)):
        y[i] = over(y[i], entries[i, i])
        for k in range(first[i], i):
            y[k] = minus(y[k], times(entries[i, k], y[i]))
    for i in range(n):
        call["x"][2 * order[i] : 2 * order[i] + 2] = y[2 * i : 2 * i + 2]
    call["scratch"][: 2 * n] = [0.0] * (2 * n)
