"""The accepted calls. Each changes its lists in place and hands back the answer's number, if it has one."""

import rules
from plane import block_times, plus

NOWHERE = 4294967295
ZERO = [0.0, 0.0, 0.0, 0.0]
IDENTITY = [1.0, 0.0, 0.0, 1.0]


def put(target, items, length):
    """The items, then zeros up to the length, at the front of the list."""
    target[:length] = items + [0] * (length - len(items))


def pattern_from_pairs(call):
    n, given = call["n"], call["pairs"][: 2 * call["count"]]
    rows = [{r} for r in range(n)]
    for a, b in zip(given[::2], given[1::2]):
        if a != b:
            rows[a].add(b)
            rows[b].add(a)
    starts, cols, diagonal = [0], [], []
    for r, row in enumerate(map(sorted, rows)):
        diagonal.append(len(cols) + row.index(r))
        cols += row
        starts.append(len(cols))
    need = rules.needs(call)
    for name, items in ("row_offsets", starts), ("cols", cols), ("diagonal", diagonal), ("work", []):
        put(call[name], items, need[name])
    return len(cols)


def from_pairs(call):
    need = rules.needs(call)["blocks"]
    call["blocks"][:need] = [0.0] * need
    return pattern_from_pairs(call)


def slots(call, row):
    return range(call["row_offsets"][row], call["row_offsets"][row + 1])


def slot_of(call, row, col):
    return next((k for k in slots(call, row) if call["cols"][k] == col), NOWHERE)


def block_index(call):
    return slot_of(call, call["row"], call["col"])


def diagonal_index(call):
    return call["diagonal"][call["row"]]


def bounds(call):
    """The row's first slot and its end; 0 and 0 where they fall or pass the last row offset."""
    first, end = call["row_offsets"][call["row"] : call["row"] + 2]
    return (first, end) if first <= end <= call["row_offsets"][call["n"]] else (0, 0)


def row(call):
    """The row's columns."""
    first, end = bounds(call)
    call["shown"] = call["cols"][first:end]
    return first


def row_slot(call):
    """By halves: of so many slots the middle one, rounded down, is where the search goes on if its column isn't past the one asked for."""
    first, end = bounds(call)
    count = end - first
    while count > 1:
        middle = first + count // 2
        first = middle if call["cols"][middle] <= call["col"] else first
        count -= count // 2
    return first if count and call["cols"][first] == call["col"] else NOWHERE


def clear_values(call):
    need = rules.needs(call)["blocks"]
    call["blocks"][:need] = [0.0] * need


def mul(call):
    blocks, x, out = call["blocks"], call["x"], call["out"]
    for r in range(call["n"]):
        total = [0.0, 0.0]
        for k in slots(call, r):
            c = call["cols"][k]
            part = block_times(*blocks[4 * k : 4 * k + 4], *x[2 * c : 2 * c + 2])
            total = [plus(a, b) for a, b in zip(total, part)]
        out[2 * r : 2 * r + 2] = total


def make_dirichlet(call):
    blocks, row = call["blocks"], call["row"]
    for k in slots(call, row):
        mirror = slot_of(call, call["cols"][k], row)
        blocks[4 * mirror : 4 * mirror + 4] = ZERO
        blocks[4 * k : 4 * k + 4] = ZERO
    k = call["diagonal"][row]
    blocks[4 * k : 4 * k + 4] = IDENTITY


def make_dirichlet_marked(call):
    """Block by block, whatever the order of pinning: in a marked row or column a block is zero, but the identity on the diagonal."""
    marks, blocks = call["marks"], call["blocks"]
    for r in range(call["n"]):
        for k in slots(call, r):
            c = call["cols"][k]
            if marks[r] or marks[c]:
                blocks[4 * k : 4 * k + 4] = IDENTITY if c == r else ZERO


WORK = {
    "from_pairs": from_pairs,
    "pattern_from_pairs": pattern_from_pairs,
    "block_index": block_index,
    "diagonal_index": diagonal_index,
    "clear_values": clear_values,
    "mul": mul,
    "make_dirichlet": make_dirichlet,
    "make_dirichlet_marked": make_dirichlet_marked,
    "row": row,
    "row_slot": row_slot,
}
