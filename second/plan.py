"""Planning: the order of a pattern's particles, its inverse, and the envelope's rows."""

import rules

FURTHER_SEARCHES = 4


def joined(call):
    """Each particle's neighbours: the columns of its row but its own."""
    starts, cols = call["row_offsets"], call["cols"]
    return [[c for c in cols[starts[r] : starts[r + 1]] if c != r] for r in range(call["n"])]


def search(rows, start, unplaced):
    """The levels of a breadth-first search from the start."""
    met, levels = {start}, [[start]]
    while True:
        level = []
        for w in (w for v in levels[-1] for w in rows[v]):
            if w in unplaced and w not in met:
                met.add(w)
                level.append(w)
        if not level:
            return levels
        levels.append(level)


def start_of(rows, unplaced):
    def key(v):
        return len(rows[v]), v

    start = min(unplaced, key=key)
    levels = search(rows, start, unplaced)
    for _ in range(FURTHER_SEARCHES):
        far = min(levels[-1], key=key)
        found = search(rows, far, unplaced)
        if len(found) <= len(levels):
            break
        start, levels = far, found
    return start


def order_of(rows):
    unplaced, placed = set(range(len(rows))), []
    while unplaced:
        stretch = [start_of(rows, unplaced)]
        unplaced.remove(stretch[0])
        for v in stretch:
            fresh = sorted((len(rows[w]), w) for w in rows[v] if w in unplaced)
            stretch += [w for _, w in fresh]
            unplaced.difference_update(w for _, w in fresh)
        placed += stretch
    return placed[::-1]


def plan_of(rows):
    """The four lists of a plan, from each particle's neighbours. Both rows of a place start at its leftmost block's even column."""
    order = order_of(rows)
    inverse = sorted(range(len(rows)), key=order.__getitem__)
    first, row_start = [], [0]
    for i, v in enumerate(order):
        column = 2 * min([i, *(inverse[w] for w in rows[v])])
        for row in 2 * i, 2 * i + 1:
            first.append(column)
            row_start.append(row_start[-1] + row - column + 1)
    return order, inverse, first, row_start


def clear_work(call):
    for name in rules.WORK:
        call[name][: call["n"]] = [0] * call["n"]


def plan(call):
    lists = plan_of(joined(call))
    for name, items in zip(rules.PLAN, lists):
        call[name][: len(items)] = items
    clear_work(call)
    return lists[-1][-1]
