"""Case and answer lines. A call is a dictionary: its word, its plain numbers and its lists, each by its name."""

import math
import struct

from rules import PLAN, VECTORS, WORK

FLOATS = {"blocks", "columns", "out", "values", "scratch", "preconditioner", "tolerance", "gradients", "rhs", "floats", *VECTORS}
PATTERN = ["row_offsets", "cols", "diagonal"]

# How a solve ended: its outcome's number and count, and the outcome's floats, a response's gain first.
TOLD = ["outcome", "floats"]

# What the step's calls are handed first, and the numbers of those that solve.
MODEL = [*PATTERN, "blocks", *PLAN, "values", "preconditioner"]
SETTINGS = ["n", "max_iterations", "tolerance", "max_dense_dofs", "factored"]
STEPPED = ["x", "scratch", *VECTORS[2:], "counts"]
RESPONDED = ["out", "rhs", *STEPPED[1:]]
COMPUTED = ["columns", "rhs", *STEPPED[1:]]

# What the columns' calls are handed; what a combination or a block tells: its number, and the gain or the block.
TABLE = ["pinned", "column_of"]
COMBINED = ["how", "floats"]

# The plain numbers, the lists, and those of the lists that the call may change; behind them what it tells, nothing of it in a refusal.
SHAPES = {
    "from_pairs": (["n", "count"], ["pairs", *PATTERN, "blocks", "work"], [*PATTERN, "blocks", "work"]),
    "pattern_from_pairs": (["n", "count"], ["pairs", *PATTERN, "work"], [*PATTERN, "work"]),
    "block_index": (["n", "row", "col"], PATTERN, []),
    "diagonal_index": (["n", "row"], PATTERN, []),
    "clear_values": (["n"], [*PATTERN, "blocks"], ["blocks"]),
    "mul": (["n"], [*PATTERN, "blocks", "x", "out"], ["out"]),
    "make_dirichlet": (["n", "row"], [*PATTERN, "blocks"], ["blocks"]),
    "row": (["n", "row"], PATTERN[:2], ["shown"]),
    "row_slot": (["n", "row", "col"], PATTERN[:2], []),
    "plan": (["n"], [*PATTERN, *PLAN, *WORK], [*PLAN, *WORK]),
    "factorize": (["n"], [*PATTERN, "blocks", *PLAN, "values"], ["values"]),
    "solve": (["n"], [*PLAN, "values", "b", "x", "scratch"], ["x", "scratch"]),
    "update_preconditioner": (["n"], [*PATTERN, "blocks", "preconditioner"], ["preconditioner"]),
    "conjugate_gradient": (["n", "max_iterations", "tolerance"], [*PATTERN, "blocks", "preconditioner", *VECTORS], [*VECTORS[1:], *TOLD]),
    "factorize_step_matrix": (["n", "max_dense_dofs"], MODEL, MODEL[-2:]),
    "solve_step": (SETTINGS, [*MODEL, "b", *STEPPED], [*STEPPED, *TOLD]),
    "response_into": ([*SETTINGS, "entries"], [*MODEL, "pinned", "particles", "gradients", *RESPONDED], [*RESPONDED, *TOLD]),
    "make_dirichlet_marked": (["n"], [*PATTERN, "marks", "blocks"], ["blocks"]),
    "clear_columns": (["n"], ["column_of"], ["column_of"]),
    "load_particle": (["n", "loaded", "particle"], TABLE, ["column_of"]),
    "compute_columns": ([*SETTINGS, "loaded"], [*MODEL, *TABLE, *COMPUTED], [*COMPUTED, "ended"]),
    "response_from_columns": (["n", "loaded", "entries"], [*TABLE, "columns", "particles", "gradients", "out"], ["out", *COMBINED]),
    "particle_block_from_columns": (["n", "loaded", "particle"], [*TABLE, "columns", "out"], ["out", *COMBINED]),
}

# Rows have no stored cases: the comparison draws them.
STORED = [word for word in SHAPES if word not in ("row", "row_slot")]


def lists(call):
    return SHAPES[call["word"]][1]


def float_of(token):
    if len(token) != 9 or token[0] != "x":
        raise ValueError(f"not a float: {token}")
    return struct.unpack(">f", bytes.fromhex(token[1:]))[0]


def item_of(name):
    return float_of if name in FLOATS else int


def token_of(item):
    """A float keeps its sign and its bits, but a NaN is one NaN."""
    return "x" + struct.pack(">f", item).hex() if isinstance(item, float) else str(item)


def answer_token(item):
    return "nan" if isinstance(item, float) and math.isnan(item) else token_of(item)


def read(line):
    word, *tokens = line.split(" ")
    numbers, names, _ = SHAPES[word]
    call = {"word": word}
    at = len(numbers)
    call.update((name, item_of(name)(token)) for name, token in zip(numbers, tokens[:at]))
    for name in names:
        length, at = int(tokens[at]), at + 1
        call[name] = [item_of(name)(token) for token in tokens[at : at + length]]
        at += length
    if at != len(tokens):
        raise ValueError(f"not a case: {line}")
    return call


def listed(items, token):
    return [str(len(items)), *map(token, items)]


def case_line(call):
    numbers, names, _ = SHAPES[call["word"]]
    tokens = [call["word"], *(token_of(call[name]) for name in numbers)]
    for name in names:
        tokens += listed(call[name], token_of)
    return " ".join(tokens)


def answer_line(call, verdict):
    """The verdict, then every list that the call may change, as it stands now."""
    tokens = [answer_token(word) for word in verdict]
    for name in SHAPES[call["word"]][2]:
        tokens += listed(call.get(name, []), answer_token)
    return " ".join(tokens)
