#!/usr/bin/env python3
"""The picture program a second time. `answer`: a text in, its picture or refusal out. `hold COMMAND..`: runs the command on each
text and holds what it writes to the answer."""

import subprocess
import sys

sys.dont_write_bytecode = True

import bench
import benchtexts
import plan

# Of the bench program's texts: the readings, graphs of several kinds, every number that a refusal has, and grounds for a 9.
NAMES = """none one three apart moved repeats ghost equal_at_n leading_zeros separators ring two_rings star tree grid_32_10 random_sparse random_dense
complete_90 chain_1024 particles_1024 particles_1025 pairs_4097 outside complete_91 no_byte one_missing one_over comma high_byte
bytes_65537 nine_before_one one_before_four""".split()


def black(row):
    return "".join("1" if pixel else "0" for pixel in row)


def lines(rows):
    """Each particle's neighbours in, the lines of the two panels out."""
    order, inverse, first, _ = plan.plan_of(rows)
    side = range(2 * len(rows))
    near = [{r, *row} for r, row in enumerate(rows)]
    for i in side:
        given = near[i // 2]
        moved = {inverse[w] for w in near[order[i // 2]]}
        left = (j // 2 in given for j in side)
        right = (j // 2 in moved or (first[i] <= j <= i and (i + j) % 2 == 0) for j in side)
        yield black(left) + "0" + black(right) + "\n"


def answer(text):
    told = bench.answer(text)
    if told.startswith("refused"):
        return told
    n, _, *given = bench.read(text)
    rows = bench.neighbours(n, zip(given[::2], given[1::2]))
    return f"P1\n{4 * n + 1} {2 * n}\n" + "".join(lines(rows))


def hold(command):
    texts = benchtexts.texts()
    differ = []
    for name in NAMES:
        run = subprocess.run(command, input=texts[name], stdout=subprocess.PIPE)
        if run.returncode or run.stdout != answer(texts[name]).encode():
            differ.append(name)
            print(f"spy: {name}: not the second program's picture")
    print(f"spy: {len(NAMES)} runs, {len(differ)} differ")
    return bool(differ)


def main(words):
    if words == ["answer"]:
        sys.stdout.write(answer(sys.stdin.buffer.read()))
    elif len(words) > 1 and words[0] == "hold":
        sys.exit(hold(words[1:]))
    else:
        sys.exit("usage: spy.py answer | spy.py hold COMMAND..")


if __name__ == "__main__":
    main(sys.argv[1:])
