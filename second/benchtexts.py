"""Texts for the bench program, by name."""

import random

LARGEST = 4294967295

# Texts that are also handed over in pieces: how many bytes at a time, and the seconds between them.
PIECES = [
    ("three", 1, 0.02),
    ("trailing_newlines", 3, 0.05),
    ("one_over", 2, 0.02),
    ("chain_1024", 700, 0.01),
    ("complete_90", 5000, 0.01),
    ("bytes_65536", 60000, 0.05),
    ("bytes_65537", 65536, 0.1),
]


def of(n, pairs, count=None):
    """A text of the counts and the pairs' numbers; a count that isn't the pairs' own is as given."""
    given = [x for pair in pairs for x in pair]
    return " ".join(map(str, [n, len(pairs) if count is None else count, *given])).encode()


def chain(n):
    return [(i, i + 1) for i in range(n - 1)]


def complete(n):
    return [(a, b) for a in range(n) for b in range(a)]


def grid(wide, high):
    across = [(y * wide + x, y * wide + x + 1) for y in range(high) for x in range(wide - 1)]
    return across + [(y * wide + x, (y + 1) * wide + x) for y in range(high - 1) for x in range(wide)]


def random_pairs(seed, n, count):
    dice = random.Random(seed)
    return [(dice.randrange(n), dice.randrange(n)) for _ in range(count)]


def readings():
    """Those of docs/RULES.md § 11."""
    return {
        "none": b"0 0",
        "one": b"1 0\n",
        "three": b"3 2 0 1 1 2",
        "apart": b"4 1 0 2\n",
        "moved": b"6 5 1 2 2 3 3 4 4 5 0 3\n",
        "repeats": b"2 4 0 1 1 0 0 1 1 1\n",
        "ghost": b"2 1 9 9\n",
        "outside": b"2 1 0 2\n",
        "chain_1024": of(1024, chain(1024)),
        "complete_90": of(90, complete(90)),
        "complete_91": of(91, complete(91)),
    }


def limits():
    return {
        "particles_1024": b"1024 0",
        "particles_1025": b"1025 0",
        "particles_largest": b"4294967295 0",
        "pairs_4096": of(2, [(0, 1)] * 4096),
        "pairs_4097": of(2, [(0, 1)] * 4097),
        "bytes_65536": b" " * 65533 + b"1 0",
        "bytes_65537": b" " * 65534 + b"1 0",
        "newline_65537": b"1 0" + b"\n" * 65534,
        "zeros_65536": b"0" * 65533 + b"1 0",
        "number_4294967295": of(1, [(LARGEST, LARGEST)]),
        "number_4294967296": of(1, [(LARGEST + 1, LARGEST + 1)]),
        "number_of_40_digits": b"1 1 0 " + b"9" * 40,
    }


def words():
    """Separators, and bytes that are none."""
    return {
        "leading_zeros": b"003 0002 000 01 00000000001 2",
        "leading_newlines": b"\n\n 3  2\n0   1 1\n\n2",
        "trailing_newlines": b"3 2 0 1 1 2 \n\n \n",
        "no_byte": b"",
        "one_newline": b"\n",
        "separators": b"  \n \n\n  ",
        "tab": b"3\t0",
        "carriage_return": b"3 0\r\n",
        "minus": b"-1 0",
        "plus": b"1 +0",
        "comma": b"3,0",
        "point": b"1.0 0",
        "letter": b"3 x",
        "slash": b"3 /",
        "colon": b"3 :",
        "nul": b"1 0\0",
        "high_byte": b"1 0\xa0",
    }


def counts():
    """As many numbers as the pair count says, or not."""
    return {
        "one_number": b"3",
        "one_missing": b"3 2 0 1 1",
        "a_pair_missing": b"3 2 0 1",
        "one_over": b"3 2 0 1 1 2 0",
        "a_pair_over": b"3 1 0 1 1 2",
        "pairs_largest": b"4294967295 4294967295",
        "pairs_too_large": b"1 4294967296",
        "pairs_half": of(2, [(0, 1)], count=2147483649),
    }


def numbers_in_order():
    """Two grounds for refusal at once, and pairs about n."""
    return {
        "nine_before_one": b"1025 1 0",
        "nine_before_two": of(2, [(0, 1)] * 4097) + b" 0",
        "nine_before_four": b"2 1 0 2 7",
        "one_before_two": of(1025, [(0, 1)] * 4097),
        "one_before_four": of(1025, [(0, 2000)]),
        "two_before_four": of(2, [(0, 2)] * 4097),
        "four_before_seven": of(91, [*complete(91), (0, 91)]),
        "last_inside": b"3 1 0 2",
        "first_outside": b"3 1 3 0",
        "both_outside": b"3 1 3 4",
        "equal_at_n": b"3 1 3 3",
        "equal_without_particles": b"0 1 0 0",
        "outside_without_particles": b"0 1 0 1",
        "later_pair_outside": b"3 3 0 1 1 2 2 3",
    }


def graphs():
    star = [(5, i) for i in range(12) if i != 5]
    ring = [(i, (i + 1) % 9) for i in range(9)]
    binary = [(i, (i - 1) // 2) for i in range(1, 31)]
    return {
        "star": of(12, star),
        "ring": of(9, ring),
        "two_rings": of(19, [*ring, *((a + 10, b + 10) for a, b in ring)]),
        "tree": of(31, binary),
        "grid_32_10": of(320, grid(32, 10)),
        "grid_32_16": of(512, grid(32, 16)),
        "random_sparse": of(300, random_pairs(1, 300, 170)),
        "random_dense": of(60, random_pairs(2, 60, 900)),
        # the start moves so often as more searches are made; the fifth, which isn't, would move the last one's once more
        "moves_2": b"10 12 0 2 0 3 1 3 1 8 1 9 2 4 2 6 3 9 4 5 4 8 5 7 6 7",
        "moves_3": b"24 30 0 8 0 12 1 4 1 5 1 21 2 13 2 20 3 16 3 18 4 8 4 14 5 20 6 20 6 22 7 12 7 16 8 14 9 11 9 19"
        b" 9 23 10 11 10 15 10 20 12 18 13 20 14 15 17 20 17 21 17 22 18 19",
        "moves_4": b"22 23 0 14 1 18 1 19 2 6 3 10 3 15 3 16 4 11 4 15 5 6 5 17 5 18 6 7 7 10 8 13 8 19 9 14 9 17 9 20 12 16 12 21 13 20 14 15",
        "moves_5": b"34 35 0 1 1 6 1 30 2 14 2 25 3 17 4 23 5 27 6 17 7 32 7 33 8 13 8 22 9 16 9 25 10 22 11 15 11 26 11 27 12 31"
        b" 13 16 13 26 14 21 15 20 16 26 17 24 18 20 18 33 19 28 19 32 21 31 23 33 24 32 25 29 29 30",
        "random_stretches": of(200, [(a, a ^ b % 8) for a, b in random_pairs(3, 200, 400)]),
    }


def texts():
    return readings() | limits() | words() | counts() | numbers_in_order() | graphs()
