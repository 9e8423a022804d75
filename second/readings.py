#!/usr/bin/env python3
"""The readings without a star (docs/RULES.md § 11), of the second program: status 1 if one comes out otherwise."""

import struct
import sys

sys.dont_write_bytecode = True

import bench
import benchtexts
import plane

# The bits of a number and of its root.
ROOTS = {0x40000000: 0x3FB504F3, 0x3F7FFFFF: 0x3F7FFFFF}

# By the names of the bench program's texts: the answer's last line. Two particles joined 4,096 times have ten entries.
LAST = {
    "chain_1024": "envelope 7164",
    "particles_1025": "refused 1",
    "complete_90": "envelope 16290",
    "complete_91": "refused 7",
    "pairs_4096": "envelope 10",
    "pairs_4097": "refused 2",
}

# How many entries an envelope needs, accepted or not.
ENTRIES = {"chain_1024": 7164, "complete_90": 16290, "complete_91": 16653}


def root_of(bits):
    (x,) = struct.unpack(">f", bits.to_bytes(4, "big"))
    return int.from_bytes(struct.pack(">f", plane.root(x)), "big")


def main():
    texts = benchtexts.texts()
    differ = [name for name, last in LAST.items() if bench.answer(texts[name]).splitlines()[-1] != last]
    differ += [f"entries of {name}" for name, count in ENTRIES.items() if bench.entries(texts[name]) != count]
    differ += [f"root of {bits:#x}" for bits, root in ROOTS.items() if root_of(bits) != root]
    for name in differ:
        print(f"readings: {name}: not as in RULES.md § 11")
    print(f"readings: {len(LAST) + len(ENTRIES) + len(ROOTS)} of RULES.md § 11, {len(differ)} differ")
    return bool(differ)


sys.exit(main())
