#!/usr/bin/env python3
"""Respells the names that this repository's own specs/ and proofs/ declare: words in snake case, types in camel case.

usage: tools/respell.py [FOLDER]      in the checkout FOLDER (.), once, behind port.py

It reads every declaration of crates/*/specs and crates/*/proofs (fields and constructors too), works out the new spelling of each
name with a hyphen or an inner capital, and turns it wherever it stands in .antt and .rt files, in must-fail edits, and, in
backquotes, in comments and documents. It stops before it writes anything where a new spelling is another word already of a file
that has the old one (a Proof.antt aside, which is written anew). It doesn't see two names of its own table that come to one
spelling, nor parameters of functions: the checker refused each of those (docs/PORT.md). Functions of src/, exported C names,
strings and numbers keep their names: none has a hyphen, and none is declared in specs/ or proofs/.
"""
import collections
import os
import re
import sys

# Where the general rule would read badly, or the value is no type: the name by hand.
BY_HAND = {
    "at-getD": "at_get_or",
    "Shifted": "shifted",
    "SortedTo": "sorted_to",
    "Rch": "rch",
    "St": "st_at",
    "Fr": "fr_at",
    "Sn": "sn_at",
    "Fn": "fn_at",
    "zero-of": "zero_from",
    "block-at": "block_at_lem",
    "place-of": "place_of_lem",
}
# A lemma that port.py had respelled to the name of the function that it is about: by file.
LEMMAS = {
    "columns_meaning/proofs/Tally.antt": {"one_more": "one_more_lem"},
    "order_demand3/proofs/Keys.antt": {"one_way": "one_way_lem"},
    "root/proofs/Rounding.antt": {"units_of": "units_of_lem"},
}
DECLARED = re.compile(
    r"^(\s*)((?:(?:abbrev|unfoldable|pub|opaque|private|infix[lr]? \d+)\s+)*)(record\s+|data\s+)?"
    r"([^\s(){}:.;,\"]+)((?:\s+[({][^:]*:.*?[)}])*)\s*:\s(.*)"
)
CASE = re.compile(r"^\s*\|?\s*([^\s(){}:.;,\"]+)\s*:\s")
WORD = re.compile(r"[^\s(){}\[\].,;\"`⟦⟧]+")
PROOF = "Proof.antt"


def snake(name):
    if name in BY_HAND:
        return BY_HAND[name]
    if name[0].isupper():
        return name
    out = name.replace("-", "_").replace("′", "'")
    out = re.sub(r"(?<=[a-z0-9'])([A-Z])", lambda m: "_" + m.group(1).lower(), out)
    return out


def files(root, endings):
    for top, dirs, names in os.walk(root):
        dirs[:] = sorted(d for d in dirs if d not in ("out", "target", ".git", "__pycache__"))
        for name in sorted(names):
            if name.endswith(endings):
                yield os.path.join(top, name)


def read(path):
    with open(path, encoding="utf-8") as f:
        return f.read()


def declared(crates):
    """Every name that a file of specs/ or proofs/ declares; of a Proof.antt only lemmas, no answers of goals."""
    names = set()
    for path in files(crates, ".antt"):
        for line in read(path).split("\n"):
            if line.lstrip().startswith("--"):
                continue
            m = DECLARED.match(line)
            if m and not (os.path.basename(path) == PROOF and re.search(r"(^|\s)tie\.(Need-|invariant-|decreases-)", m.group(6))):
                names.add(m.group(4))
    return names


def imported(text):
    """The names that a file imports from the kit."""
    names = set()
    for m in re.finditer(r"(?m)^(?:pub |ghost )*use ([^\s{;]+)(?:\.\{([^}]*)\})?", text):
        if not OWN.match(m.group(1)):
            for item in (m.group(2) or "").split(","):
                parts = item.split()
                if parts:
                    names.add(parts[-1])
    return names


OWN = None


def main(root):
    global OWN
    crates = os.path.join(root, "crates")
    OWN = re.compile(r"Rattle\.(" + "|".join(sorted(os.listdir(crates))) + r")\.")
    own = declared(crates)
    table = {n: snake(n) for n in own if snake(n) != n}
    bad = []
    written = []
    for path in files(crates, (".antt", ".rt", ".edit")):
        text = read(path)
        own_lemmas = LEMMAS.get(os.path.relpath(path, crates), {})
        out, met, kept = turn(path, text, {**table, **own_lemmas})
        for n in met if os.path.basename(path) != PROOF else ():
            if {**table, **own_lemmas}[n] in kept:
                bad.append(f"{path}: {n} falls together with a name that stands there already")
        if out != text:
            written.append((path, out))
    for path in files(os.path.join(root, "docs"), ".md"):
        out = quoted(read(path), table)
        if out != read(path):
            written.append((path, out))
    if bad:
        print("\n".join(sorted(set(bad))))
        sys.exit(f"respell: {len(set(bad))} names fall together; nothing was written")
    for path, out in written:
        with open(path, "w", encoding="utf-8") as f:
            f.write(out)
    print(f"respell: {len(table)} names, {len(written)} files")


def dotted(m):
    """A field, or a part of a path: it stands in another room than a name."""
    text, a, b = m.string, m.start(), m.end()
    return text[a - 1 : a] == "." and not text[a - 2 : a].startswith(" ") or text[b : b + 1] == "." and text[b + 1 : b + 2] not in ("", " ", "{")


def quoted(text, table):
    return re.sub(r"`[^`\n]*`", lambda m: WORD.sub(lambda w: table.get(w.group(0), w.group(0)), m.group(0)), text)


def turn(path, text, table):
    """The text respelled, the old names that it had, and the words that stay."""
    keep = imported(text) if path.endswith(".antt") else set()
    met, kept = set(), set(keep)

    def word(m):
        w = m.group(0)
        if w in table and w not in keep:
            if not dotted(m):
                met.add(w)
            return table[w]
        if not dotted(m):
            kept.add(w)
        return w

    out = []
    ghost = not path.endswith(".rt")
    depth = 0
    for line in text.split("\n"):
        if line.lstrip().startswith(("--", "//")):
            out.append(quoted(line, table))
            continue
        if path.endswith(".rt"):
            # only clauses and ghost items: code has no such names, and a string is not a name
            starts = re.match(r"\s*(pub )?(ghost|requires|ensures|invariant)\b", line)
            if not starts and depth == 0:
                out.append(line)
                continue
            depth = max(0, depth + line.count("{") - line.count("}"))
            out.append(WORD.sub(word, line))
            continue
        code, dash, rest = line.partition(" -- ")
        out.append(WORD.sub(word, code) + dash + quoted(rest, table))
    return "\n".join(out), met, kept


if __name__ == "__main__":
    main(sys.argv[1] if len(sys.argv) > 1 else ".")
