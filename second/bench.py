#!/usr/bin/env python3
"""The bench program of RULES.md § 9 once more. `answer`: a text in, its answer out. `table FOLDER`: the texts of benchtexts.py into FOLDER/data, their names
into FOLDER/args and their answers into FOLDER/stdout. `hold COMMAND..`: runs the command on each text and holds what it writes to the answer."""

import pathlib
import subprocess
import sys
import tempfile
import time

sys.dont_write_bytecode = True

import benchtexts
import plan
import rules

BYTES = 65536
LARGEST = "4294967295"


def number(word):
    """The word's value, or None if it is too large, however many digits it has."""
    digits = word.decode().lstrip("0") or "0"
    return int(digits) if (len(digits), digits) <= (len(LARGEST), LARGEST) else None


def read(text):
    """The text's numbers, or None if it isn't as described."""
    if len(text) > BYTES or set(text) - set(b"0123456789 \n"):
        return None
    found = [number(word) for word in text.split()]
    if None in found or len(found) < 2 or len(found) != 2 + 2 * found[1]:
        return None
    return found


def neighbours(n, pairs):
    """Each particle's neighbours; repeats and equal pairs add nothing."""
    near = [set() for _ in range(n)]
    for a, b in pairs:
        if a != b:
            near[a].add(b)
            near[b].add(a)
    return [sorted(row) for row in near]


def pairs_of(given):
    return list(zip(given[::2], given[1::2]))


def entries(text):
    """How many entries the envelope of a good text's graph needs, whatever the limits say."""
    n, _, *given = read(text)
    return plan.plan_of(neighbours(n, pairs_of(given)))[-1][-1]


def refused(no):
    return f"refused {no}\n"


def answer(text):
    found = read(text)
    if found is None:
        return refused(9)
    n, count, *given = found
    if n > rules.PARTICLES:
        return refused(1)
    if count > rules.PAIRS:
        return refused(2)
    pairs = pairs_of(given)
    if any(a != b and max(a, b) >= n for a, b in pairs):
        return refused(4)
    order, _, _, row_start = plan.plan_of(neighbours(n, pairs))
    if row_start[-1] > rules.ENVELOPE:
        return refused(7)
    return " ".join(["order", *map(str, order)]) + f"\nenvelope {row_start[-1]}\n"


def table(folder):
    data = folder / "data"
    data.mkdir(parents=True, exist_ok=True)
    texts = benchtexts.texts()
    for old in data.iterdir():
        if old.name not in texts:
            old.unlink()
    for name, text in texts.items():
        (data / name).write_bytes(text)
    (folder / "args").write_text("".join(f"{name}\n" for name in texts))
    (folder / "stdout").write_text("".join(f"{name}: {answer(text)}" for name, text in texts.items()))


def from_file(command, text):
    with tempfile.TemporaryFile() as file:
        file.write(text)
        file.seek(0)
        return subprocess.run(command, stdin=file, stdout=subprocess.PIPE)


def through_pipe(command, text, size, pause):
    """The text in pieces, so that the command's reads come back short. It need not read to the end of a text that is too long."""
    with subprocess.Popen(command, stdin=subprocess.PIPE, stdout=subprocess.PIPE, bufsize=0) as run:
        try:
            for at in range(0, len(text), size):
                run.stdin.write(text[at : at + size])
                time.sleep(pause)
            run.stdin.close()
        except BrokenPipeError:
            pass
        wrote = run.stdout.read()
    return subprocess.CompletedProcess(command, run.returncode, wrote)


def hold(command):
    texts = benchtexts.texts()
    runs = [(name, from_file(command, text), text) for name, text in texts.items()]
    for name, size, pause in benchtexts.PIECES:
        runs.append((f"{name} by {size}", through_pipe(command, texts[name], size, pause), texts[name]))
    endless = b" " * 300000
    runs.append(("300000 bytes", through_pipe(command, endless, len(endless), 0), endless))
    differ = [name for name, run, text in runs if run.returncode or run.stdout != answer(text).encode()]
    for name in differ:
        print(f"bench: {name}: not the second program's answer")
    print(f"bench: {len(runs)} runs, {len(differ)} differ")
    return bool(differ)


def main(words):
    if words == ["answer"]:
        sys.stdout.write(answer(sys.stdin.buffer.read()))
    elif len(words) == 2 and words[0] == "table":
        table(pathlib.Path(words[1]))
    elif len(words) > 1 and words[0] == "hold":
        sys.exit(hold(words[1:]))
    else:
        sys.exit("usage: bench.py answer | bench.py table FOLDER | bench.py hold COMMAND..")


if __name__ == "__main__":
    main(sys.argv[1:])
