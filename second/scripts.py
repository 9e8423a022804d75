#!/usr/bin/env python3
"""Holds the scripts ./bench and ./spy, over the programs as they were last built: what they write where, how they end, what they say of a refusal, and the
pictures to look at. `bench` or `spy`: the script to hold. The programs' own answers are held by bench.py and spy.py."""

import os
import pathlib
import re
import shutil
import signal
import subprocess
import sys
import tempfile
import time
import xml.etree.ElementTree as tree

sys.dont_write_bytecode = True

import bench
import benchtexts
import spy
from proving import heeding

ROOT = pathlib.Path(__file__).resolve().parent.parent
ALONE = "digits, spaces and newlines alone"
# What is said of a text that is refused, by its name.
WHY = {
    "carriage_return": f"byte 4 (line 1, column 4) is a carriage return; a text has {ALONE}",
    "tab": f"byte 2 (line 1, column 2) is a tab; a text has {ALONE}",
    "nul": f"byte 4 (line 1, column 4) is the control byte 0; a text has {ALONE}",
    "high_byte": f"byte 4 (line 1, column 4) is the byte 160, which is beyond ASCII; a text has {ALONE}",
    "comma": f"byte 2 (line 1, column 2) is the character ,; a text has {ALONE}",
    "bytes_65537": "more than 65,536 bytes",
    "number_4294967296": "number 3 of the text is above 4294967295",
    "number_of_40_digits": "number 4 of the text is above 4294967295",
    "no_byte": "numbers: 0; a text has two at least, the particle count and the pair count",
    "one_missing": "numbers: 5; with the pair count 2 there should be 6, the two counts and two for each pair",
    "pairs_largest": "numbers: 2; with the pair count 4294967295 there should be 8589934592, the two counts and two for each pair",
    "particles_1025": "more than 1,024 particles",
    "pairs_4097": "more than 4,096 pairs",
    "outside": "a pair of two different numbers has one that is not below the particle count",
    "complete_91": "the envelope needs more than 16,384 entries",
}
FURTHER = {
    b"3 2\n0 1\n1\t2": f"byte 10 (line 3, column 2) is a tab; a text has {ALONE}",
    b"3 2\r\n0 1\r\n1 2\r\n": f"byte 4 (line 1, column 4) is a carriage return; a text has {ALONE}",
}
DRAWN = "none one three moved ring two_rings tree random_sparse complete_90 chain_1024 particles_1024".split()


def run(*words, text=b"", **more):
    done = subprocess.run([ROOT / words[0], *words[1:]], input=text, capture_output=True, timeout=200, **more)
    return done.returncode, done.stdout, done.stderr


def without_tools(folder):
    """An environment that has what the scripts use, and neither rt nor what makes a PNG."""
    for name in "awk cat dirname head mktemp mv od rm sed sh uname readlink".split():
        (folder / name).symlink_to(shutil.which(name))
    return {"PATH": str(folder)}


def asked(script):
    """What both scripts do with words, and with a missing kit or program."""
    with tempfile.TemporaryDirectory() as name:
        folder = pathlib.Path(name)
        bare = without_tools(folder)
        for word in ("--help", "-h"):
            status, wrote, said = run(script, word, env=bare)
            usage = wrote.startswith(f"usage: ./{script}".encode())
            yield f"{word}: the usage on standard output, with nothing proved", (status, said, usage) == (0, b"", True)
        for words in (["--bilt"], ["--built", "x"], ["x"], [""]):
            status, wrote, said = run(script, *words)
            yield f"words that are none, {words}: 2, and the usage", (status, wrote) == (2, b"") and said.startswith(b"usage: ")
        for words in ([], ["--built"]):
            status, wrote, said = run(script, *words, text=b"1 0", env=bare)
            yield f"no rt, {words}: 2, and one sentence", (status, wrote, said.count(b"\n")) == (2, b"", 1) and said.startswith(b"rt is missing")
        copy = folder / "copy"
        shutil.copytree(ROOT / "text", copy / "text")
        for part in ("prove", "program", script, "KIT"):
            shutil.copy(ROOT / part, copy)
        status, wrote, said = run(copy / script, "--built", text=b"1 0")
        yield "no program: 2, and a word", (status, wrote) == (2, b"") and b"is not there" in said


def endless(script):
    """Input that doesn't end, and a person who ends a run that waits for its text. Neither leaves a file."""
    with tempfile.TemporaryDirectory() as folder:
        words, pipe = [ROOT / script, "--built"], subprocess.PIPE
        more = dict(stdin=pipe, stdout=pipe, stderr=pipe, env=os.environ | {"TMPDIR": folder})
        with subprocess.Popen(words, start_new_session=True, **more) as it:
            try:
                while True:
                    it.stdin.write(b"1 0 " * 5000)
                    it.stdin.flush()
            except BrokenPipeError:
                pass
            it.stdout.read()
            yield "input without an end is refused", it.wait(timeout=60) == 1 and not os.listdir(folder)
            it.stdin = None
        with subprocess.Popen(words, start_new_session=True, preexec_fn=heeding, **more) as it:
            while it.poll() is None and not any((pathlib.Path(folder) / name / "text").exists() for name in os.listdir(folder)):
                time.sleep(0.02)
            # A shell may miss one that comes just as it starts the reader.
            for _ in range(100):
                if it.poll() is None:
                    os.killpg(it.pid, signal.SIGINT)
                    time.sleep(0.3)
            yield "ended by Ctrl-C: 130, and no file is left", it.wait(timeout=60) == 130 and not os.listdir(folder)


def of_bench():
    texts = benchtexts.texts()
    for name, text in texts.items():
        status, wrote, said = run("bench", "--built", text=text)
        refused = wrote.startswith(b"refused")
        right = wrote == bench.answer(text).encode()
        yield f"{name}: the answer, its status, and a word if it is refused", (right, status, bool(said)) == (True, refused, refused)
    for text, why in [(texts[name], why) for name, why in WHY.items()] + list(FURTHER.items()):
        yield f"why: {why}", run("bench", "--built", text=text)[2].decode() == why + "\n"
    yield "proved already: nothing more is said", run("bench", text=b"1 0") == (0, bench.answer(b"1 0").encode(), b"")


def black(bitmap):
    """Of a bitmap: n, and the black pixels of either half, by row and column."""
    _, size, *lines = bitmap.decode().splitlines()
    n = int(size.split()[1]) // 2
    halves = set(), set()
    for y, line in enumerate(lines):
        for x in (x for x, pixel in enumerate(line) if pixel == "1"):
            halves[x > 2 * n].add((y, x % (2 * n + 1)))
    return n, halves


def painted(path):
    """The pixels of a path of rectangles, and whether each is painted once."""
    pixels = [
        (int(y) + down, int(x) + over)
        for x, y, wide, high, back in re.findall(r"M(\d+) (\d+)h(\d+)v(\d+)h-(\d+)z", path)
        for down in range(int(high))
        for over in range(int(wide) if wide == back else 0)
    ]
    return set(pixels), len(set(pixels)) == len(pixels) and not re.sub(r"M\d+ \d+h\d+v\d+h-\d+z", "", path).strip()


def numbers_of(picture):
    """Of an SVG's texts the columns of numbers, each as its numbers and the least way between two of them."""
    columns = {}
    for word in picture.iter("{http://www.w3.org/2000/svg}text"):
        if word.text and word.text.isdigit():
            columns.setdefault(word.get("x"), []).append((float(word.get("y")), int(word.text)))
    return [([number for _, number in column], min([b - a for (a, _), (b, _) in zip(column, column[1:])], default=99)) for column in columns.values()]


def drawn(file, text):
    """Of an SVG: whether it has the bitmap's pixels, and whether its numbers are those of rows, places and particles and stand clear of each other."""
    n, halves = black(spy.answer(text).encode())
    picture = tree.fromstring(file.read_text())
    pixels = [painted(path.get("d")) for path in picture.iter("{http://www.w3.org/2000/svg}path")] == [(half, True) for half in halves]
    order = [int(word) for word in bench.answer(text).split("\n")[0].split()[1:]]
    columns = numbers_of(picture)
    rows = columns[0][0] if columns else []
    step = rows[1] if len(rows) > 1 else 1
    right = [column for column, _ in columns] == [rows, rows, [order[row] for row in rows]][: 3 * (n > 0)]
    return pixels, right and rows == list(range(0, n, step)) and all(way >= 11 for _, way in columns)


def of_spy():
    texts = benchtexts.texts()
    with tempfile.TemporaryDirectory() as name:
        folder = pathlib.Path(name)
        for name in DRAWN:
            text, file, bits = texts[name], folder / f"{name}.svg", folder / f"{name}.pbm"
            yield f"{name}: the bitmap", run("spy", "--built", text=text) == (0, spy.answer(text).encode(), b"")
            yield f"{name}: the bitmap in a file", run("spy", bits, "--built", text=text) == (0, b"", b"") and bits.read_bytes() == spy.answer(text).encode()
            yield f"{name}: an SVG, and nothing else written", run("spy", "--built", file, text=text) == (0, b"", b"")
            pixels, numbers = drawn(file, text)
            yield f"{name}: the SVG has the bitmap's pixels", pixels
            yield f"{name}: the SVG's numbers are those of rows, places and particles", numbers
        before = {file.name: file.read_bytes() for file in folder.iterdir()}
        for k, (name, why) in enumerate(WHY.items()):
            text, no = texts[name], bench.answer(texts[name]).strip()
            for words in ([], [folder / ("three.svg", "fresh.svg", "fresh.pbm")[k % 3]]):
                yield f"{name}, {len(words)}: refused, on standard error alone", run("spy", "--built", *words, text=text) == (1, b"", f"{no}\n{why}\n".encode())
        yield "refused texts wrote no file and left those that were there", before == {file.name: file.read_bytes() for file in folder.iterdir()}
        yield from png(folder, texts["ring"])


def png(folder, text):
    status, wrote, said = run("spy", "--built", folder / "nowhere/ring.svg", text=text)
    yield "a file in no folder: 2, and a word", (status, wrote) == (2, b"") and b"can't be written" in said
    file = folder / "ring.png"
    if subprocess.run([ROOT / "picture/png", "--at-hand"], stderr=subprocess.DEVNULL).returncode == 0:
        yield "a PNG", run("spy", "--built", file, text=text)[0] == 0 and file.read_bytes().startswith(b"\x89PNG")
        file.unlink()
    (folder / "bare").mkdir()
    status, wrote, said = run("spy", "--built", file, text=text, env=without_tools(folder / "bare"))
    yield "no tool that makes a PNG: 2, a word, and no file", (status, wrote) == (2, b"") and b"is at hand" in said and not file.exists()


def main(script):
    held = [line for part in (asked(script), endless(script), of_bench() if script == "bench" else of_spy()) for line in part]
    for name in (name for name, holds in held if not holds):
        print(f"{script}: not so of ./{script}: {name}")
    print(f"{script}: the script, {len(held)} held, {sum(not holds for _, holds in held)} are not so")
    return any(not holds for _, holds in held)


if sys.argv[1:] not in (["bench"], ["spy"]):
    sys.exit("usage: scripts.py bench | scripts.py spy")
sys.exit(main(sys.argv[1]))
