#!/usr/bin/env python3
"""Holds ./prove to what it says of itself, in seconds: over a small repository and a stand-in for `rt` that proves whatever isn't `wrong`."""

import contextlib
import os
import pathlib
import re
import shutil
import signal
import subprocess
import sys
import tempfile
import time

ROOT = pathlib.Path(__file__).resolve().parent.parent
KIT = "a stand-in kit"
CRATES = {"low": "", "left": " low", "right": " low  # beside left", "top": " left right", "caller": " top low", "run": " top"}
# It notes when it starts and ends with a crate, and is as slow as the crate's file says.
PROVER = f"""#!/bin/sh
if [ "$1" = version ]; then echo '{KIT}'; exit 0; fi
name=$(basename "$PWD")
file=$(ls src/lib.rt src/main.rt 2>/dev/null) || [ -n "$file" ] || {{ echo "rt: $name has neither src/lib.rt nor src/main.rt"; exit 1; }}
echo "start $name" >>"$NOTES"
sleep "$(sed -n 's/slow //p' "$file" | grep . || echo 0.02)"
echo "end $name" >>"$NOTES"
if grep -q wrong "$file"; then echo "$file: error: wrong"; echo logic=not-proved; exit 1; fi
mkdir -p out
case $1 in run) : >"out/$name" ;; lib) : >"out/lib$name.a" ;; esac
echo logic=proved
"""
TOOLS = "awk basename cat chmod chown cmp cp cut date dirname env find flock grep head id ln ls mkdir mkfifo mktemp mv nproc readlink rm sed setpriv".split()
TOOLS += "setsid sh sha256sum sleep sort tr uname wc".split()


def heeding():
    """Where Ctrl-C is ignored, as in the background, a shell can't heed it again: what is started here does."""
    signal.signal(signal.SIGINT, signal.SIG_DFL)


def executable(file, text):
    file.parent.mkdir(parents=True, exist_ok=True)
    file.write_text(text)
    file.chmod(0o755)


class Small:
    """The small repository and its tools; `rt` is among them unless it's said to be missing."""

    def __init__(self, folder, rt=True):
        self.folder, self.at = folder, folder / "repository"
        folder.chmod(0o755)
        for name in ("tools", "temporary"):
            (folder / name).mkdir(parents=True)
        self.at.mkdir()
        for name in TOOLS:
            if shutil.which(name):
                (folder / "tools" / name).symlink_to(shutil.which(name))
        if rt:
            executable(folder / "tools/rt", PROVER)
        shutil.copy(ROOT / "prove", self.at)
        (self.at / "KIT").write_text(KIT + "\n")
        (self.at / "crates.txt").write_text("".join(f"{name}:{deps}\n" for name, deps in CRATES.items()))
        for name in CRATES:
            self.write(name, "")
        self.notes = folder / "notes"
        self.env = {"PATH": str(folder / "tools"), "NOTES": str(self.notes), "TMPDIR": str(folder / "temporary"), "RT_JOBS": "2"}

    def write(self, name, text):
        file = self.at / "crates" / name / "src" / ("main.rt" if name == "run" else "lib.rt")
        file.parent.mkdir(parents=True, exist_ok=True)
        file.write_text(text + "\n")

    def start(self, *words):
        self.notes.write_text("")
        more = dict(stdin=subprocess.DEVNULL, stdout=subprocess.PIPE, stderr=subprocess.PIPE, text=True, start_new_session=True, preexec_fn=heeding)
        return subprocess.Popen(words, cwd=self.at, env=self.env, **more)

    def ran(self, *words):
        run = self.start(*words)
        wrote, said = run.communicate(timeout=200)
        return run.returncode, wrote, said

    def started(self):
        return [line.split()[1] for line in self.notes.read_text().splitlines() if line.startswith("start")]

    def left(self):
        """What is left behind, once what was ended had time to end: processes of this repository, temporary files."""
        for _ in range(100):
            found = self.running() + os.listdir(self.folder / "temporary")
            if not found:
                break
            time.sleep(0.1)
        return found

    def running(self):
        mine = str(self.folder).encode()
        files = [pathlib.Path("/proc") / pid / "cmdline" for pid in os.listdir("/proc") if pid.isdigit()]
        running = []
        for file in files:
            with contextlib.suppress(OSError):
                running += [file.read_bytes()] * (mine in file.read_bytes())
        return running


@contextlib.contextmanager
def small(**words):
    with tempfile.TemporaryDirectory() as folder:
        yield Small(pathlib.Path(folder), **words)


def numbered(said, verb):
    return re.findall(rf"^{verb} (\d) of (\d): (\w+)", said, re.M)


def from_nothing():
    with small() as it:
        it.write("left", "slow 3")
        it.write("right", "slow 3")
        status, wrote, said = it.ran("./prove", "run")
        yield "from nothing: 0, nothing on standard output", (status, wrote) == (0, "")
        numbers = [int(number) for number, _, _ in numbered(said, "proving")]
        yield "each crate is announced once, in order", numbers == [1, 2, 3, 4, 5] and "5 of 5 are to be proved" in said
        yield "each crate is told as proved", sorted(numbered(said, "proved")) == sorted(numbered(said, "proving"))
        yield "each is proved once, after what it depends on", it.started() in (["low", *two, "top", "run"] for two in (["left", "right"], ["right", "left"]))
        notes = it.notes.read_text()
        yield "two at a time", bool(re.search(r"start (left|right)\nstart", notes)) and "end top\nstart run" in notes
        yield "again: nothing is said, nothing proved", it.ran("./prove", "run") == (0, "", "") and not it.started()
        yield "the program is built", (it.at / "target/bin/run").exists()
        it.write("right", "other")
        status, _, said = it.ran("./prove", "run")
        yield "beside a changed crate: what is proved already is said", status == 0 and said.startswith("2 of 5 are proved already\n3 of 5 are")
        yield "and nothing else is proved", it.started() == ["right", "top", "run"]
        yield "nothing is left behind", not it.left()


def refused():
    with small() as it:
        it.write("left", "wrong")
        it.write("right", "slow 300")
        began = time.time()
        status, wrote, said = it.ran("./prove", "run")
        words = "NOT PROVED: left" in said and "\nsrc/lib.rt: error: wrong" in said
        yield "what isn't proved: 1, and rt's words", (status, wrote, words) == (1, "", True)
        yield "nothing above it is tried, and what ran beside it is ended", "top" not in it.started() and time.time() - began < 100 and not it.left()
        status, _, said = it.ran("./prove", "nobody")
        yield "a crate that isn't there: 2, and its name", status == 2 and "doesn't list all of: nobody" in said
        it.write("low", "wrong")
        (it.at / "crates/low/src/lib.rt").rename(it.at / "crates/low/src/other.rt")
        status, _, said = it.ran("./prove", "low")
        yield "a crate without a root: rt's words", status == 1 and "neither src/lib.rt nor src/main.rt" in said


def kits():
    with small() as it:
        (it.at / "KIT").write_text("the kit of the proofs\n")
        status, _, said = it.ran("./prove", "low")
        yield "another kit: a word that names both", '"the kit of the proofs"' in said and f'"{KIT}"' in said
        yield "and it goes on", status == 0 and it.started() == ["low"]
        yield "the same by --kit, and nothing proved", it.ran("./prove", "--kit")[0] == 0 and not it.started()
        yield "no names: 2", it.ran("./prove")[0] == 2
    with small(rt=False) as it:
        status, wrote, said = it.ran("./prove", "low")
        yield "no rt: 2, and one sentence", (status, wrote, said.count("\n")) == (2, "", 1) and said.startswith("rt is missing")


def archives():
    with small() as it:
        status, wrote, said = it.ran("./prove", "--archives", "target/staticlib", "caller")
        once = sorted(it.started()) == ["caller", "left", "low", "right", "top"]
        yield "an archive: what is below is proved once, and the caller by its archive", (status, wrote, once) == (0, "", True)
        yield "and it is said", "archive 1 of 1: caller\narchive 1 of 1 is made: caller" in said and "all 4 are proved" in said
        yield "and it is there", (it.at / "target/staticlib/libcaller.a").exists() and not (it.at / "target/stamp/caller").exists()


def ended():
    for sent, status in ((signal.SIGINT, 130), (signal.SIGTERM, 143)):
        with small() as it:
            it.write("left", "slow 300")
            it.write("right", "slow 300")
            run = it.start("./prove", "run")
            while run.poll() is None and not {"left", "right"} <= set(it.started()):
                time.sleep(0.02)
            began = time.time()
            os.killpg(run.pid, sent)
            run.communicate(timeout=120)
            yield f"ended by signal {sent:d}: soon, and nothing goes on", run.returncode == status and time.time() - began < 100 and not it.left()


def twice():
    with small() as it:
        it.write("low", "slow 3")
        first, second = it.start("./prove", "top"), it.start("./prove", "run")
        said = first.communicate(timeout=200)[1] + second.communicate(timeout=200)[1]
        once = sorted(it.started()) == ["left", "low", "right", "run", "top"]
        yield "two runs at once: one waits, and nothing is proved twice", "waiting for it" in said and once


def main():
    parts = [from_nothing, refused, kits, archives, ended] + [twice] * bool(shutil.which("flock"))
    held = [line for part in parts for line in part()]
    for name in (name for name, holds in held if not holds):
        print(f"prove: not so: {name}")
    print(f"prove: {len(held)} held, {sum(not holds for _, holds in held)} are not so")
    return any(not holds for _, holds in held)


if __name__ == "__main__":
    sys.exit(main())
