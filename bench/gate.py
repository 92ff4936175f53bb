"""What the gate's proofs cost: seconds and memory of each crate, seconds of its edits that must be refused.

    python3 bench/gate.py

Runs `rt ci --anew`, which proves every crate and tries every edit from nothing, samples the checker's processes meanwhile,
and prints a line for each crate, then the slowest edits. rt tells no times, so seconds are those in which a process was seen
at work: on the crate itself, or on a copy of it with an edit. Exit status: rt's.
"""

import os
import re
import subprocess
import sys
import threading
import time
from collections import defaultdict
from pathlib import Path

PERIOD = 0.25           # seconds between two samples
SLOWEST = 10            # edits listed

ROOT = Path(__file__).resolve().parent.parent

PROVED = re.compile(r"^rt: (\w+) proved$")
REFUSED = re.compile(r"^rt: must-fail (\w+)/(\w+)\.edit: refused")

# The copies in which rt tries edits, and what it proves of a crate before them.
COPY = "rt-edit-"
ITSELF = None
UNCHANGED = ""


def pairs_of(edit):
    """The texts that an edit exchanges: file, old, new."""
    file = old = None
    for line in edit.read_text(encoding="utf-8").split("\n"):
        if line.startswith("file: "):
            file = line[len("file: "):].strip()
        elif line.startswith("old: "):
            old = line[len("old: "):]
        elif line.startswith("new:"):
            yield file, old, line[len("new:"):].removeprefix(" ")


def stands_in(edit, folder, copy):
    """Whether the copy of the crate's folder is the crate with this edit."""
    texts = {}
    for file, old, new in pairs_of(edit):
        text = texts.get(file) or (folder / file).read_text(encoding="utf-8")
        texts[file] = text.replace(old, new)
    return all((copy / file).read_text(encoding="utf-8") == text for file, text in texts.items())


def edit_in(crate, copy):
    """The name of the edit with which the copy was made, or UNCHANGED."""
    folder = ROOT / "crates" / crate
    found = [edit.stem for edit in folder.glob("must-fail/*.edit") if stands_in(edit, folder, copy)]
    return found[0] if found else UNCHANGED


class Samples(threading.Thread):
    """By samples: the most memory that a check of each crate took, in KiB, and the seconds that each crate, and each edit of one, took."""

    def __init__(self):
        super().__init__(daemon=True)
        self.ended = threading.Event()
        self.most = defaultdict(int)
        self.seconds = defaultdict(float)       # by crate, and edit, UNCHANGED or ITSELF
        self.tried = {}                         # the edit of each copy

    def run(self):
        before = time.monotonic()
        while not self.ended.wait(PERIOD):
            seen = {key for process in Path("/proc").glob("[0-9]*") for key in self.sample(process)}
            now = time.monotonic()
            for key in seen:
                self.seconds[key] += now - before
            before = now

    def sample(self, process):
        """What the process works on, in a list, where it is one of the checker's."""
        try:
            words = (process / "cmdline").read_bytes().split(b"\0")
            if not words[0].endswith(b"/rattle") or b"--crate-name" not in words:
                return []
            crate = words[words.index(b"--crate-name") + 1].decode()
            place = Path(os.readlink(process / "cwd"))
            size = re.search(r"^VmHWM:\s+(\d+)", (process / "status").read_text(), re.M)
            if place.name.startswith(COPY) and place not in self.tried:
                self.tried[place] = edit_in(crate, place)
        except OSError:     # the process ended meanwhile
            return []
        if size:
            self.most[crate] = max(self.most[crate], int(size.group(1)))
        return [(crate, self.tried.get(place, ITSELF))]


def run_gate(lines):
    """rt's exit status; its lines go to the list, and to standard error as they come."""
    with subprocess.Popen(["rt", "ci", "--anew"], cwd=ROOT, stdout=subprocess.PIPE, stderr=subprocess.STDOUT, text=True) as gate:
        for line in gate.stdout:
            lines.append(line.rstrip("\n"))
            if line.startswith("rt: "):
                print(line, end="", file=sys.stderr)
    return gate.returncode


def main():
    samples, lines = Samples(), []
    samples.start()
    status = run_gate(lines)
    samples.ended.set()
    samples.join()
    took = {key: round(seconds) for key, seconds in samples.seconds.items()}
    proved = {found[1]: took.get((found[1], ITSELF), 0) for found in map(PROVED.match, lines) if found}
    edits = [(took.get((found[1], found[2]), 0), found[1], found[2]) for found in map(REFUSED.match, lines) if found]
    edits_of = {crate: sum(seconds for (name, edit), seconds in took.items() if name == crate and edit is not ITSELF) for crate in proved}
    width = max(map(len, ["crate", *proved]))
    print(f"{'crate':<{width}} seconds     MiB   edits   seconds of edits")
    for crate, seconds in proved.items():
        own = sum(edit[1] == crate for edit in edits)
        print(f"{crate:<{width}} {seconds:>7} {samples.most[crate] // 1024:>7} {own:>7} {edits_of[crate]:>18}")
    largest = max(samples.most.values(), default=0) // 1024
    print(f"{'all':<{width}} {sum(proved.values()):>7} {largest:>7} {len(edits):>7} {sum(edits_of.values()):>18}")
    for seconds, crate, edit in sorted(edits, reverse=True)[:SLOWEST]:
        print(f"{seconds:>4} s  {crate}/{edit}")
    return status


if __name__ == "__main__":
    sys.exit(main())
