#!/usr/bin/env python3
"""respell.py: turns this repository's own names from camel case and primes to the language's spelling, once, in every crate.

A definition, lemma or field that begins with a small letter is spelled in snake case; a dash still joins two names.
Types and modules keep their capitals, functions of src/ their names, strings stay. Run it at the top of the repository,
right after the kit's port.py.
"""
import os
import re

# Names with a dash that are fields of records or definitions of specs/, and no lemmas.
FIELDS = """begin-silent check-plain check-source clash-text drop-silent fact-text first-line hands-back hands-back-nothing
lose-empty lose-long lose-same low-empty low-long lowers-long lowers-same m1-input m1-output m3-answer-sets m3-literals
means-plain means-source names-said ones-long ones-same others-long plain-no-longer quotient-plain quotient-source
reads-back reads-plain-program reads-plain-set reads-source reads-source-set refused-same room-one room-other says-yes
set-bytes show-plain show-source shows-broken shows-clash shows-smaller source-bytes tells-plain tells-source
translation-bytes translation-rules up-empty up-long win-empty win-long win-same writes-restriction""".split()

# Lemmas that would have their definition's name: they get _lem.
LEMMAS = ["all_new", "both_read", "ended_move", "held_on", "read_byte", "read_number"]

# Letters, digits, primes, and dashes between them: one name of a proof file.
NAME = re.compile(r"(?<![0-9A-Za-z_])[A-Za-z_][\w'′]*(?:-[\w'′]+)*")
HUMP = re.compile(r"([a-z0-9])([A-Z])")


def snake(word):
    if word[:1].isupper():
        return word
    return HUMP.sub(lambda m: m[1] + "_" + m[2].lower(), word)


def spelled(name):
    if name in FIELDS:
        return name.replace("-", "_")
    if name in LEMMAS:
        return name + "_lem"
    return "-".join(snake(part) for part in name.split("-")).replace("′", "'")


def proofs(text):
    return NAME.sub(lambda m: spelled(m[0]), text)


def sources(text):
    """Of a source file what is no string and no name of its code: no name there has a hump behind a small letter."""
    parts = re.split(r'("(?:\\.|[^"\\])*")', text, flags=re.S)
    return "".join(p if p.startswith('"') else re.sub(r"[A-Za-z_][\w']*", lambda m: snake(m[0]), p) for p in parts)


def main():
    for folder, dirs, files in os.walk("crates"):
        dirs[:] = [d for d in dirs if d != "out"]
        for name in files:
            if not name.endswith((".antt", ".rt")):
                continue
            path = os.path.join(folder, name)
            with open(path, encoding="utf-8") as f:
                old = f.read()
            new = proofs(old) if name.endswith(".antt") else sources(old)
            if new != old:
                with open(path, "w", encoding="utf-8") as f:
                    f.write(new)


if __name__ == "__main__":
    main()
