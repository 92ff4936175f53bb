"""The format of recorded.txt: cases as plain text, one block each.

    case 12 own-defeat
    source 443A...
    source-set p1
    source-set p2 d1p1
    translation 533A...
    translation-set p1 e1p1
    translation-set p2 d1p1 e1p2

Programs are in hexadecimal, sets by the names of solve.py; a set line without names is the empty
set. Blocks are parted by an empty line. Lines that start with # are remarks.
"""

from typing import NamedTuple

from solve import in_order, literal_of, name_of


class Case(NamedTuple):
    """A source and its translation in bytes, each with its answer sets."""

    name: str
    source: bytes
    source_sets: list
    translation: bytes
    translation_sets: list


class FormatError(Exception):
    """A line that is not of the format."""


def set_line(key, literals):
    return " ".join([key, *map(name_of, literals)])


def case_text(case):
    lines = [f"case {case.name}", f"source {case.source.hex().upper()}"]
    lines += [set_line("source-set", literals) for literals in in_order(case.source_sets)]
    lines += [f"translation {case.translation.hex().upper()}"]
    lines += [set_line("translation-set", literals) for literals in in_order(case.translation_sets)]
    return "".join(f"{line}\n" for line in lines)


def file_text(remarks, cases):
    head = "".join(f"# {remark}\n" for remark in remarks)
    return "\n".join([head, *map(case_text, cases)])


def blocks(text):
    """The blocks of a file, without remarks."""
    lines = [line for line in text.splitlines() if not line.startswith("#")]
    found = "\n".join(lines).split("\n\n")
    return [block.strip("\n") for block in found if block.strip()]


def read_case(block):
    """The case of a block."""
    try:
        return case_of([line.partition(" ") for line in block.split("\n")])
    except ValueError as error:
        raise FormatError(f"recorded: {error} in the block\n{block}") from None


def case_of(lines):
    single, sets = {}, {"source-set": [], "translation-set": []}
    for key, _, rest in lines:
        if key in sets:
            sets[key].append(frozenset(map(literal_of, rest.split())))
        elif key in ("case", "source", "translation") and key not in single:
            single[key] = rest
        else:
            raise ValueError(f"unexpected line {key!r}")
    if len(single) != 3:
        raise ValueError("a line is missing")
    return Case(single["case"], bytes.fromhex(single["source"]), sets["source-set"],
                bytes.fromhex(single["translation"]), sets["translation-set"])


def read_file(path):
    return [read_case(block) for block in blocks(path.read_text(encoding="ascii"))]
