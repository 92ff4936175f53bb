"""The answer sets of a plain program, by clingo, and of a text in aspif, by clasp.

    python3 tests/solver/solve.py FILE          the answer sets, one a line
    python3 tests/solver/solve.py FILE --text   the program as clingo's text

FILE holds a plain program in bytes; - is standard input.

Each literal is an atom of its own name in clingo's text, so that clingo's own explicit negation
plays no part: p3 atom 3, n3 its explicit negation, d7p1 and d7n1 defeated (7, 1) and
(7, negated 1), e7p1 and e7n1 derived, r4 rule-defeated 4. A text in aspif has the same names for
atoms and negated atoms, and none for marks.
"""

import argparse
import json
import re
import shutil
import subprocess
import sys
from pathlib import Path

sys.dont_write_bytecode = True
sys.path.insert(0, str(Path(__file__).resolve().parent.parent / "reference"))

from aspda import (KIND_ATOM, KIND_DEFEATED, KIND_DERIVED, KIND_NEGATED,         # noqa: E402
                   KIND_RULE_DEFEATED, PLAIN, Literal, Refusal, is_negated, negated, read_rules)

# Without these two Debian's clingo is wrong on some disjunctive programs: see traps.py.
SOUND_OPTIONS = ("--no-gamma", "--eq=0")

EXHAUSTED = (20, 30)    # clingo's exit status when it has tried everything: none, or all found
LONGEST_RUN = 60        # seconds


class SolverError(Exception):
    """clingo is not there, or did not go through the whole program."""


# ---------------------------------------------------------------------------------------------
# Names of literals

SIGNS = "pn"                                              # an atom, a negated atom
MARKS = {"": KIND_ATOM, "d": KIND_DEFEATED, "e": KIND_DERIVED}
NAME = re.compile(r"(?:([de])([0-9]+))?([pn])([0-9]+)|r([0-9]+)")


def name_of(literal):
    """A literal's name."""
    if literal.kind == KIND_RULE_DEFEATED:
        return f"r{literal.atom}"
    sign = SIGNS[is_negated(literal)]
    if literal.kind in (KIND_ATOM, KIND_NEGATED):
        return f"{sign}{literal.atom}"
    mark = "d" if literal.kind < KIND_DERIVED else "e"
    return f"{mark}{literal.tag}{sign}{literal.atom}"


def literal_of(name):
    """The literal that has the name."""
    found = NAME.fullmatch(name)
    if not found:
        raise ValueError(f"no literal's name: {name!r}")
    mark, tag, sign, number, rule = found.groups()
    if rule:
        return Literal(KIND_RULE_DEFEATED, 0, int(rule))
    return Literal(MARKS[mark or ""] + SIGNS.index(sign), int(tag or 0), int(number))


def rule_words(rule):
    """A rule of either form in words."""
    head = " or ".join(map(name_of, rule.heads)) or "never"
    body = ", ".join([*map(name_of, rule.positives), *(f"naf {name_of(naf)}" for naf in rule.nafs)])
    kind = f"tag {rule.tag}" if rule.is_defeasible() else "strict"
    return f"{kind}: {head} if {body}" if body else f"{kind}: {head}"


# ---------------------------------------------------------------------------------------------
# clingo's text


def rule_text(heads, positives, nafs, double_nafs=()):
    """One rule. A doubly negated literal must hold without holding up the head."""
    body = [name_of(literal) for literal in positives]
    body += [f"not {name_of(literal)}" for literal in nafs]
    body += [f"not not {name_of(literal)}" for literal in double_nafs]
    head = "; ".join(map(name_of, heads))
    return f"{head} :- {', '.join(body)}.".strip() if body or not heads else f"{head}."


def clash_text(literals):
    """A constraint for each atom that occurs both ways: no interpretation holds the two."""
    both = [literal for literal in sorted(literals)
            if literal.kind == KIND_ATOM and negated(literal.atom) in literals]
    return [rule_text((), (literal, negated(literal.atom)), ()) for literal in both]


def program_text(rules):
    """A plain program as clingo's text."""
    lines = [rule_text(rule.heads, rule.positives, rule.nafs) for rule in rules]
    literals = {literal for rule in rules for part in rule[1:] for literal in part}
    return "".join(f"{line}\n" for line in lines + clash_text(literals))


# ---------------------------------------------------------------------------------------------
# Running clingo


def is_there():
    return shutil.which("clingo") is not None


def clingo(arguments, text=""):
    """The finished run of clingo on a text."""
    if not is_there():
        raise SolverError("clingo is not on the path; on Debian: apt-get install gringo")
    return subprocess.run(["clingo", *arguments], input=text, capture_output=True, text=True,
                          timeout=LONGEST_RUN, check=False)


def version():
    """clingo's version and clasp's, its solving part, as in 'clingo 5.4.1, clasp 3.3.5'."""
    shown = clingo(["--version"]).stdout
    numbers = [re.search(rf"{part} version (\S+)", shown) for part in ("clingo", "libclasp")]
    return ", ".join(f"{part} {found.group(1) if found else 'unknown'}"
                     for part, found in zip(("clingo", "clasp"), numbers))


def enumerated(arguments, text):
    """All answer sets that a run on a text prints, as lists of names."""
    run = clingo(["0", *arguments, "--outf=2", "-"], text)
    if run.returncode not in EXHAUSTED:
        raise SolverError(f"clingo ended with status {run.returncode}: {run.stderr.strip()}")
    return witnesses(run.stdout)


def witnesses(printed):
    """The answer sets in what a run with --outf=2 printed, as lists of names."""
    return [witness["Value"] for witness in json.loads(printed)["Call"][0].get("Witnesses", [])]


def text_answer_sets(text, options=SOUND_OPTIONS):
    """The answer sets of a text, as a set: clingo prints some of them twice."""
    return {frozenset(map(literal_of, names))
            for names in enumerated([*options, "--warn=none"], text)}


def answer_sets(plain, options=SOUND_OPTIONS):
    """The answer sets of a plain program in bytes, as sets of literals."""
    return text_answer_sets(program_text(read_rules(PLAIN, plain)), options)


# ---------------------------------------------------------------------------------------------
# Texts in aspif


def aspif_names(text):
    """The names in a text, with their numbers."""
    lines = (line.split(" ") for line in text.splitlines())
    return {fields[2]: int(fields[4]) for fields in lines if fields[0] == "4"}


def fully_named(text, numbers):
    """The text with a name for each of these literals that has none, so that its number is shown."""
    named = aspif_names(text).values()
    added = [f"4 {len(name_of(literal))} {name_of(literal)} 1 {number}\n"
             for literal, number in numbers.items() if number not in named]
    end = "0\n"
    if not text.endswith(end):
        raise SolverError(f"no text in aspif: its last line is not 0:\n{text}")
    return text[:-len(end)] + "".join(added) + end


def aspif_answer_sets(text, options=SOUND_OPTIONS):
    """The answer sets that clasp prints of a text, as lists of names; some may come twice."""
    return enumerated(["--mode=clasp", *options], text)


def in_order(sets):
    """Sets of literals as ascending lists, themselves ascending: one order for printing."""
    return sorted(sorted(literals) for literals in sets)


# ---------------------------------------------------------------------------------------------


def arguments():
    parser = argparse.ArgumentParser(description="the answer sets of a plain program, by clingo")
    parser.add_argument("file", help="a plain program in bytes; - is standard input")
    parser.add_argument("--text", action="store_true", help="print clingo's text instead")
    return parser.parse_args()


def main():
    options = arguments()
    try:
        plain = sys.stdin.buffer.read() if options.file == "-" else Path(options.file).read_bytes()
        if options.text:
            print(program_text(read_rules(PLAIN, plain)), end="")
            return 0
        for literals in in_order(answer_sets(plain)):
            print(" ".join(map(name_of, literals)))
    except (OSError, Refusal, SolverError, subprocess.TimeoutExpired) as error:
        print(f"solve: {error}", file=sys.stderr)
        return 2
    return 0


if __name__ == "__main__":
    sys.exit(main())
