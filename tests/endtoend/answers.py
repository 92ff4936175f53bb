"""The answer sets of a source by search, and the files examples/kits/NAME.answers.

    python3 tests/endtoend/answers.py            write the files afresh
    python3 tests/endtoend/answers.py --check    compare instead; and the search with brute force;
                                                 prints 'N files, 0 failed'

Plays no part: a solver, a translation, the library. The search goes through the sets of head
literals, literal by literal; it drops a set only if a rule is broken in all that it may become, or
if one of its literals has no rule left to hold it up. Whether a set that is left is an answer set
the reference decides, by document 01's definition.

A file has one set a line, in the text form with the kit's names, ascending as the sets' records.
"""

import argparse
import random
import sys
from pathlib import Path

sys.dont_write_bytecode = True
TESTS = Path(__file__).resolve().parent.parent
sys.path[:0] = [str(TESTS / "reference"), str(TESTS / "solver")]

import sources                                                                  # noqa: E402
from aspda import (YES, answer_sets, defeated, encoded_set, opposite, verdict)  # noqa: E402
from samples import literals_of                                                 # noqa: E402
from text_form import TextError, read_program, set_text                         # noqa: E402

EXAMPLES = TESTS.parent / "examples"
SEED = 1
LEAST_KITS = 10
COMPARED_SOURCES = 120
MOST_LITERALS = 9           # of a source that is compared with trying all sets


# ---------------------------------------------------------------------------------------------
# The search


class Part:
    """A set in the making: what it holds, and what is still open. All else is absent."""

    def __init__(self, present, open_literals):
        self.present = present
        self.open = open_literals

    def with_literal(self, literal):
        return Part(self.present | {literal}, self.open - {literal})

    def without_literal(self, literal):
        return Part(self.present, self.open - {literal})

    def may_hold(self, literal):
        return literal in self.present or literal in self.open

    def is_absent(self, literal):
        return not self.may_hold(literal)


def mark_of(rule, head):
    """The defeat mark that removes the head; None, which no set holds, if the rule is strict."""
    return defeated(rule.tag, head) if rule.is_defeasible() else None


def is_broken(rule, part):
    """Is the rule's remainder broken in every set that the part may become?"""
    if not (part.present.issuperset(rule.positives) and all(map(part.is_absent, rule.nafs))):
        return False
    if any(part.may_hold(head) and mark_of(rule, head) not in part.present for head in rule.heads):
        return False
    return (not rule.is_defeasible()
            or any(part.is_absent(mark_of(rule, head)) for head in rule.heads))


def may_support(rule, literal, part):
    """May the rule be the one that holds up the literal: its body true, its other heads not?"""
    if not all(map(part.may_hold, rule.positives)) or part.present.intersection(rule.nafs):
        return False
    if mark_of(rule, literal) in part.present:
        return False
    others = part.present.intersection(rule.heads) - {literal}
    return not any(part.is_absent(mark_of(rule, other)) for other in others)


def is_possible(rules, part):
    """May the part become an answer set? In a minimal model each literal has a rule of its own."""
    return (not any(opposite(literal) in part.present for literal in part.present)
            and not any(is_broken(rule, part) for rule in rules)
            and all(any(literal in rule.heads and may_support(rule, literal, part)
                        for rule in rules) for literal in part.present))


def settled(rules, part):
    """The part with each literal decided that can go one way only, or None if one goes neither."""
    changed = True
    while changed:
        changed = False
        for literal in sorted(part.open):
            ways = [way for way in (part.without_literal(literal), part.with_literal(literal))
                    if is_possible(rules, way)]
            if not ways:
                return None
            if len(ways) == 1:
                part, changed = ways[0], True
    return part


def searched(rules, part):
    part = settled(rules, part)
    if part is None:
        return
    if part.open:
        literal = min(part.open)
        yield from searched(rules, part.without_literal(literal))
        yield from searched(rules, part.with_literal(literal))
    elif verdict(rules, sorted(part.present))[0] == YES:
        yield part.present


def answer_sets_by_search(rules):
    """The answer sets of a source, ascending as their records. They hold head literals alone."""
    heads = frozenset(head for rule in rules for head in rule.heads)
    part = Part(frozenset(), heads)
    found = searched(rules, part) if is_possible(rules, part) else ()
    return sorted(found, key=encoded_set)


# ---------------------------------------------------------------------------------------------
# The files


def marked_files():
    """M3, with rules and with preference sheets."""
    return [EXAMPLES / "m3.txt", EXAMPLES / "m3_sheets.txt"]


def kit_files():
    """The kits, in order of name."""
    return sorted((EXAMPLES / "kits").glob("*.txt"))


def answers_file(kit):
    return kit.with_suffix(".answers")


def answers_text(program):
    found = answer_sets_by_search(program.rules)
    return "".join(f"{set_text(literals, program.names)}\n" for literals in found)


def compared_with_all_sets():
    """How many random sources the search gets wrong, beside trying all sets."""
    rng = random.Random(f"{SEED} search")
    traits = list(sources.TRAITS.values())
    wrong = 0
    for number in range(COMPARED_SOURCES):
        rules = sources.source_with(rng, traits[number % len(traits)], MOST_LITERALS)
        right = answer_sets(rules, literals_of(rules))
        wrong += answer_sets_by_search(rules) != sorted(right, key=encoded_set)
    print(f"{COMPARED_SOURCES} random sources: search and trying all sets differ in {wrong}")
    return wrong


def main():
    parser = argparse.ArgumentParser(description="the answer sets of the kits of examples/")
    parser.add_argument("--check", action="store_true", help="compare instead")
    options = parser.parse_args()
    kits = marked_files() + kit_files()
    if len(kit_files()) < LEAST_KITS:
        print(f"answers: {len(kit_files())} kits; {LEAST_KITS} are due", file=sys.stderr)
        return 1
    wrong = 0
    for kit in kits:
        try:
            text = answers_text(read_program(kit.read_text(encoding="ascii")))
        except (OSError, TextError) as error:
            print(f"answers: {kit.name}: {error}", file=sys.stderr)
            return 1
        path = answers_file(kit)
        if not options.check:
            path.write_text(text, encoding="ascii")
        elif not path.is_file() or path.read_text(encoding="ascii") != text:
            wrong += 1
            print(f"failed: {path.name} is not what the search finds")
    if options.check:
        print(f"{len(kits)} files, {wrong} failed")
        wrong += compared_with_all_sets()
    return 1 if wrong else 0


if __name__ == "__main__":
    sys.exit(main())
