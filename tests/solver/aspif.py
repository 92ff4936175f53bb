"""Texts in aspif, read by clasp: all answer sets of each, compared by number with the program's.

    python3 tests/solver/aspif.py                                       the reference's texts
    python3 tests/solver/aspif.py --aspif target/rust/release/aspda     the command's, byte for byte the reference's
    python3 tests/solver/aspif.py --only-random --count 2000 --seed 7   other random programs

Plain programs of several sorts: the translations of recorded.txt and of the kits of examples/, whose
answer sets are known from their sources; random ones, marks alone, clashes, repeated literals,
literals in bodies alone, wide heads with loops, by trying all sets; the empty program and its like.

The text is put to clasp twice: as it stands, where the names of atoms and negated atoms are shown,
and with a `4` statement for each number that has no name, so that whole sets are compared. A
literal's number is the reference's; the names in the text must say the same.

clasp comes with Debian's package gringo as `clingo --mode=clasp`, and is run with the options of
solve.py. With these it still loses answer sets of a few in a thousand random programs with loops
(traps.py, (c)); the programs of the default run are none of them, and others are told apart by their
supported models. Prints a line for each sort. Exit status 1 on any difference or if a sort shows too
little, 2 if clasp or the command is not there.
"""

import argparse
import random
import subprocess
import sys
from collections import Counter
from pathlib import Path
from typing import NamedTuple

sys.dont_write_bytecode = True
TESTS = Path(__file__).resolve().parent.parent
sys.path[:0] = [str(TESTS / "reference"), str(TESTS / "endtoend")]

import answers                                                                  # noqa: E402
import recorded                                                                 # noqa: E402
import samples                                                                  # noqa: E402
import solve                                                                    # noqa: E402
import traps                                                                    # noqa: E402
from aspda import (PLAIN, YES, answer_sets, aspif_text, atom, defeated, derived,    # noqa: E402
                   encoded_program, extension, is_interpretation, negated, numbering, opposite,
                   read_rules, rule_defeated, strict, translation, verdict)
from samples import literals_of                                                 # noqa: E402
from text_form import TextError, read_program, read_sets                        # noqa: E402

RECORDED = Path(__file__).resolve().parent / "recorded.txt"
DEFAULT_SEED = 1
DEFAULT_COUNT = 40          # random programs of each sort
MOST_LITERALS = 10          # of a program whose sets are all tried
LEAST_PROGRAMS = 300        # the request's figure
LEAST_OF_A_SORT = 5         # programs of a random sort with two answer sets or more
MOST_LOST = 100             # of other random programs, clasp loses sets in one of so many at most
LONGEST_RUN = 60            # seconds


class Difference(Exception):
    """A text, or what clasp finds in it, is not as it should be; in words."""


class Lost(Exception):
    """clasp loses answer sets of a text that says what it should: traps.py, (c)."""


class Case(NamedTuple):
    """A plain program and its answer sets."""

    rules: list
    right: set


# ---------------------------------------------------------------------------------------------
# Programs whose answer sets are known from their sources


def recorded_translations():
    for case in recorded.read_file(RECORDED):
        yield Case(read_rules(PLAIN, case.translation), set(case.translation_sets))


def kits():
    """M3 and the kits: the extensions of the answer sets that a search on the source finds."""
    for path in answers.marked_files() + answers.kit_files():
        program = read_program(path.read_text(encoding="ascii"))
        found = read_sets(answers.answers_file(path).read_text(encoding="ascii"), program.names)
        yield Case(translation(program.rules),
                   {extension(program.rules, literals) for literals in found})


# ---------------------------------------------------------------------------------------------
# Programs whose sets are all tried


def tried(rules):
    return Case(rules, set(answer_sets(rules, literals_of(rules))))


def drawn(make):
    """Programs of a sort, with few enough literals."""
    def cases(rng, count):
        while count > 0:
            rules = make(rng)
            if len(literals_of(rules)) <= MOST_LITERALS:
                count -= 1
                yield tried(rules)
    return cases


def random_rules(rng, literals, rules, heads=(0, 1, 1, 2, 3), bodies=(0, 0, 1, 1, 2)):
    def some(counts):
        return [rng.choice(literals) for _ in range(rng.choice(counts))]

    return [strict(some(heads), some(bodies), some(bodies)) for _ in range(rules)]


def any_plain(rng):
    shape = samples.Shape(rules=rng.randint(1, 7), atoms=rng.randint(1, 3), tags=1, heads=3)
    return samples.random_plain(rng, shape)


def marks_alone(rng):
    option = [atom(rng.randint(1, 500)), negated(rng.randint(1, 500))]
    stock = [make(tag, literal) for make in (defeated, derived) for tag in (1, 200)
             for literal in option] + [rule_defeated(1), rule_defeated(256)]
    return random_rules(rng, rng.sample(stock, 5), rng.randint(2, 7))


def clashes(rng):
    """Atoms both ways, in heads that may hold together."""
    numbers = rng.sample(range(1, 501), 3)
    signed = [make(number) for make in (atom, negated) for number in numbers]
    return random_rules(rng, signed, rng.randint(2, 8), heads=(1, 1, 2, 2), bodies=(0, 0, 0, 1))


def repeated_literals(rng):
    """Each literal as often as three times, one behind the other or apart."""
    def repeated(part):
        again = [literal for literal in part for _ in range(rng.randint(1, 3))]
        rng.shuffle(again)
        return again

    return [strict(*map(repeated, rule[1:])) for rule in any_plain(rng)]


def bodies_alone(rng):
    """Literals that no head has, positive and naf: they have numbers too."""
    held = [atom(2), negated(9), derived(3, atom(2))]
    others = [atom(1), negated(500), defeated(3, atom(9)), rule_defeated(4)]
    return [strict(rng.sample(held, rng.randint(1, 2)),
                   rng.sample(held + others, rng.choice((0, 0, 0, 1))),
                   rng.sample(held + others, rng.choice((0, 1, 1, 2))))
            for _ in range(rng.randint(2, 6))]


SORTS = {
    "any": drawn(any_plain),
    "marks alone": drawn(marks_alone),
    "clashes": drawn(clashes),
    "repeated literals": drawn(repeated_literals),
    "in bodies alone": drawn(bodies_alone),
    "wide heads, loops": drawn(traps.random_loops),
}


def fixed():
    """Programs without literals, with a fact, with one literal and its opposite."""
    one, other = atom(1), negated(1)
    for rules in ([], samples.M8, samples.FACT, [strict()] * 2, samples.M6,
                  [strict([one]), strict([other])], [strict([one, other])], [strict([other], [], [one])],
                  [strict([], [one])], [strict([], [], [one])], [strict([one], [one])],
                  [strict([one], [], [one])]):
        yield tried(rules)


# ---------------------------------------------------------------------------------------------
# Texts


class Writer:
    """Makes texts: the reference's, and where a command is named its own, which must be the same."""

    def __init__(self, command):
        self.command = command

    def text(self, rules):
        text = aspif_text(rules)
        if self.command:
            run = subprocess.run([self.command, "aspif", "-"], input=encoded_program(rules),
                                 capture_output=True, timeout=LONGEST_RUN, check=False)
            if run.returncode != 0:
                raise Difference(f"aspif: status {run.returncode}: {run.stderr.decode().strip()}")
            if run.stdout != text:
                raise Difference(f"the command's text is\n{run.stdout.decode()}")
        return text.decode("ascii")


def by_number(rules, right):
    numbers = numbering(rules)
    return {frozenset(numbers[literal] for literal in literals) for literals in right}


def compare(case, writer):
    """Compares; the answer is whether clasp printed a set twice, which it does now and then."""
    rules, right = case
    text = writer.text(rules)
    numbers = numbering(rules)
    named = {solve.name_of(literal): number for literal, number in numbers.items()
             if opposite(literal)}
    if solve.aspif_names(text) != named:
        raise Difference(f"the names are {solve.aspif_names(text)}, not {named}")
    whole = solve.fully_named(text, numbers)
    number_of = solve.aspif_names(whole)
    found = [frozenset(map(number_of.get, names)) for names in solve.aspif_answer_sets(whole)]
    expected = by_number(rules, right)
    if set(found) != expected:
        told = (f"clasp finds {sorted(map(sorted, found))}, not {sorted(map(sorted, expected))}, "
                f"in\n{text}")
        if set(found) < expected and checked_models(rules, whole) == right:
            raise Lost(told)
        raise Difference(told)
    shown = {frozenset(map(number_of.get, names)) for names in solve.aspif_answer_sets(text)}
    if shown != {literals.intersection(named.values()) for literals in found}:
        raise Difference(f"as it stands clasp shows {sorted(map(sorted, shown))} in\n{text}")
    return len(found) > len(right)


def checked_models(rules, text):
    """The supported models of a text that the reference's check says yes to: all its answer sets."""
    supported = solve.aspif_answer_sets(text, (*solve.SOUND_OPTIONS, "--supp-models"))
    literals = [frozenset(map(solve.literal_of, names)) for names in supported]
    return {found for found in literals if verdict(rules, sorted(found))[0] == YES}


# ---------------------------------------------------------------------------------------------


def run_sort(name, cases, writer):
    """The number of programs and of failures; too few answer sets are a failure of a random sort."""
    tally, failed = Counter(), 0
    for case in cases:
        tally["programs"] += 1
        tally["none" if not case.right else "one" if len(case.right) == 1 else "several"] += 1
        tally["clashing"] += is_clash_decisive(case)
        try:
            tally["twice"] += compare(case, writer)
        except Lost as lost:
            tally["lost"] += 1
            print(f"lost: {name}: {lost}")
        except (Difference, solve.SolverError) as difference:
            failed += 1
            print(f"failed: {name}: {difference}")
    print(f"{name}: {tally['programs']} texts, {failed} failed; answer sets: none {tally['none']}, "
          f"one {tally['one']}, more {tally['several']}; a constraint decides in {tally['clashing']}; "
          f"a set printed twice in {tally['twice']}, lost by clasp in {tally['lost']}")
    return tally, failed


def is_clash_decisive(case):
    """Has the program, its constraints left out, an answer set with a clash? Of small ones only."""
    literals = literals_of(case.rules)
    pairs = [literal for literal in literals if opposite(literal) in literals]
    if not pairs or len(literals) > MOST_LITERALS:
        return False
    # Each literal under another name has no opposite: what is then an answer set may clash.
    renamed = {literal: atom(number) for number, literal in enumerate(sorted(literals), start=1)}
    back = {new: old for old, new in renamed.items()}
    rules = [strict(*(map(renamed.get, part) for part in rule[1:])) for rule in case.rules]
    return any(not is_interpretation(frozenset(map(back.get, found)))
               for found in answer_sets(rules, back))


def run(options):
    writer = Writer(options.aspif)
    sorts = {} if options.only_random else {"fixed": fixed(), "translations": recorded_translations(),
                                            "kits": kits()}
    for name, make in SORTS.items():
        sorts[name] = make(random.Random(f"{options.seed} {name}"), options.count)
    programs = failed = lost = 0
    for name, cases in sorts.items():
        tally, wrong = run_sort(name, cases, writer)
        programs += tally["programs"]
        failed += wrong
        lost += tally["lost"]
        if name in SORTS and options.count >= DEFAULT_COUNT and tally["several"] < LEAST_OF_A_SORT:
            failed += 1
            print(f"failed: {name}: too few programs with several answer sets")
        if name == "clashes" and options.count >= DEFAULT_COUNT and not tally["clashing"]:
            failed += 1
            print(f"failed: {name}: in no program a constraint decides")
    if lost > (programs // MOST_LOST if options.only_random else 0):
        failed += 1
        print(f"failed: clasp loses answer sets in {lost} programs")
    if not options.only_random and programs < LEAST_PROGRAMS:
        failed += 1
        print(f"failed: {programs} programs, {LEAST_PROGRAMS} are due")
    whose = "the command's" if options.aspif else "the reference's"
    print(f"aspif: {programs} texts, {whose}, by {solve.version()}, {failed} failed")
    return 1 if failed or not programs else 0


def arguments():
    parser = argparse.ArgumentParser(description="texts in aspif, read by clasp")
    parser.add_argument("--aspif", metavar="COMMAND", help="the command aspda, whose texts are taken")
    parser.add_argument("--only-random", action="store_true", help="the random sorts alone")
    parser.add_argument("--count", type=int, default=DEFAULT_COUNT, help="programs of each sort")
    parser.add_argument("--seed", type=int, default=DEFAULT_SEED)
    return parser.parse_args()


def main():
    try:
        return run(arguments())
    except (recorded.FormatError, TextError) as error:
        print(f"aspif: {error}", file=sys.stderr)
        return 1
    except (OSError, solve.SolverError, subprocess.TimeoutExpired) as error:
        print(f"aspif: {error}", file=sys.stderr)
        return 2


if __name__ == "__main__":
    sys.exit(main())
