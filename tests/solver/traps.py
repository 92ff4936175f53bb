"""Three traps, as cases that run: a solver's default options, the old product's translation, and what no
option of the solver heals.

    python3 tests/solver/traps.py

Prints what each shows. Exit status 1 if a trap is not as described here. The parts that need
clingo are left out where it is not there; those by brute force always run.

(a) Debian's clingo 5.4.1 (clasp 3.3.5) with its default options loses answer sets of some
    disjunctive programs, translations among them. Seen with heads of six literals and more, and a
    loop through two of them. With --no-gamma --eq=0 it agrees with brute force. It is --no-gamma that
    heals: by itself it agrees as often in all that was tried. --eq=0 leaves out the preprocessing that
    merges equivalent atoms, of which translations are full (a literal and its derivation mark), and at
    times makes clasp print a set twice.

(b) The old product's way is document 000's Theorem 2: a plain rule for each non-empty subset of a
    rule's options. As printed, the defeat marks of the other options stand in the positive body,
    so a defeat that follows from the rule's own choice has to hold itself up, and answer sets are
    lost. With those marks doubly negated it agrees. It gives up above four options, since the
    number of rules doubles with each.

(c) With any options the same clasp loses answer sets where a head reaches into two loops and the part
    in one of them is another rule's head. It is rare: a few in a thousand random programs with loops.
    Every answer set is a supported model, and clasp lists those with --supp-models: the ones that the
    check says yes to are all the answer sets.
"""

import random
import sys
from itertools import product
from pathlib import Path

sys.dont_write_bytecode = True
sys.path.insert(0, str(Path(__file__).resolve().parent.parent / "reference"))

import solve                                                                    # noqa: E402
import sources                                                                  # noqa: E402
from aspda import (YES, answer_sets, aspif_text, atom, defeasible, defeated,    # noqa: E402
                   extension, is_answer_set, numbering, restriction, strict, subsets,
                   translated_rule, translation, verdict)
from samples import literals_of                                                 # noqa: E402

SEED = 1
LOOPED_PROGRAMS = 60
COMPARED_SOURCES = 150
MOST_LITERALS = 8           # of a compared source: the old way's many rules are slow to try
DESCRIBED_VERSION = "clingo 5.4.1, clasp 3.3.5"


class Report:
    """Prints what is shown, and remembers whether all of it was as described."""

    def __init__(self):
        self.told = 0
        self.failed = 0

    def title(self, text):
        print(text)

    def note(self, text):
        print(f"  {text}")

    def expect(self, text, right):
        print(f"  {text}" if right else f"  NOT AS DESCRIBED: {text}")
        self.told += 1
        self.failed += not right


def words(sets):
    """Sets of literals in words."""
    shown = [", ".join(map(solve.name_of, literals)) for literals in solve.in_order(sets)]
    return ", ".join(f"{{{names}}}" for names in shown) or "none"


def by_brute_force(report, plain, source, count):
    """The answer sets of a plain program, and the extended ones of a source made of it: as many."""
    right = set(answer_sets(plain, literals_of(plain)))
    extended = {extension(source, found) for found in answer_sets(source, literals_of(source))}
    report.expect(f"brute force: {len(right)} answer sets, {words(right)}", len(right) == count)
    report.expect(f"as a source with tag 1: {len(extended)}", len(extended) == count)
    return right, extended


# ---------------------------------------------------------------------------------------------
# (a) The solver's default options


def one_loop():
    """1 or 2 or .. or 6; 1 if 2; 2 if 1."""
    six = [atom(number) for number in range(1, 7)]
    return [strict(six), strict([six[0]], [six[1]]), strict([six[1]], [six[0]])]


def random_loops(rng):
    """Wide heads with a loop or two among their literals."""
    atoms = [atom(number) for number in range(1, rng.randint(6, 8) + 1)]
    rules = [strict(rng.sample(atoms, rng.randint(5, len(atoms))))]
    for _ in range(rng.randint(1, 2)):
        first, second = rng.sample(atoms, 2)
        rules += [strict([first], [second]), strict([second], [first])]
    if rng.random() < 0.5:
        rules.append(strict(rng.sample(atoms, 2), rng.sample(atoms, 1), rng.sample(atoms, 1)))
    return rules


def default_options(report):
    report.title("(a) clingo's default options: 1 or 2 or .. or 6; 1 if 2; 2 if 1")
    plain = one_loop()
    source = [defeasible(1, plain[0].heads), *plain[1:]]
    right, extended = by_brute_force(report, plain, source, 5)
    if not solve.is_there():
        report.note("skipped: clingo is not there")
        return
    described = solve.version() == DESCRIBED_VERSION
    report.note(solve.version() if described else
                f"{solve.version()}; what it loses is described of {DESCRIBED_VERSION} only")
    both_options(report, "this program", plain, right, described)
    both_options(report, "the source's translation", translation(source), extended, described)
    random_default_options(report, described)


def both_options(report, name, rules, right, described):
    text = solve.program_text(rules)
    found = solve.text_answer_sets(text, options=())
    report.expect(f"{name}, default options: {len(found)} answer sets, lost {words(right - found)}",
                  not described or (len(found) == 4 and found < right))
    found = solve.text_answer_sets(text)
    report.expect(f"{name}, {' '.join(solve.SOUND_OPTIONS)}: {len(found)} answer sets",
                  found == right)


def random_default_options(report, described):
    rng = random.Random(f"{SEED} loops")
    lost = gained = differ = differ_by_one = 0
    for _ in range(LOOPED_PROGRAMS):
        rules = random_loops(rng)
        right = set(answer_sets(rules, literals_of(rules)))
        text = solve.program_text(rules)
        found = solve.text_answer_sets(text, options=())
        lost += not right <= found
        gained += not found <= right
        differ += solve.text_answer_sets(text) != right
        differ_by_one += solve.text_answer_sets(text, options=("--no-gamma",)) != right
    report.expect(f"{LOOPED_PROGRAMS} random programs with such loops: by default it loses answer "
                  f"sets in {lost} and gains some in {gained}; with those two options it differs "
                  f"in {differ}, with --no-gamma alone in {differ_by_one}",
                  (lost > 0 or not described) and differ == differ_by_one == 0)


# ---------------------------------------------------------------------------------------------
# (b) The old product's translation

OLD_OPTIONS = 4


class TooManyOptions(Exception):
    """A rule with more options than the old translation takes."""


def old_rules(rule, doubly_negated):
    """A rule as plain rules, each with its doubly negated literals.

    One for each non-empty subset of the options: these are left, the others are defeated.
    """
    if not rule.is_defeasible():
        yield rule, frozenset()
        return
    for left in product((False, True), repeat=len(rule.heads)):
        if not any(left):
            continue
        heads = [head for head, is_left in zip(rule.heads, left) if is_left]
        needed = tuple(defeated(rule.tag, head)
                       for head, is_left in zip(rule.heads, left) if not is_left)
        nafs = rule.nafs + tuple(defeated(rule.tag, head) for head in heads)
        positives = rule.positives if doubly_negated else rule.positives + needed
        yield strict(heads, positives, nafs), frozenset(needed if doubly_negated else ())


def old_translation(rules, doubly_negated=False):
    if any(rule.is_defeasible() and len(rule.heads) > OLD_OPTIONS for rule in rules):
        raise TooManyOptions(f"a rule with more than {OLD_OPTIONS} options")
    return [plain for rule in rules for plain in old_rules(rule, doubly_negated)]


def old_answer_sets(plain, literals):
    """By brute force. The quotient leaves a rule whose doubly negated literals all hold."""
    return {found for found in subsets(literals)
            if is_answer_set([rule for rule, double_nafs in plain if double_nafs <= found], found)}


def old_text(plain, literals):
    lines = [solve.rule_text(rule.heads, rule.positives, rule.nafs, sorted(double_nafs))
             for rule, double_nafs in plain]
    return "".join(f"{line}\n" for line in lines + solve.clash_text(literals))


def old_ways(report, rules):
    """The answer sets as printed and doubly negated; clingo's, where it is there, must agree."""
    literals = literals_of(rules)
    ways = []
    for doubly_negated in (False, True):
        plain = old_translation(rules, doubly_negated)
        ways.append(old_answer_sets(plain, literals))
        text = old_text(plain, literals)
        if solve.is_there() and solve.text_answer_sets(text) != ways[-1]:
            report.expect(f"brute force and clingo agree on\n{text}", False)
    return ways


def our_way(rules):
    """The answer sets of our translation, restricted, by clingo."""
    plain = solve.program_text(translation(rules))
    return {restriction(found) for found in solve.text_answer_sets(plain)}


def smallest_case(report):
    a, b = atom(1), atom(2)
    rules = [defeasible(1, [a, b]), strict([defeated(1, a)], [b])]
    report.title("(b) the old translation: tag 1: p1 or p2; strict: d1p1 if p2")
    right = set(answer_sets(rules, literals_of(rules)))
    report.expect(f"by Definitions 13 and 14: {words(right)}",
                  right == {frozenset({a}), frozenset({b, defeated(1, a)})})
    printed, doubly_negated = old_ways(report, rules)
    report.expect(f"Theorem 2 as printed: {words(printed)}", printed == {frozenset({a})})
    report.expect(f"with the marks doubly negated: {words(doubly_negated)}",
                  doubly_negated == right)
    if solve.is_there():
        ours = our_way(rules)
        report.expect(f"ours, restricted: {words(ours)}", ours == right)
    else:
        report.note("skipped: ours by clingo, which is not there")


def compared_sources(own_defeat):
    rng = random.Random(f"{SEED} own-defeat {own_defeat}")

    def trait(rules):
        return (sources.has_own_defeat(rules) == own_defeat and sources.has_defeat_in_head(rules))

    for _ in range(COMPARED_SOURCES):
        rules = sources.source_with(rng, trait, MOST_LITERALS)
        yield rules, set(answer_sets(rules, literals_of(rules)))


def random_sources(report):
    for own_defeat in (False, True):
        lost = gained = repaired = 0
        for rules, right in compared_sources(own_defeat):
            printed, doubly_negated = old_ways(report, rules)
            lost += not right <= printed
            gained += not printed <= right
            repaired += doubly_negated == right
        kind = "some" if own_defeat else "no"
        report.expect(f"{COMPARED_SOURCES} random sources in which {kind} defeat mark follows from "
                      f"a head of its own rule: as printed it loses answer sets in {lost} and "
                      f"gains some in {gained}; doubly negated it agrees in {repaired}",
                      (lost > 0) == own_defeat and gained == 0 and repaired == COMPARED_SOURCES)
    report.note("each solved by clingo, too" if solve.is_there()
                else "skipped: the same by clingo, which is not there")


def numbers_of_rules(report):
    for count, old, ours in ((1, 1, 5), (4, 15, 14), (16, 65_535, 50)):
        rule = defeasible(1, [atom(number) for number in range(1, count + 1)])
        found = sum(1 for _ in old_rules(rule, False)), len(translated_rule(1, rule))
        report.expect(f"options of one rule: {count}; rules: {found[0]:,} old, {found[1]} ours",
                      found == (old, ours))
    try:
        old_translation([defeasible(1, [atom(number) for number in range(1, OLD_OPTIONS + 2)])])
        report.expect("the old translation takes five options", False)
    except TooManyOptions as error:
        report.expect(f"five options: the old translation gives up, {error}", True)


# ---------------------------------------------------------------------------------------------
# (c) What no option heals


def two_loops():
    """1 or 2 or 3 or 4; 1 if 2; 2 if 1; 3 or 4 if 5; 5 if 3; 5 if 4."""
    one, two, three, four, five = (atom(number) for number in range(1, 6))
    return [strict([one, two, three, four]), strict([one], [two]), strict([two], [one]),
            strict([three, four], [five]), strict([five], [three]), strict([five], [four])]


def lost_with_any_options(report):
    report.title("(c) a head in two loops: 1 or 2 or 3 or 4; 1 if 2; 2 if 1; 3 or 4 if 5; 5 if 3; 5 if 4")
    plain = two_loops()
    # Two choices with one tag: their derivation marks meet as the literals do above.
    source = [defeasible(1, rule.heads, rule.positives) if len(rule.heads) > 1 else rule
              for rule in plain]
    right, extended = by_brute_force(report, plain, source, 3)
    if not solve.is_there():
        report.note("skipped: clingo is not there")
        return
    described = solve.version() == DESCRIBED_VERSION
    for name, rules, expected in (("this program", plain, right),
                                  ("the source's translation", translation(source), extended)):
        both_modes_lose(report, name, rules, expected, described)


def both_modes_lose(report, name, rules, right, described):
    """From text and from aspif, with the two options: what is lost, and how it is found again."""
    text = aspif_text(rules).decode("ascii")
    numbers = numbering(rules)

    def from_aspif(options):
        named = solve.aspif_answer_sets(solve.fully_named(text, numbers), options)
        return {frozenset(map(solve.literal_of, names)) for names in named}

    for mode, found in (("text", solve.text_answer_sets(solve.program_text(rules))),
                        ("aspif", from_aspif(solve.SOUND_OPTIONS))):
        report.expect(f"{name}, {mode}, {' '.join(solve.SOUND_OPTIONS)}: {len(found)} answer sets, "
                      f"lost {words(right - found)}", not described or found < right)
    supported = from_aspif((*solve.SOUND_OPTIONS, "--supp-models"))
    checked = {found for found in supported if verdict(rules, sorted(found))[0] == YES}
    report.expect(f"{name}, --supp-models: {len(supported)} sets; the check says yes to "
                  f"{len(checked)}", checked == right)


# ---------------------------------------------------------------------------------------------


def main():
    report = Report()
    for part in (default_options, smallest_case, random_sources, numbers_of_rules,
                 lost_with_any_options):
        before = report.told
        part(report)
        if report.told == before:
            report.expect(f"{part.__name__} shows something", False)
    print(f"traps: {report.failed} not as described" if report.failed
          else f"traps: {report.told} statements as described")
    return 1 if report.failed or not report.told else 0


if __name__ == "__main__":
    sys.exit(main())
