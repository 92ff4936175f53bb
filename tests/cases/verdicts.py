"""Programs with proposed sets for the check: every verdict, from few literals to the most."""

from typing import NamedTuple

import samples
from aspda import (BRUTE_FORCE_LITERALS, CHECKED_LITERALS, LAST_ATOM, LAST_NUMBERED_RULE, LAST_TAG,
                   PLAIN, SOURCE, answer_sets, atom, defeasible, defeated, derived, negated,
                   rule_defeated, strict)


class Proposal(NamedTuple):
    """A program and a set to check, with the verdict's word where its author states it."""

    name: str
    rules: list
    literals: set
    verdict: str = ""


def stock(form, count):
    """So many literals without opposites, of all the form's kinds, ascending."""
    marks = [defeated(3, atom(number)) for number in (1, 300, LAST_ATOM)]
    marks += [defeated(LAST_TAG, negated(number)) for number in (7, 8)]
    if form is PLAIN:
        marks += [derived(1, atom(9)), derived(2, negated(9)), rule_defeated(1),
                  rule_defeated(LAST_NUMBERED_RULE)]
    marks = marks[:count // 3]
    options = [(negated if number % 4 == 0 else atom)(number)
               for number in range(1, count - len(marks) + 1)]
    return sorted(options + marks)


def chain(form, size):
    """Each literal forces the next; the first is a fact or not."""
    literals = stock(form, size)
    links = [strict([after], [before]) for before, after in zip(literals, literals[1:])]
    fact = strict([literals[0]])
    yield Proposal(f"chain-{size}-with-fact", [fact] + links, set(literals), "yes")
    yield Proposal(f"chain-{size}-backwards", links[::-1] + [fact], set(literals), "yes")
    yield Proposal(f"chain-{size}-without-fact", links, set(literals), "smaller")
    yield Proposal(f"chain-{size}-end-missing", [fact] + links, set(literals[:-1]), "broken")
    yield Proposal(f"chain-{size}-middle-missing", [fact] + links,
                   set(literals) - {literals[size // 2]}, "broken")


def choices(form, size):
    """Pairs of which one is needed: the first smaller model leaves out the first of each."""
    literals = stock(form, size)
    firsts, seconds = literals[:size - 1:2], literals[1::2]
    pairs = [strict(pair) for pair in zip(firsts, seconds)]
    yield Proposal(f"pairs-{size}", pairs, set(literals), "smaller")
    yield Proposal(f"pairs-{size}-chosen", pairs, set(firsts), "yes")
    one_of = strict(literals[:form.heads])
    yield Proposal(f"one-of-{size}", [one_of], set(literals[:1]), "yes")
    ring = [strict([after], [before]) for before, after in zip(literals, literals[1:] + literals)]
    yield Proposal(f"ring-{size}-from-any", ring + [one_of], set(literals), "yes")
    half = size // 2
    rings = ring[:half - 1] + [strict([literals[0]], [literals[half - 1]])]
    yield Proposal(f"half-ring-{size}", rings + [strict(literals[:2])], set(literals), "smaller")


def late_failures(form, size):
    """A model of all rules but one, and clashes at every position."""
    literals = stock(form, size)
    facts = [strict([literal]) for literal in literals]
    never = strict([], literals[:form.positives])
    yield Proposal(f"facts-{size}", facts, set(literals), "yes")
    yield Proposal(f"facts-{size}-and-constraint", facts + [never], set(literals), "broken")
    yield Proposal(f"facts-{size}-and-constraint-not-met",
                   facts + [strict([], [atom(LAST_ATOM - 1)])], set(literals), "yes")
    for literal in literals:
        if literal.kind < 2 and size <= 24:
            both = set(literals[:size - 1]) | {literal, literal._replace(kind=1 - literal.kind)}
            yield Proposal(f"clash-{size}-of-{literal.atom}", facts + [never], both, "clash")


def naf_and_defeat(form):
    """Rules that the set takes out of the quotient, or shortens."""
    one, two, three = atom(1), atom(2), negated(3)
    yield Proposal("naf-removes", [strict([], [], [one]), strict([one])], {one}, "yes")
    yield Proposal("naf-keeps", [strict([], [], [two]), strict([one])], {one}, "broken")
    yield Proposal("even-loop", [strict([one], [], [two]), strict([two], [], [one])], {one}, "yes")
    yield Proposal("even-loop-both", [strict([one], [], [two]), strict([two], [], [one])],
                   {one, two}, "smaller")
    if form is not SOURCE:
        return
    marks = {defeated(7, literal) for literal in (one, two, three)}
    facts = [strict([mark]) for mark in sorted(marks)]
    rule = defeasible(7, [one, two, three, one])
    yield Proposal("all-defeated", [rule] + facts, marks, "yes")
    yield Proposal("other-tag", [rule._replace(tag=8)] + facts, marks, "broken")
    yield Proposal("one-left", [rule, facts[0]], {defeated(7, one), two}, "yes")
    yield Proposal("one-left-not-chosen", [rule, facts[0]], {defeated(7, one), one}, "broken")
    yield Proposal("defeat-not-derived", [rule], {defeated(7, one), two}, "smaller")
    yield Proposal("defeated-first", [rule], {one}, "yes")
    # Minimal among the models of the source rules' own heads would be wrong: only the quotient's.
    yield Proposal("minimal-in-quotient", [rule, strict([defeated(7, one)], [two])],
                   {two, defeated(7, one)}, "yes")
    yield Proposal("strict-heads-stay", [strict([one, two]), strict([defeated(7, one)])],
                   {one, defeated(7, one)}, "yes")


def planted(form, rng, size, rules):
    """Random rules that the full set meets: at a high density few smaller models are left."""
    literals = stock(form, size)
    made = []
    for _ in range(rules):
        picked = rng.sample(literals, 3)
        heads = rng.choice((1, 1, 1, 2, 3))
        made.append(strict(picked[:heads], picked[heads:]))
    return Proposal(f"planted-{size}-literals-{rules}-rules", made, set(literals))


def planted_cases(form, rng):
    for size in (4, 8, 12, 20, 32, 48, CHECKED_LITERALS):
        for density in (1, 2, 3, 4, 6, 8):
            if size * density <= form.rules:
                yield planted(form, rng, size, size * density)


def many_rules(rng):
    """The plain form's largest number of rules, over the most literals that are checked."""
    most, size = PLAIN.rules, CHECKED_LITERALS
    literals = stock(PLAIN, size)
    facts = [strict([rng.choice(literals), rng.choice(literals)]) for _ in range(200)]
    # Not all of them with two positive literals: so many bytes a program of so many rules has not.
    links = [strict([rng.choice(literals)], rng.sample(literals, 2 if number % 4 else 1))
             for number in range(most - 1 - len(facts))]
    yield Proposal(f"rules-{most}-over-{size}", facts + links + [strict()], set(literals), "broken")
    yield Proposal(f"rules-{most - 1}-over-{size}", facts + links, set(literals))
    weak = [strict([literal], [literal]) for literal in literals] * (most // size)
    yield Proposal(f"rules-{most}-that-always-hold", weak, set(literals), "smaller")


def random_proposals(form, rng, count):
    """Random small programs with random sets, and with answer sets where they have some."""
    make = samples.random_source if form is SOURCE else samples.random_plain
    for run in range(count):
        rules = make(rng, samples.Shape(rules=rng.randint(1, 6)))
        literals = samples.literals_of(rules)
        yield Proposal(f"random-{run}", rules, samples.random_subset(rng, literals, 8))
        if len(literals) <= 7:
            for number, found in enumerate(answer_sets(rules, literals)[:3]):
                yield Proposal(f"random-{run}-answer-set-{number}", rules, set(found), "yes")


def proposals(form, rng):
    for size in (2, 3, 5, 12, 17, 40, CHECKED_LITERALS - 1, CHECKED_LITERALS):
        yield from chain(form, size)
        yield from choices(form, size)
        yield from late_failures(form, size)
    yield next(chain(form, BRUTE_FORCE_LITERALS))
    yield from naf_and_defeat(form)
    yield from planted_cases(form, rng)
    yield from random_proposals(form, rng, 150)
    if form is PLAIN:
        yield from many_rules(rng)
