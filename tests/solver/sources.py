"""Random small sources, each with a named trait or with preference sheets, for the comparison with a
solver.

Sources are drawn freely and kept if they have the trait and few enough literals to try all sets
of them. Atoms and tags are small and alike half of the time, so that a mix-up of the two shows.
"""

import random
from typing import NamedTuple

from aspda import (ATOMS, SOURCE, TAGS, answer_sets, appended_rules, atom, defeasible, defeated,
                   encoded_program, expanded, is_model, negated, opposite, proper_subsets, quotient,
                   read_items, strict, subsets)
from samples import defeat_marks, interleaved, literals_of, random_sheets

MOST_LITERALS = 10
MOST_OPTIONS = 4


# ---------------------------------------------------------------------------------------------
# Drawing


class Words(NamedTuple):
    """The atoms and tags that a source uses."""

    atoms: list
    tags: list


def random_words(rng):
    small = rng.random() < 0.5
    return Words(rng.sample(range(1, 7) if small else ATOMS, rng.randint(2, 4)),
                 rng.sample(range(1, 4) if small else TAGS, rng.randint(1, 2)))


def random_option(rng, words):
    make = negated if rng.random() < 0.2 else atom
    return make(rng.choice(words.atoms))


def random_literals(rng, pick, weights):
    """None, one, two .. literals, by weight."""
    count = rng.choices(range(len(weights)), weights)[0]
    return [pick() for _ in range(count)]


def random_heads(rng, words):
    """Options, for the most part different ones."""
    heads = [random_option(rng, words) for _ in range(rng.randint(1, MOST_OPTIONS))]
    return heads if rng.random() < 0.3 else list(dict.fromkeys(heads))


def random_defeasible_rule(rng, words, literal):
    """Most have no body: then the choice among the options is open."""
    return defeasible(rng.choice(words.tags), random_heads(rng, words),
                      random_literals(rng, literal, (7, 2, 1)),
                      random_literals(rng, literal, (7, 2, 1)))


def random_defeat_rule(rng, marks, options, literal):
    """A strict rule for a defeat mark of the source, mostly following from one of its options."""
    if rng.random() < 0.6:
        return strict([rng.choice(marks)], [rng.choice(options)])
    return strict([rng.choice(marks)], random_literals(rng, literal, (1, 2)),
                  random_literals(rng, literal, (2, 1)))


def random_strict_rule(rng, literal):
    return strict(random_literals(rng, literal, (1, 4, 2)),
                  random_literals(rng, literal, (2, 4, 1)),
                  random_literals(rng, literal, (3, 2)))


def random_source(rng):
    words = random_words(rng)
    choices = [random_defeasible_rule(rng, words, lambda: any_literal(rng, words))
               for _ in range(rng.randint(1, 3))]
    marks = sorted(defeat_marks(choices))
    options = sorted({head for rule in choices for head in rule.heads})

    def literal():
        return rng.choice(marks) if rng.random() < 0.25 else rng.choice(options)

    rules = choices + [random_defeat_rule(rng, marks, options, literal)
                       for _ in range(rng.randint(0, 3))]
    rules += [random_strict_rule(rng, literal) for _ in range(rng.choice((0, 0, 1, 2)))]
    rng.shuffle(rules)
    return rules


def any_literal(rng, words):
    """An option or a defeat mark, whether or not a rule of the source has it."""
    option = random_option(rng, words)
    return defeated(rng.choice(words.tags), option) if rng.random() < 0.25 else option


# ---------------------------------------------------------------------------------------------
# Traits


def choices_of(rules):
    return [rule for rule in rules if rule.is_defeasible()]


def bodies_of(rules):
    return {literal for rule in rules for literal in rule.positives + rule.nafs}


def has_options(count):
    """A rule with so many different options."""
    def trait(rules):
        return any(len(set(rule.heads)) == count for rule in choices_of(rules))
    return trait


def has_repeated_head(rules):
    return any(len(set(rule.heads)) < len(rule.heads) for rule in choices_of(rules))


def has_shared_tag(rules):
    """Two rules with one tag and different heads."""
    heads = {}
    for rule in choices_of(rules):
        heads.setdefault(rule.tag, set()).add(rule.heads)
    return any(len(found) > 1 for found in heads.values())


def has_defeat_in_head(rules):
    """A strict rule that defeats an option of the source."""
    marks = defeat_marks(rules)
    return any(marks.intersection(rule.heads) for rule in rules)


def has_defeat_in_body(rules):
    """A defeat mark in a strict rule's body, and one that may hold."""
    marks = defeat_marks(rules)
    strict_rules = [rule for rule in rules if not rule.is_defeasible()]
    heads = {head for rule in rules for head in rule.heads}
    return bool(bodies_of(strict_rules) & marks & heads)


def has_naf(rules):
    return any(rule.nafs for rule in choices_of(rules))


def has_negation(rules):
    """A choice for an atom and a choice for its explicit negation."""
    options = {head for rule in choices_of(rules) for head in rule.heads}
    return any(opposite(option) in options for option in options)


def has_clash(rules):
    """A minimal model of its own quotient that is no answer set only for its clash."""
    return any(is_clashing(literals) and is_minimal_model(quotient(rules, literals), literals)
               for literals in subsets(literals_of(rules)))


def is_clashing(literals):
    return any(opposite(literal) in literals for literal in literals)


def is_minimal_model(remainders, literals):
    return (is_model(remainders, literals)
            and not any(is_model(remainders, subset) for subset in proper_subsets(literals)))


def has_own_defeat(rules):
    """A defeat mark that follows from a head of its own rule."""
    after = followers(rules)
    return any(defeated(rule.tag, head) in reached(after, rule.heads)
               for rule in choices_of(rules) for head in rule.heads)


def followers(rules):
    """For each literal the heads of the rules that need it.

    A choice needs its positive literals, and, for one option to be left over, the defeat marks of
    the others: the way on which two choices that defeat each other's options come back.
    """
    after = {}
    for rule in rules:
        for needed in rule.positives:
            after.setdefault(needed, set()).update(rule.heads)
        if rule.is_defeasible():
            for head in rule.heads:
                others = set(rule.heads) - {head}
                after.setdefault(defeated(rule.tag, head), set()).update(others)
    return after


def reached(after, starts):
    """Every literal at the end of a way of one step or more from one of the starts."""
    found = set()
    open_ends = list(starts)
    while open_ends:
        new = after.get(open_ends.pop(), set()) - found
        found |= new
        open_ends.extend(new)
    return found


def has_wholly_defeated_rule(rules):
    """An answer set in which every option of some choice is defeated."""
    return any(all(defeated(rule.tag, head) in found for head in rule.heads)
               for found in answer_sets(rules, literals_of(rules)) for rule in choices_of(rules))


def has_several_answer_sets(rules):
    return len(answer_sets(rules, literals_of(rules))) > 1


TRAITS = {
    **{f"options-{count}": has_options(count) for count in range(1, MOST_OPTIONS + 1)},
    "repeated-head": has_repeated_head,
    "shared-tag": has_shared_tag,
    "defeat-in-head": has_defeat_in_head,
    "defeat-in-body": has_defeat_in_body,
    "naf": has_naf,
    "negation": has_negation,
    "clash": has_clash,
    "own-defeat": has_own_defeat,
    "wholly-defeated": has_wholly_defeated_rule,
    "several-answer-sets": has_several_answer_sets,
}


def traits_of(rules):
    return [name for name, trait in TRAITS.items() if trait(rules)]


# ---------------------------------------------------------------------------------------------


def source_with(rng, trait, most=MOST_LITERALS):
    """A random source that has the trait and at most so many literals."""
    while True:
        rules = random_source(rng)
        if len(literals_of(rules)) <= most and trait(rules):
            assert read_items(SOURCE, encoded_program(rules)) == rules
            return rules


SHEETS = "sheets"
SHARE_WITH_SHEETS = 5       # to so many other sources comes one with sheets


def source_with_sheets(rng, most=MOST_LITERALS):
    """A random source whose sheets append rules that matter: without them its answer sets are others."""
    while True:
        words = random_words(rng)
        rules = [random_defeasible_rule(rng, words, lambda: any_literal(rng, words))
                 for _ in range(rng.randint(2, 4))]
        rules += [strict([option]) for option in rng.sample(rules[0].heads, rng.choice((0, 0, 1)))]
        sheets = random_sheets(rng, rules, rng.randint(1, 3), rng.randint(1, 4))
        items = interleaved(rng, rules, sheets)
        literals = literals_of(expanded(items))
        if (appended_rules(items) and len(literals) <= most
                and answer_sets(expanded(items), literals) != answer_sets(rules, literals)):
            assert read_items(SOURCE, encoded_program(items)) == items
            return items


def named_sources(seed, count):
    """So many sources, the traits in turn, each drawn from a seed of its own; more with sheets."""
    names = list(TRAITS)
    for number in range(1, count + 1):
        name = names[(number - 1) % len(names)]
        yield number, name, source_with(random.Random(f"{seed} {number}"), TRAITS[name])
    for number in range(count + 1, count + 1 + count // SHARE_WITH_SHEETS):
        yield number, SHEETS, source_with_sheets(random.Random(f"{seed} {number}"))
