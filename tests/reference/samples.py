"""Programs and sets for tests: the document's marked examples, and random ones.

Random programs draw their literals from few atoms and tags, so that rules and sets meet; the
atoms and tags themselves lie anywhere in their ranges.
"""

from itertools import combinations
from typing import NamedTuple

from aspda import (ATOMS, END_RECORD, LITERAL, NUMBERED_RULES, RULE_HEADER, TAGS, Literal,
                   Opposition, Override, atom, defeasible, defeated, derived, negated, opposite,
                   rule_defeated, strict)


# The programs of M1 to M9; the sets are in the self-test.
M1 = [defeasible(7, [atom(1)])]
M3 = [
    defeasible(1, [atom(1), atom(2), atom(3)]),
    defeasible(2, [atom(4), atom(5)]),
    strict([defeated(2, atom(4))], [atom(1)]),
    strict([defeated(2, atom(5))], [atom(1)]),
    strict([defeated(2, atom(5))], [atom(2)]),
]
# Document 02, ask 2: the same with preference sheets, from which M3's strict rules are made.
M3_SHEETS = M3[:2] + [Override(1, 2), Opposition(atom(1), atom(4)), Opposition(atom(1), atom(5)),
                      Opposition(atom(2), atom(5))]
M4 = [strict([atom(1)]), defeasible(7, [atom(1)], [atom(2)])]
M5 = [defeasible(7, [atom(1)]), defeasible(7, [atom(2)]), strict([defeated(7, atom(1))])]
M6 = [strict([atom(1), atom(2)])]
M8 = [strict()]
M9 = []
# Document 02, ask 1: the plain program whose text it prints.
FACT = [strict([atom(1)])]


class Shape(NamedTuple):
    """How large a random program is: numbers of rules, atoms and tags, and the most literals."""

    rules: int
    atoms: int = 3
    tags: int = 2
    heads: int = 2
    positives: int = 2
    nafs: int = 2


class Vocabulary(NamedTuple):
    """The atoms, tags and rule numbers that a random program uses."""

    atoms: list
    tags: list
    rule_numbers: list


def random_vocabulary(rng, shape):
    return Vocabulary(rng.sample(ATOMS, shape.atoms), rng.sample(TAGS, shape.tags),
                      rng.sample(NUMBERED_RULES, min(len(NUMBERED_RULES), shape.rules + 1)))


def random_option(rng, words):
    """An atom or a negated atom: what the head of a defeasible rule may hold."""
    make = negated if rng.random() < 0.3 else atom
    return make(rng.choice(words.atoms))


def random_source_literal(rng, words):
    option = random_option(rng, words)
    if rng.random() < 0.3:
        return defeated(rng.choice(words.tags), option)
    return option


def random_plain_literal(rng, words):
    pick = rng.random()
    if pick < 0.6:
        return random_source_literal(rng, words)
    if pick < 0.85:
        return derived(rng.choice(words.tags), random_option(rng, words))
    return rule_defeated(rng.choice(words.rule_numbers))


def several(rng, least, most, pick):
    return [pick() for _ in range(rng.randint(least, most))]


def random_strict_rule(rng, shape, literal):
    return strict(several(rng, 0, shape.heads, literal), several(rng, 0, shape.positives, literal),
                  several(rng, 0, shape.nafs, literal))


def random_defeasible_rule(rng, shape, words, literal):
    return defeasible(rng.choice(words.tags),
                      several(rng, 1, shape.heads, lambda: random_option(rng, words)),
                      several(rng, 0, shape.positives, literal),
                      several(rng, 0, shape.nafs, literal))


def random_defeat_rule(rng, shape, marks, literal):
    """A strict rule whose head is the defeat mark of some option of the program."""
    return strict([rng.choice(marks)], several(rng, 0, min(1, shape.positives), literal),
                  several(rng, 0, min(1, shape.nafs), literal))


def random_source(rng, shape, choices=0.5):
    """Rules of which about such a share is defeasible."""
    words = random_vocabulary(rng, shape)

    def literal():
        return random_source_literal(rng, words)

    rules = [random_defeasible_rule(rng, shape, words, literal) if rng.random() < choices
             else random_strict_rule(rng, shape, literal) for _ in range(shape.rules)]
    marks = sorted(defeat_marks(rules))
    for place, rule in enumerate(rules):
        if not rule.is_defeasible() and marks and rng.random() < 0.5:
            rules[place] = random_defeat_rule(rng, shape, marks, literal)
    return rules


def random_override(rng, tags):
    """Of two tags, mostly the program's."""
    if len(tags) > 1 and rng.random() < 0.9:
        return Override(*rng.sample(tags, 2))
    return Override(*rng.sample(TAGS, 2))


def random_opposition(rng, options):
    """Of two options, mostly the program's; now and then of an atom and its own negation."""
    if len(options) > 1 and rng.random() < 0.9:
        one, other = rng.sample(options, 2)
    else:
        one, other = map(atom, rng.sample(ATOMS, 2))
    return Opposition(one, opposite(one) if rng.random() < 0.1 else other)


def random_sheets(rng, rules, overrides, oppositions):
    """So many records of each kind, some of them given before or turned round."""
    marks = sorted(defeat_marks(rules))
    tags = sorted({mark.tag for mark in marks})
    options = sorted({head for rule in rules if rule.is_defeasible() for head in rule.heads})
    made = []
    for count, make, stock in ((overrides, random_override, tags),
                               (oppositions, random_opposition, options)):
        of_kind = []
        for _ in range(count):
            if of_kind and rng.random() < 0.2:
                again = rng.choice(of_kind)
                of_kind.append(type(again)(*again[::rng.choice((1, -1))]))
            else:
                of_kind.append(make(rng, stock))
        made += of_kind
    return rng.sample(made, len(made))


def interleaved(rng, rules, sheets):
    """Rules and sheets' records in one program, each in their order."""
    items = list(rules)
    for place in sorted(rng.sample(range(len(rules) + len(sheets)), len(sheets))):
        items.insert(place, None)
    rest = iter(sheets)
    return [next(rest) if item is None else item for item in items]


def random_items(rng, shape, most):
    """A random source whose sheets have up to so many records of each kind."""
    rules = random_source(rng, shape, choices=0.8)
    return interleaved(rng, rules, random_sheets(rng, rules, rng.randint(0, most),
                                                 rng.randint(0, most)))


def most_appended(form):
    """A source at its limit in every figure, and of all such one with the most appended rules: its
    first tag overrides each of the others, and each rule has each option that opposes another.
    """
    options = [(negated if place % 3 == 0 else atom)(ATOMS[-1 - 7 * place])
               for place in range(form.heads)]
    tags = TAGS[:form.sheets + 1]
    rules = []
    for number in range(form.rules):
        tag, turn = tags[number % len(tags)], number % form.heads
        bodies = [defeated(1 + place, atom(1 + number)) for place in range(form.positives)]
        nafs = [negated(1 + number % 200 + place) for place in range(form.nafs)]
        rules.append(defeasible(tag, options[turn:] + options[:turn], bodies, nafs))
    overrides = [Override(tags[0], tag) for tag in tags[1:]]
    oppositions = [Opposition(*pair) for pair in combinations(options, 2)][:form.sheets]
    half = form.sheets // 2
    return overrides[:half] + rules[:100] + oppositions + rules[100:] + overrides[half:]


def defeat_marks(rules):
    return {defeated(rule.tag, head) for rule in rules if rule.is_defeasible()
            for head in rule.heads}


def random_plain(rng, shape):
    words = random_vocabulary(rng, shape)
    return [random_strict_rule(rng, shape, lambda: random_plain_literal(rng, words))
            for _ in range(shape.rules)]


def literals_of(rules):
    """Every literal that decides what a program's quotients are and whether they hold."""
    found = defeat_marks(rules)
    for rule in rules:
        found.update(rule.heads, rule.positives, rule.nafs)
    return found


def most_literals(form):
    """Rules with as many different literals as a program of the form's length can have.

    They are spread over all literals of the form, the first and the last among them.
    """
    widest = form.heads + form.positives + form.nafs
    rules, left = divmod(form.length - END_RECORD.size, RULE_HEADER.size + LITERAL.size * widest)
    count = rules * widest + max(0, left - RULE_HEADER.size) // LITERAL.size
    stock = list(all_literals(form.kinds))
    chosen = [stock[place * (len(stock) - 1) // (count - 1)] for place in range(count)]
    return dealt(form, chosen)


def dealt(form, literals):
    """Rules that have these literals in order, each as many as its parts take."""
    body = form.heads + form.positives
    widest = body + form.nafs
    parts = [literals[first:first + widest] for first in range(0, len(literals), widest)]
    return [strict(part[:form.heads], part[form.heads:body], part[body:]) for part in parts]


def random_subset(rng, literals, most):
    ordered = sorted(literals)
    return set(rng.sample(ordered, rng.randint(0, min(most, len(ordered)))))


def all_literals(kinds):
    """All literals of the kinds given, ascending: the stock for large sets."""
    for kind in kinds:
        tags = (0,) if kind in (0, 1, 6) else TAGS
        numbers = NUMBERED_RULES if kind == 6 else ATOMS
        for tag in tags:
            for number in numbers:
                yield Literal(kind, tag, number)
