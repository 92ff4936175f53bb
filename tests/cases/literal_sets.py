"""Sets as slices: sizes at the limits, wrong marks and lengths, wrong literals, and their order."""

from functools import lru_cache
from typing import NamedTuple

from aspda import (ATOMS, CHECKED_LITERALS, LAST_ATOM, LAST_NUMBERED_RULE, LAST_TAG, NUMBERED_RULES,
                   PLAIN, SOURCE, TAGS, Literal, atom, defeated, derived, encoded_literals,
                   encoded_set, is_of_form, negated, rule_defeated)
from cases import faults
from cases.operations import ACCEPTED
from cases.slices import Slice, whole

# Few literals, and around each limit of a set.
LIMITS = (CHECKED_LITERALS, SOURCE.set_literals, PLAIN.set_literals)
SIZES = (0, 1, 2, 10, *(limit + step for limit in LIMITS for step in (-1, 0, 1)))


class SetCase(NamedTuple):
    """A set with its refusal as (number, place), ACCEPTED, or None where nobody states it."""

    name: str
    literals: Slice
    stated: object = None


def literal_set(literals):
    return whole(encoded_set(literals))


def raw_set(literals, count=None, mark=b"A:"):
    """A set record as given, in any order."""
    count = len(literals) if count is None else count
    return whole(mark + count.to_bytes(2, "big") + encoded_literals(literals))


@lru_cache(maxsize=None)
def spread(form, size):
    """So many literals, from all over the form's kinds, tags and atoms."""
    picked = set()
    number = 0
    while len(picked) < size:
        kind = form.kinds[number % len(form.kinds)]
        picked.add(numbered_literal(kind, 37 * number))
        number += 1
    return frozenset(picked)


def numbered_literal(kind, number):
    """The literals of a kind in a row, atoms fastest, starting again behind the last."""
    if kind == 6:
        return rule_defeated(NUMBERED_RULES[number % LAST_NUMBERED_RULE])
    tag = TAGS[number // LAST_ATOM % LAST_TAG] if kind >= 2 else 0
    return Literal(kind, tag, ATOMS[number % LAST_ATOM])


@lru_cache(maxsize=None)
def spread_set(form, size):
    return literal_set(spread(form, size))


def few(form):
    """Five literals of different kinds, ascending."""
    if form is SOURCE:
        return [atom(1), atom(LAST_ATOM), negated(256), defeated(7, atom(2)),
                defeated(LAST_TAG, negated(1))]
    return [atom(LAST_ATOM), negated(1), defeated(LAST_TAG, atom(3)), derived(1, atom(256)),
            rule_defeated(LAST_NUMBERED_RULE)]


def neighbours(form, literal):
    """The form's literals that differ from one in a single field, by little or by a whole byte."""
    kind, tag, number = literal
    near = [Literal(other, tag, number) for other in form.kinds]
    near += [Literal(kind, tag + step, number) for step in (-1, 1)]
    near += [Literal(kind, tag, number + step) for step in (-256, -1, 1, 256)]
    return {other for other in near if other != literal and is_of_form(form, other)}


def sizes(form, most):
    for size in SIZES:
        stated = ACCEPTED if size <= most else (12, 0)
        yield SetCase(f"set-of-{size}", spread_set(form, size), stated)


def wrong_records(form, most):
    """The mark wrong, or the length not as counted."""
    good = raw_set(few(form)).data
    for length in range(len(good)):
        yield SetCase(f"set-cut-at-{length}", whole(good).cut(length), (10, 0))
    for mark in (b"A;", b"a:", b"S:", b"D:", b"E:", b"R:", b":A", b"\0\0"):
        yield SetCase(f"set-mark-{mark.hex()}", raw_set(few(form), mark=mark), (10, 0))
        yield SetCase(f"empty-set-mark-{mark.hex()}", raw_set([], mark=mark), (10, 0))
    for count in (0, 4, 6, 256, 5 * 256, 65_535):
        yield SetCase(f"set-of-5-says-{count}", raw_set(few(form), count), (10, 0))
    for tail in (1, 4, 5, 9):
        yield SetCase(f"set-and-{tail}-bytes", whole(good + b"\0" * tail), (10, 0))
        yield SetCase(f"empty-set-and-{tail}-bytes", whole(b"A:\0\0" + b"\0" * tail), (10, 0))
    largest = raw_set(sorted(spread(form, most)), most + 1)
    yield SetCase(f"set-of-{most}-says-{most + 1}", largest, (10, 0))
    too_large = raw_set(sorted(spread(form, most + 1)))
    yield SetCase(f"set-of-{most + 1}-cut", too_large.cut(len(too_large) - 1), (10, 0))


def wrong_literals(form, most):
    """A literal that is not of the form, or not above the one before."""
    good = few(form)
    for name, literal in faults.wrong_literals(form).items():
        for at in (0, 2, 4):
            literals = good[:at] + [literal] + good[at + 1:]
            yield SetCase(f"set-{name}-at-{at + 1}", raw_set(literals), None)
        yield SetCase(f"set-of-{name}", raw_set([literal]), (11, 4))
    for at in range(4):
        equal = good[:at + 1] + [good[at]] + good[at + 2:]
        yield SetCase(f"set-literal-{at + 2}-repeated", raw_set(equal), (11, 4 + 5 * (at + 1)))
        swapped = good[:at] + [good[at + 1], good[at]] + good[at + 2:]
        yield SetCase(f"set-literal-{at + 2}-swapped", raw_set(swapped), (11, 4 + 5 * (at + 1)))
    yield SetCase("set-descending", raw_set(good[::-1]), (11, 9))
    yield SetCase("set-descending-and-wrong", raw_set(good[::-1] + [atom(0)]), (11, 9))
    yield SetCase("set-wrong-and-descending", raw_set([atom(0)] + good[::-1]), (11, 4))
    # Ascending by each field alone but not as byte strings, and the other way round.
    yield SetCase("set-atoms-256-1", raw_set([atom(256), atom(1)]), (11, 9))
    yield SetCase("set-atoms-255-256", raw_set([atom(255), atom(256)]), ACCEPTED)
    yield SetCase("set-tag-before-atom",
                  raw_set([defeated(1, atom(LAST_ATOM)), defeated(2, atom(1))]), ACCEPTED)
    yield SetCase("set-kind-before-tag",
                  raw_set([defeated(LAST_TAG, atom(LAST_ATOM)), defeated(1, negated(1))]), ACCEPTED)
    yield from late_wrong_literals(form, most)


def late_wrong_literals(form, most):
    largest = sorted(spread(form, most))
    for name, last in (("repeated", largest[-2]), ("wrong", Literal(255, 0, 1))):
        yield SetCase(f"set-of-{most}-last-{name}", raw_set(largest[:-1] + [last]),
                      (11, 4 + 5 * (most - 1)))


def two_faults(form, most):
    """10 before 12 before 11."""
    many = sorted(spread(form, most + 1))
    wrong = [Literal(9, 9, 9)]
    yield SetCase("set-too-large-and-wrong-literal", raw_set(wrong + many[1:]), (12, 0))
    yield SetCase("set-too-large-and-descending", raw_set(many[::-1]), (12, 0))
    yield SetCase("set-too-large-and-wrong-mark", raw_set(many, mark=b"S:"), (10, 0))
    yield SetCase("set-too-large-and-short", raw_set(many[:-1], most + 1), (10, 0))
    yield SetCase("set-wrong-literal-and-wrong-mark", raw_set(wrong, mark=b"B:"), (10, 0))
    yield SetCase("set-wrong-literal-and-short", raw_set(wrong, 2), (10, 0))
    yield SetCase("set-wrong-literal-and-long", raw_set(wrong + wrong, 1), (10, 0))


def flips(form, rng):
    good = raw_set(few(form))
    for at in range(len(good)):
        for mask in {1, 2, 128, 255, rng.randint(1, 255)}:
            yield SetCase(f"set-byte-{at}-flipped-by-{mask}", good.flipped(at, mask))


def set_cases(form, most, rng):
    for make in (sizes, wrong_records, wrong_literals, two_faults):
        yield from make(form, most)
    yield from flips(form, rng)


def faulty_set(form, most, rng, number):
    """A set refused with this number."""
    if number == 12:
        return spread_set(form, most + rng.randint(1, 5))
    literals = sorted(rng.sample(sorted(spread(form, 60)), rng.randint(2, 8)))
    good = raw_set(literals)
    if number == 10:
        changed = (good.cut(rng.randrange(len(good))), good + whole(rng.randbytes(3)),
                   raw_set(literals, rng.choice((0, 1, 300))), raw_set(literals, mark=b"E:"))
        return rng.choice(changed)
    at = rng.randrange(len(literals))
    if rng.random() < 0.5:
        literals.insert(at, literals[at])
    else:
        literals[at] = rng.choice(list(faults.wrong_literals(form).values()))
    return raw_set(literals)
