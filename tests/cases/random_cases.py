"""Random calls, as many as asked for: valid ones, ones with a fault, ones with changed bytes."""

import random

import samples
from aspda import CHECKED_LITERALS, SOURCE, answer_sets, expanded
from cases import assembly, programs, suites, verdicts
from cases.literal_sets import literal_set
from cases.operations import Case
from cases.slices import NOTHING


def random_cases(operations, seed, count):
    rng = random.Random(f"{seed} random")
    for number in range(count):
        operation = rng.choice(operations)
        if operation.takes_state:
            yield assembly.random_case(operation, rng)._replace(name=f"random-{number}")
            continue
        make = rng.choices((valid_case, faulty_case, changed_case), (5, 2, 3))[0]
        yield make(operation, rng)._replace(name=f"random-{number}")


def valid_case(operation, rng):
    """A random program and a set that touches it, with enough room or too little."""
    items = random_items(operation.form, rng)
    rules = expanded(items)
    case = Case("", operation)
    if operation.takes_program:
        case = case._replace(program=programs.program(items))
    if operation.takes_set:
        case = case._replace(literals=literal_set(random_set(operation, rng, rules)))
    if operation.group == "check" and rng.random() < 0.2:
        case = planted_case(operation, rng)
    if operation.group == "show":
        case = case._replace(rule=rng.randint(0, len(rules) + 1))
    return with_random_room(case, rng)


def random_items(form, rng):
    most = rng.choices((3, 8, 40, form.rules if form is SOURCE else 600), (40, 40, 10, 1))[0]
    return programs.random_items(form, rng, programs.random_shape(form, rng, rng.randint(0, most)))


def random_set(operation, rng, rules):
    literals = samples.literals_of(rules)
    if operation.group == "check":
        if len(literals) <= 6 and rng.random() < 0.5:
            found = answer_sets(rules, literals)
            if found:
                return rng.choice(found)
        return samples.random_subset(rng, literals, rng.choice((3, 8, 12, CHECKED_LITERALS)))
    return samples.random_subset(rng, literals, operation.set_limit())


def planted_case(operation, rng):
    size = rng.randint(3, CHECKED_LITERALS)
    rules = rng.randint(size, min(4 * size, SOURCE.rules))
    proposal = verdicts.planted(operation.form, rng, size, rules)
    return Case("", operation, programs.program(proposal.rules), literal_set(proposal.literals))


def with_random_room(case, rng):
    if not case.operation.writes:
        return case
    needed = suites.needed_room(case)
    room = rng.choice((needed, needed, needed + rng.randint(1, 50), needed - 1,
                       rng.randint(0, needed)))
    return case._replace(room=room)


def faulty_case(operation, rng):
    return suites.refused_case(operation, rng, rng.choice(operation.refusals))


def changed_case(operation, rng):
    """A valid case with some bytes of its program or its set changed, cut or added."""
    case = suites.ample(valid_case(operation, rng))
    if operation.takes_set and (not operation.takes_program or rng.random() < 0.5):
        return case._replace(literals=changed(case.literals, rng))
    return case._replace(program=changed(case.program, rng))


def changed(given, rng):
    for _ in range(rng.choice((1, 1, 1, 2, 5))):
        pick = rng.random()
        if len(given) == 0 or pick < 0.05:
            given = given + given.part(0, rng.randint(0, 12))
        elif pick < 0.15:
            given = given.cut(rng.randrange(len(given)))
        elif pick < 0.3:
            start = rng.randrange(len(given))
            given = given.cut(start) + given.part(rng.randint(start, len(given)), len(given))
        else:
            at = rng.randrange(len(given))
            given = given.flipped(at, rng.choice((1, 2, 4, 128, rng.randint(1, 255))))
    return given if len(given.pieces) < 200 else NOTHING
