"""Programs at the limits, cut, flipped and miscounted, and random ones from tiny to limit size."""

from functools import lru_cache

import samples
from aspda import (ATOMS, END_RECORD, LAST_ATOM, LAST_NUMBERED_RULE, LAST_TAG, LITERAL,
                   NUMBERED_RULES, PLAIN, RULE_HEADER, SOURCE, TAGS, Literal, Opposition, Override,
                   Rule, atom, defeasible, defeated, derived, encoded_program, expanded, negated,
                   read, rule_defeated, strict, translation)
from cases import faults, sheets
from cases.faults import ProgramCase, encoded_rules, end_record
from cases.operations import ACCEPTED
from cases.slices import NOTHING, whole

# Reading a program above this length takes the reference long: such cases feed few operations.
HEAVY = 12_000


def program(items):
    return whole(encoded_program(items))


def rule_size(literals):
    """The length of a rule's record with so many literals."""
    return RULE_HEADER.size + LITERAL.size * literals


def is_heavy(form, case):
    return HEAVY < len(case.program) <= form.length


# ---------------------------------------------------------------------------------------------
# Sample programs: small ones with every kind of record and literal, and the longest ones


def mixed_source():
    return [
        defeasible(LAST_TAG, [atom(1), negated(LAST_ATOM), atom(1)], [defeated(1, negated(7))],
                   [atom(256)]),
        strict(),
        strict([defeated(LAST_TAG, atom(1)), negated(3)], [],
               [defeated(LAST_TAG, negated(LAST_ATOM)), negated(1)]),
        defeasible(1, [negated(7)]),
        strict([], [atom(LAST_ATOM), negated(256)]),
    ]


def mixed_plain():
    return [
        strict([derived(LAST_TAG, atom(1)), rule_defeated(LAST_NUMBERED_RULE)],
               [derived(1, negated(LAST_ATOM))],
               [rule_defeated(1), defeated(7, atom(256))]),
        strict(),
        strict([atom(LAST_ATOM)], [negated(1), rule_defeated(200)],
               [derived(LAST_TAG, negated(256))]),
        strict([], [defeated(1, negated(1))]),
    ]


def mixed_sheets():
    """Rules and sheets by turns, some of which append a rule."""
    rules = mixed_source()
    return [Override(LAST_TAG, 1), rules[0], Opposition(atom(1), negated(7)), *rules[1:3],
            Override(1, LAST_TAG), Opposition(negated(LAST_ATOM), atom(LAST_ATOM)), *rules[3:]]


def wide_rule(form):
    """One rule with every count at its limit and no literal twice."""
    options = [(negated if place % 3 == 0 else atom)(240 + place) for place in range(form.heads)]
    bodies = [defeated(1 + place, atom(256)) for place in range(form.positives)]
    if form is SOURCE:
        return [defeasible(LAST_TAG, options, bodies, list(map(negated, ATOMS[-form.nafs:])))]
    nafs = [derived(tag, negated(LAST_ATOM)) for tag in TAGS[-form.nafs:]]
    return [strict(options, bodies, nafs)]


def small_samples(form):
    """Programs that are cut and changed at each byte."""
    if form is SOURCE:
        return {"m1": program(samples.M1), "m3": program(samples.M3),
                "mixed": program(mixed_source()), "m3-sheets": program(samples.M3_SHEETS),
                "sheets": program(mixed_sheets())}
    return {"m1": program(translation(samples.M1)), "m3": program(translation(samples.M3)),
            "mixed": program(mixed_plain())}


def longest_source_rules():
    """All rules, with every count at its limit; each tag with each head only once."""
    rules = []
    for number in range(SOURCE.rules):
        options = [(negated if (number + place) % 3 == 0 else atom)(
                       ATOMS[(31 * number + place) % LAST_ATOM]) for place in range(SOURCE.heads)]
        bodies = [defeated(1 + place, atom(1 + number)) for place in range(SOURCE.positives)]
        nafs = [atom(last) for last in ATOMS[-SOURCE.nafs:]]
        rules.append(defeasible(TAGS[number % LAST_TAG], options, bodies, nafs))
    return rules


def longest_source_items():
    """The longest rules with as many sheets' records as there are: few of these append rules."""
    rules = longest_source_rules()
    most = SOURCE.sheets
    options = [rule.heads[number % SOURCE.heads] for number, rule in enumerate(rules)]
    overrides = [Override(rules[number].tag, rules[number + 1].tag) for number in range(most)]
    oppositions = [Opposition(options[number], options[-1 - number]) for number in range(most)]
    return overrides[:9] + rules[:-2] + oppositions + overrides[9:] + rules[-2:]


def longest_plain_rules():
    """As long as the longest translation, with few rules: every count at its limit, but one naf
    literal fewer in all but the first rules."""
    literals = list(samples.all_literals((0, 1, 6)))
    body = PLAIN.heads + PLAIN.positives
    most = body + PLAIN.nafs
    length = PLAIN.length - END_RECORD.size
    count = length // rule_size(most - 1)
    while (length - count * rule_size(most - 1)) % LITERAL.size:
        count -= 1
    full = (length - count * rule_size(most - 1)) // LITERAL.size
    rules = []
    for number in range(count):
        picked = [literals[(7 * number + 13 * place) % len(literals)] for place in range(most)]
        nafs = picked[body:] if number < full else picked[body:-1]
        rules.append(strict(picked[:PLAIN.heads], picked[PLAIN.heads:body], nafs))
    return rules


@lru_cache(maxsize=None)
def longest(form):
    """The programs of exactly the form's largest length."""
    most = samples.most_appended(SOURCE)
    if form is SOURCE:
        return {"longest": program(longest_source_items()), "longest-appended": program(most)}
    return {"longest-translation": program(translation(expanded(most))),
            "longest-wide": program(longest_plain_rules())}


# ---------------------------------------------------------------------------------------------
# Limits


def one_rule(name, rule, stated=ACCEPTED):
    return ProgramCase(name, program([rule]), stated)


def rule_counts(form):
    for count in (0, 1, 2, 255, SOURCE.rules, form.rules):
        yield ProgramCase(f"rules-{count}", program([strict()] * count), ACCEPTED)
    full = program([strict()] * (form.rules + 1))
    place = 7 * form.rules
    yield ProgramCase(f"rules-{form.rules + 1}", full, (4, place))
    # With all rules held, the next record decides: its mark and header still come before 4.
    for length, number in ((place + 7, 4), (place + 6, 2), (place + 1, 2)):
        yield ProgramCase(f"rules-{form.rules + 1}-cut-at-{length}", full.cut(length),
                          (number, place))
    yield ProgramCase(f"rules-{form.rules}-end-says-{form.rules + 1}",
                      full.cut(place) + whole(end_record(form.rules + 1)), (8, place))


def literal_counts(form):
    one = [atom(1)]
    limits = (form.heads, form.positives, form.nafs)
    for place, name in enumerate(("heads", "positives", "nafs")):
        for count in (0, 1, limits[place], limits[place] + 1, 255):
            parts = [[], [], []]
            parts[place] = one * count
            stated = ACCEPTED if count <= limits[place] else (4, 0)
            yield one_rule(f"{name}-{count}", strict(*parts), stated)
            if form is SOURCE:
                parts[0] = parts[0] or one
                yield one_rule(f"defeasible-{name}-{count}", defeasible(7, *parts), stated)
    full = [one * limit for limit in limits]
    yield one_rule("all-counts-at-limit", strict(*full))


def number_limits(form):
    """Atoms, tags and rule numbers at their limits, in every kind and place."""
    for kind in range(0, 8):
        wrong_kind = kind not in form.kinds
        is_mark, is_rule = kind in (2, 3, 4, 5), kind == 6
        for number in (0, 1, LAST_NUMBERED_RULE, LAST_NUMBERED_RULE + 1, LAST_ATOM, LAST_ATOM + 1,
                       65_535):
            fits = number in (NUMBERED_RULES if is_rule else ATOMS) and not wrong_kind
            yield from in_places(form, f"kind-{kind}-atom-{number}",
                                 Literal(kind, 7 if is_mark else 0, number), fits)
        for tag in (0, 1, LAST_TAG, LAST_TAG + 1, 256, 65_535):
            fits = (tag in TAGS if is_mark else tag == 0) and not wrong_kind
            yield from in_places(form, f"kind-{kind}-tag-{tag}", Literal(kind, tag, 1), fits)


def in_places(form, name, literal, fits):
    """A rule with the literal as its only one, in each place."""
    stated = ACCEPTED if fits else (5, 7)
    yield one_rule(f"{name}-head", strict([literal]), stated)
    yield one_rule(f"{name}-positive", strict([], [literal]), stated)
    yield one_rule(f"{name}-naf", strict([], [], [literal]), stated)
    if form is SOURCE:
        option = ACCEPTED if literal.kind < 2 else (7, 0)
        yield one_rule(f"{name}-option", defeasible(7, [literal]), option if fits else stated)


def rule_tags(form):
    record = bytearray(encoded_program([strict()]))
    for tag in (0, 1, LAST_TAG, LAST_TAG + 1, 256, 65_535):
        record[2:4] = tag.to_bytes(2, "big")
        yield ProgramCase(f"strict-tag-{tag}", whole(bytes(record)),
                          ACCEPTED if tag == 0 else (6, 0))
    if form is SOURCE:
        record = bytearray(encoded_program([defeasible(1, [atom(1)])]))
        for tag in (0, 1, 2, LAST_TAG - 1, LAST_TAG, LAST_TAG + 1, 256, 65_535):
            record[2:4] = tag.to_bytes(2, "big")
            yield ProgramCase(f"defeasible-tag-{tag}", whole(bytes(record)),
                              ACCEPTED if tag in TAGS else (6, 0))


def lengths(form):
    """The longest programs, and slices that are too long whatever they hold."""
    for name, exact in longest(form).items():
        yield ProgramCase(f"{name}-{len(exact)}", exact, ACCEPTED)
        yield ProgramCase(f"{name}-{len(exact) - 1}", exact.cut(len(exact) - 1),
                          (2, len(exact) - 4))
        yield from too_long(form, name, exact)


def too_long(form, name, exact):
    """Refused as 1 before anything else is looked at."""
    assert len(exact) == form.length
    for tail in (b"\0", b"S", b"E:", end_record(0), b"\xff" * 40, encoded_rules(3)):
        yield ProgramCase(f"{name}-{form.length + len(tail)}", exact + whole(tail), (1, 0))
    for at, new in ((0, b"Y:"), (2, b"\xff\xff"), (4, b"\xff\xff\xff"), (7, b"\x09")):
        yield ProgramCase(f"{name}-{form.length + 1}-wrong-at-{at}",
                          exact.patched(at, new) + whole(b"\0"), (1, 0))
    for rest in (0, 1, 5, form.length - 1):
        yield ProgramCase(f"{name}-doubled-less-{rest}",
                          exact + exact.cut(form.length - rest), (1, 0))


def limit_cases(form):
    for make in (rule_counts, literal_counts, number_limits, rule_tags, lengths):
        yield from make(form)


# ---------------------------------------------------------------------------------------------
# Cut, flipped, miscounted


def starts(form, data):
    """The offsets of a program's records, the end record's too."""
    records = read(form, data)
    return [record.start for record in records] + [len(data) - 4]


def truncations(form):
    """Each proper prefix of a program is cut in the record that it stops in."""
    for name, sample in small_samples(form).items():
        offsets = starts(form, sample.data)
        for length in range(len(sample)):
            place = max(start for start in offsets if start <= length)
            yield ProgramCase(f"{name}-cut-at-{length}", sample.cut(length), (2, place))


def long_truncations(form):
    """Cuts of the longest programs, early and late."""
    for name, sample in longest(form).items():
        size = len(sample)
        late = range(size - 12, size) if form is SOURCE else (size - 5, size - 2)
        for length in (*range(0, 12), 254, 255, size // 5, *late):
            yield ProgramCase(f"{name}-cut-at-{length}", sample.cut(length))


def flips(form, rng):
    """Each byte of the small samples changed in several ways."""
    for name, sample in small_samples(form).items():
        for at in range(len(sample)):
            for mask in {1, 128, 255, rng.randint(1, 255)}:
                yield ProgramCase(f"{name}-byte-{at}-flipped-by-{mask}", sample.flipped(at, mask))


def all_flips(form):
    """Every other value at each byte of the smallest sample."""
    sample = small_samples(form)["m1"].data
    for at in range(16):
        for mask in range(1, 256):
            yield ProgramCase(f"m1-byte-{at}-flipped-by-{mask}", whole(sample).flipped(at, mask))


def long_flips(form, rng, count):
    """Single bytes of the longest programs changed."""
    for name, sample in longest(form).items():
        for _ in range(count):
            at = rng.randrange(len(sample))
            yield ProgramCase(f"{name}-byte-{at}-flipped", sample.flipped(at, rng.randint(1, 255)))


def wrong_counts(form):
    """Each count field of the small samples set to other values."""
    for name, sample in small_samples(form).items():
        rules = [record for record in read(form, sample.data) if isinstance(record.item, Rule)]
        for number, (start, _, _) in enumerate(rules, start=1):
            for at in (start + 4, start + 5, start + 6):
                count = sample.data[at]
                beyond = {PLAIN.heads, PLAIN.nafs, PLAIN.nafs + 1, 255}
                for other in {0, count + 1, max(count - 1, 0), *beyond} - {count}:
                    yield ProgramCase(f"{name}-rule-{number}-count-{at - start}-is-{other}",
                                      sample.patched(at, bytes((other,))))
        for other in (0, 1, 255, SOURCE.rules, PLAIN.rules, 65_535):
            yield ProgramCase(f"{name}-end-says-{other}",
                              sample.patched(len(sample) - 2, other.to_bytes(2, "big")))


def record_shuffles(form):
    """Records left out, doubled, swapped and put behind the end."""
    for name, sample in small_samples(form).items():
        offsets = starts(form, sample.data) + [len(sample)]
        records = [sample.part(*ends) for ends in zip(offsets, offsets[1:])]
        for at in range(len(records)):
            left_out = records[:at] + records[at + 1:]
            changed = {"left-out": left_out, "last": left_out + [records[at]],
                       "doubled": records[:at + 1] + records[at:]}
            for what, others in changed.items():
                yield ProgramCase(f"{name}-record-{at + 1}-{what}", sum(others, NOTHING))


# ---------------------------------------------------------------------------------------------
# Random programs, and random faults


SIZES = (0, 1, 2, 3, 4, 5, 8, 12, 20, 40, 100, SOURCE.rules - 1, SOURCE.rules)


def random_items(form, rng, shape):
    """A random program; of the sources each second one with sheets."""
    if form is PLAIN:
        return samples.random_plain(rng, shape)
    if rng.random() < 0.5:
        return samples.random_items(rng, shape, rng.choice((1, 3, 8, SOURCE.sheets)))
    return samples.random_source(rng, shape)


def random_shape(form, rng, rules):
    return samples.Shape(rules=rules, atoms=rng.randint(1, 12), tags=rng.randint(1, 5),
                         heads=rng.choice((1, 2, 3, form.heads)),
                         positives=rng.choice((0, 1, 3, form.positives)),
                         nafs=rng.choice((0, 1, 3, form.nafs)))


def random_programs(form, rng):
    """Random programs, from tiny to many rules."""
    sizes = SIZES if form is SOURCE else SIZES + (1_000,)
    for rules in sizes:
        for run in range(4 if rules <= 20 else 1):
            shape = random_shape(form, rng, rules)
            yield f"random-{rules}-rules-{run}", random_items(form, rng, shape)


def faulty_program(form, rng, number):
    """A random program refused with this number, its fault in a random record."""
    if number == 1:
        return rng.choice(too_long_programs(form))
    if number == 2:
        data = random_program(form, rng)
        return whole(data).cut(rng.randrange(len(data)))
    if number == 8:
        return wrong_end(form, rng)
    if number == 14 or (form.sheets and number in (4, 5, 6) and rng.random() < 0.5):
        return with_sheet_fault(form, rng, number)
    mark = b"D:" if number == 7 else rng.choice(faults.marks_of(form))
    wanted = [fault for fault in faults.faults_of(form, mark)
              if faults.NUMBERS[fault.test] == number]
    return with_fault(form, rng, mark, rng.choice(wanted))


@lru_cache(maxsize=None)
def too_long_programs(form):
    return [case.program for case in too_long(form, "", longest_of(form))]


def longest_of(form):
    return next(iter(longest(form).values()))


def random_program(form, rng):
    return encoded_program(random_items(form, rng, random_shape(form, rng, rng.randint(0, 6))))


def with_fault(form, rng, mark, fault):
    """A random program with the faulty record put before one of its records."""
    data = random_program(form, rng)
    start = rng.choice(starts(form, data))
    rules = int.from_bytes(data[-2:], "big")
    record = faults.spoiled(mark, [fault]).data()
    return whole(data[:start] + record + data[start:-4] + end_record(rules + 1))


def with_sheet_fault(form, rng, number):
    """A random program with a faulty record of a sheet put before one of its records."""
    if number == 4:
        return sheets.too_many(rng)
    data = encoded_program(samples.random_source(rng, random_shape(form, rng, rng.randint(0, 6))))
    start = rng.choice(starts(form, data))
    return whole(data[:start] + sheets.faulty_record(rng, number).record() + data[start:])


def wrong_end(form, rng):
    data = random_program(form, rng)
    rules = int.from_bytes(data[-2:], "big")
    if rng.random() < 0.5:
        return whole(data + rng.randbytes(rng.randint(1, 9)))
    return whole(data[:-4] + end_record((rules + rng.choice((1, 255, 256, -1))) % 65_536))
