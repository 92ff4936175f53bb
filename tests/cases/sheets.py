"""Preference sheets: records with one fault or several, and sources whose sheets append rules.

The order of a record's tests stands here once more, as a list, apart from the reference: each case
states its refusal, and a reference that tests in another order contradicts it.
"""

from functools import lru_cache
from itertools import combinations, product, starmap
from typing import NamedTuple

import samples
from aspda import (LAST_ATOM, LAST_TAG, LITERAL, OPPOSITION, OVERRIDE, SOURCE, TAGS, Literal,
                   Opposition, Override, atom, defeasible, defeated, encoded_item, encoded_literals,
                   negated, strict)
from cases import faults
from cases.faults import ProgramCase, encoded_rules, end_record
from cases.operations import ACCEPTED
from cases.slices import whole

MOST = SOURCE.sheets
GOOD_OVERRIDE, GOOD_OPPOSITION = Override(1, 2), Opposition(atom(1), negated(2))


# ---------------------------------------------------------------------------------------------
# Records with faults


class Draft(NamedTuple):
    """A sheet's record whose fields may be wrong, behind others of its kind."""

    mark: bytes
    fields: tuple       # two tags, or two literals
    held: int = 0       # so many of its kind stand before it
    keep: int = 12      # only so many of its bytes are there, and nothing behind them

    def record(self):
        if self.mark == OVERRIDE:
            return self.mark + b"".join(tag.to_bytes(2, "big") for tag in self.fields)
        return self.mark + encoded_literals(self.fields)

    def is_cut(self):
        return self.keep < len(self.record())

    def name(self):
        fields = "-".join(str(field) if self.mark == OVERRIDE else "-".join(map(str, field))
                          for field in self.fields)
        return f"{self.mark[:1].decode()}-{fields}-behind-{self.held}" + (
            f"-cut-at-{self.keep}" if self.is_cut() else "")


def wrong_fields(draft):
    """The places in the record of tags out of range, or of literals that are no options."""
    if draft.mark == OVERRIDE:
        return [0 for tag in draft.fields if tag not in TAGS]
    return [2 + LITERAL.size * place for place, (kind, tag, number) in enumerate(draft.fields)
            if kind not in (0, 1) or tag != 0 or not 1 <= number <= LAST_ATOM]


def refusal_of(draft):
    """The first test in document 02's order that fails: its number, its place in the record."""
    if draft.held == MOST:
        return 4, 0
    if draft.is_cut():
        return 2, 0
    if wrong_fields(draft):
        return (6 if draft.mark == OVERRIDE else 5), wrong_fields(draft)[0]
    return (14, 0) if draft.fields[0] == draft.fields[1] else None


def case_of(draft, before=1):
    """The record behind some rules and others of its kind, with a rule and the end behind it."""
    good = GOOD_OVERRIDE if draft.mark == OVERRIDE else GOOD_OPPOSITION
    start = encoded_rules(before) + encoded_item(good) * draft.held
    rest = b"" if draft.is_cut() else encoded_rules(1) + end_record(before + 1)
    refusal = refusal_of(draft)
    stated = (refusal[0], len(start) + refusal[1]) if refusal else ACCEPTED
    return ProgramCase(f"sheet-{draft.name()}", whole(start + draft.record()[:draft.keep] + rest),
                       stated)


WRONG_TAGS = (0, LAST_TAG + 1, 256, 65_535)


def tag_pairs():
    """Right and wrong tags, different and equal."""
    yield from ((1, 2), (2, 1), (LAST_TAG, 1), (1, LAST_TAG), (1, 1), (LAST_TAG, LAST_TAG))
    for wrong in WRONG_TAGS:
        yield from ((wrong, 1), (1, wrong), (wrong, wrong), (wrong, LAST_TAG))


def wrong_options():
    """Literals that are none of the form, and those of a source that are no options."""
    return [*faults.wrong_literals(SOURCE).values(), defeated(7, atom(3)),
            defeated(LAST_TAG, negated(3)), faults.NO_LITERAL]


def option_pairs():
    """Right and wrong options, different and equal."""
    one, last = atom(1), negated(LAST_ATOM)
    yield from ((one, last), (last, one), (one, negated(1)), (negated(1), one), (one, atom(2)),
                (atom(256), atom(1)), (one, one), (last, last), (atom(LAST_ATOM), last))
    for wrong in wrong_options():
        yield from ((wrong, one), (one, wrong), (wrong, wrong))
    for wrong, other in combinations(wrong_options()[::4], 2):
        yield wrong, other


def fields_of(mark):
    return tag_pairs() if mark == OVERRIDE else option_pairs()


def size_of(mark):
    return 6 if mark == OVERRIDE else 12


def faulty_records(form):
    """Every record whole; cut at each byte, and the one too many, with each kind of fault."""
    if not form.sheets:
        return
    for mark in (OVERRIDE, OPPOSITION):
        for fields in fields_of(mark):
            yield case_of(Draft(mark, fields))
        few = list(fields_of(mark))[::5] + [(1, 1) if mark == OVERRIDE else (atom(1), atom(1))]
        for fields, held, keep in product(few, (0, MOST - 1, MOST), range(2, size_of(mark) + 1)):
            yield case_of(Draft(mark, fields, held, keep), before=held % 3)


def misplaced(form):
    """Sheets at every place of a program, behind its end, miscounted; their marks nearly right."""
    records = {"override": encoded_item(GOOD_OVERRIDE), "opposition": encoded_item(GOOD_OPPOSITION)}
    for (name, record), before, after in product(records.items(), (0, 1, 3), (0, 2)):
        start, rest = encoded_rules(before), encoded_rules(after)
        rules = before + after
        stated = ACCEPTED if form.sheets else (3, len(start))
        place = f"{name}-behind-{before}-before-{after}"
        yield ProgramCase(place, whole(start + record + rest + end_record(rules)), stated)
        yield ProgramCase(f"{place}-alone-cut", whole(start + record[:2]),
                          (2 if form.sheets else 3, len(start)))
        end = len(start) + len(record) + len(rest)
        for number in (rules + 1, rules + 256):
            yield ProgramCase(f"{place}-end-says-{number}",
                              whole(start + record + rest + end_record(number)),
                              (8, end) if form.sheets else stated)
        closed = start + rest + end_record(rules)
        for length in (1, 2, len(record)):
            yield ProgramCase(f"{place}-behind-the-end-{length}", whole(closed + record[:length]),
                              (8, len(closed) - 4))
        for mark in (b"o:", b"x:", b"O;", b"X;", b":O", b":X", b"OX", b"N:", b"P:", b"W:", b"Y:"):
            yield ProgramCase(f"{place}-mark-{mark.hex()}",
                              whole(start + mark + record[2:] + rest + end_record(rules)),
                              (3, len(start)))


def counted_apart(form):
    """So many records of each kind, one kind's in front of, behind and among the other's."""
    if not form.sheets:
        return
    over, pair = encoded_item(GOOD_OVERRIDE), encoded_item(GOOD_OPPOSITION)
    orders = {"overrides-first": over * MOST + pair * MOST,
              "oppositions-first": pair * MOST + over * MOST, "in-turn": (over + pair) * MOST}
    for (name, records), rules in product(orders.items(), (0, 2)):
        start = encoded_rules(rules) + records
        yield ProgramCase(f"sheets-full-{name}-behind-{rules}", whole(start + end_record(rules)),
                          ACCEPTED)
        for record, length in ((over, 6), (pair, 12), (over, 2), (pair, 2), (over, 5), (pair, 7)):
            for rest in (b"", encoded_rules(1) + end_record(rules + 1)):
                yield ProgramCase(f"sheets-full-{name}-and-{record[:1].decode()}-of-{length}",
                                  whole(start + record[:length] + rest), (4, len(start)))
        # A rule's record is none too many.
        yield ProgramCase(f"sheets-full-{name}-and-a-rule",
                          whole(start + encoded_rules(1) + end_record(rules + 1)), ACCEPTED)


def two_records(form):
    """Faults in two records: the first record's one counts, whichever kind the second is."""
    if not form.sheets:
        return
    drafts = {"6": Draft(OVERRIDE, (0, 1)), "14-tags": Draft(OVERRIDE, (7, 7)),
              "5": Draft(OPPOSITION, (atom(1), atom(0))),
              "14-options": Draft(OPPOSITION, (negated(3), negated(3)))}
    bad_rule = faults.spoiled(b"S:", [faults.tag_faults(b"S:")[0]]).data()
    for (name, first), (other, second) in product(drafts.items(), repeat=2):
        number, place = refusal_of(first)
        start = encoded_rules(2)
        yield ProgramCase(f"sheet-fault-{name}-then-{other}",
                          whole(start + first.record() + second.record() + end_record(2)),
                          (number, len(start) + place))
    for name, draft in drafts.items():
        number, place = refusal_of(draft)
        yield ProgramCase(f"sheet-fault-{name}-then-a-rule's",
                          whole(draft.record() + bad_rule + end_record(1)), (number, place))
        yield ProgramCase(f"a-rule's-fault-then-sheet-{name}",
                          whole(bad_rule + draft.record() + end_record(1)), (6, 0))
        yield ProgramCase(f"sheet-fault-{name}-end-wrong",
                          whole(draft.record() + end_record(9)), (number, place))


def record_cases(form):
    for make in (faulty_records, misplaced, counted_apart, two_records):
        yield from make(form)


def faulty_record(rng, number):
    """A sheet's record that is refused with this number, whole; of 4 see `too_many`."""
    mark = {5: OPPOSITION, 6: OVERRIDE, 14: rng.choice((OVERRIDE, OPPOSITION))}[number]
    drafts = [Draft(mark, fields) for fields in fields_of(mark)]
    return rng.choice([draft for draft in drafts if (refusal_of(draft) or (0,))[0] == number])


def too_many(rng):
    """One record more than a kind has, among rules."""
    good = rng.choice((GOOD_OVERRIDE, GOOD_OPPOSITION))
    rules = rng.randint(0, 3)
    items = samples.interleaved(rng, [strict([atom(1)])] * rules, [good] * (MOST + 1))
    return whole(b"".join(map(encoded_item, items)) + end_record(rules))


# ---------------------------------------------------------------------------------------------
# Sources whose sheets append rules


def beats(lower, b, a):
    """The rule that is appended where a speaks against b."""
    return strict([defeated(lower, b)], [a])


def beside_in_use():
    """Tags and options near those of the rules; one opposition of theirs, one override each way."""
    upper, lower, a, b = 100, 36, atom(300), negated(44)
    tags = [(upper + one, lower + other) for one, other in product((-64, -1, 0, 1, 64), repeat=2)
            if (one, other) != (0, 0) and lower + other > 0 and upper + one != lower + other]
    near = {first: [Literal(1 - first.kind, 0, first.atom)] + [
        Literal(first.kind, 0, first.atom + step) for step in (-256, -64, -1, 1, 64, 128)
        if first.atom + step > 0] for first in (a, b)}
    pairs = [(other, b) for other in near[a]] + [(a, other) for other in near[b]]
    return [defeasible(upper, [a]), defeasible(lower, [b]), *starmap(Override, tags),
            *starmap(Opposition, pairs), Override(upper, lower), Opposition(a, b)]


@lru_cache(maxsize=None)
def small_sources():
    """Each way in which rules are appended or not: items, and how many rules are appended."""
    one, two, three = map(atom, (1, 2, 3))
    both = [defeasible(1, [one, two]), defeasible(2, [one, two, negated(1)])]
    over, under, pair = Override(1, 2), Override(2, 1), Opposition(one, two)
    turned = Opposition(two, one)
    ring = [Override(1, 2), Override(2, 3), Override(3, 1)]
    three_tags = [defeasible(tag, [one, two, three]) for tag in (1, 2, 3)]
    return {
        "m3-sheets": (samples.M3_SHEETS, 3),
        "as-written-first": (both + [over, pair], 2),
        "turned-round": (both + [over, turned], 2),
        "override-by-override": (both + [over, pair, under], 4),
        "opposition-by-opposition": (both + [pair, over, Opposition(negated(1), one)], 3),
        "override-twice": (both + [over, over, pair], 2),
        "opposition-twice": (both + [over, pair, pair], 2),
        "opposition-and-turned": (both + [turned, over, pair], 2),
        "overrides-both-ways": (both + [under, over, pair, turned], 4),
        "everything-twice": (both + [over, under, pair, turned] * 2, 4),
        "two-uppers-one-lower": (three_tags + [Override(1, 3), Override(2, 3), pair], 2),
        "a-ring-of-tags": (three_tags + ring + [pair, Opposition(two, three)], 12),
        "sheets-first": ([over, pair] + both, 2),
        "rules-behind-sheets": ([both[0], over, pair, both[1]], 2),
        "last-rule-decides": ([over, pair, defeasible(1, [three]), strict([one]), both[1], both[0]],
                              2),
        "equal-rule-written": ([beats(2, two, one)] + both + [over, pair], 2),
        "equal-rule-written-behind": (both + [over, pair, beats(2, one, two), beats(2, two, one)],
                                      2),
        "own-negation": ([defeasible(1, [one]), defeasible(2, [negated(1), one]), over,
                          Opposition(one, negated(1))], 1),
        "own-negation-both-ways": ([defeasible(1, [one, negated(1)]),
                                    defeasible(2, [negated(1), one]), over,
                                    Opposition(negated(1), one)], 2),
        "tags-not-in-use": (both + [Override(1, 3), Override(3, 2), Override(LAST_TAG, 1), pair],
                            0),
        "not-headed": (both + [over, Opposition(one, three), Opposition(three, negated(3))], 0),
        "upper-does-not-head": ([defeasible(1, [three]), both[1], over, pair], 0),
        "lower-does-not-head": ([both[0], defeasible(2, [three]), over, pair], 0),
        "one-way-alone": ([defeasible(1, [one]), defeasible(2, [two]), over, pair], 1),
        "other-way-alone": ([defeasible(1, [two]), defeasible(2, [one]), over, pair], 1),
        "strict-heads": ([strict([one]), defeasible(1, [two]), defeasible(2, [one, two]), over,
                          pair], 1),
        "in-bodies-alone": ([defeasible(1, [three], [one], [two]), both[1], over, pair], 0),
        "heads-of-two-rules": ([defeasible(1, [one]), defeasible(1, [two]), both[1], over, pair],
                               2),
        "repeated-heads": ([defeasible(1, [one, one]), defeasible(2, [two, two]), over, pair], 1),
        "overrides-alone": (both + [over, under], 0),
        "oppositions-alone": (both + [pair, turned], 0),
        "no-rules": ([over, pair], 0),
        "strict-rules-alone": ([strict([one]), over, strict([two]), pair], 0),
        "beside-in-use": (beside_in_use(), 2),
        "negated-options": ([defeasible(LAST_TAG, [negated(LAST_ATOM), atom(256)]),
                             defeasible(1, [atom(LAST_ATOM), negated(256)]),
                             Override(LAST_TAG, 1),
                             Opposition(negated(256), negated(LAST_ATOM)),
                             Opposition(atom(256), atom(LAST_ATOM))], 2),
        "bodies-and-naf": ([defeasible(1, [one, two], [three], [negated(2)]), strict([three]),
                            defeasible(2, [one, two], [], [three]), over, pair,
                            strict([negated(3)], [], [defeated(2, two)])], 2),
    }


@lru_cache(maxsize=None)
def large_sources():
    """Sources with many sheets or many rules: items, and how many rules are appended."""
    most = samples.most_appended(SOURCE)
    options = [atom(number) for number in range(1, 13)]
    tags = range(1, MOST + 2)
    pairs = [Opposition(*pair) for pair in combinations(options, 2)][:MOST]
    overrides = [Override(1, lower) for lower in tags[1:]]
    rules = [defeasible(tag, options) for tag in tags]
    chain = [Override(tag, tag + 1) for tag in tags[:-1]]
    again = [Override(1, 2)] * MOST + [Opposition(atom(1), atom(2))] * MOST
    filled = [strict([atom(7)])] * (SOURCE.rules - 2)
    near = [defeasible(1, [atom(1), atom(2)]), defeasible(2, [atom(1), atom(2)])]
    return {
        "most-appended": (most, 2 * MOST * MOST),
        "most-appended-small-rules": (rules + overrides + pairs, 2 * MOST * MOST),
        "most-appended-turned": ([*reversed(rules + overrides + pairs)], 2 * MOST * MOST),
        "chain-of-overrides": (chain + rules + pairs, 2 * MOST * MOST),
        "one-rule-many-times": (near + again, 2),
        "many-turned": (near + [Override(2, 1), Override(1, 2)] * (MOST // 2) + [
            Opposition(atom(2), atom(1)), Opposition(atom(1), atom(2))] * (MOST // 2), 4),
        "all-rules-and-sheets": (near[:1] + filled + near[1:] + again, 2),
        "one-of-many": ([Override(100 + tag, tag) for tag in tags[:-2]] + near + pairs[1:] + [
            Opposition(atom(400), atom(401)), Override(1, 2)], 0),
        "last-record-of-each": ([Override(100, tag) for tag in tags[:-2]] + near + [
            Opposition(atom(400 + number), atom(1)) for number in range(MOST - 1)] + [
            Override(1, 2), Opposition(atom(2), atom(1))], 2),
    }


def all_sources():
    return small_sources() | large_sources()
