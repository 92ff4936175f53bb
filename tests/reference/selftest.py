"""Tests of the reference itself: the marked examples, the limits, and agreement with itself.

    python3 tests/reference/selftest.py

The expected values stand here as the document gives them; the figures of the forms once, in
`FIGURES`, by which the reference's own are checked. Prints 'N checks, 0 failed'.
"""

import random
import sys

sys.dont_write_bytecode = True

import samples
from aspda import (APPENDED_RULE, ASPIF_BEYOND, ASPIF_TIMES_LONGER, ASSEMBLY_STATE, ATOMS, BROKEN,
                   BRUTE_FORCE_LITERALS, CHECKED_LITERALS, CLASH, LAST_ATOM, LAST_NUMBERED_RULE,
                   LAST_TAG, PLAIN, REFUSED, SMALLER, SOURCE, TIMES_LONGER, YES, Literal,
                   Opposition, Override, Remainder, add, answer_sets, appended_rules, aspif,
                   aspif_text, assembled, atom, begin, check_plain, check_source, close, defeasible,
                   defeated, derived, drop, encoded_item, encoded_literals, encoded_program,
                   encoded_rule, encoded_set, expanded, extend, extension, filter,
                   first_smaller_by_brute_force, first_smaller_by_search, is_answer_set,
                   is_interpretation, is_model, is_negated, negated, numbering, opposite,
                   proper_subsets, quotient, quotient_plain, quotient_source, read_items,
                   read_plain, read_rules, read_source, restrict, restriction, rule_defeated,
                   show_plain, show_source, strict, subsets, sum_length, translate, translation,
                   written_rules)

SEED = 20_240_601
MATCHED_SOURCES = 400
COMPARED_SEARCHES = 400
MATCHED_TEXTS = 200
MATCHED_SHEETS = 120
COMPARED_EXPANSIONS = 300
ASSEMBLIES = 40
ASSEMBLY_STEPS = 300


class Tally:
    """Counts checks, and says which failed."""

    def __init__(self):
        self.checks = 0
        self.failed = 0

    def run(self, part, *arguments):
        """A part of the tests; one that checks nothing has failed."""
        before = self.checks
        part(self, *arguments)
        if self.checks == before:
            self.failed += 1
            print(f"failed: {part.__name__} checked nothing")

    def same(self, name, got, expected):
        self.checks += 1
        if got != expected:
            self.failed += 1
            print(f"failed: {name}: expected {expected!r}, got {got!r}")


def refused(number, place):
    return REFUSED + (number << 32) + place


def pattern(length):
    return bytes((7 * place + 3) % 256 for place in range(length))


# ---------------------------------------------------------------------------------------------
# The marked examples

M1_SOURCE = bytes.fromhex("44 3A 00 07 01 00 00 00 00 00 00 01 45 3A 00 01")
M1_PLAIN = bytes.fromhex("""
    53 3A 00 00 01 00 01 04 00 07 00 01 06 00 00 00 01
    53 3A 00 00 01 01 00 06 00 00 00 01 02 00 07 00 01
    53 3A 00 00 01 01 00 00 00 00 00 01 04 00 07 00 01
    53 3A 00 00 01 01 01 04 00 07 00 01 00 00 00 00 01 02 00 07 00 01
    53 3A 00 00 00 02 00 04 00 07 00 01 02 00 07 00 01
    45 3A 00 05""")


def marked_example_1(tally):
    tally.same("M1 source", encoded_program(samples.M1), M1_SOURCE)
    tally.same("M1 length", len(M1_PLAIN), 94)
    tally.same("M1 filter", filter(M1_SOURCE), M1_PLAIN)
    for room in (94, 95, 200):
        lent = pattern(room)
        tally.same(f"M1 into {room} bytes", translate(M1_SOURCE, out=lent),
                   (94, M1_PLAIN + lent[94:]))
    for room in (93, 0):
        lent = pattern(room)
        tally.same(f"M1 into {room} bytes", translate(M1_SOURCE, out=lent), (refused(9, 0), lent))


def marked_example_2(tally):
    tally.same("M2 filter", filter(b""), bytes.fromhex("52 3A 02 00 00 00 00"))


def marked_example_3(tally):
    marks = defeated(2, atom(4)), defeated(2, atom(5))
    given = [atom(number) for number in range(1, 6)] + list(marks)
    expected = [{atom(1), *marks}, {atom(2), atom(4), marks[1]}, {atom(3), atom(4)},
                {atom(3), atom(5)}]
    found = answer_sets(samples.M3, given)
    tally.same("M3 number of answer sets", len(found), 4)
    tally.same("M3 answer sets", set(found), set(map(frozenset, expected)))
    source = encoded_program(samples.M3)
    tally.same("M3 source length", len(source), 94)
    word, buffer = translate(source, out=bytes(500))
    tally.same("M3 translation length", word, 433)
    tally.same("M3 translation rules", read_plain(buffer[:word]).word, 22)
    for answer_set in expected:
        proposed = encoded_set(answer_set)
        tally.same("M3 check", check_source(source, proposed, out=bytes(100)).word, YES)


def extended(rules, literals):
    lent = bytes(1000)
    word, buffer = extend(encoded_program(rules), encoded_set(literals), out=lent)
    return buffer[:word]


def marked_examples_4_and_5(tally):
    one, two = atom(1), atom(2)
    tally.same("M4 extension", extended(samples.M4, {one}), encoded_set({one, derived(7, one)}))
    given = {two, defeated(7, one)}
    tally.same("M5 extension", extended(samples.M5, given),
               encoded_set(given | {derived(7, two), rule_defeated(1)}))


def check_example(tally, name, rules, literals, word, witness=None):
    """A check of a source: the word, and the lent buffer with a witness or as it came."""
    proposed = encoded_set(literals)
    lent = pattern(len(proposed))
    written = b"" if witness is None else encoded_set(witness)
    expected = (word + len(written), written + lent[len(written):])
    tally.same(name, check_source(encoded_program(rules), proposed, out=lent), expected)


def marked_examples_6_to_9(tally):
    one, two = atom(1), atom(2)
    check_example(tally, "M6", samples.M6, {one, two}, SMALLER, {two})
    check_example(tally, "M7", [], {one, negated(1)}, CLASH + 1)
    check_example(tally, "M7 with a rule", samples.M6, {one, negated(1)}, CLASH + 1)
    check_example(tally, "M8", samples.M8, set(), BROKEN + 1)
    tally.same("M9 source", encoded_program(samples.M9), bytes.fromhex("45 3A 00 00"))
    check_example(tally, "M9 empty", samples.M9, set(), YES)
    check_example(tally, "M9 one", samples.M9, {one}, SMALLER, set())


def kinds_of_literals(tally):
    """Each kind's bytes: kind, tag, atom. And which kinds are negated: not 6."""
    for text, literal in (
            ("00 00 00 01 F4", atom(500)), ("01 00 00 00 01", negated(1)),
            ("02 00 C8 00 02", defeated(200, atom(2))), ("03 00 01 00 02", defeated(1, negated(2))),
            ("04 00 C8 00 02", derived(200, atom(2))), ("05 00 01 00 02", derived(1, negated(2))),
            ("06 00 00 01 00", rule_defeated(256))):
        tally.same(f"bytes of {literal}", encoded_literals([literal]), bytes.fromhex(text))
    tally.same("kinds of negated atoms and their marks",
               [kind for kind in PLAIN.kinds if is_negated(Literal(kind, 0, 1))], [1, 3, 5])
    rule = strict([atom(1)], [negated(2)], [defeated(3, atom(4))])
    tally.same("bytes of a rule", encoded_program([rule]), bytes.fromhex(
        "53 3A 00 00 01 01 01 00 00 00 00 01 01 00 00 00 02 02 00 03 00 04 45 3A 00 01"))
    tally.same("bytes of a set", encoded_set({negated(2), atom(300)}),
               bytes.fromhex("41 3A 00 02 00 00 00 01 2C 01 00 00 00 02"))


# ---------------------------------------------------------------------------------------------
# Preference sheets


def example_with_sheets(tally):
    """Document 000's Example 1 written with sheets: M3, its strict rules appended in M3's order."""
    source = encoded_program(samples.M3_SHEETS)
    tally.same("bytes of sheets", source[39:], bytes.fromhex("""
        4F 3A 00 01 00 02  58 3A 00 00 00 00 01 00 00 00 00 04
        58 3A 00 00 00 00 01 00 00 00 00 05  58 3A 00 00 00 00 02 00 00 00 00 05  45 3A 00 02"""))
    tally.same("M3 with sheets", expanded(samples.M3_SHEETS), samples.M3)
    tally.same("read with sheets", read_rules(SOURCE, source), samples.M3)
    tally.same("rules of M3 with sheets", read_source(source).word, 2)
    tally.same("rule 2 of M3 with sheets", show_source(source, 2).word, (22 << 32) + 17)
    tally.same("rule 3 of M3 with sheets", show_source(source, 3).word, refused(13, 0))
    tally.same("plain with sheets", read_plain(source[39:]).word, refused(3, 0))
    whole = encoded_program(samples.M3)
    lent = pattern(500)
    tally.same("translation with sheets", translate(source, out=lent), translate(whole, out=lent))
    tally.same("filter with sheets", filter(source), filter(whole))
    marks = defeated(2, atom(4)), defeated(2, atom(5))
    for literals in ({atom(1), *marks}, {atom(3), atom(5)}, {atom(1)}, {atom(3), atom(4), atom(5)}):
        proposed = encoded_set(literals)
        for call in (check_source, quotient_source, extend):
            tally.same(f"{call.__name__} with sheets", call(source, proposed, out=lent),
                       call(whole, proposed, out=lent))
    # The first appended rule, which show refuses.
    tally.same("appended rule broken",
               check_source(source, encoded_set({atom(1), atom(4)}), out=lent).word, BROKEN + 3)


def orders_and_repeats(tally):
    """What is appended, in which order, and what is not."""
    one, two, three, four = map(atom, (1, 2, 3, 4))
    both = [defeasible(1, [one, two]), defeasible(2, [one, two, negated(1)])]

    def beats(lower, b, a):
        return strict([defeated(lower, b)], [a])

    def check(name, items, expected):
        tally.same(f"appended, {name}", appended_rules(items), expected)
        tally.same(f"sum's length, {name}", sum_length(encoded_program(items)),
                   len(encoded_program(items)) + APPENDED_RULE * len(expected))

    over, under = Override(1, 2), Override(2, 1)
    pair = Opposition(one, two)
    ways = [beats(2, two, one), beats(2, one, two)]
    back = [beats(1, two, one), beats(1, one, two)]
    check("as written first", both + [over, pair], ways)
    check("turned round", both + [over, Opposition(two, one)], ways[::-1])
    check("override by override", both + [over, pair, under], ways + back)
    check("the second override first", both + [under, pair, over], back + ways)
    check("opposition by opposition", both + [pair, over, Opposition(one, negated(1))],
          ways + [beats(2, negated(1), one)])
    check("the same again", both + [over, pair, over, pair, Opposition(two, one)], ways)
    check("rules behind sheets", [over, both[1], pair, both[0]], ways)
    check("an equal rule is written", [beats(2, two, one)] + both + [over, pair], ways)
    check("an atom and its negation", [defeasible(1, [one]), defeasible(2, [negated(1)]), over,
                                       Opposition(negated(1), one)], [beats(2, negated(1), one)])
    check("no override", both + [pair], [])
    check("no opposition", both + [over], [])
    check("tags not in use", both + [Override(1, 3), Override(3, 2), Override(200, 199), pair], [])
    check("no such option", both + [over, Opposition(one, three), Opposition(four, two)], [])
    check("not headed by the upper tag", [defeasible(1, [three]), both[1], over, pair], [])
    check("not headed by the lower tag", [both[0], defeasible(2, [three]), over, pair], [])
    check("headed one way alone", [defeasible(1, [one]), defeasible(2, [two]), over, pair],
          ways[:1])
    check("strict heads", [strict([one]), defeasible(1, [two]), strict([defeated(1, one)]),
                           defeasible(2, [one, two]), over, pair], [beats(2, one, two)])
    check("in bodies alone", [defeasible(1, [three], [one], [two]), both[1], over, pair], [])
    check("heads of two rules with one tag",
          [defeasible(1, [one]), defeasible(1, [two]), both[1], over, pair], ways)
    check("no rules", [over, pair], [])


def wrong_sheets(tally):
    """Each refusal of a sheet's record, at its place, in order."""
    rule = strict([atom(1)])
    start = encoded_program([rule])[:-4]
    end = encoded_program([rule])[-4:]
    over, pair = Override(1, 2), Opposition(atom(1), atom(2))

    def refusal(name, record, number, beyond=0, behind=end):
        tally.same(f"sheet, {name}", read_source(start + record + behind).word,
                   refused(number, len(start) + beyond))

    for item, size in ((over, 6), (pair, 12)):
        record = encoded_item(item)
        tally.same("a sheet's record", (len(record), read_source(start + record + end).word),
                   (size, 1))
        tally.same("a sheet's record in plain form", read_plain(start + record + end).word,
                   refused(3, len(start)))
        tally.same("a sheet behind the end", read_source(start + end + record).word,
                   refused(8, len(start)))
        for length in range(1, size):
            refusal(f"{length} of {size} bytes", record[:length], 2, behind=b"")
    for tags in ((0, 1), (1, 0), (0, 0), (201, 1), (1, 201), (201, 201), (256, 1), (1, 65_535)):
        refusal(f"tags {tags}", encoded_item(Override(*tags)), 6)
    for tag in (1, 7, 200):
        refusal(f"tags {tag} twice", encoded_item(Override(tag, tag)), 14)
    for tags in ((1, 200), (200, 1), (199, 200)):
        tally.same(f"tags {tags}", read_source(start + encoded_item(Override(*tags)) + end).word, 1)
    one = atom(1)
    for wrong in (atom(0), negated(0), atom(501), negated(501), defeated(1, one), derived(1, one),
                  rule_defeated(1), one._replace(tag=1), one._replace(kind=7)):
        refusal(f"{wrong} first", encoded_item(Opposition(wrong, one)), 5, 2)
        refusal(f"{wrong} second", encoded_item(Opposition(one, wrong)), 5, 7)
        refusal(f"{wrong} twice", encoded_item(Opposition(wrong, wrong)), 5, 2)
    for option in (one, negated(500)):
        refusal(f"{option} twice", encoded_item(Opposition(option, option)), 14)
        tally.same(f"{option} and its opposite", read_source(
            start + encoded_item(Opposition(option, opposite(option))) + end).word, 1)


def sheet_limits(tally):
    """So many of each kind, counted apart; one more is refused whatever it holds."""
    most = SOURCE.sheets
    full = [Override(1, 2)] * most + [Opposition(atom(1), atom(2))] * most
    data = encoded_program(full)
    tally.same("most sheets", (len(data), read_source(data).word), (6 * most + 12 * most + 4, 0))
    place = len(data) - 4
    for mark in (b"O:", b"X:"):
        for rest in (b"", bytes(1), bytes(4), bytes(10), b"\xff" * 30):
            tally.same(f"one {mark} more", read_source(data[:-4] + mark + rest).word,
                       refused(4, place))
    for one in (full[0], full[-1]):
        tally.same("one too many of a kind alone",
                   read_source(encoded_program([one] * (most + 1))).word,
                   refused(4, most * len(encoded_item(one))))


# ---------------------------------------------------------------------------------------------
# The text in aspif

# Each as its document, or the reading decided of it, has it: rules, and the lines of their text.
TEXTS = {
    "the fact 1": (samples.FACT, "asp 1 0 0|1 0 1 1 0 0|4 2 p1 1 1|0"),
    "no rules": ([], "asp 1 0 0|0"),
    "no head, no body": (samples.M8, "asp 1 0 0|1 0 0 0 0|0"),
    "numbers by bytes, not by occurrence; in bodies alone": (
        [strict([negated(2)], [rule_defeated(3)], [atom(500)]), strict([], [defeated(1, atom(1))])],
        "asp 1 0 0|1 0 1 2 0 2 4 -1|1 0 0 0 1 3|4 4 p500 1 1|4 2 n2 1 2|0"),
    "repeated": (
        [strict([atom(7), atom(7)], [atom(3), atom(3)], [atom(7), atom(7), atom(7)])],
        "asp 1 0 0|1 0 2 2 2 0 5 1 1 -2 -2 -2|4 2 p3 1 1|4 2 p7 1 2|0"),
    "both ways: in a head, positive, naf": (
        [strict([negated(9)]), strict([], [atom(9)]), strict([], [], [atom(2), negated(2)])],
        "asp 1 0 0|1 0 1 4 0 0|1 0 0 0 1 2|1 0 0 0 2 -1 -3|1 0 0 0 2 1 3|1 0 0 0 2 2 4"
        "|4 2 p2 1 1|4 2 p9 1 2|4 2 n2 1 3|4 2 n9 1 4|0"),
    "marks alone make no pair and have no name": (
        [strict([defeated(1, atom(1)), defeated(1, negated(1))],
                [derived(1, atom(1)), derived(1, negated(1))], [rule_defeated(1)])],
        "asp 1 0 0|1 0 2 1 2 0 3 3 4 -5|0"),
}


def texts_in_aspif(tally):
    for name, (rules, lines) in TEXTS.items():
        text = (lines.replace("|", "\n") + "\n").encode("ascii")
        for room in (len(text), len(text) + 1, 3 * len(text)):
            lent = pattern(room)
            tally.same(f"aspif, {name}, into {room} bytes",
                       aspif(encoded_program(rules), out=lent),
                       (len(text), text + lent[len(text):]))
        for room in (len(text) - 1, 0):
            lent = pattern(room)
            tally.same(f"aspif, {name}, into {room} bytes",
                       aspif(encoded_program(rules), out=lent), (refused(9, 0), lent))
    tally.same("length of the fact's text", aspif(encoded_program(samples.FACT), out=bytes(99)).word,
               35)
    tally.same("length of the empty program's text", aspif(encoded_program([]), out=bytes(99)).word,
               12)
    # Reading refuses first, whatever the room.
    tally.same("aspif of a source", aspif(M1_SOURCE, out=b"").word, refused(3, 0))
    tally.same("aspif of nothing", aspif(b"", out=b"").word, refused(2, 0))


def bound_of_texts(tally):
    """Long programs, and short ones with long texts, stay within the bound."""
    signed = [*map(atom, ATOMS), *map(negated, ATOMS)]
    stock = {"no literals": [strict()] * PLAIN.rules, "most literals": samples.most_literals(PLAIN),
             "all atoms": [strict(signed[first:first + 16]) for first in range(0, 1_000, 16)],
             "last literals": [strict([], [], [rule_defeated(256)] * 17)]}
    for name, rules in stock.items():
        program = encoded_program(rules)
        word = aspif(program, out=bytes(ASPIF_TIMES_LONGER * len(program) + ASPIF_BEYOND)).word
        tally.same(f"aspif of {name} within the bound", word < REFUSED, True)


# ---------------------------------------------------------------------------------------------
# Program assembly

NO_STATE = bytes(520)
FACT_RECORD = bytes.fromhex("53 3A 00 00 01 00 00 00 00 00 00 01")
CHOICE_RECORD = bytes.fromhex("44 3A 00 07 02 01 01 00 00 00 00 01 01 00 00 00 02 "
                              "02 00 07 00 01 00 00 00 00 03")
WIDEST_RULE = defeasible(LAST_TAG, [atom(1)] * 16, [defeated(1, atom(2))] * 16, [negated(3)] * 16)


def state_of(stage, *counts):
    """A state's bytes: its stage, and for each rule the byte of its head and that of its body."""
    heads, bodies = (bytes(pair[row] for pair in counts).ljust(256, b"\0") for row in (0, 1))
    return bytes((stage, 0)) + len(counts).to_bytes(2, "big") + bytes(4) + heads + bodies


def examples_assembled(tally):
    """M1, M3, M9 rule by rule, bytes behind each record: then read, shown and translated."""
    for name, rules in (("M1", samples.M1), ("M3", samples.M3), ("M9", samples.M9)):
        source = encoded_program(rules)
        lent = pattern(len(source) + 9)
        answer = begin(NO_STATE, out=lent)
        tally.same(f"{name} begun", answer, (0, state_of(1), lent))
        held = 0
        for number, rule in enumerate(rules, start=1):
            record = encoded_rule(rule)
            answer = add(answer.state, record + pattern(number), out=answer.buffer)
            held += len(record)
            tally.same(f"{name} rule {number}", (answer.word, answer.buffer),
                       (number, source[:held] + lent[held:]))
            tally.same(f"{name} length {number}", assembled(answer.state).word, held + 4)
        answer = close(answer.state, out=answer.buffer)
        tally.same(f"{name} closed", (answer.word, answer.buffer),
                   (len(rules), source + lent[len(source):]))
        made = answer.buffer[:assembled(answer.state).word]
        tally.same(f"{name} read", read_source(made).word, len(rules))
        start = 0
        for number, rule in enumerate(rules, start=1):
            length = len(encoded_rule(rule))
            tally.same(f"{name} shown {number}", show_source(made, number).word,
                       (start << 32) + length)
            start += length
        room = bytes(500)
        tally.same(f"{name} translated", translate(made, out=room), translate(source, out=room))


def states_of_assembly(tally):
    """Every byte of the states that calls give back."""
    lent = bytes(100)
    steps = (begin(NO_STATE, out=lent), add(state_of(1), FACT_RECORD, out=lent),
             add(state_of(1, (1, 0)), CHOICE_RECORD, out=lent),
             drop(state_of(1, (1, 0), (129, 2))), close(state_of(1, (1, 0)), out=lent),
             begin(state_of(2, (1, 0)), out=lent), begin(state_of(1, (1, 0), (129, 2)), out=lent),
             begin(pattern(520), out=lent))
    expected = (state_of(1), state_of(1, (1, 0)), state_of(1, (1, 0), (129, 2)),
                state_of(1, (1, 0)), state_of(2, (1, 0)), state_of(1), state_of(1), state_of(1))
    words = (0, 1, 2, 1, 1, 0, 0, 0)
    for number, (step, state, word) in enumerate(zip(steps, expected, words)):
        tally.same(f"state {number}", (step.word, step.state), (word, state))
    for state, length in ((NO_STATE, 4), (state_of(1), 4), (state_of(1, (1, 0)), 16),
                          (state_of(2, (1, 0), (129, 2)), 43), (b"", 4), (bytes(519), 4),
                          (state_of(1, (1, 0)) + b"\0", 4),
                          (state_of(1, *[(16, 32)] * 256), 256 * 247 + 4)):
        tally.same(f"assembled {len(state)} {length}", assembled(state, out=lent),
                   (length, state, lent))


def assembly_refusals(tally):
    """One record, spoiled further and further: the refusals in reverse order, nothing changed."""
    full, one = state_of(1, *[(0, 0)] * 256), state_of(1, (1, 0))
    record = bytearray(CHOICE_RECORD)
    steps = [(9, 0, one, bytes(record), 42)]
    record[7], record[9] = 2, 7     # its first option is a defeat mark
    steps.append((7, 0, one, bytes(record), 42))
    record[22] = 4
    steps.append((5, 22, one, bytes(record), 42))
    steps.append((2, 0, one, bytes(record[:-1]), 42))
    record[4] = 17
    steps.append((4, 0, one, bytes(record[:-1]), 42))
    record[3] = 201
    steps.append((6, 0, one, bytes(record[:-1]), 42))
    steps.append((4, 0, full, bytes(record[:-1]), 42))
    steps.append((2, 0, full, bytes(record[:6]), 42))
    steps += [(3, 0, full, mark + bytes(record[2:6]), 42) for mark in (b"E:", b"O:", b"X:", b"A:")]
    steps += [(2, 0, full, bytes(record[:length]), 0) for length in (0, 1)]
    for state in (NO_STATE, state_of(2), state_of(2, (1, 0)), full[:-1], full + b"\0", b"",
                  pattern(520)):
        steps.append((15, 0, state, b"", 0))
    for number, place, state, given, room in steps:
        lent = pattern(room)
        tally.same(f"add refused {number} {given.hex()}", add(state, given, out=lent),
                   (refused(number, place), state, lent))
    tally.same("add with room", add(one, CHOICE_RECORD, out=bytes(43)).word, 2)
    for state in (NO_STATE, state_of(2), state_of(2, (1, 0)), bytes(519), pattern(520)):
        lent = pattern(3)
        tally.same("drop refused", drop(state), (refused(15, 0), state, b""))
        tally.same("close refused", close(state, out=lent), (refused(15, 0), state, lent))
        tally.same("begin refused", begin(state, out=lent),
                   (refused(9 if len(state) == 520 else 15, 0), state, lent))
    tally.same("nothing to drop", drop(state_of(1)), (refused(15, 0), state_of(1), b""))
    for state, needed in ((state_of(1), 4), (one, 16), (full, 7 * 256 + 4)):
        lent = pattern(needed - 1)
        tally.same("close one short", close(state, out=lent), (refused(9, 0), state, lent))
        answer = close(state, out=pattern(needed))
        tally.same("close exact", answer.word, int.from_bytes(state[2:4], "big"))
        tally.same("closed bytes", answer.buffer,
                   pattern(needed)[:-4] + b"E:" + answer.word.to_bytes(2, "big"))
    tally.same("begin exact", begin(one, out=bytes(4)).state, state_of(1))


def states_that_are_none(tally):
    """Bytes that no history gives back count as a state before the first begin."""
    good = state_of(1, (1, 0), (129, 2))
    wrong = ((0, 0), (0, 3), (0, 255), (1, 1), (2, 1), (3, 1), (4, 1), (5, 1), (6, 1), (7, 1),
             (8, 17), (8, 127), (8, 144), (8, 255), (9, 144), (10, 1), (10, 128), (263, 1),
             (264, 33), (264, 255), (265, 33), (266, 1), (519, 1))
    none = [good[:at] + bytes((byte,)) + good[at + 1:] for at, byte in wrong]
    # A third rule without literals is a state like any other.
    tally.same("third rule of nothing", drop(good[:3] + b"\3" + good[4:]).state, good)
    none += [state_of(1, *[(0, 0)] * 256)[:2] + b"\1\1" + bytes(516), state_of(0, (0, 0)),
             b"\0" * 519 + b"\1", b"\xff" * 520]
    for number, state in enumerate(none):
        name = f"no state {number}"
        tally.same(f"{name} assembled", assembled(state).word, 4)
        tally.same(f"{name} drop", drop(state), (refused(15, 0), state, b""))
        tally.same(f"{name} begin", begin(state, out=bytes(4)).state, state_of(1))
    for length in (0, 1, 8, 519, 521, 1_040):
        state = (good + good)[:length]
        for name, answer in (("begin", begin(state, out=bytes(9))), ("drop", drop(state)),
                             ("add", add(state, FACT_RECORD, out=bytes(99))),
                             ("close", close(state, out=bytes(99)))):
            tally.same(f"{name} of {length}", (answer.word, answer.state), (refused(15, 0), state))
        tally.same(f"assembled of {length}", assembled(state).word, 4)


def assembly_limits(tally):
    """256 rules of the most bytes with exact room, one more, and one byte less."""
    record = encoded_rule(WIDEST_RULE)
    tally.same("widest record", len(record), 247)
    room = SOURCE.rules * 247 + 4
    answer = begin(NO_STATE, out=pattern(room))
    for number in range(1, SOURCE.rules + 1):
        before = answer.state
        answer = add(answer.state, record, out=answer.buffer)
        tally.same(f"widest rule {number}", answer.word, number)
    tally.same("one byte short", add(before, record, out=pattern(room - 1)).word, refused(9, 0))
    tally.same("one rule more", add(answer.state, FACT_RECORD, out=bytes(room)).word, refused(4, 0))
    answer = close(answer.state, out=answer.buffer)
    tally.same("all closed", read_source(answer.buffer).word, SOURCE.rules)
    tally.same("all as encoded", answer.buffer, encoded_program([WIDEST_RULE] * SOURCE.rules))


# ---------------------------------------------------------------------------------------------
# Limits


def read_word(form, data):
    return (read_source if form is SOURCE else read_plain)(data).word


# The documents' rows of limits: bytes, rules, heads, positives, nafs, last kind, literals of a set,
# records of each kind in sheets.
FIGURES = {
    "source": (SOURCE, (64_388, 256, 16, 16, 16, 3, 1_000, 64)),
    "plain": (PLAIN, (456_708, 20_992, 16, 16, 17, 6, 5_352, 0)),
}


def figures(tally):
    """The reference's figures are the document's; the checks of limits go by the reference's."""
    for name, (form, row) in FIGURES.items():
        found = (form.length, form.rules, form.heads, form.positives, form.nafs, form.kinds[-1],
                 form.set_literals, form.sheets)
        tally.same(f"figures of the {name} form", found, row)
    tally.same("last atom, tag, numbered rule", (LAST_ATOM, LAST_TAG, LAST_NUMBERED_RULE),
               (500, 200, 256))
    tally.same("literals of a set that is checked", CHECKED_LITERALS, 64)
    tally.same("times as long", (TIMES_LONGER, APPENDED_RULE), (13, 17))
    tally.same("bound of a text", (ASPIF_TIMES_LONGER, ASPIF_BEYOND), (2, 29_012))
    tally.same("bytes of a state", ASSEMBLY_STATE, 520)


def rule_limits(tally):
    for form in (SOURCE, PLAIN):
        limit = form.rules
        rules = [strict()] * (limit + 1)
        tally.same(f"{limit} rules", read_word(form, encoded_program(rules[1:])), limit)
        tally.same(f"{limit + 1} rules", read_word(form, encoded_program(rules)),
                   refused(4, 7 * limit))


def count_limits(tally):
    one = [atom(1)]
    for form in (SOURCE, PLAIN):
        counts = form.heads, form.positives, form.nafs
        for place, name in enumerate(("heads", "positives", "nafs")):
            for count, word in ((counts[place], 1), (counts[place] + 1, refused(4, 0))):
                literals = [[], [], []]
                literals[place] = one * count
                data = encoded_program([strict(*literals)])
                tally.same(f"{count} {name}", read_word(form, data), word)
    heads = one * SOURCE.heads
    tally.same("most defeasible heads",
               read_word(SOURCE, encoded_program([defeasible(7, heads)])), 1)
    tally.same("one defeasible head more",
               read_word(SOURCE, encoded_program([defeasible(7, heads + one)])), refused(4, 0))


def at_limit(last):
    """Numbers at the ends of a literal's range, and the words of programs with them."""
    return (0, refused(5, 7)), (1, 1), (last, 1), (last + 1, refused(5, 7))


def number_limits(tally):
    for number, word in at_limit(LAST_ATOM):
        for form in (SOURCE, PLAIN):
            tally.same(f"atom {number}", read_word(form, encoded_program([strict([atom(number)])])),
                       word)
    for tag, word in at_limit(LAST_TAG):
        mark = strict([defeated(tag, atom(1))])
        tally.same(f"mark with tag {tag}", read_word(SOURCE, encoded_program([mark])), word)
    for tag, word in ((1, 1), (LAST_TAG, 1), (LAST_TAG + 1, refused(6, 0))):
        tally.same(f"rule with tag {tag}",
                   read_word(SOURCE, encoded_program([defeasible(tag, [atom(1)])])), word)
    for number, word in at_limit(LAST_NUMBERED_RULE):
        data = encoded_program([strict([rule_defeated(number)])])
        tally.same(f"rule number {number}", read_word(PLAIN, data), word)
        tally.same(f"rule number {number} in a source", read_word(SOURCE, data), refused(5, 7))


def length_limits(tally):
    items = samples.most_appended(SOURCE)
    source = encoded_program(items)
    tally.same("longest source", len(source), SOURCE.length)
    tally.same("longest source is read", read_word(SOURCE, source), SOURCE.rules)
    tally.same("most appended rules", len(appended_rules(items)), 2 * SOURCE.sheets ** 2)
    tally.same("source too long", read_word(SOURCE, source + b"\0"), refused(1, 0))
    word, plain = translate(source, out=bytes(PLAIN.length + 1))
    tally.same("longest translation", word, PLAIN.length)
    tally.same("longest translation is read", read_word(PLAIN, plain[:word]), PLAIN.rules)
    tally.same("plain too long", read_word(PLAIN, plain), refused(1, 0))
    tally.same("translation one short", translate(source, out=bytes(PLAIN.length - 1)).word,
               refused(9, 0))


def set_at_limit(most, word):
    """The largest set and its word, and one literal more."""
    return (most, word), (most + 1, refused(12, 0))


def set_limits(tally):
    empty = encoded_program([])
    for size, word in set_at_limit(SOURCE.set_literals, 4):
        proposed = encoded_set(first_literals(size, SOURCE))
        tally.same(f"source set of {size}", quotient_source(empty, proposed, out=bytes(4)).word,
                   word)
        expected = word if word >= REFUSED else len(proposed)
        tally.same(f"extend set of {size}", extend(empty, proposed, out=bytes(6_000)).word,
                   expected)
    for size, word in set_at_limit(PLAIN.set_literals, 4):
        proposed = encoded_set(first_literals(size, PLAIN))
        tally.same(f"plain set of {size}", quotient_plain(empty, proposed, out=bytes(4)).word, word)
        expected = word if word >= REFUSED else len(proposed)
        tally.same(f"restrict set of {size}", restrict(proposed, out=bytes(30_000)).word, expected)
    for size, word in set_at_limit(CHECKED_LITERALS, SMALLER + 4):
        proposed = encoded_set(first_literals(size, SOURCE))
        for check in (check_source, check_plain):
            tally.same(f"check set of {size}", check(empty, proposed, out=bytes(400)).word, word)


def first_literals(size, form):
    stock = samples.all_literals(form.kinds)
    return [next(stock) for _ in range(size)]


def show_limits(tally):
    source = encoded_program(samples.M3)
    for number, word in ((1, 22), (2, (22 << 32) + 17), (5, (73 << 32) + 17)):
        tally.same(f"rule {number}", show_source(source, number).word, word)
    for number in (0, 6, 2**32 - 1):
        tally.same(f"rule {number}", show_source(source, number).word, refused(13, 0))
    tally.same("plain rule 4", show_plain(M1_PLAIN, 4).word, (51 << 32) + 22)


# ---------------------------------------------------------------------------------------------
# Agreement with itself


def random_shape(rng):
    return samples.Shape(rules=rng.randint(1, 4), atoms=rng.randint(1, 3), tags=rng.randint(1, 2))


def matched_source(rng, most):
    """A random source whose translation has few enough literals to try all sets of them."""
    while True:
        rules = samples.random_source(rng, random_shape(rng))
        if len(samples.literals_of(translation(rules))) <= most:
            return rules


def one_to_one_match(tally, rng):
    """Answer sets of source and translation, by trying all sets on both sides."""
    several = 0
    for run in range(MATCHED_SOURCES):
        rules = matched_source(rng, 11 if run % 20 == 0 else 9)
        plain = translation(rules)
        source_sets = answer_sets(rules, samples.literals_of(rules))
        plain_sets = answer_sets(plain, samples.literals_of(plain))
        several += len(source_sets) > 1
        extensions = [extension(rules, answer_set) for answer_set in source_sets]
        tally.same(f"match {rules}", sorted(map(sorted, extensions)),
                   sorted(map(sorted, plain_sets)))
        tally.same(f"restriction {rules}", [restriction(found) for found in extensions],
                   source_sets)
        translation_as_bytes(tally, rules, plain)
    tally.same("some sources with several answer sets", several > MATCHED_SOURCES // 20, True)


def translation_as_bytes(tally, items, plain):
    """What translate writes is read as the translation, and its length is the document's sum."""
    source = encoded_program(items)
    word, buffer = translate(source, out=bytes(TIMES_LONGER * sum_length(source)))
    tally.same(f"translation {items}", read_rules(PLAIN, buffer[:word]), plain)
    tally.same(f"length {items}", word, 4 + sum(map(translated_length, expanded(items))))


def matched_items(rng, most):
    """A random source whose sheets append some rule, few enough literals to try all sets."""
    while True:
        items = samples.random_items(rng, random_shape(rng), 3)
        if (appended_rules(items)
                and len(samples.literals_of(translation(expanded(items)))) <= most):
            return items


def match_with_sheets(tally, rng):
    """Answer sets of a source with sheets and of its translation; the same rules written out."""
    several = 0
    for run in range(MATCHED_SHEETS):
        items = matched_items(rng, 11 if run % 20 == 0 else 9)
        rules, source = expanded(items), encoded_program(items)
        word, buffer = translate(source, out=bytes(TIMES_LONGER * sum_length(source)))
        plain = read_rules(PLAIN, buffer[:word])
        sets = answer_sets(rules, samples.literals_of(rules))
        several += len(sets) > 1
        found = answer_sets(plain, samples.literals_of(plain))
        tally.same(f"match {items}", sorted(sorted(extension(rules, one)) for one in sets),
                   sorted(map(sorted, found)))
        translation_as_bytes(tally, items, plain)
        whole = encoded_program(rules)
        tally.same(f"written out {items}", translate(whole, out=bytes(word)).buffer, buffer[:word])
    tally.same("some sheets with several answer sets", several > 0, True)


def expansions(tally, rng):
    """What is appended, by a test of each candidate, beside the reference's loops."""
    long = 0
    for _ in range(COMPARED_EXPANSIONS):
        shape = samples.Shape(rules=rng.randint(0, 12), atoms=rng.randint(1, 8),
                              tags=rng.randint(1, 6), heads=rng.randint(1, 5))
        items = samples.random_items(rng, shape, rng.choice((2, 6, 20)))
        rules = written_rules(items)

        def heads(tag, option):
            return any(rule.tag == tag and option in rule.heads for rule in rules)

        wanted = []
        for over in filter_kind(items, Override):
            for pair in filter_kind(items, Opposition):
                for a, b in (tuple(pair), tuple(pair)[::-1]):
                    rule = strict([defeated(over.lower, b)], [a])
                    if heads(over.upper, a) and heads(over.lower, b) and rule not in wanted:
                        wanted.append(rule)
        long += len(wanted) > 5
        tally.same(f"expanded {items}", expanded(items), rules + wanted)
    tally.same("some expansions with many rules", long > COMPARED_EXPANSIONS // 20, True)


def filter_kind(items, kind):
    return [item for item in items if isinstance(item, kind)]


def translated_length(rule):
    heads, bodies = len(rule.heads), len(rule.positives) + len(rule.nafs)
    if rule.is_defeasible():
        return 66 * heads + 5 * bodies + 24
    return 7 + 5 * (heads + bodies)


def brute_force_and_search(tally, rng):
    """The two ways to the first smaller model, up to the most literals that are tried by force."""
    for run in range(COMPARED_SEARCHES):
        large = run % 20 == 0
        shape = samples.Shape(rules=rng.randint(20, 40) if large else rng.randint(1, 25),
                              atoms=12 if large else rng.randint(2, 6), heads=3, positives=3,
                              nafs=1)
        rules = samples.random_plain(rng, shape)
        literals = sorted(samples.literals_of(rules))
        most = BRUTE_FORCE_LITERALS if large else 9
        proposed = frozenset(rng.sample(literals, min(len(literals), most)))
        left = quotient(rules, proposed)
        tally.same(f"smaller {rules} {sorted(proposed)}",
                   first_smaller_by_search(left, proposed),
                   first_smaller_by_brute_force(left, proposed))


def verdicts_and_answer_sets(tally, rng):
    """The check says yes exactly of the answer sets, in both forms."""
    for run in range(100):
        source_form = run % 2 == 0
        make = samples.random_source if source_form else samples.random_plain
        check = check_source if source_form else check_plain
        rules = make(rng, samples.Shape(rules=rng.randint(1, 5)))
        literals = samples.literals_of(rules)
        for _ in range(5):
            proposed = samples.random_subset(rng, literals, 7)
            word = check(encoded_program(rules), encoded_set(proposed), out=bytes(100)).word
            tally.same(f"yes {rules} {sorted(proposed)}", word == YES,
                       is_answer_set(rules, frozenset(proposed)))
            tally.same(f"clash {rules} {sorted(proposed)}", word >> 32 == 1,
                       not is_interpretation(proposed))


def rules_of_text(text):
    """The rules that a text in aspif says, over numbers: heads, positives, nafs. Names apart."""
    lines = text.decode("ascii").split("\n")
    assert lines[0] == "asp 1 0 0" and lines[-2:] == ["0", ""]
    rules, names = [], {}
    for line in lines[1:-2]:
        kind, *fields = line.split(" ")
        if kind == "1":
            choice, heads, *rest = map(int, fields)
            weights, body = rest[heads:heads + 2]
            literals = rest[heads + 2:]
            assert (choice, weights, len(literals)) == (0, 0, body)
            rules.append((rest[:heads], [one for one in literals if one > 0],
                          [-one for one in literals if one < 0]))
        else:
            length, name, condition, number = fields
            assert (kind, condition, int(length)) == ("4", "1", len(name))
            names[int(number)] = name
    return rules, names


def answer_sets_of_text(rules, numbers):
    """Minimal models of the reduct, by trying all sets: here no two numbers clash."""
    found = []
    for chosen in subsets(numbers):
        reduct = [Remainder(0, heads, positives) for heads, positives, nafs in rules
                  if not chosen.intersection(nafs)]
        if is_model(reduct, chosen) and not any(is_model(reduct, smaller)
                                                for smaller in proper_subsets(chosen)):
            found.append(chosen)
    return found


def texts_and_programs(tally, rng):
    """The answer sets of a text are those of its program, number for number."""
    several = 0
    for _ in range(MATCHED_TEXTS):
        while True:
            rules = samples.random_plain(rng, random_shape(rng))
            literals = samples.literals_of(rules)
            if len(literals) <= 9:
                break
        numbers = numbering(rules)
        said, names = rules_of_text(aspif_text(rules))
        expected = [frozenset(map(numbers.get, found)) for found in answer_sets(rules, literals)]
        found = answer_sets_of_text(said, numbers.values())
        several += len(found) > 1
        tally.same(f"text {rules}", sorted(map(sorted, found)), sorted(map(sorted, expected)))
        named = {number for literal, number in numbers.items() if literal.kind < 2}
        tally.same(f"names {rules}", set(names), named)
    tally.same("some texts with several answer sets", several > 0, True)


def assemblies(tally, rng):
    """Random calls beside a list of records: what is closed is what the list says."""
    closings = 0
    for _ in range(ASSEMBLIES):
        shape = samples.Shape(rules=12, heads=rng.choice((2, 16)), positives=rng.choice((2, 16)))
        records = [encoded_rule(rule) for rule in samples.random_source(rng, shape)]
        lent = pattern(rng.choice((4, 60, 400, 3_000)))
        state, buffer, held = NO_STATE, lent, None      # None: not open
        for _ in range(rng.randint(1, ASSEMBLY_STEPS)):
            step = rng.choices((begin, add, drop, close), (20 if held is None else 1, 30, 8, 3))[0]
            given = [rng.choice(records)] if step is add else []
            answer = step(state, *given, out=buffer)
            length = len(b"".join(held or ()))
            if step is begin:
                wanted = 0
            elif held is None or (step is drop and not held):
                wanted = refused(15, 0)
            elif step is drop:
                wanted = len(held) - 1
            elif step is add and length + len(given[0]) + 4 <= len(lent):
                wanted = len(held) + 1
            else:
                wanted = refused(9, 0) if step is add else len(held)
            tally.same(f"{step.__name__} of {held}", answer.word, wanted)
            if wanted >= REFUSED:
                tally.same("nothing changed", answer[1:], (state, buffer))
                continue
            state, buffer = answer.state, answer.buffer
            held = {begin: [], add: (held or []) + given, drop: (held or [])[:-1],
                    close: held}[step]
            records_held = b"".join(held)
            tally.same("length", assembled(state).word, len(records_held) + 4)
            tally.same("records", buffer[:len(records_held)], records_held)
            if step is not close:
                continue
            closings += 1
            made = buffer[:assembled(state).word]
            tally.same("read", read_source(made).word, len(held))
            shown = [show_source(made, number).word for number in range(1, len(held) + 1)]
            tally.same("shown", [made[word >> 32:][:word & 0xFFFF_FFFF] for word in shown], held)
            held = None
    tally.same("many were closed", closings > 3 * ASSEMBLIES, True)


def reading_and_writing(tally, rng):
    """Reading gives back what was encoded, and each proper prefix is refused as cut."""
    for run in range(90):
        shape = samples.Shape(rules=rng.randint(0, 4))
        form = (SOURCE, PLAIN, SOURCE)[run % 3]
        items = (samples.random_source(rng, shape), samples.random_plain(rng, shape),
                 samples.random_items(rng, shape, 4))[run % 3]
        data = encoded_program(items)
        tally.same(f"read {items}", read_items(form, data), items)
        cut = rng.randrange(len(data))
        tally.same(f"cut {items}", read_word(form, data[:cut]) >> 32, refused(2, 0) >> 32)


def main():
    tally = Tally()
    for part in (marked_example_1, marked_example_2, marked_example_3, marked_examples_4_and_5,
                 marked_examples_6_to_9, kinds_of_literals, example_with_sheets, orders_and_repeats,
                 wrong_sheets, texts_in_aspif, bound_of_texts, figures, rule_limits, sheet_limits,
                 count_limits, number_limits, length_limits, set_limits, show_limits,
                 examples_assembled, states_of_assembly, assembly_refusals, states_that_are_none,
                 assembly_limits):
        tally.run(part)
    for part in (one_to_one_match, match_with_sheets, expansions, brute_force_and_search,
                 verdicts_and_answer_sets, texts_and_programs, reading_and_writing, assemblies):
        tally.run(part, random.Random(f"{SEED} {part.__name__}"))
    print(f"{tally.checks} checks, {tally.failed} failed")
    return 1 if tally.failed or not tally.checks else 0


if __name__ == "__main__":
    sys.exit(main())
