"""The reference: every operation on defeasible answer-set programs, in plain Python.

Written from document 01 ("Kit programs with defaults and their plain translation"), for the export
to aspif, preference sheets and program assembly from document 02's asks 1, 2 and 4, and from nothing
else, so that a mistake in the library's own definitions shows as a difference. It is plain before it
is fast: each definition follows the document's sentence. The documents leave the bytes of an
assembly's state open: `encoded_state` has the layout.

In order: limits; refusals; literals, rules and preference sheets; bytes to programs and sets;
programs and sets to bytes; the expanded program; meaning (quotient, model, answer set);
translation, extension, restriction; the text in aspif; the first smaller model; the operations as
words; program assembly; the filter.

Run as a program it is the filter: python3 aspda.py < source > plain
"""

import sys
from collections import Counter
from functools import lru_cache, wraps
from itertools import compress, product, starmap
from struct import Struct
from typing import NamedTuple


# ---------------------------------------------------------------------------------------------
# Limits


class Form(NamedTuple):
    """One form's row of limits: the largest value of each figure. Zero is always allowed."""

    length: int
    rules: int
    heads: int
    positives: int
    nafs: int
    marks: tuple        # those of rules and of the end
    kinds: range
    set_literals: int
    sheets: int         # O: records, and X: records; a form that takes none has no such marks


STRICT, DEFEASIBLE, END, SET, REFUSAL = b"S:", b"D:", b"E:", b"A:", b"R:"
OVERRIDE, OPPOSITION = b"O:", b"X:"

SOURCE = Form(length=64_388, rules=256, heads=16, positives=16, nafs=16,
              marks=(STRICT, DEFEASIBLE, END), kinds=range(0, 4), set_literals=1_000, sheets=64)
PLAIN = Form(length=456_708, rules=20_992, heads=16, positives=16, nafs=17,
             marks=(STRICT, END), kinds=range(0, 7), set_literals=5_352, sheets=0)

LAST_ATOM, LAST_TAG, LAST_NUMBERED_RULE = 500, 200, 256
ATOMS = range(1, LAST_ATOM + 1)
TAGS = range(1, LAST_TAG + 1)
NUMBERED_RULES = range(1, LAST_NUMBERED_RULE + 1)
CHECKED_LITERALS = 64
FILTER_OUTPUT = 65_536
TIMES_LONGER = 13       # a translation has at most so many times its source's bytes,
APPENDED_RULE = 17      # to which each appended rule adds so many
# A text in aspif has at most so many times its program's bytes, and so many bytes more.
ASPIF_TIMES_LONGER, ASPIF_BEYOND = 2, 29_012
ASSEMBLY_STATE = 520    # bytes: 8, and two for each rule that a source may have

RULE_HEADER = Struct(">2sHBBB")     # mark, tag, head count, positive count, naf count
OVERRIDE_RECORD = Struct(">2sHH")   # mark, upper tag, lower tag
OPPOSITION_RECORD = Struct(">2s5s5s")   # mark, two literals
END_RECORD = Struct(">2sH")         # mark, number of rules
SET_HEADER = Struct(">2sH")         # mark, number of literals
REFUSAL_RECORD = Struct(">2sBI")    # mark, number, place
LITERAL = Struct(">BHH")            # kind, tag, atom
STATE_HEADER = Struct(">BBHI")      # begun and open or closed, 0, number of rules held, 0

# Above this size the check goes by search; the self-test compares the two below it.
BRUTE_FORCE_LITERALS = 16


# ---------------------------------------------------------------------------------------------
# Refusals

TOO_LONG = 1
CUT = 2
WRONG_MARK = 3
TOO_MANY = 4            # one rule or record of a sheet too many, or a count over its limit
WRONG_LITERAL = 5
WRONG_TAG = 6
WRONG_HEAD = 7          # a defeasible head that is empty or holds a defeat mark
WRONG_END = 8
OUTPUT_TOO_SHORT = 9
WRONG_SET = 10          # the set's mark, or its length not as counted
WRONG_SET_LITERAL = 11
SET_TOO_LARGE = 12
NO_SUCH_RULE = 13
EQUAL = 14              # both tags or both literals of a sheet's record
NOT_OPEN = 15           # an assembly that is not open, or has no rule to drop

REFUSED = 1 << 63


class Refusal(Exception):
    """A refusal's number and place."""

    def __init__(self, number, place):
        super().__init__(f"refused {number} at {place}")
        self.number = number
        self.place = place

    def word(self):
        return REFUSED + (self.number << 32) + self.place


def refuse_if(wrong, number, place):
    if wrong:
        raise Refusal(number, place)


# ---------------------------------------------------------------------------------------------
# Literals, rules and preference sheets


class Literal(NamedTuple):
    """Its fields in the order of its bytes: tuples compare as the byte strings do."""

    kind: int
    tag: int
    atom: int   # of the rule-defeated mark: a rule number


KIND_ATOM, KIND_NEGATED = 0, 1
KIND_DEFEATED = 2       # 2 with an atom, 3 with a negated atom
KIND_DERIVED = 4        # 4 with an atom, 5 with a negated atom
KIND_RULE_DEFEATED = 6


class Rule(NamedTuple):
    """A rule. The tag of a strict rule is 0, which no defeasible rule has."""

    tag: int
    heads: tuple
    positives: tuple
    nafs: tuple

    def is_defeasible(self):
        return self.tag != 0


class Override(NamedTuple):
    """One tag overrides another."""

    upper: int
    lower: int


class Opposition(NamedTuple):
    """Two options, atoms or negated atoms, oppose each other."""

    first: Literal
    second: Literal


def is_negated(literal):
    """Is it a negated atom, or a mark of one? Odd kinds are; the rule-defeated mark has no sign."""
    return literal.kind % 2 == 1


def atom(number):
    return Literal(KIND_ATOM, 0, number)


def negated(number):
    return Literal(KIND_NEGATED, 0, number)


def defeated(tag, literal):
    """The defeat mark of a tag with an atom or a negated atom."""
    return Literal(KIND_DEFEATED + is_negated(literal), tag, literal.atom)


def derived(tag, literal):
    """The derivation mark of a tag with an atom or a negated atom."""
    return Literal(KIND_DERIVED + is_negated(literal), tag, literal.atom)


def rule_defeated(number):
    return Literal(KIND_RULE_DEFEATED, 0, number)


def strict(heads=(), positives=(), nafs=()):
    return Rule(0, tuple(heads), tuple(positives), tuple(nafs))


def defeasible(tag, heads, positives=(), nafs=()):
    return Rule(tag, tuple(heads), tuple(positives), tuple(nafs))


def is_of_form(form, literal):
    """Is this a literal of the form's kinds, with tag and atom in their ranges?"""
    kind, tag, number = literal
    if kind not in form.kinds:
        return False
    if KIND_DEFEATED <= kind < KIND_RULE_DEFEATED:
        if tag not in TAGS:
            return False
    elif tag != 0:
        return False
    return number in (NUMBERED_RULES if kind == KIND_RULE_DEFEATED else ATOMS)


def opposite(literal):
    """The explicit negation of an atom and back; marks have none."""
    if literal.kind in (KIND_ATOM, KIND_NEGATED):
        return (atom if is_negated(literal) else negated)(literal.atom)
    return None


# ---------------------------------------------------------------------------------------------
# Bytes to programs and sets


class Record(NamedTuple):
    """An item of a program, a rule or a sheet's, with the offsets of its record."""

    start: int
    end: int
    item: object    # a Rule, an Override or an Opposition


def literals_at(data, first, end):
    """The literals from an offset up to another, right or wrong."""
    return list(map(Literal._make, LITERAL.iter_unpack(data[first:end])))


@lru_cache(maxsize=16)  # only for speed: one large program is often given to many calls
def read(form, data):
    """The records of an accepted program before its end record, in order."""
    refuse_if(len(data) > form.length, TOO_LONG, 0)
    records = []
    held = Counter()    # by the item's type
    at = 0
    while True:
        mark = read_mark(form, data, at)
        if mark == END:
            read_end(data, at, held[Rule])
            return tuple(records)
        records.append(read_record(form, mark, data, at, held))
        held[type(records[-1].item)] += 1
        at = records[-1].end


def read_mark(form, data, at):
    refuse_if(len(data) - at < 2, CUT, at)
    mark = data[at:at + 2]
    of_sheets = (OVERRIDE, OPPOSITION) if form.sheets > 0 else ()
    refuse_if(mark not in form.marks and mark not in of_sheets, WRONG_MARK, at)
    return mark


def read_record(form, mark, data, at, held):
    if mark == OVERRIDE:
        return read_override(form, data, at, held[Override])
    if mark == OPPOSITION:
        return read_opposition(form, data, at, held[Opposition])
    return read_rule(form, data, at, held[Rule])


def read_override(form, data, at, held):
    """One O: record at an offset, the tests in document 02's order."""
    refuse_if(held == form.sheets, TOO_MANY, at)
    refuse_if(len(data) - at < OVERRIDE_RECORD.size, CUT, at)
    _, upper, lower = OVERRIDE_RECORD.unpack_from(data, at)
    refuse_if(upper not in TAGS or lower not in TAGS, WRONG_TAG, at)
    refuse_if(upper == lower, EQUAL, at)
    return Record(at, at + OVERRIDE_RECORD.size, Override(upper, lower))


def read_opposition(form, data, at, held):
    """One X: record at an offset, the tests in document 02's order."""
    refuse_if(held == form.sheets, TOO_MANY, at)
    end = at + OPPOSITION_RECORD.size
    refuse_if(len(data) < end, CUT, at)
    literals = literals_at(data, at + 2, end)
    for number, literal in enumerate(literals):
        refuse_if(not is_option(form, literal), WRONG_LITERAL, at + 2 + LITERAL.size * number)
    first, second = literals
    refuse_if(first == second, EQUAL, at)
    return Record(at, end, Opposition(first, second))


def is_option(form, literal):
    return literal.kind in (KIND_ATOM, KIND_NEGATED) and is_of_form(form, literal)


def read_end(data, at, held):
    refuse_if(len(data) - at < END_RECORD.size, CUT, at)
    _, rules = END_RECORD.unpack_from(data, at)
    refuse_if(rules != held, WRONG_END, at)
    refuse_if(len(data) - at > END_RECORD.size, WRONG_END, at)


def read_rule(form, data, at, held):
    """One rule record at an offset, the tests in the document's order."""
    refuse_if(len(data) - at < RULE_HEADER.size, CUT, at)
    refuse_if(held == form.rules, TOO_MANY, at)
    mark, tag, heads, positives, nafs = RULE_HEADER.unpack_from(data, at)
    refuse_if(not tag_fits(mark, tag), WRONG_TAG, at)
    refuse_if(heads > form.heads or positives > form.positives or nafs > form.nafs, TOO_MANY, at)
    first = at + RULE_HEADER.size
    end = first + LITERAL.size * (heads + positives + nafs)
    refuse_if(len(data) < end, CUT, at)
    literals = read_literals(form, data, first, end)
    rule = Rule(tag, literals[:heads], literals[heads:heads + positives],
                literals[heads + positives:])
    refuse_if(mark == DEFEASIBLE and not is_defeasible_head(rule.heads), WRONG_HEAD, at)
    return Record(at, end, rule)


def tag_fits(mark, tag):
    return tag in TAGS if mark == DEFEASIBLE else tag == 0


def read_literals(form, data, first, end):
    literals = literals_at(data, first, end)
    for number, literal in enumerate(literals):
        refuse_if(not is_of_form(form, literal), WRONG_LITERAL, first + LITERAL.size * number)
    return tuple(literals)


def is_defeasible_head(heads):
    return len(heads) > 0 and all(head.kind in (KIND_ATOM, KIND_NEGATED) for head in heads)


def read_items(form, data):
    """What is written in the bytes: rules, overrides and oppositions."""
    return [record.item for record in read(form, data)]


def read_rules(form, data):
    """The program that the bytes stand for: its rules, numbered from 1 by their position."""
    return expanded(read_items(form, data))


def read_set(form, data, most):
    """The literals of a set record, ascending; most is the largest number of them."""
    first = SET_HEADER.size
    refuse_if(len(data) < first, WRONG_SET, 0)
    mark, count = SET_HEADER.unpack_from(data)
    refuse_if(mark != SET, WRONG_SET, 0)
    refuse_if(len(data) != first + LITERAL.size * count, WRONG_SET, 0)
    refuse_if(count > most, SET_TOO_LARGE, 0)
    literals = literals_at(data, first, len(data))
    for number, literal in enumerate(literals):
        above = number == 0 or literal > literals[number - 1]
        refuse_if(not is_of_form(form, literal) or not above, WRONG_SET_LITERAL,
                  first + LITERAL.size * number)
    return literals


# ---------------------------------------------------------------------------------------------
# Programs and sets to bytes


def encoded_literals(literals):
    return b"".join(starmap(LITERAL.pack, literals))


def encoded_rule(rule):
    mark = DEFEASIBLE if rule.is_defeasible() else STRICT
    header = RULE_HEADER.pack(mark, rule.tag, len(rule.heads), len(rule.positives), len(rule.nafs))
    return header + encoded_literals(rule.heads + rule.positives + rule.nafs)


def encoded_item(item):
    if isinstance(item, Override):
        return OVERRIDE_RECORD.pack(OVERRIDE, *item)
    if isinstance(item, Opposition):
        return OPPOSITION + encoded_literals(item)
    return encoded_rule(item)


def encoded_program(items):
    """Rules and sheets' records as given, and an end record, which counts the rules alone."""
    records = b"".join(map(encoded_item, items))
    return records + END_RECORD.pack(END, len(written_rules(items)))


def encoded_set(literals):
    return SET_HEADER.pack(SET, len(literals)) + encoded_literals(sorted(literals))


def encoded_refusal(refusal):
    return REFUSAL_RECORD.pack(REFUSAL, refusal.number, refusal.place)


# ---------------------------------------------------------------------------------------------
# The expanded program


def written_rules(items):
    return [item for item in items if isinstance(item, Rule)]


def appended_rules(items):
    """The strict rules that the sheets of a program ask for, in order, each once."""
    heads = {(rule.tag, head) for rule in written_rules(items) if rule.is_defeasible()
             for head in rule.heads}
    overrides = [item for item in items if isinstance(item, Override)]
    oppositions = [item for item in items if isinstance(item, Opposition)]
    appended = {}       # its keys: a rule that is there already keeps its place
    for upper, lower in overrides:
        for first, second in oppositions:
            for a, b in ((first, second), (second, first)):
                if (upper, a) in heads and (lower, b) in heads:
                    appended[strict([defeated(lower, b)], [a])] = None
    return list(appended)


def expanded(items):
    """The program that is meant: the written rules, and behind them the appended ones."""
    return written_rules(items) + appended_rules(items)


def sum_length(data):
    """A source's length for the thirteenfold bound: its bytes, and more for each appended rule."""
    return len(data) + APPENDED_RULE * len(appended_rules(read_items(SOURCE, data)))


# ---------------------------------------------------------------------------------------------
# Meaning


class Remainder(NamedTuple):
    """What the quotient leaves of a rule, with the rule's number in the program."""

    number: int
    heads: tuple
    positives: tuple


def quotient(rules, literals):
    """The quotient of a program by a set, in rule order."""
    left = []
    for number, rule in enumerate(rules, start=1):
        if any(naf in literals for naf in rule.nafs):
            continue
        heads = rule.heads
        if rule.is_defeasible():
            heads = tuple(head for head in heads if defeated(rule.tag, head) not in literals)
            if not heads:
                continue
        left.append(Remainder(number, heads, rule.positives))
    return left


def holds(remainder, literals):
    return (any(positive not in literals for positive in remainder.positives)
            or any(head in literals for head in remainder.heads))


def is_model(remainders, literals):
    return all(holds(remainder, literals) for remainder in remainders)


def is_interpretation(literals):
    return all(opposite(literal) not in literals for literal in literals)


def subsets(literals):
    """All subsets, compared literal by literal in ascending order, absent before present."""
    ordered = sorted(literals)
    for choice in product((False, True), repeat=len(ordered)):
        yield frozenset(compress(ordered, choice))


def proper_subsets(literals):
    return (subset for subset in subsets(literals) if len(subset) < len(literals))


def is_answer_set(rules, literals):
    own = quotient(rules, literals)
    return (is_interpretation(literals) and is_model(own, literals)
            and not any(is_model(own, subset) for subset in proper_subsets(literals)))


def answer_sets(rules, literals):
    """The answer sets among all sets of the given literals."""
    return [subset for subset in subsets(literals) if is_answer_set(rules, subset)]


# ---------------------------------------------------------------------------------------------
# Translation, extension, restriction


def translated_rule(number, rule):
    """The plain rules of one rule; the document's (2) to (6) for a defeasible one."""
    if not rule.is_defeasible():
        return [rule]
    tag, heads = rule.tag, rule.heads
    plain = [
        strict([derived(tag, head) for head in heads], rule.positives,
               rule.nafs + (rule_defeated(number),)),
        strict([rule_defeated(number)], [defeated(tag, head) for head in heads]),
    ]
    for head in heads:
        plain.append(strict([head], [derived(tag, head)]))
        plain.append(strict([derived(tag, head)], [head], [defeated(tag, head)]))
        plain.append(strict([], [derived(tag, head), defeated(tag, head)]))
    return plain


def translation(rules):
    plain = []
    for number, rule in enumerate(rules, start=1):
        plain.extend(translated_rule(number, rule))
    return plain


def extension(rules, literals):
    """A source set with the derivation and rule-defeated marks that the program gives it."""
    added = set(literals)
    for number, rule in enumerate(rules, start=1):
        if not rule.is_defeasible():
            continue
        for head in rule.heads:
            if head in literals and defeated(rule.tag, head) not in literals:
                added.add(derived(rule.tag, head))
        if all(defeated(rule.tag, head) in literals for head in rule.heads):
            added.add(rule_defeated(number))
    return frozenset(added)


def restriction(literals):
    return frozenset(literal for literal in literals if literal.kind < KIND_DERIVED)


# ---------------------------------------------------------------------------------------------
# The text in aspif


def numbering(rules):
    """The number of each literal that occurs: from 1, in ascending byte order."""
    occurring = {literal for rule in rules
                 for part in (rule.heads, rule.positives, rule.nafs) for literal in part}
    return {literal: number for number, literal in enumerate(sorted(occurring), start=1)}


def aspif_rule(heads, body):
    """The statement of a rule over numbers; a naf literal's is negative."""
    return " ".join(map(str, (1, 0, len(heads), *heads, 0, len(body), *body)))


def aspif_name(literal):
    """The name of an atom or a negated atom."""
    return f"{'n' if is_negated(literal) else 'p'}{literal.atom}"


def aspif_statements(rules):
    """The text's lines: its head, the rules, the constraints, the names, its end."""
    numbers = numbering(rules)
    yield "asp 1 0 0"
    for rule in rules:
        positives = [numbers[literal] for literal in rule.positives]
        nafs = [-numbers[literal] for literal in rule.nafs]
        yield aspif_rule([numbers[literal] for literal in rule.heads], positives + nafs)
    for number in ATOMS:
        both = atom(number), negated(number)
        if all(literal in numbers for literal in both):
            yield aspif_rule([], sorted(numbers[literal] for literal in both))
    for literal, number in numbers.items():
        if literal.kind in (KIND_ATOM, KIND_NEGATED):
            name = aspif_name(literal)
            yield f"4 {len(name)} {name} 1 {number}"
    yield "0"


def aspif_text(rules):
    return "".join(f"{statement}\n" for statement in aspif_statements(rules)).encode("ascii")


# ---------------------------------------------------------------------------------------------
# The first smaller model


def first_smaller(remainders, literals):
    """The first proper subset that is a model of the quotient, or None."""
    if len(literals) <= BRUTE_FORCE_LITERALS:
        return first_smaller_by_brute_force(remainders, literals)
    return first_smaller_by_search(remainders, literals)


def first_smaller_by_brute_force(remainders, literals):
    for subset in proper_subsets(literals):
        if is_model(remainders, subset):
            return subset
    return None


def first_smaller_by_search(remainders, literals):
    ordered = sorted(literals)
    clauses = clauses_within(remainders, frozenset(ordered))
    clauses.append((frozenset(ordered), frozenset()))  # not all of them: a proper subset
    return search(clauses, ordered, frozenset(), frozenset())


def clauses_within(remainders, literals):
    """The remainders as (positives, heads), for subsets of the given literals only.

    A positive literal outside is missing in each subset, so that the rule holds; a head literal
    outside is present in none.
    """
    clauses = {(frozenset(remainder.positives), frozenset(remainder.heads) & literals): None
               for remainder in remainders if literals.issuperset(remainder.positives)}
    return list(clauses)


def search(clauses, ordered, present, absent):
    """The first model that holds the present and none of the absent literals, or None."""
    settled = settle(clauses, present, absent)
    if settled is None:
        return None
    present, absent = settled
    clauses = [clause for clause in clauses if is_open(clause, present, absent)]
    for literal in ordered:
        if literal not in present and literal not in absent:
            without = search(clauses, ordered, present, absent | {literal})
            if without is not None:
                return without
            return search(clauses, ordered, present | {literal}, absent)
    return present


def is_open(clause, present, absent):
    """Is it left to the open literals whether the clause holds?"""
    positives, heads = clause
    return not (positives & absent or heads & present)


def settle(clauses, present, absent):
    """Everything that the clauses force, or None where one can no longer hold."""
    changed = True
    while changed:
        changed = False
        for clause in clauses:
            if not is_open(clause, present, absent):
                continue
            open_positives = clause[0] - present
            open_heads = clause[1] - absent
            if len(open_positives) + len(open_heads) == 0:
                return None
            if len(open_positives) + len(open_heads) == 1:
                absent |= open_positives
                present |= open_heads
                changed = True
    return present, absent


# ---------------------------------------------------------------------------------------------
# The operations: one 64-bit word, and the lent buffer after the call


class Answer(NamedTuple):
    word: int
    buffer: bytes


CLASH, BROKEN, SMALLER = 1 << 32, 2 << 32, 3 << 32
YES = 0


def answered(operation):
    """From (inputs, room) giving (word, bytes written) to (inputs, lent buffer) giving an Answer.

    A refusal hands the buffer back as it came; bytes behind a result stay.
    """
    @wraps(operation)
    def call(*inputs, out=b""):
        try:
            word, written = operation(*inputs, room=len(out))
        except Refusal as refusal:
            return Answer(refusal.word(), out)
        return Answer(word, written + out[len(written):])
    return call


def result(written, room):
    """The answer of an operation whose word is the number of bytes that it writes."""
    refuse_if(room < len(written), OUTPUT_TOO_SHORT, 0)
    return len(written), written


def rule_records(form, program):
    """The records of the written rules: these are counted and shown."""
    return [record for record in read(form, program) if isinstance(record.item, Rule)]


def read_program(form, program):
    return len(rule_records(form, program)), b""


def show_rule(form, program, number):
    records = rule_records(form, program)
    refuse_if(not 1 <= number <= len(records), NO_SUCH_RULE, 0)
    record = records[number - 1]
    return (record.start << 32) + record.end - record.start, b""


def write_quotient(form, program, proposed, room):
    rules = read_rules(form, program)
    literals = frozenset(read_set(form, proposed, form.set_literals))
    left = [strict(remainder.heads, remainder.positives) for remainder in quotient(rules, literals)]
    return result(encoded_program(left), room)


def check_set(form, program, proposed, room):
    rules = read_rules(form, program)
    ordered = read_set(form, proposed, CHECKED_LITERALS)
    refuse_if(room < len(proposed), OUTPUT_TOO_SHORT, 0)
    return verdict(rules, ordered)


def verdict(rules, ordered):
    literals = frozenset(ordered)
    for position, literal in enumerate(ordered, start=1):
        if opposite(literal) in literals:
            return CLASH + position, b""
    left = quotient(rules, literals)
    for remainder in left:
        if not holds(remainder, literals):
            return BROKEN + remainder.number, b""
    smaller = first_smaller(left, literals)
    if smaller is None:
        return YES, b""
    witness = encoded_set(smaller)
    return SMALLER + len(witness), witness


@answered
def read_source(program, room):
    return read_program(SOURCE, program)


@answered
def read_plain(program, room):
    return read_program(PLAIN, program)


@answered
def show_source(program, number, room):
    return show_rule(SOURCE, program, number)


@answered
def show_plain(program, number, room):
    return show_rule(PLAIN, program, number)


@answered
def translate(program, room):
    return result(encoded_program(translation(read_rules(SOURCE, program))), room)


@answered
def quotient_source(program, proposed, room):
    return write_quotient(SOURCE, program, proposed, room)


@answered
def quotient_plain(program, proposed, room):
    return write_quotient(PLAIN, program, proposed, room)


@answered
def extend(program, proposed, room):
    rules = read_rules(SOURCE, program)
    literals = frozenset(read_set(SOURCE, proposed, SOURCE.set_literals))
    return result(encoded_set(extension(rules, literals)), room)


@answered
def restrict(proposed, room):
    literals = read_set(PLAIN, proposed, PLAIN.set_literals)
    return result(encoded_set(restriction(literals)), room)


@answered
def aspif(program, room):
    return result(aspif_text(read_rules(PLAIN, program)), room)


@answered
def check_source(program, proposed, room):
    return check_set(SOURCE, program, proposed, room)


@answered
def check_plain(program, proposed, room):
    return check_set(PLAIN, program, proposed, room)


# ---------------------------------------------------------------------------------------------
# Program assembly: a lent state, and a lent buffer that holds the records


class HeldRule(NamedTuple):
    """What a state tells of a rule that is held."""

    is_defeasible: bool
    heads: int
    bodies: int         # positive and naf literals together

    def size(self):
        return RULE_HEADER.size + LITERAL.size * (self.heads + self.bodies)


class Assembly(NamedTuple):
    """What a state's bytes stand for."""

    stage: int
    rules: tuple        # of HeldRule, in order


NOT_BEGUN, OPEN, CLOSED = range(3)
NOTHING_HELD = Assembly(NOT_BEGUN, ())
ABOVE_STRICT = 127      # a defeasible rule has a head: its byte starts at 128


def held_length(assembly):
    """The bytes of the records that are held."""
    return sum(rule.size() for rule in assembly.rules)


def places(index):
    """Where a state has its bytes of a rule, counted from 0: its head's and its body's."""
    return STATE_HEADER.size + index, STATE_HEADER.size + SOURCE.rules + index


def encoded_state(assembly):
    """The bytes of a state: 0 wherever no rule that is held has its own."""
    data = bytearray(ASSEMBLY_STATE)
    STATE_HEADER.pack_into(data, 0, assembly.stage, 0, len(assembly.rules), 0)
    for index, rule in enumerate(assembly.rules):
        head, body = places(index)
        data[head] = rule.heads + ABOVE_STRICT * rule.is_defeasible
        data[body] = rule.bodies
    return bytes(data)


def is_reached(assembly):
    """Does some history of calls end here? Its rules are such as reading takes."""
    if assembly.stage == NOT_BEGUN:
        return not assembly.rules
    return (assembly.stage in (OPEN, CLOSED) and len(assembly.rules) <= SOURCE.rules
            and all(rule.heads <= SOURCE.heads and rule.bodies <= SOURCE.positives + SOURCE.nafs
                    for rule in assembly.rules))


@lru_cache(maxsize=16)  # only for speed, as for reading
def decoded_state(data):
    """The assembly whose state the bytes are; what is no state is one before the first begin."""
    if len(data) != ASSEMBLY_STATE:
        return NOTHING_HELD
    stage, _, count, _ = STATE_HEADER.unpack_from(data)
    rules = []
    for head, body in map(places, range(min(count, SOURCE.rules))):
        is_defeasible = data[head] > ABOVE_STRICT
        heads = data[head] - ABOVE_STRICT * is_defeasible
        rules.append(HeldRule(is_defeasible, heads, data[body]))
    assembly = Assembly(stage, tuple(rules))
    return assembly if is_reached(assembly) and encoded_state(assembly) == data else NOTHING_HELD


class AssemblyAnswer(NamedTuple):
    word: int
    state: bytes
    buffer: bytes


def assembling(call):
    """From (assembly, inputs, room) giving (assembly, offset, bytes written there) to one on bytes.

    A refusal hands back state and buffer as they came, and so does a state of another length, which
    is refused before all else. An accepted call answers with the number of rules then held.
    """
    @wraps(call)
    def on_bytes(state, *inputs, out=b""):
        try:
            refuse_if(len(state) != ASSEMBLY_STATE, NOT_OPEN, 0)
            assembly, at, written = call(decoded_state(state), *inputs, room=len(out))
        except Refusal as refusal:
            return AssemblyAnswer(refusal.word(), state, out)
        buffer = out[:at] + written + out[at + len(written):]
        return AssemblyAnswer(len(assembly.rules), encoded_state(assembly), buffer)
    return on_bytes


def refuse_without_room(assembly, room):
    """The rules that are held and an end record have to fit."""
    refuse_if(room < held_length(assembly) + END_RECORD.size, OUTPUT_TOO_SHORT, 0)


@assembling
def begin(assembly, room):
    begun = Assembly(OPEN, ())
    refuse_without_room(begun, room)
    return begun, 0, b""


@assembling
def add(assembly, record, room):
    refuse_if(assembly.stage != OPEN, NOT_OPEN, 0)
    refuse_if(len(record) < 2, CUT, 0)
    refuse_if(record[:2] not in (STRICT, DEFEASIBLE), WRONG_MARK, 0)
    read_one = read_rule(SOURCE, record, 0, len(assembly.rules))
    rule = read_one.item
    held = HeldRule(rule.is_defeasible(), len(rule.heads), len(rule.positives) + len(rule.nafs))
    longer = Assembly(OPEN, assembly.rules + (held,))
    refuse_without_room(longer, room)
    return longer, held_length(assembly), record[:read_one.end]


@assembling
def drop(assembly, room):
    refuse_if(assembly.stage != OPEN or not assembly.rules, NOT_OPEN, 0)
    return Assembly(OPEN, assembly.rules[:-1]), 0, b""


@assembling
def close(assembly, room):
    refuse_if(assembly.stage != OPEN, NOT_OPEN, 0)
    refuse_without_room(assembly, room)
    end = END_RECORD.pack(END, len(assembly.rules))
    return Assembly(CLOSED, assembly.rules), held_length(assembly), end


def assembled(state, out=b""):
    """The length of what close writes or has written; it refuses nothing."""
    return AssemblyAnswer(held_length(decoded_state(state)) + END_RECORD.size, state, out)


# ---------------------------------------------------------------------------------------------
# The filter program


def filter(stdin):
    """Standard output for a standard input: the translation, or a refusal record."""
    source = stdin[:SOURCE.length + 1]  # its buffer: one byte more, so that excess shows
    word, buffer = translate(source, out=bytes(FILTER_OUTPUT))
    if word >= REFUSED:
        return encoded_refusal(Refusal(word - REFUSED >> 32, word & 0xFFFF_FFFF))
    return buffer[:word]


if __name__ == "__main__":
    sys.stdout.buffer.write(filter(sys.stdin.buffer.read()))
