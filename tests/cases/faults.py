"""Rule records with one fault or several, and the refusal that the document's order gives.

The order of tests stands here once more, as a list, apart from the reference: each case states its
refusal, and a reference that tests in another order contradicts it.
"""

from dataclasses import dataclass
from functools import lru_cache
from itertools import combinations, product
from typing import Callable, NamedTuple, Optional

from aspda import (DEFEASIBLE, LAST_ATOM, LAST_NUMBERED_RULE, LAST_TAG, PLAIN, SOURCE, STRICT,
                   Literal, atom, defeated, derived, encoded_literals, encoded_program,
                   encoded_rule, negated, rule_defeated, strict)
from cases.operations import ACCEPTED
from cases.slices import Slice, whole


class ProgramCase(NamedTuple):
    """A program with its refusal as (number, place), ACCEPTED, or None where nobody states it."""

    name: str
    program: Slice
    stated: object = None


@dataclass
class Draft:
    """A rule record whose fields may be wrong; its counts follow its literals."""

    mark: bytes
    tag: int
    heads: list
    positives: list
    nafs: list
    keep: Optional[int] = None      # only so many of its bytes are there, and nothing behind them
    drop: int = 0                   # so many of its bytes are missing at the end

    def literals(self):
        return self.heads + self.positives + self.nafs

    def is_cut(self):
        return self.keep is not None or self.drop > 0

    def data(self):
        counts = bytes((len(self.heads), len(self.positives), len(self.nafs)))
        record = (self.mark + self.tag.to_bytes(2, "big") + counts
                  + encoded_literals(self.literals()))
        return record[:len(record) - self.drop][:self.keep]


def good_draft(mark):
    return Draft(mark, 7 if mark == DEFEASIBLE else 0, [atom(1), negated(2)],
                 [defeated(7, atom(3)), atom(4)], [negated(5), atom(6)])


# One test of a rule record; those of "fewer than two bytes left" and of the end record are apart.
MARK, HEADER, RULES, TAG, COUNT, CUT, LITERAL, HEAD = range(8)
# Its refusal's number. A record's faults are found in the order of the tests above.
NUMBERS = {MARK: 3, HEADER: 2, RULES: 4, TAG: 6, COUNT: 4, CUT: 2, LITERAL: 5, HEAD: 7}


class Fault(NamedTuple):
    name: str
    test: int
    spoil: Callable[[Draft], None]
    is_there: Callable[[Draft], bool]       # another fault may have taken it away


def setting(name, test, field, value):
    """A fault that sets one field of the draft."""
    return Fault(name, test, lambda draft: setattr(draft, field, value),
                 lambda draft: getattr(draft, field) == value)


def lengthening(part, count):
    """A count over its limit, its literals all there."""
    def spoil(draft):
        literals = getattr(draft, part)
        literals += literals[-1:] * (count - len(literals))
    return Fault(f"{part}-{count}", COUNT, spoil, lambda draft: len(getattr(draft, part)) == count)


def replacing(name, test, part, index, literal):
    """A literal that stands where it must not."""
    def spoil(draft):
        literals = getattr(draft, part)
        literals[index:index + 1 or None] = [literal]
    return Fault(name, test, spoil, lambda draft: getattr(draft, part)[index:][:1] == [literal])


def mark_faults(form):
    wrong = {"y": b"Y:", "semicolon": b"S;", "small": b"s:", "zero": b"\0\0", "set": b"A:",
             "refusal": b"R:", "swapped": b":D"}
    if form is PLAIN:
        wrong |= {"defeasible": b"D:", "override": b"O:", "opposition": b"X:"}
    return [setting(f"mark-{name}", MARK, "mark", mark) for name, mark in wrong.items()]


def tag_faults(mark):
    wrong = (0, LAST_TAG + 1, 256, 65_535) if mark == DEFEASIBLE else (1, 7, LAST_TAG, 256)
    return [setting(f"tag-{tag}", TAG, "tag", tag) for tag in wrong]


def count_faults(form):
    limits = {"heads": form.heads, "positives": form.positives, "nafs": form.nafs}
    return [lengthening(part, count) for part, limit in limits.items()
            for count in (limit + 1, 255)]


def cut_faults():
    return ([setting(f"header-of-{keep}-bytes", HEADER, "keep", keep) for keep in range(2, 7)]
            + [setting("no-literals", CUT, "keep", 7), setting("one-byte-missing", CUT, "drop", 1),
               setting("one-literal-missing", CUT, "drop", 5)])


NO_LITERAL = Literal(9, 9, 9)   # wrong in each field, in either form


def wrong_literals(form):
    no_atom, no_tag, no_rule = LAST_ATOM + 1, LAST_TAG + 1, LAST_NUMBERED_RULE + 1
    wrong = {
        "atom-0": atom(0), f"atom-{no_atom}": atom(no_atom), "atom-65535": atom(65_535),
        "atom-with-tag-1": Literal(0, 1, 1), "atom-with-tag-256": Literal(0, 256, 1),
        "negated-0": negated(0), f"negated-{no_atom}": negated(no_atom),
        "negated-with-tag-7": Literal(1, 7, 1),
        "defeated-tag-0": defeated(0, atom(1)), f"defeated-tag-{no_tag}": defeated(no_tag, atom(1)),
        "defeated-atom-0": defeated(7, atom(0)),
        f"defeated-atom-{no_atom}": defeated(7, negated(no_atom)),
        "kind-7": Literal(7, 0, 1), "kind-255": Literal(255, 255, 1),
    }
    if form is SOURCE:
        wrong |= {"kind-4": derived(7, atom(1)), "kind-5": derived(7, negated(1)),
                  "kind-6": rule_defeated(1)}
    else:
        wrong |= {"derived-tag-0": derived(0, atom(1)),
                  f"derived-tag-{no_tag}": derived(no_tag, negated(1)),
                  f"derived-atom-{no_atom}": derived(LAST_TAG, atom(no_atom)),
                  "rule-0": rule_defeated(0), f"rule-{no_rule}": rule_defeated(no_rule),
                  "rule-with-tag-1": Literal(6, 1, 1)}
    return wrong


def literal_faults(form):
    """Each wrong literal in one place, and one of them in every place."""
    places = (("heads", 0), ("heads", -1), ("positives", 0), ("positives", -1), ("nafs", 0),
              ("nafs", -1))
    wrong = wrong_literals(form)
    faults = []
    for number, (name, literal) in enumerate(wrong.items()):
        part, index = places[number % len(places)]
        faults.append(replacing(f"{name}-in-{part}", LITERAL, part, index, literal))
    for part, index in places:
        faults.append(replacing(f"kind-9-in-{part}{index}", LITERAL, part, index, NO_LITERAL))
    return faults


def head_faults():
    return [setting("head-empty", HEAD, "heads", []),
            replacing("head-defeated", HEAD, "heads", 0, defeated(7, atom(1))),
            replacing("head-defeated-last", HEAD, "heads", -1, defeated(8, negated(2)))]


@lru_cache(maxsize=None)
def faults_of(form, mark):
    """All faults that a record with this mark can have, except one rule too many."""
    found = (mark_faults(form) + tag_faults(mark) + count_faults(form) + cut_faults()
             + literal_faults(form))
    return found + head_faults() if mark == DEFEASIBLE else found


def one_fault_of_each(form, mark):
    """One fault for each test, all of which can stand in one record."""
    return list({fault.test: fault for fault in faults_of(form, mark)}.values())


def marks_of(form):
    return (STRICT, DEFEASIBLE) if form is SOURCE else (STRICT,)


def spoiled(mark, faults):
    """The record with all the faults, or None where one takes another away."""
    draft = good_draft(mark)
    for fault in faults:
        fault.spoil(draft)
    return draft if all(fault.is_there(draft) for fault in faults) else None


def place_in(draft, form, test):
    """The offset of a refusal in the record: its first byte, or that of the first wrong literal."""
    if test != LITERAL:
        return 0
    wrong = {NO_LITERAL, *wrong_literals(form).values()}
    return 7 + 5 * [literal in wrong for literal in draft.literals()].index(True)


def program_with(form, draft, before, after):
    """A program of rules, the record, and more rules unless the record is cut."""
    start = encoded_rules(before)
    end = b"" if draft.is_cut() else encoded_rules(after) + end_record(before + after + 1)
    return whole(start) + whole(draft.data()) + whole(end)


def encoded_rules(count):
    rules = [strict([atom(1)], [negated(2)]), strict()]
    return b"".join(encoded_rule(rules[number % 2]) for number in range(count))


def end_record(rules):
    return b"E:" + rules.to_bytes(2, "big")


def case_with(form, mark, faults, before, after=1):
    """The case of one record with some faults: the first test in order gives the refusal."""
    draft = spoiled(mark, faults)
    if draft is None:
        return None
    test = min(fault.test for fault in faults)
    name = "-and-".join(fault.name for fault in faults)
    place = len(encoded_rules(before)) + place_in(draft, form, test)
    return ProgramCase(f"{mark[:1].decode()}-{name}-behind-{before}",
                       program_with(form, draft, before, after), (NUMBERS[test], place))


def single_faults(form):
    for mark in marks_of(form):
        for fault, before in product(faults_of(form, mark), (0, 3)):
            yield case_with(form, mark, [fault], before)


def fault_pairs(form):
    """Two faults in one record: all pairs of different tests."""
    for mark in marks_of(form):
        for first, second in combinations(faults_of(form, mark), 2):
            if first.test != second.test:
                case = case_with(form, mark, sorted((first, second), key=lambda one: one.test), 1)
                if case is not None:
                    yield case


def fault_sets(form):
    """Any number of tests failing in one record, one fault for each test."""
    for mark in marks_of(form):
        ordered = sorted(one_fault_of_each(form, mark), key=lambda one: one.test)
        for size in range(3, len(ordered) + 1):
            for faults in combinations(ordered, size):
                name = "-".join(str(NUMBERS[fault.test]) for fault in faults)
                case = case_with(form, mark, faults, 2)
                yield case._replace(name=f"{mark[:1].decode()}-faults-{name}")


def faults_apart(form):
    """Faults in two records: the first record's one counts, whatever the second's is."""
    for mark in marks_of(form):
        firsts = [fault for fault in faults_of(form, mark) if fault.test not in (HEADER, CUT)]
        for first, second in product(firsts, one_fault_of_each(form, mark)):
            case = case_with(form, mark, [first], 1, after=0)
            later = spoiled(mark, [second]).data()
            program = case.program.cut(len(case.program) - 4) + whole(later + end_record(3))
            yield ProgramCase(f"{case.name}-then-{second.name}", program, case.stated)


def faults_behind_all_rules(form, faults):
    """One rule too many with another fault in it: only mark and header come before."""
    full = encoded_program([strict()] * form.rules)
    start = whole(full).cut(len(full) - 4)
    for mark in marks_of(form):
        for fault in faults(form, mark):
            draft = spoiled(mark, [fault])
            program = start + whole(draft.data())
            if not draft.is_cut():
                program += whole(end_record(form.rules + 1))
            number = NUMBERS[min(fault.test, RULES)]
            yield ProgramCase(f"{mark[:1].decode()}-{fault.name}-behind-all", program,
                              (number, len(start)))


def end_faults(form):
    """Wrong numbers in the end record, bytes behind it, and faults before it."""
    for rules in (0, 1, 2, 5):
        start = encoded_rules(rules)
        for number in {rules + 1, max(rules - 1, 0), rules + 256, rules * 256, 65_535} - {rules}:
            yield ProgramCase(f"end-says-{number}-of-{rules}", whole(start + end_record(number)),
                              (8, len(start)))
        for tail in (b"\0", b"E", end_record(rules), end_record(rules + 1), encoded_rules(1)):
            for number in (rules, rules + 1):
                program = whole(start + end_record(number) + tail)
                yield ProgramCase(f"end-says-{number}-of-{rules}-and-{len(tail)}-more", program,
                                  (8, len(start)))
        for keep in range(4):
            for number in (rules, 0x4040):
                yield ProgramCase(f"end-of-{keep}-bytes-behind-{rules}",
                                  whole(start + end_record(number)[:keep]), (2, len(start)))
        for first in range(0, 256, 51):
            yield ProgramCase(f"one-byte-{first}-behind-{rules}", whole(start + bytes((first,))),
                              (2, len(start)))


def good_program(form):
    for mark in marks_of(form):
        yield ProgramCase(f"good-record-{mark[:1].decode()}",
                          program_with(form, good_draft(mark), 2, 2), ACCEPTED)
