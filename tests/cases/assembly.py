"""Calls of program assembly: states, records and rooms, right and wrong, and scripts of calls.

What bytes are a state, and the order of refusals, stand here once more, apart from the reference:
each case states its outcome, and a reference that differs contradicts it.
"""

import random
from functools import lru_cache
from itertools import combinations, islice, product
from typing import NamedTuple

import aspda
import samples
from aspda import (DEFEASIBLE, LAST_ATOM, LAST_TAG, SOURCE, STRICT, Literal, atom, defeasible,
                   defeated, encoded_rule, negated, strict)
from cases import faults
from cases.operations import BY_NAME, AssemblyCase, call_of_assembly, pattern
from cases.slices import NOTHING, Slice, whole

SIZE, FIRST, MOST = 520, 8, 256     # a state's bytes, its first rule's place, rules at most
END = 4                             # bytes of an end record
WIDEST = 7 + 5 * 48                 # bytes of a record with every count at its limit

NOT_OPEN, TOO_SHORT = (15, 0), (9, 0)


# ---------------------------------------------------------------------------------------------
# States


def places(index):
    """Where the two bytes of a rule stand, counted from 0: its head's and its body's."""
    return FIRST + index, FIRST + MOST + index


def state_of(stage, counts):
    """The bytes of a state; of each rule its head's byte and its body's."""
    data = bytearray(SIZE)
    data[0], data[2], data[3] = stage, *divmod(len(counts), 256)
    for index, pair in enumerate(counts):
        for place, byte in zip(places(index), pair):
            data[place] = byte
    return bytes(data)


class State(NamedTuple):
    name: str
    data: Slice


def heads_in(byte):
    """A strict rule's byte is its number of head literals; a defeasible one's is that and 127."""
    return byte if byte < 128 else byte - 127


@lru_cache(maxsize=16)      # many calls are given one state
def is_state(data):
    """The layout, byte by byte."""
    if len(data) != SIZE or data[0] > 2 or any(data[at] for at in (1, 4, 5, 6, 7)):
        return False
    rules = 256 * data[2] + data[3]
    if rules > MOST or (data[0] == 0 and rules > 0):
        return False
    for head, body in map(places, range(rules)):
        if heads_in(data[head]) > 16 or data[body] > 32:
            return False
    return not any(data[place] for index in range(rules, MOST) for place in places(index))


def is_open(data):
    return is_state(data) and data[0] == 1


def held(data):
    """The number of rules that a state holds; of what is none, none."""
    return 256 * data[2] + data[3] if is_state(data) else 0


@lru_cache(maxsize=16)
def held_bytes(data):
    return sum(7 + 5 * (heads_in(data[head]) + data[body])
               for head, body in map(places, range(held(data))))


MIXED = ((1, 0), (127 + 2, 4), (0, 0), (16, 32), (127 + 16, 32), (127 + 1, 0), (0, 32))
WIDEST_CHOICE = (127 + 16, 32)


@lru_cache(maxsize=None)
def states():
    """Every stage with no rule, few, and as many as there can be."""
    stock = {"no-rule": (), "one-rule": MIXED[:1], "one-choice": MIXED[1:2], "mixed": MIXED,
             f"{MOST - 1}-rules": ((0, 0),) * (MOST - 1), f"{MOST}-rules": ((0, 0),) * MOST,
             f"{MOST - 1}-widest": (WIDEST_CHOICE,) * (MOST - 1),
             f"{MOST}-widest": ((16, 32),) * MOST}
    found = [State("zero", whole(bytes(SIZE)))]
    for (name, counts), (stage, word) in product(stock.items(), ((1, "open"), (2, "closed"))):
        found.append(State(f"{word}-{name}", whole(state_of(stage, counts))))
    return found


def some(*names):
    return [state for state in states() if state.name in names]


@lru_cache(maxsize=None)
def no_states():
    """Bytes that no call gives back: of a state's length, one thing wrong in each."""
    good, full = state_of(1, MIXED), state_of(1, ((0, 0),) * MOST)
    (head, body), (_, last_body), behind = places(0), places(len(MIXED) - 1), places(len(MIXED))
    patches = {"stage-0": (0, 0), "stage-3": (0, 3), "stage-255": (0, 255), "free-1": (1, 1),
               "rules-257": (2, 1), "rules-one-fewer": (3, len(MIXED) - 1),
               "free-4": (4, 1), "free-5": (5, 128), "free-6": (6, 255), "free-7": (7, 1),
               "heads-17": (head, 17), "heads-127": (head, 127), "choice-of-17": (head, 144),
               "heads-255": (head, 255), "body-33": (body, 33), "body-255": (body, 255),
               "second-choice-of-17": (places(1)[0], 144), "last-body-33": (last_body, 33),
               "head-behind": (behind[0], 1),
               "body-behind": (behind[1], 1), "last-byte": (SIZE - 1, 1)}
    found = {name: good[:at] + bytes((byte,)) + good[at + 1:]
             for name, (at, byte) in patches.items()}
    found |= {f"{name}-closed": b"\2" + data[1:] for name, data in found.items() if data[0] == 1}
    found |= {"zeros-and-one": bytes(SIZE - 1) + b"\1", "zeros-with-a-rule": state_of(0, ((0, 0),)),
              "all-255": b"\xff" * SIZE, "all-1": b"\1" * SIZE,
              "full-says-257": full[:2] + b"\1\1" + full[4:],
              "full-says-511": full[:2] + b"\1\xff" + full[4:],
              "says-65535": full[:2] + b"\xff\xff" + full[4:]}
    assert not any(map(is_state, found.values()))
    return [State(f"no-state-{name}", whole(data)) for name, data in found.items()]


def changed_bytes(rng):
    """A state with one byte changed, each of them in turn: some are states again."""
    for name, counts in (("mixed", MIXED), ("full", (WIDEST_CHOICE, (0, 0)) * (MOST // 2))):
        good = whole(state_of(1, counts))
        for at in range(SIZE):
            mask = rng.choice((1, 2, 128, rng.randint(1, 255)))
            yield State(f"{name}-byte-{at}-changed-by-{mask}", good.flipped(at, mask))


def random_state(rng):
    """Mostly a state, with few rules or many; some zero, closed, garbage, of another length."""
    pick = rng.random()
    count = rng.choice((0, 1, 2, 5, 30, MOST - 1, MOST, rng.randint(0, MOST)))
    counts = [(rng.randint(0, 16), rng.randint(0, 32)) if rng.random() < 0.5
              else (127 + rng.randint(1, 16), rng.randint(0, 32)) for _ in range(count)]
    data = state_of(2 if rng.random() < 0.1 else 1, counts)
    if pick < 0.7:
        return data
    if pick < 0.85:
        at = rng.choice((rng.randrange(FIRST), rng.randrange(SIZE), *places(min(count, MOST - 1))))
        return data[:at] + bytes((rng.choice((0, 1, 2, 128, rng.randint(0, 255))),)) + data[at + 1:]
    if pick < 0.9:
        return bytes(SIZE)
    return rng.randbytes(SIZE) if pick < 0.95 else (data + data)[:rng.randint(0, SIZE + 9)]


# ---------------------------------------------------------------------------------------------
# What is stated


def stated_begin(data, room):
    if len(data) != SIZE:
        return NOT_OPEN
    return "holds-0-rules" if room >= END else TOO_SHORT


def stated_drop(data):
    if not is_open(data) or held(data) == 0:
        return NOT_OPEN
    return f"holds-{held(data) - 1}-rules"


def stated_close(data, room):
    if not is_open(data):
        return NOT_OPEN
    return f"holds-{held(data)}-rules" if room >= held_bytes(data) + END else TOO_SHORT


def stated_add(data, length, room, refusal=None):
    """Of a record with a length of its own and the refusal that it has where few rules are held."""
    if not is_open(data):
        return NOT_OPEN
    if refusal is not None:
        return refusal
    if held(data) == MOST:
        return 4, 0
    if room < held_bytes(data) + length + END:
        return TOO_SHORT
    return f"holds-{held(data) + 1}-rules"


def stated_assembled(data):
    return f"gives-{held_bytes(data) + END}-bytes"


# ---------------------------------------------------------------------------------------------
# Rooms, by the bytes that are needed


def rooms(needed):
    return sorted({0, 3, END, needed - 1, needed, needed + 1, needed + 90} - {-1})


# ---------------------------------------------------------------------------------------------
# Cases of each call


def cases(operation, seed, rng):
    yield from CASES[operation.name](operation, rng)
    yield from (case for case in scripts(seed) if case.operation is operation)


def wrong_lengths():
    """Every length from none to two more than a state's, and longer; an open state and zeros."""
    long = whole(state_of(1, MIXED[:1]) * 3)
    for length in (*range(SIZE), SIZE + 1, SIZE + 2, 2 * SIZE, 3 * SIZE):
        yield State(f"state-of-{length}", long.cut(length))
    zeros = whole(bytes(3 * SIZE))
    for length in (0, 1, 8, SIZE - 1, SIZE + 1, 2 * SIZE):
        yield State(f"zeros-of-{length}", zeros.cut(length))


def begins(operation, rng):
    every = [*states(), *no_states(), *changed_bytes(rng("changed"))]
    for number, state in enumerate(every):
        chosen = (0, 1, 2, 3, 4, 5, 99) if number < 60 else (3, 4)
        for room in chosen:
            yield AssemblyCase(f"{state.name}-room-{room}", operation, state.data, room=room,
                               stated=stated_begin(state.data.data, room))
    for number, state in enumerate(wrong_lengths()):
        yield AssemblyCase(state.name, operation, state.data, room=(0, 3, 4, 50)[number % 4],
                           stated=NOT_OPEN)


def drops(operation, rng):
    for state in (*states(), *no_states(), *changed_bytes(rng("changed"))):
        yield AssemblyCase(state.name, operation, state.data, stated=stated_drop(state.data.data))
    for state in wrong_lengths():
        yield AssemblyCase(state.name, operation, state.data, stated=NOT_OPEN)
    # One rule after the other, to none and on.
    data = state_of(1, MIXED * 3)
    for number in range(3 * len(MIXED) + 3):
        yield AssemblyCase(f"drop-{number}-in-turn", operation, whole(data),
                           stated=stated_drop(data))
        data = aspda.drop(data).state


def closes(operation, rng):
    for state in (*states(), *no_states()):
        for room in rooms(held_bytes(state.data.data) + END):
            yield AssemblyCase(f"{state.name}-room-{room}", operation, state.data, room=room,
                               stated=stated_close(state.data.data, room))
    for number, state in enumerate((*changed_bytes(rng("changed")), *wrong_lengths())):
        data = state.data.data
        room = held_bytes(data) + END - (number % 5 == 0)
        yield AssemblyCase(f"{state.name}-room-{room}", operation, state.data, room=room,
                           stated=stated_close(data, room))
    for state in states():      # a second time
        data = state.data.data
        closed = aspda.close(data, out=bytes(held_bytes(data) + END)).state
        yield AssemblyCase(f"{state.name}-closed-before", operation, whole(closed),
                           room=held_bytes(data) + END, stated=NOT_OPEN)


def lengths(operation, rng):
    for state in (*states(), *no_states(), *changed_bytes(rng("changed")), *wrong_lengths()):
        yield AssemblyCase(state.name, operation, state.data,
                           stated=stated_assembled(state.data.data))


# ---------------------------------------------------------------------------------------------
# Records to add

TAILS = {"nothing": b"", "zero": b"\0", "an-end": b"E:\0\1", "a-rule": faults.encoded_rules(1),
         "half-a-mark": b"S", "a-sheet": b"X:\0\0", "garbage": b"\xff" * 300}


def good_records():
    """Right records: of both marks, at the limits, with each kind of literal."""
    last = [defeated(LAST_TAG, negated(LAST_ATOM))]
    widest = [negated(LAST_ATOM)] * 16
    rules = {
        "fact": strict([atom(1)]), "empty": strict(), "choice": defeasible(7, [atom(1)]),
        "all-kinds": strict([atom(1), negated(2), defeated(3, atom(4)), defeated(5, negated(6))],
                            [atom(LAST_ATOM), *last], [defeated(1, atom(1)), negated(1)]),
        "tag-1": defeasible(1, [negated(1)]),
        f"tag-{LAST_TAG}": defeasible(LAST_TAG, [atom(9)], last),
        "heads-16": strict(last * 16), "positives-16": strict([], last * 16),
        "nafs-16": strict([], [], last * 16), "choice-of-16": defeasible(2, widest),
        "widest": strict(last * 16, last * 16, last * 16),
        "widest-choice": defeasible(LAST_TAG, widest, last * 16, last * 16),
        "repeated": defeasible(3, [atom(5)] * 3, [atom(5)], [atom(5)]),
    }
    return {name: encoded_rule(rule) for name, rule in rules.items()}


def adds(operation, rng):
    for make in (good_adds, cut_adds, miscounted_adds, faulty_adds, several_faults, number_adds,
                 wrong_heads, limit_adds):
        yield from make(operation)
    yield from odd_states(operation, rng("changed"))


def add_case(operation, name, state, record, room, stated):
    return AssemblyCase(f"{name}-on-{state.name}-room-{room}", operation, state.data, whole(record),
                        room, stated)


def good_adds(operation):
    """Right records on every state, with exact room and one byte less; with bytes behind them."""
    for (name, record), state in product(good_records().items(), states()):
        needed = held_bytes(state.data.data) + len(record) + END
        for room in (needed, needed - 1):
            yield add_case(operation, name, state, record, room,
                           stated_add(state.data.data, len(record), room))
    for (name, record), (tail, more) in product(good_records().items(), TAILS.items()):
        for state in some("open-no-rule", "open-mixed"):
            needed = held_bytes(state.data.data) + len(record) + END
            for room in (needed, needed - 1, needed + len(more)):
                yield add_case(operation, f"{name}-then-{tail}", state, record + more, room,
                               stated_add(state.data.data, len(record), room))


def cut_adds(operation):
    """A record of which only so many bytes are there: 2, whatever room and rules there are."""
    for name in ("fact", "choice", "all-kinds"):
        record = good_records()[name]
        for length, state in product(range(len(record)), some("open-no-rule", f"open-{MOST}-rules",
                                                              "zero", "closed-mixed")):
            data = state.data.data
            # With all rules held a whole header is one rule too many before literals are missed.
            number = 4 if held(data) == MOST and length >= 7 else 2
            yield add_case(operation, f"{name}-of-{length}-bytes", state, record[:length], length,
                           stated_add(data, 0, 0, (number, 0)))


def miscounted_adds(operation):
    """One literal more is counted than the record had: what stood behind it is taken for it."""
    state = some("open-mixed")[0]
    start = held_bytes(state.data.data)
    tails = {"a-literal": (b"\0\0\0\0\1", None), "a-rule": (faults.encoded_rules(1), 5),
             "an-end": (b"E:\0\1\0", 5), "four-bytes": (b"\0\0\0\0", 2), "nothing": (b"", 2)}
    for (name, record), (tail, (more, number)) in product(good_records().items(), tails.items()):
        for part in range(3):
            counts = bytes(count + (place == part) for place, count in enumerate(record[4:7]))
            taken = record[:4] + counts + record[7:] + more
            # The literal that is one too many is the last of all: it stands behind the others.
            refusal = number and (number, len(record) if number == 5 else 0)
            if max(counts) > 16:
                refusal = 4, 0
            elif refusal is None and is_spoiled(taken):
                refusal = 7, 0
            for room in (start + len(record) + 5 + END, start + len(record) + 4 + END):
                yield add_case(operation, f"{name}-part-{part}-one-more-then-{tail}", state, taken,
                               room, stated_add(state.data.data, len(record) + 5, room, refusal))


def is_spoiled(record):
    """Has a defeasible rule, by its counts, no head or a defeat mark in it?"""
    heads = record[7:7 + 5 * record[4]:5]
    return record[:2] == DEFEASIBLE and (not heads or max(heads) > 1)


def wrong_marks():
    """Those of a source that begin no rule, too."""
    more = {"end": b"E:", "override": b"O:", "opposition": b"X:", "note": b"N:"}
    return [faults.setting(f"mark-{name}", faults.MARK, "mark", mark)
            for name, mark in more.items()]


def faults_of(mark):
    return [*faults.faults_of(SOURCE, mark), *wrong_marks()]


def refusal_of(draft, found, rules_held):
    """The first test in order that fails: its number, its place in the record."""
    test = min(fault.test for fault in found)
    if rules_held == MOST:
        test = min(test, faults.RULES)
    place = faults.place_in(draft, SOURCE, test) if test == faults.LITERAL else 0
    return faults.NUMBERS[test], place


def faulty_case(operation, mark, found, state, room, tail=b""):
    """A record with faults, or None where one takes another away; what is cut ends there."""
    draft = faults.spoiled(mark, found)
    if draft is None:
        return None
    record = draft.data() + (b"" if draft.is_cut() else tail)
    name = f"{mark[:1].decode()}-{'-and-'.join(fault.name for fault in found)}"
    refusal = refusal_of(draft, found, held(state.data.data))
    return add_case(operation, name, state, record, room,
                    stated_add(state.data.data, 0, room, refusal))


def faulty_adds(operation):
    """One fault, on open, full, closed and no states, with and without room."""
    chosen = some("open-no-rule", "open-mixed", f"open-{MOST}-rules", "closed-mixed", "zero")
    for mark, state in product((STRICT, DEFEASIBLE), [*chosen, *no_states()[:2]]):
        for number, fault in enumerate(faults_of(mark)):
            needed = held_bytes(state.data.data) + 400
            room = (0, needed, END)[number % 3]
            yield faulty_case(operation, mark, [fault], state, room, b"\xff" * (number % 2))
            if state.name == "open-mixed":
                yield faulty_case(operation, mark, [fault], state, needed)


def several_faults(operation):
    """Two faults of different tests, and any number of them: the first in order counts."""
    chosen = some("open-mixed", f"open-{MOST}-rules", "open-no-rule")
    for mark in (STRICT, DEFEASIBLE):
        pairs = (sorted(pair, key=lambda one: one.test) for pair in
                 combinations(faults_of(mark), 2) if pair[0].test != pair[1].test)
        for number, pair in enumerate(islice(pairs, 0, None, 3)):
            case = faulty_case(operation, mark, pair, chosen[number % 3], (0, 9_999)[number % 2])
            if case is not None:
                yield case
        each = sorted(faults.one_fault_of_each(SOURCE, mark), key=lambda one: one.test)
        for size in range(3, len(each) + 1):
            for several in combinations(each, size):
                state = chosen[size % 3]
                case = faulty_case(operation, mark, several, state, 9_999 * (size % 2))
                name = "-".join(str(faults.NUMBERS[fault.test]) for fault in several)
                yield case._replace(name=f"{mark[:1].decode()}-faults-{name}-on-{state.name}")


def number_adds(operation):
    """Tags of rules, kinds, tags and atoms of literals, just inside and just outside."""
    state = some("open-mixed")[0]
    start = held_bytes(state.data.data)
    room = start + 300
    for tag in (0, 1, 2, LAST_TAG - 1, LAST_TAG, LAST_TAG + 1, 256, 257, 65_535):
        for mark, fits in ((STRICT, tag == 0), (DEFEASIBLE, 1 <= tag <= LAST_TAG)):
            record = mark + tag.to_bytes(2, "big") + bytes((1, 0, 0)) + b"\0\0\0\0\1"
            yield add_case(operation, f"{mark[:1].decode()}-tag-{tag}", state, record, room,
                           stated_add(state.data.data, len(record), room, None if fits else (6, 0)))
    numbers = (0, 1, 256, LAST_ATOM, LAST_ATOM + 1, 65_535)
    tags = (0, 1, LAST_TAG, LAST_TAG + 1, 256)
    for kind, tag, number, part in product((*range(8), 255), tags, numbers, range(3)):
        literal = Literal(kind, tag, number)
        right = (kind <= 3 and (tag == 0 if kind < 2 else 1 <= tag <= LAST_TAG)
                 and 1 <= number <= LAST_ATOM)
        parts = [[atom(1)], [], []]
        parts[part] = parts[part] + [literal]
        # In a head beside an option; the mark by the kind, so that a defeat mark is met in a head.
        mark, rule_tag = ((STRICT, 0), (DEFEASIBLE, 9))[(kind + tag + number) % 2]
        draft = faults.Draft(mark, rule_tag, *parts)
        refusal = None if right else (5, 12)
        if right and mark == DEFEASIBLE and part == 0 and kind >= 2:
            refusal = 7, 0
        record = draft.data()
        name = f"{mark[:1].decode()}-literal-{kind}-{tag}-{number}-in-part-{part}"
        yield add_case(operation, name, state, record, room,
                       stated_add(state.data.data, len(record), room, refusal))


def wrong_heads(operation):
    """A defeasible rule without head, or with a defeat mark at some place of it: 7, before 9."""
    heads = {"none": []}
    for count, place in ((1, 0), (2, 0), (2, 1), *((16, place) for place in range(16))):
        options = [atom(9)] * count
        options[place] = defeated(7, negated(9)) if place % 2 else defeated(200, atom(9))
        heads[f"mark-{place}-of-{count}"] = options
    chosen = some("open-no-rule", "open-mixed", f"open-{MOST - 1}-rules", f"open-{MOST}-rules")
    for (name, head), state in product(heads.items(), chosen):
        record = faults.Draft(DEFEASIBLE, 7, head, [defeated(1, atom(1))], [negated(2)]).data()
        data = state.data.data
        refusal = (4 if held(data) == MOST else 7), 0
        for room in (END, held_bytes(data) + len(record) + END):
            yield add_case(operation, f"head-{name}", state, record, room,
                           stated_add(data, len(record), room, refusal))


def limit_adds(operation):
    """The last rule that there can be and one more; the widest with exact room for them all."""
    record = good_records()["widest-choice"]
    empty = good_records()["empty"]
    for count in (MOST - 2, MOST - 1, MOST):
        for counts, added in ((WIDEST_CHOICE, record), ((0, 0), empty), ((16, 32), empty)):
            state = State(f"open-{count}-of-{counts[0]}-{counts[1]}",
                          whole(state_of(1, (counts,) * count)))
            needed = held_bytes(state.data.data) + len(added) + END
            for room in (needed - 1, needed, needed + 1, MOST * WIDEST + END):
                yield add_case(operation, f"record-of-{len(added)}", state, added, room,
                               stated_add(state.data.data, len(added), room))
            for length in (0, 1, 2, 6):
                yield add_case(operation, f"record-cut-at-{length}", state, added[:length], needed,
                               stated_add(state.data.data, 0, 0, (2, 0)))


def odd_states(operation, rng):
    """A right record on bytes that are no state, nearly one, and of every other length."""
    record = good_records()["choice"]
    for state in (*no_states(), *changed_bytes(rng), *wrong_lengths()):
        room = held_bytes(state.data.data) + len(record) + END
        yield add_case(operation, "choice", state, record, room,
                       stated_add(state.data.data, len(record), room))


CASES = {"begin": begins, "add": adds, "drop": drops, "close": closes, "assembled": lengths}


# ---------------------------------------------------------------------------------------------
# Scripts: calls that follow each other

SCRIPTS = 30
STEPS = 300


@lru_cache(maxsize=None)
def scripts(seed):
    """The calls of scripts, each on the state that the one before gave back or on an older one.

    A list of records is kept beside: what is closed must be read and shown as the list.
    """
    return [*examples(), *(case for number in range(SCRIPTS) for case in
                           script(random.Random(f"{seed} script {number}"), f"script-{number}"))]


def examples():
    """The marked examples rule by rule, in a buffer of exactly their length."""
    for name in ("M1", "M3", "M4", "M5", "M6", "M8", "M9"):
        rules = list(map(encoded_rule, getattr(samples, name)))
        room = sum(map(len, rules)) + END
        steps = [("begin", b""), *(("add", rule) for rule in rules), ("assembled", b""),
                 ("close", b""), ("assembled", b""), ("close", b""), ("drop", b"")]
        state, buffer = bytes(SIZE), pattern(room)
        for number, (kind, record) in enumerate(steps):
            case = AssemblyCase(f"{name.lower()}-step-{number}", BY_NAME[kind], whole(state),
                                whole(record), room if BY_NAME[kind].writes else 0)
            yield case
            state, buffer = call_of_assembly(case, buffer)[1:]
        is_as_listed(case, buffer, rules)


def script(rng, name):
    records = [*good_records().values()]
    room = rng.choice((END, 40, 300, 4_000, MOST * WIDEST + END))
    state, buffer, rules, history = bytes(SIZE), pattern(room), None, []
    keeps = True        # whether the buffer is as these calls left it
    for step in range(rng.randint(STEPS // 3, STEPS)):
        kind = rng.choices(("begin", "add", "drop", "close", "assembled"),
                           (20 if rules is None else 1, 60, 14, 4, 4))[0]
        if history and rng.random() < 0.02:
            state, rules = rng.choice(history)      # an older state
            keeps = False
        record = rng.choice(records) + rng.choice((b"", b"", b"\xff\0")) if kind == "add" else b""
        if rng.random() < 0.05:
            record = record[:rng.randrange(len(record) + 1)]
        lent = len(buffer) if BY_NAME[kind].writes else 0
        case = AssemblyCase(f"{name}-step-{step}-{kind}", BY_NAME[kind], whole(state),
                            whole(record) if record else NOTHING, lent)
        yield case
        answer = call_of_assembly(case, buffer)
        if answer.word >= aspda.REFUSED or kind == "assembled":
            continue
        if kind == "begin":
            rules, keeps = [], True
        elif kind == "add":
            rules = rules + [answer.buffer[held_bytes(state):held_bytes(answer.state)]]
        elif kind == "drop":
            rules = rules[:-1]
        state, buffer = answer.state, answer.buffer
        assert answer.word == len(rules) and held_bytes(state) == sum(map(len, rules)), case.name
        if kind == "close" and keeps:
            is_as_listed(case, buffer[:aspda.assembled(state).word], rules)
        rules = None if kind == "close" else rules
        history.append((state, rules))


def is_as_listed(case, made, rules):
    assert made == b"".join(rules) + b"E:" + len(rules).to_bytes(2, "big"), case.name
    assert aspda.read_source(made).word == len(rules), case.name
    shown = [aspda.show_source(made, number).word for number in range(1, len(rules) + 1)]
    assert [made[word >> 32:][:word & 0xFFFF_FFFF] for word in shown] == rules, case.name


# ---------------------------------------------------------------------------------------------
# Random calls


def random_record(rng):
    shape = samples.Shape(rules=1, heads=rng.choice((1, 2, 16)), positives=rng.choice((0, 2, 16)),
                          nafs=rng.choice((0, 2, 16)))
    record = encoded_rule(samples.random_source(rng, shape)[0])
    pick = rng.random()
    if pick < 0.5:
        return record
    if pick < 0.6:
        return record + rng.randbytes(rng.randint(1, 20))
    if pick < 0.7:
        return record[:rng.randrange(len(record) + 1)]
    if pick < 0.75:
        return rng.choice((b"E:", b"O:", b"X:", b"A:", b"s:")) + record[2:]
    if pick < 0.8:
        head = [atom(1)] * rng.randint(0, 3) + [defeated(2, atom(1))] * rng.randint(0, 1)
        return faults.Draft(DEFEASIBLE, rng.choice((1, LAST_TAG)), head, [], [negated(4)]).data()
    at = rng.randrange(len(record))
    return record[:at] + bytes((record[at] ^ rng.choice((1, 2, 4, 128, 255)),)) + record[at + 1:]


def random_case(operation, rng):
    data = random_state(rng)
    record = random_record(rng) if operation.name == "add" else b""
    needed = END if operation.name == "begin" else held_bytes(data) + len(record) + END
    room = rng.choice((needed, needed, needed - 1, needed + rng.randint(1, 9),
                       rng.randint(0, needed))) if operation.writes else 0
    stated = {"begin": lambda: stated_begin(data, room), "drop": lambda: stated_drop(data),
              "close": lambda: stated_close(data, room), "add": lambda: None,
              "assembled": lambda: stated_assembled(data)}[operation.name]()
    return AssemblyCase("", operation, whole(data), whole(record), room, stated)
