"""The default set of cases for each operation.

Program cases feed every operation that takes a program, set cases every one that takes a set; what
is particular to an operation follows. Generators take a random source of their own, so that the
cases of an operation do not depend on which others are asked for.
"""

import random
from functools import lru_cache
from itertools import islice, product

import samples
from aspda import (ASPIF_BEYOND, ASPIF_TIMES_LONGER, ATOMS, CHECKED_LITERALS, END_RECORD,
                   FILTER_OUTPUT, LAST_ATOM, LAST_NUMBERED_RULE, LAST_TAG, LITERAL, PLAIN,
                   RULE_HEADER, SOURCE, TIMES_LONGER, Literal, Refusal, answer_sets, atom,
                   defeasible, defeated, derived, expanded, negated, rule_defeated, strict,
                   sum_length, translation, written_rules)
from cases import assembly, faults, literal_sets, programs, sheets, verdicts
from cases.literal_sets import literal_set
from cases.operations import ACCEPTED, Case, call
from cases.slices import NOTHING

# So many random cases for each refusal number; the runner asks for at least 20.
PER_REFUSAL = 24

FAR_RULE = 2**32 - 1

LARGEST_RESULT = PLAIN.length
# What a rule with every count at its limit becomes, by the document's sum; so many fit the filter.
WIDEST = 66 * SOURCE.heads + 5 * (SOURCE.positives + SOURCE.nafs) + 24
WIDEST_THAT_FIT = (FILTER_OUTPUT - END_RECORD.size) // WIDEST
LARGE_RESULT = 10_000   # such results take the reference long: they get fewer buffers
WELL_BEYOND = 4_096     # bytes more than the bound of a text


def default_cases(operation, seed):
    def rng(part):
        return random.Random(f"{seed} {operation.name} {part}")

    if operation.takes_state:
        yield from assembly.cases(operation, seed, rng)
        return
    if operation.takes_program:
        yield from fed_programs(operation, rng)
        yield from valid_programs(operation, rng("valid"))
    if operation.takes_program and operation.form.sheets:
        yield from with_sheets(operation, rng("sheets"))
    if operation.takes_set:
        yield from fed_sets(operation, rng("sets"))
        yield from sized_sets(operation)
    yield from order_of_refusals(operation, rng("order"))
    yield from one_refusal_each(operation, rng("refusals"))
    yield from PARTICULAR[operation.group](operation, rng("particular"))


# ---------------------------------------------------------------------------------------------
# Room


def ample(case):
    """A case with room for whatever its operation writes."""
    if not case.operation.writes:
        return case
    if case.operation.group == "aspif":
        return case._replace(room=aspif_bound(case))
    most = TIMES_LONGER * summed(case) + len(case.literals) + 8
    return case._replace(room=min(most, LARGEST_RESULT))


def summed(case):
    """The length of the case's program; of a source with what is appended, if it is not refused."""
    try:
        return sum_length(case.program.data) if case.operation.form.sheets else len(case.program)
    except Refusal:
        return len(case.program)


def aspif_bound(case):
    """The room that always suffices for the text of the case's program."""
    return ASPIF_TIMES_LONGER * len(case.program) + ASPIF_BEYOND


def needed_room(case):
    """The smallest lent buffer that is not refused as too short, if nothing else is refused."""
    if case.operation.group == "check":
        return len(case.literals)
    return call(ample(case)).word


def with_rooms(case):
    """The case with a lent buffer of exactly the room needed, with more, with too little."""
    if not case.operation.writes:
        yield case
        return
    needed = needed_room(case)
    rooms = {"exact": needed, "one-short": needed - 1}
    if needed < LARGE_RESULT:
        rooms |= {"longer": needed + 7, "far-longer": 2 * needed + 300, "none": 0}
    else:
        rooms |= {"longer": needed + 1}
    if case.operation.group == "aspif":
        # From the bound on no length has to be found out before writing: code may part there, or
        # somewhat later.
        bound = aspif_bound(case)
        rooms |= {"bound": bound, "below-bound": bound - 1, "beyond-bound": bound + WELL_BEYOND}
    for name, room in rooms.items():
        yield case._replace(name=f"{case.name}-room-{name}", room=room,
                            stated=ACCEPTED if room >= needed else (9, 0))


# ---------------------------------------------------------------------------------------------
# Programs and sets fed to every operation


@lru_cache(maxsize=None)
def small_set(operation):
    """A small set that every operation takes, with a mark that takes heads out of M3's quotient."""
    if not operation.takes_set:
        return NOTHING
    return literal_set({atom(1), atom(4), defeated(2, atom(5))})


def fed_programs(operation, rng):
    for case in light_program_cases(operation, rng):
        if not programs.is_heavy(operation.form, case):
            yield fed(operation, case)
    for case in heavy_program_cases(operation, rng):
        yield fed(operation, case)


def fed(operation, program_case):
    case = Case(program_case.name, operation, program_case.program, small_set(operation), rule=1,
                room=40 if operation.writes else 0)
    if operation.group != "show":
        case = case._replace(rule=0)
    if isinstance(program_case.stated, tuple):
        return case._replace(stated=program_case.stated)
    if operation.group in ("show", "filter"):
        return case     # they may refuse a program that read accepts
    return ample(case)._replace(stated=program_case.stated)


@lru_cache(maxsize=None)
def listed(make, form):
    """The cases of a form, made once for all operations."""
    return list(make(form))


def light_program_cases(operation, rng):
    form = operation.form
    small = (faults.good_program, faults.single_faults, faults.end_faults, faults.fault_sets,
             programs.truncations)
    for make in small:
        yield from listed(make, form)
    if operation.group == "filter":
        # Each of its rows starts a program.
        yield from islice(listed(sheets.record_cases, form), 0, None, 8)
        return
    for make in (programs.limit_cases, programs.wrong_counts, programs.record_shuffles):
        yield from listed(make, form)
    step = 1 if operation.group == "read" else 4
    for cases in (listed(faults.fault_pairs, form), listed(faults.faults_apart, form),
                  listed(sheets.record_cases, form), programs.flips(form, rng("flips"))):
        yield from islice(cases, operation.number % step, None, step)
    if operation.group == "read":
        yield from programs.all_flips(form)
    if form is SOURCE:
        several = faults.faults_of if operation.group == "read" else faults.one_fault_of_each
        yield from faults.faults_behind_all_rules(form, several)


def heavy_program_cases(operation, rng):
    """All of them for read; for the others the one with a rule too many."""
    form = operation.form
    for case in listed(programs.limit_cases, form):
        too_many = case.name == f"rules-{form.rules + 1}"
        if programs.is_heavy(form, case) and (operation.group == "read" or too_many):
            yield case
    if operation.group != "read":
        return
    yield from programs.long_truncations(form)
    yield from programs.long_flips(form, rng("long flips"), 20 if form is SOURCE else 4)
    if form is PLAIN:
        yield from faults.faults_behind_all_rules(form, faults.one_fault_of_each)


def valid_programs(operation, rng):
    """Random programs from tiny to many rules, with sets that touch them, in several buffers."""
    for name, items in programs.random_programs(operation.form, rng):
        case = Case(name, operation, programs.program(items))
        rules = expanded(items)
        if operation.takes_set:
            most = min(operation.set_limit(), 30)
            chosen = samples.random_subset(rng, samples.literals_of(rules), most)
            case = case._replace(literals=literal_set(chosen))
        if operation.group == "show":
            case = case._replace(rule=rng.randint(1, max(1, len(written_rules(items)))))
        yield from with_rooms(case)


# Brute force tries all sets of so many literals.
TRIED_LITERALS = 9


def with_sheets(operation, rng):
    """Sources whose sheets append rules, or not: all that an operation tells of them."""
    for name, (items, appended) in sheets.all_sources().items():
        rules = expanded(items)
        assert len(rules) == len(written_rules(items)) + appended, name
        case = Case(name, operation, programs.program(items))
        if operation.group == "show":
            yield from shown_with_sheets(case, len(written_rules(items)), len(rules))
        elif operation.group == "filter":
            fits = 4 + sum(map(translated_length, rules)) <= FILTER_OUTPUT
            yield case._replace(stated=ACCEPTED if fits else (9, 0))
        elif operation.takes_set:
            yield from sets_with_sheets(case, rules, rng, name in sheets.small_sources())
        else:
            yield from with_rooms(case)


def translated_length(rule):
    """By the document's sum."""
    heads, bodies = len(rule.heads), len(rule.positives) + len(rule.nafs)
    return 66 * heads + 5 * bodies + 24 if rule.is_defeasible() else 7 + 5 * (heads + bodies)


def shown_with_sheets(case, written, all_rules):
    """The written rules alone are shown, wherever the sheets stand."""
    for number in {0, 1, 2, written - 1, written, written + 1, all_rules, all_rules + 1}:
        if number >= 0:
            yield case._replace(name=f"{case.name}-rule-{number}", rule=number,
                                stated=ACCEPTED if 1 <= number <= written else (13, 0))


def sets_with_sheets(case, rules, rng, is_small):
    """The empty set, sets that touch the rules, of small programs all answer sets."""
    literals = samples.literals_of(rules)
    most = min(case.operation.set_limit(), 30)
    runs = {"empty": set()} | {f"touching-{run}": samples.random_subset(rng, literals, most)
                               for run in range(8 if is_small else 2)}
    marks = {rule.heads[0] for rule in rules[-20:] if rule.heads}
    runs["defeated"] = set(sorted(marks)[:most])
    for name, chosen in runs.items():
        touched = case._replace(name=f"{case.name}-{name}", literals=literal_set(chosen))
        yield from with_rooms(touched) if name == "empty" else [ample(touched)]
    if case.operation.group == "check" and len(literals) <= TRIED_LITERALS:
        for number, found in enumerate(answer_sets(rules, literals)):
            yield ample(case._replace(name=f"{case.name}-answer-set-{number}", stated="yes",
                                      literals=literal_set(found)))


@lru_cache(maxsize=None)
def small_program(operation):
    if not operation.takes_program:
        return NOTHING
    rules = samples.M3 if operation.form is SOURCE else translation(samples.M3)
    return programs.program(rules)


def fed_sets(operation, rng):
    """The small program with every set case."""
    for case in literal_sets.set_cases(operation.form, operation.set_limit(), rng):
        yield ample(Case(case.name, operation, small_program(operation), case.literals,
                         stated=case.stated))


def sized_sets(operation):
    """Sets of no, one and many literals in several buffers, and one literal too many in any."""
    most = operation.set_limit()
    for size in sorted({0, 1, SOURCE.set_literals, SOURCE.set_literals + 1, most}):
        if size <= most:
            yield from with_rooms(Case(f"set-of-{size}", operation, small_program(operation),
                                       set_of(operation, size)))
    too_large = literal_sets.spread_set(operation.form, most + 1)
    for room in (0, len(too_large) - 1, len(too_large), LARGEST_RESULT):
        yield Case(f"set-of-{most + 1}-room-{room}", operation, small_program(operation), too_large,
                   room=room, stated=(12, 0))


def set_of(operation, size):
    """So many literals; without opposites for the check, so that it goes on."""
    if operation.group == "check":
        return literal_set(verdicts.stock(operation.form, size))
    return literal_sets.spread_set(operation.form, size)


# ---------------------------------------------------------------------------------------------
# The order of refusals


PROGRAM_REFUSALS = (*range(1, 9), 14)


def order_of_refusals(operation, rng):
    """Faults in program, set, rule number and room together: the first in order is given."""
    of_program = [number for number in operation.refusals if number in PROGRAM_REFUSALS]
    of_set = [number for number in (10, 12, 11) if number in operation.refusals]
    late = [number for number in (9, 13) if number in operation.refusals]
    if operation.group == "filter":
        late = []   # its 9 depends on the program: see near_filter_output
    for numbers in product([None] + of_program, [None] + of_set, [None] + late):
        present = [number for number in numbers if number is not None]
        for run in range(3 if present else 0):
            case = with_faults(operation, rng, *numbers)
            yield case._replace(name=f"faults-{'-'.join(map(str, present))}-{run}",
                                stated=present[0])


def with_faults(operation, rng, of_program, of_set, late):
    """A case with the faults asked for; the late ones: no room, or no such rule."""
    case = Case("", operation, small_program(operation), small_set(operation))
    if of_program is not None:
        case = case._replace(program=programs.faulty_program(operation.form, rng, of_program))
    if of_set is not None:
        faulty = literal_sets.faulty_set(operation.form, operation.set_limit(), rng, of_set)
        case = case._replace(literals=faulty)
    if operation.group == "show":
        return case._replace(rule=1 if late is None else rng.choice((0, 99_999, FAR_RULE)))
    return ample(case) if late is None else case


def one_refusal_each(operation, rng):
    """Enough cases of each refusal number that the operation can give."""
    for number, run in product(operation.refusals, range(PER_REFUSAL)):
        case = refused_case(operation, rng, number)
        yield case._replace(name=f"random-fault-{number}-{run}", stated=number)


def refused_case(operation, rng, number):
    if number in PROGRAM_REFUSALS:
        return with_faults(operation, rng, number, None, None)
    if number in (10, 11, 12):
        return with_faults(operation, rng, None, number, None)
    if number == 13:
        return with_faults(operation, rng, None, None, number)
    if operation.group == "filter":
        rules = programs.longest_source_rules()[:rng.randint(61, 63)]
        return Case("", operation, programs.program(rules))
    case = with_faults(operation, rng, None, None, None)
    return case._replace(room=rng.randrange(needed_room(case)))


# ---------------------------------------------------------------------------------------------
# What is particular to an operation


def nothing_more(operation, rng):
    return iter(())


def shown_rules(operation, rng):
    """First, last, one past the last, none, and the largest rule number."""
    form = operation.form
    stock = dict(programs.small_samples(form)) | dict(programs.longest(form))
    stock["empty"] = programs.program([])
    stock["most-rules"] = programs.program([strict()] * form.rules)
    for name, program in stock.items():
        last = int.from_bytes(program.data[-2:], "big")
        for number in (0, 1, 2, last // 2, last - 1, last, last + 1, last + 256, 65_536, 2**31,
                       FAR_RULE):
            shown = 1 <= number <= last
            if number >= 0:
                yield Case(f"{name}-rule-{number}-of-{last}", operation, program, rule=number,
                           stated=ACCEPTED if shown else (13, 0))
    for name, program in programs.small_samples(form).items():
        for number in range(int.from_bytes(program.data[-2:], "big") + 2):
            yield Case(f"{name}-rule-{number}", operation, program, rule=number)


def translations(operation, rng):
    stock = {"m1": samples.M1, "m3": samples.M3, "m4": samples.M4, "m5": samples.M5,
             "m6": samples.M6, "m8": samples.M8, "empty": [], "mixed": programs.mixed_source(),
             "repeated-head": [defeasible(9, [atom(3), atom(3), negated(3)], [atom(3)], [atom(3)])],
             f"rule-{SOURCE.rules}": [strict()] * (SOURCE.rules - 1) + [defeasible(1, [atom(1)])],
             "widest-rule": programs.longest_source_rules()[:1],
             "longest-rules": programs.longest_source_rules(),
             "longest": programs.longest_source_items()}
    for name, rules in stock.items():
        yield from with_rooms(Case(name, operation, programs.program(rules)))


def texts(operation, rng):
    """Texts in aspif: every kind of literal in every part, clashes, repeats, numbers of each length."""
    stock = {"fact": samples.FACT, "empty": [], "m8": samples.M8, "mixed": programs.mixed_plain(),
             "wide": programs.wide_rule(PLAIN)}
    for name in ("m1", "m3", "m4", "m5", "m6"):
        stock[f"{name}-translated"] = translation(getattr(samples, name.upper()))
    stock |= dict(clashes()) | dict(repeats()) | dict(parts()) | dict(numbered())
    for name, rules in stock.items():
        yield from with_rooms(Case(name, operation, programs.program(rules)))
    for name, program in large_texts():
        yield from with_rooms(Case(name, operation, program))


def clashes():
    """An atom and its negation in each two parts, in one rule and in two; marks, which never clash."""
    for number in (1, 64, LAST_ATOM):
        for one, other in product(range(3), repeat=2):
            both = [[], [], []], [[], [], []], [[], [], []]
            for rule, part, literal in ((0, one, negated(number)), (0, other, atom(number)),
                                        (1, one, atom(number)), (2, other, negated(number))):
                both[rule][part].append(literal)
            name = f"clash-of-{number}-parts-{one}-and-{other}"
            yield name, [strict(*both[0])]
            yield f"{name}-apart", [strict(*both[1]), strict(*both[2])]
    yield "one-clash-of-two-atoms", [strict([atom(3), negated(4)], [atom(4)], [negated(5)])]
    yield "all-clash", [strict([atom(number)], [], [negated(number)]) for number in reversed(ATOMS)]
    for make in (defeated, derived):
        yield f"{make.__name__}-both-ways", [strict([make(1, atom(1))], [make(1, negated(1))])]
    yield "rule-and-atom-of-one-number", [strict([rule_defeated(7)], [atom(7)]),
                                          strict([], [], [defeated(7, negated(7))])]


def repeats():
    """Literals that occur more than once: in a part, in two parts, in many rules."""
    one, two = atom(1), negated(2)
    yield "repeated-heads", [strict([one] * PLAIN.heads)]
    yield "repeated-positives", [strict([], [two] * PLAIN.positives)]
    yield "repeated-nafs", [strict([], [], [one] * PLAIN.nafs)]
    yield "one-literal-everywhere", [strict([one] * 2, [one] * 3, [one] * 4)] * 3
    yield "two-literals-in-turn", [strict([one, two, one], [two, one, two], [one, one, two])] * 2


def parts():
    """Rules with one part alone, counts of one and two figures, each kind alone."""
    few = [rule_defeated(LAST_NUMBERED_RULE), derived(2, negated(9)), atom(LAST_ATOM), negated(1)]
    for place, name in enumerate(("heads", "positives", "nafs")):
        rule = [[], [], []]
        rule[place] = few
        yield f"{name}-alone", [strict(*rule)]
    for heads, positives, nafs in ((9, 9, 0), (10, 10, 0), (9, 5, 4), (10, 5, 5), (16, 16, 17),
                                   (0, 16, 17), (0, 0, 9), (0, 0, 10), (1, 9, 0), (1, 0, 17)):
        stock = [negated(number) for number in ATOMS[:heads + positives + nafs]]
        yield (f"counts-{heads}-{positives}-{nafs}",
               [strict(stock[:heads], stock[heads:heads + positives], stock[heads + positives:])])
    for kind in PLAIN.kinds:
        literals = list(islice(samples.all_literals((kind,)), 30))
        yield f"kind-{kind}-alone", samples.dealt(PLAIN, literals)
    yield "marks-alone", samples.dealt(PLAIN, list(samples.all_literals((6,))))
    # Where a table of all literals may have its seams: first and last numbers and tags, multiples of
    # 64 and those beside them.
    numbers = (1, 2, 62, 63, 64, 65, 127, 128, 191, 192, 255, 256, 257, 447, 448, 449, LAST_ATOM)
    seams = [Literal(kind, tag, number) for kind in PLAIN.kinds
             for tag in ((1, 2, LAST_TAG - 1, LAST_TAG) if 2 <= kind <= 5 else (0,))
             for number in numbers if kind < 6 or number <= LAST_NUMBERED_RULE]
    yield "seams", samples.dealt(PLAIN, seams)
    yield "seams-backwards", samples.dealt(PLAIN, seams[::-1])
    for literal in seams[::5]:
        yield f"alone-{'-'.join(map(str, literal))}", [strict([literal])]


def numbered():
    """As many literals as make the last number one of so many figures, and names of each length."""
    for count in (9, 10, 11, 99, 100, 101, 999, 1_000, 1_001, 9_999, 10_000, 10_001):
        marks = list(islice(samples.all_literals((2, 3)), count))
        yield f"{count}-marks", samples.dealt(PLAIN, marks)
        signed = list(islice(samples.all_literals((0, 1, 2)), count))
        yield f"{count}-literals", samples.dealt(PLAIN, signed[::-1])
    for number in (9, 10, 99, 100):
        yield f"names-to-{number}", samples.dealt(PLAIN, [*map(negated, ATOMS[:number]), atom(number)])


def large_texts():
    """As many rules, bytes and literals as a plain program has."""
    yield from programs.longest(PLAIN).items()
    most = PLAIN.rules
    yield "most-rules-empty", programs.program([strict()] * most)
    yield "most-rules-facts", programs.program([strict([atom(1 + number % LAST_ATOM)])
                                                for number in range(most)])
    yield "most-literals", programs.program(samples.most_literals(PLAIN))
    yield "most-literals-backwards", programs.program(samples.most_literals(PLAIN)[::-1])


def filtered(operation, rng):
    """Around the size of the filter's own buffer, and beyond its input buffer."""
    for name, rules in (("m1", samples.M1), ("m3", samples.M3), ("empty", [])):
        yield Case(name, operation, programs.program(rules), stated=ACCEPTED)
    wide = programs.longest_source_rules()
    for count in (WIDEST_THAT_FIT, WIDEST_THAT_FIT + 1, 60, 61, SOURCE.rules):
        yield Case(f"widest-rules-{count}", operation, programs.program(wide[:count]),
                   stated=ACCEPTED if count <= WIDEST_THAT_FIT else (9, 0))
    yield from near_filter_output(operation)
    yield from near_filter_output_with_sheets(operation)
    longest = programs.longest_of(SOURCE)
    yield Case("far-too-long", operation, longest + longest + longest, stated=(1, 0))


def near_filter_output(operation):
    """Translations that just fit: widest rules, and strict rules for the rest."""
    wide = programs.longest_source_rules()[:WIDEST_THAT_FIT]
    for length in range(FILTER_OUTPUT - 4, FILTER_OUTPUT + 5):
        rules = strict_rules_of_length(length - WIDEST * WIDEST_THAT_FIT - END_RECORD.size)
        yield Case(f"translation-of-{length}", operation, programs.program(wide + rules),
                   stated=ACCEPTED if length <= FILTER_OUTPUT else (9, 0))


def near_filter_output_with_sheets(operation):
    """Translations that just fit or do not, most of them what sheets append."""
    items, _ = sheets.large_sources()["most-appended-small-rules"]
    rules = written_rules(items)
    kept = rules[:20] + items[len(rules):]
    length = END_RECORD.size + sum(map(translated_length, expanded(kept)))
    for wanted in range(FILTER_OUTPUT - 2, FILTER_OUTPUT + 3):
        more = strict_rules_of_length(wanted - length)
        yield Case(f"sheets-translation-of-{wanted}", operation, programs.program(more + kept),
                   stated=ACCEPTED if wanted <= FILTER_OUTPUT else (9, 0))


def strict_rules_of_length(length):
    """Strict rules whose records have this length together."""
    for count in range(1, 200):
        literals, odd = divmod(length - RULE_HEADER.size * count, LITERAL.size)
        if odd == 0 and 0 <= literals <= SOURCE.heads * count:
            shares = [literals // count + (number < literals % count) for number in range(count)]
            return [strict([atom(1)] * share) for share in shares]
    raise ValueError(f"no strict rules have {length} bytes")


def quotients(operation, rng):
    """Sets that remove rules and heads, few and all of them."""
    form = operation.form
    small = programs.mixed_source() if form is SOURCE else programs.mixed_plain()
    literals = sorted(samples.literals_of(small))
    for run in range(60):
        chosen = rng.sample(literals, rng.randint(0, len(literals)))
        yield ample(Case(f"mixed-{run}", operation, programs.program(small), literal_set(chosen)))
    for name, chosen in (("nothing", set()), ("everything", set(literals))):
        yield from with_rooms(Case(f"mixed-{name}", operation, programs.program(small),
                                   literal_set(chosen)))
    yield from single_changes(operation, "mixed", small)
    yield from single_changes(operation, "wide", programs.wide_rule(form))
    yield from large_quotients(operation, rng)


def single_changes(operation, name, rules):
    """Sets of one literal, each of the program's and those beside it, and of all but one."""
    program = programs.program(rules)
    literals = samples.literals_of(rules)
    near = set().union(*(literal_sets.neighbours(operation.form, one) for one in literals))
    for literal in sorted(literals | near):
        word = "-".join(map(str, literal))
        yield ample(Case(f"{name}-by-{word}", operation, program, literal_set({literal})))
        if literal in literals:
            yield ample(Case(f"{name}-by-all-but-{word}", operation, program,
                             literal_set(literals - {literal})))


def large_quotients(operation, rng):
    for name, program in programs.longest(operation.form).items():
        untouched = literal_sets.spread_set(operation.form, 5)
        yield from with_rooms(Case(f"{name}-few", operation, program, untouched))
        many = literal_sets.spread_set(operation.form, operation.set_limit())
        yield from with_rooms(Case(f"{name}-many", operation, program, many))
    if operation.form is SOURCE:
        wide = programs.longest_source_rules()
        for share in (3, SOURCE.heads):
            marks = {defeated(rule.tag, head) for rule in wide[:62] for head in rule.heads[:share]}
            yield ample(Case(f"longest-{share}-heads-defeated", operation, programs.program(wide),
                             literal_set(marks)))


def extensions(operation, rng):
    one, two = atom(1), atom(2)
    yield from with_rooms(Case("m4", operation, programs.program(samples.M4), literal_set({one})))
    yield from with_rooms(Case("m5", operation, programs.program(samples.M5),
                               literal_set({two, defeated(7, one)})))
    for run in range(150):
        rules = samples.random_source(rng, programs.random_shape(SOURCE, rng, rng.randint(1, 12)))
        chosen = samples.random_subset(rng, samples.literals_of(rules), 40)
        yield ample(Case(f"touching-{run}", operation, programs.program(rules),
                         literal_set(chosen)))
    for name, rules in (("mixed", programs.mixed_source()), ("wide", programs.wide_rule(SOURCE))):
        yield from single_changes(operation, name, rules)
        yield from single_defeats(operation, name, rules)
    for name, rules, chosen in large_extensions(rng):
        yield from with_rooms(Case(name, operation, programs.program(rules), literal_set(chosen)))


def single_defeats(operation, name, rules):
    """An option alone, with its defeat mark, with a literal beside that mark."""
    for rule in rules:
        for head in sorted(set(rule.heads)) if rule.is_defeasible() else ():
            mark = defeated(rule.tag, head)
            for beside in sorted({head, mark} | literal_sets.neighbours(SOURCE, mark)):
                word = "-".join(map(str, head + beside))
                yield ample(Case(f"{name}-option-and-mark-{word}", operation,
                                 programs.program(rules), literal_set({head, beside})))


def large_extensions(rng):
    """All options hold: as many derivation marks; all rules defeated; marks met many times."""
    options = [*map(atom, ATOMS), *map(negated, ATOMS)]
    wide = programs.longest_source_rules()
    yield "all-options", wide, options
    shuffled = rng.sample(wide, len(wide))
    yield "all-options-shuffled", shuffled, options
    most = SOURCE.rules
    single = [defeasible(LAST_TAG - number % LAST_TAG, [negated(LAST_ATOM - number)])
              for number in range(most)]
    yield "all-rules-defeated", single, {defeated(rule.tag, rule.heads[0]) for rule in single}
    same = defeasible(1, [atom(1)] * SOURCE.heads)
    yield f"one-mark-{most}-times", [same] * most, [atom(1)]
    half = {defeated(rule.tag, head) for rule in wide[:40] for head in rule.heads[::2]}
    yield "half-defeated", wide, set(options[:600]) | half


def restrictions(operation, rng):
    kinds = [set(samples.all_literals((kind,))) for kind in (0, 1, 6)]
    most = PLAIN.set_literals
    stock = {"empty": set(), "only-atoms": kinds[0], "only-rules": kinds[2],
             "atoms-and-rules": kinds[0] | kinds[1] | kinds[2],
             f"spread-{most}": literal_sets.spread(PLAIN, most),
             "no-kinds-above-3": set(islice(samples.all_literals((2, 3)), most)),
             "only-derived": set(islice(samples.all_literals((4, 5)), 99_000, 99_000 + most)),
             "one-of-each": set(literal_sets.few(PLAIN))}
    for name, chosen in stock.items():
        yield from with_rooms(Case(name, operation, NOTHING, literal_set(chosen)))
    everything = sorted(literal_sets.spread(PLAIN, most))
    for run in range(60):
        chosen = rng.sample(everything, rng.randint(0, 40))
        yield from with_rooms(Case(f"random-{run}", operation, NOTHING, literal_set(chosen)))


def checks(operation, rng):
    """Every verdict; the room is that of the set's record, whatever is written."""
    for number, proposal in enumerate(verdicts.proposals(operation.form, rng)):
        case = Case(proposal.name, operation, programs.program(proposal.rules),
                    literal_set(proposal.literals), stated=proposal.verdict or None)
        exact = len(case.literals)
        yield case._replace(room=exact + number % 3)
        if number % 5 == 0:
            yield case._replace(name=f"{case.name}-room-one-short", room=exact - 1, stated=(9, 0))
    chosen = literal_set(verdicts.stock(operation.form, CHECKED_LITERALS))
    for name, program in programs.longest(operation.form).items():
        yield ample(Case(f"{name}-largest-set", operation, program, chosen))
        yield ample(Case(f"{name}-empty-set", operation, program, literal_set(())))


PARTICULAR = {"read": nothing_more, "show": shown_rules, "translate": translations,
              "filter": filtered, "quotient": quotients, "extend": extensions,
              "restrict": restrictions, "check": checks, "aspif": texts}
