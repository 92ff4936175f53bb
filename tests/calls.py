"""What the program crates/aspda_calls writes, from the reference alone: its stdout is this.

    python3 tests/calls.py

The program calls every entry point that Rattle code has on the marked examples and on document 02's
plain program with the fact 1, and assembles a program. A line has the example, the function, and its answer: a number of
rules, a place and a length, bytes (how many, and each), a verdict, or a refusal's number and place.
"""

import sys
from pathlib import Path

sys.dont_write_bytecode = True
sys.path.insert(0, str(Path(__file__).resolve().parent / "reference"))

import samples                                                                  # noqa: E402
from aspda import (ASSEMBLY_STATE, BROKEN, CLASH, END, END_RECORD, REFUSED, SET,   # noqa: E402
                   SET_HEADER, SMALLER, STRICT, add, aspif, assembled, atom, begin, check_plain,
                   check_source, close, defeated, drop, encoded_literals, encoded_program,
                   encoded_rule, encoded_set, extend, negated, quotient_plain, quotient_source,
                   read_plain, read_source, restrict, show_plain, show_source, translate)


ROOM = 512      # bytes lent where nothing else is said
LOW = 0xFFFF_FFFF


def counted(data):
    """How many bytes, and each."""
    return " ".join([str(len(data)), *(f"{byte:02x}" for byte in data)])


def refusal(word):
    return f"refused {word - REFUSED >> 32} at {word & LOW}"


def number(answer):
    return refusal(answer.word) if answer.word >= REFUSED else str(answer.word)


def written(answer):
    return refusal(answer.word) if answer.word >= REFUSED else counted(result(answer))


def result(answer):
    """The bytes written."""
    return answer.buffer[:answer.word]


def extent(answer):
    if answer.word >= REFUSED:
        return refusal(answer.word)
    return f"at {answer.word >> 32} length {answer.word & LOW}"


def part(answer, program):
    """The part of the program that is handed back: on a refusal none of it."""
    if answer.word >= REFUSED:
        return b""
    start = answer.word >> 32
    return program[start:start + (answer.word & LOW)]


def verdict(answer):
    if answer.word >= REFUSED:
        return refusal(answer.word)
    value = answer.word & LOW
    return {CLASH: f"clash {value}", BROKEN: f"broken {value}",
            SMALLER: f"smaller {counted(answer.buffer[:value])}"}.get(answer.word - value, "yes")


def tell_rule(example, program, rule):
    for form, show in (("source", show_source), ("plain", show_plain)):
        answer = show(program, rule)
        print(example, f"find_{form}", rule, extent(answer))
        print(example, f"show_{form}", rule, "length", counted(part(answer, program)))


def tell_program(example, program):
    print(example, "program", counted(program))
    print(example, "read_source", number(read_source(program)))
    print(example, "read_plain", number(read_plain(program)))
    tell_rule(example, program, 1)


def tell_translation(example, program, room=ROOM):
    answer = translate(program, out=bytes(room))
    print(example, "translate_source", written(answer))
    return answer


def tell_text(example, program, room=ROOM):
    print(example, "export_plain", written(aspif(program, out=bytes(room))))


def tell_set(example, program, proposed, room=ROOM):
    out = bytes(room)
    print(example, "set", counted(proposed))
    print(example, "quotient_source", written(quotient_source(program, proposed, out=out)))
    print(example, "quotient_plain", written(quotient_plain(program, proposed, out=out)))
    print(example, "extend_source", written(extend(program, proposed, out=out)))
    print(example, "restrict_plain", written(restrict(proposed, out=out)))
    print(example, "check_source", verdict(check_source(program, proposed, out=out)))
    print(example, "check_plain", verdict(check_plain(program, proposed, out=out)))


def tell_source(example, program):
    """A source, and its translation as a program and as a text."""
    tell_program(example, program)
    plain = result(tell_translation(example, program))
    tell_program(f"{example} translated", plain)
    tell_text(f"{example} translated", plain)


def tell_source_set(example, program, proposed):
    """A set beside a source, and its extension beside the translation."""
    tell_set(example, program, proposed)
    tell_set(f"{example} translated", result(translate(program, out=bytes(ROOM))),
             result(extend(program, proposed, out=bytes(ROOM))))


def marked_example_1():
    program = encoded_program(samples.M1)
    tell_source("M1", program)
    tell_rule("M1", program, 0)
    tell_rule("M1", program, 2)
    tell_translation("M1 into 94 bytes", program, 94)
    tell_translation("M1 into 93 bytes", program, 93)
    tell_text("M1", program)
    tell_source_set("M1 {1}", program, encoded_set([atom(1)]))


def marked_example_2():
    tell_program("M2", b"")
    tell_translation("M2", b"")
    tell_text("M2", b"")
    tell_set("M2 {}", b"", encoded_set([]))


def marked_example_3():
    program = encoded_program(samples.M3)
    marks = [defeated(2, atom(4)), defeated(2, atom(5))]
    tell_source("M3", program)
    tell_rule("M3", program, 5)
    for name, literals in (("first", [atom(1), *marks]), ("second", [atom(2), atom(4), marks[1]]),
                           ("third", [atom(3), atom(4)]), ("fourth", [atom(3), atom(5)])):
        tell_source_set(f"M3 {name}", program, encoded_set(literals))


def marked_examples_4_and_5():
    program = encoded_program(samples.M4)
    tell_source("M4", program)
    tell_source_set("M4 {1}", program, encoded_set([atom(1)]))
    program = encoded_program(samples.M5)
    tell_source("M5", program)
    tell_source_set("M5 set", program, encoded_set([atom(2), defeated(7, atom(1))]))


def marked_example_6():
    one, two = atom(1), atom(2)
    program, proposed = encoded_program(samples.M6), encoded_set([one, two])
    falling = SET_HEADER.pack(SET, 2) + encoded_literals([two, one])
    tell_program("M6", program)
    tell_rule("M6", program, 2)
    tell_text("M6", program)
    tell_set("M6 {1, 2}", program, proposed)
    tell_set("M6 {2, 1}", program, falling)
    tell_set("M6 no set", program, STRICT + bytes(2))
    tell_set("M6 {1, 2} into 3 bytes", program, proposed, 3)


def marked_examples_7_to_9():
    nothing = encoded_set([])
    tell_set("M7 {1, negated 1}", encoded_program([]), encoded_set([atom(1), negated(1)]))
    program = encoded_program(samples.M8)
    tell_program("M8", program)
    tell_text("M8", program)
    tell_set("M8 {}", program, nothing)
    program = encoded_program(samples.M9)
    tell_program("M9", program)
    tell_text("M9", program)
    tell_set("M9 {}", program, nothing)
    tell_set("M9 {1}", program, encoded_set([atom(1)]))


def fact():
    """Document 02, ask 1."""
    program = encoded_program(samples.FACT)
    tell_program("fact", program)
    tell_text("fact", program)
    tell_text("fact into 35 bytes", program, 35)
    tell_text("fact into 34 bytes", program, 34)


def assembly():
    """Document 02, ask 4: M1's rule and the fact 1, and what is refused on the way."""
    rule, fact_record = encoded_rule(samples.M1[0]), encoded_rule(samples.FACT[0])
    state, out = bytes(ASSEMBLY_STATE), bytes(64)

    def tell(example, name, answer):
        nonlocal state
        state = answer.state
        print(example, f"Assembly::{name}", number(answer))
        return answer.buffer

    def tell_state(example):
        print(example, "Assembly::measure", number(assembled(state)))
        print(example, "state", counted(state))

    tell("assembly not begun", "drop", drop(state))
    tell_state("assembly not begun")
    out = tell("assembly", "begin", begin(state, out=out))
    out = tell("assembly", "add", add(state, rule, out=out))
    tell("assembly into 27 bytes", "add", add(state, fact_record, out=bytes(27)))
    out = tell("assembly", "add", add(state, fact_record, out=out))
    out = tell("assembly", "add", add(state, rule, out=out))
    tell("assembly", "drop", drop(state))
    out = tell("assembly end record", "add", add(state, END_RECORD.pack(END, 2), out=out))
    tell_state("assembly")
    out = tell("assembly", "close", close(state, out=out))
    tell_state("assembly closed")
    tell_program("assembled", out[:assembled(state).word])
    tell("assembly closed", "add", add(state, rule, out=out))


if __name__ == "__main__":
    marked_example_1()
    marked_example_2()
    marked_example_3()
    marked_examples_4_and_5()
    marked_example_6()
    marked_examples_7_to_9()
    fact()
    assembly()
