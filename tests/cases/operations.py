"""The operations as rows: what each takes and may refuse, and a case's outcome by the reference."""

from typing import NamedTuple, Optional

import aspda
from cases.slices import NOTHING, Slice, whole


class Operation(NamedTuple):
    name: str                       # the export's name behind "aspda_"
    group: str                      # its name in --ops
    form: Optional[aspda.Form]      # of its program, or of its set where it takes no program
    takes_program: bool
    takes_set: bool
    writes: bool                    # a buffer is lent to it
    refusals: tuple                 # every number that it can give
    takes_state: bool = False       # a call of program assembly
    number: int = 0

    def set_limit(self):
        return aspda.CHECKED_LITERALS if self.group == "check" else self.form.set_literals


READING = {aspda.SOURCE: (1, 2, 3, 4, 5, 6, 7, 8, 14), aspda.PLAIN: (1, 2, 3, 4, 5, 6, 8)}
SET_AND_OUTPUT = (9, 10, 11, 12)


def operation(name, form, program, literals, writes, refusals):
    return Operation(name, name.split("_")[0], form, program, literals, writes, refusals)


def assembly_call(name, writes, refusals):
    return Operation(name, "assembly", aspda.SOURCE, False, False, writes, refusals, True)


def listed():
    rows = []
    for name, form in (("source", aspda.SOURCE), ("plain", aspda.PLAIN)):
        reading = READING[form]
        rows += [
            operation(f"read_{name}", form, True, False, False, reading),
            operation(f"show_{name}", form, True, False, False, reading + (13,)),
            operation(f"quotient_{name}", form, True, True, True, reading + SET_AND_OUTPUT),
            operation(f"check_{name}", form, True, True, True, reading + SET_AND_OUTPUT),
        ]
    source = READING[aspda.SOURCE]
    rows += [
        operation("translate", aspda.SOURCE, True, False, True, source + (9,)),
        operation("extend", aspda.SOURCE, True, True, True, source + SET_AND_OUTPUT),
        operation("restrict", aspda.PLAIN, False, True, True, SET_AND_OUTPUT),
        operation("aspif", aspda.PLAIN, True, False, True, READING[aspda.PLAIN] + (9,)),
        operation("filter", aspda.SOURCE, True, False, False, source + (9,)),
        assembly_call("begin", True, (9, 15)),
        assembly_call("add", True, (2, 3, 4, 5, 6, 7, 9, 15)),
        assembly_call("drop", False, (15,)),
        assembly_call("close", True, (9, 15)),
        assembly_call("assembled", False, ()),
    ]
    return [row._replace(number=number) for number, row in enumerate(rows)]


OPERATIONS = listed()
BY_NAME = {row.name: row for row in OPERATIONS}
GROUPS = tuple(dict.fromkeys(row.group for row in OPERATIONS))

ACCEPTED = "accepted"


class Case(NamedTuple):
    """One call, and what its author states of its outcome.

    Nothing, ACCEPTED, a refusal's number, a refusal as (number, place), or a verdict's name.
    """

    name: str
    operation: Operation
    program: Slice = NOTHING
    literals: Slice = NOTHING
    rule: int = 0
    room: int = 0
    stated: object = None


class Row(NamedTuple):
    """One call and its outcome."""

    name: str
    operation: Operation
    program: Slice
    literals: Slice
    rule: int
    room: int
    word: int
    written: Slice


class AssemblyCase(NamedTuple):
    """One call of program assembly, and what its author states of its outcome, as of a Case.

    Of an accepted call also the end of its row's name.
    """

    name: str
    operation: Operation
    state: Slice
    record: Slice = NOTHING         # add only
    room: int = 0
    stated: object = None


class AssemblyRow(NamedTuple):
    """One call of program assembly and its outcome: every byte of state and buffer."""

    name: str
    operation: Operation
    state: Slice
    record: Slice
    room: int
    word: int
    after: Slice                    # the state
    start: int                      # where in the buffer it wrote
    written: Slice


def pattern(length):
    """What the lent buffer holds before the call."""
    return (bytes(range(251, 0, -1)) * (length // 251 + 1))[:length]


def call(case):
    """The reference's answer: the word and the lent buffer after the call."""
    kind = case.operation
    if kind.group == "filter":
        stdout = aspda.filter(case.program.data)
        return aspda.Answer(len(stdout), stdout)
    inputs = []
    if kind.takes_program:
        inputs.append(case.program.data)
    if kind.takes_set:
        inputs.append(case.literals.data)
    if kind.group == "show":
        inputs.append(case.rule)
    return getattr(aspda, kind.name)(*inputs, out=pattern(case.room))


COMPLEMENTS = bytes(range(255, -1, -1))


def call_of_assembly(case, out):
    inputs = [case.record.data] if case.operation.name == "add" else []
    return getattr(aspda, case.operation.name)(case.state.data, *inputs, out=out)


def written_in_both(one, other):
    """Where two buffers that were lent with complementary bytes agree: start and end.

    That is what was written. Outside they have to be complementary still.
    """
    joined = int.from_bytes(one, "big") ^ int.from_bytes(other, "big")
    differing = joined.to_bytes(len(one), "big")
    start = max(differing.find(0), 0)
    end = differing.rfind(0) + 1
    assert differing == b"\xff" * start + bytes(end - start) + b"\xff" * (len(one) - end)
    return start, end


def evaluated_assembly(case):
    """The row of a call of assembly; its answer may not depend on what the buffer holds."""
    lent = pattern(case.room)
    answer = call_of_assembly(case, lent)
    other = call_of_assembly(case, lent.translate(COMPLEMENTS))
    assert answer[:2] == other[:2], case.name
    start, end = written_in_both(answer.buffer, other.buffer)
    assert (answer.buffer[:start], answer.buffer[end:]) == (lent[:start], lent[end:]), case.name
    after = case.state if answer.state == case.state.data else whole(answer.state)
    return AssemblyRow(case.name, case.operation, case.state, case.record, case.room, answer.word,
                       after, start, whole(answer.buffer[start:end]))


def length_written(kind, word):
    """How many bytes of the lent buffer an answer with this word changes."""
    if word >= aspda.REFUSED or kind.group in ("read", "show"):
        return 0
    if kind.group == "check":
        return word & 0xFFFF_FFFF if word >> 32 == 3 else 0
    return word


def refusal_in(row):
    """The refusal that a row expects, as (number, place), or None."""
    if row.operation.group == "filter":
        stdout = row.written.data
        if stdout[:2] != aspda.REFUSAL:
            return None
        return stdout[2], int.from_bytes(stdout[3:], "big")
    if row.word < aspda.REFUSED:
        return None
    return row.word - aspda.REFUSED >> 32, row.word & 0xFFFF_FFFF


def evaluated_call(case):
    word, buffer = call(case)
    written = length_written(case.operation, word)
    lent = pattern(case.room) if case.operation.group != "filter" else buffer
    assert len(buffer) == len(lent) and buffer[written:] == lent[written:], case.name
    return Row(case.name, case.operation, case.program, case.literals, case.rule, case.room, word,
               whole(buffer[:written]))


def evaluated(case):
    """The row of a case; a statement that the reference contradicts is an error."""
    row = evaluated_assembly(case) if case.operation.takes_state else evaluated_call(case)
    end = outcome(row)
    if not agrees(case.stated, refusal_in(row), end):
        raise AssertionError(f"{case.operation.name} {case.name}: stated {case.stated}, "
                             f"the reference gives {refusal_in(row) or end}")
    return row._replace(name=f"{case.name}-{end}")


def agrees(stated, refusal, end):
    if stated is None:
        return True
    if isinstance(stated, tuple):
        return refusal == stated
    if isinstance(stated, int):
        return refusal is not None and refusal[0] == stated
    return refusal is None and stated in (ACCEPTED, end, end.split("-")[0])


def outcome(row):
    """The end of a row's name."""
    refusal = refusal_in(row)
    if refusal is not None:
        return f"refused-{refusal[0]}"
    if row.operation.group == "check":
        high, low = row.word >> 32, row.word & 0xFFFF_FFFF
        return ("yes", f"clash-{low}", f"broken-{low}", f"smaller-{low}-bytes")[high]
    if row.operation.group == "read":
        return f"has-{row.word}-rules"
    if row.operation.group == "show":
        return f"shown-at-{row.word >> 32}"
    if row.operation.takes_state and row.operation.name != "assembled":
        return f"holds-{row.word}-rules"
    return f"gives-{row.word}-bytes"
