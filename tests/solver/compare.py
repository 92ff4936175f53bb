"""Compares recorded.txt with the reference, without a solver.

    python3 tests/solver/compare.py
    python3 tests/solver/compare.py --translate 'target/bin/filter'

Of each case: the source is read; its answer sets, by trying all sets of its literals, are those
recorded; so are the translation's bytes; the extensions of the source's answer sets are the
translation's, one to one, and restriction leads back. With --translate a filter program gets each
source on standard input, and what it writes must be the recorded translation.

Prints 'N cases, 0 failed'.
"""

import argparse
import shlex
import subprocess
import sys
from pathlib import Path

sys.dont_write_bytecode = True
sys.path.insert(0, str(Path(__file__).resolve().parent.parent / "reference"))

import recorded                                                                 # noqa: E402
from aspda import (PLAIN, REFUSAL, REFUSAL_RECORD, SOURCE, Refusal, answer_sets,    # noqa: E402
                   encoded_program, extension, first_smaller_by_search, is_interpretation,
                   is_model, quotient, read_items, read_rules, restriction, translation)
from samples import literals_of                                                 # noqa: E402
from solve import rule_words                                                    # noqa: E402

RECORDED = Path(__file__).resolve().parent / "recorded.txt"
LONGEST_RUN = 10    # seconds, of a filter program on one source


# ---------------------------------------------------------------------------------------------
# A case beside the reference


def faults(case, command):
    """What is wrong with a case, in words."""
    try:
        rules = read_rules(SOURCE, case.source)
        plain = read_rules(PLAIN, case.translation)
    except Refusal as refusal:
        return [f"a program is {refusal}"]
    wrong = program_faults(case, rules, plain) + set_faults(case, rules, plain)
    return wrong + (command_faults(case, command) if command else [])


def program_faults(case, rules, plain):
    return named({
        "the source's bytes": encoded_program(read_items(SOURCE, case.source)) == case.source,
        "the translation's bytes": encoded_program(translation(rules)) == case.translation,
        "the translation read back": translation(rules) == plain,
    })


def set_faults(case, rules, plain):
    found, found_in_plain = set(case.source_sets), set(case.translation_sets)
    extensions = {extension(rules, literals) for literals in found}
    back = {restriction(literals) for literals in found_in_plain}
    return named({
        "the source's answer sets": found == set(answer_sets(rules, literals_of(rules))),
        "a set recorded twice": len(found) == len(case.source_sets)
                                and len(found_in_plain) == len(case.translation_sets),
        "the extensions": extensions == found_in_plain,
        "the restrictions": back == found,
        "one to one": len(found) == len(found_in_plain) == len(extensions) == len(back),
        "the translation's answer sets": all(is_answer_set_by_search(plain, literals)
                                             for literals in found_in_plain),
    })


def is_answer_set_by_search(rules, literals):
    """As the reference's is_answer_set; these sets are too large to try all subsets."""
    own = quotient(rules, literals)
    return (is_interpretation(literals) and is_model(own, literals)
            and first_smaller_by_search(own, literals) is None)


def named(checks):
    return [name for name, right in checks.items() if not right]


# ---------------------------------------------------------------------------------------------
# A filter program


def command_faults(case, command):
    try:
        run = subprocess.run(command, input=case.source, capture_output=True, timeout=LONGEST_RUN,
                             check=False)
    except subprocess.TimeoutExpired:
        return [f"{command[0]} was not done after {LONGEST_RUN} seconds"]
    if run.returncode != 0:
        return [f"{command[0]} ended with status {run.returncode}"]
    if run.stdout == case.translation:
        return []
    return [f"{command[0]} wrote {written_words(run.stdout)}, not the recorded translation"]


def written_words(written):
    if written.startswith(REFUSAL) and len(written) == REFUSAL_RECORD.size:
        _, number, place = REFUSAL_RECORD.unpack(written)
        return f"refusal {number} at {place}"
    return f"{len(written)} bytes {written.hex().upper()}"


# ---------------------------------------------------------------------------------------------


def show_fault(case, wrong):
    print(f"failed: case {case.name}: {'; '.join(wrong)}")
    try:
        for number, rule in enumerate(read_rules(SOURCE, case.source), start=1):
            print(f"    {number}. {rule_words(rule)}")
    except Refusal:
        print(f"    {case.source.hex().upper()}")


def arguments():
    parser = argparse.ArgumentParser(description="compare recorded.txt with the reference")
    parser.add_argument("--translate", metavar="COMMAND", help="a filter program to compare, too")
    return parser.parse_args()


def main():
    options = arguments()
    command = shlex.split(options.translate) if options.translate else None
    failed = 0
    try:
        cases = recorded.read_file(RECORDED)
        for case in cases:
            wrong = faults(case, command)
            if wrong:
                failed += 1
                show_fault(case, wrong)
    except (OSError, recorded.FormatError) as error:
        print(f"compare: {error}", file=sys.stderr)
        return 1
    print(f"{len(cases)} cases, {failed} failed")
    return 1 if failed or not cases else 0


if __name__ == "__main__":
    sys.exit(main())
