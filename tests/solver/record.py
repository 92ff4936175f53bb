"""Makes recorded.txt: random sources and their translations with the answer sets of both.

    python3 tests/solver/record.py              write recorded.txt afresh
    python3 tests/solver/record.py --check      compare it with what is made afresh instead
    python3 tests/solver/record.py --only-match --count 5000 --seed 7
                                                other sources; recorded.txt is left alone

A source's answer sets are found by trying all sets of its literals, straight from the Meaning; a
translation's by clingo. The extensions of the former must be exactly the latter, one to one.
Needs clingo. The same seed gives the same cases.
"""

import argparse
import subprocess
import sys
from collections import Counter
from pathlib import Path

sys.dont_write_bytecode = True
sys.path.insert(0, str(Path(__file__).resolve().parent.parent / "reference"))

import recorded                                                                 # noqa: E402
import solve                                                                    # noqa: E402
import sources                                                                  # noqa: E402
from aspda import (answer_sets, encoded_program, expanded, extension,           # noqa: E402
                   translation)
from samples import literals_of                                                 # noqa: E402

RECORDED = Path(__file__).resolve().parent / "recorded.txt"
DEFAULT_COUNT = 300
DEFAULT_SEED = 1
LEAST_OF_A_TRAIT = 20   # of the default count: fewer would leave a trait as good as untried


class Mismatch(Exception):
    """The answer sets of a source and of its translation do not match."""


def made_case(name, items):
    rules = expanded(items)
    plain = encoded_program(translation(rules))
    case = recorded.Case(name, encoded_program(items), answer_sets(rules, literals_of(rules)),
                         plain, list(solve.answer_sets(plain)))
    require_match(rules, case)
    return case


def require_match(rules, case):
    extensions = [extension(rules, literals) for literals in case.source_sets]
    one_to_one = len(set(extensions)) == len(case.source_sets)
    if not one_to_one or set(extensions) != set(case.translation_sets):
        raise Mismatch(f"extensions and clingo's answer sets differ:\n{recorded.case_text(case)}")


def made_cases(options, tally):
    for number, name, items in sources.named_sources(options.seed, options.count):
        case = made_case(f"{number} {name}", items)
        tally.update([sources.SHEETS] if name == sources.SHEETS else sources.traits_of(items))
        tally[answer_set_count(case)] += 1
        yield case


def answer_set_count(case):
    count = len(case.source_sets)
    if count >= 3:
        return "3 or more answer sets"
    return "1 answer set" if count == 1 else f"{count} answer sets"


def remarks(options):
    return ["Sources and translations with their answer sets; the format is in recorded.py.",
            f"{options.count} cases and {options.count // sources.SHARE_WITH_SHEETS} with sheets, seed"
            f" {options.seed}, {solve.version()} with"
            f" {' '.join(solve.SOUND_OPTIONS)}. Made by record.py."]


def show(tally):
    for name in [*sources.TRAITS, *sorted(key for key in tally if key not in sources.TRAITS)]:
        print(f"  {tally[name]:5} {name}")


def rare_traits(tally):
    return [name for name in [*sources.TRAITS, sources.SHEETS] if tally[name] < LEAST_OF_A_TRAIT]


def first_difference(text):
    """The first block in which recorded.txt is not the text, or None; remarks do not count."""
    old = recorded.blocks(RECORDED.read_text(encoding="ascii"))
    new = recorded.blocks(text)
    for before, after in zip(old, new):
        if before != after:
            return f"recorded:\n{before}\nafresh:\n{after}"
    return None if len(old) == len(new) else f"{len(old)} cases recorded, {len(new)} afresh"


def run(options):
    if options.count < 1:
        print("record: no cases asked for")
        return 1
    tally = Counter()
    text = recorded.file_text(remarks(options), made_cases(options, tally))
    print(f"record: {options.count} cases match, and {tally[sources.SHEETS]} with sheets, {solve.version()}")
    show(tally)
    if options.count >= DEFAULT_COUNT and rare_traits(tally):
        print(f"record: too few cases with {', '.join(rare_traits(tally))}")
        return 1
    if options.only_match:
        return 0
    if options.check:
        difference = first_difference(text)
        print(f"record: {difference or 'recorded.txt is as made afresh'}")
        return 1 if difference else 0
    RECORDED.write_text(text, encoding="ascii")
    return 0


def arguments():
    parser = argparse.ArgumentParser(description="make recorded.txt")
    parser.add_argument("--count", type=int, default=DEFAULT_COUNT)
    parser.add_argument("--seed", type=int, default=DEFAULT_SEED)
    parser.add_argument("--check", action="store_true", help="compare with recorded.txt instead")
    parser.add_argument("--only-match", action="store_true",
                        help="match the cases, and neither write nor compare recorded.txt")
    return parser.parse_args()


def main():
    try:
        return run(arguments())
    except Mismatch as error:
        print(f"record: {error}")
        return 1
    except (OSError, solve.SolverError, subprocess.TimeoutExpired) as error:
        print(f"record: {error}", file=sys.stderr)
        return 2


if __name__ == "__main__":
    sys.exit(main())
