"""Makes the vector file: calls of the exports with their outcomes, taken from the reference.

    python3 tests/vectors.py FILE                            the default set, for all operations
    python3 tests/vectors.py FILE --ops read,show            only these operations
    python3 tests/vectors.py FILE --random 100000 --seed 7   random calls instead
    python3 tests/vectors.py - --random 100000 | runner -    through a pipe

The same seed gives the same file. The format is in tests/cases/vector_file.py. A file without rows
is a failure, and so is a default set in which an operation has none.
"""

import argparse
import gc
import sys
from collections import Counter
from pathlib import Path

sys.dont_write_bytecode = True
sys.path.insert(0, str(Path(__file__).resolve().parent / "reference"))

from cases import random_cases, suites                                          # noqa: E402
from cases.operations import GROUPS, OPERATIONS, evaluated, refusal_in          # noqa: E402
from cases.vector_file import Writer                                            # noqa: E402

DEFAULT_SEED = 1


def arguments():
    parser = argparse.ArgumentParser(description="make the vector file")
    parser.add_argument("file", help="where to write; - is standard output")
    parser.add_argument("--ops", default=",".join(GROUPS), help="operations, by commas")
    parser.add_argument("--seed", type=int, default=DEFAULT_SEED)
    parser.add_argument("--random", type=int, metavar="COUNT", help="so many random calls instead")
    return parser.parse_args()


def chosen_operations(names):
    unknown = set(names) - set(GROUPS)
    if unknown:
        sys.exit(f"vectors: no such operation: {', '.join(sorted(unknown))}")
    return [operation for operation in OPERATIONS if operation.group in names]


def cases(options, operations):
    if options.random is not None:
        yield from random_cases.random_cases(operations, options.seed, options.random)
        return
    for operation in operations:
        yield from suites.default_cases(operation, options.seed)


def write(options, stream):
    writer = Writer(stream, OPERATIONS)
    operations = chosen_operations(options.ops.split(","))
    rows, refusals = Counter(), Counter()
    for case in cases(options, operations):
        row = evaluated(case)
        writer.row(row)
        rows[case.operation.name] += 1
        refusals[refusal_in(row) is not None] += 1
    writer.end()
    print(f"vectors: seed {options.seed}, {writer.rows} rows, {refusals[True]} refused",
          file=sys.stderr)
    without = [operation.name for operation in operations if not rows[operation.name]]
    if not rows or (without and options.random is None):
        sys.exit(f"vectors: no rows of {', '.join(without)}")


def main():
    options = arguments()
    gc.disable()  # there are no cycles, and looking for them takes a third of the time
    if options.file == "-":
        write(options, sys.stdout.buffer)
        return
    with open(options.file, "wb") as stream:
        write(options, stream)


if __name__ == "__main__":
    main()
