"""Makes the byte files of examples/: the marked examples M1 and M3, M3 with preference sheets, their
translations, and the translations' texts in aspif.

    python3 tests/solver/examples.py            write them afresh
    python3 tests/solver/examples.py --check    compare instead
"""

import argparse
import sys
from pathlib import Path

sys.dont_write_bytecode = True
sys.path.insert(0, str(Path(__file__).resolve().parent.parent / "reference"))

import samples                                                                  # noqa: E402
from aspda import aspif_text, encoded_program, expanded, translation            # noqa: E402

EXAMPLES = Path(__file__).resolve().parent.parent.parent / "examples"


def files():
    """The bytes of each file."""
    made = {}
    for name, items in (("m1", samples.M1), ("m3", samples.M3), ("m3_sheets", samples.M3_SHEETS)):
        rules = expanded(items)
        made[f"{name}.aspda"] = encoded_program(items)
        made[f"{name}.plain"] = encoded_program(translation(rules))
        made[f"{name}.aspif"] = aspif_text(translation(rules))
    return made


def is_as_made(name, data):
    path = EXAMPLES / name
    return path.is_file() and path.read_bytes() == data


def main():
    parser = argparse.ArgumentParser(description="make the byte files of examples/")
    parser.add_argument("--check", action="store_true", help="compare instead")
    options = parser.parse_args()
    made = files()
    if not options.check:
        for name, data in made.items():
            (EXAMPLES / name).write_bytes(data)
    wrong = [name for name, data in made.items() if not is_as_made(name, data)]
    print(f"{len(made)} files, {len(wrong)} failed{': ' if wrong else ''}{', '.join(wrong)}")
    return 1 if wrong or not made else 0


if __name__ == "__main__":
    sys.exit(main())
