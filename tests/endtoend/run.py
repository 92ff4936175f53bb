"""The kits of examples/ from text to a solver and back.

    python3 tests/endtoend/run.py [ASPDA]       the command; target/rust/release/aspda if not given

Of M3 and of each kit: the text is converted to bytes and translated; clingo finds the answer sets
of the translation, and clasp those of the text in aspif that the command makes of it; the command
says yes to each, restricts it, says yes to the restriction on the source, and extends it to what the
solver gave. The restrictions are the sets of NAME.answers, which come from a search on the source
that knows no translation. The pipe of README.md, from the text to clasp in one line, shows the same
atoms. Sets near an answer set, and some far from one, get the verdict that the reference gives.
A kit NAME_sheets has the answer sets of NAME, whose defeat rules are written by hand; what the command
shows of its expansion are these rules.

Beside it the old product: how many rules its translation has, a plain rule for each non-empty
subset of a rule's options; whether it gives up; and, where it does not, how many answer sets it
finds.

Prints a line for each kit, lengths in bytes. Exit status 1 on any difference; 2 if the command or
clingo is not there.
"""

import random
import re
import shutil
import subprocess
import sys
import tempfile
from collections import Counter
from pathlib import Path
from typing import NamedTuple

sys.dont_write_bytecode = True
TESTS = Path(__file__).resolve().parent.parent
sys.path[:0] = [str(TESTS / "reference"), str(TESTS / "solver")]

import answers                                                                  # noqa: E402
import solve                                                                    # noqa: E402
import traps                                                                    # noqa: E402
from aspda import (CHECKED_LITERALS, PLAIN, SOURCE, YES, Rule, appended_rules,  # noqa: E402
                   aspif_name, aspif_text, encoded_item, encoded_program, extension, numbering,
                   opposite, read_rules, read_set, translation, verdict, written_rules)
from command import Command, CommandError                                       # noqa: E402
from samples import literals_of                                                 # noqa: E402
from text_form import (Names, Program, TextError, read_program, read_sets,      # noqa: E402
                       read_with_lines, set_text)

SHEETS = "_sheets"          # ends the name of a kit that has preference sheets in place of rules
LEAST_WITH_SHEETS = 3

COMMAND = "target/rust/release/aspda"
OPTIONS = range(5, SOURCE.heads + 1)    # of a kit, all its rules together
NEAR = 12                   # sets with a literal dropped, and with one added, of each form
FAR = 8                     # random sets of head literals
SEED = 1
VERDICT_NAMES = ("yes", "clash", "broken", "smaller")
# The most options of one rule, 16: the old product's rules, and ours.
WIDEST = SOURCE.heads, 65_535, 50
README_ROW = re.compile(r"\| `kits/(\w+)\.txt` \| (\d+)[^|]*\|[^|]*\| (\d+) \|")


class Difference(Exception):
    """Something is not as it should be, in words."""


def expect(right, words):
    if not right:
        raise Difference(words)


class Kit(NamedTuple):
    name: str
    path: Path
    program: Program
    answers: list

    def choices(self):
        return [rule for rule in self.program.rules if rule.is_defeasible()]

    def options(self):
        return [len(rule.heads) for rule in self.choices()]

    def words(self, literals):
        return set_text(literals, self.program.names)


def read_kit(path):
    program = read_program(path.read_text(encoding="ascii"))
    text = answers.answers_file(path).read_text(encoding="ascii")
    return Kit(path.stem, path, program, read_sets(text, program.names))


# ---------------------------------------------------------------------------------------------
# From text to the solver and back


class Files(NamedTuple):
    """The source and the translation that the command wrote, and their bytes."""

    source: Path
    plain: Path
    source_bytes: bytes
    plain_bytes: bytes


def written_files(command, kit):
    source, source_bytes = command.written("source.aspda", "convert", kit.path)
    expect(source_bytes == encoded_program(kit.program.items), "the source's bytes")
    plain, plain_bytes = command.written("translation.plain", "translate", source)
    expect(plain_bytes == encoded_program(translation(kit.program.rules)), "the translation")
    return Files(source, plain, source_bytes, plain_bytes)


def compare_listings(command, kit, files):
    """The command's text, read again: the source without names, the translation with names."""
    path, _ = command.written("source.txt", "convert", files.source)
    expect(read_program(path.read_text(encoding="ascii")).items == kit.program.items,
           "the source's listing")
    listed = read_program(command.printed("translate", kit.path))
    expect(listed == (translation(kit.program.rules), kit.program.names),
           "the translation's listing")


def restricted(command, kit, files, found):
    """The restriction of one of the solver's sets, checked on the way there and back."""
    expect(len(found) <= CHECKED_LITERALS, "an answer set is too large for check")
    proposed = command.set_file(found)
    expect(command.verdict(["--plain"], files.plain, proposed)[0] == YES,
           f"the solver's set is no answer set of the translation: {kit.words(found)}")
    path, data = command.written("restriction.bytes", "restrict", proposed)
    expect(command.verdict([], files.source, path)[0] == YES,
           f"the restriction is no answer set of the source: {kit.words(found)}")
    _, extended = command.written("extension.bytes", "extend", files.source, path)
    expect(extended == proposed.read_bytes(), f"restricted and extended: {kit.words(found)}")
    return frozenset(read_set(PLAIN, data, PLAIN.set_literals))


def compare_with_solver(command, kit, files, found):
    restrictions = [restricted(command, kit, files, literals) for literals in found]
    expect(len(set(restrictions)) == len(restrictions), "two of the solver's sets restrict to one")
    for literals in set(restrictions) - set(kit.answers):
        raise Difference(f"only the solver has {kit.words(literals)}")
    for literals in set(kit.answers) - set(restrictions):
        raise Difference(f"only {kit.name}.answers has {kit.words(literals)}")
    expect(len(kit.answers) == len(restrictions), f"a set is twice in {kit.name}.answers")


def clasp_answer_sets(command, files):
    """The answer sets of the translation's text in aspif, by clasp; and the text's length."""
    rules = read_rules(PLAIN, files.plain_bytes)
    path, data = command.written("translation.aspif", "aspif", files.plain)
    expect(data == aspif_text(rules), "the text in aspif")
    text = data.decode("ascii")
    expect(command.printed("aspif", files.plain) == text, "the text in aspif on standard output")
    # Marks have no name in it, so clasp would not show them.
    found = solve.aspif_answer_sets(solve.fully_named(text, numbering(rules)))
    return {frozenset(map(solve.literal_of, names)) for names in found}, len(data)


def compare_pipe(command, kit):
    """From the text to clasp in one line: the atoms, negated ones too, of each answer set."""
    shown = command.piped(["translate", kit.path, "-o", "-"], ["aspif", "-"],
                          ["clingo", "--mode=clasp", *solve.SOUND_OPTIONS, "0", "--outf=2"])
    found = {frozenset(names) for names in solve.witnesses(shown)}
    expect(found == {frozenset(aspif_name(literal) for literal in literals if opposite(literal))
                     for literals in kit.answers}, "the atoms that the pipe to clasp shows")


def compare_in_text(command, kit):
    """The recorded sets as text with names, and the listing of their extensions read again."""
    for literals in kit.answers:
        text = kit.words(literals)
        expect(command.verdict([], kit.path, text)[0] == YES, f"as text: {text}")
        listing = command.printed("extend", kit.path, text)
        expect(read_sets(listing, kit.program.names) == [extension(kit.program.rules, literals)],
               f"the listing of the extension of {text}")


# ---------------------------------------------------------------------------------------------
# Preference sheets


RECORD = r"(.+) \((line|byte) (\d+)\)"
APPENDED_LINE = re.compile(rf"[^%]*% rule (\d+): {RECORD}; {RECORD}")


def compare_expansion(command, kit, files):
    """The appended rules as the command shows them, of the text and of the bytes."""
    appended = appended_rules(kit.program.items)
    for source in (kit.path, files.source):
        listing = command.printed("expand", source)
        expect(read_program(listing).items == appended, f"the expansion of {source.name}")
        shown = [line for line in listing.splitlines() if "% rule" in line]
        expect(len(shown) == len(appended), f"the rules shown of {source.name}")
        for line, rule in zip(shown, appended):
            compare_makers(kit, source, line, rule)
    _, data = command.written("appended.plain", "expand", files.source)
    expect(data == encoded_program(appended), "the expansion's bytes")


def compare_makers(kit, source, line, rule):
    """A line of the expansion: the rule's number, and the first two records that make it."""
    found = APPENDED_LINE.fullmatch(line)
    expect(found is not None, f"no two records are shown: {line}")
    number, *shown = found.groups()
    items = kit.program.items
    rules = written_rules(items)
    expect(int(number) == 1 + kit.program.rules.index(rule, len(rules)), f"the number in {line}")
    names = kit.program.names if source == kit.path else Names({}, {})
    makers = read_with_lines(f"{shown[0]}. {shown[3]}.", names)[0].items
    expect(rule in appended_rules(rules + makers), f"the records in {line}")
    for item, unit, place in zip(makers, shown[1::3], shown[2::3]):
        right = unit, int(place)
        expect(right == place_of(kit, source, items.index(item)), f"a record's place in {line}")


def place_of(kit, source, index):
    """Where an item begins: its line in the kit's text, in bytes its record's first byte."""
    if source == kit.path:
        lines = read_with_lines(kit.path.read_text(encoding="ascii"), Names({}, {}))[1]
        return "line", lines[index]
    return "byte", len(b"".join(map(encoded_item, kit.program.items[:index])))


def compare_twins(kits):
    """Each kit with sheets beside the one with hand-written rules: the same sets, the same rules."""
    by_name = {kit.name: kit for kit in kits}
    with_sheets = [kit for kit in kits if kit.name.endswith(SHEETS)]
    expect(len(with_sheets) >= LEAST_WITH_SHEETS, f"fewer than {LEAST_WITH_SHEETS} kits with sheets")
    for kit in with_sheets:
        twin = by_name[kit.name[:-len(SHEETS)]]
        expect(len(appended_rules(kit.program.items)) > 0, f"{kit.name} appends nothing")
        expect(all(isinstance(item, Rule) for item in twin.program.items), f"{twin.name} has sheets")
        expect(set(kit.answers) == set(twin.answers), f"{kit.name} and {twin.name}: answer sets")
        expect(set(kit.program.rules) == set(twin.program.rules), f"{kit.name} and {twin.name}: rules")
    return len(with_sheets)


# ---------------------------------------------------------------------------------------------
# Sets that are no answer sets


def sets_nearby(rng, found, literals):
    """Answer sets with one literal dropped, with one added, and random sets."""
    literals = sorted(literals)
    near = []
    for _ in range(NEAR if found else 0):
        base = rng.choice(found)
        near += [base - {rng.choice(sorted(base))}, base | {rng.choice(literals)}]
    far = [frozenset(rng.sample(literals, rng.randint(0, min(8, len(literals)))))
           for _ in range(FAR)]
    return [proposed for proposed in dict.fromkeys(near + far) if proposed not in found]


def verdict_words(word, witness):
    return f"{VERDICT_NAMES[word >> 32]} {witness.hex(' ', 1) or word & 0xFFFF_FFFF}"


def compare_verdicts(command, kit, files, tally):
    rng = random.Random(f"{SEED} {kit.name}")
    rules = kit.program.rules
    plain = read_rules(PLAIN, files.plain_bytes)
    extensions = [extension(rules, literals) for literals in kit.answers]
    for form, program, form_rules, found in (([], files.source, rules, kit.answers),
                                             (["--plain"], files.plain, plain, extensions)):
        for proposed in sets_nearby(rng, found, literals_of(form_rules)):
            right = verdict(form_rules, sorted(proposed))
            given = command.verdict(form, program, command.set_file(proposed))
            expect(given[0] != YES, f"yes to {kit.words(proposed)}")
            expect(given == right, f"the verdict on {kit.words(proposed)} is "
                                   f"{verdict_words(*given)}, not {verdict_words(*right)}")
            tally[given[0] >> 32] += 1


# ---------------------------------------------------------------------------------------------
# The old product


def old_product(kit):
    """Its rules for the kit, and what became of it, in words."""
    rules = kit.program.rules
    count = sum(2 ** len(rule.heads) - 1 if rule.is_defeasible() else 1 for rule in rules)
    try:
        plain = traps.old_translation(rules)
    except traps.TooManyOptions:
        return count, "refused: more than four options"
    expect(len(plain) == count, "the number of the old product's rules")
    found = solve.text_answer_sets(traps.old_text(plain, literals_of(rules)))
    expect(found <= set(kit.answers), "the old product has an answer set of its own")
    return count, f"{len(found)} answer sets"


def compare_rule_numbers(kit, files):
    """3k + 2 rules for each of the kit's choices, and the figures for sixteen options."""
    ours = len(read_rules(PLAIN, files.plain_bytes))
    choices = kit.choices()
    strict_rules = len(kit.program.rules) - len(choices)    # appended ones too
    expect(ours == strict_rules + sum(3 * options + 2 for options in kit.options()),
           "the number of the translation's rules")
    if kit.options() == [WIDEST[0]]:
        old = sum(1 for _ in traps.old_rules(choices[0], doubly_negated=False))
        expect((WIDEST[0], old, ours - strict_rules) == WIDEST,
               f"sixteen options: {old} rules of the old product, {ours - strict_rules} of ours")
    return ours


# ---------------------------------------------------------------------------------------------
# All kits


LINE = "{:<16}{:<20}{:>6}{:>13}{:>7}{:>7}{:>11}  {:<33}{:>11}  {}"


def options_words(options):
    parts = " + ".join(map(str, options))
    return f"{sum(options)} = {parts}" if len(options) > 1 else parts


def run_kit(command, kit, tally):
    files = written_files(command, kit)
    compare_listings(command, kit, files)
    compare_with_solver(command, kit, files, solve.answer_sets(files.plain_bytes))
    found, text_length = clasp_answer_sets(command, files)
    compare_with_solver(command, kit, files, found)
    compare_pipe(command, kit)
    compare_in_text(command, kit)
    compare_expansion(command, kit, files)
    compare_verdicts(command, kit, files, tally)
    ours = compare_rule_numbers(kit, files)
    old_rules, old_words = old_product(kit)
    print(LINE.format(kit.name, options_words(kit.options()), f"{len(files.source_bytes):,}",
                      f"{len(files.plain_bytes):,}", ours, f"{text_length:,}", f"{old_rules:,}", old_words,
                      len(kit.answers), "same"), flush=True)


def compare_readme(kits):
    """The options and answer sets in the table of examples/README.md."""
    text = (answers.EXAMPLES / "README.md").read_text(encoding="ascii")
    rows = {name: (int(options), int(sets)) for name, options, sets in README_ROW.findall(text)}
    expect(rows == {kit.name: (sum(kit.options()), len(kit.answers)) for kit in kits},
           "the table of examples/README.md does not list these kits, options and answer sets")


def run_all(command, kits):
    tally = Counter()
    failed = 0
    print(LINE.format("", "options", "source", "translation", "rules", "aspif", "old rules",
                      "old product", "answer sets", "").rstrip())
    for kit in kits:
        try:
            run_kit(command, kit, tally)
        except (Difference, CommandError, OSError, TextError, subprocess.TimeoutExpired) as error:
            failed += 1
            print(f"{kit.name}: FAILED: {error}")
    print(f"{command.calls} calls of the command; other sets: {tally[1]} clash, {tally[2]} broken, "
          f"{tally[3]} smaller")
    expect(failed or all(tally[case] for case in (1, 2, 3)), "a verdict was never reached")
    return failed


def main():
    program = sys.argv[1] if len(sys.argv) > 1 else COMMAND
    if not shutil.which(program):
        print(f"endtoend: no command {program}: build it, or name it in ASPDA", file=sys.stderr)
        return 2
    try:
        print(f"endtoend: {solve.version()}")
        marked, kits = [list(map(read_kit, files)) for files in (answers.marked_files(),
                                                                 answers.kit_files())]
        expect(len(kits) >= answers.LEAST_KITS and all(sum(kit.options()) in OPTIONS for kit in kits)
               and any(kit.options() == [WIDEST[0]] for kit in kits),
               f"not {answers.LEAST_KITS} kits of {OPTIONS[0]} to {OPTIONS[-1]} options, one of them "
               f"with {WIDEST[0]} in one rule")
        with tempfile.TemporaryDirectory() as folder:
            failed = run_all(Command(program, folder), marked + kits)
        compare_readme(kits)
        twins = compare_twins(marked + kits)
    except solve.SolverError as error:
        print(f"endtoend: {error}", file=sys.stderr)
        return 2
    except (Difference, OSError, TextError) as error:
        print(f"endtoend: {error}", file=sys.stderr)
        return 1
    print(f"endtoend: {len(marked + kits)} programs, {twins} of them with sheets beside the same with "
          f"rules, {failed} failed")
    return 1 if failed else 0


if __name__ == "__main__":
    sys.exit(main())
