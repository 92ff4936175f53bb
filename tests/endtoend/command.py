"""The command `aspda`, run on files: what it prints and what it writes."""

import re
import subprocess
from pathlib import Path

from aspda import BROKEN, CLASH, SMALLER, YES, encoded_set
from text_form import Names, read_sets

LONGEST_RUN = 10    # seconds
VERDICT = re.compile(r"(yes|clash|broken|smaller)\b(?:\D*(\d+))?")
VERDICTS = {"yes": YES, "clash": CLASH, "broken": BROKEN, "smaller": SMALLER}


class CommandError(Exception):
    """The command did not do what was asked of it."""


class Command:
    """The command, with a directory for the files that it reads and writes."""

    def __init__(self, program, folder):
        self.program = program
        self.folder = Path(folder)
        self.calls = 0

    def run(self, *arguments):
        self.calls += 1
        return subprocess.run([self.program, *map(str, arguments)], capture_output=True, text=True,
                              timeout=LONGEST_RUN, check=False)

    def printed(self, *arguments):
        """What a call prints that must succeed."""
        run = self.run(*arguments)
        if run.returncode != 0:
            raise CommandError(f"aspda {' '.join(map(str, arguments))}: status {run.returncode}: "
                               f"{run.stderr.strip() or run.stdout.strip()}")
        return run.stdout

    def piped(self, first, second, solver):
        """What a solver prints at the end of a pipe of two calls."""
        self.calls += 2
        running = subprocess.PIPE
        with (subprocess.Popen([self.program, *map(str, first)], stdout=running) as one,
              subprocess.Popen([self.program, *map(str, second)], stdin=one.stdout,
                               stdout=running) as two,
              subprocess.Popen(list(map(str, solver)), stdin=two.stdout, stdout=running,
                               text=True) as last):
            one.stdout.close()
            two.stdout.close()
            printed = last.communicate(timeout=LONGEST_RUN)[0]
        if one.returncode != 0 or two.returncode != 0:
            raise CommandError(f"a pipe's calls ended with {one.returncode} and {two.returncode}")
        return printed

    def written(self, name, *arguments):
        """The file of this name that a call writes with -o, and its bytes."""
        path = self.folder / name
        path.unlink(missing_ok=True)
        self.printed(*arguments, "-o", path)
        return path, path.read_bytes()

    def set_file(self, literals):
        """A file with a set's bytes."""
        path = self.folder / "set.bytes"
        path.write_bytes(encoded_set(literals))
        return path

    def verdict(self, form, program, proposed):
        """The word of a check's verdict and the witness's bytes, as the reference gives them.

        The verdict is the first word that check prints, its value the first number behind it.
        """
        witness = self.folder / "witness.bytes"
        witness.unlink(missing_ok=True)
        run = self.run("check", *form, program, proposed, "-o", witness)
        found = VERDICT.match(run.stdout)
        if not found or (run.returncode == 0) != (found.group(1) == "yes"):
            raise CommandError(f"check: status {run.returncode}: {run.stdout}{run.stderr}")
        word = VERDICTS[found.group(1)]
        if word == SMALLER:
            return self.smaller(run.stdout, witness)
        if witness.exists():
            raise CommandError(f"check: wrote a witness with {found.group(1)}")
        return word if word == YES else word + int(found.group(2)), b""

    def smaller(self, printed, witness):
        """The witness as written; as a set without names it is listed behind the first line."""
        written = witness.read_bytes()
        listed = read_sets(printed.partition("\n")[2], Names({}, {}))
        if [encoded_set(literals) for literals in listed] != [written]:
            raise CommandError(f"check: the witness is not as listed: {printed}")
        return SMALLER + len(written), written
