"""The functions of crates/ that nothing reaches.

    python3 tests/reached.py             names them; exit status 1 if there is one
    python3 tests/reached.py --public    names the public ones that no other crate calls, instead

A function is reached if it is a root, or if a function that is reached calls it. Roots are

- the exports, `pub extern "C" fn`;
- `main` of each program, crates/NAME/src/main.rt;
- the entry points for callers in Rattle: every path in backquotes in README.md that starts with a
  crate of crates/, as `record_read::read::read_source`. It has to be a public function; a path that is
  a type's or a module's is passed over.

A call is a name or a path with a bracket behind it, in a function's body; a function's name without
one is a function handed on, which is called too, and a call of a parameter is of what was handed
in. Comments, contracts and `ghost use` are no code. The functions of a trait's `impl` are called by
the language (`for`, `?`, printing), so every function that names the type calls them. What is not understood is an error, exit status 2, and never passed over:
an item of a shape that is not known here, a call of what is neither declared nor imported nor the
kit's, a path of README.md that leads nowhere, a tree without functions or without exports.
"""

import argparse
import re
import sys
from pathlib import Path
from typing import NamedTuple

ROOT = Path(__file__).resolve().parent.parent

KEYWORDS = frozenset("as break continue else for if in let loop match mut ref return while".split())
PRIMITIVES = frozenset("bool u8 u16 u32 u64 u128 usize i8 i16 i32 i64 i128 isize".split())
KIT = frozenset(["std"])
KIT_METHODS = frozenset("""any copy_from_slice count_ones enumerate fill iter iter_mut len map max min read rev
                           split_at split_at_checked stdin stdout to_be_bytes to_le_bytes unwrap_or
                           write_all""".split())
# What a derive of the language writes: no function of a file.
DERIVED = frozenset(["default"])
CONTRACTS = frozenset(["requires", "ensures"])
CLOSING = {"{": "}", "(": ")", "[": "]"}

TOKEN = re.compile(r"""
    (?P<blank>\s+|//[^\n]*)
  | (?P<literal>b?'(?:\\.|[^'\\])'|"(?:\\[\s\S]|[^"\\])*")
  | (?P<name>[^\W\d]\w*)
  | (?P<number>\d\w*)
  | (?P<sign>::|->|\.\.|.)
""", re.VERBOSE)

# A crate and those that it stands on; the other lines of crates.txt are headings and comments.
CRATE_LINE = re.compile(r"(\w+)(?: staticlib)?:((?: \w+)*)")

# A path in backquotes; its last part may be a list in braces, and arguments may stand behind it.
README_PATH = re.compile(r"`([a-z]\w*(?:::\w+)*)::(?:(\w+)|\{([^}`]*)\})(?:\([^`]*)?`")


class NotUnderstood(Exception):
    """What cannot be read here, in words."""


class Token(NamedTuple):
    kind: str
    text: str
    line: int


class Call(NamedTuple):
    path: tuple             # the names of the path
    is_method: bool         # behind a dot
    is_handed_on: bool      # without a bracket: perhaps a function, perhaps a value
    line: int

    def is_of_function(self):
        """Not a struct or a variant of an enum, which start with a capital."""
        return not self.path[-1][0].isupper()


class Function(NamedTuple):
    path: str
    scope: str              # the path of its type, or of its module where it is no type's
    module: str
    crate: str
    place: str              # file and line
    is_public: bool
    is_export: bool
    is_of_trait: bool       # in the `impl` of a trait
    parameters: frozenset   # their names
    names: frozenset        # what starts with a capital in the signature and the body
    calls: tuple


# ---------------------------------------------------------------------------------------------
# Tokens


def tokens_of(text):
    """The tokens of a file, without comments."""
    found, at, line = [], 0, 1
    while at < len(text):
        match = TOKEN.match(text, at)
        end, kind = match.end(), match.lastgroup
        if kind != "blank":
            found.append(Token(kind, text[at:end], line))
        line += text.count("\n", at, end)
        at = end
    return found


# ---------------------------------------------------------------------------------------------
# A file's items


class File:
    """What a file declares and imports."""

    def __init__(self, path, crate):
        self.name = str(path.relative_to(ROOT))
        self.crate = crate
        self.is_program = path.stem == "main"
        self.module = crate if path.stem in ("lib", "main") else f"{crate}::{path.stem}"
        self.functions = []
        self.imports = {}       # the name in this file: the path
        self.types = set()
        self.modules = set()
        self.tokens = tokens_of(path.read_text(encoding="utf-8"))
        self.at = 0
        self.is_in_trait = False
        self.read_items(None)
        if len(self.functions) != sum(token.text == "fn" for token in self.tokens):
            self.fail("not every `fn` was read")

    def fail(self, words):
        line = self.tokens[min(self.at, len(self.tokens) - 1)].line
        raise NotUnderstood(f"{self.name}:{line}: {words}")

    def next(self):
        return self.tokens[self.at].text if self.at < len(self.tokens) else None

    def take(self):
        if self.next() is None:
            self.fail("the file ends within an item")
        self.at += 1
        return self.tokens[self.at - 1].text

    def take_if(self, text):
        is_next = self.next() == text
        self.at += is_next
        return is_next

    def expect(self, text):
        if not self.take_if(text):
            self.fail(f"`{text}` expected, not `{self.next()}`")

    def take_name(self):
        if self.next() is None or self.tokens[self.at].kind != "name":
            self.fail(f"a name expected, not `{self.next()}`")
        return self.take()

    def take_block(self):
        """The tokens between the bracket that comes now and the one that closes it."""
        if self.next() not in CLOSING:
            self.fail(f"a bracket expected, not `{self.next()}`")
        start, closing = self.at + 1, [CLOSING[self.take()]]
        while closing:
            text = self.take()
            if text in CLOSING:
                closing.append(CLOSING[text])
            elif text in CLOSING.values() and text != closing.pop():
                self.fail(f"`{text}` closes another bracket")
        return self.tokens[start:self.at - 1]

    def take_until(self, end):
        """The tokens up to this one, which is taken too; it does not count in brackets."""
        start = self.at
        while not self.take_if(end):
            if self.next() in CLOSING:
                self.take_block()
            else:
                self.take()
        return self.tokens[start:self.at - 1]

    def read_items(self, owner):
        """Items up to the file's end, or to the end of an `impl` of the type `owner`."""
        while self.next() != ("}" if owner else None):
            if self.take_if("#"):
                self.take_if("!")
                self.take_block()
            elif self.take_if("ghost"):
                self.take_until(";")
            else:
                self.read_item(owner)

    def read_item(self, owner):
        is_public = self.read_visibility()
        is_export = self.take_if("extern")
        if is_export:
            self.expect('"C"')
        word = self.take_name()
        if word == "fn":
            self.read_function(owner, is_public, is_export)
        elif word == "const" and not is_export:
            if any(call.is_of_function() and not call.is_handed_on
                   for call in self.calls_in(self.take_until(";"))):
                self.fail("a call outside a function")
        elif word == "type" and self.is_in_trait:
            self.take_until(";")
        elif owner or is_export:
            self.fail(f"a function expected, not `{word}`")
        elif word == "use":
            self.read_use()
        elif word == "mod":
            self.modules.add(self.take_name())
            self.expect(";")
        elif word in ("struct", "enum"):
            self.types.add(self.take_name())
            self.skip_parameters()
            is_tuple = self.next() == "("
            self.take_block()
            if is_tuple:
                self.expect(";")
        elif word == "impl":
            self.skip_parameters()
            name = self.take_type()
            self.is_in_trait = self.take_if("for")
            if self.is_in_trait:
                name = self.take_type()
            self.expect("{")
            self.read_items(name)
            self.is_in_trait = False
            self.expect("}")
        else:
            self.fail(f"an item that starts with `{word}`")

    def skip_parameters(self):
        """Past what stands in `<` and `>`."""
        if self.take_if("<"):
            depth = 1
            while depth:
                text = self.take()
                depth += (text == "<") - (text == ">")

    def take_type(self):
        """The last name of a type's or a trait's path, past its parameters."""
        name = self.take_name()
        while self.take_if("::"):
            name = self.take_name()
        self.skip_parameters()
        return name

    def read_visibility(self):
        """Whether other crates see the item: `pub`, and not `pub(crate)`."""
        if not self.take_if("pub"):
            return False
        is_everywhere = self.next() != "("
        if not is_everywhere:
            self.take_block()
        return is_everywhere

    def read_use(self):
        """One path, or a path with names in braces at its end."""
        path = [self.take_name()]
        path[0] = self.crate if path[0] == "crate" else path[0]
        while self.take_if("::"):
            if self.next() == "{":
                names = [token.text for token in self.take_block() if token.text != ","]
                self.imports.update((name, "::".join([*path, name])) for name in names)
                self.expect(";")
                return
            path.append(self.take_name())
        self.imports[path[-1]] = "::".join(path)
        self.expect(";")

    def read_function(self, owner, is_public, is_export):
        place = f"{self.name}:{self.tokens[self.at].line}"
        name = self.take_name()
        self.skip_parameters()
        taken = self.take_block()
        parameters = frozenset(token.text for token, behind in zip(taken, taken[1:])
                               if token.kind == "name" and behind.text == ":")
        signature = list(taken)
        while self.next() != "{":
            if self.next() == "[":
                self.take_block()
            elif self.next() in CONTRACTS:
                self.take()
                if self.next() != "{":
                    self.take_name()
                self.take_block()
            else:
                signature.append(self.tokens[self.at])
                self.take()
        body = self.take_block()
        names = frozenset(token.text for token in [*signature, *body]
                          if token.kind == "name" and token.text[0].isupper())
        calls = tuple(self.calls_in(body))
        # The type of an `impl` is this file's, or one that it imports.
        scope = self.imports.get(owner, f"{self.module}::{owner}") if owner else self.module
        self.functions.append(Function(f"{scope}::{name}", scope, self.module, self.crate, place,
                                       is_public, is_export, self.is_in_trait, parameters, names,
                                       calls))

    def calls_in(self, tokens):
        """The names and paths with a bracket behind them."""
        at = 0
        while at < len(tokens):
            first, before = tokens[at], tokens[at - 1].text if at else ""
            at += 1
            if first.kind != "name" or first.text in KEYWORDS:
                continue
            path = [first.text]
            while at < len(tokens) and tokens[at].text == "::":
                if at + 1 == len(tokens) or tokens[at + 1].kind != "name":
                    self.fail(f"in the item before: a name expected behind `{path[-1]}::`")
                path.append(tokens[at + 1].text)
                at += 2
            is_call = at < len(tokens) and tokens[at].text == "("
            if is_call or before != ".":
                yield Call(tuple(path), before == ".", not is_call, first.line)


# ---------------------------------------------------------------------------------------------
# The tree


def listed_crates():
    """Our crates, which have a line of crates.txt, and the kit's: those that are only named there, and std, which no line names."""
    text = (ROOT / "crates.txt").read_text(encoding="utf-8")
    found = [CRATE_LINE.fullmatch(line) for line in text.splitlines()
             if line and not line.startswith("#")]
    if None in found or len({line[1] for line in found}) != len(found):
        raise NotUnderstood("crates.txt: a line that is no crate's, or two of one crate")
    ours = {line[1] for line in found}
    folders = {path.name for path in (ROOT / "crates").iterdir()}
    if ours != folders:
        raise NotUnderstood(f"crates.txt and crates/ differ in {sorted(ours ^ folders)}")
    return ours, KIT | {name for line in found for name in line[2].split()} - ours


def files_of(crate):
    folder = ROOT / "crates" / crate / "src"
    paths = sorted(folder.rglob("*.rt"))
    if any(path.parent != folder for path in paths):
        raise NotUnderstood(f"crates/{crate}/src has modules in folders")
    files = [File(path, crate) for path in paths]
    declared = {f"{crate}::{module}" for file in files for module in file.modules}
    written = {file.module for file in files} - {crate}
    if declared != written:
        raise NotUnderstood(f"crates/{crate}/src: {sorted(declared ^ written)} not declared, or "
                            "not there")
    return files


class Tree:
    """Every function of crates/, and the functions that it calls."""

    def __init__(self):
        self.crates, self.kit = listed_crates()
        self.files = [file for crate in sorted(self.crates) for file in files_of(crate)]
        every = [function for file in self.files for function in file.functions]
        self.functions = {function.path: function for function in every}
        if not every or len(every) != len(self.functions):
            raise NotUnderstood("crates/ has no function, or two of one path")
        self.callees = {function.path: self.called_by(file, function)
                        for file in self.files for function in file.functions}

    def called_by(self, file, function):
        found = self.by_the_language(file, function)
        for call in filter(Call.is_of_function, function.calls):
            if len(call.path) == 1 and call.path[0] in function.parameters:
                continue
            if call.is_method:
                found |= self.methods(file, call)
            else:
                found |= self.called(file, function, call)
        return found

    def by_the_language(self, file, function):
        """The functions of traits, of the types that the function names."""
        types = {file.imports.get(name, f"{file.module}::{name}") for name in function.names}
        types.add(function.scope)
        return {path for path, other in self.functions.items()
                if other.is_of_trait and other.scope in types}

    def methods(self, file, call):
        """Every method of the name: the type of the value is not known here."""
        name = call.path[-1]
        found = {path for path, function in self.functions.items()
                 if function.scope != function.module and path == f"{function.scope}::{name}"}
        if not found and name not in KIT_METHODS:
            raise NotUnderstood(f"{file.name}:{call.line}: no type has a method {name}")
        return found

    def called(self, file, function, call):
        """The function at the call's path; none where it is the kit's."""
        first, rest = call.path[0], call.path[1:]
        if first == "Self":
            first = function.scope
        elif first == "crate":
            first = file.crate
        elif first in file.imports:
            first = file.imports[first]
        elif not rest or first in file.types | file.modules:
            first = f"{file.module}::{first}"
        path = "::".join([first, *rest])
        if path in self.functions:
            return {path}
        if call.is_handed_on:
            return set()
        if path.split("::")[0] in self.kit | PRIMITIVES or path.split("::")[-1] in DERIVED:
            return set()
        raise NotUnderstood(f"{file.name}:{call.line}: `{'::'.join(call.path)}` is called, and is "
                            "nothing known")

    def exports(self):
        found = [path for path, function in self.functions.items() if function.is_export]
        if not found:
            raise NotUnderstood("crates/ has no export")
        return found

    def programs(self):
        return [f"{file.crate}::main" for file in self.files if file.is_program]

    def entry_points(self):
        """The functions that README.md names."""
        text = (ROOT / "README.md").read_text(encoding="utf-8")
        named = set()
        for front, name, names in README_PATH.findall(text):
            if front.split("::")[0] in self.crates:
                named |= {f"{front}::{last}" for last in re.findall(r"\w+", name or names)
                          if not last[0].isupper()}
        found = sorted(named - {file.module for file in self.files})
        for path in found:
            if path not in self.functions or not self.functions[path].is_public:
                raise NotUnderstood(f"README.md: `{path}` is no public function of crates/")
        return found

    def reached_from(self, roots):
        found, left = set(roots), list(roots)
        while left:
            new = self.callees[left.pop()] - found
            found |= new
            left += new
        return found

    def callers(self, path):
        return [function for caller, function in self.functions.items()
                if path in self.callees[caller]]


# ---------------------------------------------------------------------------------------------


def counted(number, noun):
    return f"{number} {noun}{'' if number == 1 else 's'}"


def show_unreached(tree, roots, words):
    reached = tree.reached_from(roots)
    unreached = [function for path, function in tree.functions.items() if path not in reached]
    for function in unreached:
        print(f"{function.place}: nothing reaches {function.path}")
    which = f"{len(unreached)} of them not" if unreached else "each"
    print(f"reached.py: {counted(len(tree.functions), 'function')}, {which} reached from {words}")
    return 1 if unreached else 0


def show_public(tree, roots):
    for path, function in tree.functions.items():
        callers = tree.callers(path)
        if (not function.is_public or path in roots
                or any(caller.crate != function.crate for caller in callers)):
            continue
        if any(caller.module != function.module for caller in callers):
            words = "only other modules of its crate call it"
        else:
            words = "only its own module calls it" if callers else "nothing calls it"
        print(f"{function.place}: {path} is public, and {words}")
    return 0


def main():
    parser = argparse.ArgumentParser(description="the functions of crates/ that nothing reaches")
    parser.add_argument("--public", action="store_true",
                        help="the public functions that no other crate calls, instead")
    options = parser.parse_args()
    try:
        tree = Tree()
        exports, programs, entries = tree.exports(), tree.programs(), tree.entry_points()
    except (NotUnderstood, OSError) as error:
        print(f"reached.py: {error}", file=sys.stderr)
        return 2
    roots = [*exports, *programs, *entries]
    if options.public:
        return show_public(tree, roots)
    words = [counted(len(exports), "export"), counted(len(programs), "program"),
             counted(len(entries), "entry point")]
    return show_unreached(tree, roots, ", ".join(words))


if __name__ == "__main__":
    sys.exit(main())
