"""The text form of programs and sets, read and written apart from the command's own parser.

    % a comment                              to the end of the line
    atom 12 = servo_x.                       names, before their use
    tag 3 = drive.
    tag drive: servo_x or -4 if 5 and not 6. a defeasible rule
    1 or defeated(drive, servo_x) if -6.     a strict rule
    never if 1 and 2.                        a strict rule without head
    tag drive overrides tag 4.               of a preference sheet: one tag before another,
    servo_x and -4 oppose.                   two options that speak against each other
    {servo_x, -2, defeated(drive, 4)}        a set
"""

import re
from typing import NamedTuple

from aspda import (KIND_DERIVED, KIND_RULE_DEFEATED, Opposition, Override, Rule, atom, defeated,
                   derived, expanded, negated, opposite, rule_defeated)

TOKEN = re.compile(r"(?P<skip>\s+|%[^\n]*)|(?P<word>rule-defeated|[a-z][a-z0-9_]*)"
                   r"|(?P<number>[0-9]+)|(?P<mark>[-:.,(){}=])")
WORDS = frozenset("tag atom or if and not never defeated derived rule-defeated".split())
MARKS = {"defeated": defeated, "derived": derived}


class TextError(Exception):
    """Text that is no program or no set; names the line."""


class Names(NamedTuple):
    """The numbers of the names that a program declares."""

    atoms: dict
    tags: dict


class Program(NamedTuple):
    """Rules and records of sheets, in order; the numbers of the names."""

    items: list
    names: Names

    @property
    def rules(self):
        """The program that is meant."""
        return expanded(self.items)


class Token(NamedTuple):
    kind: str
    text: str
    line: int


def tokens_of(text):
    found, at, line = [], 0, 1
    while at < len(text):
        match = TOKEN.match(text, at)
        if not match:
            raise TextError(f"line {line}: unexpected {text[at]!r}")
        if match.lastgroup != "skip":
            found.append(Token(match.lastgroup, match.group(), line))
        line += match.group().count("\n")
        at = match.end()
    return found + [Token("end", "the end", line)]


class Parser:
    """Goes through the tokens of one text, with the names declared so far."""

    def __init__(self, text, names):
        self.tokens = tokens_of(text)
        self.at = 0
        self.names = names

    # Tokens

    def next_is(self, *texts):
        return self.tokens[self.at].text in texts

    def at_end(self):
        return self.tokens[self.at].kind == "end"

    def fail(self, wanted):
        token = self.tokens[self.at]
        raise TextError(f"line {token.line}: {wanted} expected, not {token.text!r}")

    def take_if(self, text):
        found = self.next_is(text)
        self.at += found
        return found

    def take(self, text):
        if not self.take_if(text):
            self.fail(repr(text))

    def take_number(self):
        token = self.tokens[self.at]
        if token.kind != "number":
            self.fail("a number")
        self.at += 1
        return int(token.text)

    def take_name(self):
        token = self.tokens[self.at]
        if token.kind != "word" or token.text in WORDS:
            self.fail("a name")
        self.at += 1
        return token.text

    def take_named(self, numbers):
        """A number, or a name that stands for one."""
        if self.tokens[self.at].kind == "number":
            return self.take_number()
        if self.tokens[self.at].text not in numbers:
            self.fail("a number or a declared name")
        return numbers[self.take_name()]

    def take_list(self, part, separator):
        parts = [part()]
        while self.take_if(separator):
            parts.append(part())
        return parts

    # Literals and sets

    def take_signed(self):
        make = negated if self.take_if("-") else atom
        return make(self.take_named(self.names.atoms))

    def take_literal(self):
        for word, make in MARKS.items():
            if self.take_if(word):
                self.take("(")
                tag = self.take_named(self.names.tags)
                self.take(",")
                literal = make(tag, self.take_signed())
                self.take(")")
                return literal
        if self.take_if("rule-defeated"):
            self.take("(")
            number = self.take_number()
            self.take(")")
            return rule_defeated(number)
        return self.take_signed()

    def take_set(self):
        self.take("{")
        literals = [] if self.next_is("}") else self.take_list(self.take_literal, ",")
        self.take("}")
        return frozenset(literals)

    # Programs

    def take_body(self):
        """The positive literals and the naf ones, each in their order."""
        parts = {False: [], True: []}

        def element():
            parts[self.take_if("not")].append(self.take_literal())

        if self.take_if("if"):
            self.take_list(element, "and")
        return tuple(parts[False]), tuple(parts[True])

    def take_rule(self, tag, first=None):
        """A rule, of which the first head literal may have been taken."""
        heads = [] if first is None else [first]
        if first is None and not self.take_if("never"):
            heads = [self.take_literal()]
        while heads and self.take_if("or"):
            heads.append(self.take_literal())
        positives, nafs = self.take_body()
        self.take(".")
        return Rule(tag, tuple(heads), positives, nafs)

    def declare(self, numbers, number):
        self.take("=")
        line, name = self.tokens[self.at].line, self.take_name()
        if name in numbers or number in numbers.values():
            raise TextError(f"line {line}: {name} or its number is declared twice")
        numbers[name] = number
        self.take(".")

    def take_lower(self, upper):
        """The rest of an override."""
        self.take("tag")
        lower = self.take_named(self.names.tags)
        self.take(".")
        return Override(upper, lower)

    def take_untagged(self):
        """A strict rule, or an opposition: behind its first literal stands 'and'."""
        if self.next_is("never"):
            return self.take_rule(0)
        first = self.take_literal()
        if not self.take_if("and"):
            return self.take_rule(0, first)
        second = self.take_literal()
        self.take("oppose")
        self.take(".")
        return Opposition(first, second)

    def take_statement(self, items):
        if self.take_if("atom"):
            self.declare(self.names.atoms, self.take_number())
        elif self.take_if("tag"):
            number = self.take_named(self.names.tags)
            if self.next_is("="):
                self.declare(self.names.tags, number)
            elif self.take_if("overrides"):
                items.append(self.take_lower(number))
            else:
                self.take(":")
                items.append(self.take_rule(number))
        else:
            items.append(self.take_untagged())


def read_with_lines(text, names):
    """The program of a text that may use names, and the line where each of its items begins."""
    parser = Parser(text, names)
    items, lines = [], []
    while not parser.at_end():
        line = parser.tokens[parser.at].line
        parser.take_statement(items)
        lines += [line] * (len(items) - len(lines))
    return Program(items, parser.names), lines


def read_program(text):
    return read_with_lines(text, Names({}, {}))[0]


def read_sets(text, names):
    """The sets of a text, in their order."""
    parser = Parser(text, names)
    found = []
    while not parser.at_end():
        found.append(parser.take_set())
    return found


# ---------------------------------------------------------------------------------------------
# Writing


def word_for(number, numbers):
    for name, named in numbers.items():
        if named == number:
            return name
    return str(number)


def literal_text(literal, names):
    if literal.kind == KIND_RULE_DEFEATED:
        return f"rule-defeated({literal.atom})"
    signed = "-" * (literal.kind % 2) + word_for(literal.atom, names.atoms)
    if opposite(literal):
        return signed
    word = "derived" if literal.kind >= KIND_DERIVED else "defeated"
    return f"{word}({word_for(literal.tag, names.tags)}, {signed})"


def set_text(literals, names):
    return "{" + ", ".join(literal_text(literal, names) for literal in sorted(literals)) + "}"
