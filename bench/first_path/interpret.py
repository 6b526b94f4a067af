#!/usr/bin/env python3
"""A plain interpreter of the same rule files, for comparison: a regular expression for the tokens, and
a dictionary from names to values.

    interpret.py LIST HOUSEHOLD

Run in the folder of the files, it prints what `m_tax run LIST - - HOUSEHOLD` prints. It takes files of
the form that generate.py writes, and reports no faults. A value is a whole number of millionths, None
where it is undefined, or OVER.
"""
import re
import sys

TOKEN = re.compile(r'"[^"]*"|[0-9]+\.[0-9]+|[A-Za-z0-9_]+|[-+*=:;,]')
UNIT = 10**6
MOST = 10**19
OVER = "over"


def amount(text):
    """The millionths that a text spells, rounded at the sixth decimal, halves away from zero."""
    whole, _, decimals = text.lstrip("-").partition(".")
    decimals = decimals.ljust(7, "0")
    size = int(whole) * UNIT + int(decimals[:6]) + (decimals[6] >= "5")
    return -size if text.startswith("-") else size


def bounded(millionths):
    return millionths if -MOST <= millionths <= MOST else OVER


def added(a, b):
    if a == OVER or b == OVER:
        return OVER
    if a is None and b is None:
        return None
    return bounded((a or 0) + (b or 0))


def negated(a):
    return a if a is None or a == OVER else -a


def multiplied(a, b):
    if a == OVER or b == OVER:
        return OVER
    if a is None or b is None:
        return None
    product = a * b
    size = (2 * abs(product) + UNIT) // (2 * UNIT)
    return bounded(-size if product < 0 else size)


def printed(value):
    if value is None:
        return " undefined"
    if value == OVER:
        return " over"
    whole, decimals = divmod(abs(value), UNIT)
    text = f"{whole}.{decimals:06}".rstrip("0").rstrip(".")
    return f" = {'-' if value < 0 else ''}{text}"


class Interpreter:
    def __init__(self, tokens, application, household):
        self.tokens, self.at = tokens, 0
        self.application, self.household = application, household
        self.values, self.returned = {}, []

    def next(self):
        self.at += 1
        return self.tokens[self.at - 1]

    def skip_to(self, token):
        while self.next() != token:
            pass

    def run(self):
        while self.at < len(self.tokens):
            first = self.next()
            if first == "regle":
                self.rule()
            elif first == "application":
                self.skip_to(";")
            else:
                self.variable(first)

    def variable(self, name):
        self.next()
        role = self.next()
        value = None
        if role == "const":
            self.next()
            sign = self.next()
            value = amount(sign + self.next() if sign == "-" else sign)
        elif role == "saisie":
            self.skip_to("alias")
            value = self.household.get(self.next())
        elif self.attribute_stands("restituee"):
            self.returned.append(name)
        self.values[name] = value
        self.skip_to(";")

    def attribute_stands(self, wanted):
        stands = False
        while (word := self.next()) != ":":
            stands = stands or word == wanted
        return stands

    def rule(self):
        self.skip_to("application")
        self.next()
        counts = False
        while (word := self.next()) != ";":
            counts = counts or word == self.application
        while self.at + 1 < len(self.tokens) and self.tokens[self.at + 1] == "=":
            target = self.next()
            self.next()
            value = self.sum()
            if counts:
                self.values[target] = value

    def sum(self):
        total, sign = self.product()
        while sign != ";":
            value, following = self.product()
            total = added(total, negated(value) if sign == "-" else value)
            sign = following
        return total

    def product(self):
        """A product, and the token after it."""
        value = self.factor()
        while (sign := self.next()) == "*":
            value = multiplied(value, self.factor())
        return value, sign

    def factor(self):
        token = self.next()
        if token == "-":
            return negated(self.factor())
        return amount(token) if token[0].isdigit() else self.values[token]


def read(name):
    with open(name) as file:
        return file.read()


def main():
    application, rules = read(sys.argv[1]).split()
    rows = (line.split(",") for line in read(sys.argv[2]).splitlines()[1:])
    household = {code: amount(text) for code, text in rows}
    interpreter = Interpreter(TOKEN.findall(read(rules)), application, household)
    interpreter.run()
    sys.stdout.write(
        "".join(f"{name}{printed(interpreter.values[name])}\n" for name in interpreter.returned)
    )


main()
