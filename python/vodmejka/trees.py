"""Formulas as trees, for a page that shows them with their figures.

A tree has the letters of loops filled in and sums written out. A cell is the number of its place among the cells that are asked for, a number its text, and an
operator a list: its sign, its part, and what it works on; a chain as `a - b + c` is one list, with the signs between. A **part** is a variable that is added to the rules for such an inner term, so that the program
computes its value too: the page itself computes no formula.
"""
import re

from . import loops

DIGITS = 12
COMPARISONS = ("=", "!=", "<", "<=", ">", ">=")
# Operators that are worked from the left, by the level that they stand on.
CHAINS = {"+": "+", "-": "+", "*": "*", "/": "*", "et": "et", "ou": "ou"}


class TooMany(Exception):
    """More cells and parts than the program takes requests."""


class Parts:
    """The variables for inner terms: a name for each formula, which is written over cells, numbers and other parts."""

    def __init__(self, names, most):
        self.prefix, self.numbers, self.most = free_prefix(names), {}, most

    def of(self, formula):
        """The number of the part with a formula. What is written twice is one part."""
        if formula not in self.numbers and len(self.numbers) >= self.most:
            raise TooMany
        return self.numbers.setdefault(formula, len(self.numbers))

    def name(self, part):
        return f"{self.prefix}{part}"

    def names(self):
        return [self.name(part) for part in self.numbers.values()]

    def rules(self, application):
        """A rule file with the parts."""
        declared = [f'{name} : calculee : "" ;' for name in self.names()]
        formulas = [f"{self.name(part)} = {formula} ;" for formula, part in self.numbers.items()]
        head = [f"regle 1 : application : {application} ;"] if formulas else []
        return "\n".join([*declared, *head, *formulas, ""]).encode()


def free_prefix(names):
    """Letters with which no name begins."""
    prefix = "P_"
    while any(name.startswith(prefix) for name in names):
        prefix = "P" + prefix
    return prefix


class Trees:
    """The trees of formulas: `place` gives each cell its number, `sizes` has the number of cells of each table."""

    def __init__(self, sizes, place, parts):
        self.sizes, self.place, self.parts = sizes, place, parts

    def of(self, formula):
        """The tree of the formula of a cell, whose value is the cell's own: its outermost term has no part."""
        tree, _ = self.term(formula.formula.term, formula.letters, formula.number)
        return tree

    def term(self, term, letters, number):
        """The tree of a term, and how a part's formula names it: a function that makes a part only where it is asked."""
        kind = term[0]
        if kind == "number":
            return self.leaf(term[1])
        if kind == "X":
            return self.leaf(str(number))
        if kind == "name":
            word = loops.replaced(term[1], letters)
            return self.leaf(word) if word.isdigit() and len(word) <= DIGITS else self.cell(word)
        if kind == "read":
            return self.read(term, letters, number)
        if kind == "sum":
            return self.sum(term, letters, number)
        return self.operator(term, letters, number)

    def leaf(self, text):
        return text, text

    def cell(self, name):
        return self.place(name), name

    def inner(self, term, letters, number):
        """The tree of a term within another one, with a part of its own where it isn't a cell or a number, and its name."""
        tree, written = self.term(term, letters, number)
        if not isinstance(tree, list):
            return tree, written
        part = self.parts.of(written)
        return [tree[0], part, *tree[2:]], self.parts.name(part)

    def read(self, term, letters, number):
        word, index = loops.replaced(term[1], letters), term[2]
        tree, written = self.inner(index, letters, number)
        if isinstance(tree, str) and re.fullmatch(r"[0-9]+(\.[0-9]+)?", tree):
            at = loops.whole(tree.split(".")[0])
            if at < self.sizes.get(word, 0):
                return self.cell(f"{word}[{at}]")
        for k in range(self.sizes.get(word, 0)):
            self.place(f"{word}[{k}]")
        return ["[]", None, word, tree], f"{word}[{written}]"

    def sum(self, term, letters, number):
        _, header, inner = term
        words, shown, written = "".join(letter for letter, _ in header), [], []
        for values in loops.instances([header], [words]):
            tree, name = self.inner(inner, {**letters, **values}, number)
            shown.append([", ".join(f"{letter} = {value}" for letter, value in values.items()), tree])
            written.append(name)
        return ["somme", None, *shown], " + ".join(written)

    def operator(self, term, letters, number):
        _, sign, terms = term
        if sign == "..":
            (_, low), (_, high) = terms
            return ["..", None, low, high], f"{low}..{high}"
        if sign == "dans":
            return self.membership(terms, letters, number)
        if sign in CHAINS:
            return self.chain(term, letters, number)
        inner = [self.inner(each, letters, number) for each in terms]
        trees, names = [tree for tree, _ in inner], [name for _, name in inner]
        return [sign, None, *trees], written_of(sign, names)

    def chain(self, term, letters, number):
        """A chain of operators of one level, which leans to the left."""
        level, rest = CHAINS[term[1]], []
        while term[0] == "op" and CHAINS.get(term[1]) == level:
            rest.append((term[1], self.inner(term[2][1], letters, number)))
            term = term[2][0]
        tree, written = self.inner(term, letters, number)
        trees = [tree]
        for sign, (tree, name) in reversed(rest):
            trees += [sign, tree]
            written += f" {sign} {name}"
        return [level, None, *trees], written

    def membership(self, terms, letters, number):
        left, name = self.inner(terms[0], letters, number)
        members = [self.term(each, letters, number) for each in terms[1:]]
        return ["dans", None, left, *(tree for tree, _ in members)], f"{name} dans ({', '.join(written for _, written in members)})"


def written_of(sign, names):
    """A term of one operator over names and numbers, as M writes it."""
    if sign in COMPARISONS:
        return f"{names[0]} {sign} {names[1]}"
    if sign == "neg":
        return f"-{names[0]}"
    if sign == "non":
        return f"non {names[0]}"
    if sign == "si":
        otherwise = f" sinon {names[2]}" if len(names) == 3 else ""
        return f"si {names[0]} alors {names[1]}{otherwise} finsi"
    return f"{sign}({', '.join(names)})"
