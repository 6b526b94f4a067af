"""Small rule bases that are drawn: of three to twelve variables, without a fault, and of each cell it is known what its formula reads.

What a formula reads is noted as its text is drawn, by the words of docs/LANGUAGE.md: each name, of a table that is read at a number that cell, and at
another index all its cells. The reader of the language has no part in it.
"""

from .drawing import ARITHMETIC, COMPARISONS, CONNECTIVES, OF_ONE, OF_TWO, chance

NUMBERS = b"0 1 2 3 4 10 0.5 1.5 7.25 100 1000 2500.5 0.000001 0.0000005 0.49995 2.0000004 007 33333".split()
GREAT_NUMBERS = b"3000000 9999999999999.999999 10000000000000 10000000000000.0000004".split()
AMOUNTS = b"0 -0 1 2 3 -1 0.5 -0.5 12.25 2500.5 33333 -99.999999 00012.50 1000000 0.000001 10000000000000 -10000000000000".split()
AMOUNTS_OF_TYPE = {b"": AMOUNTS, b"BOOLEEN": b"0 1 1.0 -0".split(), b"ENTIER": b"0 1 2 -3 40 5.000000 33333".split()}
MEMBERS = [b"0", b"1", b"- 2", b"0.5", b"0..1000", b"- 5..5", b"3..3", b"2500.5"]
RANGES = [(b"1..2", [1, 2]), (b"1..3", [1, 2, 3]), (b"0,2", [0, 2]), (b"3", [3])]


class Base:
    """What was drawn: the statements, the types of the codes, and of each cell that a formula sets what that reads; of others None."""

    def __init__(self, draw):
        self.draw = draw
        self.statements, self.types, self.inputs, self.reads = [], {}, {}, {}
        self.scalars, self.tables, self.groups = [], {}, {}
        count = draw.randrange(3, 13)
        inputs, constants = draw.choice([1, 1, 2, 3]), draw.choice([0, 1, 2])
        for number in range(count):
            self.add_variable(number, inputs, constants)
        if chance(draw, 30):
            self.statements.append(b'E1 : %s : "E" : "1" : "0" : "e" ;\n' % draw.choice([b"anomalie", b"informative"]))
            self.statements.append(b"verif 1 : application : iliad ;\nsi %s alors erreur E1 ;\n" % Term(self).text)
        draw.shuffle(self.statements)

    def add_variable(self, number, inputs, constants):
        """The variable of a number: inputs first, then constants, then computed ones."""
        form = self.draw.randrange(10)
        if number < inputs:
            self.add_input(number)
        elif number < inputs + constants:
            self.declare(b"K%d" % number, b"const = %s%s" % (self.draw.choice([b"", b"", b"- "]), self.draw.choice(NUMBERS)))
        elif form < 6:
            self.add_scalar(b"V%d" % number)
        elif form < 8:
            self.add_table(b"T%d" % number, self.draw.randrange(1, 5))
        else:
            self.add_group(b"G%d_" % number, self.draw.choice([2, 3]))

    def declare(self, name, text):
        """A variable that is no table, which formulas may read from now on."""
        self.statements.append(b"%s : %s ;\n" % (name, text))
        self.reads[name] = None
        self.scalars.append(name)

    def add_input(self, number):
        """An input with a code of its own."""
        kind = self.draw.choice([b"", b"", b"BOOLEEN", b"ENTIER"])
        self.types[b"C%d" % number] = kind
        self.inputs[b"R%d" % number] = b"C%d" % number
        self.declare(b"R%d" % number, b'saisie revenu alias C%d : "r"%s' % (number, b" type " + kind if kind else b""))

    def computed(self):
        """The words of a computed variable."""
        return b'calculee%s : "v"' % self.draw.choice([b"", b" restituee"])

    def add_scalar(self, name):
        """A variable, mostly with a formula."""
        term = Term(self)
        self.declare(name, self.computed())
        if chance(self.draw, 92):
            self.set(b"%s = %s ;\n" % (name, term.text), {name: term.reads_at(0)})

    def add_group(self, name, size):
        """Some numbered variables, which one formula sets in a loop."""
        values = list(range(1, size + 1))
        term = Term(self, {b"i": values})
        for value in values:
            self.declare(b"%s%d" % (name, value), self.computed())
        self.set(b"pour i = 1..%d : %si = %s ;\n" % (size, name, term.text), {b"%s%d" % (name, value): term.reads_at(value) for value in values})
        self.groups[name] = size

    def add_table(self, name, size):
        """A table, which one formula sets, or each cell one of its own, that may read the cells below it."""
        self.statements.append(b'%s : tableau[%d] %s ;\n' % (name, size, self.computed()))
        cells = [b"%s[%d]" % (name, value) for value in range(size)]
        self.reads.update(dict.fromkeys(cells))
        if chance(self.draw, 50):
            term = Term(self, {b"X": list(range(size))})
            self.set(b"%s[X] = %s ;\n" % (name, term.text), {cell: term.reads_at(value) for value, cell in enumerate(cells)})
        else:
            for value, cell in enumerate(cells):
                term = Term(self, {}, cells[:value])
                if chance(self.draw, 80):
                    self.set(b"%s = %s ;\n" % (cell, term.text), {cell: term.reads_at(value)})
        self.tables[name] = size

    def set(self, formula, reads):
        """A rule with a formula; sometimes with another one that doesn't count."""
        self.reads.update(reads)
        applications = self.draw.choice([b"iliad", b"iliad", b"batch , iliad"])
        self.statements.append(b"regle %d : application : %s ;\n%s" % (len(self.statements), applications, formula))
        if chance(self.draw, 10):
            other = self.draw.choice([b"application : batch ;", b"application : iliad ; enchaineur : c1 ;"])
            self.statements.append(b"regle 900 : %s\n%s" % (other, formula.replace(b" = ", b" = 1 + ", 1) if b"pour" not in formula else formula))

    def amounts_of(self, code):
        """Amounts that an input may have."""
        return AMOUNTS_OF_TYPE[self.types[code]]

    def some_amount(self, code):
        """One of these."""
        return self.draw.choice(self.amounts_of(code))

    def some_household(self):
        """Amounts of some inputs by their codes."""
        return {code: self.some_amount(code) for code in self.types if chance(self.draw, 70)}


class Term:
    """A term that is drawn, and what it reads. It may contain letters of loops with their values, and some cells of the table that it is for."""

    def __init__(self, base, letters=None, below=()):
        self.base, self.draw, self.letters, self.below = base, base.draw, dict(letters or {}), list(below)
        self.cells, self.by_letter = set(), []
        self.text = self.term(self.draw.choice([0, 1, 1, 2, 2, 3]))

    def reads_at(self, value):
        """The cells that it reads where the letter round it has a value."""
        return self.cells.union(*(cells_at(value) for cells_at in self.by_letter))

    def term(self, depth):
        """A term of a depth."""
        draw = self.draw
        form = draw.randrange(13)
        if depth == 0 or form == 0:
            return self.leaf()
        if form < 5:
            return self.two(draw.choice(ARITHMETIC), depth)
        if form < 7:
            return self.two(draw.choice(COMPARISONS + CONNECTIVES), depth)
        if form == 7:
            return b"%s(%s)" % (draw.choice(OF_ONE), self.term(depth - 1))
        if form == 8:
            return b"%s(%s , %s)" % (draw.choice(OF_TWO), self.term(depth - 1), self.term(depth - 1))
        if form < 11:
            other = b"sinon %s " % self.term(depth - 1) if chance(draw, 70) else b""
            return b"si %s alors %s %sfinsi" % (self.term(depth - 1), self.term(depth - 1), other)
        if form == 11 and b"j" not in self.letters:
            spelled, self.letters[b"j"] = draw.choice(RANGES)
            body = self.term(depth - 1)
            del self.letters[b"j"]
            return b"somme(j = %s : %s)" % (spelled, body)
        return self.other(depth)

    def two(self, sign, depth):
        """An operator of two terms."""
        return b"(%s %s %s)" % (self.term(depth - 1), sign, self.term(depth - 1))

    def other(self, depth):
        """A sign, a negation, or a membership."""
        form = self.draw.randrange(4)
        if form < 2:
            return [b"(- %s)", b"(non %s)"][form] % self.term(depth - 1)
        members = [self.scalar() if chance(self.draw, 20) else self.draw.choice(MEMBERS) for _ in range(self.draw.randrange(1, 4))]
        return b"(%s %sdans (%s))" % (self.term(depth - 1), self.draw.choice([b"", b"non "]), b" , ".join(members))

    def leaf(self):
        """A number, a name, a cell of a table, or what has a letter."""
        form = self.draw.randrange(20)
        if form < 6 and self.letters:
            return self.lettered(self.draw.choice(sorted(self.letters)))
        if form < 13:
            return self.scalar()
        if form < 17 and self.below and chance(self.draw, 60):
            cell = self.draw.choice(self.below)
            self.cells.add(cell)
            return cell
        if form < 17 and self.base.tables:
            return self.cell(self.draw.choice(sorted(self.base.tables)))
        return self.draw.choice(GREAT_NUMBERS if chance(self.draw, 15) else NUMBERS)

    def scalar(self):
        """The name of a variable; none but a number before there is one."""
        if not self.base.scalars:
            return b"1"
        name = self.draw.choice(self.base.scalars)
        self.cells.add(name)
        return name

    def cell(self, table):
        """A table at a number, or at another index."""
        draw, size = self.draw, self.base.tables[table]
        if chance(draw, 50):
            index, at = draw.choice([(b"%d" % at, at) for at in range(size + 1)] + [(b"1.9", 1)])
            self.cells.update([b"%s[%d]" % (table, at)] if at < size else [])
        else:
            self.cells.update(b"%s[%d]" % (table, at) for at in range(size))
            index = draw.choice([self.scalar, lambda: b"(- 1)", lambda: b"(%s / 2)" % self.scalar(), lambda: b"%s + 1" % self.scalar()])()
        return b"%s[%s]" % (table, index)

    def lettered(self, letter):
        """A letter, a table at it, or the name that it makes with a group's."""
        values, form = self.letters[letter], self.draw.randrange(3)
        groups = [name for name, size in self.base.groups.items() if letter != b"X" and 0 < min(values) and max(values) <= size]
        if form == 0 and self.base.tables:
            table = self.draw.choice(sorted(self.base.tables))
            self.note(letter, lambda value: {b"%s[%d]" % (table, value)} if value < self.base.tables[table] else set())
            return b"%s[%s]" % (table, letter)
        if form == 1 and groups:
            group = self.draw.choice(groups)
            self.note(letter, lambda value: {b"%s%d" % (group, value)})
            return group + letter
        return letter

    def note(self, letter, cells_at):
        """Notes what is read at each value of a letter: of that of a sum all is read, and the other has one value in a formula."""
        if letter == b"j":
            self.cells.update(*map(cells_at, self.letters[letter]))
        else:
            self.by_letter.append(cells_at)
