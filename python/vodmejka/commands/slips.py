"""Finds what the language permits and an analyst never means.

    slips [--driver FILE] [--lang en|fr] LIST..

A line for each slip, with its place:

    slip LIST: no variable has restituee           nothing is printed where no requests are given
    slip LIST: no rule is of the application A      so no computed variable has a value
    slip LIST: its files are FOLDER's               a copied list that names the files of another folder: changes in its own folder are ignored
    slip FILE line L byte B: restituee = .. ..      an attribute with a number returns nothing: write restituee alone
    slip FILE line L byte B: application A is of no list that is given
                                                    reported once, at the first rule or verification that has it, with their number
    slip FILE line L byte B: T[4] is past ..        an index that is a number, also one of a loop, and no cell of the table: undefined, or 0 below 0
    slip FILE line L byte B: nothing sets T[3] ..   cells of a table that no formula sets or reads: undefined, or what a driver sets
    slip LIST: variables or cells that are read and never set: N; m_tax lint ..
                                                    computed ones without a formula that counts. `lint` names them, and what else is true for all households
    slip FILE line L byte B: no input has K         a kind of a driver that is empty, as avfisk = 1
    slip FILE line L byte B: the type T ..          none of the types of the language: it has no effect
    slip FILE line L byte B: the attribute W ..     nearly restituee: it returns nothing
    slip FILE line L byte B: the rule N occurs twice, also a verification
    slip FILE line L byte B: the letter i is bound again within its own loop
    slip FILE line L byte B: the condition holds for every household, so E always stops
    slip FILE line L byte B: V is returned, and nothing sets it, or the driver never receives it
    slip constants that nothing reads: N, ..        also computed variables that nothing reads or returns, and errors that no verification has
    slip FILE line 1 byte 0: a byte order mark      rejected in rules, lists, drivers and requests; a household may have one
    slip FILE line 1 byte B: a carriage return ..   alone it ends no line: a comment goes on after it

Give all lists of a rule base at once, so that an application that another list has is no slip, and the driver, so that what it sets is none; `-` is no
driver. A chained
rule counts as no rule. The status is 0 if there is no slip, 1 if there is one, 2 for wrong arguments, and 3 if a file can't be read or has an error;
tools/explain shows more of it.
"""
import decimal
import itertools
import os
import re
from fractions import Fraction

from .. import drivers, items, slips_of_use, source
from ..endings import Wrong, ended
from ..limits import AMOUNT
from ..loops import instances, replaced, whole
from ..source import Refused
from ..texts import language_of, said



def words_of(term):
    """The words of a term that is made of numbers, words, +, - and * alone, as an index of a loop is; None of another one."""
    found, left = [], [term]
    while left:
        kind, *parts = left.pop()
        if kind == "name":
            found.append(parts[0])
        elif kind == "op" and parts[0] in ("+", "-", "*", "neg"):
            left += parts[1]
        elif kind != "number":
            return None
    return found


def number_of(term, letters):
    """The value of such a term, or None if a word is no number, or a value is above the greatest amount. A sum has any number of terms."""
    rest = []
    while term[0] == "op" and len(term[2]) == 2:
        rest.append((term[1], term[2][1]))
        term = term[2][0]
    if term[0] == "op":
        worth = number_of(term[2][0], letters)
        worth = None if worth is None else -worth
    else:
        word = replaced(term[1], letters)
        worth = decimal.Decimal(word) if term[0] == "number" or word.isdigit() else None
    for sign, part in reversed(rest):
        other = number_of(part, letters)
        if worth is None or other is None:
            return None
        worth = {"+": worth + other, "-": worth - other, "*": worth * other}[sign]
        worth = worth if abs(worth) <= AMOUNT else None
    return worth if worth is None or abs(worth) <= AMOUNT else None


def cells_read(name, size, index, letters):
    """The cells that a read may access, as `lint` counts them: of a table the one of a number, and all of any other index."""
    if index is None or size is None:
        return [(name, None)]
    spelled = replaced(index[1], letters) if index[0] in ("number", "name") else ""
    return [(name, whole(spelled))] if spelled.isdigit() else [(name, k) for k in range(size)]


class Base:
    """The rule files of a list: what its rules that count set and read."""

    def __init__(self, list_name):
        self.source, self.list_name = source.RuleBase(list_name), list_name
        self.sizes = {variable.name: variable.size for variable in self.source.variables}
        self.set, self.read, self.past, self.readers = set(), set(), [], []
        for file in self.source.files:
            reader, faults = items.read(file.bytes, file.tokens)
            self.readers.append((file, reader))
            if faults:
                raise Refused(said("slips.more", fault=f"{file.place(faults[0].byte)}: {faults[0].what}"))
            for formula in reader.formulas:
                if self.source.application in formula.applications and not formula.is_chained:
                    self.look_at_target(formula)
                    self.look_at(file, formula)
            for check in reader.checks:
                if self.source.application in check.applications:
                    self.look_at(file, check)

    def look_at_target(self, formula):
        for letters in instances(formula.loops, [formula.target]):
            name = replaced(formula.target, letters)
            size = self.sizes.get(name)
            self.set.update((name, k) for k in range(size or 0)) if formula.slot == "X" else self.set.add((name, formula.slot and int(formula.slot)))

    def look_at(self, file, item):
        term = item.simple
        if term is not None:
            self.read.update(zip(term.names(), itertools.repeat(None)))
        for word, index, byte, round_it in item.reads() if term is None else term.cells():
            words = None if index is None else words_of(index)
            for letters in instances(round_it, [word, *(words or [])]):
                name = replaced(word, letters)
                number = number_of(index, letters) if words is not None else None
                size = self.sizes.get(name)
                self.read.update(cells_read(name, size, index, letters))
                if number is not None and size is not None and not -1 < number < size:
                    sentence = said("slips.past" if number > 0 else "slips.below", cell=f"{name}[{int(number)}]", size=size)
                    self.past.append(f"{file.place(byte)}: {sentence}")
                    break


def slips_of_names(base, set_by_driver, driver):
    """Indexes past their table, cells that nothing sets or reads, and how many variables and cells are read and never set, which `lint` names."""
    yield from base.past
    done, undefined = base.set | set_by_driver, 0
    for variable in base.source.variables:
        if variable.kind != "calculee":
            continue
        cells = [(variable.name, k) for k in ([None] if variable.size is None else range(variable.size))]
        bare = [cell for cell in cells if cell not in done]
        undefined += sum(cell in base.read for cell in bare)
        idle = [k for name, k in bare if k is not None and (name, k) not in base.read]
        if idle and (len(bare) < len(cells) or len(idle) < len(bare)):
            shown = ", ".join(f"{variable.name}[{k}]" for k in idle[:5]) + (" .." if len(idle) > 5 else "")
            yield f"{variable.place}: {said('slips.cells', cells=shown, count=len(idle), size=variable.size)}"
    if undefined:
        yield f"{base.list_name}: {said('slips.unset', count=undefined, list=base.list_name, driver=driver)}"


def slips_of_driver(name, driver, bases):
    """Kinds that no input has."""
    inputs = [variable for base in bases for variable in base.source.variables if variable.kind == "saisie"]
    for attribute, values, line, _ in driver.kinds:
        numbers = {decimal.Decimal(value) for value in values}
        if not any(attribute in variable.numbers and decimal.Decimal(variable.numbers[attribute]) in numbers for variable in inputs):
            yield f"{name} line {line}: {said('slips.kind', attribute=attribute, values=', '.join(values))}"


def slips_of_bytes(name, content):
    """A mark at the front, and carriage returns that end no line."""
    if content.startswith(source.MARK):
        yield f"{name} line 1 byte 0: {said('slips.mark')}"
    alone = re.search(rb"\r(?!\n)", content)
    if alone:
        number = content.count(b"\n", 0, alone.start()) + 1
        yield f"{name} line {number} byte {alone.start()}: {said('slips.return')}"


def slips_of_folder(list_name, names):
    """A list whose files are in a sibling of its own folder, or have namesakes in it."""
    own = os.path.dirname(os.path.abspath(list_name))
    reported = set()
    for name in names:
        folder, base = os.path.split(os.path.abspath(name))
        is_copy = os.path.dirname(folder) == os.path.dirname(own) or os.path.exists(os.path.join(own, base))
        if folder != own and is_copy and folder not in reported and not folder.startswith(own + os.sep):
            reported.add(folder)
            yield f"{list_name}: {said('slips.folder', folder=os.path.dirname(name) or '.', name=name)}"


def read_driver(name, content):
    """A driver without faults."""
    driver = drivers.Driver(content.removeprefix(source.MARK))
    if driver.faults:
        raise Refused(said("slips.more", fault=f"{name} line {driver.faults[0].line}: {driver.faults[0].what}"))
    return driver


def slips(lists, names):
    contents = {name: source.fetch(name) for name in names}
    for name in lists:
        yield from slips_of_bytes(name, source.fetch(name))
    for name, content in contents.items():
        yield from slips_of_bytes(name, content)
    bases = [Base(name) for name in lists]
    named_drivers = {name: read_driver(name, content) for name, content in contents.items()}
    set_by_driver = {cell for driver in named_drivers.values() for cell in driver.set}
    for base in bases:
        yield from slips_of_folder(base.list_name, [file.name for file in base.source.files])
        if not any("restituee" in variable.words for variable in base.source.variables):
            yield f"{base.list_name}: {said('slips.none_returned')}"
        application = base.source.application
        if not any(rule.kind == "regle" and not rule.is_chained and application in dict(rule.applications) for rule in base.source.rules):
            yield f"{base.list_name}: {said('slips.no_rule', application=application)}"
    yield from slips_of_files(bases)
    for base in bases:
        yield from slips_of_names(base, set_by_driver, names[0] if len(names) == 1 else "-")
    yield from slips_of_uses(bases, named_drivers)
    for name, driver in named_drivers.items():
        yield from slips_of_driver(name, driver, bases)


def slips_of_uses(bases, named_drivers):
    """What is declared and not used, or used otherwise than was meant."""
    files = {file.name: file for base in bases for file in base.source.files}.values()
    readers = {file.name: (file, reader) for base in bases for file, reader in base.readers}.values()
    applications = {base.source.application for base in bases}
    yield from slips_of_use.slips_of_words(files)
    for base in bases:
        yield from slips_of_use.slips_of_numbers(base.source.files, {base.source.application})
    for file, reader in readers:
        yield from slips_of_use.slips_of_letters(file, reader)
    constants = {variable.name: Fraction(variable.text) for file in files for variable in file.variables if variable.kind == "const" and variable.text}
    kinds = {name: kind for _, reader in readers for name, kind in reader.kinds_of_errors.items()}
    for application in sorted(applications):
        for file, reader in readers:
            yield from slips_of_use.slips_of_checks(file, reader, application, constants, kinds)
    for file, reader in readers:
        file.errors = reader.errors
    read = {name for base in bases for name, _ in base.read}
    used = {check.error for _, reader in readers for check in reader.checks}
    received = {name for driver in named_drivers.values() for _, command in driver.said if command and command[0] in ("call", "set")
                for name, _ in (command[1] if command[0] == "call" else [command[1]])}
    in_drivers = {name for driver in named_drivers.values() for name, _, _ in driver.cells}
    yield from slips_of_use.slips_of_idle(files, read, used, in_drivers)
    done = {cell for base in bases for cell in base.set} | {cell for driver in named_drivers.values() for cell in driver.set}
    yield from slips_of_use.slips_of_outputs(files, done, next(iter(named_drivers), None), received)


def slips_of_files(bases):
    """Slips of single files: bytes, attributes, applications."""
    known = {base.source.application for base in bases}
    files = {file.name: file for base in bases for file in base.source.files}
    strange = {}
    for file in files.values():
        yield from slips_of_bytes(file.name, file.bytes)
        for variable in file.variables:
            for word, byte in variable.numbered:
                if word == "restituee":
                    yield f"{file.place(byte)}: {said('slips.numbered', name=variable.name)}"
        for rule in file.rules:
            for application, byte in rule.applications:
                if application not in known:
                    strange.setdefault(application, []).append((file, byte))
    for application, places in strange.items():
        yield f"{places[0][0].place(places[0][1])}: {said('slips.application', application=application, count=len(places))}"


def work(words):
    """Does what the words say."""
    words, lists, named_drivers = language_of(words), [], []
    while words:
        word = words.pop(0)
        if word == "--driver" and words:
            named_drivers += [name for name in [words.pop(0)] if name != "-"]
        elif word.startswith("--"):
            lists = []
            break
        else:
            lists.append(word)
    if not lists:
        raise Wrong(said("slips.words"), 2)
    found = list(dict.fromkeys(slips(lists, named_drivers)))
    for slip in found:
        print(f"slip {slip}")
    return 1 if found else 0


def main(words):
    """The command: see above."""
    return ended(words, __doc__, work)
