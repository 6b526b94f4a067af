"""All faults that the tools can find in the rule files of a list and in a driver, not the first alone: of tokens, grammar, declarations and names.

Names are looked at where all items can be read. Loops, cycles, sizes and weights are the program's alone.
"""
import re
from typing import NamedTuple

from . import drivers, items, source
from .loops import instances, is_number, is_repeated, replaced


UNREADABLE = ("syntax", "open string", "bad byte", "too deep")


class Found(NamedTuple):
    """A fault: the file, the line, the byte of the file (of a driver within the line, or nothing), what the program calls it, and what may help."""

    name: str
    line: int
    byte: int | None
    what: str
    fault: tuple | None


class Files:
    """The rule files of a list, each with its items, and the faults so far."""

    def __init__(self, application, names):
        self.application, self.listed, self.found, self.files, self.lines = application, names, [], [], {}
        names = list(dict.fromkeys(names))
        for name, content in zip(names, source.fetch_rules(names)):
            reader, faults = items.read(content)
            self.files.append((name, content, reader))
            for fault in faults:
                self.add(name, content, fault.byte, fault.what, fault)

    def add(self, name, content, byte, what, fault=None):
        if name not in self.lines:
            self.lines[name] = source.Lines(content)
        self.found.append(Found(name, self.lines[name].number(byte), byte, what, fault))


class Names:
    """What the files of a list declare, and the faults of names."""

    def __init__(self, files):
        self.files = files
        heads = {name: source.RuleFile(name, content, reader.tokens) for name, content, reader in files.files}
        self.variables, self.errors, self.done, codes = {}, set(), set(), set()
        for file in (heads[name] for name in files.listed):
            for variable in file.variables:
                byte = variable.byte
                if variable.name in self.variables:
                    files.add(file.name, file.bytes, byte, f"declared twice {variable.name}")
                elif variable.code is not None and variable.code in codes:
                    files.add(file.name, file.bytes, byte, f"alias twice {variable.code}")
                elif variable.size is not None and not 1 <= variable.size <= source.TABLE_CELLS:
                    files.add(file.name, file.bytes, byte, "table size")
                self.variables.setdefault(variable.name, variable)
                codes.add(variable.code)
        bound = {word: variable for word, variable in self.variables.items() if not re.search("[a-z]", word)}
        self.plain = {word for word, variable in bound.items() if variable.size is None}
        self.tables = bound.keys() - self.plain
        for name, content, reader in files.files:
            for error, byte in reader.errors:
                if error in self.errors:
                    files.add(name, content, byte, f"declared twice {error}")
                self.errors.add(error)

    def look_at_all(self):
        for name, content, reader in self.files.files:
            for formula in reader.formulas:
                if self.files.application in formula.applications and not formula.is_chained:
                    self.look_at_target(name, content, formula)
                    self.look_at(name, content, formula)
            for check in reader.checks:
                if self.files.application in check.applications:
                    self.look_at(name, content, check)
                    if check.error not in self.errors:
                        self.files.add(name, content, check.error_byte, f"unknown error {check.error}")

    def name_fault(self, word, has_index):
        """The fault of a name where a value is read or set, if any."""
        if re.search("[a-z]", word):
            return "unbound index"
        if word not in self.variables:
            return f"unknown name {word}"
        is_table = self.variables[word].size is not None
        if has_index and not is_table:
            return f"not a table {word}"
        return f"is a table {word}" if is_table and not has_index else None

    def look_at_target(self, name, content, formula):
        for letters in instances(formula.loops, [formula.target]):
            word = replaced(formula.target, letters)
            fault = self.name_fault(word, formula.slot is not None)
            if fault is None:
                variable = self.variables[word]
                cells = range(variable.size) if formula.slot == "X" else [None if formula.slot is None else int(formula.slot)]
                if variable.kind != "calculee" or any(cell is not None and cell >= variable.size for cell in cells):
                    fault = f"bad target {word}"
                elif twice := [cell for cell in cells if (word, cell) in self.done]:
                    fault = f"defined twice {word}" + ("" if twice[0] is None else f"[{twice[0]}]")
                self.done.update((word, cell) for cell in cells)
            if fault is not None:
                self.files.add(name, content, formula.byte, fault)
                return
        found = instances(formula.loops, [formula.target])
        if found and is_repeated(formula.loops, formula.target):
            word = replaced(formula.target, found[0])
            cell = "[0]" if formula.slot == "X" else "" if formula.slot is None else f"[{int(formula.slot)}]"
            self.files.add(name, content, formula.byte, f"defined twice {word}{cell}")

    def look_at(self, name, content, item):
        """Looks at the names that a formula or a check reads."""
        term = item.simple
        if term is not None and self.plain.issuperset(term.names()) and self.tables.issuperset(term.tables()):
            return
        for word, index, byte, round_it in item.reads():
            for letters in instances(round_it, [word]):
                one = replaced(word, letters)
                fault = None if is_number(one) and index is None else self.name_fault(one, index is not None)
                if fault is not None:
                    self.files.add(name, content, byte, fault)
                    break


def driver_faults(name, variables):
    """The faults of a driver; without variables those of its tokens and lines alone."""
    return faults_of_driver(name, drivers.Driver(source.fetch(name)), variables)


def faults_of_driver(name, driver, variables):
    found = [Found(name, fault.line, fault.byte, fault.what, fault) for fault in driver.faults]
    if found or variables is None:
        return found
    functions = {"call_m"}
    for function, line in driver.functions:
        if function in functions:
            found.append(Found(name, line, None, f"function twice {function}", None))
        functions.add(function)
    for cell, index, line in driver.cells:
        variable = variables.get(cell)
        if variable is None or (index is None) != (variable.size is None) or index is not None and index >= variable.size:
            found.append(Found(name, line, None, f"unknown {cell}", None))
    for line, said in driver.said:
        if said[0] == "call" and said[2] not in functions:
            found.append(Found(name, line.number, None, f"unknown {said[2]}", None))
        cells = said[1] if said[0] == "call" else [said[1]] if said[0] in ("set", "del") else []
        found += [Found(name, line.number, None, f"bad target {cell}", None) for cell, _ in cells if cell in variables and variables[cell].kind == "const"]
    return sorted(found, key=lambda fault: fault.line)


def all_faults(list_name, driver, names):
    """All faults, in the order of the files. Without a list they are those of these rule files by themselves."""
    variables = None
    if list_name is None:
        files = Files(None, names)
    else:
        application, listed = source.read_list_text(list_name, source.fetch(list_name).removeprefix(source.MARK))
        files = Files(application, listed)
        if not any(fault.what in UNREADABLE for fault in files.found):
            declared = Names(files)
            declared.look_at_all()
            variables = declared.variables
    order = {name: number for number, (name, _, _) in enumerate(files.files)}
    found = sorted(files.found, key=lambda fault: (order[fault.name], fault.byte))
    return found + (driver_faults(driver, variables) if driver not in (None, "-") else [])
