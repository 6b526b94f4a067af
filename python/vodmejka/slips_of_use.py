"""Slips of what is declared and not used, or used and not what was meant: types, attributes, letters of loops, numbers of rules, constants, variables and
errors, what is returned and never set or received, verifications that always stop."""
from __future__ import annotations

from fractions import Fraction

from .hints import distance
from .texts import said

TYPES = ("BOOLEEN", "DATE", "DATE_AAAA", "DATE_JJMMAAAA", "DATE_MM", "ENTIER", "REEL")
MOST_NAMED = 5
EVALUATED = ("=", "!=", "<", "<=", ">", ">=", "et", "ou", "non", "positif", "positif_ou_nul", "null", "+", "-", "*", "neg", "abs", "max", "min")


def slips_of_words(files):
    """Types that the language doesn't know, and attributes that are nearly `restituee`."""
    for file in files:
        for variable in file.variables:
            if variable.type is not None and variable.type not in TYPES:
                yield f"{variable.place}: {said('slips.type', type=variable.type, name=variable.name, types=', '.join(TYPES))}"
            for word in variable.words:
                if word != "restituee" and distance(word, "restituee", 1) <= 1:
                    yield f"{variable.place}: {said('slips.attribute', word=word, name=variable.name)}"


def slips_of_numbers(files, applications):
    """Rules, and verifications, that have a number in common and an application that is given."""
    first = {}
    for file in files:
        for rule in file.rules:
            for application in dict(rule.applications):
                key = (rule.kind, int(rule.number or 0), application)
                if application in applications and rule.number and key in first:
                    yield f"{rule.place}: {said(f'slips.{rule.kind}', number=rule.number, place=first[key])}"
                    break
                first.setdefault(key, rule.place)


def bound_again(term, letters):
    """A letter that a sum binds within a loop over the same letter, or nothing."""
    stack = [(term, letters)]
    while stack:
        (kind, *parts), bound = stack.pop()
        if kind == "sum":
            own = {letter for letter, _ in parts[0]}
            if own & bound:
                return min(own & bound)
            stack.append((parts[1], bound | own))
        elif kind == "op":
            stack += [(part, bound) for part in parts[1]]
        elif kind == "read":
            stack.append((parts[1], bound))
    return None


def slips_of_letters(file, reader):
    """Letters of loops that are bound again within their own loop."""
    for formula in reader.formulas:
        letters, again = set(), None
        for header in formula.loops:
            own = {letter for letter, _ in header}
            again = again or min(own & letters, default=None)
            letters |= own
        again = again or (bound_again(formula.term, letters) if formula.has_sum else None)
        if again:
            yield f"{file.place(formula.byte)}: {said('slips.letter', letter=again)}"
    for check in reader.checks:
        again = bound_again(check.condition, set()) if check.has_sum else None
        if again:
            yield f"{file.place(check.byte)}: {said('slips.letter', letter=again)}"


# ---- verifications that always stop


def of_numbers(sign, parts):
    """The value of an operator over numbers, or None where this doesn't know it."""
    one, other = parts[0], parts[-1]
    compared = {"=": one == other, "!=": one != other, "<": one < other, "<=": one <= other, ">": one > other, ">=": one >= other,
                "et": bool(one and other), "ou": bool(one or other), "non": not one, "positif": one > 0, "positif_ou_nul": one >= 0, "null": one == 0}
    computed = {"+": one + other, "-": one - other, "*": one * other, "neg": -one, "abs": abs(one), "max": max(one, other), "min": min(one, other)}
    return Fraction(compared[sign]) if sign in compared else computed.get(sign)


def constant_value(term, constants):
    """What a term is worth that is made of numbers and constants alone; None of another one."""
    kind, *parts = term
    if kind == "number":
        return Fraction(parts[0])
    if kind == "name":
        return Fraction(parts[0]) if parts[0].isdigit() else constants.get(parts[0])
    if kind != "op" or parts[0] not in EVALUATED:
        return None
    values = [constant_value(part, constants) for part in parts[1]]
    return None if None in values else of_numbers(parts[0], values)


def slips_of_checks(file, reader, application, constants, kinds):
    """Verifications whose condition holds for every household."""
    for check in reader.checks:
        if application in check.applications and kinds.get(check.error) == "anomalie" and constant_value(check.condition, constants):
            yield f"{file.place(check.byte)}: {said('slips.always', error=check.error)}"


# ---- what is declared and not used


def named(places):
    """Names with the place of the first, and how many there are."""
    shown = [f"{name} ({place})" if k == 0 else name for k, (name, place) in enumerate(places[:MOST_NAMED])]
    return ", ".join(shown) + (" .." if len(places) > MOST_NAMED else "")


def slips_of_idle(files, read, used_errors, driver_names):
    """Constants, computed variables and errors that nothing uses, a line for each kind. Inputs without effect are reported by `lint`."""
    variables, read = {variable.name: variable for file in files for variable in file.variables}, read | driver_names
    constants = [(name, variable.place) for name, variable in variables.items() if variable.kind == "const" and name not in read]
    idle = [(name, variable.place) for name, variable in variables.items()
            if variable.kind == "calculee" and name not in read and "restituee" not in variable.words]
    errors = [(name, file.place(byte)) for file in files for name, byte in file.errors if name not in used_errors]
    for key, found in (("slips.constants", constants), ("slips.computed", idle), ("slips.errors", errors)):
        if found:
            yield said(key, count=len(found), names=named(found))


def slips_of_outputs(files, done, driver, received):
    """Variables that are returned, and that nothing sets, or that the driver doesn't receive."""
    names = {name for name, _ in done}
    for variable in (variable for file in files for variable in file.variables):
        if "restituee" not in variable.words or variable.kind != "calculee":
            continue
        if variable.name not in names:
            yield f"{variable.place}: {said('slips.returned', name=variable.name)}"
        elif driver is not None and variable.name not in received:
            yield f"{variable.place}: {said('slips.received', name=variable.name, driver=driver)}"
