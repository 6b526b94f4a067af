"""Changes of drivers."""

from .drawing import NUMBERS, SPOILT_NUMBERS, chance, change_lines, change_pieces, exchange, indentation, some
from .terms import driver_term, kind

WORDS = b"""
( ) [ ] , : = == != < <= > >= + - * / <- if else partition with and or not present cast exists del call_m() main f g
taxbenefit avfisc # . ! X
""".split()
ENDS = [b"", b"", b"", b"", b"  ", b"\r", b"\n", b"\n   # \xc3\xa9\t", b" # if A:", b"\n  "]


def change_driver(random, text, names, wild):
    """A driver with one change."""
    if not wild and chance(random, 10):
        return change_ends(random, text)
    if not wild and chance(random, 5):
        return double_often(random, text, names)
    if not wild and chance(random, 40):
        return exchange(random, text, names)
    if not wild:
        return put_command(random, text, names)
    if chance(random, 45):
        return change_pieces(random, text, WORDS + [b"\t"] + names.all + NUMBERS + SPOILT_NUMBERS)
    return change_lines(random, text)


def change_ends(random, text):
    """A driver of which some lines end otherwise: in blanks, carriage returns or comments, or before empty lines."""
    return b"\n".join(line + random.choice(ENDS) for line in text.split(b"\n"))


def new_driver(random, names):
    """A driver with some commands and a call of the rules."""
    return b"main():\n%s  %s <- call_m()\n" % (commands(random, names, b"  ", 2), some(random, names.computed, b"REV"))


def double_often(random, text, names):
    """A driver that calls the old one so often that it weighs too much, so that its weight is reported."""
    levels = random.choice([22, 23, 30, 70])
    received = some(random, names.inputs + names.computed, b"REV")
    functions = [text.replace(b"main()", b"twice0()")]
    for level in range(1, levels):
        call = b"  %s <- twice%d()\n" % (received, level - 1)
        functions.append(b"twice%d():\n%s%s" % (level, call, call))
    functions.append(b"main():\n  %s <- twice%d()\n" % (received, levels - 1))
    return b"\n".join(functions)


def put_command(random, text, names):
    """A driver with new commands in it, as deep as the line before which they are put, or with one more function."""
    lines = text.split(b"\n")
    deep = [at for at, line in enumerate(lines) if line.startswith(b" ") and line.strip()]
    if not deep or chance(random, 10):
        return text + b"\n%s():\n%s" % (random.choice([b"f", b"g", b"h"]), commands(random, names, b"  ", 2))
    at = random.choice(deep)
    lines.insert(at, commands(random, names, indentation(lines[at]), 2).rstrip(b"\n"))
    return b"\n".join(lines)


def commands(random, names, front, depth):
    """One to three commands, each with these spaces in front."""
    return b"".join(command(random, names, front, depth) for _ in range(random.randrange(1, 4)))


def command(random, names, front, depth):
    """A command with its block."""
    settable = names.inputs + names.computed if chance(random, 95) else names.all
    form = random.randrange(9) if depth > 0 else random.randrange(5)
    if form < 2:
        depth_of_term = random.choice([1, 1, 2, 3])
        return b"%s%s = %s\n" % (front, target(random, names, settable), driver_term(random, names, depth_of_term))
    if form == 2:
        return b"%sdel %s\n" % (front, target(random, names, settable))
    if form < 5:
        received = b" , ".join(target(random, names, settable) for _ in range(random.randrange(1, 3)))
        called = some(random, names.functions, b"f") if chance(random, 20) else b"call_m"
        return b"%s%s <- %s()\n" % (front, received, called)
    block = commands(random, names, front + b" " * random.randrange(1, 4), depth - 1)
    if form < 7:
        return b"%spartition with %s:\n%s" % (front, kind(random, names), block)
    conditional = b"%sif %s:\n%s" % (front, driver_term(random, names, 2), block)
    if form == 7:
        return conditional
    return conditional + b"%selse:\n%s" % (front, commands(random, names, front + b"    ", depth - 1))


def target(random, names, settable):
    """What is set, deleted or received: one of these variables, or sometimes a cell of a table."""
    if names.tables and chance(random, 20):
        return b"%s[%d]" % (random.choice(names.tables), random.randrange(3))
    return some(random, settable, b"REV")
