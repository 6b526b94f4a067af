"""How functions, commands and terms of drivers are spelled."""

from typing import Any, List, NamedTuple, Optional

from .amounts import UNIT
from .faults import at_driver_line
from .terms import Cursor, NotSpelled, chained, is_whole, plain_sum
from .trees import Number, Operation

COMPARISONS = {b"==": "eq", b"!=": "ne", b"<": "lt", b"<=": "le", b">": "gt", b">=": "ge"}
TAX_BENEFIT = (b"avfisc", [1 * UNIT, 2 * UNIT])


class CellName(NamedTuple):
    """A variable, or a table with the number of a cell."""

    name: bytes
    index: Optional[int]


class KindExists(NamedTuple):
    """`exists(KIND)`, where a kind is an attribute and its values."""

    kind: Any


# Commands, each with the number of its line.


class Assignment(NamedTuple):
    """`IRN = REV + 1`."""

    line: int
    cell: Any
    term: Any


class Deletion(NamedTuple):
    """`del IRN`."""

    line: int
    cell: Any


class Conditional(NamedTuple):
    """`if TERM:`, its block, and the block of its `else:`, which may be empty."""

    line: int
    condition: Any
    block: List[Any]
    other: List[Any]


class Partition(NamedTuple):
    """`partition with KIND:` and its block; `kind` becomes the cells of the kind."""

    line: int
    kind: Any
    block: List[Any]


class Call(NamedTuple):
    """`A, B <- f()`, also of the rules."""

    line: int
    received: List[Any]
    function: bytes


class Function(NamedTuple):
    """A function, at the line where it begins."""

    line: int
    name: bytes
    block: List[Any]


# ---- lines


def functions_of(lines):
    """The functions of a driver. A fault is reported at the first line after the longest prefix that is a driver."""
    functions = []
    at = 0
    while at < len(lines):
        line = lines[at]
        name = said_by(line, function_line) if line.indent == 0 else None
        block, behind = block_under(lines, at) if name is not None else (None, at)
        if block is None:
            raise at_driver_line(line.number, b"syntax")
        functions.append(Function(line.number, name, block))
        at = behind
    return functions


def said_by(line, read):
    """The parse of a whole line by one form; None if it hasn't this form."""
    cursor = Cursor(line.tokens)
    try:
        said = read(cursor)
    except NotSpelled:
        return None
    return said if cursor.ended() else None


def block_under(lines, at):
    """The commands under a line and the position after them; no block if there is no whole first command."""
    commands = []
    outer = lines[at].indent
    at += 1
    if at == len(lines) or lines[at].indent <= outer:
        return None, at
    indent = lines[at].indent
    while at < len(lines) and lines[at].indent == indent:
        command, behind = command_at(lines, at)
        if command is None:
            break
        commands.append(command)
        at = behind
    return (commands, at) if commands else (None, at)


def command_at(lines, at):
    """The command that begins at a line, and the position after it; None if none does."""
    line = lines[at]
    for read in (assignment_line, deletion_line, call_line):
        said = said_by(line, read)
        if said is not None:
            return said._replace(line=line.number), at + 1
    kind = said_by(line, partition_line)
    if kind is not None:
        block, behind = block_under(lines, at)
        return (None if block is None else Partition(line.number, kind, block)), behind
    condition = said_by(line, if_line)
    if condition is None:
        return None, at
    block, behind = block_under(lines, at)
    if block is None:
        return None, at
    other = None
    if behind < len(lines) and lines[behind].indent == line.indent and said_by(lines[behind], else_line):
        other, behind_other = block_under(lines, behind)
    if other is None:
        return Conditional(line.number, condition, block, []), behind
    return Conditional(line.number, condition, block, other), behind_other


def function_line(cursor):
    """`f():`."""
    name = cursor.take("word").text
    cursor.sign(b"(")
    cursor.sign(b")")
    cursor.sign(b":")
    return name


def assignment_line(cursor):
    """`IRN = REV + 1`."""
    target = cell_name(cursor)
    cursor.sign(b"=")
    return Assignment(0, target, term(cursor))


def deletion_line(cursor):
    """`del IRN`."""
    cursor.key(b"del")
    return Deletion(0, cell_name(cursor))


def call_line(cursor):
    """`A, B <- f()`."""
    received = cursor.separated(cell_name, "sign", b",")
    cursor.sign(b"<-")
    name = cursor.take("word").text
    cursor.sign(b"(")
    cursor.sign(b")")
    return Call(0, received, name)


def if_line(cursor):
    """`if TERM:`."""
    cursor.key(b"if")
    condition = term(cursor)
    cursor.sign(b":")
    return condition


def else_line(cursor):
    """`else:`."""
    cursor.key(b"else")
    cursor.sign(b":")
    return True


def partition_line(cursor):
    """`partition with KIND:`."""
    cursor.key(b"partition")
    cursor.key(b"with")
    found = kind(cursor)
    cursor.sign(b":")
    return found


# ---- cells and kinds


def cell_name(cursor):
    """A word, perhaps with the number of a cell in brackets."""
    name = cursor.take("word").text
    if not cursor.take_if("sign", b"["):
        return CellName(name, None)
    number = cursor.take("number").text
    if not is_whole(number):
        raise NotSpelled
    cursor.sign(b"]")
    return CellName(name, int(number))


def kind(cursor):
    """`avfisc = 1, 2`, for which `taxbenefit` alone is short."""
    attribute = cursor.take("word").text
    if attribute == b"taxbenefit" and not cursor.next_is("sign", b"="):
        return TAX_BENEFIT
    cursor.sign(b"=")
    return (attribute, cursor.separated(lambda c: c.take("number").amount, "sign", b","))


# ---- terms, from the loosest level to the tightest


def term(cursor):
    """Conjunctions joined by `or`."""
    return chained(cursor, conjunction, "key", {b"or": "or"})


def conjunction(cursor):
    """Negations joined by `and`."""
    return chained(cursor, negation, "key", {b"and": "and"})


def negation(cursor):
    """A comparison, perhaps after `not`."""
    if cursor.take_if("key", b"not"):
        return Operation("not", [comparison(cursor)])
    return comparison(cursor)


def comparison(cursor):
    """A sum, or two sums with one comparison between them."""
    left = plain_sum(cursor, primary)
    operator = cursor.one_of("sign", COMPARISONS)
    return left if operator is None else Operation(operator, [left, plain_sum(cursor, primary)])


def primary(cursor):
    """A number, a cell, a term in brackets, `present`, `cast` or `exists`."""
    if cursor.ended():
        raise NotSpelled
    token = cursor.tokens[cursor.at]
    if token.kind == "word":
        return cell_name(cursor)
    cursor.at += 1
    if token.kind == "number":
        return Number(token.amount)
    if token.kind == "sign" and token.text == b"(":
        inner = term(cursor)
        cursor.sign(b")")
        return inner
    if token.text not in (b"present", b"cast", b"exists"):
        raise NotSpelled
    cursor.sign(b"(")
    if token.text == b"exists":
        found = KindExists(kind(cursor))
    elif token.text == b"present":
        found = Operation("present", [cell_name(cursor)])
    else:
        found = Operation("add", [cell_name(cursor), Number(0)])
    cursor.sign(b")")
    return found
