"""What a change of rules does to the households of a file of any length, in parts that all processors compute.

The file is cut into parts of whole records. A worker has the program compute a part by the rules before and after, adds up the part, and writes its lines;
what orders households into tenths goes into a file without a name. So memory is that of some parts, whatever the file has.
"""
from __future__ import annotations

import contextlib
import functools
import os
from dataclasses import dataclass
from typing import BinaryIO, Iterator, Sequence

from . import amounts, runs
from .comparers import Comparer, Outcome, Request, Side, Step
from .comparisons import TENTH, Comparison, check_names, sign_of
from .errors import Broken, Failed, Refused
from .expressions import Expression
from .groups import Group, merge_into, merged
from .limits import FILE_BYTES
from .long_tables import LongTable
from .long_tables import shown as bytes_shown
from .program import ENCODING, csv_text
from .rules import Rules
from .tenths import Ordered, groups_of, names_of

ROWS, BYTES, GROUPS = 20_000, 4_000_000, 10_000


@dataclass
class FileComparison:
    """A comparison, with the weight of each class of gains, and of each class of marginal rates before and after."""

    comparison: Comparison
    gains: list[int]
    rates: list[list[int]]


def compare_file(
    before: Rules, after: Rules, path: str | os.PathLike[str], *, of: str, weight: str | None = None, by: Sequence[str] = (), gain: str = "less",
    step: tuple[str, str] | None = None, inputs: bool = False, lines: BinaryIO | None = None,
) -> FileComparison:
    """What a change of rules does to the households of a table of any length, as `compare` does for others.

    The columns of the table are codes of the rules, the weight, and those that `by` names; `tenth:NAME` is a column of numbers, a value before the change, or a
    code. `step` is a code and an amount: each household is computed once more with so much more of it. `lines` gets a line for each household, with the amounts
    of the codes where `inputs` is true.
    """
    with contextlib.ExitStack() as stack:
        table = stack.enter_context(contextlib.closing(LongTable(path)))
        comparer = comparer_of(before, after, table, Expression(of), weight, by, sign_of(gain), step, inputs)
        if lines is not None:
            lines.write(csv_text([comparer.heads()]).encode(ENCODING))
        orders = [stack.enter_context(contextlib.closing(Ordered())) for _ in comparer.request.tenths]
        found = Outcome(comparer.empty("all"), [{} for _ in comparer.request.groups])
        others = [comparer.empty(f"no {name}") for name, _ in comparer.request.tenths]
        for part in runs.in_order(comparer.outcome, table.parts(ROWS, min(BYTES, FILE_BYTES // 2))):
            if lines is not None:
                lines.write(part.lines)
            add(found, part, orders, others)
        table.check()
        groups = [found.whole, *groups_in_order(comparer, by, found, orders, others)]
    program = before.survey_digest
    if after.survey_digest != program:
        raise Broken("the rules before and after were computed by two programs")
    return FileComparison(Comparison(of, gain, None, by, groups, (before.digest, after.digest), program), found.gains, found.rates)


def comparer_of(
    before: Rules, after: Rules, table: LongTable, of: Expression, weight: str | None, by: Sequence[str], sign: int, step: tuple[str, str] | None, inputs: bool
) -> Comparer:
    """The comparer of a table; an error where a name is unknown."""
    head, codes = table.head, [set(rules.types()) for rules in (before, after)]
    outputs = [list(rules.outputs()) for rules in (before, after)]

    def place(name: str) -> int:
        if name not in head[1:]:
            raise Refused(f"{table.path} has no column {bytes_shown(name)}")
        return head.index(name)

    order: list[tuple[str, int | None]] = []
    for name in (name.removeprefix(TENTH) for name in by if name.startswith(TENTH)):
        if name not in head[1:] and name not in outputs[0]:
            raise Refused(f"by: {bytes_shown(name)} is neither a column of the table nor a requested value of the rules before the change")
        order.append((name, head.index(name) if name in head[1:] else None))
    groups = [(name, place(name)) for name in by if not name.startswith(TENTH)]
    weights = None if weight is None else place(weight)
    known = codes[0] | codes[1] | {name for name, at in [*order, *groups] if at is not None} | {weight}
    unknown = [name for name in head[1:] if name not in known]
    if unknown:
        raise Refused(f"{table.path}: these columns are no codes of the rules: {bytes_shown(' '.join(unknown))}")
    sides = []
    for rules, own, requested in zip((before, after), codes, outputs):
        check_names(of, requested, codes[0] | codes[1])
        ordering = [name for name, at in order if at is None] if rules is before else []
        survey, names = rules.survey_of(list(dict.fromkeys(name for name in [*of.names, *ordering] if name in requested)))
        columns = [at for at, name in enumerate(head) if at and name in own]
        sides.append(Side(survey, names, columns, csv_text([["name", *(head[at] for at in columns)]])))
    more = None if step is None else step_of(step, head, codes)
    return Comparer(table.path, head, sides, Request(of, sign, weights, groups, order, more, inputs))


def step_of(step: tuple[str, str], head: Sequence[str], codes: Sequence[set[str]]) -> Step:
    """A step, which is a code and an amount."""
    code, text = step
    if code not in head[1:] or not all(code in own for own in codes):
        raise Refused(f"--step: {bytes_shown(code)} is no code of the rules with a column in the table")
    try:
        amount = amounts.amount(text)
    except Failed as fault:
        raise Refused(f"--step: {fault}") from None
    if amount <= 0:
        raise Refused("--step: an amount above 0")
    return Step(code, amount)


def add(found: Outcome, part: Outcome, orders: Sequence[Ordered], others: Sequence[Group]) -> None:
    """Adds the results of a part."""
    found.whole.merge(part.whole)
    for groups, more in zip(found.groups, part.groups):
        merge_into(groups, more)
        if len(groups) > GROUPS:
            raise Refused(f"by: there are more than {GROUPS} groups")
    found.gains = [first + second for first, second in zip(found.gains, part.gains)]
    found.rates = [[first + second for first, second in zip(*pair)] for pair in zip(found.rates, part.rates)]
    for order, other, (rows, without_key) in zip(orders, others, part.ordered):
        order.add(rows)
        other.merge(without_key)


def groups_in_order(comparer: Comparer, by: Sequence[str], found: Outcome, orders: Sequence[Ordered], others: Sequence[Group]) -> Iterator[Group]:
    """The groups of each grouping, in the order of `by`."""
    texts, numbers = iter(found.groups), iter(zip(orders, others))
    sign, scale = comparer.request.sign, comparer.scale
    for name in by:
        if not name.startswith(TENTH):
            yield from next(texts).values()
            continue
        order, other = next(numbers)
        names = names_of(name.removeprefix(TENTH))
        shares = list(runs.in_order(functools.partial(groups_of, order.file, names, sign, scale), order.shares()))
        yield from (merged(name, sign, scale, (share[k] for share in shares)) for k, name in enumerate(names))
        if other.households:
            yield other
