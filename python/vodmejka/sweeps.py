"""What rules give along one amount of a household: every amount of a range, by one or several rule bases."""
from __future__ import annotations

import re
from decimal import Decimal
from fractions import Fraction
from typing import Iterable, Iterator, Mapping, NamedTuple, Sequence, Union

from .amounts import rounded
from .answers import Answer, Over, Stop, Value
from .bar_pictures import Picture
from .errors import Broken, Refused, Stopped
from .expressions import UNIT, Amount, Expression, millionths
from .program import Amount as Given
from .rate_pictures import Curve, picture
from .rules import Rules
from .shown import section, short, table

PLACE = re.compile("refused household line ([0-9]+): (.*)")
Number = Union[int, str, Decimal]
Along = Sequence[Union[Mapping[str, Amount], Stop]]
"""For each amount the values by their names, or the stop."""


class Drop(NamedTuple):
    """An amount at which what is kept is less than at the amount before it, and by how much: a number below 0."""

    amount: Decimal
    change: Decimal


class Sweep:
    """The answers along an amount.

    `amounts` has the amounts in order, `values[k]` the values of `of` by the rule base number k, `digests` and `programs` the digests of the rule bases and of
    their programs. A household that is stopped at some amount is an error, `Stopped`, unless it is made with `stops="keep"`: then its value is the `Stop`.
    """

    def __init__(self, code: str, of: str, amounts: Sequence[Decimal], answers: Sequence[Along], digests: Sequence[str], programs: Sequence[str]):
        self.code, self.of, self.amounts, self.digests, self.programs = code, of, list(amounts), list(digests), list(programs)
        self._answers = answers
        self.values = [self.values_of(of, base) for base in range(len(answers))]

    def __repr__(self) -> str:
        bases = f"{len(self.values)} rule base{'' if len(self.values) == 1 else 's'}"
        return f"<Sweep of {self.of} along {self.code}: {len(self.amounts)} amounts from {self.amounts[0]} to {self.amounts[-1]}, {bases}>"

    def _repr_html_(self) -> str:
        rows = [[amount, *("stopped" if isinstance(told, Stop) else told for told in column)] for amount, *column in zip(self.amounts, *self.values)]
        heads = [self.code, *(f"{self.of} by {short(digest)}" for digest in self.digests)]
        return section([f"{self.of} along {self.code}: {len(self.amounts)} amounts"], table(heads, rows))

    def plot(self) -> Picture:
        """The marginal and the mean rates by each of the rule bases, as a picture, which notebooks show."""
        curves = []
        for base, digest in enumerate(self.digests):
            name = self.of if len(self.digests) == 1 else f"{self.of} by rules {base} ({short(digest)})"
            rates = self.rates(base)
            curves.append(Curve(name, self.of, [marginal for _, marginal, _ in rates], [mean for _, _, mean in rates]))
        return Picture(picture(self.amounts, curves, self.code))

    def net(self, net: str, base: int = -1) -> list[Value]:
        """What is kept at each amount by a rule base, as `1AJ - TOTAL`; undefined where the household is stopped."""
        return [decimal_of(amount) for amount in self._kept(Expression(net), base)]

    def drops(self, net: str, base: int = -1) -> list[Drop]:
        """The amounts at which what is kept falls though the amount rises, by a rule base (the last one, unless another is named). Amounts next to one at
        which what is kept is no number are left out."""
        kept = self._kept(Expression(net), base)
        found = []
        for before, now, amount in zip(kept, kept[1:], self.amounts[1:]):
            if isinstance(before, Fraction) and isinstance(now, Fraction) and now < before:
                found.append(Drop(amount, exact(now - before)))
        return found

    def values_of(self, name: str, base: int = -1) -> list[Value | Stop]:
        """The values of another requested value than `of`, or the stops."""
        return [told if isinstance(told, Stop) else decimal_of(told[name]) for told in self._answers[base]]

    def rates(self, base: int = -1, of: str | None = None) -> list[tuple[Decimal, Fraction | None, Fraction | None]]:
        """For each amount what one more unit up to it adds to `of` (the marginal rate), and `of` over the amount (the mean rate); None where there is none."""
        values = [None if isinstance(told, Stop) else told[of or self.of] for told in self._answers[base]]
        rows = []
        for at, amount in enumerate(self.amounts):
            now, marginal, mean = values[at], None, None
            if isinstance(now, Fraction):
                before = values[at - 1] if at else None
                step = amount - self.amounts[at - 1] if at else Decimal(0)
                marginal = (now - before) / UNIT / Fraction(step) if isinstance(before, Fraction) and step else None
                mean = now / UNIT / Fraction(amount) if amount else None
            rows.append((amount, marginal, mean))
        return rows

    def _kept(self, net: Expression, base: int) -> list[Amount]:
        kept: list[Amount] = []
        for amount, told in zip(self.amounts, self._answers[base]):
            if isinstance(told, Stop):
                kept.append(None)
                continue
            unknown = [name for name in net.names if name != self.code and name not in told]
            if unknown:
                raise Refused(f"{net.text!r}: {unknown[0]} is neither a requested value nor a code of the household")
            amounts: dict[str, Amount] = dict(told)
            amounts[self.code] = Fraction(amount) * UNIT
            kept.append(net.value(amounts.__getitem__))
        return kept


def sweep(
    rules: Rules | Sequence[Rules], household: Mapping[str, Given], code: str, amounts: Iterable[Number], of: str, *, stops: str = "raise"
) -> Sweep:
    """What rules give to a household as one code goes through amounts in rising order. `of` is a requested value; all requested values and the household's
    other amounts may stand in expressions of the result."""
    bases = [rules] if isinstance(rules, Rules) else list(rules)
    along = [Decimal(str(amount)) for amount in amounts]
    if not along or any(now <= before for before, now in zip(along, along[1:])):
        raise ValueError("amounts: one or more, each greater than the one before it")
    if stops not in ("raise", "keep"):
        raise ValueError('stops: "raise" or "keep"')
    others = {name: Fraction(str(amount)) * UNIT for name, amount in household.items() if name != code and amount not in (None, "")}
    columns = [answers_along(base, household, code, along, of, others, stops) for base in bases]
    return Sweep(code, of, along, columns, [base.digest for base in bases], [base.program_digest for base in bases])


def answers_along(
    rules: Rules, household: Mapping[str, Given], code: str, amounts: Sequence[Decimal], of: str, others: Mapping[str, Fraction], stops: str
) -> list[Mapping[str, Amount] | Stop]:
    """For each amount the requested values with the household's other amounts, or the stop."""
    requested = rules.outputs().keys()
    if of not in requested:
        raise Refused(f"{of} is no requested value of the rules; there are {', '.join(requested)}")
    told: list[Mapping[str, Amount] | Stop] = []
    for amount, answer in zip(amounts, answers_of(rules, household, code, amounts)):
        if answer.stop is None:
            if answer.keys() != requested:
                raise Broken(f"the program's answer for {code} = {amount} has other values than those requested")
            told.append({**others, **{name: millionths(value) for name, value in answer.items()}})
        elif stops == "raise":
            raise Stopped(answer.stop.line, f"{code} = {amount}: {answer.stop.line}")
        else:
            told.append(answer.stop)
    return told


def answers_of(rules: Rules, household: Mapping[str, Given], code: str, amounts: Sequence[Decimal]) -> Iterator[Answer]:
    """The answers with each amount. A refusal has the amount in place of its line."""
    try:
        yield from rules.batch(with_amount(household, code, amount) for amount in amounts)
    except Refused as refused:
        place = PLACE.fullmatch(refused.line)
        if place is None:
            raise
        number = int(place[1]) - 2
        raise Refused(f"{code} = {amounts[number]:f}: {place[2]}" if number >= 0 else f"{code}: {place[2]}") from None


def with_amount(household: Mapping[str, Given], code: str, amount: Decimal) -> dict[str, Given]:
    """The household with another amount of a code."""
    made = dict(household)
    made[code] = amount
    return made


def exact(amount: Fraction) -> Decimal:
    """A number of millionths as a decimal; a part of a millionth is rounded, halves away from zero."""
    made = Decimal(rounded(amount.numerator, amount.denominator)).scaleb(-6)
    return made.quantize(Decimal(1)) if made == made.to_integral_value() else made.normalize()


def decimal_of(amount: Amount) -> Value:
    """A number of millionths as a value."""
    return amount if amount is None or isinstance(amount, Over) else exact(amount)
