"""What a change of rules does to households: who gains, who loses, what it costs, over groups and tenths, with weights, in exact sums."""
from __future__ import annotations

import contextlib
import itertools
from decimal import Decimal
from fractions import Fraction
from typing import TYPE_CHECKING, Any, Iterable, Mapping, NamedTuple, Sequence, overload

from .bar_pictures import Picture, bars
from .columns import Reasons, inputs, sums, values, without
from .comparers import keys_of, ordered
from .errors import Broken, Refused
from .expressions import Expression
from .groups import Group, Rows, by_label, gini_of, group_line, merge_into, merged
from .populations import Names, Portion, portions
from .rules import Rules
from .shown import section, short, table
from .surveys import Run, values_of
from .sweeps import exact
from .tenths import Ordered, groups_of, names_of

if TYPE_CHECKING:
    import pandas

PORTION = 25_000
TENTH = "tenth:"
GAINS = ("less", "more")


class Compared(NamedTuple):
    """A household: its number from 0, its weight in millionths, its groups, `of` before and after and what is kept before and after, in millionths.

    A group is what the column has, or the number that orders households into tenths. `why` is empty, or says why one of the amounts is missing: `stopped`,
    `undefined` or `over`."""

    number: int
    weight: int
    groups: tuple[Any, ...]
    before: Fraction | None
    after: Fraction | None
    kept: tuple[Fraction | None, Fraction | None]
    why: str


class ComparedHouseholds(Sequence[Compared]):
    """The households of a comparison, as columns of whole numbers; each is made when it is read."""

    def __init__(self, scales: Sequence[int], by: Sequence[str]):
        self.scales, self.by, self.groups = list(scales), list(by), [list[Any]() for _ in by]
        self.weights = list[int]()
        self.reasons: Reasons = {}
        self.amounts = [(list[int](), list[int]()) for _ in scales]

    def add(self, weights: Sequence[int], groups: Sequence[Sequence[Any]], amounts: Sequence[Sequence[Sequence[int]]], reasons: Reasons) -> None:
        """Adds households: the amounts before and after of each sum, in parts of a millionth."""
        begin = len(self.weights)
        self.weights += weights
        for own, column in zip(itertools.chain(self.groups, *self.amounts), itertools.chain(groups, *amounts)):
            own += column
        self.reasons.update((begin + at, why) for at, why in reasons.items())

    def columns(self, sum_: int) -> tuple[list[int], list[int], list[int]]:
        """The weights and the amounts before and after of those that have amounts, of the sum of that number."""
        are_numbers = [at not in self.reasons for at in range(len(self.weights))]
        before, after = self.amounts[sum_]
        weights, before, after = (list(itertools.compress(column, are_numbers)) for column in (self.weights, before, after))
        return weights, before, after

    def __len__(self) -> int:
        return len(self.weights)

    @overload
    def __getitem__(self, at: int) -> Compared: ...

    @overload
    def __getitem__(self, at: slice) -> list[Compared]: ...

    def __getitem__(self, at: int | slice) -> Compared | list[Compared]:
        if isinstance(at, slice):
            return [self[number] for number in range(*at.indices(len(self)))]
        number = range(len(self))[at]
        why, groups = self.reasons.get(number, ""), tuple(group_of(name, column[number]) for name, column in zip(self.by, self.groups))
        pairs: list[tuple[Fraction | None, Fraction | None]] = [(None, None)] * 2
        if not why:
            pairs = [(Fraction(first[number], scale), Fraction(second[number], scale)) for (first, second), scale in zip(self.amounts, self.scales)] + pairs
        return Compared(number, self.weights[number], groups, *pairs[0], pairs[1], why)


def group_of(name: str, value: Any) -> Any:
    """The group of a household: what its column has, or the number that orders households into tenths."""
    return Fraction(value) if name.startswith(TENTH) and value is not None else value


class Comparison:
    """The outcome of a change.

    `groups` has the group of all households first, named `all`, and then those of each grouping in order; `households` the single ones, where they were kept.
    `digests` are those of the two sources, `program` that of the program. Amounts are exact, as decimals; shares and the Gini coefficient are fractions.
    """

    def __init__(
        self, of: str, gain: str, net: str | None, by: Sequence[str], groups: Sequence[Group], digests: tuple[str, str], program: str,
        households: ComparedHouseholds | None = None,
    ):
        self.of, self.gain, self.net, self.by = of, gain, net, list(by)
        self.households = ComparedHouseholds([1], []) if households is None else households
        self.groups, self.digests, self.program = list(groups), digests, program

    @property
    def all(self) -> Group:
        return self.groups[0]

    @property
    def cost(self) -> Decimal:
        """What `of` is less after the change than before, over all households by their weights: of a tax what the state loses. With gain="more", as of a
        benefit, what it is more."""
        change = self.all.after - self.all.before
        return exact(change if self.gain == "more" else -change)

    @property
    def winners(self) -> Decimal:
        """The weight of the households that gain."""
        return exact(Fraction(self.all.winners))

    @property
    def losers(self) -> Decimal:
        """The weight of the households that lose."""
        return exact(Fraction(self.all.losers))

    @property
    def gini(self) -> tuple[Fraction | None, Fraction | None]:
        """The Gini coefficient before and after: of what is kept where `net` was given, else of `of`. None where the amounts have no sum above 0."""
        weights, before, after = self.households.columns(0 if self.net is None else 1)
        return gini_of(weights, before), gini_of(weights, after)

    @property
    def table(self) -> pandas.DataFrame | list[dict[str, Any]]:
        """A row for each group, as a frame of pandas where it is installed, else as a list of dicts."""
        rows = [group_line(group) for group in self.groups]
        try:
            import pandas
        except ImportError:
            return rows
        return pandas.DataFrame(rows).set_index("group")

    def plot(self) -> Picture:
        """The mean gain of a household of each group, or of all where there are no groups, as a picture, which notebooks show."""
        shown = self.groups[1:] or self.groups
        return Picture(bars([(short_name(group.name), [group.mean_gain]) for group in shown], ""))

    def _repr_html_(self) -> str:
        rows = [group_line(group) for group in self.groups]
        digests = f"rules {short(self.digests[0])} before, {short(self.digests[1])} after, program {short(self.program)}"
        return section([repr(self).strip("<>"), digests], table(list(rows[0]), [list(row.values()) for row in rows]))

    def __repr__(self) -> str:
        whole = self.all
        return f"<Comparison of {self.of}: {whole.households} households, {whole.apart} apart; cost {self.cost}, winners {self.winners}, losers {self.losers}>"


def compare(
    before: Rules, after: Rules, households: pandas.DataFrame | Iterable[Mapping[str, Any]], *, of: str, weight: str | None = None, by: Sequence[str] = (),
    net: str | None = None, gain: str = "less", keep: Sequence[str] = (),
) -> Comparison:
    """What a change of rules does to households.

    `households` is an iterable of mappings, or a frame, with amounts by codes and further columns: `weight` names one with a weight of 0 or more, `by` has
    names of columns, or `tenth:NAME` for tenths of the weight by a requested value before the change, or by a code, and `keep` names columns that are ignored.
    The two may have other inputs, drivers and requested values; a code that one hasn't is left out of its households. `of` is a requested value of both,
    or a sum as `TOTAL + LEVIES`; `net` a sum of codes and values that says what a household keeps. With gain="less" less of `of` is a gain, as of a tax, with
    "more" more of it. All are computed by the program m_survey.
    """
    sign = sign_of(gain)
    if before.program_digest != after.program_digest:
        raise Broken("the rules before and after are computed by two programs")
    expressions = [Expression(text) for text in (of, *([net] if net is not None else []))]
    codes = (set(before.types()), set(after.types()))
    for name in (name.removeprefix(TENTH) for name in by if name.startswith(TENTH)):
        if name not in before.outputs() and name not in codes[0]:
            raise Refused(f"by: {name} is neither a requested value nor a code of the rules before the change")
    for base, expression in itertools.product((before, after), expressions):
        check_names(expression, list(base.outputs()), codes[0] | codes[1])
    names = Names(codes, weight, [name for name in by if not name.startswith(TENTH)], list(keep))
    made = Computation(before, after, expressions, by, sign)
    with contextlib.closing(made):
        for portion in portions(households, names, PORTION):
            made.begin(portion)
        groups = made.groups()
    return Comparison(of, gain, net, by, groups, (before.digest, after.digest), before.survey_digest, made.households)


class Computation:
    """The households of a comparison as they are computed: each part by both programs, while the part before it is added up."""

    def __init__(self, before: Rules, after: Rules, expressions: Sequence[Expression], by: Sequence[str], sign: int):
        self.expressions, self.by, self.sign, self.scale = expressions, list(by), sign, expressions[0].scale
        ordering = [name.removeprefix(TENTH) for name in by if name.startswith(TENTH)]
        self.sides = []
        for rules, more in ((before, ordering), (after, list[str]())):
            wanted = dict.fromkeys([name for expression in expressions for name in expression.names] + more)
            requested = rules.outputs()
            self.sides.append(rules.survey_of([name for name in wanted if name in requested]))
        self.households = ComparedHouseholds([expression.scale for expression in expressions], by)
        self._whole = Group("all", sign, self.scale)
        self._labelled: list[dict[str, Group]] = [{} for name in by if not name.startswith(TENTH)]
        self._ordered = [(Ordered(), Group(f"no {name}", sign, self.scale)) for name in ordering]
        self._waiting: list[tuple[Portion, list[Run]]] = []

    def begin(self, portion: Portion) -> None:
        """Starts the programs on some households, and adds up those before."""
        runs: list[Run] = []
        self._waiting.append((portion, runs))
        runs += [survey.begun(table) for (survey, _), table in zip(self.sides, portion.tables)]
        if len(self._waiting) > 1:
            self._finish()

    def groups(self) -> list[Group]:
        """All groups, when all households have been added up."""
        while self._waiting:
            self._finish()
        made, labelled, ordered_ = [self._whole], iter(self._labelled), iter(self._ordered)
        for name in self.by:
            if not name.startswith(TENTH):
                made += next(labelled).values()
                continue
            order, others = next(ordered_)
            tenths = names_of(name.removeprefix(TENTH))
            shares = [groups_of(order.file, tenths, self.sign, self.scale, share) for share in order.shares()]
            made += [merged(tenth, self.sign, self.scale, (share[k] for share in shares)) for k, tenth in enumerate(tenths)]
            made += [others] if others.households else []
        return made

    def close(self) -> None:
        """Ends the programs that still run."""
        for run in itertools.chain.from_iterable(runs for _, runs in self._waiting):
            run.end()
        for order, _ in self._ordered:
            order.close()

    def _finish(self) -> None:
        """Adds up the households whose programs were started first."""
        portion, runs = self._waiting[0]
        answers = []
        for (_, names), run in zip(self.sides, runs):
            try:
                answers.append(values_of(run.printed(), names, portion.count))
            except Refused as refused:
                raise portion.refusal(refused) from None
            finally:
                run.end()
        self._waiting.pop(0)
        self._add(portion, answers)

    def _add(self, portion: Portion, answers: Sequence[dict[str, list[str]]]) -> None:
        """Adds up some households."""
        pairs = [[self._sum(expression, portion, answer) for answer in answers] for expression in self.expressions]
        reasons: Reasons = {}
        for side in (1, 0):
            for pair in pairs[::-1]:
                reasons.update(pair[side][1])
            reasons.update((at, "stopped") for at, stop in enumerate(answers[side]["stop"]) if stop)
        amounts = [[without(column, reasons) for column, _ in pair] for pair in pairs]
        rows = Rows(portion.weights, amounts[0][0], amounts[0][1], reasons)
        labelled, ordered_, groups, at = iter(self._labelled), iter(self._ordered), list[Sequence[Any]](), iter(portion.groups)
        for name in self.by:
            if name.startswith(TENTH):
                keys, others = self._keys(name.removeprefix(TENTH), portion, answers[0]), next(ordered_)
                part, without_key = ordered(name.removeprefix(TENTH), keys, rows, self._whole)
                others[0].add(part)
                others[1].merge(without_key)
                groups.append(keys)
            else:
                groups.append(next(at))
                merge_into(next(labelled), by_label(name, map(str, groups[-1]), rows, self.sign, self.scale))
        self._whole.add(rows)
        self.households.add(portion.weights, groups, amounts, reasons)

    def _sum(self, expression: Expression, portion: Portion, answer: dict[str, list[str]]) -> tuple[list[int], Reasons]:
        """A sum for each household; undefined before over."""
        column = lambda name: values(answer[name]) if name in answer else inputs(portion.amounts(name))
        return sums(expression, portion.count, column)

    def _keys(self, name: str, portion: Portion, answer: dict[str, list[str]]) -> list[int | None]:
        """The numbers that order households: values before the change, or amounts of a code; None where there is none."""
        return keys_of(*(values(answer[name]) if name in answer else inputs(portion.amounts(name))))


def short_name(name: str) -> str:
    """The name of a group below a bar: of a tenth its number."""
    return name.split(" ")[1] if name.startswith("tenth ") else name


def sign_of(gain: str) -> int:
    """What a change of `of` is multiplied by to be a gain."""
    if gain not in GAINS:
        raise ValueError('gain: "less" or "more"')
    return -1 if gain == "less" else 1


def check_names(sum_: Expression, requested: Sequence[str], codes: set[str]) -> None:
    """Refuses a sum with a name that is neither a requested value nor a code."""
    for name in sum_.names:
        if name not in requested and name not in codes:
            raise Refused(f"{name} is neither a requested value nor a code of the rules; there are {', '.join(requested)}")
