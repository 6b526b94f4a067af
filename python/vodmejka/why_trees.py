"""Why a value is what it is, as a tree: each value with those that it was computed from, as lines of text or as a page that folds."""
from __future__ import annotations

import html
from typing import TYPE_CHECKING, Iterator, Mapping

from .taken import told
from .texts import said

if TYPE_CHECKING:
    from . import reasons

NOTHING = ("undefined", "= 0")


class Tree:
    """What is shown: each value, and what its formula reads. `lines` has the values of the report as they are printed; of those that were shown above nothing
    stands below the second time. `others` are the values of another household: then what differs is shown, with both. With `is_told_taken` a formula says
    which cells and branches it took."""

    def __init__(self, rules: reasons.Rules, root: str, lines: Mapping[str, str], depth: int | None = None, nonzero: bool = False,
                 others: Mapping[str, str] | None = None, is_told_taken: bool = False):
        self.rules, self.root, self.lines, self.depth, self.nonzero = rules, root, lines, depth, nonzero
        self.others, self.is_told_taken = others, is_told_taken

    def __str__(self) -> str:
        return "\n".join(self.text())

    def __repr__(self) -> str:
        return f"<why {self.root} {self.lines[self.root]}: {len(self.lines)} values; print it, or show it in a notebook>"

    def _repr_html_(self) -> str:
        return "<div>" + "".join(self.html()) + "</div>"

    def below(self, cell: str) -> list[str]:
        """The cells that a value was computed from, as far as they are shown."""
        formula = self.rules.formulas.get(cell)
        read = [] if formula is None else [other for other in formula.reads(self.rules.sizes) if other in self.lines]
        read = [other for other in read if self.others is None or self.others.get(other) != self.lines[other]]
        return [other for other in read if not self.nonzero or self.lines[other] not in NOTHING]

    def walk(self) -> Iterator[tuple[str, int, bool, int]]:
        """The values in their order, each with its level: how deep it stands, whether it was shown above, and how many stand right below it."""
        left, shown = [(self.root, 0)], set()
        while left:
            cell, level = left.pop()
            again = cell in shown
            shown.add(cell)
            under = [] if again or self.depth is not None and level + 1 >= self.depth else self.below(cell)
            yield cell, level, again, len(under)
            left += [(other, level + 1) for other in reversed(under)]

    def said(self, cell: str, again: bool) -> tuple[str, str, str, str]:
        """The parts of a line: the value, the description, the formula, the place."""
        formula, what = self.rules.formulas.get(cell), self.rules.description(cell)
        value = f"{cell} {self.lines[cell]}"
        if self.others is not None:
            value += " " + said("why.there", value=self.others[cell].removeprefix("= ") if cell in self.others else said("why.nothing"))
        if again:
            return value, said("why.above"), "", ""
        if formula is None:
            return value, what, "", self.rules.role(cell)
        return value, what, formula.text, self.place(cell, formula)

    def place(self, cell: str, formula: reasons.Formula) -> str:
        """Where a formula stands, and what it took."""
        taken = told(formula, self.lines, self.rules.sizes, cell) if self.is_told_taken else []
        place = str(formula.place())
        return said("why.taken", place=place, what=", ".join(taken)) if taken else place

    def text(self) -> Iterator[str]:
        """The tree as lines."""
        for cell, level, again, _ in self.walk():
            value, what, formula, place = self.said(cell, again)
            yield "  " * level + "   ".join(part for part in (value, what) if part)
            if formula or place:
                yield "  " * level + "    " + "   ".join(part for part in (formula, f"({place})") if part)

    def html(self, is_open: bool = False) -> Iterator[str]:
        """The tree as pieces of a page, which fold and unfold; all are unfolded where it `is_open`, and else the uppermost."""
        open_levels: list[int] = []
        for cell, level, again, under in self.walk():
            while len(open_levels) > level:
                open_levels.pop()
                yield "</details>"
            value, what, formula, place = (html.escape(part) for part in self.said(cell, again))
            line = f'<b>{value}</b> <span class="said">{what}</span>'
            line += f" <code>{formula}</code>" if formula else ""
            line += f' <span class="place">{place}</span>' if place else ""
            if under:
                yield f'<details{" open" if is_open or level < 2 else ""}><summary>{line}</summary>'
                open_levels.append(level)
            else:
                yield f'<div class="leaf">{line}</div>'
        yield "</details>" * len(open_levels)
