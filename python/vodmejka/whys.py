"""Why a variable has its value, as a session reports it."""
from __future__ import annotations

from typing import TYPE_CHECKING, Callable

from .answers import Value, value_of
from .errors import Broken
from .why_trees import Tree

if TYPE_CHECKING:
    from . import reasons


class Why:
    """The report of a value: the values that it needs, each after those that it was computed from; the last one is the requested value.

    `values` has them by the names of the cells, `report` the lines as the program printed them, which its command `check` takes. `digests` are those of the
    source and of the program.
    """

    def __init__(self, lines: list[str], rules: Callable[[], reasons.Rules], digests: tuple[str, str]):
        self.digests, self._texts = digests, dict(line.split(" ", 1) for line in lines)
        if not lines or len(self._texts) != len(lines):
            raise Broken("the program's report isn't a line for each cell")
        self.name, self.report, self._rules = lines[-1].split(" ")[0], "".join(line + "\n" for line in lines), rules
        self.values: dict[str, Value] = {name: value_of(f"{name} {text}") for name, text in self._texts.items()}

    @property
    def value(self) -> Value:
        return self.values[self.name]

    def tree(self, depth: int | None = None, only_nonzero: bool = False) -> Tree:
        """The report as a tree, with descriptions, formulas and places: of so many levels, or all; perhaps without what is undefined or 0."""
        return Tree(self._rules(), self.name, self._texts, depth, only_nonzero)

    def __repr__(self) -> str:
        return f"<why {self.name} {self._texts[self.name]}: {len(self.values)} values>"

    def _repr_html_(self) -> str:
        return self.tree()._repr_html_()
