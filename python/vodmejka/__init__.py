"""Rules in M, computed by the verified program `m_tax`.

    from decimal import Decimal
    from vodmejka import Rules

    rules = Rules("examples/first/rules.list")
    rules.run({"1AJ": Decimal("2500.5")}).values["IRN"]        # Decimal('1500.5')

`Rules` is a rule base with a driver and requests; `Rules.from_code` one that was compiled to a code file. `run` computes a household, `batch` any number of
them, `session` holds one that is edited. An answer has values, notes, or what stopped the run. What the program refuses is an exception with its place.
"""
from __future__ import annotations

import importlib
from typing import TYPE_CHECKING, Any

from .version import VERSION as __version__

if TYPE_CHECKING:
    from .answers import OVER, Answer, Note, Over, Stop, Value
    from .cases import Mismatch, Mismatches
    from .comparisons import Compared, Comparison, compare
    from .errors import Broken, Interrupted, NotFound, Refused, Stopped, VodmejkaError
    from .facts import Fact, Facts, Range
    from .file_comparisons import FileComparison, compare_file
    from .rules import Rules
    from .session import Session
    from .sweeps import Sweep, sweep
    from .variables import Formula, Variable
    from .whys import Why

__all__ = [
    "Answer", "Broken", "Compared", "Comparison", "Fact", "Facts", "FileComparison", "Formula", "Interrupted", "Mismatch", "Mismatches", "NotFound",
    "Note", "OVER", "Over", "Range", "Refused", "Rules", "Session", "Stop", "Stopped", "Sweep", "Value", "Variable", "VodmejkaError", "Why",
    "__version__", "compare", "compare_file", "sweep",
]

# The module of each name. It is imported when the name is used first: a command that needs none of them starts a quarter of a second earlier.
_MODULES = {
    "answers": ("OVER", "Answer", "Note", "Over", "Stop", "Value"),
    "cases": ("Mismatch", "Mismatches"),
    "comparisons": ("Compared", "Comparison", "compare"),
    "errors": ("Broken", "Interrupted", "NotFound", "Refused", "Stopped", "VodmejkaError"),
    "facts": ("Fact", "Facts", "Range"),
    "file_comparisons": ("FileComparison", "compare_file"),
    "rules": ("Rules",),
    "session": ("Session",),
    "sweeps": ("Sweep", "sweep"),
    "variables": ("Formula", "Variable"),
    "whys": ("Why",),
}
_MODULE_OF = {name: module for module, names in _MODULES.items() for name in names}


def __getattr__(name: str) -> Any:
    if name not in _MODULE_OF:
        raise AttributeError(f"module {__name__!r} has no attribute {name!r}")
    found = globals()[name] = getattr(importlib.import_module(f"{__name__}.{_MODULE_OF[name]}"), name)
    return found


def __dir__() -> list[str]:
    return sorted({*globals(), *__all__})
