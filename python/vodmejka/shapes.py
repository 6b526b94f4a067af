"""Which statements of rule files the grammar takes, by the letters of their tokens (tokens.py) alone: without a tree, by regular expressions.

A term without brackets is regular. So terms in brackets, calls, cells and conditionals are replaced by one letter, from the innermost outward, until nothing
changes. A statement that isn't recognized has a fault, or a form that grammar.py reads: loops of several letters, and deep nests.
"""
from __future__ import annotations

import re
from typing import NamedTuple

HEAD, DECLARATION, FORMULA, CHECK, OTHER = "head", "declaration", "formula", "check", ""
MOST_PASSES = 16

ANY_WORD = "[Nni]"
POINT = "[N0X]"
VALUES = f"{POINT}(?:~{POINT})?(?:,{POINT}(?:~{POINT})?)*"
WALKED = rf"uid(?:\({VALUES}\)|{VALUES})"
HEADER = f"(?:i={VALUES}|{WALKED}(?:&{WALKED})*)"
MEMBER = f"(?:{ANY_WORD}|-?[01](?:~-?[01])?)"
SUM = "-?[Nni01XP](?:[-+*]-?[Nni01XP])*"  # P is a piece that was replaced, D a list of members after `dans`
TRUTH = f"!?{SUM}(?:[<=]{SUM}|!?D)?"
TERM = f"{TRUTH}(?:[&|]{TRUTH})*"
ATTRIBUTES = f"(?:{ANY_WORD}(?:=-?[01])?)*"
DESCRIPTION = f':"(?:t{ANY_WORD})?;'

SUM_HEADER = re.compile(rf"S\({HEADER}:")
LISTED = re.compile(rf"d\({MEMBER}(?:,{MEMBER})*\)")
INNER = re.compile(rf"{ANY_WORD}\[{TERM}\]|g?\({TERM}\)|h\({TERM},{TERM}\)|s{TERM}a{TERM}(?:e{TERM})?f")
WHOLE_TERM = re.compile(TERM)
RULE_HEAD = re.compile(f"[RV]{ANY_WORD}*0:A:{ANY_WORD}(?:,{ANY_WORD})*;")
DECLARED = re.compile(f'N:(?:I{ATTRIBUTES}L{ANY_WORD}{DESCRIPTION}|K=-?[01];|k:"(?::"){{3,4}};|(?:T\\[0\\])?C{ATTRIBUTES}{DESCRIPTION})')
TARGET = re.compile(rf"((?:p{HEADER}:)*){ANY_WORD}(?:\[[X0]\])?=")
ERROR = re.compile(rf"ar{ANY_WORD}+;\Z")


class Statement(NamedTuple):
    """The kind of a statement, and numbers of tokens within it: of the target of a formula, and of the begin and the end of the term."""

    kind: str
    target: int = 0
    begin: int = 0
    end: int = 0


def is_term(letters: str) -> bool:
    """Whether letters are those of a term. False also of one that is nested too deep for this."""
    letters = LISTED.sub("D", SUM_HEADER.sub("g(", letters))
    for _ in range(MOST_PASSES):
        letters, count = INNER.subn("P", letters)
        if not count:
            break
    return WHOLE_TERM.fullmatch(letters) is not None


def statement_of(letters: str) -> Statement:
    """What the letters of a statement, with its `;`, are."""
    target = TARGET.match(letters)
    if target is not None:
        is_formula = is_term(letters[target.end() : -1])
        return Statement(FORMULA, target.end(1), target.end(), len(letters) - 1) if is_formula else Statement(OTHER)
    if letters[0] == "s":
        error = ERROR.search(letters)
        is_check = error is not None and is_term(letters[1 : error.start()])
        return Statement(CHECK, 0, 1, error.start()) if error is not None and is_check else Statement(OTHER)
    if letters[0] in "RV":
        return Statement(HEAD if RULE_HEAD.fullmatch(letters) else OTHER)
    return Statement(DECLARATION if DECLARED.fullmatch(letters) else OTHER)
