"""Loops of rule files, for tools: the values of their letters, words with letters replaced, and what a term reads. Terms are those of grammar.py."""
from __future__ import annotations

import itertools
import math
from typing import Any, Iterable, Iterator, List, Mapping, Optional, Sequence, Tuple

from .limits import LOOP_INSTANCES

Pair = tuple[str, str]
Header = list[tuple[str, list[Pair]]]
"""The letters of a loop, each with its values as pairs of points."""
Term = tuple[Any, ...]
"""A term, of grammar.py."""
Read = Tuple[str, Optional[Term], int, List[Header]]
"""What a term reads: the word, the index or nothing, the byte, and the loops round it."""
MOST_DIGITS = 12  # the most digits of a word that is a number after letters are replaced


def whole(digits: str) -> int:
    """The number that digits spell. Of one with more than 18 digits that count it is the first 18, which are past every table, too."""
    return int(digits.lstrip("0")[:18] or 0)


def values_of(pairs: Iterable[Pair]) -> list[str]:
    """The values of an index of a loop, as they are spelled."""
    found: list[str] = []
    for low, high in pairs:
        if low.isdigit() and high.isdigit():
            found += [f"{k:0{len(low)}}" for k in range(int(low), min(int(high), int(low) + LOOP_INSTANCES) + 1)]
        elif low == high:
            found.append(low)
        else:
            found += [chr(k) for k in range(ord(low[0]), ord(high[0]) + 1)]
    return found


def length_of(low: str, high: str) -> int:
    """The number of values from a point to a point; 0 of a bad range."""
    if low == high:
        return 1
    if low.isdigit() and high.isdigit():
        return max(0, int(high) - int(low) + 1)
    return max(0, ord(high) - ord(low) + 1) if len(low) == len(high) == 1 and low.isalpha() and high.isalpha() else 0


def header_faults(header: Header) -> list[tuple[int, str]]:
    """The faults of a header as the program reports them, each with the number of the letter at which it is."""
    letters = [letter for letter, _ in header]
    lengths = [[length_of(low, high) for low, high in values] for _, values in header]
    bad = [k for k, letter in enumerate(letters) if letters.count(letter) > 1 or 0 in lengths[k]]
    if bad:
        return [(k, "bad range") for k in bad]
    return [(0, "loop too large")] if math.prod(sum(several) for several in lengths) > LOOP_INSTANCES else []


def instances(headers: Sequence[Header], words: Sequence[str]) -> list[dict[str, str]]:
    """The letters that these words have, at each of their values: of many instances the first."""
    if not headers:
        return [{}]
    bound = {letter: values for header in headers for letter, values in header}
    letters = [letter for letter in bound if any(letter in word for word in words)]
    products = itertools.product(*(values_of(bound[letter]) for letter in letters))
    return [dict(zip(letters, values)) for values in itertools.islice(products, LOOP_INSTANCES)]


def is_repeated(headers: Iterable[Header], word: str) -> bool:
    """Whether a word is the same in several instances, since a letter of the loops isn't in it, or is bound again further in."""
    bound = [(letter, values) for header in headers for letter, values in header]
    seen = dict(bound)
    return any(
        sum(length_of(*pair) for pair in values) > 1 for letter, values in bound if letter not in word or seen[letter] is not values
    )


def is_number(word: str) -> bool:
    """Whether a word of a formula is a number after its letters are replaced."""
    return word.isdigit() and len(word) <= MOST_DIGITS


def replaced(word: str, letters: Mapping[str, str]) -> str:
    if not letters:
        return word
    return "".join(letters.get(letter, letter) for letter in word)


def reads_of(term: Term, headers: list[Header]) -> Iterator[Read]:
    """The names and tables that a term reads: the word, the index or nothing, the byte, and the loops round it."""
    stack = [(term, headers)]
    while stack:
        (kind, *parts), round_it = stack.pop()
        if kind == "name":
            yield parts[0], None, parts[1], round_it
        elif kind == "read":
            yield parts[0], parts[1], parts[2], round_it
            stack.append((parts[1], round_it))
        elif kind == "op":
            stack += [(part, round_it) for part in reversed(parts[1])]
        elif kind == "sum":
            stack.append((parts[1], [*round_it, parts[0]]))
