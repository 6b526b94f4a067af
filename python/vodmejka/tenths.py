"""Tenths of households by a number, of which memory has no room for all.

Parts of the households, each in the order of the number, are columns of a file without a name. Where a tenth begins is found by looking up numbers in these
columns, and then each part adds up its own share of each tenth.
"""
from __future__ import annotations

import array
import bisect
import itertools
import marshal
import mmap
import operator
import os
import tempfile
from typing import Iterator, NamedTuple, Sequence

from .groups import Group, Rows

COUNT = 10
WIDE, LONG = b"m", b"q"
Place = tuple[int, int]
"""Where a column begins and ends in the file."""


class OrderedPart(NamedTuple):
    """Households in order as columns of bytes: what orders them, the sums of the weights before each, their amounts, and why some have none."""

    keys: bytes
    passed: bytes
    befores: bytes
    afters: bytes
    reasons: bytes


class Share(NamedTuple):
    """A part in the file: its columns but the first, and where its share of each tenth begins and the last one ends."""

    passed: Place
    befores: Place
    afters: Place
    reasons: Place
    edges: list[int]


def packed(numbers: Sequence[int]) -> bytes:
    """Whole numbers in eight bytes each, or as `marshal` writes them where one is longer."""
    try:
        return LONG + array.array("q", numbers).tobytes()
    except OverflowError:
        return WIDE + marshal.dumps(list(numbers))


def unpacked(column: memoryview | bytes) -> Sequence[int]:
    """The numbers that `packed` wrote."""
    view = memoryview(column)
    if view[:1] == LONG:
        return view[1:].cast("q")
    made: list[int] = marshal.loads(view[1:])
    return made


def ordered_part(keys: Sequence[int], rows: Rows) -> OrderedPart:
    """Households in the order of their keys; equal ones keep their order."""
    order = sorted(range(len(keys)), key=keys.__getitem__)
    chosen = rows.chosen(order)
    passed = [0, *itertools.accumulate(chosen.weights)]
    return OrderedPart(packed([keys[at] for at in order]), packed(passed), packed(chosen.befores), packed(chosen.afters), marshal.dumps(dict(chosen.reasons)))


class Ordered:
    """The parts, in the order in which they were added, and their weight."""

    def __init__(self) -> None:
        self._file = tempfile.TemporaryFile(prefix="vodmejka-")
        self._end, self._parts, self.weight = 0, list[list[Place]](), 0

    def add(self, part: OrderedPart) -> None:
        """Adds a part."""
        places = []
        for column in part:
            self._file.write(column)
            places.append((self._end, self._end + len(column)))
            self._end += len(column)
        self._parts.append(places)
        self.weight += unpacked(part.passed)[-1]

    def shares(self) -> list[Share]:
        """The parts with their share of each tenth: a household is in the tenth in which its own weight begins, equal ones in their order."""
        if not self._parts:
            return []
        self._file.flush()
        view = memoryview(mmap.mmap(self.file, 0, access=mmap.ACCESS_READ))
        columns = [[unpacked(view[slice(*place)]) for place in places[:2]] for places in self._parts]
        return [Share(*places[1:5], edges=edges) for places, edges in zip(self._parts, edges_of(columns, self.weight))]  # type: ignore[misc, arg-type]

    @property
    def file(self) -> int:
        """The descriptor of the file, which forked processes have too."""
        return self._file.fileno()

    def close(self) -> None:
        self._file.close()


def groups_of(file: int, names: Sequence[str], sign: int, scale: int, share: Share) -> list[Group]:
    """The households of a part as a group for each tenth."""
    passed, befores, afters = (unpacked(read(file, place)) for place in share[:3])
    rows = Rows(list(map(operator.sub, passed[1:], passed[:-1])), befores, afters, marshal.loads(read(file, share.reasons)))
    pairs = zip(names, zip(share.edges, share.edges[1:]))
    return [Group(name, sign, scale, rows.cut(begin, end)) for name, (begin, end) in pairs]


def read(file: int, place: Place) -> bytes:
    """A column of the file."""
    begin, end = place
    return os.pread(file, end - begin, begin)


def names_of(name: str) -> list[str]:
    """The names of the tenths by a number of this name."""
    return [f"tenth {k} of {name}" for k in range(1, COUNT + 1)]


def edges_of(parts: Sequence[Sequence[Sequence[int]]], whole: int) -> Iterator[list[int]]:
    """For each part, which is its keys in order and the weights before each, where the tenths of the weight of all begin in it, and its end."""
    ends = [len(keys) for keys, _ in parts]
    inner = [begins(parts, -(-whole * tenth // COUNT)) if whole else ends for tenth in range(1, COUNT)]
    for edges in zip([0] * len(parts), *inner, ends):
        yield list(edges)


def begins(parts: Sequence[Sequence[Sequence[int]]], target: int) -> list[int]:
    """In each part the place of the first household before which the weight of all that precede it is at least the target."""
    key = key_at(parts, target)
    lefts = [bisect.bisect_left(keys, key) for keys, _ in parts]
    rights = [bisect.bisect_right(keys, key, left) for (keys, _), left in zip(parts, lefts)]
    before = sum(passed[left] for (_, passed), left in zip(parts, lefts))
    found = []
    for (_, passed), left, right in zip(parts, lefts, rights):
        found.append(left if before >= target else bisect.bisect_left(passed, passed[left] + target - before, left, right))
        before += passed[right] - passed[left]
    return found


def key_at(parts: Sequence[Sequence[Sequence[int]]], target: int) -> int:
    """The least key up to which households have at least this weight together."""
    low, high = min(keys[0] for keys, _ in parts if keys), max(keys[-1] for keys, _ in parts if keys)
    lows, highs = [0] * len(parts), [len(keys) for keys, _ in parts]
    while low < high:
        middle = (low + high) // 2
        places = [bisect.bisect_right(keys, middle, first, last) for (keys, _), first, last in zip(parts, lows, highs)]
        if sum(passed[place] for (_, passed), place in zip(parts, places)) >= target:
            high, highs = middle, places
        else:
            low, lows = middle + 1, places
    return low
