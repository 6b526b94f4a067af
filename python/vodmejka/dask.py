"""Frames of Dask: each partition is computed as a frame of pandas, on its worker, by rules that are pickled with their sources."""
from __future__ import annotations

from typing import TYPE_CHECKING, Any

from .errors import Broken
from .program import digest_of

if TYPE_CHECKING:
    import pandas

    from .rules import Rules


def mapped(rules: Rules, frame: Any, words: dict[str, Any], meta: Any) -> Any:
    """A frame of Dask with the answers to the households of another one. The rules are a task of their own, which each worker gets once."""
    if not hasattr(frame, "map_partitions"):
        raise TypeError(f"map takes a frame of Dask, and not {type(frame).__name__}: batch takes one of pandas")
    from dask.delayed import delayed

    empty = rules.batch(frame._meta.iloc[:0], **words)
    made = digests(empty)
    shared = delayed(rules, name=f"rules-{digest_of(*(part.encode() for part in made))}", traverse=False)
    return frame.map_partitions(answers, shared, words, made, meta=empty if meta is None else meta)


def answers(part: pandas.DataFrame, rules: Rules, words: dict[str, Any], made: tuple[str, str]) -> pandas.DataFrame:
    """The answers to the households of a partition. A worker must have the same program."""
    found: pandas.DataFrame = rules.batch(part, **words)
    if digests(found) != made:
        raise Broken("the program of this worker is another one than that with which the frame was made")
    return found


def digests(frame: pandas.DataFrame) -> tuple[str, str]:
    """The digests of the source and of the program of an answer."""
    return frame.attrs["source"], frame.attrs["program"]
