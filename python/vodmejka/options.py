"""The words of a command, with options among them."""
from __future__ import annotations

from typing import Collection


def read_options(
    words: list[str], valued: Collection[str], flags: Collection[str] = (), many: Collection[str] = ()
) -> tuple[list[str], dict[str, list[str]]] | None:
    """The words that are no options, and the options with their values in order: one for each of `valued`, any number for those of `many`, none for `flags`.

    None if an option is none of these, has no value after it, or comes twice though it has one value.
    """
    said, found, at = [], dict[str, list[str]](), 0
    while at < len(words):
        word = words[at]
        if word in many or word in valued and word not in found:
            at += 1
            if at == len(words):
                return None
            found.setdefault(word, []).append(words[at])
        elif word in flags:
            found[word] = []
        elif word.startswith("--"):
            return None
        else:
            said.append(word)
        at += 1
    return said, found
