"""What the files of a row name, as far as patterns find it."""

import functools
import re
from typing import Dict, List, NamedTuple

DECLARED = re.compile(rb"([0-9A-Z_]+)\s*:\s*(saisie|calculee|const|tableau|anomalie|discordance|informative)")


class Row(NamedTuple):
    """What a row consists of: the words, the files by their names, and what is typed."""

    words: List[bytes]
    files: Dict[bytes, bytes]
    typed: bytes


def listed(row):
    """The rule files that the list of a row names, as far as they are there."""
    text = row.files.get(row.words[1], b"") if len(row.words) > 1 else b""
    return [name for name in text.split(b"\n")[1:] if name in row.files]


class Names:
    """The names of a source: variables by their sorts, errors, codes, attributes with numbers, functions. No list of these is changed."""

    def __init__(self, row):
        names = names_of_rules(b"\n".join(row.files[name] for name in listed(row)))
        self.inputs, self.computed, self.constants, self.tables, self.errors, self.codes, self.attributes, self.plain, self.all = names
        self.functions = functions_of(row.files.get(row.words[2], b"") if len(row.words) > 2 else b"")


@functools.lru_cache(4_096)
def names_of_rules(rules):
    """The names in rule files. Changes begin with the same texts over and over, so they are kept."""
    found = {word: [] for word in (b"saisie", b"calculee", b"const", b"tableau", b"anomalie")}
    for name, word in DECLARED.findall(rules):
        found[b"anomalie" if word in (b"discordance", b"informative") else word].append(name)
    inputs, computed, constants, tables, errors = found.values()
    codes = sorted(set(re.findall(rb"alias\s+([0-9A-Za-z_]+)", rules)))
    plain = inputs + constants + computed
    return inputs, computed, constants, tables, errors, codes, re.findall(rb"([a-z]+)\s*=\s*[0-9]", rules), plain, plain + tables


@functools.lru_cache(4_096)
def functions_of(driver):
    """The functions of a driver."""
    return re.findall(rb"(?m)^([A-Za-z_]+)\(\)", driver)
