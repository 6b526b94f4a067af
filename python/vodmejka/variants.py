"""A source with other values of constants, other rule files, another driver or other requests."""
from __future__ import annotations

import os
from decimal import Decimal
from typing import Iterable, Mapping, Union

from . import constants, source
from .endings import Wrong
from .errors import Refused
from .program import spelled
from .sources import Sources

Number = Union[int, str, Decimal]
Text = Union[str, bytes]


def varied(
    sources: Sources, values: Mapping[str, Number] | None, replace: Mapping[str, Text] | None, driver: Text | None, outputs: Iterable[str] | None
) -> Sources:
    """The source with these changes; what is None stays as it is."""
    files = dict(with_files(sources.rules, replace or {}))
    if values:
        files = with_values(files, values, sources.listing.replace(b"\r\n", b"\n").split(b"\n")[0].decode("latin-1"))
    requests = sources.requests if outputs is None else "".join(f"{name}\n" for name in outputs).encode("latin-1")
    return Sources(sources.listing, list(files.items()), sources.driver if driver is None else bytes_of(driver, sources.driver or b""), requests)


def bytes_of(text: Text, before: bytes) -> bytes:
    """The bytes of a text that replaces another one, in whose encoding it is: UTF-8, or Latin-1 where that isn't UTF-8."""
    if isinstance(text, bytes):
        return text
    try:
        before.decode("utf-8")
    except UnicodeDecodeError:
        return text.encode("latin-1")
    return text.encode("utf-8")


def with_files(files: list[tuple[str, bytes]], replace: Mapping[str, Text]) -> list[tuple[str, bytes]]:
    """Rule files, of which some have other texts. Each is named as the list names it, or by the last part of that where no other file has the same."""
    texts = {}
    for wanted, text in replace.items():
        found = [name for name, _ in files if name == wanted] or [name for name, _ in files if os.path.basename(name) == wanted]
        if len(found) != 1:
            raise Refused(f"replace: {len(found)} rule files have the name {wanted}; there are {', '.join(name for name, _ in files)}")
        texts[found[0]] = text
    if len({name for name, _ in files}) < len(files):
        raise Refused("the list names a file twice, so none of them can be replaced")
    return [(name, bytes_of(texts[name], before) if name in texts else before) for name, before in files]


def with_values(files: dict[str, bytes], values: Mapping[str, Number], application: str) -> dict[str, bytes]:
    """Rule files in which constants, or cells whose only formula is a number, have other values."""
    try:
        read = [source.RuleFile(name, content) for name, content in files.items()]
        places = constants.places_of(read)
        pieces: dict[str, list[tuple[int, int, str]]] = {file.name: [] for file in read}
        for name, value in values.items():
            text = spelled(name, value)
            if not constants.spelled(text):
                raise Refused(f"{name}: {text} is no number of rules")
            file, (begin, end, _) = constants.change_of(places, name, text, application)
            pieces[file.name].append((begin, end, text))
    except (Wrong, source.Refused) as fault:
        raise Refused(str(fault)) from None
    return {name: constants.changed(content, pieces[name]) for name, content in files.items()}
