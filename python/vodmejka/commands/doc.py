"""Makes a reference of a rule base: pages with each variable, its formulas, what it reads and who reads it, verifications, the driver and the sources.

    doc LIST [DRIVER] --into FOLDER [--title TEXT] [--articles PATTERN=URL].. [--lang en|fr] [--here]

The pages need no other files and no network; `index.html` is the first, with a search. FOLDER is made, or replaced where it is an earlier reference.

    --title TEXT            the title, else the name of LIST
    --articles PATTERN=URL  what matches the regular expression in comments and descriptions leads to URL, in which \\1 is its first group:
                            --articles 'art\\. ([0-9]+)=https://example.org/code/\\1'
    --lang en|fr            the language of the pages, else that of the machine
    --here                  the names in LIST count from its folder

Where Graphviz is installed, what a variable rests on is drawn; else it is a tree. The status is 0, 1 where the program refuses the rules or FOLDER is something
else, 2 for wrong words, 3 where a file can't be read, and 4 where one can't be written. The program is ./m_tax of this repository, or the one that M_TAX names.
"""
from __future__ import annotations

import gc
import os
import shutil
import tempfile
from typing import Iterator

from .. import articles, here, laws, reference, reference_pages, source, texts
from ..endings import Wrong, ended
from ..options import read_options
from ..places import shown_name

VALUED = ("--into", "--title", "--lang")
MARK = "reference.txt"


def options(words: list[str]) -> tuple[list[str], dict[str, str], list[articles.Article]]:
    read = read_options(words, VALUED, ["--here"], ["--articles"])
    if read is None or not 1 <= len(read[0]) <= 2 or "--into" not in read[1]:
        raise Wrong(texts.said("doc.words"), 2)
    patterns = [articles.article_of(text) for text in read[1].pop("--articles", [])]
    return [*read[0], "-"][:2], {option: "".join(values) for option, values in read[1].items()}, patterns


def may_be_replaced(folder: str) -> bool:
    """Whether a folder is free, or an earlier reference."""
    if not os.path.lexists(folder):
        return True
    return os.path.isdir(folder) and not os.path.islink(folder) and (not os.listdir(folder) or os.path.isfile(os.path.join(folder, MARK)))


def write(pages: Iterator[tuple[str, str]], folder: str) -> int:
    """Writes the pages into a temporary folder, which then replaces the former one; returns their number."""
    room, count = tempfile.mkdtemp(prefix=".doc-", dir=os.path.dirname(os.path.abspath(folder))), 0
    try:
        whole = os.path.join(room, "new")
        for inner in ("v", "s"):
            os.makedirs(os.path.join(whole, inner))
        for name, text in pages:
            source.put(os.path.join(whole, name), text.encode("utf-8", "replace"))
            count += 1
        source.put(os.path.join(whole, MARK), (texts.said("doc.mark") + "\n").encode("utf-8"))
        with source.unbroken():
            if os.path.lexists(folder):
                os.rename(folder, os.path.join(room, "old"))
            os.rename(whole, folder)
    finally:
        shutil.rmtree(room, ignore_errors=True)
    return count


def make(words: list[str]) -> None:
    said, found, patterns = options(words)
    if not may_be_replaced(found["--into"]):
        raise Wrong(texts.said("doc.exists", folder=found["--into"]))
    with tempfile.TemporaryDirectory(prefix="doc-") as room:
        list_name = here.list_here(said[0], room) if "--here" in found else said[0]
        files = laws.Files([list_name, said[1], "-"], tempfile.mkdtemp(dir=room), None)
        files.compiled(files.list, files.words[1], "-")
        driver = None if said[1] == "-" else said[1]
        gc.disable()  # (nothing that is made here is dropped before the end, and looking for it again and again takes a third of the time)
        made = reference.Reference(files.list, files.driver, files.names)
        pages = reference_pages.Pages(made, found.get("--title") or shown_name(said[0]), driver, patterns)
        count = write(pages.all(), found["--into"])
    print(texts.said("doc.made", count=count, folder=found["--into"]))


def work(words: list[str]) -> int:
    """Does what the words say."""
    try:
        make(texts.language_of(words))
    except articles.BadPattern as bad:
        raise Wrong(texts.said("doc.pattern", text=bad), 2) from bad
    return 0


def main(words: list[str]) -> int:
    """The command: see above."""
    return ended(words, __doc__, work)
