"""Lays out every rule file and driver of the worked rows and the examples: tokens and comments stay, and a second time changes nothing. layouts.py ROOT"""
import glob
import os
import re
import sys

ROOT = sys.argv[1]
sys.path[:0] = [ROOT + "/python", ROOT + "/tests/second"]
sys.setrecursionlimit(50_000)

from reading.driver_grammar import functions_of  # noqa: E402
from reading.driver_lines import driver_lines  # noqa: E402
from reading.faults import Refused  # noqa: E402
from reading.items import items_of  # noqa: E402
from reading.tokens import tokens_of  # noqa: E402
from vodmejka import source  # noqa: E402
from vodmejka.lsp.layout import laid_out  # noqa: E402

LONGEST = 300_000


def contents():
    """The rule files, drivers and others that may be either, each once."""
    names = glob.glob(ROOT + "/crates/rows/data/**/*", recursive=True) + glob.glob(ROOT + "/examples/*/*")
    files = [name for name in sorted(names) if os.path.isfile(name) and os.path.getsize(name) < LONGEST]
    return list(dict.fromkeys(open(name, "rb").read() for name in files))


def without_places(value):
    """What the reference implementation reads, without the places of tokens."""
    return re.sub(r"place=[A-Za-z]*\([^()]*\)|place=[0-9]+|line=[0-9]+", "", repr(value))


def rules_of(content):
    """The tokens of a rule file as the reference implementation reads them, where it has items."""
    tokens = tokens_of(0, b"a.m", content)
    items_of(tokens)
    return [(token.kind, token.text) for token in tokens]


def functions(content):
    return without_places(functions_of(driver_lines(content)))


def looked_at(content, is_driver, read):
    """Whether a content is a rule file or a driver; then it is laid out, and read again by the reference implementation."""
    try:
        wanted = read(content)
    except Refused:
        try:
            laid_out(content, is_driver)
        except source.Refused:
            return False
        print("laid out, and is none", content[:80])
        return False
    made = laid_out(content, is_driver)
    if read(made) != wanted:
        print("another meaning", content)
    if laid_out(made, is_driver) != made:
        print("not the same a second time", content)
    if comments(made, is_driver) != comments(content, is_driver):
        print("other comments", content)
    return True


def comments(content, is_driver):
    """The comments of a file in their order, without the blanks round them."""
    found = re.findall(rb"#[^\n]*" if is_driver else rb'"[^"]*"|#[^\n]*', content)
    return [one[1:].strip() for one in found if one.startswith(b"#")]


def main():
    rules = drivers = 0
    for content in contents():
        rules += looked_at(content, False, rules_of)
        drivers += b"():" in content and looked_at(content, True, functions)
    print("many" if rules > 200 else "few", "rule files,", "many" if drivers > 50 else "few", "drivers")


main()
