#!/usr/bin/env python3
"""Compares man pages with what commands say of themselves: tests/release_pages.py FOLDER prints what a page lacks.

Each command of the package has a page, whose words are those of `--help`, in any order, but for those that a package calls otherwise. The pages of m_tax have
the commands of the program's usage line, with the same words. The status is 0 where nothing is printed.
"""
import gzip
import os
import re
import subprocess
import sys

TOP = os.path.dirname(os.path.dirname(os.path.abspath(__file__)))
ELSEWHERE = re.compile(r"\./m_tax|of this\s+repository|docs/\S+|tools/\S+")


def words_of(text: str) -> set[str]:
    """The words of a text, without signs round them."""
    return {word.strip("`'\"|,.;:()[]-").lower() for word in ELSEWHERE.sub(" ", text).split()} - {""}


def source_of(folder: str, page: str) -> str:
    """The source of a page, where it is."""
    path = os.path.join(folder, page)
    if not os.path.exists(path):
        return ""
    with gzip.open(path, "rt", encoding="utf-8") as file:
        return file.read()


def printed(source: str) -> str:
    """What a reader sees of a page, in one line for each paragraph."""
    words = ["groff", "-man", "-Tutf8", "-K", "utf8", "-P-cbou", "-rLL=5000n"]
    return subprocess.run(words, input=source, capture_output=True, text=True, check=True).stdout


def lacks(folder: str) -> list[str]:
    """What the pages lack."""
    made = []
    environment = {**os.environ, "LC_ALL": "C.UTF-8"}
    usage = re.search(r"usage: m_tax (.*)", open(os.path.join(TOP, "README.md"), encoding="utf-8").read())
    forms = [f"m_tax {name} {rest}" for form in usage[1].split(", ") for names, _, rest in [form.partition(" ")] for name in names.split("|")]
    for page in ("man1/m_tax.1.gz", "fr/man1/m_tax.1.gz"):
        lines = {line.strip() for line in printed(source_of(folder, page)).splitlines()}
        made += [f"{page}: {form}" for form in forms if form not in lines]
    for tool in sorted(os.listdir(os.path.join(TOP, "python/vodmejka/commands"))):
        name = tool[:-3].replace("_", "-")
        if not tool.endswith(".py") or name.startswith("-"):
            continue
        start = f"import sys; sys.path.insert(0, {os.path.join(TOP, 'python')!r}); from vodmejka.commands import run; run({name!r})"
        told = subprocess.run([sys.executable, "-B", "-c", start, "--help"], capture_output=True, text=True, env=environment, check=True).stdout
        if told.startswith("usage: "):
            told = told.partition("\n\n")[2].partition("\npositional arguments:")[0]
        missing = words_of(told) - words_of(printed(source_of(folder, f"man1/vodmejka-{name}.1.gz")))
        made += [f"vodmejka-{name}.1: {' '.join(sorted(missing))}"] if missing else []
    return made


if __name__ == "__main__":
    found = lacks(sys.argv[1])
    print("\n".join(found), end="\n" if found else "")
    sys.exit(1 if found else 0)
