"""Man pages: of the program as tools/releasing/man has them, and of each command of the package from its `--help`."""
from __future__ import annotations

import importlib
import os
import re
import textwrap
import time
from dataclasses import dataclass, field
from typing import Iterator

from .proved import TOP, VERSION

SOURCES = os.path.join(TOP, "tools", "releasing", "man")
ELSEWHERE = (
    (r"\./m_tax( of this\s+repository)?", "m_tax of the path"),
    (r"\bdocs/([A-Z]+\.md)", r"/usr/share/doc/vodmejka/docs/\1"),
    (r"\btools/([a-z]+(-[a-z]+)?)\b", r"vodmejka \1"),
)


@dataclass
class Entry:
    """An indented term of a help text, and its description."""
    term: str
    said: list[str] = field(default_factory=list)


def pages(epoch: int, programs: list[str]) -> dict[str, str]:
    """All man pages, by their paths below `man`. Those of a program only where it is released."""
    from vodmejka import commands
    day = time.strftime("%Y-%m-%d", time.gmtime(epoch))
    made = {f"man1/vodmejka-{name}.1": command_page(name, help_of(name), day) for name in commands.names()}
    made["man1/vodmejka.1"] = overview(commands.names(), day)
    for name in programs:
        for source, path in ((f"{name}.1", f"man1/{name}.1"), (f"{name}.fr.1", f"fr/man1/{name}.1")):
            if os.path.exists(written := os.path.join(SOURCES, source)):
                with open(written, encoding="utf-8") as file:
                    made[path] = file.read().replace("@DAY@", day).replace("@VERSION@", VERSION)
    return made


def help_of(name: str) -> str:
    """A command's help text, as it is in a package."""
    text = importlib.import_module(f"vodmejka.commands.{name.replace('-', '_')}").__doc__ or ""
    for pattern, instead in ELSEWHERE:
        text = re.sub(pattern, instead, text)
    return text


def overview(names: list[str], day: str) -> str:
    """The page of `vodmejka` itself."""
    lines = [head("VODMEJKA", day), ".SH NAME", "vodmejka \\- tools for rules of the French income tax in M",
             ".SH SYNOPSIS", ".B vodmejka", ".I COMMAND WORD ..", ".SH DESCRIPTION",
             "Each command tells its words by", ".BR \\-\\-help ,", "and has a page of its own.", ".SH COMMANDS"]
    for name in names:
        lines += [".TP", f".BR {escaped('vodmejka-' + name)} (1)", line_of(help_of(name).splitlines()[0])]
    lines += [*environment(), ".SH SEE ALSO", ".BR m_tax (1)", ""]
    return "\n".join(lines)


def command_page(name: str, text: str, day: str) -> str:
    """The page of a command: its first line, its words, and the rest as paragraphs and terms."""
    first, _, rest = text.partition("\n")
    blocks = [piece for part in re.split(r"\n\s*\n", rest.strip("\n")) for piece in split_at_terms(part)]
    usage: list[Entry] = next((block for block in blocks if isinstance(block, list)), [])
    purpose = escaped(first[:1].lower() + first[1:].rstrip("."))
    lines = [head(f"VODMEJKA-{name.upper()}", day), ".SH NAME", f"vodmejka\\-{escaped(name)} \\- {purpose}", ".SH SYNOPSIS"]
    for entry in usage:
        lines += [line_of(re.sub(rf"(^|\| ){name}\b", rf"\1vodmejka {name}", entry.term)), ".br"]
    lines += [".SH DESCRIPTION"]
    for block in blocks:
        if isinstance(block, str):
            lines += [".PP", *(line_of(line) for line in block.splitlines())]
        elif block is not usage or any(entry.said for entry in block):
            lines += [line for entry in block for line in term_lines(entry)]
    return "\n".join([*lines, *environment(), ".SH SEE ALSO", ".BR vodmejka (1),", ".BR m_tax (1)", ""])


def split_at_terms(block: str) -> Iterator[str | list[Entry]]:
    """A paragraph, where there is one, and what is indented below its lines without a blank line between."""
    kept = block.splitlines()
    at = next((number for number, line in enumerate(kept) if line.startswith("    ")), len(kept))
    if at > 0:
        yield "\n".join(kept[:at])
    if at < len(kept):
        yield entries_of("\n".join(kept[at:]))


def entries_of(block: str) -> list[Entry]:
    """Terms, each with its description two or more blanks further on, and on the lines below in the same column."""
    made: list[Entry] = []
    lines = textwrap.dedent(block).splitlines()
    column = next((found.end() for line in lines if (found := re.match(r"\S.*? {2,}(?=\S)", line))), None)
    for line in lines:
        indent = len(line) - len(line.lstrip())
        if indent and made and (indent == column or made[-1].said):
            made[-1].said.append(line.strip())
        elif indent and made:
            made[-1].term += " " + line.strip()
        else:
            term, *said = re.split(r" {2,}", line.strip(), maxsplit=1)
            made.append(Entry(term, said))
    return made


def term_lines(entry: Entry) -> list[str]:
    """A term of a list."""
    term = escaped(entry.term).replace('"', "\\(dq")
    return [".TP", f'.B "{term}"', *([line_of(said) for said in entry.said] or ["\\&"])]


def environment() -> list[str]:
    """What the commands take of the environment."""
    return [".SH ENVIRONMENT", ".TP", ".B M_TAX", "The program that computes, in place of m_tax of the path.",
            ".TP", ".B M_SURVEY", "The program that computes tables as csv, in place of m_survey beside m_tax."]


def head(title: str, day: str) -> str:
    return f".TH {escaped(title)} 1 {day} \"vodmejka {VERSION}\" \"Vodmejka\""


def line_of(text: str) -> str:
    """A line of text, which can't be taken for a request of roff."""
    made = escaped(text.strip())
    return f"\\&{made}" if made.startswith((".", "'")) else made


def escaped(text: str) -> str:
    """A text whose bytes roff prints unchanged."""
    text = text.replace("\\", "\\e").replace("-", "\\-").replace("'", "\\(aq").replace("`", "\\(ga").replace("^", "\\(ha").replace("~", "\\(ti")
    return text
