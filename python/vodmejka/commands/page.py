"""Writes the law of one rule base as a page: one file that computes, shows why, draws and compares, without a network.

    page LIST DRIVER [REQUESTS] [--reform LIST2 DRIVER2] [--title T] [--lang fr|en] [--groups FILE] > page.html

LIST, DRIVER and REQUESTS are those of `m_tax run`; without REQUESTS the page has all variables with `restituee`. --reform adds a second rule base,
to be compared with the first on one household; it has the same inputs, and perhaps more. --lang is the language of the page, fr by default.
--groups names a file that orders the form and gives units:

    group Situation du foyer          the title of a group of boxes, whose codes follow
    0AM 0CF
    unit €                            a unit, of the variables or boxes whose names follow; % shows 0.3 as 30 %
    IINET TOTAL 1AJ
    main IINET                        the value that is shown above the others

Boxes without a group are in a last one. Without a file the groups are those of the first attribute of each input. Lines after a # are comments.

The page opens in any browser of the last years, from disk. It has the code file of the rules, the formulas with their places and comments, and the digests
of all files. docs/PAGE.md describes what it shows, and how its calculation is tested.

The status is 0, 1 where the program rejects the rules, 2 for wrong words, 3 where a file can't be read, and 4 where the output is closed or full. The program
is ./m_tax of this repository, or the one that M_TAX names.
"""
import os
import re
import sys

from .. import laws, pages, source
from ..endings import Wrong, ended
from ..places import shown_name

OPTIONS = {"--reform": 2, "--title": 1, "--lang": 1, "--groups": 1}
WORDS = "words: page LIST DRIVER [REQUESTS] [--reform LIST2 DRIVER2] [--title T] [--lang fr|en] [--groups FILE]; see --help"
OTHER = {"fr": "Autres cases", "en": "Other boxes"}


def options(words):
    """The words without options, and the options with their words."""
    said, found, at = [], {}, 0
    while at < len(words):
        count = OPTIONS.get(words[at])
        if count is None and words[at].startswith("--"):
            raise Wrong(WORDS, 2)
        if count is None:
            said.append(words[at])
            at += 1
            continue
        values = words[at + 1 : at + 1 + count]
        if len(values) < count or words[at] in found:
            raise Wrong(WORDS, 2)
        found[words[at]] = values
        at += 1 + count
    if not 2 <= len(said) <= 3 or found.get("--lang", ["fr"])[0] not in OTHER:
        raise Wrong(WORDS, 2)
    return [*said, "-"][:3], found


class Layout:
    """Groups, units and the main value, as a file has them."""

    def __init__(self, law, language):
        self.law, self.language = law, language
        self.variables = {variable.code: variable for variable in law.base.variables if variable.code is not None}
        self.groups, self.units, self.main = [], {}, None

    def read(self, name):
        section, sign = None, ""
        for number, line in enumerate(source.lines_of(source.fetch(name)), 1):
            words = line.split(b"#")[0].decode("utf-8", "replace").split()
            wrong = lambda what, number=number: Wrong(f"{name} line {number}: {what}")
            if not words:
                continue
            if words[0] in ("group", "unit", "main") and len(words) > 1:
                section, sign = words[0], " ".join(words[1:])
                if section == "group":
                    self.groups.append((sign, []))
                if section == "main":
                    self.main = self.asked(sign, wrong)
            elif section == "group":
                for code in words:
                    self.groups[-1][1].append(self.code(code, wrong))
            elif section == "unit":
                self.units.update({self.known(word, wrong): sign for word in words})
            else:
                raise wrong("no group or unit stands above it")

    def asked(self, name, wrong):
        if name not in self.law.asked:
            raise wrong(f"no value that is asked for has the name {name}")
        return name

    def code(self, code, wrong):
        if code not in self.variables:
            raise wrong(f"no input has the code {code}")
        if any(code in codes for _, codes in self.groups):
            raise wrong(f"the code {code} stands twice")
        return code

    def known(self, word, wrong):
        if word not in self.variables and not self.law.exists(word) and word not in self.law.rules.variables:
            raise wrong(f"no variable has the name {word}, and no input the code")
        return word

    def by_attribute(self):
        """The groups of the inputs by their first attribute without a number."""
        found = {}
        for code, variable in self.variables.items():
            found.setdefault(variable.words[0] if variable.words else "", []).append(code)
        rest = found.pop("", [])
        self.groups = [(title[:1].upper() + title[1:], codes) for title, codes in found.items()] + ([("", rest)] if rest else [])

    def data(self):
        """The groups, with what is left in a last one."""
        grouped = {code for _, codes in self.groups for code in codes}
        rest = [code for code in self.variables if code not in grouped]
        groups = [*self.groups, *([("", rest)] if rest else [])]
        named = [{"title": title or OTHER[self.language], "codes": codes} for title, codes in groups if codes]
        return {"groups": named, "units": self.units, "main": self.main or (self.law.asked or [""])[0]}


def same_inputs(first, second):
    """Looks whether a reform takes each household of the rules before it."""
    kinds = lambda law: dict(re.findall(r"^input (\S+)(.*)$", law.code.split("\ncode\n", 1)[0], re.MULTILINE))
    before, after = kinds(first), kinds(second)
    for code, kind in before.items():
        if after.get(code) != kind:
            raise Wrong(f"the reform has no input {code} of the same type")


def written(words, found):
    """The text of the page."""
    language = found.get("--lang", ["fr"])[0]
    law = laws.Law(words)
    if not law.asked:
        raise Wrong("nothing is asked for: name requests, or give a variable the attribute restituee")
    all_laws = [law]
    if "--reform" in found:
        all_laws.append(laws.Law([*found["--reform"], words[2]], law.asked))
        same_inputs(*all_laws)
    layout = Layout(law, language)
    if "--groups" in found:
        layout.read(found["--groups"][0])
    else:
        layout.by_attribute()
    name = os.path.basename(os.path.dirname(os.path.abspath(words[0]))) or "rules"
    title = shown_name(found["--title"][0]) if "--title" in found else pages.sentence("title", language).replace("{name}", shown_name(name))
    shown = {"name": re.sub(r"[^A-Za-z0-9_-]", "-", name), "words": [shown_name(word) for word in words]}
    return pages.page({**layout.data(), **shown, "laws": [each.data() for each in all_laws]}, title, language)


def work(words):
    """Does what the words say."""
    sys.stdout.write(written(*options(words)))
    return 0


def main(words):
    """The command: see above."""
    return ended(words, __doc__, work)
