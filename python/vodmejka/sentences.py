"""A sentence for each error of docs/REFUSALS.md, which says what to mend."""
from collections.abc import Iterator, Mapping

from .texts import TEXTS, said


class Sentences(Mapping[str, str]):
    """The sentences of a kind of faults by what the program calls these, in the language that was chosen."""

    def __init__(self, kind: str):
        self.prefix = kind + "."
        self.names = [key[len(self.prefix) :] for key in TEXTS if key.startswith(self.prefix)]

    def __getitem__(self, name: str) -> str:
        if name not in self.names:
            raise KeyError(name)
        return said(self.prefix + name)

    def __iter__(self) -> Iterator[str]:
        return iter(self.names)

    def __len__(self) -> int:
        return len(self.names)


# What to mend, for the faults that have a place in a rule file. Names after a fault are left out.
RULES = Sentences("rule")
DRIVER = Sentences("driver")
HOUSEHOLD = Sentences("household")
FORMS = [
    (r"usage: .*", "usage"),
    (r"unreadable input", "input"),
    (r"unreadable .*", "unreadable"),
    (r"refused file too long .*", "file_long"),
    (r"refused too many files", "files_many"),
    (r"refused cycle .*", "cycle"),
    (r"refused driver: no main", "no_main"),
    (r"refused driver recursion .*", "recursion"),
    (r"refused driver too large [0-9]+", "large"),
    (r"refused too many requests", "requests"),
    (r"refused household: bad header", "header"),
    (r"refused household: too many rows", "rows"),
    (r"refused unknown code", "code_unknown"),
    (r"refused unknown variable", "variable_unknown"),
    (r"refused bad amount", "amount"),
    (r"refused not of its type", "type"),
    (r"refused bad command", "command"),
    (r"refused report line [0-9]+: bad line", "report_line"),
    (r"refused report line [0-9]+: not sound", "report_sound"),
    (r"refused line too long", "line_long"),
    (r"refused input too long", "input_long"),
    (r"refused code: bad header", "code_header"),
    (r"failed [^ ]+ [^ ]+ (anomalie|discordance|informative)", "failed"),
    (r"over verification [^ ]+ [^ ]+", "over"),
]


class Others:
    """The forms of the lines that name no place, each with its sentence in the language that was chosen."""

    def __iter__(self) -> Iterator[tuple[str, str]]:
        return ((form, said("other." + key)) for form, key in FORMS)


OTHERS = Others()


def code() -> str:
    """What to mend of a code file."""
    return said("mend.code")


def marked() -> str:
    """What to mend of a file with a byte order mark."""
    return said("mend.marked")
