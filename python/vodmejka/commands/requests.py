"""Lists the variables of a rule base as a request file, so that values in between can be seen.

    requests LIST [PATTERN..] [--inputs] [--computed] [--constants]
    requests --codes LIST [PATTERN..]

In the order of the declarations, a table by all its cells. Each PATTERN is a name in which * stands for any letters and ? for one; the variables that
one of them matches are listed, all without a pattern. A pattern with [ is compared with cells: 'TMI[*]', 'T[1]'. Put it in quotes.

    --inputs, --computed, --constants     only these kinds; several may be given
    --codes                               the codes of the inputs in place of names, as csv: the code, the variable, its type and what its declaration says of
                                          it. A PATTERN may match the code or the variable

The status is 0, 1 where nothing matches or more than 100,000 values would be asked for, and 3 where a file can't be read or has a fault.
"""
import csv
import fnmatch
import re
import sys

from .. import source
from ..endings import Wrong, ended
from ..limits import REQUESTS
from ..places import decode

KINDS = {"--inputs": "saisie", "--computed": "calculee", "--constants": "const"}


def form(pattern):
    """The form of a pattern, in which a bracket is no sign. It tries each name but once for each `*`."""
    return re.compile(fnmatch.translate(pattern.replace("[", "[[]")))


def names_of(variable, patterns):
    """The requests of a variable that some pattern matches; of no patterns, all."""
    cells = [variable.name] if variable.size is None else [f"{variable.name}[{k}]" for k in range(variable.size)]
    if not patterns or any(pattern.match(variable.name) for pattern in patterns):
        return cells
    return [cell for cell in cells if any(pattern.match(cell) for pattern in patterns)]


def print_codes(base, patterns):
    """The codes with what is known of them; whether there is one."""
    rows = [variable for variable in base.variables if variable.code is not None
            and (not patterns or any(pattern.match(name) for pattern in patterns for name in (variable.code, variable.name)))]
    writer = csv.writer(sys.stdout, lineterminator="\n")
    if rows:
        writer.writerow(["code", "name", "type", "description"])
    for variable in rows:
        writer.writerow([variable.code, variable.name, variable.type or "", decode(variable.text.encode("latin-1"))])
    return bool(rows)


def work(words):
    """Does what the words say."""
    is_codes, words = "--codes" in words, [word for word in words if word != "--codes"]
    kinds = {KINDS[word] for word in words if word in KINDS}
    words = [word for word in words if word not in KINDS]
    if not words or any(word.startswith("--") for word in words) or is_codes and kinds:
        raise Wrong("words: requests LIST [PATTERN..]; see --help", 2)
    base, patterns = source.RuleBase(words[0]), [form(word) for word in words[1:]]
    if is_codes:
        if not print_codes(base, patterns):
            raise Wrong("no code matches")
        return 0
    variables = [variable for variable in base.variables if not kinds or variable.kind in kinds]
    names = [name for variable in variables for name in names_of(variable, patterns)]
    if not names or len(names) > REQUESTS:
        raise Wrong(f"{len(names)} values match, and 1 to {REQUESTS:,} can be asked for")
    print("\n".join(names))
    return 0


def main(words):
    """The command: see above."""
    return ended(words, __doc__, work)
