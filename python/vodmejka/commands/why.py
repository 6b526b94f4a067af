"""Shows why a variable has its value, as a tree: each value with those that it was computed from, down to what was declared.

    why LIST HOUSEHOLD NAME [--depth N] [--only-nonzero] [--against OTHER] [--html FILE [--open]] [--report]
    why LIST HOUSEHOLD NAME --driver DRIVER [--depth N] [--only-nonzero]

both with [--lang en|fr].

NAME is a variable, or a cell of a table as T[3]. The values are those of one call of the rules, without a driver, and `check` verifies
the report of them before anything is shown. For each value it shows its description, the formula as in the rule file, and
its file, line and rule. A value that was shown above is named again, without its own values. --depth shows so many levels, --only-nonzero leaves
out what is undefined or 0. --against shows what differs for the household OTHER: the values that are others there, with both.
--report prints the lines of the report alone, for `check`. --html writes a page of its own, without scripts,
that folds and unfolds in any browser; --open unfolds all of it, and printed it is whole.

With --driver the value is the one after a run by the driver: the tool shows the command that set it, and from what, in functions, partitions and
the branches that were taken, down to the tree of each call of the rules.

In a formula the letters of loops are filled in, and the cells of tables and the branches that were taken are named. If a verification stops the call, it
is shown first, with its condition and the values that this reads, and the status is 1.

The status is 0, 1 if the program rejects the input or the report isn't sound, 2 for wrong arguments, 3 if a file can't be read, and 4 if FILE can't be written.
The program is ./m_tax of this repository, or the one that M_TAX names.
"""
import html
import os
import re
import sys
import tempfile

sys.dont_write_bytecode = True
from .. import reasons, runs, source
from ..copies import Copies, Stopped
from ..driver_trace import Driver, Trace, cells_of, last
from ..endings import Wrong, ended
from ..program import whole_file
from ..texts import FRENCH, Language, language_of, said
from ..why_trees import Tree

STYLE = """body{font:15px/1.5 sans-serif;max-width:62em;margin:2em auto;padding:0 1em;color:#222}details,.leaf{margin:.15em 0 .15em 1.2em}
summary{cursor:pointer}.leaf{padding-left:1em}b{font-family:monospace}.said{color:#555}code{background:#f2f2f2;padding:0 .3em}\
.place{color:#777;font-size:90%}
@media print{details::details-content{content-visibility:visible;block-size:auto}details:not([open])>*{display:block}}"""


def options(words):
    """The three arguments, and the options."""
    arguments, found = [], {"--depth": None, "--html": None, "--against": None, "--driver": None, "--only-nonzero": False, "--report": False, "--open": False}
    while words:
        word = words.pop(0)
        if word in found and isinstance(found[word], bool):
            found[word] = True
        elif word in found and words:
            found[word] = words.pop(0)
        elif word.startswith("--"):
            raise Wrong(said("why.words"), 2)
        else:
            arguments.append(word)
    if len(arguments) != 3 or re.search(r"\s", arguments[2]):
        raise Wrong(said("why.words"), 2)
    if found["--depth"] is not None and not re.fullmatch("[1-9][0-9]{0,5}", found["--depth"]):
        raise Wrong(said("why.depth", text=found["--depth"]), 2)
    if found["--driver"] is not None and (found["--html"] or found["--against"] or found["--report"]):
        raise Wrong(said("why.tree_alone"), 2)
    return arguments, found


def cells_needed(rules, root):
    """The cells that a value needs, those without a formula first, and each other one after those that it reads. A cycle is cut where it began."""
    order, state = [], {}
    reads = lambda cell: iter(rules.formulas[cell].reads(rules.sizes) if cell in rules.formulas else ())
    left = [(root, reads(root))]
    state[root] = True
    while left:
        cell, rest = left[-1]
        below = next((other for other in rest if other not in state), None)
        if below is None:
            left.pop()
            order.append(cell)
        else:
            state[below] = True
            left.append((below, reads(below)))
    return [cell for cell in order if cell not in rules.formulas] + [cell for cell in order if cell in rules.formulas]


def report(rules, household, name):
    """The lines of the report of a cell: what the program computes of the cells that it needs, which `check` finds sound. If a verification stops the call
    they are those of a session, and the stop is given too."""
    cells, stop = cells_needed(rules, name), None
    with tempfile.TemporaryDirectory() as room:
        copies = Copies(rules, source.fetch(household), room)
        try:
            lines = copies.values(cells)
        except Stopped as stopped:
            stop, lines = stopped, copies.reported(name)
        path = copies.put("report.txt", "".join(f"{cell} {value}\n" for cell, value in lines.items()).encode("latin-1"))
        answer, status = copies.ask("check", copies.list, copies.household, path)
        if (answer, status) != (b"sound\n", 0):
            raise Wrong(said("why.unsound", what=runs.fault_of(answer, status)))
        return lines, stop and stop_lines(rules, copies, stop)


def stop_lines(rules, copies, stop):
    """The verification that stops the call, with its condition and the values that it reads, as lines."""
    lines = [said("why.stopped", stop=stop)]
    words = stop.line.split(" ")
    number, error = (words[1], words[2]) if words[0] == "failed" else (words[2], words[3])
    for file, check, written in rules.checks:
        if check.error != error or written.number("V", check.byte) != number:
            continue
        place = said("why.verif", file=file.name, line=file.lines.number(check.byte), number=number)
        lines.append(f"    {written.formula(check.byte)}   ({place})")
        for word, index, _, _ in check.reads():
            cells = [word] if index is None else [f"{word}[{k}]" for k in range(rules.sizes.get(word, 0))]
            lines += [f"  {cell} {value}" for cell in cells if not cell.isdigit() and (value := copies.value_unstopped(cell)) is not None]
    return list(dict.fromkeys(lines))


def tree_of(rules, root, lines, found, others=None):
    """The tree of a value, as the options ask for it."""
    depth = None if found["--depth"] is None else int(found["--depth"])
    return Tree(rules, root, lines, depth, found["--only-nonzero"], others, is_told_taken=True)


class Steps:
    """Shows why a cell has its value after a run by a driver: the commands that set it, and of each call of the rules the tree."""

    def __init__(self, trace, name, driver_name, found):
        self.trace, self.name, self.driver, self.found, self.shown = trace, name, driver_name, found, set()

    def lines(self):
        main = self.trace.driver.functions["main"]
        body, head = self.trace.follow(main.block, [], None, "")
        real = self.trace.copies.values([self.name])[self.name]
        if self.trace.values(body, [self.name])[self.name] != real:
            raise Wrong(said("why.other_value", name=self.name, value=real))
        yield from self.of(self.name, last(self.name, head), body, 0)

    def of(self, cell, event, body, level):
        """The lines of a cell whose value an event gave; without one it has what it had at the start."""
        indent, value = "  " * level, self.trace.values(body if event is None else self.trace.after(event), [cell])[cell]
        what = self.trace.rules.description(cell)
        head = "   ".join(filter(None, (f"{cell} {value}", what)))
        key = (cell, None if event is None else (event.command.number, event.where, tuple(event.before)))
        if event is None:
            yield f"{indent}{head}"
            yield f"{indent}    ({self.trace.rules.role(cell)})"
            return
        yield f"{indent}{head}" if key not in self.shown else f"{indent}{cell} {value}   {said('why.above')}"
        if key in self.shown:
            return
        self.shown.add(key)
        place = said("why.command", driver=self.driver, line=event.command.number, where=event.where)
        yield f"{indent}    {event.command.text}   ({place})"
        kind = event.command.said[0]
        if kind == "set":
            for other in cells_of(event.command):
                yield from self.of(other, last(other, event.history), event.before, level + 1)
        elif kind == "call" and event.command.said[2] != "call_m":
            inner = self.trace.inside(event)
            yield from self.of(cell, inner, event.before, level + 1)
        elif kind == "call":
            yield from (f"{indent}  {line}" for line in self.call(cell, event))

    def call(self, cell, event):
        """The tree of a cell at a call of the rules."""
        rules = self.trace.rules
        cells = cells_needed(rules, cell)
        received = [one for one in cells if one in rules.formulas]
        body = [*event.before, f"  {', '.join(received)} <- call_m()"] if received else event.before
        lines = self.trace.values(body, cells)
        self.look_at(cells, lines, event)
        yield from tree_of(rules, cell, lines, self.found).text()

    def look_at(self, cells, lines, event):
        """Has `check` look at the values, where those that no rule sets are of inputs and constants alone."""
        rules, copies = self.trace.rules, self.trace.copies
        given = [(rules.variables[cell].code, lines[cell]) for cell in cells if cell in rules.variables and rules.variables[cell].kind == "saisie"]
        other = [cell for cell in cells if cell not in rules.formulas and last(cell, event.history) is not None
                 and rules.variables[cell.split("[")[0]].kind == "calculee"]
        if other or any(value == "over" for _, value in given):
            source.say(said("why.unseen", line=event.command.number, what=", ".join(other) or said("why.an_input")))
            return
        household = "code,amount\n" + "".join(f"{code},{value[2:]}\n" for code, value in given if value.startswith("= "))
        path = copies.put("there.csv", household.encode("latin-1"))
        report_path = copies.put("report.txt", "".join(f"{cell} {value}\n" for cell, value in lines.items()).encode("latin-1"))
        answer, status = copies.ask("check", copies.list, path, report_path)
        if (answer, status) != (b"sound\n", 0):
            raise Wrong(said("why.unsound_there", line=event.command.number, what=runs.fault_of(answer, status)))


def as_page(tree, words, is_open, stop):
    """The tree as a page."""
    title, language = html.escape(f"{tree.root} {tree.lines[tree.root]}"), ' lang="fr"' if Language.name == FRENCH else ""
    yield f'<!doctype html><html{language}><head><meta charset="utf-8"><title>{title}</title><style>{STYLE}</style></head><body><h1>{title}</h1>'
    yield f"<p>{html.escape(said('why.page', list=words[0], household=words[1]))}</p>"
    if stop:
        yield f"<pre>{html.escape(chr(10).join(stop))}</pre>"
    *pieces, end = tree.html(is_open)
    yield from pieces
    yield end + "</body></html>"


def write_page(path, lines):
    """Writes a file whole, or not at all; of a link the file that it leads to."""
    try:
        with whole_file(os.path.realpath(path), 0o666 & ~source.MASK) as out:
            out.writelines(f"{line}\n".encode("utf-8", "surrogateescape") for line in lines)
    except OSError as fault:
        raise Wrong(f"{path}: {fault.strerror}", 4) from fault


def look_at_page(page, read):
    """Refuses a page that is no plain file, or one of those that are read."""
    if os.path.exists(page) and not os.path.isfile(page) and not os.path.isdir(page):
        raise Wrong(said("why.no_plain", page=page), 4)
    if any(os.path.exists(page) and os.path.exists(name) and os.path.samefile(page, name) for name in read):
        raise Wrong(said("why.is_read", page=page), 2)


def show_driver(rules, words, found):
    """Shows why a cell has its value after a run by a driver."""
    content = source.fetch(found["--driver"])
    with tempfile.TemporaryDirectory() as room:
        copies = Copies(rules, source.fetch(words[1]), room, content)
        try:
            lines = list(Steps(Trace(rules, copies, Driver(content)), words[2], found["--driver"], found).lines())
        except Stopped as stop:
            for line in stop_lines(rules, copies, stop):
                print(line)
            return 1
    print("\n".join(lines))
    return 0


def show(words, found):
    """Shows what the words ask for, and answers the status."""
    rules, page, against = reasons.Rules(words[0]), found["--html"], found["--against"]
    if found["--driver"] not in (None, "-"):
        return show_driver(rules, words, found)
    if page is not None:
        look_at_page(page, [*words[:2], *([against] if against else []), *(name for name, _ in rules.contents)])
    lines, stop = report(rules, *words[1:])
    others = report(rules, against, words[2])[0] if against else None
    tree = tree_of(rules, words[2], lines, found, others)
    if found["--report"]:
        for cell, value in lines.items():
            print(cell, value)
        return 0
    if page is not None:
        write_page(page, as_page(tree, words, found["--open"], stop))
        return 1 if stop else 0
    for line in [*(stop or []), *tree.text()]:
        print(line)
    return 1 if stop else 0


def main(words):
    """The command: see above."""
    return ended(words, __doc__, lambda words: show(*options(language_of(words))))
