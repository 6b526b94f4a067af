"""Shows the line of an error, and its correction.

    explain COMMAND WORD..              runs the program with these words, and explains its errors
    m_tax .. | explain [FILES]          explains the errors in the standard input
    explain --all LIST [DRIVER]         lists all faults of rule files, and of a driver, that the tools can find; runs nothing

Each line is printed unchanged. Below an error, an unreadable file or a stop are the line of the file with a caret under the byte, if the error has a
place, and a correction in one sentence. The place of `syntax` is the begin of the item or block that can't be read; below it is the first token that
no rule of the grammar takes, with those that one would take.

    --list FILE, --driver FILE, --requests FILE, --household FILE, --code FILE, --report FILE
                  the files, for errors that don't name theirs; not needed if the program is run
    --all         after the first error also the other faults of tokens, grammar, declarations and names, each at its place
    --lang fr     prints corrections in French, as LC_MESSAGES=fr_FR does; --lang en in English
    --places      prints FILE:LINE:COLUMN: error: WHAT in place of all this, for editors; columns count bytes from 1

The status is the program's if it is run, 128 plus the number of the signal if one ended it, and 3 if it can't be started.
For the standard input it is 1 if something was rejected, else 0. For --all alone it is 1 if there is a fault, and 5 if none was found,
which proves nothing: standard error names what isn't checked. It is 3 if a file can't be read.
The program is ./m_tax of this repository, or the one that M_TAX names.
"""
import contextlib
import io
import re
import subprocess
import sys

from .. import drivers, faults, items, runs, source
from ..hints import Hints
from ..places import faulty_field, line_at, pointer, records, text_at
from ..texts import language_of, phrase, said
from ..sentences import DRIVER, HOUSEHOLD, OTHERS, RULES, code, marked

ROLES = ("list", "driver", "requests", "household")
OTHER_ROLES = {"exec": ("code", "household"), "check": ("list", "household", "report")}
NONE_FOUND = 5
COMMANDS = ("run", "serve", "batch", "cases", "compile", "lint", "exec", "check", "large")


def quoted(what):
    """A token in quotes; a description in the language that was chosen."""
    return phrase(what) if re.match("(an?|the) ", what) else f"`{what}`"


def expected(fault):
    """The farthest token, the tokens that would be accepted, and a hint, as a sentence."""
    wanted = [quoted(what) for what in fault.wanted]
    if len(wanted) > 1:
        wanted = [said("help.or", others=", ".join(wanted[:-1]), last=wanted[-1])]
    sentence = said("help.could", found=quoted(fault.found), wanted=wanted[0]) if wanted else said("help.stands", found=quoted(fault.found))
    return said("help.why", told=sentence, hint=phrase(fault.hint)) if fault.hint else sentence + "."


def joined(*sentences):
    """Sentences one after the other; nothing where the first one is missing."""
    return " ".join(filter(None, sentences)) if sentences[0] else None


class Explainer:
    def __init__(self, files):
        self.files, self.reported = files, set()
        self.hints = Hints(files.get("list"), files.get("driver"))

    def content(self, name):
        try:
            return source.fetch(name) if name else b""
        except source.Refused:
            return b""

    def is_marked(self, role):
        return self.content(self.files.get(role)).startswith(source.MARK)

    def rule_place(self, name, number, byte, texts=None):
        text = text_at(name, texts)
        if text is None:
            return None, ["  " + said("help.gone", name=name)]
        if byte > len(text.content) or text.number(byte) != number:
            return None, ["  " + said("help.changed", name=name)]
        column = byte - text.begin(number)
        return (name, number, column + 1), pointer(text.line(number), number, column)

    def rule_fault(self, name, number, byte, what):
        """The place of a fault of a rule file; of `syntax` also the farthest token that can be read up to."""
        fault = next((fault for fault in RULES if what == fault or what.startswith(fault + " ")), None)
        self.reported.add((name, byte))
        texts = {}
        place, lines = self.rule_place(name, number, byte, texts)
        if place is None or what not in ("syntax", "bad byte"):
            return place, lines, joined(RULES.get(fault), self.hints.more(what, name, byte))
        content = texts[name].content
        if what == "bad byte":
            bad = next((other for other in items.tokens_of(content)[1] if other.byte == byte and other.hint), None)
            is_marked = byte == 0 and content.startswith(source.MARK)
            return place, lines, marked() if is_marked else expected(bad) if bad else RULES[fault]
        farthest = next((other for other in items.read(content)[1] if other.byte >= byte and other.what == "syntax"), None)
        if farthest is None:
            return place, lines, RULES[fault]
        self.reported.add((name, farthest.byte))
        place, more = self.rule_place(name, texts[name].number(farthest.byte), farthest.byte, texts)
        if farthest.byte != byte:
            lines = [*lines, "  " + said("help.as_far"), *more]
        return place, lines, expected(farthest)

    def line_place(self, role, number, texts=None):
        name = self.files.get(role)
        line = line_at(name, number, texts) if name else None
        if line is None:
            return None, []
        return (name, number, 1), pointer(line, number, None)

    def driver_fault(self, number, what):
        """The place of a fault of a driver: its line, and if the tools find it, its token."""
        fault = next((fault for fault in DRIVER if what == fault or what.startswith(fault + " ")), None)
        texts = {}
        place, lines = self.line_place("driver", number, texts)
        self.reported.add((self.files.get("driver"), number))
        if place is None or what not in ("syntax", "bad token"):
            return place, lines, joined(DRIVER.get(fault), self.hints.more(what) if fault != "bad target" else "")
        farthest = next((other for other in drivers.Driver(texts[place[0]].content).faults if other.line >= number and other.what == what), None)
        if farthest is None:
            return place, lines, DRIVER[fault]
        self.reported.add((place[0], farthest.line))
        more = pointer(texts[place[0]].line(farthest.line) or b"", farthest.line, farthest.byte)
        if farthest.line != number:
            more = [*lines, "  " + said("help.as_far"), *more]
        return (place[0], farthest.line, (farthest.byte or 0) + 1), more, expected(farthest)

    def record_place(self, number, what):
        name = self.files.get("household")
        content = self.content(name)
        found = records(content)
        if number > len(found):
            return None, []
        begin, fields = found[number - 1]
        byte = faulty_field(fields, what, found[0][1])
        text = source.Lines(content)
        place, lines = self.rule_place(name, text.number(byte or begin), byte or begin, {name: text})
        return place, lines if byte else lines[:1]

    def list_fault(self, role, number):
        if number == 1 and self.is_marked(role):
            mend = marked()
        elif role == "requests":
            mend = said("help.request")
        elif number == 1:
            mend = said("help.application")
        else:
            mend = said("help.file_name")
        if b"\r" in (line_at(self.files[role], number) or b"" if role in self.files else b""):
            mend = said("help.return")
        return (*self.line_place(role, number), mend)

    def explain(self, line):
        """The place of a line of the program, the lines that show it, and what to mend; nothing of a line that is no error."""
        match = re.fullmatch(r"refused (.*) line ([1-9][0-9]{0,14}) byte ([0-9]{1,15}): (.*)", line)
        if match:
            return self.rule_fault(match[1], int(match[2]), int(match[3]), match[4])
        match = re.fullmatch(r"refused driver line ([1-9][0-9]{0,14}): (.*)", line)
        if match:
            return self.driver_fault(int(match[1]), match[2])
        match = re.fullmatch(r"refused household line ([1-9][0-9]{0,14}): (.*)", line)
        if match and match[2] in HOUSEHOLD:
            return (*self.record_place(int(match[1]), match[2]), joined(HOUSEHOLD[match[2]], self.code_meant(int(match[1]), match[2])))
        match = re.fullmatch(r"refused cycle (.*)", line)
        if match:
            places = self.hints.cycle(match[1].split(" "))
            return None, [f"  {places}"] if places else [], self.other(line)
        match = re.fullmatch(r"refused (list|requests) line ([1-9][0-9]{0,14})", line)
        if match:
            return self.list_fault(match[1], int(match[2]))
        match = re.fullmatch(r"refused code line ([1-9][0-9]{0,14}): .*", line)
        if match:
            return (*self.line_place("code", int(match[1])), code())
        match = re.fullmatch(r"refused report line ([1-9][0-9]{0,14}): .*", line)
        if match:
            return (*self.line_place("report", int(match[1])), self.other(line))
        match = re.fullmatch(r"over driver line ([1-9][0-9]{0,14})", line)
        if match:
            return (*self.line_place("driver", int(match[1])), said("help.over"))
        return None, [], self.other(line)

    def code_meant(self, number, what):
        """The code that was meant in a record of the household."""
        found = records(self.content(self.files.get("household")))
        if what != "unknown code" or number > len(found) or "list" not in self.files:
            return ""
        fields = found[number - 1][1]
        words = [field.strip(b'"').decode("latin-1") for _, field in (fields[:1] if len(fields) == 2 else fields[1:])]
        return next(filter(None, map(self.hints.code_meant, words)), "") if len(fields) == 2 else ""

    def other(self, line):
        """What to mend, of a line that names no place in rules, a driver or a household."""
        return next((mend for form, mend in OTHERS if re.fullmatch(form, line)), None)


def text(stream):
    """The lines of a stream, which end at line feeds alone."""
    return io.TextIOWrapper(stream, encoding="utf-8", errors="surrogateescape", newline="\n")


def print_explained(line, explainer, places):
    """Prints a line with its explanation; whether it is an error."""
    place, lines, mend = explainer.explain(line.removesuffix("\r"))
    if not places:
        print(line)
        if mend is not None:
            print("\n".join([*lines, "  " + mend]))
    elif mend is not None:
        print(f"{place[0]}:{place[1]}:{place[2]}: error: {line}" if place else line)
    sys.stdout.flush()
    return mend is not None


def explain_lines(lines, explainer, places, is_all):
    """Explains each line; whether one is an error. With `is_all` the other faults of its files come after an error."""
    refused = False
    for line in lines:
        line = line.removesuffix("\n")
        is_refusal = print_explained(line, explainer, places)
        refused = refused or is_refusal
        named = re.fullmatch(r"refused (.*) line [0-9]+ byte [0-9]+: .*", line)
        if is_all and is_refusal and line.startswith("refused "):
            with contextlib.suppress(source.Refused):
                explain_all(explainer, places, [named[1]] if named else [])
    return refused


def explain_all(explainer, places, names):
    """All faults of the files that are known, except those that were reported already; gives all of them."""
    found, texts = faults.all_faults(explainer.files.get("list"), explainer.files.get("driver"), names), {}
    for fault in found:
        is_driver = fault.name == explainer.files.get("driver")
        key = (fault.name, fault.line if is_driver else fault.byte)
        if key in explainer.reported:
            continue
        sentences = DRIVER if is_driver else RULES
        mend = next((sentence for name, sentence in sentences.items() if fault.what == name or fault.what.startswith(name + " ")), "")
        if fault.fault is not None:
            mend = expected(fault.fault)
        elif not (is_driver and fault.what.startswith("bad target")):
            mend = joined(mend, explainer.hints.more(fault.what, fault.name, fault.byte)) or ""
        if is_driver:
            place = (fault.name, fault.line, (fault.byte or 0) + 1)
            lines = pointer(line_at(fault.name, fault.line, texts) or b"", fault.line, fault.byte)
        else:
            place, lines = explainer.rule_place(fault.name, fault.line, fault.byte, texts)
        at = f"line {fault.line}" if is_driver else f"line {fault.line} byte {fault.byte}"
        if places:
            file, line, column = place or (fault.name, fault.line, 1)
            print(f"{file}:{line}:{column}: error: {fault.what}")
        else:
            print("\n".join([f"fault {fault.name} {at}: {fault.what}", *lines, "  " + mend]))
    return found


def explain_files(explainer, places):
    """All faults of a list and a driver. The status is 1 where there is one, and 5 where none was found, which isn't that there is none."""
    found = explain_all(explainer, places, [])
    sys.stdout.flush()
    if any(fault.what in faults.UNREADABLE for fault in found):
        source.say(said("help.unread"))
    source.say(said("help.others"))
    return 1 if found else NONE_FOUND


def read_words(words):
    """The options, the files that they name, and the words after them; nothing where an option is none."""
    files, options = {}, set()
    while words and words[0].startswith("--"):
        word = words.pop(0)
        if word in ("--places", "--all"):
            options.add(word)
        elif word[2:] in (*ROLES, "code", "report") and words:
            files[word[2:]] = words.pop(0)
        else:
            print(f"explain: {said('help.no_option', word=word)}", file=sys.stderr)
            return None
    return files, options, words


def main(words):
    if "--help" in words:
        print(__doc__, end="")
        return 0
    read = read_words(language_of(words))
    if read is None:
        return 2
    files, options, words = read
    places, is_all = "--places" in options, "--all" in options
    if not words:
        try:
            return 1 if explain_lines(text(source.standard_input()), Explainer(files), places, is_all) else 0
        except source.Refused as fault:
            print(f"explain: {fault}", file=sys.stderr)
            return 3
    if is_all and words[0] not in COMMANDS:
        if len(words) > 2:
            print(f"explain: {said('help.words')}", file=sys.stderr)
            return 2
        try:
            return explain_files(Explainer({**dict(zip(("list", "driver"), words)), **files}), places)
        except source.Refused as fault:
            print(f"explain: {fault}", file=sys.stderr)
            return 3
    files = {**dict(zip(OTHER_ROLES.get(words[0], ROLES), words[1:])), **files}
    try:
        with runs.CHILDREN.started([runs.program_path(), *words], stdout=subprocess.PIPE, close_fds=False) as run:
            source.Pipes.are_read = True
            explain_lines(text(run.stdout), Explainer(files), places, is_all)
            status = run.wait()
    except OSError as fault:
        if fault.filename is None:
            raise
        print(f"explain: {runs.program_path()}: {fault.strerror}", file=sys.stderr)
        return 3
    return status if status >= 0 else 128 - status
