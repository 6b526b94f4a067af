"""The commands: words, the steps in their order, and what is printed."""

import re
from typing import NamedTuple, Optional

from .amounts import OVER, UNDEFINED, read_amount
from .cases import last_line, mismatches, read_cases
from .code_files import read_code, why_not_of
from .faults import Refused, RingRefused, Unreadable
from .findings import Findings
from .files import cell_named, is_of_type, read_household, read_list, read_table
from .generated import large_household, large_source
from .reports import Reason, first_unsound, read_report
from .sources import Compiled, Rules, Source
from .texts import decimal, is_utf8

USAGE = (
    b"usage: m_tax run|serve LIST DRIVER REQUESTS HOUSEHOLD, batch LIST DRIVER REQUESTS TABLE, "
    b"compile LIST DRIVER REQUESTS, exec CODEFILE HOUSEHOLD, large N, check LIST HOUSEHOLD REPORT, lint LIST DRIVER REQUESTS, "
    b"cases LIST DRIVER REQUESTS TABLE\n"
)
DONE, REFUSED, NO_COMMAND, NOT_READ, STOPPED = 0, 1, 2, 3, 6
FILE_BYTES = 16_777_216
RULE_BYTES = 67_108_864
CODE_FILE_BYTES = 1_073_741_824
SESSION_LINE_BYTES = 4_096
MOST_GENERATED = 100_000


class Output(NamedTuple):
    """What is printed, and the number that the program ends with; `ring` where a cycle or a recursion is shown, `compiled`
    where a code file of a source is due, which has several, `findings` where those of a source are due, and `replies` where a session
    is requested to explain values, since the lines of reasons may be in several orders."""

    text: bytes
    status: int
    ring: Optional[RingRefused] = None
    compiled: Optional[Compiled] = None
    findings: Optional[Findings] = None
    replies: Optional[list] = None

    def is_one_with(self, text, status):
        """Whether this text and this status are the same output. A ring that is shown may be another true one, and a code file
        another one of the same source."""
        if self.compiled is not None:
            return status == self.status and why_not_of(text, self.compiled) is None
        if self.ring is not None and status == self.status and text.endswith(b"\n"):
            return self.ring.shows_one(text[:-1])
        if self.findings is not None:
            return status == self.status and self.findings.are(text)
        if self.replies is not None:
            return status == self.status and are_replies(self.replies, text)
        return (text, status) == (self.text, self.status)


def output(words, files, typed=b""):
    """What is printed, and with which status. `files` has the bytes of each file by its name."""
    return output_of(answer, words, files, typed)


def output_of(answer, *arguments):
    """The same of an answer to these arguments, where refusals are raised."""
    try:
        return Output(*answer(*arguments))
    except RingRefused as refusal:
        return Output(refusal.line + b"\n", REFUSED, refusal)
    except Refused as refusal:
        return Output(refusal.line + b"\n", REFUSED)
    except Unreadable as missing:
        return Output(b"unreadable " + missing.name + b"\n", NOT_READ)


def answer(words, files, typed):
    """The same, where refusals are raised."""
    if len(words) == 2 and words[0] == b"large" and generated_number(words[1]):
        return answer_large(generated_number(words[1]))
    if all(is_utf8(word) for word in words):
        if len(words) == 5 and words[0] in ANSWERS:
            source = gathered(words[1:4], files)
            last = fetched(words[4], files, FILE_BYTES)
            return ANSWERS[words[0]](Compiled(source), last, typed)
        if len(words) == 4 and words[0] == b"compile":
            compiled = Compiled(gathered(words[1:], files))
            return b"a code file of the source\n", DONE, None, compiled
        if len(words) == 4 and words[0] == b"lint":
            return b"findings\n", DONE, None, None, Findings(Compiled(gathered(words[1:], files)))
        if len(words) == 4 and words[0] == b"check":
            source = gathered([words[1], b"-", b"-"], files)
            household = fetched(words[2], files, FILE_BYTES)
            return answer_check(source, household, fetched(words[3], files, CODE_FILE_BYTES))
        if len(words) == 3 and words[0] == b"exec":
            code = fetched(words[1], files, CODE_FILE_BYTES)
            return answer_exec(code, fetched(words[2], files, FILE_BYTES))
    return USAGE, NO_COMMAND


def generated_number(word):
    """The number of `large N`, which has one to six digits; 0 where the word is none."""
    number = int(word) if re.fullmatch(rb"[0-9]{1,6}", word) else 0
    return number if number <= MOST_GENERATED else 0


# ---- fetching


def fetched(name, files, limit):
    """The bytes of a file, which has at most `limit` bytes."""
    if name not in files:
        raise Unreadable(name)
    if len(files[name]) > limit:
        raise Refused(b"refused file too long " + name)
    return files[name]


def gathered(names, files):
    """The source of a list, a driver and requests, all fetched in order."""
    application, rule_names = read_list(fetched(names[0], files, FILE_BYTES))
    rule_files = []
    left = RULE_BYTES
    for name in rule_names:
        text = fetched(name, files, min(FILE_BYTES, left))
        left -= len(text)
        rule_files.append((name, text))
    driver, requests = [None if name == b"-" else fetched(name, files, FILE_BYTES) for name in names[1:3]]
    return Source(application, rule_files, driver, requests)


# ---- answers


def answer_run(compiled, household, _typed):
    """The lines printed for a household."""
    lines, stopped = compiled.told(read_household(household, compiled.declared.inputs, compiled.declared.types))
    return lines, STOPPED if stopped else DONE


def answer_batch(compiled, table, _typed):
    """For each household of a table its label and its lines. A stop is an answer like another."""
    text = b""
    for row in read_table(table, compiled.declared.inputs, compiled.declared.types):
        text += b"household " + row.label + b"\n" + compiled.told(row.amounts)[0]
    return text, DONE


def answer_cases(compiled, table, _typed):
    """For each case of a table what isn't met, and at the end a line that counts."""
    names = compiled.request_names
    cases = read_cases(table, compiled.declared.inputs, compiled.declared.types, names)
    lines = [line for case in cases for line in mismatches(case, compiled.values(case.row.amounts), names)]
    return b"".join(lines) + last_line(len(cases), len(lines)), STOPPED if lines else DONE


def answer_large(number):
    """The answer of the generated source to the generated household."""
    compiled = Compiled(large_source(number))
    lines, stopped = compiled.told(read_household(large_household(number), compiled.declared.inputs, compiled.declared.types))
    return b"large " + decimal(number) + b"\n" + lines, STOPPED if stopped else DONE


def answer_exec(code_file, household):
    """The lines printed for a household by the code of a code file."""
    code = read_code(code_file)
    lines, stopped = code.told(read_household(household, code.inputs, dict(zip(code.inputs, code.types))))
    return lines, STOPPED if stopped else DONE


def answer_check(source, household, report):
    """Whether a report is sound for the rules and a household."""
    rules = Rules(source)
    return checked(rules, rules.start(read_household(household, rules.declared.inputs, rules.declared.types)), report)


def checked(rules, environment, report):
    """The same where rules and household are read already."""
    unsound = first_unsound(rules.base, environment, read_report(report, rules.declared))
    if unsound is not None:
        raise Refused(b"refused report line " + decimal(unsound) + b": not sound")
    return b"sound\n", DONE


def answer_serve(compiled, household, typed):
    """The replies to all lines that are typed, each by the household as the lines before it left it."""
    amounts = dict(read_household(household, compiled.declared.inputs, compiled.declared.types))
    lines = typed.split(b"\n")
    if lines[-1] == b"":
        lines.pop()
    replies = [reply(line, amounts, compiled) for line in lines]
    text = b"".join(part.text() if isinstance(part, Reason) else part for part in replies)
    return text, DONE, None, None, None, replies


def are_replies(replies, text):
    """Whether a text is these replies, in whatever orders the lines of reasons are."""
    for part in replies:
        if isinstance(part, Reason):
            text = part.rest_of(text)
        else:
            text = text[len(part):] if text.startswith(part) else None
        if text is None:
            return False
    return text == b""


ANSWERS = {b"run": answer_run, b"batch": answer_batch, b"serve": answer_serve, b"cases": answer_cases}


def reply(line, amounts, compiled):
    """The reply to a line of a session, which may change the amounts of the household."""
    if len(line) > SESSION_LINE_BYTES:
        return b"refused line too long\n"
    if line.endswith(b"\r"):
        line = line[:-1]
    words = [word for word in line.split(b" ") if word]
    if not words:
        return b""
    if words == [b"show"]:
        return compiled.told(amounts.items())[0] + b".\n"
    if words[0] == b"why" and len(words) == 2:
        cell = cell_named(words[1], compiled.declared)
        if cell is None:
            return b"refused unknown variable\n"
        return Reason(compiled, compiled.start(amounts.items()), cell)
    if (words[0], len(words)) not in ((b"set", 3), (b"clear", 2)):
        return b"refused bad command\n"
    cell = compiled.declared.inputs.get(words[1])
    if cell is None:
        return b"refused unknown code\n"
    if words[0] == b"clear":
        amounts.pop(cell, None)
        return b"ok\n"
    amount = read_amount(words[2])
    if amount is UNDEFINED or amount is OVER:
        return b"refused bad amount\n"
    if not is_of_type(amount, compiled.declared.types[words[1]]):
        return b"refused not of its type\n"
    amounts[cell] = amount
    return b"ok\n"
