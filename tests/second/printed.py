"""Whether what the program prints has a form that docs/FORMATS.md has, and fits its status."""
import re

NAME = rb"[0-9A-Za-z_]+(?:\[[0-9]{1,4}\])?"
AMOUNT = rb"-?[0-9]{1,14}(?:\.[0-9]{1,6})?"
VALUE = re.compile(rb"^" + NAME + rb"(?: = " + AMOUNT + rb"| undefined| over)$")
HEAD_OF_NOTE = re.compile(rb"^noted [0-9]{1,9} [0-9A-Za-z_]+ (?:anomalie|discordance|informative)$")
HEAD_OF_FAILED = re.compile(rb"^failed [0-9]{1,9} [0-9A-Za-z_]+ (?:anomalie|discordance|informative)$")
STOP_OF_ONE_LINE = re.compile(rb"^(?:over verification [0-9]{1,9} [0-9A-Za-z_]+|over driver line [0-9]+)$")
PLACED = (
    rb"bad byte|open string|number too great|too deep|syntax|declared twice NAME|alias twice NAME|table size|too many cells|bad range"
    rb"|loop too large|unbound index|too many parts|unknown name NAME|not a table NAME|is a table NAME|bad target NAME|defined twice NAME"
    rb"|unknown error NAME"
).replace(b"NAME", NAME)
REFUSED = re.compile(
    rb"^refused (?:list line [0-9]+|too many files|file too long .+|cycle(?: NAME)+|driver: no main|driver recursion(?: NAME)+|driver too large [0-9]+"
    rb"|driver line [0-9]+: (?:bad token|too deep|syntax|function twice NAME|unknown NAME|bad target NAME)|requests line [0-9]+|too many requests"
    rb"|household line [0-9]+: (?:bad row|unknown code|bad amount|not of its type|code twice|unknown output|bad expected)"
    rb"|household: (?:bad header|too many rows)|input too long|report line [0-9]+: (?:bad line|not sound)"
    rb"|code: bad header|code line [0-9]+: (?:bad line|read before write)"
    rb"|.+ line [0-9]+ byte [0-9]+: (?:PLACED))$".replace(b"PLACED", PLACED).replace(b"NAME", NAME),
    re.DOTALL,
)
REPLY = re.compile(
    rb"^(?:ok|\.|refused unknown code|refused unknown variable|refused bad amount|refused not of its type|refused bad command"
    rb"|refused line too long)$"
)
FINDING = re.compile(rb"^(?:never defined NAME|never stops [0-9]{1,9} [0-9A-Za-z_]+|unused input [0-9A-Za-z_]+)$".replace(b"NAME", NAME))
TEXT = rb"(?:" + AMOUNT + rb"|undefined|over|stop)"
MISMATCH = re.compile(rb"^mismatch .+ " + NAME + rb" expected " + TEXT + rb" got " + TEXT + rb"$", re.DOTALL)
COUNTED = re.compile(rb"^cases [0-9]+ mismatches [0-9]+$")
USAGE = b"usage: m_tax "
USAGE_OF_SURVEYS = b"usage: m_survey "
VERSION = re.compile(rb"^vodmejka [0-9]+\.[0-9]+\.[0-9]+$")
REFUSED_RANGES = re.compile(
    rb"^refused ranges(?:: (?:bad header|too many rows)| line [0-9]+: (?:bad row|unknown code|bad amount|not of its type|code twice))$"
)
FACT = re.compile(rb"^NAME (?:(?:AMOUNT(?: to AMOUNT)?|undefined)(?: or undefined)?(?: or over)?|over)$".replace(b"NAME", NAME).replace(b"AMOUNT", AMOUNT))
NEVER_STOPS = re.compile(rb"^never stops [0-9]{1,9} [0-9A-Za-z_]+$")
DEPENDS = re.compile(rb"^depends NAME(?: [0-9A-Za-z_]+)*$".replace(b"NAME", NAME))
HEAD_OF_TABLE = re.compile(rb"^name,stop,notes(?:,NAME)*$".replace(b"NAME", NAME))
LABEL_FIELD = re.compile(rb'^(?:[^",\r]+|"(?:[^"]|"")*"),')
RESULT = re.compile(
    rb"^(?:(?:failed|over verification) V|over driver line [0-9]+)?,(?:V(?:; V)*)?(?:,(?:AMOUNT|over)?)*$"
    .replace(b"V", rb"[0-9]{1,9} [0-9A-Za-z_]+").replace(b"AMOUNT", AMOUNT)
)
CODE_LINE = re.compile(
    rb"^(?:slots [0-9]+|input [0-9A-Za-z_]+(?: whole| truth)?"
    rb"|label verif [0-9]{1,9} [0-9A-Za-z_]+ (?:anomalie|discordance|informative) (?:[0-9a-f]{2})+|label driver [0-9]+"
    rb"|note [0-9]+|output NAME|code|in [0-9]+ [0-9]+|lit [0-9]+ (?:undef|over|-?[0-9]{1,20})|do [0-9]+ [a-z_]+(?: [0-9]+){1,3}|(?:st|ld|out) [0-9]+ [0-9]+"
    rb"|c[ko] [0-9]+ [0-9]+ [0-9]+)$".replace(b"NAME", NAME)
)


def stop_lines(lines, at):
    """How many lines from one on report a stop, or 0. The text of a failed verification comes from the rules and may contain any line."""
    if at < len(lines) and STOP_OF_ONE_LINE.match(lines[at]):
        return 1
    return 2 if at < len(lines) and HEAD_OF_FAILED.match(lines[at]) else 0


def is_answer(lines):
    """Whether lines are notes, each with a text of any lines, and then values; or a stop. A text may have any lines after its first."""
    in_text = False
    for line in lines:
        if HEAD_OF_NOTE.match(line):
            in_text = True
        elif not in_text and not VALUE.match(line):
            return stop_lines(lines, 0) == len(lines) or bool(HEAD_OF_FAILED.match(lines[0]))
    return True


def are_findings(lines):
    """Whether lines are findings."""
    return all(FINDING.match(line) for line in lines)


def are_mismatches(lines):
    """Whether lines are those of cases, with the count at the end."""
    return bool(lines) and COUNTED.match(lines[-1]) is not None and all(MISMATCH.match(line) for line in lines[:-1])


def is_code(lines):
    """Whether lines are those of a code file."""
    return lines[:1] == [b"mcode 1"] and lines[-1:] == [b"end"] and all(CODE_LINE.match(line) for line in lines[1:-1])


def are_replies(lines):
    """Whether lines are the replies of a session. What follows a stop, up to the next `.`, is its text."""
    in_text = False
    for line in lines:
        if in_text or REPLY.match(line) or VALUE.match(line) or STOP_OF_ONE_LINE.match(line):
            in_text = in_text and line != b"."
        elif HEAD_OF_FAILED.match(line) or HEAD_OF_NOTE.match(line):
            in_text = True
        else:
            return False
    return True


def are_households(lines):
    """Whether lines are the answers of a table: each begins with its label."""
    in_text = False
    for line in lines:
        if line.startswith(b"household "):
            in_text = False
        elif HEAD_OF_FAILED.match(line) or HEAD_OF_NOTE.match(line):
            in_text = True
        elif not in_text and not VALUE.match(line) and not STOP_OF_ONE_LINE.match(line):
            return False
    return True


def wrong_output(command, text, status):
    """What is wrong with an output and its status, or None."""
    if text and not text.endswith(b"\n"):
        return "the last line isn't ended"
    lines = text.split(b"\n")[:-1]
    if status == 1:
        if command == b"serve" and lines and lines[-1] == b"refused input too long":
            return None if are_replies(lines[:-1]) else "a line of no form"
        return None if REFUSED.match(text[:-1]) else "status 1, and no refusal"
    if status == 2:
        return None if text.startswith(USAGE) and len(lines) == 1 else "status 2, and no usage line"
    if status == 3:
        return None if text.startswith(b"unreadable ") else "status 3, and nothing is unreadable"
    if status == 5:
        return None if command in (b"batch", b"cases") or not text else "status 5, and something was printed"
    if status == 6 and command == b"cases":
        return None if are_mismatches(lines) and len(lines) > 1 else "status 6, and no mismatches"
    if status == 6:
        tail = lines[1:] if command == b"large" else lines
        return None if stop_lines(tail, 0) else "status 6, and no stop"
    if status != 0:
        return "no documented status"
    return None if FORMS.get(command, lambda lines: is_answer(lines[1:]))(lines) else "a line of no form"


def is_table(lines):
    """Whether lines are a table of m_survey: a header, and as many fields in each record."""
    if not lines or not HEAD_OF_TABLE.match(lines[0]):
        return False
    fields = lines[0].count(b",")
    for line in lines[1:]:
        label = LABEL_FIELD.match(line)
        rest = line[label.end():] if label else b""
        if not label or not RESULT.match(rest) or rest.count(b",") + 1 != fields:
            return False
    return True


def are_facts(lines):
    """Whether lines are facts: of the requested cells, of verifications, and then dependencies."""
    kinds = ["f" if FACT.match(line) else "n" if NEVER_STOPS.match(line) else "d" if DEPENDS.match(line) else "?" for line in lines]
    return re.match("f*n*d*$", "".join(kinds)) is not None


def wrong_survey(command, text, status):
    """What is wrong with an output of m_survey and its status, or None."""
    if status in (1, 3, 5):
        if status == 1 and REFUSED_RANGES.match(text[:-1]) and text.endswith(b"\n"):
            return None if command == b"facts" else "status 1, and no refusal"
        return wrong_output(b"batch" if command == b"table" else b"lint", text, status)
    if text and not text.endswith(b"\n"):
        return "the last line isn't ended"
    lines = text.split(b"\n")[:-1]
    if status == 2:
        return None if text.startswith(USAGE_OF_SURVEYS) and len(lines) == 1 else "status 2, and no usage line"
    if status != 0:
        return "no documented status"
    return None if FORMS_OF_SURVEYS.get(command, lambda _: False)(lines) else "a line of no form"


FORMS_OF_SURVEYS = {
    b"table": is_table,
    b"facts": are_facts,
    b"version": lambda lines: len(lines) == 1 and VERSION.match(lines[0]) is not None,
}
FORMS = {
    b"run": is_answer,
    b"serve": are_replies,
    b"batch": are_households,
    b"compile": is_code,
    b"exec": is_answer,
    b"lint": are_findings,
    b"cases": lambda lines: are_mismatches(lines) and len(lines) == 1,
    b"check": lambda lines: lines == [b"sound"],
}
