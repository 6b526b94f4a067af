"""The csv that `m_survey table` prints, as docs/SURVEY.md has it: its records, and its requested columns."""
import operator
import re

from .records import AMOUNT, Strange, unquoted

TOLD = [b"name", b"stop", b"notes"]  # the names of the first columns
NAME = rb"[A-Z0-9_]+(?:\[[0-9]{1,4}\])?"
HEAD = re.compile(b",".join(TOLD) + rb"((?:," + NAME + rb")*)\n")
LABEL = rb'("[^"\n]*(?:""[^"\n]*)*"|[^",\r\n]+)'
FAULT = rb"[^ ,;\n]+ [^ ,;\n]+"
STOP = rb"(failed " + FAULT + rb"|over verification " + FAULT + rb"|over driver line [0-9]+)"
NOTES = rb"(?:" + FAULT + rb"(?:; " + FAULT + rb")*)?"
CELL = rb"(?:" + AMOUNT + rb"|over)?"


def record_form(count):
    """The form of the record of a household that has `count` values: its label is the first group, its stop the second."""
    return re.compile(LABEL + rb",(?:" + STOP + rb",%b|,%b(?:,%b){%d})\n" % (b"," * count, NOTES, CELL, count))


def read_csv(path, names=None):
    """The labels of a csv of `m_survey table`, the names of its values, where they aren't given, and how many households stopped. Each record is whole."""
    with open(path, "rb") as file:
        text = file.read()
    head = HEAD.match(text)
    if head is None or names is not None and names_of(head) != names:
        raise Strange(f"line 1 isn't name, stop, notes and what is requested: {line_at(text, 0)}")
    labels, stops, end = [], 0, head.end()
    for found in iter(record_form(len(names_of(head))).scanner(text, end).match, None):
        label, stop = found.groups()
        labels.append(label if label[0] != ord('"') else unquoted(label))
        stops += stop is not None
        end = found.end()
    if end < len(text):
        raise Strange(f"line {len(labels) + 2} is no record of m_survey table: {line_at(text, end)}")
    return labels, names_of(head), stops


def line_at(text, at):
    """The line that begins here, as a message shows it."""
    return text[at : at + 80].split(b"\n")[0].decode("utf-8", "replace")


def names_of(head):
    """The names of the values that a head names."""
    return head[1].split(b",")[1:]


def columns(head, only):
    """The places of the requested columns in the head; the first three columns are always included."""
    names = head.rstrip(b"\n").split(b",")
    places = dict(reversed([(name, k) for k, name in enumerate(names)]))
    missing = [name for name in only if name not in names[len(TOLD) :]]
    if missing:
        raise Strange(f"the csv has no column {missing[0].decode('utf-8', 'replace')}: it has {b', '.join(names[len(TOLD):]).decode()}")
    return [*range(len(TOLD)), *(places[name] for name in only)]


def chosen(text, places, width):
    """These columns of records that have `width`. (A comma in a label is the only one in a field, so fields are counted from the right.)"""
    pick = operator.itemgetter(*places)
    return b"".join([b",".join(pick(line.rsplit(b",", width - 1))) + b"\n" for line in text.split(b"\n")[:-1]])
