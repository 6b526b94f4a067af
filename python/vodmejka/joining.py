"""Joining the answers to the parts of a table: they are printed as one, whole or some columns of csv. An answer is a file and its noted digest."""
import functools
import hashlib

from . import csv_answers, runs
from .errors import Failed
from .runs import file_digest


def print_whole(answers, is_csv, out):
    """Prints the answers one after the other; those of csv with one first line."""
    for number, (path, noted) in enumerate(answers):
        if file_digest(path, out, is_csv and number > 0) != noted:
            raise changed(path)


def changed(path):
    """The error of an answer that isn't as it was noted."""
    return Failed(f"{path} was changed while it was printed: don't use what was printed", False)


def print_columns(answers, only, out):
    """Prints the columns of some names of answers of csv, which other processes take out of the parts, some parts ahead of what is printed."""
    jobs = ((path, noted, number == 0) for number, (path, noted) in enumerate(answers))
    for piece in runs.in_order(functools.partial(part_only, only), jobs):
        out.write(piece)


def part_only(only, part):
    """The requested columns of a part: of its file, by its digest, with its head or without."""
    path, noted, with_head = part
    with open(path, "rb") as file:
        text = file.read()
    if hashlib.sha256(text).hexdigest() != noted:
        raise changed(path)
    head, _, households = text.partition(b"\n")
    places = csv_answers.columns(head, only)
    return csv_answers.chosen(text if with_head else households, places, len(head.split(b",")))
