"""Texts, which are bytes: their lines, and words."""

import re

WORD = rb"[0-9]*[A-Za-z_][0-9A-Za-z_]*"
NUMBER = rb"[0-9]+(?:\.[0-9]+)?"


def lines_of(text):
    """The lines: each ends at a line feed, with a carriage return right before it; the last may lack its line feed."""
    pieces = text.split(b"\n")
    last = pieces.pop()
    lines = [piece[:-1] if piece.endswith(b"\r") else piece for piece in pieces]
    return lines + [last] if last else lines


def exact_lines_of(text):
    """The lines as they are: each ends at a line feed, and a carriage return is a byte as others; the last may lack its line feed."""
    lines = text.split(b"\n")
    return lines if lines[-1] else lines[:-1]


def is_word(text):
    """Whether these are letters of ASCII, digits and `_`, and not digits alone."""
    return re.fullmatch(WORD, text) is not None


def is_utf8(text):
    """Whether these bytes are a text in UTF-8."""
    try:
        text.decode("utf-8")
        return True
    except UnicodeDecodeError:
        return False


def decimal(number):
    """A number as its digits."""
    return b"%d" % number
