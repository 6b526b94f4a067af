"""Records of csv: the first one, and one for each household."""

from .amounts import OVER, UNDEFINED, print_amount


def field(text):
    """A field with these bytes, in quotes where it has a comma, a quotation mark or a carriage return."""
    if not any(mark in text for mark in (b",", b'"', b"\r")):
        return text
    return b'"' + text.replace(b'"', b'""') + b'"'


def record(fields):
    """A record of these fields."""
    return b",".join(map(field, fields)) + b"\n"


def value_field(value):
    """The field of a value: an amount, nothing where it is undefined, or `over`."""
    if value is UNDEFINED:
        return b""
    return b"over" if value is OVER else print_amount(value)


def stop_field(lines):
    """The field of a stop with these lines: its words without the kind and the text of the error."""
    words = lines.split(b"\n")[0].split(b" ")
    return b" ".join(words[:3] if words[0] == b"failed" else words)


def record_fields(stop, notes, values, count):
    """The fields after a label, if `count` values are requested: a stop by its lines or None, notes by their numbers and errors, and values."""
    if stop is not None:
        return [stop_field(stop), b""] + [b""] * count
    return [b"", b"; ".join(number + b" " + error for number, error in notes)] + [value_field(value) for value in values]
