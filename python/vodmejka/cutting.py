"""Cutting a table of households into parts, each of which is a table within the limits of the program."""
import contextlib
import hashlib
import os

from . import records, runs
from .errors import Failed
from .limits import FILE_BYTES
from .parts import part_path, write_whole


def header_line(header):
    """The first line of a table, from its header, which begins with `name`."""
    first = records.unquoted(header.split(b",")[0])
    if first != b"name" or b"\n" in header or b"\r" in header:
        shown = header[:60].decode("utf-8", "replace")
        raise Failed(f"the first record is {shown}, and that of a table is name and codes with commas between; tools/table-in writes it", False)
    return header + b"\n"


def parts_of(header, rows, most):
    """The rows of each part, so that a part is within the limits of a table, with their labels."""
    part, labels, size = [], [], len(header)
    for row, label in rows:
        if part and (len(part) == most or size + len(row) + 1 > FILE_BYTES):
            yield part, labels
            part, labels, size = [], [], len(header)
        part.append(row + b"\n")
        labels.append(label + b"\n")
        size += len(row) + 1
    if part:
        yield part, labels


def new_folder(folder):
    """Makes the folder of a table; one that is there must be empty."""
    os.makedirs(folder, exist_ok=True)
    there = os.listdir(folder)
    if "table" not in there and any(name.startswith("part-") for name in there):
        raise Failed(f"{folder} has parts of a table that wasn't cut to its end: remove it, and cut again", False)
    if there:
        raise Failed(f"{folder} isn't empty", False)


def cut(table, folder, most, once):
    """Cuts a table into parts of at most so many rows, also where `once` rejects a label that occurs twice. Returns the numbers of households and of parts."""
    new_folder(folder)
    total, made, labels = 0, [], hashlib.sha256()
    with contextlib.ExitStack() as stack:
        sorter = runs.Sorter(stack) if once else None
        file = stack.enter_context(open(table, "rb"))
        before, rows = records.state(file), records.records(file, FILE_BYTES)
        header = header_line(next(rows, (b"", b""))[0])
        for part, names in parts_of(header, rows, most):
            joined = b"".join(names)
            labels.update(joined)
            if sorter:
                sorter.add(joined)
            content = header + b"".join(part)
            write_whole(part_path(folder, len(made) + 1, "csv"), content)
            made.append(hashlib.sha256(content).hexdigest())
            total += len(part)
        if records.state(file) != before:
            raise Failed(f"{table} was changed meanwhile: remove {folder} and cut it again", False)
        twice = sorter.first() if sorter else ""
    if twice:
        raise Failed(f"the label {twice} stands twice", False)
    if total == 0:
        raise Failed(f"{table} has no households", False)
    write_whole(os.path.join(folder, "table"), "\n".join([f"{len(made)} {total} {labels.hexdigest()}", *made, ""]).encode())
    return total, len(made)
