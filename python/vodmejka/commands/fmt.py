"""Lays rule files and drivers out: blanks, indentation, line ends. Tokens and comments stay as they are.

    fmt FILE..              writes each file in the one layout, whole or not at all
    fmt --check FILE..      names the files that aren't in it, and writes nothing
    fmt -                   lays a rule file on the standard input out, onto the standard output; fmt --driver - a driver

A file is a driver where its name ends with .mpp, or after --driver. A piece of a rule file, as a declaration, the head of a rule or a formula, begins a line
of its own; where its author broke it, it stays broken. Of blank lines one stays. Bytes of texts and comments aren't touched, whatever they encode.

The status is 0; 1 where a file has a fault of tokens or grammar, which is left as it is, or with --check isn't in the layout; 2 for other words; 3 where a
file can't be read, and 4 where it can't be written.
"""
import os
import sys

from .. import source
from ..lsp.layout import laid_out
from ..program import whole_file


def main(words):
    if "--help" in words:
        print(__doc__, end="")
        return 0
    is_check, is_driver = "--check" in words, "--driver" in words
    names = [word for word in words if word not in ("--check", "--driver")]
    if not names or any(name.startswith("--") for name in names):
        print("fmt: words: fmt [--check] [--driver] FILE..; see --help", file=sys.stderr)
        return 2
    return max(lay_out(name, is_check, is_driver or name.endswith(".mpp")) for name in names)


def lay_out(name, is_check, is_driver):
    """Lays a file out; the status."""
    try:
        content = source.taken(source.standard_input(), "input") if name == "-" else source.fetch(name)
    except source.Refused as fault:
        print(f"fmt: {fault}", file=sys.stderr)
        return 3
    try:
        made = laid_out(content, is_driver)
    except source.Refused as fault:
        print(f"fmt: {name} {fault}; vodmejka explain says more", file=sys.stderr)
        return 1
    if is_check:
        if made != content:
            print(name)
        return int(made != content)
    if name == "-":
        sys.stdout.flush()
        sys.stdout.buffer.write(made)
    elif made != content:
        write(os.path.realpath(name), made)
    return 0


def write(path, content):
    """Writes a file whole, or not at all, with the rights that it had."""
    try:
        with whole_file(path, os.stat(path).st_mode & 0o7777) as out:
            out.write(content)
    except OSError as fault:
        fault.filename = path
        raise
