#!/usr/bin/env python3
"""Prints each file of the repository that is longer than 400 lines, each function longer than 40, and each line of code wider than 160 columns.

    tests/sizes.py      the status is 1 if there is one

It reads code, not data: .rt, .antt, Python, JavaScript, C, style sheets and scripts of the shell. Functions are those of Python, JavaScript and the shell. A
line with the usage line of a program may be as wide as that is.
"""
import ast
import os
import re
import subprocess
import sys

ROOT = os.path.dirname(os.path.dirname(os.path.abspath(__file__)))
LINES, FUNCTION, COLUMNS = 400, 40, 160
CODE = (".rt", ".antt", ".py", ".sh", ".js", ".mjs", ".c", ".css")
FIXED = "usage: m_tax run|serve LIST"
BEGINS = {
    "js": re.compile(r"(\s*)(?:export )?(?:default )?(?:(?:async )?function\b.*\{$|(?:const|let) \w+ = .*=> \{$|(?:static |async |get |set )*#?\w+\(.*\) \{$)"),
    "sh": re.compile(r"(\s*)\w+\(\) [{(]$"),
}
CONTROL = re.compile(r"\s*(?:if|for|while|switch|catch)\b")


def kind_of(name, text):
    """What a file is written in: "py", "js", "sh", or "" for other code; None for data."""
    ending = os.path.splitext(name)[1]
    first = text[: text.find("\n")] if text.startswith("#!") else ""
    if ending == ".py" or "python" in first:
        return "py"
    if ending in (".js", ".mjs"):
        return "js"
    if ending == ".sh" or first.endswith(("/sh", "/bash", "env bash")):
        return "sh"
    return "" if ending in CODE else None


def functions(kind, text):
    """The functions of a file: the name or head of each, its first line, and how many lines it has."""
    if kind == "py":
        for node in ast.walk(ast.parse(text)):
            if isinstance(node, (ast.FunctionDef, ast.AsyncFunctionDef)):
                yield node.name, node.lineno, node.end_lineno - node.lineno + 1
    elif kind:
        lines = text.split("\n")
        for number, line in enumerate(lines):
            begun = BEGINS[kind].match(line)
            if begun and not CONTROL.match(line):
                ends = (begun[1] + "}", begun[1] + ")")
                end = next((at for at in range(number + 1, len(lines)) if lines[at].startswith(ends)), len(lines) - 1)
                yield line.strip(), number + 1, end - number + 1


def excesses(name, text):
    """What of a file is over a limit, a line each."""
    kind, lines = kind_of(name, text), text.split("\n")
    if kind is None:
        return
    if len(lines) - 1 > LINES:
        yield f"{name} has {len(lines) - 1} lines, and the limit is {LINES}"
    for number, line in enumerate(lines, 1):
        if len(line) > COLUMNS and FIXED not in line:
            yield f"{name}:{number} has {len(line)} columns, and the limit is {COLUMNS}"
    for what, number, count in functions(kind, text):
        if count > FUNCTION:
            yield f"{name}:{number} {what} has {count} lines, and the limit is {FUNCTION}"


def main():
    listed = subprocess.run(["git", "ls-files", "-z", "--", ".", ":!crates/rows/data"], cwd=ROOT, capture_output=True, text=True, check=True).stdout
    found = []
    for name in filter(None, listed.split("\0")):
        path = os.path.join(ROOT, name)
        if os.path.isfile(path) and (name.endswith(CODE) or "." not in os.path.basename(name)):
            try:
                with open(path, encoding="utf-8") as file:
                    found += excesses(name, file.read())
            except UnicodeDecodeError:
                pass
    print("\n".join(found), end="\n" if found else "")
    return 1 if found else 0


if __name__ == "__main__":
    sys.exit(main())
