"""Compares the grammar of tools/ with what the program prints for the worked rows: of each rule file that the program accepts the library finds no fault of
bytes, tokens or grammar, and of one that it rejects for such a fault the library finds one, there or farther on. agree_rows.py ROOT"""
import os
import re
import sys

ROOT = sys.argv[1]
sys.path.insert(0, ROOT + "/python")
sys.setrecursionlimit(50_000)

from vodmejka import items  # noqa: E402

DATA = ROOT + "/crates/rows/data"
GRAMMAR = ("bad byte", "bad token", "open string", "number too great", "syntax", "too deep")
COMMANDS = ("run", "serve", "batch", "cases", "compile", "lint", "check", "table", "facts")
UNREAD = ("unreadable ", "usage: ", "refused list", "refused file too long")


def content_of(row, name):
    """The bytes of a file of a row, or of one that rows share; nothing where there is none."""
    for folder in (f"{DATA}/rows/{row}", f"{DATA}/shared"):
        path = os.path.join(folder, name)
        if os.path.isfile(path):
            with open(path, "rb") as file:
                return file.read()
    return None


def rule_files(row):
    """The names of the rule files of a row, in order, where its command reads rule files."""
    words = (content_of(row, "words") or b"run l.txt - - h.csv").decode("latin-1").split()
    listed = content_of(row, words[1]) if len(words) > 3 and words[0] in COMMANDS else None
    return [] if listed is None else [line.strip("\r") for line in listed.decode("latin-1").split("\n")[1:] if line.strip("\r")]


def main():
    accepted = rejected = differ = 0
    for row in sorted(os.listdir(DATA + "/rows")):
        text = (content_of(row, "text") or b"").decode("latin-1")
        if text.startswith(UNREAD) or os.path.exists(f"{DATA}/rows/{row}/mishaps"):
            continue
        match = re.match(r"refused (\S+) line [0-9]+ byte ([0-9]+): ([a-z ]+)", text)
        wrong = match[1] if match and match[3].strip().startswith(GRAMMAR) else None
        for name in rule_files(row):
            content = content_of(row, name)
            if content is None:
                continue
            faults = items.read(content)[1]
            if name == wrong:
                rejected += 1
                if not any(fault.what == match[3].strip() or fault.byte >= int(match[2]) for fault in faults):
                    differ += 1
                    print(f"{row}: {match[0]}, but {[(fault.byte, fault.what) for fault in faults[:3]]}")
                break  # (the program reports nothing of the files after it)
            accepted += 1
            if faults:
                differ += 1
                print(f"{row}: {name} is accepted, but {[(fault.byte, fault.what) for fault in faults[:3]]}")
    print(f"{differ} differ; {'many' if accepted > 500 else 'few'} files are accepted, {'some' if rejected > 40 else 'few'} are not")


main()
