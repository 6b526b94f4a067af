#!/usr/bin/env python3
"""The crates by their first comments, and the files and names that pages cite.

    tests/crates.py --table         prints a table of all crates, in the order and the groups of crates.txt
    tests/crates.py NAME ..         prints what each of these crates is for, what it uses, what uses it, and its files of definitions
    tests/crates.py --cited PAGE .. prints each file and name that a page cites and the repository lacks

The first paragraph of a crate's first comment gives its purpose, the others what it uses and may not know. A page cites
`crate/folder/file` or `folder/file`, and in brackets after a file or a crate the names that it has: `m_fixed/src/table.rt` (`apply`), m_fixed (`apply`).
The status is 1 where a crate has no comment or something cited isn't there.
"""
import glob
import os
import re
import sys

ROOT = os.path.dirname(os.path.dirname(os.path.abspath(__file__)))
PATH = r"`(?P<path>\.?[\w*][\w.*+-]*(?:/[\w.*+-]+)+)/?(?: [^`]*)?`"
CRATE = r"`?\b(?P<crate>[a-z][a-z0-9_]*)\b`?"
NAMES = r" \((?P<names>`[^`)]+`(?:(?:, | and |; )`[^`)]+`)*)"
NOT_THERE = re.compile("^out/|^build/|NAME|CRATE")  # what commands make, and placeholders of names


def read(path):
    with open(os.path.join(ROOT, path), encoding="utf-8") as text:
        return text.read()


def index():
    """The groups of crates.txt: each a title and its crates, with what they use."""
    groups = []
    for line in read("crates.txt").split("\n"):
        if line.startswith("# "):
            groups.append((line[2:], []))
        elif ":" in line:
            name, _, uses = line.partition(":")
            groups[-1][1].append((name.split(" ")[0], uses.split()))
    return groups


def paragraphs(crate):
    """The paragraphs of a crate's first comment, each as one line."""
    for name in ("lib.rt", "main.rt"):
        path = f"crates/{crate}/src/{name}"
        if os.path.exists(os.path.join(ROOT, path)):
            lines = []
            for line in read(path).split("\n"):
                if not line.startswith("//!"):
                    break
                lines.append(line[3:].strip())
            return [" ".join(part.split("\n")) for part in "\n".join(lines).split("\n\n") if part]
    return []


def definitions(crate):
    """The files of a crate's definitions that its public calls need."""
    names = (os.path.basename(path)[: -len(".antt")] for path in sorted(glob.glob(os.path.join(ROOT, "crates", crate, "specs", "*.antt"))))
    return [name for name in names if name not in ("Lib", "inner")]


def table():
    """Prints the table, and returns the crates that have no comment."""
    missing = []
    for title, crates in index():
        print(f"\n{title[0].upper()}{title[1:]}:\n\n| Crate | What it is for | What it uses and may not know | Definitions |\n|---|---|---|---|")
        for crate, _ in crates:
            parts = paragraphs(crate)
            if not parts:
                missing.append(crate)
                continue
            cells = [parts[0], " ".join(parts[1:]), ", ".join(f"`{name}`" for name in definitions(crate))]
            print(f"| {crate} | " + " | ".join(cell.replace("|", "\\|") for cell in cells) + " |")
    return missing


def show(crate):
    """Prints a crate's first comment, uses, users and definitions."""
    uses = dict(row for _, crates in index() for row in crates)
    if crate not in uses:
        sys.exit(f"crates: there is no crate {crate}")
    print(f"{crate}\n")
    print("\n\n".join(paragraphs(crate)))
    print(f"\nuses: {' '.join(uses[crate]) or 'the standard library alone'}")
    print(f"used by: {' '.join(name for name, names in uses.items() if crate in names) or 'none'}")
    print(f"definitions (crates/{crate}/specs): {' '.join(definitions(crate)) or 'none'}\n")


def files_of(path):
    """The files that a cited path means."""
    names = [name for _, crates in index() for name, _ in crates]
    if path.split("/")[0] in names:
        path = f"crates/{path}"
    found = []
    for place in glob.glob(os.path.join(ROOT, path)):
        if os.path.isdir(place):
            found += [os.path.join(folder, name) for folder, _, inner in os.walk(place) for name in inner]
        else:
            found.append(place)
    return found


def lacking(path, names):
    """Which of the path and the names that are cited after it aren't there."""
    files = files_of(path)
    if not files:
        return [path]
    texts = ["\n".join(files)]
    for file in files:
        with open(file, encoding="utf-8", errors="replace") as text:
            texts.append(text.read())
    words = [word for name in names for word in re.findall(r"[^\s:.()*_][^\s:.()*]*", name)]
    return [f"{path} {word}" for word in words if not any(re.search(rf"(?<!\w){re.escape(word)}", text) for text in texts)]


def cited(pages):
    """Prints what pages cite and isn't there, and returns it."""
    crates = {name for _, rows in index() for name, _ in rows}
    lacks = []
    for page in pages:
        text = re.sub(r"(?ms)^```.*?^```", "", read(page))
        for match in re.finditer(f"(?:{PATH}|{CRATE})(?:{NAMES})?", text):
            names = re.findall("`([^`]+)`", match["names"] or "")
            if match["path"] and not NOT_THERE.search(match["path"]):
                lacks += [f"{page}: {what}" for what in lacking(match["path"], names)]
            elif match["crate"] in crates and names:
                lacks += [f"{page}: {what}" for what in lacking(match["crate"], names)]
    print("\n".join(lacks), end="\n" if lacks else "")
    return lacks


def main():
    words = sys.argv[1:]
    if words == ["--table"]:
        sys.exit(bool(table()))
    if len(words) > 1 and words[0] == "--cited":
        sys.exit(bool(cited(words[1:])))
    if not words or words[0].startswith("-"):
        sys.exit(__doc__)
    for crate in words:
        show(crate)


main()
