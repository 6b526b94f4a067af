"""Compares the faults that the server reports with those of the reference implementation, of rule files that are changed at random: where this reports none,
the server reports none, and where it reports one, so does the server. Cycles and sizes are left to the program. faults.py ROOT COUNT SEED"""
import glob
import os
import random
import re
import sys
import tempfile

ROOT, COUNT, SEED = sys.argv[1], int(sys.argv[2]), int(sys.argv[3])
sys.path[:0] = [ROOT + "/python", ROOT + "/tests/second"]
sys.setrecursionlimit(50_000)

from reading.faults import Refused  # noqa: E402
from reading.sources import Rules, Source  # noqa: E402
from vodmejka.lsp import diagnostics  # noqa: E402
from vodmejka.lsp.checks import ERROR  # noqa: E402
from vodmejka.lsp.workspace import Workspace  # noqa: E402

NAME = re.compile(rb"(?<![A-Za-z0-9_\"])[A-Z][A-Z0-9_]*(?![A-Za-z0-9_\"])")
WORDS = b"i j k X 1 3 9 REV A..C C..A 1..3 3..1 1..10001 V,C ; i=1..2 j=1..2 [0] [9] [X] [1] ZZ E01 iliad batch si ( )".split()
KINDS = ("bad byte", "bad range", "bad target", "declared twice", "defined twice", "is a table", "loop too large", "none", "not a table", "number too great",
         "syntax", "table size", "unbound index", "unknown error", "unknown name")
PROGRAMS = ("cycle", "too many parts", "too many cells", "too deep", "open string")


def contents():
    """Rule files of the application iliad."""
    names = glob.glob(ROOT + "/crates/rows/data/rows/*/*.m") + glob.glob(ROOT + "/examples/*/*.m")
    found = [open(name, "rb").read() for name in sorted(names)]
    return [content for content in dict.fromkeys(found) if len(content) < 3_000 and b"iliad" in content]


def changed(content, chance):
    """A content with a name in the place of another, another word, a line twice or left out."""
    for _ in range(chance.choice([0, 1, 1, 1, 2])):
        names = list(NAME.finditer(content))
        form = chance.randrange(5)
        if form < 2 and names:
            one, other = chance.choice(names), chance.choice(names)[0]
            content = content[: one.start()] + other + content[one.end() :]
        elif form == 2 and names:
            at = chance.choice(names)
            content = content[: at.end()] + chance.choice(WORDS) + content[at.end() :]
        elif form == 3:
            pieces = re.findall(rb"[A-Za-z0-9_.]+|.|\n", content) or [b""]
            at = chance.randrange(len(pieces))
            pieces[at] = chance.choice(WORDS)
            content = b"".join(pieces)
        else:
            lines = content.split(b"\n")
            at = chance.randrange(len(lines))
            lines[at : at + 1] = chance.choice([[], [lines[at]] * 2])
            content = b"\n".join(lines)
    return content


def reference(content):
    """The byte and the name of the fault that the reference implementation reports, or None."""
    try:
        Rules(Source(b"iliad", [(b"a.m", content)], None, None))
    except Refused as fault:
        match = re.fullmatch(rb"refused a\.m line [0-9]+ byte ([0-9]+): (.*?)\n?", fault.line)
        return (int(match[1]), match[2].decode()) if match else (0, fault.line.decode().removeprefix("refused ").strip())
    return None


def told(workspace, text, content):
    """The faults that the server reports."""
    workspace.take(text, content, "latin-1")
    while workspace.step():
        pass
    found = [one for one in diagnostics.of_text(workspace, text) if one["severity"] == ERROR]
    return [(text.byte(one["range"]["start"]), one["message"].split("\n")[0]) for one in found]


def agree(wanted, found):
    if wanted is None or not found:
        return wanted is None and not found
    if wanted[1] == "syntax":
        return any(what == "syntax" and byte >= wanted[0] or what != "syntax" for byte, what in found)
    if wanted[1].startswith("unknown error "):
        return wanted[1] in [what for _, what in found]  # (the program reports it at its check)
    return wanted in found


def main():
    chance, differ, kinds = random.Random(SEED), 0, {}
    rules = contents()
    with tempfile.TemporaryDirectory() as folder:
        path = os.path.join(folder, "a.m")
        for name, content in ((path, b""), (os.path.join(folder, "rules.list"), b"iliad\na.m\n")):
            with open(name, "wb") as out:
                out.write(content)
        workspace = Workspace()
        text = workspace.open("file://" + path, "m", 1, "")
        for _ in range(COUNT):
            content = changed(chance.choice(rules), chance)
            wanted = reference(content)
            kind = wanted[1] if wanted else "none"
            if kind.startswith(PROGRAMS):
                continue
            kind = re.sub(" [A-Z0-9_][A-Za-z0-9_]*(\\[[0-9]+\\])?$", "", kind)
            kinds[kind] = kinds.get(kind, 0) + 1
            found = told(workspace, text, content)
            if not agree(wanted, found):
                differ += 1
                print(f"{wanted}, but {found[:4]}: {content!r}")
    print(f"{differ} differ; kinds of faults that none had:", ", ".join(kind for kind in KINDS if kind not in kinds) or "none")


main()
