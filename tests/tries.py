#!/usr/bin/env python3
"""Tries mutants, which are wrong bodies: tests/tries.py [--stands | --page] [--only=WORD ..] [CRATE ..]

tests/tries/CRATE.txt has wrong bodies of a crate's functions. This script copies the repository, puts them into the copy, as many
functions at a time as it can, checks these functions there, and prints for each whether the check rejected it. What can't be judged since
another function is wrong too is tried again alone. Without a name it goes through all crates. `rt check` proves the crates below first, and
takes what a check in this clone proved already: begin with `./build`, and it is an hour for all. It is no part of the gate.
--only=WORD takes the entries whose function or description has this word.

Of an entry the first line is `@ FUNCTION FILE`, the second `# ` and what is wrong; in brackets is what is right, or free, and
may be proved. Then come the lines of the file, each after `-`, and the lines in their place, each after `+`. The
first and the last may be parts of lines.

The verdicts are `refused`: the search doesn't prove a goal of the function; `hint`: an answer in proofs/ no longer fits, as
a name that it cites is gone, and the search alone doesn't decide, which proves nothing of the clause before somebody has looked at the
goal; `PROVED`, which is a clause to strengthen; `allowed`, for those in brackets that are proved; and `not judged`, with the reason.
Where an answer doesn't fit, the body is tried once more without the function's answers. --stands prints which entries no longer occur in their
files, and how many do, and checks nothing. --page lists all entries and the edits of crates/*/must-fail. The
status is 1 if one is proved or doesn't occur.
"""
import re
import shutil
import subprocess
import sys
import tempfile
from pathlib import Path
from typing import NamedTuple

TOP = Path(__file__).resolve().parent.parent


class Body(NamedTuple):
    """A wrong body: the function, its file, what is wrong with it, and the text that replaces another."""

    function: str
    file: str
    what: str
    old: str
    new: str

    @property
    def is_allowed(self):
        return self.what.startswith("(")


def bodies_of(crate, only=()):
    """Returns the wrong bodies of a crate, of these words if there are any."""
    found = []
    for entry in (TOP / "tests/tries" / f"{crate}.txt").read_text(encoding="utf-8").split("\n\n@ "):
        lines = entry.removeprefix("@ ").rstrip("\n").split("\n")
        function, file = lines[0].split(" ")
        old = "\n".join(line[1:] for line in lines[2:] if line.startswith("-"))
        new = "\n".join(line[1:] for line in lines[2:] if line.startswith("+"))
        body = Body(function, file, lines[1].removeprefix("# "), old, new)
        if not only or any(word in body.function or word in body.what for word in only):
            found.append(body)
    return found


def put(texts, body):
    """Puts a body into the texts of its crate's files, and returns whether its old text occurs there once."""
    text = texts.get(body.file, "")
    if text.count(body.old) != 1:
        return False
    texts[body.file] = text.replace(body.old, body.new)
    return True


def rounds_of(bodies, texts):
    """Returns bodies that can be tried at once, in rounds: one for each function, where the texts don't meet."""
    left = bodies
    while left:
        now, later, changed = [], [], dict(texts)
        for body in left:
            is_free = all(body.function != other.function or body.file != other.file for other in now)
            (now if is_free and put(changed, body) else later).append(body)
        yield now
        left = later


def texts_of(crate_folder):
    """Returns the texts of a crate's files in src/, by their paths."""
    return {str(path.relative_to(crate_folder)): path.read_text(encoding="utf-8") for path in crate_folder.glob("src/**/*.rt")}


def module_of(body):
    """Returns the module of a body's file, as it precedes a name that a check prints: "" for the root."""
    module = body.file.removeprefix("src/").removesuffix(".rt").replace("/", "::")
    return "" if module == "lib" else module + "::"


def answers_of(crate_folder, body):
    """Returns the file with the answers to the goals of a body's function, where there is one file that is its alone."""
    module = body.file.removeprefix("src/").removesuffix(".rt").removesuffix("/mod")
    name = body.function.rpartition("::")[2]
    found = [path for path in (crate_folder / "proofs").glob(f"**/{name}/Answers.antt") if module == "lib" or f"proofs/{module}/" in path.as_posix()]
    return found[0] if len(found) == 1 else None


def check(crate_folder, texts, bodies):
    """Checks the functions of these bodies, and returns the lines that the check prints, and where it found errors."""
    changed = dict(texts)
    for body in bodies:
        put(changed, body)
    only = [word for body in bodies for word in ("--only", module_of(body) + body.function)]
    try:
        for path, text in changed.items():
            (crate_folder / path).write_text(text, encoding="utf-8")
        # status 2 is a path that fits no function, or several: then the whole crate is checked
        for words in (only, []):
            told = subprocess.run(["rt", "check", "--allow-holes", *words], cwd=crate_folder, capture_output=True, text=True, errors="replace")
            if told.returncode != 2:
                break
    finally:
        for path, text in texts.items():
            (crate_folder / path).write_text(text, encoding="utf-8")
    lines = (told.stdout + told.stderr).split("\n")
    errors = [(match[1], int(match[2])) for match in (re.match(r"(?:.*/)?(src/[\w/]+\.rt):(\d+):\d+: error", line) for line in lines) if match]
    return lines, errors, changed


def nearest(bodies, changed, path, line):
    """Returns the body whose text in its file is nearest to a line."""

    def distance(body):
        first = changed[path].count("\n", 0, max(changed[path].find(body.new), 0)) + 1
        last = first + body.new.count("\n")
        return 0 if first <= line <= last else min(abs(line - first), abs(line - last))

    return min((body for body in bodies if body.file == path), key=distance, default=None)


def verdict(crate, body, lines, is_alone):
    """Returns what the lines of a check say of a body. Where it was the only one, nothing else can keep its function from a proof."""
    module = module_of(body)
    owner, _, name = body.function.rpartition("::")
    path = rf"fn {crate}::(?:\w+::)*(?:\w+(?=From))?{owner}::{name}: " if owner else rf"fn {crate}::{module}(?:\w+::)?{name}: "
    found = [line for line in lines if re.match(path, line)]
    if len(found) != 1:
        return f"not judged: {len(found)} functions have this name"
    line = found[0]
    if ": no holes" in line:
        return "allowed" if body.is_allowed else "PROVED"
    if is_alone and ": not proved" in line:
        return "hint: an answer in proofs/ doesn't fit"
    if "one proof of its cycle" in line or "of this cycle" in line or "/+" in line or ".+" in line:
        # functions that call one another have one proof: only a goal with the function's own name speaks of it
        goals = re.findall(r"[`.]([\w.+-]+)`", line)
        return "refused" if any(goal.split(".")[-1].startswith(name + "-") for goal in goals) else "not judged: another of its cycle is refused"
    if "antt refuses" in line:
        return "hint: an answer in proofs/ doesn't fit"
    if "did not prove" in line:
        return "refused"
    return "not judged: " + line.partition(": ")[2]


def without_answers(crate_folder, crate, texts, body, told):
    """Returns the verdict on a body whose function's answers don't fit, without them: the search alone decides, if it can."""
    answers = answers_of(crate_folder, body)
    if answers is None:
        return told
    kept = answers.read_text(encoding="utf-8")
    answers.unlink()
    try:
        lines, errors, _ = check(crate_folder, texts, [body])
    finally:
        answers.write_text(kept, encoding="utf-8")
    if errors:
        return told
    alone = verdict(crate, body, lines, True)
    is_false = any("allow values at which this goal is false" in line for line in lines)
    return alone if alone in ("PROVED", "allowed") or (alone == "refused" and is_false) else told


def tried(crate_folder, crate, only):
    """Returns the wrong bodies of a crate, each with its verdict."""
    texts = texts_of(crate_folder)
    standing = [body for body in bodies_of(crate, only) if put(dict(texts), body)]
    alone = []
    for bodies in rounds_of(standing, texts):
        lines, errors, changed = check(crate_folder, texts, bodies)
        while errors:
            # what seems to be at the error's place is tried again alone, and all if nothing is
            wrong = {nearest(bodies, changed, *error) for error in errors} - {None} or set(bodies)
            alone += [body for body in bodies if body in wrong]
            bodies = [body for body in bodies if body not in wrong]
            lines, errors, changed = check(crate_folder, texts, bodies) if bodies else ([], [], {})
        for body in bodies:
            told = verdict(crate, body, lines, len(bodies) == 1)
            if (told.startswith("not judged") and len(bodies) > 1) or told.startswith("hint"):
                alone.append(body)
            else:
                yield body, told
    for body in alone:
        lines, errors, _ = check(crate_folder, texts, [body])
        told = "not judged: it doesn't compile" if errors else verdict(crate, body, lines, True)
        yield body, without_answers(crate_folder, crate, texts, body, told) if told.startswith("hint") else told


HEAD = """# All mutants

Printed by `tests/tries.py --page` from `tests/tries` and `crates/*/must-fail`. docs/STRENGTH.md describes what they show of the contracts.
"Edits" are the mutants that the gate tries each time; the rows are tried by `tests/tries.py`. In brackets is what is right or free, and may be proved.
"""


def cell(text):
    """Returns a text as the cell of a table."""
    return text.replace("|", "\\|")


def page():
    """Returns the page that lists all mutants."""
    edits = {path.name: sorted(edit.stem.replace("_", " ") for edit in path.glob("must-fail/*.edit")) for path in (TOP / "crates").iterdir()}
    rows = {path.stem: bodies_of(path.stem) for path in (TOP / "tests/tries").glob("*.txt")}
    crates = [line.split(":")[0] for line in (TOP / "crates.txt").read_text(encoding="utf-8").split("\n") if line and not line.startswith("#")]
    lines = [HEAD, "| Crate | Edits | Mutants | Right or free |", "|---|---:|---:|---:|"]
    counts = [(crate, len(edits.get(crate, [])), rows.get(crate, [])) for crate in crates if edits.get(crate) or rows.get(crate)]
    for crate, count, bodies in counts:
        free = sum(body.is_allowed for body in bodies)
        lines.append(f"| {crate} | {count} | {len(bodies) - free} | {free} |")
    all_free = sum(body.is_allowed for _, _, bodies in counts for body in bodies)
    lines.append(f"| all | {sum(count for _, count, _ in counts)} | {sum(len(bodies) for _, _, bodies in counts) - all_free} | {all_free} |")
    for crate, count, bodies in counts:
        lines += ["", f"## {crate}", ""]
        if count:
            lines += ["Edits: " + "; ".join(edits[crate]) + ".", ""]
        if bodies:
            lines += ["| Function | File | What is wrong |", "|---|---|---|"]
            lines += [f"| `{body.function}` | `{body.file}` | {cell(body.what)} |" for body in bodies]
    return "\n".join(lines).replace("\n\n\n", "\n\n").rstrip("\n") + "\n"


def main():
    words = sys.argv[1:]
    only = [word.removeprefix("--only=") for word in words if word.startswith("--only=")]
    words = [word for word in words if not word.startswith("--only=")]
    if [word for word in words if word.startswith("-") and word not in ("--page", "--stands")]:
        sys.exit(__doc__)
    if "--page" in words:
        sys.stdout.write(page())
        return
    crates = [word for word in words if not word.startswith("-")] or sorted(path.stem for path in (TOP / "tests/tries").glob("*.txt"))
    for crate in crates:
        if not (TOP / "tests/tries" / f"{crate}.txt").exists():
            sys.exit(f"tries: there are no wrong bodies of {crate}")
    failed = stands = 0
    for crate in crates:
        texts = texts_of(TOP / "crates" / crate)
        for body in bodies_of(crate, only):
            if put(dict(texts), body):
                stands += 1
            else:
                failed += 1
                print(f"{crate} {body.function}: its text doesn't stand once in {body.file}: {body.what}")
    if "--stands" in words:
        print(f"tries: {stands} stand, {failed} don't")
    else:
        counts = {}
        with tempfile.TemporaryDirectory() as folder:
            copy = Path(folder) / "copy"
            shutil.copytree(TOP, copy, ignore=shutil.ignore_patterns(".git", "unlanded"))
            for crate in crates:
                for body, told in tried(copy / "crates" / crate, crate, only):
                    kind = told.partition(":")[0]
                    counts[kind] = counts.get(kind, 0) + 1
                    failed += told == "PROVED"
                    print(f"{crate} {body.function}: {told}: {body.what}", flush=True)
        print("tries: " + ", ".join(f"{count} {kind}" for kind, count in sorted(counts.items())))
    sys.exit(failed > 0)


if __name__ == "__main__":
    main()
