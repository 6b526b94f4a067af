"""Runs the commands of pages, and compares what they print with the answers on the page: pages.py PAGE..

In a page of Markdown a block of commands begins with one that COMMAND has. The next block is its answer, if at most one short line is between the two, or
what is between ends with "prints" or "affiche"; so is the block after a command in the text that is followed by one of these words. Commands run in the
order of the page, in one folder, with one below it in the place of /tmp. Words in capitals that stand for files are replaced by those of STANDS_FOR. Forms of
commands, with what may be left out, aren't run: the tool's --help has the options that they name. Neither are commands that take minutes or need other
machines. A block after the name of a file of the examples has lines of that file.
Prints for each page how many answers, other commands and lines of files it has, how many blocks weren't run, each answer that isn't what the commands print,
each other command whose status isn't 0, with that, and each option and line that isn't there.
"""
import os
import re
import subprocess
import sys

ROOT = os.environ["ROOT"]
BLOCK = re.compile(r"^```\w*\n(.*?)^```$", re.DOTALL | re.MULTILINE)
COMMAND = re.compile(r"(\./m_tax|\./m_survey|tools/\w+|printf|sed|head|python3|for|sh|\./build)\b")
PRINTS = re.compile(r"(?:prints|affiche)$")
ALONE = re.compile(r"`((?:\./m_tax|\./m_survey|tools/)[^`]*)` (?:prints|affiche)$")
FILE = re.compile(r"`(examples/[\w/]+\.\w+)`[ \u00a0]?:$")
FORM = re.compile(r"\[(?:--|[A-Z])|[A-Z]\.\.")
LONG = re.compile(r"check\.py|cluster|^\./build$|within\.py|make\.sh|spark|parallel|DIGEST", re.MULTILINE)
FIRST = "examples/first/"
STANDS_FOR = {
    **dict.fromkeys(["LIST", "LIST1", "LIST2"], FIRST + "rules.list"),
    **dict.fromkeys(["DRIVER", "DRIVER1", "DRIVER2", "REQUESTS"], "-"),
    **dict.fromkeys(["TABLE", "NATIONAL.csv"], FIRST + "table.csv"),
    **dict.fromkeys(["CODE1", "CODE2"], "first.code"),
    "HOUSEHOLD": FIRST + "household.csv",
    "RANGES": "ranges.csv",
    "NAME": "IRN",
    "N": "3",
}
# (what a command writes keeps its name)
WORD = re.compile(r"(?<![\w=\[<-])(?<!> )(" + "|".join(map(re.escape, STANDS_FOR)) + r")(?![\w\[.=])")


def commands_and_answers(text):
    """The commands, each with its answer, or None where no block follows at once; and None with the number of blocks of commands that aren't run."""
    blocks, left = list(BLOCK.finditer(text)), 0
    for before, block, after in zip([None, *blocks], blocks, [*blocks[1:], None]):
        alone = ALONE.search(text[before.end() if before else 0 : block.start()].rstrip())
        if alone:
            yield alone[1] + "\n", block[1]
        commands = block[1].replace("./build\n", "")
        if not COMMAND.match(commands):
            continue
        if FORM.search(commands) or LONG.search(commands):
            left += 1
            continue
        between = text[block.end() : after.start()].strip() if after else ""
        close = len(between) < 40 or PRINTS.search(between) and not ALONE.search(between)
        is_answer = after is not None and close and not COMMAND.match(after[1])
        yield commands, after[1] if is_answer else None
    yield None, left


def printed(commands, to_the_first_error):
    """What commands print, on either output, with /tmp in the place of the folder that is used for it; and the status of the last that ran."""
    here = os.path.join(os.getcwd(), "tmp")
    commands = WORD.sub(lambda word: STANDS_FOR[word[1]], commands).replace("/tmp/", here + "/")
    ran = subprocess.run(["sh", "-ec" if to_the_first_error else "-c", commands], stdout=subprocess.PIPE, stderr=subprocess.STDOUT, stdin=subprocess.DEVNULL)
    return ran.stdout.decode("utf-8", "replace").replace(here + "/", "/tmp/"), ran.returncode


def options_of_forms(text):
    """The options that forms of commands name, and the tool's --help doesn't."""
    for block in BLOCK.finditer(text):
        for tool, words in re.findall(r"\b(tools/[\w-]+)(.*)", block[1] if FORM.search(block[1]) else ""):
            described = subprocess.run([os.path.join(ROOT, tool), "--help"], stdout=subprocess.PIPE, text=True).stdout
            for option in re.findall(r"--[\w-]+", words):
                if not re.search(option + r"\b", described):
                    yield f"{tool} --help doesn't name {option}"


def lines_of_files(text):
    """The lines of files that a page shows: how many, and those that the file doesn't have in this order."""
    count, wrong = 0, []
    for block in BLOCK.finditer(text):
        named = FILE.search(text[: block.start()].rstrip())
        if named:
            with open(os.path.join(ROOT, named[1]), encoding="utf-8") as file:
                left = iter(file.read().split("\n"))
            lines = block[1].split("\n")[:-1]
            count += len(lines)
            wrong += [f"{named[1]} hasn't the line: {line}" for line in lines if line not in left]
    return count, wrong


def main(pages):
    for page in pages:
        with open(os.path.join(ROOT, page), encoding="utf-8") as file:
            text = file.read()
        *found, (_, left) = commands_and_answers(text)
        ran = [(commands, answer, *printed(commands, answer is None)) for commands, answer in found]
        answers, (lines, wrong) = sum(answer is not None for _, answer in found), lines_of_files(text)
        print(f"{page}: {answers} answers, {len(found) - answers} other blocks of commands, {left} not run; {lines} lines of files")
        for commands, answer, given, status in ran:
            if answer is not None and given != answer:
                print(f"{commands}prints\n{given}and not\n{answer}", end="")
            elif answer is None and status != 0:
                print(f"{commands}status {status}: {given}", end="")
        print("".join(line + "\n" for line in [*wrong, *options_of_forms(text)]), end="")


main(sys.argv[1:])
