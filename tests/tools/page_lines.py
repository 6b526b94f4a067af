"""Runs the commands of a section of a page, and compares: page_lines.py PAGE HEADING [OTHER HEADING]

Each command is in a block of its own. A block after it has all that it prints, and what the text cites between it and the next command, as
`CHR 0 to 9` or `never stops 1 A01` or `depends CHR 1AJ`, is one of the lines that it prints. Prints a line for each command, and what isn't so. With OTHER,
a page in another language, its section must have the same blocks and cite the same lines.
"""
import os
import re
import shlex
import subprocess
import sys

CITED = re.compile(r"`((?:never stops|depends) [^`]+|[A-Z][A-Z0-9]* (?:-?[0-9]|undefined|over)[^`]*)`")


def parts_of(page, heading):
    """The blocks of a section, each with the lines that are cited after it."""
    with open(page) as file:
        lines = file.read().split("\n")
    parts, block = [([], [])], None
    for line in lines[lines.index("## " + heading) + 1 :]:
        if line.startswith("## "):
            break
        if line.startswith("```"):
            if block is not None:
                parts.append((block, []))
            block = [] if block is None else None
        elif block is not None:
            block.append(line)
        else:
            parts[-1][1].extend(CITED.findall(line))
    return parts


def is_command(block):
    return block[:1] != [] and block[0].startswith(("./", "tools/", "python3 "))


def printed_by(command):
    """The lines that a command prints; ./m_survey is the one that M_SURVEY names."""
    words = shlex.split(command)
    words[0] = os.environ["M_SURVEY"] if words[0] == "./m_survey" else words[0]
    done = subprocess.run(words, stdout=subprocess.PIPE, check=False)
    return done.stdout.decode("latin-1").split("\n")[:-1]


def main(page, heading, other=None, other_heading=None):
    parts = parts_of(page, heading)
    if other and parts_of(other, other_heading) != parts:
        print(f"{other} has other blocks or lines")
    printed = []
    for block, cited in parts:
        if is_command(block):
            printed = printed_by(block[0])
            print(f"{block[0]}: {len(printed)} lines")
        elif block and block != printed:
            print("other lines are printed:", *(line for line in block + printed if (line in block) != (line in printed)), sep="\n  ")
        for line in cited:
            print(f"cited: {line}" if line in printed else f"not printed: {line}")


main(*sys.argv[1:])
