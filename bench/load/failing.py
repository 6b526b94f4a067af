#!/usr/bin/env python3
"""Runs the programs with each of their calls for memory, and each open, read and write, failing in turn.

    failing.py PROGRAM FOLDER [COMMAND..]

PROGRAM is m_tax; m_survey is beside it. Each command of COMMANDS is run as it is, and then once for each call of a kind, in which that one call fails
(failing.c, by LD_PRELOAD). docs/FORMATS.md has what must happen then:

- no memory: status 5 with nothing on the standard output, except for `batch`, `cases` and `table`, which may have written a prefix of the answer; or the
  same as without it, if the memory was for an optional buffer (a sort's, for example);
- an open or a read that fails: status 3 and the line `unreadable NAME`, of a file that the command names; the same as without it, where the
  machine's own list of processors (below /sys) can't be opened or read; in a session that has begun, the replies to the lines so far
  and the line `unreadable input`;
- a write that fails: status 4, and a prefix of the answer.

Prints a line for each run that ends in another way, and a table of the counts of runs. Past EACH calls of a kind only some hundred are tried.
The status is 1 where there was one.
"""
import os
import re
import subprocess
import sys
from collections import Counter

sys.path.insert(0, os.path.dirname(os.path.dirname(os.path.abspath(__file__))))
from measured import figure  # noqa: E402

HERE = os.path.dirname(os.path.abspath(__file__))
TOP = os.path.dirname(os.path.dirname(HERE))
RUN = ["rules.list", "driver.mpp", "-"]
EACH = 5_000
SURVEYS = ("table", "facts", "version")
COMMANDS = {
    "run": (["run", *RUN, "household.csv"], b""),
    "serve": (["serve", *RUN, "household.csv"], b"show\nset 7UD 50000\nshow\nclear 7UD\nshow\n"),
    "batch": (["batch", *RUN, "table.csv"], b""),
    "large": (["large", "3"], b""),
    "compile": (["compile", *RUN], b""),
    "exec": (["exec", "impots.code", "household.csv"], b""),
    "check": (["check", "rules.list", "household.csv", "report.txt"], b""),
    "lint": (["lint", *RUN], b""),
    "cases": (["cases", *RUN, "cases.csv"], b""),
    "a batch of several windows": (["batch", "small.list", "-", "-", "wide.csv"], b""),
    "rule files on threads": (["run", "eight.list", "-", "-", "none.csv"], b""),
    "a refused code file": (["exec", "cut.code", "household.csv"], b""),
    "a refused source": (["run", "refused.list", "-", "-", "household.csv"], b""),
    "a refused household": (["run", *RUN, "refused.csv"], b""),
    "table": (["table", *RUN, "table.csv"], b""),
    "table of a code file": (["table", "impots.code", "table.csv"], b""),
    "a table of several windows": (["table", "small.list", "-", "-", "wide.csv"], b""),
    "facts": (["facts", *RUN, "ranges.csv"], b""),
    "version": (["version"], b""),
    "refused ranges": (["facts", *RUN, "badranges.csv"], b""),
}
UNREADABLE = re.compile(rb"unreadable [a-z0-9]+\.(list|m|mpp|csv|code|txt)\n")


def files(program, folder):
    """The files of the commands: those of examples/impots with their code file, a table of 600 households (groups have 256), one of 10,000 over a
    single rule, which is more than a window has, eight rule files, and refused ones."""
    for name in ("impots.m", "driver.mpp", "household.csv"):
        with open(os.path.join(TOP, "examples", "impots", name), "rb") as it, open(os.path.join(folder, name), "wb") as out:
            out.write(it.read())
    texts = {
        "rules.list": "iliad\nimpots.m\n",
        "refused.list": "iliad\nrefused.m\n",
        "refused.m": "A : calculee : \"\" ;\nregle 1 : application : iliad ; A = B ;\n",
        "refused.csv": "code,amount\n7UD,x\n",
        "report.txt": "S1 = 10000\nS2 = 25000\nS3 = 80000\n",
        "cases.csv": "name,A01,=IRNET\n" + "".join(f"h{n},{100 * n},0\n" for n in range(300)),
        "small.list": "iliad\nsmall.m\n",
        "small.m": "V : saisie revenu classe = 0 alias 7UD : \"\" ;\nA : calculee restituee : \"\" ;\nregle 1 : application : iliad ; A = V + 1 ;\n",
        "ranges.csv": "code,given,least,greatest\nA01,maybe,0,100000\n7UD,yes,0,1000\n0NB,yes,1,4\n",
        "badranges.csv": "code,given,least,greatest\n7UD,yes,1,x\n",
        "wide.csv": "name,7UD\n" + "".join(f"h{n},{n}\n" for n in range(10_000)),
        "eight.list": "iliad\n" + "".join(f"r{n}.m\n" for n in range(8)),
        **{f"r{n}.m": f"A{n} : calculee restituee : \"\" ;\nregle {n + 1} : application : iliad ; A{n} = {n} ;\n" for n in range(8)},
        "none.csv": "code,amount\n",
        "table.csv": "name,7UD\n" + "".join(f"h{n},{100 * n}\n" for n in range(600)),
    }
    for name, text in texts.items():
        with open(os.path.join(folder, name), "w", encoding="utf-8") as out:
            out.write(text)
    code = subprocess.run([program, "compile", *RUN], cwd=folder, stdout=subprocess.PIPE, check=True).stdout
    for name, text in (("impots.code", code), ("cut.code", code[:-4])):
        with open(os.path.join(folder, name), "wb") as out:
            out.write(text)


def done(program, folder, shim, words, typed, kind="", number=0):
    """What is known of the call that failed (None where it never came), the status and what was printed."""
    mark = os.path.join(folder, "mark")
    if os.path.exists(mark):
        os.remove(mark)
    env = {"LD_PRELOAD": shim, "FAIL_KIND": kind, "FAIL_AT": str(number), "FAIL_MARK": mark}
    path = os.path.join(os.path.dirname(program), "m_survey") if words[0] in SURVEYS else program
    run = subprocess.run([path, *words], cwd=folder, env=env, input=typed, stdout=subprocess.PIPE, stderr=subprocess.PIPE, timeout=60, check=False)
    if not os.path.exists(mark):
        return None, run.returncode, run.stdout
    with open(mark, encoding="utf-8", errors="replace") as text:
        return text.read(), run.returncode, run.stdout


def is_in_parts(command):
    """Whether a command may have printed a part of its answer when memory ends (`writes_in_parts` of m_commands)."""
    return COMMANDS[command][0][0] in ("batch", "cases", "table")


def is_right(command, kind, name, whole, status, printed):
    """Whether a run in which one call of this kind failed ended as it must, where an unfailed one has this status and text."""
    text = whole[1]
    if kind in ("open", "read") and name.startswith("/sys/"):
        return (status, printed) == whole
    if kind == "memory":
        return (status, printed) == whole or status == 5 and (printed == b"" or is_in_parts(command) and text.startswith(printed))
    if kind == "write":
        return status == 4 and text.startswith(printed)
    if status == 3 and UNREADABLE.fullmatch(printed):
        return True
    line = b"unreadable input\n"
    return command == "serve" and kind == "read" and status == 3 and printed.endswith(line) and text.startswith(printed[: -len(line)])


def main():
    program, folder = map(os.path.abspath, sys.argv[1:3])
    shim = os.path.join(folder, "failing.so")
    subprocess.run(["cc", "-O1", "-shared", "-fPIC", "-o", shim, os.path.join(HERE, "failing.c")], check=True)
    files(program, folder)
    counts, wrong = Counter(), 0
    chosen = {command: COMMANDS[command] for command in sys.argv[3:] or COMMANDS}
    for command, (words, typed) in chosen.items():
        _, *unfailed = done(program, folder, shim, words, typed)
        counts[command, "as it is"] = unfailed[0]
        for kind in ("memory", "open", "read", "write"):
            number = 1
            while True:
                came, ended, printed = done(program, folder, shim, words, typed, kind, number)
                if came is None:
                    break
                if not is_right(command, kind, came, tuple(unfailed), ended, printed):
                    wrong += 1
                    print(f"{command}: {kind} {number} failing: status {ended}, {printed[-80:]!r}")
                counts[command, kind] += 1
                number += 1 if number < EACH else 1 + number // 100
    print("| Command | status | calls for memory | opens | reads | writes |\n|---|---:|---:|---:|---:|---:|")
    for command in chosen:
        print(f"| {command} |", " | ".join(str(counts[command, it]) for it in ("as it is", "memory", "open", "read", "write")), "|")
    print(f"{sum(n for (_, it), n in counts.items() if it != 'as it is')} runs with a failing call, {wrong} ended wrongly")
    figure("load.failing_calls_that_end_wrongly", wrong, "<=0")
    sys.exit(wrong > 0)


if __name__ == "__main__":
    main()
