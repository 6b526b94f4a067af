"""Puts together what a court needs to judge a value, in one folder, and verifies such a folder.

    dossier LIST DRIVER HOUSEHOLD --of NAME --into FOLDER       makes the folder, which must not be there; `-` is no driver
    dossier --verify FOLDER                                     checks all of it

FOLDER gets
    claims.txt       what is claimed: the value by a run, and the value that the report proves; the program and its digest
    rules.list, rules/, driver.mpp, requests.txt, household.csv     the files that the run reads, byte for byte, and a list of their names here
    code             the rules and the driver, compiled
    answer.txt       what the program prints of the household by that code
    report.txt       the report of NAME by one call of the rules, which `check` found sound
    SHA256SUMS       the digest of each file
    HOW.txt          how to verify each of these without this tool

A household whose run stops has no value, and no folder is made. `--verify` prints a line for each thing that it looked at. Where the program here is another
one than the dossier's, it reports this and goes on: what it computes is compared all the same. The status is 0; 1 where the program rejects a file, something
isn't as the folder claims, or FOLDER is there already; 2 for wrong words; and 3 where a file can't be read or written.
"""
from __future__ import annotations

import os
import subprocess
import tempfile

from .. import runs, source
from ..claims import Claim, lines_of, of_line
from ..copies import printed, text_of_error
from ..endings import Wrong, ended, files_named
from ..options import read_options
from ..program import TOP, whole_folder
from ..reasons import Rules

WORDS = "words: dossier LIST DRIVER HOUSEHOLD --of NAME --into FOLDER, or dossier --verify FOLDER; see --help"
HOW = """How to verify this folder without the tool that made it. All commands are for a shell in this folder, with the program m_tax.

1. The files are those that were written:     sha256sum -c SHA256SUMS
2. The program is the one that was used:      sha256sum m_tax, and compare with claims.txt; another version of it must print the same
3. The code is that of the rules:             m_tax compile rules.list {driver} requests.txt | cmp - code
4. The code gives the answer:                 m_tax exec code household.csv | cmp - answer.txt
5. The answer has the value of the claim:     grep -F '{claim}' answer.txt
6. The report is sound:                       m_tax check rules.list household.csv report.txt
7. The report ends in the value of claims.txt: tail -n 1 report.txt

What each proves. 3 and 4: the program m_tax is proved to compute what the rules and the driver say, and `compile` and `exec` to give the same as `run`.
6: each line of the report follows from those above it, so each value in it is what the rules give in one call at the start of a run, for the amounts of the
household. Each line can be worked out with a pencil. The driver isn't asked in 6. None of this says that the rules are the law, or that the amounts of the
household are true.
"""


def put(folder: str, name: str, content: bytes) -> None:
    source.put(os.path.join(folder, name), content)


def done(folder: str, *words: str) -> bytes:
    """What the program prints where it does what the words say."""
    text, status = printed(*words, folder=folder)
    if status == 6:
        lines = text.decode("latin-1").split("\n")
        raise Wrong(f"the run is stopped, and has no value: {lines[0]}{': ' * bool(text_of_error(lines))}{text_of_error(lines)}")
    if status != 0:
        line = runs.fault_of(text, status)
        raise Wrong(line.replace("refused requests line", "no variable of this name: refused requests line"), 3 if status == 3 else 1)
    return text


def digest_of_program() -> str:
    """The digest of the program's file; of the repository's script that of the program that ./build made."""
    program = runs.program_path()
    built = os.path.join(os.path.dirname(os.path.realpath(program)), "out", "m_tax")
    return runs.file_digest(built if os.path.exists(built) else program)


def version() -> str:
    """The version of the program, as far as the repository has it."""
    if not os.path.realpath(runs.program_path()).startswith(TOP + os.sep):
        return "not known, since the program isn't of the repository of this tool"
    try:
        found = subprocess.run(["git", "-C", TOP, "describe", "--always", "--dirty", "--abbrev=40"], capture_output=True, check=False)
    except OSError:
        return "not known"
    return f"of the repository at {found.stdout.decode().strip()}" if found.returncode == 0 else "not known"


def last_line(content: bytes) -> str:
    """The last line of what the program printed."""
    return (content.decode("latin-1").removesuffix("\n").split("\n"))[-1]


def ends_in(name: str, line: str) -> Claim:
    """The value that a file gives by its last line."""
    claim = of_line(line)
    if claim is None:
        raise Wrong(f"{name} ends in no value: {line}")
    return claim


def sums(folder: str) -> bytes:
    """The digests of all files of a folder, as sha256sum prints them."""
    names = sorted(os.path.relpath(os.path.join(at, name), folder) for at, _, files in os.walk(folder) for name in files)
    return b"".join(f"{runs.file_digest(os.path.join(folder, name))}  ".encode() + os.fsencode(name) + b"\n" for name in names if name != "SHA256SUMS")


def copy_sources(folder: str, rules: Rules, driver: str, household: str, name: str) -> dict[str, str]:
    """Writes what a run reads; the names of the rule files here, each with what it was."""
    os.mkdir(os.path.join(folder, "rules"))
    names = {}
    for number, (path, content) in enumerate(rules.contents, 1):
        here = f"rules/{number:03}-{os.path.basename(path)}"
        put(folder, here, content)
        names[here] = path
    put(folder, "rules.list", os.fsencode("\n".join([rules.application, *names, ""])))
    if driver != "-":
        put(folder, "driver.mpp", source.fetch(driver))
    put(folder, "household.csv", source.fetch(household))
    put(folder, "requests.txt", f"{name}\n".encode("utf-8", "surrogateescape"))
    return names


def report_of(folder: str, name: str) -> bytes:
    """The report of a cell by one call of the rules."""
    text, status = runs_why(folder, name)
    lines = lines_of(text)
    last = of_line(lines[-1]) if lines else None
    if status != 0 or last is None or last.cell != name:
        raise Wrong(f"no report of {name}: {runs.fault_of(text, status)}")
    return "".join(line + "\n" for line in lines).encode("latin-1")


def runs_why(folder: str, name: str) -> tuple[bytes, int]:
    """What a session prints to `why`."""
    with tempfile.TemporaryFile() as told:
        told.write(f"why {name}\n".encode("utf-8", "surrogateescape"))
        told.seek(0)
        return printed("serve", "rules.list", "-", "-", "household.csv", stdin=told, folder=folder)


def claims_of(folder: str, words: list[str], names: dict[str, str], name: str, driver: str) -> tuple[str, Claim]:
    """The text of claims.txt, and what is claimed."""
    claim, proved = (ends_in(name, last_line(source.fetch(os.path.join(folder, name), 1 << 30))) for name in ("answer.txt", "report.txt"))
    lines = [f"claim: {claim.said()}",
             f"by: a run of the rules {'without a driver' if driver == '-' else 'with the driver'} for the household",
             f"proved by the report: {proved.said()}, in one call of the rules at the start of a run",
             *([] if proved == claim else ["the two differ: the driver makes the claim's value out of what the rules give"]),
             f"program: {digest_of_program()}",
             f"version: {version()}",
             f"list: {words[0]}", f"driver: {words[1]}", f"household: {words[2]}",
             *(f"{here}: {path}" for here, path in names.items())]
    return "\n".join(lines) + "\n", claim


def make(words: list[str], name: str, into: str) -> None:
    """Makes the folder, whole or not at all."""
    if os.path.lexists(into):
        raise Wrong(f"{into} is there already")
    rules = Rules(words[0])
    with whole_folder(into) as room:
        driver = "-" if words[1] == "-" else "driver.mpp"
        names = copy_sources(room, rules, words[1], words[2], name)
        put(room, "code", done(room, "compile", "rules.list", driver, "requests.txt"))
        put(room, "answer.txt", done(room, "exec", "code", "household.csv"))
        put(room, "report.txt", report_of(room, name))
        if done(room, "check", "rules.list", "household.csv", "report.txt") != b"sound\n":
            raise Wrong("check doesn't find the report sound")
        text, claim = claims_of(room, words, names, name, driver)
        put(room, "claims.txt", text.encode("utf-8", "surrogateescape"))
        put(room, "HOW.txt", HOW.format(driver=driver, claim=claim.said()).encode("utf-8"))
        put(room, "SHA256SUMS", sums(room))
    print(f"{claim.said()}; see {into}/HOW.txt")


def looks(folder: str):
    """What --verify looks at: a sentence each, and whether it is so."""
    fetched = lambda name: source.fetch(os.path.join(folder, name), 1 << 30)
    claims = dict(line.split(": ", 1) for line in fetched("claims.txt").decode("utf-8", "surrogateescape").split("\n") if ": " in line)
    driver = "driver.mpp" if os.path.exists(os.path.join(folder, "driver.mpp")) else "-"
    yield "the files are those of SHA256SUMS, and no others", fetched("SHA256SUMS") == sums(folder)
    yield "the code is that of the rules and the driver", printed("compile", "rules.list", driver, "requests.txt", folder=folder) == (fetched("code"), 0)
    yield "the code gives the answer", printed("exec", "code", "household.csv", folder=folder) == (fetched("answer.txt"), 0)
    answer = of_line(last_line(fetched("answer.txt")))
    yield f"the answer ends in the claim, {claims.get('claim', 'which is missing')}", answer is not None and answer.said() == claims.get("claim")
    yield "the report is sound", printed("check", "rules.list", "household.csv", "report.txt", folder=folder) == (b"sound\n", 0)
    last = of_line((lines_of(fetched("report.txt")) or [""])[-1])
    proved = claims.get("proved by the report", "").split(",")[0]
    yield f"the report ends in {proved or 'nothing that is claimed'}", last is not None and last.said() == proved


def verify(folder: str) -> int:
    """Prints what is so and what isn't."""
    status = 0
    for what, is_so in looks(folder):
        print(f"{'verified' if is_so else 'NOT so'}: {what}")
        status = status if is_so else 1
    claims = source.fetch(os.path.join(folder, "claims.txt")).decode("utf-8", "surrogateescape")
    digest = digest_of_program()
    same = f"\nprogram: {digest}\n" in claims
    print("program: the one of the dossier" if same else f"program: another one than the dossier's, {digest}")
    return status


def read_words(words: list[str]) -> tuple[list[str], dict[str, str]]:
    """The files and the options."""
    files, found = read_options(words, ["--of", "--into", "--verify"]) or ([], {})
    options = {option: value for option, [value] in found.items()}
    if set(options) not in ({"--verify"}, {"--of", "--into"}) or len(files) != (0 if "--verify" in options else 3):
        raise Wrong(WORDS, 2)
    return files, options


def work(words: list[str]) -> int:
    """Does what the words say."""
    files, options = read_words(words)
    with files_named():
        if "--verify" in options:
            return verify(options["--verify"])
        make(files, options["--of"], options["--into"])
    return 0


def main(words: list[str]) -> int:
    """The command: see above."""
    return ended(words, __doc__, work)
