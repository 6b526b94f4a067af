"""What the programs report of the files as they were saved: the fault, the findings of `lint`, the facts that hold for all households within the ranges that a
setting names, and the values of a household. They run in parallel with the server, one run at a time."""
from __future__ import annotations

import contextlib
import os
import re
import subprocess
from typing import Any, NamedTuple

from .. import program, source
from ..errors import Broken
from ..facts import Facts, facts_of
from ..limits import REQUESTS, TABLE_CELLS
from ..sentences import DRIVER, OTHERS, RULES
from .base import Base
from .checks import ERROR, HINT, INFORMATION
from .pieces import Head, Piece
from .texts import Text
from .workspace import DriverText, Workspace, signature_of

MOST_OUTPUT = 67_108_864

Key = tuple[Any, ...]


class Job(NamedTuple):
    """A run of m_tax, or of m_survey for `facts`: `words` after its name, and the contents of the files as they were when it began."""

    base: Base
    kind: str
    words: list[str]
    key: Key
    contents: dict[Text, bytes]


class Outcome(NamedTuple):
    """The results of a run, by text with the content that they are about, of the list, and of a household."""

    key: Key
    contents: dict[Text, bytes] = {}
    texts: dict[Text, list[dict[str, Any]]] = {}
    of_list: list[dict[str, Any]] = []
    values: dict[str, str] = {}
    stop: str = ""
    facts: Facts | None = None
    never: frozenset[tuple[str, str]] = frozenset()


class Runs:
    def __init__(self, workspace: Workspace) -> None:
        self.workspace = workspace
        self.jobs: list[Job] = []
        self.at_hand: Job | None = None
        self.child: subprocess.Popen[bytes] | None = None
        self.requests: int | None = None
        self.output = b""
        self.results: dict[tuple[str, str], Outcome] = {}

    # ---- runs

    def program(self, kind: str) -> str | None:
        try:
            found = program.program_path(self.workspace.settings.program)
            if kind == "facts":
                found = program.program_path(None, "m_survey", found)
        except Broken as fault:
            self.workspace.log(f"the program isn't run: {fault}")
            return None
        return None if program.is_trial(found) else found

    def begin(self) -> None:
        """Starts the runs that the files on the disk need, and ends those that are no longer needed."""
        wanted = [job for base in self.workspace.bases.values() if not base.is_alone for job in self.jobs_of(base)]
        if self.at_hand is not None and not any(self.at_hand.key == job.key for job in wanted):
            self.end()
        keys = {outcome.key for outcome in self.results.values()} | ({self.at_hand.key} if self.at_hand else set())
        self.jobs = [job for job in wanted if job.key not in keys]
        self.next()

    def jobs_of(self, base: Base) -> list[Job]:
        settings, driver = self.workspace.settings, self.workspace.driver_of(base)
        texts: list[Text] = [*base.texts, *([driver] if driver else [])]
        words = [base.path, driver.path if driver else "-"]
        household = self.workspace.path(settings.household) if settings.household else None
        named = (settings.requests, settings.household, settings.ranges)
        others = [signature_of(self.workspace.path(name)) if name else None for name in named]
        key = (settings, base.folder, *words, signature_of(base.path), *(signature_of(text.path) for text in texts), *others)
        contents = {text: text.content for text in texts if text.is_saved}
        requests = self.workspace.path(settings.requests) if settings.requests else "-"
        jobs = [Job(base, "lint", ["lint", *words, requests], ("lint", *key), contents)]
        if settings.ranges:
            jobs.append(Job(base, "facts", ["facts", *words, requests, self.workspace.path(settings.ranges)], ("facts", *key), contents))
        if household:
            jobs.append(Job(base, "values", ["run", *words, "/dev/fd/{}", household], ("values", *key), contents))
        return jobs

    def next(self) -> None:
        """Starts the next run, where none is under way."""
        if self.child is not None or not self.jobs or not all(text.is_whole for text in self.jobs[0].base.texts):
            return
        path = self.program(self.jobs[0].kind)
        if path is None:
            self.jobs.pop(0)
            return self.next()
        job = self.at_hand = self.jobs.pop(0)
        words = job.words
        kept: tuple[int, ...] = ()
        self.output = b""
        if job.kind == "values":
            self.requests = os.memfd_create("requests")
            names = [name for name in cells_of(job.base)][:REQUESTS]
            with open(self.requests, "wb", closefd=False) as out:
                out.write("".join(name + "\n" for name in names).encode("latin-1"))
            os.lseek(self.requests, 0, os.SEEK_SET)
            words, kept = [word.format(self.requests) if word == "/dev/fd/{}" else word for word in words], (self.requests,)
        try:
            self.child = subprocess.Popen(
                [path, *words], cwd=job.base.folder, stdin=subprocess.DEVNULL, stdout=subprocess.PIPE, stderr=subprocess.DEVNULL, pass_fds=kept
            )
        except OSError as fault:
            self.workspace.log(f"{path}: {fault.strerror}")
            self.forget()

    def descriptors(self) -> list[int]:
        self.next()
        return [self.child.stdout.fileno()] if self.child is not None and self.child.stdout is not None else []

    def take_in(self) -> bool:
        """Reads what the run at hand prints, without waiting; returns whether it has ended and reported something."""
        import select

        ended = False
        while self.child is not None and self.child.stdout is not None and select.select([self.child.stdout], [], [], 0)[0]:
            piece = os.read(self.child.stdout.fileno(), 1_048_576)
            self.output += piece
            if not piece:
                self.take(self.child.wait())
                ended = True
            elif len(self.output) > MOST_OUTPUT:
                self.end()
        return ended

    def take(self, status: int) -> None:
        job, output = self.at_hand, self.output
        self.forget()
        if job is None:
            return
        lines = output.decode("utf-8", "surrogateescape").split("\n")[:-1]
        if job.kind == "facts":
            lint = self.results.get((job.base.path, "lint"))
            outcome = outcome_of_facts(job, status, lines, lint.never if lint is not None else frozenset())
        else:
            outcome = (outcome_of_lint if job.kind == "lint" else outcome_of_run)(job, status, lines)
        self.results[job.base.path, job.kind] = outcome
        self.workspace.dirty.update(dict.fromkeys(self.workspace.texts.values()))

    def forget(self) -> None:
        if self.child is not None and self.child.stdout is not None:
            self.child.stdout.close()
        if self.requests is not None:
            os.close(self.requests)
        self.child = self.at_hand = self.requests = None

    def end(self) -> None:
        """Ends the run at hand."""
        if self.child is not None:
            with contextlib.suppress(OSError):
                self.child.kill()
            self.child.wait()
        self.forget()

    # ---- the results

    def diagnostics_of(self, text: Text) -> list[dict[str, Any]]:
        """What the program reported of a text, if it is still the one that was saved."""
        return [one for outcome in self.results.values() if outcome.contents.get(text) == text.content for one in outcome.texts.get(text, [])]

    def diagnostics_of_list(self, base: Base) -> list[dict[str, Any]]:
        return [one for (path, _), outcome in self.results.items() if path == base.path for one in outcome.of_list]

    def values(self, base: Base) -> Outcome | None:
        return self.results.get((base.path, "values"))

    def facts(self, base: Base) -> Facts | None:
        outcome = self.results.get((base.path, "facts"))
        return outcome.facts if outcome is not None else None

    def is_current(self, base: Base, kind: str = "values") -> bool:
        """Whether the values or the facts are those of the texts as they are now."""
        outcome = self.results.get((base.path, kind))
        return outcome is not None and outcome.key == next((job.key for job in self.jobs_of(base) if job.kind == kind), None) and all(
            text.is_saved for text in base.texts
        )


def cells_of(base: Base) -> list[str]:
    """The variables of a base in their order, tables cell by cell."""
    found = []
    for piece in sorted((piece for pieces in base.variables.pieces.values() for piece in pieces), key=base.order):
        size = piece.item.size
        found += [piece.item.name] if size is None else [f"{piece.item.name}[{k}]" for k in range(min(size, TABLE_CELLS))]
    return list(dict.fromkeys(found))


def diagnostic(text: Text | None, begin: int, end: int, severity: int, what: str, mend: str = "", code: str = "") -> dict[str, Any]:
    place = {"line": 0, "character": 0}
    where = text.range(begin, min(end, len(text.content))) if text is not None else {"start": place, "end": place}
    return {"range": where, "severity": severity, "source": "m_tax", "code": code or what, "message": f"{what}\n{mend}" if mend else what}


class Findings:
    """What is found at places of the texts that a run read."""

    def __init__(self, job: Job) -> None:
        self.job = job
        self.texts: dict[Text, list[dict[str, Any]]] = {}

    def add(self, piece: Piece | None, begin: int, length: int, severity: int, what: str, **more: Any) -> None:
        if piece is not None and self.job.contents.get(piece.text) == piece.text.content:
            added = {**diagnostic(piece.text, piece.begin + begin, piece.begin + begin + length, severity, what), **more}
            self.texts.setdefault(piece.text, []).append(added)


def outcome_of_lint(job: Job, status: int, lines: list[str]) -> Outcome:
    found, of_list = Findings(job), list[dict[str, Any]]()
    texts = found.texts
    if status == 0:
        for line in lines:
            add_finding(job.base, line, found.add)
    elif lines and status in (1, 3):
        text, fault = fault_of(job, lines[0])
        if text is None:
            of_list.append(fault)
        else:
            texts[text] = [fault]
    never = frozenset((words[2], words[3]) for words in (line.split(" ") for line in lines) if words[:2] == ["never", "stops"] and len(words) == 4)
    return Outcome(job.key, job.contents, texts, of_list, never=never)


def add_finding(base: Base, line: str, add: Any) -> None:
    """Reports a line of `lint` at the place that it is about."""
    words = line.split(" ")
    if line.startswith("never defined "):
        piece = base.first(base.variables.of(words[2].split("[")[0]))
        add(piece, piece.item.byte if piece else 0, len(words[2].split("[")[0]), INFORMATION, f"{line}: read, and never set by a rule or a household")
    elif line.startswith("unused input "):
        piece = base.first(base.codes.of(words[2]))
        add(piece, piece.item.byte if piece else 0, len(piece.item.name) if piece else 0, HINT, f"{line}: whatever it is, the answer is the same", tags=[1])
    elif line.startswith("never stops "):
        piece = verification(base, words[2], words[3])
        add(piece, piece.item.error_byte if piece else 0, len(words[3]), INFORMATION, f"{line}: whatever a household says, it neither stops nor is noted")


def verification(base: Base, number: str, error: str) -> Piece | None:
    """The check of a verification of this number that raises this error."""
    return next((piece for piece in base.raisers.of(error) if (head := head_of(piece)) and head.item.number == number), None)


def outcome_of_facts(job: Job, status: int, lines: list[str], known: frozenset[tuple[str, str]]) -> Outcome:
    """What holds for all households within the ranges: values that may overflow, and verifications that never stop, without those that `lint` knows. A fault of
    the source is `lint`'s to report, one of the ranges is reported at the list."""
    if status != 0:
        faults = [line for line in lines[:1] if "ranges" in line]
        return Outcome(job.key, job.contents, of_list=[diagnostic(None, 0, 0, ERROR, line) for line in faults])
    try:
        facts = facts_of("".join(line + "\n" for line in lines), ("", ""))
    except Broken as fault:
        return Outcome(job.key, job.contents, of_list=[diagnostic(None, 0, 0, ERROR, str(fault))])
    base, found, within = job.base, Findings(job), f"for households within {os.path.basename(job.words[-1])}"
    for name, fact in facts.items():
        piece = base.first(base.variables.of(name.split("[")[0]))
        if fact.over and piece is not None:
            found.add(piece, piece.item.byte, len(piece.item.name), INFORMATION, f"{name} may overflow {within}: {fact}")
    for number, error in (one for one in facts.never_stops if one not in known):
        piece = verification(base, number, error)
        found.add(piece, piece.item.error_byte if piece else 0, len(error), INFORMATION, f"never stops {number} {error} {within}")
    return Outcome(job.key, job.contents, found.texts, facts=facts)


def head_of(piece: Piece) -> Piece | None:
    """The head of the rule or verification in which a piece is."""
    pieces = piece.text.pieces
    at = piece.text.at(piece.begin)
    while at >= 0 and not isinstance(pieces[at].item, Head):
        at -= 1
    return pieces[at] if at >= 0 else None


def fault_of(job: Job, line: str) -> tuple[Text | None, dict[str, Any]]:
    """The fault that the program reports, at its text if it has one."""
    match = re.fullmatch(r"refused (.*) line ([0-9]+) byte ([0-9]+): (.*)", line)
    text: Text | None
    if match:
        text = next((text for text, name in job.base.names.items() if os.fsencode(name) == os.fsencode(match[1])), None)
        mend = next((mend for name, mend in RULES.items() if match[4] == name or match[4].startswith(name + " ")), "")
        if text is not None and job.contents.get(text) == text.content and int(match[3]) <= len(text.content):
            begin = int(match[3])
            found = source.GAP_OR_TOKEN.match(text.content, begin)
            return text, diagnostic(text, begin, found.end() if found else begin + 1, ERROR, match[4], mend, match[4].split(" ")[0])
        return None, diagnostic(None, 0, 0, ERROR, line, mend)
    match = re.fullmatch(r"refused driver line ([0-9]+): (.*)", line)
    if match:
        text = next((text for text in job.contents if isinstance(text, DriverText)), None)
        mend = next((mend for name, mend in DRIVER.items() if match[2] == name or match[2].startswith(name + " ")), "")
        if text is not None and job.contents[text] == text.content and int(match[1]) <= len(text.starts):
            begin = text.starts[int(match[1]) - 1]
            return text, diagnostic(text, begin, begin + len(text.line(int(match[1]) - 1)), ERROR, match[2], mend, match[2].split(" ")[0])
    mend = next((mend for form, mend in OTHERS if re.fullmatch(form, line)), "")
    match = re.fullmatch(r"refused cycle ([A-Z0-9_]+).*", line)
    piece = job.base.first(job.base.targets.of(match[1])) if match else None
    if piece is not None and job.contents.get(piece.text) == piece.text.content:
        begin = piece.begin + piece.item.byte
        return piece.text, diagnostic(piece.text, begin, begin + len(piece.item.target), ERROR, line.removeprefix("refused "), mend, "cycle")
    return None, diagnostic(None, 0, 0, ERROR, line, mend)


def outcome_of_run(job: Job, status: int, lines: list[str]) -> Outcome:
    """The values of a household, or what stops it."""
    if status != 0:
        return Outcome(job.key, job.contents, stop=lines[0] if lines else f"the program ended with status {status}")
    values = [line.split(" ", 1) for line in lines if not line.startswith("noted ")]
    amounts = {pair[0]: pair[1] for pair in values if len(pair) == 2 and re.fullmatch(r"= -?[0-9.]+|undefined|over", pair[1])}
    return Outcome(job.key, job.contents, values=amounts)
