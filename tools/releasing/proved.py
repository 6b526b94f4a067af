"""The programs that were proved and built, and the state of the repository that they are of."""
from __future__ import annotations

import glob
import hashlib
import os
import re
import subprocess
import sys
from dataclasses import dataclass

TOP = os.path.dirname(os.path.dirname(os.path.dirname(os.path.realpath(__file__))))
PROGRAMS = ("m_tax", "m_survey")
SOURCES = ("crates.txt", "crates/*/src", "crates/*/specs", "crates/*/proofs")
sys.path.insert(0, os.path.join(TOP, "python"))

from vodmejka.version import VERSION as VERSION  # noqa: E402


class Refused(Exception):
    """Nothing is released, and why."""


@dataclass(frozen=True)
class Release:
    """What is released: the programs by their names, the commit, the seconds that all files are dated by, and the text of PROOF.txt."""
    programs: dict[str, bytes]
    commit: str
    epoch: int
    proof: str


def release(gate: str | None) -> Release:
    """The release of the repository as it is. `gate` names a log of the gate."""
    if changed := said("git", "status", "--porcelain"):
        raise Refused(f"the repository has changes that no commit has: {changed.splitlines()[0].strip()}")
    commit = said("git", "rev-parse", "HEAD")
    epoch = os.environ.get("SOURCE_DATE_EPOCH") or said("git", "log", "-1", "--format=%ct")
    if not epoch.isdigit():
        raise Refused(f"SOURCE_DATE_EPOCH is no number of seconds: {epoch}")
    programs = proved_programs()
    return Release(programs, commit, int(epoch), proof_text(programs, commit, gate))


def proved_programs() -> dict[str, bytes]:
    """The programs that ./build or the gate made of the current sources."""
    built = os.path.join(TOP, "out", "built")
    if not os.path.exists(os.path.join(TOP, "out", "m_tax")) or not os.path.exists(built):
        raise Refused("out has no program that ./build or .ci/run proved and built")
    if newer := newer_source(os.stat(built).st_mtime_ns):
        raise Refused(f"{newer} is newer than the program: ./build proves it anew")
    made = {}
    for name in PROGRAMS:
        path = os.path.join(TOP, "out", name)
        if os.path.exists(path):
            with open(path, "rb") as file:
                made[name] = file.read()
            if not made[name].startswith(b"\x7fELF"):
                raise Refused(f"out/{name} is no program")
    return made


def newer_source(moment: int) -> str | None:
    """A source that was changed after a moment, where there is one."""
    for pattern in SOURCES:
        for top in sorted(glob.glob(os.path.join(TOP, pattern))):
            below = [os.path.join(at, name) for at, folders, names in os.walk(top) for name in [*folders, *names]]
            for path in [top, *below]:
                if os.stat(path).st_mtime_ns > moment:
                    return os.path.relpath(path, TOP)
    return None


def proof_text(programs: dict[str, bytes], commit: str, gate: str | None) -> str:
    """The text on the programs' provenance. The line of the gate is the last one of its proofs: how many passed, none failed."""
    lines = [f"version {VERSION}", f"commit {commit}", f"crates {said('git', 'rev-parse', 'HEAD:crates')}"]
    if gate is None:
        lines += ["kit not said", "gate not said: the program is the one in out, which ./build or .ci/run makes once its proofs passed"]
    else:
        lines += [f"kit {kit()}", f"gate {gate_line(gate)}"]
    lines += [f"program {name} sha256 {hashlib.sha256(content).hexdigest()}" for name, content in programs.items()]
    return "\n".join([*lines, ""])


def kit() -> str:
    """The version of the toolchain on this machine."""
    try:
        return said("rt", "--version")
    except FileNotFoundError:
        raise Refused("there is no rt, so PROOF.txt can't say the kit of the gate's log") from None


def gate_line(log: str) -> str:
    """The last line of the gate's proofs in a log. One that failed, or that never came to its end, releases nothing."""
    with open(log, encoding="utf-8", errors="replace") as file:
        found = [line.strip() for line in file if re.match(r"[0-9]+ passed, [0-9]+ failed", line)]
    if not found or not re.fullmatch(r"[1-9][0-9]* passed, 0 failed", found[-1]):
        raise Refused(f"{log} is no log of a gate that passed: {found[-1] if found else 'it has no line N passed, M failed'}")
    return found[-1]


def said(*words: str) -> str:
    """What a command prints in the repository."""
    ran = subprocess.run(words, cwd=TOP, capture_output=True, text=True, check=False)
    if ran.returncode:
        raise Refused(f"{' '.join(words)}: {ran.stderr.strip()}")
    return ran.stdout.strip()
