"""Coverage in the form of LCOV's tracefiles, which services of continuous integration read."""
from __future__ import annotations

import os

from .coverage import Coverage
from .marks import Sheet
from .points import BOUND, BRANCH, COMMAND, Point


def tracefile(followed: Coverage, excepted: set[str]) -> bytes:
    """The lines of all sources: `DA` for what begins on a line, `BRDA` for the ways of conditionals, bounds and ifs."""
    return b"".join(section(followed, path, excepted) for path in followed.contents)


def section(followed: Coverage, path: str, excepted: set[str]) -> bytes:
    sheet = Sheet(followed, path, excepted)
    counts = sorted(sheet.counts().items())
    lines = [b"TN:", b"SF:" + os.fsencode(followed.paths[path])]
    branches = [(sheet.lines.number(piece.begin), followed.points.all[k], sheet.hits[k])
                for piece in sheet.pieces for k in piece.numbers if is_way(followed.points.all[k])]
    blocks: dict[str, int] = {}
    for line, point, hits in sorted(branches, key=lambda found: found[0]):
        block = blocks.setdefault(point.name.rpartition(" ")[0], len(blocks))
        lines.append(f"BRDA:{line},{block},{0 if point.name.endswith((' alors', ' 1', ' so')) else 1},{hits or '-'}".encode())
    if branches:
        lines += [f"BRF:{len(branches)}".encode(), f"BRH:{sum(hits > 0 for _, _, hits in branches)}".encode()]
    lines += [f"DA:{line},{hits}".encode() for line, hits in counts]
    lines += [f"LF:{len(counts)}".encode(), f"LH:{sum(hits > 0 for _, hits in counts)}".encode(), b"end_of_record", b""]
    return b"\n".join(lines)


def is_way(point: Point) -> bool:
    return point.kind in (BRANCH, BOUND) or point.kind == COMMAND and point.why.startswith("coverage.if.")
