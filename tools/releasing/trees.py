"""Files by their paths, written as archives and folders that are the same bytes each time."""
from __future__ import annotations

import gzip
import io
import os
import stat
import subprocess
import tarfile
from typing import Iterable

from .proved import TOP, Release, Refused

Tree = dict[str, tuple[bytes, bool]]


def from_repository(places: dict[str, str]) -> Tree:
    """The files that git has below folders of the repository, or files of it, at other paths."""
    made: Tree = {}
    for source, place in places.items():
        listed = subprocess.run(["git", "ls-files", "-z", "--", source], cwd=TOP, capture_output=True, check=True).stdout
        names = [os.fsdecode(name) for name in listed.split(b"\0") if name]
        if not names:
            raise Refused(f"the repository has no {source}")
        for name in names:
            below = os.path.relpath(name, source)
            path = os.path.join(TOP, name)
            with open(path, "rb") as file:
                made[place if below == "." else f"{place}/{below}"] = (file.read(), bool(os.stat(path).st_mode & stat.S_IXUSR))
    return made


def tar_gz(tree: Tree, release: Release) -> bytes:
    """An archive of these files."""
    out = io.BytesIO()
    with gzip.GzipFile("", "wb", 9, out, release.epoch) as packed, tarfile.open(fileobj=packed, mode="w", format=tarfile.PAX_FORMAT) as archive:
        for path, (content, is_program) in sorted(tree.items()):
            entry = tarfile.TarInfo(path)
            entry.size, entry.mode, entry.mtime = len(content), 0o755 if is_program else 0o644, release.epoch
            archive.addfile(entry, io.BytesIO(content))
    return out.getvalue()


def gzipped(text: bytes) -> bytes:
    """A text as packages have it: without a name and a time."""
    out = io.BytesIO()
    with gzip.GzipFile("", "wb", 9, out, 0) as packed:
        packed.write(text)
    return out.getvalue()


def write(top: str, tree: Tree, release: Release) -> None:
    """Writes files below a folder, with the modes and the time of the release, whatever the mask."""
    for path, (content, is_program) in sorted(tree.items()):
        place = os.path.join(top, path)
        os.makedirs(os.path.dirname(place), exist_ok=True)
        with open(place, "wb") as out:
            out.write(content)
        os.chmod(place, 0o755 if is_program else 0o644)
        os.utime(place, (release.epoch, release.epoch))
    for folder, _, _ in os.walk(top, topdown=False):
        os.chmod(folder, 0o755)
        os.utime(folder, (release.epoch, release.epoch))


def plain(texts: Iterable[tuple[str, bytes]]) -> Tree:
    """Files that are no programs."""
    return {path: (content, False) for path, content in texts}
