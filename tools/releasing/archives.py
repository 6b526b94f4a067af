"""The archives of the sources and of the programs, the digests, and all of a release in one folder."""
from __future__ import annotations

import hashlib
import os
import shutil
import tempfile

from . import debian, trees, wheels
from .proved import VERSION, Refused, Release


def write_release(folder: str, release: Release) -> list[str]:
    """Writes all files of a release into a folder that isn't there, whole or not at all, and answers their names."""
    if os.path.lexists(folder):
        raise Refused(f"{folder} is there already")
    parent = os.path.dirname(os.path.abspath(folder))
    room = tempfile.mkdtemp(prefix=".vodmejka-release-", dir=parent)
    try:
        os.chmod(room, 0o755)
        names = [debian.write_package(room, release), *wheels.write_wheels(room, release), write_sources(room, release), write_programs(room, release)]
        put(room, "PROOF.txt", release.proof.encode())
        names = sorted([*names, "PROOF.txt"])
        put(room, "SHA256SUMS", "".join(f"{digest(room, name)}  {name}\n" for name in names).encode())
        for name in [*names, "SHA256SUMS"]:
            os.chmod(os.path.join(room, name), 0o644)
        os.rename(room, folder)
        return [*names, "SHA256SUMS"]
    finally:
        shutil.rmtree(room, ignore_errors=True)


def write_sources(folder: str, release: Release) -> str:
    """The archive of all that the commit has."""
    name = f"vodmejka-{VERSION}.source.tar.gz"
    put(folder, name, trees.tar_gz(trees.from_repository({".": f"vodmejka-{VERSION}"}), release))
    return name


def write_programs(folder: str, release: Release) -> str:
    """The archive of the programs alone, with where they come from and what they link."""
    name, top = f"vodmejka-{VERSION}-linux-x86_64.tar.gz", f"vodmejka-{VERSION}"
    tree = {f"{top}/bin/{program}": (content, True) for program, content in release.programs.items()}
    tree |= trees.from_repository({"THIRD_PARTY.md": f"{top}/THIRD_PARTY.md"})
    tree |= trees.plain([(f"{top}/PROOF.txt", release.proof.encode()), (f"{top}/copyright", debian.NO_LICENCE.encode())])
    put(folder, name, trees.tar_gz(tree, release))
    return name


def put(folder: str, name: str, content: bytes) -> None:
    with open(os.path.join(folder, name), "wb") as out:
        out.write(content)


def digest(folder: str, name: str) -> str:
    with open(os.path.join(folder, name), "rb") as file:
        return hashlib.sha256(file.read()).hexdigest()
