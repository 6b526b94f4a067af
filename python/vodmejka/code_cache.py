"""The cache of code files in the user's folder, by the digests of program and source."""
from __future__ import annotations

import contextlib
import hashlib
import os

from .program import whole_file


def kept_path(folder: str | None, digest: str) -> str | None:
    """Where the code file of this digest is kept: in a folder, or in the user's cache, which a user without a home hasn't."""
    named = folder or os.path.join(os.environ.get("XDG_CACHE_HOME") or os.path.expanduser("~/.cache"), "vodmejka")
    return os.path.join(named, digest + ".code") if folder or os.path.isabs(named) else None


def kept_code(path: str) -> bytes | None:
    """The code file that the cache keeps, after its digest; None where there is none, or it isn't what was kept: it was changed, or cut."""
    with contextlib.suppress(OSError), open(path, "rb") as file:  # (it isn't there, or is another user's)
        digest, text = file.readline().strip(), file.read()
        return text if hashlib.sha256(text).hexdigest().encode() == digest else None
    return None


def keep(path: str, text: bytes) -> None:
    """Keeps a code file, after its digest, where the folder can be written."""
    with contextlib.suppress(OSError):
        os.makedirs(os.path.dirname(path), exist_ok=True)
        put_whole(path, hashlib.sha256(text).hexdigest().encode() + b"\n" + text)


def put_whole(path: str, content: bytes) -> None:
    """Writes a file whole, or not at all."""
    with whole_file(path) as out:
        out.write(content)
