"""The reserved words of rule files and drivers, which are in files of this package, or with it in an archive."""
from __future__ import annotations

import pkgutil


def reserved(language: str) -> set[str]:
    """Those of `m` or `mpp`."""
    content = pkgutil.get_data(__package__ or "vodmejka", f"words/{language}.words")
    assert content is not None
    return set(content.decode("ascii").split())
