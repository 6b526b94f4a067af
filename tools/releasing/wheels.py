"""Wheels: one of the Python package alone, and one with the programs inside."""
from __future__ import annotations

import importlib.util
import os
from types import ModuleType
from unittest import mock

from .needs import oldest_glibc
from .proved import TOP, Release


def backend() -> ModuleType:
    """The module that makes the wheels of `pip install ./python`."""
    spec = importlib.util.spec_from_file_location("wheel_of_package", os.path.join(TOP, "python", "wheel_of_package.py"))
    assert spec is not None and spec.loader is not None
    made = importlib.util.module_from_spec(spec)
    spec.loader.exec_module(made)
    return made


def write_wheels(folder: str, release: Release) -> list[str]:
    """Writes both wheels, and answers their names."""
    major, minor = max(oldest_glibc(name, content) for name, content in release.programs.items())
    with mock.patch.dict(os.environ, {"VODMEJKA_RELEASE": "1"}):
        made = backend()
        alone = made.build_wheel(folder)
        return [alone, made.build_whole(folder, release.programs, f"py3-none-manylinux_{major}_{minor}_x86_64")]
