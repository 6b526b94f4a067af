"""What a program needs of the machine that runs it: the libraries that it names, and the version of the C library."""
from __future__ import annotations

import os
import re
import subprocess
import tempfile

from .proved import Refused


def oldest_glibc(name: str, program: bytes) -> tuple[int, int]:
    """The oldest version of the GNU C library that has all that the program takes of it."""
    with tempfile.NamedTemporaryFile() as file:
        file.write(program)
        file.flush()
        environment = {"LC_ALL": "C", "PATH": os.environ.get("PATH", os.defpath)}
        ran = subprocess.run(["readelf", "-W", "-d", "-V", file.name], capture_output=True, text=True, check=False, env=environment)
    if ran.returncode:
        raise Refused(f"readelf: {ran.stderr.strip()}")
    libraries = re.findall(r"\(NEEDED\).*\[(.*)\]", ran.stdout)
    if libraries != ["libc.so.6"]:
        raise Refused(f"{name} needs {', '.join(libraries) or 'no library'}, and packages say libc.so.6 alone")
    return max((int(major), int(minor)) for major, minor in re.findall(r"Name: GLIBC_([0-9]+)\.([0-9]+)", ran.stdout))
