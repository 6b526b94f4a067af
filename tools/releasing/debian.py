"""The package for Debian and what is made of it: the paths of its files, and what dpkg must know."""
from __future__ import annotations

import hashlib
import os
import subprocess
import tempfile
import time

from . import completions, manuals, trees
from .needs import oldest_glibc
from .proved import TOP, VERSION, Refused, Release
from .trees import Tree

MAINTAINER = "Vodmejka maintainers <maintainers@users.noreply.vodmejka.example>"
DOCUMENTS = "usr/share/doc/vodmejka"
NO_LICENCE = """Vodmejka: French income tax rules in M, computed by a verified program.

Copyright 2026 the owner of the repository of Vodmejka.

No licence is given yet for the program, the Python package, the rules and the
documents: choosing one is for their owner. Until then nothing is permitted
beyond what the law permits by itself.

What the program links of other works, and their licences, are in
/usr/share/doc/vodmejka/THIRD_PARTY.md.
"""
COMMAND = b"""#!/usr/bin/python3
import sys

from vodmejka.__main__ import main

sys.exit(main())
"""
COMPILE = b"""#!/bin/sh
set -e
if [ "$1" = configure ] && command -v py3compile >/dev/null 2>&1; then
    py3compile -p vodmejka
fi
"""
CLEAN = b"""#!/bin/sh
set -e
if command -v py3clean >/dev/null 2>&1; then
    py3clean -p vodmejka
fi
"""
OVERRIDES = """# The programs are byte for byte those that were built once their proofs passed, and their digests are published.
vodmejka: unstripped-binary-or-object
# Rule files and what is printed of them are Latin-1, as those of the administration.
vodmejka: national-encoding [usr/share/doc/vodmejka/examples/*]
"""


def package_tree(release: Release) -> Tree:
    """All files of the package, by their paths."""
    made = {f"usr/bin/{name}": (content, True) for name, content in release.programs.items()}
    made["usr/bin/vodmejka"] = (COMMAND, True)
    made |= trees.plain((f"usr/lib/python3/dist-packages/{entry}", content) for entry, content in python_files())
    pages = manuals.pages(release.epoch, list(release.programs))
    made |= trees.plain((f"usr/share/man/{path}.gz", trees.gzipped(text.encode())) for path, text in pages.items())
    made |= trees.plain((path, text.encode()) for path, text in completions.scripts().items())
    made |= documents(release)
    made["usr/share/lintian/overrides/vodmejka"] = (OVERRIDES.encode(), False)
    return made


def python_files() -> list[tuple[str, bytes]]:
    """The files of the Python package, as a wheel has them."""
    from . import wheels
    backend = wheels.backend()
    return [(entry, backend.content_of(entry)) for entry in backend.package_files()]


def documents(release: Release) -> Tree:
    """Documents, examples, and the files for editors."""
    pages = ("README.md", "LISEZMOI.md", "SECURITY.md", "CHANGELOG.md", "THIRD_PARTY.md")
    made = trees.from_repository({**{page: f"{DOCUMENTS}/{page}" for page in pages}, "docs": f"{DOCUMENTS}/docs", "examples": f"{DOCUMENTS}/examples",
                                  "tools/editors": "usr/share/vodmejka/editors", "tools/systemd": f"{DOCUMENTS}/systemd"})
    texts = {"PROOF.txt": release.proof.encode(), "copyright": NO_LICENCE.encode(), "changelog.gz": trees.gzipped(changelog(release).encode())}
    return made | trees.plain((f"{DOCUMENTS}/{name}", content) for name, content in texts.items())


def changelog(release: Release) -> str:
    """Debian's changelog, of the one version. CHANGELOG.md describes it."""
    day = time.strftime("%a, %d %b %Y %H:%M:%S +0000", time.gmtime(release.epoch))
    return f"vodmejka ({VERSION}) unstable; urgency=medium\n\n  * See CHANGELOG.md.\n\n -- {MAINTAINER}  {day}\n"


def control(release: Release, tree: Tree) -> str:
    """What dpkg reads of the package."""
    kilobytes = sum((len(content) + 1023) // 1024 for content, _ in tree.values())
    glibc = max(oldest_glibc(name, content) for name, content in release.programs.items())
    return f"""Package: vodmejka
Version: {VERSION}
Architecture: amd64
Maintainer: {MAINTAINER}
Installed-Size: {kilobytes}
Depends: libc6 (>= {glibc[0]}.{glibc[1]}), python3 (>= 3.10)
Suggests: graphviz, python3-pandas
Section: science
Priority: optional
Description: French income tax rules in M, computed by a verified program
 M is the language in which the French tax administration states the rules of
 the income tax. The program m_tax reads rules and a household as plain files,
 and prints what the rules give, exact to the millionth. The way from the bytes
 of the files to the bytes of the answer is proved.
 .
 The command vodmejka makes pages of rules, compares reforms, explains errors
 and values, and serves editors; its Python package computes from scripts.
"""


def write_package(folder: str, release: Release) -> str:
    """Writes the package, and answers its name."""
    tree = package_tree(release)
    name = f"vodmejka_{VERSION}_amd64.deb"
    sums = "".join(f"{hashlib.md5(content).hexdigest()}  {path}\n" for path, (content, _) in sorted(tree.items()))
    about = {"control": (control(release, tree).encode(), False), "md5sums": (sums.encode(), False), "postinst": (COMPILE, True), "prerm": (CLEAN, True)}
    with tempfile.TemporaryDirectory() as room:
        top = os.path.join(room, "vodmejka")
        trees.write(top, {**tree, **{f"DEBIAN/{path}": content for path, content in about.items()}}, release)
        words = ["dpkg-deb", "--root-owner-group", "-Zxz", "--build", top, os.path.join(folder, name)]
        environment = {**os.environ, "SOURCE_DATE_EPOCH": str(release.epoch), "LC_ALL": "C"}
        ran = subprocess.run(words, cwd=TOP, env=environment, capture_output=True, text=True, check=False)
    if ran.returncode:
        raise Refused(f"dpkg-deb: {ran.stderr.strip()}")
    return name
