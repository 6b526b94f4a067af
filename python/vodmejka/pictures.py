"""What a variable rests on: as a tree of lists, or drawn by Graphviz where that is installed."""
from __future__ import annotations

import re
import shutil
import subprocess
from typing import Callable

from .plain_pages import escaped
from .reference import Reference
from .texts import said

DEEPEST, MOST_NODES = 3, 40
MOST_DRAWN = 2_000


def below(reference: Reference, name: str) -> list[tuple[str, str]]:
    """The edges from a variable down to what it reads, level by level, each variable once, up to a number."""
    edges, seen, level = [], {name}, [name]
    for _ in range(DEEPEST):
        following = []
        for one in level:
            for read in reference.rests_on(one):
                if read not in seen:
                    if len(seen) >= MOST_NODES:
                        continue
                    seen.add(read)
                    following.append(read)
                edges.append((one, read))
        level = following
    return edges


def tree(reference: Reference, name: str, link: Callable[[str], str]) -> str:
    """The tree as nested lists: a variable that was shown above is repeated without what is below it."""
    left, seen = [MOST_NODES], {name}

    def items(one: str, depth: int) -> str:
        found = []
        reads = reference.rests_on(one)
        for k, read in enumerate(reads):
            if left[0] == 0:
                found.append(f"<li>{escaped(said('doc.more', count=len(reads) - k))}</li>")
                break
            left[0] -= 1
            is_new = read not in seen
            seen.add(read)
            inner = items(read, depth + 1) if is_new and depth < DEEPEST and reference.rests_on(read) else ""
            found.append(f'<li>{link(read)} <span class="said">{escaped(reference.description(read))}</span>{inner}</li>')
        return f"<ul>{''.join(found)}</ul>"

    return items(name, 1).replace("<ul>", '<ul class="tree">', 1)


def drawn(reference: Reference) -> dict[str, str]:
    """The pictures by the names of the variables, where Graphviz is installed: of all, or where they are many of those that are returned."""
    program = shutil.which("dot")
    names = [name for name in reference.variables if reference.rests_on(name)]
    if len(names) > MOST_DRAWN:
        names = [name for name in names if "restituee" in reference.variables[name].words][:MOST_DRAWN]
    if program is None or not names:
        return {}
    graphs = "".join(graph(reference, name) for name in names)
    told = subprocess.run([program, "-Tsvg"], input=graphs.encode("utf-8", "replace"), capture_output=True, check=False)
    found = re.findall(r"<svg.*?</svg>", told.stdout.decode("utf-8", "replace"), re.DOTALL)
    if told.returncode or len(found) != len(names):
        return {}
    return {name: f'<div class="wide">{labelled(svg, name)}</div>' for name, svg in zip(names, found)}


def graph(reference: Reference, name: str) -> str:
    """A graph in Graphviz's language. Names of variables are letters, digits and `_`."""
    from .reference_pages import file_of

    edges = below(reference, name)
    nodes = dict.fromkeys([name, *(end for edge in edges for end in edge)])
    lines = [f'"{one}" [URL="../{file_of(one)}"{", style=bold" if one == name else ""}];' for one in nodes]
    lines += [f'"{one}" -> "{other}";' for one, other in edges]
    return f'digraph {{ rankdir=LR; node [shape=box, fontname="sans-serif", fontsize=12, height=0.3]; {" ".join(lines)} }}\n'


def labelled(svg: str, name: str) -> str:
    """A picture with a text for those who don't see it, and without the ids that two pictures would share."""
    svg = re.sub(r' id="[^"]*"', "", svg)
    return svg.replace("<svg ", f'<svg role="img" aria-label="{escaped(said("doc.picture", name=name))}" ', 1)
