"""The page of `coverage`: how much is reached, what isn't, and the sources with marks."""
from __future__ import annotations

from . import marks, plain_pages
from .coverage import Coverage, percent_of
from .places import shown_name
from .plain_pages import escaped
from .texts import said

CLASSES = {marks.WHOLE: "whole", marks.PART: "part", marks.NONE: "none"}


def page(followed: Coverage, excepted: set[str], words: list[str], households: int) -> str:
    title = said("coverage.title", list=shown_name(words[0]))
    paths = list(followed.contents)
    numbers = {path: k for k, path in enumerate(paths, 1)}
    body = [summary(followed, excepted), f"<p>{escaped(said('coverage.by', tables=', '.join(map(shown_name, words[2:]))))}</p>",
            f"<h2>{escaped(said('coverage.missing'))}</h2>", missing(followed, excepted, numbers), f"<p>{escaped(said('coverage.legend'))}</p>"]
    body += [sheet(followed, path, excepted, numbers[path]) for path in paths]
    return plain_pages.page(title, "\n".join(body))


def summary(followed: Coverage, excepted: set[str]) -> str:
    found = [(kind, reached, of) for kind, reached, of in followed.summary(excepted) if of]
    found.append(("all", sum(one for _, one, _ in found), sum(one for _, _, one in found)))
    rate = lambda reached, of: said("coverage.rate", percent=percent_of(reached, of))
    rows = [[escaped(said(f"coverage.kind.{kind}")), str(reached), str(of), rate(reached, of)] for kind, reached, of in found]
    return plain_pages.table([said("coverage.kind"), said("coverage.reached"), said("coverage.count"), said("coverage.percent")], rows)


def missing(followed: Coverage, excepted: set[str], numbers: dict[str, int]) -> str:
    lines = []
    for point in followed.missing(excepted):
        path, line = followed.place(point)
        place = f'<a href="#f{numbers[point.path]}l{line}">{escaped(f"{path}:{line}")}</a>'
        lines.append(f"<li>{place} <code>{escaped(point.key)}</code>: {escaped(said(point.why))}</li>")
    return f"<ul>{''.join(lines)}</ul>" if lines else f"<p>{escaped(said('coverage.nothing'))}</p>"


def sheet(followed: Coverage, path: str, excepted: set[str], number: int) -> str:
    """A source, each line with its number and its mark."""
    found = marks.Sheet(followed, path, excepted)
    states, missed, lines = found.states(), found.missed(), []
    for line in range(1, len(found.lines.feeds) + 2):
        state = states.get(line)
        begin, text = found.lines.begin(line), found.lines.line(line) or b""
        mark = f"{state} " if state else "  "
        kind = f" {CLASSES[state]}" if state else ""
        lines.append(f'<span class="line{kind}" id="f{number}l{line}"><span class="no">{mark}{line}</span>{underlined(text, begin, missed)}</span>')
    return f"<h2>{escaped(shown_name(followed.paths[path]))}</h2>\n<pre class=\"sheet\">{''.join(lines)}</pre>"


def underlined(line: bytes, begin: int, missed: list[tuple[int, int]]) -> str:
    """The markup of a line that begins at a byte, with what isn't reached underlined."""
    pieces, at = [], 0
    decode = decoder(line)
    for first, last in missed:
        low, high = max(first - begin, at), min(last - begin, len(line))
        if low < high:
            pieces += [escaped(decode(line[at:low])), f"<u>{escaped(decode(line[low:high]))}</u>"]
            at = high
    return "".join(pieces) + escaped(decode(line[at:]))


def decoder(line: bytes):
    """Bytes of a line as text: UTF-8 where the line is, else Latin-1."""
    try:
        line.decode("utf-8")
    except UnicodeDecodeError:
        return lambda piece: piece.decode("latin-1")
    return lambda piece: piece.decode("utf-8", "replace")
