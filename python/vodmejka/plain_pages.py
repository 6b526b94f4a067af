"""Pages without scripts of others, without a network: their head with the policy, their style, and texts as they are shown."""
from __future__ import annotations

import base64
import functools
import hashlib
import html
import re

from .plain_style import STYLE
from .texts import Language

POLICY = "default-src 'none'; style-src 'sha256-{style}'; {script}img-src data:; base-uri 'none'; form-action 'none'"
# Control characters, what turns the direction of writing, what can't be seen, and halves of characters.
HIDDEN = re.compile("[\x00-\x08\x0b-\x1f\x7f\u061c\u200b\u200e\u200f\u202a-\u202e\u2060\u2066-\u2069\ufeff\ud800-\udfff]")


@functools.lru_cache(maxsize=16)
def digest(text: str) -> str:
    """The digest by which a policy names a script or a style."""
    return base64.b64encode(hashlib.sha256(text.encode("utf-8")).digest()).decode()


def escaped(text: str) -> str:
    """A text as a page shows it: no sign of it is markup, and what turns the direction of writing or can't be seen is shown as U+FFFD."""
    return html.escape(HIDDEN.sub("\ufffd", text))


def page(title: str, body: str, script: str = "", up: str = "") -> str:
    """A whole page. `up` is markup above the heading, as links to other pages."""
    said = POLICY.format(style=digest(STYLE), script=f"script-src 'sha256-{digest(script)}'; " if script else "")
    ending = f"<script>{script}</script>" if script else ""
    return (
        f'<!DOCTYPE html>\n<html lang="{Language.name}">\n<head>\n<meta charset="utf-8">\n'
        f'<meta http-equiv="Content-Security-Policy" content="{html.escape(said)}">\n<meta name="viewport" content="width=device-width, initial-scale=1">\n'
        f"<title>{escaped(title)}</title>\n<style>{STYLE}</style>\n</head>\n<body>\n{up}<main>\n"
        f"<h1>{escaped(title)}</h1>\n{body}\n</main>\n{ending}</body>\n</html>\n")


def table(heads: list[str], rows: list[list[str]]) -> str:
    """A table of cells that are markup already, below heads that are texts."""
    head = "".join(f'<th scope="col">{escaped(one)}</th>' for one in heads)
    return f'<div class="wide"><table><thead><tr>{head}</tr></thead><tbody>\n' + "\n".join(
        f"<tr>{''.join(f'<td>{one}</td>' for one in row)}</tr>" for row in rows) + "\n</tbody></table></div>"
