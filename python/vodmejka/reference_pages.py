"""The pages of a reference: an index with a search, a page for each variable, the verifications and errors, the driver and the sources."""
from __future__ import annotations

import hashlib
import json
from typing import Iterator

from . import pictures, plain_pages
from .articles import Article, linked
from .places import shown_name
from .plain_pages import escaped, table
from .reference import Check, Formula, Piece, Reference
from .texts import said

LISTS = ("inputs", "returned", "computed", "constants", "tables")
MOST_FORMULAS, MOST_LINKS = 40, 400
LONGEST_NAME = 100
SEARCH = """const all=JSON.parse(document.getElementById('names').textContent),field=document.getElementById('search'),out=document.getElementById('found');
const plain=t=>t.normalize('NFD').replace(/[\\u0300-\\u036f]/g,'').toLowerCase();const keys=all.map(v=>plain(v.slice(0,3).join(' ')));
function show(){const words=plain(field.value).split(/\\s+/).filter(w=>w);out.replaceChildren();if(!words.length)return;let n=0;
const at=[...keys.keys()].filter(k=>words.every(w=>keys[k].includes(w))).sort((a,b)=>(plain(all[b][0])===words[0])-(plain(all[a][0])===words[0]));
for(const k of at){if(n++===100)break;const li=document.createElement('li'),a=document.createElement('a');a.href=all[k][3];a.textContent=all[k][0];
li.append(a,' '+all[k].slice(1,3).filter(t=>t).join(' · '));out.append(li)}
if(!at.length)out.textContent=out.dataset.none}
field.addEventListener('input',show);show();"""


def file_of(name: str) -> str:
    """The file of a variable's page."""
    short = name if len(name) <= LONGEST_NAME else f"{name[:LONGEST_NAME]}-{hashlib.sha256(name.encode()).hexdigest()[:16]}"
    return f"v/{short}.html"


class Pages:
    """The pages of a reference by their files."""

    def __init__(self, reference: Reference, title: str, driver: str | None, articles: list[Article]):
        self.reference, self.title, self.driver, self.articles = reference, title, driver, articles
        self.sources = {file.name: f"s/{k}.html" for k, file in enumerate(reference.base.files, 1)}
        self.drawn, self.heads = pictures.drawn(reference), dict[str, str]()

    def all(self) -> Iterator[tuple[str, str]]:
        """Each file with its text."""
        yield "index.html", self.index()
        for kind in LISTS:
            yield f"{kind}.html", self.names_of_kind(kind)
        yield "verifications.html", self.verifications()
        for name in self.reference.variables:
            yield file_of(name), self.variable(name)
        for path, file in self.sources.items():
            yield file, self.source(shown_name(self.reference.names[path]), self.reference.files[path].bytes)
        if self.reference.driver is not None and self.driver is not None:
            yield "driver.html", self.source(shown_name(self.driver), self.reference.driver, "")

    # ---- pieces of pages

    def page(self, title: str, body: str, up: str, script: str = "") -> str:
        if up not in self.heads:
            self.heads[up] = self.head(up)
        return plain_pages.page(title, body, script, self.heads[up])

    def head(self, up: str) -> str:
        """The links above a page."""
        links = [f'<a href="{up}index.html">{escaped(self.title)}</a>', *(f'<a href="{up}{kind}.html">{escaped(said(f"doc.{kind}"))}</a>' for kind in LISTS)]
        links.append(f'<a href="{up}verifications.html">{escaped(said("doc.verifications"))}</a>')
        if self.driver is not None:
            links.append(f'<a href="{up}driver.html">{escaped(said("doc.driver"))}</a>')
        return f"<nav>{' '.join(links)}</nav>\n"

    def link(self, name: str, up: str, text: str | None = None) -> str:
        return f'<a class="name" href="{up}{file_of(name)}">{escaped(text or name)}</a>'

    def code(self, pieces: list[Piece], up: str) -> str:
        return "".join(self.link(piece.name, up, piece.text) if piece.name else escaped(piece.text) for piece in pieces)

    def place(self, path: str, line: int, up: str) -> str:
        name = shown_name(self.reference.names[path])
        return f'<a href="{up}{self.sources[path]}#l{line}">{escaped(said("doc.place", file=name, line=line))}</a>'

    def comment(self, comments: list[str]) -> str:
        return f"<p>{'<br>'.join(linked(each, self.articles) for each in comments)}</p>" if comments else ""

    def names(self, names: list[str], up: str) -> str:
        items = [f"<li>{self.link(name, up)}</li>" for name in names[:MOST_LINKS]]
        more = f"<p>{escaped(said('doc.more', count=len(names) - MOST_LINKS))}</p>" if len(names) > MOST_LINKS else ""
        return f'<ul class="names">{"".join(items)}</ul>{more}'

    # ---- the index and the lists

    def kinds(self, kind: str) -> list[str]:
        found = self.reference.variables.items()
        if kind == "tables":
            return [name for name, variable in found if variable.size is not None]
        if kind == "returned":
            return [name for name, variable in found if "restituee" in variable.words]
        word = {"inputs": "saisie", "computed": "calculee", "constants": "const"}[kind]
        return [name for name, variable in found if variable.kind == word]

    def index(self) -> str:
        reference = self.reference
        rows = [[f'<a href="{kind}.html">{escaped(said(f"doc.{kind}"))}</a>', str(len(self.kinds(kind)))] for kind in LISTS]
        rows.append([f'<a href="verifications.html">{escaped(said("doc.verifications"))}</a>', str(len(reference.checks))])
        files = [f'<li><a href="{file}">{escaped(shown_name(reference.names[path]))}</a></li>' for path, file in self.sources.items()]
        if self.driver is not None:
            files.append(f'<li><a href="driver.html">{escaped(shown_name(self.driver))}</a></li>')
        data = [[name, variable.code or "", reference.description(name), file_of(name)] for name, variable in reference.variables.items()]
        written = json.dumps(data, ensure_ascii=False, separators=(",", ":")).replace("<", "\\u003c")
        written = written.encode("utf-8", "replace").decode("utf-8")
        body = [
            f'<p>{escaped(said("doc.application", application=reference.base.application))}</p>',
            f'<p><label for="search">{escaped(said("doc.search"))}</label><br><input id="search" type="search" autocomplete="off"></p>',
            f'<ul id="found" data-none="{escaped(said("doc.none"))}"></ul>', table([said("doc.what"), said("doc.count")], rows),
            f'<h2>{escaped(said("doc.sources"))}</h2><ul>{"".join(files)}</ul>', f'<script type="application/json" id="names">{written}</script>']
        return self.page(self.title, "\n".join(body), "", SEARCH)

    def names_of_kind(self, kind: str) -> str:
        rows = []
        for name in self.kinds(kind):
            variable = self.reference.variables[name]
            last = escaped(variable.text if variable.kind == "const" else "") or escaped(variable.code or "")
            size = f"[{variable.size}]" if variable.size is not None else ""
            rows.append([self.link(name, "") + escaped(size), last, linked(self.reference.description(name), self.articles)])
        heads = [said("doc.name"), said("doc.value") if kind == "constants" else said("doc.code"), said("doc.description")]
        if not any(row[1] for row in rows):
            heads, rows = [heads[0], heads[2]], [[row[0], row[2]] for row in rows]
        return self.page(said(f"doc.{kind}"), table(heads, rows) if rows else f"<p>{escaped(said('doc.no_one'))}</p>", "")

    # ---- a variable

    def variable(self, name: str) -> str:
        reference, variable = self.reference, self.reference.variables[name]
        path, line = reference.lines[name]
        facts = [(said("doc.kind"), escaped(said(f"doc.kind.{variable.kind}")))]
        for key, text in (("doc.code", variable.code), ("doc.type", variable.type), ("doc.value", variable.text if variable.kind == "const" else None),
                          ("doc.cells", None if variable.size is None else str(variable.size))):
            facts += [(said(key), f"<code>{escaped(text)}</code>")] if text else []
        attributes = [*variable.words, *(f"{word} = {number}" for word, number in variable.numbers.items())]
        facts += [(said("doc.attributes"), f"<code>{escaped(', '.join(attributes))}</code>")] if attributes else []
        facts.append((said("doc.declared"), self.place(path, line, "../")))
        body = [f"<p>{linked(reference.description(name), self.articles)}</p>", self.comment(reference.comments[name]),
                f"<dl>{''.join(f'<dt>{escaped(word)}</dt><dd>{text}</dd>' for word, text in facts)}</dl>", *self.formulas(name), *self.uses(name)]
        if reference.rests_on(name):
            body += [f"<h2>{escaped(said('doc.rests'))}</h2>", self.drawn.get(name) or pictures.tree(reference, name, lambda one: self.link(one, "../"))]
        return self.page(name, "\n".join(piece for piece in body if piece), "../")

    def formulas(self, name: str) -> list[str]:
        found = self.reference.formulas.get(name, [])
        if not found:
            return [f"<p>{escaped(said('doc.unset'))}</p>"] if self.reference.variables[name].kind == "calculee" else []
        more = [f"<p>{escaped(said('doc.more', count=len(found) - MOST_FORMULAS))}</p>"] if len(found) > MOST_FORMULAS else []
        return [f"<h2>{escaped(said('doc.formula'))}</h2>", *map(self.formula, found[:MOST_FORMULAS]), *more]

    def formula(self, formula: Formula) -> str:
        where = f"{escaped(said('doc.rule', number=formula.rule))}, {self.place(formula.path, formula.line, '../')}"
        return f'{self.comment(formula.comments)}<pre class="formula">{self.code(formula.pieces, "../")}</pre><p class="said">{where}</p>'

    def uses(self, name: str) -> list[str]:
        """What reads the variable: formulas, verifications, the driver; and what it reads."""
        reference, found = self.reference, []
        for key, names in (("doc.reads", reference.rests_on(name)), ("doc.readers", reference.readers.get(name, []))):
            found += [f"<h2>{escaped(said(key))}</h2>", self.names(names, "../")] if names else []
        if checks := reference.tested.get(name, []):
            links = [f'<li><a href="../verifications.html#{anchor(check)}">{escaped(check.number)}</a> {escaped(self.text_of_error(check.error))}</li>'
                     for check in checks]
            found += [f"<h2>{escaped(said('doc.verifications'))}</h2>", f"<ul>{''.join(links)}</ul>"]
        if lines := reference.driven.get(name, []):
            links = [f'<a href="../driver.html#l{line}">{escaped(said("doc.line", line=line))}</a>' for line in lines]
            found += [f"<h2>{escaped(said('doc.driver'))}</h2>", f"<p>{', '.join(links)}</p>"]
        if not any((reference.readers.get(name), reference.tested.get(name), reference.driven.get(name), "restituee" in reference.variables[name].words)):
            found.append(f"<p>{escaped(said('doc.unread'))}</p>")
        return found

    # ---- verifications and sources

    def text_of_error(self, error: str) -> str:
        return self.reference.errors[error].text if error in self.reference.errors else error

    def verifications(self) -> str:
        body = []
        for check in self.reference.checks:
            error = self.reference.errors[check.error]
            body += [f'<h2 id="{anchor(check)}">{escaped(said("doc.verification", number=check.number))}</h2>',
                     f"<p><code>{escaped(check.error)}</code> {escaped(said(f'doc.error.{error.kind}'))}<br>{linked(error.text, self.articles)}</p>",
                     self.comment(check.comments), f'<pre class="formula">{self.code(check.pieces, "")}</pre>',
                     f'<p class="said">{self.place(check.path, check.line, "")}</p>']
            if set(check.reads) - {piece.name for piece in check.pieces}:  # (names with the letters of a sum are no links)
                body.append(self.names(check.reads, ""))
        raised = {check.error for check in self.reference.checks}
        rows = [[f"<code>{escaped(name)}</code>", linked(error.text, self.articles), self.place(error.path, error.line, "")]
                for name, error in self.reference.errors.items() if name not in raised]
        if rows:
            body += [f"<h2>{escaped(said('doc.errors'))}</h2>", table([said("doc.name"), said("doc.description"), said("doc.declared")], rows)]
        return self.page(said("doc.verifications"), "\n".join(body) or f"<p>{escaped(said('doc.no_one'))}</p>", "")

    def source(self, name: str, content: bytes, up: str = "../") -> str:
        try:
            text = content.decode("utf-8")
        except UnicodeDecodeError:
            text = content.decode("latin-1")
        numbered = enumerate(text.replace("\r\n", "\n").split("\n"), 1)
        lines = [f'<span class="line" id="l{k}"><span class="no">{k}</span>{escaped(line)}</span>' for k, line in numbered]
        return self.page(name, f'<pre class="sheet">{"".join(lines)}</pre>', up)


def anchor(check: Check) -> str:
    return f"v{check.number}-{check.line}"
