"""Pages for people: the modules of web/ joined into one script, and with the style, the sentences and the rules into one file."""
import html
import json
import os
import re

from . import source
from .plain_pages import digest

HERE = os.path.dirname(os.path.realpath(__file__))
FOLDERS = (os.path.join(HERE, "web"), os.path.join(os.path.dirname(os.path.dirname(HERE)), "web"))
IMPORT = re.compile(r"import \{ ([A-Za-z_, ]+) \} from '\./([a-z]+)\.js';")
DECLARED = re.compile(r"^(?:export )?(?:async )?(?:function|class|const|let) ([A-Za-z_$][A-Za-z0-9_$]*)", re.MULTILINE)
POLICY = (
    "default-src 'none'; script-src 'sha256-{script}'; style-src 'sha256-{style}'; img-src data:; base-uri 'none'; form-action 'none'; "
    "require-trusted-types-for 'script'"
)
MAIN = "main"
STYLES = ("page.css", "result.css", "media.css")  # the form, the result, and narrow screens and paper, in the order of their rules


class BadModule(Exception):
    """A module of web/ that can't be joined as it is."""


def folder():
    """Where the sources of the page are: within the package, or next to it in the repository."""
    return next(path for path in FOLDERS if os.path.isdir(path))


def fetch(name):
    return source.fetch(os.path.join(folder(), name)).decode("utf-8")


class Joined:
    """The modules that the page needs, each after those that it imports, in one scope.

    So an import is a line of its own without other names, an export is at a declaration, and no two modules declare one name."""

    def __init__(self):
        self.pieces, self.exports, self.owners = {}, {}, {}
        self.add(MAIN)
        self.script = "\n".join(self.pieces.values())

    def add(self, name):
        if name in self.exports:
            return
        text = fetch(f"{name}.js")
        self.exports[name] = set(re.findall(r"^export (?:async )?(?:function|class|const) ([A-Za-z_]+)", text, re.MULTILINE))
        lines = []
        for line in text.split("\n"):
            match = IMPORT.fullmatch(line)
            if match:
                self.add(match[2])
                missing = set(match[1].split(", ")) - self.exports[match[2]]
                if missing:
                    raise BadModule(f"{name}.js imports {', '.join(sorted(missing))}, which {match[2]}.js doesn't export")
            elif re.match(r"(import|export (default|\{|\*))\b", line):
                raise BadModule(f"{name}.js: {line}")
            else:
                lines.append(line.removeprefix("export "))
        self.claim(name, text)
        self.pieces[name] = "\n".join(lines)

    def claim(self, name, text):
        """No other module may declare the names of this one."""
        for declared in DECLARED.findall(text):
            owner = self.owners.setdefault(declared, name)
            if owner != name:
                raise BadModule(f"{owner}.js and {name}.js both declare {declared}")


def in_script(data):
    """JSON that is safe within an element `script`, whatever its contents."""
    return json.dumps(data, ensure_ascii=False, separators=(",", ":")).replace("<", "\\u003c").replace("\u2028", "\\u2028").replace("\u2029", "\\u2029")


def sentences_of(language):
    return json.loads(fetch("texts.json"))[language]


def sentence(key, language):
    return sentences_of(language)[key]


def page(data, title, language):
    """The page with some data."""
    sentences = sentences_of(language)
    data = {**data, "language": language, "sentences": sentences}
    style, script = "".join(map(fetch, STYLES)), Joined().script
    policy = POLICY.format(script=digest(script), style=digest(style))
    plain = {"language": language, "policy": policy, "title": title, "lead": sentences["lead"], "no-script": sentences["no-script"]}
    put_in = {**{key: html.escape(text) for key, text in plain.items()}, "style": style, "script": script, "data": in_script(data)}
    return re.sub(r"\{\{([a-z-]+)\}\}", lambda match: put_in[match[1]], fetch("page.html"))
