"""What the server knows: the client's texts, the files of the lists that they belong to, and what is still to be read and looked at, slice by slice."""
from __future__ import annotations

import contextlib
import os
import time
from typing import Any, Callable, NamedTuple

from .. import drivers, source
from .base import Base
from .checks import Checker
from .pieces import RuleText
from .texts import Text, encoded_as, encoding_of, path_of, text_change

LIST = "rules.list"
SLICE = 0.02  # how many seconds a slice of work takes
AFRESH = 1.0  # how many seconds may pass until files are looked at again


class Settings(NamedTuple):
    """What the client sets: names of files, which count from the folder of the client, and the program."""

    list: str | None = None
    driver: str | None = None
    requests: str | None = None
    household: str | None = None
    ranges: str | None = None
    folder: str | None = None
    program: str | None = None


class DriverText(Text):
    """A driver, read when it is first used."""

    def __init__(self, path: str, uri: str | None = None) -> None:
        super().__init__(path, uri)
        self.kept: tuple[bytes, drivers.Driver] | None = None

    @property
    def driver(self) -> drivers.Driver:
        if self.kept is None or self.kept[0] is not self.content:
            self.kept = (self.content, drivers.Driver(self.content))
        return self.kept[1]


class Workspace:
    def __init__(self) -> None:
        self.folders: list[str] = []
        self.settings = Settings()
        self.texts: dict[str, Text] = {}
        self.bases: dict[str, Base] = {}
        self.dirty: dict[Text, None] = {}
        self.edited: dict[Text, None] = {}
        self.looked_at = 0.0
        self.log: Callable[[str], None] = lambda line: None

    # ---- the client's texts

    def text(self, uri: str) -> Text | None:
        return self.texts.get(key_of(uri))

    def open(self, uri: str, language: str, version: int, content: str) -> Text:
        path = path_of(uri)
        key = key_of(uri)
        text = self.texts.get(key)
        if text is None:
            is_driver = (path or uri).endswith(".mpp") or language in ("mpp", "mpptax")
            text = (DriverText if is_driver else RuleText)(path or uri, uri)
            self.texts[key] = text
        text.uri, text.version, text.on_disk = uri, version, on_disk(path)
        encoding = "utf-8" if text.on_disk is None else encoding_of(text.on_disk)
        self.take(text, *encoded_as(content, encoding))
        if isinstance(text, RuleText):
            self.belongs(text)
        return text

    def take(self, text: Text, content: bytes, encoding: str) -> None:
        """Puts a whole content into a text."""
        if content == text.content and encoding == text.encoding and (content or not isinstance(text, RuleText) or text.is_whole):
            self.dirty[text] = None
            return
        old = text.pieces if isinstance(text, RuleText) else []
        for base in self.bases_of(text):
            base.replace(old, [])
        text.set(content, encoding)
        self.changed(text)

    def changed(self, text: Text) -> None:
        self.dirty[text] = None
        if isinstance(text, DriverText):
            for base in self.bases.values():
                if self.driver_of(base) is text:
                    base.todo.update((piece, None) for found in base.variables.pieces.values() for piece in found)

    def change(self, text: Text, version: int, changes: list[Any]) -> None:
        for change in changes:
            where, new = text_change(change)
            content, encoding = encoded_as(new, text.encoding)
            if where is None or encoding != text.encoding:
                if where is not None:
                    begin, end = sorted((text.byte(where["start"]), text.byte(where["end"])))
                    new = text.decoded(text.content[:begin]) + new + text.decoded(text.content[end:])
                self.take(text, *encoded_as(new, text.encoding))
                continue
            begin, end = sorted((text.byte(where["start"]), text.byte(where["end"])))
            if isinstance(text, RuleText):
                old, fresh = text.change(begin, end, content)
                for base in self.bases_of(text):
                    base.replace(old, fresh)
            else:
                text.edit(begin, end, content)
        text.version = version
        self.changed(text)
        self.edited[text] = None

    def close(self, text: Text) -> None:
        """The client no longer has a text: the file on the disk counts again, where a list names it."""
        text.version = text.on_disk = None
        is_driver = any(self.driver_of(base) is text for base in self.bases.values())
        if is_driver or any(not base.is_alone for base in self.bases_of(text)):
            self.load(text)
        else:
            self.texts = {key: other for key, other in self.texts.items() if other is not text}
            self.bases = {key: base for key, base in self.bases.items() if not (base.is_alone and text in base.texts)}
            self.dirty.pop(text, None)
        self.edited.pop(text, None)

    def saved(self, text: Text) -> None:
        text.on_disk = on_disk(text.path)

    # ---- lists

    def bases_of(self, text: Text) -> list[Base]:
        return [base for base in self.bases.values() if text in base.texts]

    def belongs(self, text: RuleText) -> None:
        """Finds the list of a rule file. One that no list names is a base of its own."""
        path = self.list_of(text)
        if path is not None and path not in self.bases:
            self.bases[path] = Base(path)
            self.read_list(self.bases[path])
        if not any(not base.is_alone for base in self.bases_of(text)):
            alone = self.bases.setdefault(text.path, Base(text.path, True))
            if text not in alone.texts:
                self.exchange(alone, {text: (0, text.path)})
        else:
            self.bases.pop(text.path, None)

    def list_of(self, text: Text) -> str | None:
        """The list that a setting names, or the nearest above a file."""
        if self.settings.list:
            return self.path(self.settings.list)
        folder = os.path.dirname(os.path.abspath(text.path))
        while True:
            path = os.path.join(folder, LIST)
            if os.path.isfile(path):
                return path
            if folder == os.path.dirname(folder):
                return None
            folder = os.path.dirname(folder)

    def path(self, name: str) -> str:
        """The path of a name that a setting has."""
        return os.path.join(self.folders[0] if self.folders else os.getcwd(), name)

    def read_list(self, base: Base) -> None:
        """Reads a list, and takes its files in; those that it no longer names go."""
        names: list[str] = []
        base.fault, application = "", base.application
        base.signature = signature_of(base.path)
        try:
            application, names = source.read_list_text(base.path, source.fetch(base.path).removeprefix(source.MARK))
        except source.Refused as fault:
            base.fault = str(fault)
        if application != base.application:
            for text in base.texts:
                base.remove(text.pieces)
            base.texts, base.names = {}, {}
        base.application = application
        base.folder = self.folder_of(base, names)
        named: dict[Text, tuple[int, str]] = {}
        base.missing = []
        for number, name in enumerate(names):
            file = self.rule_file(os.path.join(base.folder, name))
            if file is None:
                base.missing.append((number + 1, name))
            else:
                named.setdefault(file, (number, name))
        self.exchange(base, named)

    def exchange(self, base: Base, named: dict[Any, tuple[int, str]]) -> None:
        for text in [text for text in base.texts if text not in named]:
            base.replace(text.pieces, [])
            del base.texts[text], base.names[text]
            self.dirty[text] = None
        fresh = [text for text in named if text not in base.texts]
        base.texts = {text: number for text, (number, _) in named.items()}
        base.names = {text: name for text, (_, name) in named.items()}
        for text in fresh:
            base.replace([], text.pieces)
        base.look_at_all()
        self.dirty.update(dict.fromkeys([*base.texts, *(text for text in self.texts.values() if isinstance(text, DriverText))]))

    def folder_of(self, base: Base, names: list[str]) -> str:
        """The folder from which the names of a list count: the program takes the one in which it is started. It is that of a setting, else of those of the
        client and those above the list the first that has most of the files."""
        if self.settings.folder:
            return self.path(self.settings.folder)
        own = os.path.dirname(base.path)
        above = [own]
        while above[-1] != os.path.dirname(above[-1]):
            above.append(os.path.dirname(above[-1]))
        return max([*self.folders, *above], key=lambda folder: sum(os.path.isfile(os.path.join(folder, name)) for name in names))

    def rule_file(self, path: str) -> RuleText | None:
        """The text of a file that a list names, or nothing where it can't be read."""
        key = os.path.realpath(path)
        known = self.texts.get(key)
        if known is None:
            fresh = RuleText(path)
            if self.load(fresh):
                self.texts[key] = fresh
                return fresh
            return None
        return known if isinstance(known, RuleText) and (known.is_open or os.path.isfile(known.path)) else None

    def load(self, text: Text) -> bool:
        """Takes in the file on the disk; whether it can be read."""
        try:
            text.signature = signature_of(text.path)
            content = source.fetch(text.path)
        except source.Refused:
            return False
        self.take(text, content, encoding_of(content))
        return True

    def driver_of(self, base: Base) -> DriverText | None:
        """The driver of a base: the one of the setting, or the only one in the list's folder."""
        if self.settings.driver == "-" or base.is_alone or base.fault:
            return None
        path = self.path(self.settings.driver) if self.settings.driver else None
        if path is None:
            folder = os.path.dirname(base.path)
            with contextlib.suppress(OSError):
                found = [name for name in os.listdir(folder) if name.endswith(".mpp")]
                path = os.path.join(folder, found[0]) if len(found) == 1 else None
        if path is None:
            return None
        key = os.path.realpath(path)
        if key not in self.texts:
            text = self.texts[key] = DriverText(path)
            if not os.path.isfile(path) or not self.load(text):
                del self.texts[key]
                return None
        found_text = self.texts[key]
        return found_text if isinstance(found_text, DriverText) else None

    def look_for_changes(self, is_due: bool = False) -> None:
        """Looks for files that were changed on the disk, and lists."""
        if not is_due and time.monotonic() < self.looked_at + AFRESH:
            return
        for text in list(self.texts.values()):
            if not text.is_open and text.signature != signature_of(text.path):
                self.load(text)
        for base in [base for base in self.bases.values() if not base.is_alone]:
            gone = [text for text in base.texts if not text.is_open and not os.path.isfile(text.path)]
            if gone or base.signature != signature_of(base.path) or any(os.path.isfile(os.path.join(base.folder, name)) for _, name in base.missing):
                self.read_list(base)
        for text in [text for text in self.texts.values() if text.is_open and isinstance(text, RuleText)]:
            if all(base.is_alone for base in self.bases_of(text)) or len(self.bases_of(text)) > 1:
                self.belongs(text)
        self.looked_at = time.monotonic()

    def set(self, settings: Settings) -> None:
        if settings != self.settings:
            self.settings = settings
            self.bases = {}
            for text in list(self.texts.values()):
                if not text.is_open:
                    self.texts = {key: other for key, other in self.texts.items() if other is not text}
                elif isinstance(text, RuleText):
                    self.belongs(text)
                self.dirty[text] = None

    # ---- work

    def step(self) -> bool:
        """Does a slice of the work; whether there is more."""
        unread = next((text for text in self.by_need() if not text.is_whole), None)
        if unread is not None:
            self.read_on(unread)
            return True
        base = next((base for base in self.bases.values() if base.todo), None)
        if base is not None:
            self.look_at(base)
            return True
        for base in self.bases.values():
            if base.is_other and (driver := self.driver_of(base)) is not None:
                self.dirty[driver] = None
            base.is_other = False
        return False

    def by_need(self) -> list[RuleText]:
        """The rule files, those first that the client has."""
        return sorted((text for text in self.texts.values() if isinstance(text, RuleText)), key=lambda text: not text.is_open)

    def read_on(self, text: RuleText) -> None:
        until = time.monotonic() + SLICE
        while not text.is_whole and time.monotonic() < until:
            fresh = text.read(50)
            for base in self.bases_of(text):
                base.add(fresh)
        if text.is_whole:
            self.dirty[text] = None

    def look_at(self, base: Base) -> None:
        until = time.monotonic() + SLICE
        driver = self.driver_of(base)
        checker = Checker(base, set(driver.driver.set), {name for name, _, _ in driver.driver.cells}) if driver else Checker(base)
        while base.todo and time.monotonic() < until:
            piece = base.next()
            found = checker.findings(piece)
            if found != base.found.get(piece, []):
                self.dirty[piece.text] = None
            if found:
                base.found[piece] = found
            else:
                base.found.pop(piece, None)

    def look_at_text(self, text: Text, tick: Callable[[], None]) -> None:
        """Looks for the faults of names of a text that were not looked for yet."""
        self.finish(None, tick)
        for base in self.bases_of(text):
            base.now.update((piece, None) for piece in base.todo if piece.text is text)
            while base.now:
                self.look_at(base)
                tick()

    def finish(self, text: Text | None, tick: Callable[[], None]) -> None:
        """Reads a text to its end, or without one all that there is."""
        while any(not other.is_whole for other in self.by_need() if text in (None, other)):
            self.read_on(next(other for other in self.by_need() if not other.is_whole and text in (None, other)))
            tick()


def key_of(uri: str) -> str:
    path = path_of(uri)
    return uri if path is None else os.path.realpath(path)


def signature_of(path: str) -> tuple[int, ...] | None:
    try:
        found = os.stat(path)
    except OSError:
        return None
    return found.st_mtime_ns, found.st_size, found.st_ino


def on_disk(path: str | None) -> bytes | None:
    """What a file has, or nothing where it can't be read."""
    try:
        return source.fetch(path) if path is not None else None
    except source.Refused:
        return None
