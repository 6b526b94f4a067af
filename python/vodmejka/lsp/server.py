"""The server: one process, one thread. It takes messages as they come, answers requests in their order, and works on what is left in between."""
from __future__ import annotations

import os
import sys
import time
import traceback
from typing import Any, Callable

from . import diagnostics, features, saved
from .protocol import (
    INTERNAL_ERROR, INVALID_PARAMS, INVALID_REQUEST, METHOD_NOT_FOUND, NOT_INITIALIZED, REQUEST_CANCELLED, Cancelled, Connection, Malformed, ResponseError,
    params_of,
)
from .pieces import RuleText
from .texts import Text, path_of
from .workspace import Settings, Workspace

POLLED = 0.01  # how many seconds may pass until a request looks whether it is cancelled

Message = dict[str, Any]


class Server:
    def __init__(self, connection: Connection) -> None:
        self.connection, self.workspace = connection, Workspace()
        self.is_initialized = self.is_shut_down = False
        self.status: int | None = None
        self.at_hand: Any = None
        self.polled = 0.0
        self.published: dict[str, list[Any]] = {}
        self.is_published_early = False  # whether texts were published, and not yet their lists
        self.runs = saved.Runs(self.workspace)
        self.workspace.log = self.log
        self.requests = features.REQUESTS
        self.notifications: dict[str, Callable[[Message], None]] = {
            "textDocument/didOpen": self.did_open, "textDocument/didChange": self.did_change, "textDocument/didClose": self.did_close,
            "textDocument/didSave": self.did_save, "workspace/didChangeConfiguration": self.did_change_configuration,
            "workspace/didChangeWatchedFiles": lambda params: self.workspace.look_for_changes(True), "initialized": lambda params: None,
            "workspace/didChangeWorkspaceFolders": self.did_change_folders,
        }

    # ---- the loop

    def serve(self) -> int:
        """Answers until the client ends it, or is gone."""
        try:
            while self.status is None:
                is_busy = not self.connection.waiting and self.work()
                self.connection.poll(0 if is_busy or self.connection.is_closed else None, *self.runs.descriptors())
                if self.runs.take_in():
                    self.publish_all()
                if self.connection.waiting:
                    self.handle(self.connection.waiting.popleft())
                elif self.connection.is_closed:
                    self.status = 1
        finally:
            self.runs.end()
        return self.status

    def work(self) -> bool:
        """Does a slice of what is left; whether there is more."""
        if not self.is_initialized:
            return False
        try:
            if self.workspace.step():
                self.publish_early()
                return True
            self.publish_all()
        except OSError:
            raise
        except Exception as fault:
            self.log_fault("diagnostics", fault)
        return False

    def tick(self) -> None:
        """Looks, now and then, whether the client still wants the answer at hand."""
        now = time.monotonic()
        if now > self.polled + POLLED:
            self.polled = now
            before = len(self.connection.waiting)
            self.connection.poll(0)
            if before < len(self.connection.waiting) and self.connection.is_cancelled(self.at_hand):
                raise Cancelled

    # ---- messages

    def handle(self, message: Message | Malformed) -> None:
        if isinstance(message, Malformed):
            self.answer_error(None, message.code, message.message)
        elif "method" not in message:
            return  # (an answer to a request of the server, which is ignored)
        elif "id" in message:
            self.request(message)
        else:
            self.notification(message)

    def request(self, message: Message) -> None:
        identity, method = message["id"], message["method"]
        self.at_hand, self.polled = identity, 0.0
        try:
            if self.connection.is_cancelled(identity):
                raise Cancelled
            result = self.result(method, params_of(message))
            self.connection.send({"id": identity, "result": result})
        except Cancelled:
            self.answer_error(identity, REQUEST_CANCELLED, "cancelled")
        except ResponseError as error:
            self.answer_error(identity, error.code, error.message)
        except OSError:
            raise
        except Exception as fault:
            self.log_fault(method, fault)
            self.answer_error(identity, INTERNAL_ERROR, f"{method}: {type(fault).__name__} {fault}")
        finally:
            self.at_hand = None

    def result(self, method: str, params: Message) -> Any:
        if method == "initialize":
            if self.is_initialized:
                raise ResponseError(INVALID_REQUEST, "initialize is sent once")
            return self.initialize(params)
        if not self.is_initialized:
            raise ResponseError(NOT_INITIALIZED, "initialize comes first")
        if self.is_shut_down:
            raise ResponseError(INVALID_REQUEST, "the server was shut down")
        if method == "shutdown":
            self.is_shut_down = True
            return None
        if method not in self.requests:
            raise ResponseError(METHOD_NOT_FOUND, f"{method} isn't known")
        self.workspace.look_for_changes()
        return self.requests[method](features.Context(self.workspace, self.tick, self.runs), params)

    def notification(self, message: Message) -> None:
        method = message["method"]
        if method == "exit":
            self.status = 0 if self.is_shut_down else 1
        elif self.is_initialized and not self.is_shut_down and method in self.notifications:
            try:
                self.notifications[method](params_of(message))
            except ResponseError as error:
                self.log(f"{method}: {error.message}")
            except OSError:
                raise
            except Exception as fault:
                self.log_fault(method, fault)

    def answer_error(self, identity: Any, code: int, message: str) -> None:
        self.connection.send({"id": identity, "error": {"code": code, "message": message}})

    def log(self, line: str) -> None:
        self.connection.notify("window/logMessage", {"type": 2, "message": line})

    def log_fault(self, method: str, fault: Exception) -> None:
        place = traceback.extract_tb(fault.__traceback__)[-1]
        self.log(f"{method}: the server has a fault: {type(fault).__name__} {fault}, {os.path.basename(place.filename)} line {place.lineno}")
        if os.environ.get("VODMEJKA_TRACE"):
            traceback.print_exception(fault, file=sys.stderr)

    # ---- the client's notifications

    def initialize(self, params: Message) -> Message:
        folders = params.get("workspaceFolders") or []
        uris = [folder.get("uri") for folder in folders if isinstance(folder, dict)] or [params.get("rootUri")]
        self.workspace.folders = [path for uri in uris if isinstance(uri, str) and (path := path_of(uri)) is not None]
        if not self.workspace.folders and isinstance(params.get("rootPath"), str):
            self.workspace.folders = [params["rootPath"]]
        self.configure(params.get("initializationOptions"))
        self.is_initialized = True
        return {"capabilities": features.CAPABILITIES, "serverInfo": {"name": "vodmejka"}}

    def configure(self, options: Any) -> None:
        """Takes settings by their names. Those that aren't known, or aren't names, are reported."""
        if isinstance(options, dict) and isinstance(options.get("vodmejka"), dict):
            options = options["vodmejka"]
        if not isinstance(options, dict):
            return
        known = {name: value for name, value in options.items() if name in Settings._fields and isinstance(value, str) and "\0" not in value}
        if other := sorted(set(options) - set(known) - {name for name, value in options.items() if value is None}):
            self.log(f"settings that aren't known, or aren't texts: {', '.join(map(str, other))}")
        self.workspace.set(Settings(**{name: value for name, value in known.items() if value}))
        self.runs.begin()

    def did_change_configuration(self, params: Message) -> None:
        self.configure(params.get("settings"))

    def did_change_folders(self, params: Message) -> None:
        event = params.get("event")
        added = event.get("added", []) if isinstance(event, dict) else []
        self.workspace.folders += [path for folder in added if (path := path_of(folder["uri"])) is not None]

    def did_open(self, params: Message) -> None:
        document = params.get("textDocument")
        if not isinstance(document, dict) or not isinstance(document.get("uri"), str) or not isinstance(document.get("text"), str):
            raise ResponseError(INVALID_PARAMS, "a document has a uri and a text")
        version = document.get("version")
        self.workspace.open(document["uri"], str(document.get("languageId", "")), version if isinstance(version, int) else 0, document["text"])
        self.runs.begin()

    def opened(self, params: Message) -> Text:
        text = features.text_of(self.workspace, params)
        if not text.is_open:
            raise ResponseError(INVALID_PARAMS, f"{text.uri} isn't open")
        return text

    def did_change(self, params: Message) -> None:
        text, changes = self.opened(params), params.get("contentChanges")
        version = params["textDocument"].get("version")
        self.workspace.change(text, version if isinstance(version, int) else 0, changes if isinstance(changes, list) else [])

    def did_close(self, params: Message) -> None:
        text = self.opened(params)
        self.workspace.close(text)
        self.publish(text.uri, [])
        if self.workspace.text(text.uri) is not None:
            self.workspace.dirty[text] = None

    def did_save(self, params: Message) -> None:
        self.workspace.saved(self.opened(params))
        self.workspace.look_for_changes(True)
        self.runs.begin()

    # ---- diagnostics

    def publish_early(self) -> None:
        """Publishes what is known of texts that were opened or edited, while others are still to be read or checked."""
        workspace = self.workspace
        for text in [text for text in workspace.dirty if text.is_open and (text in workspace.edited or text.uri not in self.published)]:
            is_due = isinstance(text, RuleText) and any(base.now for base in workspace.bases_of(text) if all(other.is_whole for other in base.texts))
            if getattr(text, "is_whole", True) and not is_due:
                del workspace.dirty[text]
                self.is_published_early = True
                workspace.edited.pop(text, None)
                self.publish(text.uri, diagnostics.of_text(workspace, text) + self.runs.diagnostics_of(text), text.version)

    def publish_all(self) -> None:
        dirty, self.workspace.dirty, self.workspace.edited = self.workspace.dirty, {}, {}
        for text in dirty:
            if self.workspace.text(text.uri) is text:
                self.publish(text.uri, diagnostics.of_text(self.workspace, text) + self.runs.diagnostics_of(text), text.version)
        bases = self.workspace.bases.values() if dirty or self.is_published_early else []
        self.is_published_early = False
        for base in bases:
            if not base.is_alone:
                self.publish(base.uri, diagnostics.of_list(self.workspace, base) + self.runs.diagnostics_of_list(base))
        known = {text.uri for text in self.workspace.texts.values()} | {base.uri for base in self.workspace.bases.values()}
        for uri in [uri for uri, found in self.published.items() if found and uri not in known]:
            self.publish(uri, [])

    def publish(self, uri: str, found: list[Any], version: int | None = None) -> None:
        """Publishes the diagnostics of an open text, and of another one if they changed."""
        if version is not None or self.published.get(uri, []) != found:
            params: Message = {"uri": uri, "diagnostics": found}
            self.connection.notify("textDocument/publishDiagnostics", params if version is None else {**params, "version": version})
        self.published[uri] = found
