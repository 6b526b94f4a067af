"""A client of the language server, for tests: it starts `vodmejka lsp`, sends messages, and takes what comes back."""
import json
import os
import select
import subprocess
import sys
import time


class Client:
    def __init__(self, root, environment=None):
        words = [sys.executable, "-B", os.path.join(root, "tools", "lsp")]
        self.server = subprocess.Popen(words, stdin=subprocess.PIPE, stdout=subprocess.PIPE, env={**os.environ, **(environment or {})})
        self.left, self.number, self.told, self.logged, self.others = b"", 0, {}, [], []

    def write(self, data):
        self.server.stdin.write(data)
        self.server.stdin.flush()

    def send(self, message):
        body = json.dumps({"jsonrpc": "2.0", **message}).encode()
        self.write(b"Content-Length: %d\r\n\r\n%s" % (len(body), body))

    def notify(self, method, **params):
        self.send({"method": method, "params": params})

    def ask(self, method, **params):
        """Sends a request; its id."""
        self.number += 1
        self.send({"id": self.number, "method": method, "params": params})
        return self.number

    def request(self, method, **params):
        """The result of a request, or its error."""
        answer = self.answer(self.ask(method, **params))
        return answer["error"] if "error" in answer else answer["result"]

    def answer(self, number, seconds=300):
        until = time.monotonic() + seconds
        while True:
            for k, message in enumerate(self.others):
                if message.get("id") == number and "method" not in message:
                    return self.others.pop(k)
            self.receive(until - time.monotonic())

    def receive(self, seconds):
        """Takes the next message in; diagnostics and lines of the log are kept apart."""
        until = time.monotonic() + seconds
        while True:
            head, separator, rest = self.left.partition(b"\r\n\r\n")
            if separator:
                length = int(head.split(b":")[1])
                if len(rest) >= length:
                    break
            if not select.select([self.server.stdout], [], [], max(0, until - time.monotonic()))[0]:
                raise TimeoutError
            piece = os.read(self.server.stdout.fileno(), 1 << 20)
            if not piece:
                raise EOFError
            self.left += piece
        message = json.loads(rest[:length])
        self.left = rest[length:]
        if message.get("method") == "textDocument/publishDiagnostics":
            self.told[message["params"]["uri"]] = message["params"]["diagnostics"]
        elif message.get("method") == "window/logMessage":
            self.logged.append(message["params"]["message"])
        else:
            self.others.append(message)
        return message

    def settle(self, seconds=0.3):
        """Reads messages until none has come for this many seconds."""
        while True:
            try:
                self.receive(seconds)
            except TimeoutError:
                return

    def initialize(self, folder, **options):
        found = self.request("initialize", processId=None, rootUri="file://" + folder, capabilities={}, initializationOptions=options)
        self.notify("initialized")
        return found

    def open(self, path, text, language="m"):
        uri = "file://" + path
        self.notify("textDocument/didOpen", textDocument={"uri": uri, "languageId": language, "version": 1, "text": text})
        return uri

    def change(self, uri, version, *changes):
        self.notify("textDocument/didChange", textDocument={"uri": uri, "version": version}, contentChanges=list(changes))

    def at(self, method, uri, line, character, **more):
        return self.request(method, textDocument={"uri": uri}, position={"line": line, "character": character}, **more)

    def end(self):
        self.request("shutdown")
        self.notify("exit")
        return self.server.wait(10)


def edit(first_line, first, last_line, last, text):
    """A change of a range."""
    return {"range": {"start": {"line": first_line, "character": first}, "end": {"line": last_line, "character": last}}, "text": text}
