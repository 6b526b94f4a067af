"""Edits a rule base at random in a server, and compares its messages and replies with those of a server that was started on the same texts.
edits.py ROOT COUNT SEED"""
import collections
import glob
import json
import os
import random
import sys
import tempfile

ROOT, COUNT, SEED = sys.argv[1], int(sys.argv[2]), int(sys.argv[3])
sys.path.insert(0, ROOT + "/python")
sys.setrecursionlimit(20_000)

from vodmejka.lsp.server import Server  # noqa: E402

PIECES = (
    '; : ( ) , = [ ] .. - si alors finsi regle verif 1 A a "x" X 1.5 dans non pour un et somme( max( . " sinon erreur application # saisie calculee '
    "const TOTA LOYA1 REV TAUX E01 i j IMPOT < + REVE ZZ"
).split() + ["\n", " ", '"a\nb"', "\r", "\u00e9", "\U0001f600", 'ZZ : calculee : "x" ;\n', "regle 1 : application : iliad ;\nZZ = REV ;\n"]
PIECES += ["(" * 300, "\t"]
DRIVER_PIECES = ["\n", "  ", "\n  IMPOT = 1", "REV", "REVE", "f()", "<-", "call_m()", "del IMPOT", "#", "=", "if REV:", "\u00e9", "else:",
                 "partition with a = 1:"]


class Silent:
    """A connection over which a test hands messages in and takes them out."""

    def __init__(self):
        self.waiting, self.sent, self.is_closed = collections.deque(), [], False

    def poll(self, timeout, *others):
        """Nothing comes by itself."""

    def is_cancelled(self, identity):
        return False

    def send(self, message):
        self.sent.append(json.loads(json.dumps(message)))

    def notify(self, method, params):
        self.send({"method": method, "params": params})


class Session:
    """A server with the messages that it received and sent."""

    def __init__(self, folder):
        self.server, self.told = Server(Silent()), {}
        self.request("initialize", rootUri="file://" + folder, initializationOptions={"program": "/nowhere"})

    def request(self, method, **params):
        self.server.handle({"id": 1, "method": method, "params": params})
        return self.taken()

    def notify(self, method, **params):
        self.server.handle({"method": method, "params": params})
        return self.taken()

    def settle(self):
        while self.server.work():
            pass
        self.taken()

    def taken(self):
        """Takes what was sent, and answers the last result."""
        found = None
        for message in self.server.connection.sent:
            if message.get("method") == "textDocument/publishDiagnostics":
                self.told[message["params"]["uri"]] = message["params"]["diagnostics"]
            elif "id" in message:
                found = message.get("result", message.get("error"))
            elif "has a fault" in str(message):
                print("FAULT", message)
        self.server.connection.sent.clear()
        return found


class Document:
    """A text as an editor has it."""

    def __init__(self, uri, text, pieces):
        self.uri, self.text, self.pieces, self.version = uri, text, pieces, 1

    def position(self, at):
        before = self.text[:at]
        line = before.rsplit("\n", 1)[-1]
        return {"line": before.count("\n"), "character": len(line.encode("utf-16-le")) // 2}

    def edited(self, chance):
        """A change of the text, as the client sends it."""
        if chance.random() < 0.02:
            self.text = self.text[chance.randrange(len(self.text) + 1) :] + self.text[: chance.randrange(200)]
            return {"text": self.text}
        begin = chance.randrange(len(self.text) + 1)
        end = min(len(self.text), begin + chance.choice([0, 0, 0, 1, 1, 3, 40]))
        new = chance.choice(["", chance.choice(self.pieces), " " + chance.choice(self.pieces) + " "])
        where = {"start": self.position(begin), "end": self.position(end)}
        if "\r" in self.text[begin:end] + self.text[end : end + 1] + new:
            where = None  # (a place between a carriage return and its line feed is none)
        self.text = self.text[:begin] + new + self.text[end:]
        return {"text": self.text} if where is None else {"range": where, "text": new}


def questions(documents, chance):
    """Requests, each with its parameters."""
    document = chance.choice(documents)
    where = {"textDocument": {"uri": document.uri}, "position": document.position(chance.randrange(len(document.text) + 1))}
    whole = {"textDocument": {"uri": document.uri}, "range": {"start": {"line": 0, "character": 0}, "end": {"line": 9_999, "character": 0}}}
    for name in ("hover", "definition", "references", "completion", "documentHighlight", "implementation", "prepareRename"):
        yield "textDocument/" + name, where
    yield "textDocument/rename", {**where, "newName": chance.choice(["NEUF", "REV", "k", "1"])}
    for name in ("documentSymbol", "foldingRange", "semanticTokens/full", "formatting", "codeAction", "rangeFormatting", "inlayHint"):
        yield "textDocument/" + name, whole
    yield "workspace/symbol", {"query": chance.choice(["", "tot", "rents"])}


def opened(session, documents):
    for document in documents:
        session.notify("textDocument/didOpen", textDocument={"uri": document.uri, "languageId": "m", "version": document.version, "text": document.text})


def base(folder, chance):
    """The documents of a small base: rule files of the examples and of the worked rows, and a driver."""
    rows = [name for name in glob.glob(ROOT + "/crates/rows/data/rows/*/*.m") if os.path.getsize(name) < 2_000]
    first = open(ROOT + "/examples/loops/base.m", encoding="latin-1").read()
    second = open(chance.choice(sorted(rows)), encoding="latin-1").read()
    documents = []
    for name, text, pieces in (("one.m", first, PIECES), ("two.m", second, PIECES), ("driver.mpp", "main():\n  IMPOT, REV <- call_m()\n", DRIVER_PIECES)):
        with open(os.path.join(folder, name), "w", encoding="utf-8", newline="") as out:
            out.write(text)
        documents.append(Document(f"file://{folder}/{name}", text, pieces))
    with open(os.path.join(folder, "rules.list"), "w", encoding="utf-8") as out:
        out.write("iliad\none.m\ntwo.m\n")
    return documents


def compared(session, fresh, documents, chance):
    """How many answers differ."""
    differ = 0
    for uri in {*session.told, *fresh.told}:
        if session.told.get(uri, []) != fresh.told.get(uri, []):
            differ += 1
            print("DIAGNOSTICS", uri, session.told.get(uri), fresh.told.get(uri))
    for method, params in questions(documents, chance):
        one, other = session.request(method, **params), fresh.request(method, **params)
        if one != other:
            differ += 1
            print("ANSWER", method, params, one, other)
        if isinstance(one, dict) and one.get("code") == -32603:
            differ += 1
            print("FAULT", method, params, one)
    return differ


def main():
    chance, done, differ = random.Random(SEED), 0, 0
    while done < COUNT and not differ:
        with tempfile.TemporaryDirectory() as folder:
            documents = base(folder, chance)
            session = Session(folder)
            opened(session, documents)
            for _ in range(min(40, COUNT - done)):
                done += 1
                document = chance.choice([*documents, documents[0]])
                document.version += 1
                changes = [document.edited(chance) for _ in range(chance.choice([1, 1, 1, 2]))]
                session.notify("textDocument/didChange", textDocument={"uri": document.uri, "version": document.version}, contentChanges=changes)
                if chance.random() < 0.5:
                    continue
                session.settle()
                fresh = Session(folder)
                opened(fresh, documents)
                fresh.settle()
                differ += compared(session, fresh, documents, chance)
                if differ:
                    print(json.dumps([document.text for document in documents]))
                    break
    print(f"{differ} answers differ")


main()
