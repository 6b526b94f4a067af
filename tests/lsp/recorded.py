"""A recorded client: what the server answers over a small base, line by line. recorded.py ROOT, in an empty folder"""
import json
import os
import sys

sys.path.insert(0, os.path.dirname(os.path.abspath(__file__)))
from client import Client, edit  # noqa: E402

ROOT, HERE = sys.argv[1], os.getcwd()
BASE = """# Droits d'un foyer \U0001f600 ; les montants sont inventés.
SALV : saisie revenu avfisc = 1 alias 1AJ : "salaires, déclarant 1" type REEL ;
SALC : saisie revenu alias 1BJ : "salaires, déclarant 2" ;
TAUX : const = 0.1 ;
TRANCHE : tableau[3] calculee : "seuils" ;
NETV : calculee : "net, déclarant 1" ;
NETC : calculee : "net, déclarant 2" ;
IRN : calculee restituee : "à payer" ;
E01 : anomalie : "E" : "01" : "00" : "salaire négatif" ;
regle calcul 10 : application : iliad ;
pour i = V,C : NETi = SALi - SALi * TAUX ;
TRANCHE[X] = X * 1000 ;
/* */ """.replace("/* */ ", "")
RULES = """regle 20 : application : iliad , batch ;
IRN = somme(i=V,C: NETi) - TRANCHE[1] ;   # \U0001f600 IRN
verif 1 : application : iliad ;
si SALV < 0 alors erreur E01 ;
"""
SLIPS = """PLAFOND : const = 100 ;
LIBRE : const = 3 ;
SEUL : calculee : "que rien ne lit" ;
NUL : calculee restituee : "que rien ne fixe" ;
E02 : anomalie : "E" : "02" : "00" : "toujours" ;
E03 : anomalie : "E" : "03" : "00" : "jamais" ;
regle 20 : application : iliad ;
IRN = somme(i=V,C: somme(i=V,C: NETi)) - TRANCHE[1] ;
regle 10 : application : iliad ;
SEUL = 1 ;
verif 1 : application : iliad ;
si PLAFOND > 99 alors erreur E02 ;
si SALV < 0 alors erreur E01 ;
regle 10 : application : batch ;
SEUL = 2 ;
"""
DRIVER = """main():
  AVANT <- sans()
  IRN <- call_m()
sans():
  partition with avfisc = 1:
    IRN <- call_m()
  SALV = IRN
"""


def put(name, content):
    with open(name, "wb") as out:
        out.write(content)
    return os.path.join(HERE, name)


def place(text, word, more=0, nth=0):
    """The position of the nth occurrence of a word, in UTF-16 units."""
    at = -1
    for _ in range(nth + 1):
        at = text.index(word, at + 1)
    before = text[: at + more]
    line = before.rsplit("\n", 1)[-1]
    return {"line": before.count("\n"), "character": len(line.encode("utf-16-le")) // 2}


def short(where):
    begin, end = where["start"], where["end"]
    last = f"{end['line']}:{end['character']}" if begin["line"] != end["line"] else end["character"]
    return f"{begin['line']}:{begin['character']}-{last}"


def name_of(uri):
    return uri.rsplit("/", 1)[1]


class Script:
    """The client, with what is printed of its answers."""

    def __init__(self):
        self.client = Client(ROOT, {"M_TAX": "/nowhere"})
        self.texts = {}

    def opened(self, name, text, language="m"):
        uri = self.client.open(os.path.join(HERE, name), text, language)
        self.texts[uri] = text
        return uri

    def ask(self, method, uri, word, more=0, nth=0, **others):
        return self.client.request("textDocument/" + method, textDocument={"uri": uri}, position=place(self.texts[uri], word, more, nth), **others)

    def places(self, what, answer):
        print(what, " ".join(f"{name_of(one['uri'])} {short(one['range'])}" for one in answer or []) or answer)

    def edits(self, what, answer):
        if "changes" not in answer:
            print(what, answer["code"], answer["message"].replace(HERE + "/", ""))
            return
        found = [f"{name_of(uri)} {short(one['range'])}" for uri, edits in answer["changes"].items() for one in edits]
        print(what, " ".join(found))

    def diagnostics(self, what):
        """The diagnostics of all texts after the last change."""
        self.client.request("workspace/symbol", query="")
        self.client.settle()
        print(what)
        for uri, told in sorted(self.client.told.items()):
            for one in told:
                line = f"  {name_of(uri)} {short(one['range'])} {one['severity']} {one['message']}"
                print(line.replace(HERE + "/", "").replace(HERE, "HERE").replace("\n", "\n    "))

    def mended(self, uri, text, what):
        """The quick fixes of a text, and the text as the first one leaves it."""
        self.client.change(uri, 2, {"text": text})
        self.texts[uri] = text
        everything = {"start": {"line": 0, "character": 0}, "end": {"line": 999, "character": 0}}
        actions = self.client.request("textDocument/codeAction", textDocument={"uri": uri}, range=everything, context={"diagnostics": []})
        print(what + ":", "; ".join(action["title"] for action in actions))
        for action in actions[:1]:
            for one in sorted(action["edit"]["changes"][uri], key=lambda one: -place_at(text, one["range"]["start"])):
                begin, end = place_at(text, one["range"]["start"]), place_at(text, one["range"]["end"])
                text = text[:begin] + one["newText"] + text[end:]
            print("  ", text.split("\n")[actions[0]["diagnostics"][0]["range"]["start"]["line"] - ("put ; in" == action["title"])])


def place_at(text, where):
    lines = text.split("\n")
    line = lines[where["line"]]
    return sum(len(one) + 1 for one in lines[: where["line"]]) + len(line.encode("utf-16-le")[: 2 * where["character"]].decode("utf-16-le"))


def protocol(script):
    """Messages that are none, and requests that aren't known, come late, or are cancelled."""
    client = script.client
    client.send({"id": 900, "method": "textDocument/hover", "params": {}})
    print("early", client.answer(900)["error"]["code"])
    capabilities = client.initialize(HERE)["capabilities"]
    print("encoding", capabilities["positionEncoding"], "changes", capabilities["textDocumentSync"]["change"])
    client.write(b"Content-Length: 9\r\n\r\n{no json}")
    print("no JSON", client.answer(None)["error"]["code"])
    client.write(b"Content-Length: 2\r\n\r\n[]")
    print("no message", client.answer(None)["error"]["code"])
    client.write(b"Content-Type: x\r\n\r\n")
    print("no length", client.answer(None)["error"]["code"])
    print("unknown", client.request("textDocument/moniker")["code"])
    client.notify("$/unknown")
    print("not open", client.request("textDocument/hover", textDocument={"uri": "file:///none.m"}, position={"line": 0, "character": 0})["code"])
    print("again", client.request("initialize")["code"])


def cancelled(script, uri):
    client = script.client
    body = [{"id": "a", "method": "workspace/symbol", "params": {"query": ""}}, {"method": "$/cancelRequest", "params": {"id": "a"}}]
    bodies = [json.dumps({"jsonrpc": "2.0", **one}).encode() for one in body]
    client.write(b"".join(b"Content-Length: %d\r\n\r\n%s" % (len(one), one) for one in bodies))
    print("cancelled", client.answer("a")["error"]["code"])
    for what in ({"line": -1, "character": 0}, {"line": "0", "character": 0}, None):
        print("no position", client.request("textDocument/hover", textDocument={"uri": uri}, position=what)["code"])
    print("past the end", client.request("textDocument/hover", textDocument={"uri": uri}, position={"line": 10_000, "character": 10_000}))


def shown(script, base, rules):
    words = (("loops", rules, "NETi"), ("a code", base, "1AJ"), ("an error", rules, "E01"), ("a table", rules, "TRANCHE"), ("a letter", base, "i ="))
    for what, uri, word in words:
        found = script.ask("hover", uri, word, 1 if what != "a letter" else 0)
        print(f"hover of {what} {short(found['range'])}")
        print("  " + found["contents"]["value"].replace("\n", "\n  "))


def followed(script, base, rules, driver):
    script.places("definition of NETi", script.ask("definition", rules, "NETi"))
    script.places("definition of E01", script.ask("definition", rules, "E01"))
    script.places("definition at NETV", script.ask("definition", base, "NETV"))
    script.places("implementation of IRN", script.ask("implementation", base, "IRN"))
    script.places("references of SALV", script.ask("references", base, "SALV", context={"includeDeclaration": True}))
    script.places("uses of IRN", script.ask("references", base, "IRN", context={"includeDeclaration": False}))
    script.places("definition in a driver", script.ask("definition", driver, "IRN"))
    script.places("definition of a function", script.ask("definition", driver, "sans"))
    script.places("nothing", script.ask("definition", rules, "somme"))
    script.edits("rename IRN", script.ask("rename", base, "IRN", newName="DU"))
    script.edits("rename a function", script.ask("rename", driver, "sans", newName="seul"))
    script.edits("rename a letter", script.ask("rename", base, "i =", newName="k"))
    script.edits("rename NETV", script.ask("rename", base, "NETV", newName="DU"))
    script.edits("rename NETi", script.ask("rename", rules, "NETi", newName="DU"))
    script.edits("rename a code", script.ask("rename", base, "1AJ", newName="1AK"))
    script.edits("rename to a name that is there", script.ask("rename", base, "IRN", newName="TAUX"))
    script.edits("rename to small letters", script.ask("rename", base, "IRN", newName="Du"))


def listed(script, uris):
    for uri in uris:
        symbols = script.client.request("textDocument/documentSymbol", textDocument={"uri": uri})
        print("symbols", " ".join(one["name"].replace(" ", "-") + "".join(f"({child['name']})" for child in one.get("children", [])) for one in symbols))
        print("folded", [(one["startLine"], one["endLine"]) for one in script.client.request("textDocument/foldingRange", textDocument={"uri": uri})])
    print("names with NET", [one["name"] for one in script.client.request("workspace/symbol", query="net")])
    print("described by salaire", [one["name"] for one in script.client.request("workspace/symbol", query="salaire")])
    tokens = script.client.request("textDocument/semanticTokens/full", textDocument={"uri": uris[1]})["data"]
    print("tokens of line 1", [tuple(tokens[k : k + 5]) for k in range(0, len(tokens), 5)][9:26])


def completed(script, rules):
    tails = ("IR", "IRN = ", "IRN = 1A", "IRN = SALV ", "regle 30 : ", "regle 30 : application : ", "A : ", "A : calculee ")
    for tail in (*tails, "verif 2 : application : iliad ; si 1 alors erreur ", "# si ", '" si '):
        text = RULES.split("verif")[0] + tail
        script.client.change(rules, 2, {"text": text})
        script.texts[rules] = text
        items = script.ask("completion", rules, tail, len(tail))["items"]
        print(f"after {tail!r}:", " ".join(item["label"].replace(" ", "-") for item in items))
    script.client.change(rules, 2, {"text": RULES})
    script.texts[rules] = RULES


def hints(script, rules):
    for what, old, new in (
        ("a name", "TRANCHE[1]", "TRANHE[1]"), ("an error", "erreur E01", "erreur E10"), ("a semicolon", "TRANCHE[1] ;", "TRANCHE[1]"),
        ("a bracket", "NETi)", "NETi"), ("a comma", "TRANCHE[1]", "1,5"), ("two signs", "IRN =", "IRN =="), ("finsi", "TRANCHE[1]", "si 1 alors 2"),
        ("a word", "application", "aplication"), ("three arguments", "TRANCHE[1]", "max(1, 2 * 3, 4)"), ("capitals", "somme(", "SOMME("),
        ("another sign", "< 0", "\u2264 0"), ("a hard blank", "SALV < 0", "SALV <\u00a00"), ("a colon", "verif 1 :", "verif 1"),
    ):
        script.mended(rules, RULES.replace(old, new, 1), what)
    script.client.change(rules, 2, {"text": RULES})
    script.texts[rules] = RULES


def slipped(script, rules):
    """What is declared and not used, or not what was meant."""
    script.client.change(rules, 2, {"text": SLIPS})
    script.diagnostics("slips")
    script.client.change(rules, 2, {"text": RULES})


def edited(script, rules):
    """Changes of ranges that count UTF-16 units, several in one message."""
    changes = [edit(1, 47, 1, 50, "x\U0001f600y"), edit(1, 45, 1, 46, "z"), edit(0, 0, 0, 0, "# \n"), edit(2, 51, 2, 52, "")]
    script.client.change(rules, 3, *changes)
    client = script.client
    layout = client.request("textDocument/formatting", textDocument={"uri": rules}, options={})
    print("edited", [one["newText"] for one in layout])
    script.client.change(rules, 4, {"text": RULES})


def main():
    put("base.m", BASE.replace("\U0001f600", "").encode("latin-1"))
    put("rules.m", RULES.encode())
    put("driver.mpp", DRIVER.encode())
    put("rules.list", b"iliad\nbase.m\nrules.m\n")
    script = Script()
    protocol(script)
    base, rules = script.opened("base.m", BASE), script.opened("rules.m", RULES)
    driver = script.opened("driver.mpp", DRIVER, "mpp")
    script.diagnostics("told at first")
    cancelled(script, rules)
    shown(script, base, rules)
    followed(script, base, rules, driver)
    listed(script, (base, rules, driver))
    completed(script, rules)
    hints(script, rules)
    slipped(script, rules)
    edited(script, rules)
    lists(script, rules)
    print("status", script.client.end())


def lists(script, rules):
    """A list that is gone, one that names another file, and one that comes back."""
    os.rename("rules.list", "other.list")
    script.client.notify("workspace/didChangeWatchedFiles", changes=[])
    script.diagnostics("the list is gone")
    script.client.notify("workspace/didChangeConfiguration", settings={"vodmejka": {"list": "other.list", "driver": "-"}})
    script.diagnostics("a setting names it")
    put("other.list", b"iliad\nbase.m\nnone.m\n")
    script.client.notify("workspace/didChangeWatchedFiles", changes=[])
    script.diagnostics("the list names another file")
    put("other.list", b"iliad\nbase.m\nrules.m\n")
    script.client.notify("workspace/didChangeWatchedFiles", changes=[])
    script.client.notify("textDocument/didClose", textDocument={"uri": rules})
    script.diagnostics("the list is back, and a file is closed")


main()
