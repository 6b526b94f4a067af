"""A client whose server runs the program: what is reported when files are saved. saved.py ROOT, in an empty folder, with M_TAX"""
import os
import sys
import time

sys.path.insert(0, os.path.dirname(os.path.abspath(__file__)))
from client import Client, edit  # noqa: E402

ROOT, HERE = sys.argv[1], os.getcwd()
RULES = """REV : saisie revenu alias 1AJ : "revenu" ;
AGE : saisie revenu alias 0AG : "âge" ;
DROIT : calculee : "droits" ;
IRN : calculee restituee : "à payer" ;
VIDE : calculee : "rien" ;
E01 : anomalie : "E" : "01" : "00" : "trop" ;
E02 : anomalie : "E" : "02" : "00" : "jamais" ;
regle 10 : application : iliad ;
DROIT = REV * 0.5 ;
IRN = DROIT - VIDE ;
verif 7 : application : iliad ;
si min(REV, 1) > 2 alors erreur E02 ;
si REV > 5000 alors erreur E01 ;
"""


def put(name, text):
    with open(name, "w", encoding="latin-1") as out:
        out.write(text)


class Saved:
    def __init__(self):
        put("base.m", RULES)
        put("rules.list", "iliad\nbase.m\n")
        put("household.csv", "code,amount\n1AJ,1000\n")
        put("ranges.csv", "code,given,least,greatest\n1AJ,yes,0,5000\n")
        self.client = Client(ROOT)
        self.client.initialize(HERE, household="household.csv", ranges="ranges.csv")
        self.uri = self.client.open(os.path.join(HERE, "base.m"), RULES)
        self.text = RULES

    def wait(self, found):
        """Waits until the server has sent what a test waits for."""
        until = time.monotonic() + 300
        while not found():
            try:
                self.client.receive(until - time.monotonic())
            except TimeoutError:
                print("waited in vain")
                break

    def told(self):
        return [one for told in self.client.told.values() for one in told if one["source"] == "m_tax"]

    def has(self, words):
        return any(words in one["message"] for one in self.told())

    def show(self, what):
        print(what)
        for one in sorted(self.told(), key=lambda one: one["range"]["start"]["line"]):
            begin, end = one["range"]["start"], one["range"]["end"]
            tags = " tags" if "tags" in one else ""
            print(f"  {begin['line']}:{begin['character']}-{end['character']} {one['severity']}{tags} " + one["message"].split("\n")[0])

    def hover(self, line):
        found = self.client.at("textDocument/hover", self.uri, line, 1)["contents"]["value"]
        print("hover", [piece for piece in found.split("\n\n") if "household.csv" in piece or "ranges.csv" in piece])

    def inlays(self):
        where = {"start": {"line": 0, "character": 0}, "end": {"line": 99, "character": 0}}
        found = self.client.request("textDocument/inlayHint", textDocument={"uri": self.uri}, range=where)
        print("inlays", [(one["position"]["line"], one["label"]) for one in found])

    def save(self, text):
        put("base.m", text)
        self.client.change(self.uri, 2, {"text": text})
        self.client.notify("textDocument/didSave", textDocument={"uri": self.uri})

    def valued(self, line, what):
        """Waits for a value of the text as it is now; the program's answer comes when it comes."""
        until = time.monotonic() + 300
        while not self.is_valued(line, what) and time.monotonic() < until:
            time.sleep(0.2)
        self.hover(line)

    def is_valued(self, line, what):
        found = str(self.client.at("textDocument/hover", self.uri, line, 1))
        return what in found and "before the changes" not in found


def main():
    saved = Saved()
    saved.wait(lambda: len(saved.told()) >= 4)
    saved.show("findings")
    saved.valued(3, "household.csv")
    saved.hover(2)
    saved.inlays()
    saved.client.change(saved.uri, 2, edit(8, 14, 8, 17, "0.4"))
    saved.hover(2)
    saved.inlays()
    saved.save(RULES.replace("REV * 0.5", "REV * 0.4"))
    saved.valued(2, "= 400")
    saved.inlays()
    saved.save(RULES.replace("REV * 0.5", "IRN"))
    saved.wait(lambda: any("cycle" in one["message"] for one in saved.told()))
    saved.show("a cycle")
    put("ranges.csv", "code,given,least,greatest\n1AJ,yes,0,5000000000\n")
    saved.save(RULES.replace("REV * 0.5", "REV * REV"))
    saved.wait(lambda: saved.has("overflow") and saved.has("never stops 7 E02: ") and not saved.has("cycle") and not saved.has("refused"))
    saved.show("a value that may overflow")
    put("ranges.csv", "code,given,least,greatest\n2XX,yes,0,1\n")
    saved.save(RULES)
    saved.wait(lambda: saved.has("refused ranges") and saved.has("never stops 7 E02: ") and not saved.has("overflow"))
    saved.show("a fault of the ranges")
    put("household.csv", "code,amount\n1AJ,6000\n")
    saved.save(RULES)
    saved.valued(2, "failed")
    saved.inlays()
    print("status", saved.client.end())


main()
