# The files for editors: what the grammars make of a line, and what the problem matchers take from lines.
cat >look.py <<'END'
import json
import re
import sys

folder = sys.argv[1] + "/tools/editors/vscode/"


def coloured(grammar, line):
    """The pieces of a line with the last words of their names; the first pattern at the earliest place wins, as in an editor."""
    patterns = [(p["name"], re.compile(p["match"] if "match" in p else p["begin"] + "[^\"]*" + p["end"]))
                for p in json.load(open(folder + grammar))["patterns"]]
    at, pieces = 0, []
    while True:
        found = [(m.start(), k, m) for k, (_, form) in enumerate(patterns) for m in [form.search(line, at)] if m]
        if not found:
            return " ".join(pieces)
        _, k, match = min(found, key=lambda f: f[:2])
        pieces.append(f"{match[0]}~{patterns[k][0].split('.')[-2]}")
        at = match.end()


print(coloured("m.tmLanguage.json", 'REV2 : saisie revenu classe = 0 alias 1AJ : "si # no" type REEL ; # "regle" si'))
print(coloured("m.tmLanguage.json", "T[X] = si positif_ou_nul(XA) et si_ >= 1.5 alors max(08,A) sinon2 finsi"))
print(coloured("mpp.tmLanguage.json", "f():"))
print(coloured("mpp.tmLanguage.json", "  IRN, del2 <- call_m()  # if"))
print(coloured("mpp.tmLanguage.json", "  if not present(A) and B == 1:"))
matchers = json.load(open(folder + "package.json"))["contributes"]["problemMatchers"]
for line in ["refused a b.m line 5 byte 150: unknown name SEUI", "slip a.m line 2 byte 3: restituee = .. returns nothing, of A",
             "a b.m:5:12: error: refused a b.m line 5 byte 150: unknown name SEUI", "IRN = 1"]:
    print([match.groups() for m in matchers for match in [re.search(m["pattern"]["regexp"], line)] if match])
json.load(open(folder + "mpp.tmLanguage.json")), json.load(open(folder + "language.json"))
END
python3 look.py "$ROOT"
