"""Times the answers of the server over a base of COUNT rules in FILES files, after each of KEYS, and measures its memory. large.py ROOT COUNT FILES [KEYS]"""
import os
import random
import sys
import tempfile
import time

sys.path.insert(0, os.path.dirname(os.path.abspath(__file__)))
from client import Client, edit  # noqa: E402

ROOT, COUNT, FILES = sys.argv[1], int(sys.argv[2]), int(sys.argv[3])
KEYS = sys.argv[4] if len(sys.argv) > 4 else 'V19(; \nV1"x" + '


def generate(folder):
    """A base whose rules read each other as a real one's do; the files are Latin-1."""
    chance, names, made = random.Random(1), [], []
    for number in range(FILES):
        lines = [f"# Le fichier {number} : revenus, réductions et crédits d'impôt."]
        rules = range(number * COUNT // FILES, (number + 1) * COUNT // FILES)
        for k in rules:
            if k % 10 == 0:
                lines.append(f'REV{k} : saisie revenu classe = 0 alias A{k} : "Revenu déclaré numéro {k}" type REEL ;')
                made.append(f"REV{k}")
            lines.append(f'V{k} : calculee restituee : "Montant calculé de la ligne {k}, après abattement" ;')
        for k in rules:
            a, b, c = (chance.choice(made[-500:]) for _ in range(3))
            lines += [f"# article 19{k % 10} du code", f"regle calcul {k + 1} : application : iliad , batch ;"]
            term = f"si {a} > 1000.5 et {b} >= 0 alors arr(min({a}, {b}) * 0.1) + max(0, {c} - 45 * ({a} + {b})) sinon {c} / 2 finsi"
            lines.append(f"V{k} = {f'somme(i=0..9: {a}) + max(0, {a} - {b})' if k % 7 == 0 else term} ;")
            made.append(f"V{k}")
            if k % 50 == 0:
                lines.append(f'E{k} : anomalie : "E" : "{k}" : "00" : "montant négatif" ;')
                lines += [f"verif {k + 1} : application : iliad ;", f"si {a} < 0 alors erreur E{k} ;"]
        names.append(f"part{number:03}.m")
        with open(os.path.join(folder, names[-1]), "w", encoding="latin-1") as out:
            out.write("\n".join(lines) + "\n")
    with open(os.path.join(folder, "rules.list"), "w", encoding="utf-8") as out:
        out.write("\n".join(["iliad", *names, ""]))
    return os.path.join(folder, names[FILES // 2])


def memory(client):
    with open(f"/proc/{client.server.pid}/status", encoding="ascii") as lines:
        return max(int(line.split()[1]) for line in lines if line.startswith("VmHWM:")) // 1024


def seconds(client):
    """How many seconds of a processor the server has had."""
    with open(f"/proc/{client.server.pid}/stat", encoding="ascii") as file:
        fields = file.read().rsplit(")", 1)[1].split()
    return (int(fields[11]) + int(fields[12])) / os.sysconf("SC_CLK_TCK")


def timed(client, call):
    begin, used = time.monotonic(), seconds(client)
    result = call()
    return result, time.monotonic() - begin, seconds(client) - used


def main():
    with tempfile.TemporaryDirectory() as folder:
        path = generate(folder)
        with open(path, encoding="latin-1") as file:
            lines = file.read().split("\n")
        client = Client(ROOT, {"M_TAX": "/nowhere"})
        client.initialize(folder)
        _, passed, used = timed(client, lambda: (client.open(path, "\n".join(lines)), client.request("workspace/symbol", query="V1"), client.settle(2)))
        print(f"read: {passed:.1f} s, {used:.1f} s of a processor, {memory(client)} MB")
        keys(client, "file://" + path, lines)
        print(f"memory: {memory(client)} MB")
        client.end()


def keys(client, uri, lines):
    """Types a name into a formula letter by letter, and sends the requests that an editor sends."""
    line = next(number for number, text in enumerate(lines) if number > len(lines) * 0.7 and text.startswith("V") and " = si " in text)
    at, version, worst = lines[line].index(" = si ") + 6, 2, {}
    for letter in KEYS:
        where = {"line": line, "character": at}

        def key():
            client.change(uri, version, edit(line, at, line, at, letter))
            client.told.pop(uri, None)
            while uri not in client.told:
                client.receive(100)

        tell("key and its diagnostics", timed(client, key), worst)
        line, at, version = (line + 1, 0, version + 1) if letter == "\n" else (line, at + 1, version + 1)
        where = {"line": line, "character": at}
        for method in ("completion", "hover", "definition", "references", "documentHighlight"):
            tell(method, timed(client, lambda: client.request("textDocument/" + method, textDocument={"uri": uri}, position=where)), worst)
        page = {"start": {"line": max(0, line - 30), "character": 0}, "end": {"line": line + 30, "character": 0}}
        for method in ("semanticTokens/range", "inlayHint", "codeAction"):
            more = {"range": page, "context": {"diagnostics": []}}
            tell(method, timed(client, lambda: client.request("textDocument/" + method, textDocument={"uri": uri}, **more)), worst)
        for method in ("documentSymbol", "foldingRange", "semanticTokens/full"):
            tell(method, timed(client, lambda: client.request("textDocument/" + method, textDocument={"uri": uri})), worst)
    for name, (passed, used) in worst.items():
        print(f"{name}: at most {passed * 1000:.0f} ms, {used * 1000:.0f} ms of a processor")


def tell(name, found, worst):
    _, passed, used = found
    worst[name] = tuple(map(max, worst.get(name, (0, 0)), (passed, used)))


main()
