# needs the program
# The law of a small rule base as a page holds it: trees with letters filled in and sums written out, parts for inner terms, comments, places, where the
# driver's values come from; then the words, and faults of the rules, the groups and a reform. The values of parts are those of one call: A = 3, so
# P_0 = 3 * 2.
printf 'iliad\na.m\n' > l.txt
cat > a.m <<'M'
# Un en-tête.
A : saisie contexte avfisc = 1 alias 1AA : "le revenu" type ENTIER ;  # la case
B : saisie famille alias 1AB : "l'autre" type BOOLEEN ;
TX : const = 0.5 ;
T : tableau[3] calculee : "les dizaines" ;
S : calculee : "la somme" ;
R : calculee restituee : "le résultat" ;
G : calculee restituee : "le gain" ;
E1 : informative : "A" : "1" : "00" : "un texte" : "N" ;
# article 197
regle 10 : application : iliad ;  # le barème
T[X] = X * 10 ;
# au-dessus
pour i = A: S = somme(k=08..09: k - 1 + i) ;
R = si B non dans (0, -1..2) alors T[S - A] sinon max(T[2], - A * 2 / TX) finsi ;  # ici
regle 20 : application : batch ;
R = 1 ;
verif 1 : application : iliad ;
si A > 9 alors erreur E1 ;
M
cat > d.mpp <<'D'
main():
  G <- without()
  R <- call_m()
  if present(A):
    G = G - R  # le gain
without():
  partition with taxbenefit:
    R <- call_m()
  G = R
D
cat > look.py <<'P'
import json, re, sys
data = json.loads(re.search(r'<script type="application/json" id="data">(.*?)</script>', open(sys.argv[1], encoding="utf-8").read(), re.DOTALL)[1])
law = data["laws"][0]
for cell in law["cells"]:
    print("cell", *(json.dumps(part) for part in cell))
for formula in law["formulas"]:
    print("formula", *formula, sep=" | ")
print("variables", sorted(law["variables"]), law["variables"]["A"], law["variables"]["TX"])
print("errors", law["errors"], "pure", law["pure"], "places", law["places"], "groups", data["groups"], "main", data["main"])
def told(origin, level):
    print("  " * level, origin["line"], origin["text"], origin["by"], origin["cell"], origin.get("hidden", ""), origin["blocks"])
    for below in origin.get("below", ()):
        told(below, level + 1)
for name, origins in law["origins"].items():
    print("origins of", name)
    for origin in origins:
        told(origin, 1)
P
"$ROOT/tools/page" l.txt d.mpp > page.html 2> said; echo "status $?"
python3 look.py page.html
python3 - page.html > whole.code <<'P'
import json, re, sys
print(json.loads(re.search(r'id="data">(.*?)</script>', open(sys.argv[1], encoding="utf-8").read(), re.DOTALL)[1])["laws"][0]["whole"], end="")
P
printf 'code,amount\n1AA,3\n1AB,1\n' > h.csv
"$M_TAX" exec whole.code h.csv 2> said
echo "--- words and faults"
told() { "$ROOT/tools/page" "$@" 2>&1 > out; echo "status $?, $(wc -c < out) bytes"; }
told l.txt 2>&1 | grep -v trial
told l.txt - - - 2>&1 | grep -v trial
told l.txt - --lang de 2>&1 | grep -v trial
told l.txt - --title 2>&1 | grep -v trial
told none.txt - 2>&1 | grep -v trial
told l.txt none.mpp 2>&1 | grep -v trial
printf 'G\nNONE\n' > r.txt
told l.txt - r.txt 2>&1 | grep -v trial
printf 'iliad\nb.m\n' > b.txt
printf 'A : saisie alias 1AA : "" ; B : saisie alias 1AB : "" ;\nR : calculee : "" ; G : calculee : "" ; regle 1 : application : iliad ; R = A +* 1 ;\n' > b.m
told b.txt - 2>&1 | grep -v trial
sed -i 's/+\*/+/' b.m
told b.txt - 2>&1 | grep -v trial
told l.txt d.mpp --reform b.txt - 2>&1 | grep -v trial
for groups in 'group x\n1AC' 'group x\n1AA\ngroup y\n1AA' '1AA' 'unit €\nZ' 'main NONE' 'group'; do
    printf "# les groupes\n$groups\n" > g.txt
    told l.txt d.mpp --groups g.txt 2>&1 | grep -v trial
done
printf 'group Le foyer   # deux mots\n1AB\nunit %%\nR 1AA\nmain G\n' > g.txt
"$ROOT/tools/page" l.txt d.mpp --groups g.txt --lang en --title 'a & <b>' > page.html 2> said
grep -c '<title>a &amp; &lt;b&gt;</title>' page.html
python3 - page.html <<'P'
import json, re, sys
data = json.loads(re.search(r'id="data">(.*?)</script>', open(sys.argv[1], encoding="utf-8").read(), re.DOTALL)[1])
print(data["groups"], data["units"], data["main"], data["language"], data["words"], data["name"] != "")
P
