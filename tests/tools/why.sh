# needs the program
# IRN = max(0, REV - SEUIL) + T[2], with T[X] = X * 10 over three cells and a sum of the loop: REV is 2,500.5, so IRN is 1,500.5 + 20,
# and S of V and C is 3 + 0.
printf 'iliad\na.m\n' > l.txt
cat > a.m <<'M'
REV : saisie revenu classe = 0 alias 1AJ : "wages" ;
AV : saisie alias 1AV : "of V" ;
AC : saisie alias 1AC : "of C" ;
SEUIL : const = 1000 ;
T : tableau[3] calculee : "tens" ;
S : calculee : "sum" ;
U : calculee : "nothing sets it" ;
IRN : calculee restituee : "tax" ;
regle 10 : application : iliad ;
IRN = max(0, REV - SEUIL)   # a comment ;
  + T[2] + S + U ;
regle 20 : application : iliad ;
T[X] = X * 10 ;
S = somme(i=V,C: Ai) + 0 * S2 ;
regle 30 : application : batch ;
S = 7 ;
regle 31 : application : iliad ;
pour i = 2 : Si = T[i] - T[i] ;
S2 : calculee : "none" ;
M
printf 'code,amount\n1AJ,2500.5\n1AV,3\n' > h.csv
"$ROOT/tools/why" l.txt h.csv IRN; echo "status $?"
"$ROOT/tools/why" l.txt h.csv IRN --only-nonzero --depth 2; echo "status $?"
"$ROOT/tools/why" l.txt h.csv 'T[1]'; echo "status $?"
"$ROOT/tools/why" --report l.txt h.csv IRN; echo "status $?"
"$ROOT/tools/why" l.txt h.csv NOPE; echo "status $?"
"$ROOT/tools/why" l.txt h.csv 'IRN IRN' 2>/dev/null; echo "status $?"
"$ROOT/tools/why" l.txt h.csv IRN --depth 0; echo "status $?"
"$ROOT/tools/why" gone.txt h.csv IRN; echo "status $?"
printf 'code,amount\n1AJ,x\n' > bad.csv
"$ROOT/tools/why" l.txt bad.csv IRN; echo "status $?"
printf 'A20 : anomalie : "A" : "20" : "00" : "t" : "N" ;\nverif 20 : application : iliad ; si REV > 0 alors erreur A20 ;\n' > v.m
printf 'iliad\na.m\nv.m\n' > v.txt
"$ROOT/tools/why" v.txt h.csv IRN; echo "status $?"
"$ROOT/tools/why" l.txt h.csv IRN --html page.html; echo "status $?"
python3 - <<'P'
import html.parser
class Page(html.parser.HTMLParser):
    depth, most, leaves, folds = 0, 0, 0, 0
    def handle_starttag(self, tag, attributes):
        if tag == "details":
            self.depth += 1
            self.folds += 1
            self.most = max(self.most, self.depth)
        self.leaves += ("class", "leaf") in attributes
    def handle_endtag(self, tag):
        self.depth -= tag == "details"
page = Page()
text = open("page.html", encoding="utf-8").read()
page.feed(text)
print("ends at", page.depth, "deepest", page.most, "folds", page.folds, "leaves", page.leaves, "http" in text, "<script" in text)
P
"$ROOT/tools/why" l.txt h.csv IRN --html gone/page.html; echo "status $?"
ls
# The rules are changed while the program runs: what is shown is of the rules as they were read. A fault has the file's own name.
cat > changing <<S
#!/bin/sh
sed -i 's/REV - SEUIL/REV + SEUIL/' a.m
exec "$M_TAX" "\$@"
S
chmod +x changing
M_TAX=./changing "$ROOT/tools/why" l.txt h.csv IRN --depth 1; echo "status $?"
grep -c 'REV + SEUIL' a.m
printf 'A : calculee : "a" ;\nregle 1 : application : iliad ; A = B ;\n' > unknown.m
printf 'iliad\nunknown.m\n' > unknown.txt
printf 'code,amount\n' > none.csv
"$ROOT/tools/why" unknown.txt none.csv A; echo "status $?"
printf 'iliad\na.m\na.m\n' > twice.txt
"$ROOT/tools/why" twice.txt h.csv IRN; echo "status $?"
