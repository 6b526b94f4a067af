# needs the program
# Hints on frequent mistakes: words and signs of other languages, letters with accents, names that are nearly right, the place of the first of two.
cat >top.m <<'M'
REV : saisie revenu classe = 0 alias 1AJ : "s" ;
REVV : calculee : "n" ;
REVC : calculee : "n" ;
AUTRES : calculee : "n" ;
TAUX : const = 0.1 ;
COEF : tableau[3] calculee : "n" ;
IRN : calculee restituee : "n" ;
A20 : anomalie : "A" : "20" : "00" : "t" ;
M
printf 'code,amount\n1AJ,5\n' >h.csv
# last TEXT: the last line that explain prints for a rule that has this text.
last() {
    { cat top.m; printf 'regle 10 : application : iliad ;\n%b\n' "$1"; } >base.m
    printf 'iliad\nbase.m\n' >base.list
    "$ROOT/tools/explain" run base.list - - h.csv | tail -n 1
}
for text in 'pour i = V,C REVi = 1 ;' 'IRN = arrondi(REV) ;' 'IRN = Somme(i = V,C : REVi) ;' 'IRN = COEF(1) ;' 'COEF[11] : tableau[3] calculee : "n" ;' \
    'IRN = si REV => 3 alors 1 finsi ;' 'IRN = si REV =< 3 alors 1 finsi ;' 'IRN = si REV <> 3 alors 1 finsi ;' \
    'IRN = si REV \0342\0211\0244 3 alors 1 finsi ;' \
    'IRN = si REV \0342\0211\0245 3 alors 1 finsi ;' 'IRN = si REV > 3 ET REV < 4 alors 1 finsi ;' 'IRN = SI REV > 3 alors 1 finsi ;' '// x\nIRN = 1 ;' \
    'IRN = REV * 10% ;' "IRN = REV * '3' ;" 'r\0303\0250gle 11 : application : iliad ;\nIRN = 1 ;' 'r\0350gle 11 : application : iliad ;\nIRN = 1 ;' \
    'IRN = REV\0302\0240+ 1 ;' 'IRN = REV\0240+ 1 ;' 'IRN = \0303\0251t\0303\0251 ;'; do
    last "$text"
done
# Names.
for text in 'IRN = AUTRE ;' 'IRN = REX ;' 'IRN = ZZZZ ;' 'IRN = REVj ;' 'pour i = V,C : REVi = REVij + REVk ;' 'REVj = 1 ;' 'COEF[4] = 1 ;' 'REV = 1 ;' \
    'TAUX = 1 ;' \
    'REVV = 1 ;\nREVV = 2 ;' 'COEF[X] = 1 ;\nCOEF[1] = 2 ;' 'IRN = 1 ;\nverif 5 : application : iliad ;\nsi REV > 1 alors erreur A2 ;'; do
    last "$text"
done
for text in 'A2 : saisie revenu alias 1AJ : "s" ;' 'REV : calculee : "n" ;' 'A20 : informative : "A" : "20" : "00" : "t" ;'; do
    { cat top.m; echo "$text"; } >base.m
    "$ROOT/tools/explain" run base.list - - h.csv | tail -n 1
done
# The places of a cycle.
{ cat top.m; printf 'regle 10 : application : iliad ;\nREVV = REVC ;\nREVC = REVV + 1 ;\n'; } >base.m
"$ROOT/tools/explain" run base.list - - h.csv | sed -n 2p
# A file of UTF-16, a code and a driver's name that are nearly right.
printf '\377\376R\0E\0V\0' >base.m
"$ROOT/tools/explain" run base.list - - h.csv | tail -n 1
{ cat top.m; printf 'regle 10 : application : iliad ;\nIRN = 1 ;\n'; } >base.m
printf 'code,amount\n1AK,5\n' >other.csv
"$ROOT/tools/explain" run base.list - - other.csv | tail -n 1
printf 'code,amount\nREV,5\n' >other.csv
"$ROOT/tools/explain" run base.list - - other.csv | tail -n 1
printf 'main():\n  IRM <- call_m()\n' >driver.mpp
"$ROOT/tools/explain" run base.list driver.mpp - h.csv | tail -n 1
printf 'main():\n  IRN <- call_m()\nf():\n  IRN = 1\nf():\n  IRN = 2\n' >driver.mpp
"$ROOT/tools/explain" run base.list driver.mpp - h.csv | tail -n 1
# --all: nothing found isn't that there is nothing.
"$ROOT/tools/explain" --all base.list; echo "status $?"
{ cat top.m; printf 'regle 10 : application : iliad ;\nIRN = AUTRE ;\n'; } >base.m
"$ROOT/tools/explain" --all base.list; echo "status $?"
{ cat top.m; printf 'regle 10 : application : iliad ;\nIRN = ;\n'; } >base.m
"$ROOT/tools/explain" --all base.list 2>&1 >/dev/null; echo "status $?"
