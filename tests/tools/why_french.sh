# why in French: the tree, what differs, a stop, a driver, a page, and wrong words. The lines of the program, names and formulas stay as they are.
# needs the program
cat >a.m <<'M'
REV : saisie revenu alias 1AJ : "revenus" ;
SEUIL : const = 1000 ; # article 197
TAUX : tableau[2] calculee : "taux" ;
TR : calculee : "tranche" ;
AIDE : calculee : "aide" ;
IRN : calculee restituee : "impôt" ;
A20 : anomalie : "A" : "20" : "00" : "trop" : "N" ;
regle 10 : application : iliad ;
TAUX[0] = 0 ;
TAUX[1] = 0.5 ;
TR = si REV > SEUIL alors 1 sinon 0 finsi ;
IRN = REV * TAUX[TR] + TAUX[1] * AIDE ;
verif 20 : application : iliad ;
si REV > 9000 alors erreur A20 ;
M
printf 'iliad\na.m\n' >a.list
printf 'code,amount\n1AJ,2000\n' >h.csv
printf 'code,amount\n1AJ,500\n' >other.csv
printf 'code,amount\n1AJ,9500\n' >rich.csv
why() { "$ROOT/tools/why" --lang fr "$@"; }
why a.list h.csv IRN
echo "-- ce qui diffère"
why a.list h.csv IRN --against other.csv --depth 2
echo "-- un arrêt"
why a.list rich.csv IRN --depth 1; echo "statut $?"
echo "-- un pilote"
printf 'main():\n  if REV > 5:\n    partition with taxbenefit:\n      TR <- call_m()\n  AIDE <- more()\n\nmore():\n  AIDE = SEUIL + 1\n' >d.mpp
why a.list h.csv AIDE --driver d.mpp
why a.list h.csv TR --driver d.mpp
echo "-- une page, par la langue de la machine"
LC_MESSAGES=fr_FR.UTF-8 "$ROOT/tools/why" a.list h.csv IRN --html page.html && grep -o -e '<html lang="fr">' -e '<p>[^<]*' page.html
"$ROOT/tools/why" a.list h.csv IRN --html english.html && grep -c 'lang=' english.html
echo "-- des mots faux"
why a.list h.csv; echo "statut $?"
why a.list h.csv IRN --depth 0; echo "statut $?"
why a.list h.csv IRN --driver d.mpp --report; echo "statut $?"
why a.list h.csv IRNN; echo "statut $?"
why a.list h.csv IRN --html h.csv; echo "statut $?"
