# needs the program
# Letters filled in, cells and branches that were taken, comments next to constants, a page that is open, what differs for another household, a stop.
# By hand: 2,500 is above 1,000, so the rate is that of cell 1, 0.2, and IRV is 2,500 * 0.2 = 500; of 500 it is that of cell 0, 0.1, and 500 * 0.1 = 50.
cat >a.m <<'M'
REVV : saisie revenu classe = 0 alias 1AJ : "wages" ;
REVC : saisie revenu classe = 0 alias 1BJ : "wages of the other" ;
SEUIL : const = 1000 ;  # article 197, for 2023
TAUX : tableau[2] calculee : "rates" ;
TR : calculee : "rank" ;
IRV : calculee : "tax" ;
IRC : calculee : "tax" ;
regle 10 : application : iliad ;
TAUX[X] = (X + 1) / 10 ;
TR = si REVV > SEUIL alors 1 sinon 0 finsi ;
pour i = V,C :
IRi = REVi * TAUX[TR] ;
A20 : anomalie : "A" : "20" : "00" : "below 0" : "N" ;
verif 2000 : application : iliad ;
si REVC < 0 alors erreur A20 ;
M
printf 'iliad\na.m\n' >a.list
printf 'code,amount\n1AJ,2500\n1BJ,7\n' >h.csv
printf 'code,amount\n1AJ,500\n1BJ,7\n' >other.csv
"$ROOT/tools/why" a.list h.csv IRV; echo "status $?"
"$ROOT/tools/why" a.list h.csv IRV --against other.csv; echo "status $?"
"$ROOT/tools/why" a.list h.csv IRV --html page.html
grep -c '<details open>' page.html
grep -c '<details>' page.html
grep -c '@media print' page.html
"$ROOT/tools/why" a.list h.csv TR --html page.html --open
grep -c '<details open>' page.html
grep -c '<details>' page.html
printf 'code,amount\n1AJ,2500\n1BJ,-7\n' >below.csv
"$ROOT/tools/why" a.list below.csv IRC --depth 1; echo "status $?"
"$ROOT/tools/why" a.list below.csv IRC --html page.html; echo "status $?"
grep -c 'failed 2000 A20' page.html
"$ROOT/tools/why" --report a.list below.csv IRC | tail -n 1; echo "status $?"
