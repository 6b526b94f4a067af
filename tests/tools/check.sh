# needs the program
# What a report proves of a claim, and what it doesn't: by hand, IRN is 2500.5 - 1000, the driver adds 1 to it, and a rent below 0 is stopped.
check=$ROOT/tools/check
cat >base.m <<'M'
REV : saisie revenu classe = 0 alias 1AJ : "s" ;
SEUIL : const = 1000 ;
IRN : calculee restituee : "n" ;
AUTRE : calculee : "n" ;
T : tableau[2] calculee : "n" ;
regle 10 : application : iliad ;
IRN = REV - SEUIL ;
T[1] = AUTRE + SEUIL ;
A20 : anomalie : "A" : "20" : "00" : "below 0" : "N" ;
verif 2000 : application : iliad ;
si REV < 0 alors erreur A20 ;
M
printf 'iliad\nbase.m\n' >base.list
printf 'code,amount\n1AJ,2500.5\n' >h.csv
printf 'main():\n  IRN <- call_m()\n  IRN = IRN + 1\n' >more.mpp
printf 'main():\n  IRN <- call_m()\n' >same.mpp
look() { "$check" base.list "$@"; echo "status $?"; }
printf 'REV = 2500.5\nSEUIL = 1000\nIRN = 1500.50\n.\n' >report
look h.csv report --claims 'IRN = 1500.5'
look h.csv report --claims 'IRN = 1500.5' --driver same.mpp
look h.csv report --claims 'IRN = 1500.5' --driver more.mpp
# An empty report, one that ends in another cell, one that has another value.
: >empty
look h.csv empty --claims 'IRN = 1500.5'
head -n 1 report >short
look h.csv short --claims 'IRN = 1500.5'
look h.csv report --claims 'IRN = 1501'
# A household that a verification stops: the report is sound, and no run has values.
printf 'code,amount\n1AJ,-5\n' >below.csv
printf 'REV = -5\nSEUIL = 1000\nIRN = -1005\n' >below
look below.csv below --claims 'IRN = -1005' --driver same.mpp
# The three reasons for `not sound`, an amount that no rule sets, a line that is none, a name of no cell.
printf 'REV = 2500.5\nREV = 2500.5\n' | "$check" base.list h.csv /dev/stdin --claims 'REV = 2500.5' | head -n 1
printf 'REV = 2500.5\nIRN = 1500.5\n' | "$check" base.list h.csv /dev/stdin --claims 'IRN = 1500.5' | head -n 1
printf 'REV = 2500.5\nSEUIL = 1000\nIRN = 1500.6\n' | "$check" base.list h.csv /dev/stdin --claims 'IRN = 1500.6' | head -n 1
printf 'REV = 2501\n' | "$check" base.list h.csv /dev/stdin --claims 'REV = 2501' | head -n 1
printf 'AUTRE = 0\n' | "$check" base.list h.csv /dev/stdin --claims 'AUTRE = 0' | head -n 1
printf 'AUTRE undefined\nSEUIL = 1000\nT[1] undefined\n' | "$check" base.list h.csv /dev/stdin --claims 'T[1] undefined' | head -n 1
printf 'AUTRE undefined\nSEUIL = 1000\nT[1] = 1000\n' | "$check" base.list h.csv /dev/stdin --claims 'T[1] = 1000' --claims 'AUTRE undefined' | head -n 3
printf 'IRN ist 3\n' | "$check" base.list h.csv /dev/stdin --claims 'IRN = 3' | head -n 1
printf 'NIX = 3\n' | "$check" base.list h.csv /dev/stdin --claims 'NIX = 3' | head -n 1
# Wrong words, files and claims.
look h.csv report
look h.csv report --claims IRN
look h.csv nowhere --claims 'IRN = 1'
printf 'code,amount\n1AJ,x\n' >bad.csv
look bad.csv report --claims 'IRN = 1'
ls
