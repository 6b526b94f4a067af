# needs the program
# A folder for a court: what it has, that its own instructions verify it, and that whatever is changed in it is found.
dossier=$ROOT/tools/dossier
mkdir sources bin
cat >sources/base.m <<'M'
REV : saisie revenu classe = 0 alias 1AJ : "s" ;
SEUIL : const = 1000 ;
IRN : calculee restituee : "n" ;
regle 10 : application : iliad ;
IRN = REV - SEUIL ;
A20 : anomalie : "A" : "20" : "00" : "below 0" : "N" ;
verif 2000 : application : iliad ;
si REV < 0 alors erreur A20 ;
M
printf 'iliad\nsources/base.m\n' >base.list
printf 'code,amount\n1AJ,2500.5\n' >h.csv
printf 'main():\n  IRN <- call_m()\n  IRN = IRN + 1\n' >driver.mpp
"$dossier" base.list driver.mpp h.csv --of IRN --into d; echo "status $?"
(cd d && find . -type f | sort)
grep -v '^version: ' d/claims.txt | sed "s/$(sha256sum <"$M_TAX" | cut -d' ' -f1)/THE PROGRAM'S/"
"$dossier" --verify d; echo "status $?"
# The instructions, as they are in the folder.
ln -s "$M_TAX" bin/m_tax
sed -n 's/^[1-7]\. [^:]*: *\(sha256sum -c.*\|m_tax.*\|grep.*\|tail.*\)$/\1/p' d/HOW.txt >how
wc -l <how
(cd d && PATH=$PWD/../bin:$PATH sh -e ../how) | tail -n 3; echo "status $?"
# Each file that is changed, with and without a new list of digests; one more file; another program.
for file in claims.txt answer.txt code report.txt household.csv rules/001-base.m driver.mpp HOW.txt; do
    rm -rf other && cp -r d other
    sed -i -e 's/1000/1001/; s/1500.5/1500.6/; s/1501.5/1501.6/; s/2500.5/2500.6/; s/+ 1$/+ 2/' \
        -e 's/sha256sum m_tax/m_tax/; s/lit 1 1000000000/lit 1 2000000000/' other/$file
    cmp -s other/$file d/$file && echo "not changed: $file"
    echo "$file: $("$dossier" --verify other | grep -c NOT)"
done
rm -rf other && cp -r d other && sed -i 's/IRN = 1501.5/IRN = 1500.5/' other/claims.txt
(cd other && find . -type f ! -name SHA256SUMS | sort | sed 's/^..//' | xargs sha256sum | sort -k2 >SHA256SUMS)
"$dossier" --verify other; echo "status $?"
rm -rf other && cp -r d other && : >other/more && "$dossier" --verify other | head -n 1
printf '#!/bin/sh\nexec "%s" "$@"\n' "$M_TAX" >bin/wrapped && chmod +x bin/wrapped
M_TAX=$PWD/bin/wrapped "$dossier" --verify d | tail -n 2 | cut -d, -f1; echo "status $?"
# Nothing is made of a folder that is there, a stopped household, a name of nothing, a file that isn't there.
"$dossier" base.list driver.mpp h.csv --of IRN --into d; echo "status $?"
printf 'code,amount\n1AJ,-1\n' >below.csv
"$dossier" base.list - below.csv --of IRN --into e; echo "status $?"
"$dossier" base.list - h.csv --of NIX --into e; echo "status $?"
"$dossier" base.list nowhere h.csv --of IRN --into e; echo "status $?"
"$dossier" base.list - h.csv --of IRN --into e; echo "status $?"
"$dossier" base.list - h.csv --of IRN 2>/dev/null; echo "status $?"
"$dossier" --verify nowhere; echo "status $?"
ls -A
