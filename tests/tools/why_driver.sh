# needs the program
# Why a cell has its value after a driver. By hand: without the gift of 40 the tax is 100, with it 60, so the gain is 40; REV is 1,000 and the rate 0.1.
# B is 5, which the driver sets, so TOT is 5 + 60; the else branch isn't taken.
cat >a.m <<'M'
REV : saisie revenu classe = 0 alias 1AJ : "wages" ;
DON : saisie revenu avfisc = 1 alias 7UD : "gifts" ;
TX : const = 0.1 ;
IRN : calculee : "tax" ;
AVANT : calculee : "before" ;
GAIN : calculee : "gain" ;
B : calculee : "set by the driver" ;
TOT : calculee : "total" ;
regle 10 : application : iliad ;
IRN = REV * TX - DON ;
TOT = B + IRN ;
A20 : anomalie : "A" : "20" : "00" : "too much" : "N" ;
verif 2000 : application : iliad ;
si REV > 5000 alors erreur A20 ;
M
printf 'iliad\na.m\n' >a.list
printf 'code,amount\n1AJ,1000\n7UD,40\n' >h.csv
cat >driver.mpp <<'D'
# A comment.
main():
  AVANT <- without()   # a function
  IRN <- call_m()
  if present(DON) and IRN > 0:
    GAIN = AVANT - IRN
  else:
    GAIN = 0
  B = 5
  TOT <- call_m()
  del AVANT
without():
  partition with taxbenefit:
    IRN <- call_m()
    DON = 7
  AVANT = IRN
D
for name in GAIN AVANT DON TX; do
    "$ROOT/tools/why" a.list h.csv $name --driver driver.mpp; echo "status $?"
done
"$ROOT/tools/why" a.list h.csv TOT --driver driver.mpp --depth 1; echo "status $?"
printf 'code,amount\n1AJ,1000\n' >none.csv
"$ROOT/tools/why" a.list none.csv GAIN --driver driver.mpp; echo "status $?"
printf 'code,amount\n1AJ,6000\n' >above.csv
"$ROOT/tools/why" a.list above.csv GAIN --driver driver.mpp; echo "status $?"
"$ROOT/tools/why" a.list h.csv GAIN --driver driver.mpp --html page.html; echo "status $?"
"$ROOT/tools/why" a.list h.csv NIX --driver driver.mpp; echo "status $?"
printf 'main():\n  IRN = \n' >bad.mpp
"$ROOT/tools/why" a.list h.csv IRN --driver bad.mpp; echo "status $?"
# Rules without a computed variable that is no table: the condition holds, since 1,000 is above 5, and the driver sets T[1] to 1,000 + 1.
cat >t.m <<'M'
REV : saisie revenu classe = 0 alias 1AJ : "wages" ;
T : tableau[2] calculee : "table" ;
regle 10 : application : iliad ;
T[0] = REV ;
M
printf 'iliad\nt.m\n' >t.list
printf 'main():\n  if REV > 5:\n    T[1] = REV + 1\n' >t.mpp
"$ROOT/tools/why" t.list none.csv 'T[1]' --driver t.mpp; echo "status $?"
