# needs the program
# What no case reaches: formulas, both ways of a conditional, arguments of max and min, cells, verifications, commands of a driver; exceptions, --least,
# LCOV, the page of hostile texts; a household of another sign.
coverage=$ROOT/tools/coverage
printf 'iliad\na.m\n' >a.list
cat >a.m <<'XX'
A : saisie avfisc = 1 alias 1AJ : "<script>a</script>" type REEL ;
T : tableau[3] calculee : "t" ;
B : calculee restituee : "b" ;
C : calculee : "c" ;
regle 1 : application : iliad ;
T[X] = X * 10 ;
B = si A > 10 alors max(A, 20) sinon T[A] finsi ;
C = si A < 0 alors 1 finsi ; # <img src=x onerror=alert(1)>
E1 : anomalie : "A" : "1" : "0" : "e" : "N" ;
verif 7 : application : iliad ;
si A = 5 alors erreur E1 ;
si C = 1 alors erreur E1 ;
XX
cat >d.mpp <<'XX'
main():
  if present(A):
    B <- call_m()
  else:
    B = 1
unused():
  B = 2
XX
printf 'name,1AJ,=B\none,1,10\ntwo,15,20\nfive,5,stop\n' >cases.csv
"$coverage" a.list d.mpp cases.csv; echo "status $?"
"$coverage" a.list - cases.csv --least 40 --lang fr; echo "status $?"
"$coverage" a.list - cases.csv --least 53.9 --lang en >printed; echo "status $?"
printf '# never\ncell T[0]   # the first\nformula C\n' >except
"$coverage" a.list - cases.csv --except except | tail -n 1
printf 'formula B\n' >except
"$coverage" a.list - cases.csv --except except; echo "status $?"
printf 'formula D\n' >except
"$coverage" a.list - cases.csv --except except; echo "status $?"
"$coverage" a.list d.mpp cases.csv --page page.html --lcov out.info >printed
cat out.info
grep -c '<script>\|<img' page.html
mkdir there && mv a.list a.m there
"$coverage" there/a.list - cases.csv; echo "status $?"
"$coverage" there/a.list - cases.csv --here | tail -n 1
"$coverage" there/a.list - nothing.csv --here; echo "status $?"
printf 'name,9ZZ\none,1\n' >bad.csv
"$coverage" there/a.list - bad.csv --here; echo "status $?"
"$coverage" there/a.list - cases.csv --least much; echo "status $?"
