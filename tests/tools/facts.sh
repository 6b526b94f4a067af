# needs the program
# By intervals XA - XA is from -10 to 10, and in each tenth of its range from -1 to 1. R is XA where YB is above 5, else YB; in the parts of YB either.
[ -n "${M_SURVEY-}" ] || export M_SURVEY="$ROOT/out/m_survey"
cat > two.m <<'END'
XA : saisie revenu classe = 0 alias 2AA : "x" ;
YB : saisie revenu classe = 0 alias 1AJ : "y" type ENTIER ;
D : calculee restituee : "d" ;
R : calculee restituee : "r" ;
A01 : anomalie : "A" : "01" : "00" : "trop" : "N" ;
regle 1 : application : iliad ;
D = XA - XA ;
R = si YB > 5 alors XA sinon YB finsi ;
verif 1 : application : iliad ; si XA - XA > 1 alors erreur A01 ;
END
printf 'iliad\ntwo.m\n' > two.txt
printf 'code,given,least,greatest\n2AA,yes,0,10\n1AJ,maybe,0,9\n' > ranges.csv
printf 'D\nR\nD\n' > requests.txt
"$ROOT/tools/facts" two.txt - - ranges.csv; echo "status $?"
"$ROOT/tools/facts" --split 2AA=10 two.txt - - ranges.csv; echo "status $?"
"$ROOT/tools/facts" --split 1AJ=2 two.txt - - ranges.csv; echo "status $?"
"$ROOT/tools/facts" --split 2AA=2 --split 1AJ=2 two.txt - requests.txt ranges.csv; echo "status $?"
printf 'code,given,least,greatest\n2AA,yes,7,8\n1AJ,yes,6,9\n' > taken.csv
"$ROOT/tools/facts" --split 1AJ=100 two.txt - - taken.csv; echo "status $?"
"$ROOT/tools/facts" --split 1AJ=2 two.txt - - -; echo "status $?"
printf 'code,given,least,greatest\n9ZZ,yes,0,10\n' > unknown.csv
"$ROOT/tools/facts" --split 2AA=2 two.txt - - unknown.csv; echo "status $?"
"$ROOT/tools/facts" --split 9ZZ=2 two.txt - - ranges.csv; echo "status $?"
"$ROOT/tools/facts" --split 2AA=0 two.txt - - ranges.csv; echo "status $?"
"$ROOT/tools/facts" --split 2AA=2000 --split 1AJ=100 two.txt - - ranges.csv; echo "status $?"
"$ROOT/tools/facts" --split 2AA=2 two.txt - - gone.csv; echo "status $?"
