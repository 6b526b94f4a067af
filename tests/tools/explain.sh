# Errors with a place: Latin-1, tabs, carriage returns, a long line, a file that changed, and files named in options.
explain=$ROOT/tools/explain
printf 'A :\tconst = 1 ; # \351t\351\r\n\tB : const = 2 ; "\351\351" ?\r\n' >latin.m
printf 'refused latin.m line 2 byte 45: bad byte\n' | "$explain"
printf '# \303\251 \344\270\255\n"\303\251\303\251" A ;\n' >utf.m
printf 'refused utf.m line 2 byte 16: syntax\nrefused utf.m line 1 byte 15: syntax\nrefused gone.m line 1 byte 0: syntax\n' | "$explain"
awk 'BEGIN {for (k = 0; k < 100; k++) printf "AB "; printf "? "; for (k = 0; k < 100; k++) printf "CD "; print ""}' >long.m
printf 'refused long.m line 1 byte 300: bad byte\n' | "$explain"
printf 'A : const = 1 ;' >end.m
printf 'refused end.m line 1 byte 15: syntax\n' | "$explain"
printf 'main():\n  B = 1\n' >d.mpp
printf 'refused driver line 2: unknown B\n' | "$explain" --driver d.mpp
printf 'refused driver line 2: unknown B\n' | "$explain"
printf '\357\273\277code,amount\r\n\r\n"1AJ",1\r\n1BJ,1e3\r\n' >h.csv
printf 'refused household line 3: bad amount\nrefused household line 2: code twice\n' | "$explain" --household h.csv
printf 'name,1AJ,1BJ\n"a,\n""b",1,\nc,2,1 000\n' >t.csv
printf 'refused household line 3: bad amount\nrefused household line 2: bad row\n' | "$explain" --household t.csv
printf 'name,=IRN,1AJ\na,over,x\n' >cases.csv
printf 'refused household line 2: bad amount\n' | "$explain" --household cases.csv
printf 'REV = 1\nIRN = 2\n' >report.txt
printf 'refused report line 2: not sound\n' | "$explain" --report report.txt
printf 'IRN = 1\nIRN undefined\n' | "$explain"
echo "status $?"
printf 'refused latin.m line 2 byte 45: bad byte\nrefused cycle A B\n' | "$explain" --places
echo "status $?"
"$explain" --nothing
echo "status $?"
"$explain" --help | head -n 1
