# needs the program
# The pages of a small rule base with hostile texts: what is linked, what is escaped, letters of loops, an earlier reference, other folders, wrong words.
doc=$ROOT/tools/doc
cat >a.m <<'XX'
# The heading.

# The income of the first person, art. 12 & <b>13</b>
REVV : saisie avfisc = 1 alias 1AJ : "<script>alert(1)</script>" type REEL ;
REVC : saisie avfisc = 1 alias 1BJ : "c" ;
TOTV : calculee : "v" ;
TOTC : calculee : "c" ;
SUM : calculee restituee : "both" ;
regle 10 : application : iliad ;
pour i = V,C : TOTi = REVi + 1 ; # see art. 7
SUM = somme(i = V,C : TOTi) ;
E1 : anomalie : "A" : "1" : "0" : "</pre>below" : "N" ;
E2 : informative : "I" : "2" : "0" : "spare" : "N" ;
verif 5 : application : iliad ;
si SUM < 0 alors erreur E1 ;
XX
printf 'iliad\na.m\n' >a.list
printf 'main():\n  SUM <- call_m()\n' >d.mpp
"$doc" a.list d.mpp --into out --lang en --title 'A & B' --articles 'art\. ([0-9]+)=https://example.org/\1'; echo "status $?"
ls out out/v out/s
grep -o 'href="https://example.org[^<]*<' out/v/*.html
grep -l '<script>alert\|</pre>below\|<b>' out/*.html out/*/*.html
grep -o '<pre class="formula">.*</pre>' out/v/TOTC.html | sed 's/<[^>]*>//g'
grep -o 'href="../v/[A-Z]*.html"' out/v/SUM.html | sort -u
grep -c 'Content-Security-Policy' out/index.html
"$doc" a.list --into out --lang fr; echo "status $?"
ls out | grep -c driver
mkdir mine && touch mine/work
"$doc" a.list --into mine --lang en; echo "status $?"
ls -A mine .
"$doc" a.list --lang en; echo "status $?"
"$doc" a.list --into more --articles 'art=javascript:alert(1)' --lang en; echo "status $?"
printf 'regle 1 : application : iliad ; SUM = ;\n' >>a.m
"$doc" a.list --into more --lang en; echo "status $?"
