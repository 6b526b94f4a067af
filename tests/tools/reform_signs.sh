# needs the program
# Which sign is a gain: without a word less is taken for one, and the page, the summary and the last line say so; with a word they say that word's.
# A benefit of 1,000 becomes 2,000 for who has a child, so a gains 1,000 where more is a gain, and loses 1,000 where less is.
printf 'iliad\na.m\n' >before.list
cat >a.m <<'M'
ENFANTS : saisie revenu classe = 0 alias 0CF : "s" ;
PRIME : const = 1000 ;
AIDE : calculee restituee : "n" ;
regle 10 : application : iliad ;
AIDE = si ENFANTS > 0 alors PRIME sinon 0 finsi ;
M
printf 'name,0CF\na,1\nb,0\n' >table.csv
"$ROOT/tools/variant" before.list PRIME=2000 after >/dev/null
for word in "" --less-is-gain --more-is-gain; do
    "$ROOT/tools/reform" before.list after/rules.list - - table.csv --of AIDE $word --into "report$word"; echo "status $?"
    cut -d, -f1,6,8,9,12 "report$word/summary.csv"
    grep -oE '(More|Less) of it is a gain[^<]*|Above 0 [^<]*|(-1000|≥ 1000): 50 %' "report$word/report.html"
done
"$ROOT/tools/reform" before.list after/rules.list - - table.csv --of AIDE --less-is-gain --more-is-gain --into other 2>/dev/null; echo "status $?"
