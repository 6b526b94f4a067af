# Values, undefined, over and stops; labels with commas and quotes; French; outputs that aren't whole.
out=$ROOT/tools/table-out
cat >answers <<'END'
household a, "b"
failed 101 A101 anomalie
household A:101
household c;d
IRN = 1500.5
TMI[3] undefined
REV = -3
household household e
IRN over
TMI[3] undefined
REV over
household f
over verification 12 E01
household g
over driver line 7
END
"$out" <answers
"$out" --french <answers | od -An -c | head -n 1
"$out" --french <answers | tail -n 5 | tr '\r' '|'
printf 'IRN\n' >one
printf 'household h\nfailed 1 E01 anomalie\n\351t\351, oui\n' | "$out" --requests one
printf 'household h\nhousehold i\n' | "$out"
: | "$out"
printf 'refused household line 3: bad row\n' | "$out"
echo "status $?"
printf 'household a\nB = 1\nC = 2\nhousehold b\nB = 1\n' | "$out"
echo "status $?"
printf 'household a\nB = 1\nhousehold b\nB = ' | "$out"
echo "status $?"
printf 'household a\nfailed 1 E01 anomalie\n' | "$out"
echo "status $?"
"$out" answers
echo "status $?"
# Columns where all households stop, of the requests or of a list; labels that look like formulas; a reader that stops early.
printf 'household a\nfailed 1 E01 anomalie\nA:1\n' >stops
"$out" <stops
echo "status $?"
printf 'IRN\r\nTMI[3]\n\nREV\n' >requests
"$out" --requests requests <stops
printf 'iliad\na.m\n' >a.list
printf 'IRN : calculee restituee : "" ;\nT : tableau[2] calculee restituee : "" ;\nR : calculee : "" ;\nS : calculee restituee = 1 : "" ;\n' >a.m
"$out" --list a.list <stops
"$out" --requests requests <answers | tail -n 5
printf 'household a\nIRM = 1\n' | "$out" --requests requests
echo "status $?"
printf 'household =1+1\nIRN = -1\nhousehold @x\nIRN = 2\nhousehold -3\nfailed 1 E01 anomalie\n+A\nhousehold a=b\nIRN undefined\n' >signs
"$out" <signs
"$out" --bare <signs | head -n 2
"$out" --french <signs | tail -n 2 | tr '\r' '|'
awk 'BEGIN {for (k = 0; k < 20000; k++) print "household h" k "\nIRN = 1"}' >many
{ "$out" <many; echo "status $?" >&2; } | head -n 2
"$out" <many >/dev/full
echo "status $?"
"$out" --requests nowhere <stops
echo "status $?"
{
    printf 'household a\nnoted 2000 A20 discordance\nhousehold x\nnoted 7 A21 informative\nIRN = 9\nIRN = 1\n'
    printf 'household b\nIRN = 2\nhousehold c\nfailed 7 A22 anomalie\nt\n'
} >notes
"$out" <notes; echo "status $?"
printf 'household a\nnoted 2000 A20 discordance\n' | "$out"; echo "status $?"
printf 'household a\nIRN = 1\nnoted 2000 A20 discordance\nt\n' | "$out"; echo "status $?"
# The line of a fault is counted over texts; values after a stop; no output to write to.
printf 'household a\nnoted 7 A1 informative\nx\nIRN = 1\nIRN = x\n' | "$out"; echo "status $?"
printf 'household a\nover driver line 3\nIRN = 1\n' | "$out"; echo "status $?"
"$out" <many >&-; echo "status $?"
