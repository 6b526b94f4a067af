# needs the program
# A code file as either side, or as both: the same bytes, another code, a code that is none, and wrong words.
same=$ROOT/tools/same
for threshold in 1000 2000; do
    printf 'REV : saisie revenu classe = 0 alias 1AJ : "s" ;\nIRN : calculee restituee : "n" ;\n' >$threshold.m
    printf 'regle 10 : application : iliad ;\nIRN = REV - %s ;\n' $threshold >>$threshold.m
    printf 'iliad\n%s.m\n' $threshold >$threshold.list
    "$M_TAX" compile $threshold.list - - >$threshold.code
done
"$same" --code 1000.code 1000.list - -; echo "status $?"
"$same" 1000.list - --code 1000.code -; echo "status $?"
"$same" --code 1000.code --code 1000.code; echo "status $?"
"$same" --code 1000.code 2000.list - - --tries 5; echo "status $?"
"$same" 2000.list - --code 1000.code - --tries 5; echo "status $?"
"$same" --code 1000.code --code 2000.code --tries 5; echo "status $?"
sed '$d' 1000.code >cut.code
"$same" --code cut.code 1000.list - -; echo "status $?"
"$same" --code nowhere 1000.list - -; echo "status $?"
"$same" --code 1000.code 2>/dev/null; echo "status $?"
"$same" --code 1000.code --code 1000.code - 2>/dev/null; echo "status $?"
