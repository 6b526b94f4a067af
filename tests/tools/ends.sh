# What programs, files and outputs can do wrong to the tools that compute one household or change rules.
tools=$ROOT/tools
stand_in() { printf '#!/bin/sh\n%s\n' "$1" >stand_in; chmod +x stand_in; }
# What marginal requests of the program before its batch: code, and the unchanged household.
answers='case $1 in
    compile) printf "mcode 1\nslots 0\ninput 1AJ\ninput 1BJ\noutput IRN\ncode\n"; exit ;;
    exec) echo "IRN = 1"; exit ;;
esac
'
M_TAX=$PWD/stand_in
export M_TAX
printf 'iliad\na.m\n' >a.list
printf 'REV : saisie revenu classe = 0 alias 1AJ : "" ;\nK : const = 2 ;\n' >a.m
printf 'code,amount\n1AJ,5\n' >h.csv
echo "-- marginal: an answer that has other lines than were asked for, no program, a full disk"
twice='awk -F, '\''NR > 1 {print "household " $1 "\nIRN = " $2 * 2}'\'' "$5"'
draw() { "$tools/marginal" a.list - "$1" 1AJ 0 10 10 --of IRN --csv; echo "status $?"; }
stand_in "$answers$twice" && draw h.csv
for said in 'echo IRN = 1' 'printf "household ~\nIRN = 1\nhousehold ~\nhousehold ~\nIRN = 3\n"' \
    'printf "household ~\nIRM = 1\nhousehold ~\nIRM = 1\nhousehold ~\nIRM = 1\n"' "$twice | head -n 4"; do
    stand_in "$answers$said" && draw h.csv
done
M_TAX=./nowhere draw h.csv 2>&1 | sed "s|$PWD|.|"
stand_in "$answers$twice"
"$tools/marginal" a.list - h.csv 1AJ 0 10 10 --of IRN >/dev/full
echo "status $?"
printf 'code,amount\n1AJ,5\n1AJ,6\n' >twice.csv
draw twice.csv
printf 'code,"amount\n1AJ,5\n' >open.csv
draw open.csv
echo "-- marginal: the household's faults have its own places, those of the amounts are told by them, and of a program that is killed the status is told"
cat >stand_in <<'END'
#!/bin/sh
# A household is refused where a code is 9ZZ or an amount empty; a table where it has the amount 10.
case $1 in
    compile) printf 'mcode 1\nslots 0\ninput 1AJ\ninput 1BJ\ninput 1CJ\noutput IRN\ncode\n' ;;
    exec)
        awk -F, '
            NR > 1 && $1 == "9ZZ" {print "refused household line " NR ": unknown code"; exit 1}
            NR > 1 && $2 == "" {print "refused household line " NR ": bad amount"; exit 1}
            END {if (NR && !refused) print "IRN = 1"}' "$3" | head -n 1 >answer
        cat answer
        ! grep -q refused answer ;;
    *)
        [ ! -e "$(dirname "$0")/killed" ] || { printf 'household ~\nIRN = 1\n'; kill -9 $$; }
        line=$(awk -F, '$2 == 10 {print "refused household line " NR ": not of its type"}' "$5")
        [ -z "$line" ] || { echo "$line"; exit 1; }
        awk -F, 'NR > 1 {print "household " $1 "\nIRN = 1"}' "$5" ;;
esac
END
printf 'code,amount\n1BJ,3\n9ZZ,4\n' >fault.csv && draw fault.csv
printf 'code,amount\n1BJ,3\n1CJ,\n' >fault.csv && draw fault.csv
draw h.csv
"$tools/marginal" a.list - h.csv 9ZZ 0 10 10 --of IRN --csv
"$tools/marginal" a.list - h.csv 1€é 0 10 10 --of IRN --csv
"$tools/marginal" a.list - h.csv 1AJ -2000000 2000000 4000000 --of IRN --csv
for range in '0 0.5 0.1' '0 30000 500' '-2.5 0 0.5'; do
    "$tools/marginal" a.list - h.csv 1AJ $range --of IRN | sed -n 's/.*y="350".*">\(.*\)<.text>/\1/p' | tr '\n' ' '
done
echo
: >killed && draw h.csv
stand_in "$answers"'awk -F, '\''NR > 1 {print "household " $1 "\nIRN = 0"}'\'' "$5"'
"$tools/marginal" a.list - h.csv 1AJ -10 0 10 --of IRN --csv
rm killed fault.csv
echo "-- variant: cells by their whole names, numbers of any length"
printf 'iliad\nt.m\n' >t.list
printf 'T : tableau[30] calculee : "" ;\nregle 1 : application : iliad ; T[2] = 5 ; T[23] = 0.%05000d1 ;\n' 0 >t.m
for name in 'T[23' 'T[2)' 'T[2]]' T; do "$tools/variant" t.list "$name=9" other; done
"$tools/variant" t.list 'T[23]=7' T[2]=-3 other | cut -c 1-12
tail -n 1 other/t.m
"$tools/variant" a.list "K=$(printf '%05000d2.%05000d' 0 0)" other2 | cut -c 1-40
rm -r other t.list t.m
echo "-- variant: numbers that are none of rules, folders that no list can name, a closed output"
for value in 99999999999999999999999999999999999999999999 10000000000000.5 1e3; do "$tools/variant" a.list K=$value copy; done
"$tools/variant" a.list K=3 "$(printf 'a\nb')"
"$tools/variant" a.list K=3 "$(printf 'a\351')" 2>/dev/null
echo "status $?"
"$tools/variant" a.list K=3 copy >&-
echo "status $?"
"$tools/variant" >&-
echo "status $?"
"$tools/slips" --help >&-
echo "status $?"
(umask 077 && "$tools/variant" a.list K=3 'co py' && ls -ld 'co py' | cut -c 1-10 && cat 'co py/rules.list')
echo "-- explain: carriage returns in a text, a program that is killed or isn't there"
stand_in 'printf "failed 1 E01 anomalie\nA\rB\r\n"; kill -9 $$'
"$tools/explain" run a b c d | sed -n '3,$p' | od -An -c
"$tools/explain" run a b c d >/dev/null
echo "status $?"
M_TAX=./nowhere "$tools/explain" run a b c d 2>/dev/null
echo "status $?"
printf 'unreadable x\r\n' | "$tools/explain" | tr '\r' '|'
: >nothing && chmod +x nothing
M_TAX=./nothing "$tools/explain" run a b c d 2>&1 | sed "s|$PWD|.|"
rm nothing
printf 'refused a.m line %05000d byte 1: syntax\nrefused list line 0\nrefused household line 0: bad row\n' 7 |
    "$tools/explain" --list a.list --household h.csv | cut -c 1-40
echo "-- why: a page that can't be written leaves nothing"
stand_in 'case $1 in run) echo "K = 2" ;; check) echo sound ;; esac'
mkdir page folder
"$tools/why" a.list h.csv K --html page/K.html && ls -A page
"$tools/why" a.list h.csv K --html folder
echo "status $?"
ln -s h.csv link.csv
"$tools/why" a.list h.csv K --html link.csv
echo "status $?"
"$tools/why" a.list h.csv K --html a.m
echo "status $?"
ln -s ../target.html page/link.html
"$tools/why" a.list h.csv K --html page/link.html && ls page target.html
[ -L page/link.html ] && rm page/link.html target.html
mkfifo page/fifo
"$tools/why" a.list h.csv K --html page/fifo
echo "status $?"
ls -l page/fifo | cut -c 1
rm page/fifo
echo "-- why: of a program that is killed the status is told, and not what it printed"
stand_in 'echo "K = 2"; kill -9 $$'
"$tools/why" a.list h.csv K
echo "status $?"
stand_in 'case $1 in run) echo "K = 2" ;; check) echo sound; kill -9 $$ ;; esac'
"$tools/why" a.list h.csv K
echo "status $?"
echo "-- why: a description in UTF-8, and one in Latin-1; an index of any length"
printf 'iliad\nd.m\n' >d.list
printf 'K : calculee : "l\303\251" ;\nT : tableau[3] calculee : "\351" ;\nregle 1 : application : iliad ;\nK = T[%05000d] ;\n' 2 >d.m
stand_in 'case $1 in run) printf "T[2] = 5\nK = 5\n" ;; check) echo sound ;; esac'
"$tools/why" d.list h.csv K | cut -c 1-20
rm d.list d.m
stand_in 'case $1 in run) echo "K = 2" ;; check) echo sound ;; esac'
(ulimit -f 1; "$tools/why" a.list h.csv K --html page/L.html 2>&1; echo "status $?") | cat
ls -A . page
echo "-- explain: a pipe that the program has read isn't waited for"
stand_in 'cat "$5" >/dev/null; echo "refused household line 2: bad amount"; exit 1'
mkfifo pipe
cat h.csv >pipe &
timeout 60 "$tools/explain" run a.list - - pipe
echo "status $?"
rm pipe
echo "-- inputs that can't be read are told as that"
for words in table-out explain 'table-in -' 'scale pipe name,1AJ a.list - -'; do
    "$tools"/$words 0>/dev/null
    echo "status $?"
    "$tools"/$words <&-
    echo "status $?"
done
echo "-- names are the bytes that they are, whatever the machine's language is"
localedef -i fr_FR -f ISO-8859-1 "$PWD/fr" >/dev/null 2>&1
mkdir lé
printf 'iliad\na.m\nlé/none.m\n' >lé/b.list
for language in fr C C.UTF-8; do
    LOCPATH=$PWD LC_ALL=$language "$tools/requests" lé/b.list
    LOCPATH=$PWD LC_ALL=$language "$tools/variant" a.list K=3 lé/copy && tail -n 1 lé/copy/rules.list
    rm -r lé/copy
done
rm -rf fr lé
echo "-- messages that can't be written leave the status as it is; a fault of a tool is no answer"
stand_in 'echo "refused a.m line 1 byte 0: syntax"; exit 1'
"$tools/same" a.list - a.list - - 2>/dev/full
echo "status $?"
"$tools/slips" nowhere.list 2>/dev/full
echo "status $?"
python3 -B -c "import sys; sys.path[0] = '$ROOT/python'; from vodmejka import source; source.end('tool', lambda: 1 // 0)"
echo "status $?"
echo "-- a folder for temporary files without room is named"
{ cat a.m; head -c 4000 /dev/zero | tr '\0' '#'; } >long.m
printf 'iliad\nlong.m\n' >long.list
mkdir temporary
(ulimit -f 2; TMPDIR=$PWD/temporary "$tools/scale" source long.list - -; echo "status $?") 2>&1 | sed 's|: /.*/|: ../|'
(ulimit -f 2; TMPDIR=$PWD/temporary "$tools/why" long.list h.csv K; echo "status $?") 2>&1 | sed 's|: /.*/|: ../|'
ls temporary
rm long.m long.list
echo "-- signals of all kinds: what runs ends, and no temporary files stay"
stand_in 'echo $$ >"$(dirname "$0")/child"; exec sleep 20'
for signal in QUIT USR1 XCPU; do
    TMPDIR=$PWD/temporary env --default-signal=QUIT "$tools/marginal" a.list - h.csv 1AJ 0 10 10 --of IRN &
    while [ ! -s child ]; do sleep 0.05; done
    kill -s $signal $!
    wait $!
    echo "status $?"
    ! kill -0 "$(cat child)" 2>/dev/null || echo "still there"
    rm child
done
ls temporary
