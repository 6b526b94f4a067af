# Parts that are computed as csv, by rules and by a code file: joined, whole or some columns, killed and begun again, invalid answers. The programs are stubs.
scale=$ROOT/tools/scale
cat >survey <<'P'
#!/bin/sh
# table LIST DRIVER REQUESTS TABLE, or table CODEFILE TABLE. The commands of `before` and `behind` in its folder are run, too.
here=$(dirname "$0")
for table in "$@"; do :; done
[ ! -e "$here/before" ] || . "$here/before"
echo "name,stop,notes,IRN,TMI"
sed -n '2,$s/\(.*\),\(.*\)/\1,,,\2,0.3/p' "$table" |
    sed -e 's/^\([^,]*\),,,7,0.3/\1,failed 12 E1,,,/' -e 's/^\([^,]*\),,,8,/\1,,12 E2; 13 E3,over,/' -e 's/^\([^,]*\),,,9,/\1,,,,/'
[ ! -e "$here/behind" ] || . "$here/behind"
P
cat >tax <<'P'
#!/bin/sh
[ "$1" = compile ] || exit 9
grep -q fault "$(sed -n 2p "$2")" && { echo "refused $(sed -n 2p "$2") line 1 byte 0: bad byte"; exit 1; }
printf 'mcode 1\nend\n'
P
chmod +x survey tax
M_TAX=$PWD/tax
M_SURVEY=$PWD/survey
export M_TAX M_SURVEY
printf 'iliad\na.m\n' >a.list
echo '# rules' >a.m
awk 'BEGIN {print "name,1AJ"; for (k = 0; k < 20; k++) print (k == 5 ? "\"h, \"\"5\"\"\"" : "h" k) "," k}' >table.csv
./survey table a.list - - "$PWD/table.csv" >whole.csv
"$scale" cut table.csv parts --rows 6
echo "-- joined: what one csv of the whole table would be"
"$scale" run parts a.list - - --csv | head -n 1
"$scale" join parts --csv | cmp - whole.csv && echo "the same"
"$scale" verify parts a.list - - | head -n 2
echo "-- some columns, in the order that is asked for; those of the household are always there"
"$scale" join parts --csv --only TMI | head -n 10
"$scale" join parts --csv --only TMI,IRN | sed -n '6p;8,10p'
"$scale" join parts --csv --only IRN,TMI | cmp - whole.csv && echo "the same"
"$scale" join parts --csv --only IRM; echo "status $?"
"$scale" join parts --csv --only stop; echo "status $?"
echo "-- words that don't go together, and answers of the other form"
"$scale" join parts --only IRN; echo "status $?"
"$scale" join parts; echo "status $?"
"$scale" one parts 1 a.list -; echo "status $?"
"$scale" source a.list --code b; echo "status $?"
cat >lines <<'P'
#!/bin/sh
sed -n '2,$s/\(.*\),\(.*\)/household \1\nIRN = \2/p' "$5" | sed 's/"h, ""5"""/h, "5"/'
P
chmod +x lines
"$scale" run parts a.list - - 2>&1 | tail -n 1
"$scale" drop parts
M_TAX=$PWD/lines "$scale" run parts a.list - - | head -n 1
"$scale" join parts --csv; echo "status $?"
"$scale" drop parts
echo "-- killed in the middle and begun again: the same bytes"
echo '[ -e "$here/second" ] || case $table in *3.csv) echo $$ >"$here/pid"; exec sleep 30 ;; esac' >before
"$scale" run parts a.list - - --csv --jobs 1 &
while [ ! -s pid ]; do sleep 0.05; done
kill -KILL $!
wait $! 2>/dev/null
kill "$(cat pid)"
echo "left: $("$scale" list parts | tr '\n' ' ')"
: >second
"$scale" run parts a.list - - --csv | head -n 1
"$scale" join parts --csv | cmp - whole.csv && echo "the same"
ls parts | grep -c new
rm before
echo "-- answers, notes and parts that change, and heads that differ"
cp -r parts kept
for change in 's/h13,,,13/h13,,,14/:3.out' 's/h13,13/h13,14/:3.csv'; do
    sed -i "${change%:*}" "parts/part-00000${change#*:}"
    "$scale" verify parts; echo "status $?"
    "$scale" join parts --csv --only IRN | wc -l
    rm -r parts && cp -r kept parts
done
rm parts/part-000002.out parts/part-000002.of
echo 'echo "name,stop,notes,IRN"; tail -n +2 "$table" | sed "s/,/,,,/"; exit' >before
"$scale" one parts 2 a.list - - --csv && "$scale" join parts --csv; echo "status $?"
rm before
echo "-- what is no csv of these households"
printf 'IRN\nTMI\n' >asked
printf 'name,1AJ\nh0,0\n' >odd.csv
rm -r parts && "$scale" cut odd.csv parts >/dev/null
for said in 'name,stop,notes,IRN\nh0,,,1' 'name,stop,notes,IRN,TMI\n' 'name,stop,notes,IRN,TMI\nh1,,,1,1' 'name,stop,notes,IRN,TMI\nh0,,,1,1\nh0,,,1,1' \
    'name,stop,notes,IRN,TMI\nh0,,,1' 'name,stop,notes,IRN,TMI\nh0,,,1,1,1' 'name,stop,notes,IRN,TMI\nh0,failed 1 E1,,1,' 'name,stop,notes,IRN,TMI\nh0,,,1,x' \
    'name,stop,notes,IRN,TMI\nh0,stopped,,,' 'refused household line 2: bad row'; do
    printf "printf '$said\\\\n'; exit\n" >before
    "$scale" run parts a.list - asked --csv 2>&1 | head -n 1
done
echo "printf 'name,stop,notes,IRN,TMI\nh0,,,1,2'; exit" >before
"$scale" run parts a.list - asked --csv 2>&1 | head -n 1
for said in 'h0,over driver line 3,,,' 'h0,over verification 1 E1,,,' 'h0,,1 E1,-1.5,over'; do
    echo "printf 'name,stop,notes,IRN,TMI\n$said\n'; exit" >before
    "$scale" run parts a.list - asked --csv | head -n 1
    "$scale" drop parts >/dev/null
done
rm before
echo "-- a program that fails behind its last line, or takes too long"
echo 'exit 5' >behind
"$scale" run parts a.list - - --csv 2>&1 | head -n 1
echo 'exec sleep 30' >behind
"$scale" run parts a.list - - --csv --timeout 1 2>&1 | head -n 1
rm behind
echo "-- by a code file: no rules and no names; its digest is looked at for each part"
rm -r parts && "$scale" cut table.csv parts --rows 6 >/dev/null
digest=$("$scale" source a.list - - --code rules.mcode)
cat rules.mcode
"$scale" source rules.mcode | grep -c "$digest"
mkdir elsewhere && cp -r parts rules.mcode elsewhere
(cd elsewhere && for part in $("$scale" list parts); do "$scale" one parts "$part" rules.mcode --of "$digest"; done &&
    "$scale" join parts --csv | cmp - ../whole.csv && echo "the same")
echo "# others" >>elsewhere/rules.mcode
(cd elsewhere && "$scale" one parts 1 rules.mcode --of "$digest"; echo "status $?"; "$scale" one parts 1 rules.mcode; echo "status $?"
    "$scale" verify parts rules.mcode 2>&1 | sed 's/: [0-9a-f]*$//')
"$scale" one parts 1 rules.mcode && "$scale" one parts 2 a.list - - --csv && "$scale" one parts 3 rules.mcode && "$scale" one parts 4 rules.mcode
"$scale" join parts --csv; echo "status $?"
echo fault >a.m
"$scale" source a.list - - --code other.mcode; echo "status $?"
ls other.mcode* 2>/dev/null
echo "-- rows of a pipe: no head, by the code file"
printf 'a,1\nb,2\n' | "$scale" pipe name,1AJ rules.mcode --of "$digest"
