# Mishaps of long runs: rules that change meanwhile, a run that is killed and begun again, invalid answers, line ends and heads of all kinds.
scale=$ROOT/tools/scale
cat >stand_in <<'END'
#!/bin/sh
# IRN is the amount times the rate of the first rule file. The commands of `before` and `behind` in its folder are run, too.
here=$(dirname "$0")
rate=$(sed -n 's/^# rate //p' "$(sed -n 2p "$2")")
[ ! -e "$here/before" ] || . "$here/before"
awk -F, -v rate="$rate" 'NR > 1 {print "household " $1 "\nIRN = " $2 * rate}' "$5"
[ ! -e "$here/behind" ] || . "$here/behind"
END
chmod +x stand_in
M_TAX=$PWD/stand_in
export M_TAX
printf 'iliad\na.m\n' >a.list
echo '# rate 1' >a.m
printf 'name,1AJ\na,1\nb,2\nc,3\n' >table.csv
"$scale" cut table.csv parts --rows 1
echo "-- rules that change in the middle: all answers are of what was read at first"
echo 'echo "# rate 7" >"$here/a.m"' >behind
"$scale" run parts a.list - - --jobs 1 >/dev/null
echo "status $?"
"$scale" join parts | tr '\n' ' '
echo
rm behind
echo "-- other rules: what is said helps"
"$scale" run parts a.list - - --jobs 1 >/dev/null
echo "status $?"
"$scale" drop parts
"$scale" run parts a.list - - --jobs 1 >/dev/null
"$scale" join parts | tr '\n' ' '
echo
echo "-- one by one, with rules that change between: not joined"
"$scale" drop parts >/dev/null
"$scale" one parts 1 a.list - -
echo '# rate 1' >a.m
"$scale" one parts 2 a.list - - && "$scale" one parts 3 a.list - -
"$scale" join parts
echo "status $?"
echo "-- a program that is built anew meanwhile"
"$scale" drop parts >/dev/null
echo 'echo "# another" >>"$here/stand_in"' >behind
"$scale" run parts a.list - - --jobs 1 2>&1 >/dev/null | sed "s|$PWD|.|"
rm behind
echo "-- killed and begun again: the old batch writes nothing into an answer"
"$scale" drop parts >/dev/null
cat >before <<'END'
if [ ! -e "$here/second" ]; then
    echo $$ >"$here/pid"
    sleep 1
    echo "household x"
    echo "IRN = 999" || exit
    echo wrote >"$here/wrote"
    exit 0
fi
END
"$scale" run parts a.list - - --jobs 1 >/dev/null &
while [ ! -s pid ]; do sleep 0.05; done
kill -9 $!
wait $! 2>/dev/null
: >second
"$scale" run parts a.list - - --jobs 1 >/dev/null
sleep 1.3
"$scale" join parts | tr '\n' ' '
echo
ls wrote 2>/dev/null
ls parts | grep -c 'new$'
"$scale" drop parts
ls parts | grep -c 'new$'
rm before
echo "-- ended by a signal: the batch ends with it"
"$scale" drop parts >/dev/null
echo 'echo $$ >"$here/child"; exec sleep 20' >before
"$scale" run parts a.list - - --jobs 1 >/dev/null &
while [ ! -s child ]; do sleep 0.05; done
kill $!
wait $!
echo "status $?"
kill -0 "$(cat child)" 2>/dev/null && echo "still there"
rm before
ls parts | grep -v new | tr '\n' ' '
echo
echo "-- lines that are no answer"
printf 'name,1AJ\na,1\n' >odd.csv
printf 'IRN\n' >requests
rm -r parts && "$scale" cut odd.csv parts
for said in 'IRN = 1.' 'IRN = ' 'IRM = 1' 'IRN = 1\nIRN = 1' 'failed 1 E01 anomalie\nA:1\nIRN = 1' 'over' 'refused household line 2: bad row' ''; do
    printf '%s\n' '#!/bin/sh' "printf 'household a\\n$said\\n'" >odd
    chmod +x odd
    M_TAX=$PWD/odd "$scale" run parts a.list - requests 2>&1 >/dev/null | head -n 1
done
for said in 'failed 1 E01 anomalie\nhousehold b' 'over verification 1 E01' 'over driver line 3' 'IRN undefined' 'IRN over' 'IRN = -1.5'; do
    printf '%s\n' '#!/bin/sh' "printf 'household a\\n$said\\n'" >odd
    M_TAX=$PWD/odd "$scale" run parts a.list - requests >/dev/null && M_TAX=$PWD/odd "$scale" join parts | tail -n +2 | tr '\n' ' '
    "$scale" drop parts >/dev/null
done
echo
echo "-- parts with other values than the first"
cat >odd <<'END'
#!/bin/sh
label=$(sed -n '2s/,.*//p' "$5")
printf 'household %s\n' "$label"
printf 'I%s = 1\n' "$label" | tr a-c A-C
END
rm -r parts && "$scale" cut table.csv parts --rows 1 && M_TAX=$PWD/odd "$scale" run parts a.list - - >/dev/null && "$scale" join parts
echo "-- a part that is lost"
rm -r parts && "$scale" cut table.csv parts --rows 1 && rm parts/part-000002.csv && "$scale" run parts a.list - - >/dev/null
echo "-- a list, a driver and requests through pipes, which can be read but once"
mkfifo pipe
printf 'IRN\n' >asked
for words in 'pipe - -:a.list' 'a.list pipe -:a.m' 'a.list - pipe:asked'; do
    cat "${words#*:}" >pipe &
    "$scale" source ${words%:*} >by_pipe
    "$scale" source $(echo "${words%:*}" | sed "s/pipe/${words#*:}/") | cmp - by_pipe && echo "the same"
done
rm pipe by_pipe asked
echo "-- a part that was changed"
rm -r parts && "$scale" cut table.csv parts --rows 1 && printf 'name,1AJ\na,9\n' >parts/part-000001.csv && "$scale" run parts a.list - - >/dev/null
echo "-- carriage returns, quotes over lines, a mark, blank lines"
printf '\357\273\277name,1AJ\r"a ""x"", y",1\r\r"b",2\rc,3' >returns.csv
rm -r parts && "$scale" cut returns.csv parts --rows 2 && cat parts/*.csv
printf 'name,1AJ\r\n"a\r\nhousehold x",1\r\nb,2' >quotes.csv
rm -r parts && "$scale" cut quotes.csv parts --rows 1 && tr '\r' '|' <parts/part-000001.csv
printf 'b,2\rc,3\r' | "$scale" pipe name,1AJ a.list - - | tr '\n' ' '
echo
printf 'b,2\n' | "$scale" pipe --of "$("$scale" source a.list - -)" name,1AJ a.list - - | tr '\n' ' '
printf 'b,2\n' | "$scale" pipe --of 0123 name,1AJ a.list - -
echo "-- rows of a pipe that are refused are told by their numbers there"
printf '%s\n' '#!/bin/sh' 'echo "refused household line 3: bad amount"; exit 1' >odd
chmod +x odd
printf 'b,2\nc,x\n' | M_TAX=$PWD/odd "$scale" pipe name,1AJ a.list - -
printf '%s\n' '#!/bin/sh' 'echo "household b"; echo "IRN = 1"' >odd
printf 'b,2\nc,3\n' | M_TAX=$PWD/odd "$scale" pipe name,1AJ a.list - -
echo "-- a label that begins as a mark does is no mark where the first line is a word"
printf '\357\273\277b,2\n' | "$scale" pipe name,1AJ a.list - - | od -An -c
echo "-- numbers that are spelled otherwise, a folder whose table is none"
"$scale" one parts 1_0 a.list - - 2>/dev/null
echo "status $?"
"$scale" run parts a.list - - --jobs +1 >/dev/null 2>&1
echo "status $?"
for said in 2 "$(printf '%05000d' 2)"; do
    mkdir none && printf '%s 2 x y y\n' "$said" >none/table
    "$scale" list none
    printf '2 %s x y y\n' "$said" >none/table
    "$scale" list none | tr '\n' ' '
    rm -r none
done
echo
echo "-- a batch that is killed has no error line"
printf '%s\n' '#!/bin/sh' 'printf "household a\nIRN = 1\n"; kill -9 $$' >odd
chmod +x odd
M_TAX=$PWD/odd "$scale" run parts a.list - - --jobs 1 >/dev/null
echo "-- refused"
for table in 'name;1AJ\na;1\n' 'code,amount\n1AJ,1\n' '' 'name,1AJ\n' 'name,1AJ\na,1\n"b,2\nc,3\n'; do
    rm -r parts
    printf "$table" >odd.csv
    "$scale" cut odd.csv parts
    echo "status $?"
done
"$scale" list parts
"$scale" pipe 'name;1AJ' a.list - - </dev/null
printf 'iliad\n/dev/zero\n' >endless.list
rm -r parts && "$scale" cut table.csv parts && "$scale" run parts endless.list - - >/dev/null
"$scale" one parts 2 a.list - -
"$scale" run parts a.list - - >/dev/null && "$scale" join parts | head -n 0
"$scale" join parts >/dev/full
echo "status $?"
echo "-- as many batches at once as the memory has room for"
cat >odd <<'END2'
#!/bin/sh
here=$(dirname "$0")
: >"$here/runs.$$"
ls "$here" | grep -c '^runs\.' >>"$here/at_once"
sleep 0.5
rm "$here/runs.$$"
sed -n '2s/\(.*\),.*/household \1\nIRN = 1/p' "$5"
END2
printf 'name,1AJ\na,1\nb,2\nc,3\nd,4\ne,5\nf,6\n' >six.csv
for memory in 1 256 600 100000; do
    rm -r parts && "$scale" cut six.csv parts --rows 1 >/dev/null
    M_TAX=$PWD/odd "$scale" run parts a.list - - --memory $memory >/dev/null
    echo "$memory MB: $(sort -n at_once | tail -n 1) at once, $("$scale" join parts | grep -c household) households"
    rm at_once
done
