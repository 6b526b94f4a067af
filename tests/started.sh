#!/bin/sh
# Starts the program as a user would, also wrongly, and looks at what it prints and at its status. No contract or test of
# a crate reaches `main` and the files of the system; this does.
#
# Where ./build has built the program from these sources, the rows run on that one, through ./m_tax. Else they run on the
# same sources in a trial of the toolchain, which compiles them once for all rows and proves nothing a second time; rows that
# a trial can't do are left out then. Prints a line for each row that fails, and the count at the end. The status is 0 where
# all rows pass.
cd "$(dirname "$0")/.." || exit 1
root=$PWD
program=$root/m_tax
list=examples/first/rules.list
household=examples/first/household.csv
usage="usage: m_tax run|serve LIST DRIVER REQUESTS HOUSEHOLD, batch LIST DRIVER REQUESTS TABLE, compile LIST DRIVER REQUESTS, exec CODEFILE HOUSEHOLD, large N, check LIST HOUSEHOLD REPORT, lint LIST DRIVER REQUESTS, cases LIST DRIVER REQUESTS TABLE"
trial="m_tax: this is a trial of the same sources, which are not proved yet; ./build proves and builds the program"
dir=$(mktemp -d) || exit 1
trap 'rm -rf "$dir"' EXIT
trap 'exit 1' HUP INT TERM
mkdir "$dir/m_tax" "$dir/m_survey"
called=m_tax
passed=0
failed=0

is_built() {
    [ -x out/m_tax ] && [ -e out/built ] && [ -z "$(find crates.txt crates/*/src crates/*/specs -newer out/built -print | head -n 1)" ]
}
if is_built; then way=built; else way=trial; fi

# row STATUS LINE WORD..: the program that `called` names, with these words, prints this line and ends with this status. In a trial it becomes a
# case, which is tried with all others at the end.
row() {
    status=$1 line=$2
    shift 2
    if [ $way = built ]; then
        "$root/$called" "$@" </dev/null >"$dir/out" 2>"$dir/err"
        judge "$?" "$status" "$line" "$*"
        return
    fi
    cases=$((${cases-0} + 1))
    case=$dir/$called/$cases
    : >"$case"
    for word in "$@"; do printf '%s\n' "$word"; done >"$case.args"
    if [ -n "$line" ]; then printf '%s\n' "$line"; fi >"$case.stdout"
    printf '%s %s\n' "$cases" "$status" >>"$dir/$called.statuses"
}

# try_cases PROGRAM: compiles the sources once, and tries each case. The files of the examples are there under their names.
try_cases() {
    called=$1
    set --
    for file in examples/first/* examples/chain/* examples/loops/* examples/impots/*; do
        [ ! -f "$file" ] || set -- "$@" --data "$file=$root/$file"
    done
    (cd "crates/$called" && rt try --cases "$dir/$called" "$@") >"$dir/tried" 2>&1 </dev/null
    while read -r case status; do
        if grep -q "^case=$case run=ended status=$status .*output=expected" "$dir/tried"; then
            passed=$((passed + 1))
        else
            failed=$((failed + 1))
            echo "started: $called $(tr '\n' ' ' <"$dir/$called/$case.args"): not status $status and \"$(cat "$dir/$called/$case.stdout")\", but: $(
                grep "^case=$case " "$dir/tried")"
        fi
    done <"$dir/$called.statuses"
    [ "$failed" -eq 0 ] || tail -n 5 "$dir/tried"
}

# judge SEEN STATUS LINE WORDS [COMPLAINT]: compares a run that was just made. On standard error it printed the complaint, or
# nothing where there is none.
judge() {
    if [ "$1" -eq "$2" ] && [ "$(cat "$dir/out")" = "$3" ] && [ "$(cat "$dir/err")" = "${5-}" ]; then
        passed=$((passed + 1))
    else
        failed=$((failed + 1))
        echo "started: $called $4: status $1 and \"$(head -c 200 "$dir/out")\", not status $2 and \"$3\"; $(head -c 300 "$dir/err")"
    fi
}

# listing NAME FILE: a list NAME of one rule file.
listing() {
    printf 'iliad\n%s\n' "$2" >"$dir/$1"
}

# The examples, and what the first hour makes of them.
row 0 "IRN = 1500.5" run $list - - $household
row 0 "$(cat examples/chain/answer.txt)" run examples/chain/rules.list - - examples/chain/household.csv
row 0 "$(cat examples/loops/answer.txt)" run examples/loops/rules.list - - examples/loops/household.csv
row 1 "refused cycle AIDE SOLDE" run examples/loops/cycle.list - - examples/loops/household.csv
row 6 "failed 1 E01 anomalie
E:01:00:a rent below 0" run examples/loops/rules.list - - examples/loops/below_0.csv
impots=examples/impots
row 0 "IRNET = 2135
MARG = 0.1
AVANT = 2635
GAIN = 500" run $impots/rules.list $impots/driver.mpp - $impots/household.csv
row 6 "failed 2003 A01 anomalie
A:01:00:parts:N" run $impots/rules.list $impots/driver.mpp - $impots/great_gifts.csv
printf 'code,amount\n' >"$dir/none.csv"
row 0 "IRN = -1000" run $list - - "$dir/none.csv"
sed 's/REV - SEUIL/REV * 2/' examples/first/base.m >"$dir/base.m"
listing product.list "$dir/base.m"
row 0 "IRN undefined" run "$dir/product.list" - - "$dir/none.csv"
printf 'code,amount\n1AJ,10000000000000\n' >"$dir/rich.csv"
row 0 "IRN over" run "$dir/product.list" - - "$dir/rich.csv"

# A table of households, and a generated base.
row 0 "household dupont
IRN = 1500.5
household martin
IRN = -1000" batch $list - - examples/first/table.csv
printf 'name,A01,A02,B01,7UD,0NB\nmartin,30000,1500.5,20000,500,2\n' >"$dir/impots.csv"
row 0 "household martin
IRNET = 2135
MARG = 0.1
AVANT = 2635
GAIN = 500" batch $impots/rules.list $impots/driver.mpp - "$dir/impots.csv"
row 0 "large 3
T2 = 994" large 3
row 0 "large 100000
T99999 = 159960000" large 100000

# A table of cases that is computed in two windows, the first of 8,192 rows: an expectation in the first row of the second one isn't met.
awk 'BEGIN { print "name,1AJ,=IRN"; for (k = 0; k < 8194; k++) print "h" k "," k "," (k == 8192 ? 0 : k - 1000) }' >"$dir/cases.csv"
row 6 "mismatch h8192 IRN expected 0 got 7192
cases 8194 mismatches 1" cases $list - - "$dir/cases.csv"

# A code file, and what is wrong with others.
printf 'mcode 1\nslots 0\ninput 1AJ\noutput IRN\ncode\nin 0 0\nlit 1 1000000000\ndo 0 sub 0 1\nout 0 0\nend\n' >"$dir/code"
row 0 "IRN = 1500.5" exec "$dir/code" $household
sed '$d' "$dir/code" >"$dir/cut.code"
row 1 "refused code line 10: bad line" exec "$dir/cut.code" $household
sed '/^lit/d' "$dir/code" >"$dir/early.code"
row 1 "refused code line 7: read before write" exec "$dir/early.code" $household
row 1 "refused code: bad header" exec $list $household
row 3 "unreadable nowhere.code" exec nowhere.code $household
row 3 "unreadable nowhere.csv" exec "$dir/code" nowhere.csv
row 3 "unreadable nowhere.list" compile nowhere.list - -
row 1 "refused cycle AIDE SOLDE" compile examples/loops/cycle.list - -
row 2 "$usage" compile $list - - $household
row 2 "$usage" exec "$dir/code"

# Wrong words.
row 2 "$usage"
row 2 "$usage" walk
row 2 "$usage" run
row 2 "$usage" run $list - -
row 2 "$usage" run $list - - $household more
row 2 "$usage" RUN $list - - $household

# Files that are missing, and directories as files.
row 3 "unreadable nowhere.list" run nowhere.list - - $household
row 3 "unreadable nowhere.csv" run $list - - nowhere.csv
row 3 "unreadable examples" run examples - - $household
row 3 "unreadable examples" run $list - - examples
listing missing.list "$dir/nowhere.m"
row 3 "unreadable $dir/nowhere.m" run "$dir/missing.list" - - $household
listing directory.list "$dir"
row 3 "unreadable $dir" run "$dir/directory.list" - - $household

# A driver and requests: missing, and there.
row 3 "unreadable driver.mpp" run $list driver.mpp - $household
row 3 "unreadable requests.txt" run $list - requests.txt $household
printf 'SEUIL\nREV\n' >"$dir/requests.txt"
row 0 "SEUIL = 1000
REV = 2500.5" run $list - "$dir/requests.txt" $household
printf 'main():\n  IRN <- call_m()\n  IRN = IRN + 1\n' >"$dir/driver.mpp"
row 0 "IRN = 1501.5" run $list "$dir/driver.mpp" - $household

# A verification that fails.
cp examples/first/base.m "$dir/failing.m"
printf 'A20 : anomalie : "A" : "20" : "00" : "too little" : "N" ;\nverif 20 : application : iliad ; si IRN < 5000 alors erreur A20 ;\n' >>"$dir/failing.m"
listing failing.list "$dir/failing.m"
row 6 "failed 20 A20 anomalie
A:20:00:too little:N" run "$dir/failing.list" - - $household

# A household with a wrong code, a wrong amount or a code twice.
printf 'code,amount\n9ZZ,1\n' >"$dir/code.csv"
row 1 "refused household line 2: unknown code" run $list - - "$dir/code.csv"
printf 'code,amount\n1AJ,much\n' >"$dir/amount.csv"
row 1 "refused household line 2: bad amount" run $list - - "$dir/amount.csv"
printf 'code,amount\n1AJ,1\n1AJ,1\n' >"$dir/twice.csv"
row 1 "refused household line 3: code twice" run $list - - "$dir/twice.csv"

# Bytes that mean nothing, an empty file, and a file without end, in each place.
printf '\000\377\201;=+-*/()"#\n\r\t\033iliad' >"$dir/bytes"
: >"$dir/empty"
row 1 "refused list line 1" run "$dir/bytes" - - $household
row 1 "refused household: bad header" run $list - - "$dir/bytes"
row 1 "refused driver line 1: bad token" run $list "$dir/bytes" - $household
row 1 "refused requests line 1" run $list - "$dir/bytes" $household
listing bytes.list "$dir/bytes"
row 1 "refused $dir/bytes line 1 byte 0: bad byte" run "$dir/bytes.list" - - $household
row 1 "refused list line 1" run "$dir/empty" - - $household
row 1 "refused household: bad header" run $list - - "$dir/empty"
row 1 "refused driver: no main" run $list "$dir/empty" - $household
row 0 "" run $list - "$dir/empty" $household
listing empty.list "$dir/empty"
row 1 "refused household line 2: unknown code" run "$dir/empty.list" - - $household
row 1 "refused file too long /dev/zero" run /dev/zero - - $household
row 1 "refused file too long /dev/zero" run $list - - /dev/zero

# The other program: its csv by a source and by a code file, a stop and a note, and its own words; what m_tax rejects it rejects by the same lines.
called=m_survey
row 0 "name,stop,notes,IRN
dupont,,,1500.5
martin,,,-1000" table $list - - examples/first/table.csv
row 0 "name,stop,notes,IRN
dupont,,,1500.5
martin,,,-1000" table "$dir/code" examples/first/table.csv
printf 'name,1AJ\n"a, b",2500.5\nc,9000\n' >"$dir/stops.csv"
row 0 "name,stop,notes,IRN
\"a, b\",failed 20 A20,,
c,,,8000" table "$dir/failing.list" - - "$dir/stops.csv"
sed 's/anomalie/informative/' "$dir/failing.m" >"$dir/noting.m"
listing noting.list "$dir/noting.m"
row 0 "name,stop,notes,IRN
\"a, b\",,20 A20,1500.5
c,,,8000" table "$dir/noting.list" - - "$dir/stops.csv"
row 0 "name,stop,notes,SEUIL,REV
dupont,,,1000,2500.5
martin,,,1000," table $list - "$dir/requests.txt" examples/first/table.csv
row 0 "vodmejka $(sed -n 's/^VERSION = "\(.*\)"$/\1/p' python/vodmejka/version.py)" version
row 3 "unreadable nowhere.list" table nowhere.list - - examples/first/table.csv
row 3 "unreadable nowhere.csv" table $list - - nowhere.csv
row 3 "unreadable nowhere.code" table nowhere.code examples/first/table.csv
row 1 "refused cycle AIDE SOLDE" table examples/loops/cycle.list - - examples/first/table.csv
row 1 "refused household: bad header" table $list - - $household
row 1 "refused code line 10: bad line" table "$dir/cut.code" examples/first/table.csv
row 1 "refused file too long /dev/zero" table $list - - /dev/zero
row 3 "unreadable nowhere.list" facts nowhere.list - - $household
row 3 "unreadable nowhere.csv" facts $list - - nowhere.csv
row 1 "refused ranges: bad header" facts $list - - $household
survey_usage="usage: m_survey table LIST DRIVER REQUESTS TABLE, table CODEFILE TABLE, facts LIST DRIVER REQUESTS RANGES, version"
row 2 "$survey_usage"
row 2 "$survey_usage" run $list - - $household
row 2 "$survey_usage" table $list - -
row 2 "$survey_usage" version more
called=m_tax

# A session replies to a line before it takes the next: each reply is read here before another line is typed.
if [ $way = built ]; then
    printf 'show\n' | "$program" serve $impots/rules.list $impots/driver.mpp - $impots/household.csv >"$dir/out" 2>"$dir/err"
    judge "$?" 0 "IRNET = 2135
MARG = 0.1
AVANT = 2635
GAIN = 500
." "serve, the rules with a driver"
    mkfifo "$dir/typed" "$dir/replied"
    "$program" serve $list - - $household <"$dir/typed" >"$dir/replied" 2>"$dir/err" &
    exec 3>"$dir/typed" 4<"$dir/replied"
    echo show >&3
    timeout 10 head -n 2 <&4 >"$dir/out"
    echo "clear 1AJ" >&3
    timeout 10 head -n 1 <&4 >>"$dir/out"
    exec 3>&- 4<&-
    wait $!
    judge "$?" 0 "IRN = 1500.5
.
ok" "serve, line by line"
fi

# A code file that is compiled here, and run.
if [ $way = built ]; then
    "$program" compile $list - - 2>"$dir/err" >"$dir/out"
    judge "$?" 0 "$(cat "$dir/code")" "compile"
    cp "$dir/out" "$dir/made.code"
    "$program" exec "$dir/made.code" $household 2>"$dir/err" >"$dir/out"
    judge "$?" 0 "IRN = 1500.5" "exec of what compile printed"
fi

# A standard output that is closed or full: the status reports it, whatever the line would have been.
if [ $way = built ]; then
    : >"$dir/out"
    "$program" run $list - - $household 2>"$dir/err" >&-
    judge "$?" 4 "" "run with a closed output"
    "$program" 2>"$dir/err" >&-
    judge "$?" 4 "" "without words, with a closed output"
    if [ -w /dev/full ]; then
        "$program" run $list - - $household 2>"$dir/err" >/dev/full
        judge "$?" 4 "" "run into a full device"
        "$program" run nowhere.list - - $household 2>"$dir/err" >/dev/full
        judge "$?" 4 "" "a missing list into a full device"
        "$program" compile $list - - 2>"$dir/err" >/dev/full
        judge "$?" 4 "" "compile into a full device"
        "$program" exec "$dir/code" $household 2>"$dir/err" >/dev/full
        judge "$?" 4 "" "exec into a full device"
    fi
fi

# Which files are opened, and how: those that are named, for reading, and no more but the C library's and those in which the system has the number of processors
# there are. Threads are begun, and no other process. Each thread's calls come in a file of its own, so that none is in the middle of another.
opened() {
    rm -f "$dir"/calls.*
    strace -ff -e trace=file,network,process -o "$dir/calls" "$@" >/dev/null 2>&1 </dev/null
    cat $(printf '%s\n' "$dir"/calls.* | sort -V) | grep -v -e '^execve(' -e '^+++' -e '^exit' -e '"/etc/ld\.so\.' -e '"/lib' \
        -e '"/usr/lib' -e '^newfstatat([0-9]*, "",' -e '^access("/etc/ld' -e '^wait4(' -e '^arch_prctl' \
        -e '^openat(AT_FDCWD, "/sys/devices/system/cpu/online", O_RDONLY' -e '^openat(AT_FDCWD, "/sys/fs/cgroup/cpu\.max", O_RDONLY' \
        -e '^clone3\?(.*CLONE_THREAD' | sed 's/^openat(AT_FDCWD, "\(.*\)", O_RDONLY[A-Z_|]*) = [0-9]*$/reads \1/'
}
if [ $way = built ] && command -v strace >/dev/null 2>&1 && strace -o "$dir/calls.0" true 2>/dev/null; then
    opened out/m_tax run $impots/rules.list $impots/driver.mpp - $impots/household.csv >"$dir/out" 2>"$dir/err"
    judge 0 0 "reads $impots/rules.list
reads $impots/impots.m
reads $impots/driver.mpp
reads $impots/household.csv" "files of run"
    opened out/m_tax exec "$dir/code" $household >"$dir/out" 2>"$dir/err"
    judge 0 0 "reads $dir/code
reads $household" "files of exec"
    opened out/m_tax compile $list - - >"$dir/out" 2>"$dir/err"
    judge 0 0 "reads $list
reads examples/first/base.m" "files of compile"
    opened out/m_survey table $list - - examples/first/table.csv >"$dir/out" 2>"$dir/err"
    judge 0 0 "reads $list
reads examples/first/base.m
reads examples/first/table.csv" "files of table"
fi
[ $way = built ] || { try_cases m_survey && try_cases m_tax; }

# The scripts m_tax and build.
. tests/started_scripts.sh

echo "started: $way: $passed rows passed, $failed failed"
[ "$failed" -eq 0 ]
