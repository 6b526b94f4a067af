# What ends a run or takes its room: a sort that fails, a full disk, a cut that was killed, a terminal that is closed, others' eyes on what is written.
scale=$ROOT/tools/scale
cat >stand_in <<'END2'
#!/bin/sh
here=$(dirname "$0")
[ ! -e "$here/slow" ] || { : >"$here/began"; sleep 1; }
sed -n '2,$s/\(.*\),\(.*\)/household \1\nIRN = \2/p' "$5"
END2
chmod +x stand_in
M_TAX=$PWD/stand_in
export M_TAX
printf 'iliad\na.m\n' >a.list
echo '# rules' >a.m
printf 'name,1AJ\na,1\nb,2\na,3\n' >again.csv
printf 'name,1AJ\na,1\nb,2\nc,3\n' >table.csv
echo "-- a sort that fails tells nothing of labels that stand twice"
mkdir fake
printf '#!/bin/sh\ncat >/dev/null\nexit 2\n' >fake/sort
chmod +x fake/sort
PATH=$PWD/fake:$PATH "$scale" cut again.csv parts --once
echo "status $?"
printf '#!/bin/sh\nexit 2\n' >fake/sort
awk 'BEGIN {print "name,1AJ"; for (k = 0; k < 20000; k++) print "a,1"}' >many.csv
PATH=$PWD/fake:$PATH "$scale" cut many.csv many --once
echo "status $?"
awk 'BEGIN {print "name,1AJ"; for (k = 0; k < 40000; k++) print "a" k % 20000 ",1"}' >many.csv
"$scale" cut many.csv third --once
echo "status $?"
echo "-- a cut that failed, or was killed, is no table: what helps is said"
"$scale" cut table.csv parts
echo "status $?"
echo "-- a disk without room"
rm -r parts
(ulimit -f 20; "$scale" cut many.csv parts)
echo "status $?"
ls parts
rm -r parts
"$scale" cut many.csv parts
(ulimit -f 20; "$scale" one parts 1 a.list - -)
echo "status $?"
ls parts
"$scale" one parts 1 a.list - - && "$scale" join parts | tail -n 1
echo "-- a terminal that is closed: nohup keeps a run, and without it the run ends"
rm -r parts
"$scale" cut table.csv parts
: >slow
(trap '' HUP; exec "$scale" run parts a.list - - >/dev/null) &
while [ ! -e began ]; do sleep 0.05; done
kill -HUP $!
wait $!
echo "status $?"
"$scale" drop parts
rm began
env --default-signal=HUP "$scale" run parts a.list - - >/dev/null &
while [ ! -e began ]; do sleep 0.05; done
kill -HUP $!
wait $!
echo "status $?"
rm slow
"$scale" one parts 1 a.list - -
echo "-- Python that starts processes otherwise, as from 3.14 on"
cat >otherwise.py <<'END2'
import multiprocessing
import os
import runpy
import sys

multiprocessing.set_start_method("forkserver")
sys.argv, sys.path[0] = sys.argv[1:], os.path.dirname(sys.argv[1])
runpy.run_path(sys.argv[0], run_name="__main__")
END2
"$scale" drop parts
python3 -B otherwise.py "$scale" run parts a.list - - >/dev/null && python3 -B otherwise.py "$scale" join parts | tr '\n' ' '
echo
echo "-- what the user keeps from others stays so"
umask 077
rm -r parts
"$scale" cut table.csv parts && "$scale" run parts a.list - - >/dev/null
ls -l parts | tail -n +2 | cut -c 1-10 | sort -u
umask 022
echo "-- a cut that is ended removes what its sort wrote"
mkdir temporary
mkfifo long
TMPDIR=$PWD/temporary "$scale" cut long labels --once &
exec 5>long
awk 'BEGIN {a = "a"; while (length(a) < 1000000) a = a a; print "name,1AJ"; for (k = 0; k < 60; k++) print a k ",1"}' >&5
tries=0
while [ -z "$(find temporary -name 'sort*' -type f)" ] && [ $tries -lt 400 ]; do sleep 0.05; tries=$((tries + 1)); done
kill $!
wait $!
echo "status $?"
exec 5>&-
find temporary
