# needs the program
# Values by the driver and by one call of the rules in one table, tolerances by column and for all others, names from the folder of the list, and faults.
cases=$ROOT/tools/cases
mkdir there
cp "$ROOT/examples/impots/impots.m" "$ROOT/examples/impots/driver.mpp" there
printf 'iliad\nimpots.m\n' >there/rules.list
cat >cases.csv <<'XX'
name,A01,0NB,=IRNET,=call_m:QF,=call_m:AVANT,=AVANT
first,12000,1,80.4,10800,undefined,80

stopped,12000,0.5,stop,stop,stop,stop
wrong,12000,1,81,10801,,stop
XX
"$cases" there/rules.list there/driver.mpp cases.csv --here; echo "status $?"
"$cases" there/rules.list there/driver.mpp cases.csv --here --tolerance IRNET=0.4; echo "status $?"
"$cases" there/rules.list there/driver.mpp cases.csv --here --tolerance IRNET=0.5 --tolerance '*=1'; echo "status $?"
(cd there && "$cases" rules.list driver.mpp ../cases.csv --tolerance "*=1"); echo "status $?"
"$cases" there/rules.list there/driver.mpp cases.csv; echo "status $?"
"$cases" there/rules.list there/driver.mpp cases.csv --here --tolerance QF=1; echo "status $?"
"$cases" there/rules.list there/driver.mpp cases.csv --here --tolerance IRNET=-1; echo "status $?"
printf 'name,A01,=NOTHING\nfirst,1,1\n' >bad.csv
"$cases" there/rules.list there/driver.mpp bad.csv --here; echo "status $?"
printf 'name,A01,=IRNET\nfirst,1,1\n\nsecond,x,1\n' >bad.csv
"$cases" there/rules.list there/driver.mpp bad.csv --here; echo "status $?"
printf 'name,A01,=IRNET\nfirst,1,about 1\n' >bad.csv
"$cases" there/rules.list there/driver.mpp bad.csv --here; echo "status $?"
printf 'name,A01\nfirst,1\n' >bad.csv
"$cases" there/rules.list there/driver.mpp bad.csv --here; echo "status $?"
