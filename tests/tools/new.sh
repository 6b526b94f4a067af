# needs the program
# A new rule base in both languages: its own check passes unchanged; an existing folder is left as it is.
mkdir bin && printf '#!/bin/sh\nname=$1\nshift\nexec "%s/tools/$name" "$@"\n' "$ROOT" >bin/vodmejka && chmod +x bin/vodmejka
PATH=$PWD/bin:$PATH
"$ROOT/tools/new" base --lang en; echo "status $?"
"$ROOT/tools/new" base --lang fr; echo "status $?"
"$ROOT/tools/new" --lang en; echo "status $?"
mkdir empty && "$ROOT/tools/new" empty --lang fr; echo "status $?"
ls -A base
LC_ALL=C sh base/check.sh; echo "status $?"
(cd empty && "$M_TAX" run rules.list driver.mpp - household.csv); echo "status $?"
sed -i 's/sinon 0 finsi/sinon 1 finsi/' base/rules.m
LC_ALL=C sh base/check.sh; echo "status $?"
