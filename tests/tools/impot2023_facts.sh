# needs the program
# What facts prints of the real year for all households within the ranges of a form: the lines of its pages, each of which is reasoned there from the law;
# nothing is over; and no household refutes a line. The lines of a program that prints false ones are refuted.
[ -n "${M_SURVEY-}" ] || export M_SURVEY="$ROOT/out/m_survey"
cd "$ROOT" || exit 1
year=examples/impot2023
python3 tests/tools/page_lines.py $year/README.md "What holds for all households" $year/LISEZMOI.md "Ce qui vaut pour tous les foyers"
python3 $year/within.py --ranges $year/nine.csv --count 200
printf '#!/bin/sh\n"%s" "$@" | sed "%s; %s; %s"\n' "$M_SURVEY" \
    "s/^NBPT -13.5 to 85$/NBPT -13.5 to 69/" "s/^never stops 102 A102$/never stops 302 I302/" "s/^depends RNI 1AJ/depends RNI/" >"$OLDPWD/false"
chmod +x "$OLDPWD/false"
M_SURVEY=$OLDPWD/false python3 $year/within.py --count 100 | sed -n 's/^\(302 is noted\|[A-Z]* is\) .*/\1/p; s/^\(302 is noted\)$/\1/p' | sort -u
